//! Kinds as plain numbers: which refusal comes first (limits 1, kinds 3, paths 5), and that what stands beside kind 0 is not
//! read.

use wotskrale::plain::{
    self, Answer, Area, AreaOfInterest, End, PathEnd, PathRange, Range, Range3d,
};
use wotskrale::{Limits, PathRef};

use crate::inputs::Random;
use crate::model::pack;
use crate::tally::{Input, Tally};

/// What a call is given: as many of these as it takes.
#[derive(Clone)]
struct Asked<'a> {
    limits: Limits,
    kinds: [u64; 6],
    beside: [u64; 6],
    paths: [PathRef<'a>; 5],
}

/// A call: how many kinds and paths it takes, and for each path the kind that it stands beside.
struct Call {
    name: &'static str,
    kinds: usize,
    paths: &'static [Option<usize>],
    limits: bool,
    ask: fn(&Asked) -> Vec<u64>,
}

fn numbers(a: Answer) -> Vec<u64> {
    vec![a.status, a.value]
}

impl<'a> Asked<'a> {
    fn end(&self, i: usize) -> End {
        End {
            kind: self.kinds[i],
            end: self.beside[i],
        }
    }

    fn range(&self, i: usize) -> Range {
        Range {
            start: 5,
            end: self.end(i),
        }
    }

    fn path_end(&self, kind: usize, path: usize) -> PathEnd<'a> {
        PathEnd {
            kind: self.kinds[kind],
            end: self.paths[path],
        }
    }

    fn path_range(&self, kind: usize, path: usize) -> PathRange<'a> {
        PathRange {
            start: self.paths[path],
            end: self.path_end(kind, path + 1),
        }
    }

    fn area(&self, i: usize) -> Area<'a> {
        Area {
            kind: self.kinds[2 * i],
            id: self.beside[2 * i],
            path: self.paths[i],
            times: self.range(2 * i + 1),
        }
    }

    fn interest(&self, i: usize) -> AreaOfInterest<'a> {
        AreaOfInterest {
            area: self.area(i),
            max_count: 1,
            max_size: 2,
        }
    }

    fn range_3d(&self, i: usize) -> Range3d<'a> {
        Range3d {
            subspaces: self.range(3 * i),
            paths: self.path_range(3 * i + 1, 2 * i),
            times: self.range(3 * i + 2),
        }
    }
}

/// One path, two, the start and the end of a range, a range and a path, two ranges.
const ONE: &[Option<usize>] = &[None];
const TWO: &[Option<usize>] = &[None, None];
const RANGE_AND_PATH: &[Option<usize>] = &[None, Some(0), None];
const RANGES: &[Option<usize>] = &[None, Some(0), None, Some(1)];
const RANGE_3D_AND_PATH: &[Option<usize>] = &[None, Some(1), None];
const RANGES_3D: &[Option<usize>] = &[None, Some(1), None, Some(4)];

/// All calls that take kinds, but for those on maps.
#[rustfmt::skip]
const CALLS: &[Call] = &[
    Call { name: "range_end_above", kinds: 1, paths: &[], limits: false, ask: |a| numbers(plain::range_end_above(a.end(0), 7)) },
    Call { name: "range_compare_ends", kinds: 2, paths: &[], limits: false, ask: |a| numbers(plain::range_compare_ends(a.end(0), a.end(1))) },
    Call { name: "range_is_open", kinds: 1, paths: &[], limits: false, ask: |a| numbers(plain::range_is_open(a.range(0))) },
    Call { name: "range_includes", kinds: 1, paths: &[], limits: false, ask: |a| numbers(plain::range_includes(a.range(0), 7)) },
    Call { name: "range_includes_range", kinds: 2, paths: &[], limits: false, ask: |a| numbers(plain::range_includes_range(a.range(0), a.range(1))) },
    Call { name: "range_compare", kinds: 2, paths: &[], limits: false, ask: |a| numbers(plain::range_compare(a.range(0), a.range(1))) },
    Call { name: "range_intersection", kinds: 2, paths: &[], limits: false, ask: |a| {
        let r = plain::range_intersection(a.range(0), a.range(1));
        vec![r.status, r.start, r.end_kind, r.end]
    } },
    Call { name: "path_range_end_above", kinds: 1, paths: &[Some(0), None], limits: true, ask: |a| numbers(plain::path_range_end_above(a.limits, a.path_end(0, 0), a.paths[1])) },
    Call { name: "path_range_compare_ends", kinds: 2, paths: &[Some(0), Some(1)], limits: true, ask: |a| numbers(plain::path_range_compare_ends(a.limits, a.path_end(0, 0), a.path_end(1, 1))) },
    Call { name: "path_range_new_closed", kinds: 0, paths: TWO, limits: true, ask: |a| numbers(plain::path_range_new_closed(a.limits, a.paths[0], a.paths[1])) },
    Call { name: "path_range_includes", kinds: 1, paths: RANGE_AND_PATH, limits: true, ask: |a| numbers(plain::path_range_includes(a.limits, a.path_range(0, 0), a.paths[2])) },
    Call { name: "path_range_includes_range", kinds: 2, paths: RANGES, limits: true, ask: |a| numbers(plain::path_range_includes_range(a.limits, a.path_range(0, 0), a.path_range(1, 2))) },
    Call { name: "path_range_compare", kinds: 2, paths: RANGES, limits: true, ask: |a| numbers(plain::path_range_compare(a.limits, a.path_range(0, 0), a.path_range(1, 2))) },
    Call { name: "path_range_intersection", kinds: 2, paths: RANGES, limits: true, ask: |a| {
        let r = plain::path_range_intersection(a.limits, a.path_range(0, 0), a.path_range(1, 2));
        vec![r.status, r.start, r.end_kind, r.end]
    } },
    Call { name: "area_includes_triplet", kinds: 2, paths: TWO, limits: true, ask: |a| numbers(plain::area_includes_triplet(a.limits, a.area(0), 7, a.paths[1], 7)) },
    Call { name: "area_could_be_pruned_by_triplet", kinds: 2, paths: TWO, limits: true, ask: |a| numbers(plain::area_could_be_pruned_by_triplet(a.limits, a.area(0), 7, a.paths[1], 7)) },
    Call { name: "area_includes_area", kinds: 4, paths: TWO, limits: true, ask: |a| numbers(plain::area_includes_area(a.limits, a.area(0), a.area(1))) },
    Call { name: "area_almost_includes_area", kinds: 4, paths: TWO, limits: true, ask: |a| numbers(plain::area_almost_includes_area(a.limits, a.area(0), a.area(1))) },
    Call { name: "area_compare", kinds: 4, paths: TWO, limits: true, ask: |a| numbers(plain::area_compare(a.limits, a.area(0), a.area(1))) },
    Call { name: "area_intersection", kinds: 4, paths: TWO, limits: true, ask: |a| {
        let r = plain::area_intersection(a.limits, a.area(0), a.area(1));
        vec![r.status, r.whose, r.count, r.subspace_kind, r.subspace, r.start, r.end_kind, r.end]
    } },
    Call { name: "area_of_interest_compare", kinds: 4, paths: TWO, limits: true, ask: |a| numbers(plain::area_of_interest_compare(a.limits, a.interest(0), a.interest(1))) },
    Call { name: "area_of_interest_intersection", kinds: 4, paths: TWO, limits: true, ask: |a| {
        let r = plain::area_of_interest_intersection(a.limits, a.interest(0), a.interest(1));
        vec![r.status, r.whose, r.count, r.subspace_kind, r.subspace, r.start, r.end_kind, r.end, r.max_count, r.max_size]
    } },
    Call { name: "range_3d_includes_triplet", kinds: 3, paths: RANGE_3D_AND_PATH, limits: true, ask: |a| numbers(plain::range_3d_includes_triplet(a.limits, a.range_3d(0), 7, a.paths[2], 7)) },
    Call { name: "range_3d_could_be_pruned_by_triplet", kinds: 3, paths: RANGE_3D_AND_PATH, limits: true, ask: |a| numbers(plain::range_3d_could_be_pruned_by_triplet(a.limits, a.range_3d(0), 7, a.paths[2], 7)) },
    Call { name: "range_3d_includes_range", kinds: 6, paths: RANGES_3D, limits: true, ask: |a| numbers(plain::range_3d_includes_range(a.limits, a.range_3d(0), a.range_3d(1))) },
    Call { name: "range_3d_compare", kinds: 6, paths: RANGES_3D, limits: true, ask: |a| numbers(plain::range_3d_compare(a.limits, a.range_3d(0), a.range_3d(1))) },
    Call { name: "range_3d_intersection", kinds: 6, paths: RANGES_3D, limits: true, ask: |a| {
        let r = plain::range_3d_intersection(a.limits, a.range_3d(0), a.range_3d(1));
        vec![r.status, r.subspace_start, r.subspace_end_kind, r.subspace_end, r.path_start, r.path_end_kind, r.path_end,
             r.time_start, r.time_end_kind, r.time_end]
    } },
    Call { name: "range_3d_from_area", kinds: 2, paths: ONE, limits: true, ask: |a| {
        let mut out = [0; 64];
        let r = plain::range_3d_from_area(a.limits, a.area(0), &mut out);
        let mut all = vec![r.status, r.subspace_start, r.subspace_end_kind, r.subspace_end, r.start_count, r.path_end_kind,
             r.end_count, r.written, r.time_start, r.time_end_kind, r.time_end];
        all.extend(out.iter().map(|b| u64::from(*b)));
        all
    } },
    Call { name: "entry_prunes", kinds: 0, paths: TWO, limits: true, ask: |a| numbers(plain::entry_prunes(a.limits, entry(a, 0), entry(a, 1))) },
    Call { name: "entry_is_pruned_by", kinds: 0, paths: TWO, limits: true, ask: |a| numbers(plain::entry_is_pruned_by(a.limits, entry(a, 0), entry(a, 1))) },
    Call { name: "entry_equal", kinds: 0, paths: TWO, limits: true, ask: |a| numbers(plain::entry_equal(a.limits, entry(a, 0), entry(a, 1))) },
    Call { name: "entry_compare", kinds: 0, paths: TWO, limits: true, ask: |a| numbers(plain::entry_compare(a.limits, entry(a, 0), entry(a, 1))) },
    Call { name: "entry_compare_places", kinds: 0, paths: TWO, limits: true, ask: |a| numbers(plain::entry_compare_places(a.limits, entry(a, 0).place, entry(a, 1).place)) },
];

fn entry<'a>(asked: &Asked<'a>, i: usize) -> plain::Entry<'a> {
    plain::Entry {
        namespace: 1,
        place: plain::Place {
            subspace: 2,
            path: asked.paths[i],
        },
        age: plain::Age {
            timestamp: 3,
            payload_length: 4,
            digest: &[5; 32],
        },
    }
}

/// What a call has to refuse with: the first of 1, 3, 5, or 0.
fn refusal(call: &Call, asked: &Asked, bad: &[bool; 5]) -> u64 {
    let read = |guard: &Option<usize>| guard.is_none_or(|kind| asked.kinds[kind] == 1);
    let paths = call.paths.iter().zip(bad);
    if call.limits && !asked.limits.within_bounds() {
        1
    } else if asked.kinds[..call.kinds].iter().any(|kind| *kind > 1) {
        3
    } else if paths.into_iter().any(|(guard, bad)| read(guard) && *bad) {
        5
    } else {
        0
    }
}

/// One question to every call.
fn one(asked: &Asked, bad: &[bool; 5], other: &Asked, t: &mut Tally) {
    for call in CALLS {
        let now = (call.ask)(asked);
        let expected = refusal(call, asked, bad);
        let zeros = now[1..].iter().all(|n| *n == 0);
        let same = match now[0] {
            0 => expected == 0,
            255 => expected == 0 && zeros,
            number => number == expected && zeros,
        };
        let input = |said: String| {
            let text = format!(
                "{} of kinds {:?}, bad paths {bad:?}: {said}",
                call.name, asked.kinds
            );
            Input::new(asked.limits, call.kinds, text)
        };
        t.same("kinds: refusals", same, || {
            input(format!("{now:?}, expected {expected}"))
        });
        // The same with other numbers and paths beside kind 0.
        let mut moved = asked.clone();
        for kind in 0..call.kinds {
            if asked.kinds[kind] == 0 {
                moved.beside[kind] = other.beside[kind];
            }
        }
        for (path, guard) in call.paths.iter().enumerate() {
            if guard.is_some_and(|kind| asked.kinds[kind] == 0) {
                moved.paths[path] = other.paths[path];
            }
        }
        let again = (call.ask)(&moved);
        t.same("kinds: beside kind 0", again == now, || {
            input(format!(
                "{now:?}, with other things beside kind 0 {again:?}"
            ))
        });
    }
}

/// Random kinds, good and bad paths, limits within and over the bounds.
pub fn random(turns: usize, random: &mut Random, t: &mut Tally) {
    let limits = Limits::new(2, 2, 3);
    for _ in 0..turns {
        let mut packed: Vec<Vec<u8>> = (0..5).map(|_| pack(&random.path(limits))).collect();
        let mut bad = [false; 5];
        for (path, bad) in packed.iter_mut().zip(&mut bad) {
            *bad = random.below(4) == 0;
            if *bad {
                path.push(9);
            }
        }
        let paths = [0, 1, 2, 3, 4].map(|i| PathRef::whole(&packed[i]));
        let kind = |random: &mut Random| [0, 0, 0, 1, 1, 1, 1, 2, u64::MAX][random.below(9)];
        let kinds = [(); 6].map(|()| kind(random));
        let over = random.below(8) == 0;
        let asked = Asked {
            limits: if over {
                Limits::new(2, 1025, 3)
            } else {
                limits
            },
            kinds,
            beside: [(); 6].map(|()| random.number()),
            paths,
        };
        let noise = [1, 2, 3];
        let other = Asked {
            beside: [(); 6].map(|()| random.number()),
            paths: [PathRef::new(&noise, 7); 5],
            ..asked.clone()
        };
        one(&asked, &bad, &other, t);
    }
}
