//! The groupings and entries that are compared: all of few values at tiny limits, and random ones around the edges.

use wotskrale::{AreaSubspace, Range, RangeEnd};

use crate::grouping;
use crate::groups::{Area, Entry, Interest, Lent, PathRange, Range3d, Triplet};
use crate::inputs::{lists, Random};
use crate::tally::Tally;
use crate::their_groups::Groups;

/// All ranges between a few values.
fn ranges(values: &[u64]) -> Vec<Range<u64>> {
    let ends = values.iter().map(|v| RangeEnd::Closed(*v));
    let ends: Vec<RangeEnd<u64>> = ends.chain([RangeEnd::Open]).collect();
    let from = |start: &u64| {
        ends.iter()
            .map(|e| Range::new(*start, *e))
            .collect::<Vec<_>>()
    };
    values.iter().flat_map(from).collect()
}

/// All ranges of numbers at both ends of a number's range.
pub fn numbers(t: &mut Tally) {
    let values = [0, 1, 2, 3, 1 << 32, u64::MAX - 1, u64::MAX];
    let ranges = ranges(&values);
    for a in &ranges {
        for b in &ranges {
            grouping::number_ranges(*a, *b, t);
        }
        for value in values {
            grouping::number_in(*a, value, t);
        }
    }
}

/// At most so many of a list, drawn where there are more.
fn thin<T: Clone>(all: Vec<T>, most: usize, random: &mut Random) -> Vec<T> {
    match all.len() <= most {
        true => all,
        false => (0..most)
            .map(|_| all[random.below(all.len())].clone())
            .collect(),
    }
}

/// Each of a list with each.
fn pairs<T>(all: &[T], t: &mut Tally, ask: impl Fn(&T, &T, &mut Tally)) {
    for a in all {
        for b in all {
            ask(a, b, t);
        }
    }
}

/// All paths of the alphabet, some of them in a longer path's buffer.
fn all_paths(set: &dyn Groups) -> Vec<Lent> {
    let limits = set.limits();
    let most = (
        limits.mcl as usize,
        limits.mcc as usize,
        limits.mpl as usize,
    );
    let lists = lists(most.0, most.1, most.2);
    let cut = lists.iter().filter(|p| p.len() > 1);
    let cut = cut.map(|p| Lent::cut(p, p.len() - 1)).step_by(7);
    lists
        .iter()
        .map(|p| Lent::new(p.clone()))
        .chain(cut)
        .collect()
}

fn all_path_ranges(paths: &[Lent]) -> Vec<PathRange> {
    let ends = || paths.iter().cloned().map(Some).chain([None]);
    let from = |start: &Lent| {
        let start = start.clone();
        ends().map(move |end| PathRange {
            start: start.clone(),
            end,
        })
    };
    paths.iter().flat_map(from).collect()
}

fn all_areas(paths: &[Lent], times: &[Range<u64>]) -> Vec<Area> {
    let ids = [0, 1, u64::MAX].map(AreaSubspace::Id);
    let mut all = Vec::new();
    for subspace in ids.into_iter().chain([AreaSubspace::Any]) {
        for path in paths {
            all.extend(times.iter().map(|times| Area {
                subspace,
                path: path.clone(),
                times: *times,
            }));
        }
    }
    all
}

fn all_triplets(paths: &[Lent]) -> Vec<Triplet> {
    let mut all = Vec::new();
    for subspace in [0, 1, u64::MAX] {
        for path in paths {
            all.extend([0, 1, 2, u64::MAX].map(|time| Triplet {
                subspace,
                path: path.clone(),
                time,
            }));
        }
    }
    all
}

fn all_entries(paths: &[Lent]) -> Vec<Entry> {
    let mut all = Vec::new();
    for at in 0..48u64 {
        let mut digest = [0; 32];
        digest[if at & 1 == 0 { 0 } else { 31 }] = [0, 1, 0x80][at as usize % 3];
        all.extend(paths.iter().map(|path| Entry {
            namespace: at >> 1 & 1,
            subspace: at >> 2 & 1,
            path: path.clone(),
            timestamp: [0, 1, u64::MAX][at as usize / 8 % 3],
            payload_length: at >> 3 & 1,
            digest,
        }));
    }
    all
}

/// All groupings and entries of few values at tiny limits, or as many of them as `most` lets through, each with each.
pub fn exhaustive(set: &dyn Groups, most: usize, random: &mut Random, t: &mut Tally) {
    let paths = all_paths(set);
    let path_ranges = all_path_ranges(&paths);
    let areas = all_areas(&paths, &ranges(&[0, 1, u64::MAX]));
    let triplets = thin(all_triplets(&paths), most, random);
    for area in thin(areas.clone(), 20 * most, random) {
        grouping::from_area(set, &area, t);
    }
    let areas = thin(areas, most, random);
    let few = ranges(&[0, 1]);
    let mut ranges_3d = Vec::new();
    for paths in thin(path_ranges.clone(), most, random) {
        for at in 0..few.len() {
            ranges_3d.push(Range3d {
                subspaces: few[random.below(few.len())],
                paths: paths.clone(),
                times: few[at],
            });
        }
    }
    let ranges_3d = thin(ranges_3d, most, random);
    let path_ranges = thin(path_ranges, most, random);
    pairs(&path_ranges, t, |a, b, t| {
        grouping::path_ranges(set, a, b, t)
    });
    pairs(&areas, t, |a, b, t| grouping::areas(set, a, b, t));
    pairs(&ranges_3d, t, |a, b, t| grouping::ranges_3d(set, a, b, t));
    let entries = thin(all_entries(&paths), most, random);
    pairs(&entries, t, |a, b, t| grouping::entries(set, a, b, t));
    let interests: Vec<Interest> = thin(areas.clone(), most / 2, random)
        .into_iter()
        .map(|area| random.interest(area))
        .collect();
    pairs(&interests, t, |a, b, t| grouping::interests(set, a, b, t));
    for triplet in &triplets {
        for area in &areas {
            grouping::area_triplet(set, area, triplet, t);
        }
        for range in &ranges_3d {
            grouping::range_3d_triplet(set, range, triplet, t);
        }
    }
    for range in &path_ranges {
        for path in thin(paths.clone(), most, random) {
            grouping::path_in(set, range, &path, t);
        }
    }
}

/// Random groupings and entries near the limits, each with one that is nearly the same.
pub fn random(set: &dyn Groups, turns: usize, random: &mut Random, t: &mut Tally) {
    let limits = set.limits();
    for _ in 0..turns {
        let (a, b) = (random.lent(limits, None), random.number_range());
        let near = random.lent(limits, Some(&a.parts));
        grouping::number_ranges(b, random.number_range(), t);
        grouping::number_in(b, random.number(), t);

        let (p, q) = (
            random.path_range(limits, &a),
            random.path_range(limits, &near),
        );
        grouping::path_ranges(set, &p, &q, t);
        grouping::path_ranges(set, &p, &p, t);
        grouping::path_in(set, &p, &near, t);

        let (x, y) = (random.area(&a), random.area(&near));
        grouping::areas(set, &x, &y, t);
        grouping::areas(set, &y, &x, t);
        grouping::from_area(set, &x, t);
        let triplet = Triplet {
            subspace: random.number(),
            path: random.lent(limits, Some(&a.parts)),
            time: random.number(),
        };
        grouping::area_triplet(set, &x, &triplet, t);
        let (i, j) = (random.interest(x), random.interest(y));
        grouping::interests(set, &i, &j, t);

        let (r, s) = (random.range_3d(p), random.range_3d(q));
        grouping::ranges_3d(set, &r, &s, t);
        grouping::ranges_3d(set, &s, &r, t);
        grouping::range_3d_triplet(set, &r, &triplet, t);

        let (e, f) = (random.entry(a), random.entry(near));
        grouping::entries(set, &e, &f, t);
        grouping::entries(set, &f, &e, t);
    }
}

impl Random {
    /// A number at an edge, or small, or any.
    pub fn number(&mut self) -> u64 {
        match self.below(6) {
            0 => 0,
            1 => u64::MAX,
            2 => u64::MAX - 1,
            3 => self.next(),
            _ => self.below(4) as u64,
        }
    }

    /// A range of numbers.
    pub fn number_range(&mut self) -> Range<u64> {
        let start = self.number();
        let end = match self.below(4) {
            0 => RangeEnd::Open,
            1 => RangeEnd::Closed(start.saturating_add(self.below(3) as u64)),
            _ => RangeEnd::Closed(self.number()),
        };
        Range::new(start, end)
    }

    /// A path, nearly another where there is one, in its own buffer or in a longer one's.
    pub fn lent(&mut self, limits: wotskrale::Limits, near: Option<&crate::model::Parts>) -> Lent {
        let whole = match near {
            Some(near) if self.below(6) > 0 => self.beside(limits, near),
            _ => self.path(limits),
        };
        match self.below(4) {
            0 => Lent::cut(&whole, self.below(whole.len() + 1)),
            _ => Lent::new(whole),
        }
    }

    /// A range of paths from a path.
    pub fn path_range(&mut self, limits: wotskrale::Limits, start: &Lent) -> PathRange {
        let end = match self.below(4) {
            0 => None,
            _ => Some(self.lent(limits, Some(&start.parts))),
        };
        PathRange {
            start: start.clone(),
            end,
        }
    }

    /// An area at a path.
    pub fn area(&mut self, path: &Lent) -> Area {
        let subspace = match self.below(3) {
            0 => AreaSubspace::Any,
            _ => AreaSubspace::Id(self.number()),
        };
        Area {
            subspace,
            path: path.clone(),
            times: self.number_range(),
        }
    }

    /// An area of interest of an area.
    pub fn interest(&mut self, area: Area) -> Interest {
        Interest {
            area,
            max_count: self.number(),
            max_size: self.number(),
        }
    }

    /// A 3d range of these paths.
    pub fn range_3d(&mut self, paths: PathRange) -> Range3d {
        Range3d {
            subspaces: self.number_range(),
            paths,
            times: self.number_range(),
        }
    }

    /// An entry at a path.
    pub fn entry(&mut self, path: Lent) -> Entry {
        let mut digest = [0; 32];
        digest[self.below(32)] = [0, 1, 0x7f, 0x80, 0xff][self.below(5)];
        Entry {
            namespace: self.below(2) as u64,
            subspace: self.below(2) as u64,
            path,
            timestamp: [0, 5, u64::MAX][self.below(3)],
            payload_length: [0, 1, u64::MAX][self.below(3)],
            digest,
        }
    }
}
