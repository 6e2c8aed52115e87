//! The Rust side of groupings and entries, behind one trait as in `theirs`.

use std::cmp::Ordering;

use oracle::{self, Path, RangeEnd as TheirEnd};
use wotskrale::{AreaSubspace, Range, RangeEnd};

use crate::groups::{Area, Entry, Interest, Lent, PathRange, Range3d, Triplet};
use crate::model::Parts;
use crate::theirs::{At, Set, TheirPath};

/// An area by its parts.
pub type AreaParts = (AreaSubspace, Parts, Range<u64>);

/// A range of paths by its parts; the end is none where it is open.
pub type PathRangeParts = (Parts, Option<Parts>);

/// A 3d range by its parts.
pub type Range3dParts = (Range<u64>, PathRangeParts, Range<u64>);

/// What the Rust says of two ranges.
pub struct OfRanges<R> {
    /// `includes_range`.
    pub includes: bool,
    /// `intersection`.
    pub met: Option<R>,
    /// `cmp`.
    pub order: Ordering,
    /// `cmp` of their ends.
    pub ends: Ordering,
}

/// What the Rust says of two areas.
pub struct OfAreas {
    /// `includes_area`.
    pub includes: bool,
    /// `almost_includes_area`.
    pub almost: bool,
    /// `intersection`.
    pub met: Option<AreaParts>,
    /// `cmp`.
    pub order: Ordering,
}

/// What the Rust says of two entries.
pub struct OfEntries {
    /// `is_newer_than`.
    pub newer: bool,
    /// `prunes`.
    pub prunes: bool,
    /// `is_pruned_by`.
    pub pruned: bool,
    /// `==`.
    pub equal: bool,
    /// `cmp`.
    pub order: Ordering,
}

/// The Rust at one limit set, for all but single paths.
pub trait Groups: Set {
    /// Two ranges of paths.
    fn path_ranges(&self, a: &PathRange, b: &PathRange) -> OfRanges<PathRangeParts>;
    /// `includes` of a range, and `gt_val` of its end.
    fn path_in(&self, a: &PathRange, path: &Lent) -> (bool, bool);
    /// `new_closed`: whether there is one.
    fn closed_paths(&self, a: &Lent, b: &Lent) -> bool;
    /// Two areas.
    fn areas(&self, a: &Area, b: &Area) -> OfAreas;
    /// `includes_triplet` and `could_be_pruned_by_triplet` of an area.
    fn area_triplet(&self, a: &Area, t: &Triplet) -> (bool, bool);
    /// Two areas of interest: `intersection` and `cmp`.
    fn interests(&self, a: &Interest, b: &Interest) -> (Option<(AreaParts, u64, u64)>, Ordering);
    /// Two 3d ranges.
    fn ranges_3d(&self, a: &Range3d, b: &Range3d) -> (bool, Option<Range3dParts>, Ordering);
    /// `includes_triplet` and `could_be_pruned_by_triplet` of a 3d range.
    fn range_3d_triplet(&self, a: &Range3d, t: &Triplet) -> (bool, bool);
    /// An area as a 3d range.
    fn area_as_range(&self, a: &Area) -> Range3dParts;
    /// Two entries.
    fn entries(&self, a: &Entry, b: &Entry) -> OfEntries;
    /// The values of an area map that intersect an area, in no fixed order: those of `intersecting_values`, and those of
    /// `intersecting_pairs` with their areas.
    fn map(&self, rules: &[(Area, u64)], asked: &Area) -> (Vec<u64>, Vec<(AreaParts, u64)>);
}

fn path<const MCL: usize, const MCC: usize, const MPL: usize>(lent: &Lent) -> Path<MCL, MCC, MPL> {
    Path::from_slices(&lent.parts).expect("a path within the limits")
}

fn end<T: Copy>(end: RangeEnd<T>) -> TheirEnd<T> {
    match end {
        RangeEnd::Open => TheirEnd::Open,
        RangeEnd::Closed(end) => TheirEnd::Closed(end),
    }
}

fn numbers(range: Range<u64>) -> oracle::Range<u64> {
    oracle::Range::new(range.start, end(range.end))
}

fn back(range: &oracle::Range<u64>) -> Range<u64> {
    let end = match range.end {
        TheirEnd::Open => RangeEnd::Open,
        TheirEnd::Closed(end) => RangeEnd::Closed(end),
    };
    Range::new(range.start, end)
}

fn paths<const MCL: usize, const MCC: usize, const MPL: usize>(
    range: &PathRange,
) -> oracle::Range<Path<MCL, MCC, MPL>> {
    let end = range.end.as_ref();
    let end = end.map_or(TheirEnd::Open, |e| TheirEnd::Closed(path(e)));
    oracle::Range::new(path(&range.start), end)
}

fn paths_back<const MCL: usize, const MCC: usize, const MPL: usize>(
    range: &oracle::Range<Path<MCL, MCC, MPL>>,
) -> PathRangeParts {
    (range.start.parts(), range.get_end().map(TheirPath::parts))
}

fn subspace(subspace: AreaSubspace) -> oracle::AreaSubspace<u64> {
    match subspace {
        AreaSubspace::Any => oracle::AreaSubspace::Any,
        AreaSubspace::Id(id) => oracle::AreaSubspace::Id(id),
    }
}

fn area<const MCL: usize, const MCC: usize, const MPL: usize>(
    area: &Area,
) -> oracle::Area<MCL, MCC, MPL, u64> {
    oracle::Area::new(
        subspace(area.subspace),
        path(&area.path),
        numbers(area.times),
    )
}

fn area_back<const MCL: usize, const MCC: usize, const MPL: usize>(
    area: &oracle::Area<MCL, MCC, MPL, u64>,
) -> AreaParts {
    let subspace = match area.subspace() {
        oracle::AreaSubspace::Any => AreaSubspace::Any,
        oracle::AreaSubspace::Id(id) => AreaSubspace::Id(*id),
    };
    (subspace, area.path().parts(), back(area.times()))
}

fn interest<const MCL: usize, const MCC: usize, const MPL: usize>(
    interest: &Interest,
) -> oracle::AreaOfInterest<MCL, MCC, MPL, u64> {
    oracle::AreaOfInterest::new(area(&interest.area), interest.max_count, interest.max_size)
}

fn range_3d<const MCL: usize, const MCC: usize, const MPL: usize>(
    range: &Range3d,
) -> oracle::Range3d<MCL, MCC, MPL, u64> {
    oracle::Range3d::new(
        numbers(range.subspaces),
        paths(&range.paths),
        numbers(range.times),
    )
}

fn range_3d_back<const MCL: usize, const MCC: usize, const MPL: usize>(
    range: &oracle::Range3d<MCL, MCC, MPL, u64>,
) -> Range3dParts {
    let (subspaces, times) = (back(range.subspaces()), back(range.times()));
    (subspaces, paths_back(range.paths()), times)
}

fn entry<const MCL: usize, const MCC: usize, const MPL: usize>(
    entry: &Entry,
) -> oracle::Entry<MCL, MCC, MPL, u64, u64, [u8; 32]> {
    oracle::Entry::new(
        entry.namespace,
        entry.subspace,
        path(&entry.path),
        entry.timestamp,
        entry.payload_length,
        entry.digest,
    )
}

/// Two ranges of numbers, which have no limits.
pub fn number_ranges(a: Range<u64>, b: Range<u64>) -> OfRanges<Range<u64>> {
    let (a, b) = (numbers(a), numbers(b));
    OfRanges {
        includes: a.includes_range(&b),
        met: a.intersection(&b).as_ref().map(back),
        order: a.cmp(&b),
        ends: a.end.cmp(&b.end),
    }
}

/// `includes` of a range of numbers, `gt_val` of its end, and `is_open`.
pub fn number_in(a: Range<u64>, value: u64) -> (bool, bool, bool) {
    let a = numbers(a);
    (a.includes(&value), a.end.gt_val(&value), a.is_open())
}

/// `new_closed` of numbers.
pub fn closed_numbers(start: u64, end: u64) -> Option<Range<u64>> {
    oracle::Range::new_closed(start, end).as_ref().map(back)
}

impl<const MCL: usize, const MCC: usize, const MPL: usize> Groups for At<MCL, MCC, MPL> {
    fn path_ranges(&self, a: &PathRange, b: &PathRange) -> OfRanges<PathRangeParts> {
        let (a, b) = (paths::<MCL, MCC, MPL>(a), paths(b));
        OfRanges {
            includes: a.includes_range(&b),
            met: a.intersection(&b).as_ref().map(paths_back),
            order: a.cmp(&b),
            ends: a.end.cmp(&b.end),
        }
    }

    fn path_in(&self, a: &PathRange, lent: &Lent) -> (bool, bool) {
        let (a, path) = (paths::<MCL, MCC, MPL>(a), path(lent));
        (a.includes(&path), a.end.gt_val(&path))
    }

    fn closed_paths(&self, a: &Lent, b: &Lent) -> bool {
        oracle::Range::new_closed(path::<MCL, MCC, MPL>(a), path(b)).is_some()
    }

    fn areas(&self, a: &Area, b: &Area) -> OfAreas {
        let (a, b) = (area::<MCL, MCC, MPL>(a), area(b));
        OfAreas {
            includes: a.includes_area(&b),
            almost: a.almost_includes_area(&b),
            met: a.intersection(&b).as_ref().map(area_back),
            order: a.cmp(&b),
        }
    }

    fn area_triplet(&self, a: &Area, t: &Triplet) -> (bool, bool) {
        let (a, path) = (area::<MCL, MCC, MPL>(a), path(&t.path));
        (
            a.includes_triplet(&t.subspace, &path, t.time),
            a.could_be_pruned_by_triplet(&t.subspace, &path, t.time),
        )
    }

    fn interests(&self, a: &Interest, b: &Interest) -> (Option<(AreaParts, u64, u64)>, Ordering) {
        let (a, b) = (interest::<MCL, MCC, MPL>(a), interest(b));
        let met = a.intersection(&b);
        let met = met.map(|m| (area_back(&m.area), m.max_count, m.max_size));
        (met, a.cmp(&b))
    }

    fn ranges_3d(&self, a: &Range3d, b: &Range3d) -> (bool, Option<Range3dParts>, Ordering) {
        let (a, b) = (range_3d::<MCL, MCC, MPL>(a), range_3d(b));
        let met = a.intersection(&b).as_ref().map(range_3d_back);
        (a.includes_range(&b), met, a.cmp(&b))
    }

    fn range_3d_triplet(&self, a: &Range3d, t: &Triplet) -> (bool, bool) {
        let (a, path) = (range_3d::<MCL, MCC, MPL>(a), path(&t.path));
        (
            a.includes_triplet(&t.subspace, &path, t.time),
            a.could_be_pruned_by_triplet(&t.subspace, &path, t.time),
        )
    }

    fn area_as_range(&self, a: &Area) -> Range3dParts {
        range_3d_back(&oracle::Range3d::from(area::<MCL, MCC, MPL>(a)))
    }

    fn entries(&self, a: &Entry, b: &Entry) -> OfEntries {
        let (a, b) = (entry::<MCL, MCC, MPL>(a), entry(b));
        OfEntries {
            newer: a.is_newer_than(&b),
            prunes: a.prunes(&b),
            pruned: a.is_pruned_by(&b),
            equal: a == b,
            order: a.cmp(&b),
        }
    }

    fn map(&self, rules: &[(Area, u64)], asked: &Area) -> (Vec<u64>, Vec<(AreaParts, u64)>) {
        let mut map = oracle::AreaMap::default();
        for (rule, value) in rules {
            map.insert(&area::<MCL, MCC, MPL>(rule), *value);
        }
        let asked = area(asked);
        let values = map.intersecting_values(&asked).into_iter().copied();
        let pairs = map.intersecting_pairs(&asked).into_iter();
        let pairs = pairs.map(|(area, value)| (area_back(&area), *value));
        (values.collect(), pairs.collect())
    }
}
