//! The calls on ranges, areas, 3d ranges, areas of interest and entries.

use std::hint::black_box;

use wotskrale::{Area, AreaOfInterest, AreaSubspace, Entry, Limits, Range, Range3d, RangeEnd};

use crate::harness::Bench;
use crate::repeated;

type TheirArea<const MCL: usize, const MCC: usize, const MPL: usize> =
    oracle::Area<MCL, MCC, MPL, u64>;

impl Bench {
    /// Ranges of numbers, which have no limits.
    pub fn numbers(&self) {
        let (a, b) = (Range::new(3, RangeEnd::Closed(10)), Range::new_open(9));
        let x = oracle::Range::new(3u64, oracle::RangeEnd::Closed(10));
        let y = oracle::Range::new_open(9u64);
        self.both(
            "numbers",
            "range: includes_range",
            repeated!(black_box(a).includes_range(black_box(b))),
            repeated!(black_box(x).includes_range(black_box(&y))),
        );
        self.both(
            "numbers",
            "range: intersection",
            repeated!(black_box(a).intersection(black_box(b))),
            repeated!(black_box(x).intersection(black_box(&y))),
        );
    }

    /// All calls on groupings at one path and at it with one component less.
    pub fn groupings<const MCL: usize, const MCC: usize, const MPL: usize>(
        &self,
        name: &str,
        parts: &[Vec<u8>],
    ) {
        let limits = Limits::new(MCL as u64, MCC as u64, MPL as u64);
        let slices: Vec<&[u8]> = parts.iter().map(Vec::as_slice).collect();
        let above = &slices[..slices.len() - 1];
        let (p, q) = (
            wotskrale::Path::from_slices(limits, &slices).unwrap(),
            wotskrale::Path::from_slices(limits, above).unwrap(),
        );
        let x = oracle::Path::<MCL, MCC, MPL>::from_slices(&slices).unwrap();
        let y = oracle::Path::<MCL, MCC, MPL>::from_slices(above).unwrap();
        let (low, high) = (Range::new(3, RangeEnd::Closed(10)), Range::new_open(9));
        let their_low = oracle::Range::new(3u64, oracle::RangeEnd::Closed(10));
        let their_high = oracle::Range::new_open(9u64);
        let a = Area::new(AreaSubspace::Any, q.lent(), high);
        let b = Area::new(AreaSubspace::Id(7), p.lent(), low);
        let their_a = oracle::Area::new(oracle::AreaSubspace::Any, y.clone(), their_high);
        let their_b = oracle::Area::new(oracle::AreaSubspace::Id(7u64), x.clone(), their_low);
        self.areas(name, limits, (a, b), (&their_a, &their_b));
        let (i, j) = (AreaOfInterest::new(a, 1, 2), AreaOfInterest::new(b, 2, 1));
        let their_i = oracle::AreaOfInterest::new(their_a, 1, 2);
        let their_j = oracle::AreaOfInterest::new(their_b.clone(), 2, 1);
        self.both(
            name,
            "area of interest: intersection",
            repeated!(black_box(i).intersection(*black_box(&limits), black_box(j))),
            repeated!(black_box(&their_i).intersection(black_box(&their_j))),
        );
        let paths = Range::new(q.lent(), RangeEnd::Closed(p.lent()));
        let (m, n) = (
            Range3d::new(low, paths, high),
            Range3d::new(Range::FULL, Range::new_open(q.lent()), Range::FULL),
        );
        let their_paths = oracle::Range::new(y.clone(), oracle::RangeEnd::Closed(x.clone()));
        let their_m = oracle::Range3d::new(their_low, their_paths, their_high);
        let open = oracle::Range::new_open(y.clone());
        let their_n = oracle::Range3d::new(oracle::Range::full(), open, oracle::Range::full());
        self.ranges_3d(name, limits, (m, n), (&their_m, &their_n));
        let mut out = vec![0; limits.longest_packed()];
        self.both(
            name,
            "3d range: from area",
            repeated!(Range3d::from_area(*black_box(&limits), black_box(b), &mut out).is_ok()),
            repeated!(oracle::Range3d::from(black_box(&their_b).clone())),
        );
        let old = Entry {
            namespace: 1,
            subspace: 7,
            path: p.lent(),
            timestamp: 5,
            payload_length: 10,
            digest: [3; 32],
        };
        let new = Entry {
            path: q.lent(),
            timestamp: 6,
            ..old
        };
        let their_old = oracle::Entry::new(1u64, 7u64, x, 5, 10, [3u8; 32]);
        let their_new = oracle::Entry::new(1u64, 7u64, y, 6, 10, [3u8; 32]);
        self.both(
            name,
            "entry: prunes",
            repeated!(black_box(&new).prunes(*black_box(&limits), black_box(&old))),
            repeated!(black_box(&their_new).prunes(black_box(&their_old))),
        );
        self.both(
            name,
            "entry: is_newer_than",
            repeated!(black_box(&new).is_newer_than(black_box(&old))),
            repeated!(black_box(&their_new).is_newer_than(black_box(&their_old))),
        );
    }

    fn areas<const MCL: usize, const MCC: usize, const MPL: usize>(
        &self,
        name: &str,
        limits: Limits,
        (a, b): (Area<'_>, Area<'_>),
        (x, y): (&TheirArea<MCL, MCC, MPL>, &TheirArea<MCL, MCC, MPL>),
    ) {
        self.both(
            name,
            "area: includes_area",
            repeated!(black_box(a).includes_area(*black_box(&limits), black_box(b))),
            repeated!(black_box(x).includes_area(black_box(y))),
        );
        self.both(
            name,
            "area: intersection",
            repeated!(black_box(a).intersection(*black_box(&limits), black_box(b))),
            repeated!(black_box(x).intersection(black_box(y))),
        );
        let path = b.path;
        self.both(
            name,
            "area: includes_triplet",
            repeated!(black_box(a).includes_triplet(*black_box(&limits), 7, black_box(path), 9)),
            repeated!(black_box(x).includes_triplet(&7, black_box(y.path()), 9)),
        );
        self.both(
            name,
            "area: could_be_pruned_by_triplet",
            repeated!(black_box(a).could_be_pruned_by_triplet(
                *black_box(&limits),
                7,
                black_box(path),
                9
            )),
            repeated!(black_box(x).could_be_pruned_by_triplet(&7, black_box(y.path()), 9)),
        );
    }

    fn ranges_3d<const MCL: usize, const MCC: usize, const MPL: usize>(
        &self,
        name: &str,
        limits: Limits,
        (a, b): (Range3d<'_>, Range3d<'_>),
        (x, y): (
            &oracle::Range3d<MCL, MCC, MPL, u64>,
            &oracle::Range3d<MCL, MCC, MPL, u64>,
        ),
    ) {
        self.both(
            name,
            "3d range: includes_range",
            repeated!(black_box(b).includes_range(*black_box(&limits), black_box(a))),
            repeated!(black_box(y).includes_range(black_box(x))),
        );
        self.both(
            name,
            "3d range: intersection",
            repeated!(black_box(a).intersection(*black_box(&limits), black_box(b))),
            repeated!(black_box(x).intersection(black_box(y))),
        );
        let path = a.paths.start;
        self.both(
            name,
            "3d range: includes_triplet",
            repeated!(black_box(a).includes_triplet(*black_box(&limits), 7, black_box(path), 9)),
            repeated!(black_box(x).includes_triplet(&7, black_box(&x.paths().start), 9)),
        );
    }
}
