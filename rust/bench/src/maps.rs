//! Area maps: a listing against the Rust's, and the sheet test against a comparison of as many bytes.

use std::hint::black_box;

use wotskrale::{Area, AreaMap, AreaSubspace, Limits, Path, Range};

use crate::harness::Bench;
use crate::repeated;

/// A path for each number, so that no two rules have the same.
pub fn path(limits: Limits, number: u64) -> Path {
    let bytes = number.to_be_bytes();
    Path::from_slices(limits, &[&bytes[4..6], &bytes[6..]]).unwrap()
}

impl Bench {
    /// Maps of 1 to 4,096 rules, all of them asked for and one of them.
    pub fn maps(&self) {
        let limits = Limits::new(8, 2, 16);
        for rules in [1, 16, 256, 4096] {
            let mut map = AreaMap::fresh(limits, rules).unwrap();
            let mut theirs = oracle::AreaMap::<8, 2, 16, u64, u64>::default();
            for rule in 0..rules {
                let path = path(limits, rule);
                let area = Area::new(AreaSubspace::Id(1), path.lent(), Range::FULL);
                map.insert(area, rule).unwrap();
                let parts = path.lent().components(limits).unwrap();
                let path = oracle::Path::from_slices(&parts).unwrap();
                let subspace = oracle::AreaSubspace::Id(1);
                theirs.insert(
                    &oracle::Area::new(subspace, path, oracle::Range::full()),
                    rule,
                );
            }
            let name = format!("8 2 16: {rules} rules");
            self.listings(&name, limits, &map, &theirs, rules);
            let other = map.bytes().to_vec();
            self.both(
                &name,
                "map: test, and memcmp of as many bytes",
                repeated!(black_box(&map).test()),
                repeated!(black_box(map.bytes()) == black_box(&other[..])),
            );
        }
    }

    fn listings(
        &self,
        name: &str,
        limits: Limits,
        map: &AreaMap,
        theirs: &oracle::AreaMap<8, 2, 16, u64, u64>,
        rules: u64,
    ) {
        let mut out = vec![0; 8 * rules as usize];
        self.both(
            name,
            "map: listing of all",
            repeated!(map.write_intersecting(black_box(Area::new_full()), &mut out)),
            repeated!(theirs.intersecting_values(black_box(&oracle::Area::new_full()))),
        );
        let one = path(limits, rules / 2);
        let asked = Area::new(AreaSubspace::Id(1), one.lent(), Range::FULL);
        let parts = one.lent().components(limits).unwrap();
        let path = oracle::Path::from_slices(&parts).unwrap();
        let subspace = oracle::AreaSubspace::Id(1);
        let their_asked = oracle::Area::new(subspace, path, oracle::Range::full());
        self.both(
            name,
            "map: listing of one",
            repeated!(map.write_intersecting(black_box(asked), &mut out)),
            repeated!(theirs.intersecting_values(black_box(&their_asked))),
        );
    }
}
