//! Stores of 1 to 4,096 entries: offers with a plain `BTreeMap` store beside them, and the sheet test against a comparison of as
//! many bytes.

use std::collections::BTreeMap;
use std::hint::black_box;

use wotskrale::{Entry, Limits, Store};

use crate::harness::Bench;
use crate::maps::path;
use crate::repeated;

/// Timestamp, digest, payload length: the greater is newer.
type Age = (u64, [u8; 32], u64);

/// A store as one would write it without a sheet: entries by subspace and components.
#[derive(Default)]
struct Plain {
    entries: BTreeMap<(u64, Vec<Vec<u8>>), Age>,
    held: u64,
    let_go: u64,
}

impl Plain {
    /// Files an entry where none held is newer at a prefix of its path, and drops those that it prunes.
    fn offer(&mut self, subspace: u64, path: &[Vec<u8>], age: Age) -> bool {
        for count in 0..=path.len() {
            let place = (subspace, path[..count].to_vec());
            let held = self.entries.get(&place);
            if held.is_some_and(|held| *held > age || (*held == age && count == path.len())) {
                self.let_go += age.2;
                return false;
            }
        }
        let place = (subspace, path.to_vec());
        let below = self.entries.range(place.clone()..);
        let below = below.take_while(|((s, p), _)| *s == subspace && p.starts_with(path));
        let pruned: Vec<_> = below
            .filter(|(_, held)| **held < age)
            .map(|(place, _)| place.clone())
            .collect();
        for place in pruned {
            let gone = self.entries.remove(&place).map_or(0, |held| held.2);
            self.held -= gone;
            self.let_go += gone;
        }
        self.held += age.2;
        self.entries.insert(place, age);
        true
    }
}

fn entry(path: &wotskrale::Path, timestamp: u64) -> Entry<'_> {
    Entry {
        namespace: 0,
        subspace: 1,
        path: path.lent(),
        timestamp,
        payload_length: 1,
        digest: [0; 32],
    }
}

impl Bench {
    /// Offers to full stores: one that prunes the entry at its path and takes its place, one that is outdated, a repeat.
    pub fn stores(&self) {
        let limits = Limits::new(8, 2, 16);
        for n in [1, 4, 16, 64, 256, 1024, 4096] {
            let mut store = Store::fresh(limits, n, 0).unwrap();
            let mut beside = Plain::default();
            for number in 0..n {
                let path = path(limits, number);
                store.offer(&entry(&path, 5)).unwrap();
                let parts = path.lent().components(limits).unwrap();
                beside.offer(1, &parts, (5, [0; 32], 1));
            }
            let name = format!("8 2 16: {n} entries");
            self.offers(&name, &mut store, &mut beside, &path(limits, n / 2), limits);
            let other = store.bytes().to_vec();
            self.both(
                &name,
                "store: test, and memcmp of as many bytes",
                repeated!(black_box(&store).test()),
                repeated!(black_box(store.bytes()) == black_box(&other[..])),
            );
        }
    }

    fn offers(
        &self,
        name: &str,
        store: &mut Store,
        beside: &mut Plain,
        path: &wotskrale::Path,
        limits: Limits,
    ) {
        let parts = path.lent().components(limits).unwrap();
        let (mut time, mut their_time) = (5, 5);
        self.both(
            name,
            "store: offer that takes another's place",
            repeated!({
                time += 1;
                store.offer(black_box(&entry(path, time)))
            }),
            repeated!({
                their_time += 1;
                beside.offer(1, black_box(&parts), (their_time, [0; 32], 1))
            }),
        );
        let old = entry(path, 1);
        self.both(
            name,
            "store: outdated offer",
            repeated!(store.offer(black_box(&old))),
            repeated!(beside.offer(1, black_box(&parts), (1, [0; 32], 1))),
        );
        let (same, their_same) = (entry(path, time), (their_time, [0; 32], 1));
        self.both(
            name,
            "store: repeat",
            repeated!(store.offer(black_box(&same))),
            repeated!(beside.offer(1, black_box(&parts), their_same)),
        );
    }
}
