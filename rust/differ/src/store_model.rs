//! A plain model of the store, written from document 01 and demand 3: its sheet, and what becomes of an offer. The history is
//! a list, and everything is worked out of the whole of it.

use wotskrale::Limits;

use crate::model::{self, Parts};
use crate::sheets::{cell_size, in_cell, lay_out, number, sizes};

/// An entry of a store's namespace.
#[derive(Clone, Debug, PartialEq, Eq)]
pub struct Filed {
    /// The subspace.
    pub subspace: u64,
    /// The path.
    pub path: Parts,
    /// The timestamp.
    pub timestamp: u64,
    /// The payload's digest.
    pub digest: [u8; 32],
    /// The payload's length.
    pub payload_length: u64,
}

impl Filed {
    fn head(&self) -> Vec<u8> {
        let numbers = [self.subspace, self.timestamp, self.payload_length];
        let numbers = numbers.iter().flat_map(|n| n.to_le_bytes());
        numbers.chain(self.digest).collect()
    }

    fn newer_than(&self, other: &Filed) -> bool {
        let age = |e: &Filed| (e.timestamp, e.digest, e.payload_length);
        age(self) > age(other)
    }

    fn prunes(&self, other: &Filed) -> bool {
        self.subspace == other.subspace
            && other.path.starts_with(&self.path)
            && self.newer_than(other)
    }
}

/// The entries of a history that no other prunes, each once, by subspace and then path.
fn kept(history: &[Filed]) -> Vec<Filed> {
    let mut kept: Vec<Filed> = Vec::new();
    for entry in history {
        if !history.iter().any(|other| other.prunes(entry)) && !kept.contains(entry) {
            kept.push(entry.clone());
        }
    }
    kept.sort_by(|a, b| (a.subspace, &a.path).cmp(&(b.subspace, &b.path)));
    kept
}

fn payload(entries: &[Filed]) -> u128 {
    entries.iter().map(|e| u128::from(e.payload_length)).sum()
}

/// A store.
#[derive(Clone, Debug)]
pub struct Store {
    /// The limits.
    pub limits: Limits,
    /// For how many entries there is room.
    pub capacity: u64,
    /// The namespace.
    pub namespace: u64,
    /// The entries held.
    pub entries: Vec<Filed>,
    /// The payload bytes let go.
    pub let_go: u128,
}

/// An offer as it is passed.
#[derive(Clone, Debug)]
pub struct Offer {
    /// The namespace.
    pub namespace: u64,
    /// The subspace.
    pub subspace: u64,
    /// The buffer of the path, and the count beside it.
    pub path: (Vec<u8>, u64),
    /// The timestamp.
    pub timestamp: u64,
    /// The payload's length.
    pub payload_length: u64,
    /// The payload's digest.
    pub digest: [u8; 32],
}

/// What becomes of an offer.
#[derive(Clone, Copy, Debug, PartialEq, Eq)]
pub enum Fate {
    /// Refused with this number.
    Refused(u64),
    /// Held from now on; so many entries are not any more.
    Taken(u64),
    /// A held entry prunes it.
    Outdated,
    /// A held entry equals it.
    Repeat,
}

impl Store {
    /// A store with these sizes and the entries and totals that demand 3 gives for a history, worked out of the whole list.
    pub fn of_history(limits: Limits, capacity: u64, namespace: u64, history: &[Filed]) -> Store {
        let gone = (0..history.len()).filter(|i| {
            let entry = &history[*i];
            history[..*i].contains(entry) || history.iter().any(|other| other.prunes(entry))
        });
        let let_go = gone.map(|i| u128::from(history[i].payload_length)).sum();
        let entries = kept(history);
        Store {
            limits,
            capacity,
            namespace,
            entries,
            let_go,
        }
    }

    /// This store after one more unrefused offer, for a history that starts in the middle.
    pub fn after(&self, entry: &Filed) -> Store {
        let all = [&self.entries[..], std::slice::from_ref(entry)].concat();
        let entries = kept(&all);
        let let_go = self.let_go + payload(&all) - payload(&entries);
        Store {
            entries,
            let_go,
            ..self.clone()
        }
    }

    /// The payload bytes held.
    pub fn held(&self) -> u128 {
        payload(&self.entries)
    }

    /// The entry that is offered, where its path can be read.
    pub fn offered(&self, offer: &Offer) -> Option<Filed> {
        Some(Filed {
            subspace: offer.subspace,
            path: model::read(self.limits, &offer.path.0, offer.path.1)?,
            timestamp: offer.timestamp,
            digest: offer.digest,
            payload_length: offer.payload_length,
        })
    }

    /// What document 01's table says of an offer to this store.
    pub fn fate(&self, offer: &Offer) -> Fate {
        if offer.namespace != self.namespace {
            return Fate::Refused(4);
        }
        let Some(entry) = self.offered(offer) else {
            return Fate::Refused(5);
        };
        let sum = self.held() + self.let_go + u128::from(entry.payload_length);
        if sum > u128::from(u64::MAX) {
            return Fate::Refused(13);
        }
        if self.entries.iter().any(|held| held.prunes(&entry)) {
            return Fate::Outdated;
        }
        if self.entries.contains(&entry) {
            return Fate::Repeat;
        }
        let pruned = self
            .entries
            .iter()
            .filter(|held| entry.prunes(held))
            .count();
        match (self.entries.len() - pruned) as u64 == self.capacity {
            true => Fate::Refused(14),
            false => Fate::Taken(pruned as u64),
        }
    }

    /// The sheet, where the totals fit their numbers.
    pub fn layout(&self) -> Option<Vec<u8>> {
        let l = self.limits;
        let (held, let_go) = (
            u64::try_from(self.held()).ok()?,
            u64::try_from(self.let_go).ok()?,
        );
        held.checked_add(let_go)?;
        let n = self.entries.len() as u64;
        let numbers = [
            l.mcl,
            l.mcc,
            l.mpl,
            self.capacity,
            n,
            self.namespace,
            held,
            let_go,
        ];
        let rows: Vec<(Vec<u8>, &Parts)> =
            self.entries.iter().map(|e| (e.head(), &e.path)).collect();
        Some(lay_out(&numbers, self.capacity, 56, l, &rows))
    }

    /// The store that a buffer begins with, if there is one: read leniently, tested, and laid out again.
    pub fn read(buffer: &[u8]) -> Option<Store> {
        let (limits, capacity, count, length) = sizes(buffer, 8, 56)?;
        let cells = 64 + capacity as usize * 56;
        let entry = |i: usize| {
            let head = &buffer[64 + 56 * i..];
            let at = cells + i * cell_size(limits);
            Some(Filed {
                subspace: number(head, 0)?,
                path: in_cell(limits, &buffer[at..at + cell_size(limits)])?,
                timestamp: number(head, 1)?,
                digest: head.get(24..56)?.try_into().ok()?,
                payload_length: number(head, 2)?,
            })
        };
        let entries = (0..count as usize)
            .map(entry)
            .collect::<Option<Vec<Filed>>>()?;
        let ascending = entries
            .windows(2)
            .all(|w| (w[0].subspace, &w[0].path) < (w[1].subspace, &w[1].path));
        let apart = !entries.iter().any(|a| entries.iter().any(|b| a.prunes(b)));
        let (namespace, let_go) = (number(buffer, 5)?, u128::from(number(buffer, 7)?));
        let store = Store {
            limits,
            capacity,
            namespace,
            entries,
            let_go,
        };
        let same = store
            .layout()
            .is_some_and(|sheet| sheet == buffer[..length]);
        (ascending && apart && same).then_some(store)
    }
}
