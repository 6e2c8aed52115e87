//! Groupings and entries as both sides are given them: paths by their components, and packed with a count for ours.

use std::rc::Rc;

use wotskrale::{AreaSubspace, Limits, PathRef, Range, RangeEnd};

use crate::model::{pack, read, show, Parts};

/// A path as it is lent to ours: a buffer, which may hold more components than are counted.
#[derive(Clone)]
pub struct Lent {
    /// The components counted.
    pub parts: Parts,
    packed: Rc<Vec<u8>>,
}

impl Lent {
    /// A path in a buffer of its own.
    pub fn new(parts: Parts) -> Self {
        let packed = Rc::new(pack(&parts));
        Lent { parts, packed }
    }

    /// The first components of a path, in its buffer.
    pub fn cut(whole: &Parts, count: usize) -> Self {
        let packed = Rc::new(pack(whole));
        let parts = whole[..count].to_vec();
        Lent { parts, packed }
    }

    /// As it is lent.
    pub fn lent(&self) -> PathRef<'_> {
        PathRef::new(&self.packed, self.parts.len() as u64)
    }

    /// All components in the buffer.
    pub fn whole(&self) -> Parts {
        let count = PathRef::whole(&self.packed).count();
        read(Limits::BOUNDS, &self.packed, count).unwrap_or_default()
    }

    /// How much there is of it, to find small inputs by.
    pub fn weight(&self) -> usize {
        self.packed.len()
    }

    /// In words.
    pub fn show(&self) -> String {
        let whole = PathRef::whole(&self.packed).count();
        match whole == self.parts.len() as u64 {
            true => show(&self.parts),
            false => format!("{} (of {whole} in the buffer)", show(&self.parts)),
        }
    }
}

/// A range of paths.
#[derive(Clone)]
pub struct PathRange {
    /// The start.
    pub start: Lent,
    /// The end, none where it is open.
    pub end: Option<Lent>,
}

impl PathRange {
    /// For ours.
    pub fn ours(&self) -> Range<PathRef<'_>> {
        Range::new(self.start.lent(), end(&self.end))
    }

    /// In words.
    pub fn show(&self) -> String {
        let end = self.end.as_ref().map_or("open".to_string(), Lent::show);
        format!("[{}, {end})", self.start.show())
    }

    /// How much there is of it.
    pub fn weight(&self) -> usize {
        self.start.weight() + self.end.as_ref().map_or(0, Lent::weight)
    }
}

/// An end of paths for ours.
pub fn end(end: &Option<Lent>) -> RangeEnd<PathRef<'_>> {
    end.as_ref()
        .map_or(RangeEnd::Open, |e| RangeEnd::Closed(e.lent()))
}

/// A subspace, a path and a timestamp.
#[derive(Clone)]
pub struct Triplet {
    /// The subspace.
    pub subspace: u64,
    /// The path.
    pub path: Lent,
    /// The timestamp.
    pub time: u64,
}

impl Triplet {
    /// In words.
    pub fn show(&self) -> String {
        format!(
            "subspace {} path {} time {}",
            self.subspace,
            self.path.show(),
            self.time
        )
    }
}

/// An area.
#[derive(Clone)]
pub struct Area {
    /// The subspaces.
    pub subspace: AreaSubspace,
    /// The path.
    pub path: Lent,
    /// The times.
    pub times: Range<u64>,
}

impl Area {
    /// For ours.
    pub fn ours(&self) -> wotskrale::Area<'_> {
        wotskrale::Area::new(self.subspace, self.path.lent(), self.times)
    }

    /// In words.
    pub fn show(&self) -> String {
        let (path, times) = (self.path.show(), range(self.times));
        format!("area {:?} {path} {times}", self.subspace)
    }
}

/// An area of interest.
#[derive(Clone)]
pub struct Interest {
    /// The area.
    pub area: Area,
    /// The most entries.
    pub max_count: u64,
    /// The most payload bytes.
    pub max_size: u64,
}

impl Interest {
    /// For ours.
    pub fn ours(&self) -> wotskrale::AreaOfInterest<'_> {
        wotskrale::AreaOfInterest::new(self.area.ours(), self.max_count, self.max_size)
    }

    /// In words.
    pub fn show(&self) -> String {
        let (area, count, size) = (self.area.show(), self.max_count, self.max_size);
        format!("{area} count {count} size {size}")
    }
}

/// A 3d range.
#[derive(Clone)]
pub struct Range3d {
    /// The subspaces.
    pub subspaces: Range<u64>,
    /// The paths.
    pub paths: PathRange,
    /// The times.
    pub times: Range<u64>,
}

impl Range3d {
    /// For ours.
    pub fn ours(&self) -> wotskrale::Range3d<'_> {
        wotskrale::Range3d::new(self.subspaces, self.paths.ours(), self.times)
    }

    /// In words.
    pub fn show(&self) -> String {
        format!(
            "3d {} {} {}",
            range(self.subspaces),
            self.paths.show(),
            range(self.times)
        )
    }
}

/// An entry.
#[derive(Clone)]
pub struct Entry {
    /// The namespace.
    pub namespace: u64,
    /// The subspace.
    pub subspace: u64,
    /// The path.
    pub path: Lent,
    /// The timestamp.
    pub timestamp: u64,
    /// The payload's length.
    pub payload_length: u64,
    /// The payload's digest.
    pub digest: [u8; 32],
}

impl Entry {
    /// For ours.
    pub fn ours(&self) -> wotskrale::Entry<'_> {
        wotskrale::Entry {
            namespace: self.namespace,
            subspace: self.subspace,
            path: self.path.lent(),
            timestamp: self.timestamp,
            payload_length: self.payload_length,
            digest: self.digest,
        }
    }

    /// In words.
    pub fn show(&self) -> String {
        let (n, s, path) = (self.namespace, self.subspace, self.path.show());
        let (time, length) = (self.timestamp, self.payload_length);
        let digest = (self.digest[0], self.digest[31]);
        format!("entry {n} {s} {path} time {time} length {length} digest {digest:x?}")
    }
}

/// A range of numbers in words.
pub fn range(range: Range<u64>) -> String {
    match range.end {
        RangeEnd::Open => format!("[{}, open)", range.start),
        RangeEnd::Closed(end) => format!("[{}, {end})", range.start),
    }
}

/// Limits in words, for inputs that have no path.
pub const NO_LIMITS: Limits = Limits::new(0, 0, 0);
