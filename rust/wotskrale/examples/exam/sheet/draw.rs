//! What questions are asked about, drawn from a seed.

use wotskrale::{
    Area, AreaSubspace, Entry, Limits, Path, PathRef, Range, Range3d, RangeEnd, Refusal,
};

/// Random numbers from a seed (splitmix64).
pub struct Draw(pub u64);

/// A start of paths and perhaps an end, which then is above the start.
pub struct Paths {
    pub start: Path,
    end: Option<Path>,
}

impl Paths {
    pub fn lent(&self) -> Range<PathRef<'_>> {
        let end = self.end.as_ref();
        Range::new(
            self.start.lent(),
            end.map_or(RangeEnd::Open, |end| RangeEnd::Closed(end.lent())),
        )
    }
}

impl Draw {
    fn next(&mut self) -> u64 {
        self.0 = self.0.wrapping_add(0x9e37_79b9_7f4a_7c15);
        let z = (self.0 ^ (self.0 >> 30)).wrapping_mul(0xbf58_476d_1ce4_e5b9);
        let z = (z ^ (z >> 27)).wrapping_mul(0x94d0_49bb_1331_11eb);
        z ^ (z >> 31)
    }

    pub fn below(&mut self, n: u64) -> u64 {
        self.next() % n.max(1)
    }

    /// One time in `n`.
    pub fn seldom(&mut self, n: u64) -> bool {
        self.below(n) == 0
    }

    /// From 1 up to `most`, and 0 now and then.
    fn limit(&mut self, most: u64) -> u64 {
        if self.seldom(16) {
            0
        } else {
            1 + self.below(most)
        }
    }

    pub fn limits(&mut self) -> Limits {
        Limits::new(self.limit(2), self.limit(2), self.limit(3))
    }

    /// Components that are a path under the limits.
    pub fn components(&mut self, limits: Limits) -> Vec<Vec<u8>> {
        let mut left = limits.mpl;
        let mut components = Vec::new();
        let count = match self.below(5) {
            0 => 0,
            _ => (1 + self.below(limits.mcc)).min(limits.mcc),
        };
        for _ in 0..count {
            let length = self.below(limits.mcl.min(left) + 1);
            left -= length;
            let byte = |_| [0x00, 0x01, 0xfe, 0xff, 0xff][self.below(5) as usize];
            components.push((0..length).map(byte).collect());
        }
        components
    }

    pub fn path(&mut self, limits: Limits) -> Result<Path, Refusal> {
        let components = self.components(limits);
        let slices: Vec<&[u8]> = components.iter().map(Vec::as_slice).collect();
        Path::from_slices(limits, &slices)
    }

    /// A path that is likely to be related to another.
    pub fn near(&mut self, limits: Limits, path: &Path) -> Result<Path, Refusal> {
        let lent = path.lent();
        match self.below(3) {
            0 => self.path(limits),
            1 => match lent.create_prefix(limits, self.below(lent.count() + 1))? {
                Some(prefix) => prefix.to_path(limits),
                None => Ok(path.clone()),
            },
            _ => Ok(lent.append(limits, &[1]).unwrap_or_else(|_| path.clone())),
        }
    }

    /// A range that includes something: its start is below its end.
    pub fn range(&mut self, starts: u64) -> Range<u64> {
        let start = self.below(starts);
        match self.below(3) {
            0 => Range::new_open(start),
            _ => Range::new(start, RangeEnd::Closed(start + 1 + self.below(5))),
        }
    }

    /// A range whose end may be at or below its start.
    pub fn loose_range(&mut self) -> Range<u64> {
        let start = self.below(10);
        match self.below(3) {
            0 => Range::new_open(start),
            _ => Range::new(
                start,
                RangeEnd::Closed((start + self.below(6)).saturating_sub(1)),
            ),
        }
    }

    /// The paths of a range that includes something.
    pub fn paths(&mut self, limits: Limits) -> Result<Paths, Refusal> {
        let (a, b) = (self.path(limits)?, self.path(limits)?);
        let (start, end) = match a.lent().compare(limits, b.lent())? {
            std::cmp::Ordering::Less => (a, Some(b)),
            std::cmp::Ordering::Equal => (a, None),
            std::cmp::Ordering::Greater => (b, Some(a)),
        };
        let end = end.filter(|_| !self.seldom(4));
        Ok(Paths { start, end })
    }

    pub fn subspace(&mut self) -> AreaSubspace {
        match self.below(3) {
            0 => AreaSubspace::Any,
            _ => AreaSubspace::Id(self.below(2)),
        }
    }

    pub fn times(&mut self) -> Range<u64> {
        self.range(10)
    }

    pub fn area<'a>(&mut self, path: &'a Path) -> Area<'a> {
        Area::new(self.subspace(), path.lent(), self.times())
    }

    pub fn range_3d<'a>(&mut self, paths: &'a Paths) -> Range3d<'a> {
        Range3d::new(self.range(2), paths.lent(), self.times())
    }

    /// An entry of namespace 0 and subspace 0 but for a few, whose payload is short but for a few, and whose digest is of one
    /// byte 32 times.
    pub fn entry<'a>(&mut self, path: &'a Path) -> Entry<'a> {
        Entry {
            namespace: u64::from(self.seldom(10)),
            subspace: u64::from(self.seldom(6)),
            path: path.lent(),
            timestamp: self.below(4),
            payload_length: match self.seldom(12) {
                true => u64::MAX - self.below(4),
                false => self.below(4),
            },
            digest: [0x7f + self.below(2) as u8; 32],
        }
    }
}
