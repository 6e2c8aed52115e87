//! Areas, and areas of interest.

use core::cmp::Ordering;

use crate::range::end_of;
use crate::refusal::{order, there, yes};
use crate::{plain, Limits, PathRef, Range, Refusal};

/// The subspaces of an area.
#[derive(Clone, Copy, Debug, PartialEq, Eq, Hash)]
pub enum AreaSubspace {
    /// Any subspace.
    Any,
    /// The subspace of this id.
    Id(u64),
}

impl AreaSubspace {
    /// The kind and the id as they are passed.
    const fn numbers(self) -> (u64, u64) {
        match self {
            AreaSubspace::Any => (0, 0),
            AreaSubspace::Id(id) => (1, id),
        }
    }

    /// What the core hands back.
    pub(crate) const fn of(kind: u64, id: u64) -> Self {
        match kind {
            0 => AreaSubspace::Any,
            _ => AreaSubspace::Id(id),
        }
    }
}

/// The entries of a subspace or of any, at or below a path, in a range of times.
///
/// ```
/// use wotskrale::{Area, AreaSubspace, Limits, Path, Range, RangeEnd, Refusal};
///
/// let limits = Limits::new(2, 2, 3);
/// let (path, below) = (Path::from_slices(limits, &[&[1]])?, Path::from_slices(limits, &[&[1], &[2]])?);
/// let wide = Area::new(AreaSubspace::Any, path.lent(), Range::FULL);
/// let narrow = Area::new(AreaSubspace::Id(7), below.lent(), Range::new(3, RangeEnd::Closed(10)));
/// assert!(wide.includes_area(limits, narrow)?);
/// assert!(!narrow.includes_area(limits, wide)?);
/// assert!(wide.includes_triplet(limits, 7, below.lent(), 3)?);
/// let both = wide.intersection(limits, narrow)?.expect("narrow is in wide");
/// assert_eq!(both.subspace, AreaSubspace::Id(7));
/// assert!(both.path.equal(limits, below.lent())?);
/// # Ok::<(), Refusal>(())
/// ```
#[derive(Clone, Copy, Debug)]
pub struct Area<'a> {
    /// The subspaces.
    pub subspace: AreaSubspace,
    /// The path at or below which its entries lie.
    pub path: PathRef<'a>,
    /// The times.
    pub times: Range<u64>,
}

/// The packed path of no component.
const EMPTY: [u8; 8] = [0; 8];

impl<'a> Area<'a> {
    /// An area of these parts.
    pub const fn new(subspace: AreaSubspace, path: PathRef<'a>, times: Range<u64>) -> Self {
        Area {
            subspace,
            path,
            times,
        }
    }

    /// The area that includes everything.
    pub const fn new_full() -> Self {
        Area::new(AreaSubspace::Any, PathRef::new(&EMPTY, 0), Range::FULL)
    }

    /// The area that includes everything of one subspace.
    pub const fn new_subspace(id: u64) -> Self {
        Area::new(AreaSubspace::Id(id), PathRef::new(&EMPTY, 0), Range::FULL)
    }

    /// Whether an entry of this subspace, path and timestamp is included.
    pub fn includes_triplet(
        self,
        limits: Limits,
        subspace: u64,
        path: PathRef<'_>,
        timestamp: u64,
    ) -> Result<bool, Refusal> {
        let area = self.into();
        yes(plain::area_includes_triplet(
            limits, area, subspace, path, timestamp,
        ))
    }

    /// Whether an entry of this subspace, path and timestamp can prune entries of this area: same or any subspace, a timestamp
    /// not below the start of the times, related paths. The end of the times is not looked at, so this is also yes where the
    /// times include nothing.
    ///
    /// ```
    /// use wotskrale::{Area, Limits, PathRef, Range, RangeEnd, Refusal};
    ///
    /// let limits = Limits::new(2, 2, 3);
    /// let nothing = Area { times: Range::new(5, RangeEnd::Closed(5)), ..Area::new_full() };
    /// assert!(nothing.could_be_pruned_by_triplet(limits, 0, PathRef::new(&[0; 8], 0), 5)?);
    /// # Ok::<(), Refusal>(())
    /// ```
    pub fn could_be_pruned_by_triplet(
        self,
        limits: Limits,
        subspace: u64,
        path: PathRef<'_>,
        timestamp: u64,
    ) -> Result<bool, Refusal> {
        let area = self.into();
        yes(plain::area_could_be_pruned_by_triplet(
            limits, area, subspace, path, timestamp,
        ))
    }

    /// Whether another area is included. Times are compared by starts and ends, open being greatest: where the other's include
    /// nothing, they are not included by that alone.
    ///
    /// ```
    /// use wotskrale::{Area, Limits, Range, RangeEnd, Refusal};
    ///
    /// let limits = Limits::new(2, 2, 3);
    /// let nothing = Area { times: Range::new(5, RangeEnd::Closed(5)), ..Area::new_full() };
    /// let later = Area { times: Range::new_open(6), ..Area::new_full() };
    /// assert!(!later.includes_area(limits, nothing)?);
    /// # Ok::<(), Refusal>(())
    /// ```
    pub fn includes_area(self, limits: Limits, other: Area<'_>) -> Result<bool, Refusal> {
        yes(plain::area_includes_area(limits, self.into(), other.into()))
    }

    /// Whether another area would be included if two subspaces clashed only where both are ids and differ.
    pub fn almost_includes_area(self, limits: Limits, other: Area<'_>) -> Result<bool, Refusal> {
        let answer = plain::area_almost_includes_area(limits, self.into(), other.into());
        yes(answer)
    }

    /// The order of two areas: by subspace, any before an id; then by path; then by times.
    pub fn compare(self, limits: Limits, other: Area<'_>) -> Result<Ordering, Refusal> {
        order(plain::area_compare(limits, self.into(), other.into()))
    }

    /// The area of what lies in both, with the longer of the two lent paths (the other's where they are equal); none where
    /// nothing does.
    pub fn intersection(
        self,
        limits: Limits,
        other: Area<'a>,
    ) -> Result<Option<Area<'a>>, Refusal> {
        let met = plain::area_intersection(limits, self.into(), other.into());
        let area = || {
            let path = side(self.path, other.path, met.whose, met.count);
            let times = Range::new(met.start, end_of(met.end_kind, met.end));
            Area::new(
                AreaSubspace::of(met.subspace_kind, met.subspace),
                path,
                times,
            )
        };
        Ok(there(met.status)?.then(area))
    }
}

/// The path that stands: one of two lent ones, with the count that was handed back.
fn side<'a>(first: PathRef<'a>, second: PathRef<'a>, whose: u64, count: u64) -> PathRef<'a> {
    let path = if whose == 0 { first } else { second };
    PathRef::new(path.bytes(), count)
}

impl<'a> From<Area<'a>> for plain::Area<'a> {
    fn from(area: Area<'a>) -> Self {
        let (kind, id) = area.subspace.numbers();
        plain::Area {
            kind,
            id,
            path: area.path,
            times: area.times.into(),
        }
    }
}

/// An area with a count and a size.
#[derive(Clone, Copy, Debug)]
pub struct AreaOfInterest<'a> {
    /// The area.
    pub area: Area<'a>,
    /// The most entries.
    pub max_count: u64,
    /// The most payload bytes.
    pub max_size: u64,
}

impl<'a> AreaOfInterest<'a> {
    /// An area of interest of these parts.
    pub const fn new(area: Area<'a>, max_count: u64, max_size: u64) -> Self {
        AreaOfInterest {
            area,
            max_count,
            max_size,
        }
    }

    /// The areas intersected, and the smaller of both numbers; none where the areas have nothing in common.
    ///
    /// ```
    /// use wotskrale::{Area, AreaOfInterest, Limits, Refusal};
    ///
    /// let limits = Limits::new(2, 2, 3);
    /// let a = AreaOfInterest::new(Area::new_full(), 0, 9);
    /// let b = AreaOfInterest::new(Area::new_subspace(3), 5, 4);
    /// let both = a.intersection(limits, b)?.expect("one is in the other");
    /// assert_eq!((both.max_count, both.max_size), (0, 4));
    /// # Ok::<(), Refusal>(())
    /// ```
    pub fn intersection(
        self,
        limits: Limits,
        other: AreaOfInterest<'a>,
    ) -> Result<Option<AreaOfInterest<'a>>, Refusal> {
        let met = plain::area_of_interest_intersection(limits, self.into(), other.into());
        let interest = || {
            let path = side(self.area.path, other.area.path, met.whose, met.count);
            let times = Range::new(met.start, end_of(met.end_kind, met.end));
            let area = Area::new(
                AreaSubspace::of(met.subspace_kind, met.subspace),
                path,
                times,
            );
            AreaOfInterest::new(area, met.max_count, met.max_size)
        };
        Ok(there(met.status)?.then(interest))
    }

    /// The order of two areas of interest: by area, count, size.
    pub fn compare(self, limits: Limits, other: AreaOfInterest<'_>) -> Result<Ordering, Refusal> {
        let answer = plain::area_of_interest_compare(limits, self.into(), other.into());
        order(answer)
    }
}

impl<'a> From<AreaOfInterest<'a>> for plain::AreaOfInterest<'a> {
    fn from(interest: AreaOfInterest<'a>) -> Self {
        plain::AreaOfInterest {
            area: interest.area.into(),
            max_count: interest.max_count,
            max_size: interest.max_size,
        }
    }
}
