//! Ranges, of numbers and of paths: a start, and an end that is closed (excluded) or open.
//!
//! Any start may stand before any end; where it is not below the end the range includes nothing. The calls on ranges of numbers
//! are not refused today; they have the same form as the others, so that a host is ready for an archive that does refuse.

use core::cmp::Ordering;

use crate::refusal::{order, there, yes};
use crate::{plain, Limits, PathRef, Refusal};

/// The end of a range.
#[derive(Clone, Copy, Debug, PartialEq, Eq, Hash)]
pub enum RangeEnd<T> {
    /// The range ends before this value.
    Closed(T),
    /// The range does not end.
    Open,
}

/// All values from a start up to an end.
///
/// ```
/// use wotskrale::{Range, RangeEnd, Refusal};
///
/// let low = Range::new(3, RangeEnd::Closed(10));
/// let high = Range::new_open(9);
/// assert_eq!(low.intersection(high)?, Some(Range::new(9, RangeEnd::Closed(10))));
/// assert_eq!(Range::new(3, RangeEnd::Closed(9)).intersection(high)?, None);
/// # Ok::<(), Refusal>(())
/// ```
#[derive(Clone, Copy, Debug, PartialEq, Eq, Hash)]
pub struct Range<T> {
    /// The least value that may be included.
    pub start: T,
    /// Where it ends.
    pub end: RangeEnd<T>,
}

impl<T> Range<T> {
    /// A range from a start to an end.
    pub const fn new(start: T, end: RangeEnd<T>) -> Self {
        Range { start, end }
    }

    /// An open range.
    pub const fn new_open(start: T) -> Self {
        Range {
            start,
            end: RangeEnd::Open,
        }
    }

    /// The end of a closed range.
    pub const fn get_end(&self) -> Option<&T> {
        match &self.end {
            RangeEnd::Closed(end) => Some(end),
            RangeEnd::Open => None,
        }
    }
}

impl RangeEnd<u64> {
    /// Whether this end is above a value.
    pub fn gt_val(self, value: u64) -> Result<bool, Refusal> {
        yes(plain::range_end_above(self.into(), value))
    }

    /// The order of two ends, open being greatest.
    pub fn compare(self, other: Self) -> Result<Ordering, Refusal> {
        order(plain::range_compare_ends(self.into(), other.into()))
    }
}

impl Range<u64> {
    /// The range that includes every number.
    pub const FULL: Range<u64> = Range::new_open(0);

    /// The range from a start to an end; none where it would include nothing.
    ///
    /// ```
    /// use wotskrale::{Range, RangeEnd};
    ///
    /// assert_eq!(Range::new_closed(1, 2), Ok(Some(Range::new(1, RangeEnd::Closed(2)))));
    /// assert_eq!(Range::new_closed(2, 2), Ok(None));
    /// ```
    pub fn new_closed(start: u64, end: u64) -> Result<Option<Self>, Refusal> {
        given(plain::range_new_closed(start, end))
    }

    /// Whether this range is open.
    pub fn is_open(self) -> Result<bool, Refusal> {
        yes(plain::range_is_open(self.into()))
    }

    /// Whether a value is included.
    pub fn includes(self, value: u64) -> Result<bool, Refusal> {
        yes(plain::range_includes(self.into(), value))
    }

    /// Whether another range is included, by starts and ends, open being greatest.
    pub fn includes_range(self, other: Self) -> Result<bool, Refusal> {
        yes(plain::range_includes_range(self.into(), other.into()))
    }

    /// The range of the values in both; none where there is no such value.
    pub fn intersection(self, other: Self) -> Result<Option<Self>, Refusal> {
        given(plain::range_intersection(self.into(), other.into()))
    }

    /// The order of two ranges: by start, then by end.
    ///
    /// ```
    /// use std::cmp::Ordering;
    /// use wotskrale::{Range, RangeEnd};
    ///
    /// let (short, long) = (Range::new(0, RangeEnd::Closed(1)), Range::new(0, RangeEnd::Closed(2)));
    /// assert_eq!(short.compare(long), Ok(Ordering::Less));
    /// assert_eq!(short.compare(Range::FULL), Ok(Ordering::Less));
    /// ```
    pub fn compare(self, other: Self) -> Result<Ordering, Refusal> {
        order(plain::range_compare(self.into(), other.into()))
    }
}

impl<'a> RangeEnd<PathRef<'a>> {
    /// Whether this end is above a path.
    pub fn gt_path(self, limits: Limits, path: PathRef<'_>) -> Result<bool, Refusal> {
        yes(plain::path_range_end_above(limits, self.into(), path))
    }

    /// The order of two ends of paths, open being greatest.
    pub fn compare_paths(
        self,
        limits: Limits,
        other: RangeEnd<PathRef<'_>>,
    ) -> Result<Ordering, Refusal> {
        let answer = plain::path_range_compare_ends(limits, self.into(), other.into());
        order(answer)
    }
}

impl<'a> Range<PathRef<'a>> {
    /// The range from a path to another; none where it would include nothing.
    ///
    /// ```
    /// use wotskrale::{Limits, Path, Range, Refusal};
    ///
    /// let limits = Limits::new(2, 2, 3);
    /// let (low, high) = (Path::from_slices(limits, &[&[1]])?, Path::from_slices(limits, &[&[2]])?);
    /// let range = Range::new_closed_paths(limits, low.lent(), high.lent())?.expect("the first is below the second");
    /// assert!(range.includes_path(limits, low.lent())?);
    /// assert!(!range.includes_path(limits, high.lent())?);
    /// assert!(Range::new_closed_paths(limits, high.lent(), low.lent())?.is_none());
    /// # Ok::<(), Refusal>(())
    /// ```
    pub fn new_closed_paths(
        limits: Limits,
        start: PathRef<'a>,
        end: PathRef<'a>,
    ) -> Result<Option<Self>, Refusal> {
        let there = yes(plain::path_range_new_closed(limits, start, end))?;
        Ok(there.then_some(Range::new(start, RangeEnd::Closed(end))))
    }

    /// Whether a path is included.
    pub fn includes_path(self, limits: Limits, path: PathRef<'_>) -> Result<bool, Refusal> {
        yes(plain::path_range_includes(limits, self.into(), path))
    }

    /// Whether another range is included, by starts and ends, open being greatest.
    pub fn includes_range_of_paths(
        self,
        limits: Limits,
        other: Range<PathRef<'_>>,
    ) -> Result<bool, Refusal> {
        let answer = plain::path_range_includes_range(limits, self.into(), other.into());
        yes(answer)
    }

    /// The range of the paths in both, of the two ranges' own paths; none where there is no such path.
    pub fn intersection_of_paths(
        self,
        limits: Limits,
        other: Range<PathRef<'a>>,
    ) -> Result<Option<Self>, Refusal> {
        let sides = plain::path_range_intersection(limits, self.into(), other.into());
        let range = || self.chosen(other, sides.start, sides.end_kind, sides.end);
        Ok(there(sides.status)?.then(range))
    }

    /// The order of two ranges: by start, then by end.
    pub fn compare_paths(
        self,
        limits: Limits,
        other: Range<PathRef<'_>>,
    ) -> Result<Ordering, Refusal> {
        let answer = plain::path_range_compare(limits, self.into(), other.into());
        order(answer)
    }

    /// The start of one of two ranges, and the end of one of them or an open one.
    pub(crate) fn chosen(self, other: Self, start: u64, end_kind: u64, end: u64) -> Self {
        let side = |whose| if whose == 0 { self } else { other };
        let end = match end_kind {
            0 => RangeEnd::Open,
            _ => side(end).end,
        };
        Range::new(side(start).start, end)
    }
}

/// An end of numbers as the core hands it back.
pub(crate) const fn end_of(kind: u64, end: u64) -> RangeEnd<u64> {
    match kind {
        0 => RangeEnd::Open,
        _ => RangeEnd::Closed(end),
    }
}

fn given(answer: plain::RangeAnswer) -> Result<Option<Range<u64>>, Refusal> {
    let range = Range::new(answer.start, end_of(answer.end_kind, answer.end));
    Ok(there(answer.status)?.then_some(range))
}

impl From<RangeEnd<u64>> for plain::End {
    fn from(end: RangeEnd<u64>) -> Self {
        match end {
            RangeEnd::Open => plain::End { kind: 0, end: 0 },
            RangeEnd::Closed(end) => plain::End { kind: 1, end },
        }
    }
}

impl From<Range<u64>> for plain::Range {
    fn from(range: Range<u64>) -> Self {
        plain::Range {
            start: range.start,
            end: range.end.into(),
        }
    }
}

impl<'a> From<RangeEnd<PathRef<'a>>> for plain::PathEnd<'a> {
    fn from(end: RangeEnd<PathRef<'a>>) -> Self {
        match end {
            RangeEnd::Open => plain::PathEnd {
                kind: 0,
                end: PathRef::new(&[], 0),
            },
            RangeEnd::Closed(end) => plain::PathEnd { kind: 1, end },
        }
    }
}

impl<'a> From<Range<PathRef<'a>>> for plain::PathRange<'a> {
    fn from(range: Range<PathRef<'a>>) -> Self {
        plain::PathRange {
            start: range.start,
            end: range.end.into(),
        }
    }
}
