//! 3d ranges: of subspaces, of paths and of times.

use core::cmp::Ordering;

use crate::range::end_of;
use crate::refusal::{order, tested, there, yes};
use crate::{plain, Area, Limits, PathRef, Range, RangeEnd, Refusal};

/// The entries whose subspace, path and timestamp lie in three ranges.
#[derive(Clone, Copy, Debug)]
pub struct Range3d<'a> {
    /// The subspaces.
    pub subspaces: Range<u64>,
    /// The paths.
    pub paths: Range<PathRef<'a>>,
    /// The times.
    pub times: Range<u64>,
}

impl<'a> Range3d<'a> {
    /// A 3d range of three ranges.
    pub const fn new(subspaces: Range<u64>, paths: Range<PathRef<'a>>, times: Range<u64>) -> Self {
        Range3d {
            subspaces,
            paths,
            times,
        }
    }

    /// The 3d range that includes the same triplets as an area. The end of its paths, where there is one, is written packed to
    /// the front of `out`; a buffer of [`Limits::longest_packed`] bytes is never too short.
    ///
    /// ```
    /// use wotskrale::{Area, AreaSubspace, Limits, Path, Range, Range3d, RangeEnd, Refusal};
    ///
    /// let limits = Limits::new(2, 2, 3);
    /// let path = Path::from_slices(limits, &[&[1]])?;
    /// let mut out = vec![0; limits.longest_packed()];
    /// let area = Area::new(AreaSubspace::Id(u64::MAX), path.lent(), Range::FULL);
    /// let range = Range3d::from_area(limits, area, &mut out)?;
    /// let end = Path::from_slices(limits, &[&[1, 0]])?;
    /// assert!(matches!(range.paths.end, RangeEnd::Closed(e) if e.equal(limits, end.lent()) == Ok(true)));
    /// assert_eq!(range.subspaces, Range::new_open(u64::MAX));
    /// # Ok::<(), Refusal>(())
    /// ```
    pub fn from_area(
        limits: Limits,
        area: Area<'a>,
        out: &'a mut [u8],
    ) -> Result<Range3d<'a>, Refusal> {
        let range = plain::range_3d_from_area(limits, area.into(), out);
        tested(range.status)?;
        // What was written is no longer than the buffer.
        let written = out.get(..range.written as usize).unwrap_or(out);
        let end = match range.path_end_kind {
            0 => RangeEnd::Open,
            _ => RangeEnd::Closed(PathRef::new(written, range.end_count)),
        };
        let start = PathRef::new(area.path.bytes(), range.start_count);
        Ok(Range3d::new(
            Range::new(
                range.subspace_start,
                end_of(range.subspace_end_kind, range.subspace_end),
            ),
            Range::new(start, end),
            Range::new(
                range.time_start,
                end_of(range.time_end_kind, range.time_end),
            ),
        ))
    }

    /// Whether an entry of this subspace, path and timestamp is included.
    pub fn includes_triplet(
        self,
        limits: Limits,
        subspace: u64,
        path: PathRef<'_>,
        timestamp: u64,
    ) -> Result<bool, Refusal> {
        let range = self.into();
        yes(plain::range_3d_includes_triplet(
            limits, range, subspace, path, timestamp,
        ))
    }

    /// Whether an entry of this subspace, path and timestamp can prune entries of this range; also yes to some paths past the
    /// end.
    pub fn could_be_pruned_by_triplet(
        self,
        limits: Limits,
        subspace: u64,
        path: PathRef<'_>,
        timestamp: u64,
    ) -> Result<bool, Refusal> {
        let range = self.into();
        yes(plain::range_3d_could_be_pruned_by_triplet(
            limits, range, subspace, path, timestamp,
        ))
    }

    /// Whether another 3d range is included, by starts and ends.
    pub fn includes_range(self, limits: Limits, other: Range3d<'_>) -> Result<bool, Refusal> {
        let answer = plain::range_3d_includes_range(limits, self.into(), other.into());
        yes(answer)
    }

    /// The order of two 3d ranges: by subspaces, paths, times.
    pub fn compare(self, limits: Limits, other: Range3d<'_>) -> Result<Ordering, Refusal> {
        order(plain::range_3d_compare(limits, self.into(), other.into()))
    }

    /// The 3d range of what lies in both, with paths of the two; none where nothing does.
    pub fn intersection(
        self,
        limits: Limits,
        other: Range3d<'a>,
    ) -> Result<Option<Range3d<'a>>, Refusal> {
        let met = plain::range_3d_intersection(limits, self.into(), other.into());
        let range = || {
            let (paths, others) = (self.paths, other.paths);
            Range3d::new(
                Range::new(
                    met.subspace_start,
                    end_of(met.subspace_end_kind, met.subspace_end),
                ),
                paths.chosen(others, met.path_start, met.path_end_kind, met.path_end),
                Range::new(met.time_start, end_of(met.time_end_kind, met.time_end)),
            )
        };
        Ok(there(met.status)?.then(range))
    }
}

impl<'a> From<Range3d<'a>> for plain::Range3d<'a> {
    fn from(range: Range3d<'a>) -> Self {
        plain::Range3d {
            subspaces: range.subspaces.into(),
            paths: range.paths.into(),
            times: range.times.into(),
        }
    }
}
