//! Calls on two paths: order, equality, prefixes, and what they have in common.

use core::cmp::Ordering;

use crate::refusal::{always, order, yes};
use crate::{plain, Limits, PathRef, Refusal};

/// The order of two paths: component by component, bytes unsigned, a proper prefix smaller.
///
/// ```
/// use std::cmp::Ordering;
/// use wotskrale::{relation, Limits, Path, Refusal};
///
/// let limits = Limits::new(2, 2, 3);
/// let a = Path::from_slices(limits, &[&[1], &[0xff]])?;
/// let b = Path::from_slices(limits, &[&[1, 0]])?;
/// assert_eq!(relation::compare(limits, a.lent(), b.lent()), Ok(Ordering::Less));
/// # Ok::<(), Refusal>(())
/// ```
#[inline]
pub fn compare(limits: Limits, a: PathRef<'_>, b: PathRef<'_>) -> Result<Ordering, Refusal> {
    order(plain::path_compare(limits, a, b))
}

/// Whether two paths have the same components.
#[inline]
pub fn equal(limits: Limits, a: PathRef<'_>, b: PathRef<'_>) -> Result<bool, Refusal> {
    yes(plain::path_equal(limits, a, b))
}

/// Whether `a` is a prefix of `b`.
#[inline]
pub fn is_prefix_of(limits: Limits, a: PathRef<'_>, b: PathRef<'_>) -> Result<bool, Refusal> {
    yes(plain::path_is_prefix_of(limits, a, b))
}

/// Whether `b` is a prefix of `a`.
#[inline]
pub fn is_prefixed_by(limits: Limits, a: PathRef<'_>, b: PathRef<'_>) -> Result<bool, Refusal> {
    yes(plain::path_is_prefixed_by(limits, a, b))
}

/// Whether one of the two is a prefix of the other.
#[inline]
pub fn is_related(limits: Limits, a: PathRef<'_>, b: PathRef<'_>) -> Result<bool, Refusal> {
    yes(plain::path_is_related(limits, a, b))
}

/// How many components the longest common prefix has.
#[inline]
pub fn longest_common_prefix(
    limits: Limits,
    a: PathRef<'_>,
    b: PathRef<'_>,
) -> Result<u64, Refusal> {
    always(plain::path_longest_common_prefix(limits, a, b))
}
