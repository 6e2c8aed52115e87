//! Calls on one path: whether it is one, and how many components and bytes it and its parts have.

use crate::refusal::{always, perhaps, tested, yes};
use crate::{plain, Limits, PathRef, Refusal};

/// Whether a lent buffer with its count is a path: at most MCC components, each of at most MCL bytes, at most MPL bytes in all,
/// no byte more in the buffer, and a count no greater than the one in the buffer. Else [`BadPath`](Refusal::BadPath).
///
/// ```
/// use wotskrale::{reading, Limits, PathRef, Refusal};
///
/// let limits = Limits::new(2, 2, 3);
/// assert_eq!(reading::test(limits, PathRef::new(&[0; 8], 0)), Ok(()));
/// assert_eq!(reading::test(limits, PathRef::new(&[0; 7], 0)), Err(Refusal::BadPath));
/// ```
#[inline]
pub fn test(limits: Limits, path: PathRef<'_>) -> Result<(), Refusal> {
    tested(plain::path_test(limits, path))
}

/// Whether bytes are a component: [`ComponentTooLong`](Refusal::ComponentTooLong) where there are more than MCL.
#[inline]
pub fn test_component(limits: Limits, component: &[u8]) -> Result<(), Refusal> {
    tested(plain::component_test(limits, component))
}

/// How many components.
#[inline]
pub fn component_count(limits: Limits, path: PathRef<'_>) -> Result<u64, Refusal> {
    always(plain::path_component_count(limits, path))
}

/// Whether there is no component.
#[inline]
pub fn is_empty(limits: Limits, path: PathRef<'_>) -> Result<bool, Refusal> {
    yes(plain::path_is_empty(limits, path))
}

/// How many bytes in all components.
#[inline]
pub fn path_length(limits: Limits, path: PathRef<'_>) -> Result<u64, Refusal> {
    always(plain::path_length(limits, path))
}

/// How many bytes in the first `n` components; none where there are fewer.
#[inline]
pub fn path_length_of_prefix(
    limits: Limits,
    path: PathRef<'_>,
    n: u64,
) -> Result<Option<u64>, Refusal> {
    perhaps(plain::path_length_of_prefix(limits, path, n))
}

/// The prefix of `n` components, in the same buffer; none where there are fewer.
#[inline]
pub fn create_prefix(
    limits: Limits,
    path: PathRef<'_>,
    n: u64,
) -> Result<Option<PathRef<'_>>, Refusal> {
    let count = perhaps(plain::path_create_prefix(limits, path, n))?;
    Ok(count.map(|count| PathRef::new(path.bytes(), count)))
}

/// The length of component `i`; none where there are no more than `i`.
#[inline]
pub fn component_length(limits: Limits, path: PathRef<'_>, i: u64) -> Result<Option<u64>, Refusal> {
    perhaps(plain::path_component_length(limits, path, i))
}
