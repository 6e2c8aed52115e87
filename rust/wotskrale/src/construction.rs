//! Calls that make a path and write it, packed, to the front of a buffer. Each answers how many bytes it wrote.
//!
//! Several components are lent as their lengths, 8-byte little-endian numbers end to end, and their bytes end to end:
//! [`BadLengths`](Refusal::BadLengths) where the lengths do not add up to the bytes or are no whole numbers. What is too large
//! gets [`PathTooLong`](Refusal::PathTooLong), [`TooManyComponents`](Refusal::TooManyComponents) or
//! [`ComponentTooLong`](Refusal::ComponentTooLong), the first of these that applies.

use crate::refusal::written;
use crate::{plain, Limits, PathRef, Refusal};

/// The path of components lent as lengths and bytes.
///
/// ```
/// use wotskrale::{construction, Limits, Refusal};
///
/// let limits = Limits::new(2, 2, 3);
/// let lengths = [1, 0, 0, 0, 0, 0, 0, 0, 2, 0, 0, 0, 0, 0, 0, 0];
/// let mut out = [0; 27];
/// assert_eq!(construction::from_slices(limits, &lengths, &[7, 8, 9], &mut out), Ok(27));
/// assert_eq!(construction::from_slices(limits, &lengths, &[7, 8], &mut out), Err(Refusal::BadLengths));
/// ```
#[inline]
pub fn from_slices(
    limits: Limits,
    lengths: &[u8],
    bytes: &[u8],
    out: &mut [u8],
) -> Result<usize, Refusal> {
    written(plain::path_from_slices(limits, lengths, bytes, out))
}

/// The path of components lent as lengths and bytes, with the number of bytes stated beside them:
/// [`BadLengths`](Refusal::BadLengths) where it is another.
#[inline]
pub fn new_from_iter(
    limits: Limits,
    total: u64,
    lengths: &[u8],
    bytes: &[u8],
    out: &mut [u8],
) -> Result<usize, Refusal> {
    written(plain::path_new_from_iter(
        limits, total, lengths, bytes, out,
    ))
}

/// The path of no component.
#[inline]
pub fn new_empty(limits: Limits, out: &mut [u8]) -> Result<usize, Refusal> {
    written(plain::path_new_empty(limits, out))
}

/// The path of one component.
#[inline]
pub fn new_singleton(limits: Limits, component: &[u8], out: &mut [u8]) -> Result<usize, Refusal> {
    written(plain::path_new_singleton(limits, component, out))
}

/// A path with a component behind it.
#[inline]
pub fn append(
    limits: Limits,
    path: PathRef<'_>,
    component: &[u8],
    out: &mut [u8],
) -> Result<usize, Refusal> {
    let answer = plain::path_append(limits, path, component, out);
    written(answer)
}

/// A path with components behind it, lent as lengths and bytes.
#[inline]
pub fn append_slice(
    limits: Limits,
    path: PathRef<'_>,
    lengths: &[u8],
    bytes: &[u8],
    out: &mut [u8],
) -> Result<usize, Refusal> {
    let answer = plain::path_append_slice(limits, path, lengths, bytes, out);
    written(answer)
}
