//! Calls that write a part of a lent path to the front of a buffer. Each answers how many bytes it wrote; a buffer that is too
//! short gets [`OutTooSmall`](Refusal::OutTooSmall) and stays as it was.

use crate::refusal::{perhaps_written, written};
use crate::{plain, Limits, PathRef, Refusal};

/// The bytes of component `i`; none where there are no more than `i`.
#[inline]
pub fn write_component(
    limits: Limits,
    path: PathRef<'_>,
    i: u64,
    out: &mut [u8],
) -> Result<Option<usize>, Refusal> {
    let answer = plain::path_write_component(limits, path, i, out);
    perhaps_written(answer)
}

/// The packed prefix of `n` components; none where there are fewer.
///
/// ```
/// use wotskrale::{writing, Limits, Path, Refusal};
///
/// let limits = Limits::new(2, 2, 3);
/// let path = Path::from_slices(limits, &[&[7], &[8]])?;
/// let mut out = [0xee; 20];
/// assert_eq!(writing::write_prefix(limits, path.lent(), 1, &mut out), Ok(Some(17)));
/// assert_eq!(out[16..], [7, 0xee, 0xee, 0xee]);
/// assert_eq!(writing::write_prefix(limits, path.lent(), 1, &mut out[..16]), Err(Refusal::OutTooSmall));
/// # Ok::<(), Refusal>(())
/// ```
#[inline]
pub fn write_prefix(
    limits: Limits,
    path: PathRef<'_>,
    n: u64,
    out: &mut [u8],
) -> Result<Option<usize>, Refusal> {
    let answer = plain::path_write_prefix(limits, path, n, out);
    perhaps_written(answer)
}

/// The packed longest common prefix of two paths.
#[inline]
pub fn write_longest_common_prefix(
    limits: Limits,
    a: PathRef<'_>,
    b: PathRef<'_>,
    out: &mut [u8],
) -> Result<usize, Refusal> {
    written(plain::path_write_longest_common_prefix(limits, a, b, out))
}
