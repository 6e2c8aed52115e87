//! The least paths above a path and the greatest of all, written packed to the front of a buffer. Each call answers how many
//! bytes it wrote; none where there is no such path.

use crate::refusal::{perhaps_written, written};
use crate::{plain, Limits, PathRef, Refusal};

/// The least path above a path.
///
/// ```
/// use wotskrale::{least, Limits, Path, Refusal};
///
/// let limits = Limits::new(2, 1, 2);
/// let path = Path::from_slices(limits, &[&[0x01, 0xff]])?;
/// let mut out = [0; 18];
/// assert_eq!(least::successor(limits, path.lent(), &mut out), Ok(Some(17)));
/// assert_eq!(out[16], 2);
/// # Ok::<(), Refusal>(())
/// ```
#[inline]
pub fn successor(
    limits: Limits,
    path: PathRef<'_>,
    out: &mut [u8],
) -> Result<Option<usize>, Refusal> {
    perhaps_written(plain::path_successor(limits, path, out))
}

/// The least path above a path that it does not prefix.
#[inline]
pub fn greater_but_not_prefixed(
    limits: Limits,
    path: PathRef<'_>,
    out: &mut [u8],
) -> Result<Option<usize>, Refusal> {
    let answer = plain::path_greater_but_not_prefixed(limits, path, out);
    perhaps_written(answer)
}

/// The end of the range that includes one path alone; none where that range is open.
#[inline]
pub fn singleton_range(
    limits: Limits,
    path: PathRef<'_>,
    out: &mut [u8],
) -> Result<Option<usize>, Refusal> {
    let answer = plain::path_singleton_range(limits, path, out);
    perhaps_written(answer)
}

/// The greatest path.
///
/// ```
/// use wotskrale::{least, Limits, Path, Refusal};
///
/// let limits = Limits::new(1, 2, 5);
/// let mut out = [0; 26];
/// assert_eq!(least::new_max(limits, &mut out), Ok(26));
/// assert_eq!(out[24..], [0xff, 0xff]);
/// assert_eq!(least::new_max(limits, &mut out[..25]), Err(Refusal::OutTooSmall));
/// ```
#[inline]
pub fn new_max(limits: Limits, out: &mut [u8]) -> Result<usize, Refusal> {
    written(plain::path_new_max(limits, out))
}
