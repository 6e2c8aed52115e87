//! Entries: which is newer, and which prunes which.

use core::cmp::Ordering;

use crate::refusal::{order, yes};
use crate::{plain, Limits, PathRef, Refusal};

/// An entry: where it stands, when it was made, and its payload's length and digest.
///
/// ```
/// use wotskrale::{Entry, Limits, Path, Refusal};
///
/// let limits = Limits::new(2, 2, 3);
/// let (above, below) = (Path::new_empty(limits)?, Path::from_slices(limits, &[&[1]])?);
/// let old = Entry { namespace: 0, subspace: 0, path: below.lent(), timestamp: 5, payload_length: 10, digest: [0; 32] };
/// let new = Entry { path: above.lent(), timestamp: 6, ..old };
/// assert!(new.prunes(limits, &old)?);
/// assert!(!old.prunes(limits, &new)?);
/// assert!(!new.prunes(limits, &new)?);
/// # Ok::<(), Refusal>(())
/// ```
#[derive(Clone, Copy, Debug)]
pub struct Entry<'a> {
    /// The namespace.
    pub namespace: u64,
    /// The subspace.
    pub subspace: u64,
    /// The path.
    pub path: PathRef<'a>,
    /// The timestamp.
    pub timestamp: u64,
    /// The payload's length.
    pub payload_length: u64,
    /// The payload's digest.
    pub digest: [u8; 32],
}

impl Entry<'_> {
    fn place(&self) -> plain::Place<'_> {
        plain::Place {
            subspace: self.subspace,
            path: self.path,
        }
    }

    fn age(&self) -> plain::Age<'_> {
        plain::Age {
            timestamp: self.timestamp,
            payload_length: self.payload_length,
            digest: &self.digest,
        }
    }

    /// This entry as it is passed.
    pub(crate) fn plain(&self) -> plain::Entry<'_> {
        plain::Entry {
            namespace: self.namespace,
            place: self.place(),
            age: self.age(),
        }
    }

    /// Whether this entry is newer: by timestamp, then digest, then payload length.
    pub fn is_newer_than(&self, other: &Entry<'_>) -> Result<bool, Refusal> {
        yes(plain::entry_is_newer_than(self.age(), other.age()))
    }

    /// Whether this entry is pruned by the other.
    pub fn is_pruned_by(&self, limits: Limits, other: &Entry<'_>) -> Result<bool, Refusal> {
        let answer = plain::entry_is_pruned_by(limits, self.plain(), other.plain());
        yes(answer)
    }

    /// Whether this entry prunes the other: same namespace and subspace, its path a prefix, and newer.
    pub fn prunes(&self, limits: Limits, other: &Entry<'_>) -> Result<bool, Refusal> {
        yes(plain::entry_prunes(limits, self.plain(), other.plain()))
    }

    /// Whether two entries are equal in every field.
    pub fn equal(&self, limits: Limits, other: &Entry<'_>) -> Result<bool, Refusal> {
        yes(plain::entry_equal(limits, self.plain(), other.plain()))
    }

    /// The order of a store: by subspace, then by path.
    pub fn compare_places(&self, limits: Limits, other: &Entry<'_>) -> Result<Ordering, Refusal> {
        let answer = plain::entry_compare_places(limits, self.place(), other.place());
        order(answer)
    }

    /// The order of entries: by namespace, subspace, path, timestamp, digest, payload length.
    pub fn compare(&self, limits: Limits, other: &Entry<'_>) -> Result<Ordering, Refusal> {
        order(plain::entry_compare(limits, self.plain(), other.plain()))
    }
}
