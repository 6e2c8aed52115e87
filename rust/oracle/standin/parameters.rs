// Stand-in for the parameters, which are not supplied: subspace ids are unsigned 64-bit numbers, and an id's successor is the
// next number, none at the greatest.

use crate::entry::Entry;

/// What range_3d.rs asks of a subspace id.
pub trait SubspaceId: Ord + Default + Clone {
    /// The least id above this one.
    fn successor(&self) -> Option<Self>;
}

impl SubspaceId for u64 {
    fn successor(&self) -> Option<Self> {
        self.checked_add(1)
    }
}

/// What entry.rs asks of a token. Authorisation is not carried over.
pub trait AuthorisationToken<const MCL: usize, const MCC: usize, const MPL: usize, N, S, PD> {
    /// Whether the token permits the entry.
    fn is_authorised_write(&self, entry: &Entry<MCL, MCC, MPL, N, S, PD>) -> bool;
}
