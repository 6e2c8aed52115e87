//! Stores: entries that no other entry prunes, and the payload bytes held and let go.

use crate::path::perhaps_made;
use crate::refusal::{perhaps_written, tested, there, written};
use crate::{plain, Entry, Limits, Path, Refusal};

/// How many bytes a store of these sizes has; 0 where a size is over its bound, since no store is made of them.
pub const fn sheet_length(limits: Limits, capacity: u64) -> usize {
    if limits.within_bounds() && capacity <= crate::MAX_CAPACITY {
        64 + capacity as usize * (56 + limits.longest_packed())
    } else {
        0
    }
}

/// What became of an offer.
#[derive(Clone, Copy, Debug, PartialEq, Eq, Hash)]
pub enum Offered {
    /// It is held now, and this many entries that it prunes are not.
    Taken(u64),
    /// A held entry prunes it.
    Outdated,
    /// A held entry equals it in every field.
    Repeat,
}

/// The numbers at the front of a store.
#[derive(Clone, Copy, Debug, PartialEq, Eq)]
pub struct Numbers {
    /// The limits of its paths.
    pub limits: Limits,
    /// For how many entries there is room.
    pub capacity: u64,
    /// How many entries are held.
    pub count: u64,
    /// The namespace.
    pub namespace: u64,
    /// The payload bytes of the entries held.
    pub held: u64,
    /// The payload bytes let go: of outdated offers, of repeats, and of pruned entries.
    pub let_go: u64,
}

/// An entry of a store but for its path.
#[derive(Clone, Copy, Debug, PartialEq, Eq)]
pub struct Head {
    /// The subspace.
    pub subspace: u64,
    /// The timestamp.
    pub timestamp: u64,
    /// The payload's length.
    pub payload_length: u64,
    /// How many components the path has.
    pub count: u64,
    /// The payload's digest.
    pub digest: [u8; 32],
}

/// A store in a sheet of its own or a lent one. Every call tests the sheet, which anyone may have changed.
///
/// ```
/// use wotskrale::{Entry, Limits, Offered, Path, Refusal, Store};
///
/// let limits = Limits::new(2, 2, 3);
/// let mut store = Store::fresh(limits, 1, 0)?;
/// let (weld, below, all) = (
///     Path::from_slices(limits, &[&[1]])?,
///     Path::from_slices(limits, &[&[1], &[2]])?,
///     Path::new_empty(limits)?,
/// );
/// let first = Entry { namespace: 0, subspace: 0, path: weld.lent(), timestamp: 5, payload_length: 10, digest: [0; 32] };
/// assert_eq!(store.offer(&first)?, Offered::Taken(0));
/// let older = Entry { path: below.lent(), timestamp: 4, payload_length: 7, ..first };
/// assert_eq!(store.offer(&older)?, Offered::Outdated);
/// let newer = Entry { path: all.lent(), timestamp: 6, payload_length: 1, ..first };
/// assert_eq!(store.offer(&newer)?, Offered::Taken(1));
/// let numbers = store.numbers()?;
/// assert_eq!((numbers.held, numbers.let_go), (1, 17));
/// assert_eq!(store.entry(0)?.map(|head| head.timestamp), Some(6));
/// # Ok::<(), Refusal>(())
/// ```
#[derive(Clone, Debug)]
pub struct Store<B = Vec<u8>> {
    sheet: B,
}

impl Store {
    /// A store with no entry, and room for so many.
    pub fn fresh(limits: Limits, capacity: u64, namespace: u64) -> Result<Self, Refusal> {
        let mut sheet = vec![0; sheet_length(limits, capacity)];
        let fresh = plain::store_fresh(limits, capacity, namespace, &mut sheet);
        let length = written(fresh)?;
        sheet.truncate(length);
        Ok(Store { sheet })
    }
}

impl<B: AsRef<[u8]>> Store<B> {
    /// A store in a buffer, which may be longer than the sheet. Nothing is tested here.
    pub const fn lent(sheet: B) -> Self {
        Store { sheet }
    }

    /// The buffer.
    pub fn bytes(&self) -> &[u8] {
        self.sheet.as_ref()
    }

    /// Whether the buffer begins with a store: [`BadSheet`](Refusal::BadSheet) where it does not.
    pub fn test(&self) -> Result<(), Refusal> {
        tested(plain::store_test(self.bytes()))
    }

    /// The numbers at the front.
    pub fn numbers(&self) -> Result<Numbers, Refusal> {
        let n = plain::store_numbers(self.bytes());
        tested(n.status)?;
        Ok(Numbers {
            limits: Limits::new(n.mcl, n.mcc, n.mpl),
            capacity: n.capacity,
            count: n.count,
            namespace: n.namespace,
            held: n.held,
            let_go: n.let_go,
        })
    }

    /// Entry `i` but for its path, by subspace and then path; none past the last.
    pub fn entry(&self, i: u64) -> Result<Option<Head>, Refusal> {
        let entry = plain::store_entry(self.bytes(), i);
        Ok(there(entry.status)?.then_some(Head {
            subspace: entry.subspace,
            timestamp: entry.timestamp,
            payload_length: entry.payload_length,
            count: entry.count,
            digest: entry.digest,
        }))
    }

    /// The path of entry `i`; none past the last.
    pub fn entry_path(&self, i: u64) -> Result<Option<Path>, Refusal> {
        perhaps_made(Limits::BOUNDS, self.bytes().len(), |out| {
            self.write_entry_path(i, out)
        })
    }

    /// The packed path of entry `i` written to the front of a buffer: its length; none past the last.
    pub fn write_entry_path(&self, i: u64, out: &mut [u8]) -> Result<Option<usize>, Refusal> {
        perhaps_written(plain::store_entry_path(self.bytes(), i, out))
    }
}

impl<B: AsMut<[u8]>> Store<B> {
    /// Offers an entry. A refusal leaves the store as it was.
    pub fn offer(&mut self, entry: &Entry<'_>) -> Result<Offered, Refusal> {
        let offered = plain::store_offer(self.sheet.as_mut(), entry.plain());
        tested(offered.status)?;
        Ok(match offered.answer {
            0 => Offered::Taken(offered.pruned),
            1 => Offered::Outdated,
            _ => Offered::Repeat,
        })
    }
}
