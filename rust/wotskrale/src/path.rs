//! Packed paths, lent and owned.

use core::cmp::Ordering;

use crate::{construction, least, reading, relation, writing, Limits, Refusal};

/// A lent packed path: a buffer with a count beside it.
///
/// The packed form has 8-byte little-endian numbers: the count k, then k accumulated lengths, then the bytes. The count beside
/// the buffer may be below k: then the path is the prefix of so many components. Making a `PathRef` tests nothing; every call
/// tests it against the limits that it is given, and refuses with [`BadPath`](Refusal::BadPath) what is not well formed.
/// One path can stand in many buffers, so there is no `==` on this type: see [`PathRef::equal`].
///
/// ```
/// use wotskrale::{Limits, Path, PathRef, Refusal};
///
/// let limits = Limits::new(2, 2, 3);
/// let path = Path::from_slices(limits, &[&[1], &[2]])?;
/// let cut = PathRef::new(path.bytes(), 1);
/// assert_eq!(cut.path_length(limits), Ok(1));
/// assert_eq!(PathRef::new(path.bytes(), 3).test(limits), Err(Refusal::BadPath));
/// # Ok::<(), Refusal>(())
/// ```
#[derive(Clone, Copy, Debug)]
pub struct PathRef<'a> {
    bytes: &'a [u8],
    count: u64,
}

impl<'a> PathRef<'a> {
    /// The first `count` components of the packed path in `bytes`.
    #[inline]
    pub const fn new(bytes: &'a [u8], count: u64) -> Self {
        PathRef { bytes, count }
    }

    /// The whole packed path in `bytes`: the count is the one that it begins with, or 0 where it is shorter than a number.
    #[inline]
    pub fn whole(bytes: &'a [u8]) -> Self {
        let count = match bytes.first_chunk::<8>() {
            Some(number) => u64::from_le_bytes(*number),
            None => 0,
        };
        PathRef { bytes, count }
    }

    /// The buffer.
    #[inline]
    pub const fn bytes(self) -> &'a [u8] {
        self.bytes
    }

    /// The count beside the buffer.
    #[inline]
    pub const fn count(self) -> u64 {
        self.count
    }

    /// Whether this is a path: see [`reading::test`].
    pub fn test(self, limits: Limits) -> Result<(), Refusal> {
        reading::test(limits, self)
    }

    /// How many components.
    pub fn component_count(self, limits: Limits) -> Result<u64, Refusal> {
        reading::component_count(limits, self)
    }

    /// Whether there is no component.
    pub fn is_empty(self, limits: Limits) -> Result<bool, Refusal> {
        reading::is_empty(limits, self)
    }

    /// How many bytes in all components.
    pub fn path_length(self, limits: Limits) -> Result<u64, Refusal> {
        reading::path_length(limits, self)
    }

    /// How many bytes in the first `n` components; none past the count.
    pub fn path_length_of_prefix(self, limits: Limits, n: u64) -> Result<Option<u64>, Refusal> {
        reading::path_length_of_prefix(limits, self, n)
    }

    /// The prefix of `n` components, in the same buffer; none past the count.
    pub fn create_prefix(self, limits: Limits, n: u64) -> Result<Option<PathRef<'a>>, Refusal> {
        reading::create_prefix(limits, self, n)
    }

    /// The bytes of component `i`; none past the count.
    ///
    /// ```
    /// use wotskrale::{Limits, Path, Refusal};
    ///
    /// let limits = Limits::new(2, 2, 3);
    /// let path = Path::from_slices(limits, &[&[1, 2], &[]])?;
    /// assert_eq!(path.lent().component(limits, 0)?, Some(vec![1, 2]));
    /// assert_eq!(path.lent().component(limits, 1)?, Some(vec![]));
    /// assert_eq!(path.lent().component(limits, 2)?, None);
    /// # Ok::<(), Refusal>(())
    /// ```
    pub fn component(self, limits: Limits, i: u64) -> Result<Option<Vec<u8>>, Refusal> {
        match reading::component_length(limits, self, i)? {
            None => Ok(None),
            Some(length) => {
                let mut out = vec![0; length as usize];
                Ok(writing::write_component(limits, self, i, &mut out)?.map(|_| out))
            }
        }
    }

    /// All components, first to last.
    pub fn components(self, limits: Limits) -> Result<Vec<Vec<u8>>, Refusal> {
        let mut all = Vec::new();
        while let Some(component) = self.component(limits, all.len() as u64)? {
            all.push(component);
        }
        Ok(all)
    }

    /// The order of two paths.
    pub fn compare(self, limits: Limits, other: PathRef<'_>) -> Result<Ordering, Refusal> {
        relation::compare(limits, self, other)
    }

    /// Whether two paths have the same components.
    pub fn equal(self, limits: Limits, other: PathRef<'_>) -> Result<bool, Refusal> {
        relation::equal(limits, self, other)
    }

    /// Whether this path is a prefix of the other.
    pub fn is_prefix_of(self, limits: Limits, other: PathRef<'_>) -> Result<bool, Refusal> {
        relation::is_prefix_of(limits, self, other)
    }

    /// Whether the other path is a prefix of this one.
    pub fn is_prefixed_by(self, limits: Limits, other: PathRef<'_>) -> Result<bool, Refusal> {
        relation::is_prefixed_by(limits, self, other)
    }

    /// Whether one of the two is a prefix of the other.
    pub fn is_related(self, limits: Limits, other: PathRef<'_>) -> Result<bool, Refusal> {
        relation::is_related(limits, self, other)
    }

    /// The longest common prefix, in this path's buffer.
    pub fn longest_common_prefix(
        self,
        limits: Limits,
        other: PathRef<'_>,
    ) -> Result<PathRef<'a>, Refusal> {
        let count = relation::longest_common_prefix(limits, self, other)?;
        Ok(PathRef::new(self.bytes, count))
    }

    /// An owned copy that holds no more than the components counted.
    pub fn to_path(self, limits: Limits) -> Result<Path, Refusal> {
        let made = perhaps_made(limits, self.bytes.len(), |out| {
            writing::write_prefix(limits, self, self.count, out)
        });
        // The count is that of the path, so there is such a prefix.
        made?.ok_or(Refusal::BadPath)
    }

    /// This path with a component behind it.
    pub fn append(self, limits: Limits, component: &[u8]) -> Result<Path, Refusal> {
        let room = self.bytes.len() + 8 + component.len();
        made(limits, room, |out| {
            construction::append(limits, self, component, out)
        })
    }

    /// This path with components behind it.
    pub fn append_slice(self, limits: Limits, components: &[&[u8]]) -> Result<Path, Refusal> {
        let (lengths, bytes) = parts(sum(components), components);
        let room = self.bytes.len() + lengths.len() + bytes.len();
        made(limits, room, |out| {
            construction::append_slice(limits, self, &lengths, &bytes, out)
        })
    }

    /// Room for the least paths above this one: they have at most one component and one byte more.
    fn room_above(self) -> usize {
        self.bytes.len() + 9
    }

    /// The least path above this one; none where this is the greatest.
    pub fn successor(self, limits: Limits) -> Result<Option<Path>, Refusal> {
        perhaps_made(limits, self.room_above(), |out| {
            least::successor(limits, self, out)
        })
    }

    /// The least path above this one that it does not prefix; none where there is no such path.
    ///
    /// ```
    /// use wotskrale::{Limits, Path, Refusal};
    ///
    /// let limits = Limits::new(2, 2, 3);
    /// let path = Path::from_slices(limits, &[&[1]])?;
    /// let next = path.lent().greater_but_not_prefixed(limits)?;
    /// assert_eq!(next, Some(Path::from_slices(limits, &[&[1, 0]])?));
    /// assert_eq!(Path::new_empty(limits)?.lent().greater_but_not_prefixed(limits)?, None);
    /// # Ok::<(), Refusal>(())
    /// ```
    pub fn greater_but_not_prefixed(self, limits: Limits) -> Result<Option<Path>, Refusal> {
        perhaps_made(limits, self.room_above(), |out| {
            least::greater_but_not_prefixed(limits, self, out)
        })
    }

    /// The end of the range that includes this path alone; none where that range is open.
    pub fn singleton_range(self, limits: Limits) -> Result<Option<Path>, Refusal> {
        perhaps_made(limits, self.room_above(), |out| {
            least::singleton_range(limits, self, out)
        })
    }
}

/// An owned packed path, as the core wrote it: its buffer holds its components and no byte more.
///
/// Two of them are equal exactly if they have the same components.
#[derive(Clone, Debug, PartialEq, Eq, Hash)]
pub struct Path {
    bytes: Vec<u8>,
}

impl Path {
    /// The path of no component.
    pub fn new_empty(limits: Limits) -> Result<Path, Refusal> {
        made(limits, 8, |out| construction::new_empty(limits, out))
    }

    /// The greatest path.
    ///
    /// ```
    /// use wotskrale::{Limits, Path, Refusal};
    ///
    /// let limits = Limits::new(4, 2, 6);
    /// let greatest = Path::new_max(limits)?;
    /// assert_eq!(greatest.lent().components(limits)?, [vec![0xff; 4], vec![0xff; 2]]);
    /// # Ok::<(), Refusal>(())
    /// ```
    pub fn new_max(limits: Limits) -> Result<Path, Refusal> {
        made(limits, limits.longest_packed(), |out| {
            least::new_max(limits, out)
        })
    }

    /// The path of one component.
    pub fn new_singleton(limits: Limits, component: &[u8]) -> Result<Path, Refusal> {
        made(limits, 16 + component.len(), |out| {
            construction::new_singleton(limits, component, out)
        })
    }

    /// The path of these components.
    ///
    /// ```
    /// use wotskrale::{Limits, Path, Refusal};
    ///
    /// let limits = Limits::new(2, 1, 3);
    /// assert_eq!(Path::from_slices(limits, &[&[1], &[2]]), Err(Refusal::TooManyComponents));
    /// assert_eq!(Path::from_slices(limits, &[&[1, 2, 3]]), Err(Refusal::ComponentTooLong));
    /// assert_eq!(Path::from_slices(limits, &[&[1, 2]])?.lent().path_length(limits), Ok(2));
    /// # Ok::<(), Refusal>(())
    /// ```
    pub fn from_slices(limits: Limits, components: &[&[u8]]) -> Result<Path, Refusal> {
        let (lengths, bytes) = parts(sum(components), components);
        let room = 8 + lengths.len() + bytes.len();
        made(limits, room, |out| {
            construction::from_slices(limits, &lengths, &bytes, out)
        })
    }

    /// The path of these components, which have `total` bytes together: [`BadLengths`](Refusal::BadLengths) where they do not.
    ///
    /// No more components are asked for once they pass `total`, and no more of them are kept than can make a path.
    ///
    /// ```
    /// use wotskrale::{Limits, Path, Refusal};
    ///
    /// let endless = std::iter::repeat(&[7_u8][..]);
    /// assert_eq!(Path::new_from_iter(Limits::new(2, 2, 3), 2, endless.clone()), Err(Refusal::BadLengths));
    /// assert!(Path::new_from_iter(Limits::new(2, 2, 3), 2, endless.take(2)).is_ok());
    /// ```
    pub fn new_from_iter<'c>(
        limits: Limits,
        total: u64,
        components: impl IntoIterator<Item = &'c [u8]>,
    ) -> Result<Path, Refusal> {
        let mut first = Vec::new();
        let mut sum: u128 = 0;
        for component in components {
            sum += component.len() as u128;
            if first.len() as u64 <= Limits::BOUNDS.mcc {
                first.push(component);
            }
            if sum > u128::from(total) {
                break;
            }
        }
        // Where the sum is cut, the stated number is changed with it, so that they are equal exactly if they were.
        let cut = u64::try_from(sum).map_or(TOO_LONG, |sum| sum.min(TOO_LONG));
        let stated = match cut {
            TOO_LONG if sum == u128::from(total) => TOO_LONG,
            TOO_LONG => 0,
            _ => total,
        };
        let (lengths, bytes) = parts(cut, &first);
        let room = 8 + lengths.len() + bytes.len();
        made(limits, room, |out| {
            construction::new_from_iter(limits, stated, &lengths, &bytes, out)
        })
    }

    /// A packed path that a call wrote to the front of a buffer.
    pub(crate) fn written(mut bytes: Vec<u8>, length: usize) -> Path {
        bytes.truncate(length);
        Path { bytes }
    }

    /// This path, lent to a call.
    #[inline]
    pub fn lent(&self) -> PathRef<'_> {
        PathRef::whole(&self.bytes)
    }

    /// The packed form.
    #[inline]
    pub fn bytes(&self) -> &[u8] {
        &self.bytes
    }

    /// The packed form, given away.
    pub fn into_bytes(self) -> Vec<u8> {
        self.bytes
    }
}

/// More bytes than any path has, whatever the limits are.
const TOO_LONG: u64 = Limits::BOUNDS.mpl + 1;

/// How many bytes components have together, but no more than [`TOO_LONG`].
fn sum(components: &[&[u8]]) -> u64 {
    let lengths = components.iter().map(|component| component.len() as u64);
    lengths.fold(0, |sum: u64, length| {
        sum.saturating_add(length).min(TOO_LONG)
    })
}

/// Component lengths as 8-byte numbers, and the components' bytes end to end.
///
/// They are those of `components`, which have `sum` bytes together (as [`sum`] says), unless they are more than any limits allow.
/// Then nothing is copied, and the core is handed something small that it refuses for the same reason: one component of
/// [`TOO_LONG`] bytes; or, where it is the count that passes every limit, `sum` bytes in one component more than any path has.
/// So components further behind need not be in the slice.
fn parts(sum: u64, components: &[&[u8]]) -> (Vec<u8>, Vec<u8>) {
    let behind = match (sum, components.len() as u64 > Limits::BOUNDS.mcc) {
        (TOO_LONG.., _) => 0,
        (_, true) => Limits::BOUNDS.mcc,
        (_, false) => {
            let mut lengths = Vec::with_capacity(8 * components.len());
            for component in components {
                lengths.extend_from_slice(&(component.len() as u64).to_le_bytes());
            }
            return (lengths, components.concat());
        }
    };
    let mut lengths = sum.to_le_bytes().to_vec();
    lengths.resize(8 * (1 + behind as usize), 0);
    (lengths, vec![0; sum as usize])
}

/// The path that a call writes. It has at most `room` bytes, or more than any packed path under the limits has: then the call
/// refuses for another reason than a short buffer, which has a greater number than all others here.
fn made(
    limits: Limits,
    room: usize,
    write: impl FnOnce(&mut [u8]) -> Result<usize, Refusal>,
) -> Result<Path, Refusal> {
    let path = perhaps_made(limits, room, |out| write(out).map(Some))?;
    // Written, so there is a path.
    path.ok_or(Refusal::OutTooSmall)
}

/// The path that a call writes, if there is one.
pub(crate) fn perhaps_made(
    limits: Limits,
    room: usize,
    write: impl FnOnce(&mut [u8]) -> Result<Option<usize>, Refusal>,
) -> Result<Option<Path>, Refusal> {
    let mut bytes = vec![0; room.min(limits.longest_packed())];
    Ok(write(&mut bytes)?.map(|length| Path::written(bytes, length)))
}
