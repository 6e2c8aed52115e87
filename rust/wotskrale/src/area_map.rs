//! Area maps: values by area, in the order in which they were inserted.

use crate::area::AreaSubspace;
use crate::path::perhaps_made;
use crate::range::end_of;
use crate::refusal::{always, perhaps_written, tested, there, written};
use crate::{plain, Area, Limits, Path, Range, Refusal};

/// How many bytes a map of these sizes has; 0 where a size is over its bound, since no map is made of them.
pub const fn sheet_length(limits: Limits, capacity: u64) -> usize {
    if limits.within_bounds() && capacity <= crate::MAX_CAPACITY {
        40 + capacity as usize * (48 + limits.longest_packed())
    } else {
        0
    }
}

/// A rule of a map but for its path.
#[derive(Clone, Copy, Debug, PartialEq, Eq)]
pub struct Rule {
    /// The subspaces.
    pub subspace: AreaSubspace,
    /// How many components the path has.
    pub count: u64,
    /// The times.
    pub times: Range<u64>,
    /// The value.
    pub value: u64,
}

/// An area map in a sheet of its own or a lent one. Every call tests the sheet, which anyone may have changed.
///
/// ```
/// use wotskrale::{Area, AreaMap, Limits, Refusal};
///
/// let limits = Limits::new(2, 2, 3);
/// let mut map = AreaMap::fresh(limits, 2)?;
/// assert_eq!(map.insert(Area::new_subspace(1), 70)?, 0);
/// assert_eq!(map.insert(Area::new_subspace(2), 80)?, 1);
/// assert_eq!(map.insert(Area::new_full(), 90), Err(Refusal::NoRoom));
/// assert_eq!(map.intersecting(Area::new_subspace(2))?, [1]);
/// assert_eq!(map.rule(1)?.map(|rule| rule.value), Some(80));
/// # Ok::<(), Refusal>(())
/// ```
#[derive(Clone, Debug)]
pub struct AreaMap<B = Vec<u8>> {
    sheet: B,
}

impl AreaMap {
    /// A map with no rule, and room for so many.
    pub fn fresh(limits: Limits, capacity: u64) -> Result<Self, Refusal> {
        let mut sheet = vec![0; sheet_length(limits, capacity)];
        let length = written(plain::map_fresh(limits, capacity, &mut sheet))?;
        sheet.truncate(length);
        Ok(AreaMap { sheet })
    }
}

impl<B: AsRef<[u8]>> AreaMap<B> {
    /// A map in a buffer, which may be longer than the sheet. Nothing is tested here.
    pub const fn lent(sheet: B) -> Self {
        AreaMap { sheet }
    }

    /// The buffer.
    pub fn bytes(&self) -> &[u8] {
        self.sheet.as_ref()
    }

    /// Whether the buffer begins with a map: [`BadSheet`](Refusal::BadSheet) where it does not.
    pub fn test(&self) -> Result<(), Refusal> {
        tested(plain::map_test(self.bytes()))
    }

    /// How many rules.
    pub fn count(&self) -> Result<u64, Refusal> {
        always(plain::map_count(self.bytes()))
    }

    /// Rule `i` but for its path; none past the last.
    pub fn rule(&self, i: u64) -> Result<Option<Rule>, Refusal> {
        let rule = plain::map_rule(self.bytes(), i);
        Ok(there(rule.status)?.then(|| Rule {
            subspace: AreaSubspace::of(rule.subspace_kind, rule.subspace),
            count: rule.count,
            times: Range::new(rule.start, end_of(rule.end_kind, rule.end)),
            value: rule.value,
        }))
    }

    /// The path of rule `i`; none past the last.
    pub fn rule_path(&self, i: u64) -> Result<Option<Path>, Refusal> {
        perhaps_made(Limits::BOUNDS, self.bytes().len(), |out| {
            self.write_rule_path(i, out)
        })
    }

    /// The packed path of rule `i` written to the front of a buffer: its length; none past the last.
    pub fn write_rule_path(&self, i: u64, out: &mut [u8]) -> Result<Option<usize>, Refusal> {
        perhaps_written(plain::map_rule_path(self.bytes(), i, out))
    }

    /// The positions of the rules whose area intersects an area, in the order in which they were inserted.
    pub fn intersecting(&self, area: Area<'_>) -> Result<Vec<u64>, Refusal> {
        let mut out = vec![0; 8 * self.count()? as usize];
        let count = self.write_intersecting(area, &mut out)?;
        let numbers = out.chunks_exact(8).filter_map(|n| n.first_chunk());
        let numbers = numbers.map(|n| u64::from_le_bytes(*n));
        Ok(numbers.take(count).collect())
    }

    /// The same positions in 8 bytes each, written to the front of a buffer: how many.
    pub fn write_intersecting(&self, area: Area<'_>, out: &mut [u8]) -> Result<usize, Refusal> {
        written(plain::map_intersecting(self.bytes(), area.into(), out))
    }
}

impl<B: AsMut<[u8]>> AreaMap<B> {
    /// An area with a value inserted behind the others: the position that it took.
    pub fn insert(&mut self, area: Area<'_>, value: u64) -> Result<u64, Refusal> {
        always(plain::map_insert(self.sheet.as_mut(), area.into(), value))
    }
}
