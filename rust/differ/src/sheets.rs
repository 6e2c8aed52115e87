//! Plain models of a sheet and of the area map's, written from document 01: the layout, the reading of bytes that may be no
//! sheet, and what a map lists.

use wotskrale::{AreaSubspace, Limits, Range, RangeEnd, MAX_CAPACITY};

use crate::inputs::Random;
use crate::model::{self, pack, Parts};

/// The bytes of a path cell.
pub fn cell_size(limits: Limits) -> usize {
    8 * (limits.mcc as usize + 1) + limits.mpl as usize
}

/// A sheet: numbers, then so many heads, then so many cells; unused ones are zero.
pub fn lay_out(
    numbers: &[u64],
    capacity: u64,
    head: usize,
    limits: Limits,
    rows: &[(Vec<u8>, &Parts)],
) -> Vec<u8> {
    let mut sheet: Vec<u8> = numbers.iter().flat_map(|n| n.to_le_bytes()).collect();
    let padded = |sheet: &mut Vec<u8>, bytes: &[u8], size: usize| {
        let end = sheet.len() + size;
        sheet.extend_from_slice(bytes);
        sheet.resize(end, 0);
    };
    let unused = capacity as usize - rows.len();
    for (bytes, _) in rows {
        padded(&mut sheet, bytes, head);
    }
    padded(&mut sheet, &[], unused * head);
    for (_, path) in rows {
        padded(&mut sheet, &pack(path), cell_size(limits));
    }
    padded(&mut sheet, &[], unused * cell_size(limits));
    sheet
}

pub fn number(bytes: &[u8], i: usize) -> Option<u64> {
    let bytes = bytes.get(8 * i..8 * i + 8)?;
    Some(u64::from_le_bytes(bytes.try_into().ok()?))
}

/// The sizes at the front of a sheet of `numbers` numbers and heads of `head` bytes, where none is over its bound and the
/// buffer is long enough: limits, capacity, count, and the sheet's length.
pub fn sizes(buffer: &[u8], numbers: usize, head: usize) -> Option<(Limits, u64, u64, usize)> {
    let limits = Limits::new(number(buffer, 0)?, number(buffer, 1)?, number(buffer, 2)?);
    let (capacity, count) = (number(buffer, 3)?, number(buffer, 4)?);
    if !limits.within_bounds() || capacity > MAX_CAPACITY || count > capacity {
        return None;
    }
    let length = 8 * numbers + capacity as usize * (head + cell_size(limits));
    (length <= buffer.len()).then_some((limits, capacity, count, length))
}

/// The path in a cell, as far as it can be read; whether the rest is zero is seen when it is laid out again.
pub fn in_cell(limits: Limits, cell: &[u8]) -> Option<Parts> {
    let count = number(cell, 0)?;
    if count > limits.mcc {
        return None;
    }
    let bytes = if count == 0 {
        0
    } else {
        number(cell, count as usize)?
    };
    let length = (count + 1).checked_mul(8)?.checked_add(bytes)?;
    model::read(limits, cell.get(..usize::try_from(length).ok()?)?, count)
}

/// A rule of a map.
#[derive(Clone, Debug, PartialEq)]
pub struct Rule {
    /// The subspaces.
    pub subspace: AreaSubspace,
    /// The path.
    pub path: Parts,
    /// The times.
    pub times: Range<u64>,
    /// The value.
    pub value: u64,
}

/// A kind and a number as an end or a subspace: nothing for another kind, or where a number stands beside kind 0.
fn choice(kind: u64, number: u64) -> Option<Option<u64>> {
    match (kind, number) {
        (0, 0) => Some(None),
        (1, n) => Some(Some(n)),
        _ => None,
    }
}

fn numbers_of(choice: Option<u64>) -> [u64; 2] {
    [u64::from(choice.is_some()), choice.unwrap_or(0)]
}

fn id(subspace: AreaSubspace) -> Option<u64> {
    match subspace {
        AreaSubspace::Any => None,
        AreaSubspace::Id(id) => Some(id),
    }
}

impl Rule {
    fn head(&self) -> Vec<u8> {
        let end = numbers_of(self.times.get_end().copied());
        let subspace = numbers_of(id(self.subspace));
        let numbers = [
            subspace[0],
            subspace[1],
            self.times.start,
            end[0],
            end[1],
            self.value,
        ];
        numbers.iter().flat_map(|n| n.to_le_bytes()).collect()
    }

    /// Whether the area of this rule intersects another's.
    pub fn meets(&self, other: &Rule) -> bool {
        let subspaces = match (id(self.subspace), id(other.subspace)) {
            (Some(a), Some(b)) => a == b,
            _ => true,
        };
        let related = self.path.starts_with(&other.path) || other.path.starts_with(&self.path);
        let start = self.times.start.max(other.times.start);
        let within = |times: &Range<u64>| times.get_end().is_none_or(|end| start < *end);
        subspaces && related && within(&self.times) && within(&other.times)
    }
}

/// An area map.
#[derive(Clone, Debug)]
pub struct Map {
    /// The limits.
    pub limits: Limits,
    /// For how many rules there is room.
    pub capacity: u64,
    /// The rules, in insertion order.
    pub rules: Vec<Rule>,
}

impl Map {
    /// The sheet.
    pub fn layout(&self) -> Vec<u8> {
        let l = self.limits;
        let numbers = [l.mcl, l.mcc, l.mpl, self.capacity, self.rules.len() as u64];
        let rows: Vec<(Vec<u8>, &Parts)> = self.rules.iter().map(|r| (r.head(), &r.path)).collect();
        lay_out(&numbers, self.capacity, 48, l, &rows)
    }

    /// The map that a buffer begins with, if there is one: read leniently, and laid out again.
    pub fn read(buffer: &[u8]) -> Option<Map> {
        let (limits, capacity, count, length) = sizes(buffer, 5, 48)?;
        let cells = 40 + capacity as usize * 48;
        let rule = |i: usize| {
            let head = &buffer[40 + 48 * i..];
            let at = cells + i * cell_size(limits);
            let subspace = choice(number(head, 0)?, number(head, 1)?)?;
            let end = choice(number(head, 3)?, number(head, 4)?)?;
            Some(Rule {
                subspace: subspace.map_or(AreaSubspace::Any, AreaSubspace::Id),
                path: in_cell(limits, &buffer[at..at + cell_size(limits)])?,
                times: Range::new(
                    number(head, 2)?,
                    end.map_or(RangeEnd::Open, RangeEnd::Closed),
                ),
                value: number(head, 5)?,
            })
        };
        let rules = (0..count as usize)
            .map(rule)
            .collect::<Option<Vec<Rule>>>()?;
        let map = Map {
            limits,
            capacity,
            rules,
        };
        (map.layout() == buffer[..length]).then_some(map)
    }

    /// The positions of the rules that meet an area.
    pub fn intersecting(&self, area: &Rule) -> Vec<u64> {
        let positions = (0..).zip(&self.rules).filter(|(_, rule)| rule.meets(area));
        positions.map(|(position, _)| position).collect()
    }
}

/// A sheet with each byte changed, cut short, extended, and noise in its place. `step` skips bytes of long ones.
pub fn changed(sheet: &[u8], step: usize, random: &mut Random, mut damaged: impl FnMut(&[u8])) {
    for at in (0..sheet.len()).step_by(step.max(1)) {
        let old = sheet[at];
        let mut bytes = sheet.to_vec();
        for new in [old ^ 1, old ^ 0x80, old.wrapping_sub(1), 0xff, 2] {
            bytes[at] = new;
            if new != old {
                damaged(&bytes);
            }
        }
    }
    for cut in (0..sheet.len()).step_by(step.max(1)) {
        damaged(&sheet[..cut]);
    }
    damaged(&[sheet, &[7; 3]].concat());
    let noise: Vec<u8> = (0..random.below(300))
        .map(|_| random.next() as u8 & 1)
        .collect();
    damaged(&noise);
}
