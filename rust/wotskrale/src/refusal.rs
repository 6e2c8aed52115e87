//! Why a call was refused.

use core::cmp::Ordering;
use core::fmt;

use crate::plain::Answer;

/// Why a call was refused. Every refusal has a number; where several apply, the smallest is given.
///
/// ```
/// use wotskrale::Refusal;
///
/// assert_eq!(Refusal::BadPath.number(), 5);
/// assert_eq!(Refusal::from_number(5), Refusal::BadPath);
/// assert_eq!(Refusal::BadPath.to_string(), "refused 5: a lent packed path is not well formed");
/// ```
#[derive(Clone, Copy, Debug, PartialEq, Eq, Hash)]
#[non_exhaustive]
pub enum Refusal {
    /// 1: a limit or a sheet's capacity is over its bound.
    BadLimits,
    /// 2: a lent sheet is too short, breaks its layout, or holds sizes over the bounds.
    BadSheet,
    /// 3: a kind is neither 0 nor 1, or a key line is not of its form.
    BadKind,
    /// 4: an offered entry's namespace is not the store's.
    WrongNamespace,
    /// 5: a lent packed path is not well formed, or a builder's buffer disagrees with its counts.
    BadPath,
    /// 6: component lengths do not add up to the bytes lent with them.
    BadLengths,
    /// 7: the total length is over MPL.
    PathTooLong,
    /// 8: the count is over MCC.
    TooManyComponents,
    /// 9: a component is over MCL bytes.
    ComponentTooLong,
    /// 10: a builder is started from more components than the reference has.
    NoSuchPrefix,
    /// 11: a component or prefix would pass the builder's declared count or length.
    Overfilled,
    /// 12: a build with count or length short of what was declared.
    Unfinished,
    /// 13: held bytes, let-go bytes and the offered payload length pass 2^64 − 1 together.
    TotalFull,
    /// 14: a store or map has no room.
    NoRoom,
    /// 15: the buffer for the answer is too short.
    OutTooSmall,
    /// A number that this crate has no name for: the archives are newer than it.
    Unnamed(u64),
}

impl Refusal {
    /// All refusals that have a name, by number from 1.
    pub const NAMED: [Refusal; 15] = [
        Refusal::BadLimits,
        Refusal::BadSheet,
        Refusal::BadKind,
        Refusal::WrongNamespace,
        Refusal::BadPath,
        Refusal::BadLengths,
        Refusal::PathTooLong,
        Refusal::TooManyComponents,
        Refusal::ComponentTooLong,
        Refusal::NoSuchPrefix,
        Refusal::Overfilled,
        Refusal::Unfinished,
        Refusal::TotalFull,
        Refusal::NoRoom,
        Refusal::OutTooSmall,
    ];

    /// The refusal's number.
    pub const fn number(self) -> u64 {
        match self {
            Refusal::BadLimits => 1,
            Refusal::BadSheet => 2,
            Refusal::BadKind => 3,
            Refusal::WrongNamespace => 4,
            Refusal::BadPath => 5,
            Refusal::BadLengths => 6,
            Refusal::PathTooLong => 7,
            Refusal::TooManyComponents => 8,
            Refusal::ComponentTooLong => 9,
            Refusal::NoSuchPrefix => 10,
            Refusal::Overfilled => 11,
            Refusal::Unfinished => 12,
            Refusal::TotalFull => 13,
            Refusal::NoRoom => 14,
            Refusal::OutTooSmall => 15,
            Refusal::Unnamed(number) => number,
        }
    }

    /// The refusal of a number.
    pub const fn from_number(number: u64) -> Refusal {
        match number {
            1..=15 => Refusal::NAMED[number as usize - 1],
            _ => Refusal::Unnamed(number),
        }
    }

    const fn words(self) -> &'static str {
        match self {
            Refusal::BadLimits => "a limit or a capacity is over its bound",
            Refusal::BadSheet => "a lent sheet is not well formed",
            Refusal::BadKind => "a kind is neither 0 nor 1, or a line is not of its form",
            Refusal::WrongNamespace => "the entry's namespace is not the store's",
            Refusal::BadPath => "a lent packed path is not well formed",
            Refusal::BadLengths => "component lengths do not add up to the bytes",
            Refusal::PathTooLong => "the path has too many bytes",
            Refusal::TooManyComponents => "the path has too many components",
            Refusal::ComponentTooLong => "a component has too many bytes",
            Refusal::NoSuchPrefix => "the reference has fewer components",
            Refusal::Overfilled => "more than the builder was declared for",
            Refusal::Unfinished => "less than the builder was declared for",
            Refusal::TotalFull => "the totals would pass 2^64 − 1",
            Refusal::NoRoom => "there is no room",
            Refusal::OutTooSmall => "the buffer for the answer is too short",
            Refusal::Unnamed(_) => "for a reason that this version does not name",
        }
    }
}

impl fmt::Display for Refusal {
    fn fmt(&self, f: &mut fmt::Formatter<'_>) -> fmt::Result {
        write!(f, "refused {}: {}", self.number(), self.words())
    }
}

impl std::error::Error for Refusal {}

/// The status of "none".
const NONE: u64 = 255;

/// A status with no value beside it.
#[inline]
pub(crate) fn tested(status: u64) -> Result<(), Refusal> {
    match status {
        0 => Ok(()),
        number => Err(Refusal::from_number(number)),
    }
}

/// Whether a status stands beside an answer; not where it is that of none.
#[inline]
pub(crate) fn there(status: u64) -> Result<bool, Refusal> {
    match status {
        NONE => Ok(false),
        _ => tested(status).map(|()| true),
    }
}

/// An answer that is never none.
#[inline]
pub(crate) fn always(answer: Answer) -> Result<u64, Refusal> {
    tested(answer.status).map(|()| answer.value)
}

/// An answer that may be none.
#[inline]
pub(crate) fn perhaps(answer: Answer) -> Result<Option<u64>, Refusal> {
    Ok(there(answer.status)?.then_some(answer.value))
}

/// A yes or no.
#[inline]
pub(crate) fn yes(answer: Answer) -> Result<bool, Refusal> {
    always(answer).map(|n| n != 0)
}

/// An order: 0 less, 1 equal, 2 greater.
#[inline]
pub(crate) fn order(answer: Answer) -> Result<Ordering, Refusal> {
    always(answer).map(|n| match n {
        0 => Ordering::Less,
        1 => Ordering::Equal,
        _ => Ordering::Greater,
    })
}

/// How many bytes were written. A number of bytes in memory fits a `usize`.
#[inline]
pub(crate) fn written(answer: Answer) -> Result<usize, Refusal> {
    always(answer).map(|n| n as usize)
}

/// How many bytes were written, if there was something to write.
#[inline]
pub(crate) fn perhaps_written(answer: Answer) -> Result<Option<usize>, Refusal> {
    perhaps(answer).map(|n| n.map(|n| n as usize))
}
