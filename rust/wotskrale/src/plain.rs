//! The exported calls with plain numbers and byte buffers: their declarations, and one safe function over each. Nowhere else
//! does this crate need `unsafe`.
//!
//! The other modules say the same in types; this one is for a host that keeps kinds and counts as numbers, and so can be given
//! a kind that is neither 0 nor 1 ([`BadKind`](crate::Refusal::BadKind)). Every function returns the core's own answer: a
//! status (0 an answer, 1 to 63 a refusal's number, 255 none) and values, 0 unless there is an answer.
//!
//! The core passes a slice as a pointer and then a length, in place, and hands back plain numbers. Every call is proved to read
//! and write within the slices that it is lent, for all numbers and all bytes, and to keep nothing of them. So what is left to
//! the caller is that a pointer and its length belong together and that a buffer to write overlaps no other: both follow here
//! from taking them as Rust slices.

#![allow(unsafe_code)]

use crate::{Limits, PathRef};

/// An answer that is one number.
#[repr(C)]
#[derive(Clone, Copy, Debug, PartialEq, Eq)]
pub struct Answer {
    /// 0 an answer, 1 to 63 a refusal, 255 none.
    pub status: u64,
    /// The answer.
    pub value: u64,
}

/// An answer that is a range of numbers.
#[repr(C)]
#[derive(Clone, Copy, Debug, PartialEq, Eq)]
pub struct RangeAnswer {
    /// 0 an answer, 1 to 63 a refusal, 255 none.
    pub status: u64,
    /// The start.
    pub start: u64,
    /// 0 open, 1 closed.
    pub end_kind: u64,
    /// The end, 0 where it is open.
    pub end: u64,
}

/// Whose start and whose end an intersection of path ranges has: 0 the first's, 1 the second's.
#[repr(C)]
#[derive(Clone, Copy, Debug, PartialEq, Eq)]
pub struct SidesAnswer {
    /// 0 an answer, 1 to 63 a refusal, 255 none.
    pub status: u64,
    /// Whose start.
    pub start: u64,
    /// 0 open, 1 closed.
    pub end_kind: u64,
    /// Whose end, 0 where it is open.
    pub end: u64,
}

/// An answer that is an area, whose path is one of the two lent ones.
#[repr(C)]
#[derive(Clone, Copy, Debug, PartialEq, Eq)]
pub struct AreaAnswer {
    /// 0 an answer, 1 to 63 a refusal, 255 none.
    pub status: u64,
    /// Whose path: 0 the first's, 1 the second's.
    pub whose: u64,
    /// Its count.
    pub count: u64,
    /// 0 any, 1 one id.
    pub subspace_kind: u64,
    /// The id, 0 where it is any.
    pub subspace: u64,
    /// The start of the times.
    pub start: u64,
    /// 0 open, 1 closed.
    pub end_kind: u64,
    /// The end of the times, 0 where it is open.
    pub end: u64,
}

/// An answer that is an area of interest: an area as in [`AreaAnswer`], and two numbers.
#[repr(C)]
#[derive(Clone, Copy, Debug, PartialEq, Eq)]
pub struct InterestAnswer {
    /// 0 an answer, 1 to 63 a refusal, 255 none.
    pub status: u64,
    /// Whose path: 0 the first's, 1 the second's.
    pub whose: u64,
    /// Its count.
    pub count: u64,
    /// 0 any, 1 one id.
    pub subspace_kind: u64,
    /// The id, 0 where it is any.
    pub subspace: u64,
    /// The start of the times.
    pub start: u64,
    /// 0 open, 1 closed.
    pub end_kind: u64,
    /// The end of the times, 0 where it is open.
    pub end: u64,
    /// The smaller count.
    pub max_count: u64,
    /// The smaller size.
    pub max_size: u64,
}

/// An answer that is a 3d range: two ranges of numbers, and whose start and whose end its range of paths has.
#[repr(C)]
#[derive(Clone, Copy, Debug, PartialEq, Eq)]
pub struct Range3dAnswer {
    /// 0 an answer, 1 to 63 a refusal, 255 none.
    pub status: u64,
    /// The start of the subspaces.
    pub subspace_start: u64,
    /// 0 open, 1 closed.
    pub subspace_end_kind: u64,
    /// The end of the subspaces, 0 where it is open.
    pub subspace_end: u64,
    /// Whose start of the paths: 0 the first's, 1 the second's.
    pub path_start: u64,
    /// 0 open, 1 closed.
    pub path_end_kind: u64,
    /// Whose end of the paths, 0 where it is open.
    pub path_end: u64,
    /// The start of the times.
    pub time_start: u64,
    /// 0 open, 1 closed.
    pub time_end_kind: u64,
    /// The end of the times, 0 where it is open.
    pub time_end: u64,
}

/// An area as a 3d range: its paths start at the area's own, and end at the path that was written, if there is one.
#[repr(C)]
#[derive(Clone, Copy, Debug, PartialEq, Eq)]
pub struct ConvertedAnswer {
    /// 0 an answer, 1 to 63 a refusal.
    pub status: u64,
    /// The start of the subspaces.
    pub subspace_start: u64,
    /// 0 open, 1 closed.
    pub subspace_end_kind: u64,
    /// The end of the subspaces, 0 where it is open.
    pub subspace_end: u64,
    /// The count of the area's path.
    pub start_count: u64,
    /// 0 open, 1 closed.
    pub path_end_kind: u64,
    /// The count of the path that was written, 0 where it is open.
    pub end_count: u64,
    /// How many bytes were written.
    pub written: u64,
    /// The start of the times.
    pub time_start: u64,
    /// 0 open, 1 closed.
    pub time_end_kind: u64,
    /// The end of the times, 0 where it is open.
    pub time_end: u64,
}

/// A rule of an area map but for its path.
#[repr(C)]
#[derive(Clone, Copy, Debug, PartialEq, Eq)]
pub struct RuleAnswer {
    /// 0 an answer, 1 to 63 a refusal, 255 none.
    pub status: u64,
    /// 0 any, 1 one id.
    pub subspace_kind: u64,
    /// The id, 0 where it is any.
    pub subspace: u64,
    /// The count of the path.
    pub count: u64,
    /// The start of the times.
    pub start: u64,
    /// 0 open, 1 closed.
    pub end_kind: u64,
    /// The end of the times, 0 where it is open.
    pub end: u64,
    /// The rule's value.
    pub value: u64,
}

/// The state of a builder, which its buffer has to agree with. The host keeps both, and passes both to every call.
#[repr(C)]
#[derive(Clone, Copy, Debug, PartialEq, Eq)]
pub struct Builder {
    /// The most bytes in a component.
    pub mcl: u64,
    /// The most components in a path.
    pub mcc: u64,
    /// The most bytes in a path.
    pub mpl: u64,
    /// The declared length.
    pub length: u64,
    /// The declared count.
    pub count: u64,
    /// How many components were appended.
    pub appended: u64,
}

/// What starting a builder and appending to it return.
#[repr(C)]
#[derive(Clone, Copy, Debug, PartialEq, Eq)]
pub struct BuilderAnswer {
    /// 0 or a refusal's number.
    pub status: u64,
    /// The state; as it was passed after a refused append, zeros after a refused start.
    pub state: Builder,
}

/// What building returns.
#[repr(C)]
#[derive(Clone, Copy, Debug, PartialEq, Eq)]
pub struct BuiltAnswer {
    /// 0 or a refusal's number.
    pub status: u64,
    /// How many bytes from the front of the buffer are the packed path.
    pub value: u64,
    /// The state as it was passed after a refusal, else zeros.
    pub state: Builder,
}

/// What an offer to a store returns.
#[repr(C)]
#[derive(Clone, Copy, Debug, PartialEq, Eq)]
pub struct OfferAnswer {
    /// 0 or a refusal's number.
    pub status: u64,
    /// 0 taken, 1 outdated, 2 a repeat.
    pub answer: u64,
    /// How many entries a taken offer pruned.
    pub pruned: u64,
}

/// The numbers at the front of a store.
#[repr(C)]
#[derive(Clone, Copy, Debug, PartialEq, Eq)]
pub struct StoreAnswer {
    /// 0 or a refusal's number.
    pub status: u64,
    /// The most bytes in a component.
    pub mcl: u64,
    /// The most components in a path.
    pub mcc: u64,
    /// The most bytes in a path.
    pub mpl: u64,
    /// For how many entries there is room.
    pub capacity: u64,
    /// How many entries are held.
    pub count: u64,
    /// The store's namespace.
    pub namespace: u64,
    /// The payload bytes of the entries held.
    pub held: u64,
    /// The payload bytes that were let go.
    pub let_go: u64,
}

/// An entry of a store but for its path.
#[repr(C)]
#[derive(Clone, Copy, Debug, PartialEq, Eq)]
pub struct EntryAnswer {
    /// 0 an answer, 1 to 63 a refusal, 255 none.
    pub status: u64,
    /// The subspace.
    pub subspace: u64,
    /// The timestamp.
    pub timestamp: u64,
    /// The payload's length.
    pub payload_length: u64,
    /// The count of the path.
    pub count: u64,
    /// The payload's digest.
    pub digest: [u8; 32],
}

/// An end of numbers as it is passed: kind 0 open, 1 closed. The number beside kind 0 is not read.
#[derive(Clone, Copy, Debug, PartialEq, Eq)]
pub struct End {
    /// 0 open, 1 closed.
    pub kind: u64,
    /// The end.
    pub end: u64,
}

/// A range of numbers as it is passed.
#[derive(Clone, Copy, Debug, PartialEq, Eq)]
pub struct Range {
    /// The start.
    pub start: u64,
    /// The end.
    pub end: End,
}

/// An end of paths as it is passed. The path beside kind 0 is not read.
#[derive(Clone, Copy, Debug)]
pub struct PathEnd<'a> {
    /// 0 open, 1 closed.
    pub kind: u64,
    /// The end.
    pub end: PathRef<'a>,
}

/// A range of paths as it is passed.
#[derive(Clone, Copy, Debug)]
pub struct PathRange<'a> {
    /// The start.
    pub start: PathRef<'a>,
    /// The end.
    pub end: PathEnd<'a>,
}

/// An area as it is passed.
#[derive(Clone, Copy, Debug)]
pub struct Area<'a> {
    /// 0 any subspace, 1 one id.
    pub kind: u64,
    /// The id; not read beside kind 0.
    pub id: u64,
    /// The path.
    pub path: PathRef<'a>,
    /// The times.
    pub times: Range,
}

/// An area of interest as it is passed.
#[derive(Clone, Copy, Debug)]
pub struct AreaOfInterest<'a> {
    /// The area.
    pub area: Area<'a>,
    /// The most entries.
    pub max_count: u64,
    /// The most payload bytes.
    pub max_size: u64,
}

/// A 3d range as it is passed.
#[derive(Clone, Copy, Debug)]
pub struct Range3d<'a> {
    /// The subspaces.
    pub subspaces: Range,
    /// The paths.
    pub paths: PathRange<'a>,
    /// The times.
    pub times: Range,
}

/// What of an entry decides whether it is newer, as it is passed.
#[derive(Clone, Copy, Debug)]
pub struct Age<'a> {
    /// The timestamp.
    pub timestamp: u64,
    /// The payload's length.
    pub payload_length: u64,
    /// The payload's digest.
    pub digest: &'a [u8; 32],
}

/// Where an entry stands in a store, as it is passed.
#[derive(Clone, Copy, Debug)]
pub struct Place<'a> {
    /// The subspace.
    pub subspace: u64,
    /// The path.
    pub path: PathRef<'a>,
}

/// An entry as it is passed.
#[derive(Clone, Copy, Debug)]
pub struct Entry<'a> {
    /// The namespace.
    pub namespace: u64,
    /// The subspace and the path.
    pub place: Place<'a>,
    /// The timestamp, the payload's length and its digest.
    pub age: Age<'a>,
}

/// Takes the parameters of one call one after the other. What is passed for each is gathered twice, as types and as
/// expressions; at the end stands a function over its declaration, or the list of the declaration's types.
macro_rules! call {
    ($as:ident $head:tt $safe:tt $types:tt $passed:tt $p:ident: u64, $($rest:tt)*) => {
        call! { @push $as $head $safe $types $passed ($p: u64) (u64,) ($p,) $($rest)* }
    };
    ($as:ident $head:tt $safe:tt $types:tt $passed:tt $p:ident: Limits, $($rest:tt)*) => {
        call! { @push $as $head $safe $types $passed ($p: Limits) (u64, u64, u64,) ($p.mcl, $p.mcc, $p.mpl,) $($rest)* }
    };
    ($as:ident $head:tt $safe:tt $types:tt $passed:tt $p:ident: Bytes, $($rest:tt)*) => {
        call! { @push $as $head $safe $types $passed ($p: &[u8]) (*const u8, usize,) ($p.as_ptr(), $p.len(),) $($rest)* }
    };
    ($as:ident $head:tt $safe:tt $types:tt $passed:tt $p:ident: Out, $($rest:tt)*) => {
        call! { @push $as $head $safe $types $passed ($p: &mut [u8]) (*mut u8, usize,) ($p.as_mut_ptr(), $p.len(),) $($rest)* }
    };
    ($as:ident $head:tt $safe:tt $types:tt $passed:tt $p:ident: Path, $($rest:tt)*) => {
        call! { @push $as $head $safe $types $passed ($p: PathRef<'_>) (*const u8, usize, u64,)
            ($p.bytes().as_ptr(), $p.bytes().len(), $p.count(),) $($rest)* }
    };
    ($as:ident $head:tt $safe:tt $types:tt $passed:tt $p:ident: End, $($rest:tt)*) => {
        call! { @push $as $head $safe $types $passed ($p: End) (u64, u64,) ($p.kind, $p.end,) $($rest)* }
    };
    ($as:ident $head:tt $safe:tt $types:tt $passed:tt $p:ident: Range, $($rest:tt)*) => {
        call! { @push $as $head $safe $types $passed ($p: Range) (u64, u64, u64,) ($p.start, $p.end.kind, $p.end.end,) $($rest)* }
    };
    ($as:ident $head:tt $safe:tt $types:tt $passed:tt $p:ident: PathEnd, $($rest:tt)*) => {
        call! { @push $as $head $safe $types $passed ($p: PathEnd<'_>) (u64, *const u8, usize, u64,)
            ($p.kind, $p.end.bytes().as_ptr(), $p.end.bytes().len(), $p.end.count(),) $($rest)* }
    };
    ($as:ident $head:tt $safe:tt $types:tt $passed:tt $p:ident: PathRange, $($rest:tt)*) => {
        call! { @push $as $head $safe $types $passed ($p: PathRange<'_>) (*const u8, usize, u64, u64, *const u8, usize, u64,)
            ($p.start.bytes().as_ptr(), $p.start.bytes().len(), $p.start.count(), $p.end.kind, $p.end.end.bytes().as_ptr(),
             $p.end.end.bytes().len(), $p.end.end.count(),) $($rest)* }
    };
    ($as:ident $head:tt $safe:tt $types:tt $passed:tt $p:ident: Area, $($rest:tt)*) => {
        call! { @push $as $head $safe $types $passed ($p: Area<'_>) (u64, u64, *const u8, usize, u64, u64, u64, u64,)
            ($p.kind, $p.id, $p.path.bytes().as_ptr(), $p.path.bytes().len(), $p.path.count(), $p.times.start,
             $p.times.end.kind, $p.times.end.end,) $($rest)* }
    };
    ($as:ident $head:tt $safe:tt $types:tt $passed:tt $p:ident: AreaOfInterest, $($rest:tt)*) => {
        call! { @push $as $head $safe $types $passed ($p: AreaOfInterest<'_>)
            (u64, u64, *const u8, usize, u64, u64, u64, u64, u64, u64,)
            ($p.area.kind, $p.area.id, $p.area.path.bytes().as_ptr(), $p.area.path.bytes().len(), $p.area.path.count(),
             $p.area.times.start, $p.area.times.end.kind, $p.area.times.end.end, $p.max_count, $p.max_size,) $($rest)* }
    };
    ($as:ident $head:tt $safe:tt $types:tt $passed:tt $p:ident: Range3d, $($rest:tt)*) => {
        call! { @push $as $head $safe $types $passed ($p: Range3d<'_>)
            (u64, u64, u64, *const u8, usize, u64, u64, *const u8, usize, u64, u64, u64, u64,)
            ($p.subspaces.start, $p.subspaces.end.kind, $p.subspaces.end.end, $p.paths.start.bytes().as_ptr(),
             $p.paths.start.bytes().len(), $p.paths.start.count(), $p.paths.end.kind, $p.paths.end.end.bytes().as_ptr(),
             $p.paths.end.end.bytes().len(), $p.paths.end.end.count(), $p.times.start, $p.times.end.kind,
             $p.times.end.end,) $($rest)* }
    };
    ($as:ident $head:tt $safe:tt $types:tt $passed:tt $p:ident: Age, $($rest:tt)*) => {
        call! { @push $as $head $safe $types $passed ($p: Age<'_>) (u64, u64, *const [u8; 32],)
            ($p.timestamp, $p.payload_length, $p.digest,) $($rest)* }
    };
    ($as:ident $head:tt $safe:tt $types:tt $passed:tt $p:ident: Place, $($rest:tt)*) => {
        call! { @push $as $head $safe $types $passed ($p: Place<'_>) (u64, *const u8, usize, u64,)
            ($p.subspace, $p.path.bytes().as_ptr(), $p.path.bytes().len(), $p.path.count(),) $($rest)* }
    };
    ($as:ident $head:tt $safe:tt $types:tt $passed:tt $p:ident: Entry, $($rest:tt)*) => {
        call! { @push $as $head $safe $types $passed ($p: Entry<'_>)
            (u64, u64, *const u8, usize, u64, u64, u64, *const [u8; 32],)
            ($p.namespace, $p.place.subspace, $p.place.path.bytes().as_ptr(), $p.place.path.bytes().len(),
             $p.place.path.count(), $p.age.timestamp, $p.age.payload_length, $p.age.digest,) $($rest)* }
    };
    ($as:ident $head:tt $safe:tt $types:tt $passed:tt $p:ident: Builder, $($rest:tt)*) => {
        call! { @push $as $head $safe $types $passed ($p: Builder) (Builder,) ($p,) $($rest)* }
    };
    (@push $as:ident $head:tt ($($safe:tt)*) ($($types:tt)*) ($($passed:tt)*) ($($s:tt)*) ($($t:tt)*) ($($e:tt)*) $($rest:tt)*) => {
        call! { $as $head ($($safe)* $($s)*,) ($($types)* $($t)*) ($($passed)* $($e)*) $($rest)* }
    };
    (function ($($doc:literal)* $name:ident $symbol:ident $result:ident) ($($safe:tt)*) ($($types:ty,)*) ($($passed:expr,)*)) => {
        $(#[doc = $doc])*
        #[inline]
        pub fn $name($($safe)*) -> $result {
            extern "C" {
                fn $symbol($(_: $types),*) -> $result;
            }
            // SAFETY: as said at the head of this module.
            unsafe { $symbol($($passed),*) }
        }
    };
    (signature ($($doc:literal)* $name:ident $symbol:ident $result:ident) ($($safe:tt)*) ($($types:ty,)*) $passed:tt) => {
        (stringify!($symbol), &[$(stringify!($types)),*], stringify!($result))
    };
}

/// A function for each line, and in the list `$list` what each declares: its symbol, its parameters' types, its result.
macro_rules! calls {
    ($list:ident: $($(#[doc = $doc:literal])* $name:ident = $symbol:ident($($p:ident: $kind:ident),*) -> $result:ident;)*) => {
        $(call! { function ($($doc)* $name $symbol $result) () () () $($p: $kind,)* })*
        /// Each declared symbol with the types of its parameters and of its result, for the test that holds them to the
        /// archives and to the sources of the exported calls.
        #[doc(hidden)]
        pub const $list: &[(&str, &[&str], &str)] =
            &[$(call! { signature ($name $symbol $result) () () () $($p: $kind,)* }),*];
    };
}

calls! { DECLARED:
    /// Whether a buffer with a count is a path: 0, 1 or 5.
    path_test = wotskrale_path_test(limits: Limits, path: Path) -> u64;
    /// Whether bytes are a component: 0, 1 or 9.
    component_test = wotskrale_component_test(limits: Limits, component: Bytes) -> u64;
    /// How many components.
    path_component_count = wotskrale_path_component_count(limits: Limits, path: Path) -> Answer;
    /// Whether there is no component.
    path_is_empty = wotskrale_path_is_empty(limits: Limits, path: Path) -> Answer;
    /// How many bytes in all components.
    path_length = wotskrale_path_length(limits: Limits, path: Path) -> Answer;
    /// How many bytes in the first n components.
    path_length_of_prefix = wotskrale_path_length_of_prefix(limits: Limits, path: Path, n: u64) -> Answer;
    /// The count with which the same buffer is the prefix of n components.
    path_create_prefix = wotskrale_path_create_prefix(limits: Limits, path: Path, n: u64) -> Answer;
    /// The length of component i.
    path_component_length = wotskrale_path_component_length(limits: Limits, path: Path, i: u64) -> Answer;

    /// The order of two paths: 0 less, 1 equal, 2 greater.
    path_compare = wotskrale_path_compare(limits: Limits, a: Path, b: Path) -> Answer;
    /// Whether two paths are equal.
    path_equal = wotskrale_path_equal(limits: Limits, a: Path, b: Path) -> Answer;
    /// Whether a is a prefix of b.
    path_is_prefix_of = wotskrale_path_is_prefix_of(limits: Limits, a: Path, b: Path) -> Answer;
    /// Whether b is a prefix of a.
    path_is_prefixed_by = wotskrale_path_is_prefixed_by(limits: Limits, a: Path, b: Path) -> Answer;
    /// Whether one of the two is a prefix of the other.
    path_is_related = wotskrale_path_is_related(limits: Limits, a: Path, b: Path) -> Answer;
    /// How many components the longest common prefix has.
    path_longest_common_prefix = wotskrale_path_longest_common_prefix(limits: Limits, a: Path, b: Path) -> Answer;

    /// Component i written to the front of a buffer: its length.
    path_write_component = wotskrale_path_write_component(limits: Limits, path: Path, i: u64, out: Out) -> Answer;
    /// The packed prefix of n components written to the front of a buffer: its length.
    path_write_prefix = wotskrale_path_write_prefix(limits: Limits, path: Path, n: u64, out: Out) -> Answer;
    /// The packed longest common prefix written to the front of a buffer: its length.
    path_write_longest_common_prefix = wotskrale_path_write_longest_common_prefix(limits: Limits, a: Path, b: Path, out: Out) -> Answer;

    /// From lengths as 8-byte numbers, and bytes.
    path_from_slices = wotskrale_path_from_slices(limits: Limits, lengths: Bytes, bytes: Bytes, out: Out) -> Answer;
    /// From lengths and bytes with their total.
    path_new_from_iter = wotskrale_path_new_from_iter(limits: Limits, total: u64, lengths: Bytes, bytes: Bytes, out: Out) -> Answer;
    /// The path of no component.
    path_new_empty = wotskrale_path_new_empty(limits: Limits, out: Out) -> Answer;
    /// The path of one component.
    path_new_singleton = wotskrale_path_new_singleton(limits: Limits, component: Bytes, out: Out) -> Answer;
    /// A path with a component behind it.
    path_append = wotskrale_path_append(limits: Limits, path: Path, component: Bytes, out: Out) -> Answer;
    /// A path with components behind it.
    path_append_slice = wotskrale_path_append_slice(limits: Limits, path: Path, lengths: Bytes, bytes: Bytes, out: Out) -> Answer;

    /// The least path above a path.
    path_successor = wotskrale_path_successor(limits: Limits, path: Path, out: Out) -> Answer;
    /// The least path above a path that it does not prefix.
    path_greater_but_not_prefixed = wotskrale_path_greater_but_not_prefixed(limits: Limits, path: Path, out: Out) -> Answer;
    /// The end of the range of one path; none where it is open.
    path_singleton_range = wotskrale_path_singleton_range(limits: Limits, path: Path, out: Out) -> Answer;
    /// The greatest path.
    path_new_max = wotskrale_path_new_max(limits: Limits, out: Out) -> Answer;

    /// A builder for a path of a declared length and count.
    builder_new = wotskrale_builder_new(limits: Limits, length: u64, count: u64, out: Out) -> BuilderAnswer;
    /// A builder that begins with the first n components of a reference.
    builder_new_from_prefix = wotskrale_builder_new_from_prefix(limits: Limits, length: u64, count: u64, reference: Path, n: u64, out: Out) -> BuilderAnswer;
    /// The next component.
    builder_append_component = wotskrale_builder_append_component(state: Builder, out: Out, component: Bytes) -> BuilderAnswer;
    /// The path is whole: its length in the buffer.
    builder_build = wotskrale_builder_build(state: Builder, out: Bytes) -> BuiltAnswer;

    /// Whether an end is above a value.
    range_end_above = wotskrale_range_end_above(end: End, value: u64) -> Answer;
    /// The order of two ends, open being greatest.
    range_compare_ends = wotskrale_range_compare_ends(a: End, b: End) -> Answer;
    /// Whether a range is open.
    range_is_open = wotskrale_range_is_open(range: Range) -> Answer;
    /// The range from a start to an end, none where it would include nothing.
    range_new_closed = wotskrale_range_new_closed(start: u64, end: u64) -> RangeAnswer;
    /// Whether a range includes a value.
    range_includes = wotskrale_range_includes(range: Range, value: u64) -> Answer;
    /// Whether a range includes another, by starts and ends.
    range_includes_range = wotskrale_range_includes_range(a: Range, b: Range) -> Answer;
    /// The range of the values that lie in both.
    range_intersection = wotskrale_range_intersection(a: Range, b: Range) -> RangeAnswer;
    /// The order of two ranges: by start, then by end.
    range_compare = wotskrale_range_compare(a: Range, b: Range) -> Answer;

    /// Whether an end is above a path.
    path_range_end_above = wotskrale_path_range_end_above(limits: Limits, end: PathEnd, path: Path) -> Answer;
    /// The order of two ends, open being greatest.
    path_range_compare_ends = wotskrale_path_range_compare_ends(limits: Limits, a: PathEnd, b: PathEnd) -> Answer;
    /// Whether there is a closed range from a start to an end: not where it would include nothing.
    path_range_new_closed = wotskrale_path_range_new_closed(limits: Limits, start: Path, end: Path) -> Answer;
    /// Whether a range includes a path.
    path_range_includes = wotskrale_path_range_includes(limits: Limits, range: PathRange, path: Path) -> Answer;
    /// Whether a range includes another, by starts and ends.
    path_range_includes_range = wotskrale_path_range_includes_range(limits: Limits, a: PathRange, b: PathRange) -> Answer;
    /// Whose start and whose end the range of the paths in both has.
    path_range_intersection = wotskrale_path_range_intersection(limits: Limits, a: PathRange, b: PathRange) -> SidesAnswer;
    /// The order of two ranges: by start, then by end.
    path_range_compare = wotskrale_path_range_compare(limits: Limits, a: PathRange, b: PathRange) -> Answer;

    /// Whether an area includes an entry of this subspace, path and timestamp.
    area_includes_triplet = wotskrale_area_includes_triplet(limits: Limits, area: Area, subspace: u64, path: Path, timestamp: u64) -> Answer;
    /// Whether an entry of this subspace, path and timestamp can prune entries of an area.
    area_could_be_pruned_by_triplet = wotskrale_area_could_be_pruned_by_triplet(limits: Limits, area: Area, subspace: u64, path: Path, timestamp: u64) -> Answer;
    /// Whether an area includes another.
    area_includes_area = wotskrale_area_includes_area(limits: Limits, a: Area, b: Area) -> Answer;
    /// Whether an area would include another if their subspaces were the same.
    area_almost_includes_area = wotskrale_area_almost_includes_area(limits: Limits, a: Area, b: Area) -> Answer;
    /// The order of two areas: by subspace, path, times.
    area_compare = wotskrale_area_compare(limits: Limits, a: Area, b: Area) -> Answer;
    /// The area of the triplets that lie in both.
    area_intersection = wotskrale_area_intersection(limits: Limits, a: Area, b: Area) -> AreaAnswer;

    /// The areas intersected, and the smaller of both numbers.
    area_of_interest_intersection = wotskrale_area_of_interest_intersection(limits: Limits, a: AreaOfInterest, b: AreaOfInterest) -> InterestAnswer;
    /// The order of two areas of interest: by area, count, size.
    area_of_interest_compare = wotskrale_area_of_interest_compare(limits: Limits, a: AreaOfInterest, b: AreaOfInterest) -> Answer;

    /// Whether a 3d range includes an entry of this subspace, path and timestamp.
    range_3d_includes_triplet = wotskrale_range_3d_includes_triplet(limits: Limits, range: Range3d, subspace: u64, path: Path, timestamp: u64) -> Answer;
    /// Whether an entry of this subspace, path and timestamp can prune entries of a 3d range.
    range_3d_could_be_pruned_by_triplet = wotskrale_range_3d_could_be_pruned_by_triplet(limits: Limits, range: Range3d, subspace: u64, path: Path, timestamp: u64) -> Answer;
    /// Whether a 3d range includes another.
    range_3d_includes_range = wotskrale_range_3d_includes_range(limits: Limits, a: Range3d, b: Range3d) -> Answer;
    /// The order of two 3d ranges: by subspaces, paths, times.
    range_3d_compare = wotskrale_range_3d_compare(limits: Limits, a: Range3d, b: Range3d) -> Answer;
    /// The 3d range of the triplets that lie in both.
    range_3d_intersection = wotskrale_range_3d_intersection(limits: Limits, a: Range3d, b: Range3d) -> Range3dAnswer;
    /// The 3d range that includes the same triplets as an area; the end of its paths is written packed to the front of a buffer.
    range_3d_from_area = wotskrale_range_3d_from_area(limits: Limits, area: Area, out: Out) -> ConvertedAnswer;

    /// Whether the first entry is newer than the second.
    entry_is_newer_than = wotskrale_entry_is_newer_than(a: Age, b: Age) -> Answer;
    /// Whether the first entry is pruned by the second.
    entry_is_pruned_by = wotskrale_entry_is_pruned_by(limits: Limits, a: Entry, b: Entry) -> Answer;
    /// Whether the first entry prunes the second.
    entry_prunes = wotskrale_entry_prunes(limits: Limits, a: Entry, b: Entry) -> Answer;
    /// Whether two entries are equal in every field.
    entry_equal = wotskrale_entry_equal(limits: Limits, a: Entry, b: Entry) -> Answer;
    /// The order of a store: by subspace, then by path.
    entry_compare_places = wotskrale_entry_compare_places(limits: Limits, a: Place, b: Place) -> Answer;
    /// The order of entries: by namespace, subspace, path, timestamp, digest, payload length.
    entry_compare = wotskrale_entry_compare(limits: Limits, a: Entry, b: Entry) -> Answer;

    /// A fresh map written to the front of a buffer: its length.
    map_fresh = wotskrale_map_fresh(limits: Limits, capacity: u64, out: Out) -> Answer;
    /// Whether a buffer begins with a map: 0 or 2.
    map_test = wotskrale_map_test(sheet: Bytes) -> u64;
    /// An area with a value inserted behind the others: the position that it took.
    map_insert = wotskrale_map_insert(sheet: Out, area: Area, value: u64) -> Answer;
    /// The positions of the rules whose area intersects an area, written in 8 bytes each to the front of a buffer: how many.
    map_intersecting = wotskrale_map_intersecting(sheet: Bytes, area: Area, out: Out) -> Answer;
    /// How many rules a map has.
    map_count = wotskrale_map_count(sheet: Bytes) -> Answer;
    /// Rule i but for its path.
    map_rule = wotskrale_map_rule(sheet: Bytes, i: u64) -> RuleAnswer;
    /// The packed path of rule i written to the front of a buffer: its length.
    map_rule_path = wotskrale_map_rule_path(sheet: Bytes, i: u64, out: Out) -> Answer;
}

#[cfg(feature = "store")]
calls! { DECLARED_OF_STORE:
    /// A fresh store written to the front of a buffer: its length.
    store_fresh = wotskrale_store_fresh(limits: Limits, capacity: u64, namespace: u64, out: Out) -> Answer;
    /// Whether a buffer begins with a store: 0 or 2.
    store_test = wotskrale_store_test(sheet: Bytes) -> u64;
    /// An entry offered to a store.
    store_offer = wotskrale_store_offer(sheet: Out, entry: Entry) -> OfferAnswer;
    /// The numbers at the front of a store.
    store_numbers = wotskrale_store_numbers(sheet: Bytes) -> StoreAnswer;
    /// Entry i but for its path.
    store_entry = wotskrale_store_entry(sheet: Bytes, i: u64) -> EntryAnswer;
    /// The packed path of entry i written to the front of a buffer: its length.
    store_entry_path = wotskrale_store_entry_path(sheet: Bytes, i: u64, out: Out) -> Answer;
}
