//! The Rust side. Its limits are const generics: here they stand behind two traits, so that the rest is compiled once.

use std::any::Any;
use std::cell::Cell;
use std::cmp::Ordering;
use std::panic::{catch_unwind, AssertUnwindSafe};

use oracle::{Component, InvalidPathError, Path, PathBuilder, PathConstructionError, RangeEnd};
use wotskrale::Limits;

use crate::building::Script;
use crate::model::{pack, Parts};

/// What either side can give where a path or bytes are made.
#[derive(Clone, Debug, PartialEq, Eq)]
pub enum Made {
    /// A refusal's number.
    Refused(u64),
    /// None.
    Nothing,
    /// A packed path, or a component's bytes.
    Bytes(Vec<u8>),
    /// A panic, on the Rust side.
    Panic,
    /// Ours: a buffer that was not left as it has to be.
    Spoilt(&'static str),
}

/// The Rust at one limit set. What takes components gives nothing where one is over MCL: it cannot be handed over.
pub trait Set {
    /// The limits.
    fn limits(&self) -> Limits;
    /// A path, or the refusal's number.
    fn path(&self, parts: &[Vec<u8>]) -> Result<Box<dyn TheirPath>, u64>;
    /// `Component::new`.
    fn is_component(&self, bytes: &[u8]) -> bool;
    /// `Path::new_from_slice`.
    fn new_from_slice(&self, parts: &[Vec<u8>]) -> Option<Made>;
    /// `Path::new_from_iter`.
    fn new_from_iter(&self, total: u64, parts: &[Vec<u8>]) -> Option<Made>;
    /// `Path::new_singleton`.
    fn new_singleton(&self, bytes: &[u8]) -> Option<Made>;
    /// `Path::new_empty`.
    fn new_empty(&self) -> Made;
    /// `Path::new_max`.
    fn new_max(&self) -> Made;
    /// `PathBuilder`, from its start to the path.
    fn build(&self, script: &Script) -> Option<Made>;
}

/// A path of the Rust. Two of them have the same limits wherever two are compared.
pub trait TheirPath: Any {
    /// The components.
    fn parts(&self) -> Parts;
    /// `component_count`.
    fn component_count(&self) -> u64;
    /// `is_empty`.
    fn is_empty(&self) -> bool;
    /// `path_length`.
    fn path_length(&self) -> u64;
    /// `path_length_of_prefix`, or nothing where it panics.
    fn path_length_of_prefix(&self, n: u64) -> Option<u64>;
    /// `create_prefix`.
    fn create_prefix(&self, n: u64) -> Option<Box<dyn TheirPath>>;
    /// `component`.
    fn component(&self, i: u64) -> Option<Vec<u8>>;
    /// `cmp`.
    fn compare(&self, other: &dyn TheirPath) -> Ordering;
    /// `==`.
    fn equal(&self, other: &dyn TheirPath) -> bool;
    /// `is_prefix_of`.
    fn is_prefix_of(&self, other: &dyn TheirPath) -> bool;
    /// `is_prefixed_by`.
    fn is_prefixed_by(&self, other: &dyn TheirPath) -> bool;
    /// `is_related`.
    fn is_related(&self, other: &dyn TheirPath) -> bool;
    /// `longest_common_prefix`.
    fn longest_common_prefix(&self, other: &dyn TheirPath) -> Box<dyn TheirPath>;
    /// `append`.
    fn append(&self, bytes: &[u8]) -> Option<Made>;
    /// `append_slice`.
    fn append_slice(&self, parts: &[Vec<u8>]) -> Option<Made>;
    /// `successor`.
    fn successor(&self) -> Made;
    /// `greater_but_not_prefixed`.
    fn greater_but_not_prefixed(&self) -> Made;
    /// The end of `singleton_range`.
    fn singleton_range(&self) -> Made;
}

/// The limits of a set.
pub struct At<const MCL: usize, const MCC: usize, const MPL: usize>;

thread_local! {
    /// Whether a call is under way that the Rust may answer with a panic.
    static MAY_PANIC: Cell<bool> = const { Cell::new(false) };
}

/// A call whose panic is an answer: nothing, and nothing is printed.
fn quiet<T>(call: impl FnOnce() -> T) -> Option<T> {
    MAY_PANIC.set(true);
    let answer = catch_unwind(AssertUnwindSafe(call));
    MAY_PANIC.set(false);
    answer.ok()
}

/// From now on a panic is printed unless it is an answer.
pub fn print_other_panics() {
    let print = std::panic::take_hook();
    std::panic::set_hook(Box::new(move |panic| {
        if !MAY_PANIC.get() {
            print(panic);
        }
    }));
}

/// Components for the Rust, where none is over MCL.
fn components<const MCL: usize>(parts: &[Vec<u8>]) -> Option<Vec<Component<'_, MCL>>> {
    parts.iter().map(|p| Component::new(p)).collect()
}

fn packed<const MCL: usize, const MCC: usize, const MPL: usize>(p: &Path<MCL, MCC, MPL>) -> Made {
    Made::Bytes(pack(&p.parts()))
}

fn perhaps<const MCL: usize, const MCC: usize, const MPL: usize>(
    path: Option<Path<MCL, MCC, MPL>>,
) -> Made {
    path.map_or(Made::Nothing, |p| packed(&p))
}

fn number(error: InvalidPathError) -> u64 {
    match error {
        InvalidPathError::PathTooLong => 7,
        InvalidPathError::TooManyComponents => 8,
    }
}

fn made<const MCL: usize, const MCC: usize, const MPL: usize>(
    path: Result<Path<MCL, MCC, MPL>, InvalidPathError>,
) -> Made {
    path.map_or_else(|error| Made::Refused(number(error)), |p| packed(&p))
}

impl<const MCL: usize, const MCC: usize, const MPL: usize> Set for At<MCL, MCC, MPL> {
    fn limits(&self) -> Limits {
        Limits::new(MCL as u64, MCC as u64, MPL as u64)
    }

    fn path(&self, parts: &[Vec<u8>]) -> Result<Box<dyn TheirPath>, u64> {
        match Path::<MCL, MCC, MPL>::from_slices(parts) {
            Ok(path) => Ok(Box::new(path)),
            Err(PathConstructionError::InvalidPath(error)) => Err(number(error)),
            Err(PathConstructionError::ComponentTooLongError) => Err(9),
        }
    }

    fn is_component(&self, bytes: &[u8]) -> bool {
        Component::<MCL>::new(bytes).is_some()
    }

    fn new_from_slice(&self, parts: &[Vec<u8>]) -> Option<Made> {
        components(parts).map(|c| made(Path::<MCL, MCC, MPL>::new_from_slice(&c)))
    }

    fn new_from_iter(&self, total: u64, parts: &[Vec<u8>]) -> Option<Made> {
        let run = |c: Vec<Component<MCL>>| {
            quiet(|| Path::<MCL, MCC, MPL>::new_from_iter(total as usize, &mut c.into_iter()))
        };
        components(parts).map(|c| run(c).map_or(Made::Panic, made))
    }

    fn new_singleton(&self, bytes: &[u8]) -> Option<Made> {
        Component::new(bytes).map(|c| made(Path::<MCL, MCC, MPL>::new_singleton(c)))
    }

    fn new_empty(&self) -> Made {
        packed(&Path::<MCL, MCC, MPL>::new_empty())
    }

    fn new_max(&self) -> Made {
        quiet(Path::<MCL, MCC, MPL>::new_max).map_or(Made::Panic, |p| packed(&p))
    }

    fn build(&self, script: &Script) -> Option<Made> {
        let components = components::<MCL>(&script.components)?;
        let prefix = match &script.prefix {
            Some((parts, count, n)) => {
                let path = Path::<MCL, MCC, MPL>::from_slices(parts).ok()?;
                Some((path.create_prefix(*count as usize)?, *n as usize))
            }
            None => None,
        };
        let (length, count) = (script.length as usize, script.count as usize);
        let whole = || {
            let mut builder = match &prefix {
                None => PathBuilder::new(length, count)?,
                Some((path, n)) => PathBuilder::new_from_prefix(length, count, path, *n)?,
            };
            for component in components {
                builder.append_component(component);
            }
            Ok(builder.build())
        };
        Some(quiet(whole).map_or(Made::Panic, made))
    }
}

/// A path of the same limits.
fn alike<const MCL: usize, const MCC: usize, const MPL: usize>(
    other: &dyn TheirPath,
) -> &Path<MCL, MCC, MPL> {
    let other: &dyn Any = other;
    other.downcast_ref().expect("two paths of one limit set")
}

impl<const MCL: usize, const MCC: usize, const MPL: usize> TheirPath for Path<MCL, MCC, MPL> {
    fn parts(&self) -> Parts {
        self.components().map(|c| c.to_vec()).collect()
    }

    fn component_count(&self) -> u64 {
        self.component_count() as u64
    }

    fn is_empty(&self) -> bool {
        self.is_empty()
    }

    fn path_length(&self) -> u64 {
        self.path_length() as u64
    }

    fn path_length_of_prefix(&self, n: u64) -> Option<u64> {
        quiet(|| self.path_length_of_prefix(n as usize) as u64)
    }

    fn create_prefix(&self, n: u64) -> Option<Box<dyn TheirPath>> {
        Some(Box::new(self.create_prefix(n as usize)?))
    }

    fn component(&self, i: u64) -> Option<Vec<u8>> {
        self.component(i as usize).map(|c| c.to_vec())
    }

    fn compare(&self, other: &dyn TheirPath) -> Ordering {
        self.cmp(alike(other))
    }

    fn equal(&self, other: &dyn TheirPath) -> bool {
        self == alike::<MCL, MCC, MPL>(other)
    }

    fn is_prefix_of(&self, other: &dyn TheirPath) -> bool {
        self.is_prefix_of(alike(other))
    }

    fn is_prefixed_by(&self, other: &dyn TheirPath) -> bool {
        self.is_prefixed_by(alike(other))
    }

    fn is_related(&self, other: &dyn TheirPath) -> bool {
        self.is_related(alike(other))
    }

    fn longest_common_prefix(&self, other: &dyn TheirPath) -> Box<dyn TheirPath> {
        Box::new(self.longest_common_prefix(alike(other)))
    }

    fn append(&self, bytes: &[u8]) -> Option<Made> {
        Component::new(bytes).map(|c| made(self.append(c)))
    }

    fn append_slice(&self, parts: &[Vec<u8>]) -> Option<Made> {
        components(parts).map(|c| made(self.append_slice(&c)))
    }

    fn successor(&self) -> Made {
        perhaps(self.successor())
    }

    fn greater_but_not_prefixed(&self) -> Made {
        perhaps(self.greater_but_not_prefixed())
    }

    fn singleton_range(&self) -> Made {
        let range = self.singleton_range();
        assert!(range.start == *self, "the range of one path starts at it");
        match range.end {
            RangeEnd::Closed(end) => packed(&end),
            RangeEnd::Open => Made::Nothing,
        }
    }
}
