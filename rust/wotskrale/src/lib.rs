//! Safe calls over Wotskrale, a filing core that is proved to give the answers that its definitions say.
//!
//! The core is linked from its archives and takes plain numbers and byte buffers. Here they are [`Limits`], lent packed paths
//! ([`PathRef`]) and owned ones ([`Path`]), ranges, areas, entries and sheets; a refusal is a [`Refusal`], and "none" is
//! [`None`]. Nothing here panics.
//!
//! Three ways to call:
//! - the types have methods that allocate a written answer;
//! - the modules [`reading`], [`relation`], [`writing`], [`construction`] and [`least`] have one function for each exported
//!   call on paths. They take slices, write to the front of a lent buffer, answer how many bytes that was, and allocate
//!   nothing; [`AreaMap::lent`] and `Store::lent` do the same for sheets, and [`PathBuilder::in_buffer`] for builders;
//! - [`plain`] has one function for each exported call, as it is exported.
//!
//! ```
//! use wotskrale::{Limits, Path, Refusal};
//!
//! let limits = Limits::new(2, 1, 2);
//! let path = Path::from_slices(limits, &[&[0x01, 0xff]])?;
//! let next = path.lent().successor(limits)?.expect("some path is greater");
//! assert_eq!(next.lent().component(limits, 0)?, Some(vec![0x02]));
//!
//! let refused = Path::from_slices(Limits::new(2, 1, 3), &[&[1, 2], &[3, 4]]);
//! assert_eq!(refused, Err(Refusal::PathTooLong));
//! # Ok::<(), Refusal>(())
//! ```
//!
//! # The order of refusals
//!
//! Where several refusals apply, the one with the smallest number is given. A refusal and a "none" leave every lent buffer as
//! it was; an answer leaves the bytes behind it as they were.

#![deny(unsafe_code)]

mod area;
pub mod area_map;
mod builder;
pub mod construction;
mod entry;
pub mod least;
mod limits;
mod path;
pub mod plain;
mod range;
mod range_3d;
pub mod reading;
mod refusal;
pub mod relation;
#[cfg(feature = "store")]
pub mod store;
pub mod writing;

pub use area::{Area, AreaOfInterest, AreaSubspace};
pub use area_map::AreaMap;
pub use builder::PathBuilder;
pub use entry::Entry;
pub use limits::Limits;
pub use path::{Path, PathRef};
pub use range::{Range, RangeEnd};
pub use range_3d::Range3d;
pub use refusal::Refusal;
#[cfg(feature = "store")]
pub use store::{Offered, Store};

/// The greatest capacity of a sheet that the core takes.
pub const MAX_CAPACITY: u64 = 4096;
