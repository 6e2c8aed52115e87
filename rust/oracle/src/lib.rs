//! The Rust files that the core was carried over from: paths, groupings and entries, built unchanged from where they lie.
//!
//! What they need and is not supplied stands in [`standin`], in the folder `standin` and in this file, which takes the place of
//! the crate root. The names of the crates that they import lead back to this crate.

// The supplied files are taken as they are.
#![allow(async_fn_in_trait, clippy::all, unexpected_cfgs)]

extern crate self as compact_u64;
extern crate self as ufotofu;
extern crate self as ufotofu_codec;
extern crate self as ufotofu_codec_endian;

pub mod standin;
pub use standin::*;

include!(concat!(env!("OUT_DIR"), "/files/root.rs"));

pub use entry::*;
pub use grouping::*;
pub use path::*;
