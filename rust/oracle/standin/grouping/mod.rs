// Stand-in for grouping/mod.rs, which is not supplied.

pub mod area;
pub mod area_of_interest;
pub mod range;
pub mod range_3d;

pub use area::*;
pub use area_of_interest::*;
pub use range::*;
pub use range_3d::*;
