//! Lines: all short ones on low trees, long ones in histories, spoilt ones, and how long a large image waits.

mod large;
mod long;
mod short;
mod spoilt;

pub use large::large_images;
pub use long::long_lines;
pub use short::every_short_line;
pub use spoilt::{damaged_lines, orders_of_refusals};
