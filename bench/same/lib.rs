//! The library's algorithm in safe Rust: the same steps over the same bytes, each written the quickest way that was
//! found.
//!
//! The functions of [`door`] are those of include/reserve.h. They are never inlined, so that callgrind finds them.

#![forbid(unsafe_code)]

mod calls;
mod carrying;
pub mod door;
mod image;
mod layout;
mod line;
mod page_map;
mod plan;
mod survey;

/// How many tenants there are, and so how many entries a table has.
const TENANTS: usize = 4096;

/// One more than the last node of the tallest tree.
const NODES: usize = 2 * TENANTS;

/// Heights and levels go from 0 to 12.
const LEVELS: usize = 13;

/// What stands for an index, or a level, where there is none.
const NONE: u16 = u16::MAX;
