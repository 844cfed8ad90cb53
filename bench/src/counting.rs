//! Counting a map in four ways: 64 bits at a time, as the library does; byte by byte, as it did before; with Rust's
//! `count_ones` on `u64`; and one bare pass over the map, for comparison.

use std::hint::black_box;

use oracle::random::Random;
use same::door::Counted;

use crate::contestant::{Contestant, Library, Same};
use crate::input::{Ask, Input, Map};
use crate::pass::pass_over_map;
use crate::reserve::{ones, Reserve};
use crate::rows::{Row, INPUTS, SEED};
use crate::timing::{map_batch, CONTESTANTS, LIBRARY, PASS, SAME};

/// The place of the former way in all figures of maps, where the second planner's is in those of calls.
pub const BYTEWISE: usize = 2;

/// The ways by their places, with the names that they have in the lines about instructions.
pub const WAYS: [(&str, fn(&Map)); CONTESTANTS] = [
    ("library", |map| _ = black_box(Library::count(map))),
    ("same", |map| _ = black_box(Same::count(map))),
    ("bytewise", |map| _ = black_box(bytewise(map))),
    ("pass", |map| _ = black_box(pass_over_map(map))),
];

/// The height of the reserves whose maps are counted.
const HEIGHT: u16 = 12;

extern "C" {
    // The same two numbers as in `reserve_count`.
    fn bytewise_count(map: *const u8, map_length: usize) -> Counted;
}

/// The former function, from the archive of its own crate.
pub fn bytewise(map: &[u8]) -> Counted {
    // It reads the bytes that the pointer and the length name.
    unsafe { bytewise_count(map.as_ptr(), map.len()) }
}

fn batch<const WAY: usize>(input: &Input) -> f64 {
    map_batch(input, WAYS[WAY].1)
}

/// Empty, half full and full maps: as many of each as a row of calls has inputs, since the first input of all is the
/// slowest.
pub fn rows() -> Vec<Row> {
    let mut random = Random::new(SEED);
    let pages = 1 << HEIGHT;
    let maps = [("empty", 0), ("half full", pages / 2), ("full", pages)];
    let row = |(reserve, held)| {
        let mut map = || Reserve::draw(HEIGHT, &ones(held), &mut random).input(Ask::Count);
        Row {
            height: HEIGHT,
            call: "count",
            reserve,
            outcome: "done".into(),
            inputs: (0..INPUTS).map(|_| map()).collect(),
            batches: [batch::<LIBRARY>, batch::<SAME>, batch::<BYTEWISE>, batch::<PASS>],
        }
    };
    maps.map(row).into()
}
