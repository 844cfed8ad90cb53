//! Bare passes over the table and over the map, the measures for everything else.

use crate::input::{Map, Table};

/// How many entries are not 0. Those that are 0 are counted, in 16 bits, because LLVM makes the shortest loop of
/// vector instructions of that.
#[inline(never)]
pub fn bare_pass(table: &Table) -> u16 {
    let entries = table.as_chunks().0;
    let unused: u16 = entries
        .iter()
        .map(|&bytes| u16::from(u16::from_le_bytes(bytes) == 0))
        .sum();
    entries.len() as u16 - unused
}

/// The bits of the map's 64 numbers put together.
#[inline(never)]
pub fn pass_over_map(map: &Map) -> u64 {
    let numbers = map.as_chunks().0.iter().map(|&bytes| u64::from_le_bytes(bytes));
    numbers.fold(0, |bits, number| bits | number)
}
