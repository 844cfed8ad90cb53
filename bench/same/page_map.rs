//! The page map: a flag for each page, then eight flags to a byte.

use crate::layout::Layout;
use crate::{NONE, TENANTS};

/// The bytes of a map, one bit for each page of the tallest tree.
pub const MAP_BYTES: usize = TENANTS / 8;

pub fn draw(rows: &Layout, map: &mut [u8; MAP_BYTES]) {
    let mut pages = [0u8; TENANTS];
    for (level, row) in rows.iter().enumerate() {
        let (start, run) = (usize::from(row.start), usize::from(row.run));
        pages[start << level..(start + run) << level].fill(1);
        if row.lone != NONE {
            let lone = usize::from(row.lone);
            pages[lone << level..(lone + 1) << level].fill(1);
        }
    }
    for (byte, flags) in map.iter_mut().zip(pages.as_chunks::<8>().0) {
        *byte = flags.iter().rev().fold(0, |bits, flag| bits << 1 | flag);
    }
}

/// The number of set bits, 64 at a time. The sum has 64 bits too, because LLVM then adds the counts up as they come out of
/// its vector instructions.
pub fn count(map: &[u8; MAP_BYTES]) -> u16 {
    let numbers = map.as_chunks().0.iter().map(|&bytes| u64::from_le_bytes(bytes));
    numbers.map(|number| u64::from(number.count_ones())).sum::<u64>() as u16
}
