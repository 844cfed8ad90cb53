//! Counts of blocks by level, and their layout as one row for each level.

use crate::{LEVELS, NONE};

/// How many blocks each level has.
pub type Counts = [u16; LEVELS];

/// The blocks of one level: the `run` indices from `start` on and, unless it is [`NONE`], `lone`.
#[derive(Clone, Copy, PartialEq)]
pub struct Row {
    pub start: u16,
    pub run: u16,
    pub lone: u16,
}

pub type Layout = [Row; LEVELS];

impl Row {
    pub fn holds(&self, index: u16) -> bool {
        index.wrapping_sub(self.start) < self.run || index == self.lone
    }
}

/// The number of pages of all the blocks.
pub fn total(counts: &Counts) -> u32 {
    (0..).zip(counts).map(|(level, &count)| u32::from(count) << level).sum()
}

/// The layout of counts whose pages fit.
pub fn layout(counts: &Counts) -> Layout {
    let mut rows = [Row {
        start: 0,
        run: 0,
        lone: NONE,
    }; LEVELS];
    // How many subtrees are full from the left, and the level of the block that stands alone in the next one.
    let mut before = 0;
    let mut alone = None;
    for (level, &count) in counts.iter().enumerate() {
        let row = &mut rows[level];
        row.start = before;
        row.run = count;
        before += count;
        if alone.is_none() && count > 0 {
            row.run -= 1;
            before -= 1;
            alone = Some(level);
        }
        if let Some(block) = alone {
            rows[block].lone = before << (level - block);
        }
        // One level up two subtrees are one; an odd one takes the lone block's subtree with it.
        if before % 2 == 1 {
            before += 1;
            alone = None;
        }
        before /= 2;
    }
    rows
}
