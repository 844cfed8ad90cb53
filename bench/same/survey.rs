//! One look at a table: whether it is in order, its counts, and who holds which node.

use crate::layout::{layout, total, Counts};
use crate::{LEVELS, NODES, NONE, TENANTS};

/// At each held node its tenant's number and one, elsewhere 0.
pub type Owners = [u16; NODES];

/// The counts of a table in order, whose owners are then stored over the zeros of `owners`.
pub fn survey(height: u16, table: &[u16; TENANTS], owners: &mut Owners) -> Option<Counts> {
    let limit = 2 << height;
    // The limit is a power of two, so a node past the tree has a bit that no other has.
    if table.iter().fold(0, |bits, node| bits | node) >= limit {
        return None;
    }
    for (tenant, &node) in (1..).zip(table) {
        // The remainder changes no node; it spares a test of each.
        owners[usize::from(node) % NODES] = tenant;
    }
    let counts = level_counts(height, owners);
    // A node that stands twice is used twice and has one owner.
    let held: u16 = counts.iter().sum();
    let in_order = used(table) == held && total(&counts) <= 1 << height && settled(height, &counts, owners);
    in_order.then_some(counts)
}

/// How many entries are not 0. Those that are 0 are counted, in 16 bits, because that takes the fewest vector
/// instructions.
fn used(part: &[u16]) -> u16 {
    let unused: u16 = part.iter().map(|&entry| u16::from(entry == 0)).sum();
    part.len() as u16 - unused
}

fn level_counts(height: u16, owners: &Owners) -> Counts {
    let mut counts = [0; LEVELS];
    for level in 0..=height {
        let first = 1 << (height - level);
        counts[usize::from(level)] = used(&owners[first..2 * first]);
    }
    counts
}

/// Whether every node of the layout of the counts has an owner.
fn settled(height: u16, counts: &Counts, owners: &Owners) -> bool {
    let rows = layout(counts);
    (0..=height).zip(&rows).all(|(level, row)| {
        let nodes = &owners[1 << (height - level)..];
        let start = usize::from(row.start);
        used(&nodes[start..start + usize::from(row.run)]) == row.run
            && (row.lone == NONE || nodes[usize::from(row.lone)] != 0)
    })
}
