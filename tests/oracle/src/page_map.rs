//! The pages of a node, and the page map: one bit for each page.

use std::ops::Range;

use crate::definitions::{Node, Tree, TALLEST};
use crate::planner::{check_reserve, check_table};
use crate::refusal::Refusal;

/// The bytes that a map takes, one bit for each page of the largest reserve.
pub const MAP_BYTES: usize = 512;

/// The pages that a node covers. A number that the tree does not have is turned down as it would be in a table.
pub fn of_node(height: u32, node: Node) -> Result<Range<usize>, Refusal> {
    if height > TALLEST {
        return Err(Refusal::Height);
    }
    let tree = Tree::new(height);
    if !tree.nodes().contains(&node) {
        return Err(Refusal::Disorder);
    }
    Ok(tree.pages(node))
}

/// Draws the pages that the table's blocks cover into the front of the lent bytes. The pages that a smaller reserve
/// does not have are drawn as free.
pub fn draw(height: u32, table: &[Node], map: &mut [u8]) -> Result<(), Refusal> {
    let tree = check_reserve(height, table)?;
    check_table(tree, table)?;
    let drawn = map.get_mut(..MAP_BYTES).ok_or(Refusal::TooSmall)?;
    drawn.fill(0);
    for &node in table.iter().filter(|&&node| node != 0) {
        for page in tree.pages(node) {
            drawn[page / 8] |= 1 << (page % 8);
        }
    }
    Ok(())
}

/// How many pages the front of a map marks as taken, whoever wrote those bytes.
pub fn count(map: &[u8]) -> Result<u32, Refusal> {
    let front = map.get(..MAP_BYTES).ok_or(Refusal::TooSmall)?;
    let is_set = |page: &usize| front[page / 8] >> (page % 8) & 1 == 1;
    Ok((0..8 * MAP_BYTES).filter(is_set).count() as u32)
}
