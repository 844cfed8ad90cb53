//! The pages of nodes.

use super::Amounts;
use crate::definitions::{Node, TALLEST};
use crate::random::Random;
use crate::subject::{Oracle, Subject};

/// The numbers to ask at each height: twice as many as the tallest tree has, and the largest.
const LAST_IN_A_ROW: Node = 1 << 14;

/// Asks both planners which pages a node covers.
pub fn same_pages(subject: &mut dyn Subject, height: u32, node: Node) -> Result<(), String> {
    let right = Oracle.node_pages(height, node);
    let pages = subject.node_pages(height, node);
    ensure!(
        pages == right,
        "node {node} at height {height} has {pages:?}, and {right:?} is right"
    );
    Ok(())
}

/// Every node of every height, what is no node, and heights above the tallest.
pub fn nodes(subject: &mut dyn Subject, _: &Amounts, _: &mut Random) -> Result<usize, String> {
    let mut comparisons = 0;
    let most = subject.reach().height;
    for height in (0..=TALLEST + 2)
        .chain([255, 0x100, 0x10c, most])
        .filter(|&height| height <= most)
    {
        for node in (0..=LAST_IN_A_ROW).chain([Node::MAX]) {
            same_pages(subject, height, node).map_err(|finding| format!("  {finding}"))?;
            comparisons += 1;
        }
    }
    Ok(comparisons)
}
