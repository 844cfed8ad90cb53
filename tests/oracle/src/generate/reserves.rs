//! Reserves that somebody holds, and lines beside them.

use std::ops::RangeInclusive;

use super::Holder;
use crate::definitions::{Counts, Node, Tree};
use crate::line::{Waiting, MOST_PASSED};
use crate::planner::{level_for_pages, Request, TENANTS};
use crate::random::Random;

/// Every tenant that holds a block in a table, with every level that it is to grow to.
pub fn growths(table: &[Node], levels: RangeInclusive<u32>) -> Vec<Request> {
    let holders = (0..).zip(table).filter(|&(_, &node)| node != 0);
    holders
        .flat_map(|(tenant, _)| levels.clone().map(move |level| Request::Grow { tenant, level }))
        .collect()
}

/// Tenants drawn at random for blocks of some counts, in random order.
pub fn holders_for(random: &mut Random, counts: &Counts) -> Vec<Holder> {
    let mut tenants: Vec<u16> = (0..TENANTS as u16).collect();
    random.shuffle(&mut tenants);
    let levels = (0..)
        .zip(counts)
        .flat_map(|(level, &number)| (0..number).map(move |_| level));
    levels
        .zip(tenants)
        .map(|(level, tenant)| Holder { tenant, level })
        .collect()
}

/// Counts that fill the reserve, or all but a little of it.
pub fn nearly_full(random: &mut Random, tree: Tree) -> Counts {
    let style = random.below(4);
    let mut counts = Counts::default();
    let mut room = tree.pages_in_all();
    while room > 0 {
        let largest = room.ilog2();
        let level = match style {
            0 => 0,
            1 => random.below(largest.min(2) + 1),
            2 => random.below(largest + 1),
            // One block of nearly every size: the layouts on which one grant moves the most.
            _ => largest - u32::from(largest > 0 && random.one_in(2)),
        };
        counts[level as usize] += 1;
        room -= 1 << level;
    }
    for _ in 0..random.pick(&[0, 0, 1, 2, 5]) {
        let level = random.index(counts.len());
        counts[level] = counts[level].saturating_sub(1);
    }
    counts
}

/// Counts that fill the reserve to any degree.
pub fn any_fill(random: &mut Random, tree: Tree) -> Counts {
    let mut counts = nearly_full(random, tree);
    if random.one_in(3) {
        for count in &mut counts {
            *count = random.below(*count + 1);
        }
    }
    counts
}

/// So many of some tenants in line, or all of them. Mostly they were passed as often as can be: an older one as often as a
/// younger one, or more often.
pub fn line_of(random: &mut Random, tree: Tree, mut tenants: Vec<u16>, number: usize) -> Vec<Waiting> {
    random.shuffle(&mut tenants);
    let most = random.pick(&[0, MOST_PASSED - 1, MOST_PASSED]);
    let mut line: Vec<Waiting> = tenants
        .into_iter()
        .take(number)
        .map(|tenant| Waiting {
            tenant,
            level: random.below(tree.height() + 1),
            passed: random.below(most + 1),
        })
        .collect();
    if !random.one_in(4) {
        let mut counts: Vec<u32> = line.iter().map(|waiting| waiting.passed).collect();
        counts.sort_unstable_by(|one, other| other.cmp(one));
        line.iter_mut()
            .zip(counts)
            .for_each(|(waiting, passed)| waiting.passed = passed);
    }
    line
}

/// All numbers of pages that get a block of a level.
pub fn pages_for(tree: Tree, level: u32) -> Vec<u32> {
    let named = 0..tree.pages_in_all();
    named.filter(|&pages| level_for_pages(tree, pages) == level).collect()
}
