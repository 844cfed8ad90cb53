//! Tables and lines that are spoilt.

use crate::definitions::{Node, Tree};
use crate::line::{LINE_NUMBERS, MOST_PASSED, MOST_WAITING};
use crate::planner::TENANTS;
use crate::random::Random;

/// A way to spoil a table.
#[derive(Clone, Copy, Debug, PartialEq, Eq)]
pub enum Damage {
    /// One entry is something else. What comes out may happen to be in order.
    EntryChanged,
    /// Two tenants of different size get each other's size where they stand: the same counts in other places.
    SwappedInLevel,
    NodeTwice,
    PastTheTree,
}

impl Damage {
    pub const ALL: [Damage; 4] = [
        Damage::EntryChanged,
        Damage::SwappedInLevel,
        Damage::NodeTwice,
        Damage::PastTheTree,
    ];

    /// Whether every table spoilt like this has to be turned down.
    pub fn is_certain(self) -> bool {
        self != Damage::EntryChanged
    }

    /// Spoils a table that was in order, if it has what it takes.
    pub fn inflict(self, random: &mut Random, tree: Tree, table: &mut [Node]) -> bool {
        let held: Vec<usize> = (0..TENANTS).filter(|&tenant| table[tenant] != 0).collect();
        match self {
            Damage::EntryChanged => {
                let tenant = if held.is_empty() || random.one_in(3) {
                    random.index(TENANTS)
                } else {
                    random.pick(&held)
                };
                table[tenant] = changed(random, tree, table[tenant]);
                true
            }
            Damage::SwappedInLevel => swap_in_level(random, tree, table, &held),
            Damage::NodeTwice => {
                if held.is_empty() {
                    return false;
                }
                let holder = random.pick(&held);
                let other = (holder + 1 + random.index(TENANTS - 1)) % TENANTS;
                table[other] = table[holder];
                true
            }
            Damage::PastTheTree => {
                let past = u32::from(tree.last_node()) + 1;
                let most = u32::from(Node::MAX);
                let anywhere = past + random.below(most - past + 1);
                let node = random.pick(&[past, most, anywhere]);
                table[random.index(TENANTS)] = node as Node;
                true
            }
        }
    }
}

/// Another entry: a neighbour of the node, a node of the tree, nothing, or any number.
fn changed(random: &mut Random, tree: Tree, entry: Node) -> Node {
    let candidates = [
        entry ^ 1,
        entry.wrapping_add(1),
        entry.wrapping_sub(1),
        entry / 2,
        entry.wrapping_mul(2),
        0,
        random.below(u32::from(tree.last_node()) + 1) as Node,
        random.below(0x1_0000) as Node,
    ];
    random.pick(&candidates)
}

fn swap_in_level(random: &mut Random, tree: Tree, table: &mut [Node], held: &[usize]) -> bool {
    if held.is_empty() {
        return false;
    }
    let one = random.pick(held);
    let level = tree.level(table[one]);
    let others: Vec<usize> = held
        .iter()
        .copied()
        .filter(|&other| tree.level(table[other]) != level)
        .collect();
    if others.is_empty() {
        return false;
    }
    let other = random.pick(&others);
    let (lower, higher) = if level < tree.level(table[other]) {
        (one, other)
    } else {
        (other, one)
    };
    let steps = tree.level(table[higher]) - tree.level(table[lower]);
    table[lower] >>= steps;
    table[higher] <<= steps;
    true
}

/// A way to spoil a line.
#[derive(Clone, Copy, Debug, PartialEq, Eq)]
pub enum LineDamage {
    /// One number is something else. What comes out may happen to be in order.
    NumberChanged,
    TooMany,
    NumberBehind,
    PassedTooOften,
    LevelAboveTheTree,
    TenantAboveTheLast,
    TenantTwice,
    HolderWaits,
}

impl LineDamage {
    pub const ALL: [LineDamage; 8] = [
        LineDamage::NumberChanged,
        LineDamage::TooMany,
        LineDamage::NumberBehind,
        LineDamage::PassedTooOften,
        LineDamage::LevelAboveTheTree,
        LineDamage::TenantAboveTheLast,
        LineDamage::TenantTwice,
        LineDamage::HolderWaits,
    ];

    /// Whether every line spoilt like this has to be turned down.
    pub fn is_certain(self) -> bool {
        self != LineDamage::NumberChanged
    }

    /// Spoils the numbers of a line that was in order beside a table, if the two have what it takes. The first number that is
    /// wrong is the least or one that would be right if it were cut to fewer bits.
    pub fn inflict(self, random: &mut Random, tree: Tree, table: &[Node], line: &mut [u16]) -> bool {
        let waiting = usize::from(line[0]);
        let behind = 1 + 3 * waiting..LINE_NUMBERS;
        let of_anybody = |random: &mut Random, field: usize| 1 + 3 * random.index(waiting) + field;
        match self {
            LineDamage::NumberChanged => {
                let place = random.index(behind.start.max(2));
                let other = random.below(0x1_0000) as u16;
                let number = line[place];
                line[place] = random.pick(&[number.wrapping_add(1), number.wrapping_sub(1), 0, number ^ 0x100, other]);
            }
            LineDamage::TooMany => line[0] = random.pick(&[MOST_WAITING as u16 + 1, 0x100 | line[0], u16::MAX]),
            LineDamage::NumberBehind if !behind.is_empty() => {
                let anywhere = behind.start + random.index(behind.len());
                let place = random.pick(&[behind.start, anywhere, behind.end - 1]);
                line[place] = random.pick(&[1, 0x100, u16::MAX]);
            }
            LineDamage::PassedTooOften if waiting > 0 => {
                let place = of_anybody(random, 2);
                line[place] = random.pick(&[MOST_PASSED as u16 + 1, 0x100 | line[place], u16::MAX]);
            }
            LineDamage::LevelAboveTheTree if waiting > 0 => {
                let place = of_anybody(random, 1);
                line[place] = random.pick(&[tree.height() as u16 + 1, 0x100 | line[place], u16::MAX]);
            }
            LineDamage::TenantAboveTheLast if waiting > 0 => {
                let place = of_anybody(random, 0);
                line[place] = random.pick(&[TENANTS as u16, TENANTS as u16 | line[place], u16::MAX]);
            }
            LineDamage::TenantTwice if waiting > 1 => {
                let place = random.index(waiting);
                let other = (place + 1 + random.index(waiting - 1)) % waiting;
                line[1 + 3 * place] = line[1 + 3 * other];
            }
            LineDamage::HolderWaits if waiting > 0 => {
                let holders: Vec<usize> = (0..TENANTS).filter(|&tenant| table[tenant] != 0).collect();
                if holders.is_empty() {
                    return false;
                }
                line[of_anybody(random, 0)] = random.pick(&holders) as u16;
            }
            _ => return false,
        }
        true
    }
}
