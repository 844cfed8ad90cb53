//! The line: who waits for a block, oldest first.

use crate::definitions::{Node, Tree};
use crate::planner::TENANTS;
use crate::refusal::Refusal;

/// The most that can wait.
pub const MOST_WAITING: usize = 64;

/// The numbers of a line: how many wait, and three for each that can.
pub const LINE_NUMBERS: usize = 1 + 3 * MOST_WAITING;

/// A line in which nobody waits.
pub const EMPTY: [u16; LINE_NUMBERS] = [0; LINE_NUMBERS];

/// The most grants that may pass somebody. Behind whoever was passed that often nobody is granted anything.
pub const MOST_PASSED: u32 = 8;

/// Somebody who waits for a block.
#[derive(Clone, Copy, Debug, PartialEq, Eq)]
pub struct Waiting {
    pub tenant: u16,
    pub level: u32,
    /// How many grants went to others than older ones since it waits.
    pub passed: u32,
}

impl Waiting {
    fn numbers(&self) -> [u16; 3] {
        [self.tenant, self.level as u16, self.passed as u16]
    }

    pub fn pages(&self) -> u32 {
        1 << self.level
    }

    fn is_in_order(&self, tree: Tree) -> bool {
        usize::from(self.tenant) < TENANTS && self.level <= tree.height() && self.passed <= MOST_PASSED
    }
}

/// The numbers of a line, with zeros behind the last that waits.
pub fn numbers(line: &[Waiting]) -> Vec<u16> {
    let mut numbers = vec![line.len() as u16];
    numbers.extend(line.iter().flat_map(Waiting::numbers));
    numbers.resize(LINE_NUMBERS, 0);
    numbers
}

/// Who waits, if the numbers of a line are in order.
pub fn read(tree: Tree, table: &[Node], numbers: &[u16]) -> Result<Vec<Waiting>, Refusal> {
    let waiting = usize::from(numbers[0]);
    if waiting > MOST_WAITING {
        return Err(Refusal::Disorder);
    }
    let (triples, behind) = numbers[1..].split_at(3 * waiting);
    let line: Vec<Waiting> = triples
        .as_chunks()
        .0
        .iter()
        .map(|&[tenant, level, passed]| Waiting {
            tenant,
            level: level.into(),
            passed: passed.into(),
        })
        .collect();
    let holds_or_comes_again = |place: usize| {
        let tenant = line[place].tenant;
        table[usize::from(tenant)] != 0 || place_of(&line[..place], tenant).is_some()
    };
    let in_order = behind.iter().all(|&number| number == 0)
        && line.iter().all(|waiting| waiting.is_in_order(tree))
        && !(0..line.len()).any(holds_or_comes_again);
    if in_order {
        Ok(line)
    } else {
        Err(Refusal::Disorder)
    }
}

/// Where a tenant stands in a line.
pub fn place_of(line: &[Waiting], tenant: u16) -> Option<usize> {
    line.iter().position(|waiting| waiting.tenant == tenant)
}

/// Whether nobody behind these is granted anything.
pub fn bars(line: &[Waiting]) -> bool {
    line.iter().any(|waiting| waiting.passed == MOST_PASSED)
}

/// The place of the first who fits into so many pages and is not barred.
pub fn first_to_admit(line: &[Waiting], room: u32) -> Option<usize> {
    (0..line.len()).find(|&place| line[place].pages() <= room && !bars(&line[..place]))
}

/// Counts a grant that passes these.
pub fn pass(line: &mut [Waiting]) {
    line.iter_mut().for_each(|waiting| waiting.passed += 1);
}
