//! Who is staged, and in which order the moves are carried out.
//!
//! A set of movers is a byte. They stand from the highest tenant number down, so the lowest number has the highest bit.

use std::cmp::Reverse;

use crate::plan::{Move, Plan, MOST};

/// For each mover the set of those on whose pages its new ones lie.
type Waits = [u8; MOST];

/// The moves in the order in which they are carried out, with those marked that are staged.
pub fn arranged(moves: &mut [Move]) -> Plan {
    moves.sort_unstable_by_key(|step| Reverse(step.tenant));
    let waits = waits(moves);
    let staged = best_set(moves, &waits);
    let mut plan = Plan::default();
    let mut lying = all(moves) & !staged;
    while let Some(next) = lowest_that_can_go(&waits, lying) {
        lying &= !(1 << next);
        plan.push(moves[next]);
    }
    for place in (0..moves.len()).rev().filter(|&place| holds(staged, place)) {
        let staged = 1;
        plan.push(Move { staged, ..moves[place] });
    }
    plan
}

/// The set of all movers.
fn all(moves: &[Move]) -> u8 {
    (1 << moves.len()) - 1
}

fn holds(set: u8, place: usize) -> bool {
    set >> place & 1 == 1
}

fn waits(moves: &[Move]) -> Waits {
    let mut waits = [0; MOST];
    for (set, step) in waits.iter_mut().zip(moves) {
        for (place, other) in moves.iter().enumerate() {
            *set |= u8::from(meet(step.to, other.from)) << place;
        }
    }
    waits
}

/// Whether one node lies within the other.
fn meet(one: u16, other: u16) -> bool {
    let (upper, lower) = (one.min(other), one.max(other));
    lower >> (lower.ilog2() - upper.ilog2()) == upper
}

/// The set to stage: with the fewest pages, then the fewest tenants, then the lowest numbers, which come first here. Whoever
/// can go while nobody is staged need not be staged.
fn best_set(moves: &[Move], waits: &Waits) -> u8 {
    let all = all(moves);
    let stuck = left_lying(waits, all);
    let mut best = all;
    let mut least = cost(moves, all);
    for set in (0..all).rev().filter(|set| set & !stuck == 0) {
        let cost = cost(moves, set);
        if cost < least && left_lying(waits, all & !set) == 0 {
            best = set;
            least = cost;
        }
    }
    best
}

/// Eight times the pages of a set, in parts of the whole reserve, and the number of its tenants.
fn cost(moves: &[Move], set: u8) -> u32 {
    let chosen = moves.iter().enumerate().filter(|&(place, _)| holds(set, place));
    chosen.map(|(_, step)| 8 * (0x10000 >> step.from.ilog2()) + 1).sum()
}

/// Those of a set who cannot go, once the others are out of the way and all have gone, one by one, who can.
fn left_lying(waits: &Waits, mut lying: u8) -> u8 {
    while let Some(next) = lowest_that_can_go(waits, lying) {
        lying &= !(1 << next);
    }
    lying
}

/// The place of the lowest tenant of a set that waits for nobody in it.
fn lowest_that_can_go(waits: &Waits, lying: u8) -> Option<usize> {
    (0..MOST)
        .rev()
        .find(|&place| holds(lying, place) && waits[place] & lying == 0)
}
