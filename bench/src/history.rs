//! Calls one after the other, from an empty reserve to a full one and back, and the calls with the most moves, growths apart.

use oracle::definitions::{Counts, Tree};
use oracle::generate::{nearly_full, MOST_MOVED};
use oracle::planner::TENANTS;
use oracle::random::Random;

use crate::input::{Ask, Input};
use crate::reserve::Reserve;
use crate::rows::{outcome_of, HEIGHTS, SEED};

/// The fewest calls of a history; it goes to full and back as often as that takes.
const CALLS: usize = 400;

/// How many reserves are searched for calls with the most moves, fewer where there are more calls to each, and how many of these
/// calls are kept.
const SEARCHED: usize = 200;
const SEARCHED_FOR_GROWTHS: usize = 40;
const KEPT: usize = 8;

/// What is counted at a height besides the rows of the table.
pub struct Counted {
    pub height: u16,
    pub most_moves: Vec<Input>,
    /// The growths with the most moves.
    pub growths: Vec<Input>,
    pub history: Vec<Ask>,
}

/// The same at every call, for each height.
pub fn counted() -> [Counted; HEIGHTS.len()] {
    let mut random = Random::new(SEED);
    HEIGHTS.map(|height| Counted {
        height,
        most_moves: most_moves(height, &mut random),
        growths: growths(height),
        history: history(height, &mut random),
    })
}

/// Whoever holds a block, and how many pages are left.
struct Crowd<'a> {
    random: &'a mut Random,
    height: u16,
    room: u32,
    holders: Vec<(u16, u16)>,
    asks: Vec<Ask>,
}

/// A history of grants and releases at a height, refused ones among them.
fn history(height: u16, random: &mut Random) -> Vec<Ask> {
    let mut crowd = Crowd {
        random,
        height,
        room: 1 << height,
        holders: Vec::new(),
        asks: Vec::new(),
    };
    while crowd.asks.len() < CALLS {
        while crowd.room > 0 {
            crowd.step(4);
        }
        while !crowd.holders.is_empty() {
            crowd.step(1);
        }
    }
    crowd.asks
}

impl Crowd<'_> {
    /// One call: so many of five are grants, and the others releases; now and then it is one that is refused.
    fn step(&mut self, grants: u32) {
        if self.random.one_in(8) {
            self.refused();
        } else if self.random.below(5) < grants {
            self.grant();
        } else {
            self.release();
        }
    }

    /// A grant of any level, small ones more often; it may find no room.
    fn grant(&mut self) {
        let steps = self.random.next_number().trailing_zeros() as u16;
        let level = (2 * steps + self.random.below(2) as u16).min(self.height);
        let tenant = self.newcomer();
        self.asks.push(Ask::Grant { tenant, level });
        if 1 << level <= self.room {
            self.room -= 1 << level;
            self.holders.push((tenant, level));
        }
    }

    fn release(&mut self) {
        if self.holders.is_empty() {
            return;
        }
        let place = self.random.index(self.holders.len());
        let (tenant, level) = self.holders.swap_remove(place);
        self.room += 1 << level;
        self.asks.push(Ask::Release { tenant });
    }

    /// A release by somebody who holds nothing, or a grant of another level to somebody who does.
    fn refused(&mut self) {
        let holder = self.holders.first().copied();
        let ask = match holder {
            Some((tenant, held)) if self.random.one_in(2) => Ask::Grant {
                tenant,
                level: u16::from(held == 0),
            },
            _ => Ask::Release {
                tenant: self.newcomer(),
            },
        };
        self.asks.push(ask);
    }

    fn newcomer(&mut self) -> u16 {
        loop {
            let tenant = self.random.index(TENANTS) as u16;
            if self.holders.iter().all(|&(holder, _)| holder != tenant) {
                return tenant;
            }
        }
    }
}

/// The calls with the most moves among those on some reserves that are nearly full, grants and releases apart.
fn most_moves(height: u16, random: &mut Random) -> Vec<Input> {
    let mut grants = Vec::new();
    let mut releases = Vec::new();
    for _ in 0..SEARCHED {
        let counts = nearly_full(random, Tree::new(height.into()));
        let reserve = Reserve::draw(height, &counts, random);
        grants.extend(reserve.grants(random).into_iter().map(|ask| reserve.input(ask)));
        releases.extend(reserve.releases(random).into_iter().map(|ask| reserve.input(ask)));
    }
    keep_most_moves(&mut grants);
    keep_most_moves(&mut releases);
    grants.append(&mut releases);
    grants
}

/// The growths with the most moves among those on some reserves that are nearly full, and on one where seven others move, if it
/// has room for that. They are drawn from a seed of their own, so that all else is drawn as it was without them.
fn growths(height: u16) -> Vec<Input> {
    let mut random = Random::new(SEED);
    let tree = Tree::new(height.into());
    let drawn = (0..SEARCHED_FOR_GROWTHS).map(|_| nearly_full(&mut random, tree));
    let sharp = (tree.height() >= MOST_MOVED.height).then_some(MOST_MOVED.counts);
    let counts: Vec<Counts> = drawn.chain(sharp).collect();
    let mut growths = Vec::new();
    for counts in counts {
        let reserve = Reserve::draw(height, &counts, &mut random);
        growths.extend(reserve.growths(|_, _| true).into_iter().map(|ask| reserve.input(ask)));
        keep_most_moves(&mut growths);
    }
    growths
}

fn keep_most_moves(inputs: &mut Vec<Input>) {
    inputs.sort_by_cached_key(|input| std::cmp::Reverse(outcome_of(input).moves));
    inputs.truncate(KEPT);
}
