//! Growths: all of them on small trees, and some into lists of all lengths.

use super::calls::{check_one, holders_and_others, on_every_counts};
use super::Amounts;
use crate::definitions::{Node, Tree, TALLEST};
use crate::generate::{growths, holders_for, Call, Holder, Start, MOST_MOVED};
use crate::planner::Request;
use crate::random::Random;
use crate::subject::{Subject, FEWEST_MOVE_BYTES, FEWEST_MOVE_BYTES_TO_GROW, MOVE_BYTES};

/// Every counts vector of the small trees, with a growth of every tenant to every level.
pub fn every_growth(subject: &mut dyn Subject, amounts: &Amounts, random: &mut Random) -> Result<usize, String> {
    on_every_counts(subject, amounts, random, every_request)
}

/// A growth of every holder, and of somebody who holds nothing, to every level and to two above the height.
fn every_request(random: &mut Random, tree: Tree, table: &[Node]) -> Vec<Request> {
    let levels = 0..=tree.height() + 2;
    let (_, others) = holders_and_others(table);
    let tenant = random.pick(&others);
    let of_nothing = levels.clone().map(|level| Request::Grow { tenant, level });
    growths(table, levels).into_iter().chain(of_nothing).collect()
}

/// The lengths of lists worth trying: nothing, what the other calls need, an entry or a byte too few, enough, and more.
const LENGTHS: [usize; 7] = [
    0,
    FEWEST_MOVE_BYTES,
    FEWEST_MOVE_BYTES_TO_GROW - MOVE_BYTES,
    FEWEST_MOVE_BYTES_TO_GROW - 1,
    FEWEST_MOVE_BYTES_TO_GROW,
    FEWEST_MOVE_BYTES_TO_GROW + 1,
    FEWEST_MOVE_BYTES_TO_GROW + MOVE_BYTES,
];

/// So many times the tenants of a reserve are numbered.
const NUMBERINGS: usize = 20;

/// The growths that move seven or six others, on every height that has room for them, and growths of the same tenants to the
/// level that they have.
pub fn lists(subject: &mut dyn Subject, _: &Amounts, random: &mut Random) -> Result<usize, String> {
    let mut comparisons = 0;
    for height in MOST_MOVED.height..=TALLEST {
        for _ in 0..NUMBERINGS {
            let holders = holders_for(random, &MOST_MOVED.counts);
            let start = Start::held_by(&holders);
            for call in calls(&holders) {
                check_one(subject, height, &start, call)?;
                comparisons += 1;
            }
        }
    }
    Ok(comparisons)
}

fn calls(holders: &[Holder]) -> Vec<Call> {
    let mut calls = Vec::new();
    for holder in holders.iter().filter(|holder| holder.level == MOST_MOVED.from) {
        let tenant = holder.tenant.into();
        for level in [MOST_MOVED.to, MOST_MOVED.from] {
            let request = Request::Grow { tenant, level };
            calls.extend(LENGTHS.map(|move_bytes| Call { request, move_bytes }));
        }
    }
    calls
}
