//! What one planning call owes its caller, told from the tables before and after it, and from the line before it.
//!
//! Nothing here plans: the moves are held against the differences of the tables and against the rules for who stays,
//! who goes where, in which order, and how many may be moved at all; and they are carried out. Who is admitted is held
//! against those in front.

use crate::book::{level_wanted, occupied};
use crate::carrying::Move;
use crate::definitions::{Node, Tree};
use crate::line::{Waiting, MOST_PASSED, MOST_WAITING};
use crate::occupancy::is_legal_and_safe;
use crate::planner::{Request, TENANTS};
use crate::refusal::DONE;
use crate::runtime::{carry_out, staged_come_last};

/// The most tenants that a grant may move.
pub const MOST_FOR_GRANT: usize = 3;

/// The most tenants that a release may move.
pub const MOST_FOR_RELEASE: usize = 4;

/// The most others that a growth may move.
pub const MOST_FOR_GROWTH: usize = 7;

/// The most tenants that a call may move, its own left out.
fn most_moves(request: Request) -> usize {
    match request {
        Request::GrantLevel { .. } | Request::GrantPages { .. } | Request::Admit => MOST_FOR_GRANT,
        Request::Release { .. } => MOST_FOR_RELEASE,
        Request::Grow { .. } => MOST_FOR_GROWTH,
        Request::Join { .. } | Request::Withdraw { .. } => 0,
    }
}

/// Whether a table may stay as it is, by the definitions alone; otherwise it is refused.
pub fn is_in_order(tree: Tree, table: &[Node]) -> bool {
    let held = occupied(table);
    held.iter().all(|&node| node <= tree.last_node()) && is_legal_and_safe(tree, &held)
}

/// Whether a line may stay as it is beside a table, number by number; otherwise it is refused.
pub fn is_line_in_order(tree: Tree, table: &[Node], line: &[u16]) -> bool {
    let waiting = usize::from(line[0]);
    let is_tenant_in_order = |place: usize, tenant: u16| {
        let comes_before = || (0..place).any(|other| line[1 + 3 * other] == tenant);
        usize::from(tenant) < TENANTS && table[usize::from(tenant)] == 0 && !comes_before()
    };
    let is_in_order = |(at, &number): (usize, &u16)| match (at / 3, at % 3) {
        (place, _) if place >= waiting => number == 0,
        (place, 0) => is_tenant_in_order(place, number),
        (_, 1) => u32::from(number) <= tree.height(),
        _ => u32::from(number) <= MOST_PASSED,
    };
    waiting <= MOST_WAITING && line[1..].iter().enumerate().all(is_in_order)
}

/// A planning call as seen from outside.
#[derive(Clone, Copy, Debug)]
pub struct Seen<'a> {
    pub request: Request,
    pub before: &'a [Node],
    pub after: &'a [Node],
    /// Who waited before the call.
    pub waiting: &'a [Waiting],
    pub answer: u32,
    /// The tenant that an admit names.
    pub admitted: Option<u32>,
    pub node: Node,
    pub moves: &'a [Move],
}

impl Seen<'_> {
    /// The tenant that the call is for, if it gets or gives up or changes a block.
    fn own(&self) -> Option<u32> {
        match self.request {
            Request::Admit => self.admitted,
            Request::Join { .. } | Request::Withdraw { .. } => None,
            _ => self.request.tenant(),
        }
    }
}

/// Says what is wrong with a call, if anything is.
pub fn audit(tree: Tree, seen: &Seen) -> Result<(), String> {
    if seen.answer != DONE {
        return nothing_happened(seen);
    }
    if seen.request == Request::Admit {
        first_who_may_is_admitted(tree, seen)?;
    }
    let Some(tenant) = seen.own() else {
        return nothing_happened(seen);
    };
    own_entry(tree, seen, tenant)?;
    moves_are_the_differences(seen)?;
    movers_had_to_move(tree, seen)?;
    pairing_is_left_to_right(tree, seen)?;
    ensure!(
        staged_come_last(seen.moves),
        "the staged ones do not come last by tenant number: {:?}",
        seen.moves
    );
    carry_out(tree, seen.before, seen.after, seen.moves)?;
    let (moves, most) = (seen.moves.len(), most_moves(seen.request));
    ensure!(moves <= most, "{moves} tenants are moved");
    Ok(())
}

/// What is left by a call that is refused, that is about the line alone, or that admits nobody.
fn nothing_happened(seen: &Seen) -> Result<(), String> {
    ensure!(
        seen.admitted.is_none() && seen.node == 0 && seen.moves.is_empty(),
        "nothing was granted, yet there is a tenant, a node or a move"
    );
    ensure!(seen.before == seen.after, "nothing was granted, yet the table changed");
    Ok(())
}

/// Nobody in front of whoever is admitted has room or was passed eight times. If nobody is admitted, that is how it is with
/// everybody up to the oldest that was passed eight times, and that one has no room either.
fn first_who_may_is_admitted(tree: Tree, seen: &Seen) -> Result<(), String> {
    let room = tree.pages_in_all() - tree.pages_taken(&tree.counts(&occupied(seen.before)));
    let fits = |waiting: &&Waiting| waiting.pages() <= room;
    let place = |tenant: u32| {
        seen.waiting
            .iter()
            .position(|waiting| u32::from(waiting.tenant) == tenant)
    };
    let bar = seen.waiting.iter().position(|waiting| waiting.passed == MOST_PASSED);
    let in_front = match seen.admitted {
        Some(tenant) => {
            let place = place(tenant).ok_or_else(|| format!("tenant {tenant} is admitted, but does not wait"))?;
            ensure!(fits(&&seen.waiting[place]), "tenant {tenant} is admitted without room");
            ensure!(
                bar.is_none_or(|bar| place <= bar),
                "tenant {tenant} is admitted, though barred"
            );
            &seen.waiting[..place]
        }
        None => &seen.waiting[..bar.map_or(seen.waiting.len(), |bar| bar + 1)],
    };
    let passed_over = in_front.iter().find(fits);
    ensure!(passed_over.is_none(), "{passed_over:?} could be admitted");
    Ok(())
}

/// The caller's own tenant gets, or gives up, just the node that is answered; one that grows gets it for another, and one that
/// is granted what it has keeps it.
fn own_entry(tree: Tree, seen: &Seen, tenant: u32) -> Result<(), String> {
    let entries = (seen.before[tenant as usize], seen.after[tenant as usize]);
    let is_right = match seen.request {
        Request::GrantLevel { .. } | Request::GrantPages { .. } => {
            entries == (0, seen.node) || entries == (seen.node, seen.node) && is_repeated(tree, seen)
        }
        Request::Release { .. } => entries == (seen.node, 0),
        Request::Grow { level, .. } => entries.0 != 0 && entries.1 == seen.node && tree.level(seen.node) == level,
        _ => entries == (0, seen.node),
    };
    ensure!(
        seen.node != 0 && is_right,
        "tenant {tenant} went {entries:?} with node {} answered",
        seen.node
    );
    Ok(())
}

/// A grant to somebody who holds a block is one of the same level, and nothing changes with it.
fn is_repeated(tree: Tree, seen: &Seen) -> bool {
    level_wanted(tree, seen.request) == Some(tree.level(seen.node)) && seen.before == seen.after
}

/// The list has every other tenant whose node changed, once, and nobody else.
fn moves_are_the_differences(seen: &Seen) -> Result<(), String> {
    let differences: Vec<(u16, Node, Node)> = (0..)
        .zip(seen.before.iter().zip(seen.after))
        .filter(|&(tenant, (old, new))| old != new && Some(u32::from(tenant)) != seen.own())
        .map(|(tenant, (&old, &new))| (tenant, old, new))
        .collect();
    ensure!(
        differences.iter().all(|&(_, old, new)| old != 0 && new != 0),
        "somebody else came or went: {differences:?}"
    );
    let mut listed: Vec<(u16, Node, Node)> = seen
        .moves
        .iter()
        .map(|step| (step.tenant, step.old, step.new))
        .collect();
    listed.sort_unstable();
    ensure!(
        listed == differences,
        "the moves are {listed:?}, the differences {differences:?}"
    );
    Ok(())
}

/// Movers keep their level, and nobody leaves a place that is still needed.
fn movers_had_to_move(tree: Tree, seen: &Seen) -> Result<(), String> {
    for step in seen.moves {
        ensure!(
            tree.level(step.old) == tree.level(step.new),
            "{step:?} goes to another level"
        );
        ensure!(!seen.after.contains(&step.old), "{step:?} could have stayed");
    }
    Ok(())
}

/// Within a level nobody overtakes anybody, and the tenant that gets a block there ends up right of all movers.
fn pairing_is_left_to_right(tree: Tree, seen: &Seen) -> Result<(), String> {
    let mut left_to_right = seen.moves.to_vec();
    left_to_right.sort_unstable_by_key(|step| step.old);
    for pair in left_to_right.windows(2) {
        let same_level = tree.level(pair[0].old) == tree.level(pair[1].old);
        ensure!(
            !same_level || pair[0].new < pair[1].new,
            "{:?} overtakes {:?}",
            pair[0],
            pair[1]
        );
    }
    if !matches!(seen.request, Request::Release { .. }) {
        let passed = seen
            .moves
            .iter()
            .any(|step| tree.level(step.new) == tree.level(seen.node) && step.new > seen.node);
        ensure!(
            !passed,
            "the tenant on {} is not the last of {:?}",
            seen.node,
            seen.moves
        );
    }
    Ok(())
}
