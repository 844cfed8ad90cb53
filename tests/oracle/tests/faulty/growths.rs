//! Growths that are right but for one mistake each.

use oracle::carrying::Move;
use oracle::definitions::{Node, Tree};
use oracle::line;
use oracle::planner::{self, Lent, Request, FEWEST_ENTRIES};
use oracle::refusal::{Refusal, DONE};
use oracle::subject::{line_image, table_from, Images, Oracle, Reply, Subject, MOVE_BYTES};

use super::{into_longer_list, refused, right_reply, Wrong};

/// The one mistake.
#[derive(Clone, Copy, Debug, PartialEq, Eq)]
pub enum GrowthFault {
    // Who is turned down, and why.
    SixEntriesEnough,
    SameLevelNeedsNoList,
    NothingHeldTakenForAGrant,
    NoRoomBeforeNothingHeld,
    NoRoomByThePagesBefore,
    OldBlockNotGivenUp,
    RefusedOneIsReleased,
    // Where everybody goes.
    FirstPlaceTaken,
    OldPlaceLeftEmpty,
    OldLevelStillCounted,
    ReleasedAndGranted,
    SameLevelMoves,
    // What is listed.
    AmongTheMoves,
}

/// What comes of a growth instead.
pub enum Other {
    Table(Vec<Node>),
    List(Vec<Move>),
    Refused,
}

impl GrowthFault {
    pub const ALL: [GrowthFault; 13] = [
        GrowthFault::SixEntriesEnough,
        GrowthFault::SameLevelNeedsNoList,
        GrowthFault::NothingHeldTakenForAGrant,
        GrowthFault::NoRoomBeforeNothingHeld,
        GrowthFault::NoRoomByThePagesBefore,
        GrowthFault::OldBlockNotGivenUp,
        GrowthFault::RefusedOneIsReleased,
        GrowthFault::FirstPlaceTaken,
        GrowthFault::OldPlaceLeftEmpty,
        GrowthFault::OldLevelStillCounted,
        GrowthFault::ReleasedAndGranted,
        GrowthFault::SameLevelMoves,
        GrowthFault::AmongTheMoves,
    ];

    /// What is done instead where the growth is to be refused.
    pub fn instead(self, lent: &mut Images, tenant: u32, level: u32) -> Option<Reply> {
        let request = Request::Grow { tenant, level };
        let due = right_reply(lent, request);
        if due.answer == DONE || due.answer <= Refusal::Length.number() {
            return None;
        }
        let is_due = |refusal: Refusal| due.answer == refusal.number();
        let before = table_from(lent.table);
        let tree = Tree::new(lent.height);
        let node = before.get(tenant as usize).copied().unwrap_or(0);
        let keeps_it = Reply {
            node: node.into(),
            ..Reply::number(DONE)
        };
        match self {
            GrowthFault::SixEntriesEnough if lent.moves.len() / MOVE_BYTES == 6 => {
                Some(into_longer_list(lent, request))
            }
            GrowthFault::SameLevelNeedsNoList
                if is_due(Refusal::MoveEntries) && tree.nodes().contains(&node) && tree.level(node) == level =>
            {
                Some(keeps_it)
            }
            GrowthFault::NothingHeldTakenForAGrant if is_due(Refusal::HoldsNothing) => {
                let line = &mut line_image(&line::EMPTY);
                let mut with_line = Images { line, ..lent.lent_on() };
                Some(Oracle.call(&mut with_line, Request::GrantLevel { tenant, level }))
            }
            GrowthFault::NoRoomBeforeNothingHeld
                if is_due(Refusal::HoldsNothing) && pages_held(tree, &before) + (1 << level) > tree.pages_in_all() =>
            {
                Some(refused(Refusal::NoRoom))
            }
            GrowthFault::NoRoomByThePagesBefore if is_due(Refusal::NoRoom) => Some(keeps_it),
            GrowthFault::RefusedOneIsReleased if is_due(Refusal::NoRoom) => {
                let entry = 2 * tenant as usize;
                lent.table[entry..entry + 2].fill(0);
                Some(due)
            }
            _ => None,
        }
    }

    /// What comes of a growth that is accepted, if it is not what should.
    pub(super) fn when_done(self, wrong: &Wrong, after: &[Node], list: &[Move]) -> Option<Other> {
        let (tree, before, own) = (wrong.tree, wrong.before, wrong.tenant());
        let (old, new) = (before[own], after[own]);
        match self {
            GrowthFault::OldBlockNotGivenUp => {
                let pages = pages_held(tree, before) + tree.pages(new).len() as u32;
                (pages > tree.pages_in_all()).then_some(Other::Refused)
            }
            GrowthFault::FirstPlaceTaken => Some(Other::Table(wrong.first_place_taken(after))),
            GrowthFault::OldPlaceLeftEmpty => {
                let taker = (0..after.len()).find(|&tenant| tenant != own && after[tenant] == old)?;
                let mut after = after.to_vec();
                after[taker] = before[taker];
                Some(Other::Table(after))
            }
            GrowthFault::OldLevelStillCounted if tree.level(new) < tree.level(old) => {
                let spare = (0..before.len()).find(|&tenant| before[tenant] == 0)?;
                let mut counted = before.to_vec();
                counted.swap(own, spare);
                let mut after = call(tree, &counted, grant(own, tree.level(new)))?;
                after[spare] = 0;
                Some(Other::Table(after))
            }
            GrowthFault::ReleasedAndGranted => {
                let tenant = own as u32;
                let released = call(tree, before, Request::Release { tenant })?;
                Some(Other::Table(call(tree, &released, grant(own, tree.level(new)))?))
            }
            GrowthFault::SameLevelMoves if old == new => {
                let mut layout: Vec<Node> = before.iter().copied().filter(|&node| node != 0).collect();
                layout.sort_unstable();
                Some(Other::Table(wrong.in_order(&layout)))
            }
            GrowthFault::AmongTheMoves if old != new => {
                let own = Move {
                    tenant: own as u16,
                    old,
                    new,
                    staged: false,
                };
                Some(Other::List([list, &[own]].concat()))
            }
            _ => None,
        }
    }
}

pub(super) fn grant(tenant: usize, level: u32) -> Request {
    let tenant = tenant as u32;
    Request::GrantLevel { tenant, level }
}

/// The table after a grant or a release by the second planner, if it is accepted.
pub(super) fn call(tree: Tree, table: &[Node], request: Request) -> Option<Vec<Node>> {
    let lent = Lent {
        height: tree.height(),
        table,
        line: &line::EMPTY,
        entries: FEWEST_ENTRIES,
    };
    let outcome = planner::call(lent, request);
    (outcome.answer == DONE).then_some(outcome.table)
}

pub(super) fn pages_held(tree: Tree, table: &[Node]) -> u32 {
    let held: Vec<Node> = table.iter().copied().filter(|&node| node != 0).collect();
    tree.pages_taken(&tree.counts(&held))
}
