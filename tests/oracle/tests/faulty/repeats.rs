//! Grants to holders that are right but for one mistake each.

use oracle::book::level_wanted;
use oracle::carrying::Move;
use oracle::definitions::{Node, Tree};
use oracle::planner::Request;
use oracle::refusal::{Refusal, DONE};
use oracle::subject::{put_moves, table_from, table_image, Images, Reply};

use super::growths::{call, grant, pages_held};
use super::{into_longer_list, refused, right_reply, Wrong};

/// The one mistake.
#[derive(Clone, Copy, Debug, PartialEq, Eq)]
pub enum RepeatFault {
    // Which grants are taken for repeated ones.
    NeverTaken,
    ByPagesNotTaken,
    EveryLevelTaken,
    AnotherLevelGrows,
    PagesNotRounded,
    PagesOfTheBlockTaken,
    NoSizeTakenForOnePage,
    // What is judged before.
    NoRoomBefore,
    NotTheTable,
    NotTheList,
    // What comes of one.
    ExchangesPlaces,
    ExchangesPlacesUntold,
    NodeOfAnother,
    NoNode,
    ReportsAMove,
    WritesTheList,
    CountedAsAGrant,
}

impl RepeatFault {
    /// Those that show where each grant is made again just after it was accepted.
    pub const AT_ONCE: [RepeatFault; 11] = [
        RepeatFault::NeverTaken,
        RepeatFault::ByPagesNotTaken,
        RepeatFault::PagesNotRounded,
        RepeatFault::NoRoomBefore,
        RepeatFault::ExchangesPlaces,
        RepeatFault::ExchangesPlacesUntold,
        RepeatFault::NodeOfAnother,
        RepeatFault::NoNode,
        RepeatFault::ReportsAMove,
        RepeatFault::WritesTheList,
        RepeatFault::CountedAsAGrant,
    ];
    /// Those that show in grants of other levels.
    pub const OF_OTHER_LEVELS: [RepeatFault; 4] = [
        RepeatFault::EveryLevelTaken,
        RepeatFault::AnotherLevelGrows,
        RepeatFault::PagesOfTheBlockTaken,
        RepeatFault::NoSizeTakenForOnePage,
    ];
    /// Those that show where something else is wrong too.
    pub const TOO_EARLY: [RepeatFault; 2] = [RepeatFault::NotTheTable, RepeatFault::NotTheList];

    /// What is answered instead to a grant, if its tenant has a node of the tree.
    pub fn instead(self, lent: &mut Images, request: Request) -> Option<Reply> {
        let due = right_reply(lent, request);
        let is_due = |refusal: Refusal| due.answer == refusal.number();
        if is_due(Refusal::Height) || is_due(Refusal::Length) {
            return None;
        }
        let grant = ToHolder::of(Tree::new(lent.height), table_from(lent.table), request)?;
        let is_same = grant.held == grant.wanted;
        match self {
            RepeatFault::NotTheTable => (is_due(Refusal::Disorder) && is_same).then_some(grant.kept()),
            RepeatFault::NotTheList => (is_due(Refusal::MoveEntries) && is_same).then_some(grant.kept()),
            RepeatFault::AnotherLevelGrows if is_due(Refusal::HoldsAlready) => {
                let (tenant, level) = (request.tenant()?, grant.wanted);
                Some(into_longer_list(lent, Request::Grow { tenant, level }))
            }
            _ if is_due(Refusal::HoldsAlready) => self.other_level(&grant),
            _ if due.answer == DONE => self.same_level(&grant, lent.table, lent.moves),
            _ => None,
        }
    }

    /// What is answered to a grant of another level.
    fn other_level(self, grant: &ToHolder) -> Option<Reply> {
        let is_taken = match self {
            RepeatFault::EveryLevelTaken => true,
            RepeatFault::PagesOfTheBlockTaken => grant.pages == Some(1 << grant.held),
            RepeatFault::NoSizeTakenForOnePage => grant.pages == Some(0) && grant.held == 0,
            _ => false,
        };
        is_taken.then_some(grant.kept())
    }

    /// What comes of a grant of the level that the tenant has.
    fn same_level(self, grant: &ToHolder, table: &mut [u8], moves: &mut [u8]) -> Option<Reply> {
        let kept = grant.kept();
        let reply = match self {
            RepeatFault::ExchangesPlaces => grant.commit(&grant.exchanged()?, table, moves),
            RepeatFault::ExchangesPlacesUntold => {
                table.copy_from_slice(&table_image(&grant.exchanged()?));
                kept
            }
            RepeatFault::CountedAsAGrant => grant.commit(&grant.with_one_more()?, table, moves),
            RepeatFault::NodeOfAnother => {
                let (_, node) = grant.others().next()?;
                let node = node.into();
                Reply { node, ..kept }
            }
            RepeatFault::NoNode => Reply { node: 0, ..kept },
            RepeatFault::ReportsAMove => Reply { moves: 1, ..kept },
            RepeatFault::WritesTheList => {
                put_moves(&[grant.move_to_itself()], moves);
                kept
            }
            _ => refused(self.refusal(grant)?),
        };
        Some(reply)
    }

    /// Why such a grant is refused, if it is.
    fn refusal(self, grant: &ToHolder) -> Option<Refusal> {
        let holds = match self {
            RepeatFault::NeverTaken => true,
            RepeatFault::ByPagesNotTaken => grant.pages.is_some(),
            RepeatFault::PagesNotRounded => grant.pages.is_some_and(|pages| pages != 0 && pages != 1 << grant.held),
            RepeatFault::NoSizeTakenForOnePage => grant.pages == Some(0) && grant.held != 0,
            RepeatFault::NoRoomBefore => return grant.has_no_room().then_some(Refusal::NoRoom),
            _ => false,
        };
        holds.then_some(Refusal::HoldsAlready)
    }
}

/// A grant to a tenant that has a node of the tree.
struct ToHolder {
    tree: Tree,
    before: Vec<Node>,
    request: Request,
    own: usize,
    node: Node,
    held: u32,
    wanted: u32,
    /// The pages that are named, if it is a grant by pages.
    pages: Option<u32>,
}

impl ToHolder {
    fn of(tree: Tree, before: Vec<Node>, request: Request) -> Option<Self> {
        let own = request.tenant()? as usize;
        let node = before.get(own).copied()?;
        if !tree.nodes().contains(&node) {
            return None;
        }
        Some(ToHolder {
            tree,
            before,
            request,
            own,
            node,
            held: tree.level(node),
            wanted: level_wanted(tree, request)?,
            pages: match request {
                Request::GrantPages { pages, .. } => Some(pages),
                _ => None,
            },
        })
    }

    /// The tenant keeps what it has.
    fn kept(&self) -> Reply {
        Reply {
            node: self.node.into(),
            ..Reply::number(DONE)
        }
    }

    fn commit(&self, after: &[Node], table: &mut [u8], moves: &mut [u8]) -> Reply {
        let wrong = Wrong {
            tree: self.tree,
            before: &self.before,
            request: self.request,
        };
        wrong.commit(after, table, moves)
    }

    /// The others with a block of the same level, and their nodes.
    fn others(&self) -> impl Iterator<Item = (usize, Node)> + '_ {
        let entries = self.before.iter().copied().enumerate();
        entries.filter(|&(tenant, node)| tenant != self.own && node != 0 && self.tree.level(node) == self.held)
    }

    fn has_no_room(&self) -> bool {
        pages_held(self.tree, &self.before) + (1 << self.wanted) > self.tree.pages_in_all()
    }

    /// The table with the places of the tenant and of another of its level exchanged.
    fn exchanged(&self) -> Option<Vec<Node>> {
        let (other, _) = self.others().next()?;
        let mut after = self.before.clone();
        after.swap(self.own, other);
        Some(after)
    }

    /// The places of everybody if there were one more block of the level.
    fn with_one_more(&self) -> Option<Vec<Node>> {
        let spare = self.before.iter().position(|&node| node == 0)?;
        let mut after = call(self.tree, &self.before, grant(spare, self.wanted))?;
        after[spare] = 0;
        Some(after)
    }

    fn move_to_itself(&self) -> Move {
        Move {
            tenant: self.own as u16,
            old: self.node,
            new: self.node,
            staged: false,
        }
    }
}
