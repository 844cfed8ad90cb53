//! Lists of moves that are right but for one mistake each.

use std::cmp::Reverse;

use oracle::carrying::{Change, Move};
use oracle::definitions::{is_free, is_under, Node, Tree};

/// The one mistake.
#[derive(Clone, Copy, Debug, PartialEq, Eq)]
pub enum ListFault {
    // Who is staged.
    EverybodyStaged,
    NobodyStaged,
    FewestTenantsBeforePages,
    TenantsNotCounted,
    LaterOfTwoEqualSets,
    // Who is taken to be in the way.
    BlockInsideOverlooked,
    BlockAroundOverlooked,
    ReleasedBlockInTheWay,
    NewcomerBeforeTheOthers,
    // In which order they are told.
    DirectByLevel,
    DirectByTenant,
    StagedBeforeDirect,
    StagedByLevel,
}

/// The tables before and after a call.
#[derive(Clone, Copy, Debug)]
pub struct Tables<'a> {
    pub tree: Tree,
    pub before: &'a [Node],
    pub after: &'a [Node],
}

/// Movers made up by hand: the height, and the nodes of tenants 0, 1, 2, .. before and after; then the right list and the
/// wrong one.
pub type Example = (u32, &'static [(Node, Node)], &'static str, &'static str);

impl ListFault {
    /// The mistakes that grants and releases show.
    pub const ON_RESERVES: [ListFault; 9] = [
        ListFault::EverybodyStaged,
        ListFault::NobodyStaged,
        ListFault::BlockInsideOverlooked,
        ListFault::BlockAroundOverlooked,
        ListFault::ReleasedBlockInTheWay,
        ListFault::NewcomerBeforeTheOthers,
        ListFault::DirectByLevel,
        ListFault::DirectByTenant,
        ListFault::StagedBeforeDirect,
    ];

    /// The mistake that growths alone show, because no other call stages two.
    pub const ON_GROWTHS: [ListFault; 1] = [ListFault::StagedByLevel];

    /// The mistakes that no reserve shows, because in each the fewest pages are those of one staged set, and no set with more
    /// pages has fewer tenants. They show on other movers alone.
    pub const ON_OTHER_MOVERS: [ListFault; 3] = [
        ListFault::FewestTenantsBeforePages,
        ListFault::TenantsNotCounted,
        ListFault::LaterOfTwoEqualSets,
    ];

    /// Movers that show the mistake.
    pub fn example(self) -> Example {
        match self {
            ListFault::EverybodyStaged => (1, &[(2, 3)], "0:2>3", "0:2=3"),
            ListFault::NobodyStaged => (1, &[(2, 3), (3, 2)], "1:3>2 0:2=3", "1:3>2 0:2>3"),
            ListFault::FewestTenantsBeforePages => (
                3,
                &[(2, 3), (12, 8), (13, 9)],
                "0:2>3 1:12=8 2:13=9",
                "1:12>8 2:13>9 0:2=3",
            ),
            ListFault::TenantsNotCounted => (2, &[(6, 4), (7, 5), (2, 3)], "0:6>4 1:7>5 2:2=3", "2:2>3 0:6=4 1:7=5"),
            ListFault::LaterOfTwoEqualSets => (1, &[(2, 3), (3, 2)], "1:3>2 0:2=3", "0:2>3 1:3=2"),
            ListFault::BlockInsideOverlooked => (2, &[(2, 3), (6, 4)], "0:2>3 1:6=4", "0:2>3 1:6>4"),
            ListFault::BlockAroundOverlooked => (2, &[(2, 3), (6, 4)], "0:2>3 1:6=4", "1:6>4 0:2>3"),
            ListFault::ReleasedBlockInTheWay => (1, &[(2, 0), (3, 2)], "1:3>2", "1:3=2"),
            ListFault::NewcomerBeforeTheOthers => (1, &[(2, 3), (0, 2)], "0:2>3", "0:2=3"),
            ListFault::DirectByLevel => (3, &[(4, 5), (12, 13)], "0:4>5 1:12>13", "1:12>13 0:4>5"),
            ListFault::DirectByTenant => (2, &[(4, 5), (5, 6)], "1:5>6 0:4>5", "0:4>5 1:5>6"),
            ListFault::StagedBeforeDirect => (2, &[(2, 3), (6, 4)], "0:2>3 1:6=4", "1:6=4 0:2>3"),
            ListFault::StagedByLevel => (
                3,
                &[(4, 5), (5, 4), (12, 13), (13, 12)],
                "1:5>4 3:13>12 0:4=5 2:12=13",
                "1:5>4 3:13>12 2:12=13 0:4=5",
            ),
        }
    }

    pub fn list(self, tables: Tables) -> Vec<Move> {
        match self {
            ListFault::EverybodyStaged => by_tenant(all_staged(tables, true)),
            ListFault::NobodyStaged => all_staged(tables, false),
            ListFault::FewestTenantsBeforePages => tables.best(|(pages, tenants, numbers)| (tenants, pages, numbers)),
            ListFault::TenantsNotCounted => tables.best(|(pages, _, numbers)| (pages, numbers)),
            ListFault::LaterOfTwoEqualSets => {
                tables.best(|(pages, tenants, numbers)| (pages, tenants, Reverse(numbers)))
            }
            ListFault::BlockInsideOverlooked => tables.by_waits(
                |one, other| one.new == other.old || is_under(one.new, other.old),
                |_| true,
            ),
            ListFault::BlockAroundOverlooked => tables.by_waits(
                |one, other| one.new == other.old || is_under(other.old, one.new),
                |_| true,
            ),
            ListFault::ReleasedBlockInTheWay => {
                let released = only_in(tables.tree, tables.before, tables.after);
                tables.by_waits(waits, |step| !released.is_some_and(|node| meet(node, step.new)))
            }
            ListFault::NewcomerBeforeTheOthers => {
                let newcomer = only_in(tables.tree, tables.after, tables.before);
                tables.by_waits(waits, |step| !newcomer.is_some_and(|node| meet(node, step.old)))
            }
            ListFault::DirectByLevel => {
                let (mut direct, staged) = tables.halves();
                direct.sort_by_key(|step| (tables.tree.level(step.old), step.old));
                [direct, staged].concat()
            }
            ListFault::DirectByTenant => {
                let (direct, staged) = tables.halves();
                [by_tenant(direct), staged].concat()
            }
            ListFault::StagedBeforeDirect => {
                let (direct, staged) = tables.halves();
                [staged, direct].concat()
            }
            ListFault::StagedByLevel => {
                let (direct, mut staged) = tables.halves();
                staged.sort_by_key(|step| (tables.tree.level(step.old), step.old));
                [direct, staged].concat()
            }
        }
    }
}

impl Tables<'_> {
    fn change(self) -> Change {
        Change::between(self.tree, self.before, self.after)
    }

    pub fn right_list(self) -> Vec<Move> {
        self.change().plan().expect("a list for places that are apart")
    }

    /// The right list's two parts.
    fn halves(self) -> (Vec<Move>, Vec<Move>) {
        self.right_list().into_iter().partition(|step| !step.staged)
    }

    /// The best list by another order of what decides.
    fn best<K: Ord>(self, order: impl Fn((usize, usize, Vec<u16>)) -> K) -> Vec<Move> {
        let change = self.change();
        let lists = change.lists().into_iter();
        let best = lists.min_by_key(|list| order(change.cost(list)));
        best.expect("a list for places that are apart")
    }

    /// The list of a search that looks at no pages and knows only who waits for whom to leave, and who may go straight
    /// to its place at all.
    fn by_waits(self, waits: impl Fn(&Move, &Move) -> bool, may_go: impl Fn(&Move) -> bool) -> Vec<Move> {
        let movers = by_tenant(all_staged(self, false));
        let list_with = |set: u32| {
            let chosen = (0..).zip(&movers).map(|(place, &step)| Move {
                staged: set >> place & 1 == 1,
                ..step
            });
            let (staged, direct): (Vec<Move>, Vec<Move>) = chosen.partition(|step| step.staged);
            let order = lowest_first(direct, &waits)?;
            order.iter().all(&may_go).then(|| [order, staged].concat())
        };
        let change = self.change();
        let lists = (0..1 << movers.len()).filter_map(list_with);
        let best = lists.min_by_key(|list| change.cost(list));
        best.expect("the list with all movers staged")
    }

    /// The same search without a mistake.
    pub fn list_by_waits(self) -> Vec<Move> {
        self.by_waits(waits, |_| true)
    }
}

/// The movers in the order in which the lowest goes that waits for nobody, if all come to go.
fn lowest_first(mut lying: Vec<Move>, waits: impl Fn(&Move, &Move) -> bool) -> Option<Vec<Move>> {
    let mut order = Vec::new();
    while !lying.is_empty() {
        let next = lying
            .iter()
            .position(|one| !lying.iter().any(|other| waits(one, other)))?;
        order.push(lying.remove(next));
    }
    Some(order)
}

/// Whether two nodes have a page in common.
fn meet(one: Node, other: Node) -> bool {
    !is_free(&[one], other)
}

/// Whether one mover cannot go before another has left.
fn waits(one: &Move, other: &Move) -> bool {
    meet(one.new, other.old)
}

/// The node of whoever is in one table and not in another, or there at another level.
fn only_in(tree: Tree, one: &[Node], other: &[Node]) -> Option<Node> {
    let mut entries = one.iter().zip(other);
    let (&node, _) =
        entries.find(|&(&node, &there)| node != 0 && (there == 0 || tree.level(node) != tree.level(there)))?;
    Some(node)
}

/// The right list with all movers staged, or none.
fn all_staged(tables: Tables, staged: bool) -> Vec<Move> {
    let list = tables.right_list().into_iter();
    list.map(|step| Move { staged, ..step }).collect()
}

fn by_tenant(mut list: Vec<Move>) -> Vec<Move> {
    list.sort_by_key(|step| step.tenant);
    list
}
