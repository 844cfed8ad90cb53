//! Lists of moves that can be carried out, and the one among them that a call gives.
//!
//! A list is carried out in this order: all who are staged leave their pages; the others go to their places one after
//! the other, each onto pages on which nobody lies just then; those who are staged come back, by tenant number; and the
//! newcomer comes last. Whoever is released is gone before that; whoever grows is gone before that and comes last. Here it
//! is done on a row of pages, for every set of movers that could be staged and every order of the rest.

use crate::definitions::{Node, Tree};
use crate::row::Row;

/// A tenant that has to go from one node to another.
#[derive(Clone, Copy, Debug, PartialEq, Eq)]
pub struct Move {
    pub tenant: u16,
    pub old: Node,
    pub new: Node,
    /// Whether the tenant leaves its pages before all others go and comes back after them.
    pub staged: bool,
}

/// What a call changes: who lies where before it, who has to move, and who comes or comes back.
#[derive(Clone, Debug)]
pub struct Change {
    tree: Tree,
    /// The blocks that stay or move. One that is released, or given up for another, is in nobody's way.
    lying: Vec<Node>,
    /// By tenant number, and not yet staged.
    movers: Vec<Move>,
    newcomer: Option<Node>,
}

impl Change {
    /// The change from the table before a call to the one after it. The tenant that grows is the one whose level changes.
    pub fn between(tree: Tree, before: &[Node], after: &[Node]) -> Self {
        let mut change = Change {
            tree,
            lying: Vec::new(),
            movers: Vec::new(),
            newcomer: None,
        };
        for (tenant, (&old, &new)) in (0..).zip(before.iter().zip(after)) {
            match (old, new) {
                (_, 0) => {}
                (1.., _) if tree.level(old) == tree.level(new) => change.add(tenant, old, new),
                _ => change.newcomer = Some(new),
            }
        }
        change
    }

    /// Adds a tenant that holds a block of the same level before the call and after it.
    fn add(&mut self, tenant: u16, old: Node, new: Node) {
        self.lying.push(old);
        if old != new {
            self.movers.push(Move {
                tenant,
                old,
                new,
                staged: false,
            });
        }
    }

    /// The list that the call gives; none if even with all movers staged somebody would come to lie on somebody else.
    pub fn plan(&self) -> Option<Vec<Move>> {
        self.lists().into_iter().min_by_key(|list| self.cost(list))
    }

    /// A list for every staged set with which the change can be carried out, with the first order of the others.
    pub fn lists(&self) -> Vec<Vec<Move>> {
        let row = self.row_before();
        (0..1 << self.movers.len())
            .filter_map(|set| self.list_with(row.clone(), set))
            .collect()
    }

    /// What decides between two lists: the pages that are staged, then how many tenants these are, then their numbers.
    pub fn cost(&self, list: &[Move]) -> (usize, usize, Vec<u16>) {
        let staged: Vec<&Move> = list.iter().filter(|step| step.staged).collect();
        let pages = staged.iter().map(|step| self.tree.pages(step.old).len()).sum();
        let tenants = staged.iter().map(|step| step.tenant).collect();
        (pages, staged.len(), tenants)
    }

    fn row_before(&self) -> Row {
        let mut row = Row::empty(self.tree);
        for &node in &self.lying {
            assert!(row.put(node), "node {node} lies on another");
        }
        row
    }

    /// The list with those movers staged whose bits are set, if it can be carried out.
    fn list_with(&self, mut row: Row, set: u32) -> Option<Vec<Move>> {
        let chosen = (0..).zip(&self.movers).map(|(place, &step)| Move {
            staged: set >> place & 1 == 1,
            ..step
        });
        let (staged, direct): (Vec<Move>, Vec<Move>) = chosen.partition(|step| step.staged);
        staged.iter().for_each(|step| row.take(step.old));
        let mut list = self.first_order(&row, &direct, &staged)?;
        list.extend(staged);
        Some(list)
    }

    /// The first order in which these can go and all others come after them; lower tenant numbers are tried first.
    fn first_order(&self, row: &Row, waiting: &[Move], staged: &[Move]) -> Option<Vec<Move>> {
        if waiting.is_empty() {
            return self.all_come(row.clone(), staged).then(Vec::new);
        }
        (0..waiting.len()).find_map(|place| {
            let mut others = waiting.to_vec();
            let next = others.remove(place);
            let row = after_going(row, next)?;
            let rest = self.first_order(&row, &others, staged)?;
            Some([&[next], &rest[..]].concat())
        })
    }

    /// Whether those who are staged, and then the newcomer, find their pages free.
    fn all_come(&self, mut row: Row, staged: &[Move]) -> bool {
        let mut places = staged.iter().map(|step| step.new).chain(self.newcomer);
        places.all(|place| row.put(place))
    }
}

/// The row after one tenant has gone, if nobody lies on its new pages, the tenant itself included.
fn after_going(row: &Row, step: Move) -> Option<Row> {
    if !row.is_free(step.new) {
        return None;
    }
    let mut row = row.clone();
    row.put(step.new);
    row.take(step.old);
    Some(row)
}
