//! A runtime that carries out a list of moves as it stands, on pages that know who lies on them.
//!
//! It looks for no list of its own. It stops where somebody would be laid on pages that are not free, or where the list
//! names somebody too late.

use crate::carrying::Move;
use crate::definitions::{Node, Tree};

/// Who lies on each page.
#[derive(Debug, PartialEq, Eq)]
struct Pages {
    tree: Tree,
    tenants: Vec<Option<u16>>,
}

impl Pages {
    /// The pages as a table has them.
    fn of(tree: Tree, table: &[Node]) -> Self {
        let mut tenants = vec![None; tree.pages_in_all() as usize];
        for (tenant, &node) in (0..).zip(table).filter(|&(_, &node)| node != 0) {
            tenants[tree.pages(node)].fill(Some(tenant));
        }
        Pages { tree, tenants }
    }

    fn are_free(&self, node: Node) -> bool {
        self.tenants[self.tree.pages(node)].iter().all(Option::is_none)
    }

    fn lift(&mut self, tenant: u16) {
        let lifted = self.tenants.iter_mut().filter(|page| **page == Some(tenant));
        lifted.for_each(|page| *page = None);
    }

    fn set_down(&mut self, tenant: u16, node: Node) -> Result<(), String> {
        ensure!(
            self.are_free(node),
            "tenant {tenant} finds somebody on the pages of node {node}"
        );
        self.tenants[self.tree.pages(node)].fill(Some(tenant));
        Ok(())
    }

    /// A tenant goes straight to its new pages; they have to be free while it still lies on the old ones.
    fn go(&mut self, step: &Move) -> Result<(), String> {
        ensure!(self.are_free(step.new), "{step:?} finds somebody on its new pages");
        self.lift(step.tenant);
        self.set_down(step.tenant, step.new)
    }
}

/// Carries out the list of a call from the table before it, and compares the pages then with the table after it.
pub fn carry_out(tree: Tree, before: &[Node], after: &[Node], list: &[Move]) -> Result<(), String> {
    let (staged, direct): (Vec<Move>, Vec<Move>) = list.iter().partition(|step| step.staged);
    let mut pages = Pages::of(tree, before);
    only_in(tree, before, after).for_each(|(tenant, _)| pages.lift(tenant));
    staged.iter().for_each(|step| pages.lift(step.tenant));
    for (place, step) in direct.iter().enumerate() {
        nobody_could_go_before(&pages, step, &direct[place..])?;
        pages.go(step)?;
    }
    for step in &staged {
        pages.set_down(step.tenant, step.new)?;
    }
    for (tenant, node) in only_in(tree, after, before) {
        pages.set_down(tenant, node)?;
    }
    ensure!(
        pages == Pages::of(tree, after),
        "the list {list:?} leaves other pages than the table"
    );
    Ok(())
}

/// Whoever has a node in one table, and in another none or one of another level: the tenant that the call is for, unless it
/// keeps its block.
fn only_in<'a>(tree: Tree, one: &'a [Node], other: &'a [Node]) -> impl Iterator<Item = (u16, Node)> + 'a {
    let entries = (0..).zip(one.iter().zip(other));
    entries
        .filter(move |&(_, (&node, &there))| node != 0 && (there == 0 || tree.level(node) != tree.level(there)))
        .map(|(tenant, (&node, _))| (tenant, node))
}

/// Of those who go straight to their places, whoever has a lower number than the next cannot go yet.
fn nobody_could_go_before(pages: &Pages, next: &Move, waiting: &[Move]) -> Result<(), String> {
    let earlier = waiting
        .iter()
        .find(|step| step.tenant < next.tenant && pages.are_free(step.new));
    match earlier {
        Some(earlier) => Err(format!("{earlier:?} could go before {next:?}")),
        None => Ok(()),
    }
}

/// Whether a list has first those who go straight to their places and then those who are staged, by tenant number.
pub fn staged_come_last(list: &[Move]) -> bool {
    list.windows(2).all(|pair| match (pair[0].staged, pair[1].staged) {
        (false, _) => true,
        (true, later) => later && pair[0].tenant < pair[1].tenant,
    })
}
