//! Opening, both grants, the release, the growth and the calls of the line, on a table of tenants and a line.
//!
//! A call is a function: it gets table and line as they are and hands back what they will be. A refused call hands back
//! what it got.

use std::mem;

use crate::carrying::{Change, Move};
use crate::definitions::{Counts, Node, Tree, TALLEST};
use crate::lifting;
use crate::line::{self, Waiting, LINE_NUMBERS, MOST_WAITING};
use crate::refusal::{self, Refusal};

/// How many tenants there are, and so the only length a table may have.
pub const TENANTS: usize = 4096;

/// The fewest entries that a list of moves may have which is lent to a grant, a release or an admit, and to a growth.
pub const FEWEST_ENTRIES: usize = 4;
pub const FEWEST_ENTRIES_TO_GROW: usize = 7;

/// What a tenant wants.
#[derive(Clone, Copy, Debug, PartialEq, Eq)]
pub enum Request {
    GrantLevel {
        tenant: u32,
        level: u32,
    },
    GrantPages {
        tenant: u32,
        pages: u32,
    },
    Release {
        tenant: u32,
    },
    /// A block of another level, larger or smaller, in the place of its own.
    Grow {
        tenant: u32,
        level: u32,
    },
    /// A place at the end of the line, for a block of a level.
    Join {
        tenant: u32,
        level: u32,
    },
    /// A block for the first in line who may have one.
    Admit,
    /// To wait no longer.
    Withdraw {
        tenant: u32,
    },
}

impl Request {
    /// The tenant that it names. An admit names none; its outcome does.
    pub fn tenant(self) -> Option<u32> {
        match self {
            Request::GrantLevel { tenant, .. }
            | Request::GrantPages { tenant, .. }
            | Request::Release { tenant }
            | Request::Grow { tenant, .. }
            | Request::Join { tenant, .. }
            | Request::Withdraw { tenant } => Some(tenant),
            Request::Admit => None,
        }
    }

    /// The level that it names.
    pub fn level(self) -> Option<u32> {
        match self {
            Request::GrantLevel { level, .. } | Request::Grow { level, .. } | Request::Join { level, .. } => {
                Some(level)
            }
            _ => None,
        }
    }

    pub fn is_grant(self) -> bool {
        matches!(self, Request::GrantLevel { .. } | Request::GrantPages { .. })
    }

    pub fn is_growth(self) -> bool {
        matches!(self, Request::Grow { .. })
    }

    /// Whether the line is lent for it.
    pub fn takes_line(self) -> bool {
        !matches!(self, Request::Release { .. } | Request::Grow { .. })
    }

    /// Whether a list of moves is lent for it.
    pub fn takes_list(self) -> bool {
        self.fewest_entries() > 0
    }

    /// The fewest entries that the list may have which is lent for it; none where there is no list.
    pub fn fewest_entries(self) -> usize {
        match self {
            Request::Join { .. } | Request::Withdraw { .. } => 0,
            Request::Grow { .. } => FEWEST_ENTRIES_TO_GROW,
            _ => FEWEST_ENTRIES,
        }
    }
}

/// The rules that calls are answered by.
#[derive(Clone, Copy, Debug, PartialEq, Eq)]
pub enum Rules {
    Today,
    /// Those of version 3.0, by which old journals were answered: a grant of 0 pages got one page, and a grant that was repeated
    /// was refused. There were no growths, and there was no line; what is about these is answered as it is today.
    Version3,
}

impl Rules {
    /// The level of an image that names no size: sixteen pages without a guard page, or the whole of a reserve that has fewer.
    fn level_of_unnamed(self, tree: Tree) -> u32 {
        match self {
            Rules::Today => tree.height().min(4),
            Rules::Version3 => 0,
        }
    }
}

/// What a planning call is lent: the table, the line, and room for so many moves.
#[derive(Clone, Copy, Debug)]
pub struct Lent<'a> {
    pub height: u32,
    pub table: &'a [Node],
    /// A release and a growth do not look at it.
    pub line: &'a [u16],
    pub entries: usize,
}

/// Everything there is to see after a call.
#[derive(Clone, Debug, PartialEq, Eq)]
pub struct Outcome {
    pub answer: u32,
    /// Whom an admit has granted a block.
    pub admitted: Option<u16>,
    pub node: Node,
    pub moves: Vec<Move>,
    pub table: Vec<Node>,
    pub line: Vec<u16>,
}

/// What an accepted call does.
struct Plan {
    admitted: Option<u16>,
    node: Node,
    moves: Vec<Move>,
    table: Vec<Node>,
    /// The line, unless it stays as it is.
    line: Option<Vec<Waiting>>,
}

impl Plan {
    /// The plan that tells a node and leaves the table as it is.
    fn without_moves(node: Node, table: Vec<Node>) -> Self {
        Plan {
            admitted: None,
            node,
            moves: Vec::new(),
            table,
            line: None,
        }
    }

    /// The plan that turns one table into another.
    fn between(tree: Tree, node: Node, before: &[Node], after: Vec<Node>) -> Self {
        let moves = Change::between(tree, before, &after).plan();
        Plan {
            moves: moves.expect("a list for places that are apart"),
            ..Plan::without_moves(node, after)
        }
    }

    fn with_line(self, line: Vec<Waiting>) -> Self {
        Plan {
            line: Some(line),
            ..self
        }
    }
}

/// Starts a reserve with nobody in it, and nobody in line.
pub fn open(height: u32, table: &[Node], line: &[u16]) -> Outcome {
    let checked = check_reserve(height, table).and_then(|_| check_line_length(line));
    let plan = checked.map(|()| Plan::without_moves(0, vec![0; TENANTS]).with_line(Vec::new()));
    outcome(table, line, plan)
}

/// Carries out a request.
pub fn call(lent: Lent, request: Request) -> Outcome {
    call_under(Rules::Today, lent, request)
}

/// The same by other rules.
pub fn call_under(rules: Rules, lent: Lent, request: Request) -> Outcome {
    outcome(lent.table, lent.line, plan(rules, lent, request))
}

/// The level of the smallest block with room for so many pages and the guard page behind them, or that of an image that
/// names no size.
pub fn level_for_pages(tree: Tree, pages: u32) -> u32 {
    level_under(Rules::Today, tree, pages)
}

fn level_under(rules: Rules, tree: Tree, pages: u32) -> u32 {
    if pages == 0 {
        return rules.level_of_unnamed(tree);
    }
    let needed = u64::from(pages) + 1;
    (0..)
        .find(|&level| 1u64 << level >= needed)
        .expect("some power of two is large enough")
}

/// Whether a named size is refused as such: from as many pages as the reserve has, which leave none for the guard page.
pub(crate) fn too_many_pages(tree: Tree, pages: u32) -> bool {
    pages >= tree.pages_in_all()
}

/// The level that a grant of so many pages asks for, unless it is refused for its height or its pages.
pub fn level_asked(height: u32, pages: u32) -> Result<u32, Refusal> {
    if height > TALLEST {
        return Err(Refusal::Height);
    }
    let tree = Tree::new(height);
    if too_many_pages(tree, pages) {
        return Err(Refusal::Pages);
    }
    Ok(level_for_pages(tree, pages))
}

fn outcome(table: &[Node], line: &[u16], result: Result<Plan, Refusal>) -> Outcome {
    let answer = refusal::number(&result);
    let plan = result.unwrap_or_else(|_| Plan::without_moves(0, table.to_vec()));
    Outcome {
        answer,
        admitted: plan.admitted,
        node: plan.node,
        moves: plan.moves,
        table: plan.table,
        line: plan.line.map_or_else(|| line.to_vec(), |line| line::numbers(&line)),
    }
}

/// The checks every call on a table begins with, opening included.
pub(crate) fn check_reserve(height: u32, table: &[Node]) -> Result<Tree, Refusal> {
    if height > TALLEST {
        return Err(Refusal::Height);
    }
    if table.len() != TENANTS {
        return Err(Refusal::Length);
    }
    Ok(Tree::new(height))
}

/// The check after these if the line is lent too.
fn check_line_length(line: &[u16]) -> Result<(), Refusal> {
    if line.len() == LINE_NUMBERS {
        Ok(())
    } else {
        Err(Refusal::Length)
    }
}

/// The rest of the arguments, in the order of the numbers.
fn check_request(tree: Tree, entries: usize, request: Request) -> Result<(), Refusal> {
    if entries < request.fewest_entries() {
        return Err(Refusal::MoveEntries);
    }
    if request.tenant().is_some_and(|tenant| tenant as usize >= TENANTS) {
        return Err(Refusal::Tenant);
    }
    if request.level().is_some_and(|level| level > tree.height()) {
        return Err(Refusal::Level);
    }
    match request {
        Request::GrantPages { pages, .. } if too_many_pages(tree, pages) => Err(Refusal::Pages),
        _ => Ok(()),
    }
}

/// Whether the table holds the safe layout of its own counts, and if so which counts these are. A node twice cannot
/// slip through: a layout of as many blocks has each node once.
pub(crate) fn check_table(tree: Tree, table: &[Node]) -> Result<Counts, Refusal> {
    let mut held: Vec<Node> = table.iter().copied().filter(|&node| node != 0).collect();
    if held.iter().any(|&node| node > tree.last_node()) {
        return Err(Refusal::Disorder);
    }
    held.sort_unstable();
    let counts = tree.counts(&held);
    match lifting::layout(tree, &counts) {
        Some(safe) if safe == held => Ok(counts),
        _ => Err(Refusal::Disorder),
    }
}

fn plan(rules: Rules, lent: Lent, request: Request) -> Result<Plan, Refusal> {
    let tree = check_reserve(lent.height, lent.table)?;
    if request.takes_line() {
        check_line_length(lent.line)?;
    }
    check_request(tree, lent.entries, request)?;
    let held = Held {
        table: lent.table.to_vec(),
        counts: check_table(tree, lent.table)?,
    };
    let line = || line::read(tree, lent.table, lent.line);
    match request {
        Request::GrantLevel { tenant, level } => grant(rules, tree, held, line()?, tenant as u16, level),
        Request::GrantPages { tenant, pages } => {
            let level = level_under(rules, tree, pages);
            grant(rules, tree, held, line()?, tenant as u16, level)
        }
        Request::Release { tenant } => release(tree, held, tenant as u16),
        Request::Grow { tenant, level } => grow(tree, held, tenant as u16, level),
        Request::Join { tenant, level } => join(held, line()?, tenant as u16, level),
        Request::Admit => admit(tree, held, line()?),
        Request::Withdraw { tenant } => withdraw(held, line()?, tenant as u16),
    }
}

/// A table in order, and how many blocks it has at each level.
#[derive(Clone)]
struct Held {
    table: Vec<Node>,
    counts: Counts,
}

impl Held {
    fn node_of(&self, tenant: u16) -> Node {
        self.table[usize::from(tenant)]
    }

    fn room(&self, tree: Tree) -> u32 {
        tree.pages_in_all() - tree.pages_taken(&self.counts)
    }

    /// What the others hold, if this tenant holds a block too.
    fn without(&self, tree: Tree, tenant: u16) -> Result<Held, Refusal> {
        let Held { mut table, mut counts } = self.clone();
        let node = mem::take(&mut table[usize::from(tenant)]);
        if node == 0 {
            return Err(Refusal::HoldsNothing);
        }
        counts[tree.level(node) as usize] -= 1;
        Ok(Held { table, counts })
    }
}

/// A tenant that holds a block of just this level has been started before, and is told its node once more. Anybody else passes
/// all who wait, if it gets in.
fn grant(
    rules: Rules,
    tree: Tree,
    held: Held,
    mut line: Vec<Waiting>,
    tenant: u16,
    level: u32,
) -> Result<Plan, Refusal> {
    let node = held.node_of(tenant);
    if node != 0 && tree.level(node) == level && rules == Rules::Today {
        return Ok(Plan::without_moves(node, held.table));
    }
    check_comes_new(&held, &line, tenant)?;
    if line::bars(&line) {
        return Err(Refusal::NoRoom);
    }
    line::pass(&mut line);
    let before = held.table.clone();
    Ok(let_in(tree, &before, held, tenant, level)?.with_line(line))
}

/// Whoever asks for a block or for a place in line has neither.
fn check_comes_new(held: &Held, line: &[Waiting], tenant: u16) -> Result<(), Refusal> {
    if held.node_of(tenant) != 0 {
        return Err(Refusal::HoldsAlready);
    }
    match line::place_of(line, tenant) {
        Some(_) => Err(Refusal::Waits),
        None => Ok(()),
    }
}

fn release(tree: Tree, held: Held, tenant: u16) -> Result<Plan, Refusal> {
    let others = held.without(tree, tenant)?;
    let settled = settle(tree, others.table, &others.counts);
    assert!(settled.vacant.is_empty());
    Ok(Plan::between(tree, held.node_of(tenant), &held.table, settled.table))
}

/// The tenant gives up its block and is let in again, while the others settle once. At its own level nobody has to move for
/// that, and its old place is the one left over.
fn grow(tree: Tree, held: Held, tenant: u16, level: u32) -> Result<Plan, Refusal> {
    let others = held.without(tree, tenant)?;
    let_in(tree, &held.table, others, tenant, level)
}

/// Whether there is room is not asked: whoever waits may be admitted at once.
fn join(held: Held, mut line: Vec<Waiting>, tenant: u16, level: u32) -> Result<Plan, Refusal> {
    check_comes_new(&held, &line, tenant)?;
    if line.len() == MOST_WAITING {
        return Err(Refusal::LineFull);
    }
    line.push(Waiting {
        tenant,
        level,
        passed: 0,
    });
    Ok(Plan::without_moves(0, held.table).with_line(line))
}

/// Those in front of whoever is granted a block are passed.
fn admit(tree: Tree, held: Held, mut line: Vec<Waiting>) -> Result<Plan, Refusal> {
    let Some(place) = line::first_to_admit(&line, held.room(tree)) else {
        return Ok(Plan::without_moves(0, held.table));
    };
    let Waiting { tenant, level, .. } = line.remove(place);
    line::pass(&mut line[..place]);
    let before = held.table.clone();
    let plan = let_in(tree, &before, held, tenant, level)?.with_line(line);
    Ok(Plan {
        admitted: Some(tenant),
        ..plan
    })
}

fn withdraw(held: Held, mut line: Vec<Waiting>, tenant: u16) -> Result<Plan, Refusal> {
    let place = line::place_of(&line, tenant).ok_or(Refusal::HoldsNothing)?;
    line.remove(place);
    Ok(Plan::without_moves(0, held.table).with_line(line))
}

/// Gives a tenant a block beside those of the others.
fn let_in(tree: Tree, before: &[Node], others: Held, tenant: u16, level: u32) -> Result<Plan, Refusal> {
    let mut counts = others.counts;
    counts[level as usize] += 1;
    if tree.pages_taken(&counts) > tree.pages_in_all() {
        return Err(Refusal::NoRoom);
    }
    let mut settled = settle(tree, others.table, &counts);
    // The movers of this level have taken their places; the one left over is the last.
    let mut left_over = settled.vacant.iter().copied();
    let node = left_over.next().expect("a place for the tenant");
    assert!(left_over.next().is_none() && tree.level(node) == level);
    settled.table[usize::from(tenant)] = node;
    Ok(Plan::between(tree, node, before, settled.table))
}

/// The tenants of a table after they have gone to their places in a new layout.
struct Settled {
    table: Vec<Node>,
    /// The places that nobody was there to take, ascending.
    vacant: Vec<Node>,
}

/// Brings the tenants of a table into the safe layout of some counts. Nobody leaves a place that the layout has; at each
/// level the remaining tenants and the remaining places are matched in order from the left.
fn settle(tree: Tree, mut table: Vec<Node>, counts: &Counts) -> Settled {
    let layout = lifting::layout(tree, counts).expect("a layout for counts whose pages fit");
    let wanted = |node: Node| layout.binary_search(&node).is_ok();

    let mut stayed_on = vec![false; usize::from(tree.last_node()) + 1];
    let mut movers: Vec<(Node, usize)> = Vec::new();
    for (tenant, &node) in table.iter().enumerate().filter(|&(_, &node)| node != 0) {
        if wanted(node) {
            stayed_on[usize::from(node)] = true;
        } else {
            movers.push((node, tenant));
        }
    }
    movers.sort_unstable();
    let places: Vec<Node> = layout
        .iter()
        .copied()
        .filter(|&node| !stayed_on[usize::from(node)])
        .collect();

    let mut vacant = Vec::new();
    for level in tree.levels() {
        let mut places_here = places.iter().copied().filter(|&node| tree.level(node) == level);
        for &(_, tenant) in movers.iter().filter(|&&(old, _)| tree.level(old) == level) {
            table[tenant] = places_here.next().expect("a place for every mover");
        }
        vacant.extend(places_here);
    }
    Settled { table, vacant }
}
