//! The book: who holds what and who waits for what, kept from the calls, their numbers and the tenants that admits name.
//!
//! It never plans. From what it has written down it can still tell the answer of every call of a history and which
//! places must be occupied, so it stands as a third opinion beside two planners. How often somebody was passed is counted
//! anew each time, over all grants since the book was begun.

use crate::definitions::{Counts, Node, Tree};
use crate::lifting;
use crate::line::{self, Waiting, MOST_PASSED, MOST_WAITING};
use crate::occupancy::is_legal_and_safe;
use crate::planner::{level_for_pages, too_many_pages, Request, TENANTS};
use crate::refusal::{Refusal, DONE};
use crate::subject::Reply;

/// What the book is told of a call besides its arguments.
#[derive(Clone, Copy, Debug, PartialEq, Eq)]
pub struct Told {
    pub answer: u32,
    /// The tenant that an admit names.
    pub admitted: Option<u32>,
}

impl From<Reply> for Told {
    fn from(reply: Reply) -> Self {
        Told {
            answer: reply.answer,
            admitted: reply.admitted(),
        }
    }
}

/// Somebody in line.
#[derive(Clone, Copy, Debug, PartialEq, Eq)]
struct Waiter {
    tenant: u32,
    level: u32,
    came: usize,
    /// How often it had been passed when the book was begun.
    passed_before: u32,
}

#[derive(Clone, Debug, PartialEq, Eq)]
pub struct Book {
    tree: Tree,
    levels: Vec<Option<u32>>,
    counts: Counts,
    /// Oldest first.
    waiting: Vec<Waiter>,
    /// How many have come: to wait, or to be granted a block at once.
    arrivals: usize,
    /// For each grant, when its tenant had come.
    grants: Vec<usize>,
}

impl Book {
    /// The book after an opening.
    pub fn new(tree: Tree) -> Self {
        Book {
            tree,
            levels: vec![None; TENANTS],
            counts: Counts::default(),
            waiting: Vec::new(),
            arrivals: 0,
            grants: Vec::new(),
        }
    }

    /// The book of somebody who was always there, for calls that begin on a table and a line and not with an opening.
    pub fn of_reserve(tree: Tree, table: &[Node], line: &[Waiting]) -> Self {
        let mut book = Book::new(tree);
        for (tenant, &node) in (0..).zip(table).filter(|&(_, &node)| node != 0) {
            book.write_down(tenant, tree.level(node));
        }
        for waiting in line {
            book.line_up(waiting.tenant.into(), waiting.level, waiting.passed);
        }
        book
    }

    pub fn tree(&self) -> Tree {
        self.tree
    }

    pub fn level_of(&self, tenant: u32) -> Option<u32> {
        self.levels[tenant as usize]
    }

    /// Every tenant that holds a block.
    pub fn holders(&self) -> Vec<u32> {
        (0..TENANTS as u32)
            .filter(|&tenant| self.level_of(tenant).is_some())
            .collect()
    }

    /// The held sizes.
    pub fn counts(&self) -> &Counts {
        &self.counts
    }

    /// The pages that nobody holds.
    pub fn room(&self) -> u32 {
        self.tree.pages_in_all() - self.tree.pages_taken(&self.counts)
    }

    /// Every tenant that waits, oldest first.
    pub fn waiting(&self) -> Vec<u32> {
        self.waiting.iter().map(|waiter| waiter.tenant).collect()
    }

    fn waits(&self, tenant: u32) -> bool {
        self.waiting.iter().any(|waiter| waiter.tenant == tenant)
    }

    /// How often somebody in line was passed: by every grant to a tenant that came later.
    fn passed(&self, waiter: &Waiter) -> u32 {
        let later = self.grants.iter().filter(|&&came| came > waiter.came).count();
        waiter.passed_before + later as u32
    }

    /// The place of the oldest that was passed as often as anybody may be.
    fn first_to_bar(&self) -> Option<usize> {
        self.waiting
            .iter()
            .position(|waiter| self.passed(waiter) == MOST_PASSED)
    }

    /// Whom an admit has to grant a block: the first for whom there is room, up to the oldest that may not be passed again.
    pub fn first_to_admit(&self) -> Option<u32> {
        let last = self.first_to_bar().unwrap_or(self.waiting.len());
        let mut in_turn = self.waiting.iter().take(last + 1);
        let first = in_turn.find(|waiter| 1 << waiter.level <= self.room())?;
        Some(first.tenant)
    }

    /// What a call of this history has to tell.
    pub fn due(&self, request: Request, entries: usize) -> Told {
        let refusal = self
            .why_not_valid(request, entries)
            .or_else(|| self.why_not_granted(request));
        let admits = request == Request::Admit && refusal.is_none();
        Told {
            answer: refusal.map_or(DONE, Refusal::number),
            admitted: if admits { self.first_to_admit() } else { None },
        }
    }

    fn why_not_valid(&self, request: Request, entries: usize) -> Option<Refusal> {
        let too_large = matches!(request, Request::GrantPages { pages, .. } if too_many_pages(self.tree, pages));
        let conditions = [
            (entries < request.fewest_entries(), Refusal::MoveEntries),
            (
                request.tenant().is_some_and(|tenant| tenant >= TENANTS as u32),
                Refusal::Tenant,
            ),
            (
                request.level().is_some_and(|level| level > self.tree.height()),
                Refusal::Level,
            ),
            (too_large, Refusal::Pages),
        ];
        first_that_applies(conditions)
    }

    /// Why a valid call is still turned down.
    fn why_not_granted(&self, request: Request) -> Option<Refusal> {
        let tenant = request.tenant()?;
        let (held, wanted) = (self.level_of(tenant), level_wanted(self.tree, request));
        let no_room = wanted.is_some_and(|level| 1 << level > self.room_for(tenant));
        match request {
            Request::GrantLevel { .. } | Request::GrantPages { .. } if held.is_some() => {
                (held != wanted).then_some(Refusal::HoldsAlready)
            }
            Request::GrantLevel { .. } | Request::GrantPages { .. } => first_that_applies([
                (self.waits(tenant), Refusal::Waits),
                (self.first_to_bar().is_some() || no_room, Refusal::NoRoom),
            ]),
            Request::Release { .. } | Request::Grow { .. } => {
                first_that_applies([(held.is_none(), Refusal::HoldsNothing), (no_room, Refusal::NoRoom)])
            }
            Request::Join { .. } => first_that_applies([
                (held.is_some(), Refusal::HoldsAlready),
                (self.waits(tenant), Refusal::Waits),
                (self.waiting.len() == MOST_WAITING, Refusal::LineFull),
            ]),
            Request::Withdraw { .. } => (!self.waits(tenant)).then_some(Refusal::HoldsNothing),
            Request::Admit => None,
        }
    }

    /// The pages that nobody else holds.
    pub fn room_for(&self, tenant: u32) -> u32 {
        self.room() + self.level_of(tenant).map_or(0, |level| 1 << level)
    }

    /// Writes down what a call and what it told mean.
    pub fn enter(&mut self, request: Request, told: Told) {
        if told.answer != DONE {
            return;
        }
        match request {
            Request::GrantLevel { tenant, .. } | Request::GrantPages { tenant, .. } => {
                // A grant that is repeated isn't one.
                if self.level_of(tenant).is_none() {
                    self.grants.push(self.arrivals);
                    self.arrivals += 1;
                    self.change_level(request, tenant);
                }
            }
            Request::Release { tenant } | Request::Grow { tenant, .. } => self.change_level(request, tenant),
            Request::Join { tenant, level } => self.line_up(tenant, level, 0),
            Request::Admit => {
                if let Some(waiter) = told.admitted.and_then(|tenant| self.take_out(tenant)) {
                    self.grants.push(waiter.came);
                    self.write_down(waiter.tenant, waiter.level);
                }
            }
            Request::Withdraw { tenant } => {
                self.take_out(tenant);
            }
        }
    }

    fn change_level(&mut self, request: Request, tenant: u32) {
        self.strike_out(tenant);
        if let Some(level) = level_wanted(self.tree, request) {
            self.write_down(tenant, level);
        }
    }

    fn line_up(&mut self, tenant: u32, level: u32, passed_before: u32) {
        self.waiting.push(Waiter {
            tenant,
            level,
            came: self.arrivals,
            passed_before,
        });
        self.arrivals += 1;
    }

    /// Takes somebody out of the line, if it waits.
    fn take_out(&mut self, tenant: u32) -> Option<Waiter> {
        let place = self.waiting.iter().position(|waiter| waiter.tenant == tenant)?;
        Some(self.waiting.remove(place))
    }

    fn write_down(&mut self, tenant: u32, level: u32) {
        self.levels[tenant as usize] = Some(level);
        self.counts[level as usize] += 1;
    }

    fn strike_out(&mut self, tenant: u32) {
        if let Some(level) = self.levels[tenant as usize].take() {
            self.counts[level as usize] -= 1;
        }
    }

    /// Who waits, with the counts that are due.
    pub fn line(&self) -> Vec<Waiting> {
        let shown = |waiter: &Waiter| Waiting {
            tenant: waiter.tenant as u16,
            level: waiter.level,
            passed: self.passed(waiter),
        };
        self.waiting.iter().map(shown).collect()
    }

    /// Whether a line shows what the book says, and nobody was passed too often.
    pub fn audit_line(&self, numbers: &[u16]) -> Result<(), String> {
        let due = self.line();
        ensure!(
            numbers == line::numbers(&due),
            "the line is {numbers:?}, and by the book {due:?} wait"
        );
        let too_often = due.iter().find(|waiting| waiting.passed > MOST_PASSED);
        ensure!(too_often.is_none(), "{too_often:?} was passed too often");
        Ok(())
    }

    /// Whether a table shows what the book says: everybody's level, and the only safe places for so many blocks, by the
    /// lifting rule and by the definitions.
    pub fn audit(&self, table: &[Node]) -> Result<(), String> {
        for (tenant, (&node, &level)) in table.iter().zip(&self.levels).enumerate() {
            let shown = (node != 0).then(|| self.tree.level(node));
            ensure!(
                shown == level,
                "tenant {tenant} is on node {node}, the book has level {level:?}"
            );
        }
        let held = occupied(table);
        let safe = lifting::layout(self.tree, &self.counts);
        ensure!(
            safe.as_ref() == Some(&held),
            "the places are {held:?}, the safe ones {safe:?}"
        );
        ensure!(is_legal_and_safe(self.tree, &held), "the places {held:?} are not safe");
        Ok(())
    }
}

/// The first refusal whose condition holds.
fn first_that_applies<const N: usize>(conditions: [(bool, Refusal); N]) -> Option<Refusal> {
    let first = conditions.into_iter().find(|&(applies, _)| applies)?;
    Some(first.1)
}

/// The level that a grant or a growth asks for.
pub fn level_wanted(tree: Tree, request: Request) -> Option<u32> {
    match request {
        Request::GrantLevel { level, .. } | Request::Grow { level, .. } => Some(level),
        Request::GrantPages { pages, .. } => Some(level_for_pages(tree, pages)),
        _ => None,
    }
}

/// The nodes in a table, ascending.
pub fn occupied(table: &[Node]) -> Vec<Node> {
    let mut held: Vec<Node> = table.iter().copied().filter(|&node| node != 0).collect();
    held.sort_unstable();
    held
}
