//! Histories, tables and journals made up from random numbers, leaning towards where planners go wrong.

mod author;
mod damage;
mod journals;
mod reserves;

use std::fmt;

use crate::book::Book;
use crate::definitions::{Counts, Node, Tree};
use crate::lifting;
use crate::line::{Waiting, MOST_WAITING};
use crate::planner::{Request, TENANTS};
use crate::random::Random;
use crate::refusal::DONE;
use crate::subject::{fewest_move_bytes, Reach};

pub use author::Author;
pub use damage::{Damage, LineDamage};
pub use journals::{
    admits_of, damage_journal, journal, journal_of, journal_with, noise, noise_of, old_journal, unnamed_of,
    with_repetitions,
};
pub use reserves::{any_fill, growths, holders_for, line_of, nearly_full, pages_for};

/// A request with the length of the move list that is lent for it.
#[derive(Clone, Copy, Debug, PartialEq, Eq)]
pub struct Call {
    pub request: Request,
    pub move_bytes: usize,
}

impl Call {
    /// A request with the shortest list that is taken.
    pub fn with_shortest_list(request: Request) -> Self {
        let move_bytes = fewest_move_bytes(request);
        Call { request, move_bytes }
    }
}

/// Somebody who holds a block of some level.
#[derive(Clone, Copy, Debug, PartialEq, Eq)]
pub struct Holder {
    pub tenant: u16,
    pub level: u32,
}

/// A reserve on which growths move the most others.
pub struct MostMoved {
    /// The least height that has room for the counts, and for the tenant's new block.
    pub height: u32,
    pub counts: Counts,
    /// The level of the tenants that grow, and the one that they grow to.
    pub from: u32,
    pub to: u32,
}

/// Seven others move for the first two of the three tenants of level 1, left to right, and six for the third.
pub const MOST_MOVED: MostMoved = MostMoved {
    height: 9,
    counts: [3, 3, 3, 1, 3, 1, 1, 2, 0, 0, 0, 0, 0],
    from: 1,
    to: 5,
};

/// Who is there before the first call of a history that begins with no opening.
#[derive(Clone, Debug, Default, PartialEq, Eq)]
pub struct Start {
    pub holders: Vec<Holder>,
    pub waiting: Vec<Waiting>,
}

impl Start {
    /// Nobody waits.
    pub fn held_by(holders: &[Holder]) -> Self {
        Start {
            holders: holders.to_vec(),
            waiting: Vec::new(),
        }
    }

    /// Tenants for blocks of some counts, and so many in line, as far as there are tenants left.
    pub fn draw(random: &mut Random, tree: Tree, counts: &Counts, in_line: usize) -> Self {
        let mut holders = holders_for(random, counts);
        random.shuffle(&mut holders);
        let mut start = Start::held_by(&holders);
        start.waiting = line_of(random, tree, start.others(), in_line);
        start
    }

    /// The tenants that neither hold a block nor wait for one.
    pub fn others(&self) -> Vec<u16> {
        let mut is_there = [false; TENANTS];
        let holders = self.holders.iter().map(|holder| holder.tenant);
        for tenant in holders.chain(self.waiting.iter().map(|waiting| waiting.tenant)) {
            is_there[usize::from(tenant)] = true;
        }
        (0..TENANTS as u16)
            .filter(|&tenant| !is_there[usize::from(tenant)])
            .collect()
    }

    /// The book of somebody who was always there.
    pub fn book(&self, tree: Tree) -> Book {
        Book::of_reserve(tree, &seat(tree, &self.holders), &self.waiting)
    }
}

/// Calls one after the other on one table and one line.
#[derive(Clone, Debug)]
pub struct History {
    pub height: u32,
    /// Nothing if the history begins with an opening.
    pub start: Option<Start>,
    pub calls: Vec<Call>,
}

impl History {
    /// Requests from an opening on, each with the shortest list that is taken.
    pub fn of_requests(height: u32, requests: &[Request]) -> Self {
        History {
            height,
            start: None,
            calls: requests.iter().copied().map(Call::with_shortest_list).collect(),
        }
    }
}

/// A request, and those that repeat it at once.
#[derive(Clone, Debug)]
pub struct Step {
    pub request: Request,
    pub again: Vec<Request>,
}

impl fmt::Display for Call {
    fn fmt(&self, f: &mut fmt::Formatter) -> fmt::Result {
        match self.request {
            Request::GrantLevel { tenant, level } => write!(f, "grant tenant {tenant} level {level}")?,
            Request::GrantPages { tenant, pages } => write!(f, "grant tenant {tenant} pages {pages}")?,
            Request::Release { tenant } => write!(f, "release tenant {tenant}")?,
            Request::Grow { tenant, level } => write!(f, "grow tenant {tenant} level {level}")?,
            Request::Join { tenant, level } => return write!(f, "join tenant {tenant} level {level}"),
            Request::Admit => write!(f, "admit")?,
            Request::Withdraw { tenant } => return write!(f, "withdraw tenant {tenant}"),
        }
        write!(f, ", {} move bytes", self.move_bytes)
    }
}

impl fmt::Display for Start {
    fn fmt(&self, f: &mut fmt::Formatter) -> fmt::Result {
        write!(f, "held (tenant:level)")?;
        for holder in &self.holders {
            write!(f, " {}:{}", holder.tenant, holder.level)?;
        }
        if !self.waiting.is_empty() {
            write!(f, ", in line (tenant:level:passed)")?;
        }
        for waiting in &self.waiting {
            write!(f, " {}:{}:{}", waiting.tenant, waiting.level, waiting.passed)?;
        }
        Ok(())
    }
}

impl fmt::Display for History {
    fn fmt(&self, f: &mut fmt::Formatter) -> fmt::Result {
        match &self.start {
            None => writeln!(f, "  open height {}", self.height)?,
            Some(start) => writeln!(f, "  height {}, {start}", self.height)?,
        }
        for call in &self.calls {
            writeln!(f, "  {call}")?;
        }
        Ok(())
    }
}

/// The safe layout with the holders on it, those of one level left to right as they come.
pub fn seat(tree: Tree, holders: &[Holder]) -> Vec<Node> {
    let mut counts = Counts::default();
    for holder in holders {
        counts[holder.level as usize] += 1;
    }
    let layout = lifting::layout(tree, &counts).expect("holders whose pages fit");
    let mut table = vec![0; TENANTS];
    for level in tree.levels() {
        let places = layout.iter().filter(|&&node| tree.level(node) == level);
        let tenants = holders.iter().filter(|holder| holder.level == level);
        for (holder, &node) in tenants.zip(places) {
            table[usize::from(holder.tenant)] = node;
        }
    }
    table
}

/// A history from an opening on, and the book at its end.
pub fn history(random: &mut Random, reach: Reach, height: u32, calls: usize) -> (History, Book) {
    let mut author = Author::new(random, reach, Book::new(Tree::new(height)));
    let calls = author.calls(calls);
    let history = History {
        height,
        start: None,
        calls,
    };
    (history, author.into_book())
}

/// A few calls on a reserve that is full or nearly so, with some in line or none.
pub fn history_on_full(random: &mut Random, reach: Reach, height: u32, calls: usize) -> History {
    let tree = Tree::new(height);
    let counts = nearly_full(random, tree);
    let most = random.pick(&[0, 0, 3, 10]);
    let start = Start::draw(random, tree, &counts, most);
    let calls = Author::new(random, reach, start.book(tree)).calls(calls);
    History {
        height,
        start: Some(start),
        calls,
    }
}

/// Calls beside a line with many in it, about which most of them are.
pub fn history_beside_a_line(random: &mut Random, reach: Reach, height: u32, calls: usize) -> History {
    let tree = Tree::new(height);
    let counts = any_fill(random, tree);
    let number = random.pick(&[10, 62, 63, 64, 64]);
    let start = Start::draw(random, tree, &counts, number);
    let calls = Author::beside_a_line(random, reach, start.book(tree)).calls(calls);
    History {
        height,
        start: Some(start),
        calls,
    }
}

/// A history from an opening on in which more join the line than it takes, before other calls come.
pub fn history_with_a_full_line(random: &mut Random, reach: Reach, height: u32, calls: usize) -> History {
    let tree = Tree::new(height);
    let line = line_of(random, tree, (0..TENANTS as u16).collect(), MOST_WAITING + 2);
    let mut book = Book::new(tree);
    let mut joins = Vec::new();
    for waiting in line {
        let request = Request::Join {
            tenant: waiting.tenant.into(),
            level: waiting.level,
        };
        book.enter(request, book.due(request, 0));
        joins.push(Call::with_shortest_list(request));
    }
    let calls = Author::beside_a_line(random, reach, book).calls(calls);
    History {
        height,
        start: None,
        calls: [joins, calls].concat(),
    }
}

/// Calls that bring a book to given holdings and an empty line: first whoever waits or is too many goes, then whoever is missing
/// comes.
pub fn steer(random: &mut Random, book: &mut Book, target: &Counts) -> Vec<Call> {
    let mut requests = Vec::new();
    let mut make = |book: &mut Book, request: Request| {
        let told = book.due(request, request.fewest_entries());
        assert_eq!(told.answer, DONE, "{request:?}");
        book.enter(request, told);
        requests.push(request);
    };
    for tenant in book.waiting() {
        make(book, Request::Withdraw { tenant });
    }
    let mut holders = book.holders();
    random.shuffle(&mut holders);
    for tenant in holders {
        let level = book.level_of(tenant).expect("a holder") as usize;
        if book.counts()[level] > target[level] {
            make(book, Request::Release { tenant });
        }
    }
    let mut tenants: Vec<u32> = (0..TENANTS as u32).collect();
    tenants.retain(|&tenant| book.level_of(tenant).is_none());
    random.shuffle(&mut tenants);
    let mut grants = Vec::new();
    for (level, (&wanted, &held)) in (0..).zip(target.iter().zip(book.counts())) {
        grants.extend((held..wanted).map(|_| level));
    }
    random.shuffle(&mut grants);
    for (level, tenant) in grants.into_iter().zip(tenants) {
        make(book, Request::GrantLevel { tenant, level });
    }
    requests.into_iter().map(Call::with_shortest_list).collect()
}
