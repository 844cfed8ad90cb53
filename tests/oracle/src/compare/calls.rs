//! Opening and all other calls: single ones, histories, and pairs of them.

use std::fmt;

use super::lent::{pattern, Lent};
use super::maps::same_map;
use super::numbering::every_numbering;
use super::questions::{same_entry, same_level};
use super::{Amounts, State};
use crate::audit::{audit, Seen, MOST_FOR_GRANT};
use crate::book::{level_wanted, occupied, Book, Told};
use crate::definitions::{Node, Tree, TALLEST};
use crate::generate::{history, history_on_full, holders_for, seat, steer, Call, History, Start};
use crate::line::{self, bars};
use crate::planner::{Request, TENANTS};
use crate::random::Random;
use crate::refusal::{Refusal, DONE};
use crate::shrink::shorten;
use crate::subject::{
    moves_from, Images, Oracle, Reply, Subject, FEWEST_MOVE_BYTES, LINE_BYTES, MOVE_BYTES, TABLE_BYTES,
};

/// What both planners made of a call.
pub struct Same {
    pub(super) reply: Reply,
    pub state: State,
    pub(super) moves: Vec<u8>,
}

/// Asks both planners and compares the reply, the table, the line and the whole list of moves; and before that what a caller may ask
/// first: its tenant's entry, and the level of the pages that it names.
pub fn same_call(subject: &mut dyn Subject, height: u32, state: &State, call: &Call) -> Result<Same, String> {
    if let Some(tenant) = call.request.tenant() {
        same_entry(subject, &state.table, tenant)?;
    }
    if let Request::GrantPages { pages, .. } = call.request {
        same_level(subject, height, pages)?;
    }
    let mut right_state = state.clone();
    let mut right_moves = pattern(call.move_bytes);
    let mut table = Lent::new(&state.table);
    let mut line = Lent::new(&state.line);
    let mut moves = Lent::new(&right_moves);
    let mut right_images = Images {
        height,
        table: &mut right_state.table,
        line: &mut right_state.line,
        moves: &mut right_moves,
    };
    let right = Oracle.call(&mut right_images, call.request);
    let mut images = Images {
        height,
        table: table.lend(),
        line: line.lend(),
        moves: moves.lend(),
    };
    let reply = subject.call(&mut images, call.request);
    ensure!(reply == right, "the reply is {reply:?}, and {right:?} is right");
    table.expect("table", &right_state.table)?;
    line.expect("line", &right_state.line)?;
    moves.expect("list of moves", &right_moves)?;
    Ok(Same {
        reply,
        state: right_state,
        moves: right_moves,
    })
}

/// Opens with both planners and compares the answer, the table and the line.
pub fn same_opening(subject: &mut dyn Subject, height: u32, state: &State) -> Result<State, String> {
    let mut right_state = state.clone();
    let mut table = Lent::new(&state.table);
    let mut line = Lent::new(&state.line);
    let right = Oracle.open(height, &mut right_state.table, &mut right_state.line);
    let answer = subject.open(height, table.lend(), line.lend());
    ensure!(answer == right, "opening answers {answer}, and {right} is right");
    table.expect("table", &right_state.table)?;
    line.expect("line", &right_state.line)?;
    Ok(right_state)
}

/// Where a history stopped coming out the same. Call 0 is the opening.
#[derive(Clone, Debug)]
pub struct Failure {
    pub call: usize,
    pub finding: String,
}

impl fmt::Display for Failure {
    fn fmt(&self, f: &mut fmt::Formatter) -> fmt::Result {
        write!(f, "call {}: {}", self.call, self.finding)
    }
}

/// A history under way on both planners. What they agree on is held against the book and the audit, which would notice a
/// mistake that both have made.
pub(super) struct Run {
    tree: Tree,
    pub state: State,
    pub book: Book,
}

impl Run {
    /// Opens the reserve, or begins with who is there at the start.
    pub fn begin(subject: &mut dyn Subject, history: &History) -> Result<Self, String> {
        let tree = Tree::new(history.height);
        let (state, book) = match &history.start {
            None => {
                let lent = State {
                    table: pattern(TABLE_BYTES),
                    line: pattern(LINE_BYTES),
                };
                (same_opening(subject, history.height, &lent)?, Book::new(tree))
            }
            Some(start) => (State::at_start(tree, start), start.book(tree)),
        };
        Ok(Run { tree, state, book })
    }

    pub fn step(&mut self, subject: &mut dyn Subject, call: &Call) -> Result<Reply, String> {
        let same = same_call(subject, self.tree.height(), &self.state, call)?;
        self.check_against_book(call, &same)?;
        self.state = same.state;
        Ok(same.reply)
    }

    fn check_against_book(&mut self, call: &Call, same: &Same) -> Result<(), String> {
        let told = Told::from(same.reply);
        let due = self.book.due(call.request, call.move_bytes / MOVE_BYTES);
        ensure!(told == due, "both tell {told:?}, and by the book {due:?} is due");
        let after = same.state.nodes();
        let seen = Seen {
            request: call.request,
            before: &self.state.nodes(),
            after: &after,
            waiting: &self.book.line(),
            answer: told.answer,
            admitted: told.admitted,
            node: same.reply.node as Node,
            moves: &moves_from(&same.moves, same.reply.moves),
        };
        audit(self.tree, &seen)?;
        self.book.enter(call.request, told);
        if told.answer == DONE {
            self.book.audit(&after)?;
        }
        self.book.audit_line(&same.state.numbers())
    }
}

/// Runs a history on both planners, and gives what it leaves.
pub fn same_history(subject: &mut dyn Subject, history: &History) -> Result<State, Failure> {
    let failure = |call: usize| move |finding: String| Failure { call, finding };
    let mut run = Run::begin(subject, history).map_err(failure(0))?;
    for (place, call) in (1..).zip(&history.calls) {
        run.step(subject, call).map_err(failure(place))?;
    }
    same_map(subject, history.height, &run.state.table, 512).map_err(failure(history.calls.len()))?;
    Ok(run.state)
}

/// Runs a history and, should it fail, tells the shortest one found that fails.
pub(super) fn check_history(subject: &mut dyn Subject, history: &History) -> Result<State, String> {
    same_history(subject, history).map_err(|failure| explain(subject, history, &failure))
}

/// A failing history in its shortest form found, in words.
fn explain(subject: &mut dyn Subject, history: &History, failure: &Failure) -> String {
    let short = shortened(subject, history, failure);
    match same_history(subject, &short) {
        Err(failure) => format!("{short}  {failure}"),
        Ok(_) => format!("{history}  {failure}"),
    }
}

/// Shortens a failing history: nothing after the failure, a smaller tree if that fails too, fewer calls, fewer holders and fewer
/// in line at the start, fewer calls for these, and for all that is left a smaller tree once more.
pub fn shortened(subject: &mut dyn Subject, history: &History, failure: &Failure) -> History {
    let mut short = history.clone();
    let mut fails = |history: &History| same_history(subject, history).is_err();
    short.calls.truncate(failure.call);
    short = on_smallest_tree(short, &mut fails);
    short = with_fewer_calls(short, &mut fails);
    if let Some(start) = &short.start {
        let fewer = shortened_start(start, |start| {
            fails(&History {
                start: Some(start),
                ..short.clone()
            })
        });
        short.start = Some(fewer);
        short = with_fewer_calls(short, &mut fails);
    }
    on_smallest_tree(short, &mut fails)
}

fn with_fewer_calls(history: History, fails: &mut impl FnMut(&History) -> bool) -> History {
    let calls = shorten(&history.calls, |calls| {
        fails(&History {
            calls: calls.to_vec(),
            ..history.clone()
        })
    });
    History { calls, ..history }
}

fn shortened_start(start: &Start, mut fails: impl FnMut(Start) -> bool) -> Start {
    let mut short = start.clone();
    short.waiting = shorten(&short.waiting, |waiting| {
        fails(Start {
            waiting: waiting.to_vec(),
            ..short.clone()
        })
    });
    short.holders = shorten(&short.holders, |holders| {
        fails(Start {
            holders: holders.to_vec(),
            ..short.clone()
        })
    });
    short
}

/// A failing history that begins with an opening, on the smallest tree on which it fails; any other as it is.
fn on_smallest_tree(history: History, fails: &mut impl FnMut(&History) -> bool) -> History {
    let lower = match history.start {
        None => 0..history.height,
        Some(_) => 0..0,
    };
    let on = |height| History {
        height,
        ..history.clone()
    };
    let smallest = lower.map(on).find(|smaller| fails(smaller));
    smallest.unwrap_or(history)
}

/// Every counts vector of the small trees, with every grant and every release, and for each of these the movers numbered in
/// every order.
pub fn every_counts(subject: &mut dyn Subject, amounts: &Amounts, random: &mut Random) -> Result<usize, String> {
    on_every_counts(subject, amounts, random, every_request)
}

/// Checks some requests on every counts vector of the small trees, with the movers of each numbered in every order.
pub(super) fn on_every_counts(
    subject: &mut dyn Subject,
    amounts: &Amounts,
    random: &mut Random,
    requests: fn(&mut Random, Tree, &[Node]) -> Vec<Request>,
) -> Result<usize, String> {
    let mut comparisons = 0;
    for tree in (0..=amounts.tallest_for_all_counts).map(Tree::new) {
        for counts in tree.every_fitting_counts() {
            let holders = holders_for(random, &counts);
            for request in requests(random, tree, &seat(tree, &holders)) {
                for numbered in every_numbering(tree, &holders, request) {
                    let start = Start::held_by(&numbered);
                    check_one(subject, tree.height(), &start, Call::with_shortest_list(request))?;
                    comparisons += 1;
                }
            }
        }
    }
    Ok(comparisons)
}

/// Runs one call on a reserve with these tenants.
pub(super) fn check_one(subject: &mut dyn Subject, height: u32, start: &Start, call: Call) -> Result<(), String> {
    let history = History {
        height,
        start: Some(start.clone()),
        calls: vec![call],
    };
    check_history(subject, &history).map(|_| ())
}

/// The tenants that hold a block, and those that hold none.
pub(super) fn holders_and_others(table: &[Node]) -> (Vec<u32>, Vec<u32>) {
    (0..TENANTS as u32).partition(|&tenant| table[tenant as usize] != 0)
}

/// Every grant and every release from a table, with the refused ones beside them.
fn every_request(random: &mut Random, tree: Tree, table: &[Node]) -> Vec<Request> {
    let (holders, others) = holders_and_others(table);
    let mut requests: Vec<Request> = holders.iter().map(|&tenant| Request::Release { tenant }).collect();
    let newcomer = random.pick(&others);
    requests.push(Request::Release { tenant: newcomer });
    for tenant in holders.first().copied().into_iter().chain([newcomer]) {
        for level in tree.levels() {
            requests.push(Request::GrantLevel { tenant, level });
            // The last size that a block of the level serves, and the first that it does not.
            let past = 1 << level;
            requests.extend([past - 1, past].map(|pages| Request::GrantPages { tenant, pages }));
        }
        let pages = tree.pages_in_all() / 2 + 1;
        requests.push(Request::GrantPages { tenant, pages });
    }
    requests
}

/// Random histories at all heights.
pub fn histories(subject: &mut dyn Subject, amounts: &Amounts, random: &mut Random) -> Result<usize, String> {
    let mut comparisons = 0;
    while comparisons < amounts.calls_in_histories {
        for height in 0..=TALLEST {
            let calls = 10 + random.index(40 + 20 * height as usize);
            let (history, _) = history(random, subject.reach(), height, calls);
            check_history(subject, &history)?;
            comparisons += calls;
        }
    }
    Ok(comparisons)
}

/// Full reserves at all heights, each with a few calls.
pub fn full_reserves(subject: &mut dyn Subject, amounts: &Amounts, random: &mut Random) -> Result<usize, String> {
    let mut comparisons = 0;
    for round in 0..amounts.full_reserves {
        let height = round as u32 % (TALLEST + 1);
        let history = history_on_full(random, subject.reach(), height, 8);
        check_history(subject, &history)?;
        comparisons += history.calls.len();
    }
    Ok(comparisons)
}

/// Two histories that end in the same holdings occupy the same places, and a newcomer gets in on both or on neither.
pub fn pairs(subject: &mut dyn Subject, amounts: &Amounts, random: &mut Random) -> Result<usize, String> {
    let mut comparisons = 0;
    for round in 0..amounts.pairs {
        let height = round as u32 % (TALLEST + 1);
        let calls = 20 + random.index(100);
        let (one, book) = history(random, subject.reach(), height, calls);
        let calls = 20 + random.index(100);
        let (mut other, mut other_book) = history(random, subject.reach(), height, calls);
        other.calls.extend(steer(random, &mut other_book, book.counts()));
        let ends = [check_history(subject, &one)?, check_history(subject, &other)?];
        let [places, other_places] = ends.each_ref().map(|end| occupied(&end.nodes()));
        ensure!(
            places == other_places,
            "different places after\n{one}and after\n{other}"
        );
        let is_new = |book: &Book, tenant: u32| book.level_of(tenant).is_none() && !book.waiting().contains(&tenant);
        let newcomer = (0..TENANTS as u32).find(|&tenant| is_new(&book, tenant) && is_new(&other_book, tenant));
        if let Some(tenant) = newcomer {
            newcomer_gets_the_same(subject, &book, &ends, tenant)
                .map_err(|finding| format!("after\n{one}and after\n{other}  {finding}"))?;
        }
        comparisons += 1;
    }
    Ok(comparisons)
}

/// Demand 3 for a newcomer on two boxes, asked of the planner under test alone: with empty lines, and with those at the ends of
/// the histories unless somebody is barred by them.
fn newcomer_gets_the_same(subject: &mut dyn Subject, book: &Book, ends: &[State], tenant: u32) -> Result<(), String> {
    let tree = book.tree();
    let by_level = tree.levels().map(|level| Request::GrantLevel { tenant, level });
    let by_pages = tree.levels().map(|level| Request::GrantPages {
        tenant,
        pages: (1 << level) - 1,
    });
    let mut states: Vec<State> = ends.iter().map(|end| State::without_line(&end.nodes())).collect();
    let bars_nobody = |end: &&State| line::read(tree, &end.nodes(), &end.numbers()).is_ok_and(|line| !bars(&line));
    states.extend(ends.iter().filter(bars_nobody).cloned());
    for request in by_level.chain(by_pages) {
        let fits = level_wanted(tree, request).is_some_and(|level| 1 << level <= book.room());
        let due = if fits { DONE } else { Refusal::NoRoom.number() };
        for state in &states {
            let mut state = state.clone();
            let mut images = Images {
                height: tree.height(),
                table: &mut state.table,
                line: &mut state.line,
                moves: &mut pattern(FEWEST_MOVE_BYTES),
            };
            let reply = subject.call(&mut images, request);
            ensure!(
                reply.answer == due && reply.moves as usize <= MOST_FOR_GRANT,
                "{request:?} gets {reply:?}, and {due} is due"
            );
        }
    }
    Ok(())
}
