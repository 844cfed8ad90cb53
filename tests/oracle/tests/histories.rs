//! Histories of the second planner, each call held against the book, the audit and the definitions.

mod small;

use std::collections::{BTreeMap, BTreeSet};

use oracle::audit::{audit, is_in_order, Seen, MOST_FOR_GRANT, MOST_FOR_RELEASE};
use oracle::book::{occupied, Book, Told};
use oracle::definitions::{Node, Tree, TALLEST};
use oracle::generate::{any_fill, growths, history, history_on_full, holders_for, seat, steer, Call, Damage, History};
use oracle::line::{self, LINE_NUMBERS};
use oracle::planner::{self, Lent, Outcome, Request, TENANTS};
use oracle::random::Random;
use oracle::subject::{Oracle, Reach, Subject, MOVE_BYTES};
use small::{trees, trees_with_counts};

fn reach() -> Reach {
    Oracle.reach()
}

/// Carries out a call on a table, and on the line that the book has, and checks it against all that can be known about it.
fn checked_call(book: &mut Book, table: &[Node], call: &Call) -> Outcome {
    let tree = book.tree();
    let entries = call.move_bytes / MOVE_BYTES;
    let waiting = book.line();
    let lent = Lent {
        height: tree.height(),
        table,
        line: &line::numbers(&waiting),
        entries,
    };
    let outcome = planner::call(lent, call.request);
    let told = Told {
        answer: outcome.answer,
        admitted: outcome.admitted.map(u32::from),
    };
    assert_eq!(told, book.due(call.request, entries), "{call}");
    book.enter(call.request, told);
    let seen = Seen {
        request: call.request,
        before: table,
        after: &outcome.table,
        waiting: &waiting,
        answer: told.answer,
        admitted: told.admitted,
        node: outcome.node,
        moves: &outcome.moves,
    };
    audit(tree, &seen)
        .and_then(|()| book.audit(&outcome.table))
        .and_then(|()| book.audit_line(&outcome.line))
        .unwrap_or_else(|finding| panic!("{call}: {finding}"));
    outcome
}

/// What turned up in some histories: how often each number was answered, and the most moves of each kind of call, with the
/// most of one call that were staged.
#[derive(Default)]
struct Seldom {
    answers: BTreeMap<u32, usize>,
    of_grant: Most,
    of_release: Most,
    of_growth: Most,
    of_admit: Most,
    /// Grants to tenants that had the level already.
    repeated: usize,
    full: usize,
}

#[derive(Debug, Default, PartialEq, Eq)]
struct Most {
    moves: usize,
    staged: usize,
}

impl Most {
    fn note(&mut self, outcome: &Outcome) {
        self.moves = outcome.moves.len().max(self.moves);
        let staged = outcome.moves.iter().filter(|step| step.staged).count();
        self.staged = staged.max(self.staged);
    }
}

impl Seldom {
    fn note(&mut self, book: &Book, call: &Call, before: &[Node], outcome: &Outcome) {
        *self.answers.entry(outcome.answer).or_default() += 1;
        let is_repeated = call.request.is_grant() && outcome.answer == 0 && outcome.table == before;
        self.repeated += usize::from(is_repeated);
        let most = match call.request {
            Request::GrantLevel { .. } | Request::GrantPages { .. } => &mut self.of_grant,
            Request::Release { .. } => &mut self.of_release,
            Request::Grow { .. } => &mut self.of_growth,
            Request::Admit => &mut self.of_admit,
            Request::Join { .. } | Request::Withdraw { .. } => return,
        };
        most.note(outcome);
        self.full += usize::from(book.room() == 0);
    }
}

fn run(history: &History, seldom: &mut Seldom) -> Vec<Node> {
    let tree = Tree::new(history.height);
    let start = history.start.clone().unwrap_or_default();
    let mut table = match &history.start {
        None => planner::open(history.height, &[7; TENANTS], &[7; LINE_NUMBERS]).table,
        Some(start) => seat(tree, &start.holders),
    };
    let mut book = start.book(tree);
    for call in &history.calls {
        let outcome = checked_call(&mut book, &table, call);
        seldom.note(&book, call, &table, &outcome);
        table = outcome.table;
    }
    table
}

/// Histories drawn from a seed and run, with what turned up in them.
struct Trial {
    random: Random,
    seldom: Seldom,
}

impl Trial {
    fn new(seed: u64) -> Self {
        Trial {
            random: Random::new(seed),
            seldom: Seldom::default(),
        }
    }

    fn after_opening(&mut self, height: u32, calls: usize) {
        let (history, _) = history(&mut self.random, reach(), height, calls);
        run(&history, &mut self.seldom);
    }

    fn on_full(&mut self, height: u32, calls: usize) {
        let history = history_on_full(&mut self.random, reach(), height, calls);
        run(&history, &mut self.seldom);
    }
}

/// The book judges the places by the definitions after every single call, up to height 5 by the bare ones.
#[test]
fn small_histories_stay_safe() {
    let mut trial = Trial::new(11);
    (0..240).for_each(|round| trial.after_opening(round % 6, 60));
    (0..240).for_each(|round| trial.on_full(round % 6, 12));
}

#[test]
fn large_histories_stay_safe() {
    let mut trial = Trial::new(12);
    for height in 6..=TALLEST {
        (0..4).for_each(|_| trial.after_opening(height, 400));
        (0..20).for_each(|_| trial.on_full(height, 20));
    }
}

/// Made-up histories are worth little if they never come near the edge.
#[test]
fn histories_reach_every_answer_and_the_most_moves() {
    let mut trial = Trial::new(113);
    (0..520).for_each(|round| trial.after_opening(round % (TALLEST + 1), 50));
    let seldom = trial.seldom;
    let total: usize = seldom.answers.values().sum();
    for answer in [0, 3, 4, 5, 6, 8, 9, 10, 18] {
        let share = seldom.answers.get(&answer).copied().unwrap_or_default();
        assert!(share * 200 > total, "{answer} comes {share} times in {total}");
    }
    assert!(seldom.answers[&0] * 2 > total, "{:?}", seldom.answers);
    assert!(seldom.full * 20 > total, "full {} times in {total}", seldom.full);
    assert!(seldom.repeated * 50 > total, "{} repeated in {total}", seldom.repeated);
    let most = |moves, staged| Most { moves, staged };
    assert_eq!(seldom.of_grant, most(MOST_FOR_GRANT, 1));
    assert_eq!(seldom.of_release, most(MOST_FOR_RELEASE, 1));
    assert_eq!(seldom.of_growth, most(5, 2));
    assert_eq!(seldom.of_admit, most(MOST_FOR_GRANT, 1));
}

/// Every counts vector up to height 5 with every grant, every release and every growth; the audit has the bounds on the moves.
#[test]
fn every_call_up_to_height_5() {
    let mut random = Random::new(14);
    let mut most_for_grant = 0;
    let mut most_for_release = 0;
    let mut most_for_growth = 0;
    for (tree, counts) in trees_with_counts(0..=5) {
        let holders = holders_for(&mut random, &counts);
        let table = seat(tree, &holders);
        let book = Book::of_reserve(tree, &table, &[]);
        let moves = |request| {
            let call = Call::with_shortest_list(request);
            checked_call(&mut book.clone(), &table, &call).moves.len()
        };
        let newcomer = (0..TENANTS)
            .find(|&tenant| table[tenant] == 0)
            .expect("a tenant without a block") as u32;
        for level in tree.levels() {
            let tenant = newcomer;
            most_for_grant = moves(Request::GrantLevel { tenant, level }).max(most_for_grant);
        }
        for holder in &holders {
            let tenant = holder.tenant.into();
            most_for_release = moves(Request::Release { tenant }).max(most_for_release);
        }
        for request in growths(&table, tree.levels()) {
            most_for_growth = moves(request).max(most_for_growth);
        }
    }
    assert_eq!((most_for_grant, most_for_release), (MOST_FOR_GRANT, MOST_FOR_RELEASE));
    // Seven others move on no reserve as small as these.
    assert_eq!(most_for_growth, 5);
}

/// The level of the smallest block for a grant, in the papers' words.
fn level_of_grant(tree: Tree, request: Request) -> u32 {
    match request {
        Request::GrantPages { pages: 0, .. } => tree.height().min(4),
        Request::GrantPages { pages, .. } => tree.levels().find(|&level| pages < 1 << level).expect("a block"),
        Request::GrantLevel { level, .. } => level,
        _ => panic!("{request:?} is no grant"),
    }
}

/// Every valid grant to a tenant with a level in the book: 0 with its node if it is that level, else 8. Nobody moves, and table
/// and book stay.
#[test]
fn every_grant_to_a_holder_up_to_height_4() {
    let mut random = Random::new(17);
    let mut repeated = 0;
    for (tree, counts) in trees_with_counts(0..=4) {
        let holders = holders_for(&mut random, &counts);
        let table = seat(tree, &holders);
        let book = Book::of_reserve(tree, &table, &[]);
        for holder in &holders {
            let tenant = holder.tenant.into();
            let by_level = tree.levels().map(|level| Request::GrantLevel { tenant, level });
            let by_pages = (0..tree.pages_in_all()).map(|pages| Request::GrantPages { tenant, pages });
            for request in by_level.chain(by_pages) {
                let mut after = book.clone();
                let outcome = checked_call(&mut after, &table, &Call::with_shortest_list(request));
                let due = match level_of_grant(tree, request) == holder.level {
                    true => (0, table[usize::from(holder.tenant)]),
                    false => (8, 0),
                };
                assert_eq!((outcome.answer, outcome.node), due, "{request:?} on {counts:?}");
                assert!(
                    outcome.moves.is_empty() && outcome.table == table && after == book,
                    "{request:?}"
                );
                repeated += usize::from(due.0 == 0);
            }
        }
    }
    assert!(repeated > 1_000, "{repeated}");
}

#[test]
fn equal_holdings_mean_equal_places() {
    let seed = 15;
    let mut random = Random::new(seed);
    for round in 0..130 {
        let height = round % (TALLEST + 1);
        let (one, book) = history(&mut random, reach(), height, 70);
        let (mut other, mut other_book) = history(&mut random, reach(), height, 50);
        other.calls.extend(steer(&mut random, &mut other_book, book.counts()));
        assert_eq!(book.counts(), other_book.counts());
        let mut seldom = Seldom::default();
        let places = [&one, &other].map(|history| occupied(&run(history, &mut seldom)));
        assert_eq!(places[0], places[1], "{one}{other}");
    }
}

fn answer_of_release(tree: Tree, table: &[Node]) -> u32 {
    let lent = Lent {
        height: tree.height(),
        table,
        line: &line::EMPTY,
        entries: 4,
    };
    planner::call(lent, Request::Release { tenant: 4095 }).answer
}

/// Refusal 7 for all tables of three tenants on the small trees.
#[test]
fn all_small_tables_are_judged_as_by_the_definitions() {
    for tree in trees(0..=3) {
        let mut table = vec![0; TENANTS];
        let entries: Vec<Node> = (0..=tree.last_node() + 2).collect();
        for &first in &entries {
            for &second in &entries {
                for &third in &entries {
                    table[..3].copy_from_slice(&[first, second, third]);
                    let due = if is_in_order(tree, &table) { 9 } else { 7 };
                    assert_eq!(
                        answer_of_release(tree, &table),
                        due,
                        "height {}: {:?}",
                        tree.height(),
                        &table[..3]
                    );
                }
            }
        }
    }
}

#[test]
fn damaged_tables_are_judged_as_by_the_definitions() {
    let seed = 16;
    let mut random = Random::new(seed);
    let mut inflicted = BTreeSet::new();
    for round in 0..6_000 {
        let tree = Tree::new(round % (TALLEST + 1));
        let damage = random.pick(&Damage::ALL);
        let counts = any_fill(&mut random, tree);
        let mut table = seat(tree, &holders_for(&mut random, &counts));
        if !damage.inflict(&mut random, tree, &mut table) {
            continue;
        }
        let in_order = is_in_order(tree, &table);
        assert!(!(in_order && damage.is_certain()), "{damage:?}");
        assert_eq!(answer_of_release(tree, &table) == 7, !in_order, "{damage:?}");
        let is_tall = tree.height() >= 9;
        inflicted.insert(format!("{damage:?} {in_order}, tall {is_tall}"));
    }
    // Every kind of damage came up, and a changed entry with both outcomes, on low trees and on tall ones.
    assert_eq!(inflicted.len(), 10, "{inflicted:?}");
}
