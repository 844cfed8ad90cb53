//! What the papers promise about the line, on all short lines of small reserves and in histories.

mod small;

use std::collections::{BTreeMap, BTreeSet};

use oracle::audit::is_line_in_order;
use oracle::definitions::{is_legal, Counts, Node, Tree, TALLEST};
use oracle::generate::{
    any_fill, history_beside_a_line, history_with_a_full_line, holders_for, seat, History, Holder, LineDamage, Start,
};
use oracle::line::{self, bars, Waiting, LINE_NUMBERS, MOST_PASSED, MOST_WAITING};
use oracle::planner::{self, Lent, Outcome, Request};
use oracle::random::Random;
use oracle::refusal::{Refusal, DONE};
use oracle::subject::{Oracle, Subject, MOVE_BYTES};
use small::{trees, trees_with_counts};

/// A reserve with a line.
#[derive(Clone)]
struct Reserve {
    tree: Tree,
    table: Vec<Node>,
    line: Vec<u16>,
}

impl Reserve {
    fn of(tree: Tree, start: &Start) -> Self {
        Reserve {
            tree,
            table: seat(tree, &start.holders),
            line: line::numbers(&start.waiting),
        }
    }

    fn call(&self, request: Request) -> Outcome {
        self.call_with(request, request.fewest_entries())
    }

    fn call_with(&self, request: Request, entries: usize) -> Outcome {
        let lent = Lent {
            height: self.tree.height(),
            table: &self.table,
            line: &self.line,
            entries,
        };
        planner::call(lent, request)
    }

    fn after(&self, outcome: Outcome) -> Self {
        Reserve {
            tree: self.tree,
            table: outcome.table,
            line: outcome.line,
        }
    }

    fn waiting(&self) -> Vec<Waiting> {
        line::read(self.tree, &self.table, &self.line).expect("a line in order")
    }

    fn room(&self) -> u32 {
        let held: Vec<Node> = self.table.iter().copied().filter(|&node| node != 0).collect();
        self.tree.pages_in_all() - self.tree.pages_taken(&self.tree.counts(&held))
    }
}

/// All lines of up to two, for every level and count, and of three that were never passed, or seven or eight times.
fn every_line(tree: Tree, tenants: &[u16]) -> Vec<Vec<Waiting>> {
    let mut lines = vec![Vec::new()];
    let mut longest = lines.clone();
    for (place, &tenant) in tenants.iter().take(3).enumerate() {
        let counts: &[u32] = if place < 2 {
            &[0, 1, 2, 3, 4, 5, 6, 7, 8]
        } else {
            &[0, 7, 8]
        };
        let one_more = |line: &Vec<Waiting>| {
            let line = line.clone();
            tree.levels().flat_map(move |level| {
                let line = line.clone();
                counts.iter().map(move |&passed| {
                    let last = Waiting { tenant, level, passed };
                    [&line[..], &[last]].concat()
                })
            })
        };
        longest = longest.iter().flat_map(one_more).collect();
        lines.extend(longest.iter().cloned());
    }
    lines
}

/// Every counts vector up to height 2 with every such line, and a tenant that neither holds a block nor waits.
fn every_reserve(mut each: impl FnMut(Reserve, u32)) {
    let mut random = Random::new(71);
    for (tree, counts) in trees_with_counts(0..=2) {
        let holders = holders_for(&mut random, &counts);
        let others = Start::held_by(&holders).others();
        for waiting in every_line(tree, &others) {
            let holders = holders.clone();
            each(Reserve::of(tree, &Start { holders, waiting }), others[3].into());
        }
    }
}

/// Runs histories with many in line, and shows every call with the reserve before it and what came of it.
fn in_histories(seed: u64, mut each: impl FnMut(&Reserve, Request, &Outcome)) {
    let mut random = Random::new(seed);
    for round in 0..260 {
        let height = round % (TALLEST + 1);
        let draw = if round % 2 == 0 {
            history_beside_a_line
        } else {
            history_with_a_full_line
        };
        let History { start, calls, .. } = draw(&mut random, Oracle.reach(), height, 60);
        let mut reserve = Reserve::of(Tree::new(height), &start.unwrap_or_default());
        for call in calls {
            let outcome = reserve.call_with(call.request, call.move_bytes / MOVE_BYTES);
            each(&reserve, call.request, &outcome);
            reserve = reserve.after(outcome);
        }
    }
}

/// If an admit that is not refused gives node 0, the oldest that was passed eight times lacks its pages, and so does everybody
/// in front of it; and nothing changes.
fn assert_nobody_could_come(reserve: &Reserve, outcome: &Outcome) {
    let waiting = reserve.waiting();
    let oldest = waiting.iter().position(|waiting| waiting.passed == MOST_PASSED);
    let in_turn = oldest.map_or(waiting.len(), |place| place + 1);
    for waiting in &waiting[..in_turn] {
        assert!(1 << waiting.level > reserve.room(), "{waiting:?}");
    }
    assert!(outcome.moves.is_empty() && outcome.table == reserve.table && outcome.line == reserve.line);
}

/// Whoever is admitted gets the node, the moves and the table of a grant of its level beside an empty line.
fn assert_granted_as_directly(reserve: &Reserve, outcome: &Outcome) {
    let tenant = outcome.admitted.expect("somebody");
    let waiting = reserve.waiting();
    let place = line::place_of(&waiting, tenant).expect("somebody who waits");
    let without_line = Reserve {
        line: line::EMPTY.to_vec(),
        ..reserve.clone()
    };
    let level = waiting[place].level;
    let granted = without_line.call(Request::GrantLevel {
        tenant: tenant.into(),
        level,
    });
    assert_eq!((granted.answer, granted.node), (DONE, outcome.node));
    assert_eq!(
        (granted.moves, granted.table),
        (outcome.moves.clone(), outcome.table.clone())
    );
    assert!(outcome.moves.len() <= 3);
}

fn assert_admitted_rightly(reserve: &Reserve, outcome: &Outcome) {
    assert_eq!(outcome.admitted.is_none(), outcome.node == 0);
    match outcome.admitted {
        Some(_) => assert_granted_as_directly(reserve, outcome),
        None => assert_nobody_could_come(reserve, outcome),
    }
}

#[test]
fn admits_grant_as_directly_or_nobody_could_come() {
    let (mut somebody, mut nobody) = (0, 0);
    every_reserve(|reserve, _| {
        let outcome = reserve.call(Request::Admit);
        assert_admitted_rightly(&reserve, &outcome);
        match outcome.admitted {
            Some(_) => somebody += 1,
            None => nobody += 1,
        }
    });
    assert!(somebody > 4_000 && nobody > 4_000, "{somebody} and {nobody}");
    in_histories(72, |reserve, request, outcome| {
        if request == Request::Admit && outcome.answer == DONE {
            assert_admitted_rightly(reserve, outcome);
        }
    });
}

/// Admits that are repeated come to node 0, after as many as wait at most, and the line is in order all the while.
#[test]
fn repeated_admits_end() {
    let admits = |mut reserve: Reserve| {
        let mut admitted = 0;
        loop {
            let outcome = reserve.call(Request::Admit);
            if outcome.node == 0 {
                return admitted;
            }
            let before = reserve.waiting().len();
            reserve = reserve.after(outcome);
            assert_eq!(reserve.waiting().len() + 1, before);
            admitted += 1;
        }
    };
    every_reserve(|reserve, _| assert!(admits(reserve.clone()) <= reserve.waiting().len()));
    let tree = Tree::new(12);
    let waiting = |(tenant, level)| Waiting {
        tenant,
        level,
        passed: 0,
    };
    let line: Vec<Waiting> = (0..64).zip((0..8).cycle()).map(waiting).collect();
    let reserve = Reserve::of(
        tree,
        &Start {
            holders: Vec::new(),
            waiting: line,
        },
    );
    assert_eq!(admits(reserve), MOST_WAITING);
}

/// A valid grant to one that holds nothing: 18 if it waits; otherwise 10 exactly if somebody was passed eight times or no legal
/// set has the sizes; otherwise what it would be beside an empty line.
#[test]
fn grants_beside_a_line_are_answered_as_the_papers_say() {
    let legal: BTreeMap<u32, BTreeSet<Counts>> = trees(0..=2)
        .map(|tree| {
            let sets = tree.every_set().filter(|set| is_legal(set));
            (tree.height(), sets.map(|set| tree.counts(&set)).collect())
        })
        .collect();
    every_reserve(|reserve, newcomer| {
        let waiting = reserve.waiting();
        let held: Vec<Node> = reserve.table.iter().copied().filter(|&node| node != 0).collect();
        let without_line = Reserve {
            line: line::EMPTY.to_vec(),
            ..reserve.clone()
        };
        for level in reserve.tree.levels() {
            for tenant in waiting.iter().map(|waiting| waiting.tenant.into()) {
                assert_eq!(reserve.call(Request::GrantLevel { tenant, level }).answer, 18);
            }
            let mut counts = reserve.tree.counts(&held);
            counts[level as usize] += 1;
            let has_room = legal[&reserve.tree.height()].contains(&counts);
            let request = Request::GrantLevel {
                tenant: newcomer,
                level,
            };
            let (outcome, alone) = (reserve.call(request), without_line.call(request));
            assert_eq!(alone.answer, if has_room { DONE } else { Refusal::NoRoom.number() });
            if bars(&waiting) {
                assert_eq!((outcome.answer, &outcome.line), (10, &reserve.line));
            } else {
                assert_eq!((outcome.answer, outcome.node), (alone.answer, alone.node));
                assert_eq!((outcome.moves, outcome.table), (alone.moves, alone.table));
            }
        }
    });
}

/// Nobody's count goes above eight, and after an opening no older one is passed less often than a younger one. That the counts are
/// the true ones is the book's to say, in all other histories.
#[test]
fn nobody_is_passed_more_than_eight_times() {
    let mut random = Random::new(73);
    let mut most = 0;
    for round in 0..130 {
        let height = round % (TALLEST + 1);
        let history = history_with_a_full_line(&mut random, Oracle.reach(), height, 120);
        let mut reserve = Reserve::of(Tree::new(height), &Start::default());
        for call in history.calls {
            let outcome = reserve.call_with(call.request, call.move_bytes / MOVE_BYTES);
            reserve = reserve.after(outcome);
            let counts: Vec<u32> = reserve.waiting().iter().map(|waiting| waiting.passed).collect();
            assert!(
                counts.is_sorted_by(|older, younger| older >= younger),
                "{call}: {counts:?}"
            );
            most = counts.first().copied().unwrap_or(0).max(most);
        }
    }
    assert_eq!(most, MOST_PASSED);
}

/// Made-up histories come to every answer that the line has to give, and to admits with moves.
#[test]
fn histories_reach_every_answer_of_the_line() {
    let mut answers: BTreeMap<(&str, u32), usize> = BTreeMap::new();
    let mut most_moves = 0;
    let mut admitted = 0;
    in_histories(74, |reserve, request, outcome| {
        let kind = match request {
            Request::Join { .. } => "join",
            Request::Admit => "admit",
            Request::Withdraw { .. } => "withdraw",
            _ if request.is_grant() && bars(&reserve.waiting()) => "barred grant",
            _ if request.is_grant() => "grant",
            _ => return,
        };
        *answers.entry((kind, outcome.answer)).or_default() += 1;
        admitted += usize::from(outcome.admitted.is_some());
        if request == Request::Admit {
            most_moves = most_moves.max(outcome.moves.len());
        }
    });
    let often = [
        ("join", 0),
        ("join", 8),
        ("join", 17),
        ("join", 18),
        ("admit", 0),
        ("withdraw", 0),
        ("withdraw", 9),
        ("barred grant", 10),
        ("grant", 0),
    ];
    for answer in often {
        assert!(answers.get(&answer) > Some(&50), "{answer:?}: {answers:?}");
    }
    for seldom in [("join", 4), ("join", 5), ("admit", 3), ("withdraw", 4), ("grant", 18)] {
        assert!(answers.contains_key(&seldom), "{seldom:?}: {answers:?}");
    }
    assert!(admitted > 500, "{admitted}");
    assert_eq!(most_moves, 3);
}

/// Refusal 7 for all lines of two triples with numbers at and beside their bounds, beside a table that tenant 0 holds.
#[test]
fn all_small_lines_are_judged_number_by_number() {
    let tree = Tree::new(1);
    let table = seat(tree, &[Holder { tenant: 0, level: 0 }]);
    let triple = || {
        let tenants = [0, 1, 2, 4095, 4096];
        tenants.into_iter().flat_map(|tenant| {
            [0, 1, 2]
                .into_iter()
                .flat_map(move |level| [0, 8, 9].map(|passed| [tenant, level, passed]))
        })
    };
    let mut in_order = 0;
    for waiting in [0, 1, 2, 3, 64, 65] {
        for first in triple() {
            for second in triple() {
                let mut numbers = vec![waiting];
                numbers.extend([first, second].concat());
                numbers.resize(LINE_NUMBERS, 0);
                let due = is_line_in_order(tree, &table, &numbers);
                assert_eq!(line::read(tree, &table, &numbers).is_ok(), due, "{:?}", &numbers[..7]);
                in_order += usize::from(due);
            }
        }
    }
    // Nobody waits and all is zero; one of three tenants, levels 0 and 1, counts 0 and 8, and zeros; two different ones of them.
    assert_eq!(in_order, 1 + 12 + 6 * 16);
}

#[test]
fn damaged_lines_are_judged_number_by_number() {
    let mut random = Random::new(75);
    let mut inflicted = BTreeSet::new();
    for round in 0..4_000 {
        let tree = Tree::new(round % (TALLEST + 1));
        let counts = any_fill(&mut random, tree);
        let number = random.pick(&[0, 1, 2, 3, MOST_WAITING]);
        let start = Start::draw(&mut random, tree, &counts, number);
        let mut reserve = Reserve::of(tree, &start);
        let damage = random.pick(&LineDamage::ALL);
        if !damage.inflict(&mut random, tree, &reserve.table, &mut reserve.line) {
            continue;
        }
        let in_order = is_line_in_order(tree, &reserve.table, &reserve.line);
        assert!(!(in_order && damage.is_certain()), "{damage:?}: {:?}", reserve.line);
        let answer = reserve.call(Request::Admit).answer;
        assert_eq!(answer == 7, !in_order, "{damage:?}: {:?}", reserve.line);
        inflicted.insert(format!("{damage:?} {in_order}"));
    }
    // Every kind of damage came up, and a changed number with both outcomes.
    assert_eq!(inflicted.len(), 9, "{inflicted:?}");
}
