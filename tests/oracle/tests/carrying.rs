//! Lists that can be carried out: on all small reserves, and with movers that are made up.

mod made_up;
mod small;

use std::collections::BTreeMap;

use made_up::MadeUp;
use oracle::carrying::{Change, Move};
use oracle::definitions::{Node, Tree};
use oracle::generate::{growths, holders_for, seat};
use oracle::line;
use oracle::planner::{self, Lent, Request, TENANTS};
use oracle::random::Random;
use oracle::refusal::DONE;
use oracle::runtime::{carry_out, staged_come_last};
use small::trees_with_counts;

/// Every grant, release and growth on a table.
fn requests(table: &[Node], tree: Tree) -> Vec<Request> {
    let (holders, others): (Vec<u32>, Vec<u32>) = (0..TENANTS as u32).partition(|&tenant| table[tenant as usize] != 0);
    let releases = holders.into_iter().map(|tenant| Request::Release { tenant });
    let grants = tree.levels().map(|level| Request::GrantLevel {
        tenant: others[0],
        level,
    });
    releases.chain(grants).chain(growths(table, tree.levels())).collect()
}

/// The change of every call that is carried out on a tree up to height 5.
fn every_change(mut each: impl FnMut(Request, &Change)) {
    let mut random = Random::new(31);
    for (tree, counts) in trees_with_counts(0..=5) {
        let table = seat(tree, &holders_for(&mut random, &counts));
        for request in requests(&table, tree) {
            let lent = Lent {
                height: tree.height(),
                table: &table,
                line: &line::EMPTY,
                entries: request.fewest_entries(),
            };
            let outcome = planner::call(lent, request);
            if outcome.answer == DONE {
                each(request, &Change::between(tree, &table, &outcome.table));
            }
        }
    }
}

fn staged(list: &[Move]) -> usize {
    list.iter().filter(|step| step.staged).count()
}

/// How many lists are as low as the best by a part of their cost.
fn as_low_as_the_best<K: Ord>(change: &Change, part: impl Fn((usize, usize, Vec<u16>)) -> K) -> usize {
    let parts: Vec<K> = change.lists().iter().map(|list| part(change.cost(list))).collect();
    let best = parts.iter().min();
    parts.iter().filter(|&part| Some(part) == best).count()
}

/// How many calls stage how many, by the number of movers.
#[test]
fn small_reserves_stage_two_tenants_at_most_and_those_for_a_growth() {
    let mut grants: BTreeMap<(usize, usize), u32> = BTreeMap::new();
    let mut releases = grants.clone();
    let mut growths = grants.clone();
    every_change(|request, change| {
        let list = change.plan().expect("a list");
        let calls = match request {
            Request::GrantLevel { .. } | Request::GrantPages { .. } => &mut grants,
            Request::Release { .. } => &mut releases,
            Request::Grow { .. } => &mut growths,
            _ => panic!("{request:?} is none of these"),
        };
        *calls.entry((list.len(), staged(&list))).or_default() += 1;
    });
    let of_grants = [((0, 0), 2753), ((1, 0), 983), ((2, 1), 1876), ((3, 1), 32)];
    let of_releases = [
        ((0, 0), 2753),
        ((1, 0), 8756),
        ((2, 0), 1776),
        ((2, 1), 3018),
        ((3, 1), 7584),
        ((4, 1), 64),
    ];
    let of_growths = [
        ((0, 0), 30_647),
        ((1, 0), 23_628),
        ((2, 0), 11_455),
        ((2, 1), 1_953),
        ((3, 0), 1_314),
        ((3, 1), 4_416),
        ((4, 1), 2_116),
        ((4, 2), 96),
        ((5, 2), 96),
    ];
    assert_eq!(grants, BTreeMap::from(of_grants));
    assert_eq!(releases, BTreeMap::from(of_releases));
    assert_eq!(growths, BTreeMap::from(of_growths));
}

/// On a small reserve the pages alone decide whom to stage, however the tenants are numbered, and no other set has fewer tenants.
#[test]
fn no_two_sets_of_a_small_reserve_have_the_fewest_pages() {
    let mut calls = 0;
    every_change(|request, change| {
        assert_eq!(as_low_as_the_best(change, |(pages, _, _)| pages), 1, "{request:?}");
        let lists = change.lists();
        let fewest = lists.iter().map(|list| staged(list)).min();
        assert_eq!(fewest, change.plan().map(|list| staged(&list)), "{request:?}");
        calls += 1;
    });
    assert_eq!(calls, 105_316);
}

/// What movers that are made up come to.
#[derive(Debug, Default, PartialEq, Eq)]
struct Seldom {
    most_movers: usize,
    most_staged: usize,
    /// How often more than one set has the fewest pages, and how often more than one of these the fewest tenants.
    equal_pages: usize,
    equal_tenants: usize,
}

impl Seldom {
    fn note(&mut self, change: &Change, list: &[Move]) {
        self.most_movers = self.most_movers.max(list.len());
        self.most_staged = self.most_staged.max(staged(list));
        self.equal_pages += usize::from(as_low_as_the_best(change, |(pages, _, _)| pages) > 1);
        self.equal_tenants += usize::from(as_low_as_the_best(change, |(pages, tenants, _)| (pages, tenants)) > 1);
    }
}

/// Movers that are made up are staged by twos and more, and often the pages leave it to the tenants to decide.
#[test]
fn lists_of_made_up_movers_can_be_carried_out() {
    let mut random = Random::new(32);
    let mut seldom = Seldom::default();
    for round in 0..20_000 {
        let MadeUp { tree, before, after } = MadeUp::draw(&mut random, Tree::new(2 + round % 4));
        let change = Change::between(tree, &before, &after);
        let list = change.plan().expect("a list for places that are apart");
        let done = carry_out(tree, &before, &after, &list);
        assert_eq!(done, Ok(()), "{before:?} {after:?} {list:?}");
        assert!(staged_come_last(&list), "{list:?}");
        seldom.note(&change, &list);
    }
    let expected = Seldom {
        most_movers: 7,
        most_staged: 6,
        equal_pages: 1_026,
        equal_tenants: 849,
    };
    assert_eq!(seldom, expected);
}

/// Places that are not apart can be reached by no list.
#[test]
fn nobody_is_set_down_on_somebody_else() {
    let tree = Tree::new(2);
    assert_eq!(Change::between(tree, &[2, 6], &[3, 6]).plan(), None);
    assert_eq!(Change::between(tree, &[4, 6], &[5, 5]).plan(), None);
    assert_eq!(Change::between(tree, &[2, 0], &[3, 6]).plan(), None);
}
