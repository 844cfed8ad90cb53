//! Growths of the second planner on all small reserves, held against the definitions.

mod small;

use std::collections::BTreeSet;

use oracle::book::level_wanted;
use oracle::definitions::{is_legal, Counts, Node, Tree};
use oracle::generate::{growths, holders_for, seat};
use oracle::line;
use oracle::planner::{self, Lent, Outcome, Request};
use oracle::random::Random;
use oracle::refusal::{Refusal, DONE};
use small::{trees, trees_with_counts};

fn call(tree: Tree, table: &[Node], request: Request) -> Outcome {
    let lent = Lent {
        height: tree.height(),
        table,
        line: &line::EMPTY,
        entries: request.fewest_entries(),
    };
    planner::call(lent, request)
}

/// The counts of all legal sets of a tree.
fn counts_of_legal_sets(tree: Tree) -> BTreeSet<Counts> {
    match tree.height() {
        0..=3 => tree
            .every_set()
            .filter(|set| is_legal(set))
            .map(|set| tree.counts(&set))
            .collect(),
        _ => tree.every_legal_set().iter().map(|set| tree.counts(set)).collect(),
    }
}

/// "No room" comes exactly if no legal set has the held sizes with the tenant's level exchanged for the one that it asks for.
#[test]
fn no_room_where_no_legal_set_has_the_changed_sizes() {
    let mut random = Random::new(51);
    for tree in trees(0..=4) {
        let legal = counts_of_legal_sets(tree);
        for counts in &legal {
            let table = seat(tree, &holders_for(&mut random, counts));
            for request in growths(&table, tree.levels()) {
                let wanted = level_wanted(tree, request).expect("a growth has a level");
                let mut changed = *counts;
                let tenant = request.tenant().expect("a growth has a tenant");
                changed[tree.level(table[tenant as usize]) as usize] -= 1;
                changed[wanted as usize] += 1;
                let due = if legal.contains(&changed) {
                    DONE
                } else {
                    Refusal::NoRoom.number()
                };
                assert_eq!(call(tree, &table, request).answer, due, "{counts:?}, {request:?}");
            }
        }
    }
}

/// What the papers say of the places, read off the set before without the tenant and the set after.
#[test]
fn whoever_can_stay_stays_and_the_others_keep_their_order() {
    let mut random = Random::new(52);
    for (tree, counts) in trees_with_counts(0..=4) {
        let table = seat(tree, &holders_for(&mut random, &counts));
        for request in growths(&table, tree.levels()) {
            let outcome = call(tree, &table, request);
            let tenant = request.tenant().expect("a growth has a tenant");
            if outcome.answer == DONE {
                pairs_as_told(tree, &table, &outcome, tenant as usize);
            }
        }
    }
}

/// At each level: who has a node that is needed stays, the others take what nobody stays on from left to right as they stood,
/// and the tenant takes the last.
fn pairs_as_told(tree: Tree, table: &[Node], outcome: &Outcome, own: usize) {
    for level in tree.levels() {
        let mut needed: Vec<Node> = outcome
            .table
            .iter()
            .copied()
            .filter(|&node| at(tree, node, level))
            .collect();
        needed.sort_unstable();
        let mut movers = Vec::new();
        for (tenant, &node) in table.iter().enumerate().filter(|&(_, &node)| at(tree, node, level)) {
            if tenant == own {
                continue;
            }
            if needed.contains(&node) {
                assert_eq!(outcome.table[tenant], node, "{outcome:?}");
                needed.retain(|&other| other != node);
            } else {
                movers.push((node, tenant));
            }
        }
        movers.sort_unstable();
        movers.extend(at(tree, outcome.node, level).then_some((outcome.node, own)));
        let taken: Vec<Node> = movers.iter().map(|&(_, tenant)| outcome.table[tenant]).collect();
        assert_eq!(taken, needed, "{table:?}");
    }
}

fn at(tree: Tree, node: Node, level: u32) -> bool {
    node != 0 && tree.level(node) == level
}

/// Its places are those of a release and a grant after it, though the others may go elsewhere than by these two.
#[test]
fn a_growth_ends_in_the_places_of_a_release_and_a_grant() {
    let mut random = Random::new(53);
    let mut differently = 0;
    for (tree, counts) in trees_with_counts(0..=5) {
        let table = seat(tree, &holders_for(&mut random, &counts));
        for request in growths(&table, tree.levels()) {
            let tenant = request.tenant().expect("a growth has a tenant");
            let level = level_wanted(tree, request).expect("a growth has a level");
            let grown = call(tree, &table, request);
            let released = call(tree, &table, Request::Release { tenant }).table;
            let granted = call(tree, &released, Request::GrantLevel { tenant, level });
            assert_eq!(grown.answer, granted.answer, "{request:?}");
            if grown.answer == DONE {
                assert_eq!(sorted(&grown.table), sorted(&granted.table), "{request:?}");
                differently += usize::from(grown.table != granted.table);
            }
        }
    }
    assert!(differently > 1_000, "{differently}");
}

fn sorted(table: &[Node]) -> Vec<Node> {
    let mut nodes = table.to_vec();
    nodes.sort_unstable();
    nodes
}
