//! The driver finds nothing where nothing is wrong, and finds every planted mistake.

mod faulty;
mod made_up;

use std::fmt::Debug;

use faulty::growths::GrowthFault;
use faulty::lists::{ListFault, Tables};
use faulty::repeats::RepeatFault;
use faulty::waiting::{Impatient, WaitingFault};
use faulty::{Fault, Faulty, Narrow, ThirdOfItsSize};
use made_up::MadeUp;
use oracle::carrying::Move;
use oracle::compare::{first_finding, run, same_history, shortened, Amounts, Tally};
use oracle::definitions::{Node, Tree};
use oracle::generate::{history, History};
use oracle::planner::Request;
use oracle::random::Random;
use oracle::runtime::{carry_out, staged_come_last};
use oracle::shrink::shorten;
use oracle::subject::{Oracle, Subject};

/// The tally of a planner, and the report as text.
fn reported(subject: &mut dyn Subject, amounts: &Amounts) -> (Tally, String) {
    let mut report = Vec::new();
    let tally = run(subject, amounts, &mut report).expect("a report in memory");
    (tally, String::from_utf8(report).expect("a report is plain text"))
}

#[test]
fn the_second_planner_agrees_with_itself() {
    let (tally, report) = reported(&mut Oracle, &Amounts::quick(21));
    assert_eq!(tally, Tally { passed: 24, failed: 0 }, "{report}");
    assert!(
        report.lines().all(|line| line.ends_with("comparisons, seed 21")),
        "{report}"
    );
}

/// Each mistake is found by one of the named parts.
fn assert_found<F: Copy + Debug, S: Subject>(faults: &[F], parts: &[&str], with: fn(F) -> S) {
    for &fault in faults {
        let (part, finding) = first_finding(&mut with(fault), &Amounts::quick(22), parts)
            .unwrap_or_else(|| panic!("{fault:?} was not found"));
        println!("{fault:?}: {part}\n{finding}\n");
    }
}

/// A test for each group of mistakes, with the parts that have to find them.
macro_rules! found {
    ($with:expr, $($(#[$words:meta])* $name:ident: $faults:expr, $parts:expr;)+) => {
        $(
            $(#[$words])*
            #[test]
            fn $name() {
                assert_found(&$faults, &$parts, $with);
            }
        )+
    };
}

found! { Faulty,
    wrong_places_are_found: Fault::PLACES, ["every counts vector"];
    wrong_reports_are_found: Fault::REPORTS, ["every counts vector"];
    wrong_lists_are_found: ListFault::ON_RESERVES.map(Fault::List), ["every counts vector"];
    wrong_growths_are_found: GrowthFault::ALL.map(Fault::Growth), ["every growth", "lists of growths"];
    wrong_lists_of_growths_are_found: ListFault::ON_RESERVES.map(Fault::List), ["every growth"];
    wrong_lists_with_two_staged_are_found: ListFault::ON_GROWTHS.map(Fault::List), ["lists of growths"];
    wrong_repetitions_are_found: RepeatFault::AT_ONCE.map(Fault::Repeat), ["every grant to a holder"];
    wrong_second_grants_are_found: RepeatFault::OF_OTHER_LEVELS.map(Fault::Repeat), ["every grant to a holder"];
    repetitions_that_are_seen_too_early_are_found: RepeatFault::TOO_EARLY.map(Fault::Repeat),
        ["grants to holders on all heights"];
    wrong_repetitions_of_every_grant_are_found: RepeatFault::AT_ONCE.map(Fault::Repeat),
        ["repeated grants in histories"];
    wrong_refusals_are_found: Fault::REFUSALS,
        ["edges of the arguments", "every counts vector", "histories", "damaged tables"];
    wrong_sizes_are_found: Fault::SIZES, ["edges of the sizes"];
    wrong_sizes_are_found_in_histories: Fault::SIZES, ["histories"];
    wrong_maps_are_found: Fault::MAPS, ["maps"];
    wrong_counts_are_found: Fault::COUNTS, ["counts of maps"];
    wrong_entries_are_found: Fault::ENTRIES, ["entries of tenants"];
    wrong_entries_are_found_beside_calls: Fault::ENTRIES, ["edges of the arguments", "histories"];
    wrong_levels_of_pages_are_found: Fault::LEVELS, ["levels of pages"];
    wrong_levels_of_pages_are_found_beside_calls: Fault::LEVELS, ["edges of the arguments"];
    wrong_pages_of_nodes_are_found: Fault::NODES, ["pages of nodes"];
    wrong_readings_and_writings_are_found: Fault::JOURNALS, ["journal records", "journals"];
    wrong_listings_are_found: Fault::LISTINGS, ["journals"];
    /// Histories alone are enough as well, without the start from a prepared table.
    wrong_places_are_found_in_histories: Fault::PLACES, ["histories"];
    wrong_lists_are_found_in_histories: ListFault::ON_RESERVES.map(Fault::List), ["histories"];
    wrong_growths_are_found_in_histories: GrowthFault::ALL.map(Fault::Growth), ["histories"];
    wrong_repetitions_are_found_in_histories: RepeatFault::AT_ONCE.map(Fault::Repeat), ["histories"];
    wrong_second_grants_are_found_in_histories: RepeatFault::OF_OTHER_LEVELS.map(Fault::Repeat), ["histories"];
}

found! { Impatient::new,
    wrong_admissions_are_found: WaitingFault::CHOICES, ["every short line"];
    wrong_lines_are_found: WaitingFault::LINES_LEFT, ["every short line"];
    wrong_refusals_beside_a_line_are_found: WaitingFault::REFUSALS, ["every short line"];
    wrong_admissions_are_found_in_histories: WaitingFault::CHOICES, ["histories"];
    wrong_lines_are_found_in_histories: WaitingFault::LINES_LEFT, ["histories"];
    wrong_refusals_beside_a_line_are_found_in_histories: WaitingFault::REFUSALS, ["histories"];
    wrong_admissions_are_found_from_long_lines: WaitingFault::CHOICES, ["long lines"];
    wrong_lines_with_many_in_them_are_found: WaitingFault::LINES_LEFT, ["long lines"];
    mistakes_that_show_in_long_lines_are_found: WaitingFault::IN_HISTORIES, ["long lines"];
    /// Where a large image waits, each of these mistakes lets it in too early or too late.
    unfair_lines_are_found: WaitingFault::OF_LARGE_IMAGES, ["large images in line"];
    spoilt_lines_that_are_taken_are_found: WaitingFault::OVERLOOKED, ["damaged lines"];
    wrong_orders_of_refusals_are_found: WaitingFault::ORDERS, ["orders of refusals"];
    wrong_lengths_of_lines_are_found: WaitingFault::LENGTHS, ["edges of the arguments"];
}

/// The driver respects how far a door reaches.
#[test]
fn no_number_is_handed_over_that_the_door_cannot_take() {
    let amounts = Amounts {
        tallest_for_all_counts: 2,
        tallest_for_all_lines: 1,
        calls_in_histories: 4_000,
        full_reserves: 200,
        long_lines: 52,
        ..Amounts::quick(25)
    };
    let (tally, report) = reported(&mut Narrow, &amounts);
    assert_eq!(tally, Tally { passed: 24, failed: 0 }, "{report}");
}

#[test]
fn shortening_leaves_only_what_is_needed() {
    let numbers: Vec<u32> = (0..100).collect();
    let mut tried = 0;
    let short = shorten(&numbers, |rest| {
        tried += 1;
        rest.contains(&3) && rest.contains(&77)
    });
    assert_eq!(short, [3, 77]);
    assert!(tried < 100, "{tried} tries");
    assert_eq!(shorten(&numbers, |_| true), []);
}

/// Calls that only fail together are all kept.
#[test]
fn shortening_never_loses_the_failure() {
    let numbers: Vec<u32> = (0..40).collect();
    let fails = |rest: &[u32]| rest.iter().sum::<u32>() >= 300;
    let short = shorten(&numbers, fails);
    assert!(fails(&short));
    for left_out in 0..short.len() {
        let mut less = short.clone();
        less.remove(left_out);
        assert!(!fails(&less));
    }
}

/// With a growth or an admit there may be two blocks of a size after three calls, none of which can be left out.
fn with_grants_and_releases_alone(mut history: History) -> History {
    history
        .calls
        .retain(|call| call.request.is_grant() || matches!(call.request, Request::Release { .. }));
    history
}

/// A mistake that takes three calls to come out is shown in three calls.
#[test]
fn a_failing_history_is_shown_short() {
    let mut random = Random::new(23);
    let reach = Oracle.reach();
    let long = (0..)
        .map(|_| with_grants_and_releases_alone(history(&mut random, reach, 6, 200).0))
        .find(|history| same_history(&mut ThirdOfItsSize, history).is_err_and(|failure| failure.call > 20))
        .expect("a history that fails late");
    let short = shorten(&long.calls, |calls| {
        let mut history = long.clone();
        history.calls = calls.to_vec();
        same_history(&mut ThirdOfItsSize, &history).is_err()
    });
    assert_eq!(short.len(), 3, "{short:?}");
    assert!(short.iter().all(|call| call.request.is_grant()), "{short:?}");
}

#[test]
fn a_finding_names_the_seed_and_the_calls() {
    let amounts = Amounts {
        tallest_for_all_counts: 0,
        tallest_for_all_lines: 0,
        journals: 0,
        damaged_lines: 0,
        ..Amounts::quick(24)
    };
    let (tally, report) = reported(&mut ThirdOfItsSize, &amounts);
    assert!(tally.failed >= 2, "{report}");
    let part = report
        .split("\nhistories: different, seed 24\n")
        .nth(1)
        .expect("a finding");
    let lines: Vec<&str> = part.lines().collect();
    assert!(lines[0].starts_with("  open height "), "{report}");
    let calls = lines[1..]
        .iter()
        .take_while(|line| !line.starts_with("  call "))
        .count();
    assert!((3..=5).contains(&calls), "{report}");
    assert!(
        lines[1 + calls].starts_with(&format!("  call {calls}: the reply is ")),
        "{report}"
    );
}

/// Two pages hold no three blocks of one page, so height 2 is the smallest tree for these.
#[test]
fn a_failing_history_is_shown_on_the_smallest_tree() {
    let level = 0;
    let grant = |tenant| Request::GrantLevel { tenant, level };
    let between = [
        Request::Join { tenant: 9, level },
        Request::Admit,
        Request::Release { tenant: 9 },
    ];
    let requests = [&[grant(5), grant(6)], &between[..], &[grant(7), grant(8)]].concat();
    let long = History::of_requests(6, &requests);
    let failure = same_history(&mut ThirdOfItsSize, &long).expect_err("a third of its size");
    let short = shortened(&mut ThirdOfItsSize, &long, &failure);
    let left: Vec<Request> = short.calls.iter().map(|call| call.request).collect();
    assert_eq!((short.height, left), (2, vec![grant(5), grant(6), grant(7)]));
}

/// A list as it is told in a listing.
fn told(list: &[Move]) -> String {
    let tell = |step: &Move| {
        let sign = if step.staged { '=' } else { '>' };
        format!("{}:{}{sign}{}", step.tenant, step.old, step.new)
    };
    list.iter().map(tell).collect::<Vec<String>>().join(" ")
}

/// Runs a check on the tables of a mistake's example, with its right list and its wrong one as they are told.
fn with_example(fault: ListFault, check: impl FnOnce(Tables, &str, &str)) {
    let (height, nodes, right, wrong) = fault.example();
    let (before, after): (Vec<Node>, Vec<Node>) = nodes.iter().copied().unzip();
    let tables = Tables {
        tree: Tree::new(height),
        before: &before,
        after: &after,
    };
    check(tables, right, wrong);
}

fn every_list_fault() -> impl Iterator<Item = ListFault> {
    let on_reserves = ListFault::ON_RESERVES.into_iter().chain(ListFault::ON_GROWTHS);
    on_reserves.chain(ListFault::ON_OTHER_MOVERS)
}

/// So none of them goes untried, whether or not a reserve can show it.
#[test]
fn each_wrong_list_shows_on_movers_made_up_by_hand() {
    for fault in every_list_fault() {
        with_example(fault, |tables, right, wrong| {
            assert_eq!(told(&tables.right_list()), right, "{fault:?}");
            assert_eq!(told(&fault.list(tables)), wrong, "{fault:?}");
        });
    }
}

/// Whoever works through a wrong list comes upon the mistake, unless it is only about who should be staged.
#[test]
fn wrong_lists_are_noticed_while_they_are_carried_out() {
    let stage_others = [
        ListFault::EverybodyStaged,
        ListFault::FewestTenantsBeforePages,
        ListFault::TenantsNotCounted,
        ListFault::LaterOfTwoEqualSets,
        ListFault::ReleasedBlockInTheWay,
        ListFault::NewcomerBeforeTheOthers,
    ];
    let is_fine = |tables: Tables, list: &[Move]| {
        staged_come_last(list) && carry_out(tables.tree, tables.before, tables.after, list).is_ok()
    };
    for fault in every_list_fault() {
        with_example(fault, |tables, _, _| {
            assert!(is_fine(tables, &tables.right_list()), "{fault:?}");
            assert_eq!(
                is_fine(tables, &fault.list(tables)),
                stage_others.contains(&fault),
                "{fault:?}"
            );
        });
    }
}

/// Most mistakes are planted in a search that looks at no pages. Without one it finds the lists that are right.
#[test]
fn who_waits_for_whom_decides_as_the_pages_do() {
    let mut random = Random::new(26);
    for round in 0..20_000 {
        let made_up = MadeUp::draw(&mut random, Tree::new(2 + round % 4));
        let tables = Tables {
            tree: made_up.tree,
            before: &made_up.before,
            after: &made_up.after,
        };
        assert_eq!(tables.list_by_waits(), tables.right_list(), "{tables:?}");
    }
}
