//! Lines that are spoilt or of the wrong length, and calls for which more than one refusal applies.

use crate::compare::calls::same_call;
use crate::compare::spoilt::{requests_from, Spoilt};
use crate::compare::{Amounts, State};
use crate::definitions::{Node, Tree, TALLEST};
use crate::generate::{any_fill, seat, Call, Damage, LineDamage, Start};
use crate::line::{self, Waiting, MOST_PASSED, MOST_WAITING};
use crate::planner::{Request, TENANTS};
use crate::random::Random;
use crate::subject::{fewest_move_bytes, line_image, table_image, Subject, LINE_BYTES, MOVE_BYTES, TABLE_BYTES};

/// Spoilt lines of all lengths at all heights, with calls of every kind. Whether a line is refused is held against the papers'
/// words, number by number; a release and a growth are given none.
pub fn damaged_lines(subject: &mut dyn Subject, amounts: &Amounts, random: &mut Random) -> Result<usize, String> {
    let mut comparisons = 0;
    for round in 0..amounts.damaged_lines {
        let tree = Tree::new(round as u32 % (TALLEST + 1));
        let counts = any_fill(random, tree);
        let number = random.pick(&[0, 1, 2, 3, 20, MOST_WAITING - 1, MOST_WAITING]);
        let start = Start::draw(random, tree, &counts, number);
        let table = seat(tree, &start.holders);
        let mut line = line::numbers(&start.waiting);
        let damage = LineDamage::ALL[round / (TALLEST as usize + 1) % LineDamage::ALL.len()];
        if !damage.inflict(random, tree, &table, &mut line) {
            continue;
        }
        let spoilt = Spoilt::new(tree, &table, &line);
        let holders = start.holders.iter().map(|holder| holder.tenant);
        let waiting = start.waiting.iter().map(|waiting| waiting.tenant);
        let known: Vec<u32> = holders.chain(waiting).map(u32::from).collect();
        for request in requests_from(random, tree, &known) {
            spoilt.check(subject, request)?;
            comparisons += 1;
        }
    }
    Ok(comparisons)
}

/// Every combination of what can be wrong with the height, the table, the line, the list, the tenant and the size.
pub fn orders_of_refusals(subject: &mut dyn Subject, _: &Amounts, random: &mut Random) -> Result<usize, String> {
    let mut comparisons = 0;
    for tree in (1..=TALLEST).map(Tree::new) {
        // One block of each level but the largest leaves a page, so there is room for one size and not for others.
        let mut counts = [0; TALLEST as usize + 1];
        counts[..tree.height() as usize].fill(1);
        let start = Start::draw(random, tree, &counts, 3);
        for state in states(random, tree, &start) {
            for call in calls(tree, &start) {
                for height in [tree.height(), TALLEST + 1] {
                    let place = |finding| format!("  height {height}, {state}\n  {call}: {finding}");
                    same_call(subject, height, &state, &call).map_err(place)?;
                    comparisons += 1;
                }
            }
        }
    }
    Ok(comparisons)
}

/// A table and a line, both in order, spoilt and too short, in all combinations.
fn states(random: &mut Random, tree: Tree, start: &Start) -> Vec<State> {
    let table = seat(tree, &start.holders);
    let mut spoilt = table.clone();
    Damage::PastTheTree.inflict(random, tree, &mut spoilt);
    let tables = [table_image(&table), table_image(&spoilt), vec![0; TABLE_BYTES - 1]];
    let mut lines = lines(start);
    lines.extend(spoilt_lines(random, tree, &table, start));
    lines.extend([0, LINE_BYTES - 2, LINE_BYTES - 1, LINE_BYTES + 1].map(|length| vec![0; length]));
    let beside = |table: Vec<u8>| {
        lines.iter().map(move |line| State {
            table: table.clone(),
            line: line.clone(),
        })
    };
    tables.into_iter().flat_map(beside).collect()
}

/// Lines in order: one in which nobody was passed, one in which somebody was eight times, and one with as many as can wait.
fn lines(start: &Start) -> Vec<Vec<u8>> {
    let mut patient = start.waiting.clone();
    patient.iter_mut().for_each(|waiting| waiting.passed = 0);
    let mut passed = patient.clone();
    passed[1].passed = MOST_PASSED;
    let mut full = patient.clone();
    full.extend(
        start
            .others()
            .into_iter()
            .map(|tenant| Waiting { tenant, ..patient[0] }),
    );
    full.truncate(MOST_WAITING);
    [patient, passed, full]
        .map(|line| line_image(&line::numbers(&line)))
        .to_vec()
}

/// The line with one number wrong, for each thing that can be.
fn spoilt_lines(random: &mut Random, tree: Tree, table: &[Node], start: &Start) -> Vec<Vec<u8>> {
    let mut spoilt = Vec::new();
    for damage in LineDamage::ALL {
        let mut line = line::numbers(&start.waiting);
        if damage.is_certain() && damage.inflict(random, tree, table, &mut line) {
            spoilt.push(line_image(&line));
        }
    }
    spoilt
}

/// Calls from somebody who holds a block, who waits, who does neither, and who is none of the tenants, for sizes that fit, that do
/// not, and that there are not; with lists that are long enough and not.
fn calls(tree: Tree, start: &Start) -> Vec<Call> {
    let others = start.others();
    // The last of the others waits in none of the lines.
    let tenants = [
        start.holders[0].tenant,
        start.waiting[0].tenant,
        others[others.len() - 1],
    ];
    let tenants = tenants.into_iter().map(u32::from).chain([TENANTS as u32]);
    let mut requests = vec![Request::Admit];
    for tenant in tenants {
        for level in [0, tree.height(), tree.height() + 1] {
            requests.push(Request::GrantLevel { tenant, level });
            requests.push(Request::Join { tenant, level });
        }
        requests.extend([0, 1, tree.pages_in_all()].map(|pages| Request::GrantPages { tenant, pages }));
        requests.push(Request::Withdraw { tenant });
    }
    let with_lists = |request: Request| {
        let enough = fewest_move_bytes(request);
        let too_short = enough.checked_sub(MOVE_BYTES);
        let lengths = [Some(enough), too_short].into_iter().flatten();
        lengths.map(move |move_bytes| Call { request, move_bytes })
    };
    requests.into_iter().flat_map(with_lists).collect()
}
