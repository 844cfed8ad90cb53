//! All lines of up to three on low trees, with every call.

use crate::compare::reserve::Reserve;
use crate::compare::Amounts;
use crate::definitions::Tree;
use crate::generate::{holders_for, Call, Start};
use crate::line::{Waiting, MOST_PASSED};
use crate::planner::Request;
use crate::random::Random;
use crate::subject::Subject;

/// The counts at which something changes: of lines of three, those that have no others get every call, and the others one of
/// every kind.
const EDGES: [u32; 3] = [0, MOST_PASSED - 1, MOST_PASSED];

/// Every counts vector of the low trees, with every line of up to three: tenants that wait for any levels and were passed any
/// number of times. All calls are made that take a line: for somebody who waits, who holds a block, and who does neither.
pub fn every_short_line(subject: &mut dyn Subject, amounts: &Amounts, random: &mut Random) -> Result<usize, String> {
    let mut comparisons = 0;
    for tree in (0..=amounts.tallest_for_all_lines).map(Tree::new) {
        for counts in tree.every_fitting_counts() {
            let holders = holders_for(random, &counts);
            let mut others = Start::held_by(&holders).others();
            random.shuffle(&mut others);
            let newcomer = others[3];
            for waiting in every_line(tree, &others) {
                let few = waiting.len() < 3 || waiting.iter().all(|waiting| EDGES.contains(&waiting.passed));
                let requests_for = if few { every_request } else { one_of_every_kind };
                let start = Start {
                    holders: holders.clone(),
                    waiting,
                };
                let requests = requests_for(random, tree, &start, newcomer);
                let reserve = Reserve::new(tree, start);
                for request in requests {
                    reserve.check(subject, Call::with_shortest_list(request))?;
                    comparisons += 1;
                }
            }
        }
    }
    Ok(comparisons)
}

/// Every line of the first three tenants, of the first two, of the first, and of none.
fn every_line(tree: Tree, tenants: &[u16]) -> Vec<Vec<Waiting>> {
    let none = vec![Vec::new()];
    let one = one_more(tree, &none, tenants[0]);
    let two = one_more(tree, &one, tenants[1]);
    let three = one_more(tree, &two, tenants[2]);
    [none, one, two, three].concat()
}

/// Every one of some lines with a tenant more at its end.
fn one_more(tree: Tree, lines: &[Vec<Waiting>], tenant: u16) -> Vec<Vec<Waiting>> {
    let every_waiting = tree
        .levels()
        .flat_map(|level| (0..=MOST_PASSED).map(move |passed| Waiting { tenant, level, passed }));
    every_waiting
        .flat_map(|waiting| lines.iter().map(move |line| [&line[..], &[waiting]].concat()))
        .collect()
}

/// Every call that takes a line: from a newcomer, from one of the holders, and from those who wait.
fn every_request(random: &mut Random, tree: Tree, start: &Start, newcomer: u16) -> Vec<Request> {
    let newcomer = newcomer.into();
    let holder: Option<u32> = one_of(random, &start.holders).map(|holder| holder.tenant.into());
    let in_line: Option<u32> = one_of(random, &start.waiting).map(|waiting| waiting.tenant.into());
    let any_level = random.below(tree.height() + 1);
    let mut requests = vec![Request::Admit];
    for tenant in [Some(newcomer), holder, in_line].into_iter().flatten() {
        requests.extend(tree.levels().map(|level| Request::GrantLevel { tenant, level }));
        let pages = [0, random.below(tree.pages_in_all())];
        requests.extend(pages.map(|pages| Request::GrantPages { tenant, pages }));
    }
    for tenant in holder.into_iter().chain(in_line) {
        let level = any_level;
        requests.push(Request::Join { tenant, level });
    }
    let tenant = newcomer;
    requests.extend(tree.levels().map(|level| Request::Join { tenant, level }));
    let waiting = start.waiting.iter().map(|waiting| waiting.tenant.into());
    let leaving = waiting.chain(holder).chain([newcomer]);
    requests.extend(leaving.map(|tenant| Request::Withdraw { tenant }));
    requests
}

/// One of every kind of call that takes a line, each from anybody, for any level or number of pages.
fn one_of_every_kind(random: &mut Random, tree: Tree, start: &Start, newcomer: u16) -> Vec<Request> {
    let holder = one_of(random, &start.holders).map(|holder| holder.tenant);
    let waiting = start.waiting.iter().map(|waiting| waiting.tenant);
    let tenants: Vec<u32> = waiting.chain(holder).chain([newcomer]).map(u32::from).collect();
    let mut anybody = || random.pick(&tenants);
    let tenants = [anybody(), anybody(), anybody(), anybody()];
    let level = random.below(tree.height() + 1);
    let pages = random.below(tree.pages_in_all());
    vec![
        Request::GrantLevel {
            tenant: tenants[0],
            level,
        },
        Request::GrantPages {
            tenant: tenants[1],
            pages,
        },
        Request::Join {
            tenant: tenants[2],
            level,
        },
        Request::Admit,
        Request::Withdraw { tenant: tenants[3] },
    ]
}

fn one_of<T: Copy>(random: &mut Random, list: &[T]) -> Option<T> {
    (!list.is_empty()).then(|| random.pick(list))
}
