//! Grants to tenants that hold a block: all of them on small trees, some on every height, and histories in which every grant is
//! repeated.

use super::calls::same_history;
use super::edges::with_lengths_beside;
use super::journals::same_listing;
use super::lent::pattern;
use super::reserve::Reserve;
use super::spoilt::{show_table, Spoilt};
use super::{Amounts, State};
use crate::definitions::{Tree, TALLEST};
use crate::generate::{
    any_fill, holders_for, journal_with, pages_for, with_repetitions, Call, Damage, History, Holder, Start, Step,
};
use crate::line;
use crate::planner::Request;
use crate::random::Random;
use crate::refusal::DONE;
use crate::shrink::shorten;
use crate::subject::{Oracle, Reply, Subject};

/// Every counts vector of the small trees, with every grant to every holder: of every level, and of every number of pages.
pub fn every_grant(subject: &mut dyn Subject, amounts: &Amounts, random: &mut Random) -> Result<usize, String> {
    let mut comparisons = 0;
    for tree in (0..=amounts.tallest_for_all_counts).map(Tree::new) {
        let sizes: Vec<u32> = (0..=tree.pages_in_all()).collect();
        for counts in tree.every_fitting_counts() {
            let reserve = held_by(tree, holders_for(random, &counts));
            for holder in &reserve.start.holders {
                for request in grants(tree, holder.tenant.into(), &sizes) {
                    check(subject, &reserve, Call::with_shortest_list(request))?;
                    comparisons += 1;
                }
            }
        }
    }
    Ok(comparisons)
}

/// A grant of each level, and of one above the height, and a grant of each size.
fn grants(tree: Tree, tenant: u32, sizes: &[u32]) -> Vec<Request> {
    let by_level = (0..=tree.height() + 1).map(|level| Request::GrantLevel { tenant, level });
    let by_pages = sizes.iter().map(|&pages| Request::GrantPages { tenant, pages });
    by_level.chain(by_pages).collect()
}

fn held_by(tree: Tree, holders: Vec<Holder>) -> Reserve {
    Reserve::new(tree, Start::held_by(&holders))
}

fn one_of_each_level(reserve: &Reserve) -> Vec<Holder> {
    let mut chosen = reserve.start.holders.clone();
    chosen.dedup_by_key(|holder| holder.level);
    chosen
}

/// Puts a holder's grant to both planners. Whatever they answer, nothing changes; what is granted is the node that it has.
fn check(subject: &mut dyn Subject, reserve: &Reserve, call: Call) -> Result<(), String> {
    let same = reserve.same(subject, call)?;
    let answer = reserve.due(&call).answer;
    let node = match (answer, call.request.tenant()) {
        (DONE, Some(tenant)) => reserve.table[tenant as usize].into(),
        _ => 0,
    };
    let due = Reply {
        node,
        ..Reply::number(answer)
    };
    let as_lent = same.state == reserve.state && same.moves == pattern(call.move_bytes);
    ensure!(
        same.reply == due && as_lent,
        "{}: both reply {:?} to {call}, and {due:?} is due without any change",
        show_table(reserve.tree, &reserve.table),
        same.reply
    );
    Ok(())
}

/// So many reserves of each height, filled to any degree.
const FILLS: usize = 24;

/// Reserves of all heights with grants to a holder of each level: of every level, and of the sizes at which the level changes.
/// What it has is granted again with lists at and beside their bound, and after the table was spoilt.
pub fn on_all_heights(subject: &mut dyn Subject, _: &Amounts, random: &mut Random) -> Result<usize, String> {
    let mut comparisons = 0;
    for tree in (0..=TALLEST).map(Tree::new) {
        let mut sizes: Vec<u32> = tree.levels().flat_map(|level| [(1 << level) - 1, 1 << level]).collect();
        sizes.dedup();
        for _ in 0..FILLS {
            let counts = any_fill(random, tree);
            let reserve = held_by(tree, holders_for(random, &counts));
            for holder in one_of_each_level(&reserve) {
                let grants = grants(tree, holder.tenant.into(), &sizes).into_iter();
                let into_lists = repetitions(tree, holder).into_iter().flat_map(with_lengths_beside);
                for call in grants.map(Call::with_shortest_list).chain(into_lists) {
                    check(subject, &reserve, call)?;
                    comparisons += 1;
                }
            }
            comparisons += check_spoilt(subject, random, &reserve)?;
        }
    }
    Ok(comparisons)
}

/// Grants of the level that a tenant has: by the level, and by the fewest and the most pages that get it.
fn repetitions(tree: Tree, holder: Holder) -> Vec<Request> {
    let Holder { tenant, level } = holder;
    let tenant = tenant.into();
    let sizes = pages_for(tree, level);
    let by_pages = [sizes.first(), sizes.last()].into_iter().flatten();
    let by_pages = by_pages.map(|&pages| Request::GrantPages { tenant, pages });
    [Request::GrantLevel { tenant, level }]
        .into_iter()
        .chain(by_pages)
        .collect()
}

/// Spoils the table in every way, and has tenants ask for the level of the node that they have in it then.
fn check_spoilt(subject: &mut dyn Subject, random: &mut Random, reserve: &Reserve) -> Result<usize, String> {
    let tree = reserve.tree;
    let mut comparisons = 0;
    for damage in Damage::ALL {
        let mut table = reserve.table.clone();
        if !damage.inflict(random, tree, &mut table) {
            continue;
        }
        let spoilt = Spoilt::new(tree, &table, &line::EMPTY);
        for Holder { tenant, .. } in one_of_each_level(reserve) {
            let node = table[usize::from(tenant)];
            if !tree.nodes().contains(&node) {
                continue;
            }
            let level = tree.level(node);
            for request in repetitions(tree, Holder { tenant, level }) {
                spoilt.check(subject, request)?;
                comparisons += 1;
            }
        }
    }
    Ok(comparisons)
}

/// A history of so many requests has the longest journal. With its repetitions a request takes 19 bytes of it at most, so all of
/// them go into a journal.
const MOST_REQUESTS: usize = 3_000;

/// Where that history takes place.
const HEIGHT_FOR_MOST: u32 = 4;

/// Histories of all heights in which every grant is repeated at once.
pub fn in_histories(subject: &mut dyn Subject, amounts: &Amounts, random: &mut Random) -> Result<usize, String> {
    let mut comparisons = 0;
    for round in 0..amounts.repetitions {
        let height = round as u32 % (TALLEST + 1);
        let requests = 10 + random.index(40 + 10 * height as usize);
        comparisons += check_steps(subject, height, &with_repetitions(random, height, requests))?;
    }
    let many = with_repetitions(random, HEIGHT_FOR_MOST, MOST_REQUESTS);
    Ok(comparisons + check_steps(subject, HEIGHT_FOR_MOST, &many)?)
}

/// All requests of a history, those that repeat others among them.
fn with_all(steps: &[Step]) -> Vec<Request> {
    let with_its = |step: &Step| [&[step.request], &step.again[..]].concat();
    steps.iter().flat_map(with_its).collect()
}

/// Runs a history with its repetitions and without them, and shows a short one that fails if this one does.
fn check_steps(subject: &mut dyn Subject, height: u32, steps: &[Step]) -> Result<usize, String> {
    let Err(finding) = same_steps(subject, height, steps) else {
        return Ok(steps.len() + with_all(steps).len());
    };
    let short = shorten(steps, |steps| same_steps(subject, height, steps).is_err());
    let finding = same_steps(subject, height, &short).err().unwrap_or(finding);
    let history = History::of_requests(height, &with_all(&short));
    Err(format!("{history}  {finding}"))
}

/// The repetitions leave the table and the line that are left without them, and add nothing to the listing but their own lines.
fn same_steps(subject: &mut dyn Subject, height: u32, steps: &[Step]) -> Result<(), String> {
    let plain: Vec<Request> = steps.iter().map(|step| step.request).collect();
    let without = End::of(subject, height, &plain)?;
    let with = End::of(subject, height, &with_all(steps))?;
    ensure!(
        with.state == without.state,
        "without the repetitions table or line are others"
    );
    same_listing(
        without_repetitions(&with.listing, steps)?.as_bytes(),
        without.listing.as_bytes(),
    )
}

/// What a history comes to.
struct End {
    state: State,
    listing: String,
}

impl End {
    /// Runs requests from an opening on and lists them, with both planners.
    fn of(subject: &mut dyn Subject, height: u32, requests: &[Request]) -> Result<Self, String> {
        let history = History::of_requests(height, requests);
        let state = same_history(subject, &history).map_err(|failure| failure.to_string())?;
        let journal = journal_with(height as u8, requests);
        let listing = subject.list(&journal);
        same_listing(&listing, &Oracle.list(&journal))?;
        let listing = String::from_utf8(listing).map_err(|error| error.to_string())?;
        Ok(End { state, listing })
    }
}

/// A listing without the lines of the repetitions. Each of these has to tell the answer and the node of the line that it repeats,
/// and no moves.
fn without_repetitions(listing: &str, steps: &[Step]) -> Result<String, String> {
    let mut lines = (1..).zip(listing.lines());
    let mut kept: Vec<&str> = lines.next().map(|(_, open)| open).into_iter().collect();
    for step in steps {
        let (_, line) = lines.next().ok_or("a line is missing")?;
        kept.push(line);
        for &request in &step.again {
            let (ordinal, repeated) = lines.next().ok_or("the line of a repetition is missing")?;
            let due = repeated_line(ordinal, request, line);
            ensure!(
                repeated == due,
                "a repetition is listed as {repeated:?}, and {due:?} is due"
            );
        }
    }
    let rest = lines.map(|(_, line)| line);
    Ok((1..).zip(kept.into_iter().chain(rest)).map(numbered).collect())
}

/// The line of a grant that repeats the one of another line.
fn repeated_line(ordinal: usize, grant: Request, line: &str) -> String {
    let fields: Vec<&str> = line.split(' ').collect();
    let (answer, node) = (fields[4], fields[5]);
    match grant {
        Request::GrantLevel { tenant, level } => format!("{ordinal} G {tenant} {level} {answer} {node} 0"),
        Request::GrantPages { tenant, pages } => format!("{ordinal} P {tenant} {pages} {answer} {node} 0"),
        _ => panic!("{grant:?} is no grant"),
    }
}

/// A line of a listing with another ordinal.
fn numbered((ordinal, line): (usize, &str)) -> String {
    let (_, rest) = line.split_once(' ').unwrap_or(("", line));
    format!("{ordinal} {rest}\n")
}

#[cfg(test)]
mod tests {
    use super::{without_repetitions, Step};
    use crate::planner::Request;

    /// A grant by pages that moves somebody, repeated by pages and by level, and the release of another tenant.
    fn steps() -> [Step; 2] {
        let (tenant, level) = (1, 2);
        let by_pages = Request::GrantPages { tenant, pages: 3 };
        let granted = Step {
            request: by_pages,
            again: vec![by_pages, Request::GrantLevel { tenant, level }],
        };
        let released = Step {
            request: Request::Release { tenant: 7 },
            again: Vec::new(),
        };
        [granted, released]
    }

    #[test]
    fn lines_of_repetitions_are_left_out() {
        let listing = "1 O 3 - 0 - 0\n2 P 1 3 0 2 1 0:4>6\n3 P 1 3 0 2 0\n4 G 1 2 0 2 0\n5 R 7 - 9 - 0\n";
        let without = "1 O 3 - 0 - 0\n2 P 1 3 0 2 1 0:4>6\n3 R 7 - 9 - 0\n";
        assert_eq!(without_repetitions(listing, &steps()).as_deref(), Ok(without));
    }

    /// Moves that are told again, another node, another answer, a line too few.
    #[test]
    fn lines_that_do_not_repeat_are_found() {
        for wrong in [
            "3 P 1 3 0 2 1 0:4>6\n4 G 1 2 0 2 0\n",
            "3 P 1 3 0 6 0\n4 G 1 2 0 2 0\n",
            "3 P 1 3 8 - 0\n4 G 1 2 8 - 0\n",
            "3 G 1 2 0 2 0\n",
        ] {
            let listing = format!("1 O 3 - 0 - 0\n2 P 1 3 0 2 1 0:4>6\n{wrong}5 R 7 - 9 - 0\n");
            assert!(without_repetitions(&listing, &steps()).is_err(), "{wrong}");
        }
    }
}
