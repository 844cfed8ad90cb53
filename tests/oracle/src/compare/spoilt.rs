//! Tables and lines that may be spoilt.

use super::calls::{holders_and_others, same_call};
use super::maps::same_map;
use super::{Amounts, State};
use crate::audit::{is_in_order, is_line_in_order};
use crate::definitions::{Node, Tree, TALLEST};
use crate::generate::{any_fill, holders_for, seat, Call, Damage};
use crate::line;
use crate::planner::{Request, TENANTS};
use crate::random::Random;
use crate::refusal::Refusal;
use crate::shrink::shorten;
use crate::subject::{line_image, table_image, Subject};

/// A table and a line, and whether calls have to take them.
pub(super) struct Spoilt<'a> {
    tree: Tree,
    table: &'a [Node],
    line: &'a [u16],
    table_is_in_order: bool,
    line_is_in_order: bool,
}

impl<'a> Spoilt<'a> {
    pub fn new(tree: Tree, table: &'a [Node], line: &'a [u16]) -> Self {
        Spoilt {
            tree,
            table,
            line,
            table_is_in_order: is_in_order(tree, table),
            line_is_in_order: is_line_in_order(tree, table, line),
        }
    }

    /// The images with the nodes of another table.
    fn with_table(&self, table: &[Node]) -> State {
        State {
            table: table_image(table),
            line: line_image(self.line),
        }
    }

    /// Makes a call, and holds it against the definitions whether it is refused with 7. One that comes out different is shown with
    /// few entries.
    pub fn check(&self, subject: &mut dyn Subject, request: Request) -> Result<(), String> {
        let call = Call::with_shortest_list(request);
        let height = self.tree.height();
        let show = |table: &[Node], finding: String| {
            let state = self.with_table(table);
            format!("  height {height}, {state}\n  {call}: {finding}")
        };
        let mut answer = |table: &[Node]| -> Result<u32, String> {
            let same = same_call(subject, height, &self.with_table(table), &call)?;
            Ok(same.reply.answer)
        };
        let in_order = self.table_is_in_order && (self.line_is_in_order || !request.takes_line());
        match answer(self.table) {
            Ok(number) if in_order == (number == Refusal::Disorder.number()) => Err(show(
                self.table,
                format!("both answer {number}, and in order by the definitions is {in_order}"),
            )),
            Ok(_) => Ok(()),
            Err(_) => {
                let entries = self.table.iter().copied().enumerate();
                let entries: Vec<(usize, Node)> = entries.filter(|&(_, node)| node != 0).collect();
                let short = shorten(&entries, |entries| answer(&table_with(entries)).is_err());
                let table = table_with(&short);
                let finding = answer(&table).expect_err("a shortened failure fails");
                Err(show(&table, finding))
            }
        }
    }
}

/// Spoilt tables, with calls of every kind on them. Whether a table is refused is held against the definitions.
pub fn damaged_tables(subject: &mut dyn Subject, amounts: &Amounts, random: &mut Random) -> Result<usize, String> {
    let mut comparisons = 0;
    for round in 0..amounts.damaged_tables {
        let tree = Tree::new(round as u32 % (TALLEST + 1));
        let counts = any_fill(random, tree);
        let mut table = seat(tree, &holders_for(random, &counts));
        let damage = Damage::ALL[round / (TALLEST as usize + 1) % Damage::ALL.len()];
        if !damage.inflict(random, tree, &mut table) {
            continue;
        }
        let spoilt = Spoilt::new(tree, &table, &line::EMPTY);
        let (entered, _) = holders_and_others(&table);
        for request in requests_from(random, tree, &entered) {
            spoilt.check(subject, request)?;
            comparisons += 1;
        }
        same_map(subject, tree.height(), &State::without_line(&table).table, 512)
            .map_err(|finding| format!("{}: {finding}", show_table(tree, &table)))?;
        comparisons += 1;
    }
    Ok(comparisons)
}

/// A request of each kind, from somebody who is known or from anybody.
pub(super) fn requests_from(random: &mut Random, tree: Tree, known: &[u32]) -> [Request; 7] {
    let tenant = if known.is_empty() || random.one_in(2) {
        random.below(TENANTS as u32)
    } else {
        random.pick(known)
    };
    let level = random.below(tree.height() + 1);
    let pages = random.below(tree.pages_in_all());
    [
        Request::GrantLevel { tenant, level },
        Request::GrantPages { tenant, pages },
        Request::Release { tenant },
        Request::Grow { tenant, level },
        Request::Join { tenant, level },
        Request::Admit,
        Request::Withdraw { tenant },
    ]
}

/// The table in which the given tenants have the given nodes.
pub fn table_with(entries: &[(usize, Node)]) -> Vec<Node> {
    let mut table = vec![0; TENANTS];
    for &(tenant, node) in entries {
        table[tenant] = node;
    }
    table
}

/// A table in words.
pub fn show_table(tree: Tree, table: &[Node]) -> String {
    format!("  height {}, {}", tree.height(), State::without_line(table))
}
