//! What one call hands on to the next.

use std::fmt;

use crate::definitions::{Node, Tree};
use crate::generate::{seat, Start};
use crate::line::{self, Waiting};
use crate::subject::{line_from, line_image, table_from, table_image, LINE_BYTES, TABLE_BYTES};

/// The images of a table and of a line.
#[derive(Clone, Debug, PartialEq, Eq)]
pub struct State {
    pub table: Vec<u8>,
    pub line: Vec<u8>,
}

impl State {
    pub fn of(table: &[Node], line: &[Waiting]) -> Self {
        State {
            table: table_image(table),
            line: line_image(&line::numbers(line)),
        }
    }

    pub fn at_start(tree: Tree, start: &Start) -> Self {
        State::of(&seat(tree, &start.holders), &start.waiting)
    }

    /// A table beside which nobody waits.
    pub fn without_line(table: &[Node]) -> Self {
        State::of(table, &[])
    }

    /// The nodes in the table.
    pub fn nodes(&self) -> Vec<Node> {
        table_from(&self.table)
    }

    /// The numbers in the line.
    pub fn numbers(&self) -> Vec<u16> {
        line_from(&self.line)
    }
}

impl fmt::Display for State {
    fn fmt(&self, f: &mut fmt::Formatter) -> fmt::Result {
        match self.table.len() {
            TABLE_BYTES => {
                write!(f, "table (tenant:node)")?;
                for (tenant, node) in self.nodes().into_iter().enumerate().filter(|&(_, node)| node != 0) {
                    write!(f, " {tenant}:{node}")?;
                }
            }
            length => write!(f, "a table of {length} bytes")?,
        }
        match self.line.len() {
            LINE_BYTES => {
                let numbers = self.numbers();
                match numbers.iter().rposition(|&number| number != 0) {
                    Some(last) => write!(f, ", line {:?} and zeros", &numbers[..=last]),
                    None => Ok(()),
                }
            }
            length => write!(f, ", a line of {length} bytes"),
        }
    }
}
