//! Reserves on which single calls are made.

use super::calls::{check_one, same_call, Same};
use super::State;
use crate::book::{Book, Told};
use crate::definitions::{Node, Tree};
use crate::generate::{seat, Call, Start};
use crate::subject::{Subject, MOVE_BYTES};

/// A reserve with the tenants that are there.
pub struct Reserve {
    pub tree: Tree,
    pub start: Start,
    pub table: Vec<Node>,
    pub state: State,
    book: Book,
}

impl Reserve {
    pub fn new(tree: Tree, start: Start) -> Self {
        let table = seat(tree, &start.holders);
        Reserve {
            tree,
            state: State::of(&table, &start.waiting),
            book: Book::of_reserve(tree, &table, &start.waiting),
            start,
            table,
        }
    }

    /// What a call has to tell by the book.
    pub fn due(&self, call: &Call) -> Told {
        self.book.due(call.request, call.move_bytes / MOVE_BYTES)
    }

    /// Makes a call with both planners. One that comes out different is shown with as few tenants as it takes.
    pub fn same(&self, subject: &mut dyn Subject, call: Call) -> Result<Same, String> {
        same_call(subject, self.tree.height(), &self.state, &call).map_err(|finding| {
            let shown = check_one(subject, self.tree.height(), &self.start, call);
            shown.err().unwrap_or(finding)
        })
    }

    /// The same, and what both tell is held against the book.
    pub fn check(&self, subject: &mut dyn Subject, call: Call) -> Result<(), String> {
        let told = Told::from(self.same(subject, call)?.reply);
        let due = self.due(&call);
        ensure!(
            told == due,
            "  height {}, {}\n  {call}: both tell {told:?}, and by the book {due:?} is due",
            self.tree.height(),
            self.start
        );
        Ok(())
    }
}
