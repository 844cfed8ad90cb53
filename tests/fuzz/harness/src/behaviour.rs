//! What a planner did, as counters that the fuzzer reads beside those of the planner's code.
//!
//! A counter stands for a kind of call with its height and answer; for the list of an accepted call: the level of each
//! mover, in order, and whether it is staged; or for a line that a call leaves: about how many wait, and how often the one that
//! was passed most. An input that raises a new one is kept, so the search also goes for behaviour that runs no new code: a move
//! on one more level, a growth that moves seven, two movers in another order, a line that fills up, a tenant passed once more.

use std::hash::{DefaultHasher, Hash, Hasher};
use std::mem::discriminant;
use std::ptr::addr_of_mut;

use oracle::carrying::Move;
use oracle::definitions::{Node, Tree, TALLEST};
use oracle::journal::{Reading, Record};
use oracle::line::MOST_WAITING;
use oracle::planner::Request;
use oracle::refusal::DONE;
use oracle::subject::{line_from, moves_from, Count, Entry, Images, Level, Pages, Reach, Reply, Subject};

const COUNTERS: usize = 1 << 13;

// The fuzzer clears these before each input and reads them after it.
#[link_section = "__libfuzzer_extra_counters"]
static mut SEEN: [u8; COUNTERS] = [0; COUNTERS];

fn count(what: impl Hash) {
    let mut hasher = DefaultHasher::new();
    what.hash(&mut hasher);
    let place = hasher.finish() as usize % COUNTERS;
    // The fuzzer runs one input at a time, on one thread.
    unsafe {
        let counter = addr_of_mut!(SEEN[place]);
        *counter = (*counter).saturating_add(1);
    }
}

/// Stands for all grants, which have the same lists.
const ANY_GRANT: Request = Request::GrantLevel { tenant: 0, level: 0 };

/// A planner that is watched.
pub struct Watched<S>(pub S);

fn note_answer(height: u32, request: Request, answer: u32) {
    count((discriminant(&request), height.min(TALLEST + 1), answer));
}

fn note_line(line: &[u8], request: Request, answer: u32) {
    if let [waiting, triples @ ..] = line_from(line).as_slice() {
        let number = usize::from(*waiting).min(MOST_WAITING);
        let most_passed = triples.chunks_exact(3).take(number).map(|waiting| waiting[2]).max();
        count((discriminant(&request), answer, number.checked_ilog2(), most_passed));
    }
}

fn note_list(height: u32, moves: &[Move], request: Request) {
    let tree = Tree::new(height);
    let in_tree = |node: u16| (1..=tree.last_node()).contains(&node);
    let list: Vec<(u32, bool)> = moves
        .iter()
        .filter(|step| in_tree(step.old))
        .map(|step| (tree.level(step.old), step.staged))
        .collect();
    let kind = match request {
        Request::GrantPages { .. } | Request::Admit => ANY_GRANT,
        _ => request,
    };
    count((discriminant(&kind), list));
}

impl<S: Subject> Subject for Watched<S> {
    fn reach(&self) -> Reach {
        self.0.reach()
    }

    fn open(&mut self, height: u32, table: &mut [u8], line: &mut [u8]) -> u32 {
        self.0.open(height, table, line)
    }

    fn call(&mut self, lent: &mut Images, request: Request) -> Reply {
        let reply = self.0.call(lent, request);
        note_answer(lent.height, request, reply.answer);
        if request.takes_line() {
            note_line(lent.line, request, reply.answer);
        }
        if request.takes_list() && reply.answer == DONE && lent.height <= TALLEST {
            note_list(lent.height, &moves_from(lent.moves, reply.moves), request);
        }
        reply
    }

    fn look(&mut self, table: &[u8], tenant: u32) -> Entry {
        self.0.look(table, tenant)
    }

    fn level_of_pages(&mut self, height: u32, pages: u32) -> Level {
        self.0.level_of_pages(height, pages)
    }

    fn node_pages(&mut self, height: u32, node: Node) -> Pages {
        self.0.node_pages(height, node)
    }

    fn draw(&mut self, height: u32, table: &[u8], map: &mut [u8]) -> u32 {
        self.0.draw(height, table, map)
    }

    fn count(&mut self, map: &[u8]) -> Count {
        self.0.count(map)
    }

    fn read(&mut self, journal: &[u8], offset: usize) -> Reading {
        self.0.read(journal, offset)
    }

    fn write(&mut self, record: &Record, lent: &mut [u8]) -> u32 {
        self.0.write(record, lent)
    }

    fn list(&mut self, journal: &[u8]) -> Vec<u8> {
        self.0.list(journal)
    }
}
