//! An input as a programme: what its bytes have both planners do.

use std::fmt::{self, Display};

use oracle::book::Book;
use oracle::compare::{same_count, same_history, same_pages, same_readings, same_written, shortened, Failure};
use oracle::definitions::{Node, Tree};
use oracle::generate::{History, Start};
use oracle::journal::{Reading, Record, LONGEST};
use oracle::page_map::MAP_BYTES;
use oracle::shrink::shorten;
use oracle::subject::{Oracle, Subject, MOVE_BYTES};

use crate::bytes::Bytes;
use crate::spoilt::Spoilt;
use crate::tape::{Known, Tape};

/// Longer journals are read this far from either end only.
const NEAR_AN_END: usize = 1024;

/// The lengths of maps worth trying besides the one that suffices.
pub const MAP_LENGTHS: [usize; 6] = [0, 1, MAP_BYTES - 1, MAP_BYTES + 1, MAP_BYTES + 8, 2 * MAP_BYTES];

pub enum Programme {
    /// Calls from an opening or from a table and a line in order, with the book kept beside them.
    History(History),
    Spoilt(Spoilt),
    /// A journal to read at its offsets.
    Journal(Bytes),
    /// A map to count.
    Map(Bytes),
    /// Records to write, each into bytes of a length.
    Records(Vec<(Record, usize)>),
    /// Heights, each with a number whose pages are asked.
    Nodes(Vec<(u32, Node)>),
}

impl Programme {
    pub fn decode(input: &[u8]) -> Self {
        let mut tape = Tape::new(input);
        match tape.below(11) {
            0..=2 => Programme::History(history(&mut tape)),
            3 | 4 => Programme::Spoilt(Spoilt::with_table(&mut tape)),
            5 => Programme::Journal(journal(tape)),
            6 => Programme::Map(Bytes {
                length: Some(tape.mostly(MAP_BYTES, &MAP_LENGTHS)),
                period: tape.rest().to_vec(),
            }),
            7 => Programme::Records(records(&mut tape)),
            8 => Programme::Nodes(nodes(&mut tape)),
            9 => Programme::History(history_beside_a_line(&mut tape)),
            _ => Programme::Spoilt(Spoilt::with_line(&mut tape)),
        }
    }

    /// Carries it out on both planners.
    pub fn run(&self, subject: &mut dyn Subject) -> Result<(), String> {
        match self {
            Programme::History(history) => told(same_history(subject, history)),
            Programme::Spoilt(spoilt) => told(spoilt.run(subject)),
            Programme::Journal(bytes) => same_journal(subject, &bytes.whole()),
            Programme::Map(bytes) => same_count(subject, &bytes.whole()),
            Programme::Records(records) => same_records(subject, records),
            Programme::Nodes(nodes) => same_nodes(subject, nodes),
        }
    }

    /// With all parts left out that a difference does not need.
    pub fn shortened(self, subject: &mut dyn Subject) -> Self {
        match self {
            Programme::History(history) => Programme::History(match same_history(subject, &history) {
                Err(failure) => shortened(subject, &history, &failure),
                Ok(_) => history,
            }),
            Programme::Spoilt(spoilt) => Programme::Spoilt(spoilt.shortened(subject)),
            Programme::Journal(bytes) => {
                Programme::Journal(bytes.shortened(|journal| same_journal(subject, journal).is_err()))
            }
            Programme::Map(bytes) => Programme::Map(bytes.shortened(|map| same_count(subject, map).is_err())),
            Programme::Records(records) => {
                Programme::Records(shorten(&records, |records| same_records(subject, records).is_err()))
            }
            Programme::Nodes(nodes) => Programme::Nodes(shorten(&nodes, |nodes| same_nodes(subject, nodes).is_err())),
        }
    }
}

fn told<T>(result: Result<T, Failure>) -> Result<(), String> {
    result.map(drop).map_err(|failure| failure.to_string())
}

fn same_journal(subject: &mut dyn Subject, journal: &[u8]) -> Result<(), String> {
    same_readings(subject, journal, offsets(journal.len()))
}

fn same_records(subject: &mut dyn Subject, records: &[(Record, usize)]) -> Result<(), String> {
    records.iter().try_for_each(|(record, length)| {
        same_written(subject, record, *length).map_err(|finding| format!("{record:?} into {length} bytes: {finding}"))
    })
}

fn same_nodes(subject: &mut dyn Subject, nodes: &[(u32, Node)]) -> Result<(), String> {
    nodes
        .iter()
        .try_for_each(|&(height, node)| same_pages(subject, height, node))
}

impl Display for Programme {
    fn fmt(&self, f: &mut fmt::Formatter) -> fmt::Result {
        match self {
            Programme::History(history) => write!(f, "{history}"),
            Programme::Spoilt(spoilt) => write!(f, "{spoilt}"),
            Programme::Journal(bytes) => {
                write!(f, "  read a journal of {bytes}")?;
                show_readings(f, &bytes.whole())
            }
            Programme::Map(bytes) => write!(f, "  count a map of {bytes}"),
            Programme::Records(records) => records
                .iter()
                .try_for_each(|(record, length)| writeln!(f, "  write {record:?} into {length} bytes")),
            Programme::Nodes(nodes) => nodes
                .iter()
                .try_for_each(|(height, node)| writeln!(f, "  pages of node {node} at height {height}")),
        }
    }
}

fn history(tape: &mut Tape) -> History {
    let tree = tape.tree();
    let start = tape.holders(tree).map(|holders| Start::held_by(&holders));
    history_from(tape, tree, start)
}

fn history_beside_a_line(tape: &mut Tape) -> History {
    let tree = tape.tree();
    let start = tape.start(tree);
    history_from(tape, tree, Some(start))
}

fn history_from(tape: &mut Tape, tree: Tree, start: Option<Start>) -> History {
    let mut book = match &start {
        None => Book::new(tree),
        Some(start) => start.book(tree),
    };
    let mut calls = Vec::new();
    while !tape.is_at_end() {
        let known = Known {
            holders: book.holders(),
            waiting: book.waiting(),
        };
        let call = tape.call(tree, &known);
        let due = book.due(call.request, call.move_bytes / MOVE_BYTES);
        book.enter(call.request, due);
        calls.push(call);
    }
    History {
        height: tree.height(),
        start,
        calls,
    }
}

/// The rest of the tape as it stands or, now and then, repeated to about the longest journal that there may be.
fn journal(mut tape: Tape) -> Bytes {
    let length = match tape.byte() {
        byte @ 240.. => Some(LONGEST - 8 + usize::from(byte - 240)),
        _ => None,
    };
    Bytes {
        period: tape.rest().to_vec(),
        length,
    }
}

fn records(tape: &mut Tape) -> Vec<(Record, usize)> {
    let mut records = Vec::new();
    while !tape.is_at_end() {
        let kind = tape.below(8);
        let length = tape.below(8) as usize;
        let record = match kind {
            0 => Record::Open { height: tape.byte() },
            1 => Record::GrantLevel {
                tenant: tape.word(),
                level: tape.byte(),
            },
            2 => Record::GrantPages {
                tenant: tape.word(),
                pages: tape.word(),
            },
            3 => Record::Release { tenant: tape.word() },
            4 => Record::Grow {
                tenant: tape.word(),
                level: tape.byte(),
            },
            5 => Record::Join {
                tenant: tape.word(),
                level: tape.byte(),
            },
            6 => Record::Admit,
            _ => Record::Withdraw { tenant: tape.word() },
        };
        records.push((record, length));
    }
    records
}

fn nodes(tape: &mut Tape) -> Vec<(u32, Node)> {
    let mut nodes = Vec::new();
    while !tape.is_at_end() {
        let height = tape.byte().into();
        nodes.push((height, tape.word()));
    }
    nodes
}

fn offsets(length: usize) -> Vec<usize> {
    let near_an_end = |offset: &usize| *offset <= NEAR_AN_END || length - offset <= NEAR_AN_END;
    let past_the_end = [length + 1, length + 2, LONGEST, LONGEST + 1, usize::MAX];
    (0..=length).filter(near_an_end).chain(past_the_end).collect()
}

/// The records of a journal from its front on, as the second planner reads them, to the first that is refused.
fn show_readings(f: &mut fmt::Formatter, journal: &[u8]) -> fmt::Result {
    let mut offset = 0;
    while offset < NEAR_AN_END {
        match Oracle.read(journal, offset) {
            Reading::Record { record, next } => {
                writeln!(f, "  {offset}: {record:?}")?;
                offset = next;
            }
            Reading::Refused { number, offset } => return writeln!(f, "  {offset}: refused, {number}"),
            Reading::End => return Ok(()),
        }
    }
    Ok(())
}
