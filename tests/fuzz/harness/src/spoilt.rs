//! Calls of any height on a table or a line that may be spoilt, lent in any length.

use std::fmt::{self, Display};

use oracle::compare::{same_call, same_map, same_opening, table_with, Failure, State};
use oracle::definitions::{Node, Tree};
use oracle::generate::{seat, Call};
use oracle::line::{self, LINE_NUMBERS};
use oracle::page_map::MAP_BYTES;
use oracle::planner::TENANTS;
use oracle::shrink::shorten;
use oracle::subject::{line_image, table_image, Subject, LINE_BYTES, TABLE_BYTES};

use crate::programme::MAP_LENGTHS;
use crate::tape::{Known, Tape};

/// Heights besides the one that the table was made for.
const HEIGHTS: [u32; 10] = [0, 1, 5, 11, 12, 13, 14, 256, 0x10c, 0xffff];

/// Lengths that no table has, and that no line has.
const TABLE_LENGTHS: [usize; 8] = [0, 1, 2, 4096, 8190, 8191, 8193, 8194];
const LINE_LENGTHS: [usize; 8] = [0, 1, 2, 193, 384, 385, 387, 388];

pub struct Spoilt {
    tree: Tree,
    table: Vec<Node>,
    line: Vec<u16>,
    steps: Vec<Step>,
}

#[derive(Clone, Copy)]
struct Step {
    height: u32,
    table_bytes: usize,
    line_bytes: usize,
    what: What,
}

#[derive(Clone, Copy)]
enum What {
    Open,
    Call(Call),
    Draw { map_bytes: usize },
}

impl Spoilt {
    /// A table with entries spoilt, beside which nobody waits.
    pub fn with_table(tape: &mut Tape) -> Self {
        let tree = tape.tree();
        let holders = tape.holders(tree).unwrap_or_default();
        let mut table = seat(tree, &holders);
        for _ in 0..tape.below(8) {
            spoil(tape, &mut table);
        }
        let steps = steps(tape, tree, &Known::in_table(&table, &[]), |tape| {
            (tape.mostly(TABLE_BYTES, &TABLE_LENGTHS), LINE_BYTES)
        });
        let line = line::EMPTY.to_vec();
        Spoilt {
            tree,
            table,
            line,
            steps,
        }
    }

    /// A table in order, and a line with numbers spoilt.
    pub fn with_line(tape: &mut Tape) -> Self {
        let tree = tape.tree();
        let start = tape.start(tree);
        let table = seat(tree, &start.holders);
        let known = Known::in_table(&table, &start.waiting);
        let mut line = line::numbers(&start.waiting);
        for _ in 0..tape.below(4) {
            spoil_line(tape, &known, &mut line);
        }
        let steps = steps(tape, tree, &known, |tape| {
            (TABLE_BYTES, tape.mostly(LINE_BYTES, &LINE_LENGTHS))
        });
        Spoilt {
            tree,
            table,
            line,
            steps,
        }
    }

    fn state(&self) -> State {
        State {
            table: table_image(&self.table),
            line: line_image(&self.line),
        }
    }

    pub fn run(&self, subject: &mut dyn Subject) -> Result<(), Failure> {
        run(subject, self.state(), &self.steps)
    }

    /// Fewer steps and fewer entries, as long as they fail.
    pub fn shortened(&self, subject: &mut dyn Subject) -> Self {
        let mut fails = |table: &[Node], steps: &[Step]| {
            let table = table_image(table);
            run(subject, State { table, ..self.state() }, steps).is_err()
        };
        let steps = shorten(&self.steps, |steps| fails(&self.table, steps));
        let held = |&(_, node): &(usize, Node)| node != 0;
        let entries: Vec<(usize, Node)> = self.table.iter().copied().enumerate().filter(held).collect();
        let entries = shorten(&entries, |entries| fails(&table_with(entries), &steps));
        Spoilt {
            tree: self.tree,
            table: table_with(&entries),
            line: self.line.clone(),
            steps,
        }
    }
}

/// Openings, drawings and other calls, on bytes of the lengths that are drawn for each.
fn steps(tape: &mut Tape, tree: Tree, known: &Known, lengths: impl Fn(&mut Tape) -> (usize, usize)) -> Vec<Step> {
    let mut steps = Vec::new();
    while !tape.is_at_end() {
        let what = match tape.below(8) {
            0 => What::Open,
            1 | 2 => What::Draw {
                map_bytes: tape.mostly(MAP_BYTES, &MAP_LENGTHS),
            },
            _ => What::Call(tape.call(tree, known)),
        };
        let height = tape.mostly(tree.height(), &HEIGHTS);
        let (table_bytes, line_bytes) = lengths(tape);
        steps.push(Step {
            height,
            table_bytes,
            line_bytes,
            what,
        });
    }
    steps
}

fn run(subject: &mut dyn Subject, mut state: State, steps: &[Step]) -> Result<(), Failure> {
    for (call, step) in (1..).zip(steps) {
        step.run(subject, &mut state)
            .map_err(|finding| Failure { call, finding })?;
    }
    Ok(())
}

/// Puts something else into a tenant's entry: a node nearby, nothing, somebody else's node, or any number.
fn spoil(tape: &mut Tape, table: &mut [Node]) {
    let pick = |tape: &mut Tape, table: &[Node]| tape.tenant(&Known::in_table(table, &[])) as usize % TENANTS;
    let tenant = pick(tape, table);
    let entry = table[tenant];
    table[tenant] = match tape.below(8) {
        0 => entry ^ 1,
        1 => entry.wrapping_add(1),
        2 => entry.wrapping_sub(1),
        3 => entry / 2,
        4 => entry.wrapping_mul(2),
        5 => 0,
        6 => table[pick(tape, table)],
        _ => tape.word(),
    };
}

/// Puts something else into a line: a number nearby, nothing, another number of the line, a tenant, or any number.
fn spoil_line(tape: &mut Tape, known: &Known, line: &mut [u16]) {
    let place = usize::from(tape.byte()) % LINE_NUMBERS;
    let number = line[place];
    line[place] = match tape.below(8) {
        0 => number ^ 1,
        1 => number.wrapping_add(1),
        2 => number.wrapping_sub(1),
        3 => 0,
        4 => line[usize::from(tape.byte()) % LINE_NUMBERS],
        5 | 6 => tape.tenant(known) as u16,
        _ => tape.word(),
    };
}

impl Step {
    fn run(&self, subject: &mut dyn Subject, state: &mut State) -> Result<(), String> {
        let mut lent = state.clone();
        lent.table.resize(self.table_bytes, 0);
        lent.line.resize(self.line_bytes, 0);
        let after = match self.what {
            What::Open => same_opening(subject, self.height, &lent)?,
            What::Call(call) => same_call(subject, self.height, &lent, &call)?.state,
            What::Draw { map_bytes } => {
                same_map(subject, self.height, &lent.table, map_bytes)?;
                lent
            }
        };
        if (self.table_bytes, self.line_bytes) == (TABLE_BYTES, LINE_BYTES) {
            *state = after;
        }
        Ok(())
    }
}

impl Display for Spoilt {
    fn fmt(&self, f: &mut fmt::Formatter) -> fmt::Result {
        writeln!(f, "  height {}, {}", self.tree.height(), self.state())?;
        self.steps.iter().try_for_each(|step| writeln!(f, "  {step}"))
    }
}

impl Display for Step {
    fn fmt(&self, f: &mut fmt::Formatter) -> fmt::Result {
        write!(
            f,
            "height {}, {} table bytes, {} line bytes: ",
            self.height, self.table_bytes, self.line_bytes
        )?;
        match self.what {
            What::Open => write!(f, "open"),
            What::Call(call) => write!(f, "{call}"),
            What::Draw { map_bytes } => write!(f, "draw, {map_bytes} map bytes"),
        }
    }
}
