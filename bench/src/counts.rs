//! Instructions of calls, under callgrind.
//!
//! [`make_calls`] makes the calls and prints a line about each. Callgrind collects within the planners' functions
//! alone and writes a part of its file at each [`mark`]. [`read`] puts the lines and the parts together.

use std::error::Error;
use std::hint::black_box;

use oracle::subject::{LINE_BYTES, TABLE_BYTES};

use crate::contestant::{Contestant, Library, Same};
use crate::counting::{self, WAYS};
use crate::history::{counted, Counted};
use crate::input::{Ask, Lent, Map, Report};
use crate::pass::bare_pass;
use crate::rows::rows;

/// One call, and the instructions that it took.
#[derive(Clone, Debug)]
pub struct Count {
    /// `library`, `same`, `bytewise` or `pass`.
    pub who: String,
    /// `row` for a row of the calls, `map` for one of the maps, else `history`, `most-moves` or `growths`.
    pub set: String,
    /// The place of the row, or the height.
    pub place: usize,
    pub call: String,
    pub answer: u16,
    pub moves: u16,
    pub instructions: u64,
}

/// Makes every call once with each planner that is counted.
pub fn make_calls() {
    let rows = rows();
    let counted = counted();
    let maps = counting::rows();
    // Planners were asked up to here too, to find out what comes of the calls.
    mark();
    for (place, row) in rows.iter().enumerate() {
        for input in &row.inputs {
            both("row", place, input.height, input.ask, &input.lent);
        }
    }
    for Counted {
        height,
        most_moves,
        growths,
        history,
    } in counted
    {
        for (set, inputs) in [("most-moves", most_moves), ("growths", growths)] {
            for input in inputs {
                both(set, height.into(), height, input.ask, &input.lent);
            }
        }
        let mut lent = Lent::new([0; TABLE_BYTES], [0; LINE_BYTES]);
        for ask in history {
            lent = both("history", height.into(), height, ask, &lent);
        }
    }
    black_box(bare_pass(black_box(&[0; TABLE_BYTES])));
    mark();
    println!("pass row 0 pass 0 0");
    for (place, row) in maps.iter().enumerate() {
        for input in &row.inputs {
            every_way(place, &input.lent.map);
        }
    }
}

/// Goes over a map in every way.
fn every_way(place: usize, map: &Map) {
    for (who, way) in WAYS {
        way(black_box(map));
        mark();
        println!("{who} map {place} count 0 0");
    }
}

/// Puts a call to both planners, and gives the bytes that it leaves.
fn both(set: &str, place: usize, height: u16, ask: Ask, lent: &Lent) -> Lent {
    one::<Same>("same", set, place, height, ask, lent.clone());
    one::<Library>("library", set, place, height, ask, lent.clone())
}

fn one<C: Contestant>(who: &str, set: &str, place: usize, height: u16, ask: Ask, mut lent: Lent) -> Lent {
    let Report { answer, moves, .. } = ask.put_to::<C>(height, &mut lent);
    mark();
    println!("{who} {set} {place} {} {answer} {moves}", ask.name());
    lent
}

/// Ends a part of callgrind's file.
#[inline(never)]
fn mark() {
    black_box(());
}

/// The counts of a run: the lines that it printed, and callgrind's file.
pub fn read(lines: &str, file: &str) -> Result<Vec<Count>, Box<dyn Error>> {
    let lines: Vec<&str> = lines.lines().collect();
    let totals: Vec<&str> = file.lines().filter_map(|line| line.strip_prefix("totals: ")).collect();
    // The first part is what came before the first call, and the last what came after the last.
    if totals.len() != lines.len() + 2 {
        return Err(format!("callgrind wrote {} parts for {} calls", totals.len(), lines.len()).into());
    }
    let parts = lines.iter().zip(&totals[1..]);
    parts.map(|(line, total)| count(line, total)).collect()
}

fn count(line: &str, total: &str) -> Result<Count, Box<dyn Error>> {
    let words: Vec<&str> = line.split(' ').collect();
    let &[who, set, place, call, answer, moves] = words.as_slice() else {
        return Err(format!("no line about a call: {line}").into());
    };
    let instructions = total.trim().parse()?;
    if instructions == 0 {
        return Err(format!("callgrind counted nothing: {line}").into());
    }
    Ok(Count {
        who: who.into(),
        set: set.into(),
        place: place.parse()?,
        call: call.into(),
        answer: answer.parse()?,
        moves: moves.parse()?,
        instructions,
    })
}
