//! The second planner at the command line.

use std::env;
use std::io::{self, Read, Write};
use std::path::PathBuf;
use std::process::ExitCode;

use oracle::compare::conversions::{self, Converter, Left};
use oracle::compare::{self, Amounts, Tally};
use oracle::convert;
use oracle::definitions::{Counts, Tree, TALLEST};
use oracle::lifting;
use oracle::listing;
use oracle::program;
use oracle::subject::Oracle;

const USAGE: &str = "\
oracle list                    lists the journal on standard input
oracle convert                 converts the journal on standard input: each grant of 0 pages becomes one of level 0
oracle layout HEIGHT COUNT..   the safe layout for so many blocks at levels 0, 1, ..
oracle compare [SEED [TIMES]]  runs the driver, with TIMES times the usual amount
oracle conversions CONVERT_PAGES LISTING [SEED [TIMES]]
                               compares the two programs' conversions and listings of old journals";

fn main() -> ExitCode {
    let arguments: Vec<String> = env::args().skip(1).collect();
    let words: Vec<&str> = arguments.iter().map(String::as_str).collect();
    let done = match words[..] {
        ["list"] => list(),
        ["convert"] => convert(),
        ["layout", height, ref counts @ ..] => layout(height, counts),
        // Until another planner is put behind the door, the second one stands on both sides of it.
        ["compare", ref numbers @ ..] if numbers.len() <= 2 => {
            compare::command(Oracle, numbers).map(|tally| tally.failed == 0)
        }
        ["conversions", converter, listing, ref numbers @ ..] if numbers.len() <= 2 => {
            conversions(converter, listing, numbers)
        }
        _ => Err(USAGE.into()),
    };
    match done {
        Ok(true) => ExitCode::SUCCESS,
        Ok(false) => ExitCode::FAILURE,
        Err(error) => {
            eprintln!("{error}");
            ExitCode::from(2)
        }
    }
}

/// Whether all went well, or why the command could not be run.
type Done = Result<bool, Box<dyn std::error::Error>>;

fn journal_on_standard_input() -> io::Result<Vec<u8>> {
    let mut journal = Vec::new();
    io::stdin().lock().read_to_end(&mut journal)?;
    Ok(journal)
}

fn list() -> Done {
    io::stdout()
        .lock()
        .write_all(&listing::list(&journal_on_standard_input()?))?;
    Ok(true)
}

fn convert() -> Done {
    match convert::convert(&journal_on_standard_input()?) {
        Ok(converted) => {
            io::stdout().lock().write_all(&converted)?;
            Ok(true)
        }
        Err(stop) => {
            eprintln!("refusal {} at offset {}", stop.number, stop.offset);
            Ok(false)
        }
    }
}

/// The two programs that are compared.
struct Programs {
    converter: PathBuf,
    listing: PathBuf,
}

impl Converter for Programs {
    fn convert(&mut self, journal: &[u8]) -> Left {
        let output = program::run(&self.converter, journal);
        Left {
            out: output.stdout,
            error: output.stderr,
        }
    }

    fn list(&mut self, journal: &[u8]) -> Vec<u8> {
        program::run(&self.listing, journal).stdout
    }
}

fn conversions(converter: &str, listing: &str, numbers: &[&str]) -> Done {
    let mut programs = Programs {
        converter: converter.into(),
        listing: listing.into(),
    };
    let amounts = Amounts::from_arguments(numbers)?;
    let Tally { passed, failed } = conversions::run(&mut programs, &amounts, &mut io::stdout())?;
    println!("{passed} passed, {failed} failed");
    Ok(failed == 0)
}

fn layout(height: &str, numbers: &[&str]) -> Done {
    let height: u32 = height.parse()?;
    let mut counts = Counts::default();
    if height > TALLEST || numbers.len() > counts.len() {
        return Err(USAGE.into());
    }
    for (count, number) in counts.iter_mut().zip(numbers) {
        *count = number.parse()?;
    }
    let nodes = lifting::layout(Tree::new(height), &counts);
    match &nodes {
        Some(nodes) => println!("{nodes:?}"),
        None => println!("no room"),
    }
    Ok(nodes.is_some())
}
