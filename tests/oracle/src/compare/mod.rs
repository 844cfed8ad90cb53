//! The driver: asks a planner under test and the second planner the same things and compares every byte.
//!
//! A planner passes a part if all of it comes out the same. Everything made up on the way follows from one seed, and a
//! failing history is shortened before it is shown.

mod calls;
pub mod conversions;
mod edges;
mod growths;
mod journals;
mod lent;
mod lines;
mod maps;
mod nodes;
mod numbering;
mod questions;
mod repeats;
mod reserve;
mod spoilt;
mod state;

use std::error::Error;
use std::io::{self, Write};
use std::num::ParseIntError;
use std::sync::atomic::{AtomicUsize, Ordering};
use std::thread;

use crate::random::Random;
use crate::subject::Subject;

pub use calls::{same_call, same_history, same_opening, shortened, Failure, Same};
pub use journals::{same_readings, same_written};
pub use maps::{same_count, same_map};
pub use nodes::same_pages;
pub use spoilt::{show_table, table_with};
pub use state::State;

/// How much is tried, and from which seed.
#[derive(Clone, Debug)]
pub struct Amounts {
    pub seed: u64,
    /// Up to this height every counts vector is tried with every grant, release and growth, and every order of the movers' numbers.
    pub tallest_for_all_counts: u32,
    /// Calls in histories that begin with an opening.
    pub calls_in_histories: usize,
    /// Reserves that are full or nearly so from the start, each with a few calls.
    pub full_reserves: usize,
    pub damaged_tables: usize,
    pub maps: usize,
    pub journals: usize,
    /// Old journals that are converted.
    pub conversions: usize,
    /// Pairs of histories that end in the same holdings.
    pub pairs: usize,
    /// Histories in which every grant is repeated.
    pub repetitions: usize,
    /// Up to this height every counts vector is tried with every line of up to three.
    pub tallest_for_all_lines: u32,
    /// Histories with many in line.
    pub long_lines: usize,
    pub damaged_lines: usize,
}

impl Amounts {
    /// What a command's arguments `[SEED [TIMES]]` ask for.
    pub fn from_arguments(arguments: &[&str]) -> Result<Self, ParseIntError> {
        let seed = arguments.first().map_or(Ok(1), |seed| seed.parse())?;
        let times = arguments.get(1).map_or(Ok(1), |times| times.parse())?;
        Ok(Amounts::full(seed).times(times))
    }

    /// A few seconds' worth.
    pub fn quick(seed: u64) -> Self {
        Amounts {
            seed,
            tallest_for_all_counts: 4,
            calls_in_histories: 12_000,
            full_reserves: 800,
            damaged_tables: 1_500,
            maps: 300,
            journals: 500,
            conversions: 200,
            pairs: 60,
            repetitions: 26,
            tallest_for_all_lines: 2,
            long_lines: 260,
            damaged_lines: 1_300,
        }
    }

    /// What a change has to withstand.
    pub fn full(seed: u64) -> Self {
        Amounts {
            seed,
            tallest_for_all_counts: 5,
            calls_in_histories: 200_000,
            full_reserves: 6_000,
            damaged_tables: 20_000,
            maps: 3_000,
            journals: 3_000,
            conversions: 600,
            pairs: 600,
            repetitions: 130,
            tallest_for_all_lines: 3,
            long_lines: 2_600,
            damaged_lines: 20_000,
        }
    }

    /// So many times as much of everything that is drawn at random.
    pub fn times(mut self, factor: usize) -> Self {
        for amount in [
            &mut self.calls_in_histories,
            &mut self.full_reserves,
            &mut self.damaged_tables,
            &mut self.maps,
            &mut self.journals,
            &mut self.conversions,
            &mut self.pairs,
            &mut self.repetitions,
            &mut self.long_lines,
            &mut self.damaged_lines,
        ] {
            *amount *= factor;
        }
        self
    }
}

/// How many parts came out the same, and how many did not.
#[derive(Clone, Copy, Debug, Default, PartialEq, Eq)]
pub struct Tally {
    pub passed: usize,
    pub failed: usize,
}

/// One part of the comparison. It gives the number of comparisons, or what it found.
type Part = fn(&mut dyn Subject, &Amounts, &mut Random) -> Result<usize, String>;

const PARTS: [(&str, Part); 24] = [
    ("edges of the arguments", edges::edges),
    ("every counts vector", calls::every_counts),
    ("histories", calls::histories),
    ("full reserves", calls::full_reserves),
    ("damaged tables", spoilt::damaged_tables),
    ("pairs of histories", calls::pairs),
    ("maps", maps::maps),
    ("journal records", journals::records),
    ("journals", journals::journals),
    ("pages of nodes", nodes::nodes),
    ("edges of the sizes", edges::sizes),
    ("counts of maps", maps::counts),
    ("every growth", growths::every_growth),
    ("lists of growths", growths::lists),
    ("every grant to a holder", repeats::every_grant),
    ("grants to holders on all heights", repeats::on_all_heights),
    ("repeated grants in histories", repeats::in_histories),
    ("every short line", lines::every_short_line),
    ("long lines", lines::long_lines),
    ("damaged lines", lines::damaged_lines),
    ("orders of refusals", lines::orders_of_refusals),
    ("large images in line", lines::large_images),
    ("entries of tenants", questions::entries),
    ("levels of pages", questions::levels),
];

/// The random numbers of one part, the same whichever parts ran before.
fn random_for(amounts: &Amounts, part: usize) -> Random {
    Random::new(amounts.seed.wrapping_add(part as u64))
}

/// Runs all parts and reports on each in a line, or with what it found.
pub fn run(subject: &mut dyn Subject, amounts: &Amounts, report: &mut dyn Write) -> io::Result<Tally> {
    let results = PARTS
        .into_iter()
        .enumerate()
        .map(|(place, (name, part))| (name, part(subject, amounts, &mut random_for(amounts, place))));
    tell(results, amounts.seed, report)
}

/// Reports on each part as soon as its result is there.
fn tell(
    results: impl Iterator<Item = (&'static str, Result<usize, String>)>,
    seed: u64,
    report: &mut dyn Write,
) -> io::Result<Tally> {
    let mut tally = Tally::default();
    for (name, result) in results {
        match result {
            Ok(comparisons) => {
                tally.passed += 1;
                writeln!(report, "{name}: {comparisons} comparisons, seed {seed}")?;
            }
            Err(finding) => {
                tally.failed += 1;
                writeln!(report, "{name}: different, seed {seed}\n{finding}")?;
            }
        }
    }
    Ok(tally)
}

/// The results of all parts, of which two run at a time, each with a planner of its own. They are begun from the last one on,
/// since the longest is among the last.
fn two_at_a_time<S: Subject + Clone + Send>(
    subject: S,
    amounts: &Amounts,
) -> impl Iterator<Item = (&'static str, Result<usize, String>)> {
    let left = AtomicUsize::new(PARTS.len());
    let one_fewer = || left.fetch_update(Ordering::Relaxed, Ordering::Relaxed, |left| left.checked_sub(1));
    let work = |mut subject: S| {
        let mut results = Vec::new();
        while let Ok(left) = one_fewer() {
            let place = left - 1;
            let (name, part) = PARTS[place];
            let result = part(&mut subject, amounts, &mut random_for(amounts, place));
            results.push((place, name, result));
        }
        results
    };
    let mut results = thread::scope(|scope| {
        let other = subject.clone();
        let beside = scope.spawn(|| work(other));
        let mut results = work(subject);
        results.extend(beside.join().expect("parts that come to an end"));
        results
    });
    results.sort_by_key(|&(place, ..)| place);
    results.into_iter().map(|(_, name, result)| (name, result))
}

/// The driver as a command: `[SEED [TIMES]]` are its arguments, and its last line is the tally.
pub fn command(subject: impl Subject + Clone + Send, arguments: &[&str]) -> Result<Tally, Box<dyn Error>> {
    let amounts = Amounts::from_arguments(arguments)?;
    let tally = tell(two_at_a_time(subject, &amounts), amounts.seed, &mut io::stdout())?;
    println!("{} passed, {} failed", tally.passed, tally.failed);
    Ok(tally)
}

/// The first of the named parts that does not come out the same, and what it found.
pub fn first_finding(subject: &mut dyn Subject, amounts: &Amounts, names: &[&str]) -> Option<(&'static str, String)> {
    let named = |&(_, (name, _)): &(usize, (&str, Part))| names.contains(&name);
    PARTS
        .into_iter()
        .enumerate()
        .filter(named)
        .find_map(|(place, (name, part))| {
            let finding = part(subject, amounts, &mut random_for(amounts, place)).err()?;
            Some((name, finding))
        })
}
