//! The benchmark's parts, which `bench/run` puts together:
//!
//! - `bench check` compares the planners on everything that is timed or counted, and on random calls;
//! - `bench time ROUNDS NAME` times them and prints a line for each input of a round, with this program's name;
//! - `bench calls` makes the calls that callgrind counts and prints a line about each;
//! - `bench goals DIR` judges the goals that instructions decide, from DIR/calls.txt and DIR/callgrind.out;
//! - `bench report DIR` writes DIR/table.md and DIR/bench.svg, from these two and DIR/times.txt, DIR/stack.txt and
//!   DIR/machine.txt.

mod check;
mod contestant;
mod counting;
mod counts;
mod goals;
mod history;
mod input;
mod pass;
mod plot;
mod report;
mod reserve;
mod rows;
mod stats;
mod timing;

use std::env;
use std::error::Error;
use std::fs;
use std::path::Path;
use std::process::ExitCode;

use counts::Count;
use report::Findings;

type Result<T> = std::result::Result<T, Box<dyn Error>>;

fn main() -> ExitCode {
    let arguments: Vec<String> = env::args().skip(1).collect();
    let words: Vec<&str> = arguments.iter().map(String::as_str).collect();
    let done = match words[..] {
        ["check"] => check(),
        ["time", rounds, program] => time(rounds, program),
        ["calls"] => {
            counts::make_calls();
            Ok(true)
        }
        ["goals", dir] => goals(Path::new(dir)),
        ["report", dir] => report(Path::new(dir)),
        _ => Err("usage: bench check | time ROUNDS NAME | calls | goals DIR | report DIR".into()),
    };
    match done {
        Ok(true) => ExitCode::SUCCESS,
        Ok(false) => ExitCode::FAILURE,
        Err(error) => {
            eprintln!("{error}");
            ExitCode::from(2)
        }
    }
}

fn check() -> Result<bool> {
    match check::check() {
        Ok(calls) => println!(
            "library, same algorithm, second planner and former count agree on {calls} calls, seed {}",
            rows::SEED
        ),
        Err(difference) => {
            println!("{difference}");
            return Ok(false);
        }
    }
    Ok(true)
}

fn time(rounds: &str, program: &str) -> Result<bool> {
    let mut rows = rows::rows();
    rows.append(&mut plot::rows());
    rows.append(&mut counting::rows());
    timing::time(&rows, rounds.parse()?, program);
    Ok(true)
}

fn read_counts(dir: &Path) -> Result<Vec<Count>> {
    let lines = fs::read_to_string(dir.join("calls.txt"))?;
    let file = fs::read_to_string(dir.join("callgrind.out"))?;
    counts::read(&lines, &file)
}

fn goals(dir: &Path) -> Result<bool> {
    let counts = read_counts(dir)?;
    let mut goals = goals::of_counts(&rows::rows(), &counts);
    goals.extend(goals::of_map_counts(&counting::rows(), &counts));
    for goal in &goals {
        let verdict = if goal.is_met() { "met" } else { "missed" };
        println!(
            "{}: {:.3}, limit {}, {verdict} ({})",
            goal.what, goal.measured, goal.limit, goal.place
        );
    }
    let met = goals.iter().filter(|goal| goal.is_met()).count();
    println!("{met} passed, {} failed", goals.len() - met);
    Ok(met == goals.len())
}

fn report(dir: &Path) -> Result<bool> {
    let counts = read_counts(dir)?;
    let rows = rows::rows();
    let plotted = plot::rows();
    let maps = counting::rows();
    let times = fs::read_to_string(dir.join("times.txt"))?;
    let figures = timing::read(&times, rows.len() + plotted.len() + maps.len())?;
    let (of_rows, others) = figures.split_at(rows.len());
    let (of_plot, of_maps) = others.split_at(plotted.len());
    let timed = rows.iter().chain(&plotted).chain(&maps);
    let inputs: usize = timed.map(|row| row.inputs.len()).sum();
    let stack = fs::read_to_string(dir.join("stack.txt"))?;
    let mut goals = goals::of_times(&rows, of_rows);
    goals.extend(goals::of_map_times(&maps, of_maps));
    goals.append(&mut goals::of_counts(&rows, &counts));
    goals.extend(goals::of_map_counts(&maps, &counts));
    goals.push(goals::of_stack(&stack)?);
    let mut text = String::new();
    let findings = Findings {
        machine: &fs::read_to_string(dir.join("machine.txt"))?,
        rounds: times.lines().count() / inputs,
        rows: &rows,
        figures: of_rows,
        maps: &maps,
        map_figures: of_maps,
        counts: &counts,
        goals: &goals,
        stack: &stack,
    };
    report::write(&mut text, &findings)?;
    fs::write(dir.join("table.md"), text)?;
    fs::write(dir.join("bench.svg"), plot::draw(&plotted, of_plot)?)?;
    Ok(true)
}
