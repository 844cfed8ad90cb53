//! The figures as Markdown.

use std::fmt::{self, Write};

use crate::counting::WAYS;
use crate::counts::Count;
use crate::goals::{of_row, pass_of, stack_uses, Goal, Longest};
use crate::rows::{Row, HEIGHTS, SEED};
use crate::stats::median;
use crate::timing::{Figures, LIBRARY, PASS, SAME, SECOND, WHOLE_FROM};

/// Everything that a run has found out.
pub struct Findings<'a> {
    /// The machine, a line for each thing.
    pub machine: &'a str,
    pub rounds: usize,
    pub rows: &'a [Row],
    pub figures: &'a [Figures],
    pub maps: &'a [Row],
    pub map_figures: &'a [Figures],
    pub counts: &'a [Count],
    pub goals: &'a [Goal],
    /// What each function uses, a line for each.
    pub stack: &'a str,
}

/// Writes all sections.
pub fn write(out: &mut String, findings: &Findings) -> fmt::Result {
    writeln!(out, "### Machine\n")?;
    for line in findings.machine.lines() {
        writeln!(out, "- {line}")?;
    }
    goals(out, findings.goals)?;
    for height in HEIGHTS.into_iter().rev() {
        rows(out, height, findings)?;
    }
    maps(out, findings)?;
    longest(out, findings)?;
    stack(out, findings.stack)
}

/// One line for each goal: where it was measured more than once, the worst.
fn goals(out: &mut String, goals: &[Goal]) -> fmt::Result {
    writeln!(out, "\n### Goals\n")?;
    writeln!(out, "| Goal | Limit | Measured | Worst place | |")?;
    writeln!(out, "|---|---:|---:|---|---|")?;
    let is_worst = |goal: &&Goal| {
        let alike = goals.iter().filter(|other| other.what == goal.what);
        alike.map(|other| other.measured).fold(f64::MIN, f64::max) == goal.measured
    };
    let mut shown: Vec<&str> = Vec::new();
    for goal in goals.iter().filter(is_worst) {
        if shown.contains(&goal.what) {
            continue;
        }
        shown.push(goal.what);
        let verdict = if goal.is_met() { "met" } else { "missed" };
        let (what, place) = (goal.what, &goal.place);
        let (limit, measured) = (exact(goal.limit), exact(goal.measured));
        writeln!(out, "| {what} | {limit} | {measured} | {place} | {verdict} |")?;
    }
    Ok(())
}

fn rows(out: &mut String, height: u16, findings: &Findings) -> fmt::Result {
    let pages = thousands(f64::from(1 << height));
    writeln!(out, "\n### Height {height}, {pages} pages\n")?;
    let pass = pass_of(findings.counts);
    let rounds = findings.rounds;
    let brackets = "the first and the third quartile of the ratios within single rounds";
    writeln!(out, "{rounds} rounds, seed {SEED}. In brackets: {brackets}.")?;
    writeln!(out, "The pass takes {} instructions.\n", thousands(pass))?;
    let times = "Library, ns | Rust, ns | Second, ns | Pass, ns";
    let ratios = "Library ÷ Rust | ÷ second | ÷ pass";
    let counts = "Library, instructions | Rust | Library ÷ Rust | ÷ pass";
    writeln!(out, "| Call | Reserve | Outcome | {times} | {ratios} | {counts} |")?;
    writeln!(out, "|---|---|---|{}", "---:|".repeat(11))?;
    let lines = findings.rows.iter().zip(findings.figures).enumerate();
    for (place, (row, figures)) in lines.filter(|(_, (row, _))| row.height == height) {
        let (call, reserve, outcome) = (row.call, row.reserve, &row.outcome);
        let times = time_cells(figures).join(" | ");
        // Rounded as they are printed, so that the ratios are their quotients.
        let [library, same] = ["library", "same"].map(|who| median(of_row(findings.counts, "row", place, who)).round());
        let counts = [
            thousands(library),
            thousands(same),
            number(library / same),
            number(library / pass),
        ];
        let counts = counts.join(" | ");
        writeln!(out, "| {call} | {reserve} | {outcome} | {times} | {counts} |")?;
    }
    Ok(())
}

fn maps(out: &mut String, findings: &Findings) -> fmt::Result {
    writeln!(out, "\n### Counting a map\n")?;
    let others = "Rust is its `count_ones` on `u64`, and the pass is over the map";
    writeln!(out, "The library takes 64 bits at a time; {others}.\n")?;
    let times = "Library, ns | Rust, ns | Byte by byte, ns | Pass, ns";
    let counts = "Library, instructions | Rust | Byte by byte | Pass";
    let ratios = "Library ÷ Rust | ÷ byte by byte | ÷ pass";
    writeln!(out, "| Map | {times} | {ratios} | {counts} | {ratios} |")?;
    writeln!(out, "|---|{}", "---:|".repeat(14))?;
    let lines = findings.maps.iter().zip(findings.map_figures).enumerate();
    for (place, (row, figures)) in lines {
        let times = time_cells(figures).join(" | ");
        let counts = WAYS.map(|(who, _)| median(of_row(findings.counts, "map", place, who)).round());
        let [library, others @ ..] = counts;
        let ratios = others.map(|other| number(library / other)).join(" | ");
        let counts = counts.map(thousands).join(" | ");
        writeln!(out, "| {} | {times} | {counts} | {ratios} |", row.reserve)?;
    }
    Ok(())
}

/// The times of a row, and the ratios of the library's to the others'.
fn time_cells(figures: &Figures) -> [String; 7] {
    let time = |who: usize| match figures.times[who] {
        time if time < WHOLE_FROM => format!("{time:.1}"),
        time => thousands(time),
    };
    let ratio = |who: usize| {
        let quartiles = figures.quartiles[who];
        let [ratio, first, third] = [figures.ratio(who), quartiles.first, quartiles.third].map(number);
        format!("{ratio} ({first}–{third})")
    };
    [
        time(LIBRARY),
        time(SAME),
        time(SECOND),
        time(PASS),
        ratio(SAME),
        ratio(SECOND),
        ratio(PASS),
    ]
}

fn longest(out: &mut String, findings: &Findings) -> fmt::Result {
    writeln!(out, "\n### The longest grant or release, in instructions\n")?;
    writeln!(out, "The median is over the calls of a history that are answered 0.\n")?;
    writeln!(
        out,
        "| Height | Answered 0 | Refused | Median | Longest | Which | Longest ÷ median |"
    )?;
    writeln!(out, "|---:|---:|---:|---:|---:|---|---:|")?;
    for height in HEIGHTS.into_iter().rev() {
        let found = Longest::at(height, findings.rows, findings.counts);
        let cells = [
            height.to_string(),
            found.answered.to_string(),
            found.refused.to_string(),
            thousands(found.median),
            thousands(found.longest),
            found.place,
            number(found.longest / found.median),
        ];
        writeln!(out, "| {} |", cells.join(" | "))?;
    }
    Ok(())
}

fn stack(out: &mut String, lines: &str) -> fmt::Result {
    writeln!(out, "\n### Stack\n")?;
    writeln!(out, "| Function | Bytes |")?;
    writeln!(out, "|---|---:|")?;
    for (function, bytes) in stack_uses(lines) {
        writeln!(out, "| `{function}` | {} |", thousands(bytes))?;
    }
    Ok(())
}

/// A number with as many as three decimals; whole from 1,000 on.
fn exact(value: f64) -> String {
    if value >= 1000.0 {
        return thousands(value);
    }
    ((value * 1000.0).round() / 1000.0).to_string()
}

/// A number with about three digits; whole ones from 1,000 on.
fn number(value: f64) -> String {
    let decimals = match value.abs() {
        size if size >= 1000.0 => return thousands(value),
        size if size >= 100.0 => 0,
        size if size >= 10.0 => 1,
        size if size >= 0.1 => 2,
        _ => 3,
    };
    format!("{value:.decimals$}")
}

/// A whole number with commas.
fn thousands(value: f64) -> String {
    let digits = format!("{value:.0}");
    let mut text = String::new();
    for (place, digit) in digits.chars().enumerate() {
        if place > 0 && (digits.len() - place) % 3 == 0 {
            text.push(',');
        }
        text.push(digit);
    }
    text
}

#[cfg(test)]
mod tests {
    use oracle::random::Random;

    use super::{number, time_cells};
    use crate::timing::{self, CONTESTANTS};

    const ROWS: usize = 1000;
    const ROUNDS: usize = 5;

    /// Lines about rows with one input each, of times from some nanoseconds to a millisecond.
    fn drawn_lines() -> String {
        let mut random = Random::new(1);
        let mut lines = String::new();
        for row in 0..ROWS {
            let sizes: [u32; CONTESTANTS] = std::array::from_fn(|_| random.pick(&[90, 999, 1100, 20_000, 1_000_000]));
            for _ in 0..ROUNDS {
                let times = sizes.map(|size| (f64::from(size) + f64::from(random.below(size)) / 32.0).to_string());
                lines += &format!("a {row} 0 {}\n", times.join(" "));
            }
        }
        lines
    }

    /// What a reader takes a printed number for.
    fn read(cell: &str) -> f64 {
        cell.replace(',', "").parse().expect("a number")
    }

    #[test]
    fn ratios_are_the_quotients_of_the_printed_times() {
        for figures in timing::read(&drawn_lines(), ROWS).expect("all rows") {
            let [library, same, second, pass, ratios @ ..] = time_cells(&figures);
            for (other, ratio) in [same, second, pass].into_iter().zip(ratios) {
                let (ratio, _) = ratio.split_once(" (").expect("quartiles in brackets");
                assert_eq!(ratio, number(read(&library) / read(&other)), "{library} ÷ {other}");
            }
        }
    }
}
