//! The goals, and what was measured of them.

use std::error::Error;

use crate::counting::BYTEWISE;
use crate::counts::Count;
use crate::rows::{Row, CALLS, GRANT_WITH_A_LINE, HEIGHTS, OF_HOLDERS, WITH_A_LINE};
use crate::stats::median;
use crate::timing::{Figures, PASS, SAME, SECOND};

/// A number that is to stay at or below a limit.
pub struct Goal {
    pub what: &'static str,
    pub limit: f64,
    pub measured: f64,
    /// Where that was measured: the worst place.
    pub place: String,
}

impl Goal {
    /// The goal, for the worst of some places; none if there is no place.
    fn worst(what: &'static str, limit: f64, places: impl Iterator<Item = (f64, String)>) -> Option<Goal> {
        let (measured, place) = places.max_by(|one, other| one.0.total_cmp(&other.0))?;
        Some(Goal {
            what,
            limit,
            measured,
            place,
        })
    }

    pub fn is_met(&self) -> bool {
        self.measured <= self.limit
    }
}

/// The goals that time decides, each for its worst row.
pub fn of_times(rows: &[Row], figures: &[Figures]) -> Vec<Goal> {
    let ratios = |who: usize| {
        let places = rows.iter().zip(figures);
        places.map(move |(row, figures)| (row, figures.ratio(who)))
    };
    let named = |(row, ratio): (&Row, f64)| (ratio, row.name());
    let full = |(row, _): &(&Row, f64)| changes_full(row);
    let goals = [
        Goal::worst("library ÷ same algorithm in Rust, time", 1.1, ratios(SAME).map(named)),
        Goal::worst("library ÷ second planner, time", 1.0, ratios(SECOND).map(named)),
        Goal::worst(
            "grant or release on a full table ÷ bare pass, time",
            40.0,
            ratios(PASS).filter(full).map(named),
        ),
    ];
    goals.into_iter().flatten().collect()
}

/// That a map is counted in no more time than byte by byte, for the worst map.
pub fn of_map_times(maps: &[Row], figures: &[Figures]) -> Option<Goal> {
    let places = maps.iter().zip(figures);
    let ratios = places.map(|(row, figures)| (figures.ratio(BYTEWISE), row.name()));
    Goal::worst("count ÷ count byte by byte, time", 1.0, ratios)
}

/// That a map is counted in at most 0.45 of the instructions that it takes byte by byte, for the worst map. Neither that nor
/// numbers that are counted one by one would meet it, nor would a count of 16 bits at a time.
pub fn of_map_counts(maps: &[Row], counts: &[Count]) -> Option<Goal> {
    let ratios = maps.iter().enumerate().flat_map(|(place, row)| {
        let [library, bytewise] = ["library", "bytewise"].map(|who| of_row(counts, "map", place, who));
        library
            .zip(bytewise)
            .map(|(library, bytewise)| (library / bytewise, row.name()))
    });
    Goal::worst("count ÷ count byte by byte, instructions", 0.45, ratios)
}

/// The goals that instructions decide: by call and height against the same algorithm in Rust and against the bare
/// pass; by height for the longest call, the longest growth and the longest call with a line; and for grants against what they
/// took before there was one.
pub fn of_counts(rows: &[Row], counts: &[Count]) -> Vec<Goal> {
    let mut goals = Vec::new();
    let of_holders = OF_HOLDERS.map(|(call, _)| call);
    let with_a_line = WITH_A_LINE.map(|(call, _)| call);
    for height in HEIGHTS {
        for call in CALLS.into_iter().chain(of_holders).chain(with_a_line) {
            let chosen = |row: &Row| row.height == height && row.call == call;
            let against_same = of_rows(rows, counts, chosen).map(|(row, library, same)| (library / same, row.name()));
            goals.extend(Goal::worst(
                "library ÷ same algorithm in Rust, instructions",
                1.1,
                against_same,
            ));
            let full = |row: &Row| chosen(row) && changes_full(row);
            let pass = pass_of(counts);
            let against_pass = of_rows(rows, counts, full).map(|(row, library, _)| (library / pass, row.name()));
            goals.extend(Goal::worst(
                "grant or release on a full table ÷ bare pass, instructions",
                40.0,
                against_pass,
            ));
        }
        let longest = Longest::at(height, rows, counts);
        goals.push(Goal {
            what: "longest grant or release ÷ median one, instructions",
            limit: 1.5,
            measured: longest.longest / longest.median,
            place: longest.place,
        });
        goals.extend(growth_against_grant(height, rows, counts));
        goals.extend(repeated_against_grant(height, rows, counts));
        goals.extend(with_line_against_grant(height, rows, counts));
        goals.extend(grant_against_former(height, rows, counts));
    }
    goals
}

/// What the library took for the calls of the rows at a height whose name is chosen.
fn in_rows<'a>(
    height: u16,
    chosen: impl Fn(&str) -> bool + 'a,
    rows: &'a [Row],
    counts: &'a [Count],
) -> impl Iterator<Item = (&'a Count, &'a Row)> {
    let of_rows = counts
        .iter()
        .filter(|count| count.who == "library" && count.set == "row");
    of_rows
        .map(|count| (count, &rows[count.place]))
        .filter(move |(_, row)| row.height == height && chosen(row.call))
}

/// The median instructions of the grants at a height that are answered 0, without those that are repeated and those with a line.
fn median_grant(height: u16, rows: &[Row], counts: &[Count]) -> f64 {
    let granted = in_rows(height, |call| call == "grant", rows, counts).filter(|(count, _)| count.answer == 0);
    median(granted.map(|(count, _)| count.instructions as f64))
}

/// That a grant that is repeated takes no more instructions than one that is not: the longest one against the median of these.
fn repeated_against_grant(height: u16, rows: &[Row], counts: &[Count]) -> Option<Goal> {
    let grant = median_grant(height, rows, counts);
    let repeated = in_rows(height, |call| call == "repeated grant", rows, counts);
    let ratios = repeated.map(|(count, row)| (count.instructions as f64 / grant, row.name()));
    Goal::worst("longest repeated grant ÷ median grant, instructions", 1.0, ratios)
}

/// That a grant with a full line, and an admit, takes hardly more than half as many instructions again as one without, which is
/// what comparing each in line with all behind it costs: the longest one against the median grant.
fn with_line_against_grant(height: u16, rows: &[Row], counts: &[Count]) -> Option<Goal> {
    let grant = median_grant(height, rows, counts);
    let grants = |call: &str| call == GRANT_WITH_A_LINE || call.starts_with("admit");
    let ratios = in_rows(height, grants, rows, counts);
    let ratios = ratios.map(|(count, row)| (count.instructions as f64 / grant, row.name()));
    Goal::worst(
        "longest grant or admit with a full line ÷ median grant, instructions",
        1.6,
        ratios,
    )
}

/// That the grants of the table with nobody in line take hardly more instructions than those of the library before it had one, row
/// by row.
fn grant_against_former(height: u16, rows: &[Row], counts: &[Count]) -> Option<Goal> {
    let granted = |row: &Row| row.height == height && row.call == "grant" && !row.outcome.starts_with("refused");
    let ratios = rows
        .iter()
        .enumerate()
        .filter(|(_, row)| granted(row))
        .map(|(place, row)| {
            let former = FORMER_GRANTS
                .iter()
                .find(|&&(height, reserve, _)| (height, reserve) == (row.height, row.reserve));
            let former = former.map_or(f64::NAN, |&(.., instructions)| instructions);
            (median(of_row(counts, "row", place, "library")) / former, row.name())
        });
    Goal::worst(
        "grant with nobody in line ÷ grant of version 6.0, instructions",
        1.05,
        ratios,
    )
}

/// The median instructions of the grants of the table that were answered 0, by height and reserve, in version 6.0 of the library,
/// which had no line.
const FORMER_GRANTS: [(u16, &str, f64); 10] = [
    (12, "empty", 34_481.0),
    (12, "half, single pages", 35_729.0),
    (12, "half, mixed", 36_493.0),
    (12, "full but one, single pages", 37_132.0),
    (12, "full but one, mixed", 37_226.0),
    (6, "empty", 29_230.0),
    (6, "half, single pages", 29_331.0),
    (6, "half, mixed", 29_453.0),
    (6, "full but one, single pages", 29_608.0),
    (6, "full but one, mixed", 30_963.0),
];

/// That a growth at a height takes at most twice the instructions of a grant: the longest one against the median of the grants
/// that are answered 0.
fn growth_against_grant(height: u16, rows: &[Row], counts: &[Count]) -> Option<Goal> {
    let grant = median_grant(height, rows, counts);
    let of_rows = in_rows(height, |call| call.starts_with("growth"), rows, counts);
    let of_rows = of_rows.map(|(count, row)| (count, row.name()));
    let with_most_moves = counts
        .iter()
        .filter(|count| count.who == "library" && count.set == "growths" && count.place == usize::from(height));
    let of_most_moves = with_most_moves.map(|count| (count, format!("height {height}, growth, {} moves", count.moves)));
    let all = of_rows.chain(of_most_moves);
    let ratios = all.map(|(count, place)| (count.instructions as f64 / grant, place));
    Goal::worst("longest growth ÷ median grant, instructions", 2.0, ratios)
}

/// The goal about the stack, from the lines about it.
pub fn of_stack(lines: &str) -> Result<Goal, Box<dyn Error>> {
    let places = stack_uses(lines).map(|(function, bytes)| (bytes, function.to_string()));
    let goal = Goal::worst("stack of any call, bytes", 32_768.0, places);
    goal.ok_or_else(|| "nothing about the stack".into())
}

/// The functions and the bytes that they use, from lines `function: N bytes of stack`.
pub fn stack_uses(lines: &str) -> impl Iterator<Item = (&str, f64)> {
    lines.lines().filter_map(|line| {
        let (function, rest) = line.split_once(": ")?;
        let bytes = rest.strip_suffix(" bytes of stack")?;
        Some((function, bytes.parse().ok()?))
    })
}

/// Whether the row has grants or releases on a table that is full, or becomes full.
fn changes_full(row: &Row) -> bool {
    row.reserve.starts_with("full") && ["grant", "release"].contains(&row.call)
}

/// The instructions of the bare pass.
pub fn pass_of(counts: &[Count]) -> f64 {
    let pass = counts.iter().find(|count| count.who == "pass");
    pass.map_or(f64::NAN, |pass| pass.instructions as f64)
}

/// The instructions that the library and the same algorithm in Rust took for each input of the chosen rows.
fn of_rows<'a>(
    rows: &'a [Row],
    counts: &'a [Count],
    chosen: impl Fn(&Row) -> bool + 'a,
) -> impl Iterator<Item = (&'a Row, f64, f64)> + 'a {
    let rows = rows.iter().enumerate().filter(move |(_, row)| chosen(row));
    rows.flat_map(move |(place, row)| {
        let both = of_row(counts, "row", place, "library").zip(of_row(counts, "row", place, "same"));
        both.map(move |(library, same)| (row, library, same))
    })
}

/// The instructions that somebody took for each input of a row, by its place among the rows of calls or of maps.
pub fn of_row<'a>(
    counts: &'a [Count],
    set: &'a str,
    place: usize,
    who: &'a str,
) -> impl Iterator<Item = f64> + use<'a> {
    let chosen = move |count: &&Count| count.set == set && count.place == place && count.who == who;
    counts.iter().filter(chosen).map(|count| count.instructions as f64)
}

/// The longest grant or release of the library at a height, and the median one of the history there.
pub struct Longest {
    pub answered: usize,
    pub refused: usize,
    /// Whole, as it is printed.
    pub median: f64,
    pub longest: f64,
    pub place: String,
}

impl Longest {
    pub fn at(height: u16, rows: &[Row], counts: &[Count]) -> Longest {
        let library = || counts.iter().filter(|count| count.who == "library");
        let at_height = |set: &'static str| {
            let chosen = move |count: &&Count| count.set == set && count.place == usize::from(height);
            library().filter(chosen)
        };
        let answered = at_height("history").filter(|count| count.answer == 0);
        let refused = at_height("history").filter(|count| count.answer != 0);
        let of_calls = at_height("history").chain(at_height("most-moves"));
        let changes = |row: &Row| row.height == height && ["grant", "release"].contains(&row.call);
        let of_table = library().filter(|count| count.set == "row" && changes(&rows[count.place]));
        let all = of_calls.chain(of_table);
        let longest = all
            .max_by_key(|count| count.instructions)
            .expect("a history was counted");
        let place = match longest.set.as_str() {
            "row" => rows[longest.place].name(),
            set => format!("height {height}, {}, {set}, {} moves", longest.call, longest.moves),
        };
        Longest {
            answered: answered.clone().count(),
            refused: refused.count(),
            median: median(answered.map(|count| count.instructions as f64)).round(),
            longest: longest.instructions as f64,
            place,
        }
    }
}
