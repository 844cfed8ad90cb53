//! The rows of the table: which calls are made on which reserves.

use oracle::definitions::Counts;
use oracle::line::MOST_WAITING;
use oracle::random::Random;

use crate::contestant::Library;
use crate::input::{Ask, Input, Report};
use crate::reserve::{mixed, ones, Reserve};
use crate::timing::{Batch, CONTESTANTS, PLANNERS};

/// The heights that are timed.
pub const HEIGHTS: [u16; 2] = [6, 12];

/// Everything that is drawn for the table follows from this number.
pub const SEED: u64 = 1;

/// The most inputs of a row; its times are means over them, and its instructions medians.
pub const INPUTS: usize = 8;

/// How many times the holders of a reserve are drawn for a row.
const SEATINGS: usize = 4;

/// Calls of one kind on reserves of one kind, whose outcomes are alike.
pub struct Row {
    pub height: u16,
    pub call: &'static str,
    pub reserve: &'static str,
    pub outcome: String,
    pub inputs: Vec<Input>,
    /// Who is timed on the inputs, the library first.
    pub batches: [Batch; CONTESTANTS],
}

impl Row {
    pub fn name(&self) -> String {
        format!(
            "height {}, {}, {}, {}",
            self.height, self.call, self.reserve, self.outcome
        )
    }
}

/// A kind of reserve, with its blocks and the calls that are timed on it.
struct Kind {
    reserve: &'static str,
    counts: Counts,
    calls: &'static [&'static str],
}

/// The calls that are timed, those of holders who stay apart.
pub const CALLS: [&str; 5] = ["open", "grant", "release", "map", "count"];

/// The calls of holders who stay that are timed, with what is asked on a reserve.
pub const OF_HOLDERS: [(&str, fn(&Reserve) -> Vec<Ask>); 4] = [
    ("growth up", |reserve| reserve.growths(|held, asked| held < asked)),
    ("growth down", |reserve| reserve.growths(|held, asked| held > asked)),
    ("growth to the same level", |reserve| {
        reserve.growths(|held, asked| held == asked)
    }),
    ("repeated grant", Reserve::repeated_grants),
];

/// The calls with a full line that are timed, with how they are made on a reserve. Those who wait ask for the whole of it, for
/// which there is no room, but for one that an admit grants; so a grant passes them all, and who joins finds the last place.
pub const WITH_A_LINE: [(&str, fn(&Reserve, &mut Random) -> Vec<Input>); 6] = [
    (GRANT_WITH_A_LINE, |reserve, random| {
        let reserve = reserve.with_line(&[reserve.whole(); MOST_WAITING], random);
        let asks = reserve.grants(random);
        asks.into_iter().map(|ask| reserve.input(ask)).collect()
    }),
    ("admit of the first", |reserve, random| admits(reserve, 0, random)),
    ("admit of the last", |reserve, random| {
        admits(reserve, MOST_WAITING - 1, random)
    }),
    ("admit of nobody", |reserve, random| {
        let reserve = reserve.with_line(&[reserve.whole(); MOST_WAITING], random);
        vec![reserve.input(Ask::Admit)]
    }),
    ("join", |reserve, random| {
        let reserve = reserve.with_line(&[reserve.whole(); MOST_WAITING - 1], random);
        vec![reserve.input(reserve.join(0, random))]
    }),
    ("withdrawal", |reserve, random| {
        let reserve = reserve.with_line(&[reserve.whole(); MOST_WAITING], random);
        let asks = reserve.withdrawals();
        asks.into_iter().map(|ask| reserve.input(ask)).collect()
    }),
];

/// The reserve on which they are made: there is room for all levels but that of the whole.
const RESERVE_WITH_A_LINE: &str = "half, mixed";

/// Grants beside a full line, which are none of those that others are held against.
pub const GRANT_WITH_A_LINE: &str = "grant with a full line";

/// Admits for each level that there is room for, where the one at a place asks for it.
fn admits(reserve: &Reserve, place: usize, random: &mut Random) -> Vec<Input> {
    let mut inputs = Vec::new();
    for level in reserve.fitting_levels() {
        let mut levels = [reserve.whole(); MOST_WAITING];
        levels[place] = level;
        inputs.push(reserve.with_line(&levels, random).input(Ask::Admit));
    }
    inputs
}

fn kinds(height: u16, random: &mut Random) -> [Kind; 7] {
    let pages = 1 << height;
    let full = mixed(pages, random);
    let mut but_one = full;
    but_one[0] -= 1;
    let kind = |reserve, counts, calls| Kind { reserve, counts, calls };
    [
        kind("empty", Counts::default(), &CALLS),
        kind("half, single pages", ones(pages / 2), &CALLS),
        kind(RESERVE_WITH_A_LINE, mixed(pages / 2, random), &CALLS),
        kind("full but one, single pages", ones(pages - 1), &["grant"]),
        kind("full but one, mixed", but_one, &["grant"]),
        kind("full, single pages", ones(pages), &CALLS),
        kind("full, mixed", full, &CALLS),
    ]
}

/// All rows, by height and call, those of holders who stay behind the others, and those with a line last.
pub fn rows() -> Vec<Row> {
    let mut random = Random::new(SEED);
    let mut rows = Vec::new();
    let mut reserves = Vec::new();
    for height in HEIGHTS {
        let kinds = kinds(height, &mut random);
        for call in CALLS {
            for kind in kinds.iter().filter(|kind| kind.calls.contains(&call)) {
                let inputs = asked(height, &kind.counts, &mut random, |reserve, random| match call {
                    "open" => vec![Ask::Open],
                    "grant" => reserve.grants(random),
                    "release" => reserve.releases(random),
                    "map" => vec![Ask::Map],
                    _ => vec![Ask::Count],
                });
                rows.extend(by_outcome(call, kind.reserve, inputs));
            }
        }
        reserves.push((height, kinds));
    }
    // All that stands above is drawn as it would be without these.
    for (height, kinds) in &reserves {
        for (call, asks) in OF_HOLDERS {
            for kind in kinds.iter().filter(|kind| kind.calls == CALLS) {
                let inputs = asked(*height, &kind.counts, &mut random, |reserve, _| asks(reserve));
                rows.extend(by_outcome(call, kind.reserve, inputs));
            }
        }
    }
    for (height, kinds) in &reserves {
        for (call, inputs_on) in WITH_A_LINE {
            for kind in kinds.iter().filter(|kind| kind.reserve == RESERVE_WITH_A_LINE) {
                let inputs = inputs(*height, &kind.counts, &mut random, inputs_on);
                rows.extend(by_outcome(call, kind.reserve, inputs));
            }
        }
    }
    rows
}

/// What is asked on some reserves with these counts, in any order.
fn asked(
    height: u16,
    counts: &Counts,
    random: &mut Random,
    asks: impl Fn(&Reserve, &mut Random) -> Vec<Ask>,
) -> Vec<Input> {
    inputs(height, counts, random, |reserve, random| {
        let asks = asks(reserve, random);
        asks.into_iter().map(|ask| reserve.input(ask)).collect()
    })
}

/// Calls on some reserves with these counts, in any order.
fn inputs(
    height: u16,
    counts: &Counts,
    random: &mut Random,
    inputs_on: impl Fn(&Reserve, &mut Random) -> Vec<Input>,
) -> Vec<Input> {
    let mut inputs = Vec::new();
    for _ in 0..SEATINGS {
        let reserve = Reserve::draw(height, counts, random);
        inputs.extend(inputs_on(&reserve, random));
    }
    random.shuffle(&mut inputs);
    inputs
}

/// What the library reports on an input.
pub fn outcome_of(input: &Input) -> Report {
    input.ask.put_to::<Library>(input.height, &mut input.lent.clone())
}

/// A row for each kind of outcome that the inputs have.
fn by_outcome(call: &'static str, reserve: &'static str, inputs: Vec<Input>) -> Vec<Row> {
    let mut rows: Vec<Row> = Vec::new();
    for input in inputs {
        let outcome = describe(call, outcome_of(&input));
        let known = rows.iter_mut().find(|row| row.outcome == outcome);
        match known {
            Some(row) if row.inputs.len() < INPUTS => row.inputs.push(input),
            Some(_) => {}
            None => rows.push(Row {
                height: input.height,
                call,
                reserve,
                outcome,
                inputs: vec![input],
                batches: PLANNERS,
            }),
        }
    }
    rows.sort_by(|one, other| one.outcome.cmp(&other.outcome));
    rows
}

fn describe(call: &str, outcome: Report) -> String {
    match (call, outcome.answer, outcome.moves) {
        (_, 1.., _) => format!("refused, {}", outcome.answer),
        ("open" | "map" | "count" | "join" | "withdrawal", 0, _) => "done".into(),
        (_, 0, 0) => "no move".into(),
        (_, 0, _) => "with moves".into(),
    }
}
