//! Times of calls, contestant beside contestant.

use std::array::from_fn;
use std::collections::BTreeMap;
use std::error::Error;
use std::hint::black_box;
use std::time::Instant;

use crate::contestant::{Contestant, Library, Same, Second};
use crate::input::{Ask, Input, Lent, Map};
use crate::pass::bare_pass;
use crate::rows::{outcome_of, Row};
use crate::stats::{mean, mean_of_smaller_half, Quartiles};

/// So many copies of the lent bytes are made before a batch, because a call may change its table or its line. They fit into the
/// two nearest caches, with what the call itself uses.
const COPIES: usize = 4;

/// So many times a batch goes over the copies if the call leaves its table and its line as they are.
const LAPS: usize = 8;

/// The places of the contestants in all figures.
pub const LIBRARY: usize = 0;
pub const SAME: usize = 1;
pub const SECOND: usize = 2;
pub const PASS: usize = 3;
pub const CONTESTANTS: usize = 4;

/// Nanoseconds per call of one contestant, over some calls.
pub type Batch = fn(&Input) -> f64;

/// The planners, and the bare pass over the table.
pub const PLANNERS: [Batch; CONTESTANTS] = [batch::<Library>, batch::<Same>, second, pass];

/// The figures of a row over all rounds.
pub struct Figures {
    /// Nanoseconds per call: the mean, over programs and inputs, of the mean of the quicker half of the rounds, because
    /// load only ever makes a call longer. It is rounded as it is printed.
    pub times: [f64; CONTESTANTS],
    /// The quartiles of the library's time divided by each contestant's, within single rounds.
    pub quartiles: [Quartiles; CONTESTANTS],
}

/// Nanoseconds per call of each contestant, on one input in one round.
type Sample = [f64; CONTESTANTS];

/// The samples of a row, a round each, by program and input.
type Samples<'a> = BTreeMap<(&'a str, usize), Vec<Sample>>;

/// Times the rows in so many rounds, each of which goes through all rows, inputs and contestants, and prints a line for
/// each input of a round. It begins with the name of this program, as there are several.
pub fn time(rows: &[Row], rounds: usize, program: &str) {
    for round in 0..rounds {
        for (place, row) in rows.iter().enumerate() {
            for (input, asked) in row.inputs.iter().enumerate() {
                let numbers = sample(&row.batches, asked, round).map(|time| time.to_string());
                println!("{program} {place} {input} {}", numbers.join(" "));
            }
        }
    }
}

/// The contestants are asked one after the other, so that the machine's load is the same for them. Who begins changes
/// with the round.
fn sample(batches: &[Batch; CONTESTANTS], input: &Input, round: usize) -> Sample {
    let mut times = [0.0; CONTESTANTS];
    for turn in 0..CONTESTANTS {
        let who = (round + turn) % CONTESTANTS;
        times[who] = batches[who](input);
    }
    times
}

/// The figures of so many rows, from the lines of all rounds and programs.
pub fn read(lines: &str, rows: usize) -> Result<Vec<Figures>, Box<dyn Error>> {
    let mut samples: Vec<Samples> = (0..rows).map(|_| Samples::new()).collect();
    for line in lines.lines() {
        let words: Vec<&str> = line.split(' ').collect();
        let (&[program, place, input], numbers) = words.split_first_chunk().ok_or("a line of no input")?;
        let times: Vec<f64> = numbers.iter().map(|number| number.parse()).collect::<Result<_, _>>()?;
        let times: Sample = times.try_into().map_err(|_| "a line with other numbers")?;
        let of_row = samples.get_mut(place.parse::<usize>()?).ok_or("a line of no row")?;
        of_row.entry((program, input.parse()?)).or_default().push(times);
    }
    if samples.iter().any(Samples::is_empty) {
        return Err("a row that was not timed".into());
    }
    Ok(samples.iter().map(Figures::over).collect())
}

impl Figures {
    fn over(samples: &Samples) -> Figures {
        let time = |who: usize| {
            let of_input = |rounds: &Vec<Sample>| mean_of_smaller_half(rounds.iter().map(|times| times[who]));
            mean(samples.values().map(of_input))
        };
        let ratios = |who: usize| samples.values().flatten().map(move |times| times[LIBRARY] / times[who]);
        Figures {
            times: from_fn(|who| as_printed(time(who))),
            quartiles: from_fn(|who| Quartiles::of(ratios(who))),
        }
    }

    /// The library's time divided by a contestant's: the quotient of the times as they are printed.
    pub fn ratio(&self, who: usize) -> f64 {
        self.times[LIBRARY] / self.times[who]
    }
}

/// From so many nanoseconds on a time is printed without a decimal, below with one.
pub const WHOLE_FROM: f64 = 1000.0;

fn as_printed(time: f64) -> f64 {
    let parts = if time < WHOLE_FROM { 10.0 } else { 1.0 };
    (time * parts).round() / parts
}

/// One way of going over a map; all of them leave it as it is.
pub fn map_batch(input: &Input, way: fn(&Map)) -> f64 {
    per_call::<COPIES>(input, LAPS, |lent| way(black_box(&lent.map)))
}

fn batch<C: Contestant>(input: &Input) -> f64 {
    let may_change = !matches!(input.ask, Ask::Open | Ask::Map | Ask::Count);
    let changes = may_change && outcome_of(input).answer == 0;
    let laps = if changes { 1 } else { LAPS };
    per_call::<COPIES>(input, laps, |lent| {
        black_box(input.ask.put_to::<C>(input.height, lent));
    })
}

/// The second planner takes so long that one call is enough.
fn second(input: &Input) -> f64 {
    per_call::<1>(input, 1, |lent| {
        black_box(input.ask.put_to::<Second>(input.height, lent));
    })
}

fn pass(input: &Input) -> f64 {
    per_call::<COPIES>(input, LAPS, |lent| {
        black_box(bare_pass(black_box(&lent.table)));
    })
}

/// Nanoseconds per call, after a first call that brings code and stack into the caches.
fn per_call<const N: usize>(input: &Input, laps: usize, call: impl Fn(&mut Lent)) -> f64 {
    let mut copies: [Lent; N] = from_fn(|_| Lent::clone(&input.lent));
    call(&mut copies[0]);
    copies[0].clone_from(&input.lent);
    let start = Instant::now();
    for _ in 0..laps {
        for lent in &mut copies {
            call(lent);
        }
    }
    start.elapsed().as_nanos() as f64 / (laps * N) as f64
}

#[cfg(test)]
mod tests {
    use super::{read, LIBRARY, PASS, SAME, SECOND};

    /// Two programs of which one is slower, two inputs, and load in two rounds of five: on all contestants in one, and on
    /// a single one in the other.
    fn loaded_lines() -> String {
        let mut lines = String::new();
        for (program, slower) in [("a", 1.0), ("b", 1.5)] {
            for (input, size) in [1.0, 3.0].into_iter().enumerate() {
                for load in [[1.0; 4], [1.0; 4], [7.0; 4], [900.0, 1.0, 1.0, 1.0], [1.0; 4]] {
                    let quiet = [80.0, 64.0, 1600.0, 20.0].map(|time| time * slower * size);
                    let times: Vec<String> = quiet
                        .iter()
                        .zip(load)
                        .map(|(time, load)| (time * load).to_string())
                        .collect();
                    lines += &format!("{program} 0 {input} {}\n", times.join(" "));
                }
            }
        }
        lines
    }

    #[test]
    fn load_in_less_than_half_of_the_rounds_does_not_count() {
        let figures = &read(&loaded_lines(), 1).expect("one row")[0];
        assert_eq!(figures.times, [200.0, 160.0, 4000.0, 50.0]);
        assert_eq!([SAME, SECOND, PASS].map(|who| figures.ratio(who)), [1.25, 0.05, 4.0]);
    }

    #[test]
    fn quartiles_are_of_single_rounds() {
        let quartiles = read("a 0 0 1 1 1 1\na 0 0 8 4 1 1\na 0 0 9 3 1 1\n", 1).expect("one row")[0].quartiles;
        assert_eq!((quartiles[SAME].first, quartiles[SAME].third), (1.5, 2.5));
        assert_eq!((quartiles[LIBRARY].first, quartiles[LIBRARY].third), (1.0, 1.0));
    }

    #[test]
    fn times_have_a_decimal_below_1000() {
        let figures = &read("a 0 0 999.94 999.96 1000.4 0.26\n", 1).expect("one row")[0];
        assert_eq!(figures.times, [999.9, 1000.0, 1000.0, 0.3]);
    }

    #[test]
    fn lines_that_lack_something_are_refused() {
        for lines in [
            "",
            "a 0 0 1 1 1",
            "a 0 0 1 1 1 1 1",
            "a 1 0 1 1 1 1",
            "a 0",
            "a 0 0 1 1 1 x",
        ] {
            assert!(read(lines, 1).is_err(), "{lines}");
        }
    }
}
