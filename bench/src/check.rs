//! That all planners give the same answers, tables, lines, moves and maps, before anything is timed.

use oracle::generate;
use oracle::page_map::MAP_BYTES;
use oracle::planner::Request;
use oracle::random::Random;
use oracle::subject::{Reach, LINE_BYTES, TABLE_BYTES};

use crate::contestant::{Contestant, Library, Same, Second};
use crate::counting;
use crate::history::{counted, Counted};
use crate::input::{Ask, Input, Lent, Report};
use crate::plot;
use crate::rows::{rows, Row, SEED};

/// The calls of each random history, of which there is one for each height.
const CALLS: usize = 300;

/// The lengths of the maps that are counted besides, and how many there are of each.
const MAP_LENGTHS: [usize; 5] = [0, MAP_BYTES - 1, MAP_BYTES, MAP_BYTES + 1, 2 * MAP_BYTES];
const MAPS: usize = 200;

/// How many calls came out the same, or the first that did not.
pub type Checked = Result<usize, String>;

/// Compares all inputs that are timed, the histories that are counted, and random ones.
pub fn check() -> Checked {
    let mut random = Random::new(SEED);
    let mut calls = 0;
    for Row { inputs, .. } in rows().iter().chain(&plot::rows()).chain(&counting::rows()) {
        calls += check_inputs(inputs)?;
    }
    for Counted {
        height,
        most_moves,
        growths,
        history,
    } in counted()
    {
        calls += check_inputs(&most_moves)?;
        calls += check_inputs(&growths)?;
        calls += check_history(height, &history, &mut random)?;
    }
    for height in 0..=12 {
        let asks = random_asks(height, &mut random);
        calls += check_history(height, &asks, &mut random)?;
    }
    for length in MAP_LENGTHS {
        calls += check_maps(length, &mut random)?;
    }
    Ok(calls)
}

fn check_inputs(inputs: &[Input]) -> Checked {
    for input in inputs {
        compare(input.height, input.ask, &input.lent)?;
    }
    Ok(inputs.len())
}

/// Makes the calls of a history, and after each of them draws and counts the map and tries a damaged table and a damaged line.
fn check_history(height: u16, asks: &[Ask], random: &mut Random) -> Checked {
    let mut lent = Lent::new([0; TABLE_BYTES], [0; LINE_BYTES]);
    for &ask in asks {
        lent = compare(height, ask, &lent)?;
        let drawn = compare(height, Ask::Map, &lent)?;
        compare(height, Ask::Count, &drawn)?;
        let mut damaged = lent.clone();
        damaged.table[random.index(TABLE_BYTES)] ^= 1 << random.below(8);
        compare(height, ask, &damaged)?;
        let mut damaged = lent.clone();
        damaged.line[random.index(LINE_BYTES)] ^= 1 << random.below(8);
        compare(height, ask, &damaged)?;
    }
    Ok(5 * asks.len())
}

/// Counts maps of bytes drawn at random.
fn check_maps(length: usize, random: &mut Random) -> Checked {
    for _ in 0..MAPS {
        same_counts(&random.bytes(length))?;
    }
    Ok(MAPS)
}

/// Whether a map is counted alike by all, byte by byte too.
fn same_counts(map: &[u8]) -> Result<(), String> {
    let wanted = Second::count(map);
    for (name, counted) in [
        ("the library", Library::count(map)),
        ("the same algorithm in Rust", Same::count(map)),
        ("the count byte by byte", counting::bytewise(map)),
    ] {
        if counted != wanted {
            let length = map.len();
            return Err(format!(
                "a map of {length} bytes: {name} gives {counted:?}, the second planner {wanted:?}"
            ));
        }
    }
    Ok(())
}

/// Calls that the second planner's author thinks up, arguments out of range among them.
fn random_asks(height: u16, random: &mut Random) -> Vec<Ask> {
    let most = u16::MAX.into();
    let reach = Reach {
        height: most,
        tenant: most,
        level: most,
        pages: most,
    };
    let (history, _) = generate::history(random, reach, height.into(), CALLS);
    let narrow = |number: u32| number as u16;
    let ask = |request| match request {
        Request::GrantLevel { tenant, level } => Ask::Grant {
            tenant: narrow(tenant),
            level: narrow(level),
        },
        Request::GrantPages { tenant, pages } => Ask::GrantPages {
            tenant: narrow(tenant),
            pages: narrow(pages),
        },
        Request::Release { tenant } => Ask::Release { tenant: narrow(tenant) },
        Request::Grow { tenant, level } => Ask::Grow {
            tenant: narrow(tenant),
            level: narrow(level),
        },
        Request::Join { tenant, level } => Ask::Join {
            tenant: narrow(tenant),
            level: narrow(level),
        },
        Request::Admit => Ask::Admit,
        Request::Withdraw { tenant } => Ask::Withdraw { tenant: narrow(tenant) },
    };
    history.calls.iter().map(|call| ask(call.request)).collect()
}

/// The bytes after a call, if all planners report and write the same.
fn compare(height: u16, ask: Ask, lent: &Lent) -> Result<Lent, String> {
    if ask == Ask::Count {
        same_counts(&lent.map)?;
    }
    let (wanted, after) = answer::<Second>(height, ask, lent);
    for (name, (reported, written)) in [
        ("the library", answer::<Library>(height, ask, lent)),
        ("the same algorithm in Rust", answer::<Same>(height, ask, lent)),
    ] {
        if reported != wanted {
            return Err(format!(
                "{ask:?} at height {height}: {name} reports {reported:?}, the second planner {wanted:?}"
            ));
        }
        if written != after {
            return Err(format!(
                "{ask:?} at height {height}: {name} leaves other bytes than the second planner"
            ));
        }
    }
    Ok(after)
}

fn answer<C: Contestant>(height: u16, ask: Ask, lent: &Lent) -> (Report, Lent) {
    let mut lent = lent.clone();
    let report = ask.put_to::<C>(height, &mut lent);
    (report, lent)
}
