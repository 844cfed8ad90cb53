//! Conversions of old journals: a program that converts, held against the second planner and against the listing program.

use std::io::{self, Write};

use super::{random_for, tell, Amounts, Tally};
use crate::convert::{convert, Stop};
use crate::definitions::{Node, TALLEST};
use crate::generate::{damage_journal, noise, old_journal, unnamed_of};
use crate::journal::{read, Reading, Record, LONGEST};
use crate::listing::{list, list_under};
use crate::planner::Rules;
use crate::random::Random;
use crate::shrink::shorten;

/// Journals up to this length are shortened and shown if they fail.
const SHORT: usize = 1_000;

/// What a converting program leaves on standard output and on standard error.
#[derive(Clone, Debug, PartialEq, Eq)]
pub struct Left {
    pub out: Vec<u8>,
    pub error: Vec<u8>,
}

impl Left {
    /// What has to be left for a journal on standard input.
    pub fn due(journal: &[u8]) -> Self {
        convert(journal).map_or_else(Left::refused, Left::converted)
    }

    pub fn converted(out: Vec<u8>) -> Self {
        Left { out, error: Vec::new() }
    }

    pub fn refused(stop: Stop) -> Self {
        let Stop { number, offset } = stop;
        let reason = reason(number);
        let message =
            format!("convert_pages: cannot convert standard input: {reason}, refusal {number} at offset {offset}\n");
        Left {
            out: Vec::new(),
            error: message.into_bytes(),
        }
    }
}

/// What the program says of a refusal. No journal is refused with a number that is not named here.
fn reason(number: u32) -> &'static str {
    match number {
        1 => "the height is above 12",
        11 => "the journal is empty, or its first record is no open",
        12 => "a record of unknown kind",
        13 => "the journal ends inside a record",
        14 => "an open record that is not the first",
        16 => "the journal has more than 65,536 bytes",
        _ => "the journal is refused",
    }
}

/// A program that converts, and the one that lists.
pub trait Converter {
    /// What is left of a journal on standard input.
    fn convert(&mut self, journal: &[u8]) -> Left;

    /// What the listing program writes for a journal on its standard input.
    fn list(&mut self, journal: &[u8]) -> Vec<u8>;
}

/// One part of the comparison. It gives the number of journals, or what it found.
type Part = fn(&mut dyn Converter, &Amounts, &mut Random) -> Result<usize, String>;

const PARTS: [(&str, Part); 5] = [
    ("sizes and tenants", fields),
    ("an old journal spoilt at each place", spoilt_everywhere),
    ("old journals", old_journals),
    ("spoilt journals and noise", spoilt_journals),
    ("lengths and heights", edges),
];

/// The parts with their results, each of which is only asked for when it is wanted.
fn results<'a>(
    converter: &'a mut dyn Converter,
    amounts: &'a Amounts,
) -> impl Iterator<Item = (&'static str, Result<usize, String>)> + 'a {
    PARTS
        .into_iter()
        .enumerate()
        .map(|(place, (name, part))| (name, part(converter, amounts, &mut random_for(amounts, place))))
}

/// Runs all parts and reports on each in a line, or with what it found.
pub fn run(converter: &mut dyn Converter, amounts: &Amounts, report: &mut dyn Write) -> io::Result<Tally> {
    tell(results(converter, amounts), amounts.seed, report)
}

/// The first part that does not come out the same, and what it found.
pub fn first_finding(converter: &mut dyn Converter, amounts: &Amounts) -> Option<(&'static str, String)> {
    results(converter, amounts).find_map(|(name, result)| Some((name, result.err()?)))
}

/// Has a journal converted, and compares what is left, what a second conversion makes of it, and its listing.
pub fn same_conversion(converter: &mut dyn Converter, journal: &[u8]) -> Result<(), String> {
    let left = converter.convert(journal);
    ends_as_listed(&left, &converter.list(journal))?;
    let due = Left::due(journal);
    ensure!(
        left.error == due.error,
        "standard error has {:?}, and {:?} is right",
        String::from_utf8_lossy(&left.error),
        String::from_utf8_lossy(&due.error)
    );
    if let Some(place) = first_difference(&left.out, &due.out) {
        return Err(format!(
            "{} bytes are left, and {} are right; the first difference is at {place}",
            left.out.len(),
            due.out.len()
        ));
    }
    if !left.error.is_empty() {
        return Ok(());
    }
    ensure!(
        converter.convert(&left.out) == left,
        "converted once more it is another journal"
    );
    let now = converter.list(&left.out);
    ensure!(now == list(&left.out), "the converted journal has another listing");
    let then = with_new_letters(&list_under(Rules::Version3, journal));
    ensure!(
        differs_in_repetitions_alone(&then, &now),
        "the converted journal is not answered as the old one was"
    );
    Ok(())
}

/// The place of the first byte in which two lists differ, or at which one of them ends.
fn first_difference(one: &[u8], other: &[u8]) -> Option<usize> {
    let differs = one.iter().zip(other).position(|(byte, other)| byte != other);
    differs.or((one.len() != other.len()).then_some(one.len().min(other.len())))
}

/// Something is written if the listing goes on to the journal's end; otherwise nothing but one message, which has the offset and
/// the number of the listing's last line.
fn ends_as_listed(left: &Left, listing: &[u8]) -> Result<(), String> {
    let text = String::from_utf8_lossy(listing);
    let last = text.lines().last().unwrap_or_default();
    let (bytes, error) = (left.out.len(), String::from_utf8_lossy(&left.error));
    let agrees = match last.strip_prefix("! ").and_then(|end| end.split_once(' ')) {
        None => bytes > 0 && error.is_empty(),
        Some((offset, number)) => {
            let end = format!(", refusal {number} at offset {offset}\n");
            bytes == 0 && error.ends_with(&end) && error.lines().count() == 1
        }
    };
    ensure!(
        agrees,
        "the listing ends with {last:?}, but {bytes} bytes are left, and {error:?} is said"
    );
    Ok(())
}

/// Whether the listing of a journal by the rules of version 3.0 is that of today, but for grants that are repeated.
pub fn differs_in_repetitions_alone(then: &[u8], now: &[u8]) -> bool {
    let [then, now] = [then, now].map(String::from_utf8_lossy);
    let mut lines = then.lines().zip(now.lines());
    then.lines().count() == now.lines().count()
        && lines.all(|(then, now)| then == now || is_told_as_repeated(then, now))
}

/// Whether a line that told a refusal with 8 tells a node now, and no moves.
fn is_told_as_repeated(then: &str, now: &str) -> bool {
    let answer = then.strip_suffix(" 8 - 0").and_then(|call| now.strip_prefix(call));
    let node = answer.and_then(|answer| answer.strip_prefix(" 0 ")?.strip_suffix(" 0"));
    node.is_some_and(|node| node.parse::<Node>().is_ok())
}

/// A listing with the letter of grants by level wherever 0 pages were granted: the only thing that a conversion changes.
pub fn with_new_letters(listing: &[u8]) -> Vec<u8> {
    let text = String::from_utf8_lossy(listing);
    let renamed = text.split_inclusive('\n').map(|line| {
        let fields: Vec<&str> = line.split(' ').collect();
        match fields[..] {
            [_, "P", _, "0", ..] => line.replacen('P', "G", 1),
            _ => line.to_string(),
        }
    });
    renamed.collect::<String>().into_bytes()
}

/// Compares the conversion of a journal, and shows a short one that fails if this one does.
fn check(converter: &mut dyn Converter, journal: &[u8]) -> Result<usize, String> {
    let Err(finding) = same_conversion(converter, journal) else {
        return Ok(1);
    };
    if journal.len() > SHORT {
        return Err(format!("  a journal of {} bytes: {finding}", journal.len()));
    }
    let short = shorten(&pieces(journal), |pieces| {
        same_conversion(converter, &pieces.concat()).is_err()
    });
    let finding = same_conversion(converter, &short.concat()).err().unwrap_or(finding);
    Err(format!("  journal {:?}: {finding}", short.concat()))
}

/// The records of a journal, and as a last piece what follows them and is none.
fn pieces(journal: &[u8]) -> Vec<&[u8]> {
    let mut pieces = Vec::new();
    let mut offset = 0;
    while let Reading::Record { next, .. } = read(journal, offset) {
        pieces.push(&journal[offset..next]);
        offset = next;
    }
    pieces.push(&journal[offset..]);
    pieces
}

fn check_all(converter: &mut dyn Converter, journals: impl IntoIterator<Item = Vec<u8>>) -> Result<usize, String> {
    let mut comparisons = 0;
    for journal in journals {
        comparisons += check(converter, &journal)?;
    }
    Ok(comparisons)
}

/// Every kind of record with fields at and beside their bounds, at every height: 0 pages alone are converted.
fn fields(converter: &mut dyn Converter, _: &Amounts, _: &mut Random) -> Result<usize, String> {
    check_all(converter, (0..=TALLEST as u8).map(with_all_fields))
}

fn with_all_fields(height: u8) -> Vec<u8> {
    let mut journal = Record::Open { height }.bytes();
    for tenant in [0, 1, 255, 256, 4095, 4096, 0xff00, 0xffff] {
        for pages in [0, 1, 2, 15, 16, 255, 256, 257, 0xff00, 0xffff] {
            journal.extend(Record::GrantPages { tenant, pages }.bytes());
            journal.extend(Record::Release { tenant }.bytes());
        }
        for level in [0, 1, 4, 12, 13, 255] {
            journal.extend(Record::GrantLevel { tenant, level }.bytes());
            journal.extend(Record::Grow { tenant, level }.bytes());
            journal.extend(Record::Release { tenant }.bytes());
            journal.extend(Record::Grow { tenant, level }.bytes());
            journal.extend(Record::Join { tenant, level }.bytes());
            journal.extend(Record::Admit.bytes());
            journal.extend(Record::Join { tenant, level }.bytes());
            journal.extend(Record::Withdraw { tenant }.bytes());
        }
    }
    journal
}

/// An old journal with every kind of record that there is today, also of tenants that hold a block already, or hold none.
const OLD: [u8; 69] = [
    1, 5, // open
    3, 7, 0, 0, 0, // one page for tenant 7
    2, 1, 0, 1, // level 1
    3, 2, 0, 1, 0, // one page and its guard page
    3, 7, 0, 0, 0, // the same again
    2, 7, 0, 3, // a second block
    4, 7, 0, // release
    4, 7, 0, // release of nothing
    3, 3, 0, 0, 1, // 256 pages, more than there are
    2, 4, 0, 0, // level 0
    3, 255, 15, 0, 0, // one page for tenant 4095
    3, 0, 16, 0, 0, // one page for a tenant that there is not
    5, 1, 0, 2, // growth to level 2
    5, 7, 0, 0, // growth of nothing
    9, 8, 0, 0, // join
    11, 7, 0,  // withdrawal of somebody who does not wait
    10, // admit
    11, 8, 0, // withdrawal of somebody who has been admitted
];

/// The same journal with each byte replaced, with each left out, and cut at each length.
fn spoilt_everywhere(converter: &mut dyn Converter, _: &Amounts, _: &mut Random) -> Result<usize, String> {
    let places = 0..OLD.len();
    let replaced = places.clone().flat_map(|place| {
        [0, 1, 2, 3, 4, 5, 6, 9, 10, 11, 12, 13, 200, 255].map(|value| {
            let mut journal = OLD.to_vec();
            journal[place] = value;
            journal
        })
    });
    let without = places.map(|place| [&OLD[..place], &OLD[place + 1..]].concat());
    let cut = (0..=OLD.len()).map(|length| OLD[..length].to_vec());
    check_all(converter, replaced.chain(without).chain(cut))
}

/// Journals as boxes wrote them when an image that names no size got one page.
fn old_journals(converter: &mut dyn Converter, amounts: &Amounts, random: &mut Random) -> Result<usize, String> {
    let mut comparisons = 0;
    for _ in 0..amounts.conversions {
        let records = random.index(60);
        comparisons += check(converter, &old_journal(random, records))?;
    }
    Ok(comparisons)
}

/// Such journals with damage, and bytes that are no journal except by accident.
fn spoilt_journals(converter: &mut dyn Converter, amounts: &Amounts, random: &mut Random) -> Result<usize, String> {
    let mut comparisons = 0;
    for round in 0..amounts.conversions {
        let journal = if round % 4 == 0 {
            noise(random)
        } else {
            let records = random.index(30);
            let mut journal = old_journal(random, records);
            damage_journal(random, &mut journal);
            journal
        };
        comparisons += check(converter, &journal)?;
    }
    Ok(comparisons)
}

/// Heights that there are not, journals with next to nothing in them, and the longest, whole and cut off. One that is too long
/// stays so, although the conversion would be short enough.
fn edges(converter: &mut dyn Converter, _: &Amounts, _: &mut Random) -> Result<usize, String> {
    let heights = (0..=u8::MAX).map(|height| [&Record::Open { height }.bytes()[..], &[3, 7, 0, 0, 0]].concat());
    let short: [&[u8]; 15] = [
        &[],
        &[0],
        &[1],
        &[3],
        &[3, 0, 0, 0, 0],
        &[1, 0],
        &[5, 0, 0, 0],
        &[1, 13, 5],
        &[1, 13, 200],
        &[1, 255, 1],
        &[1, 0, 1],
        &[1, 0, 1, 0],
        &[1, 0, 5],
        &[1, 0, 5, 0, 0],
        &[1, 0, 200],
    ];
    let long = (LONGEST - 1..=LONGEST + 2).chain([2 * LONGEST]).map(unnamed_of);
    let mut comparisons = check_all(converter, heights.chain(short.map(<[u8]>::to_vec)).chain(long))?;
    let mut no_opening = unnamed_of(LONGEST + 1);
    no_opening[0] = 9;
    let mut cut_off = unnamed_of(LONGEST - 1);
    cut_off.push(3);
    for journal in [no_opening, cut_off] {
        comparisons += check(converter, &journal)?;
    }
    Ok(comparisons)
}
