//! Reading, writing and listing journals.

use super::lent::{pattern, Lent};
use super::Amounts;
use crate::generate::{admits_of, damage_journal, journal, journal_of, noise, noise_of};
use crate::journal::{Reading, Record, LONGEST};
use crate::random::Random;
use crate::refusal::DONE;
use crate::shrink::shorten;
use crate::subject::{Oracle, Subject};

/// Journals up to this length are shown if they fail.
const SHORT: usize = 400;

/// Bytes to write into that are far longer than any record.
const LONG: [usize; 5] = [9, 64, 4_096, LONGEST, LONGEST + 1];

/// Records with edge values and random ones, written into lent bytes of all lengths that matter and into long ones.
pub fn records(subject: &mut dyn Subject, amounts: &Amounts, random: &mut Random) -> Result<usize, String> {
    let mut comparisons = 0;
    for round in 0..amounts.journals {
        let (byte, word, other) = match round {
            0 => (0, 0, 0),
            1 => (0xff, 0xffff, 0xffff),
            _ => (random.byte(), random.next_number() as u16, random.next_number() as u16),
        };
        let records = [
            Record::Open { height: byte },
            Record::GrantLevel {
                tenant: word,
                level: byte,
            },
            Record::GrantPages {
                tenant: word,
                pages: other,
            },
            Record::Release { tenant: word },
            Record::Grow {
                tenant: word,
                level: byte,
            },
            Record::Join {
                tenant: word,
                level: byte,
            },
            Record::Admit,
            Record::Withdraw { tenant: word },
        ];
        // Long bytes are all the same to a record's fields, so a few records are enough there.
        let long = if round < 20 { &LONG[..] } else { &[] };
        for record in records {
            for length in (0..8).chain(long.iter().copied()) {
                same_written(subject, &record, length)
                    .map_err(|finding| format!("  {record:?} into {length} bytes: {finding}"))?;
                comparisons += 1;
            }
        }
    }
    Ok(comparisons)
}

/// Has both planners write a record into lent bytes of a length.
pub fn same_written(subject: &mut dyn Subject, record: &Record, length: usize) -> Result<(), String> {
    let mut right_bytes = pattern(length);
    let mut lent = Lent::new(&right_bytes);
    let right = Oracle.write(record, &mut right_bytes);
    let answer = subject.write(record, lent.lend());
    ensure!(answer == right, "writing answers {answer}, and {right} is right");
    lent.expect("journal", &right_bytes)
}

/// Journals that are in order, spoilt, made of noise, or of edge lengths, read at all offsets and listed.
pub fn journals(subject: &mut dyn Subject, amounts: &Amounts, random: &mut Random) -> Result<usize, String> {
    let mut comparisons = 0;
    for round in 0..amounts.journals {
        let mut bytes = match round % 4 {
            0 => noise(random),
            _ => {
                let records = random.index(40);
                journal(random, records)
            }
        };
        for _ in 0..round % 4 / 2 {
            damage_journal(random, &mut bytes);
        }
        comparisons += check_journal(subject, &bytes)?;
    }
    // Long journals come last, because what goes wrong in a short one too is better seen there.
    Ok(comparisons + journal_edges(subject, random)?)
}

/// The longest journals, those that are too long, and those that are wrong in more than one way. The long ones have records
/// one after the other, or one in each byte, or noise with a record of some kind at most offsets.
fn journal_edges(subject: &mut dyn Subject, random: &mut Random) -> Result<usize, String> {
    let mut comparisons = 0;
    let short: [&[u8]; 24] = [
        &[],
        &[0],
        &[1],
        &[2],
        &[1, 13],
        &[1, 255, 9],
        &[1, 0, 1],
        &[1, 0, 1, 0],
        &[1, 0, 200],
        &[1, 0, 5],
        &[1, 0, 5, 0, 0],
        &[1, 0, 5, 0, 0, 0],
        &[1, 0, 9, 0, 0],
        &[1, 0, 9, 0, 0, 0],
        &[1, 0, 10],
        &[1, 0, 10, 0],
        &[1, 0, 11, 0],
        &[1, 0, 11, 0, 0],
        &[1, 0, 6, 0],
        &[1, 0, 7, 0, 0],
        &[1, 0, 8, 0, 0, 0, 0],
        &[5, 0, 0, 0],
        &[10],
        &[1, 1, 1, 1, 1],
    ];
    for bytes in short {
        comparisons += check_journal(subject, bytes)?;
    }
    for length in LONGEST - 1..=LONGEST + 2 {
        for mut bytes in [journal_of(length), admits_of(length), noise_of(random, length)] {
            bytes[0] = 1;
            comparisons += check_journal(subject, &bytes)?;
            bytes[0] = 200;
            comparisons += check_journal(subject, &bytes)?;
        }
    }
    Ok(comparisons)
}

/// Compares all that can be had from a journal, and shows a short one that fails if this one does.
fn check_journal(subject: &mut dyn Subject, bytes: &[u8]) -> Result<usize, String> {
    let Err(finding) = same_journal(subject, bytes) else {
        return Ok(offsets_of(bytes).count() + 1);
    };
    // A journal that only fails for being too long cannot be shown in few bytes, and need not be.
    if bytes.len() > SHORT {
        return Err(format!("  a journal of {} bytes: {finding}", bytes.len()));
    }
    let short = shorten(bytes, |bytes| same_journal(subject, bytes).is_err());
    let finding = same_journal(subject, &short).err().unwrap_or(finding);
    Err(format!("  journal {short:?}: {finding}"))
}

/// All offsets of a journal, and some past its end.
fn offsets_of(bytes: &[u8]) -> impl Iterator<Item = usize> {
    let length = bytes.len();
    (0..=length + 2).chain([LONGEST, LONGEST + 1, usize::MAX])
}

fn same_journal(subject: &mut dyn Subject, bytes: &[u8]) -> Result<(), String> {
    same_readings(subject, bytes, offsets_of(bytes))?;
    same_listing(&subject.list(bytes), &Oracle.list(bytes))
}

/// Has both planners read a journal at some offsets, and what is a record there written back.
pub fn same_readings(
    subject: &mut dyn Subject,
    bytes: &[u8],
    offsets: impl IntoIterator<Item = usize>,
) -> Result<(), String> {
    for offset in offsets {
        let right = Oracle.read(bytes, offset);
        let reading = subject.read(bytes, offset);
        ensure!(
            reading == right,
            "at offset {offset} there is {reading:?}, and {right:?} is right"
        );
        if let Reading::Record { record, next } = reading {
            writes_back(subject, &record, &bytes[offset..next])?;
        }
    }
    Ok(())
}

/// Compares two listings and shows the first lines that differ.
pub(super) fn same_listing(listing: &[u8], right: &[u8]) -> Result<(), String> {
    if listing == right {
        return Ok(());
    }
    let is_end = |byte: &u8| *byte == b'\n';
    let mut lines = listing.split_inclusive(is_end);
    let mut right_lines = right.split_inclusive(is_end);
    let mut number = 1;
    loop {
        let (line, right_line) = (lines.next(), right_lines.next());
        if line != right_line {
            let show = |line: Option<&[u8]>| line.map(|line| String::from_utf8_lossy(line).into_owned());
            return Err(format!(
                "line {number} of the listing is {:?}, and {:?} is right",
                show(line),
                show(right_line)
            ));
        }
        number += 1;
    }
}

/// What is read is what the writer of the same planner gives.
fn writes_back(subject: &mut dyn Subject, record: &Record, bytes: &[u8]) -> Result<(), String> {
    let mut lent = Lent::new(&pattern(bytes.len()));
    let answer = subject.write(record, lent.lend());
    ensure!(answer == DONE, "writing {record:?} back answers {answer}");
    lent.expect("journal", bytes)
}
