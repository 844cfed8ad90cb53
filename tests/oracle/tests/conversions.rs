//! Old journals converted: what they come to, and that every planted mistake in a converter is found.

use std::collections::BTreeSet;

use oracle::compare::conversions::{
    differs_in_repetitions_alone, first_finding, run, with_new_letters, Converter, Left,
};
use oracle::compare::{Amounts, Tally};
use oracle::convert::{convert, Stop};
use oracle::generate::{damage_journal, noise, old_journal, unnamed_of};
use oracle::journal::{self, Reading, Record, LONGEST};
use oracle::listing::{list, list_under};
use oracle::planner::Rules;
use oracle::random::Random;

/// Old journals, some of them spoilt, and noise.
fn journals(seed: u64, number: usize) -> impl Iterator<Item = Vec<u8>> {
    let mut random = Random::new(seed);
    (0..number).map(move |round| {
        let records = random.index(80);
        let mut journal = old_journal(&mut random, records);
        match round % 4 {
            0 => damage_journal(&mut random, &mut journal),
            1 => journal = noise(&mut random),
            _ => {}
        }
        journal
    })
}

/// What the last line of a listing says, if it ended early.
fn end_of(listing: &[u8]) -> Option<Stop> {
    let text = String::from_utf8_lossy(listing);
    let (offset, number) = text.lines().last()?.strip_prefix("! ")?.split_once(' ')?;
    Some(Stop {
        number: number.parse().expect("a number"),
        offset: offset.parse().expect("an offset"),
    })
}

#[test]
fn a_journal_is_refused_just_where_its_listing_ends_early() {
    let mut numbers = BTreeSet::new();
    let long = [LONGEST, LONGEST + 1].map(unnamed_of);
    for journal in journals(31, 2_000).chain(long) {
        let end = end_of(&list(&journal));
        assert_eq!(convert(&journal).err(), end, "{journal:?}");
        // What calls are answered has no part in that.
        assert_eq!(end_of(&list_under(Rules::Version3, &journal)), end, "{journal:?}");
        numbers.extend(end.map(|stop| stop.number));
    }
    assert_eq!(numbers, BTreeSet::from([1, 11, 12, 13, 14, 16]));
}

#[test]
fn a_converted_journal_is_answered_as_the_old_one_was() {
    let mut differently_today = 0;
    let mut with_repetitions = 0;
    for journal in journals(32, 1_000) {
        let Ok(converted) = convert(&journal) else {
            continue;
        };
        let then = with_new_letters(&list_under(Rules::Version3, &journal));
        assert_eq!(list_under(Rules::Version3, &converted), then, "{journal:?}");
        assert!(differs_in_repetitions_alone(&then, &list(&converted)), "{journal:?}");
        with_repetitions += usize::from(list(&converted) != then);
        differently_today += usize::from(list(&converted) != with_new_letters(&list(&journal)));
    }
    assert!(differently_today > 250, "{differently_today}");
    assert!(with_repetitions > 100, "{with_repetitions}");
}

#[test]
fn repeated_grants_alone_are_answered_otherwise() {
    let then = "1 O 1 - 0 - 0\n2 G 0 0 0 2 0\n3 G 0 0 8 - 0\n4 G 0 1 8 - 0\n";
    let now = |lines: &str| ["1 O 1 - 0 - 0\n2 G 0 0 0 2 0\n", lines].concat();
    let is_right = |lines| differs_in_repetitions_alone(then.as_bytes(), now(lines).as_bytes());
    assert!(is_right("3 G 0 0 8 - 0\n4 G 0 1 8 - 0\n") && is_right("3 G 0 0 0 2 0\n4 G 0 1 8 - 0\n"));
    for wrong in [
        "3 G 0 0 0 2 0\n",
        "3 G 0 0 0 - 0\n4 G 0 1 8 - 0\n",
        "3 P 0 0 0 2 0\n4 G 0 1 8 - 0\n",
        "3 G 0 0 10 - 0\n4 G 0 1 8 - 0\n",
        "3 G 0 0 0 2 1 0:2>3\n4 G 0 1 8 - 0\n",
    ] {
        assert!(!is_right(wrong), "{wrong}");
    }
}

#[test]
fn the_letters_alone_change_in_a_listing() {
    let listing = b"1 O 0 - 0 - 0\n2 P 0 0 0 16 0\n3 P 7 10 0 2 1 0:16>24\n4 G 0 0 8 - 0\n5 P 10 0 10 - 0\n! 9 12\n";
    let changed = b"1 O 0 - 0 - 0\n2 G 0 0 0 16 0\n3 P 7 10 0 2 1 0:16>24\n4 G 0 0 8 - 0\n5 G 10 0 10 - 0\n! 9 12\n";
    assert_eq!(with_new_letters(listing), changed);
}

#[test]
fn converting_twice_is_converting_once() {
    for journal in journals(33, 2_000).chain([unnamed_of(LONGEST)]) {
        if let Ok(converted) = convert(&journal) {
            assert_eq!(convert(&converted).as_ref(), Ok(&converted), "{journal:?}");
        }
    }
}

/// All that a journal's records are, one after the other, is a function of its own bytes.
#[test]
fn records_are_copied_or_become_grants_of_level_0() {
    for journal in journals(34, 1_000) {
        let Ok(converted) = convert(&journal) else {
            continue;
        };
        let expected: Vec<Record> = records(&journal)
            .into_iter()
            .map(|record| match record {
                Record::GrantPages { tenant, pages: 0 } => Record::GrantLevel { tenant, level: 0 },
                _ => record,
            })
            .collect();
        assert_eq!(records(&converted), expected, "{journal:?}");
    }
}

/// The records of a journal, as far as they can be read.
fn records(journal: &[u8]) -> Vec<Record> {
    let mut records = Vec::new();
    let mut offset = 0;
    while let Reading::Record { record, next } = journal::read(journal, offset) {
        records.push(record);
        offset = next;
    }
    records
}

/// A converter without a mistake.
struct Right;

impl Converter for Right {
    fn convert(&mut self, journal: &[u8]) -> Left {
        Left::due(journal)
    }

    fn list(&mut self, journal: &[u8]) -> Vec<u8> {
        list(journal)
    }
}

#[test]
fn nothing_is_found_where_nothing_is_wrong() {
    let mut report = Vec::new();
    let tally = run(&mut Right, &Amounts::quick(35), &mut report).expect("a report in memory");
    assert_eq!(
        tally,
        Tally { passed: 5, failed: 0 },
        "{}",
        String::from_utf8_lossy(&report)
    );
}

/// The one mistake of a converter.
#[derive(Clone, Copy, Debug, PartialEq, Eq)]
enum Fault {
    // In what is written.
    NothingConverted,
    OnePageToo,
    LowByteOfThePagesAlone,
    LevelFour,
    FiveBytesKept,
    HighByteOfTheTenantLost,
    FirstGrantAlone,
    RefusedGrantsLeftOut,
    GrowthsLeftOut,
    GrowthsBecomeGrants,
    AdmitsLeftOut,
    JoinsBecomeGrants,
    // In what is refused.
    FrontWrittenBeforeTheRefusal,
    FrontKeptWithoutARefusal,
    RefusedLinesRefuseAll,
    AnyHeightTaken,
    EmptyTaken,
    LongJournalTaken,
    GrowthsUnknown,
    WithdrawalsUnknown,
    NothingSaid,
    SaidOnStandardOutput,
    OffsetInTheConverted,
    NumberAndOffsetExchanged,
}

impl Fault {
    const ALL: [Fault; 24] = [
        Fault::NothingConverted,
        Fault::OnePageToo,
        Fault::LowByteOfThePagesAlone,
        Fault::LevelFour,
        Fault::FiveBytesKept,
        Fault::HighByteOfTheTenantLost,
        Fault::FirstGrantAlone,
        Fault::RefusedGrantsLeftOut,
        Fault::GrowthsLeftOut,
        Fault::GrowthsBecomeGrants,
        Fault::AdmitsLeftOut,
        Fault::JoinsBecomeGrants,
        Fault::FrontWrittenBeforeTheRefusal,
        Fault::FrontKeptWithoutARefusal,
        Fault::RefusedLinesRefuseAll,
        Fault::AnyHeightTaken,
        Fault::EmptyTaken,
        Fault::LongJournalTaken,
        Fault::GrowthsUnknown,
        Fault::WithdrawalsUnknown,
        Fault::NothingSaid,
        Fault::SaidOnStandardOutput,
        Fault::OffsetInTheConverted,
        Fault::NumberAndOffsetExchanged,
    ];

    /// What becomes of a journal that is to be converted.
    fn out(self, journal: &[u8]) -> Vec<u8> {
        let listing = list_under(Rules::Version3, journal);
        let text = String::from_utf8_lossy(&listing);
        let answers = text.lines().map(|line| line.split(' ').nth(4) == Some("0"));
        let mut before = 0;
        let become_bytes = |(record, is_done): (Record, bool)| {
            let (tenant, pages) = match (self, record) {
                (_, Record::GrantPages { tenant, pages }) => (tenant, pages),
                (Fault::GrowthsLeftOut, Record::Grow { .. }) => return Vec::new(),
                (Fault::AdmitsLeftOut, Record::Admit) => return Vec::new(),
                (Fault::GrowthsBecomeGrants, Record::Grow { tenant, level })
                | (Fault::JoinsBecomeGrants, Record::Join { tenant, level }) => {
                    return Record::GrantLevel { tenant, level }.bytes();
                }
                _ => return record.bytes(),
            };
            let is_first = before == 0;
            before += usize::from(pages == 0);
            let level_0 = Record::GrantLevel { tenant, level: 0 };
            match (self, pages) {
                (Fault::NothingConverted, _) => record.bytes(),
                (Fault::OnePageToo, 1) => level_0.bytes(),
                (Fault::LowByteOfThePagesAlone, _) if pages % 256 == 0 => level_0.bytes(),
                (Fault::LevelFour, 0) => Record::GrantLevel { tenant, level: 4 }.bytes(),
                (Fault::FiveBytesKept, 0) => [level_0.bytes(), vec![0]].concat(),
                (Fault::HighByteOfTheTenantLost, 0) => {
                    let tenant = tenant % 256;
                    Record::GrantLevel { tenant, level: 0 }.bytes()
                }
                (Fault::FirstGrantAlone, 0) if !is_first => record.bytes(),
                (Fault::RefusedGrantsLeftOut, 0) if !is_done => Vec::new(),
                (_, 0) => level_0.bytes(),
                _ => record.bytes(),
            }
        };
        records(journal)
            .into_iter()
            .zip(answers)
            .flat_map(become_bytes)
            .collect()
    }

    /// The offset of the first record of a kind that is taken for unknown.
    fn first_unknown(self, journal: &[u8]) -> Option<usize> {
        let is_unknown = |record: &Record| match self {
            Fault::GrowthsUnknown => matches!(record, Record::Grow { .. }),
            Fault::WithdrawalsUnknown => matches!(record, Record::Withdraw { .. }),
            _ => false,
        };
        let records = records(journal);
        let place = records.iter().position(is_unknown)?;
        Some(records[..place].iter().map(|record| record.bytes().len()).sum())
    }

    fn left(self, journal: &[u8]) -> Left {
        let due = Left::due(journal);
        match convert(journal) {
            Ok(_) if self == Fault::RefusedLinesRefuseAll && has_refused_lines(journal) => {
                Left::refused(Stop { number: 9, offset: 0 })
            }
            Ok(_) => match self.first_unknown(journal) {
                Some(offset) => Left::refused(Stop { number: 12, offset }),
                None => Left::converted(self.out(journal)),
            },
            Err(stop) => {
                let front = || convert(&journal[..stop.offset]).unwrap_or_default();
                match (self, stop.number) {
                    (Fault::FrontWrittenBeforeTheRefusal, _) => Left { out: front(), ..due },
                    (Fault::FrontKeptWithoutARefusal, 13) => Left::converted(front()),
                    (Fault::AnyHeightTaken, 1) => {
                        let lower = [&[1, 12], &journal[2..]].concat();
                        let taken = convert(&lower).map(|out| [&journal[..2], &out[2..]].concat());
                        taken.map_or_else(Left::refused, Left::converted)
                    }
                    (Fault::EmptyTaken, 11) if journal.is_empty() => Left::converted(Vec::new()),
                    (Fault::LongJournalTaken, 16) => Left::due(&journal[..LONGEST]),
                    (Fault::NothingSaid, _) => Left::converted(Vec::new()),
                    (Fault::SaidOnStandardOutput, _) => Left::converted(due.error),
                    (Fault::OffsetInTheConverted, _) => Left::refused(Stop {
                        offset: front().len(),
                        ..stop
                    }),
                    (Fault::NumberAndOffsetExchanged, _) => Left::refused(Stop {
                        number: stop.offset as u32,
                        offset: stop.number as usize,
                    }),
                    _ => due,
                }
            }
        }
    }
}

fn has_refused_lines(journal: &[u8]) -> bool {
    let listing = String::from_utf8(list_under(Rules::Version3, journal)).expect("a listing is plain text");
    listing.lines().any(|line| line.split(' ').nth(4) != Some("0"))
}

impl Converter for Fault {
    fn convert(&mut self, journal: &[u8]) -> Left {
        self.left(journal)
    }

    fn list(&mut self, journal: &[u8]) -> Vec<u8> {
        list(journal)
    }
}

#[test]
fn wrong_converters_are_found() {
    for mut fault in Fault::ALL {
        let (part, finding) =
            first_finding(&mut fault, &Amounts::quick(36)).unwrap_or_else(|| panic!("{fault:?} was not found"));
        println!("{fault:?}: {part}\n{finding}\n");
    }
}
