//! Journals, in order and spoilt.

use super::{Author, Step};
use crate::book::Book;
use crate::definitions::{Tree, TALLEST};
use crate::journal::{self, Reading, Record, LONGEST};
use crate::planner::Request;
use crate::random::Random;
use crate::subject::Reach;

/// As far as the fields of a journal's records reach.
const IN_RECORDS: Reach = Reach {
    height: u8::MAX as u32,
    tenant: u16::MAX as u32,
    level: u8::MAX as u32,
    pages: u16::MAX as u32,
};

fn record_of(request: Request) -> Record {
    match request {
        Request::GrantLevel { tenant, level } => Record::GrantLevel {
            tenant: tenant as u16,
            level: level as u8,
        },
        Request::GrantPages { tenant, pages } => Record::GrantPages {
            tenant: tenant as u16,
            pages: pages as u16,
        },
        Request::Release { tenant } => Record::Release { tenant: tenant as u16 },
        Request::Grow { tenant, level } => Record::Grow {
            tenant: tenant as u16,
            level: level as u8,
        },
        Request::Join { tenant, level } => Record::Join {
            tenant: tenant as u16,
            level: level as u8,
        },
        Request::Admit => Record::Admit,
        Request::Withdraw { tenant } => Record::Withdraw { tenant: tenant as u16 },
    }
}

/// Requests from an opening on, with every grant repeated at once.
pub fn with_repetitions(random: &mut Random, height: u32, requests: usize) -> Vec<Step> {
    let mut author = Author::new(random, IN_RECORDS, Book::new(Tree::new(height)));
    (0..requests).map(|_| author.step()).collect()
}

/// A journal as a box would write it, and sometimes one with a height that no box has. In half of them most is about the line.
pub fn journal(random: &mut Random, records: usize) -> Vec<u8> {
    let height = match random.below(20) {
        0 => random.byte(),
        1 => 13,
        _ => random.below(TALLEST + 1) as u8,
    };
    let book = Book::new(Tree::new(u32::from(height).min(TALLEST)));
    let mut author = match random.one_in(2) {
        true => Author::new(random, IN_RECORDS, book),
        false => Author::beside_a_line(random, IN_RECORDS, book),
    };
    let requests: Vec<Request> = (0..records).map(|_| author.answered().0).collect();
    journal_with(height, &requests)
}

/// The journal of some requests.
pub fn journal_with(height: u8, requests: &[Request]) -> Vec<u8> {
    let open = Record::Open { height };
    let records = requests.iter().map(|&request| record_of(request));
    [open]
        .into_iter()
        .chain(records)
        .flat_map(|record| record.bytes())
        .collect()
}

/// A journal as a box wrote it when an image that names no size got one page: blocks of one page are granted either way.
pub fn old_journal(random: &mut Random, records: usize) -> Vec<u8> {
    let today = journal(random, records);
    let mut bytes = Vec::new();
    let mut offset = 0;
    while let Reading::Record { record, next } = journal::read(&today, offset) {
        let older = match record {
            Record::GrantLevel { tenant, level: 0 } if random.one_in(2) => Record::GrantPages { tenant, pages: 0 },
            _ => record,
        };
        bytes.extend(older.bytes());
        offset = next;
    }
    bytes
}

/// Spoils a journal in one of the ways in which files get spoilt.
pub fn damage_journal(random: &mut Random, journal: &mut Vec<u8>) {
    if journal.is_empty() {
        return;
    }
    let place = random.index(journal.len());
    match random.below(7) {
        0 => journal[place] = random.byte(),
        1 => journal[place] = about_a_kind(random),
        2 => journal.truncate(place),
        3 => drop(journal.remove(place)),
        4 => journal.insert(place, about_a_kind(random)),
        5 => journal.extend(Record::Open { height: random.byte() }.bytes()),
        _ => journal.push(about_a_kind(random)),
    }
}

/// A kind, or a number between the kinds or next to them.
fn about_a_kind(random: &mut Random) -> u8 {
    random.below(13) as u8
}

/// Bytes that are no journal except by accident.
pub fn noise(random: &mut Random) -> Vec<u8> {
    let length = random.index(40);
    let mut bytes = noise_of(random, length);
    if random.one_in(2) && !bytes.is_empty() {
        bytes[0] = 1;
    }
    bytes
}

/// So many bytes of which most are kinds.
pub fn noise_of(random: &mut Random, length: usize) -> Vec<u8> {
    (0..length).map(|_| about_a_kind(random)).collect()
}

/// A journal of just this length, nearly all of it grants of 0 pages.
pub fn unnamed_of(length: usize) -> Vec<u8> {
    assert!(length >= 14);
    let mut bytes = Record::Open { height: 2 }.bytes();
    while !(length - bytes.len()).is_multiple_of(5) {
        bytes.extend(Record::Release { tenant: 7 }.bytes());
    }
    while bytes.len() < length {
        bytes.extend(Record::GrantPages { tenant: 7, pages: 0 }.bytes());
    }
    bytes
}

/// A journal of just this length, with as many records as go into it.
pub fn admits_of(length: usize) -> Vec<u8> {
    let mut bytes = Record::Open { height: 2 }.bytes();
    bytes.resize(length, 10);
    bytes
}

/// A journal of just this length, with nothing wrong but perhaps its length.
pub fn journal_of(length: usize) -> Vec<u8> {
    assert!((10..=LONGEST + 8).contains(&length));
    let mut bytes = Record::Open { height: 2 }.bytes();
    while !(length - bytes.len()).is_multiple_of(3) {
        bytes.extend(Record::GrantLevel { tenant: 0, level: 1 }.bytes());
    }
    while bytes.len() < length {
        bytes.extend(Record::Release { tenant: 7 }.bytes());
    }
    bytes
}
