//! The planner behind the C door as a subject of the comparison.

use oracle::definitions::Node;
use oracle::journal::{Reading, Record};
use oracle::planner::Request;
use oracle::subject::{self, Count, Images, Reach, Reply, Subject, NOBODY};

use crate::functions::*;
use crate::listing;

/// A number that [`Subject::reach`] lets through.
fn narrow(number: u32) -> u16 {
    number.try_into().expect("no number beyond the reach is handed over")
}

impl From<Outcome> for Reply {
    fn from(outcome: Outcome) -> Reply {
        Reply {
            answer: outcome.answer.into(),
            tenant: NOBODY,
            node: outcome.node.into(),
            moves: outcome.moves.into(),
        }
    }
}

impl From<Admission> for Reply {
    fn from(admission: Admission) -> Reply {
        Reply {
            answer: admission.answer.into(),
            tenant: admission.tenant.into(),
            node: admission.node.into(),
            moves: admission.moves.into(),
        }
    }
}

/// The record that the reader's numbers name.
fn record(read: &Read) -> Record {
    let byte = |number: u16| number.try_into().expect("a field of one byte");
    match read.kind {
        1 => Record::Open { height: byte(read.who) },
        2 => Record::GrantLevel {
            tenant: read.who,
            level: byte(read.size),
        },
        3 => Record::GrantPages {
            tenant: read.who,
            pages: read.size,
        },
        4 => Record::Release { tenant: read.who },
        5 => Record::Grow {
            tenant: read.who,
            level: byte(read.size),
        },
        9 => Record::Join {
            tenant: read.who,
            level: byte(read.size),
        },
        10 => Record::Admit,
        11 => Record::Withdraw { tenant: read.who },
        kind => panic!("a record of kind {kind}"),
    }
}

/// The planner behind the C door. Slices pass as pointer and length, and nothing is checked or mended on the way.
#[derive(Clone)]
pub struct Door;

impl Subject for Door {
    fn reach(&self) -> Reach {
        let most = u16::MAX.into();
        Reach {
            height: most,
            tenant: most,
            level: most,
            pages: most,
        }
    }

    fn open(&mut self, height: u32, table: &mut [u8], line: &mut [u8]) -> u32 {
        unsafe { lend!(reserve_open(narrow(height), [table, line])) }.into()
    }

    fn call(&mut self, lent: &mut Images, request: Request) -> Reply {
        let Images {
            height,
            table,
            line,
            moves,
        } = lent;
        let height = narrow(*height);
        unsafe {
            match request {
                Request::GrantLevel { tenant, level } => lend!(reserve_grant_level(
                    height,
                    [table, line, moves],
                    narrow(tenant),
                    narrow(level)
                ))
                .into(),
                Request::GrantPages { tenant, pages } => lend!(reserve_grant_pages(
                    height,
                    [table, line, moves],
                    narrow(tenant),
                    narrow(pages)
                ))
                .into(),
                Request::Release { tenant } => lend!(reserve_release(height, [table, moves], narrow(tenant))).into(),
                Request::Grow { tenant, level } => {
                    lend!(reserve_grow(height, [table, moves], narrow(tenant), narrow(level))).into()
                }
                Request::Join { tenant, level } => {
                    Reply::number(lend!(reserve_join(height, [table, line], narrow(tenant), narrow(level))).into())
                }
                Request::Admit => lend!(reserve_admit(height, [table, line, moves])).into(),
                Request::Withdraw { tenant } => {
                    Reply::number(lend!(reserve_withdraw(height, [table, line], narrow(tenant))).into())
                }
            }
        }
    }

    fn look(&mut self, table: &[u8], tenant: u32) -> subject::Entry {
        let entry = unsafe { reserve_look(table.as_ptr(), table.len(), narrow(tenant)) };
        subject::Entry {
            answer: entry.answer.into(),
            node: entry.node.into(),
        }
    }

    fn level_of_pages(&mut self, height: u32, pages: u32) -> subject::Level {
        let level = unsafe { reserve_level_of_pages(narrow(height), narrow(pages)) };
        subject::Level {
            answer: level.answer.into(),
            level: level.level.into(),
        }
    }

    fn node_pages(&mut self, height: u32, node: Node) -> subject::Pages {
        let pages = unsafe { reserve_node_pages(narrow(height), node) };
        subject::Pages {
            answer: pages.answer.into(),
            first: pages.first.into(),
            count: pages.count.into(),
        }
    }

    fn draw(&mut self, height: u32, table: &[u8], map: &mut [u8]) -> u32 {
        unsafe { reserve_draw(narrow(height), table.as_ptr(), table.len(), map.as_mut_ptr(), map.len()) }.into()
    }

    fn count(&mut self, map: &[u8]) -> Count {
        let counted = unsafe { reserve_count(map.as_ptr(), map.len()) };
        Count {
            answer: counted.answer.into(),
            pages: counted.count.into(),
        }
    }

    fn read(&mut self, journal: &[u8], offset: usize) -> Reading {
        let read = unsafe { reserve_read(journal.as_ptr(), journal.len(), offset) };
        if read.answer != 0 || read.kind == 0 {
            assert_eq!(
                [read.kind, read.who, read.size],
                [0; 3],
                "no record at {offset}, but its fields"
            );
        }
        if read.answer != 0 {
            return Reading::Refused {
                number: read.answer.into(),
                offset: read.offset,
            };
        }
        if read.kind == 0 {
            assert_eq!(read.offset, offset, "the end is reported elsewhere than asked");
            return Reading::End;
        }
        Reading::Record {
            record: record(&read),
            next: read.offset,
        }
    }

    fn write(&mut self, record: &Record, lent: &mut [u8]) -> u32 {
        let (out, length) = (lent.as_mut_ptr(), lent.len());
        let written = unsafe {
            match *record {
                Record::Open { height } => reserve_write_open(height, out, length),
                Record::GrantLevel { tenant, level } => reserve_write_grant_level(tenant, level, out, length),
                Record::GrantPages { tenant, pages } => reserve_write_grant_pages(tenant, pages, out, length),
                Record::Release { tenant } => reserve_write_release(tenant, out, length),
                Record::Grow { tenant, level } => reserve_write_grow(tenant, level, out, length),
                Record::Join { tenant, level } => reserve_write_join(tenant, level, out, length),
                Record::Admit => reserve_write_admit(out, length),
                Record::Withdraw { tenant } => reserve_write_withdraw(tenant, out, length),
            }
        };
        let bytes = if written.answer == 0 { record.bytes().len() } else { 0 };
        assert_eq!(written.length, bytes, "the length reported for {record:?}");
        written.answer.into()
    }

    fn list(&mut self, journal: &[u8]) -> Vec<u8> {
        listing::list(journal)
    }
}
