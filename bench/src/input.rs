//! A call with the bytes that it is lent, and how it is put to a planner.

use oracle::page_map::MAP_BYTES;
use oracle::subject::{FEWEST_MOVE_BYTES, FEWEST_MOVE_BYTES_TO_GROW, LINE_BYTES, TABLE_BYTES};
use same::door::{Admission, Outcome, NOBODY};

use crate::contestant::Contestant;

pub type Table = [u8; TABLE_BYTES];
pub type Line = [u8; LINE_BYTES];
pub type Map = [u8; MAP_BYTES];

/// What a planner is asked.
#[derive(Clone, Copy, Debug, PartialEq, Eq)]
pub enum Ask {
    Open,
    Grant { tenant: u16, level: u16 },
    GrantPages { tenant: u16, pages: u16 },
    Release { tenant: u16 },
    Grow { tenant: u16, level: u16 },
    Join { tenant: u16, level: u16 },
    Admit,
    Withdraw { tenant: u16 },
    Map,
    Count,
}

/// The bytes that a call is lent.
#[derive(Clone, PartialEq, Eq)]
pub struct Lent {
    pub table: Table,
    pub line: Line,
    /// All are lent to a growth, and as many as they need to the other calls.
    pub moves: [u8; FEWEST_MOVE_BYTES_TO_GROW],
    pub map: Map,
}

/// What a planner reports; the tenant is the one that an admit granted, else [`NOBODY`].
#[derive(Clone, Copy, Debug, PartialEq, Eq)]
pub struct Report {
    pub answer: u16,
    pub tenant: u16,
    pub node: u16,
    pub moves: u16,
}

impl Report {
    /// That of a call that names and moves nobody.
    fn of(answer: u16, node: u16) -> Report {
        Report {
            answer,
            tenant: NOBODY,
            node,
            moves: 0,
        }
    }
}

impl From<Outcome> for Report {
    fn from(Outcome { answer, node, moves }: Outcome) -> Report {
        Report {
            moves,
            ..Report::of(answer, node)
        }
    }
}

impl From<Admission> for Report {
    fn from(admission: Admission) -> Report {
        Report {
            answer: admission.answer,
            tenant: admission.tenant,
            node: admission.node,
            moves: admission.moves,
        }
    }
}

/// A call that is timed.
#[derive(Clone)]
pub struct Input {
    pub height: u16,
    pub ask: Ask,
    pub lent: Box<Lent>,
}

impl Lent {
    /// The table and the line given, and bytes that no planner wrote in the rest.
    pub fn new(table: Table, line: Line) -> Lent {
        Lent {
            table,
            line,
            moves: [0xA5; FEWEST_MOVE_BYTES_TO_GROW],
            map: [0xA5; MAP_BYTES],
        }
    }
}

impl Ask {
    pub fn name(self) -> &'static str {
        match self {
            Ask::Open => "open",
            Ask::Grant { .. } | Ask::GrantPages { .. } => "grant",
            Ask::Release { .. } => "release",
            Ask::Grow { .. } => "growth",
            Ask::Join { .. } => "join",
            Ask::Admit => "admit",
            Ask::Withdraw { .. } => "withdrawal",
            Ask::Map => "map",
            Ask::Count => "count",
        }
    }

    /// Asks a planner. The number of pages counted is reported as the node.
    pub fn put_to<C: Contestant>(self, height: u16, lent: &mut Lent) -> Report {
        let Lent {
            table,
            line,
            moves,
            map,
        } = lent;
        let few = &mut moves[..FEWEST_MOVE_BYTES];
        match self {
            Ask::Grant { tenant, level } => C::grant(height, table, line, few, tenant, level).into(),
            Ask::GrantPages { tenant, pages } => C::grant_pages(height, table, line, few, tenant, pages).into(),
            Ask::Release { tenant } => C::release(height, table, few, tenant).into(),
            Ask::Grow { tenant, level } => C::grow(height, table, moves, tenant, level).into(),
            Ask::Admit => C::admit(height, table, line, few).into(),
            Ask::Join { tenant, level } => Report::of(C::join(height, table, line, tenant, level), 0),
            Ask::Withdraw { tenant } => Report::of(C::withdraw(height, table, line, tenant), 0),
            Ask::Open => Report::of(C::open(height, table, line), 0),
            Ask::Map => Report::of(C::draw(height, table, map), 0),
            Ask::Count => {
                let counted = C::count(map);
                Report::of(counted.answer, counted.count)
            }
        }
    }
}
