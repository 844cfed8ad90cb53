//! The planners that are compared, behind one set of calls.

use oracle::planner::Request;
use oracle::subject::{Images, Oracle, Reply, Subject};
use same::door::{self, Admission, Counted, Outcome};

// Not all of them are timed.
#[allow(dead_code)]
#[path = "../../tests/door/compare/src/functions.rs"]
mod functions;

use functions::{
    lend, reserve_admit, reserve_count, reserve_draw, reserve_grant_level, reserve_grant_pages, reserve_grow,
    reserve_join, reserve_open, reserve_release, reserve_withdraw,
};

/// A planner that is timed.
pub trait Contestant {
    fn open(height: u16, table: &mut [u8], line: &mut [u8]) -> u16;
    fn grant(height: u16, table: &mut [u8], line: &mut [u8], moves: &mut [u8], tenant: u16, level: u16) -> Outcome;
    fn grant_pages(
        height: u16,
        table: &mut [u8],
        line: &mut [u8],
        moves: &mut [u8],
        tenant: u16,
        pages: u16,
    ) -> Outcome;
    fn release(height: u16, table: &mut [u8], moves: &mut [u8], tenant: u16) -> Outcome;
    fn grow(height: u16, table: &mut [u8], moves: &mut [u8], tenant: u16, level: u16) -> Outcome;
    fn join(height: u16, table: &[u8], line: &mut [u8], tenant: u16, level: u16) -> u16;
    fn admit(height: u16, table: &mut [u8], line: &mut [u8], moves: &mut [u8]) -> Admission;
    fn withdraw(height: u16, table: &[u8], line: &mut [u8], tenant: u16) -> u16;
    fn draw(height: u16, table: &[u8], map: &mut [u8]) -> u16;
    fn count(map: &[u8]) -> Counted;
}

/// The proved library, through its archive.
pub struct Library;

impl Library {
    fn outcome(outcome: functions::Outcome) -> Outcome {
        Outcome {
            answer: outcome.answer,
            node: outcome.node,
            moves: outcome.moves,
        }
    }
}

// The functions are lent the bytes that each pointer and length name, for as long as the call lasts.
impl Contestant for Library {
    fn open(height: u16, table: &mut [u8], line: &mut [u8]) -> u16 {
        unsafe { lend!(reserve_open(height, [table, line])) }
    }

    fn grant(height: u16, table: &mut [u8], line: &mut [u8], moves: &mut [u8], tenant: u16, level: u16) -> Outcome {
        Library::outcome(unsafe { lend!(reserve_grant_level(height, [table, line, moves], tenant, level)) })
    }

    fn grant_pages(
        height: u16,
        table: &mut [u8],
        line: &mut [u8],
        moves: &mut [u8],
        tenant: u16,
        pages: u16,
    ) -> Outcome {
        Library::outcome(unsafe { lend!(reserve_grant_pages(height, [table, line, moves], tenant, pages)) })
    }

    fn release(height: u16, table: &mut [u8], moves: &mut [u8], tenant: u16) -> Outcome {
        Library::outcome(unsafe { lend!(reserve_release(height, [table, moves], tenant)) })
    }

    fn grow(height: u16, table: &mut [u8], moves: &mut [u8], tenant: u16, level: u16) -> Outcome {
        Library::outcome(unsafe { lend!(reserve_grow(height, [table, moves], tenant, level)) })
    }

    fn join(height: u16, table: &[u8], line: &mut [u8], tenant: u16, level: u16) -> u16 {
        let (table, table_length) = (table.as_ptr(), table.len());
        let (line, line_length) = (line.as_mut_ptr(), line.len());
        unsafe { reserve_join(height, table, table_length, line, line_length, tenant, level) }
    }

    fn admit(height: u16, table: &mut [u8], line: &mut [u8], moves: &mut [u8]) -> Admission {
        let admission = unsafe { lend!(reserve_admit(height, [table, line, moves])) };
        Admission {
            answer: admission.answer,
            tenant: admission.tenant,
            node: admission.node,
            moves: admission.moves,
        }
    }

    fn withdraw(height: u16, table: &[u8], line: &mut [u8], tenant: u16) -> u16 {
        let (table, table_length) = (table.as_ptr(), table.len());
        let (line, line_length) = (line.as_mut_ptr(), line.len());
        unsafe { reserve_withdraw(height, table, table_length, line, line_length, tenant) }
    }

    fn draw(height: u16, table: &[u8], map: &mut [u8]) -> u16 {
        unsafe { reserve_draw(height, table.as_ptr(), table.len(), map.as_mut_ptr(), map.len()) }
    }

    fn count(map: &[u8]) -> Counted {
        let counted = unsafe { reserve_count(map.as_ptr(), map.len()) };
        Counted {
            answer: counted.answer,
            count: counted.count,
        }
    }
}

/// The same algorithm in Rust.
pub struct Same;

impl Contestant for Same {
    fn open(height: u16, table: &mut [u8], line: &mut [u8]) -> u16 {
        door::same_open(height, table, line)
    }

    fn grant(height: u16, table: &mut [u8], line: &mut [u8], moves: &mut [u8], tenant: u16, level: u16) -> Outcome {
        door::same_grant_level(height, table, line, moves, tenant, level)
    }

    fn grant_pages(
        height: u16,
        table: &mut [u8],
        line: &mut [u8],
        moves: &mut [u8],
        tenant: u16,
        pages: u16,
    ) -> Outcome {
        door::same_grant_pages(height, table, line, moves, tenant, pages)
    }

    fn release(height: u16, table: &mut [u8], moves: &mut [u8], tenant: u16) -> Outcome {
        door::same_release(height, table, moves, tenant)
    }

    fn grow(height: u16, table: &mut [u8], moves: &mut [u8], tenant: u16, level: u16) -> Outcome {
        door::same_grow(height, table, moves, tenant, level)
    }

    fn join(height: u16, table: &[u8], line: &mut [u8], tenant: u16, level: u16) -> u16 {
        door::same_join(height, table, line, tenant, level)
    }

    fn admit(height: u16, table: &mut [u8], line: &mut [u8], moves: &mut [u8]) -> Admission {
        door::same_admit(height, table, line, moves)
    }

    fn withdraw(height: u16, table: &[u8], line: &mut [u8], tenant: u16) -> u16 {
        door::same_withdraw(height, table, line, tenant)
    }

    fn draw(height: u16, table: &[u8], map: &mut [u8]) -> u16 {
        door::same_draw(height, table, map)
    }

    fn count(map: &[u8]) -> Counted {
        door::same_count(map)
    }
}

/// The second planner.
pub struct Second;

/// The second planner reports numbers of 32 bits, none of which is above 65,535.
fn narrow(number: u32) -> u16 {
    number.try_into().expect("a number of 16 bits")
}

impl Second {
    fn call(height: u16, table: &mut [u8], line: &mut [u8], moves: &mut [u8], request: Request) -> Reply {
        let mut lent = Images {
            height: height.into(),
            table,
            line,
            moves,
        };
        Oracle.call(&mut lent, request)
    }

    fn outcome(height: u16, table: &mut [u8], line: &mut [u8], moves: &mut [u8], request: Request) -> Outcome {
        let reply = Second::call(height, table, line, moves, request);
        Outcome {
            answer: narrow(reply.answer),
            node: narrow(reply.node),
            moves: narrow(reply.moves),
        }
    }

    /// A join or a withdrawal, which only reads the table.
    fn stand(height: u16, table: &[u8], line: &mut [u8], request: Request) -> u16 {
        narrow(Second::call(height, &mut table.to_vec(), line, &mut [], request).answer)
    }
}

impl Contestant for Second {
    fn open(height: u16, table: &mut [u8], line: &mut [u8]) -> u16 {
        narrow(Oracle.open(height.into(), table, line))
    }

    fn grant(height: u16, table: &mut [u8], line: &mut [u8], moves: &mut [u8], tenant: u16, level: u16) -> Outcome {
        let (tenant, level) = (tenant.into(), level.into());
        Second::outcome(height, table, line, moves, Request::GrantLevel { tenant, level })
    }

    fn grant_pages(
        height: u16,
        table: &mut [u8],
        line: &mut [u8],
        moves: &mut [u8],
        tenant: u16,
        pages: u16,
    ) -> Outcome {
        let (tenant, pages) = (tenant.into(), pages.into());
        Second::outcome(height, table, line, moves, Request::GrantPages { tenant, pages })
    }

    fn release(height: u16, table: &mut [u8], moves: &mut [u8], tenant: u16) -> Outcome {
        let tenant = tenant.into();
        Second::outcome(height, table, &mut [], moves, Request::Release { tenant })
    }

    fn grow(height: u16, table: &mut [u8], moves: &mut [u8], tenant: u16, level: u16) -> Outcome {
        let (tenant, level) = (tenant.into(), level.into());
        Second::outcome(height, table, &mut [], moves, Request::Grow { tenant, level })
    }

    fn join(height: u16, table: &[u8], line: &mut [u8], tenant: u16, level: u16) -> u16 {
        let (tenant, level) = (tenant.into(), level.into());
        Second::stand(height, table, line, Request::Join { tenant, level })
    }

    fn admit(height: u16, table: &mut [u8], line: &mut [u8], moves: &mut [u8]) -> Admission {
        let reply = Second::call(height, table, line, moves, Request::Admit);
        Admission {
            answer: narrow(reply.answer),
            tenant: narrow(reply.tenant),
            node: narrow(reply.node),
            moves: narrow(reply.moves),
        }
    }

    fn withdraw(height: u16, table: &[u8], line: &mut [u8], tenant: u16) -> u16 {
        let tenant = tenant.into();
        Second::stand(height, table, line, Request::Withdraw { tenant })
    }

    fn draw(height: u16, table: &[u8], map: &mut [u8]) -> u16 {
        narrow(Oracle.draw(height.into(), table, map))
    }

    fn count(map: &[u8]) -> Counted {
        let counted = Oracle.count(map);
        Counted {
            answer: narrow(counted.answer),
            count: narrow(counted.pages),
        }
    }
}
