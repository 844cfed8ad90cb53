//! The functions of include/reserve.h that are compared, over slices.

use crate::calls::{self, Done};
use crate::image::{self, LINE_BYTES, MOVE_BYTES, TABLE_BYTES};
use crate::layout::layout;
use crate::line::Line;
use crate::page_map::{self, MAP_BYTES};
use crate::plan::MOST;
use crate::survey::survey;
use crate::{LEVELS, NODES, TENANTS};

/// The fewest entries of a list of moves for a grant, an admit or a release; a growth needs as many as there can be moves.
const FEWEST: usize = 4;

/// What stands for no tenant.
pub const NOBODY: u16 = u16::MAX;

/// What a grant, a release or a growth reports.
#[repr(C)]
#[derive(Clone, Copy, Debug, PartialEq, Eq)]
pub struct Outcome {
    pub answer: u16,
    pub node: u16,
    pub moves: u16,
}

/// What an admit reports.
#[repr(C)]
#[derive(Clone, Copy, Debug, PartialEq, Eq)]
pub struct Admission {
    pub answer: u16,
    pub tenant: u16,
    pub node: u16,
    pub moves: u16,
}

/// What counting a map reports.
#[repr(C)]
#[derive(Clone, Copy, Debug, PartialEq, Eq)]
pub struct Counted {
    pub answer: u16,
    pub count: u16,
}

#[inline(never)]
pub fn same_open(height: u16, table: &mut [u8], line: &mut [u8]) -> u16 {
    let checked = check_reserve(height, table).and_then(|()| check_line(line));
    number(checked.map(|()| {
        table.fill(0);
        line.fill(0);
    }))
}

#[inline(never)]
pub fn same_grant_level(
    height: u16,
    table: &mut [u8],
    line: &mut [u8],
    moves: &mut [u8],
    tenant: u16,
    level: u16,
) -> Outcome {
    let asked = || check_level(height, level).map(|()| level);
    outcome(grant(height, table, line, moves, tenant, asked))
}

#[inline(never)]
pub fn same_grant_pages(
    height: u16,
    table: &mut [u8],
    line: &mut [u8],
    moves: &mut [u8],
    tenant: u16,
    pages: u16,
) -> Outcome {
    let asked = || {
        if pages >= 1 << height {
            return Err(6);
        }
        Ok(level_for(height, pages))
    };
    outcome(grant(height, table, line, moves, tenant, asked))
}

#[inline(never)]
pub fn same_release(height: u16, table: &mut [u8], moves: &mut [u8], tenant: u16) -> Outcome {
    outcome(call(height, table, moves, FEWEST, tenant, |nodes| {
        calls::release(height, nodes, tenant)
    }))
}

#[inline(never)]
pub fn same_grow(height: u16, table: &mut [u8], moves: &mut [u8], tenant: u16, level: u16) -> Outcome {
    outcome(call(height, table, moves, MOST, tenant, |nodes| {
        check_level(height, level)?;
        calls::grow(height, nodes, tenant, level)
    }))
}

#[inline(never)]
pub fn same_join(height: u16, table: &[u8], line: &mut [u8], tenant: u16, level: u16) -> u16 {
    number(stand(height, table, line, tenant, |nodes, numbers| {
        check_level(height, level)?;
        calls::join(height, nodes, numbers, tenant, level)
    }))
}

#[inline(never)]
pub fn same_admit(height: u16, table: &mut [u8], line: &mut [u8], moves: &mut [u8]) -> Admission {
    let (answer, named) = match admit(height, table, line, moves) {
        Ok(named) => (0, named),
        Err(answer) => (answer, None),
    };
    let (tenant, node, moves) = named.map_or((NOBODY, 0, 0), |(tenant, done)| {
        (tenant, done.node, done.plan.moves().len() as u16)
    });
    Admission {
        answer,
        tenant,
        node,
        moves,
    }
}

#[inline(never)]
pub fn same_withdraw(height: u16, table: &[u8], line: &mut [u8], tenant: u16) -> u16 {
    number(stand(height, table, line, tenant, |nodes, numbers| {
        calls::withdraw(height, nodes, numbers, tenant)
    }))
}

#[inline(never)]
pub fn same_draw(height: u16, table: &[u8], map: &mut [u8]) -> u16 {
    number(draw(height, table, map))
}

#[inline(never)]
pub fn same_count(map: &[u8]) -> Counted {
    match map.first_chunk::<MAP_BYTES>() {
        Some(map) => Counted {
            answer: 0,
            count: page_map::count(map),
        },
        None => Counted { answer: 15, count: 0 },
    }
}

fn draw(height: u16, table: &[u8], map: &mut [u8]) -> Result<(), u16> {
    check_reserve(height, table)?;
    let nodes = image::decode(table);
    let mut owners = [0; NODES];
    let counts = survey(height, &nodes, &mut owners).ok_or(7u16)?;
    let map = map.first_chunk_mut().ok_or(15u16)?;
    page_map::draw(&layout(&counts), map);
    Ok(())
}

/// Carries out a release or a growth on a decoded table, and writes the table and the moves if it was accepted.
#[inline(always)]
fn call(
    height: u16,
    table: &mut [u8],
    moves: &mut [u8],
    fewest: usize,
    tenant: u16,
    change: impl FnOnce(&mut [u16; TENANTS]) -> Result<Done, u16>,
) -> Result<Done, u16> {
    check_reserve(height, table)?;
    check_moves(moves, fewest)?;
    check_tenant(tenant)?;
    let mut nodes = image::decode(table);
    let done = change(&mut nodes)?;
    image::encode(&nodes, table);
    image::put_moves(&done.plan, moves);
    Ok(done)
}

/// Carries out a grant of the level that is asked for, on a decoded table and a decoded line.
#[inline(always)]
fn grant(
    height: u16,
    table: &mut [u8],
    line: &mut [u8],
    moves: &mut [u8],
    tenant: u16,
    asked: impl FnOnce() -> Result<u16, u16>,
) -> Result<Done, u16> {
    check_reserve(height, table)?;
    check_line(line)?;
    check_moves(moves, FEWEST)?;
    check_tenant(tenant)?;
    let level = asked()?;
    let (mut nodes, mut numbers) = (image::decode(table), image::decode(line));
    let done = calls::grant(height, &mut nodes, &mut numbers, tenant, level)?;
    image::encode(&nodes, table);
    image::encode(&numbers, line);
    image::put_moves(&done.plan, moves);
    Ok(done)
}

/// Carries out an admit on a decoded table and a decoded line, and writes all if somebody was granted a block.
#[inline(always)]
fn admit(height: u16, table: &mut [u8], line: &mut [u8], moves: &mut [u8]) -> Result<Option<(u16, Done)>, u16> {
    check_reserve(height, table)?;
    check_line(line)?;
    check_moves(moves, FEWEST)?;
    let (mut nodes, mut numbers) = (image::decode(table), image::decode(line));
    let named = calls::admit(height, &mut nodes, &mut numbers)?;
    if let Some((_, done)) = &named {
        image::encode(&nodes, table);
        image::encode(&numbers, line);
        image::put_moves(&done.plan, moves);
    }
    Ok(named)
}

/// Carries out a join or a withdrawal, which writes the line alone.
#[inline(always)]
fn stand(
    height: u16,
    table: &[u8],
    line: &mut [u8],
    tenant: u16,
    change: impl FnOnce(&[u16; TENANTS], &mut Line) -> Result<(), u16>,
) -> Result<(), u16> {
    check_reserve(height, table)?;
    check_line(line)?;
    check_tenant(tenant)?;
    let mut numbers = image::decode(line);
    change(&image::decode(table), &mut numbers)?;
    image::encode(&numbers, line);
    Ok(())
}

/// The smallest level whose block has so many pages and a guard page, that is more than so many; sixteen pages for no size, or
/// the whole of a reserve that has fewer.
fn level_for(height: u16, pages: u16) -> u16 {
    pages
        .checked_ilog2()
        .map_or(height.min(4), |highest| highest as u16 + 1)
}

/// Refusals 1 and 2.
fn check_reserve(height: u16, table: &[u8]) -> Result<(), u16> {
    if usize::from(height) >= LEVELS {
        return Err(1);
    }
    if table.len() != TABLE_BYTES {
        return Err(2);
    }
    Ok(())
}

/// Refusal 2 of the line.
fn check_line(line: &[u8]) -> Result<(), u16> {
    (line.len() == LINE_BYTES).then_some(()).ok_or(2)
}

/// Refusal 3.
fn check_moves(moves: &[u8], fewest: usize) -> Result<(), u16> {
    (moves.len() >= fewest * MOVE_BYTES).then_some(()).ok_or(3)
}

/// Refusal 4.
fn check_tenant(tenant: u16) -> Result<(), u16> {
    (usize::from(tenant) < TENANTS).then_some(()).ok_or(4)
}

/// Refusal 5.
fn check_level(height: u16, level: u16) -> Result<(), u16> {
    (level <= height).then_some(()).ok_or(5)
}

/// 0, or the number of the refusal.
fn number(result: Result<(), u16>) -> u16 {
    result.err().unwrap_or(0)
}

fn outcome(result: Result<Done, u16>) -> Outcome {
    match result {
        Ok(done) => Outcome {
            answer: 0,
            node: done.node,
            moves: done.plan.moves().len() as u16,
        },
        Err(answer) => Outcome {
            answer,
            node: 0,
            moves: 0,
        },
    }
}
