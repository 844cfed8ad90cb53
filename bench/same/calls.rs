//! Calls whose arguments are valid, over a decoded table and a decoded line.

use crate::layout::{layout, total, Counts};
use crate::line::{self, Line};
use crate::plan::{plan_moves, Plan};
use crate::survey::{survey, Owners};
use crate::{NODES, TENANTS};

/// What an accepted call does: the node that the tenant gets, or the one that it gives up with a release, and the moves.
pub struct Done {
    pub node: u16,
    pub plan: Plan,
}

/// Grants a block of the level, or gives the number of the refusal. Both kinds of grant have it in their own code, so that
/// neither is timed with a call more.
#[inline(always)]
pub fn grant(height: u16, table: &mut [u16; TENANTS], line: &mut Line, tenant: u16, level: u16) -> Result<Done, u16> {
    let mut owners = [0; NODES];
    let counts = survey_with_line(height, table, line, &mut owners)?;
    let own = table[usize::from(tenant)];
    if own != 0 {
        return again(height, own, level);
    }
    if line::place_of(line, tenant).is_some() {
        return Err(18);
    }
    if line::bars(line) || total(&counts) + (1 << level) > 1 << height {
        return Err(10);
    }
    line::pass_all(line);
    Ok(place(height, table, tenant, level, counts, &owners))
}

/// The survey of a table, if both table and line are in order.
#[inline(always)]
fn survey_with_line(height: u16, table: &[u16; TENANTS], line: &Line, owners: &mut Owners) -> Result<Counts, u16> {
    if !line::in_order(height, table, line) {
        return Err(7);
    }
    survey(height, table, owners).ok_or(7)
}

/// Gives a tenant that holds nothing a block that there is room for.
#[inline(always)]
fn place(
    height: u16,
    table: &mut [u16; TENANTS],
    tenant: u16,
    level: u16,
    mut counts: Counts,
    owners: &Owners,
) -> Done {
    let old = layout(&counts);
    counts[usize::from(level)] += 1;
    let new = layout(&counts);
    let (plan, node) = plan_moves(height, &old, &new, 0, Some(level), owners);
    carry_out(table, &plan);
    table[usize::from(tenant)] = node;
    Done { node, plan }
}

/// Grants the first in line that fits and is not barred, and names it; or gives the number of the refusal.
pub fn admit(height: u16, table: &mut [u16; TENANTS], line: &mut Line) -> Result<Option<(u16, Done)>, u16> {
    let mut owners = [0; NODES];
    let counts = survey_with_line(height, table, line, &mut owners)?;
    let room = (1 << height) - total(&counts);
    let levels = room.checked_ilog2().map_or(0, |highest| highest as u16 + 1);
    let Some((in_line, tenant, level)) = line::choose(line, levels) else {
        return Ok(None);
    };
    line::take_out(line, in_line);
    line::pass(line, in_line);
    Ok(Some((tenant, place(height, table, tenant, level, counts, &owners))))
}

/// Puts a tenant at the end of the line, or gives the number of the refusal.
pub fn join(height: u16, table: &[u16; TENANTS], line: &mut Line, tenant: u16, level: u16) -> Result<(), u16> {
    survey_with_line(height, table, line, &mut [0; NODES])?;
    if table[usize::from(tenant)] != 0 {
        return Err(8);
    }
    if line::place_of(line, tenant).is_some() {
        return Err(18);
    }
    line::join(line, tenant, level).then_some(()).ok_or(17)
}

/// Takes a tenant out of the line, or gives the number of the refusal.
pub fn withdraw(height: u16, table: &[u16; TENANTS], line: &mut Line, tenant: u16) -> Result<(), u16> {
    survey_with_line(height, table, line, &mut [0; NODES])?;
    let place = line::place_of(line, tenant).ok_or(9u16)?;
    line::take_out(line, place);
    Ok(())
}

/// A grant to a tenant that has a node: it keeps that if it is of the level, and is refused if not.
fn again(height: u16, node: u16, level: u16) -> Result<Done, u16> {
    let plan = Plan::default();
    let is_same = level_of(height, node) == usize::from(level);
    is_same.then_some(Done { node, plan }).ok_or(8)
}

/// Releases the tenant's block, or gives the number of the refusal.
pub fn release(height: u16, table: &mut [u16; TENANTS], tenant: u16) -> Result<Done, u16> {
    let mut owners = [0; NODES];
    let mut counts = survey(height, table, &mut owners).ok_or(7u16)?;
    let node = table[usize::from(tenant)];
    if node == 0 {
        return Err(9);
    }
    let old = layout(&counts);
    counts[level_of(height, node)] -= 1;
    let new = layout(&counts);
    let (plan, _) = plan_moves(height, &old, &new, node, None, &owners);
    table[usize::from(tenant)] = 0;
    carry_out(table, &plan);
    Ok(Done { node, plan })
}

/// Gives the tenant a block of the level for its own, or gives the number of the refusal.
pub fn grow(height: u16, table: &mut [u16; TENANTS], tenant: u16, level: u16) -> Result<Done, u16> {
    let mut owners = [0; NODES];
    let mut counts = survey(height, table, &mut owners).ok_or(7u16)?;
    let own = table[usize::from(tenant)];
    if own == 0 {
        return Err(9);
    }
    let old = layout(&counts);
    counts[level_of(height, own)] -= 1;
    if total(&counts) + (1 << level) > 1 << height {
        return Err(10);
    }
    counts[usize::from(level)] += 1;
    let new = layout(&counts);
    let (plan, node) = plan_moves(height, &old, &new, own, Some(level), &owners);
    carry_out(table, &plan);
    table[usize::from(tenant)] = node;
    Ok(Done { node, plan })
}

fn level_of(height: u16, node: u16) -> usize {
    usize::from(height) - node.ilog2() as usize
}

fn carry_out(table: &mut [u16; TENANTS], plan: &Plan) {
    for step in plan.moves() {
        table[usize::from(step.tenant)] = step.to;
    }
}
