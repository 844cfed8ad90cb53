//! Which blocks move when one layout takes the place of another, from the ends of the runs, the lone blocks and the
//! hole.

use crate::carrying::arranged;
use crate::layout::{Layout, Row};
use crate::survey::Owners;
use crate::NONE;

/// The most moves of a call, which a growth has.
pub const MOST: usize = 7;

#[derive(Clone, Copy, Default)]
pub struct Move {
    pub tenant: u16,
    pub from: u16,
    pub to: u16,
    /// 1 if the tenant is lifted out before the others move, else 0.
    pub staged: u16,
}

/// The moves of a call, in order.
#[derive(Default)]
pub struct Plan {
    number: usize,
    moves: [Move; MOST],
}

impl Plan {
    pub fn moves(&self) -> &[Move] {
        &self.moves[..self.number]
    }

    pub fn push(&mut self, step: Move) {
        self.moves[self.number] = step;
        self.number += 1;
    }
}

/// A row without the block at `hole`, if that is not [`NONE`].
#[derive(Clone, Copy, PartialEq)]
struct Places {
    row: Row,
    hole: u16,
}

impl Places {
    fn holds(&self, index: u16) -> bool {
        index != self.hole && self.row.holds(index)
    }
}

/// The least index from `from` on that is in `old` and not in `new`, or [`NONE`]. It is `from` itself, or the index before it is
/// not in `old` or is in `new`; all such indices are tried.
fn least(old: &Places, new: &Places, from: u16) -> u16 {
    let behind = |index: u16| index.wrapping_add(1);
    let candidates = [
        from,
        old.row.start,
        old.row.lone,
        behind(old.hole),
        new.row.start + new.row.run,
        behind(new.row.lone),
        new.hole,
    ];
    let fits = |&index: &u16| index >= from && old.holds(index) && !new.holds(index);
    candidates.into_iter().filter(fits).min().unwrap_or(NONE)
}

/// The moves from the old layout, without the node `gone` (0 for none), into the new one, and the place on the level
/// wanted that they leave over, or 0.
pub fn plan_moves(
    height: u16,
    old: &Layout,
    new: &Layout,
    gone: u16,
    wanted: Option<u16>,
    owners: &Owners,
) -> (Plan, u16) {
    let mut plan = Plan::default();
    let mut node = 0;
    for level in 0..=height {
        let base = 1 << (height - level);
        let old = Places {
            row: old[usize::from(level)],
            hole: index_on(base, gone),
        };
        let new = Places {
            row: new[usize::from(level)],
            hole: NONE,
        };
        // Most levels stay as they were.
        if old == new {
            continue;
        }
        let spare = shift_level(&mut plan, base, &old, &new, owners);
        if wanted == Some(level) && spare != NONE {
            node = base + spare;
        }
    }
    (arranged(&mut plan.moves[..plan.number]), node)
}

/// The index of a node on the level whose first node is `base`, or [`NONE`] for a node of another level.
fn index_on(base: u16, node: u16) -> u16 {
    let index = node.wrapping_sub(base);
    if index < base {
        index
    } else {
        NONE
    }
}

/// Plans the moves of the level whose first node is `base`, and gives the first place left over, or [`NONE`].
fn shift_level(plan: &mut Plan, base: u16, old: &Places, new: &Places, owners: &Owners) -> u16 {
    let mut mover = least(old, new, 0);
    let mut place = least(new, old, 0);
    while mover != NONE && place != NONE {
        let from = base + mover;
        plan.push(Move {
            tenant: owners[usize::from(from)] - 1,
            from,
            to: base + place,
            staged: 0,
        });
        mover = least(old, new, mover + 1);
        place = least(new, old, place + 1);
    }
    place
}
