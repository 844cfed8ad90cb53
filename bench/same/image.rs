//! Tables, lines and moves as bytes, the low byte first.

use crate::line::NUMBERS;
use crate::plan::Plan;
use crate::TENANTS;

/// The bytes of a table, and of a line.
pub const TABLE_BYTES: usize = 2 * TENANTS;
pub const LINE_BYTES: usize = 2 * NUMBERS;

/// The bytes of a move.
pub const MOVE_BYTES: usize = 8;

pub fn decode<const N: usize>(image: &[u8]) -> [u16; N] {
    let mut numbers = [0; N];
    for (number, bytes) in numbers.iter_mut().zip(image.as_chunks().0) {
        *number = u16::from_le_bytes(*bytes);
    }
    numbers
}

pub fn encode<const N: usize>(numbers: &[u16; N], image: &mut [u8]) {
    for (number, bytes) in numbers.iter().zip(image.as_chunks_mut().0) {
        *bytes = number.to_le_bytes();
    }
}

/// Writes the moves to the front of a list that has room for them.
pub fn put_moves(plan: &Plan, list: &mut [u8]) {
    for (step, bytes) in plan.moves().iter().zip(list.as_chunks_mut::<MOVE_BYTES>().0) {
        let [t0, t1] = step.tenant.to_le_bytes();
        let [f0, f1] = step.from.to_le_bytes();
        let [n0, n1] = step.to.to_le_bytes();
        let [s0, s1] = step.staged.to_le_bytes();
        *bytes = [t0, t1, f0, f1, n0, n1, s0, s1];
    }
}
