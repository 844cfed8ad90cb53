//! Histories with many in line.

use crate::compare::calls::check_history;
use crate::compare::Amounts;
use crate::definitions::TALLEST;
use crate::generate::{history_beside_a_line, history_with_a_full_line};
use crate::random::Random;
use crate::subject::Subject;

/// So many calls come in each history besides those that fill the line.
const CALLS: usize = 40;

/// Histories at all heights that begin with many in line, or fill the line and more.
pub fn long_lines(subject: &mut dyn Subject, amounts: &Amounts, random: &mut Random) -> Result<usize, String> {
    let mut comparisons = 0;
    for round in 0..amounts.long_lines {
        let height = round as u32 % (TALLEST + 1);
        let draw = match round / (TALLEST as usize + 1) % 4 {
            0 => history_with_a_full_line,
            _ => history_beside_a_line,
        };
        let history = draw(random, subject.reach(), height, CALLS);
        check_history(subject, &history)?;
        comparisons += history.calls.len();
    }
    Ok(comparisons)
}
