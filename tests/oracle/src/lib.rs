//! A second planner for the page reserve, and the driver that holds another planner against it.
//!
//! Everything here is decided from the papers alone and by the slowest road that is still bearable, because its only
//! use is to be believed when it disagrees with the planner that ships:
//!
//! - [`definitions`] has the words about sets of nodes (legal, dense, safe, ...) exactly as they are defined, and for
//!   small trees every set there is; [`occupancy`] has the words for tall trees, where nodes are counted beforehand;
//! - [`lifting`] builds the safe layout of any counts on a [`row`] of labelled pages, by the lifting rule;
//! - [`planner`] has the calls with their refusals and pairing, [`line`] those who wait, [`carrying`] tries all lists of moves,
//!   [`page_map`] has the map, [`journal`] and [`listing`] the journal, [`convert`] turns an old one over;
//! - [`book`] and [`audit`] state what every planner owes its callers without planning anything themselves, and
//!   [`runtime`] carries out the moves;
//! - [`subject`] is the door through which a planner under test is reached, and [`compare`] knocks on it, with what
//!   [`generate`] makes up from the seeds of [`random`], and with [`shrink`] to shorten what fails; [`program`] runs the
//!   programs beside the library.

#![forbid(unsafe_code)]

/// Ends a check with a finding unless a condition holds.
macro_rules! ensure {
    ($holds:expr, $($finding:tt)+) => {
        if !$holds {
            return Err(format!($($finding)+));
        }
    };
}

pub mod audit;
pub mod book;
pub mod carrying;
pub mod compare;
pub mod convert;
pub mod definitions;
pub mod generate;
pub mod journal;
pub mod lifting;
pub mod line;
pub mod listing;
pub mod occupancy;
pub mod page_map;
pub mod planner;
pub mod program;
pub mod random;
pub mod refusal;
pub mod row;
pub mod runtime;
pub mod shrink;
pub mod subject;
