//! The planner behind the C door, compared with the second planner: `door [SEED [TIMES]]`.

mod door;
mod functions;
mod listing;

use std::env;
use std::process::ExitCode;

use door::Door;

fn main() -> ExitCode {
    let arguments: Vec<String> = env::args().skip(1).collect();
    let words: Vec<&str> = arguments.iter().map(String::as_str).collect();
    match oracle::compare::command(Door, &words) {
        Ok(tally) if tally.failed == 0 => ExitCode::SUCCESS,
        Ok(_) => ExitCode::FAILURE,
        Err(error) => {
            eprintln!("{error}");
            ExitCode::from(2)
        }
    }
}
