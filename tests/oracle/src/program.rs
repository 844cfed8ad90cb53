//! Programs that are run on bytes.

use std::io::Write;
use std::path::Path;
use std::process::{Command, Output, Stdio};
use std::thread;

/// Runs a program with bytes on its standard input, and gives what it wrote until it ended.
pub fn run(program: &Path, input: &[u8]) -> Output {
    let mut running = Command::new(program)
        .stdin(Stdio::piped())
        .stdout(Stdio::piped())
        .stderr(Stdio::piped())
        .spawn()
        .unwrap_or_else(|error| panic!("{} cannot be run: {error}", program.display()));
    let mut pipe = running.stdin.take().expect("its standard input is a pipe");
    let bytes = input.to_vec();
    // A program need not read all of its input, so a pipe that breaks is no failure. The bytes are handed over beside the
    // reading, since the pipes hold less than a long output.
    let feeding = thread::spawn(move || pipe.write_all(&bytes).ok());
    let output = running.wait_with_output().expect("the program ends");
    feeding.join().expect("the input was handed over");
    output
}
