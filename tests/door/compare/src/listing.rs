//! The listing program, which `tools/build listing` has put below the repository's `target`.

use std::path::Path;

use oracle::program::run;

const PROGRAM: &str = concat!(env!("CARGO_MANIFEST_DIR"), "/../../../target/bin/listing");

/// What the program writes for a journal on its standard input. It says something beside that only where a refusal ends the listing.
pub fn list(journal: &[u8]) -> Vec<u8> {
    let output = run(Path::new(PROGRAM), journal);
    let [listing, said] = [&output.stdout, &output.stderr].map(|bytes| String::from_utf8_lossy(bytes));
    let ends_early = listing.lines().last().is_some_and(|line| line.starts_with("! "));
    assert!(said.is_empty() != ends_early, "{said}");
    output.stdout
}
