//! What the fuzzer calls for each input.

mod behaviour;
mod bytes;
#[path = "../../../door/compare/src/door.rs"]
mod door;
#[path = "../../../door/compare/src/functions.rs"]
mod functions;
#[path = "../../../door/compare/src/listing.rs"]
mod listing;
mod programme;
mod spoilt;
mod tape;

use std::any::Any;
use std::env;
use std::panic::{catch_unwind, AssertUnwindSafe};
use std::process::abort;
use std::slice;
use std::sync::LazyLock;

use behaviour::Watched;
use door::Door;
use programme::Programme;

/// Whether inputs are told in words. The fuzzer leaves words that begin with two dashes to whom it runs.
static TELLING: LazyLock<bool> = LazyLock::new(|| env::args().any(|word| word == "--tell"));

/// Runs an input on both planners. A difference ends the process, by which the fuzzer knows.
///
/// # Safety
///
/// So many bytes are lent.
#[no_mangle]
pub unsafe extern "C" fn LLVMFuzzerTestOneInput(bytes: *const u8, length: usize) -> i32 {
    let programme = Programme::decode(slice::from_raw_parts(bytes, length));
    if *TELLING {
        print!("{programme}");
    }
    if let Err(finding) = run(&programme) {
        if *TELLING {
            println!("  {finding}");
            tell_shortened(programme);
        }
        abort();
    }
    0
}

/// A number that cannot be, on which the binding panics, is a difference too.
fn run(programme: &Programme) -> Result<(), String> {
    catch_unwind(AssertUnwindSafe(|| programme.run(&mut Watched(Door)))).unwrap_or_else(|panic| Err(message(&*panic)))
}

fn message(panic: &dyn Any) -> String {
    match panic.downcast_ref::<String>() {
        Some(message) => message.clone(),
        None => "a panic".to_string(),
    }
}

fn tell_shortened(programme: Programme) {
    let short = programme.shortened(&mut Watched(Door));
    println!("in short:");
    print!("{short}");
    if let Err(finding) = run(&short) {
        println!("  {finding}");
    }
}
