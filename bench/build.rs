//! Links the archives of the planner and of the former count, which `tools/build` has put below the repository's
//! `target`.

use std::env;
use std::path::Path;

fn main() {
    let here = env::var("CARGO_MANIFEST_DIR").expect("cargo names the package's directory");
    let archives = Path::new(&here).join("../target/staticlib");
    println!("cargo:rustc-link-search=native={}", archives.display());
    for name in ["reserve", "bytewise"] {
        println!("cargo:rustc-link-lib=static={name}");
        println!(
            "cargo:rerun-if-changed={}",
            archives.join(format!("lib{name}.a")).display()
        );
    }
}
