//! Links the planner's archive, which `tools/build reserve` has put below the repository's `target`.

use std::env;
use std::path::Path;

fn main() {
    let here = env::var("CARGO_MANIFEST_DIR").expect("cargo names the package's directory");
    let archives = Path::new(&here).join("../../../target/staticlib");
    println!("cargo:rustc-link-search=native={}", archives.display());
    println!("cargo:rustc-link-lib=static=reserve");
    println!("cargo:rerun-if-changed={}", archives.join("libreserve.a").display());
}
