//! Links the archive that `bin/archive` writes, and links again when it has changed: cargo alone doesn't look at it.

use std::fs;

fn main() {
    let folder = fs::canonicalize("../target/staticlib").expect("no target/staticlib here: `bin/archive` writes it");
    println!("cargo:rerun-if-changed={}", folder.join("libgateway.a").display());
    println!("cargo:rustc-link-search=native={}", folder.display());
    println!("cargo:rustc-link-lib=static=gateway");
}
