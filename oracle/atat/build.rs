//! Writes the list of modules whose sources stand in the folder ATAT_SRC, so that the crate's files are compiled where they lie.

use std::path::Path;
use std::{env, fs};

const MODULES: [(&str, &str); 7] = [
    ("digest", "digest.rs"),
    ("error", "error/mod.rs"),
    ("helpers", "helpers.rs"),
    ("ingress", "ingress.rs"),
    ("response", "response.rs"),
    ("response_slot", "response_slot.rs"),
    ("traits", "traits.rs"),
];

fn main() {
    println!("cargo:rerun-if-env-changed=ATAT_SRC");
    let folder = env::var("ATAT_SRC").expect("ATAT_SRC names no folder: it must be that of atat 0.25.0's sources, with digest.rs in it");
    let mut list = String::new();
    for (module, file) in MODULES {
        let path = fs::canonicalize(Path::new(&folder).join(file)).unwrap_or_else(|e| panic!("ATAT_SRC has no {file}: {e}"));
        println!("cargo:rerun-if-changed={}", path.display());
        list += &format!("#[path = {path:?}]\npub mod {module};\n");
    }
    let out = env::var("OUT_DIR").expect("cargo sets OUT_DIR");
    fs::write(Path::new(&out).join("modules.rs"), list).expect("the list of modules can be written");
}
