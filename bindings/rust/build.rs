//! Finds the proved archive `libgateway.a` in the folder that `WALUMBEEX_LIB` names.
//!
//! Where it can't be linked this only says why: `cargo check` and `cargo doc` need no archive, and in a build rustc then stops,
//! since it doesn't find the library.

use std::env;
use std::path::PathBuf;

/// The folder of the archive, or why there is none to link.
fn folder() -> Result<PathBuf, String> {
    let cfg = |name: &str| env::var(format!("CARGO_CFG_TARGET_{name}")).unwrap_or_default();
    let (arch, os, width) = (cfg("ARCH"), cfg("OS"), cfg("POINTER_WIDTH"));
    if (&*arch, &*os, &*width) != ("x86_64", "linux", "64") {
        return Err(format!(
            "libgateway.a is x86-64 code for Linux with pointers of 64 bits, and this build is for {arch}, {os}, {width} bits; \
             give cargo --target x86_64-unknown-linux-gnu"
        ));
    }
    let how = "`bin/archive`, run at the top of the walumbeex repository, proves and makes it in target/staticlib; \
               then set WALUMBEEX_LIB to that folder's full path";
    let folder = match env::var_os("WALUMBEEX_LIB") {
        Some(folder) if !folder.is_empty() => PathBuf::from(folder),
        _ => return Err(format!("WALUMBEEX_LIB is not set: it names the folder that holds libgateway.a; {how}")),
    };
    // A build script stands in the crate's folder and the linker does not: a short path would mean two places.
    if !folder.is_absolute() {
        return Err(format!("WALUMBEEX_LIB is \"{}\", which is not a full path; {how}", folder.display()));
    }
    if !folder.join("libgateway.a").is_file() {
        return Err(format!("there is no libgateway.a in \"{}\"; {how}", folder.display()));
    }
    Ok(folder)
}

fn main() {
    println!("cargo:rerun-if-env-changed=WALUMBEEX_LIB");
    println!("cargo:rustc-link-lib=static=gateway");
    match folder() {
        Ok(folder) => {
            // cargo doesn't look at a linked archive by itself: without this line an old one stays in the program.
            println!("cargo:rerun-if-changed={}", folder.join("libgateway.a").display());
            println!("cargo:rustc-link-search=native={}", folder.display());
        }
        Err(why) => println!("cargo:warning=no build can be linked: {why}"),
    }
}
