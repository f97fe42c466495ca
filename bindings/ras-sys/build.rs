//! Finds the proved static library, and links it. It runs nothing and writes nothing.
//!
//! It is `libras_c.a` in the folder that `RAS_C_DIR` names; else in the folder `lib` of what `./run --lib --dist` made, if the crate is in
//! that; else in the repository's `crates/ras_c/out`, where `./run --lib` puts it. docs.rs links nothing, so nothing is looked for there.
use std::env;
use std::fs;
use std::path::{Path, PathBuf};
use std::process::exit;

const ARCHIVE: &str = "libras_c.a";

// The call that each library has by which this crate compares its kinds and calls with the library's.
const NUMBER: &[u8] = b"ras_c_version";

// Whether a folder has the library, and why not.
fn holds(folder: &Path) -> Result<(), String> {
    let archive = folder.join(ARCHIVE);
    let bytes = fs::read(&archive).map_err(|error| format!("{} is not read: {error}", archive.display()))?;
    if bytes.windows(NUMBER.len()).any(|it| it == NUMBER) {
        Ok(())
    } else {
        Err(format!("{} is older than this crate: it has no number of kinds and calls", archive.display()))
    }
}

fn main() {
    let here = PathBuf::from(env::var_os("CARGO_MANIFEST_DIR").expect("cargo names the package's folder"));
    println!("cargo:rerun-if-env-changed=RAS_C_DIR");
    println!("cargo:rerun-if-changed=build.rs");
    if env::var_os("DOCS_RS").is_some() {
        return;
    }
    let beside = || [here.join("../../lib"), here.join("../../crates/ras_c/out")].into_iter().find(|it| it.join(ARCHIVE).exists());
    let folder = env::var_os("RAS_C_DIR").map(PathBuf::from).or_else(beside).unwrap_or_else(|| here.join("../../crates/ras_c/out"));
    println!("cargo:rerun-if-changed={}", folder.join(ARCHIVE).display());
    match holds(&folder) {
        Ok(()) => {
            println!("cargo:rustc-link-search=native={}", folder.display());
            println!("cargo:rustc-link-lib=static=ras_c");
            println!("cargo:lib={}", folder.display());
        }
        Err(why) => {
            eprintln!(
                "{why}. `./run --lib` at the top of the repository proves and builds the library, which takes the toolchain's command `rt`; \
                 `./run --lib --dist DIR` makes a folder to keep or to hand on. Set RAS_C_DIR to the folder that has {ARCHIVE}, such as DIR/lib"
            );
            exit(1)
        }
    }
}
