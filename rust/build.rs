//! Finds libslatedb_block.a, libslatedb_block_v1.a and libslatedb_journal.a, or says how to make them.

use std::env;
use std::path::{Path, PathBuf};
use std::process::exit;

const FOLDER: &str = "SLATEDB_BLOCK_LIB";

fn fail(why: String) -> ! {
    eprintln!("slatedb_block: {why}");
    exit(1)
}

fn folder(name: &str) -> PathBuf {
    let crate_folder = env::var_os("CARGO_MANIFEST_DIR").unwrap_or_default();
    // a relative name starts at the crate's folder, where a build script runs
    let named = env::var_os(FOLDER).map(PathBuf::from);
    Path::new(&crate_folder).join(named.unwrap_or_else(|| Path::new("..").join("crates").join(name).join("out")))
}

fn main() {
    println!("cargo:rerun-if-env-changed={FOLDER}");
    println!("cargo:rerun-if-changed=build.rs");
    // all three: another system's calls, or 32-bit lengths on this processor, would link and then go wrong
    for (what, wanted) in [("ARCH", "x86_64"), ("OS", "linux"), ("POINTER_WIDTH", "64")] {
        if env::var(format!("CARGO_CFG_TARGET_{what}")).as_deref() != Ok(wanted) {
            fail("the library is for 64-bit Linux on x86-64: give --target x86_64-unknown-linux-gnu (README.md says what that needs)".into());
        }
    }
    for name in ["slatedb_block", "slatedb_block_v1", "slatedb_journal"] {
        let folder = folder(name);
        let library = folder.join(format!("lib{name}.a"));
        if !library.is_file() {
            fail(format!(
                "{} is missing: run `rt lib` in the project's crates/{name}, or name the libraries' folder in {FOLDER}",
                library.display()
            ));
        }
        println!("cargo:rerun-if-changed={}", library.display());
        println!("cargo:rustc-link-search=native={}", folder.display());
        println!("cargo:rustc-link-lib=static={name}");
    }
}
