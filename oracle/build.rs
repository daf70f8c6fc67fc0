//! Writes $OUT_DIR/slatedb.rs, the module tree. The eight whole modules are taken by #[path] straight from the published
//! source: not copied, not changed. Of error.rs, utils.rs and format/sst.rs the needed items are cut out verbatim.
//! The source lies in the folder that SLATEDB_SRC names, else in ../../shared/docs/src, and must have the sums in `checksums`.
use std::process::Command;
use std::{env, fs, path::Path};

fn main() {
    let here = env::var("CARGO_MANIFEST_DIR").unwrap();
    let out = env::var("OUT_DIR").unwrap();
    let source = env::var("SLATEDB_SRC").unwrap_or(format!("{here}/../../shared/docs/src"));
    let source = fs::canonicalize(&source).unwrap_or_else(|e| panic!("{source}: {e}; SLATEDB_SRC names the folder that has slatedb's src/"));
    let source = source.display().to_string();
    println!("cargo:rerun-if-env-changed=SLATEDB_SRC");
    refuse_changed_source(&here, &source);
    let write = |name: &str, text: String| fs::write(Path::new(&out).join(name), text).unwrap();
    write("error.rs", error_variants(&read(&source, "src/error.rs")));
    write("utils.rs", varint_functions(&read(&source, "src/utils.rs")));
    write("sst.rs", builder_of_formats(&read(&source, "src/format/sst.rs")));
    write("slatedb.rs", module_tree(&source, &out, &here));
    // BlockBuilderV2::new_with_restart_interval is #[cfg(test)] in the source
    println!("cargo:rustc-cfg=test");
}

/// A comparison with a changed source would say nothing of slatedb.
fn refuse_changed_source(here: &str, source: &str) {
    let sums = format!("{here}/checksums");
    println!("cargo:rerun-if-changed={sums}");
    let run = Command::new("sha256sum").args(["--check", "--quiet", &sums]).current_dir(source).output().expect("sha256sum");
    if !run.status.success() {
        panic!("{source} is not the published source:\n{}{}", String::from_utf8_lossy(&run.stdout), String::from_utf8_lossy(&run.stderr));
    }
}

fn read(source: &str, file: &str) -> String {
    let path = format!("{source}/{file}");
    println!("cargo:rerun-if-changed={path}");
    fs::read_to_string(&path).unwrap_or_else(|e| panic!("{path}: {e}"))
}

/// The item that starts with `start` at column 0, up to the closing brace at column 0, with the doc comments and attributes
/// above it.
fn item(src: &str, start: &str) -> String {
    let lines: Vec<&str> = src.lines().collect();
    let i = lines.iter().position(|l| l.starts_with(start)).unwrap_or_else(|| panic!("no {start}"));
    let mut a = i;
    while a > 0 && (lines[a - 1].starts_with("///") || lines[a - 1].starts_with("#[")) {
        a -= 1;
    }
    let mut b = i;
    if !lines[i].ends_with(';') {
        while lines[b] != "}" {
            b += 1;
        }
    }
    lines[a..=b].join("\n") + "\n\n"
}

fn items(src: &str, head: &str, starts: &[&str]) -> String {
    starts.iter().fold(head.to_string() + "\n\n", |text, start| text + &item(src, start))
}

/// The head of the enum, and the variants used, each with its #[error] line.
fn error_variants(error: &str) -> String {
    let from = error.find("#[non_exhaustive]\n#[derive(Clone, Debug, ThisError)]\npub(crate) enum SlateDBError {").expect("enum head");
    let body = &error[from..];
    let body = &body[..body.find("\n}\n").expect("enum end")];
    let open = body.find("{\n").unwrap() + 2;
    let mut cut = String::from("use thiserror::Error as ThisError;\n\n") + &body[..open];
    for want in ["    EmptyBlock,", "    EmptyKey,", "    InvalidRowFlags {", "    InvalidVersion {"] {
        let variant = body[open..].split("\n\n").find(|p| p.lines().any(|l| l == want)).unwrap_or_else(|| panic!("no variant {want}"));
        cut += variant;
        cut += "\n\n";
    }
    cut + "}\n"
}

/// The varint functions, and the clamp that block.rs uses.
fn varint_functions(utils: &str) -> String {
    items(utils, "use bytes::{Buf, BufMut, Bytes};", &[
        "fn bytes_into_minimal_vec(",
        "pub(crate) fn clamp_allocated_size_bytes(",
        "pub(crate) fn encode_varint(",
        "pub(crate) fn decode_varint(",
        "pub(crate) fn varint_len(",
    ])
}

/// The constants, and the BlockBuilder that names the format.
fn builder_of_formats(sst: &str) -> String {
    let head = "use crate::error::SlateDBError;\nuse crate::format::block::{Block, BlockBuilderV1};\nuse crate::format::block_v2::BlockBuilderV2;";
    items(sst, head, &[
        "pub(crate) const SST_FORMAT_VERSION:",
        "pub(crate) const SST_FORMAT_VERSION_V2:",
        "pub(crate) const SIZEOF_U16:",
        "pub(crate) const SIZEOF_U32:",
        "pub(crate) const CHECKSUM_SIZE:",
        "pub(crate) const OFFSET_SIZE:",
        "pub(crate) enum BlockBuilder {",
        "impl BlockBuilder {",
    ])
}

fn module_tree(source: &str, out: &str, here: &str) -> String {
    let theirs = |name: &str, file: &str| {
        println!("cargo:rerun-if-changed={source}/{file}");
        format!("#[path = \"{source}/{file}\"]\npub(crate) mod {name};\n")
    };
    let cut = |name: &str| format!("#[path = \"{out}/{name}.rs\"]\npub(crate) mod {name};\n");
    // ours sits inside format because the builders are pub(super)
    let ours = |name: &str| format!("#[path = \"{here}/src/{name}.rs\"]\npub mod {name};\n");
    [
        theirs("types", "src/types.rs"),
        theirs("iter", "src/iter.rs"),
        theirs("block_iterator", "src/block_iterator.rs"),
        theirs("block_iterator_v2", "src/block_iterator_v2.rs"),
        cut("error"),
        cut("utils"),
        "pub mod format {\n".into(),
        theirs("row", "src/format/row.rs"),
        theirs("row_codec_v2", "src/format/row_codec_v2.rs"),
        theirs("block", "src/format/block.rs"),
        theirs("block_v2", "src/format/block_v2.rs"),
        cut("sst"),
        ours("driver"),
        ours("direct"),
        ours("older"),
        ours("timing"),
        "}\n".into(),
    ]
    .concat()
}
