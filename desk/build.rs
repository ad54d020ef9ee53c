//! Hands the archive to the linker, and the calls that it has and the header's
//! version to the program. SHEET_LIB_DIR is the archive's folder, and
//! SHEET_ARCHIVE its name: `sheets`, or `checker` for the one without a
//! simulator.

use std::path::{Path, PathBuf};

/// Each call with the condition under which what uses it is compiled.
const CALLS: [(&str, &str); 8] = [
    ("sheet_run", "call_run"),
    ("sheet_fired", "call_fired"),
    ("sheet_preview", "call_preview"),
    ("sheet_carry", "call_carry"),
    ("sheet_press", "call_press"),
    ("sheet_count", "call_count"),
    ("sheet_replay", "call_replay"),
    ("sheet_possible", "call_possible"),
];

fn main() {
    let root = Path::new(env!("CARGO_MANIFEST_DIR")).join("..");
    let given = |name: &str| {
        println!("cargo:rerun-if-env-changed={name}");
        std::env::var(name).ok()
    };
    let folder =
        given("SHEET_LIB_DIR").map_or_else(|| root.join("target/staticlib"), PathBuf::from);
    let archive = given("SHEET_ARCHIVE").unwrap_or_else(|| "sheets".to_string());
    let file = folder.join(format!("lib{archive}.a"));
    println!("cargo:rerun-if-changed={}", file.display());
    println!("cargo:rustc-link-search=native={}", folder.display());
    println!("cargo:rustc-link-lib=static={archive}");

    let bytes = std::fs::read(&file)
        .unwrap_or_else(|error| panic!("{}: {error}: .ci/run archives", file.display()));
    let calls = symbols(&bytes);
    for (call, condition) in CALLS {
        println!("cargo:rustc-check-cfg=cfg({condition})");
        if calls.iter().any(|found| found == call) {
            println!("cargo:rustc-cfg={condition}");
        }
    }
    println!("cargo:rustc-env=SHEET_CALLS={}", calls.join(" "));
    println!("cargo:rustc-env=SHEET_ARCHIVE_NAME=lib{archive}.a");

    let header = root.join("include/sheet.h");
    println!("cargo:rerun-if-changed={}", header.display());
    let text = std::fs::read_to_string(&header).unwrap_or_default();
    let version = text.lines().find_map(|line| line.strip_prefix("#define SHEET_VERSION \""));
    let version = version.map_or("unknown", |rest| rest.trim_end_matches('"'));
    println!("cargo:rustc-env=SHEET_HEADER_VERSION={version}");
}

/// The calls in the symbol table of an archive, which is its first member: how
/// many symbols, an offset for each, and the names, each with a zero after it.
fn symbols(archive: &[u8]) -> Vec<String> {
    const MEMBER: usize = 8 + 60;
    let number = |at: usize| {
        let bytes: [u8; 4] = archive[at..at + 4].try_into().unwrap_or_default();
        u32::from_be_bytes(bytes) as usize
    };
    assert!(archive.starts_with(b"!<arch>\n/ "), "no symbol table in the archive");
    let names = MEMBER + 4 + 4 * number(MEMBER);
    let mut found: Vec<String> = archive[names..]
        .split(|byte| *byte == 0)
        .take(number(MEMBER))
        .map(|name| String::from_utf8_lossy(name).into_owned())
        .filter(|name| name.starts_with("sheet_"))
        .collect();
    found.sort();
    found.dedup();
    found
}
