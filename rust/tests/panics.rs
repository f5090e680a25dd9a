//! Nothing in the crate can panic: examples/firmware.rs, which makes every call, is built with the crate at three
//! levels of optimisation, without the checks of a debug build, and what the two need from elsewhere is read off with
//! nm. It is the library's calls, functions on memory that compilers put in, and for texts the formatting of `core`.

#![cfg(feature = "list")]

mod compiler;

use std::collections::BTreeSet;
use std::path::Path;
use std::process::Command;

use compiler::{build_crate, built, folder, rustc_user, source};

/// Functions that a compiler may call where the program copies, fills or compares.
const ON_MEMORY: [&str; 5] = ["memcpy", "memmove", "memset", "memcmp", "bcmp"];

/// The names of the calls that the crate declares, and of the symbol that binds it to its version.
fn declared() -> BTreeSet<String> {
    let texts = [include_str!("../src/raw.rs"), include_str!("../src/bound.rs")];
    let behind = texts.iter().flat_map(|text| text.split(" fn pinorange_").skip(1));
    behind.filter_map(|text| Some(format!("pinorange_{}", text.split_once('(')?.0))).collect()
}

/// The symbols of an archive: those that it needs, or those that it has.
fn symbols(archive: &Path, is_needed: bool) -> BTreeSet<String> {
    let output = built(Command::new("nm").arg("-C").arg(archive));
    let text = String::from_utf8_lossy(&output.stdout).into_owned();
    // 16 digits or blanks, a blank, a letter, which is U of those that it needs, and a blank.
    let symbol = |line: &str| {
        let (before, name) = line.split_at_checked(19)?;
        (before.ends_with(" U ") == is_needed).then(|| name.to_string())
    };
    text.lines().filter_map(symbol).collect()
}

/// What the example and the crate need that neither of them has, at one level of optimisation.
fn needed(level: &str) -> BTreeSet<String> {
    let folder = folder(&format!("panics_{level}"));
    let level = format!("-Copt-level={level}");
    let flags = [
        &level,
        "-Cpanic=abort",
        "-Cdebug-assertions=no",
        "-Coverflow-checks=no",
        "-Cembed-bitcode=no",
    ];
    build_crate(&folder, &flags);
    built(rustc_user(&folder, "firmware", &source("examples/firmware.rs")).args(flags));
    let files = ["libpinorange.rlib", "libfirmware.rlib"].map(|name| folder.join(name));
    let all = |is_needed| -> BTreeSet<String> {
        files.iter().flat_map(|file| symbols(file, is_needed)).collect()
    };
    all(true).difference(&all(false)).cloned().collect()
}

#[test]
fn nothing_panics() {
    let calls = declared();
    assert!(calls.contains("pinorange_insert"), "the declarations were not read");
    for level in ["0", "3", "s"] {
        let needed = needed(level);
        let (called, rest): (BTreeSet<String>, BTreeSet<String>) =
            needed.into_iter().partition(|name| name.starts_with("pinorange_"));
        assert_eq!(called, calls, "level {level}: not every call is made");
        let other: Vec<&String> = rest
            .iter()
            .filter(|name| !ON_MEMORY.contains(&name.as_str()))
            .filter(|name| !name.contains("core::fmt::") || name.contains("panic"))
            .collect();
        assert!(other.is_empty(), "level {level}: {other:#?}");
    }
}
