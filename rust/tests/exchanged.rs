//! What the types of a list rule out: words lent as scratch, scratch lent as words, and anything else that writes the
//! lent memory while the list is in use. Each line is put into one program, which compiles with the right ones.

#![cfg(feature = "list")]

mod compiler;

use std::fs;
use std::path::Path;

use compiler::{build_crate, folder, rustc_user};

/// A head with a list and two pieces of memory to mistake for each other. The line comes in the middle.
const BEFORE: &str = "
use pinorange::*;
pub fn head(other_words: &mut [u32; 300], keys: &mut [u32]) -> Result<(), Refusal> {
    let mut tabulation = [0; TABULATION_LENGTH];
    let (mut counters, mut other_counters) = (Counters::default(), Counters::default());
    let mut words = [0; words_length(16, 2)];
    let (mut scratch, mut other) = (Scratch::<[u32; 300]>::new(), Scratch::<[u32; 300]>::new());
    house(&mut tabulation)?;
    let mut list = List::init(&tabulation, &mut words, 16, 2, 17, &mut counters)?;
    let mut stolen_words = [0; 64];
    let mut stolen = StolenList::init(&tabulation, &mut stolen_words, 17)?;
";
const AFTER: &str = "
    list.check(&mut scratch)?;
    stolen.check()?;
    Ok(())
}
";

/// Lines that are right: each call that takes words or scratch, and a list that two threads read.
const RIGHT: [&str; 14] = [
    "list.insert(&mut scratch, 410_017, 3)?;",
    "list.remove(&mut scratch, 410_017)?;",
    "list.check(&mut scratch)?;",
    "list.trail(&mut scratch, 410_017, keys)?;",
    "List::init(&tabulation, other_words, 16, 2, 17, &mut other_counters)?;",
    "List::bulk_load(&tabulation, other_words, 16, 2, 17, &mut other, &mut other_counters, keys)?;",
    "List::open(&tabulation, other_words, &mut other, &mut other_counters)?;",
    "List::salvage(&tabulation, other_words, &mut other, &mut other_counters, keys)?;",
    "List::salvage(&tabulation, other_words, &mut other, &mut other_counters, list.words())?;",
    "fn may_be_shared<T: Send + Sync>(_: &T) {} may_be_shared(&list);",
    "fn may_be_shared<T: Send + Sync>(_: &T) {} may_be_shared(&stolen);",
    "stolen.insert(410_017)?;",
    "StolenList::init(&tabulation, other_words, 17)?;",
    "StolenList::open(&tabulation, other_words, 17)?;",
];

/// Lines that are wrong, with the compiler's number of what is.
const WRONG: [(&str, &str); 30] = [
    ("list.insert(other_words, 410_017, 3)?;", "E0308"),
    ("list.remove(other_words, 410_017)?;", "E0308"),
    ("list.check(other_words)?;", "E0308"),
    ("list.trail(other_words, 410_017, keys)?;", "E0308"),
    ("list.trail(&mut scratch, 410_017, &mut other)?;", "E0308"),
    ("List::init(&tabulation, &mut other, 16, 2, 17, &mut other_counters)?;", "E0308"),
    ("List::bulk_load(&tabulation, &mut other, 1, 2, 3, &mut scratch, &mut other_counters, keys)?;", "E0308"),
    ("List::bulk_load(&tabulation, other_words, 1, 2, 3, keys, &mut other_counters, &[])?;", "E0308"),
    ("List::bulk_load(&tabulation, keys, 1, 2, 3, &mut scratch, &mut other_counters, &other)?;", "E0308"),
    // The input stands in the words that are written, and in a list's.
    ("List::bulk_load(&tabulation, keys, 1, 2, 3, &mut other, &mut other_counters, keys)?;", "E0502"),
    ("List::bulk_load(&tabulation, keys, 1, 2, 3, &mut other, &mut other_counters, &words)?;", "E0502"),
    ("List::salvage(&tabulation, &mut other, &mut scratch, &mut other_counters, keys)?;", "E0308"),
    ("List::salvage(&tabulation, other_words, keys, &mut other_counters, &[])?;", "E0308"),
    ("List::salvage(&tabulation, other_words, &mut scratch, &mut other_counters, &other)?;", "E0308"),
    // The list is laid in words that may only be read; over the words that it is to save; over those of another list.
    ("List::salvage(&tabulation, list.words(), &mut other, &mut other_counters, keys)?;", "E0308"),
    ("List::salvage(&tabulation, keys, &mut other, &mut other_counters, keys)?;", "E0502"),
    ("List::salvage(&tabulation, &mut words, &mut other, &mut other_counters, keys)?;", "E0499"),
    ("List::open(&tabulation, &mut other, &mut scratch, &mut other_counters)?;", "E0308"),
    ("List::open(&tabulation, other_words, keys, &mut other_counters)?;", "E0308"),
    // Both exchanged are two errors, which the compiler tells as one.
    ("List::open(&tabulation, &mut other, other_words, &mut other_counters)?;", "E0308"),
    ("Scratch { words: *other_words };", "E0451"),
    ("words[0] = 1;", "E0506"),
    ("tabulation[0] = 1;", "E0506"),
    ("counters.done = 0;", "E0506"),
    // A stolen-card list in scratch, over the words of a list, and over its own; and its words written.
    ("StolenList::init(&tabulation, &mut other, 17)?;", "E0308"),
    ("StolenList::open(&tabulation, &mut other, 17)?;", "E0308"),
    ("StolenList::init(&tabulation, &mut words, 17)?;", "E0499"),
    ("StolenList::open(&tabulation, &mut stolen_words, 17)?;", "E0499"),
    ("stolen_words[0] = 1;", "E0506"),
    ("stolen.remove(410_017)?;", "E0599"),
];

/// The errors that the compiler finds in the program with this line: the line of each in the program, and its number.
fn errors(folder: &Path, line: &str) -> Vec<String> {
    let program = folder.join("program.rs");
    fs::write(&program, [BEFORE, line, AFTER].concat()).expect("the program is written");
    let mut command = rustc_user(folder, "program", &program);
    let output = command.args(["--emit=metadata", "--error-format=short", "-Awarnings"]).output();
    let output = output.expect("rustc runs");
    let text = String::from_utf8_lossy(&output.stderr);
    // program.rs:10:17: error[E0308]: mismatched types
    let error = |told: &str| {
        let (place, behind) = told.split_once(": error[")?;
        let (_, numbers) = place.split_once("program.rs:")?;
        Some(format!("{}: {}", numbers.split(':').next()?, behind.split(']').next()?))
    };
    let errors: Vec<String> = text.lines().filter_map(error).collect();
    assert_eq!(errors.is_empty(), output.status.success(), "{line}: {text}");
    errors
}

#[test]
fn only_what_is_right_compiles() {
    let folder = folder("exchanged");
    build_crate(&folder, &[]);
    for line in RIGHT {
        assert_eq!(errors(&folder, line), [""; 0], "{line}");
    }
    let number = BEFORE.lines().count() + 1;
    for (line, error) in WRONG {
        assert_eq!(errors(&folder, line), [format!("{number}: {error}")], "{line}");
    }
}
