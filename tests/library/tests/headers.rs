//! The crate against the text of three headers: version, limits, lengths, refusals by name and number, the records,
//! and every declaration.

use std::collections::BTreeMap;
use std::mem::{offset_of, size_of};

use pinorange::{first_part, place_start, scratch_length, slot_start, words_length};
use pinorange::{Counters, Refusal, Sale};

const HEADERS: [&str; 3] = [
    include_str!("../../../include/pinorange_hashes.h"),
    include_str!("../../../include/pinorange.h"),
    include_str!("../../../include/pinorange_stolen.h"),
];
const DECLARED: &str = include_str!("../../../rust/src/raw.rs");

/// What the headers define: each name without its prefix, with its parameters if it has any, and the text behind it.
fn defines() -> BTreeMap<&'static str, &'static str> {
    let lines = HEADERS.iter().flat_map(|header| header.lines());
    lines.filter_map(|line| line.strip_prefix("#define PINORANGE_")).filter_map(define).collect()
}

/// Name and text of one definition; none of those that only guard a header, of those of several lines, which are for C
/// alone, and of those for the inside of a header, which are undefined again.
fn define(line: &str) -> Option<(&str, &str)> {
    let line = line.split("/*").next()?.trim_end();
    let is_undefined = |name: &str| {
        let undefined = format!("#undef PINORANGE_{name}\n");
        HEADERS.iter().any(|header| header.contains(&undefined))
    };
    if line.ends_with('\\') || is_undefined(line.split([' ', '(']).next()?) {
        return None;
    }
    let name_end = line.find(' ')?;
    // With parameters the name ends at the first ')', which stands behind a space if there are two of them.
    let end = if line[..name_end].contains('(') { line.find(')')? + 1 } else { name_end };
    Some((&line[..end], line[end..].trim_start()))
}

/// The definitions that are a number.
fn numbers() -> BTreeMap<String, i64> {
    let parsed = |text: &str| text.strip_suffix('u').unwrap_or(text).parse().ok();
    let named = |(name, text): (&str, &str)| Some((name.to_string(), parsed(text)?));
    defines().into_iter().filter_map(named).collect()
}

/// All refusals that this version knows, by their numbers.
fn refusals() -> impl Iterator<Item = (u32, Refusal)> {
    (1..=16).map(|number| (number, Refusal::of(number).expect("a refusal")))
}

/// A case's name in the letters of a macro: `KEY_ABSENT` for `KeyAbsent`.
fn in_capitals(refusal: Refusal) -> String {
    let mut name = String::new();
    for letter in format!("{refusal:?}").chars() {
        if letter.is_uppercase() && !name.is_empty() {
            name.push('_');
        }
        name.push(letter.to_ascii_uppercase());
    }
    name
}

/// One of the three numbers of the crate's version.
fn version(number: usize) -> i64 {
    let text = pinorange::VERSION.split('.').nth(number).expect("three numbers");
    text.parse().expect("a number")
}

#[test]
fn the_version() {
    assert_eq!(defines()["VERSION"], format!("\"{}\"", pinorange::VERSION));
}

/// Every number that a header defines is in the crate under the same name, and no other.
#[test]
fn limits_and_refusals() {
    let mut expected = BTreeMap::from([
        ("DONE", 0),
        ("VERSION_MAJOR", version(0)),
        ("VERSION_MINOR", version(1)),
        ("VERSION_PATCH", version(2)),
        ("TABULATION_LENGTH", pinorange::TABULATION_LENGTH as i64),
        ("MAX_SLOTS", pinorange::MAX_SLOTS.into()),
        ("MAX_STATION", pinorange::MAX_STATION.into()),
        ("MAX_PLACES", pinorange::MAX_PLACES.into()),
        ("MAX_TIER", pinorange::MAX_TIER.into()),
        ("STEPS", pinorange::STEPS as i64),
        ("MAX_BASE", pinorange::MAX_BASE.into()),
        ("MAX_STEP", pinorange::MAX_STEP.into()),
    ])
    .into_iter()
    .map(|(name, number)| (name.to_string(), number))
    .collect::<BTreeMap<String, i64>>();
    expected.extend(refusals().map(|(number, refusal)| (in_capitals(refusal), number.into())));
    assert_eq!(numbers(), expected);
}

/// The formulas of the headers are written with the numbers that the crate's own come to, and nothing is left over.
#[test]
fn lengths_and_first_part() {
    let defined = defines();
    let [none, slot, place] = [(0, 0), (1, 0), (0, 1)].map(|(r, s)| words_length(r, s));
    let (of_slot, of_place) = (slot - none, place - none);
    let formula = format!("({none}u + {of_slot}u * (r) + {of_place}u * (s))");
    assert_eq!(defined["WORDS(r, s)"], formula);
    assert_eq!(none, pinorange::HEADER_LENGTH);

    let [nothing, of_slot, of_place] = [(0, 0), (1, 0), (0, 1)].map(|(r, s)| scratch_length(r, s));
    assert_eq!(nothing, 0);
    assert_eq!(defined["SCRATCH(r, s)"], format!("({of_slot}u * (r) + {of_place}u * (s))"));

    for r in 0..=pinorange::MAX_SLOTS {
        for s in 0..=pinorange::MAX_PLACES {
            let (slots, places) = (r as usize, s as usize);
            assert_eq!(words_length(r, s), 5 + 6 * slots + 2 * places, "r {r}, s {s}");
            assert_eq!(scratch_length(r, s), 12 * slots + 8 * places, "r {r}, s {s}");
        }
    }

    assert_eq!(defined["SLOT(r, table, slot)"], "(5u + 3u * ((table) * (r) + (slot)))");
    assert_eq!(defined["PLACE(r, place)"], "(5u + 6u * (r) + 2u * (place))");
    for (r, table, slot, start) in
        [(1, 0, 0, 5), (1, 1, 0, 8), (7, 1, 3, 35), (1_024, 1, 1_023, 6_146)]
    {
        assert_eq!(slot_start(r, table, slot), start, "r {r}, table {table}, slot {slot}");
        assert_eq!(place_start(r, 0), slot_start(r, 2, 0), "the stash begins behind the tables");
    }
    assert_eq!(place_start(1_024, 63) + 2, words_length(1_024, 64));

    assert_eq!(defined["FIRST_PART(key)"], "((key) / 10u)");
    for (key, expected) in [(0, 0), (9, 0), (10, 1), (19, 1), (20, 2), (410_017, 41_001)] {
        assert_eq!(first_part(key), expected, "key {key}");
    }
    assert_eq!(first_part(u32::MAX), 429_496_729);
    assert_eq!(defined.len(), numbers().len() + 6, "a definition that no test knows: {defined:?}");
}

/// Sizes far outside their ranges have lengths, too, since nothing in the crate panics.
#[test]
fn lengths_of_no_sizes() {
    let largest = u32::MAX as u64;
    assert_eq!(words_length(u32::MAX, u32::MAX) as u64, 5 + 8 * largest);
    assert_eq!(scratch_length(u32::MAX, u32::MAX) as u64, 20 * largest);
}

#[test]
fn refusals_there_and_back() {
    assert_eq!(Refusal::of(0), None);
    let mut sentences = Vec::new();
    for (number, refusal) in refusals() {
        assert!(!matches!(refusal, Refusal::Unknown(_)), "{number} is not known");
        assert_eq!(refusal.number(), number);
        let error: &dyn std::error::Error = &refusal;
        sentences.push(error.to_string());
    }
    for number in [17, 18, 19, 256, 65_536, u32::MAX] {
        let refusal = Refusal::of(number).expect("a refusal");
        assert_eq!((refusal, refusal.number()), (Refusal::Unknown(number), number));
        assert!(refusal.to_string().contains(&number.to_string()), "{refusal}");
    }
    let shown = sentences.len();
    sentences.sort_unstable();
    sentences.dedup();
    assert_eq!((shown, sentences.len()), (16, 16), "two refusals say the same: {sentences:?}");
}

/// The fields of a struct of pinorange.h, in their order; each must be a `uint32_t`.
fn fields(name: &str) -> Vec<&'static str> {
    let start = format!("struct {name} {{\n");
    let (_, behind) = HEADERS[1].split_once(&start).expect("the struct");
    let lines = behind.split("};").next().unwrap_or_default().lines();
    lines.filter_map(|line| line.trim().strip_prefix("uint32_t ")?.split(';').next()).collect()
}

#[test]
fn the_records() {
    let counters =
        [("done", offset_of!(Counters, done)), ("refused", offset_of!(Counters, refused))];
    let sale = [
        ("key", offset_of!(Sale, key)),
        ("tier", offset_of!(Sale, tier)),
        ("price", offset_of!(Sale, price)),
    ];
    for (name, size, placed) in [
        ("pinorange_counters", size_of::<Counters>(), &counters[..]),
        ("pinorange_sale", size_of::<Sale>(), &sale[..]),
    ] {
        let expected: Vec<(&str, usize)> = fields(name).into_iter().zip((0..).step_by(4)).collect();
        assert_eq!((placed, size), (&expected[..], 4 * expected.len()), "{name}");
    }
}

/// A C parameter as Rust declares it: `words: *const u32` for `const uint32_t *words`.
fn parameter(text: &str) -> String {
    let (kind, name) = text.rsplit_once([' ', '*']).expect("a type and a name");
    let (constant, kind) = match kind.trim_end().strip_prefix("const ") {
        Some(kind) => ("*const ", kind),
        None => ("*mut ", kind.trim_end()),
    };
    let kind = match kind {
        "uint16_t" => "u16",
        "uint32_t" => "u32",
        "int32_t" => "i32",
        "size_t" => "usize",
        "struct pinorange_counters" => "Counters",
        "struct pinorange_sale" => "Sale",
        other => panic!("{other} is no type of a parameter"),
    };
    format!("{name}: {}{kind}", if text.contains('*') { constant } else { "" })
}

/// The calls that a text declares, each on one line, in alphabetical order: those that begin so, up to the semicolon.
fn calls(text: &str, beginning: &str, told: impl Fn(&str, Vec<&str>) -> String) -> Vec<String> {
    let mut calls = Vec::new();
    for declaration in text.split(';').filter_map(|part| Some(part.split_once(beginning)?.1)) {
        let words: Vec<&str> = declaration.split_whitespace().collect();
        let line = words.join(" ");
        let (name, rest) = line.split_once('(').expect("parameters");
        let (listed, _) = rest.rsplit_once(')').expect("the end of the parameters");
        let parameters = listed.split(',').map(str::trim).filter(|one| !one.is_empty()).collect();
        calls.push(told(name, parameters));
    }
    calls.sort_unstable();
    calls
}

/// All calls are declared in Rust as in C: name, parameters by name and type in their order, and the answer.
#[test]
fn the_declarations() {
    let in_c = |name: &str, parameters: Vec<&str>| {
        let parameters: Vec<String> = parameters.into_iter().map(parameter).collect();
        format!("{name}({})", parameters.join(", "))
    };
    let in_rust = |name: &str, parameters: Vec<&str>| format!("{name}({})", parameters.join(", "));
    let without_comments = |text: &str| -> String {
        let lines = text.lines().filter(|line| !line.trim_start().starts_with("//"));
        lines.map(|line| format!("{line}\n")).collect()
    };
    let mut headers: Vec<String> =
        HEADERS.iter().flat_map(|header| calls(header, "\nuint32_t pinorange_", in_c)).collect();
    headers.sort_unstable();
    let declared = without_comments(DECLARED);
    assert_eq!(calls(&declared, "pub fn pinorange_", in_rust), headers);
    assert!(headers.len() >= 16, "not all declarations were read");
    assert_eq!(declared.matches(") -> u32;").count(), headers.len(), "an answer is no u32");
}
