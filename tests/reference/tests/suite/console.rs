//! The console program: the paper's worked listing (with tier 0, with other tiers, with other
//! issues, and at another station), its grammar, random inputs against the reference model, and the
//! binary itself.

use std::io::Write;
use std::path::PathBuf;
use std::process::{Command, Stdio};

use reference::answer::{number, Found};
use reference::console::{run, session};
use reference::counters::Counters;
use reference::fast::Fast;
use reference::image::Slow;
use reference::model::{Call, Model, Reply};
use reference::rng::Rng;
use reference::samples::{random_station, random_tabulation, test_tabulation};

use crate::common::{engines, small_key, Tally};

/// Request Six: "The test board and the program's case run with every card multiplied by ten".
const LISTING_INPUT: &str = "2,1,0\nA,650,0\nA,10,0\nA,330,0\nA,970,0\nL,650\n";
const LISTING_OUTPUT: &str = "A,650,0,0\nA,10,0,0\nA,330,0,0\nA,970,0,8\nL,650,0\n\
    P,0,1,10,330,0\nP,1,0,330,10,0\nD,650,0\n";

/// The same with other tiers and some more lines.
const TIERS_INPUT: &str =
    "2,1,0\nA,650,7\nA,10,2\nA,330,5\nA,970,3\nA,650,6\nA,650,8\nA,650,7\nL,650\nL,330\nL,970\n\
    W,970\n";
const TIERS_OUTPUT: &str = "A,650,7,0\nA,10,2,0\nA,330,5,0\nA,970,3,8\nA,650,6,10\nA,650,8,9\n\
    A,650,7,6\nL,650,7\nL,330,5\nL,970,N\nW,970,7\nP,0,1,10,330,2\nP,1,0,330,10,5\nD,650,7\n";

/// The same with other issues and some more lines: 13 for each listed key's other issues, whatever
/// the tier and though the stash is full, and an issue that takes another's place.
const ISSUES_INPUT: &str =
    "2,1,0\nA,655,7\nA,19,2\nA,330,5\nA,970,3\nA,650,7\nA,659,0\nA,650,8\nA,10,2\nA,339,5\nA,9,0\n\
    A,9,8\nL,9\nW,9\nL,655\nL,650\nL,19\nL,10\nL,1\nW,10\nW,651\nW,19\nA,18,1\nL,19\nL,18\n\
    A,978,3\n";
const ISSUES_OUTPUT: &str =
    "A,655,7,0\nA,19,2,0\nA,330,5,0\nA,970,3,8\nA,650,7,13\nA,659,0,13\nA,650,8,9\nA,10,2,13\n\
    A,339,5,13\nA,9,0,5\nA,9,8,5\nL,9,R5\nW,9,5\nL,655,7\nL,650,N\nL,19,2\nL,10,N\nL,1,R5\nW,10,7\n\
    W,651,7\nW,19,0\nA,18,1,0\nL,19,N\nL,18,1\nA,978,3,8\n\
    P,0,1,18,330,1\nP,1,0,330,18,5\nD,655,7\n";

fn bytes_of(tabulation: &[u16]) -> Vec<u8> {
    tabulation.iter().flat_map(|entry| [(entry % 256) as u8, (entry / 256) as u8]).collect()
}

/// At station 31 with other fifth stretches: entry 1,024 + v is 1 for v = 32 alone, and entry
/// 2,304 + v is 1 for v = 128 alone. So key 10, with (1 + 31) modulo 256, is moved from slot 1 of
/// table 0 to slot 0, and key 970, with 97 + 31, from slot 0 of table 1 to slot 1; keys 650 and 330
/// stay where the test book has them.
const STATION_INPUT: &str =
    "2,1,31\nA,650,7\nA,10,2\nA,330,5\nA,970,3\nL,10\nL,970\nW,650\nL,650\nA,650,8\nA,10,3\n";
const STATION_OUTPUT: &str =
    "A,650,7,0\nA,10,2,0\nA,330,5,0\nA,970,3,0\nL,10,2\nL,970,3\nW,650,0\nL,650,N\nA,650,8,9\n\
    A,10,3,10\nP,0,0,10,330,2\nP,0,1,330,970,5\nP,1,0,10,330,2\nP,1,1,970,10,3\n";

fn station_tabulation() -> Vec<u16> {
    let mut tabulation = test_tabulation();
    tabulation[1_024 + 32] = 1;
    tabulation[2_304 + 128] = 1;
    tabulation
}

/// What the console prints with the test book.
fn printed(input: impl AsRef<[u8]>) -> String {
    let book = bytes_of(&test_tabulation());
    String::from_utf8(run(&Fast, Some(&book), input.as_ref())).unwrap()
}

#[test]
fn worked_listing_and_its_words() {
    let book = bytes_of(&test_tabulation());
    for (_, engine) in engines() {
        let session = session(&engine, Some(&book), LISTING_INPUT.as_bytes());
        assert_eq!(String::from_utf8(session.output).unwrap(), LISTING_OUTPUT);
        let slots = [0, 0, 0, 10, 330, 0, 330, 10, 0, 0, 0, 0];
        assert_eq!(session.words, [&[2, 1, 3, 1, 0], &slots[..], &[650, 0]].concat());
        assert_eq!(session.counters, Counters { done: 4, refused: 1 });
    }
}

#[test]
fn the_listing_with_other_tiers_and_its_words() {
    let book = bytes_of(&test_tabulation());
    for (_, engine) in engines() {
        let session = session(&engine, Some(&book), TIERS_INPUT.as_bytes());
        assert_eq!(String::from_utf8(session.output).unwrap(), TIERS_OUTPUT);
        let slots = [0, 0, 0, 10, 330, 2, 330, 10, 5, 0, 0, 0];
        assert_eq!(session.words, [&[2, 1, 3, 1, 0], &slots[..], &[650, 7]].concat());
        assert_eq!(session.counters, Counters { done: 4, refused: 5 });
    }
}

#[test]
fn the_listing_with_other_issues_and_its_words() {
    let book = bytes_of(&test_tabulation());
    for (_, engine) in engines() {
        let session = session(&engine, Some(&book), ISSUES_INPUT.as_bytes());
        assert_eq!(String::from_utf8(session.output).unwrap(), ISSUES_OUTPUT);
        let slots = [0, 0, 0, 18, 330, 1, 330, 18, 5, 0, 0, 0];
        assert_eq!(session.words, [&[2, 1, 3, 1, 0], &slots[..], &[655, 7]].concat());
        assert_eq!(session.counters, Counters { done: 6, refused: 12 });
    }
}

#[test]
fn a_listing_at_another_station_and_its_words() {
    let book = bytes_of(&station_tabulation());
    for (_, engine) in engines() {
        let session = session(&engine, Some(&book), STATION_INPUT.as_bytes());
        assert_eq!(String::from_utf8(session.output).unwrap(), STATION_OUTPUT);
        let slots = [10, 330, 2, 330, 970, 5, 10, 330, 2, 970, 10, 3];
        assert_eq!(session.words, [&[2, 1, 3, 0, 31], &slots[..], &[0, 0]].concat());
        assert_eq!(session.counters, Counters { done: 6, refused: 2 });
    }
}

#[test]
fn a_book_of_another_length_prints_b_whatever_the_input() {
    for input in [LISTING_INPUT, "", "x"] {
        assert_eq!(run(&Fast, None, input.as_bytes()), b"B\n");
        for len in [0, 1, 5_119, 5_121, 4_096, 2_560, 10_240] {
            assert_eq!(run(&Fast, Some(&vec![0; len]), input.as_bytes()), b"B\n");
        }
    }
    assert_eq!(run(&Fast, Some(&[0; 5_120]), b"1,0,0"), b"");
}

#[test]
fn the_book_is_read_low_byte_first() {
    let mut bytes = vec![0; 5_120];
    bytes[2 * 9 + 1] = 2; // entry 9, of first part 9, is 512
    bytes[5_119] = 1; // entry 2,559, the last of table 1's fifth stretch, is 256
    let printed = b"A,90,4,0\nP,0,512,90,90,4\nP,1,0,90,90,4\n";
    assert_eq!(run(&Fast, Some(&bytes), b"1000,0,0\nA,90,4"), printed);
    let printed = b"A,99,4,0\nP,0,512,99,99,4\nP,1,256,99,99,4\n";
    assert_eq!(run(&Fast, Some(&bytes), b"1000,0,246\nA,99,4"), printed, "9 + 246 is 255");
}

/// Line 1 of every form that is not accepted: E,1 and nothing more, whatever follows.
#[test]
fn a_bad_line_1_stops_the_program() {
    let refused = "0,1,0|1025,1,0|1,65,0|4294967295,1,0|1,4294967295,0|2147483649,1,0\
        |1,2147483649,0|2,1,256|2,1,257|2,1,512|2,1,65536|2,1,2147483648|2,1,4294967295|0,65,256";
    let other_forms =
        "|2|2,|,1|,|2,1|1,0|1024,64|2,1,|2,,0|,1,0|,,|2,1,0,|2,1,0,0|,2,1,0|2,1;0|2;1,0|02,1,0\
        |2,01,0|2,1,00|2,1,01|2,1,007|00,1,0|+2,1,0|-2,1,0|2,-0,0|2,1,-0|2,1,+0|2,1,-1|2, 1,0\
        |2,1, 0| 2,1,0|2,1,0 |2,1,0\r|2,1\r|2.0,1,0|2,1,0.0|0x2,1,0|2,1,0x0|4294967296,1,0\
        |2,4294967296,0|2,1,4294967296|2,1,4294967551|2,1,18446744073709551616\
        |2,99999999999999999999,0|A,65|A,65,0|2,1,A|\"2\",1,0|2,1,\"0\"|2,1,0\0|2,1,\0|٢,1,0\
        |2,1,٠";
    for line in refused.split('|').chain(other_forms.split('|')) {
        for rest in ["", "\n", "\nA,65,0\n", "\n2,1,0\nA,65,0\n"] {
            assert_eq!(printed(format!("{line}{rest}")), "E,1\n", "{line:?} {rest:?}");
        }
    }
    assert_eq!(printed(""), "E,1\n", "line 1 is absent");
    assert_eq!(printed(b"\xff,1,0"), "E,1\n");
    assert_eq!(printed(b"2,1,\xff"), "E,1\n");
}

#[test]
fn an_accepted_line_1_prints_nothing() {
    for line in ["2,1,0", "1,0,0", "1024,64,0", "1024,64,255", "1024,64,255\n", "1,64,10", "1,0,9"]
    {
        assert_eq!(printed(line), "", "{line:?}");
    }
}

/// Later lines of another form print their number in their place, and the program goes on.
#[test]
fn lines_of_another_form_print_their_number() {
    let other_forms =
        "|,|A|A,|,5|A,5|A,5,|A,,5|A,,|,,|,5,5|A,5,5,|A,,5,5|A,5,,5|A,5,5,5|A,5,5,0|A;5,0|A,5;0\
        |a,5,0|w,5|l,5|AA,5,0|B,5,0|B,5|C,5|P,0,1,1,1|P,0,1,1,1,0|D,65|D,65,0|E,2|2,1|2,1,0|5,0\
        |2,1,0,0|5,A,0|A,05,0|A,00,0|A,+5,0|A,-5,0|A,-0,0|A, 5,0|A,5 ,0| A,5,0|A ,5,0|A,5,0\r|\r| \
        |A,5.0,0|A,5e0,0|A,0x5,0|A,4294967296,0|A,4294967300,0|A,42949672950,0\
        |A,10000000000,0|W,4294967296|L,4294967296|A,18446744073709551621,0|A,\"5\",0\
        |A,5\0,0|A,5,0\0|L,|L,01|W,01|W,|W|L|A\t5,0|A,5\t,0|A,٥,0|A,4 294,0|A,5,B|A,B,5|A,5,N\
        |A,5,R5|A,5,00|A,5,01|A,5,07|A,5,010|A,5,+1|A,5,-1|A,5,-0|A,5, 1|A,5,1 |A,5,1.0\
        |A,5,0x1|A,5,\"1\"|A,5,٣|A,5,1\t|A,5,4294967296|A,5,4294967303|A,5,18446744073709551617\
        |A,0,4294967296|A,0,08|W,5,0|L,5,0|W,5,3|L,5,3|W,0,0|L,0,0|W,5,|L,5,";
    for line in other_forms.split('|') {
        let expected = "A,50,3,0\nE,3\nL,50,3\nP,0,1,50,50,3\nP,1,0,50,50,3\n";
        assert_eq!(printed(format!("2,1,0\nA,50,3\n{line}\nL,50\n")), expected, "{line:?}");
    }
    assert_eq!(printed(b"2,1,0\nA,\xff,0\n\xc3\x28\nA,1,\xff\n"), "E,2\nE,3\nE,4\n");
    // A line may be of any length.
    let zeros = "0".repeat(100_000);
    let long = format!("2,1,0\nA,{zeros},0\nA,1{zeros},0\nA,1,{zeros}\nA,1,1{zeros}\n");
    assert_eq!(printed(long), "E,2\nE,3\nE,4\nE,5\n");
}

#[test]
fn every_line_counts_for_its_number() {
    let input = format!("2,1,0\n{}\nA,x,0\n", "L,10\n\n".repeat(60));
    let lines: String = (0..60).map(|i| format!("L,10,N\nE,{}\n", 3 + 2 * i)).collect();
    assert_eq!(printed(input), lines + "E,122\nE,123\n");
}

#[test]
fn a_newline_or_the_end_of_input_ends_a_line() {
    let listed = "A,50,1,0\nP,0,1,50,50,1\nP,1,0,50,50,1\n";
    assert_eq!(printed("2,1,0\nA,50,1"), listed, "the last newline is missing");
    assert_eq!(printed("2,1,0\nA,50,1\n"), listed, "nothing after the last newline is no line");
    assert_eq!(
        printed("2,1,0\nA,50,1\n\n"),
        listed.replacen("P", "E,3\nP", 1),
        "an empty line is a line"
    );
    assert_eq!(printed("2,1,0\n "), "E,2\n");
    assert_eq!(printed("\n"), "E,1\n");
}

#[test]
fn answers_and_refusals_are_printed_by_number() {
    assert_eq!(printed("2,1,0\nL,0\nA,0,0\nW,0\nA,0,8\n"), "L,0,R5\nA,0,0,5\nW,0,5\nA,0,8,5\n");
    // Every number below 10 is of a right form, and blank.
    for blank in 0..10 {
        assert_eq!(
            printed(format!("2,1,0\nL,{blank}\nA,{blank},0\nW,{blank}\nA,{blank},8\n")),
            format!("L,{blank},R5\nA,{blank},0,5\nW,{blank},5\nA,{blank},8,5\n")
        );
    }
    assert_eq!(
        printed("2,1,0\nW,70\nA,70,2\nA,70,2\nA,70,0\nL,70\nW,70\nL,70\n"),
        "W,70,7\nA,70,2,0\nA,70,2,6\nA,70,0,10\nL,70,2\nW,70,0\nL,70,N\n"
    );
    // A tier above 7 is of a right form, and refused with 9, before 13, 10 and 6.
    assert_eq!(
        printed("2,1,0\nA,70,8\nA,70,4294967295\nA,70,7\nA,70,8\nA,71,8\nA,71,7\nW,71\nW,70\n"),
        "A,70,8,9\nA,70,4294967295,9\nA,70,7,0\nA,70,8,9\nA,71,8,9\nA,71,7,13\nW,71,7\nW,70,0\n"
    );
    let last = "A,4294967295,7,0\nL,4294967295,7\n\
        P,0,1,4294967295,4294967295,7\nP,1,1,4294967295,4294967295,7\n";
    assert_eq!(printed("2,1,0\nA,4294967295,7\nL,4294967295"), last);
    // Three keys in the stash are printed in ascending order, one a line; 13, 10 and 9 go before 8.
    let full = "A,90,1,0\nA,75,6,0\nA,50,0,0\nA,30,4,0\nA,19,3,0\nA,20,0,8\nA,90,1,6\nA,90,2,10\n\
        A,20,8,9\nA,91,1,13\nA,74,2,13\nA,10,3,13\n\
        P,0,0,19,30,3\nP,1,0,30,19,4\nD,50,0\nD,75,6\nD,90,1\n";
    let input = "1,3,0\nA,90,1\nA,75,6\nA,50,0\nA,30,4\nA,19,3\nA,20,0\nA,90,1\nA,90,2\nA,20,8\n\
        A,91,1\nA,74,2\nA,10,3\n";
    assert_eq!(printed(input), full);
}

/// A random line: mostly of a right form, else with something inserted, dropped or swapped.
fn random_line(rng: &mut Rng) -> String {
    let key = match rng.below(10) {
        0 => 0,
        1 => u64::from(u32::MAX) + rng.below(3) as u64 - 1,
        _ => u64::from(small_key(rng, 6)),
    };
    let tier = match rng.below(12) {
        0 => 8,
        1 => u64::from(u32::MAX) + rng.below(3) as u64 - 1,
        2 => rng.below(8) as u64,
        _ => rng.pick(&[0, 3]),
    };
    let mut line = match rng.pick(&["A", "A", "A", "W", "L"]) {
        "A" => format!("A,{key},{tier}"),
        letter => format!("{letter},{key}"),
    };
    if rng.one_in(4) {
        let at = rng.below(line.len() + 1);
        match rng.below(3) {
            0 => {
                line.insert(at, rng.pick(&['0', '1', ',', ' ', '\r', '-', '+', 'A', 'L', '\u{e9}']))
            }
            1 if at < line.len() => drop(line.remove(at)),
            _ => line = line[at..].to_string() + &line[..at],
        }
    }
    line
}

/// What a line says (for W and L with tier 0), found by writing it out again instead of reading
/// digits.
fn reread(line: &str) -> Option<(&str, u32, u32)> {
    let (letter, fields) = line.split_once(',')?;
    let (key, tier) = fields.split_once(',').unwrap_or((fields, "0"));
    let (key, tier): (u32, u32) = (key.parse().ok()?, tier.parse().ok()?);
    let rewritten = match letter {
        "A" => format!("A,{key},{tier}"),
        "W" | "L" => format!("{letter},{key}"),
        _ => return None,
    };
    (rewritten == line).then_some((letter, key, tier))
}

/// What the console should print for a line, by the reference model.
fn answered(model: &mut Model<Slow>, line: &str, line_number: usize, tally: &mut Tally) -> String {
    let (tabulation_len, scratch_len) = (2_560, 10_000);
    let Some((letter, key, tier)) = reread(line) else {
        tally.add("lines of another form");
        return format!("E,{line_number}\n");
    };
    let call = match letter {
        "A" => Call::Insert { tabulation_len, scratch_len, key, tier },
        "W" => Call::Remove { tabulation_len, scratch_len, key },
        _ => Call::Lookup { tabulation_len, key },
    };
    let answer = match model.feed(&call) {
        Reply::Answer(answer) => number(answer).to_string(),
        Reply::Lookup(Ok(Found::Listed(tier))) => tier.to_string(),
        Reply::Lookup(Ok(Found::Absent)) => "N".to_string(),
        Reply::Lookup(Err(refusal)) => format!("R{}", refusal.number()),
        other => unreachable!("{other:?} was not asked for"),
    };
    tally.add(format!("{letter} {answer}"));
    format!("{line},{answer}\n")
}

/// The P and D lines of words, read off without the layout module.
fn listing(words: &[u32]) -> String {
    let r = words[0] as usize;
    let slots = (0..2 * r).filter(|slot| words[5 + 3 * slot] != 0);
    let filled = slots.map(|slot| {
        let [key, next, tier] = [5, 6, 7].map(|at| words[at + 3 * slot]);
        format!("P,{},{},{key},{next},{tier}\n", slot / r, slot % r)
    });
    let places = (5 + 6 * r..words.len()).step_by(2).filter(|&at| words[at] != 0);
    let stash = places.map(|at| format!("D,{},{}\n", words[at], words[at + 1]));
    filled.chain(stash).collect()
}

#[test]
fn random_inputs_print_what_the_reference_model_answers() {
    let mut rng = Rng::new(81);
    let mut tally = Tally::default();
    for _ in 0..500 {
        let (r, s) = (1 + rng.below(3) as u32, rng.below(3) as u32);
        let tabulation = random_tabulation(&mut rng, 5);
        let station = random_station(&mut rng);
        let mut model = Model::new(Slow, &tabulation, r, s, station).unwrap();
        if rng.one_in(10) {
            let line_1 = match rng.below(4) {
                0 => format!("{r},{s}"),
                1 => format!("{r},{s},{}", station + 256),
                2 => format!("{r},{s},{}", rng.next_u32() | 256),
                _ => format!("{r},{s},{station},{station}"),
            };
            let output = run(&Fast, Some(&bytes_of(&tabulation)), line_1.as_bytes());
            assert_eq!(output, b"E,1\n", "{line_1:?}");
            tally.add("wrong line 1");
        }
        let mut input = format!("{r},{s},{station}\n");
        let mut expected = String::new();
        for line_number in 2..2 + rng.below(30) {
            let line = random_line(&mut rng);
            expected += &answered(&mut model, &line, line_number, &mut tally);
            input += &line;
            input.push('\n');
            tally.add("lines");
        }
        if rng.one_in(2) && !input.ends_with("\n\n") {
            input.pop();
        }
        expected += &listing(&model.words());
        let output = run(&Fast, Some(&bytes_of(&tabulation)), input.as_bytes());
        assert_eq!(String::from_utf8(output).unwrap(), expected, "{input:?}");
        tally.add("inputs");
    }
    let wanted = [
        "inputs",
        "wrong line 1",
        "lines",
        "lines of another form",
        "A 0",
        "A 5",
        "A 6",
        "A 8",
        "A 9",
        "A 10",
        "A 13",
        "W 0",
        "W 5",
        "W 7",
        "L 0",
        "L 3",
        "L N",
        "L R5",
    ];
    tally.report("console", &wanted);
}

/// Runs the binary in a folder of its own under the build folder.
fn run_binary(name: &str, book: Option<&[u8]>, input: &[u8]) -> Vec<u8> {
    let folder = PathBuf::from(env!("CARGO_TARGET_TMPDIR")).join(name);
    std::fs::create_dir_all(&folder).unwrap();
    let file = folder.join("book.bin");
    match book {
        Some(book) => std::fs::write(&file, book).unwrap(),
        None => drop(std::fs::remove_file(&file)),
    }
    let mut child = Command::new(env!("CARGO_BIN_EXE_console"))
        .current_dir(&folder)
        .stdin(Stdio::piped())
        .stdout(Stdio::piped())
        .spawn()
        .unwrap();
    // Without a book the program does not read, and writing to it may fail; the output says enough.
    let _ = child.stdin.take().unwrap().write_all(input);
    let output = child.wait_with_output().unwrap();
    assert!(output.status.success());
    output.stdout
}

#[test]
fn the_binary_reads_book_bin_and_standard_input() {
    let book = bytes_of(&test_tabulation());
    let listing = LISTING_INPUT.as_bytes();
    assert_eq!(run_binary("listing", Some(&book), listing), LISTING_OUTPUT.as_bytes());
    let tiers = TIERS_INPUT.as_bytes();
    assert_eq!(run_binary("tiers", Some(&book), tiers), TIERS_OUTPUT.as_bytes());
    let issues = ISSUES_INPUT.as_bytes();
    assert_eq!(run_binary("issues", Some(&book), issues), ISSUES_OUTPUT.as_bytes());
    let station =
        run_binary("station", Some(&bytes_of(&station_tabulation())), STATION_INPUT.as_bytes());
    assert_eq!(station, STATION_OUTPUT.as_bytes());
    assert_eq!(run_binary("no-station", Some(&book), b"2,1\nA,650,0\n"), b"E,1\n");
    assert_eq!(run_binary("no-input", Some(&book), b""), b"E,1\n");
    assert_eq!(run_binary("no-book", None, listing), b"B\n");
    assert_eq!(run_binary("short-book", Some(&book[1..]), listing), b"B\n");
    assert_eq!(run_binary("old-book", Some(&book[..4_096]), listing), b"B\n");
}
