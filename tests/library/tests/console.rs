//! The console program, as it was built and linked, against the console of the program by another hand: every byte of standard output.

use std::collections::BTreeMap;
use std::fs::{self, File};
use std::io::{self, BufRead, BufReader, ErrorKind, Read, Write};
use std::os::fd::OwnedFd;
use std::os::unix::net::UnixStream;
use std::path::{Path, PathBuf};
use std::process::{Child, ChildStdin, Command, Output, Stdio};
use std::thread::{self, JoinHandle};
use std::time::{Duration, Instant, SystemTime};

use reference::fast::Fast;
use reference::rng::Rng;
use reference::samples::{random_issue, random_station, random_tabulation, test_tabulation};

const PROGRAM: &str = concat!(env!("CARGO_MANIFEST_DIR"), "/../../target/bin/console");

const HOUSE_BOOK: &str = concat!(env!("CARGO_MANIFEST_DIR"), "/../../target/bin/house_book");

/// A folder of its own for one test, removed at its end.
struct Folder(PathBuf);

impl Folder {
    fn new(name: &str) -> Folder {
        let path = Path::new(env!("CARGO_TARGET_TMPDIR")).join(name);
        let _ = fs::remove_dir_all(&path);
        fs::create_dir_all(&path).expect("a folder for the test");
        Folder(path)
    }
}

impl Drop for Folder {
    fn drop(&mut self) {
        let _ = fs::remove_dir_all(&self.0);
    }
}

/// The tabulation as the bytes of book.bin, low byte first.
fn book_of(tabulation: &[u16]) -> Vec<u8> {
    tabulation.iter().flat_map(|entry| entry.to_le_bytes()).collect()
}

/// Starts the program in the folder with a book or none.
fn start(folder: &Folder, book: Option<&[u8]>, stdout: Stdio) -> Child {
    let file = folder.0.join("book.bin");
    match book {
        Some(bytes) => fs::write(&file, bytes).expect("book.bin"),
        None => drop(fs::remove_file(&file)),
    }
    Command::new(PROGRAM)
        .current_dir(&folder.0)
        .stdin(Stdio::piped())
        .stdout(stdout)
        .stderr(Stdio::piped())
        .spawn()
        .expect("the console program, built by rt check")
}

/// Writes the input and ends it, while the program's output is read.
fn feed(mut stdin: ChildStdin, input: &[u8]) -> JoinHandle<()> {
    let bytes = input.to_vec();
    // The program may stop before it has read all, so a write that fails is no fault.
    thread::spawn(move || drop(stdin.write_all(&bytes)))
}

/// What the program writes for a book (or none) and an input. It always ends with success.
fn run(folder: &Folder, book: Option<&[u8]>, input: &[u8], stdout: Stdio) -> Output {
    let mut child = start(folder, book, stdout);
    let writer = feed(child.stdin.take().expect("standard input"), input);
    let output = child.wait_with_output().expect("the program's output");
    writer.join().expect("the writing thread");
    assert!(output.status.success(), "the console ended with {}", output.status);
    output
}

/// What the program prints, on standard output alone.
fn printed(folder: &Folder, book: Option<&[u8]>, input: &[u8]) -> Vec<u8> {
    let output = run(folder, book, input, Stdio::piped());
    assert_eq!(String::from_utf8_lossy(&output.stderr), "");
    output.stdout
}

fn compare(folder: &Folder, book: Option<&[u8]>, input: &[u8]) -> Vec<u8> {
    let expected = reference::console::run(&Fast, book, input);
    let got = printed(folder, book, input);
    assert_eq!(
        String::from_utf8_lossy(&got),
        String::from_utf8_lossy(&expected),
        "input {:?}",
        String::from_utf8_lossy(&input[..input.len().min(300)])
    );
    got
}

#[test]
fn the_worked_listing() {
    let folder = Folder::new("listing");
    let got = compare(
        &folder,
        Some(&book_of(&test_tabulation())),
        b"2,1,0\nA,650,0\nA,10,0\nA,330,0\nA,970,0\nL,650\n",
    );
    assert_eq!(
        String::from_utf8_lossy(&got),
        "A,650,0,0\nA,10,0,0\nA,330,0,0\nA,970,0,8\nL,650,0\n\
         P,0,1,10,330,0\nP,1,0,330,10,0\nD,650,0\n"
    );
}

/// The keys of the worked listing at station 31. In the stretches for stations the book has a 1 where first part 1
/// comes to in table 0, and one where first part 97 does in table 1: so 10 is moved from 0.1 to 0.0, and 970 from 1.0
/// to 1.1, and all four find room in pockets. The same lines at station 30 have the pockets of station 0, where 970 has
/// no place.
#[test]
fn a_listing_at_another_station() {
    let folder = Folder::new("station");
    let mut tabulation = test_tabulation();
    (tabulation[1_024 + 32], tabulation[2_304 + 128]) = (1, 1);
    let book = book_of(&tabulation);
    let lines = "A,650,7\nA,10,2\nA,330,5\nA,970,3\nL,10\nL,970\n";
    let got = compare(&folder, Some(&book), format!("2,1,31\n{lines}").as_bytes());
    assert_eq!(
        String::from_utf8_lossy(&got),
        "A,650,7,0\nA,10,2,0\nA,330,5,0\nA,970,3,0\nL,10,2\nL,970,3\n\
         P,0,0,10,330,2\nP,0,1,330,650,5\nP,1,0,650,970,7\nP,1,1,970,10,3\n"
    );
    let got = compare(&folder, Some(&book), format!("2,1,30\n{lines}").as_bytes());
    assert_eq!(
        String::from_utf8_lossy(&got),
        "A,650,7,0\nA,10,2,0\nA,330,5,0\nA,970,3,8\nL,10,2\nL,970,N\n\
         P,0,1,10,330,2\nP,1,0,330,10,5\nD,650,7\n"
    );
}

/// Runs a session on the test book, each line with what must be printed for it, line 1 aside; then the listing.
fn expect(folder: &Folder, session: &[(&str, &str)], listing: &str) {
    let input: Vec<&str> = session.iter().map(|(line, _)| *line).collect();
    let printed: Vec<&str> = session[1..].iter().map(|(_, printed)| *printed).collect();
    let book = book_of(&test_tabulation());
    let got = compare(folder, Some(&book), input.join("\n").as_bytes());
    let expected = format!("{}\n{listing}", printed.join("\n"));
    assert_eq!(String::from_utf8_lossy(&got), expected);
}

/// A session with tiers: A lines with every answer that they can get but 13, L lines, and lines that are of another
/// form because a tier is missing, is no number, or is one too many. Then the listing, in which a lone card has its
/// tier in both pockets.
#[test]
fn a_session_with_tiers() {
    let folder = Folder::new("tiers");
    let session = [
        ("4,1,0", ""),
        ("A,1290,6", "A,1290,6,0"),
        ("A,650,0", "A,650,0,0"),
        ("A,10,3", "A,10,3,0"),
        ("A,340,7", "A,340,7,0"),
        ("A,1930,7", "A,1930,7,8"),
        ("A,1930,8", "A,1930,8,9"),
        ("A,10,3", "A,10,3,6"),
        ("A,10,4", "A,10,4,10"),
        ("A,1290,0", "A,1290,0,10"),
        ("A,10,8", "A,10,8,9"),
        ("A,10,4294967295", "A,10,4294967295,9"),
        ("A,0,8", "A,0,8,5"),
        ("A,0,0", "A,0,0,5"),
        ("A,10,4294967296", "E,15"),
        ("A,10,03", "E,16"),
        ("A,10,00", "E,17"),
        ("A,10", "E,18"),
        ("A,10,", "E,19"),
        ("A,,3", "E,20"),
        ("A,10,3,3", "E,21"),
        ("W,10,3", "E,22"),
        ("L,10,3", "E,23"),
        ("L,10", "L,10,3"),
        ("L,650", "L,650,0"),
        ("L,1290", "L,1290,6"),
        ("L,1930", "L,1930,N"),
        ("L,0", "L,0,R5"),
        ("W,650", "W,650,0"),
        ("W,650", "W,650,7"),
        ("W,0", "W,0,5"),
        ("L,650", "L,650,N"),
        ("A,1930,5", "A,1930,5,0"),
    ];
    let listing = "P,0,1,10,1290,3\nP,0,2,340,340,7\nP,1,0,1290,10,6\nP,1,2,340,340,7\nD,1930,5\n";
    expect(&folder, &session, listing);
}

/// A session with issues: cards below 10, which are right forms of every line; other issues of cards in a pocket and in
/// the drawer, which are not listed and cannot be added or withdrawn, though the drawer is full; a card that is
/// replaced; and the six issues of the largest first part.
#[test]
fn a_session_with_issues() {
    let folder = Folder::new("issues");
    let session = [
        ("4,1,0", ""),
        ("A,9,0", "A,9,0,5"),
        ("A,1,8", "A,1,8,5"),
        ("L,9", "L,9,R5"),
        ("L,1", "L,1,R5"),
        ("W,9", "W,9,5"),
        ("A,09,0", "E,7"),
        ("L,09", "E,8"),
        ("A,10,0", "A,10,0,0"),
        ("A,11,0", "A,11,0,13"),
        ("A,11,8", "A,11,8,9"),
        ("A,652,1", "A,652,1,0"),
        ("A,1290,6", "A,1290,6,0"),
        ("A,650,1", "A,650,1,13"),
        ("A,659,7", "A,659,7,13"),
        ("A,1291,6", "A,1291,6,13"),
        ("A,1930,0", "A,1930,0,8"),
        ("W,11", "W,11,7"),
        ("W,1291", "W,1291,7"),
        ("L,11", "L,11,N"),
        ("L,1291", "L,1291,N"),
        ("L,1290", "L,1290,6"),
        ("W,652", "W,652,0"),
        ("A,650,1", "A,650,1,0"),
        ("L,652", "L,652,N"),
        ("L,650", "L,650,1"),
        ("A,4294967295,7", "A,4294967295,7,0"),
        ("A,4294967290,7", "A,4294967290,7,13"),
        ("L,4294967294", "L,4294967294,N"),
    ];
    // The largest first part has the pockets 0.1 and 1.1.
    let listing = "P,0,1,10,650,0\nP,1,0,650,4294967295,1\nP,1,1,4294967295,10,7\nD,1290,6\n";
    expect(&folder, &session, listing);
}

/// K1 to K12 of the specification, each set from its largest card down, with a withdrawal for K7 and K10: with tier 0, and with tiers that differ.
#[test]
fn the_test_board() {
    let folder = Folder::new("board");
    let book = book_of(&test_tabulation());
    for session in [
        "4,1,0",
        "4,1,0 A,170",
        "4,1,0 A,170 A,10",
        "4,1,0 A,650 A,10",
        "4,1,0 A,1290 A,650 A,10",
        "4,1,0 A,1290 A,650 A,10 A,1930",
        "4,2,0 A,1930 A,1290 A,650 A,10",
        "4,1,0 A,1290 A,650 A,10 W,650",
        "4,1,0 A,1290 A,650 A,170",
        "4,1,0 A,980 A,650 A,340 A,330 A,10",
        "4,1,0 A,980 A,650 A,340 A,330 A,10 W,330",
        "4,1,0 A,2250 A,980 A,650 A,340 A,10",
        "1,0,0 A,90 A,70 A,80",
    ] {
        for step in [0, 3] {
            let with_tier = |(at, line): (usize, &str)| match line.starts_with('A') {
                true => format!("{line},{}", step * at % 8),
                false => line.to_string(),
            };
            let lines: Vec<String> = session.split(' ').enumerate().map(with_tier).collect();
            compare(&folder, Some(&book), lines.join("\n").as_bytes());
        }
    }
}

/// First lines: those that are accepted, those whose numbers are refused, and those of another form. The last two are answered with E,1 alone.
const ACCEPTED: &[&str] =
    &["4,1,0", "1,0,0", "1024,64,0", "4,1,1", "4,1,10", "4,1,255", "1024,64,255"];

#[rustfmt::skip]
const REFUSED: &[&str] = &[
    "1025,1,0", "4,65,0", "0,1,0", "4294967295,4294967295,0", "4294967295,4294967295,4294967295", "0,65,256",
    "4,1,256", "4,1,257", "4,1,300", "4,1,511", "4,1,512", "4,1,1000", "4,1,2550", "4,1,65536", "4,1,2147483648",
    "4,1,4294967295",
];

#[rustfmt::skip]
const OTHER_FORMS: &[&str] = &[
    // without a station, or with one field too many
    "", "4", "4,", "4,1", "1,0", "1024,64", "4,1,", "4,,0", ",1,0", ",,", "4,1,0,", "4,1,0,0", ",4,1,0", "4,1,,0",
    // leading zeros
    "04,1,0", "4,01,0", "4,1,00", "4,1,01", "4,1,007", "4,1,0255", "4,1,0256", "00,1,0",
    // no numbers
    "4,1, 0", "4,1,0 ", "4,1,+0", "4,1,-0", "4,1,-1", "4,1,0\r", "4,1,0\0", "4,1,x", "4,1;0", "4,1.0", "4,1,0x0",
    "4,1,\"0\"",
    // numbers above 32 bits, most of which are a right one modulo 2^32
    "4,1,4294967296", "4,1,4294967303", "4,1,18446744073709551616", "4,1,18446744073709551623", "4294967300,1,0",
    "4,4294967297,0", "4,1,99999999999999999999",
    "A,1", "A,1,0", "A,4,1,0",
];

#[test]
fn the_grammar() {
    let folder = Folder::new("grammar");
    let book = book_of(&test_tabulation());
    let long = "A,10,2".repeat(30_000);
    let long_tier = format!("A,10,{}", "7".repeat(70_000));
    let lines = [
        "",
        "A",
        "A,",
        "A,,",
        "A,10",
        "A,10,",
        "A,,1",
        "A,10,0",
        "A,010,0",
        "A,10,01",
        "A,00,0",
        "A,10,00",
        "A,0,0",
        "A,0,8",
        "L,0",
        "W,0",
        "A,4294967295,7",
        "A,4294967295,6",
        "A,4294967295,8",
        "A,4294967296,0",
        "A,99999999999,0",
        "A,20,4294967295",
        "A,20,4294967296",
        "A,20,99999999999",
        "A,4294967296,4294967296",
        "a,10,0",
        "A;10,0",
        "A,10;0",
        " A,10,0",
        "A, 10,0",
        "A,10 ,0",
        "A,10, 0",
        "A,10,0 ",
        "A,+10,0",
        "A,10,+0",
        "A,-10,0",
        "A,10,-0",
        "A,10,0\r",
        "A,10,x",
        "A,10,N",
        "L,4294967295",
        "L,04294967295",
        "W,4294967295",
        "L,4294967295",
        "X,10",
        "X,10,0",
        "AA,10,0",
        "A,10,2,3",
        "A,10,2,",
        "W,10,2",
        "L,10,2",
        "W,10,",
        "L,10,",
        "4,1",
        "4,1,0",
        "4,1,0,0",
        "\"A\",10,0",
        "A,10,0\0",
        "L,170",
        "A,9,0",
        "A,09,0",
        "W,9",
        "L,9",
        "A,11,0",
        "W,11",
        "L,11",
        &long,
        &long_tier,
        "E,1",
    ];
    let every = lines.join("\n");
    for first in ACCEPTED.iter().chain(REFUSED).chain(OTHER_FORMS) {
        for end in ["", "\n", "\n\n"] {
            let printed =
                compare(&folder, Some(&book), format!("{first}\n{every}{end}").as_bytes());
            assert_eq!(printed != b"E,1\n", ACCEPTED.contains(first), "{first}");
            compare(&folder, Some(&book), format!("{first}{end}").as_bytes());
        }
    }
    compare(&folder, Some(&book), b"");
}

/// Books that are missing or of another length: among them one of 4,096 bytes, as it was without stations, and one as
/// long as it has numbers.
#[test]
fn the_book() {
    let folder = Folder::new("books");
    let book = book_of(&test_tabulation());
    assert_eq!(book.len(), 5_120);
    let longer = [&book[..], &book[..]].concat();
    let wrong = [0, 1, 2_048, 2_560, 4_096, 5_118, 5_119, 5_121, 5_122, 10_240];
    let books = wrong.iter().map(|length| Some(&longer[..*length])).chain([None]);
    for bytes in books {
        for input in ["4,1,0\nA,170,5\n", "4,1,255\n", "4,1\n", ""] {
            assert_eq!(compare(&folder, bytes, input.as_bytes()), b"B\n", "{input}");
        }
    }
    assert_eq!(compare(&folder, Some(&book), b""), b"E,1\n");
    let printed = compare(&folder, Some(&book), b"4,1,0\nA,170,5\n");
    assert_eq!(String::from_utf8_lossy(&printed), "A,170,5,0\nP,0,1,170,170,5\nP,1,1,170,170,5\n");
}

/// The last entry of each stretch for stations, written high byte and low byte: first part 9 meets them at station 246,
/// and no first part below 9 does.
#[test]
fn the_last_entries_of_the_book() {
    let folder = Folder::new("last");
    let mut book = vec![0; 5_120];
    (book[2 * 1_279], book[2 * 1_279 + 1]) = (1, 2);
    (book[2 * 2_559], book[2 * 2_559 + 1]) = (3, 1);
    let printed = compare(&folder, Some(&book), b"1000,0,246\nA,90,4\nA,89,1\n");
    assert_eq!(
        String::from_utf8_lossy(&printed),
        "A,90,4,0\nA,89,1,0\n\
         P,0,0,89,89,1\nP,0,513,90,90,4\nP,1,0,89,89,1\nP,1,259,90,90,4\n"
    );
}

#[test]
fn random_sessions() {
    let folder = Folder::new("sessions");
    let mut rng = Rng::new(31);
    let mut ends: BTreeMap<String, usize> = BTreeMap::new();
    let mut lines = 0;
    for _ in 0..60 {
        let book = book_of(&random_tabulation(&mut rng, 9));
        let station = random_station(&mut rng);
        let mut input = format!("{},{},{station}\n", 1 + rng.below(6), rng.below(4));
        for _ in 0..60 {
            let letter = rng.pick(&["A", "A", "W", "L", "Z"]);
            // Three issues of each of ten first parts, and now and then a card without one.
            let card = match rng.one_in(15) {
                true => rng.below(10),
                false => 10 * (1 + rng.below(10)) + rng.pick(&[0, 0, 4, 9]),
            };
            let tier = rng.pick(&[0, 0, 0, 1, 2, 7, 8]);
            // Now and then an A line without a tier, or another line with one.
            let line = match (letter == "A") != rng.one_in(20) {
                true => format!("{letter},{card},{tier}\n"),
                false => format!("{letter},{card}\n"),
            };
            input += &line;
            lines += 1;
        }
        let printed = compare(&folder, Some(&book), input.as_bytes());
        for line in String::from_utf8_lossy(&printed).lines() {
            let (letter, end) = (&line[..1], line.rsplit(',').next().unwrap_or_default());
            if ["A", "W", "L"].contains(&letter) {
                *ends.entry(format!("{letter} {end}")).or_default() += 1;
            }
        }
    }
    eprintln!("{lines} lines; answers {ends:?}");
    let inserts = ["A 0", "A 5", "A 6", "A 8", "A 9", "A 10", "A 13"];
    let removals_and_lookups = ["W 0", "W 5", "W 7", "L 0", "L 1", "L 2", "L 7", "L N", "L R5"];
    for end in inserts.iter().chain(&removals_and_lookups) {
        assert!(ends.get(*end).is_some_and(|times| *times > 3), "{end} is rare");
    }
}

#[test]
fn the_largest_session() {
    let folder = Folder::new("largest");
    let mut rng = Rng::new(32);
    let mut input = String::from("1024,64,203\n");
    for _ in 0..1_500 {
        let (card, tier) = (rng.next_u32(), rng.below(8));
        input += &format!("A,{card},{tier}\n");
        if rng.one_in(20) {
            input += &format!("A,{0},{tier}\nL,{0}\n", random_issue(&mut rng, card));
        }
    }
    compare(&folder, Some(&book_of(&reference::house::HOUSE)), input.as_bytes());
}

/// What the program says where its output is on a full disk.
const DISK_FULL: &str = "standard output: No space left on device\n";

/// The same where it is a socket that is full for now.
const FULL_FOR_NOW: &str = "standard output: Resource temporarily unavailable\n";

/// The same where nobody reads it any more.
const NOBODY_READS: &str = "standard output: Broken pipe\n";

/// A program that does not end is taken for one that never will.
const LIMIT: Duration = Duration::from_secs(20);

fn full_disk() -> Stdio {
    fs::File::options().write(true).open("/dev/full").expect("/dev/full").into()
}

/// A session of so many A lines on the largest board, each with another card.
fn long_session(lines: u32) -> String {
    let mut input = String::from("1024,64,203\n");
    for n in 0..lines {
        input += &format!("A,{},{}\n", 1_000 + 10 * n, n % 8);
    }
    input
}

/// One line, however much there was to be written, and whichever write it was: the one behind a read, one when the
/// buffer is full in the middle of a read, the one at the end, with the row of a last line that has no newline and the
/// listing, and the one of the rows B and E,1.
#[test]
fn output_that_cannot_be_written() {
    let folder = Folder::new("full");
    let book = book_of(&test_tabulation());
    let long = long_session(5_000);
    let sessions = ["2,1,0\nA,650,0\n", "2,1,0\nX\nL,650\nA,650,0", "2,1,0\nA,650,0", &long];
    for input in sessions.iter().copied().chain(["", "4,1\n", "4,1,256\nA,650,0\n", "0,1,0\n"]) {
        let output = run(&folder, Some(&book), input.as_bytes(), full_disk());
        let told = String::from_utf8_lossy(&output.stderr);
        assert_eq!(told, DISK_FULL, "{}", &input[..input.len().min(30)]);
    }
    let output = run(&folder, None, b"4,1,0\nA,650,0\n", full_disk());
    assert_eq!(String::from_utf8_lossy(&output.stderr), DISK_FULL, "no book");
    // nothing to be written, so nothing is lost
    let output = run(&folder, Some(&book), b"2,1,0\n", full_disk());
    assert_eq!(String::from_utf8_lossy(&output.stderr), "", "no line");
}

/// As in `console | head -1`: no signal ends the program, which says what happened and ends as always.
#[test]
fn a_pipe_that_nobody_reads() {
    let folder = Folder::new("pipe");
    let book = book_of(&test_tabulation());
    for input in ["2,1,0\nA,650,0\n", "4,1\n", &long_session(5_000)] {
        let (reading, writing) = io::pipe().expect("a pipe");
        drop(reading);
        let output = run(&folder, Some(&book), input.as_bytes(), writing.into());
        let told = String::from_utf8_lossy(&output.stderr);
        assert_eq!(told, NOBODY_READS, "{}", &input[..input.len().min(30)]);
    }
}

/// The program ends after the line whose row it could not write, though the input goes on.
#[test]
fn reading_ends_with_the_writing() {
    let folder = Folder::new("reading");
    let mut child = start(&folder, Some(&book_of(&test_tabulation())), full_disk());
    let mut stdin = child.stdin.take().expect("standard input");
    for line in ["2,1,0\n", "A,650,0\n"] {
        stdin.write_all(line.as_bytes()).expect("a line");
    }
    let limit = Instant::now() + LIMIT;
    while child.try_wait().expect("the program").is_none() {
        if Instant::now() > limit {
            child.kill().expect("an end to the program");
            panic!("the console reads on");
        }
        thread::sleep(Duration::from_millis(5));
    }
    let output = child.wait_with_output().expect("the program's output");
    drop(stdin);
    assert!(output.status.success(), "the console ended with {}", output.status);
    assert_eq!(String::from_utf8_lossy(&output.stderr), DISK_FULL);
}

/// A socket to write to that refuses what it has no room for, and the end that it is read from.
fn socket() -> (UnixStream, UnixStream) {
    let (writing, reading) = UnixStream::pair().expect("a socket");
    writing.set_nonblocking(true).expect("a socket that does not block");
    reading.set_read_timeout(Some(LIMIT)).expect("a limit");
    (writing, reading)
}

/// Writes until the socket takes no more, and says how many bytes that were.
fn fill(socket: &mut UnixStream) -> usize {
    let mut bytes = 0;
    loop {
        match socket.write(&[b'.'; 1_024]) {
            Ok(written) => bytes += written,
            Err(error) if error.kind() == ErrorKind::WouldBlock => return bytes,
            Err(error) => panic!("{error}"),
        }
    }
}

/// Once the program has said that its output is full, takes away what filled it, so that there is room again: the
/// program says it once, and writes nothing more.
fn nothing_follows(mut child: Child, mut reading: UnixStream, filled: usize) {
    let mut stderr = BufReader::new(child.stderr.take().expect("standard error"));
    let mut told = String::new();
    stderr.read_line(&mut told).expect("a line on standard error");
    let mut rest = Vec::new();
    reading.read_to_end(&mut rest).expect("what filled the socket");
    stderr.read_to_string(&mut told).expect("standard error to its end");
    assert_eq!(told, FULL_FOR_NOW);
    assert!(child.wait().expect("the program").success());
    assert_eq!(rest.len(), filled, "bytes behind a gap");
}

/// The write that fails is one in the middle of a read, with thousands of lines behind it: no row comes behind the gap.
#[test]
fn no_row_behind_a_gap() {
    let folder = Folder::new("gap");
    let (mut writing, reading) = socket();
    let filled = fill(&mut writing);
    let book = book_of(&reference::house::HOUSE);
    let mut child = start(&folder, Some(&book), OwnedFd::from(writing).into());
    let stdin = child.stdin.take().expect("standard input");
    let writer = feed(stdin, long_session(6_000).as_bytes());
    nothing_follows(child, reading, filled);
    writer.join().expect("the writing thread");
}

/// The write that fails is the first of the listing, which has rows for several more.
#[test]
fn a_listing_that_cannot_be_written() {
    let folder = Folder::new("lost-listing");
    let (mut writing, mut reading) = socket();
    let book = book_of(&reference::house::HOUSE);
    let stdout = OwnedFd::from(writing.try_clone().expect("the socket once more"));
    let mut child = start(&folder, Some(&book), stdout.into());
    let mut stdin = child.stdin.take().expect("standard input");
    let input = long_session(900);
    stdin.write_all(input.as_bytes()).expect("the lines");
    let expected = reference::console::run(&Fast, Some(&book), input.as_bytes());
    let listing = expected.windows(2).position(|pair| pair == b"\nP").expect("a listing") + 1;
    assert!(expected.len() - listing > 4 * 4_096, "a listing of several buffers");
    let mut rows = vec![0; listing];
    reading.read_exact(&mut rows).expect("the rows before the listing");
    assert_eq!(String::from_utf8_lossy(&rows), String::from_utf8_lossy(&expected[..listing]));
    let filled = fill(&mut writing);
    drop((writing, stdin));
    nothing_follows(child, reading, filled);
}

/// What a run of `house_book` says on standard error. It always ends with success, and prints nothing.
fn said(command: &mut Command) -> String {
    let output = command.output().expect("house_book, built by rt check");
    assert!(output.status.success());
    assert_eq!(String::from_utf8_lossy(&output.stdout), "");
    String::from_utf8(output.stderr).expect("text")
}

/// The program that writes the house book, run in the folder: what it says on standard error.
fn house_book(folder: &Folder) -> String {
    said(Command::new(HOUSE_BOOK).current_dir(&folder.0))
}

/// What it says of a book.bin that it leaves.
const LEFT: &str = "book.bin: is there and is not the house book, left as it is\n";

/// The program that writes the house book writes the table that the specification's rule gives.
#[test]
fn the_house_book() {
    let folder = Folder::new("house");
    assert_eq!(house_book(&folder), "");
    let written = fs::read(folder.0.join("book.bin")).expect("book.bin");
    assert_eq!(written, book_of(&reference::house::HOUSE));
}

/// A house book that is there already is left, without a word, and not written again: its old date stays.
#[test]
fn a_house_book_that_is_there() {
    let folder = Folder::new("house-again");
    let file = folder.0.join("book.bin");
    assert_eq!(house_book(&folder), "");
    let old = SystemTime::UNIX_EPOCH + Duration::from_secs(1_000_000);
    File::options()
        .append(true)
        .open(&file)
        .and_then(|book| book.set_modified(old))
        .expect("a date");
    assert_eq!(house_book(&folder), "");
    let date = fs::metadata(&file).and_then(|about| about.modified()).expect("a date");
    assert_eq!(date, old);
    assert_eq!(fs::read(&file).expect("book.bin"), book_of(&reference::house::HOUSE));
}

/// Another book.bin is never written over: a station's own, one that differs in its first or last bit, one that is
/// shorter or longer, and an empty one. One line says so.
#[test]
fn a_book_of_a_station() {
    let folder = Folder::new("own");
    let file = folder.0.join("book.bin");
    let house = book_of(&reference::house::HOUSE);
    let changed = |at: usize| {
        let mut book = house.clone();
        book[at] ^= 1;
        book
    };
    let longer = [&house[..], &[0]].concat();
    let own = book_of(&random_tabulation(&mut Rng::new(7), 65_536));
    let short = house[..house.len() - 1].to_vec();
    for book in [own, changed(0), changed(house.len() - 1), short, longer, Vec::new()] {
        fs::write(&file, &book).expect("book.bin");
        assert_eq!(house_book(&folder), LEFT);
        assert!(fs::read(&file).expect("book.bin") == book, "{} bytes are changed", book.len());
    }
}

/// What is no file is left, too: a folder, and a link that leads nowhere.
#[test]
fn a_name_that_is_taken() {
    let folder = Folder::new("taken");
    let file = folder.0.join("book.bin");
    fs::create_dir(&file).expect("a folder of that name");
    assert_eq!(house_book(&folder), LEFT);
    fs::remove_dir(&file).expect("an empty folder");
    std::os::unix::fs::symlink("nowhere", &file).expect("a link");
    assert_eq!(house_book(&folder), "book.bin: No such file or directory\n");
    assert!(!folder.0.join("nowhere").exists());
}

/// One line, where book.bin cannot be made and where it cannot be filled: then it is taken away again, so that the next
/// run can write it. A limit on the size of files stands for a full disk; without the signal a write is refused.
#[test]
fn a_house_book_that_cannot_be_written() {
    let folder = Folder::new("no-house");
    let file = folder.0.join("book.bin");
    let limited = format!("trap '' XFSZ; ulimit -f 1; exec '{HOUSE_BOOK}'");
    let mut shell = Command::new("sh");
    let line = said(shell.args(["-c", &limited]).current_dir(&folder.0));
    assert_eq!(line, "book.bin: File too large\n");
    assert!(!file.exists(), "a book.bin that is cut short stays");
    assert_eq!(house_book(&folder), "");
    fs::remove_file(&file).expect("book.bin");
    let gone = format!("rmdir '{}'; exec '{HOUSE_BOOK}'", folder.0.display());
    let line = said(Command::new("sh").args(["-c", &gone]).current_dir(&folder.0));
    assert_eq!(line, "book.bin: No such file or directory\n");
}
