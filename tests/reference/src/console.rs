//! The console program as a function from bytes to bytes: the book's bytes and the input in, the
//! output out. The binary `console` only reads the files and prints.

use crate::answer::{number, Found, Refusal};
use crate::calls;
use crate::counters::Counters;
use crate::hash::TABULATION_LEN;
use crate::image::Engine;
use crate::layout::{Shape, PLACE_LEN};

/// Everything a run of the console leaves.
#[derive(Clone, Debug, Default, PartialEq, Eq)]
pub struct Session {
    /// What was printed.
    pub output: Vec<u8>,
    /// The words of the list; empty when the program stopped before there was one.
    pub words: Vec<u32>,
    /// The counters. Paper: "It lives in the console, is no part of the list"; they are never
    /// printed.
    pub counters: Counters,
}

/// What the console prints for a book (the bytes of book.bin, `None` when there is no such file)
/// and an input.
pub fn run(engine: &impl Engine, book: Option<&[u8]>, input: &[u8]) -> Vec<u8> {
    session(engine, book, input).output
}

/// The tabulation in the bytes of book.bin, if it is one.
///
/// Paper: "4,096 bytes, low byte first; if it is missing or of another length, the program prints B
/// and stops". Request Five: "book.bin has 5,120 bytes".
pub fn tabulation_from(book: Option<&[u8]>) -> Option<Vec<u16>> {
    let bytes = book.filter(|bytes| bytes.len() == 2 * TABULATION_LEN)?;
    Some(bytes.chunks_exact(2).map(|pair| u16::from_le_bytes([pair[0], pair[1]])).collect())
}

/// Runs the console; [`run`] with all that it leaves.
pub fn session(engine: &impl Engine, book: Option<&[u8]>, input: &[u8]) -> Session {
    let mut session = Session::default();
    let Some(tabulation) = tabulation_from(book) else {
        session.print("B");
        return session;
    };
    let lines = lines(input);
    // Paper: "if it is line 1, or line 1 is absent or refused, that is E,1 and the program stops".
    let Some(shape) = lines.first().and_then(|line| session.init(line)) else {
        session.print("E,1");
        return session;
    };
    let mut scratch = vec![0; shape.scratch_len()];
    for (at, line) in lines.iter().enumerate().skip(1) {
        match parse_command(line) {
            Some(command) => session.execute(engine, &tabulation, &mut scratch, &command),
            None => session.print(&format!("E,{}", at + 1)),
        }
    }
    session.print_list(shape);
    session
}

impl Session {
    /// Executes line 1, unless it is of another form. Paper: "Line 1 is r,s; accepted, it prints
    /// nothing." Request Five: "line 1 of the program ends with the station".
    fn init(&mut self, line: &[u8]) -> Option<Shape> {
        let [r, s, station] = parse_line_1(line)?;
        // For a number out of range there are no words to borrow, and init refuses it all the same.
        let len = Shape::new(r, s, station).map_or(0, Shape::words_len);
        self.words = vec![0; len];
        calls::init(r, s, station, &mut self.words, &mut self.counters).ok()?;
        Shape::of(&self.words).ok()
    }

    /// Executes one later line.
    ///
    /// Paper: "It prints each of these lines with its answer (for L, [..] a refusal as R and its
    /// number)". Request One: "The program's A line gains the tier before its answer, [..] and L
    /// prints the tier or N."
    fn execute(
        &mut self,
        engine: &impl Engine,
        tabulation: &[u16],
        scratch: &mut [u32],
        command: &Command,
    ) {
        let (words, counters) = (&mut self.words, &mut self.counters);
        let line = match *command {
            Command::Insert(key, tier) => {
                let answer = calls::insert(engine, tabulation, words, scratch, counters, key, tier);
                format!("A,{key},{tier},{}", number(answer))
            }
            Command::Remove(key) => {
                let answer = calls::remove(engine, tabulation, words, scratch, counters, key);
                format!("W,{key},{}", number(answer))
            }
            Command::Lookup(key) => {
                let found = calls::lookup(tabulation, words, key);
                format!("L,{key},{}", found_text(found))
            }
        };
        self.print(&line);
    }

    /// Paper: "then P,rack,pocket,card,next for each filled pocket in order, then D,card". Request
    /// One: "P and D lines gain it last", the tier.
    fn print_list(&mut self, shape: Shape) {
        for slot in shape.slots() {
            if let Some(entry) = shape.entry(&self.words, slot) {
                self.print(&format!(
                    "P,{},{},{},{},{}",
                    slot.table, slot.index, entry.key, entry.next, entry.tier
                ));
            }
        }
        for place in calls::stash(&self.words).to_vec().chunks_exact(PLACE_LEN) {
            self.print(&format!("D,{},{}", place[0], place[1]));
        }
    }

    fn print(&mut self, line: &str) {
        self.output.extend_from_slice(line.as_bytes());
        self.output.push(b'\n');
    }
}

/// A line after line 1. Paper: "Then A (add), W (withdraw) or L (look up) with a card." With
/// request One an A line has the tier after the card.
enum Command {
    Insert(u32, u32),
    Remove(u32),
    Lookup(u32),
}

fn found_text(found: Result<Found, Refusal>) -> String {
    match found {
        Ok(Found::Listed(tier)) => tier.to_string(),
        Ok(Found::Absent) => "N".to_string(),
        Err(refusal) => format!("R{}", refusal.number()),
    }
}

/// Paper: "A newline or the end of input ends a line; nothing after the last newline is no line."
fn lines(input: &[u8]) -> Vec<&[u8]> {
    let mut lines: Vec<&[u8]> = input.split(|&byte| byte == b'\n').collect();
    if lines.last().is_some_and(|last| last.is_empty()) {
        lines.pop();
    }
    lines
}

/// The fields of a line. Paper: "fields parted by commas, no quoting".
fn fields(line: &[u8]) -> Vec<&[u8]> {
    line.split(|&byte| byte == b',').collect()
}

/// The numbers r, s and station of line 1.
fn parse_line_1(line: &[u8]) -> Option<[u32; 3]> {
    match fields(line)[..] {
        [r, s, station] => Some([parse_number(r)?, parse_number(s)?, parse_number(station)?]),
        _ => None,
    }
}

fn parse_command(line: &[u8]) -> Option<Command> {
    match fields(line)[..] {
        [b"A", key, tier] => Some(Command::Insert(parse_number(key)?, parse_number(tier)?)),
        [b"W", key] => Some(Command::Remove(parse_number(key)?)),
        [b"L", key] => Some(Command::Lookup(parse_number(key)?)),
        _ => None,
    }
}

/// Paper: "A number is 0 to 4,294,967,295 without leading zeros."
fn parse_number(field: &[u8]) -> Option<u32> {
    match field {
        [] | [b'0', _, ..] => return None,
        _ => {}
    }
    field.iter().try_fold(0u32, |value, &byte| {
        let digit = byte.is_ascii_digit().then(|| u32::from(byte - b'0'))?;
        value.checked_mul(10)?.checked_add(digit)
    })
}
