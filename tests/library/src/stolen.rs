//! One call on a stolen-card list beside the same call of the program by another hand: answer, every word, tabulation
//! and out-parameter, on memory with guards around it. The crate's safe function is called beside them on copies, and
//! must give the same under its own names. Answers, what else a call could have been refused for, and ways are counted.

use reference::answer::number;
use reference::hash::{MAX_R, MAX_STATION, TABULATION_LEN};
use reference::key::is_blank;
use reference::stolen::{image, way};

use crate::beside::{GUARD, GUARD_ENTRY};
use crate::guarded::Guarded;
use crate::safe::{self, named};

#[derive(Clone, Copy, Debug, PartialEq, Eq)]
pub enum Call {
    Init,
    Insert,
    Lookup,
}

/// The answers that each call can give, refusals in the order in which they are tried.
pub const ANSWERS: [(Call, &[u32]); 3] =
    [(Call::Init, &[0, 2]), (Call::Insert, &[0, 1, 2, 4, 5, 6, 16]), (Call::Lookup, &[0, 1, 2, 5])];

/// The largest number that is an answer.
const LARGEST: usize = 16;

/// Marks an out-parameter that a refused call must leave.
const OLD: u32 = 0xDEAD_BEEF;

/// The image of a set, by the reference. There are no more keys than slots, and all else is sound.
pub fn image_of(tabulation: &[u16], station: u32, slots: usize, keys: &[u32]) -> Vec<u32> {
    let keys = keys.iter().copied().collect();
    image(tabulation, slots as u32, station, &keys).expect("a set that fits")
}

/// Where the way of a key starts. All is sound.
pub fn start(tabulation: &[u16], station: u32, slots: usize, key: u32) -> usize {
    let mut way = way(tabulation, slots as u32, station, key).expect("a sound book and key");
    way.next().expect("a slot")
}

/// How a lookup ends.
#[derive(Clone, Copy, Debug, PartialEq, Eq)]
pub enum End {
    Key,
    Empty,
    Larger,
    Round,
}

/// What calls the library beside the program by another hand, and counts.
#[derive(Default)]
pub struct Reports {
    seen: [[u64; LARGEST + 1]; ANSWERS.len()],
    /// Of refused inserts and lookups: how often these two causes for a refusal came together, the earlier one first.
    together: [[u64; LARGEST + 1]; LARGEST + 1],
    /// Of the 2s, call by call: for the number of words alone, and for the station alone.
    shapes: [[u64; 2]; ANSWERS.len()],
    /// Of accepted inserts: how many moved no other key, how many moved some, and how many went round the end.
    moved: [u64; 3],
    /// Of lookups that were not refused: by how they end, and how many went round the end.
    ends: [u64; 4],
    rounds: u64,
    /// Of lookups: how many stepped over a number below 10.
    over_blank: u64,
}

impl Reports {
    pub fn new() -> Reports {
        Reports::default()
    }

    /// How often a call gave an answer.
    pub fn given(&self, call: Call, answer: u32) -> u64 {
        self.seen[call as usize][answer as usize]
    }

    /// How many calls there were.
    pub fn calls(&self) -> u64 {
        self.seen.iter().flatten().sum()
    }

    /// How many lookups ended so.
    pub fn ended(&self, end: End) -> u64 {
        self.ends[end as usize]
    }

    fn count(&mut self, call: Call, length: usize, station: u32, answer: u32) -> u32 {
        let is_long = !(1..=MAX_R as usize).contains(&length);
        let is_far = station > MAX_STATION;
        if answer == 2 {
            let alone = [is_long && !is_far, is_far && !is_long];
            let counts = &mut self.shapes[call as usize];
            *counts = [0, 1].map(|i| counts[i] + u64::from(alone[i]));
        }
        self.seen[call as usize][answer as usize] += 1;
        answer
    }

    /// Counts what else a call could have been refused for. Whether words that hold no number below 10 and none twice
    /// are an image hangs on the tabulation, which may be of no use; so these are the causes that the words show alone.
    fn count_causes(&mut self, call: Call, book: usize, words: &[u32], station: u32, key: u32) {
        let mut sorted: Vec<u32> = words.iter().copied().filter(|word| *word != 0).collect();
        sorted.sort_unstable();
        let is_spoiled =
            sorted.iter().any(|word| is_blank(*word)) || !sorted.is_sorted_by(|one, two| one < two);
        let is_insert = call == Call::Insert;
        let causes = [
            (1, book != TABULATION_LEN),
            (2, !(1..=MAX_R as usize).contains(&words.len()) || station > MAX_STATION),
            (4, is_insert && is_spoiled),
            (5, is_blank(key)),
            (6, is_insert && words.contains(&key)),
            (16, is_insert && !words.contains(&0)),
        ];
        let given: Vec<usize> = causes.iter().filter(|(_, is)| *is).map(|(n, _)| *n).collect();
        for (i, first) in given.iter().enumerate() {
            given[i + 1..].iter().for_each(|second| self.together[*first][*second] += 1);
        }
    }

    /// Prints what came up. Fails where a call never gave an answer that it can give, or gave another one; where some
    /// two causes for a refusal never came together, or the number of words or the station was never refused alone;
    /// where no insert moved another key, or none did not; and where lookups never ended in one of their ways.
    pub fn report(&self) {
        for (call, answers) in ANSWERS {
            let seen = &self.seen[call as usize];
            let counts: Vec<String> =
                answers.iter().map(|a| format!("{a}: {}", seen[*a as usize])).collect();
            let [length, station] = self.shapes[call as usize];
            println!("stolen {call:?}: {}", counts.join(", "));
            println!("stolen {call:?}: 2 for the length alone {length}, the station {station}");
            for answer in answers {
                assert!(seen[*answer as usize] > 0, "{call:?} never answered {answer}");
            }
            let given: u64 = answers.iter().map(|a| seen[*a as usize]).sum();
            assert_eq!(given, seen.iter().sum::<u64>(), "{call:?} gave an answer it cannot give");
            assert!(length > 0 && (station > 0 || call == Call::Init), "{call:?}: a 2 is missing");
        }
        let numbers = [1, 2, 4, 5, 6, 16];
        for (i, first) in numbers.iter().enumerate() {
            for second in &numbers[i + 1..] {
                assert!(self.together[*first][*second] > 0, "{first} never came with {second}");
            }
        }
        println!("inserts that moved none, some, round the end: {:?}", self.moved);
        println!("lookups that ended with the key, empty, larger, a round: {:?}", self.ends);
        println!("{} went round the end, {} over a blank", self.rounds, self.over_blank);
        assert!(self.moved.iter().chain(&self.ends).all(|times| *times > 0), "a way is missing");
        assert!(self.rounds > 0 && self.over_blank > 0, "no lookup goes round, or over a blank");
    }

    pub fn init(&mut self, words: &mut [u32]) -> u32 {
        let mut expected = words.to_vec();
        let answer = reference::stolen::lay(&mut expected);
        let safe = safe::stolen_init(words);
        let mut lent = Guarded::new(words, GUARD);
        let got = crate::stolen_init(lent.lent());
        assert_eq!(got, number(answer), "init of {} words", words.len());
        assert_eq!(lent.content(), &expected[..]);
        assert_eq!(safe, (answer.map_err(named), expected.clone()), "the safe init");
        words.copy_from_slice(&expected);
        self.count(Call::Init, words.len(), 0, got)
    }

    pub fn insert(&mut self, tabulation: &[u16], words: &mut [u32], station: u32, key: u32) -> u32 {
        let mut expected = words.to_vec();
        let answer = reference::stolen::insert(tabulation, &mut expected, station, key);
        let safe = safe::stolen_insert(tabulation, words, station, key);
        let mut book = Guarded::new(tabulation, GUARD_ENTRY);
        let mut lent = Guarded::new(words, GUARD);
        let got = crate::stolen_insert(book.lent(), lent.lent(), station, key);
        let why = || format!("insert of {key} at {station} into {words:?}");
        assert_eq!(got, number(answer), "{}", why());
        assert_eq!(lent.content(), &expected[..], "{}", why());
        assert_eq!(book.content(), tabulation, "the tabulation changed");
        assert_eq!(
            safe,
            (answer.map_err(named), expected.clone()),
            "with the safe call: {}",
            why()
        );
        self.count_causes(Call::Insert, tabulation.len(), words, station, key);
        if got == 0 {
            self.count_moves(tabulation, words, &expected, station, key);
        } else {
            assert_eq!(words, expected, "a refusal leaves the words");
        }
        words.copy_from_slice(&expected);
        self.count(Call::Insert, words.len(), station, got)
    }

    fn count_moves(
        &mut self,
        tabulation: &[u16],
        old: &[u32],
        new: &[u32],
        station: u32,
        key: u32,
    ) {
        let changed = old.iter().zip(new).filter(|(one, two)| one != two).count();
        let filled = old.iter().zip(new).position(|(one, two)| *one == 0 && *two != 0);
        let filled = filled.expect("an insert fills a slot");
        self.moved[usize::from(changed > 1)] += 1;
        let start = start(tabulation, station, old.len(), key);
        self.moved[2] += u64::from(filled < start);
    }

    /// A lookup: its answer, and whether the key is reported. Refused, the out-parameter stays as it was.
    pub fn lookup(
        &mut self,
        tabulation: &[u16],
        words: &[u32],
        station: u32,
        key: u32,
    ) -> (u32, Option<bool>) {
        let told = reference::stolen::lookup(tabulation, words, station, key);
        let value = told.map_or(OLD, u32::from);
        let mut book = Guarded::new(tabulation, GUARD_ENTRY);
        let mut lent = Guarded::new(words, GUARD);
        let mut reported = Guarded::new(&[OLD], GUARD);
        let out = &mut reported.lent()[0];
        let got = crate::stolen_lookup(book.lent(), lent.lent(), station, key, out);
        let why = || format!("lookup of {key} at {station} in {words:?}");
        assert_eq!(
            (got, reported.content()),
            (number(told.map(|_| ())), &[value][..]),
            "{}",
            why()
        );
        assert_eq!((book.content(), lent.content()), (tabulation, words), "lookup changed memory");
        let safe = safe::stolen_lookup(tabulation, words, station, key);
        assert_eq!(safe, told.map_err(named), "with the safe call: {}", why());
        self.count_causes(Call::Lookup, tabulation.len(), words, station, key);
        if got == 0 {
            self.count_end(tabulation, words, station, key);
        }
        (self.count(Call::Lookup, words.len(), station, got), told.ok())
    }

    fn count_end(&mut self, tabulation: &[u16], words: &[u32], station: u32, key: u32) {
        let start = start(tabulation, station, words.len(), key);
        let way: Vec<u32> = words[start..].iter().chain(&words[..start]).copied().collect();
        let last = way.iter().position(|word| *word == 0 || *word >= key);
        let end = match last.map(|at| way[at]) {
            None => End::Round,
            Some(0) => End::Empty,
            Some(word) if word == key => End::Key,
            Some(_) => End::Larger,
        };
        self.ends[end as usize] += 1;
        let steps = last.unwrap_or(words.len());
        self.rounds += u64::from(start + steps >= words.len());
        self.over_blank += u64::from(way[..steps].iter().any(|word| is_blank(*word)));
    }
}
