//! Instructions of single calls. A counter outside (callgrind) watches one call of one partner at a time; its numbers come back in a file.

use std::collections::BTreeMap;

use crate::cases::{input_of, numbered, CASES, PLACES, STATION};
use crate::partners::{symbol, Call, PARTNERS};
use crate::salvage::{self, Words};
use crate::timing::{bulk_load, change, others};
use crate::trails::{self, shortest_and_typical};

/// Prints what is to be counted, a line each: case, partner, call, and the symbol to watch. The twins have one lookup, so it is counted once, and neither
/// trails nor salvages.
pub fn print_wanted() {
    for case in 0..CASES {
        for (who, partner) in PARTNERS.iter().enumerate() {
            for call in Call::ALL.into_iter().filter(|call| who < 2 || *call != Call::Lookup) {
                println!("{case} {} {} {}", partner.name, call.name(), symbol(who, call));
            }
        }
        for trail in shortest_and_typical(&numbered(case, 1)) {
            println!("{case} {} {} {}", PARTNERS[0].name, trail.name(), trails::SYMBOL);
        }
        for words in Words::BOTH {
            println!("{case} {} {} {}", PARTNERS[0].name, words.name(), salvage::SYMBOL);
        }
    }
}

fn partner_named(name: &str) -> usize {
    let who = PARTNERS.iter().position(|partner| partner.name == name);
    who.unwrap_or_else(|| panic!("no such partner: {name}"))
}

/// One call on the first board of a case (lookup: of each of its keys and as many others; bulk load: of the set that an
/// insert leads to). The words come from the reference, so that no other call of the partner runs, and so does what an
/// insert and a bulk load must leave.
pub fn one(case: &str, partner: &str, call: &str) {
    let case = numbered(case.parse().expect("the number of a case"), 1);
    if let Some(key) = trails::key_named(call) {
        return trails::one(&case, key);
    }
    if let Some(words) = Words::named(call) {
        words.salvage(&case);
        return;
    }
    let (partner, call) = (&PARTNERS[partner_named(partner)], Call::named(call));
    let (board, book) = (&case.boards[0], &case.tabulation);
    let mut words = board.words.clone();
    let mut scratch = case.scratch();
    let answer = match call {
        Call::Lookup => {
            let (mut listed, mut tier) = (0, 0);
            let asked = board.keys().into_iter().chain(others(board));
            let lookup = |key: u32| (partner.lookup)(book, &words, key, &mut listed, &mut tier);
            asked.map(lookup).max().unwrap_or(0)
        }
        Call::BulkLoad => {
            let input = input_of(&board.with_extra());
            bulk_load(partner, book, &input, &mut words, &mut scratch)
        }
        _ => {
            let middle = board.members[board.members.len() / 2];
            let member = if call == Call::Insert { board.extra } else { middle };
            change(partner, call, book, member, &mut words, &mut scratch)
        }
    };
    assert_eq!(answer, 0);
    if matches!(call, Call::Insert | Call::BulkLoad) {
        let set = board.with_extra();
        let image = reference::fast::image(book, case.r, PLACES, STATION, &set);
        assert!(Some(words) == image, "{} does not lead to the set", call.name());
    }
}

/// What was counted.
pub struct Instructions {
    counts: BTreeMap<(usize, usize, Call), u64>,
    /// Of the library's trails, by the key.
    trails: BTreeMap<(usize, u32), u64>,
    /// Of its salvages, by the words.
    salvages: BTreeMap<(usize, Words), u64>,
}

impl Instructions {
    /// Reads lines of case, partner, call and count.
    pub fn read(path: &str) -> Instructions {
        let text = std::fs::read_to_string(path).expect("the file of counts");
        let (mut counts, mut of_trails) = (BTreeMap::new(), BTreeMap::new());
        let mut salvages = BTreeMap::new();
        for line in text.lines() {
            let fields: Vec<&str> = line.split_whitespace().collect();
            let [case, partner, call, count] = fields[..] else { panic!("a line: {line}") };
            let case = case.parse().expect("the number of a case");
            let count = count.parse().unwrap_or_else(|_| panic!("nothing was counted: {line}"));
            match (trails::key_named(call), Words::named(call)) {
                (Some(key), _) => of_trails.insert((case, key), count),
                (_, Some(words)) => salvages.insert((case, words), count),
                _ => counts.insert((case, partner_named(partner), Call::named(call)), count),
            };
        }
        Instructions { counts, trails: of_trails, salvages }
    }

    /// Those of a call of a partner on a case.
    pub fn of(&self, case: usize, partner: usize, call: Call) -> u64 {
        self.counts[&(case, partner, call)]
    }

    /// Those of the trail of a key on a case.
    pub fn of_trail(&self, case: usize, key: u32) -> u64 {
        self.trails[&(case, key)]
    }

    /// Those of a salvage of words of a case.
    pub fn of_salvage(&self, case: usize, words: Words) -> u64 {
        self.salvages[&(case, words)]
    }

    /// Those of a salvage to those of a check of the untampered words.
    pub fn salvage_to_check(&self, case: usize, words: Words) -> f64 {
        self.of_salvage(case, words) as f64 / self.of(case, 0, Call::Check) as f64
    }

    /// Those of the library to those of another partner.
    pub fn ratio(&self, case: usize, partner: usize, call: Call) -> f64 {
        self.of(case, 0, call) as f64 / self.of(case, partner, call) as f64
    }

    /// Those of a bulk load by the library to those of an insert that leads to the same set.
    pub fn bulk_load_to_insert(&self, case: usize) -> f64 {
        self.of(case, 0, Call::BulkLoad) as f64 / self.of(case, 0, Call::Insert) as f64
    }
}
