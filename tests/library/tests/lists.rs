//! A `List` of the crate beside the exported calls on a copy of its memory, in one random run: every answer, every
//! word, the counters, and all that a list tells. The answers are counted, and each that a call can give must come up.

use std::collections::BTreeSet;

use library::seen::Seen;
use library::{entries, words_length};
use pinorange::{Counters, List, Sale, Scratch, STEPS, TABULATION_LENGTH};
use reference::rng::Rng;
use reference::samples::{random_station, random_tabulation};

/// The largest sizes of the run, and a scratch for them. The short one is so for every list.
const MAX_R: usize = 12;
const MAX_S: usize = 3;
const LONG: usize = 12 * MAX_R + 8 * MAX_S;
const SHORT: usize = 11;

/// What an out-parameter holds before a call.
const OLD: u32 = 0xDEAD_BEEF;

/// The answers that each call of a list can give, in safe Rust.
const ANSWERS: [(&str, &[u32]); 10] = [
    ("init", &[0, 2]),
    ("bulk_load", &[0, 2, 3, 5, 9, 14, 13, 8]),
    ("open", &[0, 2, 3, 4]),
    ("salvage", &[0, 2, 3, 15]),
    ("insert", &[0, 3, 5, 9, 13, 10, 6, 8]),
    ("remove", &[0, 3, 5, 7]),
    ("check", &[0, 3]),
    ("lookup", &[0, 5]),
    ("open_sale", &[0, 5, 7, 12]),
    ("trail", &[0, 3, 5, 7, 11]),
];

/// A scratch for a list, and one of the same length for the exported calls, with another content.
fn scratch(rng: &mut Rng) -> (Box<Scratch>, Vec<u32>) {
    if rng.one_in(12) {
        return (Box::new(Scratch::<[u32; SHORT]>::new()), vec![rng.next_u32(); SHORT]);
    }
    (Box::new(Scratch::<[u32; LONG]>::new()), vec![rng.next_u32(); LONG])
}

/// A key, at times a blank one, of so few first parts that they meet again.
fn random_key(rng: &mut Rng, slots: u32) -> u32 {
    let first_part = rng.below(3 * slots as usize + 2) as u32;
    10 * first_part + rng.below(2) as u32
}

/// A list, and the exported calls' memory beside it.
struct Beside<'a> {
    list: List<'a>,
    tabulation: &'a [u16; TABULATION_LENGTH],
    words: Vec<u32>,
    counters: Counters,
}

impl Beside<'_> {
    /// One call of a random kind on both.
    fn step(&mut self, rng: &mut Rng, seen: &mut Seen) {
        match rng.below(9) {
            0..=2 => self.insert(rng, seen),
            3 => self.remove(rng, seen),
            4 => self.check(rng, seen),
            5 => self.lookup(rng, seen),
            6 => self.open_sale(rng, seen),
            7 => self.trail(rng, seen),
            _ => self.compare_cards(),
        }
        assert_eq!(self.list.words(), self.words);
        assert_eq!(self.list.counters(), self.counters);
    }

    fn insert(&mut self, rng: &mut Rng, seen: &mut Seen) {
        let (mut scratch, mut plain) = scratch(rng);
        let (key, tier) = (random_key(rng, self.words[0]), rng.below(9) as u32);
        #[rustfmt::skip]
        let answer = library::insert(self.tabulation, &mut self.words, &mut plain, &mut self.counters, key, tier);
        seen.compare("insert", self.list.insert(&mut scratch, key, tier), answer, ());
    }

    fn remove(&mut self, rng: &mut Rng, seen: &mut Seen) {
        let (mut scratch, mut plain) = scratch(rng);
        let key = random_key(rng, self.words[0]);
        #[rustfmt::skip]
        let answer = library::remove(self.tabulation, &mut self.words, &mut plain, &mut self.counters, key);
        seen.compare("remove", self.list.remove(&mut scratch, key), answer, ());
    }

    fn check(&mut self, rng: &mut Rng, seen: &mut Seen) {
        let (mut scratch, mut plain) = scratch(rng);
        let answer = library::check(self.tabulation, &self.words, &mut plain);
        seen.compare("check", self.list.check(&mut scratch), answer, ());
    }

    fn lookup(&mut self, rng: &mut Rng, seen: &mut Seen) {
        let key = random_key(rng, self.words[0]);
        let (mut listed, mut tier) = (0, OLD);
        let answer = library::lookup(self.tabulation, &self.words, key, &mut listed, &mut tier);
        seen.compare("lookup", self.list.lookup(key), answer, (listed == 1).then_some(tier));
    }

    fn open_sale(&mut self, rng: &mut Rng, seen: &mut Seen) {
        let key = random_key(rng, self.words[0]);
        let base = rng.pick(&[0, 1, 300, 1_749, 99_999, 100_000]);
        let steps = [(); STEPS].map(|()| rng.below(1_001) as i32 - 500);
        let mut sale = Sale { key: OLD, tier: OLD, price: OLD };
        let answer = library::open_sale(self.tabulation, &self.words, key, base, &steps, &mut sale);
        seen.compare("open_sale", self.list.open_sale(key, base, &steps), answer, sale);
    }

    fn trail(&mut self, rng: &mut Rng, seen: &mut Seen) {
        let (mut scratch, mut plain) = scratch(rng);
        let key = random_key(rng, self.words[0]);
        let mut keys = vec![OLD; rng.below(2 * self.words[0] as usize + 1)];
        let (mut theirs, mut count) = (keys.clone(), 0);
        #[rustfmt::skip]
        let answer = library::trail(self.tabulation, &self.words, &mut plain, key, &mut theirs, &mut count);
        let told = self.list.trail(&mut scratch, key, &mut keys);
        seen.compare("trail", told, answer, &theirs[..count as usize]);
        assert_eq!(keys, theirs, "the words lent for a trail");
    }

    /// All that a list tells of itself, against the words.
    fn compare_cards(&self) {
        let (list, words) = (&self.list, &self.words);
        assert_eq!([list.slots(), list.places(), list.station()], [words[0], words[1], words[4]]);
        assert_eq!((list.len(), list.is_empty()), (words[2] as usize, words[2] == 0));
        let filled = || entries(words).filter(|(key, _, _)| *key != 0);
        let all: BTreeSet<(u32, u32)> = filled().map(|(key, tier, _)| (key, tier)).collect();
        assert_eq!(list.cards().count(), all.len(), "a card is not there, or twice");
        assert_eq!(list.cards().collect::<BTreeSet<_>>(), all);
        let stashed: Vec<(u32, u32)> =
            filled().filter(|entry| entry.2).map(|(key, tier, _)| (key, tier)).collect();
        assert_eq!(list.stash().expect("a list").collect::<Vec<_>>(), stashed);
    }
}

/// Key and tier by turns: mostly ascending, at times with a fault that a bulk load is refused for.
fn random_input(rng: &mut Rng, slots: u32) -> Vec<u32> {
    let mut keys: Vec<u32> =
        (0..rng.below(2 * slots as usize + 4)).map(|_| random_key(rng, slots)).collect();
    if !rng.one_in(6) {
        keys.sort_unstable();
        keys.dedup();
    }
    if !rng.one_in(6) {
        keys.retain(|key| *key >= 10);
    }
    if !rng.one_in(4) {
        keys.dedup_by_key(|key| *key / 10);
    }
    let highest = if rng.one_in(6) { 9 } else { 8 };
    let mut input: Vec<u32> =
        keys.into_iter().flat_map(|key| [key, rng.below(highest) as u32]).collect();
    if rng.one_in(9) {
        input.pop();
    }
    input
}

/// Lays a list and words beside it, empty or by a bulk load, at times with sizes that are refused; then calls on both.
fn laid(rng: &mut Rng, tabulation: &[u16; TABULATION_LENGTH], seen: &mut Seen) -> Option<Vec<u32>> {
    let (r, s) = (rng.below(MAX_R + 1) as u32, rng.below(MAX_S + 1) as u32);
    let station = if rng.one_in(9) { 256 } else { random_station(rng) };
    let length = words_length(r, s) - usize::from(rng.one_in(9));
    let mut words = vec![OLD; length];
    let start = rng.pick(&[0, u32::MAX - 5]);
    let mut counters = Counters { done: start, refused: start };

    let (mut theirs, mut plain_counters) = (words.clone(), counters);
    let (call, answer, laid) = if rng.one_in(2) {
        let answer = library::init(&mut theirs, r, s, station, &mut plain_counters);
        ("init", answer, List::init(tabulation, &mut words, r, s, station, &mut counters))
    } else {
        let (mut scratch, mut plain) = scratch(rng);
        let (input, sizes) = (random_input(rng, r), [r, s, station]);
        #[rustfmt::skip]
        let answer = library::bulk_load(tabulation, &mut theirs, &mut plain, &mut plain_counters, sizes, &input);
        #[rustfmt::skip]
        let list = List::bulk_load(tabulation, &mut words, r, s, station, &mut scratch, &mut counters, &input);
        ("bulk_load", answer, list)
    };
    seen.compare(call, laid.as_ref().map(|_| ()).map_err(|refusal| *refusal), answer, ());
    let Ok(list) = laid else {
        assert_eq!((words, counters), (theirs, plain_counters), "a refused {call}");
        return None;
    };
    let mut beside = Beside { list, tabulation, words: theirs, counters: plain_counters };
    for _ in 0..60 {
        beside.step(rng, seen);
    }
    beside.compare_cards();
    Some(words)
}

/// Opens words, at times with one of them changed, and goes on if they are a list.
fn opened(
    rng: &mut Rng,
    tabulation: &[u16; TABULATION_LENGTH],
    mut words: Vec<u32>,
    seen: &mut Seen,
) {
    if rng.one_in(2) {
        let place = rng.below(words.len());
        words[place] ^= 1 << rng.below(32);
    }
    let (mut scratch, mut plain) = scratch(rng);
    let (theirs, mut counters) = (words.clone(), Counters::default());
    let answer = library::check(tabulation, &theirs, &mut plain);
    let opened = List::open(tabulation, &mut words, &mut scratch, &mut counters);
    seen.compare("open", opened.as_ref().map(|_| ()).map_err(|refusal| *refusal), answer, ());
    let Ok(list) = opened else {
        assert_eq!((words, counters), (theirs, Counters::default()), "a refused open");
        return;
    };
    let mut beside = Beside { list, tabulation, words: theirs, counters: Counters::default() };
    for _ in 0..20 {
        beside.step(rng, seen);
    }
}

/// Saves what is left of words of which some were changed, or all keys, and goes on if there is something. Now and then
/// the list's own words are not as many.
fn saved(
    rng: &mut Rng,
    tabulation: &[u16; TABULATION_LENGTH],
    mut damaged: Vec<u32>,
    seen: &mut Seen,
) {
    let change_at = |rng: &mut Rng, word: &mut u32| *word = rng.pick(&[0, 5, *word ^ 1, u32::MAX]);
    match rng.below(9) {
        0 => damaged[5..].iter_mut().for_each(|word| *word = (*word).min(9)),
        1 => change_at(rng, &mut damaged[1]),
        times => {
            for _ in 0..times {
                let place = 2 + rng.below(damaged.len() - 2);
                change_at(rng, &mut damaged[place]);
            }
        }
    }
    let mut words = vec![OLD; damaged.len() - usize::from(rng.one_in(9))];
    let (mut scratch, mut plain) = scratch(rng);
    let (mut theirs, mut lost) = (words.clone(), OLD);
    let mut counters = Counters { done: 3, refused: 4 };
    let before = (damaged.clone(), counters);
    let answer = library::salvage(tabulation, &damaged, &mut theirs, &mut plain, &mut lost);
    let told = List::salvage(tabulation, &mut words, &mut scratch, &mut counters, &damaged);
    let number = told.as_ref().map(|(_, lost)| *lost).map_err(|refusal| *refusal);
    seen.compare("salvage", number, answer, lost);
    let Ok((list, _)) = told else {
        assert_eq!((words, (damaged, counters)), (theirs, before), "a refused salvage");
        return;
    };
    assert_eq!((&damaged, list.counters()), (&before.0, before.1), "a salvage counts nothing");
    let mut beside = Beside { list, tabulation, words: theirs, counters: before.1 };
    beside.compare_cards();
    for _ in 0..20 {
        beside.step(rng, seen);
    }
}

#[test]
fn a_list_beside_the_calls() {
    let mut rng = Rng::new(35);
    let mut seen = Seen::default();
    for _ in 0..4_000 {
        let values = rng.pick(&[2, 5, 40, 65_536]);
        let tabulation = random_tabulation(&mut rng, values);
        let tabulation = tabulation.try_into().expect("a tabulation has one length");
        if let Some(words) = laid(&mut rng, &tabulation, &mut seen) {
            saved(&mut rng, &tabulation, words.clone(), &mut seen);
            opened(&mut rng, &tabulation, words, &mut seen);
        }
    }
    seen.report(&ANSWERS);
}
