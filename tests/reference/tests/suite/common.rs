//! What the tests share: the two engines, lists written out by hand, a list with everything that
//! its calls borrow, prices of sales, and tallies that must not stay at zero.

use std::collections::BTreeMap;

use reference::answer::{Answer, Refusal};
use reference::bulk;
use reference::calls;
use reference::counters::Counters;
use reference::fast::Fast;
use reference::graph::{reachable, Edge};
use reference::image::{Engine, Slow};
use reference::rng::Rng;
use reference::sale::{self, Sale};
use reference::set::Member;

/// Both engines with their names.
pub fn engines() -> [(&'static str, &'static dyn Engine); 2] {
    [("slow", &Slow), ("fast", &Fast)]
}

/// A filled slot as the paper's boards give it: table, index, key, next; and its tier.
pub type HandEntry = (usize, usize, u32, u32, u32);

/// The words of a list written out by hand; `count` is word 2. Deliberately not by `layout`.
pub fn hand_words(
    r: u32,
    s: u32,
    station: u32,
    count: u32,
    entries: &[HandEntry],
    stash: &[Member],
) -> Vec<u32> {
    let per_table = 3 * r as usize;
    let mut words = vec![0; 5 + 2 * per_table + 2 * s as usize];
    words[..5].copy_from_slice(&[r, s, count, stash.len() as u32, station]);
    for &(table, index, key, next, tier) in entries {
        let at = 5 + table * per_table + 3 * index;
        words[at..at + 3].copy_from_slice(&[key, next, tier]);
    }
    for (place, &(key, tier)) in stash.iter().enumerate() {
        let at = 5 + 2 * per_table + 2 * place;
        words[at..at + 2].copy_from_slice(&[key, tier]);
    }
    words
}

/// The positions of the tier words with the positions of their key words, read off without the
/// layout module.
pub fn tier_words(words: &[u32]) -> Vec<(usize, usize)> {
    let stash_at = 5 + 6 * words[0] as usize;
    let slots = (5..stash_at).step_by(3).map(|at| (at + 2, at));
    let places = (stash_at..words.len()).step_by(2).map(|at| (at + 1, at));
    slots.chain(places).collect()
}

/// A list with all that its calls borrow. Each call checks what every call promises beside
/// its answer: a refusal leaves the words, the scratch ends as zeros, and the counters move by one.
pub struct Harness<'a> {
    pub engine: &'a dyn Engine,
    pub tabulation: Vec<u16>,
    pub words: Vec<u32>,
    pub scratch_len: usize,
    pub counters: Counters,
}

impl<'a> Harness<'a> {
    /// A fresh list; the words held something else before.
    pub fn new(engine: &'a dyn Engine, tabulation: &[u16], r: u32, s: u32, station: u32) -> Self {
        let mut words = vec![7; (5 + 6 * r + 2 * s) as usize];
        let mut counters = Counters::default();
        assert_eq!(calls::init(r, s, station, &mut words, &mut counters), Ok(()));
        assert_eq!(counters, Counters { done: 1, refused: 0 });
        let scratch_len = (12 * r + 8 * s) as usize;
        Harness { engine, tabulation: tabulation.to_vec(), words, scratch_len, counters }
    }

    pub fn insert(&mut self, key: u32, tier: u32) -> Answer {
        self.change(|engine, tabulation, words, scratch, counters| {
            calls::insert(&engine, tabulation, words, scratch, counters, key, tier)
        })
    }

    pub fn remove(&mut self, key: u32) -> Answer {
        self.change(|engine, tabulation, words, scratch, counters| {
            calls::remove(&engine, tabulation, words, scratch, counters, key)
        })
    }

    /// A bulk load onto the list's words, whatever they hold.
    pub fn bulk_load(&mut self, r: u32, s: u32, station: u32, input: &[u32]) -> Answer {
        self.counted(|engine, tabulation, words, scratch, counters| {
            bulk::bulk_load(&engine, tabulation, words, scratch, counters, r, s, station, input)
        })
    }

    pub fn check(&mut self) -> Answer {
        let mut scratch = vec![5; self.scratch_len];
        let answer = calls::check(&self.engine, &self.tabulation, &self.words, &mut scratch);
        assert!(scratch.iter().all(|&word| word == 0));
        answer
    }

    /// The keys that a trail writes to a trail sheet of this length, which held something else
    /// before. A refusal leaves the trail sheet; accepted, its rest ends as zeros.
    pub fn trail(&self, key: u32, trail_sheet_len: usize) -> Result<Vec<u32>, Refusal> {
        let mut scratch = vec![5; self.scratch_len];
        let before: Vec<u32> = (1..=trail_sheet_len as u32).collect();
        let mut trail_sheet = before.clone();
        let count = calls::trail(
            &self.engine,
            &self.tabulation,
            &self.words,
            &mut scratch,
            key,
            &mut trail_sheet,
        );
        assert!(scratch.iter().all(|&word| word == 0), "the scratch ends as zeros");
        if count.is_err() {
            assert_eq!(trail_sheet, before, "a refusal leaves the trail sheet");
        }
        let rest = trail_sheet.split_off(count?);
        assert!(rest.iter().all(|&word| word == 0), "the rest is zeros");
        Ok(trail_sheet)
    }

    pub fn open(&self, key: u32, base: u32, steps: &[i32]) -> Result<Sale, Refusal> {
        sale::open(&self.tabulation, &self.words, key, base, steps)
    }

    /// An insert or remove.
    fn change(
        &mut self,
        call: impl Fn(&dyn Engine, &[u16], &mut [u32], &mut [u32], &mut Counters) -> Answer,
    ) -> Answer {
        let words_before = self.words.clone();
        let answer = self.counted(call);
        if answer.is_ok() {
            assert_ne!(self.words, words_before, "an accepted change shows in the words");
        }
        answer
    }

    /// A call that the counters count.
    fn counted(
        &mut self,
        call: impl Fn(&dyn Engine, &[u16], &mut [u32], &mut [u32], &mut Counters) -> Answer,
    ) -> Answer {
        let (words_before, counters_before) = (self.words.clone(), self.counters);
        let mut scratch = vec![5; self.scratch_len];
        let answer =
            call(self.engine, &self.tabulation, &mut self.words, &mut scratch, &mut self.counters);
        assert!(scratch.iter().all(|&word| word == 0), "the scratch ends as zeros");
        if answer.is_err() {
            assert_eq!(self.words, words_before, "a refusal leaves the words");
        }
        let moved = [
            self.counters.done - counters_before.done,
            self.counters.refused - counters_before.refused,
        ];
        assert_eq!(moved, if answer.is_ok() { [1, 0] } else { [0, 1] });
        answer
    }
}

/// How often things of interest came up.
#[derive(Default)]
pub struct Tally(BTreeMap<String, usize>);

impl Tally {
    pub fn add(&mut self, what: impl Into<String>) {
        self.add_many(what, 1);
    }

    pub fn add_many(&mut self, what: impl Into<String>, times: usize) {
        *self.0.entry(what.into()).or_default() += times;
    }

    /// Prints the tally and fails unless each of the given things came up.
    pub fn report(&self, title: &str, wanted: &[&str]) {
        eprintln!("{title}: {:?}", self.0);
        for &what in wanted {
            assert!(self.0.get(what).is_some_and(|&times| times > 0), "{title}: no {what}");
        }
    }
}

/// The price that a sale at this tier has, and `None` where 12 is due. Deliberately not by `sale`.
pub fn hand_price(tier: u32, base: u32, steps: &[i32]) -> Option<u32> {
    let steps = <&[i32; 8]>::try_from(steps).ok()?;
    let farthest = steps.iter().map(|step| step.unsigned_abs()).max()?;
    let price = base.checked_add_signed(steps[tier as usize])?;
    (base != 0 && base < 100_000 && farthest <= 500 && price != 0).then_some(price)
}

/// A base price and steps for an opening: right ones, of which small bases can come to a price
/// below 1; now and then something at its limit or over it, or a wrong number of steps.
pub fn random_prices(rng: &mut Rng) -> (u32, Vec<i32>) {
    let base = match rng.below(10) {
        0 => rng.pick(&[0, 100_000, u32::MAX]),
        1 => rng.pick(&[1, 99_999]),
        2..=4 => 1 + rng.below(500) as u32,
        _ => 1 + rng.below(99_999) as u32,
    };
    let mut steps: Vec<i32> = (0..8).map(|_| rng.below(1_001) as i32 - 500).collect();
    match rng.below(10) {
        0 => steps[rng.below(8)] = rng.pick(&[-501, 501, i32::MIN, i32::MAX]),
        1 => steps[rng.below(8)] = rng.pick(&[-500, 500]),
        2 => steps.resize(rng.pick(&[0, 7, 9]), 0),
        _ => {}
    }
    (base, steps)
}

/// Whether a key lies on a cycle: its slots hang together without it.
pub fn on_cycle(edges: &[Edge], edge: &Edge) -> bool {
    let others: Vec<Edge> = edges.iter().filter(|other| other.key != edge.key).copied().collect();
    reachable(&others, edge.slots[0]).contains(&edge.slots[1])
}

/// Random keys in random order, one issue of each first part.
pub fn many_keys(rng: &mut Rng, count: usize) -> Vec<u32> {
    let mut keys = BTreeMap::new();
    while keys.len() < count {
        let key = rng.next_u32().max(10);
        keys.insert(key / 10, key);
    }
    let mut keys: Vec<u32> = keys.into_values().collect();
    rng.shuffle(&mut keys);
    keys
}

/// All orders of the items.
pub fn permutations<T: Copy>(items: &[T]) -> Vec<Vec<T>> {
    if items.is_empty() {
        return vec![Vec::new()];
    }
    let mut orders = Vec::new();
    for (at, &first) in items.iter().enumerate() {
        let mut rest = items.to_vec();
        rest.remove(at);
        for mut order in permutations(&rest) {
            order.insert(0, first);
            orders.push(order);
        }
    }
    orders
}

/// The keys that a bit mask picks.
pub fn subset(keys: &[u32], mask: usize) -> Vec<u32> {
    keys.iter().enumerate().filter(|(i, _)| mask >> i & 1 == 1).map(|(_, &key)| key).collect()
}

/// The digits of a key without the last. Deliberately not by `key`.
fn first_digits(key: u32) -> String {
    let mut digits = key.to_string();
    digits.pop();
    digits
}

/// All issues of a key's first part but the key itself.
pub fn other_issues(key: u32) -> Vec<u32> {
    let issues = (0..10).filter_map(|issue| format!("{}{issue}", first_digits(key)).parse().ok());
    issues.filter(|&other| other != key).collect()
}

/// Whether two keys are issues of one first part, a key and itself included.
pub fn same_first_part(key: u32, other: u32) -> bool {
    first_digits(key) == first_digits(other)
}

/// A random key with a first part from 0 to `most`, so that it can be blank; half of the time of
/// issue 0, so that a key comes again.
pub fn small_key(rng: &mut Rng, most: usize) -> u32 {
    let issue = if rng.one_in(2) { 0 } else { rng.pick(&[1, 5, 9]) };
    (10 * rng.below(most + 1) + issue) as u32
}

/// All sets over these keys with tiers among these, as their members. Of several issues of a first
/// part each has its sets, but no set has two.
pub fn all_sets(keys: &[u32], tiers: &[u32]) -> Vec<Vec<Member>> {
    let Some((&key, rest)) = keys.split_first() else {
        return vec![Vec::new()];
    };
    let mut sets = all_sets(rest, tiers);
    for without in sets.clone() {
        if without.iter().any(|&(other, _)| same_first_part(key, other)) {
            continue;
        }
        for &tier in tiers {
            let mut with = without.clone();
            with.insert(0, (key, tier));
            sets.push(with);
        }
    }
    sets
}

/// Hashes of the first parts 1 to `count`, each below r, by a number: every choice has one below r
/// to the power of 2 `count`. First part 0 has hashes, too, so that a first part is its own index.
pub fn numbered_ends(number: usize, r: usize, count: usize) -> Vec<[u16; 2]> {
    let mut left = number;
    let mut ends = vec![[0, 0]];
    for _ in 0..count {
        ends.push([(left % r) as u16, (left / r % r) as u16]);
        left /= r * r;
    }
    ends
}
