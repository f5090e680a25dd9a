//! The crate's listing, which is not proved: on canonical lists of all kinds each card once, in the order in which they
//! stand in the words; nothing of words of another shape; and no panic on any words.

use std::collections::BTreeSet;

use library::Change::Insert;
use library::{are_sizes, change, entries, fresh, words_length};
use pinorange::cards;
use reference::fast::image;
use reference::hash::TABULATION_LEN;
use reference::house::HOUSE;
use reference::rng::Rng;
use reference::samples::{
    random_keys, random_station, random_tabulation, random_tiers, test_tabulation, tier_0,
};
use reference::set::Member;

/// What was listed, so that a test can tell that every kind came up.
#[derive(Default)]
struct Seen {
    lists: u64,
    empty: u64,
    /// With a key in every slot and in every place of a stash that has some.
    full: u64,
    /// Keys that sit in both their slots, and lists with several of them.
    twice: u64,
    several: u64,
    /// Keys that sit in table 1 alone, and keys that are stashed.
    in_table_1: u64,
    stashed: u64,
}

impl Seen {
    /// Lists canonical words: the cards are the members of the set, in the order of the words, each where it stands
    /// first.
    fn compare(&mut self, tabulation: &[u16], words: &[u32], members: &[Member]) {
        let listed: Vec<Member> = cards(tabulation, words).collect();
        let mut found = BTreeSet::new();
        let mut twice = 0;
        let mut first = Vec::new();
        let r = words[0] as usize;
        for (place, (key, tier, is_stashed)) in entries(words).enumerate() {
            match key {
                0 => {}
                _ if found.insert(key) => {
                    first.push((key, tier));
                    self.in_table_1 += u64::from(!is_stashed && place >= r);
                    self.stashed += u64::from(is_stashed);
                }
                _ => twice += 1,
            }
        }
        assert_eq!(listed, first, "not as in {words:?}");
        let mut sorted = listed;
        sorted.sort_unstable();
        assert_eq!(sorted, members, "not the set of {words:?}");
        self.lists += 1;
        self.empty += u64::from(members.is_empty());
        self.full += u64::from(members.len() == 2 * r + words[1] as usize && words[1] > 0);
        self.twice += twice;
        self.several += u64::from(twice > 1);
    }
}

#[test]
fn random_canonical_lists() {
    let mut rng = Rng::new(71);
    let mut seen = Seen::default();
    for round in 0..6_000 {
        let (slots, places) = if round % 3 == 0 { (40, 9) } else { (4, 3) };
        let (r, s) = (1 + rng.below(slots) as u32, rng.below(places) as u32);
        let values = rng.pick(&[2, 5, 40, 65_536]);
        let tabulation = random_tabulation(&mut rng, values);
        let count = rng.below(2 * r as usize + s as usize + 1);
        let keys = random_keys(&mut rng, count);
        let members = random_tiers(&mut rng, &keys);
        let station = random_station(&mut rng);
        if let Some(words) = image(&tabulation, r, s, station, &members) {
            seen.compare(&tabulation, &words, &members);
        }
    }
    let Seen { lists, empty, full, twice, several, in_table_1, stashed } = seen;
    println!("{lists} lists: {empty} empty, {full} full, {several} with several trees");
    println!("{twice} keys in both slots, {in_table_1} in table 1 alone, {stashed} stashed");
    for times in [lists, empty, full, twice, several, in_table_1, stashed] {
        assert!(times > 50, "a kind of list is too rare");
    }
}

/// Lists of the built library: while 1,000 cards come at the largest sizes, with the house tabulation.
#[test]
fn a_large_list() {
    let mut rng = Rng::new(72);
    let mut seen = Seen::default();
    let mut words = fresh(1_024, 64, 17);
    let mut members = Vec::new();
    seen.compare(&HOUSE, &words, &members);
    for number in 0..1_000 {
        let member = (100_000 + 10 * number + rng.below(10) as u32, rng.below(8) as u32);
        assert_eq!(change(Insert(member.1), &HOUSE, &mut words, member.0), 0);
        members.push(member);
        if number % 50 == 0 {
            seen.compare(&HOUSE, &words, &members);
        }
    }
    seen.compare(&HOUSE, &words, &members);
    assert!(seen.several > 0 && seen.in_table_1 > 0, "the list has no trees");
}

/// Rows of the test board, by hand: the order is that of the words.
#[test]
fn lists_by_hand() {
    let tabulation = test_tabulation();
    let listed = |s, keys: &[u32]| {
        let words = image(&tabulation, 4, s, 0, &tier_0(keys)).expect("the keys fit");
        cards(&tabulation, &words).map(|(key, _)| key).collect::<Vec<u32>>()
    };
    assert_eq!(listed(1, &[170, 650, 1290]), [650, 1290, 170]);
    assert_eq!(listed(1, &[10, 650, 1290]), [10, 650, 1290]);
    assert_eq!(listed(1, &[170]), [170]);
    assert_eq!(listed(1, &[]), []);
}

#[test]
fn nothing_of_another_shape() {
    let mut rng = Rng::new(73);
    let tabulation = random_tabulation(&mut rng, 9);
    let mut tried = 0;
    while tried < 200 {
        let (r, s) = (1 + rng.below(5) as u32, rng.below(4) as u32);
        let count = 1 + rng.below(5);
        let keys = random_keys(&mut rng, count);
        let station = random_station(&mut rng);
        let members = random_tiers(&mut rng, &keys);
        let Some(words) = image(&tabulation, r, s, station, &members) else { continue };
        tried += 1;
        assert_eq!(cards(&tabulation, &words).count(), count);

        let none = |why: &str, words: &[u32]| {
            assert_eq!(cards(&tabulation, words).next(), None, "{why}: {words:?}");
        };
        for length in 0..words.len() {
            none("short", &words[..length]);
        }
        none("long", &[&words[..], &[0]].concat());
        none("a place too long", &[&words[..], &[0, 0]].concat());
        #[rustfmt::skip]
        let wrong = [
            (0, 0), (0, r + 1), (0, r - 1), (0, 1_025), (0, u32::MAX), (0, 1 << 31), (1, s + 1), (1, 65), (1, u32::MAX),
            (3, s + 1), (3, u32::MAX), (4, 256), (4, 1 << 8 | station), (4, u32::MAX),
        ];
        for (word, number) in wrong {
            let mut words = words.clone();
            words[word] = number;
            none("heading", &words);
        }
        for length in [0, 1, 2_048, 2_559] {
            assert_eq!(cards(&tabulation[..length], &words).next(), None, "{length} entries");
        }
        let longer = [&tabulation[..], &[0]].concat();
        assert_eq!(cards(&longer, &words).next(), None, "too many entries");
    }
}

/// Any words at all: no panic, and no more than there are slots and places.
#[test]
fn any_words() {
    let mut rng = Rng::new(74);
    let mut listed = 0;
    for _ in 0..20_000 {
        let (r, s) = (1 + rng.below(4) as u32, rng.below(4) as u32);
        let station = random_station(&mut rng);
        let largest = rng.pick(&[3, 40, usize::MAX]);
        let length = words_length(r, s) + rng.below(3) - 1;
        let mut words: Vec<u32> = (0..length).map(|_| rng.below(largest) as u32).collect();
        if rng.one_in(2) {
            words[..5].copy_from_slice(&[r, s, rng.next_u32(), rng.below(5) as u32, station]);
        }
        let values = rng.pick(&[2, 65_536]);
        let tabulation = random_tabulation(&mut rng, values);
        let count = cards(&tabulation, &words).count();
        let is_shaped = words[4] <= 255 && are_sizes(words[0], words[1], words.len());
        let most = if is_shaped { 2 * words[0] + words[1] } else { 0 };
        assert!(count <= most as usize, "{count} cards of {words:?}");
        listed += count;
    }
    assert!(listed > 0);
    assert_eq!(cards(&[], &[]).next(), None);
    assert_eq!(cards(&[0; TABULATION_LEN], &[]).next(), None);
}
