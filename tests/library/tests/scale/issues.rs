//! Issues: other issues of the same keys, and words that no set has, with two issues of one first part or with keys
//! below 10, which have none.

use std::collections::BTreeMap;

use library::beside::Beside;
use library::Change::{Insert, Remove};
use library::{change, scratch_length, Counters};
use reference::hash::{hashes, HALF_LEN};
use reference::key::{is_blank, issues};
use reference::rng::Rng;
use reference::samples::{random_issue, random_keys, random_station, random_tiers};
use reference::set::Member;

use crate::common::{
    any_tier, as_check, damaged_sale, fitting_set, image_of, narrow_tabulation, other_issue,
    random_image, random_words, seat, strangers_to, trails_of, way_to, word_at, Seat, Small, Word,
    BASE, STEPS,
};

/// Some keys, each with the name that it gets.
type Names = [(u32, u32)];

/// The new name of a key; one that gets none keeps its own.
fn name_of(names: &Names, key: u32) -> u32 {
    names.iter().find(|(old, _)| *old == key).map_or(key, |(_, new)| *new)
}

/// The words with their keys renamed, wherever one stands as a key or as a next number.
fn renamed(words: &[u32], names: &Names) -> Vec<u32> {
    let word = |at| match word_at(words, at).0 {
        Word::Key | Word::Next | Word::StashKey => name_of(names, words[at]),
        _ => words[at],
    };
    (0..words.len()).map(word).collect()
}

/// Other issues of the same keys, at the same tiers: the words are the same but for the names of the keys, by a way of
/// their own, and when one issue after the other is removed and replaced. So are the trails.
#[test]
fn other_issues_of_the_same_keys() {
    let mut rng = Rng::new(59);
    let mut beside = Beside::new();
    let mut times: BTreeMap<Seat, u32> = BTreeMap::new();
    for round in 1..1_500 {
        let Some((laid, tabulation, keys)) = fitting_set(&mut rng, round) else { continue };
        let members = random_tiers(&mut rng, &keys);
        let others: Vec<u32> = keys.iter().map(|key| random_issue(&mut rng, *key)).collect();
        let names: Vec<(u32, u32)> = keys.iter().copied().zip(others.iter().copied()).collect();
        let with_tiers: Vec<Member> =
            members.iter().map(|(key, tier)| (name_of(&names, *key), *tier)).collect();
        let strangers = strangers_to(&mut rng, &keys);
        let mut one = way_to(&mut rng, &tabulation, laid, &members, &strangers);
        let two = way_to(&mut rng, &tabulation, laid, &with_tiers, &strangers);
        assert_eq!(two, renamed(&one, &names), "{members:?} and {others:?}");
        let mut trails = trails_of(&mut rng, &mut beside, &tabulation, &one, &keys);
        trails.iter_mut().flatten().for_each(|key| *key = name_of(&names, *key));
        let of_others = trails_of(&mut rng, &mut beside, &tabulation, &two, &others);
        assert_eq!(of_others, trails, "{members:?} and {others:?}");
        for (key, tier) in members {
            let other = name_of(&names, key);
            if other == key {
                continue;
            }
            *times.entry(seat(&one, key)).or_default() += 1;
            assert_eq!(change(Insert(tier), &tabulation, &mut one, other), 13, "{other} for {key}");
            assert_eq!(change(Remove, &tabulation, &mut one, other), 7, "{other} for {key}");
            assert_eq!(change(Remove, &tabulation, &mut one, key), 0, "{other} for {key}");
            assert_eq!(change(Insert(tier), &tabulation, &mut one, other), 0, "{other} for {key}");
        }
        assert_eq!(one, two, "one after the other is not all at once");
    }
    println!("keys that were replaced, by their seats: {times:?}");
    assert_eq!(times.len(), 4);
    assert!(times.values().all(|times| *times > 100));
}

/// What check answers; an insert, a removal and a trail of each of these keys must answer the same, if that is a
/// refusal, and the words stay.
fn judged(
    rng: &mut Rng,
    beside: &mut Beside,
    tabulation: &[u16],
    words: &[u32],
    keys: &[u32],
) -> u32 {
    let scratch = random_words(rng, scratch_length(words[0], words[1]));
    let answer = beside.check(tabulation, words, &scratch);
    for key in keys {
        for way in [Insert(any_tier(rng)), Insert(8), Remove] {
            let (mut copy, mut counters) = (words.to_vec(), Counters::default());
            let got = beside.change(way, tabulation, &mut copy, &scratch, &mut counters, *key);
            assert_eq!(as_check(got), answer, "{way:?} of {key} on {words:?}");
            assert!(answer == 0 || copy == words, "{way:?} of {key} changed {words:?}");
        }
        let sheet = random_words(rng, 2 * words[0] as usize);
        let (traced, _) = beside.trail(tabulation, words, &scratch, *key, &sheet);
        assert_eq!(as_check(traced), answer, "trail of {key} in {words:?}");
    }
    answer
}

/// Each key and next number of many small images changed to each other issue and to each number from 1 to 9, in empty
/// slots and places, too: 4. Only a stashed key, to which no next number points, can be another issue: that is the
/// image of the set with the other issue. No lookup and no sale knows a number below 10, wherever it stands.
#[test]
fn damages_of_an_issue() {
    let mut rng = Rng::new(56);
    let mut beside = Beside::new();
    let mut times: BTreeMap<(Word, bool, &str), u32> = BTreeMap::new();
    for _ in 0..150 {
        let Some(Small { tabulation, keys, words: sound, .. }) = random_image(&mut rng, [3, 4, 7])
        else {
            continue;
        };
        let first = keys.first().copied().unwrap_or(90);
        for at in 0..sound.len() {
            let (word, key) = word_at(&sound, at);
            if !matches!(word, Word::Key | Word::Next | Word::StashKey) {
                continue;
            }
            let others = issues(sound[at]).filter(|issue| *issue != sound[at] && !is_blank(*issue));
            for value in (1..10).chain(others) {
                let (answer, why) = match word {
                    _ if is_blank(value) => (4, "below 10"),
                    Word::StashKey => (0, "another set"),
                    _ => (4, "another issue"),
                };
                let mut words = sound.clone();
                words[at] = value;
                let got = judged(&mut rng, &mut beside, &tabulation, &words, &[value, 90]);
                assert_eq!(got, answer, "{value} at {at}, {why}: {words:?}");
                damaged_sale(&mut beside, &tabulation, &words, first, got);
                if is_blank(value) {
                    assert_eq!(beside.lookup(&tabulation, &words, value), (5, None), "{words:?}");
                }
                *times.entry((word, key != 0, why)).or_default() += 1;
            }
        }
    }
    println!("changed keys, in filled places and in empty ones: {times:?}");
    // Below 10 in all six; another issue where one stood, as a key and as a next number; another set in the stash.
    assert_eq!(times.len(), 9);
    assert!(times.values().all(|times| *times > 200));
}

/// Two issues of one first part, seated as neatly as two keys with the same slots are: sound words with two such keys,
/// neighbours in the order of the set, of which one is renamed to an issue of the other. Nothing else is wrong, and
/// every call that asks for an image answers 4, with both as they stand, and with their seats exchanged. A lookup finds
/// both, and no third issue.
#[test]
fn two_issues_of_one_first_part() {
    let mut rng = Rng::new(57);
    let mut beside = Beside::new();
    let mut times: BTreeMap<(Seat, Seat), u32> = BTreeMap::new();
    for _ in 0..5_000 {
        let laid = [1 + rng.below(3) as u32, rng.below(5) as u32, random_station(&mut rng)];
        let tabulation = narrow_tabulation(&mut rng);
        let count = 2 + rng.below(6);
        let keys = random_keys(&mut rng, count);
        let members = random_tiers(&mut rng, &keys);
        let Some(sound) = image_of(&tabulation, laid, &members) else { continue };
        for pair in members.windows(2) {
            let [(low, low_tier), (high, high_tier)] = [pair[0], pair[1]];
            let [low_slots, high_slots] =
                [low, high].map(|key| hashes(&tabulation, laid[0], laid[2], key));
            let Some((smaller, larger)) = neighbours(&mut rng, low, high) else { continue };
            if low_slots != high_slots {
                continue;
            }
            let words = renamed(&sound, &[(low, smaller), (high, larger)]);
            let third = other_issue(&mut rng, smaller);
            let asked = [smaller, larger, third, keys[0]];
            assert_eq!(judged(&mut rng, &mut beside, &tabulation, &words, &asked), 4, "{words:?}");
            let found = [smaller, larger].map(|key| beside.lookup(&tabulation, &words, key));
            assert_eq!(found, [(0, Some(low_tier)), (0, Some(high_tier))], "{words:?}");
            if third != larger {
                assert_eq!(beside.lookup(&tabulation, &words, third), (0, None), "{words:?}");
                assert_eq!(beside.open(&tabulation, &words, third, BASE, &STEPS), (7, None));
            }
            let exchanged = renamed(&words, &[(smaller, larger), (larger, smaller)]);
            assert_eq!(judged(&mut rng, &mut beside, &tabulation, &exchanged, &asked), 4);
            *times.entry((seat(&words, smaller), seat(&words, larger))).or_default() += 1;
        }
    }
    println!("two issues, by the seats of the smaller and of the larger: {times:?}");
    // Two seated keys with the same slots are a cycle; otherwise the larger is stashed, or both are.
    let [first, second, stash] = [Seat::Table0, Seat::Table1, Seat::Stash];
    let expected = [(first, second), (first, stash), (second, stash), (stash, stash)];
    assert_eq!(Vec::from_iter(times.keys().copied()), expected);
    assert!(times.values().all(|times| *times > 50));
}

/// Two keys renamed to issues of one first part, one of them to an issue of the other, in their order; if there is one.
fn neighbours(rng: &mut Rng, low: u32, high: u32) -> Option<(u32, u32)> {
    let above = issues(low).filter(|issue| *issue > low).map(|issue| (low, issue));
    let below = issues(high).filter(|issue| *issue < high).map(|issue| (issue, high));
    let names: Vec<(u32, u32)> = above.chain(below).collect();
    (!names.is_empty()).then(|| rng.pick(&names))
}

/// The slots that a number below 10 would have: the bytes of its first part are zeros.
fn slots_of_none(tabulation: &[u16], r: u32, station: u32) -> [u32; 2] {
    let entries = [0, 256, 512, 768, 1_024 + station as usize];
    [0, HALF_LEN]
        .map(|half| entries.map(|at| u32::from(tabulation[half + at])).iter().sum::<u32>() % r)
}

/// Keys below 10, seated as neatly as keys with their slots are: the smallest keys of sound words, as far as they have
/// the slots that a number below 10 would have, are renamed to such numbers. Every call that asks for an image answers
/// 4, and a lookup and a sale of such a number 5, though it stands where they look.
#[test]
fn keys_without_a_first_part() {
    let mut rng = Rng::new(58);
    let mut beside = Beside::new();
    let mut times: BTreeMap<Seat, u32> = BTreeMap::new();
    for _ in 0..3_000 {
        let laid = [1 + rng.below(3) as u32, rng.below(4) as u32, random_station(&mut rng)];
        let [r, _, station] = laid;
        let tabulation = narrow_tabulation(&mut rng);
        let count = 1 + rng.below(6);
        let keys = random_keys(&mut rng, count);
        let Some(sound) = image_of(&tabulation, laid, &random_tiers(&mut rng, &keys)) else {
            continue;
        };
        let of_none = slots_of_none(&tabulation, r, station);
        let is_alike = |key: &u32| hashes(&tabulation, r, station, *key) == Ok(of_none);
        let alike = keys.iter().copied().take_while(is_alike);
        let first = 1 + rng.below(10 - alike.clone().count()) as u32;
        let names: Vec<(u32, u32)> = alike.zip(first..).collect();
        let words = renamed(&sound, &names);
        for (key, name) in names {
            let got = judged(&mut rng, &mut beside, &tabulation, &words, &[name, 90]);
            assert_eq!(got, 4, "{words:?}");
            assert_eq!(beside.lookup(&tabulation, &words, name), (5, None), "{words:?}");
            let sale = beside.open(&tabulation, &words, name, BASE, &STEPS);
            assert_eq!(sale, (5, None), "{words:?}");
            *times.entry(seat(&sound, key)).or_default() += 1;
        }
    }
    println!("keys below 10, by their seats: {times:?}");
    assert_eq!(times.len(), 4);
    assert!(times.values().all(|times| *times > 50));
}
