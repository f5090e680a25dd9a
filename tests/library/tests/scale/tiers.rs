//! Tiers: the same keys with other tiers differ in the words of those tiers alone, and a tier word that is changed is
//! found out, or makes the image of another set.

use std::collections::{BTreeMap, BTreeSet};

use library::beside::Beside;
use library::Change::{Insert, Remove};
use library::{scratch_length, Counters};
use reference::rng::Rng;
use reference::samples::random_tiers;

use crate::common::{
    as_check, copies, fitting_set, other_tier, random_image, random_words, sale_at, stands_twice,
    strangers_to, way_to, word_at, Small, Word, BASE, STEPS,
};

/// The same keys with other tiers: the words differ, in the tiers of the keys whose tier is another and in nothing
/// else.
#[test]
fn the_same_keys_with_other_tiers() {
    let mut rng = Rng::new(48);
    let (mut sets, mut both, mut single, mut stashed) = (0, 0, 0, 0);
    for round in 1..1_500 {
        let Some((laid, tabulation, keys)) = fitting_set(&mut rng, round) else { continue };
        let members = random_tiers(&mut rng, &keys);
        let mut others = members.clone();
        let mut moved = BTreeSet::new();
        for _ in 0..=rng.below(2) {
            let at = rng.below(others.len());
            others[at].1 = other_tier(&mut rng, members[at].1);
            moved.insert(others[at].0);
        }
        let strangers = strangers_to(&mut rng, &keys);
        let one = way_to(&mut rng, &tabulation, laid, &members, &strangers);
        let two = way_to(&mut rng, &tabulation, laid, &others, &strangers);
        assert_ne!(one, two, "{members:?} and {others:?}");
        for at in 0..one.len() {
            let (word, key) = word_at(&one, at);
            let is_moved = matches!(word, Word::Tier | Word::StashTier) && moved.contains(&key);
            assert_eq!(one[at] != two[at], is_moved, "word {at} of {members:?} and {others:?}");
            match word {
                Word::Tier if is_moved && stands_twice(&one, key) => both += 1,
                Word::Tier if is_moved => single += 1,
                Word::StashTier if is_moved => stashed += 1,
                _ => {}
            }
        }
        sets += 1;
    }
    println!("{sets} pairs of sets; tiers that differ: {both} of a key in both slots,");
    println!("{single} of one in one slot, {stashed} in the stash");
    assert!(sets > 500 && both > 100 && single > 100 && stashed > 20);
}

/// Each tier word of many small images changed: 4 beside an empty slot or place, above 7, and where the key's other
/// slot has the old tier; else the words are the image of another set, which has this tier. Insert, remove and trail
/// find it out, too, and lookup gives the first tier word as it stands; a sale has the price of that one, and is
/// refused with 4 exactly where it is above 7.
#[test]
fn damages_of_a_tier() {
    let mut rng = Rng::new(49);
    let mut beside = Beside::new();
    let mut counters = Counters::default();
    let mut times: BTreeMap<(Word, &str), u32> = BTreeMap::new();
    let mut sales: BTreeMap<(&str, u32), u32> = BTreeMap::new();
    for _ in 0..400 {
        let Some(Small { r, s, tabulation, keys, words: sound }) =
            random_image(&mut rng, [4, 4, 7])
        else {
            continue;
        };
        let scratch = vec![5; scratch_length(r, s)];
        for at in 0..sound.len() {
            let (word, key) = word_at(&sound, at);
            if !matches!(word, Word::Tier | Word::StashTier) {
                continue;
            }
            let wrong = [0, 1, 6, 7, 8, 9, 255, 1 << 31, u32::MAX];
            for value in wrong.into_iter().filter(|value| *value != sound[at]) {
                let mut words = sound.clone();
                words[at] = value;
                let (answer, why) = match key {
                    0 => (4, "empty"),
                    _ if value > 7 => (4, "above 7"),
                    _ if stands_twice(&sound, key) => (4, "unlike tiers"),
                    _ => (0, "another set"),
                };
                *times.entry((word, why)).or_default() += 1;
                assert_eq!(beside.check(&tabulation, &words, &scratch), answer, "{why}: {words:?}");
                if key != 0 {
                    let first = copies(&tabulation, &words, key)[0];
                    assert_eq!(beside.lookup(&tabulation, &words, key), (0, Some(first)), "{why}");
                    let opened = beside.open(&tabulation, &words, key, BASE, &STEPS);
                    assert_eq!(opened, sale_at(key, Some(first)), "{why}: {words:?}");
                    *sales.entry((why, opened.0)).or_default() += 1;
                }
                let asked = keys.first().copied().unwrap_or(90);
                for way in [Insert(value), Insert(0), Remove] {
                    let mut words = words.clone();
                    let got =
                        beside.change(way, &tabulation, &mut words, &scratch, &mut counters, asked);
                    assert_eq!(got == 4, answer == 4, "{way:?} of {asked}, {why}");
                }
                let sheet = random_words(&mut rng, 2 * r as usize);
                let (traced, _) = beside.trail(&tabulation, &words, &scratch, asked, &sheet);
                assert_eq!(as_check(traced), answer, "trail of {asked}, {why}");
            }
        }
    }
    println!("changed tiers: {times:?}");
    // In slots all four, in the stash all but unlike tiers, since no key stands there twice.
    assert_eq!(times.len(), 7);
    assert!(times.values().all(|times| *times > 30));
    println!("sales: {sales:?}");
    // A tier above 7 in a key's second slot is not met.
    let expected = [("above 7", 0), ("above 7", 4), ("another set", 0), ("unlike tiers", 0)];
    assert_eq!(sales.keys().copied().collect::<Vec<_>>(), expected);
    assert!(sales.values().all(|times| *times > 30));
}
