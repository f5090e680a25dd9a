//! Damaged memory: each word of sound words changed to some values, and words that are random from the start. What is
//! asked of one kind of word alone, the station, a tier or an issue, stands in the file of that topic.

use std::collections::BTreeMap;

use library::beside::{Beside, Kind};
use library::Change::{Insert, Remove};
use library::{scratch_length, words_length, Counters};
use reference::hash::MAX_STATION;
use reference::rng::Rng;
use reference::samples::{random_issue, random_keys, random_station};

use crate::common::{
    any_tier, as_check, copies, damaged_sale, narrow_tabulation, random_image, random_prices,
    random_words, sale_at, word_at, Small, Word, BASE, STEPS,
};

/// Each word of 300 small images changed to thirteen values: 2 for words 0 and 1 and for a station above 255, and
/// otherwise as the reference says. Every kind of word, of filled and of empty slots and places, must be found out, by
/// check and by trail, of a key of the set and of none. A sale finds out the tier of its key alone.
#[test]
fn damages_of_one_word() {
    let mut rng = Rng::new(46);
    let mut beside = Beside::new();
    let mut tampered: BTreeMap<(Word, bool), u32> = BTreeMap::new();
    let mut sales: BTreeMap<(u32, Word, u32), u32> = BTreeMap::new();
    let (mut another, mut another_station) = (0, 0);
    for _ in 0..300 {
        let Some(Small { r, s, tabulation, keys, words: sound }) =
            random_image(&mut rng, [4, 3, 6])
        else {
            continue;
        };
        let scratch = vec![5; scratch_length(r, s)];
        for at in 0..sound.len() {
            let first = keys.first().copied().unwrap_or(90);
            let (word, key) = word_at(&sound, at);
            let small = [0, 1, 7, 8, 9, 10, 255, 256];
            let near = [first, sound[at] ^ 1, sound[at].wrapping_add(1)];
            for value in small.into_iter().chain(near).chain([sound[at] ^ 256, u32::MAX]) {
                let mut words = sound.clone();
                words[at] = value;
                let answer = beside.check(&tabulation, &words, &scratch);
                let sheet = random_words(&mut rng, 2 * r as usize);
                for asked in [first, at as u32 % 10] {
                    let (traced, _) = beside.trail(&tabulation, &words, &scratch, asked, &sheet);
                    assert_eq!(as_check(traced), answer, "trail of {asked}, {value} at {at}");
                }
                let asked = if key == 0 { first } else { key };
                let opened = damaged_sale(&mut beside, &tabulation, &words, asked, answer);
                *sales.entry((answer, word, opened)).or_default() += 1;
                match (answer, word) {
                    (4, _) => *tampered.entry((word, key != 0)).or_default() += 1,
                    (0, Word::Station) if words != sound => another_station += 1,
                    (0, _) if words != sound => another += 1,
                    (2, Word::Station) => assert!(value > MAX_STATION, "{value} at {at}"),
                    _ => assert!(answer == 0 || (answer == 2 && at < 2), "{answer} at {at}"),
                }
            }
        }
    }
    println!("damages found: {tampered:?}");
    println!("{another} that are the image of another set, {another_station} at another station");
    // Headings and the station stand with no key; every other word stands with one, or is empty.
    assert_eq!(tampered.len(), 12);
    assert!(tampered.values().all(|times| *times > 50) && another > 0 && another_station > 50);
    println!("sales, by the answer of check, the word and their own answer: {sales:?}");
    let words_of = |check, answer| {
        let these = sales.keys().filter(|key| (key.0, key.2) == (check, answer));
        these.map(|(_, word, _)| *word).collect::<Vec<Word>>()
    };
    // Words that are no image: a sale is refused with 4 for a tier alone, and can be opened whatever the damaged word
    // is.
    assert_eq!(words_of(4, 4), [Word::Tier, Word::StashTier]);
    assert_eq!(words_of(4, 0).len(), 7);
    assert_eq!(words_of(0, 4), []);
}

/// Random words: of the right shape with keys that often meet their slots, more than once, and of any length and
/// content.
#[test]
fn random_memory() {
    let mut rng = Rng::new(47);
    let mut beside = Beside::new();
    let (mut yes, mut no, mut several) = (0, 0, 0);
    for round in 0..20_000 {
        let (r, s) = (1 + rng.below(5) as u32, rng.below(4) as u32);
        let tabulation = narrow_tabulation(&mut rng);
        let keys = random_keys(&mut rng, 6);
        let mut words = vec![r, s];
        while words.len() < words_length(r, s) {
            let key = rng.pick(&keys);
            words.push(match rng.below(8) {
                0 => random_issue(&mut rng, key),
                1..=4 => key,
                _ => rng.below(10) as u32,
            });
        }
        words[4] = random_station(&mut rng);
        let any_length = round % 4 == 0;
        if any_length {
            let length = rng.below(40);
            words = random_words(&mut rng, length);
        }
        let scratch = random_words(&mut rng, scratch_length(r, s));
        let mut counters = Counters::default();
        let (key, tier) = (rng.pick(&keys), any_tier(&mut rng));
        beside.change(Insert(tier), &tabulation, &mut words, &scratch, &mut counters, key);
        beside.change(Remove, &tabulation, &mut words, &scratch, &mut counters, key);
        beside.check(&tabulation, &words, &scratch);
        beside.stash(&words);
        let sheet = random_words(&mut rng, 2 * r as usize);
        beside.trail(&tabulation, &words, &scratch, key, &sheet);
        for key in keys {
            let (answer, found) = beside.lookup(&tabulation, &words, key);
            match found {
                Some(_) => yes += 1,
                None if answer == 0 => no += 1,
                None => {}
            }
            let opened = beside.open(&tabulation, &words, key, BASE, &STEPS);
            let refused = (answer, None);
            assert_eq!(opened, if answer == 0 { sale_at(key, found) } else { refused });
            let (base, steps) = random_prices(&mut rng);
            beside.open(&tabulation, &words, key, base, &steps);
            if !any_length {
                let copies = copies(&tabulation, &words, key);
                assert_eq!(found, copies.first().copied(), "{key} in {words:?}");
                several += u32::from(copies.iter().any(|tier| *tier != copies[0]));
            }
        }
    }
    println!("{} calls on random memory: lookups {yes} yes, {no} no", beside.calls());
    println!("{several} lookups of a key that stands with several tiers");
    assert!(yes > 5_000 && no > 5_000 && several > 1_000);
    let sales = [0, 2, 7, 4, 12].map(|answer| (answer, beside.given(Kind::Open, answer)));
    println!("openings, answer and how often: {sales:?}");
    assert!(sales.iter().all(|(_, times)| *times > 1_000));
}
