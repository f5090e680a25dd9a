//! The stolen-card list: reports on small lists and on the largest, words that are any, one set in all orders, damage
//! of single words, other stations, issues, lengths that are none, and rows by hand.

use std::collections::{BTreeMap, BTreeSet};

use library::stolen::{image_of, start, Call, End, Reports};
use reference::hash::{STRETCH_LEN, TABULATION_LEN};
use reference::house::HOUSE;
use reference::key::issues;
use reference::rng::Rng;
use reference::samples::{random_issue, random_station, random_tabulation, test_tabulation};
use reference::stolen::listed_keys;

use crate::common::{
    any_key, any_station, extreme_tabulation, narrow_tabulation, random_words, WRONG_STATIONS,
};

/// A set of keys from 10 on, of any issues: of few first parts, so that some have several, or of any.
fn some_keys(rng: &mut Rng, count: usize) -> Vec<u32> {
    let few = rng.one_in(2);
    let mut keys = BTreeSet::new();
    while keys.len() < count {
        let key = if few { 10 + rng.below(40 + 4 * count) as u32 } else { any_key(rng) };
        keys.insert(key);
    }
    keys.into_iter().collect()
}

/// A key to ask for: one of these, another issue of one, a blank number, or any.
fn asked(rng: &mut Rng, keys: &[u32]) -> u32 {
    match rng.below(8) {
        0 => rng.below(10) as u32,
        1 => any_key(rng),
        2 => 10 + rng.below(300) as u32,
        3 | 4 if !keys.is_empty() => {
            let key = rng.pick(keys);
            random_issue(rng, key)
        }
        _ if !keys.is_empty() => rng.pick(keys),
        _ => any_key(rng),
    }
}

/// A tabulation, mostly as it is lent, now and then of another length.
fn any_book(rng: &mut Rng, tabulation: &[u16]) -> Vec<u16> {
    let mut book = tabulation.to_vec();
    if rng.one_in(16) {
        book.resize(rng.pick(&[0, 1, 1_280, 2_048, 2_559, 2_561, 5_120]), 5);
    }
    book
}

/// The keys that stand in words.
fn standing(words: &[u32]) -> Vec<u32> {
    words.iter().copied().filter(|word| *word != 0).collect()
}

/// Runs of reports and lookups on small lists, from empty to full, with all that a call may be refused for.
#[test]
fn reports_on_small_lists() {
    let mut rng = Rng::new(901);
    let mut reports = Reports::new();
    for _ in 0..4_000 {
        let slots = 1 + rng.below(12);
        let (tabulation, station) = (narrow_tabulation(&mut rng), random_station(&mut rng));
        let count = 1 + rng.below(slots + 4);
        let keys = some_keys(&mut rng, count);
        let mut words = random_words(&mut rng, slots);
        reports.init(&mut words);
        for _ in 0..30 {
            let key = asked(&mut rng, &keys);
            let book = any_book(&mut rng, &tabulation);
            let at = if rng.one_in(12) { any_station(&mut rng) } else { station };
            if rng.one_in(3) {
                reports.lookup(&book, &words, at, key);
            } else {
                reports.insert(&book, &mut words, at, key);
            }
            if rng.one_in(40) {
                let length = rng.pick(&[0, 1_025, 2_048]);
                let mut long = vec![rng.below(12) as u32; length];
                reports.init(&mut long);
                reports.insert(&book, &mut long, at, key);
                reports.lookup(&book, &long, at, key);
            }
            if rng.one_in(60) {
                let slot = rng.below(slots);
                words[slot] = rng.pick(&[0, 5, key, any_key(&mut Rng::new(u64::from(key)))]);
            }
        }
    }
    reports.report();
    for (call, answers) in library::stolen::ANSWERS {
        for answer in answers {
            assert!(reports.given(call, *answer) > 200, "{answer} of {call:?} is rare");
        }
    }
}

/// Words of a few keys in any slots, with blank numbers and copies among them, and images with something changed: every
/// lookup ends after a round at the latest, and no insert takes them for what they are not.
#[test]
fn any_words() {
    let mut rng = Rng::new(902);
    let mut reports = Reports::new();
    let mut canonical = 0;
    for _ in 0..40_000 {
        let slots = 1 + rng.below(9);
        let (tabulation, station) = (narrow_tabulation(&mut rng), random_station(&mut rng));
        let count = 1 + rng.below(slots);
        let keys = some_keys(&mut rng, count);
        let mut words = if rng.one_in(3) {
            image_of(&tabulation, station, slots, &keys)
        } else {
            let blank = rng.pick(&[0, 1, 3]);
            let word = |_| match rng.below(5) {
                0 => 0,
                1 if blank > 0 => rng.below(10 * blank) as u32,
                _ => rng.pick(&keys),
            };
            (0..slots).map(word).collect()
        };
        if rng.one_in(3) {
            let (one, other) = (rng.below(slots), rng.below(slots));
            words.swap(one, other);
        }
        canonical += u32::from(listed_keys(&tabulation, &words, station).is_some());
        for _ in 0..3 {
            let key = asked(&mut rng, &keys);
            reports.lookup(&tabulation, &words, station, key);
            reports.insert(&tabulation, &mut words.clone(), station, key);
        }
    }
    println!(
        "{canonical} of the words are an image, {} inserts were refused with 4",
        reports.given(Call::Insert, 4)
    );
    assert!(canonical > 5_000 && reports.given(Call::Insert, 4) > 30_000);
    for end in [End::Key, End::Empty, End::Larger, End::Round] {
        assert!(reports.ended(end) > 3_000, "{end:?} is rare");
    }
}

/// Lists of 1,024 slots from the first report to the last slot and beyond, under the house book, a random one and one
/// under which all keys start alike; all keys and as many others are looked up at some fills.
#[test]
fn the_largest_list() {
    let mut rng = Rng::new(903);
    let mut reports = Reports::new();
    let books = [HOUSE.to_vec(), random_tabulation(&mut rng, 65_536), vec![0; TABULATION_LEN]];
    for tabulation in books {
        let station = random_station(&mut rng);
        let mut keys = some_keys(&mut rng, 1_024);
        rng.shuffle(&mut keys);
        let mut words = random_words(&mut rng, 1_024);
        assert_eq!(reports.init(&mut words), 0);
        for (before, key) in keys.iter().enumerate() {
            assert_eq!(reports.insert(&tabulation, &mut words, station, *key), 0);
            if before % 97 == 0 {
                assert_eq!(reports.insert(&tabulation, &mut words, station, *key), 6);
                for known in &keys[..before] {
                    assert_eq!(
                        reports.lookup(&tabulation, &words, station, *known),
                        (0, Some(true))
                    );
                }
                for other in &keys[before + 1..] {
                    let told = reports.lookup(&tabulation, &words, station, *other);
                    assert_eq!(told, (0, Some(false)));
                }
            }
        }
        assert_eq!(words, image_of(&tabulation, station, 1_024, &keys));
        for _ in 0..50 {
            let key = any_key(&mut rng);
            let answer = if keys.contains(&key) { 6 } else { 16 };
            assert_eq!(reports.insert(&tabulation, &mut words, station, key), answer);
            reports.lookup(&tabulation, &words, station, key);
        }
        for key in keys.iter().step_by(100) {
            assert_eq!(reports.insert(&tabulation, &mut words, station, *key), 6);
        }
        for key in &keys {
            assert_eq!(reports.lookup(&tabulation, &words, station, *key), (0, Some(true)));
        }
        assert_eq!(reports.insert(&tabulation, &mut words, station, 9), 5);
    }
    println!(
        "{} calls at 1,024 slots, {} refused with 16",
        reports.calls(),
        reports.given(Call::Insert, 16)
    );
}

/// All orders of the keys, by swapping one after the other to the end.
fn orders(keys: &[u32]) -> Vec<Vec<u32>> {
    if keys.is_empty() {
        return vec![Vec::new()];
    }
    let mut all = Vec::new();
    for (at, last) in keys.iter().enumerate() {
        let rest = [&keys[..at], &keys[at + 1..]].concat();
        for mut order in orders(&rest) {
            order.push(*last);
            all.push(order);
        }
    }
    all
}

/// Sets of up to six keys in all orders, and larger ones in some, with refused calls in between: one image, that of the
/// set, wherever the keys came from.
#[test]
fn one_set_in_every_order() {
    let mut rng = Rng::new(904);
    let mut reports = Reports::new();
    let (mut histories, mut moved) = (0, 0);
    for round in 0..400 {
        let large = round % 40 == 0;
        let slots = if large { 300 } else { 1 + rng.below(9) };
        let (tabulation, station) = (narrow_tabulation(&mut rng), random_station(&mut rng));
        let count = if large { 200 } else { 1 + rng.below(slots.min(6)) };
        let keys = some_keys(&mut rng, count);
        let image = image_of(&tabulation, station, slots, &keys);
        let ways = if large {
            let mut shuffled = || {
                let mut order = keys.clone();
                rng.shuffle(&mut order);
                order
            };
            (0..12).map(|_| shuffled()).collect()
        } else {
            orders(&keys)
        };
        for way in ways {
            let mut words = vec![7; slots];
            reports.init(&mut words);
            for key in &way {
                assert_eq!(reports.insert(&tabulation, &mut words, station, *key), 0);
                if rng.one_in(9) {
                    assert_eq!(reports.insert(&tabulation, &mut words, station, *key), 6);
                    assert_eq!(reports.insert(&tabulation, &mut words, station, key % 10), 5);
                    assert_eq!(reports.insert(&tabulation, &mut words, 256, *key), 2);
                }
            }
            assert_eq!(words, image, "{way:?} at {station}");
            histories += 1;
        }
        let starts: BTreeSet<usize> =
            image.iter().enumerate().filter(|(_, word)| **word != 0).map(|(at, _)| at).collect();
        moved += u32::from(starts.len() > 1);
    }
    println!("{histories} histories of 400 sets, {moved} of more than one key");
    assert!(histories > 20_000 && moved > 200);
}

/// Lists of other sets have other words.
#[test]
fn other_sets_differ() {
    let mut rng = Rng::new(905);
    let mut images = BTreeMap::new();
    let (tabulation, station, slots) = (random_tabulation(&mut rng, 9), 77, 4);
    let keys = [10, 11, 25, 300, 4_000_000_000, 4_294_967_295];
    for chosen in 0_u32..64 {
        let set: Vec<u32> =
            (0..6).filter(|i| chosen >> i & 1 == 1).map(|i| keys[i as usize]).collect();
        if set.len() <= slots {
            let mut words = vec![0; slots];
            for key in set.iter().rev() {
                assert_eq!(library::stolen_insert(&tabulation, &mut words, station, *key), 0);
            }
            assert_eq!(images.insert(words, set), None, "two sets have one image");
        }
    }
    assert_eq!(images.len(), 57);
}

/// Each word of many lists changed to some values: 4 exactly where the words are then the image of no set, and
/// otherwise a list of another set, of whose keys each is reported.
#[test]
fn one_changed_word() {
    let mut rng = Rng::new(906);
    let mut reports = Reports::new();
    let (mut found, mut passed) = (0_u32, 0_u32);
    for round in 0..1_500 {
        let slots = if round % 300 == 0 { 64 } else { 1 + rng.below(8) };
        let (tabulation, station) = (narrow_tabulation(&mut rng), random_station(&mut rng));
        let count = rng.below(slots + 1);
        let keys = some_keys(&mut rng, count);
        let sound = image_of(&tabulation, station, slots, &keys);
        for at in 0..slots {
            let copied = sound[rng.below(slots)];
            let values = [
                0,
                1 + rng.below(9) as u32,
                sound[at] ^ 1 << rng.below(32),
                copied,
                any_key(&mut rng),
            ];
            for value in values.into_iter().filter(|value| *value != sound[at]) {
                let mut words = sound.clone();
                words[at] = value;
                let set = listed_keys(&tabulation, &words, station);
                let told = reports.insert(&tabulation, &mut words, station, 0);
                assert_eq!(told, if set.is_some() { 5 } else { 4 }, "{value} at {at}: {sound:?}");
                let new = any_key(&mut rng);
                reports.insert(&tabulation, &mut words.clone(), station, new);
                for key in keys.iter().chain([&new]) {
                    let (_, told) = reports.lookup(&tabulation, &words, station, *key);
                    let stands = words.contains(key);
                    assert!(stands || told == Some(false), "{key} does not stand in {words:?}");
                    if let Some(set) = &set {
                        assert_eq!(told, Some(set.contains(key)));
                    }
                }
                found += u32::from(set.is_none());
                passed += u32::from(set.is_some());
            }
        }
    }
    println!("changed words: {found} lists are none any more, {passed} are of another set");
    assert!(found > 5_000 && passed > 1_000);
}

/// A list taken for one of another station: mostly none, and then nothing changes; a lookup there never tells a key
/// that was not reported. An empty list is one of every station.
#[test]
fn another_station() {
    let mut rng = Rng::new(907);
    let mut reports = Reports::new();
    let (mut none, mut both, mut missed) = (0, 0, 0);
    for _ in 0..4_000 {
        let slots = 1 + rng.below(30);
        let tabulation = random_tabulation(&mut rng, 65_536);
        let (own, other) = (random_station(&mut rng), random_station(&mut rng));
        let count = rng.below(slots + 1);
        let keys = some_keys(&mut rng, count);
        let mut words = image_of(&tabulation, own, slots, &keys);
        let told = reports.insert(&tabulation, &mut words, other, 5);
        assert!(told == 5 || (told == 4 && own != other && count > 0));
        (none, both) = (none + u32::from(told == 4), both + u32::from(told == 5 && own != other));
        for _ in 0..4 {
            let key = asked(&mut rng, &keys);
            let (_, found) = reports.lookup(&tabulation, &words, other, key);
            assert!(found != Some(true) || keys.contains(&key));
            missed += u32::from(found == Some(false) && keys.contains(&key));
        }
        let before = words.clone();
        let new = any_key(&mut rng);
        if reports.insert(&tabulation, &mut words, other, new) == 4 {
            assert_eq!(words, before);
        }
    }
    println!(
        "{none} lists are none at another station, {both} are, {missed} keys were missed there"
    );
    assert!(none > 2_000 && both > 50 && missed > 500);
}

/// All ten issues of a card are cards of their own: each alone is reported, and all together, ascending from the start.
#[test]
fn issues_of_one_card() {
    let mut rng = Rng::new(908);
    let mut reports = Reports::new();
    for round in 0..300 {
        let slots = 10 + rng.below(20);
        let (tabulation, station) = (random_tabulation(&mut rng, 65_536), random_station(&mut rng));
        let key = if round == 0 { u32::MAX } else { any_key(&mut rng) };
        let all: Vec<u32> = issues(key).collect();
        let one = rng.pick(&all);
        let mut words = vec![0; slots];
        assert_eq!(reports.insert(&tabulation, &mut words, station, one), 0);
        for issue in &all {
            let told = reports.lookup(&tabulation, &words, station, *issue);
            assert_eq!(told, (0, Some(*issue == one)));
        }
        let mut order = all.clone();
        rng.shuffle(&mut order);
        for issue in order {
            let answer = reports.insert(&tabulation, &mut words, station, issue);
            assert_eq!(answer, if issue == one { 6 } else { 0 }, "13 never comes");
        }
        let start = words.iter().position(|word| *word == all[0]).expect("the smallest issue");
        let row: Vec<u32> = (0..all.len()).map(|i| words[(start + i) % slots]).collect();
        assert_eq!((row, standing(&words).len()), (all.clone(), all.len()));
        for issue in all {
            assert_eq!(reports.lookup(&tabulation, &words, station, issue), (0, Some(true)));
        }
    }
}

/// Every number of slots with extreme tabulations and the edges of keys; the numbers of words around 1 and 1,024, and
/// stations that are none.
#[test]
fn lengths_and_edges() {
    let mut rng = Rng::new(909);
    let mut reports = Reports::new();
    for slots in 1..=1_024 {
        let tabulation = if rng.one_in(4) {
            vec![u16::MAX; TABULATION_LEN]
        } else {
            extreme_tabulation(&mut rng)
        };
        let station = random_station(&mut rng);
        let mut words = random_words(&mut rng, slots);
        assert_eq!(reports.init(&mut words), 0);
        for (before, key) in [u32::MAX, 10, 19, 4_294_967_290, 0x00FF_00FF].into_iter().enumerate()
        {
            let answer = if before < slots { 0 } else { 16 };
            assert_eq!(reports.insert(&tabulation, &mut words, station, key), answer);
            reports.lookup(&tabulation, &words, station, key);
        }
        for key in 0..10 {
            assert_eq!(reports.insert(&tabulation, &mut words, station, key), 5);
            assert_eq!(reports.lookup(&tabulation, &words, station, key), (5, None));
        }
    }
    for length in [0, 1_025, 1_026, 2_048, 6_277, 65_536, 65_537] {
        let mut words = vec![0; length];
        assert_eq!(reports.insert(&HOUSE, &mut words, 17, 410_017), 2);
        assert_eq!(reports.lookup(&HOUSE, &words, 17, 410_017), (2, None));
        words.fill(7);
        assert_eq!(reports.init(&mut words), 2);
    }
    for station in WRONG_STATIONS {
        for words in [[0; 4].as_slice(), &[0; 1_024]] {
            let mut words = words.to_vec();
            assert_eq!(reports.insert(&HOUSE, &mut words, station, 410_017), 2);
            assert_eq!(reports.lookup(&HOUSE, &words, station, 410_017), (2, None));
        }
    }
}

/// Rows of the test board, by hand: first part v starts at v modulo 4.
#[test]
fn lists_by_hand() {
    let tabulation = test_tabulation();
    let mut reports = Reports::new();
    #[rustfmt::skip]
    let rows: [(&[u32], [u32; 4]); 9] = [
        (&[], [0, 0, 0, 0]),
        (&[10], [0, 10, 0, 0]),
        (&[50, 10], [0, 10, 50, 0]),
        (&[90, 50, 10], [0, 10, 50, 90]),
        (&[130, 90, 50, 10], [130, 10, 50, 90]),
        // 20 starts where 50 would sit, and keeps the slot.
        (&[50, 10, 20], [0, 10, 20, 50]),
        // 60 starts there, too, and is larger: it steps on.
        (&[50, 10, 60], [0, 10, 50, 60]),
        // Issues of one first part, in the order of the full numbers.
        (&[13, 11, 12], [0, 11, 12, 13]),
        // Round the end: 30, 70 and 110 start at the last slot.
        (&[110, 30, 70, 40], [40, 70, 110, 30]),
    ];
    for (keys, expected) in rows {
        let mut words = vec![5; 4];
        reports.init(&mut words);
        for key in keys {
            assert_eq!(reports.insert(&tabulation, &mut words, 0, *key), 0);
        }
        assert_eq!(words, expected, "{keys:?}");
        for key in keys {
            assert_eq!(reports.lookup(&tabulation, &words, 0, *key), (0, Some(true)));
            assert_eq!(reports.insert(&tabulation, &mut words, 0, *key), 6);
        }
        if keys.len() == 4 {
            assert_eq!(reports.insert(&tabulation, &mut words, 0, 1_000), 16);
        }
    }
    // Neither is an image: 50 is past an empty slot, and 10 stands behind a larger key that starts with it.
    for words in [[0, 0, 50, 0], [0, 50, 10, 0], [0, 10, 0, 9], [0, 10, 10, 0]] {
        assert_eq!(reports.insert(&tabulation, &mut words.to_vec(), 0, 70), 4, "{words:?}");
        assert_eq!(reports.insert(&tabulation, &mut words.to_vec(), 0, 0), 4, "{words:?}");
    }
    // A lookup meets an empty slot, a larger key and a number below 10, over which it steps.
    assert_eq!(reports.lookup(&tabulation, &[0, 0, 50, 0], 0, 50), (0, Some(false)));
    assert_eq!(reports.lookup(&tabulation, &[0, 50, 10, 0], 0, 10), (0, Some(false)));
    assert_eq!(reports.lookup(&tabulation, &[0, 9, 10, 0], 0, 10), (0, Some(true)));
    assert_eq!(reports.lookup(&tabulation, &[9, 9, 9, 9], 0, 10), (0, Some(false)));
}

/// The rows of the specification (12.8): five slots, and a tabulation under which keys start where it says, at station 0
/// and at station 3.
#[test]
fn rows_of_the_specification() {
    let mut tabulation = vec![0; TABULATION_LEN];
    // First parts with the entries of their lowest byte; and by the sum of byte and station those of the last stretch.
    for (part, entry) in [(1, 2), (2, 4), (3, 1), (4, 0), (5, 2), (9, 3)] {
        tabulation[part] = entry;
    }
    for (sum, entry) in [(4, 3), (5, 3), (6, 3), (7, 1), (8, 1), (12, 3)] {
        tabulation[4 * STRETCH_LEN + sum] = entry;
    }
    for (station, starts) in [(0, [2, 4, 1, 3, 0, 3]), (3, [0, 2, 4, 1, 3, 1])] {
        let parts = [1, 2, 3, 4, 5, 9].map(|part| start(&tabulation, station, 5, 10 * part));
        assert_eq!(parts, starts, "station {station}");
    }
    let mut reports = Reports::new();
    let first = [21, 57, 0, 42, 20];
    for (station, keys, row) in [
        (0, &[20, 21, 42, 57][..], first),
        (0, &[10, 20, 21, 42, 57], [21, 57, 10, 42, 20]),
        (3, &[20, 21, 42, 57], [0, 42, 20, 21, 57]),
    ] {
        for order in orders(keys) {
            let mut words = vec![0; 5];
            for key in order {
                assert_eq!(reports.insert(&tabulation, &mut words, station, key), 0);
            }
            assert_eq!(words, row);
        }
    }
    let mut words = first.to_vec();
    for key in [10, 20, 90, 0] {
        assert_eq!(reports.insert(&tabulation, &mut words, 3, key), 4, "{key} at station 3");
    }
    for (key, answer) in [(10, 0), (10, 6), (90, 16)] {
        assert_eq!(reports.insert(&tabulation, &mut words, 0, key), answer, "{key}");
    }
}
