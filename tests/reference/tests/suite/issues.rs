//! Request Six, a reissued card is the same card: first parts and blank keys by hand, 13 in its
//! order, calls that want the exact issue, blank keys and two issues as damage however neatly they
//! are stored, an issue that takes another's place, and random runs over many issues of few first
//! parts.

use std::collections::{BTreeMap, BTreeSet};

use reference::answer::{number, Found, Refusal};
use reference::calls::{check, lookup, stash, stash_answer};
use reference::fast;
use reference::hash::hashes;
use reference::image::{Engine, Slow};
use reference::key::{first_part, is_blank, issues};
use reference::model::{Call, Model, Reply};
use reference::rng::Rng;
use reference::sale::Sale;
use reference::samples::{
    random_issue, random_keys, random_station, random_tabulation, random_tier, random_tiers,
    test_tabulation,
};
use reference::set::{has_other_issue, members, set, Member, Set};

use crate::common::{
    engines, hand_words, other_issues, permutations, same_first_part, subset, HandEntry, Harness,
    Tally,
};

/// The answer of check, the same from both engines.
fn checked(tabulation: &[u16], words: &[u32]) -> Result<(), Refusal> {
    let mut scratch = vec![1; 12 * 1_024 + 8 * 64];
    let [slow, fast] = engines().map(|(_, engine)| check(&engine, tabulation, words, &mut scratch));
    assert_eq!(slow, fast, "{words:?}");
    slow
}

/// What a lookup finds, the same both ways.
fn found(tabulation: &[u16], words: &[u32], key: u32) -> Result<Found, Refusal> {
    let found = lookup(tabulation, words, key);
    assert_eq!(found, fast::lookup(tabulation, words, key));
    found
}

/// A list on the test board with r = 4 and station 0 that was filled with these members.
fn filled(engine: &'static dyn Engine, s: u32, members: &[Member]) -> Harness<'static> {
    let mut list = Harness::new(engine, &test_tabulation(), 4, s, 0);
    for &(key, tier) in members {
        assert_eq!(list.insert(key, tier), Ok(()), "{key}");
    }
    list
}

#[test]
fn first_parts_and_issues_by_hand() {
    for (key, first, smallest, largest) in [
        (0, 0, 0, 9),
        (9, 0, 0, 9),
        (10, 1, 10, 19),
        (19, 1, 10, 19),
        (20, 2, 20, 29),
        (1_299, 129, 1_290, 1_299),
        (2_560, 256, 2_560, 2_569),
        (4_294_967_289, 429_496_728, 4_294_967_280, 4_294_967_289),
        (4_294_967_290, 429_496_729, 4_294_967_290, 4_294_967_295),
        (4_294_967_295, 429_496_729, 4_294_967_290, 4_294_967_295),
    ] {
        assert_eq!((first_part(key), issues(key)), (first, smallest..=largest), "{key}");
        assert!(issues(key).all(|issue| first_part(issue) == first));
    }
    for key in 0..10 {
        assert!(is_blank(key));
    }
    for key in (10..1_000).chain([1 << 31, u32::MAX]) {
        assert!(!is_blank(key));
    }
}

#[test]
fn a_set_has_one_issue_of_each_first_part() {
    assert_eq!(set(&[(19, 1), (20, 0)]), Some(Set::from([(19, 1), (20, 0)])));
    assert_eq!(set(&[(19, 1), (20, 0), (19, 1)]), Some(Set::from([(19, 1), (20, 0)])));
    for members in [
        &[(9, 0)][..],
        &[(1, 0), (20, 0)],
        &[(20, 0), (5, 3)],
        &[(10, 0), (11, 0)],
        &[(19, 2), (10, 2)],
        &[(19, 2), (30, 0), (18, 3)],
        &[(u32::MAX, 0), (u32::MAX - 5, 0)],
        &[(u32::MAX - 5, 0), (u32::MAX, 0)],
    ] {
        assert_eq!(set(members), None, "{members:?}");
    }
    let listed = Set::from([(19, 1), (20, 0), (35, 7), (u32::MAX - 2, 3)]);
    for key in (0..60).chain(u32::MAX - 20..=u32::MAX) {
        let mut others = listed.keys().filter(|&&other| other != key);
        let expected = others.any(|&other| same_first_part(key, other));
        assert_eq!(has_other_issue(&listed, key), expected, "{key}");
    }
}

#[test]
fn samples_are_sets_with_issues() {
    let mut rng = Rng::new(141);
    let mut tally = Tally::default();
    for _ in 0..300 {
        let keys = random_keys(&mut rng, 20);
        assert_eq!(keys.len(), 20);
        assert!(keys.windows(2).all(|pair| pair[0] / 10 < pair[1] / 10), "{keys:?}");
        assert!(keys[0] >= 10);
        for &key in &keys {
            tally.add(format!("issue {}", key % 10));
            let issue = random_issue(&mut rng, key);
            assert!(same_first_part(key, issue));
            tally.add(if issue == key { "the same" } else { "another" });
        }
    }
    let wanted: Vec<String> = (0..10).map(|issue| format!("issue {issue}")).collect();
    let wanted: Vec<&str> = wanted.iter().map(String::as_str).collect();
    tally.report("samples", &[&wanted[..], &["the same", "another"]].concat());
}

/// Request Six: "The places come from the number divided by ten and rounded down". So the places of
/// a first part are those of all its issues, and any two first parts can have different ones.
#[test]
fn all_issues_have_the_same_places() {
    let mut rng = Rng::new(142);
    for _ in 0..500 {
        let (r, station) = (1 + rng.below(1_024) as u32, random_station(&mut rng));
        let tabulation = random_tabulation(&mut rng, 65_536);
        let key = rng.pick(&[rng.clone().next_u32().max(10), 10, 19, u32::MAX]);
        let places = hashes(&tabulation, r, station, key);
        assert!(places.is_ok());
        for other in other_issues(key) {
            assert_eq!(hashes(&tabulation, r, station, other), places, "{key}, {other}");
        }
    }
    let mut telling = vec![0; 2_560];
    telling[..256].copy_from_slice(&(0..256).collect::<Vec<u16>>());
    for key in 10..2_560 {
        assert_eq!(hashes(&telling, 256, 0, key), Ok([key / 10, 0]), "rounded down");
    }
}

/// Each refusal before and after 13: 4, 5 and 9 before it, 8 after it, and 10 and 6 never with it.
#[test]
fn thirteen_comes_in_its_order() {
    for (_, engine) in engines() {
        // K5 with other tiers and issues: the stash is full, and a further key with 0.1 and 1.0 is
        // refused with 8.
        let mut list = filled(engine, 1, &[(15, 3), (650, 0), (1_299, 6)]);
        for (key, tier, answer, why) in [
            (9, 0, 5, "5 alone"),
            (1, 3, 5, "5, not 13: its first part is 0, not the number 1"),
            (5, 8, 5, "5 before 9"),
            (10, 8, 9, "9 before 13, in table 0"),
            (651, u32::MAX, 9, "9 before 13, in table 1"),
            (1_298, 8, 9, "9 before 13, in the stash"),
            (10, 3, 13, "13, smaller issue, the same tier"),
            (14, 0, 13, "13, the issue before, another tier"),
            (16, 3, 13, "13, the issue after"),
            (19, 7, 13, "13, larger issue, another tier"),
            (651, 0, 13, "13, in table 1"),
            (659, 1, 13, "13, in table 1"),
            (1_290, 6, 13, "13, in the stash"),
            (1_298, 2, 13, "13, in the stash"),
            (15, 3, 6, "6, not 13: the key itself"),
            (15, 4, 10, "10, not 13: the key itself"),
            (650, 0, 6, "6, not 13: the key itself"),
            (1_299, 0, 10, "10, not 13: the key itself"),
            (1_930, 0, 8, "8 alone"),
            (1_939, 0, 8, "8 alone"),
            (1_300, 0, 0, "accepted: after 1299, but another first part"),
            (649, 0, 0, "accepted: before 650, but another first part"),
        ] {
            assert_eq!(number(list.insert(key, tier)), answer, "{key}, {tier}: {why}");
        }
        list.words[3] = 0;
        for key in [10, 15, 651, 1_290] {
            assert_eq!(list.insert(key, 3), Err(Refusal::NotCanonical), "4 before 13");
        }
        list.scratch_len -= 1;
        assert_eq!(list.insert(10, 3), Err(Refusal::ShortScratch), "3 before 13");
        list.words[4] = 256;
        assert_eq!(list.insert(10, 3), Err(Refusal::WrongShape), "2 before 13");
        list.tabulation.pop();
        assert_eq!(list.insert(10, 3), Err(Refusal::WrongTabulation), "1 before 13");
    }
}

/// Every issue beside every other, with every tier, wherever the listed one sits: alone in both its
/// slots, in table 0, in table 1 or in the stash; with the stash full and with a place free.
#[test]
fn another_issue_is_13_whatever_the_tier() {
    let mut tally = Tally::default();
    for (_, engine) in engines() {
        for listed_issue in 0..10 {
            for (name, s, others, first) in [
                ("alone", 0, &[][..], 1),
                ("largest first part", 0, &[], 429_496_729),
                ("in table 0", 0, &[(650, 1)], 1),
                ("in table 1", 0, &[(10, 1)], 65),
                ("in the stash, full", 1, &[(10, 1), (650, 2)], 129),
                ("in the stash, a place free", 2, &[(10, 1), (650, 2)], 129),
                ("beside a full stash", 1, &[(650, 1), (1_290, 2)], 1),
                ("between", 1, &[(170, 1), (190, 2)], 18),
            ] {
                let Some(key) = 10u32.checked_mul(first).unwrap().checked_add(listed_issue) else {
                    continue;
                };
                let listed = 4;
                let mut list = filled(engine, s, &[others, &[(key, listed)]].concat());
                for other in other_issues(key) {
                    for tier in 0..=7 {
                        let refusal = list.insert(other, tier);
                        assert_eq!(refusal, Err(Refusal::OtherIssue), "{name}: {key}, {other}");
                        tally.add(name);
                    }
                    assert_eq!(list.insert(other, 8), Err(Refusal::WrongTier), "{name}");
                }
                for tier in 0..=7 {
                    let refusal = if tier == listed { Refusal::Listed } else { Refusal::OtherTier };
                    assert_eq!(list.insert(key, tier), Err(refusal), "{name}");
                }
                assert_eq!(list.check(), Ok(()));
            }
        }
    }
    tally.report("13", &["alone", "in the stash, full", "beside a full stash", "between"]);
}

/// Numbers that follow one another are of two first parts where the last digit goes from 9 to 0.
#[test]
fn neighbours_of_different_first_parts_are_listed_together() {
    for (_, engine) in engines() {
        for (smaller, larger) in [(19, 20), (99, 100), (2_559, 2_560), (u32::MAX - 6, u32::MAX - 5)]
        {
            for order in [[smaller, larger], [larger, smaller]] {
                let list = filled(engine, 1, &order.map(|key| (key, 2)));
                assert_eq!(list.words[2..4], [2, 0]);
                for key in order {
                    let sought = found(&list.tabulation, &list.words, key);
                    assert_eq!(sought, Ok(Found::Listed(2)));
                }
            }
        }
    }
}

/// Request Six: "Look-up and withdraw want the exact issue." Trail and opening alike.
#[test]
fn only_the_exact_issue_is_listed() {
    for (_, engine) in engines() {
        // 171 is alone in both its slots; 15 is in table 0, 650 in table 1 and 1299 in the stash.
        let listed = [(15, 3), (650, 0), (1_299, 6)];
        for set in [&listed[..], &[(171, 7)], &[(u32::MAX - 3, 1)]] {
            let mut list = filled(engine, 1, set);
            for &(key, tier) in set {
                for other in other_issues(key) {
                    let sought = found(&list.tabulation, &list.words, other);
                    assert_eq!(sought, Ok(Found::Absent), "{other}");
                    assert_eq!(list.remove(other), Err(Refusal::NotListed), "{other}");
                    for len in [0, 8] {
                        assert_eq!(list.trail(other, len), Err(Refusal::NotListed), "{other}");
                    }
                    for base in [0, 1_000] {
                        let opened = list.open(other, base, &[0; 8]);
                        assert_eq!(opened, Err(Refusal::NotListed), "{other}, before 12");
                    }
                }
                assert_eq!(found(&list.tabulation, &list.words, key), Ok(Found::Listed(tier)));
                assert!(list.trail(key, 8).is_ok());
                let sale = list.open(key, 1_000, &[0; 8]);
                assert_eq!(sale, Ok(Sale { key, tier, price: 1_000 }));
            }
            for &(key, _) in set {
                assert_eq!(list.remove(key), Ok(()));
            }
            assert_eq!(list.words, hand_words(4, 1, 0, 0, &[], &[]));
        }
    }
}

/// Request Six: "A blank card is any number below 10." In every call that has a 5, whatever stands
/// in the words.
#[test]
fn every_number_below_10_is_blank_in_every_call() {
    for (_, engine) in engines() {
        for set in [&[][..], &[(10, 1)], &[(15, 3), (650, 0), (1_299, 6)]] {
            let mut list = filled(engine, 1, set);
            for blank in 0..10 {
                let refused = Err(Refusal::BlankKey);
                assert_eq!(hashes(&list.tabulation, 4, 0, blank).map(|_| ()), refused);
                for tier in [0, 7, 8] {
                    assert_eq!(list.insert(blank, tier), refused, "{blank}");
                }
                assert_eq!(list.remove(blank), refused, "{blank}");
                for len in [0, 8] {
                    assert_eq!(list.trail(blank, len).map(|_| ()), refused, "{blank}");
                }
                for base in [0, 1_000] {
                    assert_eq!(list.open(blank, base, &[0; 8]).map(|_| ()), refused, "{blank}");
                }
                let sought = found(&list.tabulation, &list.words, blank);
                assert_eq!(sought.map(|_| ()), refused);
            }
        }
        // Lookup and opening do not look whether the words are an image: a blank key that stands in
        // all its places is refused as well.
        for blank in 0..10 {
            let entries = [(0, 0, blank, blank, 1), (1, 0, blank, blank, 1)];
            let mut list = Harness::new(engine, &test_tabulation(), 4, 1, 0);
            list.words = hand_words(4, 1, 0, 1, &entries, &[(blank, 1)]);
            let refused = Err(Refusal::BlankKey);
            assert_eq!(found(&list.tabulation, &list.words, blank).map(|_| ()), refused);
            assert_eq!(list.open(blank, 1_000, &[0; 8]).map(|_| ()), refused);
        }
    }
}

/// On words that are no image every call that borrows a scratch is refused with 4, whatever its key
/// is; the view does not look.
fn assert_tampered(words: &[u32], keys: &[u32]) {
    assert_eq!(checked(&test_tabulation(), words), Err(Refusal::NotCanonical), "{words:?}");
    for (_, engine) in engines() {
        let mut list = Harness::new(engine, &test_tabulation(), words[0], words[1], words[4]);
        list.words = words.to_vec();
        let refused = Err(Refusal::NotCanonical);
        for &key in keys.iter().chain(&[0, 5, 9, 10, 171, 20]) {
            assert_eq!(list.insert(key, 0), refused, "{key}");
            assert_eq!(list.insert(key, 8), refused, "{key}");
            assert_eq!(list.remove(key), refused, "{key}");
            assert_eq!(list.trail(key, 8).map(|_| ()), refused, "{key}");
        }
        assert_eq!(stash_answer(&list.words), Ok(()));
        assert_eq!(stash(&list.words).len(), 2 * words[3] as usize);
    }
}

/// A number from 1 to 9 in each word where a key stands or could stand: a slot's key word or next
/// word, filled or empty, and a stash place; alone and together with the words beside it.
#[test]
fn a_blank_key_anywhere_is_tampering() {
    let full = hand_words(4, 2, 0, 3, &[(0, 1, 10, 650, 0), (1, 0, 650, 10, 0)], &[(1_290, 6)]);
    let alone = hand_words(4, 2, 0, 1, &[(0, 1, 170, 170, 3), (1, 1, 170, 170, 3)], &[]);
    let empty = hand_words(4, 2, 0, 0, &[], &[]);
    for words in [full, alone, empty] {
        assert_eq!(checked(&test_tabulation(), &words), Ok(()));
        for blank in 1..10 {
            for slot_at in (5..29).step_by(3) {
                for (key, next) in [(true, false), (false, true), (true, true)] {
                    let mut damaged = words.clone();
                    if key {
                        damaged[slot_at] = blank;
                    }
                    if next {
                        damaged[slot_at + 1] = blank;
                    }
                    assert_tampered(&damaged, &[blank, 170, 650, 1_290]);
                }
            }
            for place_at in [29, 31] {
                let mut damaged = words.clone();
                damaged[place_at] = blank;
                assert_tampered(&damaged, &[blank, 170, 650, 1_290]);
                // With the count of the stash, and with both counts.
                damaged[3] = 1 + u32::from(words[29] != 0 && place_at == 31);
                assert_tampered(&damaged, &[blank, 170, 650, 1_290]);
                damaged[2] += 1;
                assert_tampered(&damaged, &[blank, 170, 650, 1_290]);
            }
        }
    }
}

/// Keys of first part 0 would sit in 0.0 and 1.0 of the test board, as 640 does: stored as neatly
/// as any other key, with right counts and next numbers, blank keys are of no set.
#[test]
fn blank_keys_neatly_stored_are_tampering() {
    for blank in 1..10 {
        let boards: [(&[HandEntry], &[Member], u32); 4] = [
            (&[(0, 0, blank, blank, 0), (1, 0, blank, blank, 0)], &[], 1),
            (&[(0, 0, blank, 640, 0), (1, 0, 640, blank, 0)], &[], 2),
            (&[(0, 0, blank, 640, 0), (1, 0, 640, blank, 0)], &[(1_280, 0)], 3),
            // Smaller than all others, it would not be the one in the stash; there it is no neater.
            (&[(0, 0, 640, 1_280, 0), (1, 0, 1_280, 640, 0)], &[(blank, 0)], 3),
        ];
        for (entries, stash, count) in boards {
            let neat = hand_words(4, 1, 0, count, entries, stash);
            assert_tampered(&neat, &[blank, 640, 1_280]);
        }
    }
}

/// Two issues of one first part as they would be stored if they were two keys: next numbers, counts
/// and the order in the stash are right.
#[test]
fn two_issues_neatly_stored_are_tampering() {
    let boards: [(&str, &[HandEntry], &[Member], u32); 7] = [
        ("both slots", &[(0, 1, 170, 171, 0), (1, 1, 171, 170, 0)], &[], 2),
        ("unlike tiers", &[(0, 1, 170, 179, 3), (1, 1, 179, 170, 5)], &[], 2),
        ("one in the stash", &[(0, 1, 10, 650, 0), (1, 0, 650, 10, 0)], &[(651, 0)], 3),
        ("both before a third", &[(0, 1, 10, 11, 0), (1, 0, 11, 10, 0)], &[(650, 0)], 3),
        (
            "both in the stash",
            &[(0, 1, 10, 650, 0), (1, 0, 650, 10, 0)],
            &[(1_290, 0), (1_291, 0)],
            4,
        ),
        ("far issues", &[(0, 1, 10, 650, 0), (1, 0, 650, 10, 0)], &[(1_290, 4), (1_299, 4)], 4),
        (
            "largest first part",
            &[(0, 1, u32::MAX - 1, u32::MAX, 0), (1, 1, u32::MAX, u32::MAX - 1, 0)],
            &[],
            2,
        ),
    ];
    for (name, entries, stash, count) in boards {
        let neat = hand_words(4, 2, 0, count, entries, stash);
        let keys: Vec<u32> =
            entries.iter().map(|entry| entry.2).chain(stash.iter().map(|place| place.0)).collect();
        assert_tampered(&neat, &keys);
        // Each of them is found by a lookup all the same.
        for &key in &keys {
            let sought = found(&test_tabulation(), &neat, key);
            assert!(matches!(sought, Ok(Found::Listed(_))), "{name}: {key}");
        }
    }
    // Not even neat: one issue in both slots and another in the stash, or one in each slot that
    // points to itself.
    let both = [(0, 1, 170, 170, 0), (1, 1, 170, 170, 0)];
    assert_tampered(&hand_words(4, 2, 0, 2, &both, &[(171, 0)]), &[170, 171]);
    let each = [(0, 1, 170, 170, 0), (1, 1, 171, 171, 0)];
    assert_tampered(&hand_words(4, 2, 0, 2, &each, &[]), &[170, 171]);
    assert_tampered(&hand_words(4, 2, 0, 1, &each, &[]), &[170, 171]);
}

/// The words of any ascending numbers as if they were keys, under a tabulation of zeros: all have
/// the first slot of each table, a lone one sits in both, and all but the first two are in the
/// stash.
fn as_if_keys(numbers: &[u32], s: u32, tier: u32) -> Vec<u32> {
    let entries: Vec<HandEntry> = match *numbers {
        [] => vec![],
        [one] => vec![(0, 0, one, one, tier), (1, 0, one, one, tier)],
        [one, two, ..] => vec![(0, 0, one, two, tier), (1, 0, two, one, tier)],
    };
    let stash: Vec<Member> = numbers.iter().skip(2).map(|&number| (number, tier)).collect();
    hand_words(2, s, 9, numbers.len() as u32, &entries, &stash)
}

/// All sets of a few numbers, blank ones and several issues of a first part among them: the words
/// are an image exactly where the numbers are a set's keys.
#[test]
fn neat_words_are_an_image_exactly_where_the_numbers_are_a_set() {
    let pool = [1, 9, 10, 11, 19, 20, 25, 30, 100, 101];
    let tabulation = vec![0; 2_560];
    let mut tally = Tally::default();
    for mask in 0..1usize << pool.len() {
        let numbers = subset(&pool, mask);
        let words = as_if_keys(&numbers, 8, 5);
        let first_parts: BTreeSet<u32> = numbers.iter().map(|number| number / 10).collect();
        let blank = numbers.iter().any(|&number| number < 10);
        let twice = first_parts.len() < numbers.len();
        let expected = if blank || twice { Err(Refusal::NotCanonical) } else { Ok(()) };
        assert_eq!(checked(&tabulation, &words), expected, "{numbers:?}");
        let members: Vec<Member> = numbers.iter().map(|&number| (number, 5)).collect();
        for (name, engine) in engines() {
            let image = engine.image(&tabulation, 2, 8, 9, &members);
            assert_eq!(image, expected.ok().map(|()| words.clone()), "{name}, {numbers:?}");
        }
        tally.add(match (blank, twice) {
            (false, false) => "sets",
            (true, false) => "blank",
            (false, true) => "two issues",
            (true, true) => "both",
        });
    }
    tally.report("neat words", &["sets", "blank", "two issues", "both"]);
}

/// The words with one number in place of another, wherever it stands.
fn renamed(words: &[u32], names: &BTreeMap<u32, u32>) -> Vec<u32> {
    let mut words = words.to_vec();
    let stash_at = 5 + 6 * words[0] as usize;
    let slots = (5..stash_at).step_by(3).flat_map(|at| [at, at + 1]);
    let places = (stash_at..words.len()).step_by(2);
    for at in slots.chain(places) {
        words[at] = names.get(&words[at]).copied().unwrap_or(words[at]);
    }
    words
}

/// An issue decides over nothing but the number that stands in the words: the image of a set with
/// other issues is the image with the numbers exchanged. So two lists that differ in an issue
/// differ.
#[test]
fn issues_change_key_words_alone() {
    let mut rng = Rng::new(143);
    let mut tally = Tally::default();
    for _ in 0..2_000 {
        let (r, s) = (1 + rng.below(5) as u32, rng.below(4) as u32);
        let (station, count) = (random_station(&mut rng), rng.below(9));
        let tabulation = random_tabulation(&mut rng, 6);
        let keys = random_keys(&mut rng, count);
        let before = random_tiers(&mut rng, &keys);
        let names: BTreeMap<u32, u32> =
            keys.iter().map(|&key| (key, random_issue(&mut rng, key))).collect();
        let after: Vec<Member> = before.iter().map(|&(key, tier)| (names[&key], tier)).collect();
        for (name, engine) in engines() {
            let image = engine.image(&tabulation, r, s, station, &before);
            let expected = image.as_ref().map(|words| renamed(words, &names));
            let other = engine.image(&tabulation, r, s, station, &after);
            assert_eq!(other, expected, "{name}: {before:?}, {names:?}");
            assert_eq!(other.is_some() && other == image, image.is_some() && before == after);
            tally.add(if image.is_some() { "images" } else { "no image" });
            for &key in &keys {
                let trail = engine.trail(&tabulation, r, s, station, &before, key);
                let named = trail.map(|keys| keys.iter().map(|key| names[key]).collect());
                let trail = engine.trail(&tabulation, r, s, station, &after, names[&key]);
                assert_eq!(trail, named, "{name}");
            }
        }
    }
    tally.report("other issues", &["images", "no image"]);
}

/// An issue is taken out and another one put in: the words are those of the new issue alone, as if
/// the old one had never been there.
#[test]
fn another_issue_takes_the_place_of_a_removed_one() {
    for (_, engine) in engines() {
        for issue in 0..10 {
            for next_issue in 0..10 {
                let (key, next) = (170 + issue, 170 + next_issue);
                let mut list = filled(engine, 1, &[(key, 3)]);
                assert_eq!(list.remove(key), Ok(()));
                assert_eq!(list.insert(next, 5), Ok(()));
                let entries = [(0, 1, next, next, 5), (1, 1, next, next, 5)];
                assert_eq!(list.words, hand_words(4, 1, 0, 1, &entries, &[]), "{key}, {next}");
            }
        }
        // K5: an issue of each key in turn, in table 0, in table 1 and in the stash.
        let mut list = filled(engine, 1, &[(10, 1), (650, 2), (1_290, 3)]);
        for (old, new) in [(10, 19), (650, 655), (1_290, 1_291), (19, 10), (655, 651)] {
            assert_eq!(list.insert(new, 4), Err(Refusal::OtherIssue));
            assert_eq!(list.remove(new), Err(Refusal::NotListed));
            assert_eq!(list.remove(old), Ok(()));
            assert_eq!(list.insert(new, 4), Ok(()));
            assert_eq!(list.insert(old, 4), Err(Refusal::OtherIssue));
        }
        let entries = [(0, 1, 10, 651, 4), (1, 0, 651, 10, 4)];
        assert_eq!(list.words, hand_words(4, 1, 0, 3, &entries, &[(1_291, 4)]));
    }
}

/// Every order of the inserts, each with other issues tried before and after, or put in and taken
/// out again on the way: the same words in the end.
#[test]
fn two_orders_with_issues_end_in_the_same_words() {
    let members = [(11, 0), (339, 1), (340, 2), (658, 3), (987, 4)];
    let entries =
        [(0, 1, 11, 339, 0), (1, 0, 658, 11, 3), (1, 2, 339, 340, 1), (0, 2, 340, 658, 2)];
    let words = hand_words(4, 1, 0, 5, &entries, &[(987, 4)]);
    let mut rng = Rng::new(144);
    for (name, engine) in engines() {
        for order in permutations(&members) {
            let mut list = Harness::new(engine, &test_tabulation(), 4, 1, 0);
            for &(key, tier) in &order {
                let others = other_issues(key);
                let (one, two) = (rng.pick(&others), rng.pick(&others));
                if rng.one_in(2) {
                    assert_eq!(list.insert(one, 7), Ok(()));
                    assert_eq!(list.insert(key, tier), Err(Refusal::OtherIssue));
                    assert_eq!(list.remove(one), Ok(()));
                }
                assert_eq!(list.insert(key, tier), Ok(()), "{order:?}, {name}");
                assert_eq!(list.insert(two, tier), Err(Refusal::OtherIssue));
            }
            assert_eq!(list.words, words, "{order:?}, {name}");
        }
    }
}

/// What an insert should answer by a list of members alone, with first parts by digits, but for 8.
fn insert_answer(listed: &[Member], key: u32, tier: u32) -> Option<Refusal> {
    let first = listed.iter().find(|&&(other, _)| same_first_part(other, key));
    match first {
        _ if key.to_string().len() == 1 => Some(Refusal::BlankKey),
        _ if tier > 7 => Some(Refusal::WrongTier),
        Some(&(other, _)) if other != key => Some(Refusal::OtherIssue),
        Some(&(_, other)) if other != tier => Some(Refusal::OtherTier),
        Some(_) => Some(Refusal::Listed),
        None => None,
    }
}

/// Random runs over four first parts with all their issues, and over the numbers below 10: both
/// engines and the reference model give the same answers and the same words, and the answers are
/// those of a plain list of members.
#[test]
fn random_runs_over_many_issues_agree() {
    let mut rng = Rng::new(145);
    let mut tally = Tally::default();
    for _ in 0..400 {
        let (r, s) = (1 + rng.below(3) as u32, rng.below(3) as u32);
        let (tabulation, station) = (random_tabulation(&mut rng, 4), random_station(&mut rng));
        let mut model = Model::new(Slow, &tabulation, r, s, station).unwrap();
        let mut lists =
            engines().map(|(_, engine)| Harness::new(engine, &tabulation, r, s, station));
        let (tabulation_len, scratch_len) = (2_560, lists[0].scratch_len);
        let mut listed: Vec<Member> = Vec::new();
        let firsts = [0, 1, 2, 30, 429_496_729];
        for _ in 0..40 {
            let first = rng.pick(&firsts);
            let key = random_issue(&mut rng, 10 * first);
            let at = listed.iter().position(|&(other, _)| other == key);
            if rng.one_in(3) {
                let expected = match at {
                    _ if key < 10 => Err(Refusal::BlankKey),
                    Some(_) => Ok(()),
                    None => Err(Refusal::NotListed),
                };
                listed.retain(|&(other, _)| other != key);
                let call = Call::Remove { tabulation_len, scratch_len, key };
                assert_eq!(model.feed(&call), Reply::Answer(expected), "{key}");
                assert_eq!(lists.each_mut().map(|list| list.remove(key)), [expected; 2]);
                tally.add(format!("remove {}", number(expected)));
            } else {
                let tier = if rng.one_in(9) { 8 } else { random_tier(&mut rng) };
                let answers = lists.each_mut().map(|list| list.insert(key, tier));
                match insert_answer(&listed, key, tier) {
                    Some(refusal) => assert_eq!(answers[0], Err(refusal), "{listed:?}, {key}"),
                    None if answers[0].is_ok() => listed.push((key, tier)),
                    None => assert_eq!(answers[0], Err(Refusal::FullStash), "{listed:?}, {key}"),
                }
                let call = Call::Insert { tabulation_len, scratch_len, key, tier };
                assert_eq!(model.feed(&call), Reply::Answer(answers[0]), "{listed:?}, {key}");
                assert_eq!(answers[0], answers[1]);
                tally.add(format!("insert {}", number(answers[0])));
            }
            listed.sort_unstable();
            assert_eq!(members(model.set()), listed);
            for list in &lists {
                assert_eq!(list.words, model.words());
            }
            let issues = |first: u32| [vec![10 * first], other_issues(10 * first)].concat();
            for key in firsts.into_iter().filter(|&first| first != 0).flat_map(issues) {
                let tier = listed.iter().find(|member| member.0 == key).map(|member| member.1);
                let expected = tier.map_or(Found::Absent, Found::Listed);
                assert_eq!(found(&tabulation, &lists[0].words, key), Ok(expected));
            }
        }
        tally.add("runs");
    }
    let wanted = [
        "runs",
        "insert 0",
        "insert 5",
        "insert 6",
        "insert 8",
        "insert 9",
        "insert 10",
        "insert 13",
        "remove 0",
        "remove 5",
        "remove 7",
    ];
    tally.report("many issues", &wanted);
}

/// The reference model by hand: its set has one issue of a first part, and it answers 13, 5 and 7
/// from it.
#[test]
fn the_model_holds_one_issue_of_each_first_part() {
    let (tabulation_len, scratch_len) = (2_560, 56);
    let mut model = Model::new(Slow, &test_tabulation(), 4, 1, 0).unwrap();
    for (key, tier, answer) in [
        (9, 0, 5),
        (15, 3, 0),
        (10, 3, 13),
        (19, 4, 13),
        (19, 8, 9),
        (650, 0, 0),
        (1_299, 6, 0),
        (1_290, 0, 13),
        (1_930, 0, 8),
        (15, 3, 6),
        (15, 4, 10),
    ] {
        let reply = model.feed(&Call::Insert { tabulation_len, scratch_len, key, tier });
        let Reply::Answer(found) = reply else { unreachable!("an insert") };
        assert_eq!(number(found), answer, "{key}, {tier}");
    }
    assert_eq!(members(model.set()), [(15, 3), (650, 0), (1_299, 6)]);
    for (key, refusal) in [(9, 5), (1, 5), (10, 7), (659, 7), (1_290, 7)] {
        let removed = model.feed(&Call::Remove { tabulation_len, scratch_len, key });
        let call = Call::Trail { tabulation_len, scratch_len, key, trail_sheet_len: 0 };
        let trail = model.feed(&call);
        let call = Call::Open { tabulation_len, key, base: 0, steps: vec![] };
        let opened = model.feed(&call);
        let numbers = match (removed, trail, opened) {
            (Reply::Answer(removed), Reply::Trail(trail), Reply::Open(opened)) => {
                [removed, trail.map(|_| ()), opened.map(|_| ())].map(number)
            }
            other => unreachable!("{other:?}"),
        };
        assert_eq!(numbers, [refusal; 3], "{key}");
        let sought = model.feed(&Call::Lookup { tabulation_len, key });
        let blank = key < 10;
        let expected = if blank { Err(Refusal::BlankKey) } else { Ok(Found::Absent) };
        assert_eq!(sought, Reply::Lookup(expected), "{key}");
    }
    let removed = model.feed(&Call::Remove { tabulation_len, scratch_len, key: 1_299 });
    assert_eq!(removed, Reply::Answer(Ok(())));
    let replaced = Call::Insert { tabulation_len, scratch_len, key: 1_290, tier: 1 };
    assert_eq!(model.feed(&replaced), Reply::Answer(Ok(())));
    assert_eq!(model.feed(&Call::Stash), Reply::Stash(vec![1_290, 1]));
}
