//! Request One, the tier of each key: 9 and 10 in their order, wrong tiers of every kind, lookups
//! that take the first, and that tiers change nothing but tier words.

use reference::answer::{number, Found, Refusal};
use reference::calls::{check, lookup, stash, stash_answer};
use reference::fast;
use reference::image::Slow;
use reference::model::{Call, Model, Reply};
use reference::rng::Rng;
use reference::samples::{
    random_keys, random_station, random_tabulation, random_tiers, test_tabulation, tier_0,
};
use reference::set::{members, set, Member};

use crate::common::{all_sets, engines, hand_words, tier_words, Harness, Tally};

/// The answer of check on the test board, the same from both engines.
fn checked(words: &[u32]) -> Result<(), Refusal> {
    let mut scratch = vec![1; 1_000];
    let [slow, fast] =
        engines().map(|(_, engine)| check(&engine, &test_tabulation(), words, &mut scratch));
    assert_eq!(slow, fast);
    slow
}

/// What a lookup on the test board finds, the same both ways.
fn found(words: &[u32], key: u32) -> Result<Found, Refusal> {
    let found = lookup(&test_tabulation(), words, key);
    assert_eq!(found, fast::lookup(&test_tabulation(), words, key));
    found
}

/// Each pair of refusals that one insert can deserve: the earlier in the order 5, 9, 13, 10, 6, 8
/// wins.
#[test]
fn nine_and_ten_come_in_their_order() {
    for (_, engine) in engines() {
        // K5 with other tiers: the stash is full.
        let mut list = Harness::new(engine, &test_tabulation(), 4, 1, 0);
        for (key, tier) in [(10, 3), (650, 0), (1_290, 6)] {
            assert_eq!(list.insert(key, tier), Ok(()));
        }
        for (key, tier, answer, why) in [
            (0, 8, 5, "5 before 9"),
            (0, 0, 5, "5 alone"),
            (20, 8, 9, "9 alone"),
            (20, u32::MAX, 9, "9 alone"),
            (1_930, 8, 9, "9 before 8"),
            (10, 8, 9, "9 before 10 and 6"),
            (1_290, u32::MAX, 9, "9 before 10 and 6"),
            (19, 8, 9, "9 before 13"),
            (1_291, 8, 9, "9 before 13"),
            (9, 8, 5, "5 before 9"),
            (9, 0, 5, "5 alone"),
            (19, 3, 13, "13 with the listed issue's tier"),
            (1_291, 0, 13, "13 with another tier, before 8"),
            (10, 2, 10, "10, smaller tier"),
            (10, 4, 10, "10, larger tier"),
            (650, 7, 10, "10, a slot of table 1"),
            (1_290, 0, 10, "10, in the stash"),
            (10, 3, 6, "6 with its own tier"),
            (650, 0, 6, "6 with its own tier"),
            (1_290, 6, 6, "6 with its own tier"),
            (1_930, 7, 8, "8 with a right tier"),
            (20, 7, 0, "accepted"),
        ] {
            assert_eq!(number(list.insert(key, tier)), answer, "{key}, {tier}: {why}");
        }
    }
}

#[test]
fn every_tier_to_7_is_accepted_and_none_above() {
    for (_, engine) in engines() {
        for tier in 0..=300 {
            let mut list = Harness::new(engine, &test_tabulation(), 4, 1, 0);
            let answer = list.insert(170, tier);
            if tier <= 7 {
                assert_eq!(answer, Ok(()));
                let entries = [(0, 1, 170, 170, tier), (1, 1, 170, 170, tier)];
                assert_eq!(list.words, hand_words(4, 1, 0, 1, &entries, &[]));
                assert_eq!(found(&list.words, 170), Ok(Found::Listed(tier)));
            } else {
                assert_eq!(answer, Err(Refusal::WrongTier));
                assert_eq!(found(&list.words, 170), Ok(Found::Absent));
            }
        }
    }
}

/// An insert of a listed key is refused with 6 or 10, and the key keeps its tier; it gets another
/// one only when it is taken out and put in again.
#[test]
fn an_insert_of_a_listed_key_never_changes_its_tier() {
    let mut rng = Rng::new(91);
    let mut tally = Tally::default();
    for (name, engine) in engines() {
        for _ in 0..if name == "slow" { 60 } else { 400 } {
            let (r, s) = (1 + rng.below(4) as u32, rng.below(4) as u32);
            let (tabulation, count) = (random_tabulation(&mut rng, 5), 1 + rng.below(6));
            let keys = random_keys(&mut rng, count);
            let mut list = Harness::new(engine, &tabulation, r, s, random_station(&mut rng));
            let mut listed: Vec<Member> = random_tiers(&mut rng, &keys);
            listed.retain(|&(key, tier)| list.insert(key, tier).is_ok());
            let words = list.words.clone();
            for &(key, tier) in &listed {
                for again in (0..=8).chain([u32::MAX]) {
                    let refusal = match again {
                        _ if again > 7 => Refusal::WrongTier,
                        _ if again == tier => Refusal::Listed,
                        _ => Refusal::OtherTier,
                    };
                    assert_eq!(list.insert(key, again), Err(refusal));
                    assert_eq!(list.words, words);
                    let found = lookup(&tabulation, &list.words, key);
                    assert_eq!(found, Ok(Found::Listed(tier)));
                    tally.add(format!("insert {}", refusal.number()));
                }
            }
            for &(key, tier) in &listed {
                let other = (tier + 1 + rng.below(7) as u32) % 8;
                assert_eq!(list.remove(key), Ok(()), "whatever its tier");
                assert_eq!(lookup(&tabulation, &list.words, key), Ok(Found::Absent));
                assert_eq!(list.insert(key, other), Ok(()), "a set of the same keys fits as well");
                let found = lookup(&tabulation, &list.words, key);
                assert_eq!(found, Ok(Found::Listed(other)));
                tally.add("another tier");
            }
        }
    }
    tally.report("listed keys", &["insert 6", "insert 9", "insert 10", "another tier"]);
}

/// A tree's smallest key sits in both its slots, with the same tier.
#[test]
fn two_copies_with_unlike_tiers_are_tampering() {
    for tier0 in 0..=8 {
        for tier1 in 0..=8 {
            let k2 = [(0, 1, 170, 170, tier0), (1, 1, 170, 170, tier1)];
            let k3 = [(0, 1, 10, 170, tier0), (1, 0, 10, 170, tier1), (1, 1, 170, 10, 5)];
            let expected =
                if tier0 == tier1 && tier0 <= 7 { Ok(()) } else { Err(Refusal::NotCanonical) };
            let k2 = hand_words(4, 1, 0, 1, &k2, &[]);
            assert_eq!(checked(&k2), expected, "{tier0}, {tier1}");
            assert_eq!(found(&k2, 170), Ok(Found::Listed(tier0)), "the first counts");
            let k3 = hand_words(4, 1, 0, 2, &k3, &[]);
            assert_eq!(checked(&k3), expected, "{tier0}, {tier1}");
            assert_eq!(found(&k3, 10), Ok(Found::Listed(tier0)), "the first counts");
        }
    }
}

/// On words that are no image every call but lookup and view is refused with 4, before all that is
/// wrong with key and tier.
#[test]
fn a_wrong_tier_anywhere_stops_inserts_and_removes() {
    for (_, engine) in engines() {
        let mut list = Harness::new(engine, &test_tabulation(), 4, 2, 0);
        for (key, tier) in [(10, 3), (650, 0), (1_290, 6), (170, 2)] {
            assert_eq!(list.insert(key, tier), Ok(()));
        }
        let words = list.words.clone();
        for (at, key_at) in tier_words(&words) {
            let mut wrong = vec![8, u32::MAX];
            if words[key_at] == 0 {
                wrong.extend(1..=7);
            }
            for tier in wrong {
                list.words = words.clone();
                list.words[at] = tier;
                assert_eq!(list.check(), Err(Refusal::NotCanonical));
                for (key, tier) in
                    [(0, 0), (9, 0), (20, 9), (20, 0), (10, 3), (10, 0), (19, 3), (1_290, 6)]
                {
                    assert_eq!(list.insert(key, tier), Err(Refusal::NotCanonical));
                    assert_eq!(list.remove(key), Err(Refusal::NotCanonical));
                }
                assert_eq!(stash_answer(&list.words), Ok(()), "the view does not look");
                assert_eq!(stash(&list.words), &list.words[29..31]);
            }
        }
    }
}

/// Request One: "should a tampered list show the card more than once, the first in word order
/// counts". In this order: the slot in table 0, the slot in table 1, the stash places.
#[test]
fn a_lookup_on_a_tampered_list_takes_the_first() {
    // Key 170 belongs into slot 1 of each table; each copy has a tier of its own.
    let at_01 = (0, 1, 170, 170, 4);
    let at_11 = (1, 1, 170, 170, 9);
    let elsewhere = (0, 0, 170, 170, 1);
    for mask in 0..32 {
        let has = |bit: usize| mask >> bit & 1 == 1;
        let mut entries = vec![elsewhere];
        entries.extend(has(0).then_some(at_01));
        entries.extend(has(1).then_some(at_11));
        let place = |bit: usize, tier: u32| if has(bit) { (170, tier) } else { (30, 170) };
        let stash = [place(2, 7), place(3, 0), place(4, u32::MAX)];
        let words = hand_words(4, 3, 0, 1, &entries, &stash);
        let first = (0..5).find(|&bit| has(bit));
        let expected =
            first.map_or(Found::Absent, |bit| Found::Listed([4, 9, 7, 0, u32::MAX][bit]));
        assert_eq!(found(&words, 170), Ok(expected), "{mask:05b}");
        assert_eq!(checked(&words), Err(Refusal::NotCanonical));
    }
}

/// A tier above 7 in the words is given as it stands.
#[test]
fn a_lookup_gives_the_tier_word_as_it_stands() {
    for tier in [0, 7, 8, 255, 1 << 31, u32::MAX] {
        let expected = Ok(Found::Listed(tier));
        assert_eq!(found(&hand_words(4, 1, 0, 1, &[(0, 1, 170, 170, tier)], &[]), 170), expected);
        assert_eq!(found(&hand_words(4, 1, 0, 1, &[(1, 1, 170, 170, tier)], &[]), 170), expected);
        assert_eq!(found(&hand_words(4, 1, 0, 1, &[], &[(170, tier)]), 170), expected);
    }
}

#[test]
fn the_same_keys_with_different_tiers_give_different_words() {
    let keys = [10, 330, 340, 650, 980];
    let sets = all_sets(&keys, &[0, 4, 7]);
    assert_eq!(sets.len(), 4usize.pow(5));
    let sets: Vec<&Vec<Member>> = sets.iter().filter(|set| set.len() == keys.len()).collect();
    for (_, engine) in engines() {
        let mut images: Vec<Vec<u32>> = sets
            .iter()
            .map(|set| engine.image(&test_tabulation(), 4, 1, 0, set).expect("K9 fits"))
            .collect();
        images.sort();
        images.dedup();
        assert_eq!(images.len(), 3usize.pow(5));
    }
}

/// Tiers decide over nothing but tier words: seats, next numbers, stash, counts and whether the set
/// fits are those of the set with tier 0.
#[test]
fn tiers_change_tier_words_alone() {
    let mut rng = Rng::new(92);
    let mut tally = Tally::default();
    for _ in 0..2_000 {
        let (r, s) = (1 + rng.below(5) as u32, rng.below(4) as u32);
        let station = random_station(&mut rng);
        let (tabulation, count) = (random_tabulation(&mut rng, 6), rng.below(9));
        let keys = random_keys(&mut rng, count);
        let members = random_tiers(&mut rng, &keys);
        let tiers = set(&members).unwrap();
        for (_, engine) in engines() {
            let plain = engine.image(&tabulation, r, s, station, &tier_0(&keys));
            let tiered = engine.image(&tabulation, r, s, station, &members);
            tally.add(if plain.is_some() { "images" } else { "no image" });
            let expected = plain.map(|mut words| {
                for (at, key_at) in tier_words(&words) {
                    assert_eq!(words[at], 0);
                    words[at] = tiers.get(&words[key_at]).copied().unwrap_or(0);
                }
                words
            });
            assert_eq!(tiered, expected);
        }
    }
    tally.report("tier words", &["images", "no image"]);
}

/// The reference model by hand: its set has tiers, and its view has both words of each place.
#[test]
fn the_model_keeps_tiers() {
    let (tabulation_len, scratch_len) = (2_560, 56);
    let mut model = Model::new(Slow, &test_tabulation(), 4, 1, 0).unwrap();
    let mut insert = |key: u32, tier: u32| match model.feed(&Call::Insert {
        tabulation_len,
        scratch_len,
        key,
        tier,
    }) {
        Reply::Answer(answer) => number(answer),
        other => panic!("{other:?}"),
    };
    for (key, tier, answer) in [
        (0, 8, 5),
        (10, 8, 9),
        (10, 3, 0),
        (10, 3, 6),
        (10, 4, 10),
        (10, 8, 9),
        (650, 0, 0),
        (1_290, 6, 0),
        (1_930, 0, 8),
        (1_930, 8, 9),
        (1_290, 5, 10),
        (1_290, 6, 6),
        (9, 0, 5),
        (9, 8, 5),
        (1_299, 8, 9),
        (1_299, 6, 13),
        (11, 4, 13),
    ] {
        assert_eq!(insert(key, tier), answer, "{key}, {tier}");
    }
    assert_eq!(members(model.set()), [(10, 3), (650, 0), (1_290, 6)]);
    assert_eq!(model.feed(&Call::Stash), Reply::Stash(vec![1_290, 6]));
    for (key, found) in [
        (10, Found::Listed(3)),
        (650, Found::Listed(0)),
        (1_290, Found::Listed(6)),
        (20, Found::Absent),
    ] {
        let reply = model.feed(&Call::Lookup { tabulation_len, key });
        assert_eq!(reply, Reply::Lookup(Ok(found)));
    }
    let removed = model.feed(&Call::Remove { tabulation_len, scratch_len, key: 1_290 });
    assert_eq!(removed, Reply::Answer(Ok(())));
    let back = Call::Insert { tabulation_len, scratch_len, key: 1_290, tier: 0 };
    assert_eq!(model.feed(&back), Reply::Answer(Ok(())));
    // A stash key with tier 0 has both its words in the view, too.
    assert_eq!(model.feed(&Call::Stash), Reply::Stash(vec![1_290, 0]));
}
