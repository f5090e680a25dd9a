//! The fast engine against the slow one on small boards, by the image and by bulk loads, and both
//! against the rules of the image checked a third way; then full-size lists.

use std::collections::{BTreeMap, BTreeSet};

use reference::answer::Found;
use reference::bulk::input;
use reference::calls::{check, lookup};
use reference::fast::{self, Fast};
use reference::graph::{components, edges, simple_cycles, Edge};
use reference::hash::hashes;
use reference::house::HOUSE;
use reference::image::{next_keys, Engine, Slow};
use reference::rng::Rng;
use reference::samples::{
    chosen_tabulation, random_keys, random_station, random_tabulation, random_tier, random_tiers,
};
use reference::set::{members, set, Member, Set};

use crate::common::{many_keys, numbered_ends, on_cycle, other_issues, Harness, Tally};

/// Compares the engines for one set and says what kinds of board it was.
fn compare(
    tabulation: &[u16],
    r: u32,
    s: u32,
    station: u32,
    members: &[Member],
    tally: &mut Tally,
) {
    let image = Slow.image(tabulation, r, s, station, members);
    let fast = Fast.image(tabulation, r, s, station, members);
    assert_eq!(image, fast, "r {r}, s {s}, station {station}, {members:?}");
    for engine in [&Slow as &dyn Engine, &Fast] {
        let bulk = engine.bulk_image(tabulation, r, s, station, members);
        assert_eq!(image, bulk, "bulk load: r {r}, s {s}, station {station}, {members:?}");
    }
    tally.add("boards");
    if members.iter().any(|&(_, tier)| tier != 0) {
        tally.add("with tiers");
    }
    if members.iter().any(|&(key, _)| key % 10 != 0) {
        tally.add("with issues");
    }
    match image {
        None => tally.add("without image"),
        Some(words) if words[3] > 0 => tally.add("with stash"),
        Some(_) => tally.add("without stash"),
    }
}

#[test]
fn fast_and_slow_agree_on_random_small_boards() {
    let mut rng = Rng::new(31);
    let mut tally = Tally::default();
    for _ in 0..24_000 {
        let r = 1 + rng.below(6) as u32;
        let s = rng.below(5) as u32;
        let station = random_station(&mut rng);
        let values = 1 + rng.below(10);
        let tabulation = random_tabulation(&mut rng, values);
        let count = rng.below(11);
        let keys = random_keys(&mut rng, count);
        for component in components(&edges(&tabulation, r, station, &keys).unwrap()) {
            match simple_cycles(&component).len() {
                0 => tally.add("components: trees"),
                1 => tally.add("components: one cycle"),
                _ => tally.add("components: more cycles"),
            }
        }
        let members = random_tiers(&mut rng, &keys);
        compare(&tabulation, r, s, station, &members, &mut tally);
    }
    let wanted = [
        "boards",
        "with tiers",
        "with issues",
        "without image",
        "with stash",
        "without stash",
        "components: trees",
        "components: one cycle",
        "components: more cycles",
    ];
    tally.report("fast against slow", &wanted);
}

#[test]
fn fast_and_slow_agree_under_all_hashes() {
    let mut tally = Tally::default();
    for (r, most_keys) in [(1usize, 6), (2, 6), (3, 4)] {
        for count in 0..=most_keys {
            for number in 0..(r * r).pow(count as u32) {
                let ends = numbered_ends(number, r, count);
                let s = (number % 5) as u32;
                // Issues and tiers change with the board and from key to key.
                let key = |first: u32| 10 * first + (number as u32 + 7 * first) % 10;
                let tier = |first: u32| (number as u32 + 3 * first) % 8;
                let members: Vec<Member> =
                    (1..=count as u32).map(|first| (key(first), tier(first))).collect();
                let station = (number % 256) as u32;
                compare(&chosen_tabulation(&ends), r as u32, s, station, &members, &mut tally);
            }
        }
    }
    let wanted =
        ["boards", "with tiers", "with issues", "without image", "with stash", "without stash"];
    tally.report("all hashes", &wanted);
}

#[test]
fn fast_and_slow_agree_on_larger_sparse_boards() {
    let mut rng = Rng::new(32);
    let mut tally = Tally::default();
    for _ in 0..1_000 {
        let tabulation = random_tabulation(&mut rng, 65_536);
        let keys = random_keys(&mut rng, 28);
        let members = random_tiers(&mut rng, &keys);
        let station = random_station(&mut rng);
        compare(&tabulation, 32, 1, station, &members, &mut tally);
    }
    tally.report("sparse boards", &["boards", "with stash", "without stash"]);
}

#[test]
fn engines_give_no_image_where_no_list_is() {
    let tabulation = vec![0; 2_560];
    for engine in [&Slow as &dyn Engine, &Fast] {
        for (len, r, s, station, members) in [
            (2_559, 1, 1, 0, &[(10, 0)][..]),
            (2_048, 1, 1, 0, &[(10, 0)]),
            (2_560, 0, 1, 0, &[(10, 0)]),
            (2_560, 1_025, 1, 0, &[(10, 0)]),
            (2_560, 1, 65, 0, &[(10, 0)]),
            (2_560, 1, 1, 256, &[(10, 0)]),
            (2_560, 1, 1, 256, &[]),
            (2_560, 1, 1, u32::MAX, &[(10, 0)]),
            (2_560, 1, 1, u32::MAX, &[]),
            (2_560, 1, 1, 9, &[(0, 0), (10, 0)]),
            (2_560, 1, 1, 9, &[(10, 1), (0, 5)]),
            (2_560, 1, 1, 9, &[(1, 0)]),
            (2_560, 1, 1, 9, &[(9, 0)]),
            (2_560, 1, 1, 9, &[(10, 0), (9, 0)]),
            (2_560, 1, 1, 9, &[(5, 2), (10, 0)]),
            (2_560, 1, 1, 9, &[(10, 0), (20, 0), (30, 0), (40, 0)]),
            (2_560, 1, 1, 9, &[(10, 8)]),
            (2_560, 1, 1, 9, &[(10, 0), (20, u32::MAX)]),
            (2_560, 1, 1, 9, &[(10, 0), (10, 1)]),
            (2_560, 1, 1, 9, &[(10, 5), (20, 5), (10, 4)]),
            (2_560, 1, 1, 9, &[(10, 5), (11, 5)]),
            (2_560, 1, 1, 9, &[(10, 5), (19, 4)]),
            (2_560, 1, 1, 9, &[(19, 5), (10, 5)]),
            (2_560, 1, 1, 9, &[(19, 5), (30, 5), (18, 5)]),
            (2_560, 1, 64, 9, &[(11, 0), (20, 0), (30, 0), (33, 0), (40, 0)]),
            (2_560, 1, 1, 9, &[(u32::MAX, 0), (u32::MAX - 5, 0)]),
            (2_560, 1, 1, 9, &[(u32::MAX - 1, 0), (u32::MAX, 0)]),
        ] {
            let image = engine.image(&tabulation[..len], r, s, station, members);
            assert_eq!(image, None, "station {station}, {members:?}");
            let image = engine.bulk_image(&tabulation[..len], r, s, station, members);
            assert_eq!(image, None, "bulk load: station {station}, {members:?}");
        }
        let ordered = engine.image(&tabulation, 1, 1, 255, &[(19, 7), (20, 0), (30, 6)]);
        assert!(ordered.is_some());
        assert_eq!(
            engine.image(&tabulation, 1, 1, 255, &[(30, 6), (19, 7), (20, 0), (30, 6), (19, 7)]),
            ordered,
            "any order, each member once"
        );
        for (members, image) in [
            (&[(19, 7), (20, 0), (30, 6)][..], ordered),
            (&[(20, 0), (19, 7), (30, 6)], None),
            (&[(19, 7), (30, 6), (20, 0)], None),
            (&[(19, 7), (19, 7), (20, 0), (30, 6)], None),
            (&[(19, 7), (20, 0), (30, 6), (30, 6)], None),
        ] {
            let bulk = engine.bulk_image(&tabulation, 1, 1, 255, members);
            assert_eq!(bulk, image, "in rising order alone, {members:?}");
        }
    }
}

/// Edges less slots plus one: the number of independent cycles of a component.
fn cycle_rank(component: &[Edge]) -> usize {
    let slots: BTreeSet<_> = component.iter().flat_map(|edge| edge.slots).collect();
    component.len() + 1 - slots.len()
}

/// Checks words against the image rule a third way: no list of cycles, no assignment of its own.
/// Says how many components of each kind there were.
fn check_by_rule(
    tabulation: &[u16],
    r: u32,
    s: u32,
    station: u32,
    set: &Set,
    words: &[u32],
    tally: &mut Tally,
) {
    let stash_at = 5 + 6 * r as usize;
    let mut entries: BTreeMap<u32, Vec<(usize, u32)>> = BTreeMap::new();
    for slot in 0..2 * r as usize {
        let (key, next, tier) = (words[5 + 3 * slot], words[6 + 3 * slot], words[7 + 3 * slot]);
        if key == 0 {
            assert_eq!((next, tier), (0, 0), "an empty slot is 0, 0, 0");
        } else {
            assert_eq!(tier, set[&key], "the tier is that of the key in each of its slots");
            entries.entry(key).or_default().push((slot, next));
        }
    }
    let keys: Vec<u32> = set.keys().copied().collect();
    let mut stash = BTreeSet::new();
    for mut kept in components(&edges(tabulation, r, station, &keys).unwrap()) {
        while cycle_rank(&kept) > 1 {
            let largest = kept
                .iter()
                .filter(|edge| on_cycle(&kept, edge))
                .map(|edge| edge.key)
                .max()
                .unwrap();
            kept.retain(|edge| edge.key != largest);
            stash.insert(largest);
            tally.add("stash keys");
        }
        let next = next_keys(kept.iter().map(|edge| edge.key));
        let is_tree = cycle_rank(&kept) == 0;
        tally.add(if is_tree { "trees" } else { "one cycle" });
        let smallest = if is_tree {
            kept.iter().map(|edge| edge.key).min()
        } else {
            kept.iter().filter(|edge| on_cycle(&kept, edge)).map(|edge| edge.key).min()
        };
        for edge in &kept {
            let own = hashes(tabulation, r, station, edge.key).unwrap();
            let [h0, h1] = own.map(|hash| hash as usize);
            let own = [h0, r as usize + h1];
            let held = entries.remove(&edge.key).expect("a kept key is stored");
            assert!(held
                .iter()
                .all(|&(slot, held_next)| own.contains(&slot) && held_next == next[&edge.key]));
            let slots: Vec<usize> = held.into_iter().map(|(slot, _)| slot).collect();
            match (Some(edge.key) == smallest, is_tree) {
                (true, true) => assert_eq!(slots, own, "a tree's smallest key sits in both"),
                (true, false) => {
                    assert_eq!(slots, own[..1], "a cycle's smallest key sits in table 0")
                }
                _ => assert_eq!(slots.len(), 1),
            }
        }
    }
    assert!(entries.is_empty(), "nothing else is stored");
    assert_eq!(words[..5], [r, s, keys.len() as u32, stash.len() as u32, station]);
    let mut places: Vec<u32> = stash.into_iter().flat_map(|key| [key, set[&key]]).collect();
    places.resize(2 * s as usize, 0);
    assert_eq!(words[stash_at..], places);
}

#[test]
fn images_obey_the_rule_checked_a_third_way() {
    let mut rng = Rng::new(33);
    let mut tally = Tally::default();
    for board in 0..120 {
        // Half of them small enough for both engines, half with one large component for the fast
        // one.
        let (r, count) = if board % 2 == 0 {
            (1 + rng.below(6), rng.below(9))
        } else {
            (12 + rng.below(20), 30)
        };
        let (r, station) = (r as u32, random_station(&mut rng));
        let tabulation = random_tabulation(&mut rng, 1_000);
        let keys = random_keys(&mut rng, count);
        let members = random_tiers(&mut rng, &keys);
        let Some(words) = Fast.image(&tabulation, r, 64, station, &members) else {
            panic!("64 places are enough")
        };
        let set = set(&members).unwrap();
        check_by_rule(&tabulation, r, 64, station, &set, &words, &mut tally);
        if board % 2 == 0 {
            assert_eq!(Slow.image(&tabulation, r, 64, station, &members), Some(words));
        }
        tally.add("boards");
    }
    tally.report("third way", &["boards", "trees", "one cycle", "stash keys"]);
}

#[test]
fn full_size_lists_hold_together() {
    let mut rng = Rng::new(34);
    let mut tally = Tally::default();
    let mixed = random_tabulation(&mut rng, 65_536);
    for tabulation in [&HOUSE[..], &mixed] {
        let station = 1 + rng.below(255) as u32;
        let mut list = Harness::new(&Fast, tabulation, 1_024, 64, station);
        let mut listed = Set::new();
        for key in many_keys(&mut rng, 1_500) {
            let tier = random_tier(&mut rng);
            match list.insert(key, tier) {
                Ok(()) => assert_eq!(listed.insert(key, tier), None),
                Err(refusal) => assert_eq!(refusal.number(), 8),
            }
            tally.add(if listed.contains_key(&key) { "inserted" } else { "refused" });
        }
        let found = |key: u32| listed.get(&key).map_or(Found::Absent, |&tier| Found::Listed(tier));
        for (&key, &tier) in &listed {
            assert_eq!(lookup(tabulation, &list.words, key), Ok(Found::Listed(tier)));
            assert_eq!(fast::lookup(tabulation, &list.words, key), Ok(Found::Listed(tier)));
            let other = rng.next_u32().max(10);
            assert_eq!(fast::lookup(tabulation, &list.words, other), Ok(found(other)));
            let issues = other_issues(key);
            let issue = rng.pick(&issues);
            assert_eq!(fast::lookup(tabulation, &list.words, issue), Ok(Found::Absent));
            assert_eq!(lookup(tabulation, &list.words, issue), Ok(Found::Absent));
        }
        tally.add_many("stash keys", list.words[3] as usize);
        let listed = members(&listed);
        let image = Fast.image(tabulation, 1_024, 64, station, &listed);
        assert_eq!(image.as_ref(), Some(&list.words));
        let mut scratch = vec![3; 12 * 1_024 + 8 * 64];
        assert_eq!(check(&Fast, tabulation, &list.words, &mut scratch), Ok(()));
        // One bulk load of the same keys over a list with something else.
        let mut bulk = Harness::new(&Fast, tabulation, 1_024, 64, station);
        bulk.words.fill(u32::MAX);
        assert_eq!(bulk.bulk_load(1_024, 64, station, &input(&listed)), Ok(()));
        assert_eq!(bulk.words, list.words);
        // Take out every second key, and the list is that of the others put in afresh.
        let mut leaving: Vec<Member> = listed.iter().copied().step_by(2).collect();
        rng.shuffle(&mut leaving);
        for (key, _) in leaving {
            assert_eq!(list.remove(key), Ok(()));
            tally.add("removed");
        }
        let mut others = Harness::new(&Fast, tabulation, 1_024, 64, station);
        for (key, tier) in listed.iter().copied().skip(1).step_by(2) {
            assert_eq!(others.insert(key, tier), Ok(()));
        }
        assert_eq!(list.words, others.words);
    }
    tally.report("full size", &["inserted", "removed", "stash keys"]);
}
