//! Document 01's "Shuffles that look canonical": each wrong shuffle is built on the board the paper
//! names, and shown to differ from the image and to be refused by check.

use std::collections::{BTreeMap, BTreeSet};

use reference::answer::{Found, Refusal};
use reference::calls::{check, lookup};
use reference::graph::{components, edges, simple_cycles};
use reference::image::{assignment, assignments, image, next_keys, split_stash, Assignment};
use reference::layout::{Contents, Entry, Shape, Slot};
use reference::samples::test_tabulation;
use reference::set::Member;

use crate::common::{engines, hand_words};

/// The keys are multiplied by ten, as request Six has the test board.
const K9: [u32; 5] = [10, 330, 340, 650, 980];
const K11: [u32; 5] = [10, 340, 650, 980, 2_250];

/// The tier of each key on these boards. The wrong shuffles keep the tiers right, so that it is the
/// shuffle that is told.
fn tier(key: u32) -> u32 {
    key / 10 % 7
}

/// The keys with their tiers.
fn tiered(keys: &[u32]) -> Vec<Member> {
    keys.iter().map(|&key| (key, tier(key))).collect()
}

/// The image of a set of keys with r = 4, s = 1 and station 0.
fn right_words(keys: &[u32]) -> Vec<u32> {
    image(&test_tabulation(), 4, 1, 0, &tiered(keys)).expect("the board has an image")
}

/// The words of a wrong shuffle with r = 4, s = 1: every assignment with its own cycle of next
/// numbers.
fn wrong_words(parts: &[&Assignment], stash: &[u32]) -> Vec<u32> {
    let mut contents =
        Contents { entries: BTreeMap::new(), stash: tiered(stash).into_iter().collect() };
    for &part in parts {
        let next = next_keys(part.values().copied());
        contents.entries.extend(
            part.iter()
                .map(|(&slot, &key)| (slot, Entry { key, next: next[&key], tier: tier(key) })),
        );
    }
    Shape::new(4, 1, 0).unwrap().write(&contents)
}

/// The one component of a set of keys on the test board.
fn component(keys: &[u32]) -> Vec<reference::graph::Edge> {
    let mut parts = components(&edges(&test_tabulation(), 4, 0, keys).unwrap());
    assert_eq!(parts.len(), 1, "{keys:?} is one component");
    parts.remove(0)
}

/// The wrong words are not the image of the set, and check says so.
fn assert_wrong(wrong: &[u32], keys: &[u32]) {
    let right = right_words(keys);
    assert_eq!(wrong.len(), right.len());
    assert_ne!(wrong, right);
    for (_, engine) in engines() {
        let mut scratch = vec![0; 56];
        assert_eq!(check(&engine, &test_tabulation(), &right, &mut scratch), Ok(()));
        assert_eq!(
            check(&engine, &test_tabulation(), wrong, &mut scratch),
            Err(Refusal::NotCanonical)
        );
    }
}

/// Paper: "Sending the largest card of the group to the drawer: K11 has 225 off every loop."
#[test]
fn largest_key_of_the_component_in_the_stash() {
    let k11 = component(&K11);
    assert!(simple_cycles(&k11).iter().all(|cycle| !cycle.contains(&2_250)));
    assert_eq!(split_stash(&k11).1, [980]);
    // Without 2250 two cycles of two are left, which are stored by themselves.
    let rest = edges(&test_tabulation(), 4, 0, &[10, 340, 650, 980]).unwrap();
    let parts: Vec<Assignment> = components(&rest).iter().map(|part| assignment(part)).collect();
    assert_eq!(parts.len(), 2);
    assert_wrong(&wrong_words(&[&parts[0], &parts[1]], &[2_250]), &K11);
    // The same with the next numbers in one cycle, as of one component.
    let whole: Assignment = parts.into_iter().flatten().collect();
    assert_wrong(&wrong_words(&[&whole], &[2_250]), &K11);
}

/// Paper: "Seating the group's smallest in rack 0: K8 turns on the smallest on the loop."
#[test]
fn smallest_key_of_the_component_in_table_0() {
    let k8 = component(&[170, 650, 1_290]);
    let (at_01, at_10, at_11) =
        (Slot { table: 0, index: 1 }, Slot { table: 1, index: 0 }, Slot { table: 1, index: 1 });
    // There are two assignments; neither has 170 in table 0, and 650 on the cycle decides between
    // them.
    let right = Assignment::from([(at_01, 650), (at_10, 1_290), (at_11, 170)]);
    let wrong = Assignment::from([(at_01, 1_290), (at_10, 650), (at_11, 170)]);
    assert_eq!(assignments(&k8, None), [right.clone(), wrong.clone()]);
    assert_eq!(right_words(&[170, 650, 1_290]), wrong_words(&[&right], &[]));
    assert_wrong(&wrong_words(&[&wrong], &[]), &[170, 650, 1_290]);
    // With 170 in table 0 by force, one of the others has to go to the stash.
    for (stored, stashed) in [(650, 1_290), (1_290, 650)] {
        let forced = Assignment::from([(at_01, 170), (at_10, stored)]);
        assert_wrong(&wrong_words(&[&forced], &[stashed]), &[170, 650, 1_290]);
    }
}

/// Paper: "Leaving a drawer card there after a withdrawal: K7, K10."
#[test]
fn stash_key_left_after_a_remove() {
    // K7: 650 has left, 10 stays where it was; or 10 takes both slots as if alone.
    let stays = Assignment::from([(Slot { table: 0, index: 1 }, 10)]);
    assert_wrong(&wrong_words(&[&stays], &[1_290]), &[10, 1_290]);
    assert_wrong(&wrong_words(&[&assignment(&component(&[10]))], &[1_290]), &[10, 1_290]);
    // K10: 330 has left, and 980 stays in the stash, with 340 alone in one or in both of its slots.
    let cycle = assignment(&component(&[10, 650]));
    let stays = Assignment::from([(Slot { table: 0, index: 2 }, 340)]);
    assert_wrong(&wrong_words(&[&cycle, &stays], &[980]), &[10, 340, 650, 980]);
    assert_wrong(
        &wrong_words(&[&cycle, &assignment(&component(&[340]))], &[980]),
        &[10, 340, 650, 980],
    );
}

/// Paper: "Clearing one of the two pockets of a withdrawn lone card."
#[test]
fn one_of_two_slots_cleared() {
    let k2 = right_words(&[170]);
    for table in 0..2 {
        let mut wrong = k2.clone();
        wrong[2] = 0;
        let at = Shape::new(4, 1, 0).unwrap().slot_at(Slot { table, index: 1 });
        wrong[at..at + 3].fill(0);
        assert_wrong(&wrong, &[]);
        let found = lookup(&test_tabulation(), &wrong, 170);
        assert_eq!(found, Ok(Found::Listed(tier(170))), "it would still be found");
    }
}

/// Paper: "Threading drawer cards into the next numbers."
#[test]
fn stash_keys_among_the_next_numbers() {
    let k5 = hand_words(4, 1, 0, 3, &[(0, 1, 10, 650, 1), (1, 0, 650, 1_290, 2)], &[(1_290, 3)]);
    assert_wrong(&k5, &[10, 650, 1_290]);
    for keys in [K9, K11] {
        let right = right_words(&keys);
        let threaded = next_keys(BTreeSet::from(keys));
        let mut wrong = right.clone();
        for at in (5..29).step_by(3).filter(|&at| right[at] != 0) {
            wrong[at + 1] = threaded[&right[at]];
        }
        assert_wrong(&wrong, &keys);
    }
}
