//! Trails: of all keys of many sets on sheets of all lengths, and the longest there are, through all slots of a board
//! that is one cycle, or one path.

use library::beside::{Beside, Kind};
use library::Change::{Insert, Remove};
use library::{change, fresh, scratch_length};
use reference::hash::{HALF_LEN, TABULATION_LEN};
use reference::rng::Rng;
use reference::samples::{random_station, random_tier, random_tiers};

use crate::common::{fitting_set, image_of, random_words, trail_length, trails_of, Laid};

/// The trails of all keys of many sets, on sheets of no word, one too few, just enough, 2r, and more: 11 exactly where
/// the trail is longer than the sheet.
#[test]
fn trails_on_sheets_of_all_lengths() {
    let mut rng = Rng::new(50);
    let mut beside = Beside::new();
    for round in 1..1_500 {
        let Some((laid, tabulation, keys)) = fitting_set(&mut rng, round) else { continue };
        let members = random_tiers(&mut rng, &keys);
        let words = image_of(&tabulation, laid, &members).expect("they fit with any tiers");
        let [r, s, _] = laid;
        let scratch = random_words(&mut rng, scratch_length(r, s));
        for key in keys {
            let (count, most) = (trail_length(&tabulation, laid, &members, key), 2 * r as usize);
            for length in [0, count.saturating_sub(1), count, most, most + 1 + rng.below(9)] {
                let sheet = random_words(&mut rng, length);
                let (answer, trail) = beside.trail(&tabulation, &words, &scratch, key, &sheet);
                let expected = if length < count { (11, 0) } else { (0, count) };
                assert_eq!((answer, trail.len()), expected, "{key} on {length} of {words:?}");
            }
        }
    }
    let [done, short] = [0, 11].map(|answer| beside.given(Kind::Trail, answer));
    println!("{done} trails, {short} on sheets that are too short");
    assert!(done > 10_000 && short > 5_000);
}

/// A tabulation under which the first parts 1 to 2r are one cycle through all slots, for every r, at this station:
/// first part p has the hashes p/2 and (p + 1)/2 rounded down, so that it has one slot in common with the one before it
/// and the other with the one behind it. The lowest byte counts by the station's stretch alone.
fn cycle_tabulation(station: u32) -> Vec<u16> {
    let mut tabulation = vec![0; TABULATION_LEN];
    for byte in 0..256u16 {
        let turned = 1_024 + (usize::from(byte) + station as usize) % 256;
        (tabulation[turned], tabulation[HALF_LEN + turned]) = (byte / 2, byte.div_ceil(2));
        let second = 256 + usize::from(byte);
        (tabulation[second], tabulation[HALF_LEN + second]) = (128 * byte, 128 * byte);
    }
    tabulation
}

/// The key of a first part on the cycle: all issues come up, and the keys go up with the first parts.
fn on_cycle(first_part: u32) -> u32 {
    10 * first_part + first_part % 10
}

/// The words of a board with all these keys, which come in any order.
fn filled(rng: &mut Rng, tabulation: &[u16], [r, s, station]: Laid, keys: &[u32]) -> Vec<u32> {
    let mut words = fresh(r, s, station);
    let mut order = keys.to_vec();
    rng.shuffle(&mut order);
    for key in order {
        assert_eq!(change(Insert(random_tier(rng)), tabulation, &mut words, key), 0);
    }
    words
}

/// The trail of a key on the cycle of the first parts 1 to `all`: up to the last one, and round to the root.
fn up_the_cycle(first_part: u32, all: u32) -> Vec<u32> {
    let up = (first_part..=all).filter(|_| first_part > 1);
    up.chain([1]).map(on_cycle).collect()
}

/// The trail of a key on the path of the first parts from 1 on: down to the root.
fn down_the_path(first_part: u32) -> Vec<u32> {
    (1..=first_part).rev().map(on_cycle).collect()
}

/// Of the first parts 1 to `last` those whose trails are asked for: all where they are few, otherwise some at both ends
/// and at each multiple of 32. A walk goes in runs of 16 steps, so that these trails end just before, at and just
/// behind the end of a run.
fn some_parts(last: u32) -> Vec<u32> {
    (1..=last)
        .filter(|part| last <= 80 || *part < 4 || (part + 1) % 32 < 3 || last < part + 4)
        .collect()
}

/// The longest trails there are, written out: 2r keys where the first parts 1 to 2r are one cycle, 2r - 1 where one key
/// less is a path. On the cycle 1, the root, sits in table 0, in the slot that it has in common with 2r; so every other
/// one sits in the slot in common with the one before it, and the one behind it sits in its other slot. On the path 1
/// sits in both its slots, and each other key leads down to it. A sheet with one word less than the trail is refused.
#[test]
fn trails_through_all_slots() {
    let mut rng = Rng::new(51);
    let mut beside = Beside::new();
    for r in (1..=40).chain([128, 1_024]) {
        let (s, all) = (if r == 1_024 { 64 } else { rng.below(65) as u32 }, 2 * r);
        let station = random_station(&mut rng);
        let tabulation = cycle_tabulation(station);
        let keys = Vec::from_iter((1..=all).map(on_cycle));
        let mut words = filled(&mut rng, &tabulation, [r, s, station], &keys);
        let asked = some_parts(all);
        let mut trails = |words: &[u32], asked: &[u32]| {
            let keys = Vec::from_iter(asked.iter().map(|part| on_cycle(*part)));
            trails_of(&mut rng, &mut beside, &tabulation, words, &keys)
        };
        let found = trails(&words, &asked);
        let cycle: Vec<Vec<u32>> = asked.iter().map(|part| up_the_cycle(*part, all)).collect();
        assert_eq!(found, cycle, "the cycle of {all} keys");
        assert_eq!(found.iter().map(Vec::len).max(), Some(all as usize));
        let cycled = words.clone();

        assert_eq!(change(Remove, &tabulation, &mut words, on_cycle(all)), 0);
        let asked = some_parts(all - 1);
        let found = trails(&words, &asked);
        let path: Vec<Vec<u32>> = asked.iter().map(|part| down_the_path(*part)).collect();
        assert_eq!(found, path, "the path of {} keys", all - 1);

        let scratch = random_words(&mut rng, scratch_length(r, s));
        let short = random_words(&mut rng, all as usize - 1);
        for (words, part, short) in [(&cycled, 2, &short[..]), (&words, all - 1, &short[1..])] {
            let refused = beside.trail(&tabulation, words, &scratch, on_cycle(part), short);
            assert_eq!(refused, (11, vec![]), "{part} of {all}");
        }
    }
    println!("{} trails through all slots, the longest of 2,048 keys", beside.calls());
}
