//! What the tests draw at random: tabulations that crowd their keys, words, keys, tiers, stations, sheets for trails,
//! and faults of the input of a bulk load; tiers, stations and sheets are now and then such as a call refuses.

use reference::hash::TABULATION_LEN;
use reference::key::{first_part, issues};
use reference::rng::Rng;
use reference::samples::{random_issue, random_station, random_tabulation};

use super::Laid;

/// A tabulation of the extremes of 16 bits alone.
pub fn extreme_tabulation(rng: &mut Rng) -> Vec<u16> {
    (0..TABULATION_LEN).map(|_| if rng.one_in(2) { 0 } else { u16::MAX }).collect()
}

/// A tabulation with few hashes: random ones, one value throughout, or extremes.
pub fn narrow_tabulation(rng: &mut Rng) -> Vec<u16> {
    match rng.below(8) {
        0 => extreme_tabulation(rng),
        1 => vec![rng.pick(&[0, 1, 32_768, u16::MAX]); TABULATION_LEN],
        _ => {
            let values = rng.pick(&[2, 3, 7, 9]);
            random_tabulation(rng, values)
        }
    }
}

/// A tabulation under which exactly 2,112 keys fit on the largest board: first part p has the slot p modulo r in both
/// tables, so that each pair of slots takes two keys, and 64 more are stashed.
pub fn even_tabulation() -> Vec<u16> {
    let mut tabulation = vec![0; TABULATION_LEN];
    for half in [0, TABULATION_LEN / 2] {
        for byte in 0..256 {
            tabulation[half + byte] = byte as u16;
            tabulation[half + 256 + byte] = 256 * (byte as u16 % 4);
        }
    }
    tabulation
}

/// As many keys as are asked for, with first parts from 1 on.
pub fn even_keys(rng: &mut Rng, count: usize) -> Vec<u32> {
    (1..=count as u32).map(|first_part| random_issue(rng, 10 * first_part)).collect()
}

pub fn random_words(rng: &mut Rng, length: usize) -> Vec<u32> {
    (0..length).map(|_| rng.next_u32()).collect()
}

/// A key of any size.
pub fn any_key(rng: &mut Rng) -> u32 {
    rng.next_u32().max(10)
}

/// A set of about `count` keys of any size, ascending.
pub fn any_keys(rng: &mut Rng, count: usize) -> Vec<u32> {
    let mut keys: Vec<u32> = (0..count).map(|_| any_key(rng)).collect();
    keys.sort_unstable();
    keys.dedup_by_key(|key| first_part(*key));
    keys
}

/// Another issue of a key.
pub fn other_issue(rng: &mut Rng, key: u32) -> u32 {
    let others: Vec<u32> = issues(key).filter(|issue| *issue != key).collect();
    rng.pick(&others)
}

/// A tier for an insert: mostly 0 to 7, now and then above.
pub fn any_tier(rng: &mut Rng) -> u32 {
    match rng.below(10) {
        0 => rng.pick(&[8, 9, 15, 16, 256, 1 << 31, u32::MAX]),
        _ => rng.below(8) as u32,
    }
}

/// Another tier from 0 to 7.
pub fn other_tier(rng: &mut Rng, tier: u32) -> u32 {
    (tier + 1 + rng.below(7) as u32) % 8
}

/// Stations that are none: just above 255, equal to one of 0 to 255 in their low byte or half, and the largest number.
pub const WRONG_STATIONS: [u32; 9] =
    [256, 257, 511, 512, 65_535, 65_536, 1 << 31, u32::MAX - 255, u32::MAX];

/// A station for a call: mostly 0 to 255, now and then above.
pub fn any_station(rng: &mut Rng) -> u32 {
    if rng.one_in(5) {
        rng.pick(&WRONG_STATIONS)
    } else {
        random_station(rng)
    }
}

/// An input for a bulk load with one fault more, of a kind for each refusal: a key below 10, a tier above 7, a key that
/// is not larger than the one before it, another issue of a key, or a word less, or more. Where there is no key to spoil
/// it stays as it is.
pub fn spoil(rng: &mut Rng, input: &mut Vec<u32>) {
    let pairs = input.len() / 2;
    let at = if pairs == 0 { 0 } else { 2 * rng.below(pairs) };
    match rng.below(8) {
        0 if pairs > 0 => input[at] = rng.below(10) as u32,
        1 if pairs > 0 => input[at + 1] = rng.pick(&[8, 9, 15, 16, 256, 1 << 31, u32::MAX]),
        2 if pairs > 1 => input.swap(at, (at + 2) % (2 * pairs)),
        3 if pairs > 0 => drop(input.splice(at..at, [input[at], rng.below(8) as u32])),
        4 | 5 if pairs > 0 => {
            let higher = issues(input[at]).rfind(|issue| *issue > input[at]);
            let tier = rng.below(8) as u32;
            input.splice(at + 2..at + 2, higher.into_iter().flat_map(|key| [key, tier]));
        }
        6 => drop(input.pop()),
        7 => input.push(if rng.one_in(2) { rng.below(10) as u32 } else { u32::MAX }),
        _ => {}
    }
}

/// The r, s and station of a bulk load: mostly these, now and then with one that is outside its range, or another r.
pub fn any_laid(rng: &mut Rng, [r, s, station]: Laid) -> Laid {
    match rng.below(24) {
        0 => [rng.pick(&[0, 1_025, u32::MAX, r + 1]), s, station],
        1 => [r, rng.pick(&[65, 66, u32::MAX]), station],
        2 => [r, s, rng.pick(&WRONG_STATIONS)],
        _ => [r, s, station],
    }
}

/// A sheet for a trail of `count` keys, with any old content: of no word, one word too short, just long enough, longer
/// than any trail, or of 2r words.
pub fn trail_sheet(rng: &mut Rng, r: u32, count: usize) -> Vec<u32> {
    let most = 2 * r as usize;
    let length = match rng.below(6) {
        0 => 0,
        1 => count.saturating_sub(1),
        2 => count,
        3 => most + 1 + rng.below(9),
        _ => most,
    };
    random_words(rng, length)
}
