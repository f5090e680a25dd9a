//! Tabulations and key sets to try things on: the paper's test book, tabulations that give chosen
//! hashes, and random ones with few values so that small boards have many cycles.

use std::collections::BTreeMap;

use crate::hash::{HALF_LEN, MAX_STATION, TABULATION_LEN};
use crate::key::{first_part, is_blank, issues};
use crate::rng::Rng;
use crate::set::{Member, MAX_TIER};

/// The paper's "test book".
///
/// Paper: "Test book: entry v is v and entry 1,024 + v is v/16 rounded down, for v from 0 to 255;
/// all others 0." Request Five: "The test board runs with station 0, its rack 1 entries moved to
/// 1,280 and its new stretches zero".
pub fn test_tabulation() -> Vec<u16> {
    let hashes: Vec<[u16; 2]> = (0..=255).map(|v| [v, v / 16]).collect();
    chosen_tabulation(&hashes)
}

/// A tabulation under which all keys with first part v, below 256, have the hashes `hashes[v]`
/// (before they are taken modulo r) at every station; entries that are not chosen are 0, the fifth
/// stretches too.
pub fn chosen_tabulation(hashes: &[[u16; 2]]) -> Vec<u16> {
    let mut tabulation = vec![0; TABULATION_LEN];
    for (v, &[hash0, hash1]) in hashes.iter().enumerate() {
        tabulation[v] = hash0;
        tabulation[HALF_LEN + v] = hash1;
    }
    tabulation
}

/// A random tabulation with all entries below `values`.
pub fn random_tabulation(rng: &mut Rng, values: usize) -> Vec<u16> {
    (0..TABULATION_LEN).map(|_| rng.below(values) as u16).collect()
}

/// A random station: a quarter of the time the first or the last, else any from 0 to 255.
pub fn random_station(rng: &mut Rng) -> u32 {
    if rng.one_in(4) {
        rng.pick(&[0, MAX_STATION])
    } else {
        rng.below(MAX_STATION as usize + 1) as u32
    }
}

/// A random set of `count` keys in ascending order, one issue of each first part: half of the time
/// small keys (whose first parts are 1 to 255, so `count` must be well below that), half of the
/// time keys of any size.
pub fn random_keys(rng: &mut Rng, count: usize) -> Vec<u32> {
    let small = rng.one_in(2);
    let mut keys = BTreeMap::new();
    while keys.len() < count {
        let key = if small { 10 + rng.below(2_550) as u32 } else { rng.next_u32() };
        if !is_blank(key) {
            keys.insert(first_part(key), key);
        }
    }
    keys.into_values().collect()
}

/// A random issue of the key's first part, perhaps the key itself.
pub fn random_issue(rng: &mut Rng, key: u32) -> u32 {
    let issues: Vec<u32> = issues(key).collect();
    rng.pick(&issues)
}

/// A random tier: half of the time 0, else any from 0 to 7.
pub fn random_tier(rng: &mut Rng) -> u32 {
    if rng.one_in(2) {
        0
    } else {
        rng.below(MAX_TIER as usize + 1) as u32
    }
}

/// The keys, each with a random tier.
pub fn random_tiers(rng: &mut Rng, keys: &[u32]) -> Vec<Member> {
    keys.iter().map(|&key| (key, random_tier(rng))).collect()
}

/// The keys, each with tier 0, as document 01's boards have them.
pub fn tier_0(keys: &[u32]) -> Vec<Member> {
    keys.iter().map(|&key| (key, 0)).collect()
}
