//! Boards of every size: each r under tabulations of extremes, whose sums are the largest there are, and sets from
//! empty to over-full on boards of all sizes.

use library::beside::{Beside, Kind};
use library::Change::{Insert, Remove};
use library::{fresh, scratch_length, Counters};
use reference::hash::TABULATION_LEN;
use reference::house::HOUSE;
use reference::rng::Rng;
use reference::samples::{random_station, random_tabulation, random_tier, random_tiers};

use crate::common::{
    any_key, any_keys, extreme_tabulation, image_of, random_words, sale_at, trails_of, BASE, STEPS,
};

/// Every r under a tabulation of extremes, whose sums are the largest there are.
#[test]
fn extreme_tabulations() {
    let mut rng = Rng::new(43);
    let mut beside = Beside::new();
    let mut counters = Counters::default();
    for r in 1..=1_024 {
        let s = rng.below(5) as u32;
        let tabulation = if rng.one_in(4) {
            vec![u16::MAX; TABULATION_LEN]
        } else {
            extreme_tabulation(&mut rng)
        };
        let scratch = vec![u32::MAX; scratch_length(r, s)];
        let mut words = fresh(r, s, random_station(&mut rng));
        let strangers = [any_key(&mut rng), any_key(&mut rng)];
        for key in [u32::MAX, 0x00FF_00FF, 10, 19, 4_294_967_290].into_iter().chain(strangers) {
            let tier = random_tier(&mut rng);
            beside.change(Insert(tier), &tabulation, &mut words, &scratch, &mut counters, key);
            let (_, tier) = beside.lookup(&tabulation, &words, key);
            assert_eq!(beside.open(&tabulation, &words, key, BASE, &STEPS), sale_at(key, tier));
            let sheet = random_words(&mut rng, 2 * r as usize);
            beside.trail(&tabulation, &words, &scratch, key, &sheet);
        }
        beside.check(&tabulation, &words, &scratch);
        beside.change(Remove, &tabulation, &mut words, &scratch, &mut counters, u32::MAX);
    }
}

/// 1,200 sets with r from 1 to 1,024, from empty to over-full: `check` builds the set and compares every word with the
/// reference's image, an insert builds one key more, a remove one key less. Of some keys the trails are asked for.
#[test]
fn sets_of_all_sizes_and_loads() {
    let mut rng = Rng::new(45);
    let mut beside = Beside::new();
    let mut counters = Counters::default();
    let (mut built, mut full, mut stashed) = (0, 0, 0);
    for round in 0..1_200 {
        let r = match round % 4 {
            0 => 1 + rng.below(16),
            1 => 1 + rng.below(128),
            _ => 1 + rng.below(1_024),
        } as u32;
        let s = rng.below(65) as u32;
        let tabulation = match rng.below(4) {
            0 => vec![rng.next_u32() as u16; TABULATION_LEN],
            1 => HOUSE.to_vec(),
            2 => random_tabulation(&mut rng, 1 + 4 * r as usize),
            _ => random_tabulation(&mut rng, 65_536),
        };
        let most = 2 * r as usize + s as usize;
        let count = match rng.below(4) {
            0 => rng.below(1 + s as usize),
            1 => rng.below(1 + r as usize),
            _ => rng.below(1 + most),
        };
        let keys = any_keys(&mut rng, count);
        let scratch = vec![3; scratch_length(r, s)];
        let laid = [r, s, random_station(&mut rng)];
        let Some(mut words) = image_of(&tabulation, laid, &random_tiers(&mut rng, &keys)) else {
            full += 1;
            continue;
        };
        stashed += words[3];
        built += 1;
        assert_eq!(beside.check(&tabulation, &words, &scratch), 0);
        let asked: Vec<u32> = keys.iter().copied().step_by(1 + count / 4).collect();
        trails_of(&mut rng, &mut beside, &tabulation, &words, &asked);
        for _ in 0..3 {
            let (key, tier) = (any_key(&mut rng), random_tier(&mut rng));
            beside.change(Insert(tier), &tabulation, &mut words, &scratch, &mut counters, key);
        }
        if let Some(key) = keys.first() {
            beside.change(Remove, &tabulation, &mut words, &scratch, &mut counters, *key);
        }
    }
    println!("{built} sets built, {full} that do not fit, {stashed} keys stashed");
    println!("{} trails", beside.given(Kind::Trail, 0));
    assert!(built > 450 && full > 150 && stashed > 3_000 && beside.given(Kind::Trail, 0) > 1_500);
}
