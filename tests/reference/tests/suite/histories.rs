//! History independence: two random histories that end at one set at one station leave the same
//! words, and words of different sets or different stations differ.

use std::collections::BTreeMap;

use reference::answer::Refusal;
use reference::image::{Engine, Slow};
use reference::rng::Rng;
use reference::samples::{
    chosen_tabulation, random_issue, random_keys, random_station, random_tabulation, random_tier,
    random_tiers,
};
use reference::set::{members, Member, Set};

use crate::common::{all_sets, engines, same_first_part, subset, Harness, Tally};

/// One step of a history: takes the key out if it is listed, else puts it in. Before it is taken
/// out, it is now and then put in once more, which must be refused and change nothing. While
/// another issue is listed, it can be neither taken out nor put in.
fn step(list: &mut Harness, now: &mut Set, (key, tier): Member, rng: &mut Rng, tally: &mut Tally) {
    if let Some(&listed) = now.get(&key) {
        if rng.one_in(3) {
            let refusal = if tier == listed { Refusal::Listed } else { Refusal::OtherTier };
            assert_eq!(list.insert(key, tier), Err(refusal));
            tally.add(format!("put in once more, {}", refusal.number()));
        }
        assert_eq!(list.remove(key), Ok(()));
        now.remove(&key);
    } else if now.keys().any(|&listed| same_first_part(listed, key)) {
        assert_eq!(list.remove(key), Err(Refusal::NotListed));
        assert_eq!(list.insert(key, tier), Err(Refusal::OtherIssue));
        tally.add("another issue, 13");
    } else if list.insert(key, tier).is_ok() {
        now.insert(key, tier);
    } else {
        tally.add("refused on the way");
    }
}

/// Brings the list to a set by inserts in random order, with detours over other keys and over the
/// set's keys with other tiers and other issues.
fn random_history(
    list: &mut Harness,
    target: &[Member],
    others: &[u32],
    rng: &mut Rng,
    tally: &mut Tally,
) {
    let target: Set = target.iter().copied().collect();
    let everything: Vec<u32> = target.keys().chain(others).copied().collect();
    let mut now = Set::new();
    let mut detours = rng.below(25);
    let mut steps = 0;
    while detours > 0 || now != target {
        steps += 1;
        assert!(steps < 2_000, "a set that has an image can be reached");
        let member = if detours > 0 {
            let key = rng.pick(&everything);
            let key = if rng.one_in(3) { random_issue(rng, key) } else { key };
            (key, random_tier(rng))
        } else {
            let wrong =
                members(&now).into_iter().filter(|(key, tier)| target.get(key) != Some(tier));
            let missing = members(&target).into_iter().filter(|(key, _)| !now.contains_key(key));
            let goal: Vec<Member> = wrong.chain(missing).collect();
            rng.pick(&goal)
        };
        detours = detours.saturating_sub(1);
        step(list, &mut now, member, rng, tally);
    }
    tally.add_many("steps", steps);
}

#[test]
fn two_histories_of_one_set_leave_one_list() {
    let mut rng = Rng::new(51);
    let mut tally = Tally::default();
    for (name, engine) in engines() {
        for _ in 0..if name == "slow" { 120 } else { 1_000 } {
            let (r, s) = (1 + rng.below(4) as u32, rng.below(4) as u32);
            let station = random_station(&mut rng);
            let tabulation = random_tabulation(&mut rng, 5);
            let keys = random_keys(&mut rng, 9);
            let target_keys = subset(&keys, rng.below(1 << 9));
            let others: Vec<u32> =
                keys.iter().copied().filter(|key| !target_keys.contains(key)).collect();
            let target = random_tiers(&mut rng, &target_keys);
            let Some(image) = Slow.image(&tabulation, r, s, station, &target) else {
                continue;
            };
            if target.is_empty() || others.is_empty() {
                continue;
            }
            for _ in 0..2 {
                let mut list = Harness::new(engine, &tabulation, r, s, station);
                random_history(&mut list, &target, &others, &mut rng, &mut tally);
                assert_eq!(list.words, image, "{name}");
                tally.add("histories");
            }
            tally.add(if image[3] > 0 { "ends with stash" } else { "ends without stash" });
        }
    }
    let wanted = [
        "histories",
        "steps",
        "refused on the way",
        "put in once more, 6",
        "put in once more, 10",
        "another issue, 13",
        "ends with stash",
        "ends without stash",
    ];
    tally.report("histories", &wanted);
}

#[test]
fn different_sets_have_different_images() {
    let mut rng = Rng::new(52);
    let mut tally = Tally::default();
    // Sets of many keys, sets of few keys that differ in their tiers, and sets of few first parts
    // that differ in their issues.
    let keys: Vec<u32> = (1..=7).map(|first| 10 * first).collect();
    let mut sets = all_sets(&keys, &[0]);
    sets.extend(all_sets(&keys[..4], &[1, 5, 7]));
    sets.extend(all_sets(&[10, 11, 19, 20, 25, 30, 31, 39], &[0, 5]));
    sets.sort();
    sets.dedup();
    for _ in 0..12 {
        let ends: Vec<[u16; 2]> =
            (0..8).map(|_| [rng.below(3) as u16, rng.below(3) as u16]).collect();
        let tabulation = chosen_tabulation(&ends);
        let station = random_station(&mut rng);
        for (_, engine) in engines() {
            let mut seen = BTreeMap::new();
            for set in &sets {
                let Some(words) = engine.image(&tabulation, 3, 1, station, set) else {
                    continue;
                };
                assert_eq!(seen.insert(words, set), None);
                tally.add("images");
            }
        }
    }
    tally.report("different sets", &["images"]);
}
