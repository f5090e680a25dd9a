//! Salvages: of damaged lists on small boards and on the largest, of words that are any, of copies and issues; of lists
//! that nobody touched, which give themselves; what so many changed words cost at most; and what a salvaged list is good
//! for.

use std::collections::{BTreeMap, BTreeSet};

use library::beside::{Beside, Kind};
use library::wet::{held, survivors, Fate};
use library::Change::{Insert, Remove};
use library::{bulk_load, change, entries, scratch_length, words_length, Counters, HEADER_LENGTH};
use reference::bulk::input;
use reference::hash::hashes;
use reference::house::HOUSE;
use reference::key::first_part;
use reference::rng::Rng;
use reference::samples::{
    random_issue, random_keys, random_station, random_tabulation, random_tier, random_tiers,
};
use reference::set::Member;

use crate::common::{
    any_keys, any_station, any_tier, even_keys, even_tabulation, fitting_set, image_of,
    narrow_tabulation, other_issue, random_image, random_words, strangers_to, trails_of, way_to,
    word_at, Laid, Small, Word,
};

/// A tabulation, a target and a scratch for a salvage: mostly as they must be, now and then too short, or too long.
fn lent(rng: &mut Rng, tabulation: &[u16], words: &[u32]) -> (Vec<u16>, Vec<u32>, Vec<u32>) {
    let mut book = tabulation.to_vec();
    if rng.one_in(24) {
        book.resize(rng.pick(&[0, 1, 2_048, 2_559, 2_561, 5_120]), 5);
    }
    let target = match rng.below(20) {
        0 => rng.below(words.len() + 1),
        1 => words.len() + 1 + rng.below(9),
        _ => words.len(),
    };
    let enough = match words {
        [r, s, ..] if *r <= 1_024 && *s <= 64 => scratch_length(*r, *s),
        _ => 300,
    };
    let scratch = match rng.below(16) {
        0 => rng.below(enough + 1),
        1 => enough + rng.below(9),
        _ => enough,
    };
    (book, random_words(rng, target), random_words(rng, scratch))
}

/// A salvage with whatever is lent, as the reference answers it.
fn any_salvage(rng: &mut Rng, beside: &mut Beside, tabulation: &[u16], words: &[u32]) {
    let (book, mut target, scratch) = lent(rng, tabulation, words);
    beside.salvage(&book, words, &mut target, &scratch);
}

/// A salvage with all that it needs: its answer, the number that it tells, and the target.
fn salvaged(beside: &mut Beside, tabulation: &[u16], words: &[u32]) -> (u32, u32, Vec<u32>) {
    let mut target = vec![0x5A5A_5A5A; words.len()];
    let scratch = vec![u32::MAX; scratch_length(words[0], words[1])];
    let (answer, lost) = beside.salvage(tabulation, words, &mut target, &scratch);
    (answer, lost.unwrap_or(u32::MAX), target)
}

/// What stands in the slots and places of a canonical list, each key once.
fn members_of(words: &[u32]) -> BTreeSet<Member> {
    let filled = entries(words).filter(|(key, ..)| *key != 0);
    filled.map(|(key, tier, _)| (key, tier)).collect()
}

/// What damage makes of a word: a small number, one bit turned, a key of the list or another issue of one, all bits, or
/// anything.
fn damaged(rng: &mut Rng, keys: &[u32], word: u32) -> u32 {
    match rng.below(8) {
        0 => 0,
        1 => rng.below(16) as u32,
        2 | 3 => word ^ 1 << rng.below(32),
        4 if !keys.is_empty() => rng.pick(keys),
        5 if !keys.is_empty() => {
            let key = rng.pick(keys);
            other_issue(rng, key)
        }
        6 => u32::MAX,
        _ => rng.next_u32(),
    }
}

/// Where the words of a slot or place begin.
fn start_of(r: u32, at: usize) -> usize {
    let slots = 2 * r as usize;
    HEADER_LENGTH + if at < slots { 3 * at } else { 3 * slots + 2 * (at - slots) }
}

/// Copies a slot or place over another, now and then of another issue, or at another tier: what makes several issues
/// and copies of one card.
fn copy_over(rng: &mut Rng, words: &mut [u32]) {
    let (r, spots) = (words[0], (2 * words[0] + words[1]) as usize);
    let all: Vec<(u32, u32, bool)> = entries(words).collect();
    let (from, to) = (rng.below(spots), rng.below(spots));
    let (mut key, mut tier, _) = all[from];
    if key >= 10 && rng.one_in(2) {
        key = random_issue(rng, key);
    }
    if rng.one_in(3) {
        tier = any_tier(rng);
    }
    let start = start_of(r, to);
    words[start] = key;
    words[start + if to < 2 * r as usize { 2 } else { 1 }] = tier;
}

/// Changes some words of a list, and copies some slots and places over others: up to so much, and anywhere.
fn damage(rng: &mut Rng, keys: &[u32], words: &mut [u32], most: usize) {
    for _ in 0..rng.below(most + 1) {
        if rng.one_in(3) {
            copy_over(rng, words);
        }
        let at = 2 + rng.below(words.len() - 2);
        words[at] = if at == 4 { any_station(rng) } else { damaged(rng, keys, words[at]) };
    }
}

/// Thousands of lists on small boards, from untouched to nothing left, with all that a call may be refused for.
#[test]
fn salvages_on_small_boards() {
    let mut rng = Rng::new(91);
    let mut beside = Beside::new();
    for _ in 0..60_000 {
        let Some(Small { r, tabulation, keys, mut words, .. }) = random_image(&mut rng, [5, 4, 14])
        else {
            continue;
        };
        let most = rng.pick(&[0, 1, 3, 4 * r as usize]);
        damage(&mut rng, &keys, &mut words, most);
        if rng.one_in(30) {
            let at = rng.below(2);
            words[at] = rng.pick(&[0, 1, 2, 65, 1_025, u32::MAX]);
        }
        if rng.one_in(30) {
            words.truncate(rng.below(words.len()));
        }
        any_salvage(&mut rng, &mut beside, &tabulation, &words);
    }
    beside.report(&[Kind::Salvage]);
    for answer in [0, 1, 2, 3, 15] {
        assert!(beside.given(Kind::Salvage, answer) > 500, "{answer} is rare");
    }
}

/// Words of the right shape with numbers that are often one of a few keys, in any of their issues, in their own slots as
/// in others; and words of any length and content.
#[test]
fn salvages_of_any_words() {
    let mut rng = Rng::new(92);
    let mut beside = Beside::new();
    let mut counts = [0; 3];
    for round in 0..60_000 {
        let (r, s) = (1 + rng.below(5) as u32, rng.below(5) as u32);
        let tabulation = narrow_tabulation(&mut rng);
        let keys = random_keys(&mut rng, 4);
        let mut words = vec![r, s, rng.next_u32(), rng.below(6) as u32, random_station(&mut rng)];
        while words.len() < words_length(r, s) {
            let key = rng.pick(&keys);
            words.push(match rng.below(8) {
                0..=2 => random_issue(&mut rng, key),
                3 => key,
                4 => rng.next_u32(),
                5 => 0,
                _ => rng.below(10) as u32,
            });
        }
        if round % 3 == 0 {
            // Every number in a slot of its own, and every tier one.
            for at in 0..2 * r as usize {
                let start = start_of(r, at);
                words[start + 2] = rng.below(9) as u32;
                let key = rng.pick(&keys);
                let slots = hashes(&tabulation, r, words[4], key).expect("a key");
                let own = slots[at / r as usize] as usize == at % r as usize;
                words[start] = if own { random_issue(&mut rng, key) } else { 0 };
            }
        }
        if round % 8 == 1 {
            let length = rng.below(40);
            words = random_words(&mut rng, length);
        } else {
            let all = held(&tabulation, &words);
            let stands = all.iter().filter(|held| held.fate == Fate::Stands).count();
            let lost = all.iter().filter(|held| held.fate.is_lost()).count();
            counts = [counts[0] + stands, counts[1] + lost, counts[2] + all.len() - stands - lost];
            if rng.one_in(30) {
                words[4] = any_station(&mut rng);
            }
        }
        any_salvage(&mut rng, &mut beside, &tabulation, &words);
    }
    let [stand, lost, others] = counts;
    println!("of the numbers {stand} stand, {lost} are lost, {others} count and do not stand");
    assert!(stand > 30_000 && lost > 100_000 && others > 5_000);
    let given = [0, 1, 2, 3, 15].map(|answer| beside.given(Kind::Salvage, answer));
    println!("salvages of any words, answered 0, 1, 2, 3, 15: {given:?}");
    assert!(given.iter().all(|times| *times > 1_000));
}

/// Hundreds of lists at r = 1,024: of random cards, and with a key in every slot and place; a few words changed, many,
/// and none.
#[test]
fn salvages_on_the_largest_board() {
    let mut rng = Rng::new(93);
    let mut beside = Beside::new();
    let even = even_tabulation();
    let mut full = 0;
    for round in 0..400 {
        let laid = [1_024, 64, random_station(&mut rng)];
        let (tabulation, keys) = match round % 4 {
            0 => (even.clone(), even_keys(&mut rng, 2_112)),
            1 => (random_tabulation(&mut rng, 65_536), any_keys(&mut rng, 700)),
            _ => {
                let count = rng.below(1_400);
                (HOUSE.to_vec(), any_keys(&mut rng, count))
            }
        };
        let members = random_tiers(&mut rng, &keys);
        let Some(mut words) = image_of(&tabulation, laid, &members) else { continue };
        let (answer, lost, target) = salvaged(&mut beside, &tabulation, &words);
        assert_eq!((answer, lost, &target), (0, 0, &words), "an untampered list gives itself");
        full += u32::from(words[2] == 2_112);
        let most = rng.pick(&[1, 30, 3_000]);
        damage(&mut rng, &keys, &mut words, most);
        any_salvage(&mut rng, &mut beside, &tabulation, &words);
        if words[4] <= 255 {
            let (_, _, target) = salvaged(&mut beside, &tabulation, &words);
            let again = salvaged(&mut beside, &tabulation, &target);
            assert_eq!(again, (0, 0, target.clone()), "a salvaged list gives itself");
        }
    }
    let given = [0, 1, 2, 3].map(|answer| beside.given(Kind::Salvage, answer));
    println!("at r = 1,024 answered 0, 1, 2, 3: {given:?}, {full} lists with a key in every slot and place");
    assert!(given.iter().all(|times| *times > 5) && full > 50);
}

/// Each word of many small lists changed to some values: what it costs, by the kind of word. A count or a next number
/// costs nothing; a word beside an empty slot or place makes no difference but for its key; and what else it is, at most
/// one first part is gone, at most two members are, and at most one is new.
#[test]
fn one_changed_word() {
    let mut rng = Rng::new(94);
    let mut beside = Beside::new();
    let mut seen: BTreeMap<(Word, [usize; 3], u32), u32> = BTreeMap::new();
    for _ in 0..1_500 {
        let Some(Small { tabulation, keys, words: sound, .. }) = random_image(&mut rng, [4, 4, 9])
        else {
            continue;
        };
        for at in 2..sound.len() {
            let (word, beside_key) = word_at(&sound, at);
            if word == Word::Station {
                continue;
            }
            for value in [0, 5, 7, 8, sound[at] ^ 1, damaged(&mut rng, &keys, sound[at])] {
                let mut words = sound.clone();
                words[at] = value;
                let (answer, lost, target) = salvaged(&mut beside, &tabulation, &words);
                if answer == 15 {
                    continue;
                }
                let cost =
                    [gone(&sound, &target), parts_gone(&sound, &target), gone(&target, &sound)];
                let [members, parts, new] = cost;
                assert!(members <= 2 && parts <= 1 && new <= 1 && lost <= 1, "{value} at {at}");
                let is_idle = match word {
                    Word::Heading | Word::Next => true,
                    Word::Tier | Word::StashTier => beside_key == 0,
                    _ => false,
                };
                assert!(!is_idle || (lost == 0 && target == sound), "{value} at {at}: {sound:?}");
                *seen.entry((word, cost, lost)).or_default() += 1;
            }
        }
    }
    println!("changed words, by what they cost (gone, first parts gone, new; lost): {seen:?}");
    for bound in [(Word::Key, [2, 1, 1]), (Word::StashKey, [1, 1, 1]), (Word::Tier, [1, 0, 1])] {
        let times: u32 = seen
            .iter()
            .filter(|((word, cost, _), _)| (*word, *cost) == bound)
            .map(|(_, n)| n)
            .sum();
        assert!(times > 20, "{bound:?} never came up");
    }
}

/// How many members of one list the other does not have.
fn gone(one: &[u32], other: &[u32]) -> usize {
    let other = members_of(other);
    members_of(one).iter().filter(|member| !other.contains(member)).count()
}

/// How many first parts of one list the other does not have.
fn parts_gone(one: &[u32], other: &[u32]) -> usize {
    let parts = |words: &[u32]| -> BTreeSet<u32> {
        members_of(words).iter().map(|(key, _)| first_part(*key)).collect()
    };
    let other = parts(other);
    parts(one).iter().filter(|part| !other.contains(part)).count()
}

/// Whether a member stands in a slot or place that is as it was, and nothing else of its first part was written.
fn is_untouched(sound: &[u32], words: &[u32], (key, tier): Member) -> bool {
    let (before, now): (Vec<_>, Vec<_>) = (entries(sound).collect(), entries(words).collect());
    let spots = before.iter().zip(&now);
    let stands = spots.clone().any(|(old, new)| old == new && (new.0, new.1) == (key, tier));
    let is_other = |(key_there, tier_there): (u32, u32)| {
        first_part(key_there) == first_part(key) && (key_there, tier_there) != (key, tier)
    };
    stands && !spots.into_iter().any(|(old, new)| old != new && is_other((new.0, new.1)))
}

/// So many words of a list changed, none of them r, s or the station: at most twice as many members are gone, at most as
/// many first parts, and at most as many members are new. A member that stands in an untouched spot, and of whose first
/// part nothing else was written, survives. On small boards the bounds are met.
#[test]
fn what_changed_words_cost() {
    let mut rng = Rng::new(95);
    let mut beside = Beside::new();
    let mut met: BTreeMap<usize, [u32; 4]> = BTreeMap::new();
    let (mut untouched, mut lists) = (0_u64, 0);
    for round in 1..20_000 {
        let Some((laid, tabulation, keys)) = fitting_set(&mut rng, round) else { continue };
        let members = random_tiers(&mut rng, &keys);
        let sound = image_of(&tabulation, laid, &members).expect("they fit with any tiers");
        let mut words = sound.clone();
        for _ in 0..1 + rng.below(most_changed(round)) {
            // Often another issue of a card that stands elsewhere is written into the slot that both have in table 0.
            let slot = rng.below(laid[0] as usize);
            match issue_for(&mut rng, &tabulation, &sound, slot, &keys) {
                Some(issue) if rng.one_in(2) => words[start_of(laid[0], slot)] = issue,
                _ => {
                    let at = 2 + rng.below(words.len() - 2);
                    words[at] = damaged(&mut rng, &keys, words[at]);
                }
            }
            words[4] = laid[2];
        }
        let changed = sound.iter().zip(&words).filter(|(old, new)| old != new).count();
        let (answer, lost, target) = salvaged(&mut beside, &tabulation, &words);
        if answer == 15 {
            assert!(
                changed >= members.len(),
                "{changed} changed words are too few for {members:?}"
            );
            continue;
        }
        let cost = [gone(&sound, &target), parts_gone(&sound, &target), gone(&target, &sound)];
        let bounds = [2 * changed, changed, changed];
        assert!(cost.iter().zip(bounds).all(|(cost, bound)| *cost <= bound), "{cost:?}, {changed}");
        assert!(lost as usize <= changed, "{lost} of {changed}");
        let saved = members_of(&target);
        for member in &members {
            if is_untouched(&sound, &words, *member) {
                assert!(saved.contains(member), "{member:?} is gone: {words:?}");
                untouched += 1;
            }
        }
        let met = met.entry(changed.min(4)).or_default();
        for (at, bound) in bounds.into_iter().enumerate() {
            met[at] += u32::from(cost[at] == bound);
        }
        met[3] += 1;
        lists += 1;
    }
    println!("{lists} lists, {untouched} members in untouched spots");
    println!("changed words, and how often each bound was met, of how many: {met:?}");
    assert!(lists > 10_000 && untouched > 40_000);
    assert!([1, 2].iter().all(|changed| met[changed][..3].iter().all(|times| *times > 10)));
}

/// How many words are changed at most: few of the small boards, many of the largest.
fn most_changed(round: usize) -> usize {
    if round % 600 == 0 {
        200
    } else {
        1 + round % 6
    }
}

/// Another issue of a card that has this slot of table 0 and stands elsewhere: written there it stands first.
fn issue_for(
    rng: &mut Rng,
    tabulation: &[u16],
    sound: &[u32],
    slot: usize,
    keys: &[u32],
) -> Option<u32> {
    let has_it = |key: &&u32| {
        let slots = hashes(tabulation, sound[0], sound[4], **key).expect("a key");
        slots[0] as usize == slot && sound[start_of(sound[0], slot)] != **key
    };
    let having: Vec<u32> = keys.iter().filter(has_it).copied().collect();
    if having.is_empty() {
        return None;
    }
    let key = rng.pick(&having);
    Some(other_issue(rng, key))
}

/// Untampered lists give themselves and 0, whatever the target held, and so do salvaged ones; and the survivors of any
/// words fit as they stand: what a bulk load makes of them is the same list.
#[test]
fn lists_that_give_themselves() {
    let mut rng = Rng::new(96);
    let mut beside = Beside::new();
    let (mut sound_lists, mut others, mut full) = (0, 0, 0);
    for _ in 0..12_000 {
        let Some(Small { r, s, tabulation, keys, mut words }) = random_image(&mut rng, [6, 5, 16])
        else {
            continue;
        };
        let itself = (0, 0, words.clone());
        assert_eq!(salvaged(&mut beside, &tabulation, &words), itself, "{words:?}");
        sound_lists += 1;
        damage(&mut rng, &keys, &mut words, 4 * r as usize);
        if words[4] > 255 {
            continue;
        }
        let (answer, _, target) = salvaged(&mut beside, &tabulation, &words);
        if answer == 15 {
            assert_eq!(survivors(&tabulation, &words), [], "{words:?}");
            continue;
        }
        assert_eq!(
            salvaged(&mut beside, &tabulation, &target),
            (0, 0, target.clone()),
            "{words:?}"
        );
        let list = input(&survivors(&tabulation, &words));
        let (mut loaded, mut counters) = (vec![1; words.len()], Counters::default());
        let mut scratch = vec![1; scratch_length(r, s)];
        let laid = [r, s, words[4]];
        assert_eq!(
            bulk_load(&tabulation, &mut loaded, &mut scratch, &mut counters, laid, &list),
            0
        );
        assert_eq!(loaded, target, "{words:?}");
        full += u32::from(s > 0 && target[3] == s);
        others += u32::from(target != itself.2);
    }
    println!("{sound_lists} untampered lists; {others} salvaged ones that differ, {full} with a full stash");
    assert!(sound_lists > 5_000 && others > 3_000 && full > 100);
}

/// Two histories of one set and then the same damage: the same salvage. Old content of target and scratch has no say.
#[test]
fn damage_after_two_histories() {
    let mut rng = Rng::new(97);
    let mut beside = Beside::new();
    let (mut sets, mut saved) = (0, 0);
    for round in 0..1_500 {
        let Some((laid, tabulation, keys)) = fitting_set(&mut rng, round) else { continue };
        let members = random_tiers(&mut rng, &keys);
        let strangers = strangers_to(&mut rng, &keys);
        let mut two = [(); 2].map(|()| way_to(&mut rng, &tabulation, laid, &members, &strangers));
        for _ in 0..1 + rng.below(8) {
            let at = 2 + rng.below(two[0].len() - 2);
            let value = damaged(&mut rng, &keys, two[0][at]);
            two.iter_mut().for_each(|words| words[at] = value);
        }
        let [one, other] = two.map(|words| {
            let mut target = random_words(&mut rng, words.len());
            let before = target.clone();
            let more = rng.below(4);
            let scratch = random_words(&mut rng, scratch_length(laid[0], laid[1]) + more);
            let told = beside.salvage(&tabulation, &words, &mut target, &scratch);
            assert!(told.0 == 0 || target == before, "a refused salvage changes the target");
            (told, if told.0 == 0 { target } else { vec![] })
        });
        assert_eq!(one, other, "two histories of {members:?}");
        sets += 1;
        saved += u32::from(one.0 .0 == 0 && one.1[2] > 0);
    }
    println!("{sets} sets with two histories and one damage, {saved} salvages of some key");
    assert!(sets > 700 && saved > 500);
}

/// What comes back from a salvage is a list as any other: a check passes, trails, inserts and removals are as on a list
/// that was laid with the survivors by single inserts, and the words stay the same on both.
#[test]
fn a_salvaged_list_goes_on() {
    let mut rng = Rng::new(98);
    let mut beside = Beside::new();
    let mut answers: BTreeMap<(bool, u32), u32> = BTreeMap::new();
    for round in 0..1_200 {
        let Some((laid, tabulation, keys)) = fitting_set(&mut rng, round) else { continue };
        let members = random_tiers(&mut rng, &keys);
        let mut words = image_of(&tabulation, laid, &members).expect("they fit with any tiers");
        let most = if round % 600 == 0 { 300 } else { 6 };
        damage(&mut rng, &keys, &mut words, most);
        words[4] = laid[2];
        let (answer, _, mut one) = salvaged(&mut beside, &tabulation, &words);
        if answer != 0 {
            continue;
        }
        let saved = survivors(&tabulation, &words);
        let strangers = strangers_to(&mut rng, &keys);
        let mut two = way_to(&mut rng, &tabulation, laid, &saved, &strangers);
        assert_eq!(one, two, "the survivors are {saved:?}");
        let scratch = random_words(&mut rng, scratch_length(laid[0], laid[1]));
        assert_eq!(beside.check(&tabulation, &one, &scratch), 0);
        let listed: Vec<u32> = saved.iter().map(|(key, _)| *key).take(40).collect();
        trails_of(&mut rng, &mut beside, &tabulation, &one, &listed);
        for _ in 0..12 {
            let known = if listed.is_empty() { &strangers } else { &listed };
            let from = if rng.one_in(2) { known } else { &strangers };
            let key = rng.pick(from);
            let way = if rng.one_in(3) { Remove } else { Insert(random_tier(&mut rng)) };
            let mut counters = Counters::default();
            let told = beside.change(way, &tabulation, &mut one, &scratch, &mut counters, key);
            assert_eq!(told, change(way, &tabulation, &mut two, key), "{way:?} of {key}");
            assert_eq!(one, two, "{way:?} of {key}");
            *answers.entry((way == Remove, told)).or_default() += 1;
        }
    }
    println!("later calls, whether they remove and their answers: {answers:?}");
    for call in [(false, 0), (false, 6), (false, 8), (false, 10), (true, 0), (true, 7)] {
        assert!(answers.get(&call).is_some_and(|times| *times > 50), "{call:?} is rare");
    }
}

/// What a list was laid with, damaged, and written afresh. At another station, with another r and s, or under another
/// tabulation hardly a key is saved of what the right ones save; with these all is as if nobody had touched them.
#[test]
fn headings_that_are_mended() {
    let mut rng = Rng::new(99);
    let mut beside = Beside::new();
    // By what was damaged: the station, r and s, or the tabulation. Keys that are saved, of how many; and refusals.
    let mut saved = [[0; 3]; 3];
    for round in 0..600 {
        let laid: Laid = [64, 8, random_station(&mut rng)];
        let keys = any_keys(&mut rng, 80);
        let Some(sound) = image_of(&HOUSE, laid, &random_tiers(&mut rng, &keys)) else { continue };
        let (mut words, mut book) = (sound.clone(), HOUSE.to_vec());
        match round % 3 {
            0 => words[4] = (laid[2] + 1 + rng.below(255) as u32) % 256,
            // As many words go with 64 and 8 as with these.
            1 if rng.one_in(2) => {
                words[..2].copy_from_slice(&rng.pick(&[[65, 5], [63, 11], [66, 2]]));
            }
            1 => words[rng.below(2)] = rng.next_u32(),
            _ => book = random_tabulation(&mut rng, 65_536),
        }
        let mut target = vec![3; words.len()];
        let scratch = vec![7; scratch_length(66, 11)];
        let (answer, _) = beside.salvage(&book, &words, &mut target, &scratch);
        let saved = &mut saved[round % 3];
        if answer == 0 {
            saved[0] += members_of(&target).len();
            saved[1] += sound[2] as usize;
        } else {
            assert!(answer == 15 || (answer == 2 && round % 3 == 1), "{answer}");
            saved[2] += 1;
        }
        for (at, value) in [(0, laid[0]), (1, laid[1]), (4, laid[2])] {
            words[at] = value;
        }
        assert_eq!(salvaged(&mut beside, &HOUSE, &words), (0, 0, sound));
    }
    println!("saved, of how many, and refused: another station, r and s, book: {saved:?}");
    for [saved, of, refused] in saved {
        assert!(
            saved > 0 && 10 * saved < of && of > 1_000 && refused > 5,
            "{saved} of {of}, {refused}"
        );
    }
}
