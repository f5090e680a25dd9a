//! Bulk loads: of inputs with and without faults over any old words, on small boards and on the largest; beside inserts
//! one by one in several orders, with the calls that come later; of sets that do not fit; and at the edges.

use std::collections::BTreeMap;

use library::beside::{Beside, Kind};
use library::Change::{Insert, Remove};
use library::{bulk_load, change, fresh, scratch_length, words_length, Counters};
use reference::bulk::input;
use reference::house::HOUSE;
use reference::rng::Rng;
use reference::samples::{
    random_issue, random_keys, random_station, random_tabulation, random_tier, random_tiers, tier_0,
};
use reference::set::Member;

use crate::common::{
    any_keys, any_laid, any_tier, even_keys, even_tabulation, fitting_set, image_of,
    narrow_tabulation, random_prices, random_words, spoil, strangers_to, trails_of, way_to, Laid,
};

/// The words before a load: zeros, anything, a list of other keys with other sizes and station, or such a list with a
/// few words changed.
fn old_words(rng: &mut Rng, tabulation: &[u16], length: usize) -> Vec<u32> {
    let mut words = match rng.below(4) {
        0 => return vec![0; length],
        1 => return random_words(rng, length),
        _ => {
            let laid = [1 + rng.below(6) as u32, rng.below(5) as u32, random_station(rng)];
            let keys = random_keys(rng, 3);
            image_of(tabulation, laid, &random_tiers(rng, &keys)).unwrap_or_default()
        }
    };
    words.resize(length, 0);
    for _ in 0..rng.below(4).min(length) {
        let at = rng.below(length);
        words[at] = rng.pick(&[0, 1, 9, 10, 255, u32::MAX, words[at] ^ 1]);
    }
    words
}

/// A tabulation and a scratch for a load: mostly as they must be, now and then too short, or too long.
fn lent(rng: &mut Rng, tabulation: &[u16], [r, s, _]: Laid) -> (Vec<u16>, Vec<u32>) {
    let mut book = tabulation.to_vec();
    if rng.one_in(24) {
        book.resize(rng.pick(&[0, 1, 2_048, 2_559, 2_561, 5_120]), 5);
    }
    let enough = scratch_length(r, s);
    let length = match rng.below(16) {
        0 => rng.below(enough),
        1 => enough + rng.below(9),
        _ => enough,
    };
    (book, random_words(rng, length))
}

/// A load with whatever faults come, over any old words: one of the answers, as the reference gives it.
fn any_load(
    rng: &mut Rng,
    beside: &mut Beside,
    tabulation: &[u16],
    sizes: Laid,
    members: &[Member],
) -> u32 {
    let mut list = input(members);
    if rng.one_in(2) {
        (0..=rng.below(3)).for_each(|_| spoil(rng, &mut list));
    }
    let (book, scratch) = lent(rng, tabulation, sizes);
    let laid = any_laid(rng, sizes);
    // Mostly as many words as go with the sizes of the call, which may be outside their ranges.
    let length = match rng.below(16) {
        0 => rng.below(40),
        1 => words_length(sizes[0], sizes[1]),
        _ => words_length(laid[0].min(1_025), laid[1].min(65)),
    };
    let mut words = old_words(rng, tabulation, length);
    let start = rng.pick(&[0, 5, u32::MAX - 1, u32::MAX]);
    let mut counters = Counters { done: start, refused: start };
    beside.bulk_load(&book, &mut words, &scratch, &mut counters, laid, &list)
}

/// Thousands of loads on small boards, from no key to far more than there is room for.
#[test]
fn loads_on_small_boards() {
    let mut rng = Rng::new(81);
    let mut beside = Beside::new();
    for _ in 0..60_000 {
        let sizes = [1 + rng.below(6) as u32, rng.below(5) as u32, random_station(&mut rng)];
        let tabulation = narrow_tabulation(&mut rng);
        let room = (2 * sizes[0] + sizes[1]) as usize;
        let count = if rng.one_in(8) { 3 * room } else { rng.below(room + 3) };
        let keys = random_keys(&mut rng, count);
        let members = random_tiers(&mut rng, &keys);
        any_load(&mut rng, &mut beside, &tabulation, sizes, &members);
    }
    beside.report(&[Kind::BulkLoad]);
    for answer in [0, 5, 9, 14, 13, 8] {
        assert!(beside.given(Kind::BulkLoad, answer) > 1_000, "{answer} is rare");
    }
}

/// Hundreds of loads at r = 1,024: nearly empty, full to the last place, and with far more keys than there is room for.
#[test]
fn loads_on_the_largest_board() {
    let mut rng = Rng::new(82);
    let mut beside = Beside::new();
    let even = even_tabulation();
    for round in 0..900 {
        let station = random_station(&mut rng);
        let (sizes, tabulation) = match round % 3 {
            0 => ([1_024, 64, station], even.clone()),
            1 => ([1_024, rng.below(65) as u32, station], HOUSE.to_vec()),
            _ => ([1_024, 64, station], random_tabulation(&mut rng, 65_536)),
        };
        let room = (2 * sizes[0] + sizes[1]) as usize;
        let keys = match rng.below(9) {
            0 => even_keys(&mut rng, room),
            1 => even_keys(&mut rng, room + 1),
            2 => any_keys(&mut rng, 4 * room),
            3 => any_keys(&mut rng, 1_503),
            4 => Vec::new(),
            _ => {
                let count = rng.below(1_300);
                any_keys(&mut rng, count)
            }
        };
        let members = random_tiers(&mut rng, &keys);
        any_load(&mut rng, &mut beside, &tabulation, sizes, &members);
    }
    beside.report(&[Kind::BulkLoad]);
    for answer in [0, 5, 9, 14, 13, 8] {
        assert!(beside.given(Kind::BulkLoad, answer) > 20, "{answer} is rare");
    }
}

/// Inputs that are any words, often small ones, of any length, with any sizes.
#[test]
fn loads_of_any_words() {
    let mut rng = Rng::new(83);
    let mut beside = Beside::new();
    let mut counters = Counters::default();
    for _ in 0..40_000 {
        let laid = [rng.below(5) as u32, rng.below(4) as u32, random_station(&mut rng)];
        let length = words_length(laid[0], laid[1]) - usize::from(rng.one_in(30));
        let tabulation = narrow_tabulation(&mut rng);
        let highest = rng.pick(&[12, 40, 200, usize::MAX]);
        let mut list: Vec<u32> = Vec::new();
        for _ in 0..rng.below(12) {
            // Ascending more often than not, and with tiers that are some.
            let last = list.iter().rev().nth(1).copied().unwrap_or(9);
            list.push(match list.len() % 2 {
                1 => any_tier(&mut rng),
                _ if rng.one_in(20) => rng.below(highest) as u32,
                _ => last.saturating_add(rng.below(highest.min(1 << 29)) as u32),
            });
        }
        let mut words = old_words(&mut rng, &tabulation, length);
        let scratch = random_words(&mut rng, scratch_length(laid[0], laid[1]));
        beside.bulk_load(&tabulation, &mut words, &scratch, &mut counters, laid, &list);
    }
    let given = [0, 2, 5, 9, 14, 13, 8].map(|answer| beside.given(Kind::BulkLoad, answer));
    println!("loads of any words, answered 0, 2, 5, 9, 14, 13, 8: {given:?}");
    assert!(given.iter().all(|times| *times > 200));
}

/// One load of the library, with a scratch that is just long enough.
fn loaded(tabulation: &[u16], laid: Laid, members: &[Member], old: Vec<u32>) -> (u32, Vec<u32>) {
    let (mut words, mut scratch) = (old, vec![u32::MAX; scratch_length(laid[0], laid[1])]);
    let mut counters = Counters::default();
    let list = input(members);
    let answer = bulk_load(tabulation, &mut words, &mut scratch, &mut counters, laid, &list);
    (answer, words)
}

/// Inserts one by one into an empty list; those that are refused with 8 are skipped, and counted.
fn inserted(tabulation: &[u16], [r, s, station]: Laid, order: &[Member]) -> (usize, Vec<u32>) {
    let mut words = fresh(r, s, station);
    let mut refused = 0;
    for (key, tier) in order {
        match change(Insert(*tier), tabulation, &mut words, *key) {
            0 => {}
            8 => refused += 1,
            other => panic!("an insert of {key} answered {other}"),
        }
    }
    (refused, words)
}

/// The members in several orders: ascending, descending, and three at random.
fn orders(rng: &mut Rng, members: &[Member]) -> Vec<Vec<Member>> {
    let descending = members.iter().rev().copied().collect();
    let mut orders = vec![members.to_vec(), descending];
    for _ in 0..3 {
        let mut order = members.to_vec();
        rng.shuffle(&mut order);
        orders.push(order);
    }
    orders
}

/// A set that fits, loaded over any old words, has the words that inserts in each order leave. One that does not fit is
/// refused with 8 and leaves the old words, and in each order some insert is refused with 8, of as many keys.
#[test]
fn loads_beside_inserts_in_every_order() {
    let mut rng = Rng::new(84);
    let (mut fit, mut stashed, mut over_full, mut unlike) = (0, 0, 0, 0);
    for round in 0..3_000 {
        let large = round % 600 == 0;
        let (r, s) =
            if large { (1_024, 64) } else { (1 + rng.below(6) as u32, rng.below(4) as u32) };
        let tabulation = if large { HOUSE.to_vec() } else { narrow_tabulation(&mut rng) };
        let laid = [r, s, random_station(&mut rng)];
        let count = if large { 1_400 + round / 10 } else { rng.below((2 * r + s + 3) as usize) };
        let keys = if large { any_keys(&mut rng, count) } else { random_keys(&mut rng, count) };
        let members = random_tiers(&mut rng, &keys);
        let old = old_words(&mut rng, &tabulation, words_length(r, s));
        let (answer, words) = loaded(&tabulation, laid, &members, old.clone());
        let orders = orders(&mut rng, &members);
        let by_one: Vec<(usize, Vec<u32>)> =
            orders.iter().map(|order| inserted(&tabulation, laid, order)).collect();
        assert!(by_one.iter().all(|(refused, _)| *refused == by_one[0].0), "{members:?}");
        if answer == 0 {
            assert!(by_one.iter().all(|one| *one == (0, words.clone())), "{members:?}");
            fit += 1;
            stashed += words[3];
        } else {
            assert_eq!((answer, &words), (8, &old), "{members:?}");
            assert!(by_one[0].0 > 0, "{members:?} fit one by one");
            over_full += 1;
            unlike += usize::from(by_one.iter().any(|one| *one != by_one[0]));
        }
    }
    println!("{fit} sets that fit, with {stashed} keys stashed; {over_full} that do not");
    println!("{unlike} of these with other keys listed in another order");
    assert!(fit > 1_000 && stashed > 500 && over_full > 500 && unlike > 500);
}

/// Of keys that do not all fit every order lists as many as the largest choice of them that a bulk load takes; and a
/// choice that it takes stays one that it takes when a key is left out.
#[test]
fn over_full_sets() {
    let mut rng = Rng::new(85);
    let (mut sets, mut refused) = (0, 0);
    for _ in 0..400 {
        let laid = [1 + rng.below(3) as u32, rng.below(3) as u32, random_station(&mut rng)];
        let [r, s, _] = laid;
        let tabulation = narrow_tabulation(&mut rng);
        let count = (2 * r + s) as usize + 1 + rng.below(2);
        let keys = random_keys(&mut rng, count);
        let members = random_tiers(&mut rng, &keys);
        let is_taken = |choice: u32| {
            let chosen = members.iter().enumerate().filter(|(at, _)| choice >> at & 1 == 1);
            let chosen: Vec<Member> = chosen.map(|(_, member)| *member).collect();
            loaded(&tabulation, laid, &chosen, vec![7; words_length(r, s)]).0 == 0
        };
        let taken: Vec<bool> = (0..1 << count).map(is_taken).collect();
        let choices = (0..1_u32 << count).filter(|choice| taken[*choice as usize]);
        let largest = choices.clone().map(u32::count_ones).max().unwrap_or_default() as usize;
        for choice in choices {
            let less = (0..count).map(|at| choice & !(1 << at));
            assert!(less.into_iter().all(|less| taken[less as usize]), "{choice:b}, {members:?}");
        }
        for order in orders(&mut rng, &members) {
            let (skipped, words) = inserted(&tabulation, laid, &order);
            assert_eq!(words[2] as usize, largest, "{order:?}");
            assert_eq!(skipped, count - largest, "{order:?}");
            refused += skipped;
        }
        sets += 1;
    }
    println!("{sets} sets, {refused} inserts refused with 8");
    assert!(sets == 400 && refused > 2_000);
}

/// Two histories of one set, a bulk load over any old words, and inserts, removals and refused calls: the same words,
/// the same trails and sales, and every later call answers the same and leaves the same words. A refused load between
/// them leaves the words as they are.
#[test]
fn a_load_beside_another_history() {
    let mut rng = Rng::new(86);
    let mut beside = Beside::new();
    let mut answers: BTreeMap<(&str, u32), u32> = BTreeMap::new();
    for round in 0..1_500 {
        let Some((laid, tabulation, keys)) = fitting_set(&mut rng, round) else { continue };
        let [r, s, _] = laid;
        let members = random_tiers(&mut rng, &keys);
        let strangers = strangers_to(&mut rng, &keys);
        let old = old_words(&mut rng, &tabulation, words_length(r, s));
        let (answer, mut one) = loaded(&tabulation, laid, &members, old);
        let mut two = way_to(&mut rng, &tabulation, laid, &members, &strangers);
        assert_eq!((answer, &one), (0, &two), "two histories of {members:?}");
        let mut trails =
            |words: &[u32]| trails_of(&mut rng, &mut beside, &tabulation, words, &keys);
        assert_eq!(trails(&one), trails(&two), "trails after two histories of {members:?}");
        for _ in 0..12 {
            let key = if rng.one_in(2) { rng.pick(&keys) } else { rng.pick(&strangers) };
            let key = if rng.one_in(4) { random_issue(&mut rng, key) } else { key };
            let (tier, kind) = (any_tier(&mut rng), rng.below(4));
            let (base, steps) = random_prices(&mut rng);
            let mut list = input(&random_tiers(&mut rng, &keys));
            spoil(&mut rng, &mut list);
            let mut call = |words: &mut Vec<u32>| {
                let (scratch, mut counters) = (vec![3; scratch_length(r, s)], Counters::default());
                match kind {
                    0 => {
                        let way = Insert(tier);
                        let counters = &mut counters;
                        let answer =
                            beside.change(way, &tabulation, words, &scratch, counters, key);
                        ("insert", answer, None)
                    }
                    1 => {
                        let counters = &mut counters;
                        let answer =
                            beside.change(Remove, &tabulation, words, &scratch, counters, key);
                        ("remove", answer, None)
                    }
                    2 => {
                        let (answer, sale) = beside.open(&tabulation, words, key, base, &steps);
                        ("sale", answer, sale.map(|sale| sale.price))
                    }
                    _ => {
                        let (before, counters) = (words.clone(), &mut counters);
                        #[rustfmt::skip]
                        let answer = beside.bulk_load(
                            &tabulation, words, &scratch, counters, laid, &list,
                        );
                        assert!(answer == 0 || *words == before, "a refused load changes words");
                        ("load", answer, None)
                    }
                }
            };
            let told = call(&mut one);
            assert_eq!(told, call(&mut two), "after two histories of {members:?}");
            assert_eq!(one, two, "after two histories of {members:?}");
            *answers.entry((told.0, told.1)).or_default() += 1;
        }
    }
    println!("later calls and their answers: {answers:?}");
    for call in
        [("insert", 0), ("insert", 8), ("remove", 0), ("sale", 0), ("load", 0), ("load", 14)]
    {
        assert!(answers.get(&call).is_some_and(|times| *times > 50), "{call:?} is rare");
    }
}

/// Old words of every kind: the same load gives the same words over each of them, and refused leaves each as it was.
#[test]
fn old_words_have_no_say() {
    let mut rng = Rng::new(87);
    let mut times = [0; 2];
    for round in 0..400 {
        let Some((laid, tabulation, keys)) = fitting_set(&mut rng, 1 + round) else { continue };
        let [r, s, station] = laid;
        let members = random_tiers(&mut rng, &keys);
        let mut too_many = even_keys(&mut rng, (2 * r + s) as usize);
        too_many.push(u32::MAX);
        let image = image_of(&tabulation, laid, &members).expect("they fit with any tiers");
        for _ in 0..12 {
            let mut old = old_words(&mut rng, &tabulation, words_length(r, s));
            if rng.one_in(3) {
                old = image.clone();
                let at = rng.below(old.len());
                old[at] = old[at].wrapping_add(rng.pick(&[1, 9, 256, u32::MAX]));
            }
            if rng.one_in(3) {
                old[..5].copy_from_slice(&[r, s, u32::MAX, u32::MAX, station]);
            }
            assert_eq!(loaded(&tabulation, laid, &members, old.clone()), (0, image.clone()));
            let refused = loaded(&tabulation, laid, &tier_0(&too_many), old.clone());
            assert_eq!(refused, (8, old), "{} keys", too_many.len());
            times = [times[0] + 1, times[1] + usize::from(!members.is_empty())];
        }
    }
    println!("{} loads over old words, {} of them of some key", times[0], times[1]);
    assert!(times[1] > 2_000);
}

/// The edges, by hand: no key; lone words; the least sizes; the least and the largest key and tier; exactly as many
/// keys as there is room for, and one more; far more keys; a target that is a word too short or too long, or as long as
/// goes with other sizes.
#[test]
fn edges_of_loads() {
    let mut beside = Beside::new();
    let mut counters = Counters::default();
    let mut load = |laid: Laid, length: usize, list: &[u32]| {
        let (mut words, scratch) = (vec![77; length], vec![5; scratch_length(laid[0], laid[1])]);
        let answer = beside.bulk_load(&HOUSE, &mut words, &scratch, &mut counters, laid, list);
        assert!(answer == 0 || words == vec![77; length], "refused, the words stay");
        (answer, words)
    };
    for laid in [[1, 0, 0], [1, 64, 255], [1_024, 0, 17], [1_024, 64, 255]] {
        let [r, s, station] = laid;
        let length = words_length(r, s);
        let (answer, words) = load(laid, length, &[]);
        assert_eq!((answer, words), (0, fresh(r, s, station)), "no key, {laid:?}");
        for (list, answer) in [
            (&[0][..], 5),
            (&[9], 5),
            (&[10], 14),
            (&[u32::MAX], 14),
            (&[10, 0], 0),
            (&[10, 7], 0),
            (&[10, 8], 9),
            (&[u32::MAX, 7], 0),
            (&[u32::MAX, u32::MAX], 9),
            (&[10, 0, 9], 5),
            (&[10, 8, 9], 5),
            (&[10, 8, 20], 9),
            (&[10, 0, 20], 14),
            (&[10, 0, 10, 0], 14),
            (&[10, 0, 10, 1], 14),
            (&[20, 0, 10, 0], 14),
            (&[19, 0, 10, 0], 14),
            (&[10, 0, 19, 0], 13),
            (&[10, 0, 11, 0], 13),
            (&[19, 0, 20, 0], 0),
            (&[10, 7, u32::MAX, 0], 0),
            (&[4_294_967_290, 0, u32::MAX, 0], 13),
            (&[4_294_967_289, 0, 4_294_967_290, 0], 0),
        ] {
            assert_eq!(load(laid, length, list).0, answer, "{list:?} as {laid:?}");
        }
        for wrong in [length - 1, length + 1, 0, 4, 5] {
            assert_eq!(load(laid, wrong, &[10, 0]).0, 2, "{wrong} words for {laid:?}");
        }
    }
    // One slot in each table: all keys have both, so that two sit and s more are stashed.
    for s in [0, 1, 64] {
        let length = words_length(1, s);
        for count in [s + 1, s + 2] {
            let (answer, words) = load(
                [1, s, 3],
                length,
                &(1..=count).flat_map(|i| [10 * i, i % 8]).collect::<Vec<_>>(),
            );
            assert_eq!((answer, words[2], words[3]), (0, count, count.saturating_sub(2)));
        }
        for count in [s + 3, s + 4, 5_000, 100_000] {
            let list: Vec<u32> = (1..=count).flat_map(|i| [10 * i, i % 8]).collect();
            assert_eq!(load([1, s, 3], length, &list).0, 8, "{count} keys, s = {s}");
        }
    }
    // 17 words go with r = 2 and s = 0, and with r = 1 and s = 3.
    assert_eq!([(2, 0), (1, 3)].map(|(r, s)| words_length(r, s)), [17, 17]);
    assert_eq!(load([2, 0, 9], 17, &[10, 1]).1[..5], [2, 0, 1, 0, 9]);
    assert_eq!(load([1, 3, 9], 17, &[10, 1]).1[..5], [1, 3, 1, 0, 9]);
    assert_eq!(load([2, 1, 9], 17, &[10, 1]).0, 2);
    assert_eq!(counters.done + counters.refused, beside.calls() as u32);
}

/// Exactly 2r + s keys that fit at the largest size, and one more, which does not.
#[test]
fn full_to_the_last_place() {
    let mut rng = Rng::new(88);
    let mut beside = Beside::new();
    let mut counters = Counters::default();
    let tabulation = even_tabulation();
    for s in [0, 1, 63, 64] {
        let laid = [1_024, s, random_station(&mut rng)];
        let count = 2_048 + s as usize;
        let mut keys = even_keys(&mut rng, count + 1);
        let scratch = random_words(&mut rng, scratch_length(1_024, s));
        let old = random_words(&mut rng, words_length(1_024, s));
        let mut words = old.clone();
        let mut load = |words: &mut Vec<u32>, keys: &[u32]| {
            let list: Vec<u32> = keys.iter().flat_map(|key| [*key, key % 8]).collect();
            beside.bulk_load(&tabulation, words, &scratch, &mut counters, laid, &list)
        };
        assert_eq!(load(&mut words, &keys), 8);
        assert_eq!(words, old);
        let more = keys.pop().expect("one more");
        assert_eq!(load(&mut words, &keys), 0);
        assert_eq!(words[..5], [1_024, s, count as u32, s, laid[2]]);
        assert_eq!(change(Insert(random_tier(&mut rng)), &tabulation, &mut words, more), 8);
        let before = words.clone();
        let last = keys.pop().expect("some key");
        assert_eq!(change(Remove, &tabulation, &mut words, last), 0);
        assert_eq!(change(Insert(last % 8), &tabulation, &mut words, last), 0);
        assert_eq!(words, before);
        assert_eq!(load(&mut words, &any_keys(&mut rng, 9 * count)), 8);
        assert_eq!(words, before);
    }
}
