//! A quick run of random calls on small boards, on tampered words and with wrong lengths, too: the library and both twins must leave the same in all memory.

use std::collections::{BTreeMap, BTreeSet};

use library::Counters;
use reference::rng::Rng;
use reference::samples::{random_station, random_tabulation, random_tier, random_tiers};

use crate::cases::input_of;
use crate::common::{first_part, laid, Laid, HEADER, PLACE, SLOT, STATION_AT};
use crate::issues::{another_issue, seat_beside};
use crate::partners::{Call, Partner, PARTNERS};

/// How many calls a board gets before the next one is laid.
const CALLS: usize = 100;

/// How many answers each call can give: all of them must come.
const ANSWERS: [usize; 5] = [11, 7, 5, 9, 4];

/// All that a call is lent.
#[derive(Clone, Debug, PartialEq)]
struct Lent {
    tabulation: Vec<u16>,
    words: Vec<u32>,
    scratch: Vec<u32>,
    counters: Counters,
    listed: u32,
    tier: u32,
}

/// A call and its arguments.
#[derive(Debug)]
struct Asked {
    call: Call,
    key: u32,
    tier: u32,
    laid: Laid,
    input: Vec<u32>,
}

/// Makes the call, and gives its answer.
fn ask(partner: &Partner, lent: &mut Lent, asked: &Asked) -> u32 {
    let Lent { tabulation, words, scratch, counters, listed, tier } = lent;
    match asked.call {
        Call::Insert => {
            (partner.insert)(tabulation, words, scratch, counters, asked.key, asked.tier)
        }
        Call::Remove => (partner.remove)(tabulation, words, scratch, counters, asked.key),
        Call::Check => (partner.check)(tabulation, words, scratch),
        Call::BulkLoad => {
            (partner.bulk_load)(tabulation, words, scratch, counters, asked.laid, &asked.input)
        }
        Call::Lookup => (partner.lookup)(tabulation, words, asked.key, listed, tier),
    }
}

/// A dictionary on the way, and the keys that come and go in it.
struct Board {
    tabulation: Vec<u16>,
    words: Vec<u32>,
    keys: Vec<u32>,
}

/// Different keys, at least so many: half of the time of small first parts. Some are issues of one first part.
fn random_issues(rng: &mut Rng, count: usize) -> Vec<u32> {
    let small = rng.one_in(2);
    let mut keys = BTreeSet::new();
    while keys.len() < count {
        let key = if small { 10 + rng.below(2_550) as u32 } else { rng.next_u32().max(10) };
        keys.insert(key);
        if rng.one_in(4) {
            keys.insert(another_issue(key));
        }
    }
    keys.into_iter().collect()
}

/// A board that is filled as far as chance has it. Small boards have many cycles; of 48 keys on the keys are sorted in another way.
fn random_board(rng: &mut Rng) -> Board {
    let r = rng.pick(&[1, 1, 2, 3, 4, 5, 8, 16, 24, 32, 40]);
    let s = rng.pick(&[0, 1, 2, 4, 8, 64]);
    let most = (2 * r + s) as usize;
    let values = rng.pick(&[1, 2, r as usize, 4 * r as usize, 65_536]);
    let tabulation = random_tabulation(rng, values);
    let keys = random_issues(rng, (most + most / 2 + 1).min(200));
    let mut words = library::fresh(r, s, random_station(rng));
    let mut scratch = vec![0; library::scratch_length(r, s)];
    for _ in 0..rng.below(2 * most) {
        let (key, tier) = (rng.pick(&keys), random_tier(rng));
        let mut counters = Counters::default();
        library::insert(&tabulation, &mut words, &mut scratch, &mut counters, key, tier);
    }
    Board { tabulation, words, keys }
}

/// A place in the words at which a slot begins.
fn random_slot(rng: &mut Rng, words: &[u32]) -> usize {
    HEADER + SLOT * rng.below(2 * words[0] as usize)
}

/// Words that look much as they did.
fn tamper(rng: &mut Rng, words: &mut [u32], keys: &[u32]) {
    let (one, two) = (random_slot(rng, words), random_slot(rng, words));
    let stash = HEADER + 2 * SLOT * words[0] as usize;
    match rng.below(11) {
        0 => words[rng.below(words.len() - 2) + 2] = rng.pick(&[0, 1, 7, 8, 9, 10, u32::MAX]),
        1 => words[rng.below(words.len() - 2) + 2] = rng.pick(keys),
        2 => words.copy_within(one..one + SLOT, two),
        3 => (0..SLOT).for_each(|i| words.swap(one + i, two + i)),
        4 => words[one + 2] = rng.below(10) as u32,
        5 if stash < words.len() => {
            let place = stash + PLACE * rng.below(words[1] as usize);
            (0..PLACE).for_each(|i| words.swap(one + 2 * i, place + i));
        }
        6 => words.swap(one, two),
        7 => words[STATION_AT] = rng.pick(&[0, 1, 254, 255, 256, u32::MAX]),
        8 => words[one] = rng.below(10) as u32,
        9 => {
            seat_beside(words, another_issue);
        }
        _ => words[HEADER..stash]
            .chunks_exact_mut(SLOT)
            .filter(|slot| slot[0] == 0)
            .for_each(|slot| slot[0] = rng.pick(keys)),
    }
}

/// What the board lends: now and then something of the wrong length, and often tampered words. True where the words are the board's own.
fn lend(rng: &mut Rng, board: &Board) -> (Lent, bool) {
    let mut tabulation = board.tabulation.clone();
    let mut words = board.words.clone();
    let asked_for = library::scratch_length(words[0], words[1]);
    let length = asked_for + rng.pick(&[0, 1, 3, 11, 12]) - usize::from(rng.one_in(50));
    let own = !rng.one_in(3);
    if !own {
        (0..=rng.below(2)).for_each(|_| tamper(rng, &mut words, &board.keys));
    }
    if rng.one_in(50) {
        tabulation.pop();
    }
    if rng.one_in(50) {
        words.push(0);
    }
    let scratch = (0..length).map(|_| rng.next_u32()).collect();
    let own = own && words.len() == board.words.len();
    let counters = Counters { done: rng.next_u32(), refused: rng.pick(&[0, u32::MAX]) };
    (Lent { tabulation, words, scratch, counters, listed: 77, tier: 78 }, own)
}

/// What a bulk load is given for r, s and station: mostly the sizes of the board, or others of the same length, some of
/// them out of their ranges.
fn random_laid(rng: &mut Rng, words: &[u32]) -> Laid {
    let [r, s, _] = laid(words);
    match rng.below(20) {
        0 => [r + 1, s, 0],
        1 => [r, s, rng.pick(&[256, u32::MAX])],
        2 | 3 => [r - 1, s + 3, random_station(rng)],
        4 | 5 if s > 2 => [r + 1, s - 3, random_station(rng)],
        _ => [r, s, random_station(rng)],
    }
}

/// One thing that is wrong with an input, or that may be.
fn spoil(rng: &mut Rng, input: &mut Vec<u32>) {
    let keys = input.len() / 2;
    let lone = rng.pick(&[0, 9, 10, u32::MAX]);
    if keys == 0 || rng.one_in(5) {
        return input.push(lone);
    }
    let (one, two) = (2 * rng.below(keys), 2 * rng.below(keys));
    match rng.below(4) {
        0 => input[one] = rng.below(11) as u32,
        1 => input[one + 1] = rng.pick(&[7, 8, u32::MAX]),
        2 => input[one] = input[two],
        _ => input.truncate(input.len() - 1),
    }
}

/// The input of a bulk load: some of the keys, ascending, mostly one issue of each first part and with nothing wrong.
fn random_input(rng: &mut Rng, keys: &[u32]) -> Vec<u32> {
    let most = rng.below(keys.len() + 1);
    let mut some: Vec<u32> =
        keys.iter().copied().filter(|_| rng.below(keys.len()) < most).collect();
    if !rng.one_in(10) {
        some.dedup_by_key(|key| first_part(*key));
    }
    let mut input = input_of(&random_tiers(rng, &some));
    if rng.one_in(4) {
        (0..=rng.below(2)).for_each(|_| spoil(rng, &mut input));
    }
    input
}

fn random_call(rng: &mut Rng, board: &Board) -> Asked {
    use Call::*;
    Asked {
        call: rng.pick(&[Insert, Insert, Insert, Remove, Remove, Check, BulkLoad, Lookup]),
        key: if rng.one_in(30) { rng.below(10) as u32 } else { rng.pick(&board.keys) },
        tier: if rng.one_in(30) { 8 } else { random_tier(rng) },
        laid: random_laid(rng, &board.words),
        input: random_input(rng, &board.keys),
    }
}

/// Makes random calls of each partner, at least as many as are asked for, and prints how often each answer came.
pub fn run(calls: usize) {
    let mut rng = Rng::new(2_026);
    let mut seen = BTreeMap::new();
    for _ in 0..calls.div_ceil(CALLS) {
        let mut board = random_board(&mut rng);
        for _ in 0..CALLS {
            let (lent, own) = lend(&mut rng, &board);
            let asked = random_call(&mut rng, &board);
            let [ours, others @ ..] = PARTNERS.each_ref().map(|partner| {
                let mut lent = lent.clone();
                (ask(partner, &mut lent, &asked), lent)
            });
            for (other, partner) in others.iter().zip(&PARTNERS[1..]) {
                assert!(ours == *other, "{} differs: {asked:?} on {lent:?}", partner.name);
            }
            let cleared = asked.call == Call::Lookup || ours.1.scratch.iter().all(|w| *w == 0);
            assert!(cleared, "scratch is not zero: {asked:?} on {lent:?}");
            *seen.entry((asked.call, ours.0)).or_insert(0) += 1;
            if own {
                board.words = ours.1.words;
            }
        }
    }
    let counted: usize = seen.values().sum();
    println!("{counted} random calls: the library and both twins agree.");
    for call in Call::ALL {
        let of_call = seen.iter().filter(|((seen, _), _)| *seen == call);
        let answers: Vec<String> =
            of_call.map(|((_, answer), times)| format!("{answer} × {times}")).collect();
        println!("{}: {}", call.title(), answers.join(", "));
        assert_eq!(
            answers.len(),
            ANSWERS[call as usize],
            "an answer of {} is missing",
            call.name()
        );
    }
}
