//! Request Seven, head office sends the whole list: the input's refusals by hand and at every
//! position, lone last words, inputs of any length, the target's old words, the scratch and the
//! counters; the request's rule against the image, against inserts in many orders and against
//! placements; what fits where not all fit; and the reference model after a bulk load.

use std::collections::BTreeSet;
use std::ops::Range;

use reference::answer::{number, Answer, Found, Refusal};
use reference::bulk::{bulk_load, finished_components, input, members, Component};
use reference::calls::{init, lookup};
use reference::counters::Counters;
use reference::fast::Fast;
use reference::graph::{components, edges, Edge};
use reference::house::HOUSE;
use reference::image::{canonical_stash, split_stash, Engine, Slow};
use reference::model::{Call, Model, Reply};
use reference::placement::placement;
use reference::rng::Rng;
use reference::samples::{
    random_issue, random_keys, random_station, random_tabulation, random_tier, random_tiers,
    test_tabulation, tier_0,
};
use reference::set::{Member, Set};

use crate::common::{
    engines, hand_words, other_issues, permutations, same_first_part, subset, HandEntry, Harness,
    Tally,
};
use crate::placements::placeable;

/// The words that a bulk load leaves, or its refusal: the same from both engines, on words that
/// held something else. The harness looks at words, scratch and counters.
fn load(
    tabulation: &[u16],
    r: u32,
    s: u32,
    station: u32,
    input: &[u32],
) -> Result<Vec<u32>, Refusal> {
    let [slow, fast] = engines().map(|(_, engine)| {
        let mut list = Harness::new(engine, tabulation, r, s, station);
        list.words.fill(1_234_567);
        list.scratch_len += 3;
        list.bulk_load(r, s, station, input).map(|()| list.words)
    });
    assert_eq!(slow, fast, "r {r}, s {s}, station {station}");
    slow
}

/// The answer's number on the test board with r = 4, s = 1 and station 9.
fn answer_on_board(input: &[u32]) -> u32 {
    number(load(&test_tabulation(), 4, 1, 9, input).map(|_| ()))
}

/// Members on the test board that fill its stash; another key with the same places is too many.
const K5: [Member; 3] = [(15, 3), (650, 0), (1_299, 6)];

/// Members that do not fit on the test board with s = 1, though there are slots for more keys.
const K6: [Member; 4] = [(15, 3), (650, 0), (1_299, 6), (1_930, 1)];

#[test]
fn a_list_written_out_by_hand() {
    // The program's case of document 01, with every key multiplied by ten, tiers and a station.
    let given = [10, 3, 330, 0, 650, 7];
    assert_eq!(members(&given), Ok(vec![(10, 3), (330, 0), (650, 7)]));
    assert_eq!(input(&[(10, 3), (330, 0), (650, 7)]), given);
    let words = [2, 1, 3, 1, 200, 0, 0, 0, 10, 330, 3, 330, 10, 0, 0, 0, 0, 650, 7];
    assert_eq!(load(&test_tabulation(), 2, 1, 200, &given), Ok(words.to_vec()));
    // The largest key, and the smallest.
    let entries = [(0, 1, u32::MAX, u32::MAX, 7), (1, 1, u32::MAX, u32::MAX, 7)];
    let words = hand_words(4, 0, 0, 1, &entries, &[]);
    assert_eq!(load(&test_tabulation(), 4, 0, 0, &[u32::MAX, 7]), Ok(words));
    let words = hand_words(4, 0, 0, 1, &[(0, 1, 10, 10, 0), (1, 0, 10, 10, 0)], &[]);
    assert_eq!(load(&test_tabulation(), 4, 0, 0, &[10, 0]), Ok(words));
}

/// An input without a key lays what init lays.
#[test]
fn an_empty_input_is_accepted() {
    assert_eq!(members(&[]), Ok(vec![]));
    for (r, s, station) in [(1, 0, 0), (1, 1, 200), (4, 1, 0), (3, 7, 255), (1_024, 64, 9)] {
        let words = load(&HOUSE, r, s, station, &[]);
        assert_eq!(words, Ok(hand_words(r, s, station, 0, &[], &[])));
        let mut laid = vec![8; (5 + 6 * r + 2 * s) as usize];
        assert_eq!(init(r, s, station, &mut laid, &mut Counters::default()), Ok(()));
        assert_eq!(words, Ok(laid));
    }
}

/// Request Seven: "a lone last word being a card" and "14 (odd number of words [..])". It is never
/// tried as a tier: 8 and 9 are blank keys, and larger numbers are no tiers above 7.
#[test]
fn a_lone_last_word_is_a_key() {
    for before in [&[][..], &[20, 7], &[20, 0, 170, 1, 650, 2]] {
        for blank in 0..10 {
            assert_eq!(answer_on_board(&[before, &[blank]].concat()), 5, "{before:?}, {blank}");
        }
        for lone in [10, 11, 19, 20, 29, 170, 171, 650, 655, 660, 4_000, 1 << 31, u32::MAX] {
            assert_eq!(answer_on_board(&[before, &[lone]].concat()), 14, "{before:?}, {lone}");
        }
        assert_eq!(answer_on_board(before), 0, "without a lone word");
    }
    let k6 = input(&K6);
    for (before, alone, why) in [
        (&[9, 0][..], 5, "a blank key before it"),
        (&[20, 7, 0, 1], 5, "a blank key that does not rise before it"),
        (&[20, 8], 9, "a tier above 7 before it"),
        (&[20, 7, 170, u32::MAX], 9, "a tier above 7 right before it"),
        (&[20, 7, 21, 7], 13, "two issues before it"),
        (&[170, 0, 20, 0], 14, "keys that do not rise before it"),
        (&k6, 8, "too many keys before it"),
    ] {
        assert_eq!(answer_on_board(before), alone, "{why}, alone");
        for lone in [10, 655, 1_931, 5_000, u32::MAX] {
            let first = if alone == 5 || alone == 9 { alone } else { 14 };
            assert_eq!(answer_on_board(&[before, &[lone]].concat()), first, "{why}, {lone}");
        }
        for blank in 0..10 {
            assert_eq!(answer_on_board(&[before, &[blank]].concat()), 5, "{why}, {blank}");
        }
    }
}

/// Request Seven: "14 ([..] cards not strictly rising)"; equal neighbours are not 6 or 10.
#[test]
fn keys_that_do_not_rise_strictly_are_14() {
    let keys = [20, 35, 170, 650, u32::MAX];
    let rising: Vec<Member> = keys.into_iter().zip([0, 7, 3, 3, 1]).collect();
    assert_eq!(answer_on_board(&input(&rising)), 0);
    for at in 0..keys.len() {
        for tier in 0..8 {
            let mut equal = rising.clone();
            equal.insert(at, (keys[at], tier));
            assert_eq!(answer_on_board(&input(&equal)), 14, "equal neighbours, {equal:?}");
        }
        for to in 0..keys.len() {
            let mut swapped = rising.clone();
            swapped.swap(at, to);
            let answer = if at == to { 0 } else { 14 };
            assert_eq!(answer_on_board(&input(&swapped)), answer, "{swapped:?}");
            // Once more further on, or further back, with others between.
            let mut again = rising.clone();
            again.insert(to, rising[at]);
            assert_eq!(answer_on_board(&input(&again)), 14, "{again:?}");
        }
    }
    for (descending, why) in [
        (&[30, 0, 29, 0][..], "by one"),
        (&[29, 0, 20, 0], "to another issue"),
        (&[21, 0, 20, 0], "to another issue, by one"),
        (&[u32::MAX, 0, u32::MAX - 1, 0], "from the largest key"),
        (&[1 << 31, 0, (1 << 31) - 10, 0], "over the middle of the numbers"),
        (&[20, 0, u32::MAX, 0, 10, 0], "round the end"),
        (&[10, 0, 10, 0], "not at all"),
        (&[u32::MAX, 5, u32::MAX, 5], "not at all, at the end"),
    ] {
        assert_eq!(answer_on_board(descending), 14, "{why}");
    }
}

/// Request Seven: "13 (between input cards)". Of two issues the smaller stands first, or it is 14.
#[test]
fn two_issues_in_the_input_are_13() {
    for key in [20, 175, 4_294_967_290] {
        let issues: Vec<u32> = [vec![key], other_issues(key)].concat();
        for &one in &issues {
            for &two in &issues {
                let answer = if one < two { 13 } else { 14 };
                for tier in [0, 5] {
                    assert_eq!(answer_on_board(&[one, 5, two, tier]), answer, "{one}, {two}");
                }
            }
        }
    }
    // At every position, with one issue more or with all.
    let rising = [(20, 0), (35, 7), (170, 3), (650, 3), (u32::MAX - 5, 1)];
    for (key, tier) in rising {
        for issue in other_issues(key) {
            let mut more = [&rising[..], &[(issue, tier)]].concat();
            more.sort_unstable();
            assert_eq!(answer_on_board(&input(&more)), 13, "{more:?}");
            more.rotate_left(1);
            assert_eq!(answer_on_board(&input(&more)), 14, "14 before 13, {more:?}");
        }
        let mut all = [&rising[..], &tier_0(&other_issues(key))].concat();
        all.sort_unstable();
        assert_eq!(answer_on_board(&input(&all)), 13, "{all:?}");
    }
    let crowded = [&K6[..], &[(1_939, 0)]].concat();
    assert_eq!(answer_on_board(&input(&crowded)), 13, "13 before 8");
    // Numbers that follow one another, with two first parts.
    for key in [20, 100, 2_560, 4_294_967_290] {
        assert_eq!(answer_on_board(&[key - 1, 0, key, 0]), 0, "{key}");
    }
}

/// The positions in an input of eight members at which a defect can stand: 14 and 13 need a member
/// before.
fn positions(defect: u32) -> Range<usize> {
    usize::from(defect == 14 || defect == 13)..8
}

/// Brings a defect into an input, at the position of one of its members.
fn spoil(input: &mut [u32], defect: u32, at: usize) {
    match defect {
        5 => input[2 * at] = at as u32 + 1,
        9 => input[2 * at + 1] = at as u32 + 8,
        14 => input[2 * at] = input[2 * at - 2] - at as u32 % 2,
        13 => input[2 * at] = input[2 * at - 2] + 1 + at as u32 % 2,
        _ => unreachable!("no defect of an input"),
    }
}

/// Request Seven: "5, 9, 14 and 13 [..], each over the whole input [..]; then 8". Each of two
/// defects stands at every position, before and after the other; all keys fit, or one is too many.
#[test]
fn each_refusal_is_tried_over_the_whole_input() {
    const ORDER: [u32; 4] = [5, 9, 14, 13];
    let rising: Vec<Member> = (1..=8).map(|i| (100 * i, i - 1)).collect();
    let zeros = vec![0; 2_560];
    let mut tally = Tally::default();
    for (s, unspoilt) in [(6, 0), (5, 8)] {
        let answer = |input: &[u32]| number(load(&zeros, 1, s, 0, input).map(|_| ()));
        assert_eq!(answer(&input(&rising)), unspoilt);
        for (rank, first) in ORDER.into_iter().enumerate() {
            for first_at in positions(first) {
                let mut spoilt = input(&rising);
                spoil(&mut spoilt, first, first_at);
                assert_eq!(answer(&spoilt), first, "{spoilt:?}");
                for &second in &ORDER[rank + 1..] {
                    // So far apart that neither undoes the other.
                    for second_at in positions(second).filter(|at| at.abs_diff(first_at) > 1) {
                        let mut both = spoilt.clone();
                        spoil(&mut both, second, second_at);
                        assert_eq!(answer(&both), first, "{both:?}");
                        tally.add(format!("{first} and {second}"));
                    }
                }
            }
        }
    }
    let pairs = ["5 and 9", "5 and 14", "5 and 13", "9 and 14", "9 and 13", "14 and 13"];
    tally.report("pairs of defects", &pairs);
}

/// Keys with the first parts 1 to `count`, each with a tier.
fn counted_members(count: u32) -> Vec<Member> {
    (1..=count).map(|first| (10 * first + first % 7, first % 8)).collect()
}

/// More than 2r + s keys never fit, and fewer need not fit either.
#[test]
fn too_many_keys_are_8_at_any_length() {
    // All keys have the first slot of each table, so that 2 + s keys fit.
    let zeros = vec![0; 2_560];
    for (r, s) in [(1, 0), (1, 1), (1, 5), (4, 1), (3, 0), (2, 64)] {
        for count in 0..=2 * r + s + 2 {
            let loaded = load(&zeros, r, s, 3, &input(&counted_members(count)));
            let expected = if count <= 2 + s { Ok(count) } else { Err(Refusal::FullStash) };
            assert_eq!(loaded.map(|words| words[2]), expected, "r {r}, s {s}, {count}");
        }
        for count in [200, 2_113, 40_000] {
            let loaded = load(&zeros, r, s, 3, &input(&counted_members(count)));
            assert_eq!(loaded, Err(Refusal::FullStash), "r {r}, s {s}, {count}");
        }
    }
    let mut largest = Harness::new(&Fast, &HOUSE, 1_024, 64, 3);
    for count in [2_113, 20_000, 200_000] {
        let answer = largest.bulk_load(1_024, 64, 3, &input(&counted_members(count)));
        assert_eq!(answer, Err(Refusal::FullStash), "{count}");
    }
    assert_eq!(answer_on_board(&input(&K5)), 0);
    assert_eq!(answer_on_board(&input(&K6)), 8, "four keys for eight slots");
}

/// The other refusals go before 8 however far back in the input they are due.
#[test]
fn the_end_of_a_long_input_is_tried_before_8() {
    let long = input(&counted_members(20_000));
    let last = long.len() - 2;
    assert_eq!(answer_on_board(&long), 8);
    for (at, word, answer) in [
        (last, 9, 5),
        (last, 0, 5),
        (last + 1, 8, 9),
        (last, long[last - 2], 14),
        (last, long[last - 2] - 1, 14),
        (last, long[last - 2] + 1, 13),
    ] {
        let mut spoilt = long.clone();
        spoilt[at] = word;
        assert_eq!(answer_on_board(&spoilt), answer, "{word} at {at}");
    }
    for (lone, answer) in [(0, 5), (9, 5), (10, 14), (300_000, 14), (u32::MAX, 14)] {
        assert_eq!(answer_on_board(&[&long[..], &[lone]].concat()), answer, "{lone}");
    }
}

/// A tabulation under which first part v, below 65,536, has both hashes v/2 rounded down.
fn paired_tabulation() -> Vec<u16> {
    let mut tabulation = vec![0; 2_560];
    for byte in 0..256 {
        for half in [0, 1_280] {
            tabulation[half + byte] = byte as u16 / 2;
            tabulation[half + 256 + byte] = 128 * byte as u16;
        }
    }
    tabulation
}

/// The largest lists and the fullest: 2r + s keys, in every slot and every stash place.
#[test]
fn every_slot_and_every_place_is_filled() {
    let tabulation = paired_tabulation();
    let member = |first: u32| (10 * first + first % 10, first % 8);
    for (r, s) in [(1, 0), (1, 64), (2, 3), (3, 2), (1_024, 64)] {
        // Of the first parts 2k and 2k + 1 the smaller key sits in table 0, the larger in table 1.
        let entries = |k: u32| {
            let ((small, small_tier), (large, large_tier)) = (member(2 * k), member(2 * k + 1));
            let index = (k % r) as usize;
            let entries: [HandEntry; 2] =
                [(0, index, small, large, small_tier), (1, index, large, small, large_tier)];
            entries
        };
        let entries: Vec<HandEntry> = (1..=r).flat_map(entries).collect();
        let stash: Vec<Member> = (2 * r + 2..2 * r + 2 + s).map(member).collect();
        let all: Vec<Member> = (2..2 * r + 2 + s).map(member).collect();
        let words = hand_words(r, s, 77, 2 * r + s, &entries, &stash);
        assert_eq!(load(&tabulation, r, s, 77, &input(&all)), Ok(words), "r {r}, s {s}");
        let one_more = [&all[..], &[member(2 * r + 2 + s)]].concat();
        let loaded = load(&tabulation, r, s, 77, &input(&one_more));
        assert_eq!(loaded, Err(Refusal::FullStash), "r {r}, s {s}");
    }
}

/// Old words for a target of this shape: of all kinds, and of lists with the same keys.
fn old_words(
    tabulation: &[u16],
    (r, s, station): (u32, u32, u32),
    members: &[Member],
    rng: &mut Rng,
) -> Vec<Vec<u32>> {
    let len = (5 + 6 * r + 2 * s) as usize;
    let mut old = vec![vec![0; len], vec![u32::MAX; len], vec![10; len]];
    old.push((0..len).map(|_| rng.next_u32()).collect());
    old.push(hand_words(r, s, (station + 1) % 256, 0, &[], &[]));
    let issues: Vec<Member> =
        members.iter().map(|&(key, tier)| (random_issue(rng, key), tier)).collect();
    let tiers: Vec<Member> = members.iter().map(|&(key, _)| (key, random_tier(rng))).collect();
    let more = [members, &[(u32::MAX, 7)]].concat();
    for set in [members, &issues, &tiers, &more, &members[members.len() / 2..]] {
        for station in [station, rng.below(256) as u32] {
            old.extend(Fast.image(tabulation, r, s, station, set));
        }
    }
    // The same without its header, and each with a word that does not belong there.
    for words in old.clone() {
        let mut damaged = words.clone();
        damaged[rng.below(len)] = rng.next_u32();
        old.push(damaged);
        let mut headless = words;
        headless[..5].fill(9_999);
        old.push(headless);
    }
    old
}

/// As for init, the target's old words are not read: not its header, not its keys, not whether they
/// were an image.
#[test]
fn old_words_have_no_say() {
    let mut rng = Rng::new(151);
    let mut tally = Tally::default();
    for _ in 0..150 {
        let shape = (1 + rng.below(3) as u32, rng.below(3) as u32, random_station(&mut rng));
        let (r, s, station) = shape;
        let (tabulation, count) = (random_tabulation(&mut rng, 5), rng.below(6));
        let keys = random_keys(&mut rng, count);
        let members = random_tiers(&mut rng, &keys);
        let expected = load(&tabulation, r, s, station, &input(&members));
        for old in old_words(&tabulation, shape, &members, &mut rng) {
            for (name, engine) in engines() {
                let mut list = Harness::new(engine, &tabulation, r, s, station);
                list.words = old.clone();
                let answer = list.bulk_load(r, s, station, &input(&members));
                let loaded = answer.map(|()| list.words);
                assert_eq!(loaded, expected, "{name}, {members:?} over {old:?}");
                tally.add(format!("bulk load {}", number(answer)));
            }
        }
    }
    tally.report("old words", &["bulk load 0", "bulk load 8"]);
}

/// All that a bulk load on the test board borrows and is given, but for its words.
struct Given {
    tabulation_len: usize,
    scratch_len: usize,
    numbers: (u32, u32, u32),
    input: Vec<u32>,
}

/// One bulk load for each answer that there is, and for the lengths of the scratch.
fn givens() -> Vec<(u32, Given)> {
    let given = |members: &[Member]| Given {
        tabulation_len: 2_560,
        scratch_len: 56,
        numbers: (4, 1, 0),
        input: input(members),
    };
    vec![
        (0, given(&K5)),
        (0, given(&[])),
        (0, Given { scratch_len: 57, ..given(&K5) }),
        (0, Given { scratch_len: 1_000, ..given(&K5) }),
        (1, Given { tabulation_len: 2_559, ..given(&K5) }),
        (1, Given { tabulation_len: 0, scratch_len: 0, ..given(&[]) }),
        (2, Given { numbers: (3, 1, 0), ..given(&K5) }),
        (2, Given { numbers: (4, 1, 256), scratch_len: 1_000, ..given(&K5) }),
        (2, Given { numbers: (4, 65, 0), scratch_len: 0, ..given(&K5) }),
        (3, Given { scratch_len: 55, ..given(&K5) }),
        (3, Given { scratch_len: 1, ..given(&K5) }),
        (3, Given { scratch_len: 0, ..given(&[]) }),
        (5, given(&[(9, 0)])),
        (5, Given { scratch_len: 1_000, ..given(&[(0, 0)]) }),
        (9, given(&[(10, 8)])),
        (14, given(&[(10, 0), (10, 0)])),
        (14, Given { input: vec![10], ..given(&[]) }),
        (13, given(&[(10, 0), (11, 0)])),
        (8, given(&K6)),
        (8, Given { scratch_len: 1_000, ..given(&K6) }),
    ]
}

/// Makes a bulk load with a scratch of random words; returns what it left. No engine can write to
/// the input: it is borrowed to be read.
fn load_given(
    engine: &dyn Engine,
    given: &Given,
    words: &[u32],
    counters: Counters,
    rng: &mut Rng,
) -> (Answer, Vec<u32>, Vec<u32>, Counters) {
    let mut tabulation = test_tabulation();
    tabulation.truncate(given.tabulation_len);
    let (mut words, mut counters) = (words.to_vec(), counters);
    let mut scratch: Vec<u32> = (0..given.scratch_len).map(|_| rng.next_u32()).collect();
    let (r, s, station) = given.numbers;
    let answer = bulk_load(
        &engine,
        &tabulation,
        &mut words,
        &mut scratch,
        &mut counters,
        r,
        s,
        station,
        &given.input,
    );
    (answer, words, scratch, counters)
}

/// The scratch's content has no effect and it is zero over its full length afterwards, whatever the
/// answer; a refusal leaves the words.
#[test]
fn the_scratch_ends_as_zeros_and_a_refusal_leaves_the_words() {
    let mut rng = Rng::new(152);
    let (before, nothing) = (vec![4_321; 31], hand_words(4, 1, 0, 0, &[], &[]));
    let entries = [(0, 1, 15, 650, 3), (1, 0, 650, 15, 0)];
    let k5 = hand_words(4, 1, 0, 3, &entries, &[(1_299, 6)]);
    for (_, engine) in engines() {
        for (expected, given) in givens() {
            for _ in 0..3 {
                let (answer, words, scratch, _) =
                    load_given(engine, &given, &before, Counters::default(), &mut rng);
                assert_eq!(number(answer), expected);
                assert_eq!(scratch, vec![0; given.scratch_len], "after {expected}");
                let accepted = if given.input.is_empty() { &nothing } else { &k5 };
                assert_eq!(&words, if expected == 0 { accepted } else { &before });
            }
        }
    }
}

/// Request Seven: "It moves the meter as lay does."
#[test]
fn counters_move_as_for_init() {
    const MAX: u32 = u32::MAX;
    let mut rng = Rng::new(153);
    let words = vec![0; 31];
    for (_, engine) in engines() {
        for (done, refused) in [(0, 0), (7, 90), (MAX, MAX), (MAX - 1, MAX - 1), (MAX, 3), (3, MAX)]
        {
            let start = Counters { done, refused };
            let one_done = Counters { done: done.saturating_add(1), refused };
            let one_refused = Counters { done, refused: refused.saturating_add(1) };
            let mut init_counters = start;
            assert_eq!(init(4, 1, 0, &mut words.clone(), &mut init_counters), Ok(()));
            assert_eq!(init_counters, one_done);
            for (expected, given) in givens() {
                let (answer, _, _, counters) = load_given(engine, &given, &words, start, &mut rng);
                assert_eq!(number(answer), expected);
                let moved = if expected == 0 { one_done } else { one_refused };
                assert_eq!(counters, moved, "{expected} from {start:?}");
            }
        }
    }
}

/// What the request's rule makes of a set of keys.
fn finished(tabulation: &[u16], r: u32, station: u32, keys: &[u32]) -> Vec<Component> {
    finished_components(&edges(tabulation, r, station, keys).unwrap())
}

/// The keys of some edges, ascending.
fn keys_of(edges: &[Edge]) -> BTreeSet<u32> {
    edges.iter().map(|edge| edge.key).collect()
}

/// The rule by hand, on the test board: which keys join, which close a cycle, and what becomes of
/// them once the component is finished.
#[test]
fn the_rule_on_boards_by_hand() {
    type Rows<'a> = &'a [(&'a [u32], &'a [u32], &'a [u32])];
    let boards: [(&str, &[u32], Rows); 8] = [
        ("K1", &[], &[]),
        ("K2", &[170], &[(&[170], &[], &[])]),
        ("K5", &[10, 650, 1_290], &[(&[10], &[650, 1_290], &[1_290])]),
        // Only the second key on the cycle closes it, and the first joined.
        ("K8", &[170, 650, 1_290], &[(&[170, 650], &[1_290], &[])]),
        ("K9", &[10, 330, 340, 650, 980], &[(&[10, 330, 340], &[650, 980], &[980])]),
        // One closing key in each of two components.
        ("K10", &[10, 340, 650, 980], &[(&[10], &[650], &[]), (&[340], &[980], &[])]),
        // The two are joined by a larger key, after a cycle was closed in each.
        ("K11", &[10, 340, 650, 980, 2_250], &[(&[10, 340, 2_250], &[650, 980], &[980])]),
        // Two components with two closing keys each: the smallest closing key of each is stored,
        // and not the smallest two of all.
        (
            "two components",
            &[10, 50, 90, 340, 980, 1_620],
            &[(&[10], &[50, 90], &[90]), (&[340], &[980, 1_620], &[1_620])],
        ),
    ];
    for (name, keys, rows) in boards {
        let mut components = finished(&test_tabulation(), 4, 0, keys);
        components.sort_by_key(|component| keys_of(&component.joining));
        assert_eq!(components.len(), rows.len(), "{name}");
        for (component, &(joining, closing, stashed)) in components.iter().zip(rows) {
            let set = |keys: &[u32]| keys.iter().copied().collect::<BTreeSet<u32>>();
            assert_eq!(keys_of(&component.joining), set(joining), "{name}");
            assert_eq!(keys_of(&component.closing), set(closing), "{name}");
            assert_eq!(component.stashed(), set(stashed), "{name}");
            let mut stored = set(&[joining, closing].concat());
            stored.retain(|key| !stashed.contains(key));
            assert_eq!(keys_of(&component.stored()), stored, "{name}");
        }
    }
}

/// The request's rule and document 01's part each component the same way; and the finished
/// components are those of the graph.
#[test]
fn the_rule_stores_and_stashes_what_the_image_does() {
    let mut rng = Rng::new(154);
    let mut tally = Tally::default();
    for _ in 0..5_000 {
        let (r, station) = (1 + rng.below(5) as u32, random_station(&mut rng));
        let (values, count) = (1 + rng.below(8), rng.below(10));
        let tabulation = random_tabulation(&mut rng, values);
        let keys = random_keys(&mut rng, count);
        let by_rule = finished(&tabulation, r, station, &keys);
        let by_graph = components(&edges(&tabulation, r, station, &keys).unwrap());
        assert_eq!(by_rule.len(), by_graph.len());
        for component in &by_graph {
            let is_same = |other: &&Component| other.slots.contains(&component[0].slots[0]);
            let other = by_rule.iter().find(is_same).expect("the same components");
            let (kept, stashed) = split_stash(component);
            assert_eq!(keys_of(&other.stored()), keys_of(&kept), "{component:?}");
            assert_eq!(other.stashed(), stashed.iter().copied().collect(), "{component:?}");
            let slots: BTreeSet<_> = component.iter().flat_map(|edge| edge.slots).collect();
            assert_eq!(other.slots, slots);
            assert_eq!(other.joining.len() + 1, slots.len(), "the joining keys form a tree");
            tally.add(format!("closing {}", other.closing.len().min(3)));
        }
        let stash: BTreeSet<u32> = by_rule.iter().flat_map(Component::stashed).collect();
        assert_eq!(Ok(stash), canonical_stash(&tabulation, r, station, &keys));
        tally.add("boards");
    }
    let wanted = ["boards", "closing 0", "closing 1", "closing 2", "closing 3"];
    tally.report("rule against image", &wanted);
}

/// All orders of few members, some random ones of more.
fn some_orders(members: &[Member], rng: &mut Rng) -> Vec<Vec<Member>> {
    if members.len() <= 3 {
        return permutations(members);
    }
    let random = |_| {
        let mut order = members.to_vec();
        rng.shuffle(&mut order);
        order
    };
    (0..7).map(random).collect()
}

/// Request Seven: "The image equals, word by word, that of adding the same cards with their tiers
/// to a list laid alike, under the same book, in any order that 01's calls accept." Every order is
/// accepted, or each comes to 8, as the bulk load does.
#[test]
fn a_bulk_load_is_inserts_in_any_order() {
    let mut rng = Rng::new(155);
    let mut tally = Tally::default();
    for board in 0..5_000 {
        let (r, s) = (1 + rng.below(4) as u32, rng.below(3) as u32);
        let (station, values, count) = (random_station(&mut rng), 2 + rng.below(3), rng.below(8));
        let tabulation = random_tabulation(&mut rng, values);
        let keys = random_keys(&mut rng, count);
        let members = random_tiers(&mut rng, &keys);
        let loaded = load(&tabulation, r, s, station, &input(&members));
        let engine: &dyn Engine = if board % 25 == 0 { &Slow } else { &Fast };
        for order in some_orders(&members, &mut rng) {
            let mut list = Harness::new(engine, &tabulation, r, s, station);
            let answer = order.iter().try_for_each(|&(key, tier)| list.insert(key, tier));
            assert_eq!(answer.map(|()| list.words), loaded, "{order:?}");
            tally.add(format!("orders, {}", number(answer)));
        }
        if let Ok(words) = loaded {
            for &(key, tier) in &members {
                assert_eq!(lookup(&tabulation, &words, key), Ok(Found::Listed(tier)));
            }
            tally.add(if words[3] > 0 { "with stash" } else { "without stash" });
        }
    }
    tally.report("inserts", &["orders, 0", "orders, 8", "with stash", "without stash"]);
}

/// Demand 3: refused by the rule of the full drawer "exactly when no placement of the new set
/// exists, each card in one of its two pockets or in one of the drawer's places".
#[test]
fn eight_is_due_exactly_where_no_placement_exists() {
    let mut rng = Rng::new(156);
    let mut tally = Tally::default();
    for _ in 0..1_500 {
        let (r, s) = (1 + rng.below(5) as u32, rng.below(3) as u32);
        let (station, values, count) = (random_station(&mut rng), 1 + rng.below(4), rng.below(7));
        let tabulation = random_tabulation(&mut rng, values);
        let keys = random_keys(&mut rng, count);
        let edges = edges(&tabulation, r, station, &keys).unwrap();
        let exists = placeable(&edges, &BTreeSet::new(), s);
        let loaded = load(&tabulation, r, s, station, &input(&random_tiers(&mut rng, &keys)));
        let expected = if exists { Ok(()) } else { Err(Refusal::FullStash) };
        assert_eq!(loaded.map(|_| ()), expected, "r {r}, s {s}, station {station}, {keys:?}");
        let few = keys.len() <= (2 * r + s) as usize;
        tally.add(match (exists, few) {
            (true, _) => "placed",
            (false, true) => "not placeable, but few",
            (false, false) => "too many",
        });
    }
    tally.report("placements", &["placed", "not placeable, but few", "too many"]);
}

/// Feeds the members one by one and skips those that are refused with 8; the words in the end.
fn fed(mut list: Harness, order: &[Member]) -> Vec<u32> {
    let mut listed: Vec<Member> = Vec::new();
    for &(key, tier) in order {
        match list.insert(key, tier) {
            Ok(()) => listed.push((key, tier)),
            Err(refusal) => assert_eq!(refusal, Refusal::FullStash, "{order:?}"),
        }
    }
    listed.sort_unstable();
    let (r, s, station) = (list.words[0], list.words[1], list.words[4]);
    let loaded = load(&list.tabulation, r, s, station, &input(&listed));
    assert_eq!(loaded.as_ref(), Ok(&list.words), "those that were accepted, in one call");
    list.words
}

/// Where not all keys fit, every order lists equally many: all that the rule stores and as many
/// more as the stash takes. No choice of them lists more.
#[test]
fn where_not_all_fit_every_order_lists_equally_many() {
    let mut rng = Rng::new(157);
    let mut tally = Tally::default();
    for _ in 0..1_500 {
        let (r, s) = (1 + rng.below(4) as u32, rng.below(3) as u32);
        let (station, values, count) = (random_station(&mut rng), 2 + rng.below(3), rng.below(8));
        let tabulation = random_tabulation(&mut rng, values);
        let keys = random_keys(&mut rng, count);
        let members = random_tiers(&mut rng, &keys);
        let components = finished(&tabulation, r, station, &keys);
        let stored: usize = components.iter().map(|component| component.stored().len()).sum();
        let most = count.min(stored + s as usize);
        for order in some_orders(&members, &mut rng) {
            let words = fed(Harness::new(&Fast, &tabulation, r, s, station), &order);
            assert_eq!(words[2] as usize, most, "{order:?}");
        }
        let all = load(&tabulation, r, s, station, &input(&members));
        assert_eq!(all.is_ok(), most == count);
        for mask in (0..1usize << count).filter(|mask| mask.count_ones() as usize > most) {
            let choice = subset(&keys, mask);
            let found = placement(&tabulation, r, s, station, &choice).unwrap();
            assert_eq!(found, None, "{choice:?} of {keys:?}");
            tally.add("choices that are too large");
        }
        tally.add(if most == count { "all fit" } else { "not all fit" });
    }
    tally.report("how many fit", &["all fit", "not all fit", "choices that are too large"]);
}

/// What a bulk load should answer but for 8, by the request's words and without `bulk`.
fn plain_refusal(
    tabulation_len: usize,
    words_len: usize,
    scratch_len: usize,
    (r, s, station): (u32, u32, u32),
    input: &[u32],
) -> Option<u32> {
    let [wide_r, wide_s] = [r, s].map(u64::from);
    let keys: Vec<u32> = (0..input.len()).filter(|at| at % 2 == 0).map(|at| input[at]).collect();
    let mut tiers = (0..input.len()).filter(|at| at % 2 == 1).map(|at| input[at]);
    let falls = |at: usize| keys[at..].iter().skip(1).any(|&later| later <= keys[at]);
    let repeats = |at: usize| keys[..at].iter().any(|&other| same_first_part(other, keys[at]));
    match () {
        _ if tabulation_len != 2_560 => Some(1),
        _ if r == 0 || r > 1_024 || s > 64 || station > 255 => Some(2),
        _ if words_len as u64 != 5 + 6 * wide_r + 2 * wide_s => Some(2),
        _ if (scratch_len as u64) < 12 * wide_r + 8 * wide_s => Some(3),
        _ if keys.iter().any(|key| key.to_string().len() == 1) => Some(5),
        _ if tiers.any(|tier| tier >= 8) => Some(9),
        _ if input.len() % 2 == 1 || (0..keys.len()).any(falls) => Some(14),
        _ if (0..keys.len()).any(repeats) => Some(13),
        _ => None,
    }
}

/// An input, often as it should be; its keys are few, so that first parts repeat.
fn random_input(rng: &mut Rng) -> Vec<u32> {
    let mut keys: Vec<u32> = (0..rng.below(7)).map(|_| 10 + rng.below(200) as u32).collect();
    if rng.one_in(12) {
        keys.push(rng.below(10) as u32);
    }
    if rng.one_in(12) {
        keys.push(u32::MAX - rng.below(12) as u32);
    }
    if !rng.one_in(8) {
        keys.sort_unstable();
    }
    match rng.below(8) {
        0 => {}
        1 | 2 => keys.dedup(),
        _ => keys.dedup_by_key(|key| *key / 10),
    }
    let mut input = input(&random_tiers(rng, &keys));
    if rng.one_in(8) && !input.is_empty() {
        let at = rng.below(input.len());
        input[at] = rng.pick(&[0, 7, 8, 9, 10, 1 << 31, u32::MAX]);
    }
    if rng.one_in(12) {
        input.push(rng.pick(&[0, 3, 8, 9, 10, 100, 250, u32::MAX]));
    }
    input
}

/// A number that is mostly this one, now and then one beside it or any.
fn mostly(number: u32, rng: &mut Rng) -> u32 {
    match rng.below(60) {
        0 => number.wrapping_add(1),
        1 => number.wrapping_sub(1),
        2 => rng.next_u32(),
        3 => rng.pick(&[0, 65, 256, 1_025]),
        _ => number,
    }
}

/// Any lengths, numbers, words and input: both engines give the same, the answer is the request's,
/// and the words are the image of the input's set.
#[test]
fn bulk_load_answers_anything() {
    let mut rng = Rng::new(158);
    let mut tally = Tally::default();
    for _ in 0..12_000 {
        let (r, s) = (1 + rng.below(3) as u32, rng.below(3) as u32);
        let station = random_station(&mut rng);
        let tabulation_len = if rng.one_in(25) { rng.below(3_000) } else { 2_560 };
        let tabulation: Vec<u16> = (0..tabulation_len).map(|_| rng.below(5) as u16).collect();
        let words_len = mostly(5 + 6 * r + 2 * s, &mut rng).min(60) as usize;
        let words: Vec<u32> = (0..words_len).map(|_| rng.next_u32()).collect();
        let scratch_len = mostly(12 * r + 8 * s, &mut rng).min(90) as usize;
        let given = random_input(&mut rng);
        let numbers = [r, s, station].map(|number| mostly(number, &mut rng));
        let [r, s, station] = numbers;
        let [slow, fast] = engines().map(|(_, engine)| {
            let (mut words, mut scratch) = (words.clone(), vec![6; scratch_len]);
            let mut counters = Counters { done: 3, refused: 4 };
            let answer = bulk_load(
                &engine,
                &tabulation,
                &mut words,
                &mut scratch,
                &mut counters,
                r,
                s,
                station,
                &given,
            );
            (answer, words, scratch, counters)
        });
        assert_eq!(slow, fast);
        let (answer, words_after, scratch, counters) = slow;
        let refusal =
            plain_refusal(tabulation_len, words_len, scratch_len, (r, s, station), &given);
        let image = || {
            let pairs: Vec<Member> = given.chunks(2).map(|pair| (pair[0], pair[1])).collect();
            Slow.image(&tabulation, r, s, station, &pairs)
        };
        let image = if refusal.is_none() { image() } else { None };
        let expected = refusal.unwrap_or(if image.is_some() { 0 } else { 8 });
        assert_eq!(number(answer), expected, "{numbers:?}, {given:?}");
        assert_eq!(words_after, image.unwrap_or(words));
        assert_eq!(scratch, vec![0; scratch_len]);
        let refused = u32::from(expected != 0);
        assert_eq!(counters, Counters { done: 4 - refused, refused: 4 + refused });
        tally.add(format!("bulk load {expected}"));
    }
    let wanted = [
        "bulk load 0",
        "bulk load 1",
        "bulk load 2",
        "bulk load 3",
        "bulk load 5",
        "bulk load 8",
        "bulk load 9",
        "bulk load 13",
        "bulk load 14",
    ];
    tally.report("any input", &wanted);
}

/// The reference model after an accepted bulk load: it starts with the input's set, and answers
/// from it.
#[test]
fn the_model_starts_with_the_set_of_a_bulk_load() {
    let (tabulation_len, scratch_len) = (2_560, 56);
    for (_, engine) in engines() {
        let model = Model::bulk_loaded(engine, &test_tabulation(), 4, 1, 7, &input(&K5));
        let mut model = model.unwrap();
        assert_eq!(model.set(), &Set::from(K5));
        let entries = [(0, 1, 15, 650, 3), (1, 0, 650, 15, 0)];
        let words = hand_words(4, 1, 7, 3, &entries, &[(1_299, 6)]);
        assert_eq!(model.words(), words);
        let check = Call::Check { tabulation_len, scratch_len };
        assert_eq!(model.feed(&check), Reply::Answer(Ok(())));
        assert_eq!(model.feed(&Call::Stash), Reply::Stash(vec![1_299, 6]));
        for (key, tier, answer) in
            [(15, 3, 6), (15, 4, 10), (10, 3, 13), (1_290, 6, 13), (1_930, 0, 8), (9, 0, 5)]
        {
            let reply = model.feed(&Call::Insert { tabulation_len, scratch_len, key, tier });
            let Reply::Answer(found) = reply else { unreachable!("an insert") };
            assert_eq!(number(found), answer, "{key}, {tier}");
        }
        // A refused bulk load leaves the set.
        for refusal in [Refusal::NotRising, Refusal::OtherIssue, Refusal::FullStash] {
            assert_eq!(model.feed(&Call::Other { refusal }), Reply::Answer(Err(refusal)));
            assert_eq!(model.words(), words);
        }
        let removed = model.feed(&Call::Remove { tabulation_len, scratch_len, key: 650 });
        assert_eq!(removed, Reply::Answer(Ok(())));
        assert_eq!(model.feed(&Call::Stash), Reply::Stash(vec![]));
        let empty = Model::bulk_loaded(engine, &test_tabulation(), 4, 1, 7, &[]).unwrap();
        assert_eq!(empty.words(), hand_words(4, 1, 7, 0, &[], &[]));
        assert!(empty.set().is_empty());
    }
}

/// The model does not start where no bulk load is accepted, and says why in the same order.
#[test]
fn the_model_starts_only_where_a_bulk_load_is_accepted() {
    let k6 = input(&K6);
    for (len, r, s, station, given, refusal) in [
        (2_559, 0, 1, 0, &[9, 8, 9][..], 1),
        (2_560, 0, 1, 0, &[9, 8, 9], 2),
        (2_560, 4, 65, 0, &[10, 0], 2),
        (2_560, 4, 1, 256, &[10, 0], 2),
        (2_560, 4, 1, 0, &[10, 8, 9], 5),
        (2_560, 4, 1, 0, &[10, 8, 10], 9),
        (2_560, 4, 1, 0, &[11, 0, 10, 0], 14),
        (2_560, 4, 1, 0, &[10, 0, 11, 0], 13),
        (2_560, 4, 1, 0, &k6, 8),
    ] {
        for (_, engine) in engines() {
            let tabulation = &test_tabulation()[..len];
            let model = Model::bulk_loaded(engine, tabulation, r, s, station, given);
            assert_eq!(model.err().map(Refusal::number), Some(refusal), "{given:?}");
        }
    }
}
