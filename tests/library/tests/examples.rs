//! Worked examples through the built library: the edges of the sizes, of the station and of the keys, and the test
//! board of the specification, with tier 0 throughout and with others, at station 0 and at others, with other issues,
//! and the trails and the sales of its keys. The board's keys are document 01's times ten.

use library::beside::{Beside, Kind};
use library::Change::{Insert, Remove};
use library::{change, close_sale, fresh, lookup, open_sale, scratch_length, stash, trail};
use library::{words_length, Counters, Sale};
use reference::samples::test_tabulation;
use reference::set::Member;

#[test]
fn sizes_at_their_edges() {
    let mut beside = Beside::new();
    let mut counters = Counters::default();
    for (r, s, station, length, answer) in [
        (1_024, 64, 0, 6_277, 0),
        (1_024, 64, 255, 6_277, 0),
        (1_024, 64, 256, 6_277, 2),
        (1_024, 64, 0, 6_276, 2),
        (1_025, 64, 0, 6_283, 2),
        (1_024, 65, 0, 6_279, 2),
        (0, 1, 0, 7, 2),
        (1, 1, 0, 13, 0),
        (1, 1, 1, 13, 0),
        (1, 1, 254, 13, 0),
        (1, 1, 255, 13, 0),
        (1, 1, 256, 13, 2),
        (1, 1, 257, 13, 2),
        (1, 1, 511, 13, 2),
        (1, 1, 65_536, 13, 2),
        (1, 1, 1 << 31, 13, 2),
        (1, 1, u32::MAX, 13, 2),
        // as long as without a station
        (1, 1, 0, 12, 2),
        (1, 1, 0, 14, 2),
        (1, 1, 0, 11, 2),
        (1, 1, 0, 9, 2),
        (1, 0, 0, 0, 2),
        (1 << 31, 5, 0, 15, 2),
        (1, 1 << 31, 0, 11, 2),
        (u32::MAX, u32::MAX, 0, 5, 2),
        (u32::MAX, u32::MAX, u32::MAX, 5, 2),
    ] {
        let mut words = vec![9; length];
        assert_eq!(beside.init(&mut words, r, s, station, &mut counters), answer);
        if answer == 0 {
            assert_eq!(words[..5], [r, s, 0, 0, station]);
            assert!(words[5..].iter().all(|w| *w == 0), "fresh words are not empty");
        } else {
            assert!(words.iter().all(|w| *w == 9), "a refused init changed words");
        }
        // A bulk load takes the same sizes, whatever the words are.
        let (laid, scratch) = ([r, s, station], vec![4; scratch_length(1_024, 64)]);
        let book = test_tabulation();
        for (input, count) in [(&[][..], 0), (&[10, 1], 1)] {
            let got = beside.bulk_load(&book, &mut words, &scratch, &mut counters, laid, input);
            assert_eq!(got, answer, "{laid:?} of {length} words");
            assert!(answer != 0 || words[..5] == [r, s, count, 0, station], "{words:?}");
        }
    }
    assert_eq!((counters.done, counters.refused), (3 * 6, 3 * 20));
    beside.report(&[Kind::Init]);
}

#[test]
fn a_count_at_the_limit_stays() {
    let mut beside = Beside::new();
    let mut words = fresh(1, 0, 0);
    let mut counters = Counters { done: u32::MAX - 1, refused: u32::MAX };
    for (key, tier) in [(10, 0), (20, 7), (30, 0), (9, 0), (10, 8), (11, 0), (10, 1)] {
        let scratch = [u32::MAX; 12];
        let way = Insert(tier);
        beside.change(way, &test_tabulation(), &mut words, &scratch, &mut counters, key);
    }
    assert_eq!((counters.done, counters.refused), (u32::MAX, u32::MAX));
}

/// K12: two keys fit, the smaller in table 0; a third is refused with 8. With one slot in each table every station has the same slots.
#[test]
fn the_smallest_dictionary() {
    let tabulation = test_tabulation();
    for [station, tier, largest] in [[0, 0, 0], [0, 7, 2], [255, 7, 2], [56, 1, 1]] {
        let mut words = fresh(1, 0, station);
        assert_eq!(change(Insert(largest), &tabulation, &mut words, u32::MAX), 0);
        assert_eq!(change(Insert(tier), &tabulation, &mut words, 200), 0);
        assert_eq!(words, [1, 0, 2, 0, station, 200, u32::MAX, tier, u32::MAX, 200, largest]);
        assert_eq!(change(Insert(0), &tabulation, &mut words, 70), 8);
    }
}

/// The keys, each with the tier that its place among them gives.
fn with_tiers(keys: &[u32], tier: impl Fn(u32) -> u32) -> Vec<Member> {
    (0..).zip(keys).map(|(place, key)| (*key, tier(place))).collect()
}

/// The sets of K1 to K11, in every word, and K7 and K10 by a removal: with tier 0 throughout, as the specification has them, and with others.
#[test]
fn the_rows_of_the_test_board() {
    let tabulation = test_tabulation();
    let tiers: [fn(u32) -> u32; 4] = [|_| 0, |_| 7, |place| 1 + place, |place| (5 * place + 3) % 8];
    for (s, keys, removed) in [
        (1, &[][..], None),
        (1, &[170], None),
        (1, &[10, 170], None),
        (1, &[10, 650], None),
        (1, &[10, 650, 1290], None),
        (2, &[10, 650, 1290, 1930], None),
        (1, &[10, 650, 1290], Some(650)),
        (1, &[170, 650, 1290], None),
        (1, &[10, 330, 340, 650, 980], None),
        (1, &[10, 330, 340, 650, 980], Some(330)),
        (1, &[10, 340, 650, 980, 2250], None),
    ] {
        for tier in tiers {
            let members = with_tiers(keys, tier);
            let mut words = fresh(4, s, 0);
            for (key, tier) in members.iter().rev() {
                let way = Insert(*tier);
                assert_eq!(change(way, &tabulation, &mut words, *key), 0, "{key} of {members:?}");
            }
            if let Some(key) = removed {
                assert_eq!(change(Remove, &tabulation, &mut words, key), 0);
            }
            let left: Vec<Member> =
                members.iter().copied().filter(|(key, _)| Some(*key) != removed).collect();
            let expected = reference::image::image(&tabulation, 4, s, 0, &left);
            let whole = loaded(4, s, &reference::bulk::input(&left));
            assert_eq!((0, &words), (whole.0, &whole.1), "in one call: {left:?}");
            assert_eq!(Some(words), expected, "{members:?}");
        }
    }
    // K6: the fourth key of one pair of slots has no place with s = 1.
    let mut words = fresh(4, 1, 0);
    for (key, answer) in [(10, 0), (650, 0), (1290, 0), (1930, 8)] {
        assert_eq!(change(Insert(0), &tabulation, &mut words, key), answer);
    }
    assert_eq!(loaded(4, 1, &[10, 0, 650, 0, 1290, 0, 1930, 0]), (8, vec![9; words_length(4, 1)]));
}

/// A bulk load on the test board at station 0, over words of nines, which a refused one leaves.
fn loaded(r: u32, s: u32, input: &[u32]) -> (u32, Vec<u32>) {
    let (mut words, scratch) = (vec![9; words_length(r, s)], vec![3; scratch_length(r, s)]);
    let (mut beside, mut counters) = (Beside::new(), Counters::default());
    let book = test_tabulation();
    let answer = beside.bulk_load(&book, &mut words, &scratch, &mut counters, [r, s, 0], input);
    assert_eq!((counters.done, counters.refused), (u32::from(answer == 0), u32::from(answer != 0)));
    (answer, words)
}

/// Whole lists in one call, word by word: K5 with tiers, K12, and that of the console's listing.
#[test]
fn whole_lists_by_hand() {
    let k5 = [4, 1, 3, 1, 0, 0, 0, 0, 10, 650, 3];
    let k5 = [&k5[..], &[0; 6], &[650, 10, 0], &[0; 9], &[1290, 7]].concat();
    assert_eq!(loaded(4, 1, &[10, 3, 650, 0, 1290, 7]), (0, k5));
    let k12 = vec![1, 0, 2, 0, 0, 200, u32::MAX, 6, u32::MAX, 200, 2];
    assert_eq!(loaded(1, 0, &[200, 6, u32::MAX, 2]), (0, k12));
    let listing = vec![2, 1, 3, 1, 0, 0, 0, 0, 10, 330, 0, 330, 10, 0, 0, 0, 0, 650, 0];
    assert_eq!(loaded(2, 1, &[10, 0, 330, 0, 650, 0]), (0, listing));
    assert_eq!(loaded(2, 1, &[10, 0, 330, 0, 650, 0, 970, 0]).0, 8);
    assert_eq!(loaded(2, 1, &[]), (0, fresh(2, 1, 0)));
    // The small inputs of the specification.
    for (answer, inputs) in [
        (0, &[&[][..], &[10, 7], &[10, 0, 20, 0]][..]),
        (5, &[&[9], &[10, 8, 9], &[20, 8, 0, 0]]),
        (9, &[&[10, 8, 20], &[20, 0, 10, 8]]),
        (14, &[&[10], &[10, 0, 20], &[10, 0, 10, 0], &[20, 0, 10, 0], &[11, 0, 10, 0]]),
        (13, &[&[10, 3, 19, 3], &[10, 0, 20, 1, 29, 2]]),
    ] {
        for input in inputs {
            assert_eq!(loaded(4, 1, input).0, answer, "{input:?}");
        }
    }
}

/// The refusals of a bulk load, each with causes for those that are tried behind it.
#[test]
fn the_refusals_of_a_bulk_load_in_their_order() {
    let mut beside = Beside::new();
    let mut counters = Counters::default();
    let tabulation = test_tabulation();
    // Keys of one pair of slots, of which three have room: the last two are issues of one card.
    let issues = &[10, 0, 650, 0, 1290, 0, 1930, 0, 1931, 0];
    let unsorted = &[650, 0, 10, 0, 1290, 0, 1930, 0, 1931, 0];
    let equal = &[10, 0, 10, 0, 1290, 0, 1930, 0, 1931, 0];
    let tier = &[650, 0, 10, 8, 1290, 0, 1930, 0, 1931, 0, 5000];
    let blank = &[650, 0, 10, 8, 9, 0, 1930, 0, 1931, 0, 5000];
    let lone = &[650, 0, 10, 8, 1290, 0, 1930, 0, 1931, 0, 0];
    for (book, [r, s, station], length, scratch, input, answer) in [
        (&tabulation[1..], [4, 1, 0], 30, 55, &blank[..], 1),
        (&tabulation[1..], [0, 65, 256], 31, 56, &[], 1),
        (&tabulation, [4, 1, 0], 30, 55, blank, 2),
        (&tabulation, [4, 1, 256], 31, 55, lone, 2),
        (&tabulation, [0, 1, 0], 31, 55, tier, 2),
        (&tabulation, [4, 65, 0], 31, 55, unsorted, 2),
        (&tabulation, [1_025, 1, 0], 31, 55, &[], 2),
        (&tabulation, [4, 1, 0], 31, 55, blank, 3),
        (&tabulation, [4, 1, 0], 31, 0, &[], 3),
        (&tabulation, [4, 1, 0], 31, 56, blank, 5),
        (&tabulation, [4, 1, 0], 31, 56, lone, 5),
        (&tabulation, [4, 1, 0], 31, 56, &[0], 5),
        (&tabulation, [4, 1, 0], 31, 56, tier, 9),
        (&tabulation, [4, 1, 0], 31, 56, &[10, 8, 11], 9),
        (&tabulation, [4, 1, 0], 31, 56, unsorted, 14),
        (&tabulation, [4, 1, 0], 31, 56, equal, 14),
        (&tabulation, [4, 1, 0], 31, 56, &issues[..9], 14),
        (&tabulation, [4, 1, 0], 31, 56, &[10], 14),
        (&tabulation, [4, 1, 0], 31, 56, issues, 13),
        (&tabulation, [4, 1, 0], 31, 56, &issues[4..], 13),
        (&tabulation, [4, 1, 0], 31, 56, &issues[..8], 8),
        (&tabulation, [4, 1, 0], 31, 56, &issues[..6], 0),
        (&tabulation, [4, 2, 0], 33, 64, &issues[..8], 0),
        (&tabulation, [4, 1, 0], 31, 57, &[], 0),
    ] {
        let mut words = vec![7; length];
        let laid = [r, s, station];
        let sheet = vec![3; scratch];
        let got = beside.bulk_load(book, &mut words, &sheet, &mut counters, laid, input);
        assert_eq!(got, answer, "{input:?} as {laid:?}");
        assert!(got == 0 || words == vec![7; length], "a refused load changed words");
    }
    assert_eq!((counters.done, counters.refused), (3, 21));
}

/// Words of the test board with two places and counts that are wrong: these slots, each a key and a tier, and places.
fn wet(slots: &[(usize, u32, u32)], places: [(u32, u32); 2]) -> Vec<u32> {
    let mut words = vec![4, 2, 77, 1, 0];
    words.resize(words_length(4, 2), 0);
    for (slot, key, tier) in slots {
        words[5 + 3 * slot..][..3].copy_from_slice(&[*key, 99, *tier]);
    }
    for (place, (key, tier)) in places.into_iter().enumerate() {
        words[29 + 2 * place..][..2].copy_from_slice(&[key, tier]);
    }
    words
}

/// A salvage at station 0, over a target of nines, which a refused one leaves.
fn saved(words: &[u32]) -> (u32, Option<u32>, Vec<u32>) {
    let scratch = vec![3; scratch_length(words[0], words[1])];
    let mut target = vec![9; words.len()];
    let (answer, lost) = Beside::new().salvage(&test_tabulation(), words, &mut target, &scratch);
    (answer, lost, target)
}

/// Salvages by hand: which numbers count, which of them stand, and how many are lost. 170 and its issues have the slots
/// 0.1 and 1.1 (1 and 5 of all slots), 650, 10 and 1290 have 0.1 and 1.0 (1 and 4).
#[test]
fn salvages_by_hand() {
    const NONE: (u32, u32) = (0, 0);
    for (slots, places, lost, survivors) in [
        (&[][..], [NONE; 2], 0, &[][..]),
        // a tier without a key is no number
        (&[(1, 0, 8), (5, 0, 3)], [(0, 7), (0, u32::MAX)], 0, &[]),
        (&[(1, 170, 3), (5, 170, 3)], [NONE; 2], 0, &[(170, 3)]),
        (&[(5, 170, 3)], [NONE; 2], 0, &[(170, 3)]),
        // copies at two tiers, and issues: the first that counts, with its tier
        (&[(1, 170, 1), (5, 170, 2)], [(170, 7), NONE], 0, &[(170, 1)]),
        (&[(1, 179, 1), (5, 170, 2)], [(171, 7), (170, 1)], 0, &[(179, 1)]),
        (&[(5, 172, 2)], [(171, 7), (170, 1)], 0, &[(172, 2)]),
        (&[], [(173, 2), (171, 1)], 0, &[(173, 2)]),
        // 171 has no tier, so that 172 is the first that counts
        (&[(1, 171, 8), (5, 172, 7)], [NONE; 2], 1, &[(172, 7)]),
        (&[(1, 171, u32::MAX)], [(171, 8), (172, 0)], 2, &[(172, 0)]),
        // in a slot of another key, in the other table's slot, and blank
        (&[(2, 170, 0), (5, 170, 0)], [NONE; 2], 1, &[(170, 0)]),
        (&[(0, 650, 0), (1, 650, 1), (5, 650, 2)], [NONE; 2], 2, &[(650, 1)]),
        (&[(1, 9, 0), (4, 650, 1), (6, 1, 9)], [(5, 0), NONE], 3, &[(650, 1)]),
        // both places are read, whatever word 3 says; what fits into a slot is seated
        (&[], [NONE, (1290, 7)], 0, &[(1290, 7)]),
        (
            &[(1, 10, 1), (4, 650, 2)],
            [(1290, 3), (1930, 4)],
            0,
            &[(10, 1), (650, 2), (1290, 3), (1930, 4)],
        ),
        (
            &[(1, 10, 1), (4, 650, 2)],
            [(1930, 4), (1290, 3)],
            0,
            &[(10, 1), (650, 2), (1290, 3), (1930, 4)],
        ),
        (&[(1, 10, 1), (4, 650, 2)], [(10, 4), (655, 3)], 0, &[(10, 1), (650, 2)]),
        (&[(1, u32::MAX, 7)], [(10, 0), NONE], 0, &[(10, 0), (u32::MAX, 7)]),
    ] {
        let words = wet(slots, places);
        let image = reference::image::image(&test_tabulation(), 4, 2, 0, survivors);
        let image = image.expect("survivors fit");
        assert_eq!(saved(&words), (0, Some(lost), image.clone()), "{slots:?}, {places:?}");
        assert_eq!(saved(&image), (0, Some(0), image.clone()), "{image:?}");
    }
    // One of them word by word: 1290 and 1930 were exchanged in the stash, and both next numbers and counts are wrong.
    let words = wet(&[(1, 10, 1), (4, 650, 2)], [(1930, 4), (1290, 3)]);
    let mended = [4, 2, 4, 2, 0, 0, 0, 0, 10, 650, 1];
    let mended = [&mended[..], &[0; 6], &[650, 10, 2], &[0; 9], &[1290, 3, 1930, 4]].concat();
    assert_eq!(saved(&words), (0, Some(0), mended));
    // Some number, and no key that counts.
    for (slots, places) in [
        (&[(1, 9, 0)][..], [NONE; 2]),
        (&[], [NONE, (9, 0)]),
        (&[], [NONE, (10, 8)]),
        (&[(1, 170, 8)], [NONE; 2]),
        (
            &[(0, 170, 0), (2, 170, 0), (3, 170, 0), (4, 170, 0), (6, 170, 0), (7, 170, 0)],
            [NONE; 2],
        ),
        (&[(0, u32::MAX, u32::MAX)], [(1, 1), (u32::MAX, 8)]),
    ] {
        let words = wet(slots, places);
        assert_eq!(saved(&words), (15, None, vec![9; 33]), "{slots:?}, {places:?}");
    }
    // The smallest list: a key in each slot, and one that was the only one.
    let k12 = [1, 0, 2, 0, 0, 200, u32::MAX, 6, u32::MAX, 200, 2];
    assert_eq!(saved(&k12), (0, Some(0), k12.to_vec()));
    let torn = [1, 0, 2, 0, 0, 200, u32::MAX, 8, u32::MAX, 200, 2];
    let alone = vec![1, 0, 1, 0, 0, u32::MAX, u32::MAX, 2, u32::MAX, u32::MAX, 2];
    assert_eq!(saved(&torn), (0, Some(1), alone));
}

/// The damaged words of the specification, with one place: slots and places, each with its key and tier; the heading's
/// counts are wrong.
#[test]
fn salvages_of_the_specification() {
    for (slots, place, answer, lost, survivors) in [
        (&[(1, 10, 0), (4, 650, 0)][..], (0, 0), 0, 0, &[(10, 0), (650, 0)][..]),
        (&[(1, 651, 0), (4, 650, 0)], (0, 0), 0, 0, &[(651, 0)]),
        (&[(1, 171, 8), (5, 172, 7)], (0, 0), 0, 1, &[(172, 7)]),
        (&[(1, 170, 3), (5, 170, 5)], (170, 6), 0, 0, &[(170, 3)]),
        (&[(0, 9, 0), (2, 170, 0)], (250, 4), 0, 2, &[(250, 4)]),
        (&[(2, 170, 0)], (0, 0), 15, 1, &[]),
        (&[], (0, 7), 0, 0, &[]),
    ] {
        let mut words = wet(slots, [place, (0, 0)]);
        words.truncate(words_length(4, 1));
        words[1..4].copy_from_slice(&[1, 99, 0]);
        let image = reference::image::image(&test_tabulation(), 4, 1, 0, survivors);
        let expected = match answer {
            0 => (0, Some(lost), image.expect("survivors fit")),
            _ => (answer, None, vec![9; words.len()]),
        };
        assert_eq!(saved(&words), expected, "{slots:?}, {place:?}");
    }
}

/// The refusals of a salvage, each with causes for those that are tried behind it.
#[test]
fn the_refusals_of_a_salvage_in_their_order() {
    let mut beside = Beside::new();
    let tabulation = test_tabulation();
    let (none, some) = (wet(&[(1, 9, 0)], [(0, 0); 2]), wet(&[(1, 170, 0)], [(9, 0); 2]));
    let with = |at: usize, value: u32| {
        let mut words = none.clone();
        words[at] = value;
        words
    };
    for (book, words, target, scratch, answer) in [
        (&tabulation[1..], &none[..], 32, 63, 1),
        (&tabulation[1..], &with(0, 0), 32, 0, 1),
        (&tabulation[1..], &[], 1, 0, 1),
        (&tabulation, &with(0, 0), 32, 63, 2),
        (&tabulation, &with(1, 65), 32, 0, 2),
        (&tabulation, &with(4, 256), 33, 63, 2),
        (&tabulation, &with(4, u32::MAX), 33, 64, 2),
        (&tabulation, &none[1..], 32, 64, 2),
        (&tabulation, &[], 0, 64, 2),
        (&tabulation, &none, 32, 63, 2),
        (&tabulation, &none, 34, 0, 2),
        (&tabulation, &some, 0, 64, 2),
        (&tabulation, &some, 31, 64, 2),
        (&tabulation, &none, 33, 63, 3),
        (&tabulation, &some, 33, 0, 3),
        (&tabulation, &none, 33, 64, 15),
        (&tabulation, &none, 33, 99, 15),
        (&tabulation, &some, 33, 64, 0),
        (&tabulation, &some, 33, 99, 0),
    ] {
        let mut area = vec![7; target];
        let (got, _) = beside.salvage(book, words, &mut area, &vec![3; scratch]);
        assert_eq!(got, answer, "{words:?} to {target} words with {scratch}");
        assert!(got == 0 || area == vec![7; target], "a refused salvage changed the target");
    }
}

/// K9, K10, K11, a cycle with a key that hangs from it, and a tree, slot by slot as the specification writes them; and the words of the console's listing.
#[test]
fn the_test_board() {
    let tabulation = test_tabulation();
    for (keys, seats) in [
        (&[10, 330, 340, 650, 980][..], &[(1, 10), (4, 650), (6, 330), (2, 340)][..]),
        (&[10, 340, 650, 980], &[(1, 10), (4, 650), (2, 340), (6, 980)]),
        (&[10, 340, 650, 980, 2250], &[(1, 10), (4, 650), (2, 340), (6, 2250)]),
        (&[170, 650, 1290], &[(1, 650), (4, 1290), (5, 170)]),
        (&[10, 170], &[(1, 10), (4, 10), (5, 170)]),
    ] {
        let mut words = fresh(4, 1, 0);
        for key in keys.iter().rev() {
            assert_eq!(change(Insert(0), &tabulation, &mut words, *key), 0);
        }
        for (slot, key) in seats {
            assert_eq!(words[5 + 3 * slot], *key, "slot {slot} of {keys:?}");
            assert_eq!(words[5 + 3 * slot + 2], 0, "the tier in slot {slot} of {keys:?}");
        }
    }
    let mut words = fresh(2, 1, 0);
    for (key, answer) in [(650, 0), (10, 0), (330, 0), (970, 8)] {
        assert_eq!(change(Insert(0), &tabulation, &mut words, key), answer);
    }
    assert_eq!(words, [2, 1, 3, 1, 0, 0, 0, 0, 10, 330, 0, 330, 10, 0, 0, 0, 0, 650, 0]);
    assert_eq!(stash(&words), (0, 17, 2));
    let (mut listed, mut tier) = (9, 9);
    let answer = lookup(&tabulation, &words, 650, &mut listed, &mut tier);
    assert_eq!((answer, listed, tier), (0, 1, 0));
}

/// Words of four rows with tiers, written out by hand: a tree whose smallest key has its tier in both slots, a cycle, a stash, and a removal from it.
#[test]
fn tiers_on_the_test_board() {
    let tabulation = test_tabulation();
    let mut words = fresh(4, 1, 0);
    let mut call = |way, key, answer, expected: &[[u32; 3]; 8], stash: [u32; 2]| {
        assert_eq!(change(way, &tabulation, &mut words, key), answer, "{way:?} of {key}");
        assert_eq!(words[5..29], *expected.as_flattened(), "{way:?} of {key}");
        assert_eq!(words[29..], stash, "{way:?} of {key}");
    };
    const NONE: [u32; 3] = [0, 0, 0];
    let [one, seventeen] = [[10, 170, 3], [170, 10, 5]];
    let lone = [10, 10, 3];
    call(Insert(3), 10, 0, &[NONE, lone, NONE, NONE, lone, NONE, NONE, NONE], [0, 0]);
    // K3
    let tree = [NONE, one, NONE, NONE, one, seventeen, NONE, NONE];
    call(Insert(5), 170, 0, &tree, [0, 0]);
    call(Insert(4), 10, 10, &tree, [0, 0]);
    call(Insert(5), 170, 6, &tree, [0, 0]);
    // the cycle of 10 and 650, from which 170 hangs
    let cycle = [NONE, [10, 170, 3], NONE, NONE, [650, 10, 7], [170, 650, 5], NONE, NONE];
    call(Insert(7), 650, 0, &cycle, [0, 0]);
    call(Insert(2), 1290, 0, &cycle, [1290, 2]);
    call(Insert(6), 1290, 10, &cycle, [1290, 2]);
    call(Insert(0), 1930, 8, &cycle, [1290, 2]);
    // 1290 leaves the stash with its tier
    let other = [NONE, [10, 170, 3], NONE, NONE, [1290, 10, 2], [170, 1290, 5], NONE, NONE];
    call(Remove, 650, 0, &other, [0, 0]);
    call(Insert(0), 1930, 0, &other, [1930, 0]);
}

/// The test tabulation with two entries more: entry 16 of table 0's station stretch is 1, and entry 0 of table 1's. A
/// key sits where the test board has it; but where the lowest byte of its first part and the station come to 16, one
/// slot on in table 0, and where they come to 0 modulo 256, one slot on in table 1.
fn two_more_entries() -> Vec<u16> {
    let mut tabulation = test_tabulation();
    (tabulation[1_024 + 16], tabulation[2_304]) = (1, 1);
    tabulation
}

/// The keys 10, 650 and 1290 at the tiers 5, 0 and 7, all words at six stations, written out by hand: all three have
/// the slots 0.1 and 1.0, as in K5, but for the one that comes to 16 or to 0. Their trails, sales and stash; and the
/// board emptied again, which keeps its station.
#[test]
#[rustfmt::skip]
fn k5_at_six_stations() {
    let mut beside = Beside::new();
    let mut counters = Counters::default();
    let tabulation = two_more_entries();
    let (scratch, members) = ([3; 56], [(10, 5), (650, 0), (1290, 7)]);
    const NONE: [u32; 3] = [0, 0, 0];
    const K5: [[u32; 3]; 4] = [[10, 650, 5], NONE, [650, 10, 0], NONE];
    // What stands in 0.1, 0.2, 1.0 and 1.1, in the stash, and the trails.
    for (station, [in_01, in_02, in_10, in_11], stash, trails) in [
        (0, K5, [1290, 7], [&[10][..], &[650, 10], &[]]),
        // 10 has 0.2 and 1.0
        (15, [[650, 1290, 0], [10, 650, 5], [1290, 10, 7], NONE], [0, 0], [&[10, 1290, 650], &[650], &[1290, 650]]),
        // 1290 has 0.1 and 1.1
        (127, [[10, 650, 5], NONE, [650, 1290, 0], [1290, 10, 7]], [0, 0], [&[10], &[650, 10], &[1290, 10]]),
        // 650 has 0.2 and 1.0, by a sum of 272
        (207, [[10, 650, 5], [650, 1290, 0], [1290, 10, 7], NONE], [0, 0], [&[10], &[650, 1290, 10], &[1290, 10]]),
        (254, K5, [1290, 7], [&[10], &[650, 10], &[]]),
        // 10 has 0.1 and 1.1, by a sum of 256
        (255, [[650, 1290, 0], NONE, [1290, 10, 7], [10, 650, 5]], [0, 0], [&[10, 650], &[650], &[1290, 650]]),
    ] {
        let slots = [NONE, in_01, in_02, NONE, in_10, in_11, NONE, NONE];
        let stashed = u32::from(stash != [0, 0]);
        let expected = [&[4, 1, 3, stashed, station], slots.as_flattened(), &stash].concat();
        let mut words = vec![9; 31];
        assert_eq!(beside.init(&mut words, 4, 1, station, &mut counters), 0);
        let mut change = |words: &mut [u32], way, key| {
            assert_eq!(beside.change(way, &tabulation, words, &scratch, &mut counters, key), 0);
        };
        for (key, tier) in members {
            change(&mut words, Insert(tier), key);
        }
        assert_eq!(words, expected, "station {station}");
        let mut left = words.clone();
        for (key, _) in members {
            change(&mut left, Remove, key);
        }
        assert_eq!(left, fresh(4, 1, station), "the station stays");
        assert_eq!(beside.check(&tabulation, &words, &scratch), 0);
        assert_eq!(beside.stash(&words), 0);
        for ((key, tier), trail) in members.into_iter().zip(trails) {
            let found = beside.lookup(&tabulation, &words, key);
            assert_eq!(found, (0, Some(tier)), "{key} at station {station}");
            let traced = beside.trail(&tabulation, &words, &scratch, key, &[7; 3]);
            assert_eq!(traced, (0, trail.to_vec()), "{key} at station {station}");
            let (answer, sale) = beside.open(&tabulation, &words, key, 1_799, &[0; 8]);
            let price = 1_799;
            assert_eq!((answer, sale), (0, Some(Sale { key, tier, price })), "station {station}");
        }
    }
}

/// The answer of a trail, how many keys it has, and the sheet that it was written to.
fn trail_of(tabulation: &[u16], words: &[u32], key: u32) -> (u32, u32, [u32; 8]) {
    let (mut scratch, mut sheet, mut count) = (vec![9; 72], [7; 8], 77);
    let answer = trail(tabulation, words, &mut scratch, key, &mut sheet, &mut count);
    (answer, count, sheet)
}

/// The rows of the test board at every station. The tabulation has the numbers of the test tabulation in the station's
/// stretches, and zeros elsewhere; a key of a row is renamed so that the lowest byte of its first part and the station
/// come to the first part of the row's key, and so that the higher bytes keep the order. Words and trails are those of
/// the row, with the keys renamed, and the station in word 4.
#[test]
fn the_rows_at_every_station() {
    let board = test_tabulation();
    let mut tabulation = vec![0; 2_560];
    for (entry, number) in board.iter().enumerate().filter(|(_, number)| **number != 0) {
        tabulation[1_024 + entry] = *number;
    }
    for station in 0..=255 {
        for (s, keys) in [
            (1, &[170][..]),
            (1, &[10, 170]),
            (1, &[10, 650, 1290]),
            (2, &[10, 650, 1290, 1930]),
            (1, &[170, 650, 1290]),
            (1, &[10, 330, 340, 650, 980]),
            (1, &[10, 340, 650, 980, 2250]),
            (1, &[10, 330, 340, 980, 1930]),
        ] {
            let renamed = |key: u32| match keys.iter().position(|of_row| *of_row == key) {
                Some(place) => 10 * (256 * (1 + place as u32) + (key / 10 + 256 - station) % 256),
                None => key,
            };
            let row = board_of(4, s, keys);
            let mut words = fresh(4, s, station);
            for key in keys {
                let way = Insert(key / 10 % 8);
                assert_eq!(change(way, &tabulation, &mut words, renamed(*key)), 0, "{keys:?}");
            }
            let slot = |slot: &[u32]| [renamed(slot[0]), renamed(slot[1]), slot[2]];
            let place = |place: &[u32]| [renamed(place[0]), place[1]];
            let mut expected = vec![4, s, row[2], row[3], station];
            expected.extend(row[5..29].chunks(3).flat_map(slot));
            expected.extend(row[29..].chunks(2).flat_map(place));
            assert_eq!(words, expected, "{keys:?} at station {station}");
            for key in keys {
                let (answer, count, sheet) = trail_of(&board, &row, *key);
                let there = trail_of(&tabulation, &words, renamed(*key));
                assert_eq!(
                    there,
                    (answer, count, sheet.map(renamed)),
                    "{key} at station {station}"
                );
            }
        }
    }
}

/// The words of K5 with tiers: 10 and 650 on a cycle, at the tiers 3 and 0, and 1290 in the stash, at tier 6. That is
/// full.
fn k5_with_tiers() -> Vec<u32> {
    let mut words = fresh(4, 1, 0);
    for (key, tier) in [(10, 3), (650, 0), (1290, 6)] {
        assert_eq!(change(Insert(tier), &test_tabulation(), &mut words, key), 0);
    }
    words
}

/// The words of K5 as they were without stations, one word shorter: 2 in every call. So it is for all sizes, since such words are even in number, and words with a
/// station are odd.
#[test]
fn words_without_a_station() {
    let mut beside = Beside::new();
    let mut counters = Counters::default();
    let tabulation = test_tabulation();
    let mut words = k5_with_tiers();
    words.remove(4);
    let old = words.clone();
    let scratch = vec![3; scratch_length(4, 1)];
    for way in [Insert(0), Remove] {
        assert_eq!(beside.change(way, &tabulation, &mut words, &scratch, &mut counters, 10), 2);
    }
    assert_eq!((words, counters), (old.clone(), Counters { done: 0, refused: 2 }));
    assert_eq!(beside.check(&tabulation, &old, &scratch), 2);
    assert_eq!(beside.lookup(&tabulation, &old, 10), (2, None));
    assert_eq!(beside.stash(&old), 2);
    assert_eq!(beside.trail(&tabulation, &old, &scratch, 10, &[7; 8]), (2, vec![]));
    assert_eq!(beside.open(&tabulation, &old, 10, 1_799, &STEPS), (2, None));
}

/// Of all refusals that one insert deserves, the first in the order 4, 5, 9, 13, 10, 6, 8 is given. A key that is
/// listed keeps its tier, and no other issue takes its place.
#[test]
fn nine_and_ten_in_their_order() {
    let mut beside = Beside::new();
    let mut counters = Counters::default();
    let tabulation = test_tabulation();
    let scratch = vec![3; scratch_length(4, 1)];
    let mut words = k5_with_tiers();
    let mut insert = |words: &mut [u32], key, tier| {
        beside.change(Insert(tier), &tabulation, words, &scratch, &mut counters, key)
    };
    let sound = words.clone();
    for (key, tier, answer) in [
        (0, 8, 5),
        (0, 0, 5),
        (1, 8, 5),
        (9, 0, 5),
        (20, 8, 9),
        (20, u32::MAX, 9),
        (1930, 8, 9),
        (10, 8, 9),
        (11, 8, 9),
        (1290, 256, 9),
        (1299, 256, 9),
        // 1930, of another first part, has no place
        (11, 3, 13),
        (19, 0, 13),
        (651, 0, 13),
        (1291, 6, 13),
        (1299, 7, 13),
        (10, 2, 10),
        (10, 4, 10),
        (650, 7, 10),
        (1290, 0, 10),
        (10, 3, 6),
        (650, 0, 6),
        (1290, 6, 6),
        (1930, 7, 8),
        (1939, 7, 8),
    ] {
        assert_eq!(insert(&mut words, key, tier), answer, "{key} with tier {tier}");
        assert_eq!(words, sound, "{key} with tier {tier}");
        let mut tampered = sound.clone();
        tampered[2] += 1;
        assert_eq!(insert(&mut tampered, key, tier), 4, "{key} with tier {tier}");
    }
    for tier in 0..=8 {
        let mut words = sound.clone();
        assert_eq!(insert(&mut words, 20, tier), if tier > 7 { 9 } else { 0 });
    }
    // Another tier: taken out, put in again, also with a full stash.
    for (key, tier) in [(10, 4), (650, 7), (1290, 0)] {
        assert_eq!(change(Remove, &tabulation, &mut words, key), 0);
        assert_eq!(change(Insert(tier), &tabulation, &mut words, key), 0);
        let (mut listed, mut found) = (9, 9);
        assert_eq!(lookup(&tabulation, &words, key, &mut listed, &mut found), 0);
        assert_eq!((listed, found), (1, tier));
    }
}

/// The keys of K9.
const K9: [u32; 5] = [10, 330, 340, 650, 980];

/// The words of a board on the test tabulation with these keys, each with a tier of its own.
fn board_of(r: u32, s: u32, keys: &[u32]) -> Vec<u32> {
    let mut words = fresh(r, s, 0);
    for key in keys.iter().rev() {
        assert_eq!(
            change(Insert(key / 10 % 8), &test_tabulation(), &mut words, *key),
            0,
            "{keys:?}"
        );
    }
    words
}

/// The trails of all keys of the rows, read off by hand from where the keys sit, and those of a stashed key, which are empty. Each on a sheet that is just long
/// enough, on a longer one, and on one with a word less, which is refused.
#[test]
fn the_trails_of_the_test_board() {
    let mut beside = Beside::new();
    let tabulation = test_tabulation();
    for (row, r, s, trails, stashed) in [
        ("K2", 4, 1, &[&[170][..]][..], &[][..]),
        ("K3", 4, 1, &[&[10], &[170, 10]], &[]),
        ("K4", 4, 1, &[&[10], &[650, 10]], &[]),
        ("K5", 4, 1, &[&[10], &[650, 10]], &[1290]),
        ("K6", 4, 2, &[&[10], &[650, 10]], &[1290, 1930]),
        ("K7", 4, 1, &[&[10], &[1290, 10]], &[]),
        // 650, the root, is not the smallest: 170 is on no cycle
        ("K8", 4, 1, &[&[170, 650], &[650], &[1290, 650]], &[]),
        ("K9", 4, 1, &[&[10], &[330, 10], &[340, 330, 10], &[650, 10]], &[980]),
        // two components
        ("K10", 4, 1, &[&[10], &[340], &[650, 10], &[980, 340]], &[]),
        ("K11", 4, 1, &[&[10], &[340, 2250, 10], &[650, 10], &[2250, 10]], &[980]),
        ("K12", 1, 0, &[&[50], &[2000, 50]], &[]),
        // the cycles 10, 1930 and 340, 980, joined by 330: the stash takes 1930, so that 10 is on no cycle any more,
        // and 340 is the root
        ("joined", 4, 1, &[&[10, 330, 980, 340], &[330, 980, 340], &[340], &[980, 340]], &[1930]),
    ] {
        let keys: Vec<u32> = trails.iter().map(|trail| trail[0]).chain(stashed.to_vec()).collect();
        let words = board_of(r, s, &keys);
        let scratch = vec![3; scratch_length(r, s)];
        let mut trail =
            |key, length| beside.trail(&tabulation, &words, &scratch, key, &vec![7; length]);
        for expected in trails {
            let (key, length) = (expected[0], expected.len());
            assert_eq!(trail(key, length), (0, expected.to_vec()), "{row}, {key}");
            assert_eq!(trail(key, length + 5), (0, expected.to_vec()), "{row}, {key}");
            assert_eq!(trail(key, length - 1), (11, vec![]), "{row}, {key}");
        }
        for key in stashed {
            assert_eq!(trail(*key, 0), (0, vec![]), "{row}, {key}");
            assert_eq!(trail(*key, 5), (0, vec![]), "{row}, {key}");
        }
    }
}

/// Sheet and count of trails of K9, written out, before and after the call.
#[test]
fn sheets_of_trails_by_hand() {
    let words = board_of(4, 1, &K9);
    for (key, before, answer, count, after) in [
        (340, &[7, 7, 7, 7, 7][..], 0, 3, &[340, 330, 10, 0, 0][..]),
        (340, &[0, 980, 10], 0, 3, &[340, 330, 10]),
        (340, &[7, 8], 11, 77, &[7, 8]),
        (340, &[], 11, 77, &[]),
        (10, &[340], 0, 1, &[10]),
        (10, &[340, 330, 10], 0, 1, &[10, 0, 0]),
        (980, &[7, 8], 0, 0, &[0, 0]),
        (980, &[], 0, 0, &[]),
        (970, &[7, 8], 7, 77, &[7, 8]),
        (981, &[7, 8], 7, 77, &[7, 8]),
        (19, &[7, 8], 7, 77, &[7, 8]),
        (9, &[7, 8], 5, 77, &[7, 8]),
        (0, &[7, 8], 5, 77, &[7, 8]),
    ] {
        let (mut scratch, mut sheet, mut told) = (vec![9; 60], before.to_vec(), 77);
        let got = trail(&test_tabulation(), &words, &mut scratch, key, &mut sheet, &mut told);
        assert_eq!((got, told, &sheet[..]), (answer, count, after), "{key}");
        assert_eq!(scratch, [0; 60]);
    }
}

/// Of all refusals that one trail deserves, the first in the order 1, 2, 3, 4, 5, 7, 11 is given: one cause after the other is mended. A key that has no trail
/// needs no sheet, so that 11 never applies together with 5 or 7.
#[test]
fn the_refusals_of_a_trail_in_their_order() {
    let mut beside = Beside::new();
    let tabulation = test_tabulation();
    let sound = board_of(4, 1, &K9);
    let mut tampered = sound.clone();
    tampered[2] += 1;
    let mut elsewhere = tampered.clone();
    elsewhere[4] = 256;
    for (book, words, scratch, key, sheet, answer) in [
        (&tabulation[1..], &tampered[1..], 55, 9, 0, 1),
        (&tabulation[1..], &elsewhere, 55, 0, 0, 1),
        (&tabulation, &tampered[1..], 55, 9, 0, 2),
        (&tabulation, &elsewhere, 55, 0, 0, 2),
        (&tabulation, &tampered, 55, 9, 0, 3),
        (&tabulation, &tampered, 56, 0, 0, 4),
        (&tabulation, &tampered, 56, 9, 0, 4),
        (&tabulation, &tampered, 56, 340, 0, 4),
        (&tabulation, &tampered, 56, 341, 0, 4),
        (&tabulation, &sound, 56, 0, 0, 5),
        (&tabulation, &sound, 56, 9, 0, 5),
        (&tabulation, &sound, 56, 20, 0, 7),
        (&tabulation, &sound, 56, 341, 0, 7),
        (&tabulation, &sound, 56, 340, 0, 11),
        (&tabulation, &sound, 56, 340, 2, 11),
        (&tabulation, &sound, 56, 340, 3, 0),
        (&tabulation, &sound, 56, 980, 0, 0),
    ] {
        let got = beside.trail(book, words, &vec![3; scratch], key, &vec![7; sheet]);
        assert_eq!(got.0, answer, "{key} on {sheet} words");
    }
    beside.report(&[Kind::Trail]);
}

/// The steps of the sales below, from tier 0 to tier 7.
const STEPS: [i32; 8] = [0, -10, 25, -50, 5, 120, 500, -500];

/// Records of sales of K5, written out, before and after the opening: a card at 179.9 cents and the step of its tier, and refusals, which leave the record.
#[test]
fn records_of_sales_by_hand() {
    let words = k5_with_tiers();
    let old = [71, 72, 73];
    for (key, base, answer, after) in [
        (10, 1_799, 0, [10, 3, 1_749]),
        (650, 1_799, 0, [650, 0, 1_799]),
        (1290, 1_799, 0, [1290, 6, 2_299]),
        (1290, 99_999, 0, [1290, 6, 100_499]),
        (10, 51, 0, [10, 3, 1]),
        (10, 50, 12, old),
        (10, 49, 12, old),
        (650, 1, 0, [650, 0, 1]),
        (650, 0, 12, old),
        (1290, 100_000, 12, old),
        (1930, 1_799, 7, old),
        (11, 1_799, 7, old),
        (1299, 1_799, 7, old),
        (9, 1_799, 5, old),
        (0, 1_799, 5, old),
    ] {
        let mut sale = Sale { key: 71, tier: 72, price: 73 };
        let got = open_sale(&test_tabulation(), &words, key, base, &STEPS, &mut sale);
        assert_eq!((got, [sale.key, sale.tier, sale.price]), (answer, after), "{key} at {base}");
        assert_eq!(close_sale(&sale), after[2], "{key} at {base}");
    }
    assert_eq!(words, k5_with_tiers());
}

/// Sales that stay open while their cards go and come again at another tier: they are closed at the price of nozzle lift, and new ones have the new price. The
/// list becomes what it would be without them.
#[test]
fn sales_that_stay_open() {
    let tabulation = test_tabulation();
    let mut words = k5_with_tiers();
    let open = |words: &[u32], key| {
        let mut sale = Sale { key: 71, tier: 72, price: 73 };
        (open_sale(&tabulation, words, key, 1_799, &STEPS, &mut sale), sale)
    };
    let [(_, of_10), (_, of_1290)] = [10, 1290].map(|key| open(&words, key));
    for key in [10, 1290] {
        assert_eq!(change(Remove, &tabulation, &mut words, key), 0);
    }
    assert_eq!(open(&words, 10), (7, Sale { key: 71, tier: 72, price: 73 }));
    assert_eq!([close_sale(&of_10), close_sale(&of_1290)], [1_749, 2_299]);
    assert_eq!(change(Insert(7), &tabulation, &mut words, 10), 0);
    let (answer, later) = open(&words, 10);
    assert_eq!((answer, later), (0, Sale { key: 10, tier: 7, price: 1_299 }));
    assert_eq!(
        [close_sale(&of_10), close_sale(&later), close_sale(&of_1290)],
        [1_749, 1_299, 2_299]
    );
    let mut others = fresh(4, 1, 0);
    for (key, tier) in [(10, 7), (650, 0)] {
        assert_eq!(change(Insert(tier), &tabulation, &mut others, key), 0);
    }
    assert_eq!(words, others);
}

/// Of all refusals that one opening deserves, the first in the order 1, 2, 5, 7, 4, 12 is given: one cause after the
/// other is mended. The keys 0 and 9 stand nowhere in the tampered words, whose tiers are all above 7, so that 5 goes
/// with 7; where they stand beside such a tier, 5 goes with 4.
#[test]
fn the_refusals_of_a_sale_in_their_order() {
    let mut beside = Beside::new();
    let tabulation = test_tabulation();
    let sound = k5_with_tiers();
    // A key below 10 has the slots 0 and 4, of which 4 is taken, as the one stash place is; the tiers are those of slot
    // 1, slot 4 and the stash place.
    let mut tampered = sound.clone();
    tampered[5] = 20;
    for (at, tier) in [(10, 8), (19, 9), (30, u32::MAX)] {
        tampered[at] = tier;
    }
    let [zero, nine] = [0, 9].map(|key| {
        let mut words = tampered.clone();
        (words[5], words[7]) = (key, 8);
        words
    });
    let mut elsewhere = nine.clone();
    elsewhere[4] = 256;
    let mut miscounted = sound.clone();
    miscounted[2] += 1;
    for (book, words, key, base, steps, answer) in [
        (&tabulation[1..], &tampered[1..], 9, 0, &[][..], 1),
        (&tabulation[1..], &elsewhere, 0, 0, &[], 1),
        (&tabulation, &tampered[1..], 9, 0, &[], 2),
        (&tabulation, &elsewhere, 0, 0, &[], 2),
        (&tabulation, &elsewhere, 10, 1_799, &STEPS, 2),
        (&tabulation, &tampered, 0, 0, &[], 5),
        (&tabulation, &tampered, 9, 0, &[], 5),
        (&tabulation, &zero, 0, 0, &[], 5),
        (&tabulation, &nine, 9, 0, &[], 5),
        (&tabulation, &nine, 9, 1_799, &STEPS, 5),
        (&tabulation, &tampered, 1930, 0, &[], 7),
        (&tabulation, &tampered, 11, 0, &[], 7),
        (&tabulation, &tampered, 1299, 0, &[], 7),
        (&tabulation, &tampered, 10, 0, &[], 4),
        (&tabulation, &tampered, 650, 0, &[], 4),
        (&tabulation, &tampered, 1290, 0, &[], 4),
        (&tabulation, &tampered, 10, 1_799, &STEPS, 4),
        (&tabulation, &sound, 1930, 0, &[], 7),
        (&tabulation, &sound, 11, 0, &[], 7),
        (&tabulation, &sound, 10, 0, &[], 12),
        (&tabulation, &sound, 10, 1_799, &STEPS[1..], 12),
        (&tabulation, &sound, 10, 1_799, &STEPS, 0),
        (&tabulation, &sound, 650, 1_799, &STEPS, 0),
        (&tabulation, &sound, 1290, 1_799, &STEPS, 0),
        // no image, but the tier found is right
        (&tabulation, &miscounted, 10, 1_799, &STEPS, 0),
    ] {
        let (got, _) = beside.open(book, words, key, base, steps);
        assert_eq!(got, answer, "{key} at {base} with {steps:?}");
    }
    beside.report(&[Kind::Open]);
}

/// Key 170 in each of its two slots, in each of three stash places, and in a slot that is not its own, with a tier of
/// its own in each; where it does not stand, another issue does. A lookup gives the first of the five where it may
/// stand, and a sale has its price, or is refused with 4. The words are no image.
#[test]
fn the_first_of_several_copies() {
    let mut beside = Beside::new();
    let tabulation = test_tabulation();
    let tiers = [4, 9, 7, 0, u32::MAX];
    for mask in 0..32u32 {
        let mut words = fresh(4, 3, 0);
        words[5..8].copy_from_slice(&[170, 170, 1]);
        for (bit, at) in [5 + 3, 5 + 3 * 5, 29, 31, 33].into_iter().enumerate() {
            let here = mask >> bit & 1 == 1;
            words[at] = if here { 170 } else { 171 };
            words[at + if bit < 2 { 2 } else { 1 }] = tiers[bit];
        }
        let first = (0..5).find(|bit| mask >> bit & 1 == 1).map(|bit| tiers[bit]);
        assert_eq!(beside.lookup(&tabulation, &words, 170), (0, first), "{mask:05b}");
        let (answer, sale) = beside.open(&tabulation, &words, 170, 1_799, &STEPS);
        let expected = match first {
            None => (7, None),
            Some(4) => (0, Some(1_804)),
            Some(7) => (0, Some(1_299)),
            Some(0) => (0, Some(1_799)),
            Some(_) => (4, None),
        };
        assert_eq!((answer, sale.map(|sale| sale.price)), expected, "{mask:05b}");
        assert_eq!(beside.check(&tabulation, &words, &vec![1; scratch_length(4, 3)]), 4);
    }
}

/// Keys without a first part, in every call that takes a key, whatever else is wrong with tier, sheet and price; and
/// the smallest key that has one.
#[test]
fn keys_below_ten() {
    let mut beside = Beside::new();
    let mut counters = Counters::default();
    let tabulation = test_tabulation();
    let scratch = vec![3; scratch_length(4, 1)];
    let mut words = k5_with_tiers();
    for (key, [inserted, removed, traced, opened, rest]) in
        (0..10).map(|key| (key, [5; 5])).chain([(10, [9, 0, 11, 12, 0])])
    {
        let mut change =
            |way| beside.change(way, &tabulation, &mut words, &scratch, &mut counters, key);
        assert_eq!([Insert(8), Remove].map(&mut change), [inserted, removed], "{key}");
        let words = k5_with_tiers();
        assert_eq!(beside.trail(&tabulation, &words, &scratch, key, &[]).0, traced, "{key}");
        assert_eq!(beside.open(&tabulation, &words, key, 0, &[]).0, opened, "{key}");
        assert_eq!(beside.lookup(&tabulation, &words, key).0, rest, "{key}");
        assert_eq!(beside.hashes(&tabulation, 4, 0, key), rest, "{key}");
    }
    assert_eq!((counters.done, counters.refused), (1, 21));
}

/// 4,294,967,295 on the test board: its first part is 429,496,729, whose lowest byte is 153, so that it has the slots
/// 0.1 and 1.1. Of that first part there are six issues.
#[test]
fn the_largest_key() {
    let tabulation = test_tabulation();
    let mut words = fresh(4, 0, 0);
    assert_eq!(change(Insert(6), &tabulation, &mut words, u32::MAX), 0);
    let [none, largest] = [[0; 3], [u32::MAX, u32::MAX, 6]];
    let slots = [none, largest, none, none, none, largest, none, none];
    assert_eq!(words, [&[4, 0, 1, 0, 0], slots.as_flattened()].concat());
    for other in 4_294_967_290..u32::MAX {
        assert_eq!(change(Insert(6), &tabulation, &mut words, other), 13, "{other}");
        assert_eq!(change(Remove, &tabulation, &mut words, other), 7, "{other}");
    }
    assert_eq!(change(Insert(6), &tabulation, &mut words, 4_294_967_289), 0);
    assert_eq!(change(Remove, &tabulation, &mut words, u32::MAX), 0);
    assert_eq!(change(Insert(6), &tabulation, &mut words, 4_294_967_290), 0);
}

/// The keys of K9, each with each of its other issues.
fn other_issues() -> Vec<(u32, u32)> {
    K9.iter().flat_map(|key| (1..10).map(move |issue| (*key, key + issue))).collect()
}

/// The keys of K9, each with all its other issues: the same two slots, but no call takes one for the other. An insert
/// is refused with 13 at every tier, though the stash is full, and the words stay.
#[test]
fn other_issues_in_every_call() {
    let mut beside = Beside::new();
    let mut counters = Counters::default();
    let tabulation = test_tabulation();
    let scratch = vec![3; scratch_length(4, 1)];
    let words = board_of(4, 1, &K9);
    for (key, issue) in other_issues() {
        let mut copy = words.clone();
        let mut change =
            |way| beside.change(way, &tabulation, &mut copy, &scratch, &mut counters, issue);
        for tier in 0..8 {
            assert_eq!(change(Insert(tier)), 13, "{issue} with tier {tier}");
        }
        assert_eq!([Insert(8), Remove].map(change), [9, 7], "{issue}");
        assert_eq!(copy, words, "{issue}");
        assert_eq!(
            beside.trail(&tabulation, &words, &scratch, issue, &[7; 8]),
            (7, vec![]),
            "{issue}"
        );
        assert_eq!(beside.open(&tabulation, &words, issue, 1_799, &STEPS), (7, None), "{issue}");
        assert_eq!(beside.lookup(&tabulation, &words, issue), (0, None), "{issue}");
        let slots = [key, issue].map(|key| library::hashes(&tabulation, 4, 0, key, [9, 9]));
        assert_eq!(slots[0], slots[1], "{issue}");
    }
    assert_eq!((counters.done, counters.refused), (0, 450));
}

/// Each key of K9 replaced by each other issue of it: the words are those of the set with the other issue, and nothing
/// tells which one was there before. With 13 in the place of 10 they are written out.
#[test]
fn a_key_that_is_made_again() {
    let tabulation = test_tabulation();
    let replaced = |from: u32, to: u32| {
        let mut words = board_of(4, 1, &K9);
        assert_eq!(change(Remove, &tabulation, &mut words, from), 0, "{from}");
        assert_eq!(change(Insert(to / 10 % 8), &tabulation, &mut words, to), 0, "{to} for {from}");
        words
    };
    for (key, issue) in other_issues() {
        let others = K9.map(|of_set| if of_set == key { issue } else { of_set });
        assert_eq!(replaced(key, issue), board_of(4, 1, &others), "{issue} for {key}");
    }
    let none = [0; 3];
    let in_table_0 = [none, [13, 330, 1], [340, 650, 2], none];
    let in_table_1 = [[650, 13, 1], none, [330, 340, 1], none];
    let slots = [in_table_0, in_table_1];
    let expected = [&[4, 1, 5, 1, 0], slots.as_flattened().as_flattened(), &[980, 2]].concat();
    assert_eq!(replaced(10, 13), expected);
}

/// Words of a board with r = 4 and s = 2, all of whose keys have the same slot in table 0, this one, and the slot 1.0:
/// two of them sit there, and the rest is stashed. All are at tier 5.
fn crowd(slot: usize, [first, second]: [u32; 2], stash: [u32; 2]) -> Vec<u32> {
    let stashed = stash.iter().filter(|key| **key != 0).count() as u32;
    let mut words = vec![4, 2, 2 + stashed, stashed, 0];
    words.resize(words_length(4, 2), 0);
    words[5 + 3 * slot..][..3].copy_from_slice(&[first, second, 5]);
    words[5 + 3 * 4..][..3].copy_from_slice(&[second, first, 5]);
    for (place, key) in stash.into_iter().enumerate().filter(|(_, key)| *key != 0) {
        words[5 + 6 * 4 + 2 * place..][..2].copy_from_slice(&[key, 5]);
    }
    words
}

/// Words that are neatly seated and stashed, but have two issues of one first part, or a key without one: no set has
/// them, and every call that asks for an image answers 4. Beside each stand the words of a set that have the same form.
#[test]
fn neatly_seated_but_no_set() {
    let mut beside = Beside::new();
    let tabulation = test_tabulation();
    for (slot, seats, stash, answer) in [
        (1, [10, 650], [0, 0], 0),
        (1, [10, 11], [0, 0], 4),
        (1, [11, 10], [0, 0], 4),
        (1, [10, 650], [1290, 0], 0),
        (1, [10, 650], [651, 0], 4),
        (1, [10, 650], [11, 0], 4),
        (1, [10, 11], [650, 0], 4),
        (1, [10, 650], [1290, 1930], 0),
        (1, [10, 650], [1290, 1291], 4),
        (1, [10, 650], [1291, 1290], 4),
        (1, [10, 11], [12, 13], 4),
        // 1 to 9 would have the slots of 640
        (0, [640, 1280], [0, 0], 0),
        (0, [1, 640], [0, 0], 4),
        (0, [9, 640], [0, 0], 4),
        (0, [5, 9], [0, 0], 4),
        (0, [640, 1280], [1920, 0], 0),
        (0, [5, 640], [1280, 0], 4),
        (0, [640, 1280], [9, 0], 4),
        (0, [640, 1280], [9, 1920], 4),
        (0, [1, 2], [3, 4], 4),
    ] {
        let words = crowd(slot, seats, stash);
        let scratch = vec![3; scratch_length(4, 2)];
        let mut target = vec![3; words.len()];
        let (_, lost) = beside.salvage(&tabulation, &words, &mut target, &scratch);
        assert_eq!(target == words && lost == Some(0), answer == 0, "a salvage of {words:?}");
        let mut answers = vec![beside.check(&tabulation, &words, &scratch)];
        for key in [seats[0], 19, 9, 20] {
            for way in [Insert(5), Remove] {
                let (mut copy, mut counters) = (words.clone(), Counters::default());
                answers.push(beside.change(
                    way,
                    &tabulation,
                    &mut copy,
                    &scratch,
                    &mut counters,
                    key,
                ));
                assert!(answer == 0 || copy == words, "{way:?} of {key} changed {words:?}");
            }
            answers.push(beside.trail(&tabulation, &words, &scratch, key, &[7; 8]).0);
        }
        assert!(
            answers.iter().all(|number| (*number == 4) == (answer == 4)),
            "{answers:?}: {words:?}"
        );
        for key in seats.into_iter().chain(stash).filter(|key| *key != 0) {
            let found = if key < 10 { (5, None) } else { (0, Some(5)) };
            assert_eq!(beside.lookup(&tabulation, &words, key), found, "{key} in {words:?}");
        }
    }
}

#[test]
fn the_house_tabulation() {
    let mut beside = Beside::new();
    for length in [0, 1, 2_048, 2_559, 2_560, 2_561] {
        beside.house(length);
    }
    beside.report(&[Kind::House]);
}

/// Headings at the edges of their ranges and of 32 bits, with lengths that go with some: nothing wraps, and nothing is
/// read outside.
#[test]
fn huge_headings_and_wrong_lengths() {
    let mut beside = Beside::new();
    let tabulation = test_tabulation();
    let wrapping = [0x2AAA_AAAB, 1 << 31, 0x8000_0001, 0xFFFF_FFFC, u32::MAX];
    let headings = [&[0, 1, 2, 64, 65, 1_024, 1_025][..], &wrapping].concat();
    let stations = [0, 255, 256, u32::MAX];
    for length in (0..20).chain([139, 389, 6_149, words_length(1_024, 64), 6_279]) {
        for r in headings.iter().copied() {
            for [s, station] in headings.iter().flat_map(|s| stations.map(|station| [*s, station]))
            {
                let mut words: Vec<u32> = (0..length as u32).map(|i| i % 40 * 10).collect();
                for (at, value) in [(0, r), (1, s), (4, station)] {
                    if let Some(word) = words.get_mut(at) {
                        *word = value;
                    }
                }
                beside.stash(&words);
                let (laid, mut target) = ([r, s, station], words.clone());
                let mut counters = Counters { done: u32::MAX, refused: u32::MAX };
                for input in [&[][..], &[40, 7, 50, 0]] {
                    let target = &mut target[..];
                    beside.bulk_load(&tabulation, target, &[1; 40], &mut counters, laid, input);
                }
                assert_eq!([counters.done, counters.refused], [u32::MAX; 2], "a count stays");
                beside.check(&tabulation, &words, &[1; 40]);
                for more in [0, 1] {
                    let mut area = vec![3; length + more];
                    beside.salvage(&tabulation, &words, &mut area, &[1; 40]);
                }
                beside.trail(&tabulation, &words, &[1; 40], 40, &[2; 3]);
                for (key, start) in [(0, 0), (9, 0), (40, 0), (50, 0), (51, 0), (70, 1)] {
                    beside.lookup(&tabulation[start..], &words, key);
                    beside.open(&tabulation[start..], &words, key, 1_799, &STEPS);
                }
            }
        }
    }
    beside.report(&[Kind::Lookup, Kind::Stash]);
}
