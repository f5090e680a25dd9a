//! Document 01's "Other edges", the exact lengths, look-ups in damaged words, the stash view as
//! part of the borrowed words, and the counters at their end.

use reference::answer::{Found, Refusal};
use reference::calls::{check, init, insert, lookup, remove, stash, stash_answer};
use reference::counters::Counters;
use reference::fast::{self, Fast};
use reference::house::HOUSE;
use reference::rng::Rng;
use reference::samples::test_tabulation;

use crate::common::{engines, hand_words, Harness, Tally};

/// The scratch is long enough from 12r + 8s on.
#[test]
fn the_scratch_needs_its_full_length() {
    for (_, engine) in engines() {
        for (r, s, enough) in [(1, 0, 12), (1, 1, 20), (4, 1, 56), (2, 3, 48)] {
            let mut list = Harness::new(engine, &test_tabulation(), r, s, 0);
            assert_eq!(list.scratch_len, enough);
            list.scratch_len -= 1;
            assert_eq!(list.insert(50, 1), Err(Refusal::ShortScratch));
            assert_eq!(list.remove(50), Err(Refusal::ShortScratch));
            assert_eq!(list.check(), Err(Refusal::ShortScratch));
            list.scratch_len += 1;
            assert_eq!(list.insert(50, 1), Ok(()));
            assert_eq!(list.check(), Ok(()));
            assert_eq!(list.remove(50), Ok(()));
        }
    }
}

/// The answer of init and the words it leaves, which all held 9 before.
fn init_on(r: u32, s: u32, station: u32, len: usize) -> (Result<(), Refusal>, Vec<u32>) {
    let mut words = vec![9; len];
    let mut counters = Counters::default();
    let answer = init(r, s, station, &mut words, &mut counters);
    let counted = Counters { done: answer.is_ok().into(), refused: answer.is_err().into() };
    assert_eq!(counters, counted, "a refused init counts too");
    (answer, words)
}

#[test]
fn init_leaves_r_s_station_and_zeros() {
    for (r, s) in [(1, 0), (1, 1), (3, 7), (1_024, 64), (1_024, 0), (1, 64)] {
        for station in [0, 1, 9, 254, 255] {
            let (answer, words) = init_on(r, s, station, (5 + 6 * r + 2 * s) as usize);
            assert_eq!(answer, Ok(()));
            assert_eq!(words, hand_words(r, s, station, 0, &[], &[]));
        }
    }
    let smallest = init_on(1, 1, 200, 13);
    assert_eq!(smallest, (Ok(()), vec![1, 1, 0, 0, 200, 0, 0, 0, 0, 0, 0, 0, 0]));
}

#[test]
fn init_refuses_other_shapes_and_leaves_the_words() {
    let shapes = [
        (1_025, 64, 0, 5 + 6 * 1_025 + 2 * 64),
        (1_024, 65, 0, 5 + 6 * 1_024 + 2 * 65),
        (0, 1, 0, 7),
        (0, 0, 0, 5),
        (0, 0, 0, 0),
        (1, 1, 0, 14),
        (1, 1, 0, 0),
        (1, 1, 0, 4),
        (1, 1, 0, 5),
        // The lengths without the station.
        (1, 1, 0, 12),
        (1, 0, 0, 10),
        (1_024, 64, 0, 4 + 6 * 1_024 + 2 * 64),
        // The lengths without tiers.
        (1, 1, 0, 9),
        (1, 0, 0, 8),
        (1_024, 64, 0, 4 + 4 * 1_024 + 64),
        (u32::MAX, 0, 0, 0),
        (1, u32::MAX, 0, 9),
        // In 32-bit arithmetic 5 + 6r + 2s would wrap to the length of r = 1, s = 1.
        (1 + (1 << 31), 1, 0, 13),
        (1, 1 + (1 << 31), 0, 13),
        (2, u32::MAX - 1, 0, 13),
        (2, (1 << 31) - 2, 0, 13),
        // The lengths are right, but for the last.
        (1, 1, 256, 13),
        (1, 1, 257, 13),
        (1, 1, 512, 13),
        (1, 1, 1 << 31, 13),
        (1, 1, u32::MAX, 13),
        (1_024, 64, 256, 5 + 6 * 1_024 + 2 * 64),
        (1, 1, 256, 12),
    ];
    for (r, s, station, len) in shapes {
        let refused = (Err(Refusal::WrongShape), vec![9; len]);
        assert_eq!(init_on(r, s, station, len), refused, "{r} {s} {station} {len}");
    }
}

/// Any r, s, station and length, each now and then at its limit, over it or one too long or short.
#[test]
fn init_answers_any_input() {
    let mut rng = Rng::new(131);
    let mut tally = Tally::default();
    for _ in 0..2_000 {
        let mut number_to = |most: u32| match rng.below(12) {
            0 => most + 1 + rng.below(3) as u32,
            1 => rng.next_u32(),
            2 => 0,
            3 => most,
            _ => rng.below(most as usize + 1) as u32,
        };
        let (r, s, station) = (number_to(1_024), number_to(64), number_to(255));
        let right_len = 5 + 6 * u64::from(r) + 2 * u64::from(s);
        let len = match rng.below(6) {
            0 => right_len - 1,
            1 => right_len + 1,
            _ => right_len,
        };
        // No words are that long; the answer is 2 for any other length, too.
        let len = if len > 10_000 { 13 } else { len as usize };
        let wrong_len = len as u64 != right_len;
        let wrong_r_or_s = r == 0 || r > 1_024 || s > 64;
        let (answer, words) = init_on(r, s, station, len);
        if wrong_len || wrong_r_or_s || station > 255 {
            assert_eq!((answer, words), (Err(Refusal::WrongShape), vec![9; len]));
            let station_alone = !wrong_len && !wrong_r_or_s;
            tally.add(if station_alone { "2 for the station alone" } else { "2" });
        } else {
            assert_eq!((answer, words), (Ok(()), hand_words(r, s, station, 0, &[], &[])));
            tally.add("0");
        }
    }
    tally.report("init", &["0", "2", "2 for the station alone"]);
}

#[test]
fn the_largest_list_and_the_largest_key_are_accepted() {
    for (_, engine) in engines() {
        let mut list = Harness::new(engine, &HOUSE, 1_024, 64, 255);
        assert_eq!(list.insert(u32::MAX, 7), Ok(()));
        assert_eq!(list.check(), Ok(()));
        assert_eq!(lookup(&HOUSE, &list.words, u32::MAX), Ok(Found::Listed(7)));
        assert_eq!(lookup(&HOUSE, &list.words, u32::MAX - 1), Ok(Found::Absent));
        assert_eq!(list.insert(u32::MAX - 1, 7), Err(Refusal::OtherIssue));
        assert_eq!(list.words[2..4], [1, 0]);
        assert_eq!(list.remove(u32::MAX), Ok(()));
        assert_eq!(list.words, hand_words(1_024, 64, 255, 0, &[], &[]));
        assert_eq!(list.insert(9, 0), Err(Refusal::BlankKey));
        assert_eq!(list.insert(10, 0), Ok(()), "the smallest key");
        assert_eq!(list.check(), Ok(()));
    }
}

/// Both ways to look a key up; they must agree.
fn found(words: &[u32], key: u32) -> Result<Found, Refusal> {
    let found = lookup(&test_tabulation(), words, key);
    assert_eq!(found, fast::lookup(&test_tabulation(), words, key));
    found
}

#[test]
fn lookup_reads_its_slots_and_all_stash_words_of_a_damaged_list() {
    // Key 170 stands in a slot of another key, in a next word, in tier words and in the header, as
    // count and as station: all not seen. Nor are its first part and its other issues.
    let entries =
        [(0, 2, 170, 170, 1), (1, 3, 50, 170, 170), (0, 1, 17, 50, 170), (1, 1, 171, 0, 170)];
    let words = hand_words(4, 3, 170, 170, &entries, &[(17, 170), (0, 170), (179, 170)]);
    assert_eq!(found(&words, 170), Ok(Found::Absent));
    // In either of its own slots alone, whatever the counts say: seen.
    let in_table_0 = hand_words(4, 3, 0, 0, &[(0, 1, 170, 0, 2)], &[]);
    assert_eq!(found(&in_table_0, 170), Ok(Found::Listed(2)));
    let in_table_1 = hand_words(4, 3, 0, 0, &[(1, 1, 170, 0, 3)], &[]);
    assert_eq!(found(&in_table_1, 170), Ok(Found::Listed(3)));
    // In the last stash place beyond what word 3 says: seen.
    let mut words = hand_words(4, 3, 0, 0, &[], &[]);
    words[33..].copy_from_slice(&[170, 4]);
    assert_eq!((words[3], words.len()), (0, 35));
    assert_eq!(found(&words, 170), Ok(Found::Listed(4)));
    assert_eq!(found(&words, 17), Ok(Found::Absent));
    for blank in 0..10 {
        words[33] = blank;
        assert_eq!(found(&words, blank), Err(Refusal::BlankKey));
    }
}

#[test]
fn the_stash_view_is_the_filled_part_of_the_borrowed_words() {
    let mut words = hand_words(2, 3, 6, 0, &[], &[]);
    words[17..].copy_from_slice(&[9, 1, 8, 0, 7, 99]);
    // The view trusts word 3, also in words that are no image.
    for filled in 0..=3 {
        words[3] = filled;
        let view = stash(&words);
        assert_eq!(stash_answer(&words), Ok(()));
        assert_eq!(view, &[9, 1, 8, 0, 7, 99][..2 * filled as usize], "both words of each place");
        assert!(std::ptr::eq(view.as_ptr(), &words[17]), "no copy");
    }
    for beyond in [4, 6, 64, 1 << 31, u32::MAX] {
        words[3] = beyond;
        assert_eq!(stash_answer(&words), Err(Refusal::NotCanonical));
        assert!(stash(&words).is_empty());
    }
    words.pop();
    assert_eq!(stash_answer(&words), Err(Refusal::WrongShape));
    assert!(stash(&words).is_empty());
    // With s = 0 the view is the empty part at the end of the words.
    let words = hand_words(2, 0, 0, 0, &[], &[]);
    assert_eq!((stash_answer(&words), stash(&words)), (Ok(()), &[][..]));
}

#[test]
fn counters_stay_at_their_end_and_nothing_depends_on_them() {
    let full = Counters { done: u32::MAX, refused: u32::MAX };
    let almost = Counters { done: u32::MAX - 1, refused: u32::MAX - 1 };
    for (start, done) in [(full, u32::MAX), (almost, u32::MAX)] {
        let mut counters = start;
        let mut words = vec![0; 13];
        let mut scratch = vec![1; 20];
        assert_eq!(init(1, 1, 7, &mut words, &mut counters), Ok(()));
        assert_eq!(counters, Counters { done, refused: start.refused });
        let tabulation = test_tabulation();
        let inserted = insert(&Fast, &tabulation, &mut words, &mut scratch, &mut counters, 50, 6);
        assert_eq!(inserted, Ok(()));
        let removed = remove(&Fast, &tabulation, &mut words, &mut scratch, &mut counters, 50);
        assert_eq!(removed, Ok(()));
        assert_eq!(counters, Counters { done, refused: start.refused });
        let refused = insert(&Fast, &tabulation, &mut words, &mut scratch, &mut counters, 50, 8);
        assert_eq!(refused, Err(Refusal::WrongTier));
        assert_eq!(counters, full);
        let refused = remove(&Fast, &tabulation, &mut words, &mut scratch, &mut counters, 50);
        assert_eq!(refused, Err(Refusal::NotListed));
        assert_eq!(counters, full);
        assert_eq!(check(&Fast, &tabulation, &words, &mut scratch), Ok(()));
        assert_eq!(counters, full);
    }
}
