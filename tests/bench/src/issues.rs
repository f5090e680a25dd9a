//! Issues of one first part: every partner must refuse another issue of a listed key, and an input with two issues of
//! one (13), and words in which two issues stand (4), however neatly they are seated. And a bulk load must lead to the
//! words that an insert leads to.

use reference::hash::TABULATION_LEN;
use reference::set::Member;

use crate::cases::{input_of, numbered, Board, CASES};
use crate::common::{first_part, HEADER, SLOT};
use crate::partners::{Call, Partner, PARTNERS};
use crate::timing::{bulk_load, change, CHANGES};

/// Where the number of keys stands in the words.
const KEY_COUNT: usize = 2;

/// Another issue of a key: with the digit before its own, since the last key of all has none with the digit after it.
pub fn another_issue(key: u32) -> u32 {
    match key % 10 {
        0 => key + 1,
        _ => key - 1,
    }
}

/// Seats a second key beside the first one that has its two slots to itself, as the image of the set with both has them
/// if they share these slots: a cycle of two, of which the smaller key sits in table 0. False if no key is alone.
pub fn seat_beside(words: &mut [u32], second: impl Fn(u32) -> u32) -> bool {
    let r = words[0] as usize;
    let slots = |table: usize| (HEADER + SLOT * r * table..).step_by(SLOT).take(r);
    let alone = slots(0).filter(|one| words[*one] != 0 && words[*one + 1] == words[*one]);
    let mut both =
        alone.filter_map(|one| Some((one, slots(1).find(|two| words[*two] == words[one])?)));
    let Some((one, two)) = both.next() else { return false };
    let (key, tier) = (words[one], words[one + 2]);
    let second = second(key);
    let (low, high) = (key.min(second), key.max(second));
    words[one..one + SLOT].copy_from_slice(&[low, high, tier]);
    words[two..two + SLOT].copy_from_slice(&[high, low, tier]);
    // It may have been tampered with before.
    words[KEY_COUNT] = words[KEY_COUNT].wrapping_add(1);
    true
}

/// Every partner gives this answer to what is asked, leaves the same words (refused, those that it was lent), and
/// clears its scratch. The words that are left.
fn all_answer(
    answer: u32,
    words: &[u32],
    what: &str,
    ask: impl Fn(&Partner, &mut [u32], &mut [u32]) -> u32,
) -> Vec<u32> {
    let left = PARTNERS.each_ref().map(|partner| {
        let mut left = words.to_vec();
        let mut scratch = vec![u32::MAX; library::scratch_length(words[0], words[1])];
        let given = ask(partner, &mut left, &mut scratch);
        assert_eq!(given, answer, "{what} by {}", partner.name);
        assert!(scratch.iter().all(|word| *word == 0), "scratch is not zero: {}", partner.name);
        left
    });
    let wanted = if answer == 0 { &left[0] } else { words };
    assert!(left.iter().all(|left| left == wanted), "words of {what}");
    wanted.to_vec()
}

/// To a call on one key, or on none.
fn all_give(
    answer: u32,
    tabulation: &[u16],
    words: &[u32],
    call: Call,
    member: Member,
) -> Vec<u32> {
    let what = format!("{} of {member:?}", call.name());
    all_answer(answer, words, &what, |partner, words, scratch| {
        change(partner, call, tabulation, member, words, scratch)
    })
}

/// To a bulk load.
fn all_load(answer: u32, tabulation: &[u16], words: &[u32], members: &[Member]) -> Vec<u32> {
    let input = input_of(members);
    all_answer(answer, words, "a bulk load", |partner, words, scratch| {
        bulk_load(partner, tabulation, &input, words, scratch)
    })
}

/// Words written by hand, of a lone key or of two that share their slots. Each list that is refused has one beside it
/// that is accepted and differs in a key alone, so that it is refused for that key: blank, or another issue.
fn by_hand() {
    let book = [0; TABULATION_LEN];
    let lone = |key: u32| [1, 1, 1, 0, 9, key, key, 3, key, key, 3, 0, 0];
    for (key, answer) in [(1, 4), (9, 4), (10, 0)] {
        all_give(answer, &book, &lone(key), Call::Check, (0, 0));
    }
    for (second, answer) in [(119, 0), (121, 4), (129, 4), (130, 0)] {
        let mut words = lone(120);
        assert!(seat_beside(&mut words, |_| second), "a lone key is found");
        for (call, key) in [(Call::Insert, 240), (Call::Remove, 120), (Call::Check, 0)] {
            all_give(answer, &book, &words, call, (key, 0));
        }
    }
    for (key, answer) in [(9, 5), (119, 0), (120, 10), (121, 13), (129, 13), (130, 0)] {
        all_give(answer, &book, &lone(120), Call::Insert, (key, 0));
    }
    for (keys, answer) in [([119, 120], 0), ([120, 120], 14), ([120, 129], 13), ([120, 130], 0)] {
        all_load(answer, &book, &lone(240), &keys.map(|key| (key, 0)));
    }
}

/// A bulk load of the set with the extra key leads to the words that its insert leads to. With another issue of a key
/// the input is refused.
fn loads(book: &[u16], board: &Board, other: Member) {
    let inserted = all_give(0, book, &board.words, Call::Insert, board.extra);
    let loaded = all_load(0, book, &board.words, &board.with_extra());
    assert!(loaded == inserted, "a bulk load does not lead to the words of an insert");
    let mut doubled = board.members.clone();
    doubled.push(other);
    doubled.sort_unstable();
    all_load(13, book, &board.words, &doubled);
}

/// On the first board of each case, and by hand.
pub fn run() {
    by_hand();
    let (mut others, mut doubled) = (0, 0);
    for case in (0..CASES).map(|number| numbered(number, 1)) {
        let (board, book) = (&case.boards[0], &case.tabulation);
        let keys = board.keys();
        assert!(keys.windows(2).all(|pair| first_part(pair[0]) < first_part(pair[1])));
        for key in [keys[0], keys[keys.len() / 2], keys[keys.len() - 1]] {
            let other = (another_issue(key), board.extra.1);
            all_give(13, book, &board.words, Call::Insert, other);
            all_give(7, book, &board.words, Call::Remove, other);
            loads(book, board, other);
            others += 1;
        }
        let mut words = board.words.clone();
        if seat_beside(&mut words, another_issue) {
            for call in CHANGES {
                all_give(4, book, &words, call, board.extra);
            }
            doubled += 1;
        }
    }
    assert!(doubled > 0, "no case has a lone key");
    println!("All partners refuse {others} other issues of listed keys (13), and {doubled} lists with two issues (4).");
    println!("A bulk load leads to the words of an insert in all {CASES} cases.");
}
