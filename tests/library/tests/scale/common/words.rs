//! Words taken apart: what each word is, where a key stands, and which of its copies a lookup meets; and how the
//! answers on damaged words hang together.

use library::beside::Beside;
use library::{entries, HEADER_LENGTH};
use reference::hash::hashes;

use super::{sale_at, BASE, STEPS};

/// What a word of words of the right shape is.
#[derive(Clone, Copy, Debug, PartialEq, Eq, PartialOrd, Ord)]
pub enum Word {
    Heading,
    Station,
    Key,
    Next,
    Tier,
    StashKey,
    StashTier,
}

/// What a word is, and the key that it stands with: 0 where that is none.
pub fn word_at(words: &[u32], at: usize) -> (Word, u32) {
    let stash = HEADER_LENGTH + 6 * words[0] as usize;
    if at < HEADER_LENGTH {
        (if at == 4 { Word::Station } else { Word::Heading }, 0)
    } else if at < stash {
        let which = (at - HEADER_LENGTH) % 3;
        ([Word::Key, Word::Next, Word::Tier][which], words[at - which])
    } else {
        let which = (at - stash) % 2;
        ([Word::StashKey, Word::StashTier][which], words[at - which])
    }
}

/// Where a key stands in sound words.
#[derive(Clone, Copy, Debug, PartialEq, Eq, PartialOrd, Ord)]
pub enum Seat {
    Table0,
    Table1,
    /// In both its slots: it is the smallest of a tree.
    Both,
    Stash,
}

/// Where a key of the set stands.
pub fn seat(words: &[u32], key: u32) -> Seat {
    let r = words[0] as usize;
    let here = entries(words).enumerate().filter(|(_, (listed, ..))| *listed == key);
    match here.map(|(at, _)| at).collect::<Vec<usize>>()[..] {
        [_, _] => Seat::Both,
        [at] if at < r => Seat::Table0,
        [at] if at < 2 * r => Seat::Table1,
        [_] => Seat::Stash,
        _ => panic!("{key} does not stand in {words:?} once or twice"),
    }
}

/// Whether a key, if any, stands in two slots of sound words.
pub fn stands_twice(words: &[u32], key: u32) -> bool {
    key != 0 && seat(words, key) == Seat::Both
}

/// The tier words of all copies of a key that a lookup can meet, in word order: in its slot of table 0, in its slot of
/// table 1, in the stash places.
pub fn copies(tabulation: &[u16], words: &[u32], key: u32) -> Vec<u32> {
    let r = words[0] as usize;
    let [first, second] =
        hashes(tabulation, words[0], words[4], key).expect("a sound book, r, station and key");
    let slot = |slot: usize| &words[HEADER_LENGTH + 3 * slot..][..3];
    let slots = [first as usize, r + second as usize].map(slot);
    let in_slots = slots.into_iter().filter(|slot| slot[0] == key).map(|slot| slot[2]);
    let places = words[HEADER_LENGTH + 6 * r..].chunks_exact(2);
    in_slots.chain(places.filter(|place| place[0] == key).map(|place| place[1])).collect()
}

/// The answer of insert, remove or trail as check gives it: all others are tried behind what check can answer.
pub fn as_check(answer: u32) -> u32 {
    if answer > 4 {
        0
    } else {
        answer
    }
}

/// The answer of an opening on words that may be damaged, and of which check answers this: beyond a wrong shape only
/// the tier counts that a lookup finds.
pub fn damaged_sale(
    beside: &mut Beside,
    tabulation: &[u16],
    words: &[u32],
    key: u32,
    checked: u32,
) -> u32 {
    let mut open = |key| beside.open(tabulation, words, key, BASE, &STEPS);
    let sales = [key, 0, 9].map(&mut open);
    if checked == 2 {
        assert_eq!(sales, [(2, None); 3], "{words:?}");
        return 2;
    }
    let tier = copies(tabulation, words, key).first().copied();
    assert_eq!(sales, [sale_at(key, tier), (5, None), (5, None)], "{key} in {words:?}");
    sale_at(key, tier).0
}
