//! A stolen-card list in plain Rust, with the promise of the library's and its algorithm, step by step: the same ways,
//! the same hash, and the same test of all words before an insert, over slices with the bounds tests of safe Rust,
//! which proved code does not have.

use crate::common::{is_blank, Hashing};

const MAX_SLOTS: usize = 1_024;

/// A number below twice the slots as a slot, round the end.
#[inline]
fn wrapped(slots: usize, number: usize) -> usize {
    if number < slots {
        number
    } else {
        number - slots
    }
}

/// Whether a way from a slot on comes to a key: over smaller keys, a full round at most.
#[inline]
fn is_found(words: &[u32], start: usize, key: u32) -> bool {
    let mut slot = start;
    for _ in 0..words.len() {
        let word = words[slot];
        if key <= word {
            return word == key;
        }
        if word == 0 {
            return false;
        }
        slot = wrapped(words.len(), slot + 1);
    }
    false
}

/// A key takes the first empty slot on its way, or that of the first larger key, which goes on in its place.
#[inline]
fn carry(words: &mut [u32], start: usize, key: u32) {
    let (mut carried, mut slot) = (key, start);
    for _ in 0..words.len() {
        let word = words[slot];
        if word == 0 {
            words[slot] = carried;
            return;
        }
        if carried < word {
            words[slot] = carried;
            carried = word;
        }
        slot = wrapped(words.len(), slot + 1);
    }
}

/// A slot that no key passes: an empty one, or that of the largest word.
#[inline]
fn barrier(words: &[u32]) -> usize {
    let mut largest = 0;
    for (slot, word) in words.iter().enumerate() {
        if *word == 0 {
            return slot;
        }
        if words[largest] < *word {
            largest = slot;
        }
    }
    largest
}

/// Where the way back from a turn over smaller keys ends, for a key that comes there: by the walls of the turns before,
/// since with a smaller key all is passed that this one has passed.
#[inline]
fn wall_of(words: &[u32], walls: &[u16; MAX_SLOTS], base: usize, turn: usize, key: u32) -> usize {
    let mut wall = turn;
    while 0 < wall {
        let word = words[wrapped(words.len(), wall + base)];
        if word == 0 || key <= word {
            return wall;
        }
        wall = usize::from(walls[wall - 1]);
    }
    0
}

/// Whether the words are the image of a set: no number below 10 but 0, and each key starts behind its wall, in a round
/// behind a slot that no key passes.
fn is_image(hashing: Hashing, words: &[u32], base: usize) -> bool {
    let slots = words.len();
    let mut walls = [0; MAX_SLOTS];
    for turn in 0..slots {
        let key = words[wrapped(slots, turn + base + 1)];
        if key == 0 {
            continue;
        }
        let wall = wall_of(words, &walls, base, turn, key);
        if is_blank(key) {
            return false;
        }
        let start = wrapped(slots, hashing.start(key) + slots - (base + 1));
        if !(wall..=turn).contains(&start) {
            return false;
        }
        walls[turn] = wall as u16;
    }
    true
}

/// 0 and whether the key is reported, or 1, 2 or 5.
#[inline(never)]
#[export_name = "twin_stolen_lookup"]
pub fn lookup(
    tabulation: &[u16],
    words: &[u32],
    station: u32,
    key: u32,
    reported: &mut u32,
) -> u32 {
    let hashing = match Hashing::of(tabulation, words.len(), station) {
        Ok(hashing) => hashing,
        Err(refusal) => return refusal,
    };
    if is_blank(key) {
        return 5;
    }
    *reported = u32::from(is_found(words, hashing.start(key), key));
    0
}

/// Puts a key in, or answers 1, 2, 4, 5, 6 or 16.
#[inline(never)]
#[export_name = "twin_stolen_insert"]
pub fn insert(tabulation: &[u16], words: &mut [u32], station: u32, key: u32) -> u32 {
    let hashing = match Hashing::of(tabulation, words.len(), station) {
        Ok(hashing) => hashing,
        Err(refusal) => return refusal,
    };
    let base = barrier(words);
    if !is_image(hashing, words, base) {
        return 4;
    }
    if is_blank(key) {
        return 5;
    }
    let start = hashing.start(key);
    if is_found(words, start, key) {
        return 6;
    }
    if words[base] != 0 {
        return 16;
    }
    carry(words, start, key);
    0
}
