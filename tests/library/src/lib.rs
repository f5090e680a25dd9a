//! What the tests of the built library share. The exported calls come here as they are, over the declarations of the crate (rust/): with their numbers and their
//! out-parameters, so that the tests see what a refusal leaves and the benchmark times one call and nothing else. beside.rs has the crate's safe calls beside them.

pub mod beside;
pub mod guarded;
mod inputs;
mod issues;
pub mod room;
mod safe;
pub mod seen;
pub mod stolen;
pub mod wet;

use pinorange::raw;
use reference::hash::MAX_R;
use reference::layout::MAX_S;

pub use pinorange::{scratch_length, words_length, Counters, Sale, HEADER_LENGTH};

// Every call below is safe: the slices are valid for their lengths and apart from each other, and the calls are proved to touch nothing else but what
// they are given by reference.

/// Lays fresh words, at a station.
pub fn init(words: &mut [u32], r: u32, s: u32, station: u32, counters: &mut Counters) -> u32 {
    unsafe { raw::pinorange_init(words.as_mut_ptr(), words.len(), r, s, station, counters) }
}

/// Lays a whole list of r slots, s places and a station.
#[rustfmt::skip]
pub fn bulk_load(
    tabulation: &[u16], words: &mut [u32], scratch: &mut [u32], counters: &mut Counters, laid: [u32; 3], input: &[u32],
) -> u32 {
    let [r, s, station] = laid;
    unsafe {
        raw::pinorange_bulk_load(
            tabulation.as_ptr(), tabulation.len(), words.as_mut_ptr(), words.len(),
            scratch.as_mut_ptr(), scratch.len(), counters, r, s, station, input.as_ptr(), input.len(),
        )
    }
}

/// Puts a key in, with its tier.
#[rustfmt::skip]
pub fn insert(tabulation: &[u16], words: &mut [u32], scratch: &mut [u32], counters: &mut Counters, key: u32, tier: u32) -> u32 {
    unsafe {
        raw::pinorange_insert(
            tabulation.as_ptr(), tabulation.len(), words.as_mut_ptr(), words.len(),
            scratch.as_mut_ptr(), scratch.len(), counters, key, tier,
        )
    }
}

/// Takes a key out.
#[rustfmt::skip]
pub fn remove(tabulation: &[u16], words: &mut [u32], scratch: &mut [u32], counters: &mut Counters, key: u32) -> u32 {
    unsafe {
        raw::pinorange_remove(
            tabulation.as_ptr(), tabulation.len(), words.as_mut_ptr(), words.len(),
            scratch.as_mut_ptr(), scratch.len(), counters, key,
        )
    }
}

/// What becomes of a key: an insert, with its tier, or a remove.
#[derive(Clone, Copy, Debug, PartialEq, Eq)]
pub enum Change {
    Insert(u32),
    Remove,
}

/// An insert or a remove.
#[rustfmt::skip]
pub fn update(change: Change, tabulation: &[u16], words: &mut [u32], scratch: &mut [u32], counters: &mut Counters, key: u32) -> u32 {
    match change {
        Change::Insert(tier) => insert(tabulation, words, scratch, counters, key, tier),
        Change::Remove => remove(tabulation, words, scratch, counters, key),
    }
}

/// Says whether the words are a canonical image.
pub fn check(tabulation: &[u16], words: &[u32], scratch: &mut [u32]) -> u32 {
    unsafe {
        raw::pinorange_check(
            tabulation.as_ptr(),
            tabulation.len(),
            words.as_ptr(),
            words.len(),
            scratch.as_mut_ptr(),
            scratch.len(),
        )
    }
}

/// Says whether a key is in the dictionary, and its tier.
#[rustfmt::skip]
pub fn lookup(tabulation: &[u16], words: &[u32], key: u32, listed: &mut u32, tier: &mut u32) -> u32 {
    unsafe {
        raw::pinorange_lookup(
            tabulation.as_ptr(), tabulation.len(), words.as_ptr(), words.len(),
            key, listed, tier,
        )
    }
}

/// Writes the trail of a key, and how many keys it has.
#[rustfmt::skip]
pub fn trail(tabulation: &[u16], words: &[u32], scratch: &mut [u32], key: u32, trail: &mut [u32], count: &mut u32) -> u32 {
    unsafe {
        raw::pinorange_trail(
            tabulation.as_ptr(), tabulation.len(), words.as_ptr(), words.len(),
            scratch.as_mut_ptr(), scratch.len(), key, trail.as_mut_ptr(), trail.len(), count,
        )
    }
}

/// Writes the list of what survives in damaged words to a target, and how many numbers are lost.
#[rustfmt::skip]
pub fn salvage(tabulation: &[u16], words: &[u32], target: &mut [u32], scratch: &mut [u32], lost: &mut u32) -> u32 {
    unsafe {
        raw::pinorange_salvage(
            tabulation.as_ptr(), tabulation.len(), words.as_ptr(), words.len(),
            target.as_mut_ptr(), target.len(), scratch.as_mut_ptr(), scratch.len(), lost,
        )
    }
}

/// Opens a sale: writes its record.
#[rustfmt::skip]
pub fn open_sale(tabulation: &[u16], words: &[u32], key: u32, base: u32, steps: &[i32], sale: &mut Sale) -> u32 {
    unsafe {
        raw::pinorange_open_sale(
            tabulation.as_ptr(), tabulation.len(), words.as_ptr(), words.len(), key,
            base, steps.as_ptr(), steps.len(), sale,
        )
    }
}

/// Closes a sale: gives its price.
pub fn close_sale(sale: &Sale) -> u32 {
    unsafe { raw::pinorange_close_sale(sale) }
}

/// What the stash view answers, and the offset and length of the stretch that it names.
pub fn stash(words: &[u32]) -> (u32, u32, u32) {
    let (mut offset, mut length) = (u32::MAX, u32::MAX);
    let answer =
        unsafe { raw::pinorange_stash(words.as_ptr(), words.len(), &mut offset, &mut length) };
    (answer, offset, length)
}

/// What the hashing answers, and what its two out-parameters hold after it when they held `old` before.
#[rustfmt::skip]
pub fn hashes(tabulation: &[u16], r: u32, station: u32, key: u32, old: [u32; 2]) -> (u32, [u32; 2]) {
    let [mut table0, mut table1] = old;
    let answer = unsafe {
        raw::pinorange_hashes(tabulation.as_ptr(), tabulation.len(), r, station, key, &mut table0, &mut table1)
    };
    (answer, [table0, table1])
}

/// Lays an empty stolen-card list.
pub fn stolen_init(words: &mut [u32]) -> u32 {
    unsafe { raw::pinorange_stolen_init(words.as_mut_ptr(), words.len()) }
}

/// Puts a key into a stolen-card list, at a station.
#[rustfmt::skip]
pub fn stolen_insert(tabulation: &[u16], words: &mut [u32], station: u32, key: u32) -> u32 {
    unsafe {
        raw::pinorange_stolen_insert(
            tabulation.as_ptr(), tabulation.len(), words.as_mut_ptr(), words.len(), station, key,
        )
    }
}

/// Says whether a key is in a stolen-card list.
#[rustfmt::skip]
pub fn stolen_lookup(tabulation: &[u16], words: &[u32], station: u32, key: u32, reported: &mut u32) -> u32 {
    unsafe {
        raw::pinorange_stolen_lookup(
            tabulation.as_ptr(), tabulation.len(), words.as_ptr(), words.len(), station, key, reported,
        )
    }
}

/// Fills a tabulation with the house tabulation.
pub fn house(tabulation: &mut [u16]) -> u32 {
    unsafe { raw::pinorange_house(tabulation.as_mut_ptr(), tabulation.len()) }
}

/// What stands in the slots and in the stash places of words of the right shape: key, tier, and whether it is in the
/// stash. An empty slot or place has key 0. Of other words, nothing.
pub fn entries(words: &[u32]) -> impl Iterator<Item = (u32, u32, bool)> + '_ {
    let (slots, places) = match *words {
        [r, s, ..] if are_sizes(r, s, words.len()) => {
            words[HEADER_LENGTH..].split_at(6 * r as usize)
        }
        _ => (&words[..0], &words[..0]),
    };
    let seated = slots.chunks_exact(3).map(|slot| (slot[0], slot[2], false));
    seated.chain(places.chunks_exact(2).map(|place| (place[0], place[1], true)))
}

/// Whether r and s are in their ranges, and this is how many words go with them.
pub fn are_sizes(r: u32, s: u32, length: usize) -> bool {
    (1..=MAX_R).contains(&r) && s <= MAX_S && length == words_length(r, s)
}

/// Freshly laid words, at a station.
pub fn fresh(r: u32, s: u32, station: u32) -> Vec<u32> {
    let mut words = vec![7; words_length(r, s)];
    let mut counters = Counters::default();
    assert_eq!(init(&mut words, r, s, station, &mut counters), 0);
    assert_eq!((counters.done, counters.refused), (1, 0));
    words
}

/// An insert or a remove with a scratch that is just long enough.
pub fn change(change: Change, tabulation: &[u16], words: &mut [u32], key: u32) -> u32 {
    let mut scratch = vec![u32::MAX; scratch_length(words[0], words[1])];
    update(change, tabulation, words, &mut scratch, &mut Counters::default(), key)
}

/// The Rust blocks of docs/RUST.md, as doctests: see build.rs.
#[cfg(doctest)]
#[doc = include_str!(concat!(env!("OUT_DIR"), "/RUST.md"))]
struct RustPage;
