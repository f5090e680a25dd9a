//! The calls as C has them: the declarations of `pinorange_hashes.h`, `pinorange.h` and `pinorange_stolen.h`, which say
//! what each promises.
//!
//! What the caller sees to: no pointer is null (a length of 0 needs one, too), pointers are aligned and valid for their
//! lengths, and no two lent pieces of memory overlap. The functions of the same names in this crate see to it.

#[cfg(feature = "list")]
use crate::{Counters, Sale};

#[rustfmt::skip]
extern "C" {
    /// The two slots of a key. 0, or 1, 2, 5.
    pub fn pinorange_hashes(
        tabulation: *const u16, length: usize, r: u32, station: u32, key: u32, table0: *mut u32, table1: *mut u32,
    ) -> u32;
}

#[cfg(feature = "list")]
#[rustfmt::skip]
extern "C" {
    /// Lays an empty dictionary. 0, or 2.
    pub fn pinorange_init(
        words: *mut u32, words_length: usize, r: u32, s: u32, station: u32, counters: *mut Counters,
    ) -> u32;

    /// Lays a whole list. 0, or the first that applies of 1, 2, 3, 5, 9, 14, 13, 8.
    pub fn pinorange_bulk_load(
        tabulation: *const u16, tabulation_length: usize, words: *mut u32, words_length: usize,
        scratch: *mut u32, scratch_length: usize, counters: *mut Counters, r: u32, s: u32, station: u32,
        input: *const u32, input_length: usize,
    ) -> u32;

    /// Puts a key with its tier into the set. 0, or the first that applies of 1, 2, 3, 4, 5, 9, 13, 10, 6, 8.
    pub fn pinorange_insert(
        tabulation: *const u16, tabulation_length: usize, words: *mut u32, words_length: usize,
        scratch: *mut u32, scratch_length: usize, counters: *mut Counters, key: u32, tier: u32,
    ) -> u32;

    /// Takes a key out of the set. 0, or the first that applies of 1, 2, 3, 4, 5, 7.
    pub fn pinorange_remove(
        tabulation: *const u16, tabulation_length: usize, words: *mut u32, words_length: usize,
        scratch: *mut u32, scratch_length: usize, counters: *mut Counters, key: u32,
    ) -> u32;

    /// Whether the words are the canonical image of a set. 0, or the first that applies of 1, 2, 3, 4.
    pub fn pinorange_check(
        tabulation: *const u16, tabulation_length: usize, words: *const u32, words_length: usize,
        scratch: *mut u32, scratch_length: usize,
    ) -> u32;

    /// Whether a key is listed, and its tier. 0, or the first that applies of 1, 2, 5.
    pub fn pinorange_lookup(
        tabulation: *const u16, tabulation_length: usize, words: *const u32, words_length: usize,
        key: u32, listed: *mut u32, tier: *mut u32,
    ) -> u32;

    /// Where the filled stretch of the stash stands in the words. 0, or 2, 4.
    pub fn pinorange_stash(words: *const u32, words_length: usize, offset: *mut u32, length: *mut u32) -> u32;

    /// The trail of a key. 0, or the first that applies of 1, 2, 3, 4, 5, 7, 11.
    pub fn pinorange_trail(
        tabulation: *const u16, tabulation_length: usize, words: *const u32, words_length: usize,
        scratch: *mut u32, scratch_length: usize, key: u32, trail: *mut u32, trail_length: usize, count: *mut u32,
    ) -> u32;

    /// Salvages damaged words into a second area. 0, or the first that applies of 1, 2, 2, 3, 15.
    pub fn pinorange_salvage(
        tabulation: *const u16, tabulation_length: usize, words: *const u32, words_length: usize,
        target: *mut u32, target_length: usize, scratch: *mut u32, scratch_length: usize, lost: *mut u32,
    ) -> u32;

    /// Opens a sale. 0, or the first that applies of 1, 2, 5, 7, 4, 12.
    pub fn pinorange_open_sale(
        tabulation: *const u16, tabulation_length: usize, words: *const u32, words_length: usize, key: u32,
        base: u32, steps: *const i32, steps_length: usize, sale: *mut Sale,
    ) -> u32;

    /// Closes a sale: gives its price.
    pub fn pinorange_close_sale(sale: *const Sale) -> u32;

    /// Writes the house tabulation. 0, or 1.
    pub fn pinorange_house(tabulation: *mut u16, tabulation_length: usize) -> u32;

    /// Lays an empty stolen-card list. 0, or 2.
    pub fn pinorange_stolen_init(words: *mut u32, words_length: usize) -> u32;

    /// Puts a key into a stolen-card list. 0, or the first that applies of 1, 2, 4, 5, 6, 16.
    pub fn pinorange_stolen_insert(
        tabulation: *const u16, tabulation_length: usize, words: *mut u32, words_length: usize,
        station: u32, key: u32,
    ) -> u32;

    /// Whether a key is in a stolen-card list. 0, or the first that applies of 1, 2, 5.
    pub fn pinorange_stolen_lookup(
        tabulation: *const u16, tabulation_length: usize, words: *const u32, words_length: usize,
        station: u32, key: u32, reported: *mut u32,
    ) -> u32;
}
