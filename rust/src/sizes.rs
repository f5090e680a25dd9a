//! The limits and the lengths of a list, for the types of the memory that a head lends.

/// The largest s: how many places a stash may have.
pub const MAX_PLACES: u32 = 64;

/// The largest tier.
pub const MAX_TIER: u32 = 7;

/// How many steps a price list has: one for each tier, 0 to [`MAX_TIER`].
pub const STEPS: usize = 8;

/// The largest base price, in tenths of a cent; the smallest is 1.
pub const MAX_BASE: u32 = 99_999;

/// The largest step, up or down, in tenths of a cent.
pub const MAX_STEP: i32 = 500;

/// How many words come before the slots: r, s, the number of keys, that of the stashed ones, and the station.
pub const HEADER_LENGTH: usize = 5;

/// How many words a dictionary has, with r slots in each table and s stash places: 5 + 6r + 2s.
///
/// ```
/// static WORDS: [u32; pinorange::words_length(1_024, 64)] = [0; pinorange::words_length(1_024, 64)];
/// assert_eq!(WORDS.len(), 6_277);
/// ```
#[must_use]
pub const fn words_length(r: u32, s: u32) -> usize {
    HEADER_LENGTH.saturating_add(times(6, r)).saturating_add(times(2, s))
}

/// Where the three words of a slot begin in the words: key, next number and tier. The table is 0 or 1, the slot below
/// r.
#[must_use]
pub const fn slot_start(r: u32, table: u32, slot: u32) -> usize {
    let before = times(r as usize, table).saturating_add(slot as usize);
    HEADER_LENGTH.saturating_add(before.saturating_mul(3))
}

/// Where the two words of a stash place begin in the words: key and tier. The place is below s.
#[must_use]
pub const fn place_start(r: u32, place: u32) -> usize {
    words_length(r, place)
}

/// How many words of scratch insert, remove, check, trail, bulk load and salvage borrow, at least: 12r + 8s.
#[must_use]
pub const fn scratch_length(r: u32, s: u32) -> usize {
    times(12, r).saturating_add(times(8, s))
}

/// So many times a size. A size far outside its range does not wrap where `usize` is short, and no call takes it.
const fn times(count: usize, size: u32) -> usize {
    count.saturating_mul(size as usize)
}
