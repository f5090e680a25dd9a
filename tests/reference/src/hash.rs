//! The two hashes of a key, by simple tabulation: the paper's "Where a card may sit", to which
//! request Five adds the station; by request Six they are those of the key's first part. This is a
//! part of its own that knows nothing of the list.

use crate::answer::Refusal;
use crate::key::{first_part, is_blank};

/// The length of a stretch of a tabulation: one entry for each value of a byte. Request Five:
/// "1,280 for each rack in five stretches of 256".
pub const STRETCH_LEN: usize = 256;

/// The length of the half of a tabulation that serves one table; table k's half starts at 1,280k.
pub const HALF_LEN: usize = 5 * STRETCH_LEN;

/// The length of a tabulation. Request Five: "The book becomes 2,560 numbers".
pub const TABULATION_LEN: usize = 2 * HALF_LEN;

/// The largest r. Paper: "r (pockets in a rack, 1 to 1,024)".
pub const MAX_R: u32 = 1_024;

/// The largest station. Request Five: "A station number, 0 to 255".
pub const MAX_STATION: u32 = 255;

/// Both hashes of a key (the paper's "places") at a station: entry k is the index of its slot in
/// table k.
///
/// Paper: "Called alone it gives both places, or 1, 2 (only for r outside its range) or 5 from the
/// table below, in that order." Request Five: "a station above 255, given or in word 4, is a 2,
/// also where places are worked out alone".
pub fn hashes(tabulation: &[u16], r: u32, station: u32, key: u32) -> Result<[u32; 2], Refusal> {
    if tabulation.len() != TABULATION_LEN {
        return Err(Refusal::WrongTabulation);
    }
    if !(1..=MAX_R).contains(&r) || station > MAX_STATION {
        return Err(Refusal::WrongShape);
    }
    if is_blank(key) {
        return Err(Refusal::BlankKey);
    }
    Ok([0, 1].map(|table| hash(tabulation, table, r, station, key)))
}

/// The hash of a key in one table (the paper's "place in rack k"); the station must not be above
/// 255.
///
/// Paper: "Split the card number into bytes b0 (lowest) to b3. Its place in rack k is the sum over
/// i = 0 to 3 of book entry 1,024k + 256i + bi, taken modulo r." Request Five: "1,280 for each rack
/// in five stretches of 256, and a place's sum adds the fifth stretch's entry at (b0 + station
/// number) modulo 256". Request Six: "The places come from the number divided by ten and rounded
/// down"; so it is this number that is split, and b0 is its lowest byte for the fifth entry, too.
fn hash(tabulation: &[u16], table: usize, r: u32, station: u32, key: u32) -> u32 {
    let [b0, b1, b2, b3] = first_part(key).to_le_bytes().map(usize::from);
    let in_stretches = [b0, b1, b2, b3, (b0 + station as usize) % STRETCH_LEN];
    let entry = |(i, at): (usize, usize)| tabulation[HALF_LEN * table + STRETCH_LEN * i + at];
    let sum: u32 = in_stretches.into_iter().enumerate().map(entry).map(u32::from).sum();
    sum % r
}
