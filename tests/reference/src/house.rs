//! The house tabulation (the paper's "house spread book"): the table that ships, made by its rule.
//! The tests hold the whole table against the rule once more and against the paper's first entries.

use crate::hash::TABULATION_LEN;

/// The house tabulation.
///
/// Paper: "The house spread book ships as a table of 2,048 numbers." and "All entries differ."
/// Request Five: "The house book keeps its rule to entry 2,559."
pub static HOUSE: [u16; TABULATION_LEN] = table();

/// One entry by the rule.
///
/// Paper: "Entry i is (25,173 × i × i + 13,849) modulo 65,521".
pub const fn entry(i: usize) -> u16 {
    let i = i as u64;
    // Below 65,521, so nothing is cut off.
    ((25_173 * i * i + 13_849) % 65_521) as u16
}

const fn table() -> [u16; TABULATION_LEN] {
    let mut entries = [0; TABULATION_LEN];
    let mut i = 0;
    while i < TABULATION_LEN {
        entries[i] = entry(i);
        i += 1;
    }
    entries
}
