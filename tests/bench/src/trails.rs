//! Trails of the library, whose instructions are counted beside those of a check of the same words. The twins have none, so that there is nothing to compare.

use crate::cases::Case;

/// The symbol of the call.
pub const SYMBOL: &str = "pinorange_trail";

/// What stands before the key in the name of a trail that is counted.
const PREFIX: &str = "trail-";

/// A trail on the first board of a case: the key that it starts with, and how many keys it has.
#[derive(Clone, Copy)]
pub struct Trail {
    pub key: u32,
    pub length: u32,
}

impl Trail {
    /// The trail of a key, asked from the library with a sheet of 2r words.
    fn of(case: &Case, key: u32) -> Trail {
        let mut scratch = case.scratch();
        let mut sheet = vec![0; 2 * case.r as usize];
        let words = &case.boards[0].words;
        let mut length = 0;
        let answer =
            library::trail(&case.tabulation, words, &mut scratch, key, &mut sheet, &mut length);
        assert_eq!(answer, 0, "a trail of a case is refused");
        Trail { key, length }
    }

    /// Its name, as a call that is counted.
    pub fn name(&self) -> String {
        format!("{PREFIX}{}", self.key)
    }
}

/// The key of a trail that is counted, by its name; none if the name is that of another call.
pub fn key_named(name: &str) -> Option<u32> {
    name.strip_prefix(PREFIX).map(|key| key.parse().expect("the key of a trail"))
}

/// Asks for the trail of a key, and for no other.
pub fn one(case: &Case, key: u32) {
    Trail::of(case, key);
}

/// The trails that are counted: of those of all seated keys of the first board, by length, the first and the middle one.
pub fn shortest_and_typical(case: &Case) -> [Trail; 2] {
    let keys = case.boards[0].keys().into_iter();
    let mut trails: Vec<Trail> =
        keys.map(|key| Trail::of(case, key)).filter(|trail| trail.length > 0).collect();
    trails.sort_by_key(|trail| trail.length);
    [trails[0], trails[trails.len() / 2]]
}
