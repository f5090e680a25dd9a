//! A key by its digits, as request Six reads a card number: the last decimal digit is its issue,
//! the digits before it are its first part. A card and its replacements differ in the issue alone.

use std::ops::RangeInclusive;

/// The number of issues of a first part: one for each decimal digit.
const ISSUES: u32 = 10;

/// The first part of a key. Request Six: "the number divided by ten and rounded down".
pub fn first_part(key: u32) -> u32 {
    key / ISSUES
}

/// Whether a key is blank. Request Six: "A blank card is any number below 10."
///
/// So a key is blank exactly when it has no first part but 0.
pub fn is_blank(key: u32) -> bool {
    first_part(key) == 0
}

/// All issues of a key's first part, the key itself among them.
///
/// The largest first part has six issues only: there is no key above 4,294,967,295.
pub fn issues(key: u32) -> RangeInclusive<u32> {
    let smallest = ISSUES * first_part(key);
    smallest..=smallest.saturating_add(ISSUES - 1)
}
