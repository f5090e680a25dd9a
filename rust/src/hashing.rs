//! The hashes of a key, with what goes with them: what `pinorange_hashes.h` has, and all that a till needs.

use crate::raw;
use crate::refusal::{done, Refusal};

/// The version of the library and of the layout of the words. Heads whose first numbers differ must not be mixed.
pub const VERSION: &str = env!("CARGO_PKG_VERSION");

/// How many entries a tabulation has: 1,280 for table 0, then 1,280 for table 1.
pub const TABULATION_LENGTH: usize = 2_560;

/// The largest r: how many slots a table may have.
pub const MAX_SLOTS: u32 = 1_024;

/// The largest station number.
pub const MAX_STATION: u32 = 255;

/// The first part of a key: all but its last decimal digit, which is its issue.
#[must_use]
pub const fn first_part(key: u32) -> u32 {
    key / 10
}

/// The two slots in which a key may sit, that of table 0 first, with tables of r slots at a station.
///
/// # Errors
///
/// In this order: `WrongTabulation`, `WrongShape` (r or the station is outside its range), `BlankKey`.
///
/// ```
/// use pinorange::{hashes, Refusal, TABULATION_LENGTH};
///
/// let mut tabulation = [0; TABULATION_LENGTH];
/// tabulation[41_001 & 255] = 7;
/// assert_eq!(hashes(&tabulation, 16, 0, 410_017), Ok([7, 0]));
/// assert_eq!(hashes(&tabulation, 16, 256, 410_017), Err(Refusal::WrongShape));
/// ```
#[inline]
pub fn hashes(tabulation: &[u16], r: u32, station: u32, key: u32) -> Result<[u32; 2], Refusal> {
    let [mut table0, mut table1] = [0; 2];
    // Safe: the slice is valid for its length, and the call is proved to read nothing else and to write nothing but the
    // two numbers, which are this function's own.
    let answer = unsafe {
        raw::pinorange_hashes(
            tabulation.as_ptr(),
            tabulation.len(),
            r,
            station,
            key,
            &mut table0,
            &mut table1,
        )
    };
    done(answer)?;
    Ok([table0, table1])
}
