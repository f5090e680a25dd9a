//! Why a call was refused: a name for each number.

use core::error::Error;
use core::fmt;

/// Why a call was refused. The comments name the number; the headers say when each call answers it.
///
/// The hashing alone refuses with `WrongTabulation`, `WrongShape` and `BlankKey` only. Later versions may add cases.
#[non_exhaustive]
#[derive(Clone, Copy, Debug, PartialEq, Eq)]
pub enum Refusal {
    /// 1: the tabulation does not have 2,560 entries.
    WrongTabulation,
    /// 2: the words have no right shape, or a size or the station is outside its range.
    WrongShape,
    /// 3: the scratch is too short.
    ShortScratch,
    /// 4: the words are the canonical image of no set; of a sale: the tier found is above 7.
    NotCanonical,
    /// 5: the key, or one of a bulk load's input, is below 10.
    BlankKey,
    /// 6: the key is in the set, with this tier; of a stolen-card list: it is in the set.
    KeyPresent,
    /// 7: the key is not in the set.
    KeyAbsent,
    /// 8: the new set does not fit, since its stash would have too many keys.
    StashFull,
    /// 9: the tier, or one of a bulk load's input, is above 7.
    WrongTier,
    /// 10: the key is in the set with another tier, which it keeps.
    OtherTier,
    /// 11: the trail has more keys than words are lent for it.
    ShortTrail,
    /// 12: the base price or a step is outside its range, there are not eight steps, or the price is below 1.
    WrongPrice,
    /// 13: the set has another issue of the key, which stays; of a bulk load: the input has two issues of one card.
    OtherIssue,
    /// 14: the keys of a bulk load's input do not rise, or it has an odd number of words.
    NotRising,
    /// 15: some slot or stash place of the words to salvage holds a number other than 0, yet no key counts.
    NoneCounts,
    /// 16: every slot of the stolen-card list is filled, and the key is not in it.
    TableFull,
    /// A number that this version does not know: the crate is linked with a library of another version. With 0 such a
    /// library said that it is done, but named a part of the lent memory that is not there.
    Unknown(u32),
}

impl Refusal {
    /// The refusal with this number; none of 0, which is no refusal.
    #[must_use]
    pub const fn of(number: u32) -> Option<Refusal> {
        Some(match number {
            0 => return None,
            1 => Refusal::WrongTabulation,
            2 => Refusal::WrongShape,
            3 => Refusal::ShortScratch,
            4 => Refusal::NotCanonical,
            5 => Refusal::BlankKey,
            6 => Refusal::KeyPresent,
            7 => Refusal::KeyAbsent,
            8 => Refusal::StashFull,
            9 => Refusal::WrongTier,
            10 => Refusal::OtherTier,
            11 => Refusal::ShortTrail,
            12 => Refusal::WrongPrice,
            13 => Refusal::OtherIssue,
            14 => Refusal::NotRising,
            15 => Refusal::NoneCounts,
            16 => Refusal::TableFull,
            _ => Refusal::Unknown(number),
        })
    }

    /// The number that the library answers.
    #[must_use]
    pub const fn number(self) -> u32 {
        match self {
            Refusal::WrongTabulation => 1,
            Refusal::WrongShape => 2,
            Refusal::ShortScratch => 3,
            Refusal::NotCanonical => 4,
            Refusal::BlankKey => 5,
            Refusal::KeyPresent => 6,
            Refusal::KeyAbsent => 7,
            Refusal::StashFull => 8,
            Refusal::WrongTier => 9,
            Refusal::OtherTier => 10,
            Refusal::ShortTrail => 11,
            Refusal::WrongPrice => 12,
            Refusal::OtherIssue => 13,
            Refusal::NotRising => 14,
            Refusal::NoneCounts => 15,
            Refusal::TableFull => 16,
            Refusal::Unknown(number) => number,
        }
    }
}

impl fmt::Display for Refusal {
    fn fmt(&self, f: &mut fmt::Formatter) -> fmt::Result {
        f.write_str(match self {
            Refusal::WrongTabulation => "the tabulation does not have 2,560 entries",
            Refusal::WrongShape => "the words, a size or the station are not as they must be",
            Refusal::ShortScratch => "the scratch is too short",
            Refusal::NotCanonical => "the words are the image of no set",
            Refusal::BlankKey => "the key is below 10",
            Refusal::KeyPresent => "the key is listed already",
            Refusal::KeyAbsent => "the key is not listed",
            Refusal::StashFull => "the stash has no room for the new set",
            Refusal::WrongTier => "the tier is above 7",
            Refusal::OtherTier => "the key is listed with another tier",
            Refusal::ShortTrail => "the trail has more keys than words are lent for it",
            Refusal::WrongPrice => "the prices are outside their range",
            Refusal::OtherIssue => "another issue of the key is listed",
            Refusal::NotRising => "the keys do not rise, or the last has no tier",
            Refusal::NoneCounts => "no key of the damaged words counts",
            Refusal::TableFull => "the stolen-card list has no empty slot",
            Refusal::Unknown(number) => {
                return write!(f, "the library answered {number}, which this crate does not know");
            }
        })
    }
}

impl Error for Refusal {}

/// What a call's number says.
pub(crate) const fn done(number: u32) -> Result<(), Refusal> {
    match Refusal::of(number) {
        None => Ok(()),
        Some(refusal) => Err(refusal),
    }
}

#[cfg(test)]
mod tests {
    use super::{done, Refusal};

    /// A library of another version may answer any number: all but 0 are refusals.
    #[test]
    fn any_number_is_an_answer() {
        assert_eq!(done(0), Ok(()));
        assert_eq!(done(16), Err(Refusal::TableFull));
        for number in [17, 256, u32::MAX] {
            assert_eq!(done(number), Err(Refusal::Unknown(number)));
        }
    }
}
