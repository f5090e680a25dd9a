//! The calls on a list in the form that C has, safe: slices in, a `Result` out. `pinorange.h` and `pinorange_stolen.h`
//! say what each promises; here stands in which form it comes to Rust. [`List`](crate::List) and
//! [`StolenList`](crate::StolenList) call these and no others.
//!
//! Why they are safe: the library's calls are proved to read and write nothing outside the memory that they are lent,
//! for every content and length, and to return. They ask for pointers that are not null, aligned, valid for their
//! lengths and apart from each other, and so are slices and references: two of them, one of which may be written
//! through, never overlap.

use crate::refusal::{done, Refusal};
use crate::{raw, Counters, Sale};

/// Lays an empty dictionary of r slots in each table and s stash places, at a station.
///
/// # Errors
///
/// `WrongShape`: r, s or the station is outside its range, or there are not
/// [`words_length`](crate::words_length)`(r, s)` words, and the words stay as they were.
#[inline]
pub fn init(
    words: &mut [u32],
    r: u32,
    s: u32,
    station: u32,
    counters: &mut Counters,
) -> Result<(), Refusal> {
    // Safe: words and counters are lent for this call alone, and it is proved to touch nothing else.
    done(unsafe { raw::pinorange_init(words.as_mut_ptr(), words.len(), r, s, station, counters) })
}

/// Lays a whole list in one call, whatever the words were: that of the keys in the input, which alternates key and
/// tier, the keys strictly ascending. The words are those that [`init`] and an [`insert`] of each key, in any order,
/// leave. Of words and scratch see [`insert`].
///
/// Cards that come as pairs, `[card, tier]`, are lent as they stand, by `as_flattened`. (Of tuples it is not known how
/// they lie in memory.)
///
/// # Errors
///
/// In this order, and the words stay as they were: all is laid, or nothing. `WrongTabulation`; `WrongShape` and
/// `ShortScratch`, by the r, s and station that are given; over the whole input, each before the next, `BlankKey` (a
/// last word without a partner is a key), `WrongTier`, `NotRising` (an odd number of words, or a key that is not larger
/// than the one before it) and `OtherIssue` (two issues of one card); `StashFull`.
///
/// ```
/// use pinorange::{scratch_length, words_length, Counters, Refusal, TABULATION_LENGTH};
///
/// const R: u32 = 16;
/// const S: u32 = 2;
/// let mut tabulation = [0; TABULATION_LENGTH];
/// let mut words = [0; words_length(R, S)];
/// let mut scratch = [0; scratch_length(R, S)];
/// let mut counters = Counters::default();
/// pinorange::house(&mut tabulation)?;
///
/// // What head office sends: each card with its tier, ascending.
/// let mut cards = [[410_010, 3], [410_025, 0], [733_001, 7]];
/// let input = cards.as_flattened();
/// pinorange::bulk_load(&tabulation, &mut words, &mut scratch, &mut counters, R, S, 17, input)?;
/// assert_eq!(pinorange::lookup(&tabulation, &words, 733_001), Ok(Some(7)));
///
/// // One card at fault, and the list stays as it was.
/// let before = words;
/// cards[1] = [410_013, 0];
/// let input = cards.as_flattened();
/// let answer = pinorange::bulk_load(&tabulation, &mut words, &mut scratch, &mut counters, R, S, 17, input);
/// assert_eq!(answer, Err(Refusal::OtherIssue));
/// assert_eq!(words, before);
/// assert_eq!(counters, Counters { done: 1, refused: 1 });
/// # Ok::<(), Refusal>(())
/// ```
#[inline]
#[rustfmt::skip]
#[allow(clippy::too_many_arguments)] // They are the call's.
pub fn bulk_load(
    tabulation: &[u16], words: &mut [u32], scratch: &mut [u32], counters: &mut Counters, r: u32, s: u32, station: u32,
    input: &[u32],
) -> Result<(), Refusal> {
    // Safe: all five are lent for this call alone and lie apart, and it is proved to touch nothing else, and to write
    // neither tabulation nor input.
    done(unsafe {
        raw::pinorange_bulk_load(
            tabulation.as_ptr(), tabulation.len(), words.as_mut_ptr(), words.len(),
            scratch.as_mut_ptr(), scratch.len(), counters, r, s, station, input.as_ptr(), input.len(),
        )
    })
}

/// Puts a key with its tier into the set.
///
/// Words and scratch are alike in type. Exchanged, they are answered `WrongShape`, and the list is zeros then, as each
/// scratch is after a call. A [`List`](crate::List) takes a [`Scratch`](crate::Scratch), and nothing can be exchanged.
///
/// # Errors
///
/// In this order, and the words stay as they were: `WrongTabulation`, `WrongShape`, `ShortScratch`, `NotCanonical`,
/// `BlankKey`, `WrongTier`, `OtherIssue`, `OtherTier`, `KeyPresent`, `StashFull`.
///
/// ```
/// use pinorange::{scratch_length, words_length, Counters, Refusal, TABULATION_LENGTH};
///
/// const R: u32 = 16;
/// const S: u32 = 2;
/// let mut tabulation = [0; TABULATION_LENGTH];
/// let mut words = [0; words_length(R, S)];
/// let mut scratch = [0; scratch_length(R, S)];
/// let mut counters = Counters::default();
/// pinorange::house(&mut tabulation)?;
/// pinorange::init(&mut words, R, S, 17, &mut counters)?;
/// pinorange::insert(&tabulation, &mut words, &mut scratch, &mut counters, 410_010, 3)?;
/// assert_eq!(pinorange::lookup(&tabulation, &words, 410_010), Ok(Some(3)));
///
/// // The card is made again: the old issue goes before the new one comes.
/// let answer = pinorange::insert(&tabulation, &mut words, &mut scratch, &mut counters, 410_013, 3);
/// assert_eq!(answer, Err(Refusal::OtherIssue));
/// pinorange::remove(&tabulation, &mut words, &mut scratch, &mut counters, 410_010)?;
/// pinorange::insert(&tabulation, &mut words, &mut scratch, &mut counters, 410_013, 3)?;
/// assert_eq!(pinorange::lookup(&tabulation, &words, 410_010), Ok(None));
/// assert_eq!(counters, Counters { done: 4, refused: 1 });
/// # Ok::<(), Refusal>(())
/// ```
#[inline]
#[rustfmt::skip]
pub fn insert(
    tabulation: &[u16], words: &mut [u32], scratch: &mut [u32], counters: &mut Counters, key: u32, tier: u32,
) -> Result<(), Refusal> {
    // Safe: all four are lent for this call alone and lie apart, and it is proved to touch nothing else.
    done(unsafe {
        raw::pinorange_insert(
            tabulation.as_ptr(), tabulation.len(), words.as_mut_ptr(), words.len(),
            scratch.as_mut_ptr(), scratch.len(), counters, key, tier,
        )
    })
}

/// Takes a key out of the set, this issue and whatever its tier. Of words and scratch see [`insert`].
///
/// # Errors
///
/// In this order, and the words stay as they were: `WrongTabulation`, `WrongShape`, `ShortScratch`, `NotCanonical`,
/// `BlankKey`, `KeyAbsent`.
#[inline]
#[rustfmt::skip]
pub fn remove(
    tabulation: &[u16], words: &mut [u32], scratch: &mut [u32], counters: &mut Counters, key: u32,
) -> Result<(), Refusal> {
    // Safe: all four are lent for this call alone and lie apart, and it is proved to touch nothing else.
    done(unsafe {
        raw::pinorange_remove(
            tabulation.as_ptr(), tabulation.len(), words.as_mut_ptr(), words.len(),
            scratch.as_mut_ptr(), scratch.len(), counters, key,
        )
    })
}

/// Whether the words are the canonical image of a set. `Ok` does not say that nobody changed them: a change that makes
/// them the image of another set is not found, and the header says what to do about it.
///
/// # Errors
///
/// In this order: `WrongTabulation`, `WrongShape`, `ShortScratch`, `NotCanonical`.
#[inline]
#[rustfmt::skip]
pub fn check(tabulation: &[u16], words: &[u32], scratch: &mut [u32]) -> Result<(), Refusal> {
    // Safe: all three are lent for this call and lie apart, and it is proved to write the scratch alone.
    done(unsafe {
        raw::pinorange_check(
            tabulation.as_ptr(), tabulation.len(), words.as_ptr(), words.len(), scratch.as_mut_ptr(), scratch.len(),
        )
    })
}

/// The tier of a key, this issue of it, or `None` if it is not listed. On words that are no canonical image the tier
/// may be any number.
///
/// # Errors
///
/// In this order: `WrongTabulation`, `WrongShape`, `BlankKey`.
#[inline]
#[rustfmt::skip]
pub fn lookup(tabulation: &[u16], words: &[u32], key: u32) -> Result<Option<u32>, Refusal> {
    let [mut listed, mut tier] = [0; 2];
    // Safe: both are lent for this call, and it is proved to write nothing but the two numbers, this function's own.
    done(unsafe {
        raw::pinorange_lookup(
            tabulation.as_ptr(), tabulation.len(), words.as_ptr(), words.len(), key, &mut listed, &mut tier,
        )
    })?;
    Ok((listed == 1).then_some(tier))
}

/// The filled stretch of the stash, a part of the words: key and tier of each stashed key, ascending by key in a
/// canonical image.
///
/// # Errors
///
/// `WrongShape`, then `NotCanonical` if word 3 counts more stashed keys than there are places.
#[inline]
pub fn stash(words: &[u32]) -> Result<&[u32], Refusal> {
    let [mut offset, mut length] = [0; 2];
    // Safe: the words are lent for this call, and it is proved to write nothing but the two numbers, which are this
    // function's own.
    done(unsafe { raw::pinorange_stash(words.as_ptr(), words.len(), &mut offset, &mut length) })?;
    part(words, offset, length)
}

/// The trail of a key, from the key to its root: why it sits where it sits. It is written to `keys`, with zeros
/// behind it, and what comes back is the part of `keys` that it takes; nothing of a stashed key. 2r words are always
/// enough.
///
/// # Errors
///
/// In this order, and `keys` stays as it was: `WrongTabulation`, `WrongShape`, `ShortScratch`, `NotCanonical`,
/// `BlankKey`, `KeyAbsent`, `ShortTrail`.
#[inline]
#[rustfmt::skip]
pub fn trail<'a>(
    tabulation: &[u16], words: &[u32], scratch: &mut [u32], key: u32, keys: &'a mut [u32],
) -> Result<&'a [u32], Refusal> {
    let mut count = 0;
    // Safe: all four are lent for this call and lie apart, and it is proved to write nothing but the scratch, the keys
    // and the number, which is this function's own.
    done(unsafe {
        raw::pinorange_trail(
            tabulation.as_ptr(), tabulation.len(), words.as_ptr(), words.len(),
            scratch.as_mut_ptr(), scratch.len(), key, keys.as_mut_ptr(), keys.len(), &mut count,
        )
    })?;
    part(keys, 0, count)
}

/// Salvages a list: takes the keys that still stand where they may out of damaged words, which are only read, and writes
/// the list of these to a second area of the same length, whatever that held. For words whose [`check`] gives
/// `NotCanonical`; the header says which keys survive, and what the caller compares before and afterwards.
///
/// What comes back is how many slots and stash places hold a number other than 0 that is no such key. 0 does not say that
/// the words were as they should be. Words, target and scratch are alike in type; see [`insert`].
///
/// # Errors
///
/// In this order, and the target stays as it was: `WrongTabulation`; `WrongShape`, of the words, and then if the target
/// is not as long as the words; `ShortScratch`; `NoneCounts` (there is some number in the slots and the stash, and no
/// key).
///
/// ```
/// use pinorange::{scratch_length, slot_start, words_length, Counters, Refusal, TABULATION_LENGTH};
///
/// const R: u32 = 16;
/// const S: u32 = 2;
/// let mut tabulation = [0; TABULATION_LENGTH];
/// let (mut words, mut target) = ([0; words_length(R, S)], [0; words_length(R, S)]);
/// let mut scratch = [0; scratch_length(R, S)];
/// pinorange::house(&mut tabulation)?;
/// let input = [410_010, 3, 410_025, 0, 733_001, 7];
/// pinorange::bulk_load(&tabulation, &mut words, &mut scratch, &mut Counters::default(), R, S, 17, &input)?;
///
/// // The head got wet: the tiers of one card, which sits in both its slots, are wiped out.
/// let both = pinorange::hashes(&tabulation, R, 17, 733_001)?;
/// for (table, slot) in (0..).zip(both) {
///     words[slot_start(R, table, slot) + 2] = u32::MAX;
/// }
/// assert_eq!(pinorange::check(&tabulation, &words, &mut scratch), Err(Refusal::NotCanonical));
///
/// // Two slots hold what is no card any more, and the other two cards are saved.
/// assert_eq!(pinorange::salvage(&tabulation, &words, &mut target, &mut scratch), Ok(2));
/// assert_eq!(pinorange::check(&tabulation, &target, &mut scratch), Ok(()));
/// assert_eq!(pinorange::lookup(&tabulation, &target, 410_010), Ok(Some(3)));
/// assert_eq!(pinorange::lookup(&tabulation, &target, 410_025), Ok(Some(0)));
/// assert_eq!(pinorange::lookup(&tabulation, &target, 733_001), Ok(None));
/// # Ok::<(), Refusal>(())
/// ```
#[inline]
#[rustfmt::skip]
pub fn salvage(
    tabulation: &[u16], words: &[u32], target: &mut [u32], scratch: &mut [u32],
) -> Result<u32, Refusal> {
    let mut lost = 0;
    // Safe: all four are lent for this call and lie apart, and it is proved to write nothing but target, scratch and
    // the number, which is this function's own.
    done(unsafe {
        raw::pinorange_salvage(
            tabulation.as_ptr(), tabulation.len(), words.as_ptr(), words.len(),
            target.as_mut_ptr(), target.len(), scratch.as_mut_ptr(), scratch.len(), &mut lost,
        )
    })?;
    Ok(lost)
}

/// Opens a sale, at nozzle lift: the record with the card's tier and its price. The list stays as it is, and what
/// becomes of the list later does not change the record.
///
/// `steps[t]` is what tier t adds to the base price; a price list has [`STEPS`](crate::STEPS) of them.
///
/// # Errors
///
/// In this order: `WrongTabulation`, `WrongShape`, `BlankKey`, `KeyAbsent`, `NotCanonical` (the tier found is above 7),
/// `WrongPrice`.
#[inline]
#[rustfmt::skip]
pub fn open_sale(
    tabulation: &[u16], words: &[u32], key: u32, base: u32, steps: &[i32],
) -> Result<Sale, Refusal> {
    let mut sale = Sale { key: 0, tier: 0, price: 0 };
    // Safe: all three are lent for this call, and it is proved to write nothing but the record, this function's own.
    done(unsafe {
        raw::pinorange_open_sale(
            tabulation.as_ptr(), tabulation.len(), words.as_ptr(), words.len(), key,
            base, steps.as_ptr(), steps.len(), &mut sale,
        )
    })?;
    Ok(sale)
}

/// Closes a sale, at hang-up: the price of the record, though the card may be gone from the list. Never refused.
#[inline]
#[must_use]
pub fn close_sale(sale: &Sale) -> u32 {
    // Safe: the record is lent for this call, and it is proved to read nothing else.
    unsafe { raw::pinorange_close_sale(sale) }
}

/// Writes the house tabulation.
///
/// # Errors
///
/// `WrongTabulation`, and the tabulation stays as it was.
#[inline]
pub fn house(tabulation: &mut [u16]) -> Result<(), Refusal> {
    // Safe: the tabulation is lent for this call alone, and it is proved to touch nothing else.
    done(unsafe { raw::pinorange_house(tabulation.as_mut_ptr(), tabulation.len()) })
}

/// Lays an empty stolen-card list: the words, one for each slot, become zeros.
///
/// # Errors
///
/// `WrongShape`: there are not 1 to [`MAX_SLOTS`](crate::MAX_SLOTS) words, and the words stay as they were.
#[inline]
pub fn stolen_init(words: &mut [u32]) -> Result<(), Refusal> {
    // Safe: the words are lent for this call alone, and it is proved to touch nothing else.
    done(unsafe { raw::pinorange_stolen_init(words.as_mut_ptr(), words.len()) })
}

/// Puts a key into a stolen-card list, at the station that the list is for. Issues are keys of their own here.
///
/// A key below 10 tells whether the words are the image of a set: they stay, and the refusal is `BlankKey` if they are,
/// and `NotCanonical` if not. [`StolenList::open`](crate::StolenList::open) asks that.
///
/// # Errors
///
/// In this order, and the words stay as they were: `WrongTabulation`; `WrongShape` (there are not 1 to
/// [`MAX_SLOTS`](crate::MAX_SLOTS) words, or the station is outside its range); `NotCanonical`, `BlankKey`,
/// `KeyPresent`, `TableFull`.
///
/// ```
/// use pinorange::{Refusal, TABULATION_LENGTH};
///
/// let (mut tabulation, mut words) = ([0; TABULATION_LENGTH], [0; 16]);
/// pinorange::house(&mut tabulation)?;
/// pinorange::stolen_init(&mut words)?;
/// pinorange::stolen_insert(&tabulation, &mut words, 17, 410_017)?;
/// assert_eq!(pinorange::stolen_lookup(&tabulation, &words, 17, 410_017), Ok(true));
/// assert_eq!(pinorange::stolen_lookup(&tabulation, &words, 17, 410_018), Ok(false));
/// let again = pinorange::stolen_insert(&tabulation, &mut words, 17, 410_017);
/// assert_eq!(again, Err(Refusal::KeyPresent));
/// # Ok::<(), Refusal>(())
/// ```
#[inline]
#[rustfmt::skip]
pub fn stolen_insert(tabulation: &[u16], words: &mut [u32], station: u32, key: u32) -> Result<(), Refusal> {
    // Safe: both are lent for this call alone and lie apart, and it is proved to touch nothing else.
    done(unsafe {
        raw::pinorange_stolen_insert(
            tabulation.as_ptr(), tabulation.len(), words.as_mut_ptr(), words.len(), station, key,
        )
    })
}

/// Whether a key is in a stolen-card list, this issue of it. On words that are no image it may miss one that stands in
/// them.
///
/// # Errors
///
/// In this order: `WrongTabulation`, `WrongShape` as for [`stolen_insert`], `BlankKey`.
#[inline]
#[rustfmt::skip]
pub fn stolen_lookup(tabulation: &[u16], words: &[u32], station: u32, key: u32) -> Result<bool, Refusal> {
    let mut reported = 0;
    // Safe: both are lent for this call, and it is proved to write nothing but the number, this function's own.
    done(unsafe {
        raw::pinorange_stolen_lookup(
            tabulation.as_ptr(), tabulation.len(), words.as_ptr(), words.len(), station, key, &mut reported,
        )
    })?;
    Ok(reported == 1)
}

/// The part of lent memory that a call named. The library is proved to name none that is not there; one of another
/// version that does is answered for with `Unknown(0)`, and nothing panics.
fn part(lent: &[u32], offset: u32, length: u32) -> Result<&[u32], Refusal> {
    let behind = lent.get(offset as usize..);
    behind.and_then(|behind| behind.get(..length as usize)).ok_or(Refusal::Unknown(0))
}

#[cfg(test)]
mod tests {
    use super::part;
    use crate::Refusal;

    /// What a faulty library may name: up to the end of the memory it is a part, and beyond it a refusal.
    #[test]
    fn a_part_that_is_not_there() {
        let lent = [1, 2, 3];
        assert_eq!(part(&lent, 1, 2), Ok(&lent[1..]));
        assert_eq!(part(&lent, 3, 0), Ok(&lent[3..]));
        for (offset, length) in
            [(0, 4), (1, 3), (3, 1), (4, 0), (1, u32::MAX), (u32::MAX, u32::MAX)]
        {
            assert_eq!(part(&lent, offset, length), Err(Refusal::Unknown(0)), "{offset}, {length}");
        }
    }
}
