//! The stolen list (request Nine, "The stolen-card list"): the keys that were reported stolen, in
//! one table of their own, by linear probing with the smaller key first. The words are the slots
//! alone, one word for each: there is no header, r is their length, and the station is given to
//! each call. A set is any set of keys here: "Issues count as separate cards here", so there is no
//! 13. Slow on purpose: the words are always worked out anew from the whole set.
//!
//! [`displacement`] does the same once more in the way of the source paper, and [`model`] is the
//! reference model for whole sequences of calls. All calls are total: tabulation and words may have
//! any length and content, the station and the key may be any numbers.

use std::collections::BTreeSet;

use crate::answer::{Answer, Refusal};
use crate::hash::{hashes, MAX_R, MAX_STATION, TABULATION_LEN};
use crate::key::is_blank;

pub mod displacement;
pub mod model;

/// What a stolen list lists: keys, of which several may be issues of one first part.
pub type Keys = BTreeSet<u32>;

/// Makes the words an empty stolen list, or gives 2 for their length.
///
/// The paper describes no such call. The words of an empty list follow from the image: that of no
/// keys is all zeros, whatever the tabulation and the station are, so neither is asked for. The
/// length has the limits that the other calls put on it: "one rack of 1 to 1,024 one-word pockets".
/// Nothing is counted, as by an insert here: the "lay" that the counters count is that of the list
/// with two tables.
pub fn lay(words: &mut [u32]) -> Answer {
    slots_of(words)?;
    words.fill(0);
    Ok(())
}

/// Puts a key into the set (the paper's "adding").
///
/// Request Nine: "An accepted adding leaves the image of the old set with the card [..]; adding,
/// which moves no meter, checks 1, 2, 4, 5 and 6, and a refusal changes no pocket. [..] Answers: 16
/// (all pockets filled) after 6." It borrows no scratch, so there is no 3.
pub fn insert(tabulation: &[u16], words: &mut [u32], station: u32, key: u32) -> Answer {
    let new_words = with_key(tabulation, words, station, key)?;
    words.copy_from_slice(&new_words);
    Ok(())
}

/// Says whether a key is met on its way through the words (the paper's "look-up").
///
/// Request Nine: "On any words a look-up steps from the card's start to the card (yes), or to an
/// empty pocket, a larger card or a full round (no) [..]. Look-up checks 1, 2 (length or station)
/// and 5". So a smaller number is stepped over, also one of 1 to 9, which is no key.
pub fn lookup(tabulation: &[u16], words: &[u32], station: u32, key: u32) -> Result<bool, Refusal> {
    let r = checked_slots_of(tabulation, words, station)?;
    for slot in way(tabulation, r, station, key)? {
        let held = words[slot];
        if held == key {
            return Ok(true);
        }
        if held == 0 || held > key {
            return Ok(false);
        }
    }
    Ok(false)
}

/// The image of a set in r slots: the words of the canonical stolen list.
///
/// Request Nine: "The image of a set is what its cards give when placed ascending, each in the
/// first empty pocket on its way." `None` when the set has no image: it has more keys than there
/// are slots, or a blank one, or no stolen list has this tabulation, r or station.
pub fn image(tabulation: &[u16], r: u32, station: u32, keys: &Keys) -> Option<Vec<u32>> {
    if tabulation.len() != TABULATION_LEN || !(1..=MAX_R).contains(&r) || station > MAX_STATION {
        return None;
    }
    let mut words = vec![0; r as usize];
    for &key in keys {
        let first_empty = way(tabulation, r, station, key).ok()?.find(|&slot| words[slot] == 0)?;
        words[first_empty] = key;
    }
    Some(words)
}

/// The set whose image the words are at this station, `None` if there is none.
///
/// Every key of a set stands in the set's image, and no other number but 0 does. So the words are
/// the image of the numbers that stand in them, or of no set at all. A number of 1 to 9 is no key,
/// and a number that stands twice is one key only, whose image has it once.
pub fn listed_keys(tabulation: &[u16], words: &[u32], station: u32) -> Option<Keys> {
    let r = slots_of(words).ok()?;
    let keys: Keys = words.iter().copied().filter(|&word| word != 0).collect();
    (image(tabulation, r, station, &keys)? == words).then_some(keys)
}

/// The way of a key through r slots at a station: all of them, each once; or 1, 2 or 5, in this
/// order.
///
/// Request Nine: "A card starts at its rack 0 place under a given station number and steps on by
/// one, round the end." The place is that of request Six, "from the number divided by ten": all
/// issues of a first part have one way.
pub fn way(
    tabulation: &[u16],
    r: u32,
    station: u32,
    key: u32,
) -> Result<impl Iterator<Item = usize>, Refusal> {
    let [start, _] = hashes(tabulation, r, station, key)?;
    Ok((start..r).chain(0..start).map(|slot| slot as usize))
}

/// The words after an insert, or its refusal.
///
/// The paper puts 4 before 5, so a blank key is refused as such on an image only. On a full list 6
/// is due for a key in the set and 16 for any other.
fn with_key(
    tabulation: &[u16],
    words: &[u32],
    station: u32,
    key: u32,
) -> Result<Vec<u32>, Refusal> {
    let r = checked_slots_of(tabulation, words, station)?;
    let mut keys = listed_keys(tabulation, words, station).ok_or(Refusal::NotCanonical)?;
    if is_blank(key) {
        return Err(Refusal::BlankKey);
    }
    if !keys.insert(key) {
        return Err(Refusal::Listed);
    }
    if !words.contains(&0) {
        return Err(Refusal::FullTable);
    }
    Ok(image(tabulation, r, station, &keys).expect("a slot was empty, and a way meets every slot"))
}

/// The number of slots of the words, or 2 for their length.
fn slots_of(words: &[u32]) -> Result<u32, Refusal> {
    let r = u32::try_from(words.len()).map_err(|_| Refusal::WrongShape)?;
    if !(1..=MAX_R).contains(&r) {
        return Err(Refusal::WrongShape);
    }
    Ok(r)
}

/// The number of slots of the words; or 1, or 2 for their length or the station, in this order.
///
/// Only table 0's half of the tabulation is ever read, but 1 is about the whole: "The book becomes
/// 2,560 numbers".
fn checked_slots_of(tabulation: &[u16], words: &[u32], station: u32) -> Result<u32, Refusal> {
    if tabulation.len() != TABULATION_LEN {
        return Err(Refusal::WrongTabulation);
    }
    let r = slots_of(words)?;
    if station > MAX_STATION {
        return Err(Refusal::WrongShape);
    }
    Ok(r)
}
