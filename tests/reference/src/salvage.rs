//! What a damaged list still tells (request Eight, "Reading a head that got wet"; the field speaks
//! of a salvage): which of the numbers that stand in the words count, which of those survive, how
//! many are lost, and the call that writes the canonical list of the survivors to a second area.
//! Every question is a plain pass over the words of its own. Slow on purpose; how the list of the
//! survivors looks is left to the engine.

use crate::answer::Refusal;
use crate::hash::{hashes, TABULATION_LEN};
use crate::image::Engine;
use crate::key::{first_part, is_blank};
use crate::layout::{Entry, Shape, Slot};
use crate::placement::Place;
use crate::set::{members, Set, MAX_TIER};

/// Writes the canonical list of all survivors of the words to the target and says how many numbers
/// were lost.
///
/// Request Eight: "The tool writes their canonical list, with the same r, s and station, to a
/// second lent area of the same length and tells how many pockets and drawer places held a card
/// number other than zero that doesn't count. [..] Checks are 1, 2 for the first area, 2 for the
/// second's length, and 3. Answers: 15 [..] last; every refusal leaves the second area unchanged."
/// So the words need not be an image (there is no 4), and what the target held has no say. The
/// scratch "is zero over its full length after every call that borrows it". Nothing is counted by
/// the counters: it is "lay, add and withdraw" that move them, and with request Seven a bulk load.
pub fn salvage(
    engine: &impl Engine,
    tabulation: &[u16],
    words: &[u32],
    target: &mut [u32],
    scratch: &mut [u32],
) -> Result<u32, Refusal> {
    let salvaged = salvaged(engine, tabulation, words, target.len(), scratch.len());
    scratch.fill(0);
    let (new_words, lost) = salvaged?;
    target.copy_from_slice(&new_words);
    Ok(lost)
}

/// The words for the target and how many numbers are lost; or 1, 2 (for the words), 2 (for the
/// target's length), 3 or 15, in this order.
///
/// Request Eight: "The survivors always fit: show that." Each survivor was found in a place of its
/// own, one of its two slots or one of the s stash places, so there is a placement of them all with
/// at most s keys in the stash. No placement has fewer keys there than the canonical stash: in a
/// component with p slots and c keys at most p keys sit in slots, so at least c - p do not; and the
/// canonical stash takes keys off cycles, which leaves the slots connected, until one cycle is
/// left, which is when p keys are left, and takes none where c is p or less. So it has at most s
/// keys, too. Nothing else keeps the survivors from having an image: the shape and the tabulation
/// are right, and no survivor is blank, has a tier above 7 or shares its first part with another
/// one.
fn salvaged(
    engine: &impl Engine,
    tabulation: &[u16],
    words: &[u32],
    target_len: usize,
    scratch_len: usize,
) -> Result<(Vec<u32>, u32), Refusal> {
    if tabulation.len() != TABULATION_LEN {
        return Err(Refusal::WrongTabulation);
    }
    let shape = Shape::of(words)?;
    if target_len != words.len() {
        return Err(Refusal::WrongShape);
    }
    if scratch_len < shape.scratch_len() {
        return Err(Refusal::ShortScratch);
    }
    let set = surviving_set(tabulation, shape, words)?;
    let (r, s, station) = shape.numbers();
    let image = engine.image(tabulation, r, s, station, &members(&set));
    let image = image.expect("the survivors fit: each was found in a place of its own");
    Ok((image, lost(tabulation, shape, words)))
}

/// The set of all survivors, or 15.
///
/// Request Eight: "15 (some pocket or drawer place holds a card number other than zero, yet no card
/// counts)". Where no number other than zero stands at all, it is the empty set.
pub fn surviving_set(tabulation: &[u16], shape: Shape, words: &[u32]) -> Result<Set, Refusal> {
    let held = all_held(shape, words);
    if !held.is_empty() && !held.iter().any(|held| counts(tabulation, shape, held)) {
        return Err(Refusal::NothingCounts);
    }
    let survivors = survivors(tabulation, shape, words);
    Ok(survivors.into_iter().map(|survivor| (survivor.key, survivor.tier)).collect())
}

/// A number other than zero in a slot or a stash place: where it stands, and the tier beside it. In
/// a damaged list the number can be that of no key, and the tier can be any word.
#[derive(Clone, Copy, Debug, PartialEq, Eq)]
pub struct Held {
    /// The slot or stash place.
    pub place: Place,
    /// The number in its key word (the paper's "card number").
    pub key: u32,
    /// The number in its tier word.
    pub tier: u32,
}

/// All numbers other than zero that stand in the slots and stash places of words of this shape.
///
/// Request Eight: "A list of the right shape is gone over in word order." Paper: "Then come rack 0,
/// rack 1 and the drawer." All s stash places are gone over, whatever word 3 says; the counts in
/// the header and the next numbers are not looked at.
pub fn all_held(shape: Shape, words: &[u32]) -> Vec<Held> {
    let in_slot = |slot| {
        let Entry { key, tier, .. } = shape.entry(words, slot)?;
        Some(Held { place: Place::Slot(slot), key, tier })
    };
    let in_stash = |place: u32| {
        let at = shape.place_at(place as usize);
        Held { place: Place::Stash(place), key: words[at], tier: words[at + 1] }
    };
    let stored = shape.slots().filter_map(in_slot);
    let stashed = (0..shape.s()).map(in_stash).filter(|held| held.key != 0);
    stored.chain(stashed).collect()
}

/// Whether a number counts.
///
/// Request Eight: "A pocket's card counts if it is 10 or more, its tier is at most 7 and the pocket
/// is its place; a drawer card needs only the first two." Nothing else is asked: a copy of another
/// number that counts does so, too, though it does not stand.
pub fn counts(tabulation: &[u16], shape: Shape, held: &Held) -> bool {
    let is_member = !is_blank(held.key) && held.tier <= MAX_TIER;
    match held.place {
        Place::Slot(slot) => is_member && is_own_slot(tabulation, shape, slot, held.key),
        Place::Stash(_) => is_member,
    }
}

/// Whether a slot is one of the two that a key may sit in.
///
/// Request Eight: "the pocket is its place". The place is that of the slot's own table, at the
/// station in the words. (A blank key has no places; nor has any under a tabulation of a wrong
/// length, of which [`salvage`] is refused.)
pub fn is_own_slot(tabulation: &[u16], shape: Shape, slot: Slot, key: u32) -> bool {
    let hashes = hashes(tabulation, shape.r(), shape.station(), key);
    hashes.is_ok_and(|hashes| hashes[slot.table] as usize == slot.index)
}

/// The survivors of words of this shape, each where it was found, in word order.
///
/// Request Eight: "Of several issues or copies of a card the first that counts stands, with its
/// tier." Issues and copies of a card are the numbers with its first part. So the places of the
/// survivors differ, and each is a place of the survivor's own.
pub fn survivors(tabulation: &[u16], shape: Shape, words: &[u32]) -> Vec<Held> {
    let mut survivors: Vec<Held> = Vec::new();
    for held in all_held(shape, words) {
        let is_same_card = |other: &Held| first_part(other.key) == first_part(held.key);
        if counts(tabulation, shape, &held) && !survivors.iter().any(is_same_card) {
            survivors.push(held);
        }
    }
    survivors
}

/// How many numbers in words of this shape are lost.
///
/// Request Eight: "how many pockets and drawer places held a card number other than zero that
/// doesn't count". A copy that counts is not lost, though it does not stand: the smallest key of a
/// tree stands in both its slots, and "An untampered list gives itself and 0."
pub fn lost(tabulation: &[u16], shape: Shape, words: &[u32]) -> u32 {
    let held = all_held(shape, words);
    held.iter().filter(|held| !counts(tabulation, shape, held)).count() as u32
}
