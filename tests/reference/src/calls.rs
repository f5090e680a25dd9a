//! The calls on a list: init, insert, remove, lookup, check, the stash view and the trail; request
//! Four's opening of a sale stands in [`crate::sale`], request Seven's bulk load in [`crate::bulk`]
//! and request Eight's salvage in [`crate::salvage`]. (The stolen list of request Nine is another
//! list with calls of its own, in [`crate::stolen`].) All are total: tabulation, words, scratch,
//! trail sheet, input and target may have any length and content. Only init and a bulk load are
//! given a station; the others use the words' own. The engine given says how images and trails are
//! worked out.

use crate::answer::{Answer, Found, Refusal};
use crate::counters::Counters;
use crate::hash::{hashes, TABULATION_LEN};
use crate::image::Engine;
use crate::key::is_blank;
use crate::layout::{Shape, Slot, HEADER_LEN, PLACE_LEN};
use crate::set::{has_other_issue, members, set, Set, MAX_TIER};

/// Makes the words an empty list (the paper's "lay").
///
/// Paper: "Laying fresh takes r and s and gives only 2; it borrows neither book nor sheet, and
/// accepted it leaves r, s and zeros." Request Five: "A station number, 0 to 255, is given when a
/// list is laid and stands as word 4".
pub fn init(r: u32, s: u32, station: u32, words: &mut [u32], counters: &mut Counters) -> Answer {
    let answer = init_words(r, s, station, words);
    counters.count(answer);
    answer
}

fn init_words(r: u32, s: u32, station: u32, words: &mut [u32]) -> Answer {
    let shape = Shape::new(r, s, station)?;
    if words.len() != shape.words_len() {
        return Err(Refusal::WrongShape);
    }
    words.fill(0);
    words[..HEADER_LEN].copy_from_slice(&shape.header(0, 0));
    Ok(())
}

/// Puts a key with its tier into the set (the paper's "add").
///
/// Paper: "Add can give 1 to 6 and 8"; by request One also 9 and 10, by request Six also 13. The
/// words become the image of the new set; "Every refusal leaves list and book unchanged". The
/// scratch "is zero over its full length after every call that borrows it".
pub fn insert(
    engine: &impl Engine,
    tabulation: &[u16],
    words: &mut [u32],
    scratch: &mut [u32],
    counters: &mut Counters,
    key: u32,
    tier: u32,
) -> Answer {
    let new_words = with_key(engine, tabulation, words, scratch.len(), key, tier);
    finish(new_words, words, scratch, counters)
}

/// Takes a key out of the set, whatever its tier (the paper's "withdraw").
///
/// Paper: "withdraw 1 to 5 and 7". Request Six: "Look-up and withdraw want the exact issue."
pub fn remove(
    engine: &impl Engine,
    tabulation: &[u16],
    words: &mut [u32],
    scratch: &mut [u32],
    counters: &mut Counters,
    key: u32,
) -> Answer {
    let new_words = without_key(engine, tabulation, words, scratch.len(), key);
    finish(new_words, words, scratch, counters)
}

/// Says whether the words are a canonical image (the paper's "check").
///
/// Paper: "check 1 to 4" and "check, look-up and view never change them".
pub fn check(
    engine: &impl Engine,
    tabulation: &[u16],
    words: &[u32],
    scratch: &mut [u32],
) -> Answer {
    let answer = listed_set(engine, tabulation, words, scratch.len());
    scratch.fill(0);
    answer.map(|_| ())
}

/// Says whether a key stands in the words, and with which tier (the paper's "look-up").
///
/// Paper: "Look-up borrows no sheet. It gives 1, 2, 5, or else yes exactly when the number stands
/// as a card number in its rack 0 place, its rack 1 place or one of the s drawer words, tampered
/// list or not." Request One: "Look-up answers the tier or that the card isn't listed [..]; should
/// a tampered list show the card more than once, the first in word order counts." Request Six:
/// "Look-up and withdraw want the exact issue."; another issue has the same slots and is passed by.
pub fn lookup(tabulation: &[u16], words: &[u32], key: u32) -> Result<Found, Refusal> {
    if tabulation.len() != TABULATION_LEN {
        return Err(Refusal::WrongTabulation);
    }
    let shape = Shape::of(words)?;
    let hashes = hashes(tabulation, shape.r(), shape.station(), key)?;
    let own_slots = [0, 1].map(|table| Slot { table, index: hashes[table] as usize });
    let entries = own_slots.into_iter().filter_map(|slot| shape.entry(words, slot));
    let stored = entries.map(|entry| (entry.key, entry.tier));
    let mut in_order = stored.chain(shape.places(words));
    Ok(match in_order.find(|&(other, _)| other == key) {
        Some((_, tier)) => Found::Listed(tier),
        None => Found::Absent,
    })
}

/// The filled part of the stash, as part of the borrowed words (the paper's "drawer view").
///
/// Paper: "The view answers with the filled stretch of the drawer as part of the lent list, without
/// copying. Refused, the stretch is empty, and a call beside it gives the number." That call is
/// [`stash_answer`]. Request One: "The drawer view shows both words of each filled place."
pub fn stash(words: &[u32]) -> &[u32] {
    stash_part(words).unwrap_or(&[])
}

/// The answer that goes with [`stash`].
///
/// Paper: "The drawer view gives only 2, or 4 when word 3 exceeds s."
pub fn stash_answer(words: &[u32]) -> Answer {
    stash_part(words).map(|_| ())
}

fn stash_part(words: &[u32]) -> Result<&[u32], Refusal> {
    let shape = Shape::of(words)?;
    let filled = words[3];
    if filled > shape.s() {
        return Err(Refusal::NotCanonical);
    }
    Ok(&words[shape.stash_at()..][..PLACE_LEN * filled as usize])
}

/// Writes the trail of a key to the trail sheet and says how many keys it has.
///
/// Request Two: "Its card numbers are written to a lent sheet, rest zeros, and the call tells how
/// many; a drawer card's trail is empty. [..] Checks run as for withdraw, and the borrowed work
/// sheet is zeroed. Answers: 11 (trail sheet shorter than the trail) after 7; every refusal leaves
/// the trail sheet unchanged." So it can give 1 to 5, 7 and 11, and 7 for another issue of a listed
/// key, as withdraw. It counts nowhere and changes no word of the list.
pub fn trail(
    engine: &impl Engine,
    tabulation: &[u16],
    words: &[u32],
    scratch: &mut [u32],
    key: u32,
    trail_sheet: &mut [u32],
) -> Result<usize, Refusal> {
    let trail = trail_of(engine, tabulation, words, scratch.len(), key, trail_sheet.len());
    scratch.fill(0);
    let trail = trail?;
    trail_sheet.fill(0);
    trail_sheet[..trail.len()].copy_from_slice(&trail);
    Ok(trail.len())
}

/// The shape of the words and the set whose image they are; or 1, 2, 3 or 4, in this order.
///
/// Every key of a set stands in the set's image, in a slot or in the stash, with its tier beside
/// it, and no other does. So the words are the image of the keys and tiers that stand in them, at
/// the station in their word 4, or of no set at all.
fn listed_set(
    engine: &impl Engine,
    tabulation: &[u16],
    words: &[u32],
    scratch_len: usize,
) -> Result<(Shape, Set), Refusal> {
    if tabulation.len() != TABULATION_LEN {
        return Err(Refusal::WrongTabulation);
    }
    let shape = Shape::of(words)?;
    if scratch_len < shape.scratch_len() {
        return Err(Refusal::ShortScratch);
    }
    let members = shape.members(words);
    let (r, s, station) = shape.numbers();
    if engine.image(tabulation, r, s, station, &members).as_deref() != Some(words) {
        return Err(Refusal::NotCanonical);
    }
    let set = set(&members).ok_or(Refusal::NotCanonical)?;
    Ok((shape, set))
}

/// The shape of the words and the set whose image they are, with the key in it; or 1, 2, 3, 4, 5 or
/// 7, in this order.
fn set_with_listed(
    engine: &impl Engine,
    tabulation: &[u16],
    words: &[u32],
    scratch_len: usize,
    key: u32,
) -> Result<(Shape, Set), Refusal> {
    let (shape, set) = listed_set(engine, tabulation, words, scratch_len)?;
    if is_blank(key) {
        return Err(Refusal::BlankKey);
    }
    if !set.contains_key(&key) {
        return Err(Refusal::NotListed);
    }
    Ok((shape, set))
}

/// The words after an insert, or its refusal.
///
/// A set has one issue of a first part. So 13 is never due together with 10 or 6, and its place in
/// the order shows only against 9 before it and 8 after it.
fn with_key(
    engine: &impl Engine,
    tabulation: &[u16],
    words: &[u32],
    scratch_len: usize,
    key: u32,
    tier: u32,
) -> Result<Vec<u32>, Refusal> {
    let (shape, mut set) = listed_set(engine, tabulation, words, scratch_len)?;
    if is_blank(key) {
        return Err(Refusal::BlankKey);
    }
    if tier > MAX_TIER {
        return Err(Refusal::WrongTier);
    }
    if has_other_issue(&set, key) {
        return Err(Refusal::OtherIssue);
    }
    match set.insert(key, tier) {
        Some(listed) if listed != tier => return Err(Refusal::OtherTier),
        Some(_) => return Err(Refusal::Listed),
        None => {}
    }
    let (r, s, station) = shape.numbers();
    engine.image(tabulation, r, s, station, &members(&set)).ok_or(Refusal::FullStash)
}

/// The words after a remove, or its refusal.
fn without_key(
    engine: &impl Engine,
    tabulation: &[u16],
    words: &[u32],
    scratch_len: usize,
    key: u32,
) -> Result<Vec<u32>, Refusal> {
    let (shape, mut set) = set_with_listed(engine, tabulation, words, scratch_len, key)?;
    set.remove(&key);
    let (r, s, station) = shape.numbers();
    let image = engine.image(tabulation, r, s, station, &members(&set));
    Ok(image.expect("a smaller set needs no more stash places"))
}

/// The keys of a trail, or its refusal.
fn trail_of(
    engine: &impl Engine,
    tabulation: &[u16],
    words: &[u32],
    scratch_len: usize,
    key: u32,
    trail_sheet_len: usize,
) -> Result<Vec<u32>, Refusal> {
    let (shape, set) = set_with_listed(engine, tabulation, words, scratch_len, key)?;
    let (r, s, station) = shape.numbers();
    let trail = engine.trail(tabulation, r, s, station, &members(&set), key);
    let trail = trail.expect("a listed key has a trail");
    if trail_sheet_len < trail.len() {
        return Err(Refusal::ShortTrailSheet);
    }
    Ok(trail)
}

/// Ends an insert, remove or bulk load: new words if accepted, zeros on the scratch, one count
/// more.
pub(crate) fn finish(
    new_words: Result<Vec<u32>, Refusal>,
    words: &mut [u32],
    scratch: &mut [u32],
    counters: &mut Counters,
) -> Answer {
    let answer = new_words.map(|new_words| words.copy_from_slice(&new_words));
    scratch.fill(0);
    counters.count(answer);
    answer
}
