//! The stolen list a second time, in the ways of source document 003, section 3, with one global
//! priority, the smaller key's. Here an insert moves keys in place and never sees the set, and
//! whether words are an image is asked slot by slot. It must come to the same answers and words as
//! the definition in [`crate::stolen`], of whose code it uses nothing.

use std::collections::BTreeMap;
use std::mem::swap;

use crate::answer::{Answer, Refusal};
use crate::hash::hashes;
use crate::stolen::Keys;

/// Puts a key into the set: the source paper's insert-A.
///
/// Section 3.1: "probe the cells in x's probe sequence until reaching either an empty cell or a
/// cell i containing element y where p_i(x, y) is true [..]. If the cell is empty, place x there
/// and halt. If it is occupied by a lower-priority element y, place x there and recursively apply
/// the insertion algorithm to y, using y's probe sequence from i onwards." From any slot on all
/// probe sequences go the same way, so the key that is carried on is always at its next slot.
pub fn insert(tabulation: &[u16], words: &mut [u32], station: u32, key: u32) -> Answer {
    // A key that is not blank brings out 1 and 2 alone: 5 has to wait for 4.
    start(tabulation, words, station, u32::MAX)?;
    if !is_image(tabulation, words, station) {
        return Err(Refusal::NotCanonical);
    }
    let mut at = start(tabulation, words, station, key)?;
    if words.contains(&key) {
        return Err(Refusal::Listed);
    }
    if words.iter().all(|&word| word != 0) {
        return Err(Refusal::FullTable);
    }
    let mut carried = key;
    while words[at] != 0 {
        if carried < words[at] {
            swap(&mut carried, &mut words[at]);
        }
        at = (at + 1) % words.len();
    }
    words[at] = carried;
    Ok(())
}

/// Whether the words are the image of a set, asked slot by slot and without working an image out:
/// every number but 0 is a key, and on its way from its start to just before its slot every slot
/// holds a smaller key. A number that stands twice would have to pass its own first copy.
pub fn is_image(tabulation: &[u16], words: &[u32], station: u32) -> bool {
    (0..words.len()).all(|slot| words[slot] == 0 || sits_right(tabulation, words, station, slot))
}

fn sits_right(tabulation: &[u16], words: &[u32], station: u32, slot: usize) -> bool {
    let key = words[slot];
    let Ok(mut at) = start(tabulation, words, station, key) else {
        return false;
    };
    while at != slot {
        if words[at] == 0 || words[at] >= key {
            return false;
        }
        at = (at + 1) % words.len();
    }
    true
}

/// The image of a set in r slots by passes over the whole set: the source paper's insert-B. There
/// must be no more keys than slots.
///
/// Section 3.2: a pass "begins by finding the next cell in the probe sequence for each element in
/// B_(i-1) and provisionally placing the element there, then choosing the highest-priority element
/// at each cell (including possibly one placed there in a previous pass) and actually placing it
/// there. [..] Let B_i be the set of all elements that were not actually placed, or were removed".
/// "We keep a record of how far along its probe sequence each element has reached".
pub fn image_by_passes(
    tabulation: &[u16],
    r: u32,
    station: u32,
    keys: &Keys,
) -> Result<Vec<u32>, Refusal> {
    assert!(keys.len() <= r as usize, "with more keys than slots the passes never end");
    let mut words = vec![0; r as usize];
    let mut unplaced = BTreeMap::new();
    for &key in keys {
        unplaced.insert(key, start(tabulation, &words, station, key)?);
    }
    while !unplaced.is_empty() {
        let mut left = BTreeMap::new();
        for (key, at) in unplaced {
            // Where a key is passed over or removed, it goes on at the next slot.
            let next = (at + 1) % words.len();
            if words[at] == 0 {
                words[at] = key;
            } else {
                left.insert(words[at].max(key), next);
                words[at] = words[at].min(key);
            }
        }
        unplaced = left;
    }
    Ok(words)
}

/// The slot in which the way of a key starts; or 1, 2 or 5, in this order.
fn start(tabulation: &[u16], words: &[u32], station: u32, key: u32) -> Result<usize, Refusal> {
    let r = u32::try_from(words.len()).unwrap_or(u32::MAX);
    Ok(hashes(tabulation, r, station, key)?[0] as usize)
}
