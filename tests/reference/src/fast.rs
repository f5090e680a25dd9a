//! The canonical image, bulk loads and trails another way, for lists of any allowed size: a
//! spanning forest instead of listed cycles, and peeling instead of trying. The image is near n log
//! n; the tests hold all three against the slow definitions.

use crate::answer::{Found, Refusal};
use crate::hash::{HALF_LEN, STRETCH_LEN, TABULATION_LEN};
use crate::image::Engine;
use crate::key::{first_part, is_blank};
use crate::layout::{Shape, HEADER_LEN, PLACE_LEN, SLOT_LEN};
use crate::set::{Member, MAX_TIER};

/// The engine that works by [`image`], [`bulk_image`] and [`trail`] of this module.
#[derive(Clone, Copy, Debug, Default)]
pub struct Fast;

impl Engine for Fast {
    fn image(
        &self,
        tabulation: &[u16],
        r: u32,
        s: u32,
        station: u32,
        members: &[Member],
    ) -> Option<Vec<u32>> {
        image(tabulation, r, s, station, members)
    }

    fn bulk_image(
        &self,
        tabulation: &[u16],
        r: u32,
        s: u32,
        station: u32,
        members: &[Member],
    ) -> Option<Vec<u32>> {
        bulk_image(tabulation, r, s, station, members)
    }

    fn trail(
        &self,
        tabulation: &[u16],
        r: u32,
        s: u32,
        station: u32,
        members: &[Member],
        key: u32,
    ) -> Option<Vec<u32>> {
        trail(tabulation, r, s, station, members, key)
    }
}

/// The words of the canonical image of a set; the same as [`crate::image::image`].
///
/// Paper: "The canonical image". That is what a bulk load of the members leaves once they are
/// sorted; request Seven: "The image equals, word by word, that of adding the same cards with their
/// tiers to a list laid alike".
pub fn image(
    tabulation: &[u16],
    r: u32,
    s: u32,
    station: u32,
    members: &[Member],
) -> Option<Vec<u32>> {
    let mut members = members.to_vec();
    members.sort_unstable();
    members.dedup();
    bulk_image(tabulation, r, s, station, &members)
}

/// The words that a bulk load leaves, with members that are ascending already; the same as
/// [`crate::bulk::image`].
///
/// Request Seven: "Going up, a card that joins two separate groups is seated. Of the cards that
/// close a loop, the smallest in each finished group is seated and the others go to the drawer.
/// Seats follow document 01."
pub fn bulk_image(
    tabulation: &[u16],
    r: u32,
    s: u32,
    station: u32,
    members: &[Member],
) -> Option<Vec<u32>> {
    let shape = Shape::new(r, s, station).ok()?;
    let tabulation: &[u16; TABULATION_LEN] = tabulation.try_into().ok()?;
    let (keys, tiers): (Vec<u32>, Vec<u32>) = members.iter().copied().unzip();
    // In ascending order the issues of a first part stand side by side, as do the tiers of a key.
    let rising = keys.windows(2).all(|pair| first_part(pair[0]) < first_part(pair[1]));
    let blank = keys.first().is_some_and(|&smallest| is_blank(smallest));
    if blank || !rising || tiers.iter().any(|&tier| tier > MAX_TIER) {
        return None;
    }
    let ends: Vec<[u32; 2]> = keys.iter().map(|&key| ends(tabulation, r, station, key)).collect();
    let parts = Parts::new(2 * r as usize, &ends);
    let stashed = parts.in_stash().count();
    if stashed > s as usize {
        return None;
    }
    let mut words = vec![0; shape.words_len()];
    words[..HEADER_LEN].copy_from_slice(&shape.header(keys.len(), stashed));
    let next = next_keys(&keys, &parts);
    for (slot, &i) in assignment(&ends, &parts).iter().enumerate() {
        if i != NONE {
            let i = i as usize;
            words[HEADER_LEN + SLOT_LEN * slot..][..SLOT_LEN]
                .copy_from_slice(&[keys[i], next[i], tiers[i]]);
        }
    }
    let places = words[shape.stash_at()..].chunks_exact_mut(PLACE_LEN);
    for (place, i) in places.zip(parts.in_stash()) {
        place.copy_from_slice(&[keys[i], tiers[i]]);
    }
    Some(words)
}

/// The trail of a key in the canonical image of a set; the same as [`crate::trail::trail`].
///
/// Request Two: "The trail starts with a seated card; each next one is the card sitting in the last
/// one's other pocket. It ends with the root".
pub fn trail(
    tabulation: &[u16],
    r: u32,
    s: u32,
    station: u32,
    members: &[Member],
    key: u32,
) -> Option<Vec<u32>> {
    let words = image(tabulation, r, s, station, members)?;
    let stored = Stored { tabulation: tabulation.try_into().ok()?, r, station, words };
    if !members.iter().any(|&(listed, _)| listed == key) {
        return None;
    }
    if stored.slot_of(key).is_none() {
        return Some(Vec::new());
    }
    let root = stored.root(&stored.component(key));
    let mut trail = vec![key];
    let mut last = key;
    while last != root {
        last = stored.step(last);
        trail.push(last);
        assert!(trail.len() <= 2 * r as usize, "a trail ends without a repeated key");
    }
    Some(trail)
}

/// Says whether a key stands in the words, and with which tier; the same as
/// [`crate::calls::lookup`], with less to do at run time. It is the partner for benchmarks.
///
/// Paper: "Look-up borrows no sheet. It gives 1, 2, 5, or else yes exactly when the number stands
/// as a card number in its rack 0 place, its rack 1 place or one of the s drawer words, tampered
/// list or not." Request One: "Look-up answers the tier or that the card isn't listed [..]; should
/// a tampered list show the card more than once, the first in word order counts." Request Six:
/// "Look-up and withdraw want the exact issue."
#[inline]
pub fn lookup(tabulation: &[u16], words: &[u32], key: u32) -> Result<Found, Refusal> {
    let Ok(tabulation) = <&[u16; TABULATION_LEN]>::try_from(tabulation) else {
        return Err(Refusal::WrongTabulation);
    };
    let shape = Shape::of(words)?;
    if is_blank(key) {
        return Err(Refusal::BlankKey);
    }
    for end in ends(tabulation, shape.r(), shape.station(), key) {
        let at = HEADER_LEN + SLOT_LEN * end as usize;
        if words[at] == key {
            return Ok(Found::Listed(words[at + 2]));
        }
    }
    for place in words[shape.stash_at()..].chunks_exact(PLACE_LEN) {
        if place[0] == key {
            return Ok(Found::Listed(place[1]));
        }
    }
    Ok(Found::Absent)
}

/// Stands for "no key" among key numbers.
const NONE: u32 = u32::MAX;

/// The two slots of a key (the paper's "places") at a station, numbered through both tables: slot i
/// of table 0 is i and slot i of table 1 is r + i.
///
/// Request Five: "a place's sum adds the fifth stretch's entry at (b0 + station number) modulo
/// 256", and request Six takes the bytes from the first part. So that is the lowest byte of first
/// part + station, a sum that never wraps: a first part is below 2^29.
#[inline]
fn ends(tabulation: &[u16; TABULATION_LEN], r: u32, station: u32, key: u32) -> [u32; 2] {
    let first = first_part(key);
    let [b0, b1, b2, b3] = first.to_le_bytes();
    let [moved, ..] = (first + station).to_le_bytes();
    [0, 1].map(|table| {
        let half = &tabulation[HALF_LEN * table..][..HALF_LEN];
        let entry = |i: usize, byte: u8| u32::from(half[STRETCH_LEN * i + usize::from(byte)]);
        let sum = entry(0, b0) + entry(1, b1) + entry(2, b2) + entry(3, b3) + entry(4, moved);
        table as u32 * r + sum % r
    })
}

/// The components of a set of keys and what goes to the stash. Keys go by their number in ascending
/// order from here on.
struct Parts {
    /// For each key, the slot that stands for its component.
    component: Vec<u32>,
    /// For each slot that stands for a component, whether that component has a cycle.
    cyclic: Vec<bool>,
    /// For each key, whether it goes to the stash.
    stashed: Vec<bool>,
}

impl Parts {
    /// Paper: "the largest card that lies on a loop goes to the drawer, and again, until one loop
    /// is left".
    ///
    /// Done to the end, that would be the way to a minimum spanning tree that deletes the largest
    /// edge on a cycle again and again. It deletes in descending order, and in the end it has
    /// deleted just the keys that close a cycle when keys are joined up in ascending order. It
    /// stops one key short of the tree. So in each component all closing keys go to the stash, but
    /// for the smallest. That is how request Seven puts it for a whole list.
    fn new(slots: usize, ends: &[[u32; 2]]) -> Parts {
        let mut sets = DisjointSets::new(slots);
        let closing: Vec<usize> = (0..ends.len()).filter(|&i| !sets.union(ends[i])).collect();
        let component: Vec<u32> = ends.iter().map(|end| sets.find(end[0])).collect();
        let mut cyclic = vec![false; slots];
        let mut stashed = vec![false; ends.len()];
        for i in closing {
            stashed[i] = std::mem::replace(&mut cyclic[component[i] as usize], true);
        }
        Parts { component, cyclic, stashed }
    }

    /// The keys that stay in the tables, ascending.
    fn kept(&self) -> impl Iterator<Item = usize> + '_ {
        (0..self.stashed.len()).filter(|&i| !self.stashed[i])
    }

    /// The keys that go to the stash, ascending.
    fn in_stash(&self) -> impl Iterator<Item = usize> + '_ {
        (0..self.stashed.len()).filter(|&i| self.stashed[i])
    }
}

/// Disjoint sets of slots, with path halving and union by size.
struct DisjointSets {
    parent: Vec<u32>,
    size: Vec<u32>,
}

impl DisjointSets {
    fn new(slots: usize) -> DisjointSets {
        DisjointSets { parent: (0..slots as u32).collect(), size: vec![1; slots] }
    }

    /// The slot that stands for the set of `slot`.
    fn find(&mut self, mut slot: u32) -> u32 {
        while self.parent[slot as usize] != slot {
            let above = self.parent[self.parent[slot as usize] as usize];
            self.parent[slot as usize] = above;
            slot = above;
        }
        slot
    }

    /// Joins the sets of two slots; false when they were one set already.
    fn union(&mut self, ends: [u32; 2]) -> bool {
        let [mut small, mut large] = ends.map(|slot| self.find(slot));
        if small == large {
            return false;
        }
        if self.size[small as usize] > self.size[large as usize] {
            std::mem::swap(&mut small, &mut large);
        }
        self.parent[small as usize] = large;
        self.size[large as usize] += self.size[small as usize];
        true
    }
}

/// For each slot the number of the key that sits there, or [`NONE`].
///
/// Paper: "No loop in the group: its smallest card sits in both its pockets. That fixes every other
/// card's pocket." and "One loop: the smallest card on the loop sits in rack 0. That fixes the
/// rest."
fn assignment(ends: &[[u32; 2]], parts: &Parts) -> Vec<u32> {
    let slots = parts.cyclic.len();
    let mut peeling = Peeling::new(slots, ends, parts);
    let mut started = vec![false; slots];
    for i in parts.kept() {
        let component = parts.component[i] as usize;
        let first = !std::mem::replace(&mut started[component], true);
        if first && !parts.cyclic[component] {
            peeling.assign_both(i);
        }
    }
    peeling.peel_all();
    // Only cycles are left. The smallest key of each comes up first and settles its whole cycle.
    for i in parts.kept() {
        if !peeling.is_assigned[i] {
            peeling.assign(i, ends[i][0]);
            peeling.peel_from(ends[i][1]);
        }
    }
    peeling.held
}

/// Assigns keys to slots by peeling: a free slot that one key alone is left to take goes to that
/// key.
struct Peeling<'a> {
    ends: &'a [[u32; 2]],
    /// For each slot, how many keys that touch it are not assigned yet.
    open: Vec<u32>,
    /// For each slot, the exclusive or of the numbers of those keys; with one left, that is its
    /// number.
    mixed: Vec<u32>,
    held: Vec<u32>,
    is_assigned: Vec<bool>,
}

impl<'a> Peeling<'a> {
    fn new(slots: usize, ends: &'a [[u32; 2]], parts: &Parts) -> Self {
        let mut open = vec![0; slots];
        let mut mixed = vec![0; slots];
        for i in parts.kept() {
            for slot in ends[i] {
                open[slot as usize] += 1;
                mixed[slot as usize] ^= i as u32;
            }
        }
        Peeling { ends, open, mixed, held: vec![NONE; slots], is_assigned: vec![false; ends.len()] }
    }

    fn assign(&mut self, i: usize, slot: u32) {
        self.held[slot as usize] = i as u32;
        self.is_assigned[i] = true;
        for end in self.ends[i] {
            self.open[end as usize] -= 1;
            self.mixed[end as usize] ^= i as u32;
        }
    }

    fn assign_both(&mut self, i: usize) {
        let [end0, end1] = self.ends[i];
        self.assign(i, end0);
        self.held[end1 as usize] = i as u32;
    }

    fn peel_all(&mut self) {
        for slot in 0..self.held.len() as u32 {
            self.peel_from(slot);
        }
    }

    /// As long as the slot is free and one key alone is left that touches it, that key sits there,
    /// and the same is tried at its other slot.
    fn peel_from(&mut self, mut slot: u32) {
        while self.held[slot as usize] == NONE && self.open[slot as usize] == 1 {
            let i = self.mixed[slot as usize] as usize;
            let [end0, end1] = self.ends[i];
            self.assign(i, slot);
            slot = if slot == end0 { end1 } else { end0 };
        }
    }
}

/// For each stored key its next number.
///
/// Paper: "The next number of a seated card is the next larger seated card of its group; the
/// largest points to the smallest; a lone card points to itself."
fn next_keys(keys: &[u32], parts: &Parts) -> Vec<u32> {
    let mut next = vec![0; keys.len()];
    let mut smallest = vec![NONE; parts.cyclic.len()];
    let mut latest = vec![NONE; parts.cyclic.len()];
    for i in parts.kept() {
        let component = parts.component[i] as usize;
        if smallest[component] == NONE {
            smallest[component] = i as u32;
        } else {
            next[latest[component] as usize] = keys[i];
        }
        // Points back to the smallest until a larger one comes.
        next[i] = keys[smallest[component] as usize];
        latest[component] = i as u32;
    }
    next
}

/// The tables of an image, for a trail through them. Slots are numbered as by [`ends`].
struct Stored<'a> {
    tabulation: &'a [u16; TABULATION_LEN],
    r: u32,
    station: u32,
    words: Vec<u32>,
}

impl Stored<'_> {
    fn ends(&self, key: u32) -> [u32; 2] {
        ends(self.tabulation, self.r, self.station, key)
    }

    /// The words of a slot: key, next and tier.
    fn slot(&self, slot: u32) -> &[u32] {
        &self.words[HEADER_LEN + SLOT_LEN * slot as usize..][..SLOT_LEN]
    }

    /// The slot that holds a key, the one in table 0 if both do; `None` for a key in the stash.
    fn slot_of(&self, key: u32) -> Option<u32> {
        self.ends(key).into_iter().find(|&slot| self.slot(slot)[0] == key)
    }

    /// The stored keys of a stored key's component, by their next numbers.
    ///
    /// Paper: "The next number of a seated card is the next larger seated card of its group; the
    /// largest points to the smallest; a lone card points to itself."
    fn component(&self, key: u32) -> Vec<u32> {
        let next = |&key: &u32| self.slot_of(key).map(|slot| self.slot(slot)[1]);
        let further = std::iter::successors(next(&key), next).take_while(|&other| other != key);
        std::iter::once(key).chain(further).collect()
    }

    /// The root of a component, given as its stored keys.
    ///
    /// Request Two: "the smallest of a group without a loop, otherwise the smallest on the one loop
    /// that its seated cards form". Without a loop there are only seated cards.
    fn root(&self, component: &[u32]) -> u32 {
        let smallest = self.cycle(component).into_iter().min().or(component.iter().copied().min());
        smallest.expect("a component has keys")
    }

    /// The keys on the cycle that a component's stored keys form; none when they form no cycle.
    ///
    /// A key that alone touches one of its slots lies on no cycle. Such keys are taken away, and
    /// again, until there is none; with at most one cycle, what is left is that cycle.
    fn cycle(&self, component: &[u32]) -> Vec<u32> {
        let mut touching = vec![0; 2 * self.r as usize];
        for slot in component.iter().flat_map(|&key| self.ends(key)) {
            touching[slot as usize] += 1;
        }
        let mut left = component.to_vec();
        loop {
            let before = left.len();
            left.retain(|&key| {
                let ends = self.ends(key).map(|slot| slot as usize);
                let alone = ends.iter().any(|&slot| touching[slot] == 1);
                if alone {
                    ends.iter().for_each(|&slot| touching[slot] -= 1);
                }
                !alone
            });
            if left.len() == before {
                return left;
            }
        }
    }

    /// The key in the other slot of a key that sits in one of its slots alone.
    fn step(&self, key: u32) -> u32 {
        let [end0, end1] = self.ends(key);
        let other = if self.slot(end0)[0] == key { end1 } else { end0 };
        self.slot(other)[0]
    }
}
