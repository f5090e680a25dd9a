//! Where everything stands in the words (the paper's "The memory"): header, table 0, table 1,
//! stash. Both engines, the calls and the console read and write the words through this module.

use std::collections::{BTreeMap, BTreeSet};

use crate::answer::Refusal;
use crate::hash::{MAX_R, MAX_STATION};
use crate::set::{Member, Set};

/// The largest s. Paper: "s (drawer places, 0 to 64)".
pub const MAX_S: u32 = 64;

/// The length of the header. Paper: "Words 0 to 3 are r [..], s [..], the number of cards, and the
/// number of cards in the drawer." Request Five: "A station number [..] stands as word 4".
pub const HEADER_LEN: usize = 5;

/// The length of a slot. Request One: "A pocket becomes card, next, tier".
pub const SLOT_LEN: usize = 3;

/// The length of a stash place. Request One: "a drawer place becomes card, tier".
pub const PLACE_LEN: usize = 2;

/// A slot of a table (the paper's "pocket"; it writes "0.1" for rack 0, pocket 1).
#[derive(Clone, Copy, Debug, PartialEq, Eq, PartialOrd, Ord, Hash)]
pub struct Slot {
    /// Which table (the paper's "rack"): 0 or 1.
    pub table: usize,
    /// Which slot of that table, from 0 to r - 1.
    pub index: usize,
}

/// What a filled slot holds. Request One: "A pocket becomes card, next, tier".
#[derive(Clone, Copy, Debug, PartialEq, Eq)]
pub struct Entry {
    /// The key (the paper's "card number").
    pub key: u32,
    /// The next key of the component (the paper's "next number").
    pub next: u32,
    /// The tier of the key.
    pub tier: u32,
}

/// Everything that stands in a list besides its header.
#[derive(Clone, Debug, Default, PartialEq, Eq)]
pub struct Contents {
    /// The filled slots. Request One: "empty ones are zeros".
    pub entries: BTreeMap<Slot, Entry>,
    /// The stash (the paper's "drawer"); the set keeps it ascending by key.
    pub stash: Set,
}

/// An r, an s and a station within their ranges: all that init is given.
#[derive(Clone, Copy, Debug, PartialEq, Eq)]
pub struct Shape {
    r: u32,
    s: u32,
    station: u32,
}

impl Shape {
    /// The shape with these numbers, or 2 ("r or s outside its range"; request Five: "a station
    /// above 255, given or in word 4, is a 2").
    pub fn new(r: u32, s: u32, station: u32) -> Result<Shape, Refusal> {
        if !(1..=MAX_R).contains(&r) || s > MAX_S || station > MAX_STATION {
            return Err(Refusal::WrongShape);
        }
        Ok(Shape { r, s, station })
    }

    /// The shape that borrowed words have by their own words 0, 1 and 4.
    ///
    /// Paper, 2: "list shorter than 4 words, r or s outside its range, or length not 4 + 4r + s",
    /// which requests One and Five make 5 + 6r + 2s; so words shorter than their header have no
    /// shape.
    pub fn of(words: &[u32]) -> Result<Shape, Refusal> {
        let &[r, s, _, _, station, ..] = words else {
            return Err(Refusal::WrongShape);
        };
        let shape = Shape::new(r, s, station)?;
        if words.len() != shape.words_len() {
            return Err(Refusal::WrongShape);
        }
        Ok(shape)
    }

    /// The numbers r, s and station, as init is given them.
    pub fn numbers(self) -> (u32, u32, u32) {
        (self.r, self.s, self.station)
    }

    /// Slots in a table (the paper's "pockets in a rack").
    pub fn r(self) -> u32 {
        self.r
    }

    /// Places in the stash (the paper's "drawer places").
    pub fn s(self) -> u32 {
        self.s
    }

    /// The station, which the hashes take.
    pub fn station(self) -> u32 {
        self.station
    }

    /// The header of words of this shape with these counts.
    pub fn header(self, keys: usize, stashed: usize) -> [u32; HEADER_LEN] {
        [self.r, self.s, keys as u32, stashed as u32, self.station]
    }

    /// Request One: "the length becomes 4 + 6r + 2s"; request Five: "the length grows by one". No
    /// wrap: r and s are within their ranges.
    pub fn words_len(self) -> usize {
        self.place_at(self.s as usize)
    }

    /// Request One: "the work sheet at least 12r + 8s".
    pub fn scratch_len(self) -> usize {
        12 * self.r as usize + 8 * self.s as usize
    }

    /// The position of a slot's key word; its next word and its tier word follow.
    pub fn slot_at(self, slot: Slot) -> usize {
        HEADER_LEN + SLOT_LEN * (slot.table * self.r as usize + slot.index)
    }

    /// The position of the first stash word. Paper: "Then come rack 0, rack 1 and the drawer."
    pub fn stash_at(self) -> usize {
        HEADER_LEN + SLOT_LEN * 2 * self.r as usize
    }

    /// The position of a stash place's key word, places counted from 0; its tier word follows.
    pub fn place_at(self, place: usize) -> usize {
        self.stash_at() + PLACE_LEN * place
    }

    /// All slots in the order of the words: table 0 first, indexes ascending.
    pub fn slots(self) -> impl Iterator<Item = Slot> {
        let r = self.r as usize;
        (0..2).flat_map(move |table| (0..r).map(move |index| Slot { table, index }))
    }

    /// What a slot of words of this shape holds; `None` when its key word is zero ("Zero means no
    /// card"). A blank key other than 0 is held like any other number: request Six makes it the key
    /// of no set, but only zeros are an empty slot.
    pub fn entry(self, words: &[u32], slot: Slot) -> Option<Entry> {
        let at = self.slot_at(slot);
        (words[at] != 0).then(|| Entry { key: words[at], next: words[at + 1], tier: words[at + 2] })
    }

    /// What the filled ones of the s stash places of words of this shape hold, in the order of the
    /// words.
    pub fn places(self, words: &[u32]) -> impl Iterator<Item = Member> + '_ {
        let places = words[self.stash_at()..].chunks_exact(PLACE_LEN);
        places.map(|place| (place[0], place[1])).filter(|&(key, _)| key != 0)
    }

    /// All keys that stand in words of this shape, in a slot or in any of the s stash places, each
    /// with the tier beside it; ascending and each pair once. In words that are no image a key can
    /// come with several tiers, a first part with several issues, a key can be blank, and a tier
    /// can be any word.
    pub fn members(self, words: &[u32]) -> Vec<Member> {
        let entries = self.slots().filter_map(|slot| self.entry(words, slot));
        let stored = entries.map(|entry| (entry.key, entry.tier));
        let mut members: Vec<Member> = stored.chain(self.places(words)).collect();
        members.sort_unstable();
        members.dedup();
        members
    }

    /// The words with these contents; the stash must fit.
    ///
    /// Word 2, "the number of cards", counts a key once that sits in both its slots, and counts the
    /// stash. Paper: "The drawer is ascending, then zeros."
    pub fn write(self, contents: &Contents) -> Vec<u32> {
        let mut keys: BTreeSet<u32> = contents.stash.keys().copied().collect();
        let mut words = vec![0; self.words_len()];
        for (&slot, entry) in &contents.entries {
            let at = self.slot_at(slot);
            words[at] = entry.key;
            words[at + 1] = entry.next;
            words[at + 2] = entry.tier;
            keys.insert(entry.key);
        }
        for (place, (&key, &tier)) in contents.stash.iter().enumerate() {
            words[self.place_at(place)] = key;
            words[self.place_at(place) + 1] = tier;
        }
        words[..HEADER_LEN].copy_from_slice(&self.header(keys.len(), contents.stash.len()));
        words
    }
}
