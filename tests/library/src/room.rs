//! How many keys fit, without a list: a set has a placement exactly if its components have together at most s keys more
//! than slots. Joined sets of slots count both, key by key.

/// Slots in components, with the keys that each component has.
pub struct Room {
    parent: Vec<usize>,
    slots: Vec<usize>,
    keys: Vec<usize>,
    places: usize,
    stashed: usize,
}

impl Room {
    /// So many slots, each by itself, and so many places in the stash.
    pub fn new(slots: usize, places: usize) -> Room {
        let parent = (0..slots).collect();
        Room { parent, slots: vec![1; slots], keys: vec![0; slots], places, stashed: 0 }
    }

    fn find(&self, mut slot: usize) -> usize {
        while self.parent[slot] != slot {
            slot = self.parent[slot];
        }
        slot
    }

    /// Adds a key with these two slots, if the stash has a place for what is then too much.
    pub fn add(&mut self, one: usize, two: usize) -> bool {
        let (one, two) = (self.find(one), self.find(two));
        let over = |slots: usize, keys: usize| keys.saturating_sub(slots);
        let before = over(self.slots[one], self.keys[one])
            + if one == two { 0 } else { over(self.slots[two], self.keys[two]) };
        let (slots, keys) = if one == two {
            (self.slots[one], self.keys[one] + 1)
        } else {
            (self.slots[one] + self.slots[two], self.keys[one] + self.keys[two] + 1)
        };
        let stashed = self.stashed - before + over(slots, keys);
        if stashed > self.places {
            return false;
        }
        let (child, parent) =
            if self.slots[one] < self.slots[two] { (one, two) } else { (two, one) };
        self.parent[child] = parent;
        (self.slots[parent], self.keys[parent], self.stashed) = (slots, keys, stashed);
        true
    }
}
