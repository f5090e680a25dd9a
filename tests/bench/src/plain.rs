//! The plain twin, one of the two partners of the benchmark: insert, remove, check and bulk load as a Rust engineer
//! would write them without the ranks of `ranks.rs`, with the same promise as the library (answers, words, scratch and
//! counters of the specification), in lent scratch and without allocation: collect, sort, look for two issues, build,
//! find the tiers, compare; change, build, find the tiers, write. A bulk load tests its input, builds, finds the tiers
//! there, and writes. A key is hashed wherever its slots are needed. Where std has something faster than plain code, as
//! its sort, it is used. Every call that is timed is compared with the library's.

use crate::common::{
    columns, early, first_part, is_blank, keys_of, laid, matches, place_to_insert, place_to_remove,
    tested, tier_in, write, Hashing, Laid, MAX_TIER, PLACE, SLOT,
};

/// Scratch in its parts: keys (2r + s), held, next and sets (2r each), stash (s), and the tiers of what is held (2r) and stashed (s).
struct Parts<'a> {
    keys: &'a mut [u32],
    held: &'a mut [u32],
    next: &'a mut [u32],
    sets: &'a mut [u32],
    stash: &'a mut [u32],
    tiers: &'a mut [u32],
    beside: &'a mut [u32],
}

fn split(scratch: &mut [u32], r: u32, s: u32) -> Parts<'_> {
    let (m, s) = (2 * r as usize, s as usize);
    let (keys, rest) = scratch.split_at_mut(m + s);
    let (held, rest) = rest.split_at_mut(m);
    let (next, rest) = rest.split_at_mut(m);
    let (sets, rest) = rest.split_at_mut(m);
    let (stash, rest) = rest.split_at_mut(s);
    let (tiers, rest) = rest.split_at_mut(m);
    Parts { keys, held, next, sets, stash, tiers, beside: &mut rest[..s] }
}

/// The representative of a slot's set. A word from m on marks one.
#[inline]
fn find(sets: &[u32], mut slot: usize) -> usize {
    let m = sets.len();
    while (sets[slot] as usize) < m {
        slot = sets[slot] as usize;
    }
    slot
}

struct Build<'a, 'b> {
    hashing: Hashing<'a>,
    parts: &'a mut Parts<'b>,
}

impl Build<'_, '_> {
    #[inline]
    fn other(&self, slot: usize, key: u32) -> usize {
        let (first, second) = self.hashing.ends(key);
        if slot < self.hashing.r as usize {
            second
        } else {
            first
        }
    }

    /// Re-roots the tree of a slot there, with the key `carry`.
    fn reroot(&mut self, mut slot: usize, mut carry: u32) {
        loop {
            std::mem::swap(&mut self.parts.held[slot], &mut carry);
            if carry == 0 {
                return;
            }
            slot = self.other(slot, carry);
        }
    }

    /// Links the keys, ascending: Kruskal's forest in `held`, its components in `sets`.
    fn link(&mut self, n: usize) {
        let m = 2 * self.hashing.r;
        self.parts.held.fill(0);
        self.parts.sets.fill(m + 1);
        for i in 0..n {
            let key = self.parts.keys[i];
            let (first, second) = self.hashing.ends(key);
            let sets = &self.parts.sets;
            let (one, two) = (find(sets, first), find(sets, second));
            if one == two {
                continue;
            }
            let sum = sets[one] + sets[two] - m;
            let smaller = sets[one] < sets[two];
            let (child, parent, end) = if smaller { (one, two, first) } else { (two, one, second) };
            self.reroot(end, key);
            self.parts.sets[child] = parent as u32;
            self.parts.sets[parent] = sum;
        }
    }

    fn label(&mut self) {
        for v in 0..self.parts.next.len() {
            self.parts.next[v] = find(self.parts.sets, v) as u32;
        }
    }

    /// Notes and stash; how many keys are stashed, if there is room.
    fn note(&mut self, n: usize) -> Option<usize> {
        self.parts.sets.fill(0);
        self.parts.stash.fill(0);
        let parts = &mut *self.parts;
        let mut count = 0;
        for &key in &parts.keys[..n] {
            let (first, second) = self.hashing.ends(key);
            if parts.held[first] == key || parts.held[second] == key {
                continue;
            }
            let note = &mut parts.sets[parts.next[first] as usize];
            if *note == 0 {
                *note = key;
            } else {
                *parts.stash.get_mut(count)? = key;
                count += 1;
            }
        }
        Some(count)
    }

    fn note_held(&mut self, n: usize) {
        let parts = &mut *self.parts;
        for &key in &parts.keys[..n] {
            let (first, second) = self.hashing.ends(key);
            if parts.held[first] == key || parts.held[second] == key {
                let note = &mut parts.sets[parts.next[first] as usize];
                if *note == 0 {
                    *note = key;
                }
            }
        }
    }

    fn finish(&mut self) {
        for l in 0..self.parts.sets.len() {
            let key = self.parts.sets[l];
            if key == 0 {
                continue;
            }
            let (first, second) = self.hashing.ends(key);
            if self.parts.held[first] == key || self.parts.held[second] == key {
                self.reroot(first, key);
                continue;
            }
            self.reroot(first, 0);
            let mut low = second;
            let mut at = second;
            while self.parts.held[at] != 0 {
                if self.parts.held[at] < self.parts.held[low] {
                    low = at;
                }
                at = self.other(at, self.parts.held[at]);
            }
            let smallest = std::mem::take(&mut self.parts.held[low]);
            self.reroot(second, key);
            self.reroot(self.hashing.ends(smallest).0, smallest);
        }
    }

    fn chain(&mut self, n: usize) {
        let parts = &mut *self.parts;
        for &key in parts.keys[..n].iter().rev() {
            let (first, second) = self.hashing.ends(key);
            if parts.held[first] == key || parts.held[second] == key {
                parts.sets[parts.next[first] as usize] = key;
            }
        }
        for &key in parts.keys[..n].iter().rev() {
            let (first, second) = self.hashing.ends(key);
            let (in_first, in_second) = (parts.held[first] == key, parts.held[second] == key);
            if !in_first && !in_second {
                continue;
            }
            let seat = if in_first { first } else { second };
            let next = std::mem::replace(&mut parts.sets[parts.next[seat] as usize], key);
            if in_first {
                parts.next[first] = next;
            }
            if in_second {
                parts.next[second] = next;
            }
        }
        for (next, &key) in parts.next.iter_mut().zip(parts.held.iter()) {
            if key == 0 {
                *next = 0;
            }
        }
    }

    /// The tiers of what is held and stashed: that of the new member is given, the others are found in the old words.
    fn place_tiers(&mut self, words: &[u32], (new, tier): (u32, u32)) {
        let of = |key: u32| match key {
            0 => 0,
            _ if key == new => tier,
            _ => tier_in(self.hashing, words, key).unwrap_or(0),
        };
        let parts = &mut *self.parts;
        for (tier, &key) in parts.tiers.iter_mut().zip(parts.held.iter()) {
            *tier = of(key);
        }
        for (tier, &key) in parts.beside.iter_mut().zip(parts.stash.iter()) {
            *tier = of(key);
        }
    }

    fn build(&mut self, n: usize) -> Option<usize> {
        self.link(n);
        self.label();
        let stashed = self.note(n)?;
        self.note_held(n);
        self.finish();
        self.chain(n);
        Some(stashed)
    }
}

/// The keys that stand in the words, ascending, at the front of `keys`; how many.
fn collect(words: &[u32], r: u32, keys: &mut [u32]) -> usize {
    let (slots, stash) = columns(words, r);
    let mut n = 0;
    let in_slots = slots.chunks_exact(SLOT).map(|slot| slot[0]);
    for key in in_slots.chain(stash.chunks_exact(PLACE).map(|place| place[0])) {
        if !is_blank(key) {
            keys[n] = key;
            n += 1;
        }
    }
    keys[..n].sort_unstable();
    let mut kept = 0;
    for i in 0..n {
        if i + 1 == n || keys[i] != keys[i + 1] {
            keys[kept] = keys[i];
            kept += 1;
        }
    }
    kept
}

/// The tier of a key in an input, whose keys rise. Key 0 is none.
fn given_tier(input: &[u32], key: u32) -> u32 {
    if key == 0 {
        return 0;
    }
    let (members, _) = input.as_chunks::<2>();
    members.binary_search_by_key(&key, |member| member[0]).map_or(0, |at| members[at][1])
}

impl Parts<'_> {
    /// The words of each slot.
    fn slots(&self) -> impl Iterator<Item = [u32; SLOT]> + '_ {
        let columns = self.held.iter().zip(self.next.iter()).zip(self.tiers.iter());
        columns.map(|((key, next), tier)| [*key, *next, *tier])
    }

    /// The words of each stash place.
    fn places(&self) -> impl Iterator<Item = [u32; PLACE]> + '_ {
        self.stash.iter().zip(self.beside.iter()).map(|(key, tier)| [*key, *tier])
    }
}

/// What all three calls start with: the refusals 1 to 4, or how keys are hashed and how many stand at the front of
/// scratch.
fn load<'a>(
    tabulation: &'a [u16],
    words: &[u32],
    scratch: &mut [u32],
) -> Result<(Hashing<'a>, usize), u32> {
    let (hashing, s) = early(tabulation, words, scratch)?;
    let mut parts = split(scratch, hashing.r, s);
    let n = collect(words, hashing.r, parts.keys);
    // The keys rise; where two are issues of one first part, their first parts do not.
    let first_parts = parts.keys[..n].iter().map(|key| first_part(*key));
    if !first_parts.is_sorted_by(|one, two| one < two) {
        return Err(4);
    }
    let mut build = Build { hashing, parts: &mut parts };
    let stashed = build.build(n).ok_or(4u32)?;
    build.place_tiers(words, (0, 0));
    let small = parts.tiers.iter().chain(parts.beside.iter()).all(|tier| *tier <= MAX_TIER);
    if small && matches(words, [n, stashed], parts.slots(), parts.places()) {
        Ok((hashing, n))
    } else {
        Err(4)
    }
}

/// The new set's keys stand at the front of scratch; the new member's tier is given, those of the others stand in the
/// words.
fn renew(
    hashing: Hashing,
    words: &mut [u32],
    scratch: &mut [u32],
    n: usize,
    new: (u32, u32),
) -> Result<(), u32> {
    let mut parts = split(scratch, hashing.r, words[1]);
    let mut build = Build { hashing, parts: &mut parts };
    let stashed = build.build(n).ok_or(8u32)?;
    build.place_tiers(words, new);
    write(words, laid(words), [n, stashed], parts.slots(), parts.places());
    Ok(())
}

fn insert_words(
    tabulation: &[u16],
    words: &mut [u32],
    scratch: &mut [u32],
    new: (u32, u32),
) -> Result<(), u32> {
    let (hashing, n) = load(tabulation, words, scratch)?;
    let most = (2 * words[0] + words[1]) as usize;
    let tier_at = |_| tier_in(hashing, words, new.0);
    let at = place_to_insert(&scratch[..n], most, new, tier_at)?;
    scratch.copy_within(at..n, at + 1);
    scratch[at] = new.0;
    renew(hashing, words, scratch, n + 1, new)
}

fn remove_words(
    tabulation: &[u16],
    words: &mut [u32],
    scratch: &mut [u32],
    key: u32,
) -> Result<(), u32> {
    let (hashing, n) = load(tabulation, words, scratch)?;
    let at = place_to_remove(&scratch[..n], key)?;
    scratch.copy_within(at + 1..n, at);
    renew(hashing, words, scratch, n - 1, (0, 0))
}

fn check_words(tabulation: &[u16], words: &[u32], scratch: &mut [u32]) -> Result<(), u32> {
    load(tabulation, words, scratch).map(|_| ())
}

fn bulk_load_words(
    tabulation: &[u16],
    words: &mut [u32],
    scratch: &mut [u32],
    laid: Laid,
    input: &[u32],
) -> Result<(), u32> {
    let (hashing, n) = tested(tabulation, words, scratch, laid, input)?;
    let mut parts = split(scratch, laid[0], laid[1]);
    parts.keys.iter_mut().zip(keys_of(input)).for_each(|(key, given)| *key = given);
    let stashed = Build { hashing, parts: &mut parts }.build(n).ok_or(8u32)?;
    let Parts { held, stash, tiers, beside, .. } = &mut parts;
    for (keys, tiers) in [(held, tiers), (stash, beside)] {
        tiers.iter_mut().zip(keys.iter()).for_each(|(tier, key)| *tier = given_tier(input, *key));
    }
    write(words, laid, [n, stashed], parts.slots(), parts.places());
    Ok(())
}

crate::calls!("plain_insert", "plain_remove", "plain_check", "plain_bulk_load");
