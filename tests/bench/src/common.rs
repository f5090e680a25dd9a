//! What both twins share: how a dictionary lies in words, the hash, the refusals, lookup, and the frame of the calls: a twin by itself has only the ways to read
//! a set out of words and to write one.

use std::ops::Range;

use library::Counters;

/// Entries of a stretch of a tabulation, one for each value of a byte. A table's half of it has five stretches: one for
/// each byte of the key, and the station's.
const STRETCH: usize = 256;
const HALF: usize = 5 * STRETCH;
type Tabulation = [u16; 2 * HALF];

/// Words before the slots: r, s, how many keys, how many of them stashed, station.
pub const HEADER: usize = 5;
/// Where the two counts stand in them, which change with the set, and where the station.
const COUNTS: Range<usize> = 2..4;
pub const STATION_AT: usize = 4;
/// What a dictionary is laid with: r, s and station.
pub type Laid = [u32; 3];
/// Words of a slot: key, next, tier.
pub const SLOT: usize = 3;
/// Words of a stash place: key, tier.
pub const PLACE: usize = 2;
pub const MAX_TIER: u32 = 7;
/// How many issues a first part can have, one for each last decimal digit. A key below it is all issue: it is blank.
const ISSUES: u32 = 10;

/// Whether a word is the key of no card.
#[inline]
pub fn is_blank(key: u32) -> bool {
    key < ISSUES
}

/// A key without its issue, the last decimal digit.
#[inline]
pub fn first_part(key: u32) -> u32 {
    key / ISSUES
}

/// What the slots of a key hang on, taken once in a call. A station is a byte, so that adding it to one is modulo 256.
#[derive(Clone, Copy)]
pub struct Hashing<'a> {
    tabulation: &'a Tabulation,
    pub r: u32,
    station: u8,
}

impl<'a> Hashing<'a> {
    /// For a stolen-card list of so many slots, or what refuses it: 1 or 2.
    #[inline]
    pub fn of(tabulation: &'a [u16], slots: usize, station: u32) -> Result<Hashing<'a>, u32> {
        let tabulation = <&Tabulation>::try_from(tabulation).map_err(|_| 1u32)?;
        match u8::try_from(station) {
            Ok(station) if (1..=1_024).contains(&slots) => {
                Ok(Hashing { tabulation, r: slots as u32, station })
            }
            _ => Err(2),
        }
    }

    /// The slot in which the way of a key starts in a stolen-card list.
    #[inline]
    pub fn start(self, key: u32) -> usize {
        self.hash(0, key) as usize
    }

    /// The slot of a key in a table. Its issue has no part in it.
    #[inline]
    fn hash(self, table: usize, key: u32) -> u32 {
        let [b0, b1, b2, b3] = first_part(key).to_le_bytes();
        let entry = |i: usize, byte: u8| {
            u32::from(self.tabulation[HALF * table + STRETCH * i + usize::from(byte)])
        };
        let of_key = entry(0, b0) + entry(1, b1) + entry(2, b2) + entry(3, b3);
        (of_key + entry(4, b0.wrapping_add(self.station))) % self.r
    }

    /// The two slots of a key in the row of both tables' slots.
    #[inline]
    pub fn ends(self, key: u32) -> (usize, usize) {
        let [first, second] = [0, 1].map(|table| self.hash(table, key));
        (first as usize, (self.r + second) as usize)
    }
}

/// What the words were laid with, as their heading tells it. They have one.
#[inline]
pub fn laid(words: &[u32]) -> Laid {
    [words[0], words[1], words[STATION_AT]]
}

/// r, s and the station, if they are in their ranges and so many words go with them.
#[inline]
fn sizes([r, s, station]: Laid, length: usize) -> Option<(u32, u32, u8)> {
    let station = u8::try_from(station).ok()?;
    let fits = (1..=1_024).contains(&r)
        && s <= 64
        && length == HEADER + 2 * SLOT * r as usize + PLACE * s as usize;
    fits.then_some((r, s, station))
}

/// The same, if the words have the shape that their heading tells.
#[inline]
fn shape(words: &[u32]) -> Option<(u32, u32, u8)> {
    let &[r, s, _, _, station, ..] = words else { return None };
    sizes([r, s, station], words.len())
}

/// The words of the slots, three each, and those of the stash, two a place.
#[inline]
pub fn columns(words: &[u32], r: u32) -> (&[u32], &[u32]) {
    words[HEADER..].split_at(2 * SLOT * r as usize)
}

/// Whether the words are this image: how many keys it has and how many of them are stashed, its slots, its stash.
pub fn matches(
    words: &[u32],
    heading: [usize; 2],
    slots: impl Iterator<Item = [u32; SLOT]>,
    places: impl Iterator<Item = [u32; PLACE]>,
) -> bool {
    let (in_slots, in_stash) = columns(words, words[0]);
    words[COUNTS] == heading.map(|count| count as u32)
        && in_slots.chunks_exact(SLOT).zip(slots).all(|(words, slot)| words == slot)
        && in_stash.chunks_exact(PLACE).zip(places).all(|(words, place)| words == place)
}

/// Writes an image over all of the words.
pub fn write(
    words: &mut [u32],
    [r, s, station]: Laid,
    heading: [usize; 2],
    slots: impl Iterator<Item = [u32; SLOT]>,
    places: impl Iterator<Item = [u32; PLACE]>,
) {
    let [keys, stashed] = heading.map(|count| count as u32);
    words[..HEADER].copy_from_slice(&[r, s, keys, stashed, station]);
    let (in_slots, in_stash) = words[HEADER..].split_at_mut(2 * SLOT * r as usize);
    in_slots
        .chunks_exact_mut(SLOT)
        .zip(slots)
        .for_each(|(words, slot)| words.copy_from_slice(&slot));
    in_stash
        .chunks_exact_mut(PLACE)
        .zip(places)
        .for_each(|(words, place)| words.copy_from_slice(&place));
}

/// The tier of the first stash place that holds a key. Most keys that come as far as the stash are not in it, so all places are compared first, several at once.
#[inline]
pub fn tier_in_stash(places: &[u32], key: u32) -> Option<u32> {
    let mut places = places.chunks_exact(PLACE);
    if !places.clone().fold(false, |any, place| any | (place[0] == key)) {
        return None;
    }
    places.find(|place| place[0] == key).map(|place| place[1])
}

/// The tier that stands with the first copy of a key in words of the right shape: in its slot of table 0, in that of table 1, in the stash.
/// Left to itself the compiler makes one function of it for all calls, and a lookup takes 24 instructions more.
#[inline(always)]
pub fn tier_in(hashing: Hashing, words: &[u32], key: u32) -> Option<u32> {
    let in_slot = |slot: u32| {
        let slot = &words[HEADER + SLOT * slot as usize..][..SLOT];
        (slot[0] == key).then(|| slot[2])
    };
    let r = hashing.r;
    in_slot(hashing.hash(0, key))
        .or_else(|| in_slot(r + hashing.hash(1, key)))
        .or_else(|| tier_in_stash(&words[HEADER + 2 * SLOT * r as usize..], key))
}

/// 0 and whether the key stands in the words, with its tier, or 1, 2 or 5. Both twins have this one lookup: a set is looked up in its words, however they came
/// to be.
#[inline(never)]
#[export_name = "twin_lookup"]
pub fn lookup(
    tabulation: &[u16],
    words: &[u32],
    key: u32,
    listed: &mut u32,
    tier: &mut u32,
) -> u32 {
    let Ok(tabulation) = <&Tabulation>::try_from(tabulation) else { return 1 };
    let Some((r, _, station)) = shape(words) else { return 2 };
    if is_blank(key) {
        return 5;
    }
    let found = tier_in(Hashing { tabulation, r, station }, words, key);
    *listed = u32::from(found.is_some());
    if let Some(found) = found {
        *tier = found;
    }
    0
}

/// The refusals 1 to 3, or how keys are hashed, and s.
pub fn early<'a>(
    tabulation: &'a [u16],
    words: &[u32],
    scratch: &[u32],
) -> Result<(Hashing<'a>, u32), u32> {
    let tabulation = <&Tabulation>::try_from(tabulation).map_err(|_| 1u32)?;
    let (r, s, station) = shape(words).ok_or(2u32)?;
    if scratch.len() < 12 * r as usize + 8 * s as usize {
        return Err(3);
    }
    Ok((Hashing { tabulation, r, station }, s))
}

/// The keys of an input: words that alternate key and tier, a lone last one being a key.
pub fn keys_of(input: &[u32]) -> impl Iterator<Item = u32> + '_ {
    input.iter().copied().step_by(2)
}

/// What refuses an input, whatever it is for: 5, 9, 14 or 13, each tried over all of it before the next. Where the keys
/// rise, their first parts do, but for two issues of one.
fn sound(input: &[u32]) -> Result<(), u32> {
    let rises = |one: &u32, two: &u32| one < two;
    if keys_of(input).any(is_blank) {
        return Err(5);
    }
    if input.iter().skip(1).step_by(2).any(|tier| MAX_TIER < *tier) {
        return Err(9);
    }
    if input.len() % 2 == 1 || !keys_of(input).is_sorted_by(rises) {
        return Err(14);
    }
    if !keys_of(input).map(first_part).is_sorted_by(rises) {
        return Err(13);
    }
    Ok(())
}

/// What a bulk load starts with: all that refuses it but a stash that is too small, or how keys are hashed and how many
/// there are. More than there are slots and places never fit, and only fewer have room in scratch.
pub fn tested<'a>(
    tabulation: &'a [u16],
    words: &[u32],
    scratch: &[u32],
    laid: Laid,
    input: &[u32],
) -> Result<(Hashing<'a>, usize), u32> {
    let tabulation = <&Tabulation>::try_from(tabulation).map_err(|_| 1u32)?;
    let (r, s, station) = sizes(laid, words.len()).ok_or(2u32)?;
    if scratch.len() < 12 * r as usize + 8 * s as usize {
        return Err(3);
    }
    sound(input)?;
    let n = input.len() / 2;
    if n > (2 * r + s) as usize {
        return Err(8);
    }
    Ok((Hashing { tabulation, r, station }, n))
}

/// Whether another issue of a key is a neighbour of the place where the key belongs.
fn other_issue_beside(keys: &[u32], at: usize, key: u32) -> bool {
    let neighbours = &keys[at.saturating_sub(1)..keys.len().min(at + 1)];
    neighbours.iter().any(|other| first_part(*other) == first_part(key))
}

/// Where a new key belongs among `keys`, of which there may be `most`, or what refuses it: 5, 9, 13, 10, 6 or 8.
/// `tier_at` gives the tier of a key that is there. Where the key itself is there, no other issue of it is; where it is
/// not, another issue stands just before its place or at it.
pub fn place_to_insert(
    keys: &[u32],
    most: usize,
    (key, tier): (u32, u32),
    tier_at: impl FnOnce(usize) -> Option<u32>,
) -> Result<usize, u32> {
    if is_blank(key) {
        return Err(5);
    }
    if tier > MAX_TIER {
        return Err(9);
    }
    match keys.binary_search(&key) {
        Ok(at) if tier_at(at) == Some(tier) => Err(6),
        Ok(_) => Err(10),
        Err(at) if other_issue_beside(keys, at, key) => Err(13),
        Err(_) if most <= keys.len() => Err(8),
        Err(at) => Ok(at),
    }
}

/// Where a key stands among `keys`, or what refuses its removal: 5 or 7.
pub fn place_to_remove(keys: &[u32], key: u32) -> Result<usize, u32> {
    if is_blank(key) {
        return Err(5);
    }
    keys.binary_search(&key).map_err(|_| 7)
}

/// Moves the counters on by one call, and gives its number.
pub fn count(counters: &mut Counters, answer: Result<(), u32>) -> u32 {
    let moved = if answer.is_ok() { &mut counters.done } else { &mut counters.refused };
    *moved = moved.saturating_add(1);
    answer.err().unwrap_or(0)
}

/// The calls of a twin that has `insert_words`, `remove_words`, `check_words` and `bulk_load_words`. They have symbols
/// of their own, by which a counter of instructions knows them.
#[macro_export]
macro_rules! calls {
    ($insert:literal, $remove:literal, $check:literal, $bulk_load:literal) => {
        #[inline(never)]
        #[export_name = $insert]
        pub fn insert(
            tabulation: &[u16],
            words: &mut [u32],
            scratch: &mut [u32],
            counters: &mut library::Counters,
            key: u32,
            tier: u32,
        ) -> u32 {
            let answer = insert_words(tabulation, words, scratch, (key, tier));
            scratch.fill(0);
            $crate::common::count(counters, answer)
        }

        #[inline(never)]
        #[export_name = $remove]
        pub fn remove(
            tabulation: &[u16],
            words: &mut [u32],
            scratch: &mut [u32],
            counters: &mut library::Counters,
            key: u32,
        ) -> u32 {
            let answer = remove_words(tabulation, words, scratch, key);
            scratch.fill(0);
            $crate::common::count(counters, answer)
        }

        #[inline(never)]
        #[export_name = $check]
        pub fn check(tabulation: &[u16], words: &[u32], scratch: &mut [u32]) -> u32 {
            let answer = check_words(tabulation, words, scratch);
            scratch.fill(0);
            answer.err().unwrap_or(0)
        }

        #[inline(never)]
        #[export_name = $bulk_load]
        pub fn bulk_load(
            tabulation: &[u16],
            words: &mut [u32],
            scratch: &mut [u32],
            counters: &mut library::Counters,
            laid: $crate::common::Laid,
            input: &[u32],
        ) -> u32 {
            let answer = bulk_load_words(tabulation, words, scratch, laid, input);
            scratch.fill(0);
            $crate::common::count(counters, answer)
        }
    };
}
