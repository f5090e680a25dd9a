//! What is measured: books and sets of keys of a wanted size that fit.

use std::collections::BTreeSet;
use std::fmt;

use library::room::Room;
use reference::hash::{hashes, HALF_LEN, STRETCH_LEN, TABULATION_LEN};
use reference::house::HOUSE;
use reference::rng::Rng;
use reference::samples::random_tiers;
use reference::set::Member;

use crate::common::{first_part, is_blank};

pub const PLACES: u32 = 64;

/// The station of every case.
pub const STATION: u32 = 37;

/// How many sets of keys a case with random keys has where times are taken. They are taken in turn, so that no processor learns one of them by heart: a head's list is
/// another one at every call.
pub const SETS: u64 = 16;

/// A set in a dictionary.
pub struct Board {
    /// The keys that are in it, each with its tier, ascending.
    pub members: Vec<Member>,
    /// A key that is not in it, and for which there is room, with a tier for it.
    pub extra: Member,
    /// Its words: the canonical image of the set.
    pub words: Vec<u32>,
}

impl Board {
    /// The image of a set but for its last key, which is the extra one.
    pub fn new(tabulation: &[u16], r: u32, mut members: Vec<Member>) -> Board {
        let extra = members.pop().expect("a set of a case has keys");
        members.sort_unstable();
        let words = reference::fast::image(tabulation, r, PLACES, STATION, &members);
        Board { members, extra, words: words.expect("they fit") }
    }

    /// The set with the extra key, ascending.
    pub fn with_extra(&self) -> Vec<Member> {
        let mut members = self.members.clone();
        members.push(self.extra);
        members.sort_unstable();
        members
    }

    /// The keys that are in it, ascending.
    pub fn keys(&self) -> Vec<u32> {
        self.members.iter().map(|(key, _)| *key).collect()
    }
}

/// The input of a bulk load: key and tier by turns.
pub fn input_of(members: &[Member]) -> Vec<u32> {
    members.iter().flat_map(|(key, tier)| [*key, *tier]).collect()
}

/// How many keys a dictionary has, and how they meet.
#[derive(Clone, Copy)]
pub enum Load {
    /// Random keys under the house book, this many to a hundred slots.
    Percent(usize),
    /// So many random keys under the house book.
    Keys(usize),
    /// Random keys under the house book, all that fit but one: every slot is filled, and the stash but for one place.
    Full,
    /// One path through all slots; see [`path`].
    Path,
    /// One path through all slots, with the most moves that we know; see [`moves`].
    Moves,
    /// All keys have the same two slots: two sit, 63 are stashed, and one more fits.
    OnePlace,
}

impl fmt::Display for Load {
    fn fmt(&self, f: &mut fmt::Formatter) -> fmt::Result {
        match self {
            Load::Percent(percent) => write!(f, "{percent} %"),
            Load::Keys(count) => write!(f, "{count} keys"),
            Load::Full => write!(f, "full"),
            Load::Path => write!(f, "path"),
            Load::Moves => write!(f, "moves"),
            Load::OnePlace => write!(f, "one place"),
        }
    }
}

/// What is measured in one row of a table: dictionaries of one size and load, under one tabulation.
pub struct Case {
    pub load: Load,
    pub r: u32,
    pub tabulation: Vec<u16>,
    pub boards: Vec<Board>,
}

impl Case {
    /// A case with so many sets, if its keys are random; otherwise it has one.
    pub fn new(r: u32, load: Load, sets: u64) -> Case {
        let (tabulation, sets) = match load {
            Load::Percent(percent) => house(r, 2 * r as usize * percent / 100, sets),
            Load::Keys(count) => house(r, count, sets),
            Load::Full => house(r, full(r), sets),
            Load::Path => path(r),
            Load::Moves => moves(r),
            Load::OnePlace => {
                (vec![0; TABULATION_LEN], vec![(1..=PLACES + 2).map(an_issue).collect()])
            }
        };
        // The last key of a set is the extra one. No tier plays a part in where keys sit, so any tiers fit.
        let mut rng = Rng::new(u64::from(r));
        let board = |keys: Vec<u32>| Board::new(&tabulation, r, random_tiers(&mut rng, &keys));
        let boards = sets.into_iter().map(board).collect();
        Case { load, r, tabulation, boards }
    }

    /// Its name in a table.
    pub fn name(&self) -> String {
        format!("r = {}, {}", grouped(self.r), self.load)
    }

    /// How many keys each of its boards has.
    pub fn keys(&self) -> usize {
        self.boards[0].members.len()
    }

    pub fn scratch(&self) -> Vec<u32> {
        vec![0; library::scratch_length(self.r, PLACES)]
    }
}

/// A key of a first part. Which issue it is has no part in where it sits, so any digit will do.
pub fn an_issue(part: u32) -> u32 {
    10 * part + part % 10
}

/// `count` random keys that fit, one issue of each first part, in the order in which they were found.
pub fn fitting_keys(rng: &mut Rng, tabulation: &[u16], [r, s]: [u32; 2], count: usize) -> Vec<u32> {
    let mut room = Room::new(2 * r as usize, s as usize);
    let mut seen = BTreeSet::new();
    let mut keys = Vec::new();
    while keys.len() < count {
        let key = rng.next_u32();
        if is_blank(key) || !seen.insert(first_part(key)) {
            continue;
        }
        let [first, second] = hashes(tabulation, r, STATION, key).expect("a sound book and key");
        if room.add(first as usize, (r + second) as usize) {
            keys.push(key);
        }
    }
    keys
}

/// A book and the sets of keys to use with it.
type Sets = (Vec<u16>, Vec<Vec<u32>>);

/// How many keys a full dictionary of random keys has: all that fit but one.
pub const fn full(r: u32) -> usize {
    (2 * r + PLACES - 1) as usize
}

/// The house book, and sets of one key more than `count`.
fn house(r: u32, count: usize, sets: u64) -> Sets {
    let set = |seed: u64| {
        let mut rng = Rng::new(u64::from(r) << 32 | (count as u64) << 8 | seed);
        fitting_keys(&mut rng, &HOUSE, [r, PLACES], count + 1)
    };
    (HOUSE.to_vec(), (0..sets).map(set).collect())
}

/// A book under which keys are edges of one path through all slots, by the number in the two low bytes of their first
/// parts: `edge` says which edge of the path that is. Edge e joins the slots e and e + 1 of the path, of which the even
/// ones are in table 0. An edge must be the sum of those of the two bytes, one of these even.
/// The lowest byte's share stands in the station's stretch, so that the keys are this path at `STATION` alone.
pub fn path_book(r: u32, edge: impl Fn(u32) -> u32) -> Vec<u16> {
    let mut tabulation = vec![0u16; TABULATION_LEN];
    for byte in 0..256u32 {
        let low = 4 * STRETCH_LEN + ((byte + STATION) % 256) as usize;
        let high = STRETCH_LEN + byte as usize;
        for (i, number) in [(low, byte), (high, byte << 8)] {
            if number < 2 * r {
                let e = edge(number);
                // Rounding up and down adds up over the two bytes, since one of them has an even share.
                tabulation[i] = e.div_ceil(2) as u16;
                tabulation[HALF_LEN + i] = (e / 2) as u16;
            }
        }
    }
    tabulation
}

/// A book under which keys of the first parts 1 to 2r - 1 are one path through all slots, and ascending they join
/// stretches of one length, doubling it: every set is deep, and half of it moves. `r` is a power of two from 128 on.
fn path(r: u32) -> Sets {
    let bits = (2 * r).trailing_zeros();
    // First part k is edge e of the path, its bits reversed: the highest bit of k says whether e is even.
    let tabulation = path_book(r, |k: u32| k.reverse_bits() >> (32 - bits));
    let extra = 1 << (bits - 1);
    let parts = (1..2 * r).filter(|k| *k != extra).chain([extra]);
    (tabulation, vec![parts.map(an_issue).collect()])
}

/// A path through all slots that takes the most moves we know: of two stretches that are joined, nearly of one length, the one that is re-rooted has its root at
/// its far end, so that every key in it moves. The upper bytes of a first part say when its edge is joined, and have no
/// part in the slots.
fn moves(r: u32) -> Sets {
    let mut edges = Vec::new();
    join(0, 2 * r, false, &mut edges);
    let keys = (1..).zip(edges).map(|(order, edge)| an_issue(order << 16 | edge)).collect();
    (path_book(r, |number| number), vec![keys])
}

/// Joins the slots of a path from `low` to `high`, so that the root is at the left end, or at the right one: first each half, which has its root at the outer end,
/// then both by the edge between them. The half without the root is re-rooted if it is smaller, or as large and its end is in table 1.
fn join(low: u32, high: u32, right: bool, edges: &mut Vec<u32>) {
    let slots = high - low;
    if slots == 1 {
        return;
    }
    let half = low + slots / 2;
    let equal = slots % 2 == 0 && (half % 2 == 0) == right;
    let less = if equal { slots / 2 } else { (slots - 1) / 2 }.max(1);
    let middle = if right { low + less } else { high - less };
    join(low, middle, false, edges);
    join(middle, high, true, edges);
    edges.push(middle - 1);
}

/// The sizes that are measured. The first and the last are compared.
pub const SIZES: [u32; 3] = [128, 512, 1_024];

/// The loads at each size.
#[rustfmt::skip]
pub const LOADS: [Load; 8] = [
    Load::Percent(12), Load::Percent(25), Load::Percent(49), Load::Percent(73), Load::Full, Load::Path, Load::Moves, Load::OnePlace,
];

/// How many cases the tables have: each load at each size.
pub const CASES: usize = SIZES.len() * LOADS.len();

/// A case of the tables, by its number, size by size.
pub fn numbered(number: usize, sets: u64) -> Case {
    Case::new(SIZES[number / LOADS.len()], LOADS[number % LOADS.len()], sets)
}

/// A number as it is written in a text: 1,024.
pub fn grouped(number: impl Into<u64>) -> String {
    let digits = number.into().to_string();
    let groups: Vec<&str> = digits
        .as_bytes()
        .rchunks(3)
        .rev()
        .map(|group| std::str::from_utf8(group).expect("digits"))
        .collect();
    groups.join(",")
}
