//! The lists on which the dearest calls are looked for. The dearest known are one cycle through all slots, joined so
//! that nearly every key moves whenever two stretches are joined, with a full stash; and the same with every key in a
//! slot that is not its own.

use std::collections::BTreeMap;

use reference::hash::STRETCH_LEN;
use reference::rng::Rng;
use reference::samples::random_tiers;

use crate::cases::{an_issue, path_book, Board, Case, Load, PLACES};
use crate::common::{HEADER, MAX_TIER, PLACE, SLOT};

/// What a list holds.
#[derive(Clone, Copy)]
pub enum Kind {
    /// The first set of a case of the other tables.
    Of(Load),
    /// All slots on one cycle and a full stash: 2r + 64 keys. The extra key would be one more.
    Full,
    /// The same, before the last key comes, which is stashed.
    LastComes,
    /// The smallest key joins the last slot to a cycle through the others, with a full stash: 2r + 64 keys.
    Pendant,
    /// The same, before the smallest key comes, which then moves all others in scratch.
    PendantComes,
    /// A cycle that leaves a slot empty, with a full stash: the smallest key comes, beside the smallest that is there,
    /// and it is found at the last key that the stash has no room.
    NoRoom,
    /// `Full` with the tier of the last place changed.
    LastTier,
    /// `Full` with every key in a slot that is not its own, so that the stash is searched for it; its places have keys
    /// in the place of tiers, so that for these keys it is searched twice.
    Displaced,
    /// `Displaced` with the stash as it was: its keys are all that a salvage takes.
    DisplacedSlots,
    /// The same with no tier in the stash that is one: a salvage takes nothing.
    NoneCounts,
    /// `Full` with other issues of seated keys in the places of the stash.
    StashedIssues,
    /// `Full` with issues of one card in all places of the stash.
    OneCard,
    /// `Full`, `LastComes` and `Displaced` with the path joined by halves, so that the ways to representatives are the
    /// longest: dearer where most keys are stashed, since a stashed key goes three of these ways and moves nothing.
    Halves,
    HalvesLastComes,
    HalvesDisplaced,
}

/// Words that a call is made on, and what they are made of.
pub struct List {
    pub r: u32,
    pub tabulation: Vec<u16>,
    pub board: Board,
}

impl List {
    pub fn new(r: u32, kind: Kind) -> List {
        match kind {
            Kind::Of(load) => {
                let mut case = Case::new(r, load, 1);
                List { r, tabulation: case.tabulation, board: case.boards.remove(0) }
            }
            Kind::Full => Cycle::new(r, most_moves(2 * r)).with(&[], PLACES + 1),
            Kind::LastComes => Cycle::new(r, most_moves(2 * r)).with(&[], PLACES),
            Kind::Pendant => Cycle::new(r, most_moves(2 * r - 1)).with(&[2 * r - 2], PLACES + 1),
            Kind::PendantComes => Cycle::new(r, most_moves(2 * r - 1)).before(2 * r - 2),
            Kind::NoRoom => {
                let cycle = Cycle::new(r, most_moves(2 * r - 1));
                let smallest = cycle.edges[0];
                cycle.before(smallest)
            }
            Kind::LastTier => List::new(r, Kind::Full).changed(last_tier),
            Kind::Displaced => List::new(r, Kind::Full).changed(displace),
            Kind::DisplacedSlots => List::new(r, Kind::Full).changed(displace_slots),
            Kind::NoneCounts => List::new(r, Kind::DisplacedSlots).changed(no_tiers),
            Kind::StashedIssues => List::new(r, Kind::Full).changed(stash_issues),
            Kind::OneCard => List::new(r, Kind::Full).changed(stash_one_card),
            Kind::Halves => Cycle::new(r, halves(2 * r)).with(&[], PLACES + 1),
            Kind::HalvesLastComes => Cycle::new(r, halves(2 * r)).with(&[], PLACES),
            Kind::HalvesDisplaced => List::new(r, Kind::Halves).changed(displace),
        }
    }

    fn changed(mut self, change: fn(&mut [u32])) -> List {
        change(&mut self.board.words);
        self
    }
}

/// With a tier that no set has: with any other the words would be canonical again.
fn last_tier(words: &mut [u32]) {
    let last = words.len() - 1;
    words[last] = MAX_TIER + 1;
}

/// The keys of each table move on by one slot, with their next numbers and tiers.
fn displace_slots(words: &mut [u32]) {
    let slots = SLOT * words[0] as usize;
    for table in words[HEADER..][..2 * slots].chunks_exact_mut(slots) {
        table.rotate_right(SLOT);
    }
}

/// The tiers of the stash are above the largest.
fn no_tiers(words: &mut [u32]) {
    let start = HEADER + 2 * SLOT * words[0] as usize;
    for place in words[start..].chunks_exact_mut(PLACE) {
        place[1] += MAX_TIER + 1;
    }
}

/// Each place of the stash gets another issue of a key that is seated, from the last one on, as far as there are any.
fn stash_issues(words: &mut [u32]) {
    let slots = 2 * SLOT * words[0] as usize;
    let (tables, places) = words[HEADER..].split_at_mut(slots);
    for (place, slot) in places.chunks_exact_mut(PLACE).zip(tables.rchunks_exact(SLOT)) {
        place[0] = slot[0] ^ 1;
    }
}

/// Each place of the stash gets an issue of the card in its last place.
fn stash_one_card(words: &mut [u32]) {
    let card = words[words.len() - PLACE] / 10 * 10;
    let start = HEADER + 2 * SLOT * words[0] as usize;
    for (place, issue) in words[start..].chunks_exact_mut(PLACE).zip((0..10).cycle()) {
        place[0] = card + issue;
    }
}

/// The same, and the tiers of the stash become keys that are seated, as far as there are any.
fn displace(words: &mut [u32]) {
    displace_slots(words);
    let slots = SLOT * words[0] as usize;
    let (tables, places) = words[HEADER..].split_at_mut(2 * slots);
    for (place, slot) in places.chunks_exact_mut(PLACE).zip(tables.chunks_exact(SLOT)) {
        place[1] = slot[0];
    }
}

/// The top byte of a first part: of the keys of a path, in the order in which they are joined, this or more; of the key
/// that closes the cycle; and of those for the stash, which are the largest.
const JOINING: u32 = 0x01;
const CLOSING: u32 = 0x10;
const STASHED: u32 = 0x11;

/// A path through the first so many slots, and the key that closes it to a cycle.
struct Cycle {
    r: u32,
    tabulation: Vec<u16>,
    /// The path's edges, in the order in which they are joined.
    edges: Vec<u32>,
    /// The edge with the closing key's slot in table 1. The book moves its slot in table 0 to the first of the path.
    last: u32,
    /// An edge whose slots are as far from their representative as any.
    deep: u32,
}

impl Cycle {
    /// By the edges of a path from the first slot on.
    fn new(r: u32, edges: Vec<u32>) -> Cycle {
        let slots = edges.len() as u32 + 1;
        let last = slots - 1 - slots % 2;
        let mut tabulation = path_book(r, |number| number);
        tabulation[3 * STRETCH_LEN + CLOSING as usize] = (r - last.div_ceil(2)) as u16;
        let deep = deepest(slots, &edges);
        Cycle { r, tabulation, edges, last, deep }
    }

    /// The keys, ascending: some single edges, the path, the closing key, and so many beside the deep edge.
    fn keys(&self, single: &[u32], stashed: u32) -> Vec<u32> {
        let path = single.iter().chain(&self.edges);
        let path = (0..).zip(path).map(|(order, edge)| (JOINING << 24) + (order << 16) + edge);
        let closing = (CLOSING << 24) + self.last;
        let stashed = (0..stashed).map(|order| (STASHED << 24) + (order << 16) + self.deep);
        path.chain([closing]).chain(stashed).map(an_issue).collect()
    }

    /// A list of these keys but for the last, which is the extra one.
    fn list(self, keys: &[u32]) -> List {
        let mut members = random_tiers(&mut Rng::new(u64::from(self.r)), keys);
        // The last that is in the list, which has the last place of the stash, has the last tier.
        let last = members.len() - 2;
        members[last].1 = MAX_TIER;
        let board = Board::new(&self.tabulation, self.r, members);
        List { r: self.r, tabulation: self.tabulation, board }
    }

    /// The last key comes.
    fn with(self, single: &[u32], stashed: u32) -> List {
        let keys = self.keys(single, stashed);
        self.list(&keys)
    }

    /// The first key comes, with this edge, and the stash is full.
    fn before(self, single: u32) -> List {
        let mut keys = self.keys(&[single], PLACES);
        keys.rotate_left(1);
        self.list(&keys)
    }
}

/// How the slots of a path are joined so that the most keys move: stretches of nearly one length, of which the one that
/// is re-rooted has its root at its far end. Of two that are as long that is the one with its end in table 1, so that
/// the best lengths are not simply halves; those near the half are tried.
#[derive(Default)]
struct Joining {
    /// By length, whether the stretch begins in table 1, and whether its root is to be at the right end: how many keys
    /// move, and the length of the left part.
    known: BTreeMap<(u32, bool, bool), (i32, u32)>,
}

/// How far from the half a stretch is cut.
const NEAR: u32 = 3;

impl Joining {
    fn best(&mut self, slots: u32, odd: bool, right: bool) -> (i32, u32) {
        if slots == 1 {
            return (0, 0);
        }
        if let Some(known) = self.known.get(&(slots, odd, right)) {
            return *known;
        }
        let half = slots / 2;
        // Two slots have their root where it comes to be, which may be the wrong end: a few moves less later on.
        let mut best = (-3, 1);
        for left in half.saturating_sub(NEAR).max(1)..=(half + NEAR).min(slots - 1) {
            let middle_odd = odd ^ (left % 2 == 1);
            let (re_rooted, other) =
                if right { (left, slots - left) } else { (slots - left, left) };
            if re_rooted < other || re_rooted == other && middle_odd != right {
                let (one, _) = self.best(left, odd, false);
                let (two, _) = self.best(slots - left, middle_odd, true);
                best = best.max((one + two + re_rooted as i32 - 1, left));
            }
        }
        self.known.insert((slots, odd, right), best);
        best
    }

    fn join(&mut self, low: u32, slots: u32, right: bool, edges: &mut Vec<u32>) {
        if slots > 1 {
            let (_, left) = self.best(slots, low % 2 == 1, right);
            self.join(low, left, false, edges);
            self.join(low + left, slots - left, true, edges);
            edges.push(low + left - 1);
        }
    }
}

/// The edges of a path with its root at the right end, joined so that the most keys move. The first has its slot in
/// table 1 to the left, near the left end: when the cycle is finished, each of four walks then goes through nearly all
/// slots.
fn most_moves(slots: u32) -> Vec<u32> {
    let mut edges = Vec::new();
    Joining::default().join(0, slots, true, &mut edges);
    let order: BTreeMap<u32, usize> = edges.iter().copied().zip(0..).collect();
    let is_first = |edge: &u32| {
        let earlier = |other: u32| order.get(&other).is_none_or(|at| order[edge] < *at);
        edge % 2 == 1 && earlier(edge - 1) && earlier(edge + 1)
    };
    let first = edges.iter().copied().filter(is_first).min().expect("two single slots are joined");
    first_of_all(first, edges)
}

/// One of the edges is joined before the others.
fn first_of_all(first: u32, mut edges: Vec<u32>) -> Vec<u32> {
    edges.retain(|edge| *edge != first);
    edges.insert(0, first);
    edges
}

/// The edges of a path joined by halves: the bits of an edge are those of its place in the order, reversed. One near
/// the left end comes first, for long walks; at r = 16 this one is the dearest. The slots are a power of two.
fn halves(slots: u32) -> Vec<u32> {
    let reversed = |order: u32| order.reverse_bits() >> (32 - slots.trailing_zeros());
    first_of_all(5, (0..slots).map(reversed).filter(|edge| *edge < slots - 1).collect())
}

/// The edge with the most steps from its slots to their representatives, of which that in table 0 is asked twice. The
/// sets are united as the library does it: the smaller under the larger, of two as large that of the slot in table 1.
fn deepest(slots: u32, edges: &[u32]) -> u32 {
    let mut parent: Vec<usize> = (0..slots as usize).collect();
    let mut size = vec![1; slots as usize];
    let way = |parent: &[usize], slot: u32| {
        let (mut at, mut steps) = (slot as usize, 0);
        while parent[at] != at {
            (at, steps) = (parent[at], steps + 1);
        }
        (at, steps)
    };
    // The slots of an edge in table 0 and in table 1.
    let ends = |edge: u32| if edge % 2 == 0 { [edge, edge + 1] } else { [edge + 1, edge] };
    for edge in edges {
        let [one, two] = ends(*edge).map(|slot| way(&parent, slot).0);
        let (child, over) = if size[one] < size[two] { (one, two) } else { (two, one) };
        parent[child] = over;
        size[over] += size[child];
    }
    let steps = |edge: &u32| {
        let [one, two] = ends(*edge).map(|slot| way(&parent, slot).1);
        2 * one + two
    };
    edges.iter().copied().max_by_key(steps).expect("a path has edges")
}
