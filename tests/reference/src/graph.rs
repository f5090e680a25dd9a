//! The graph behind a list: slots are its vertices and keys its edges. Components are found by
//! graph search, and cycles are listed one by one as sets of keys; slow, and plainly what the paper
//! says.

use std::collections::BTreeSet;

use crate::answer::Refusal;
use crate::hash::hashes;
use crate::layout::Slot;

/// A key as an edge of the graph.
///
/// Paper: "Pockets are points; every listed card, drawer cards included, is a line between its two
/// pockets."
#[derive(Clone, Copy, Debug, PartialEq, Eq)]
pub struct Edge {
    /// The key (the paper's "card").
    pub key: u32,
    /// Its slot in table 0 and its slot in table 1.
    pub slots: [Slot; 2],
}

impl Edge {
    /// The slot at the other end, seen from `slot`; `None` when the edge does not touch `slot`.
    pub fn across(&self, slot: Slot) -> Option<Slot> {
        let [a, b] = self.slots;
        match slot {
            _ if slot == a => Some(b),
            _ if slot == b => Some(a),
            _ => None,
        }
    }
}

/// The edges of a set of keys at a station, ascending by key, each key once; refused as [`hashes`]
/// refuses. Two issues of a first part are not refused here but by [`crate::set::set`].
pub fn edges(tabulation: &[u16], r: u32, station: u32, keys: &[u32]) -> Result<Vec<Edge>, Refusal> {
    let set: BTreeSet<u32> = keys.iter().copied().collect();
    set.into_iter()
        .map(|key| {
            let [index0, index1] = hashes(tabulation, r, station, key)?.map(|hash| hash as usize);
            let slots = [Slot { table: 0, index: index0 }, Slot { table: 1, index: index1 }];
            Ok(Edge { key, slots })
        })
        .collect()
}

/// The components (the paper's "groups") that have at least one key, each as its edges.
///
/// Paper: "A group is a connected set of pockets and its cards."
pub fn components(edges: &[Edge]) -> Vec<Vec<Edge>> {
    let mut left = edges.to_vec();
    let mut found = Vec::new();
    while let Some(first) = left.first() {
        let reached = reachable(&left, first.slots[0]);
        let (inside, outside) = left.into_iter().partition(|edge| reached.contains(&edge.slots[0]));
        found.push(inside);
        left = outside;
    }
    found
}

/// All slots that can be reached from `start` over the edges, `start` included.
pub fn reachable(edges: &[Edge], start: Slot) -> BTreeSet<Slot> {
    let mut reached = BTreeSet::from([start]);
    let mut waiting = vec![start];
    while let Some(slot) = waiting.pop() {
        for edge in edges {
            if let Some(to) = edge.across(slot) {
                if reached.insert(to) {
                    waiting.push(to);
                }
            }
        }
    }
    reached
}

/// All simple cycles (the paper's "loops"), each as the set of its keys.
///
/// Paper: "Two cards with the same two places form a loop of two." A key's two slots lie in
/// different tables, so there is no cycle of one key.
pub fn simple_cycles(edges: &[Edge]) -> BTreeSet<BTreeSet<u32>> {
    let starts: BTreeSet<Slot> = edges.iter().flat_map(|edge| edge.slots).collect();
    let mut cycles = BTreeSet::new();
    for start in starts {
        let mut path = Path { slots: vec![start], keys: Vec::new() };
        walk(edges, &mut path, &mut cycles);
    }
    cycles
}

/// A path on which no slot and no key occurs twice.
struct Path {
    slots: Vec<Slot>,
    keys: Vec<u32>,
}

/// Tries every way to go on from the end of the path; an edge back to its first slot closes a
/// cycle.
///
/// Only slots larger than the first are stepped on, so each cycle is walked from its smallest slot
/// alone. It is still found once in each direction; the set of sets keeps one of the two.
fn walk(edges: &[Edge], path: &mut Path, cycles: &mut BTreeSet<BTreeSet<u32>>) {
    let start = path.slots[0];
    let end = path.slots[path.slots.len() - 1];
    for edge in edges {
        let Some(to) = edge.across(end) else { continue };
        if path.keys.contains(&edge.key) {
            continue;
        }
        if to == start {
            cycles.insert(path.keys.iter().copied().chain([edge.key]).collect());
        } else if to > start && !path.slots.contains(&to) {
            path.slots.push(to);
            path.keys.push(edge.key);
            walk(edges, path, cycles);
            path.slots.pop();
            path.keys.pop();
        }
    }
}
