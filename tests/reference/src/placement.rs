//! Placements in general, canonical or not, by bipartite matching of keys with places. The tests
//! use it to show that the canonical stash is never larger than any placement needs.

use std::collections::{BTreeMap, BTreeSet};

use crate::answer::Refusal;
use crate::graph::{edges, Edge};
use crate::layout::Slot;

/// Where a placement puts a key, or a salvage finds one.
#[derive(Clone, Copy, Debug, PartialEq, Eq, PartialOrd, Ord)]
pub enum Place {
    /// In a slot (the paper's "pocket").
    Slot(Slot),
    /// In one of the s stash places (the paper's "drawer places"), counted from 0.
    Stash(u32),
}

/// A placement of all keys at a station, or `None` when there is none.
///
/// Document 000, section 3: "An element x can be stored in three possible locations: entry h0(x) of
/// table T0, entry h1(x) of table T1, or stashed in the secondary data structure." One key to a
/// slot or stash place.
pub fn placement(
    tabulation: &[u16],
    r: u32,
    s: u32,
    station: u32,
    keys: &[u32],
) -> Result<Option<BTreeMap<u32, Place>>, Refusal> {
    let edges = edges(tabulation, r, station, keys)?;
    let mut holders: BTreeMap<Place, Edge> = BTreeMap::new();
    for edge in &edges {
        if !augment(*edge, s, &mut holders, &mut BTreeSet::new()) {
            return Ok(None);
        }
    }
    Ok(Some(holders.into_iter().map(|(place, edge)| (edge.key, place)).collect()))
}

/// The places open to a key.
fn places(edge: &Edge, s: u32) -> impl Iterator<Item = Place> {
    edge.slots.map(Place::Slot).into_iter().chain((0..s).map(Place::Stash))
}

/// Gives `edge` a place, moving others along an augmenting path; places in `tried` are not asked
/// again.
fn augment(
    edge: Edge,
    s: u32,
    holders: &mut BTreeMap<Place, Edge>,
    tried: &mut BTreeSet<Place>,
) -> bool {
    for place in places(&edge, s) {
        if !tried.insert(place) {
            continue;
        }
        let freed = match holders.get(&place).copied() {
            None => true,
            Some(holder) => augment(holder, s, holders, tried),
        };
        if freed {
            holders.insert(place, edge);
            return true;
        }
    }
    false
}
