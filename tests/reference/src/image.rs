//! The canonical image, literally: cycles are listed, the stash is thinned out one key at a time,
//! and the assignment is found by trying them all. Slow on purpose; meant for boards of about ten
//! keys.

use std::collections::{BTreeMap, BTreeSet};

use crate::answer::Refusal;
use crate::bulk;
use crate::graph::{components, edges, simple_cycles, Edge};
use crate::layout::{Contents, Entry, Shape, Slot};
use crate::set::{set, Member, Set};
use crate::trail::trail;

/// A way to work out canonical images, bulk loads and trails. [`Slow`] is the definition,
/// [`crate::fast::Fast`] another way; the calls, the reference model and the console take either.
pub trait Engine {
    /// The words of the canonical image of a set at a station, its members (key, tier) given in any
    /// order (a repeated one counts once). `None` when there is none: the stash would need more
    /// than `s` places, or the tabulation, `r`, `s`, `station`, a key or a tier is one that no list
    /// has, or a key stands with two tiers, or a first part with two issues.
    fn image(
        &self,
        tabulation: &[u16],
        r: u32,
        s: u32,
        station: u32,
        members: &[Member],
    ) -> Option<Vec<u32>>;

    /// The words that a bulk load of these members (key, tier) leaves at a station, by request
    /// Seven's rule for the stash. `None` where [`Engine::image`] gives none, and when the keys do
    /// not rise strictly.
    fn bulk_image(
        &self,
        tabulation: &[u16],
        r: u32,
        s: u32,
        station: u32,
        members: &[Member],
    ) -> Option<Vec<u32>>;

    /// The trail of a key in the canonical image of a set at a station, first key first; empty for
    /// a key in the stash. `None` when the key is not in the set, or the set has no image.
    fn trail(
        &self,
        tabulation: &[u16],
        r: u32,
        s: u32,
        station: u32,
        members: &[Member],
        key: u32,
    ) -> Option<Vec<u32>>;
}

/// Lets a borrowed engine, also one behind `dyn`, stand where an engine is asked for.
impl<E: Engine + ?Sized> Engine for &E {
    fn image(
        &self,
        tabulation: &[u16],
        r: u32,
        s: u32,
        station: u32,
        members: &[Member],
    ) -> Option<Vec<u32>> {
        (**self).image(tabulation, r, s, station, members)
    }

    fn bulk_image(
        &self,
        tabulation: &[u16],
        r: u32,
        s: u32,
        station: u32,
        members: &[Member],
    ) -> Option<Vec<u32>> {
        (**self).bulk_image(tabulation, r, s, station, members)
    }

    fn trail(
        &self,
        tabulation: &[u16],
        r: u32,
        s: u32,
        station: u32,
        members: &[Member],
        key: u32,
    ) -> Option<Vec<u32>> {
        (**self).trail(tabulation, r, s, station, members, key)
    }
}

/// The engine that works by the definitions: [`image`], [`bulk::image`] and [`trail`].
#[derive(Clone, Copy, Debug, Default)]
pub struct Slow;

impl Engine for Slow {
    fn image(
        &self,
        tabulation: &[u16],
        r: u32,
        s: u32,
        station: u32,
        members: &[Member],
    ) -> Option<Vec<u32>> {
        image(tabulation, r, s, station, members)
    }

    fn bulk_image(
        &self,
        tabulation: &[u16],
        r: u32,
        s: u32,
        station: u32,
        members: &[Member],
    ) -> Option<Vec<u32>> {
        bulk::image(tabulation, r, s, station, members)
    }

    fn trail(
        &self,
        tabulation: &[u16],
        r: u32,
        s: u32,
        station: u32,
        members: &[Member],
        key: u32,
    ) -> Option<Vec<u32>> {
        trail(tabulation, r, s, station, members, key)
    }
}

/// An assignment: which key each filled slot holds.
pub type Assignment = BTreeMap<Slot, u32>;

/// The words of the canonical image of a set, by the definition; see [`Engine::image`].
///
/// Paper: "The canonical image", from document 000, section 3.1. It speaks of keys and slots only;
/// the station decides over the slots, and the tiers are written beside the keys in the end.
pub fn image(
    tabulation: &[u16],
    r: u32,
    s: u32,
    station: u32,
    members: &[Member],
) -> Option<Vec<u32>> {
    let shape = Shape::new(r, s, station).ok()?;
    let tiers = set(members)?;
    let keys: Vec<u32> = tiers.keys().copied().collect();
    let edges = edges(tabulation, r, station, &keys).ok()?;
    let mut contents = Contents::default();
    for component in components(&edges) {
        let (kept, stashed) = split_stash(&component);
        contents.stash.extend(stashed.into_iter().map(|key| (key, tiers[&key])));
        contents.entries.extend(entries(&kept, &tiers));
    }
    (contents.stash.len() <= s as usize).then(|| shape.write(&contents))
}

/// The whole canonical stash of a set of keys at a station, however many places it needs.
pub fn canonical_stash(
    tabulation: &[u16],
    r: u32,
    station: u32,
    keys: &[u32],
) -> Result<BTreeSet<u32>, Refusal> {
    let edges = edges(tabulation, r, station, keys)?;
    let stashes = components(&edges).into_iter().flat_map(|component| split_stash(&component).1);
    Ok(stashes.collect())
}

/// Parts a component into the edges of the keys that are stored and the keys that go to the stash.
///
/// Paper: "More loops: the largest card that lies on a loop goes to the drawer, and again, until
/// one loop is left."
pub fn split_stash(component: &[Edge]) -> (Vec<Edge>, Vec<u32>) {
    let mut kept = component.to_vec();
    let mut stashed = Vec::new();
    loop {
        let cycles = simple_cycles(&kept);
        if cycles.len() <= 1 {
            return (kept, stashed);
        }
        let largest = *cycles.iter().flatten().max().expect("a cycle has keys");
        kept.retain(|edge| edge.key != largest);
        stashed.push(largest);
    }
}

/// The one assignment of a component with at most one cycle.
///
/// Paper: "No loop in the group: its smallest card sits in both its pockets. That fixes every other
/// card's pocket." and "One loop: the smallest card on the loop sits in rack 0. That fixes the
/// rest." That it does fix them is asserted: exactly one of all assignments obeys.
pub fn assignment(kept: &[Edge]) -> Assignment {
    let mut allowed: Vec<Assignment> = match simple_cycles(kept).first() {
        None => assignments(kept, kept.iter().map(|edge| edge.key).min()),
        Some(cycle) => {
            let smallest = cycle.first().expect("a cycle has keys");
            let in_table_0 = |assignment: &Assignment| {
                assignment.iter().any(|(slot, key)| slot.table == 0 && key == smallest)
            };
            assignments(kept, None).into_iter().filter(in_table_0).collect()
        }
    };
    assert_eq!(allowed.len(), 1, "the rule fixes one assignment of {kept:?}");
    allowed.remove(0)
}

/// All assignments with one key to a slot and every key in one of its two slots, but the key
/// `doubled`, if there is one, in both.
pub fn assignments(kept: &[Edge], doubled: Option<u32>) -> Vec<Assignment> {
    let mut found = Vec::new();
    try_assignments(kept, doubled, &Assignment::new(), &mut found);
    found
}

/// Tries all ways to assign the rest of the edges beside what is stored already.
fn try_assignments(
    rest: &[Edge],
    doubled: Option<u32>,
    stored: &Assignment,
    found: &mut Vec<Assignment>,
) {
    let Some((edge, rest)) = rest.split_first() else {
        found.push(stored.clone());
        return;
    };
    let [slot0, slot1] = edge.slots;
    let ways = if doubled == Some(edge.key) {
        vec![vec![slot0, slot1]]
    } else {
        vec![vec![slot0], vec![slot1]]
    };
    for way in ways {
        if way.iter().any(|slot| stored.contains_key(slot)) {
            continue;
        }
        let mut more = stored.clone();
        more.extend(way.into_iter().map(|slot| (slot, edge.key)));
        try_assignments(rest, doubled, &more, found);
    }
}

/// The filled slots of a component with at most one cycle, with their next numbers and tiers.
pub(crate) fn entries(kept: &[Edge], tiers: &Set) -> BTreeMap<Slot, Entry> {
    let next = next_keys(kept.iter().map(|edge| edge.key));
    assignment(kept)
        .into_iter()
        .map(|(slot, key)| (slot, Entry { key, next: next[&key], tier: tiers[&key] }))
        .collect()
}

/// The next number of each stored key of one component.
///
/// Paper: "The next number of a seated card is the next larger seated card of its group; the
/// largest points to the smallest; a lone card points to itself."
pub fn next_keys(stored: impl IntoIterator<Item = u32>) -> BTreeMap<u32, u32> {
    let stored: BTreeSet<u32> = stored.into_iter().collect();
    let larger = |key: u32| stored.iter().copied().find(|&other| other > key);
    let smallest = stored.first().copied();
    stored.iter().map(|&key| (key, larger(key).or(smallest).unwrap_or(key))).collect()
}
