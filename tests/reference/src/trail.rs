//! The trail of a key (request Two), literally: the key's component, whether it has a cycle and
//! which stored keys lie on it, the root, and then from slot to slot. Slow on purpose, like
//! [`crate::image`].

use crate::graph::{components, edges, simple_cycles, Edge};
use crate::image::{image, Assignment};
use crate::layout::{Shape, Slot};
use crate::set::Member;

/// The trail of a key in the canonical image of a set, by the definition; see
/// [`Engine::trail`](crate::image::Engine::trail).
///
/// Request Two: "The trail starts with a seated card; each next one is the card sitting in the last
/// one's other pocket. It ends with the root [..]"; "a drawer card's trail is empty. Every trail
/// ends without a repeated card." The last is asserted.
pub fn trail(
    tabulation: &[u16],
    r: u32,
    s: u32,
    station: u32,
    members: &[Member],
    key: u32,
) -> Option<Vec<u32>> {
    let held = held(&image(tabulation, r, s, station, members)?);
    let keys: Vec<u32> = members.iter().map(|&(key, _)| key).collect();
    let component = component_of(&edges(tabulation, r, station, &keys).ok()?, key)?;
    if !is_stored(key, &held) {
        return Some(Vec::new());
    }
    let root = root(&component, &held);
    let mut trail = vec![key];
    let mut last = key;
    while last != root {
        last = step(last, &component, &held);
        assert!(!trail.contains(&last), "{trail:?} comes to {last} again");
        trail.push(last);
    }
    Some(trail)
}

/// Which key each filled slot of an image holds.
fn held(image: &[u32]) -> Assignment {
    let shape = Shape::of(image).expect("an image has a shape");
    let filled = |slot| Some((slot, shape.entry(image, slot)?.key));
    shape.slots().filter_map(filled).collect()
}

/// The component with this key, stash keys included; `None` when there is no such key.
///
/// Paper: "A group is a connected set of pockets and its cards."
fn component_of(edges: &[Edge], key: u32) -> Option<Vec<Edge>> {
    let has_key = |component: &Vec<Edge>| component.iter().any(|edge| edge.key == key);
    components(edges).into_iter().find(has_key)
}

/// Whether a key sits in a slot (the paper's "seated card").
fn is_stored(key: u32, held: &Assignment) -> bool {
    held.values().any(|&other| other == key)
}

/// The root of a component.
///
/// Request Two: "the root: the smallest of a group without a loop, otherwise the smallest on the
/// one loop that its seated cards form".
fn root(component: &[Edge], held: &Assignment) -> u32 {
    if simple_cycles(component).is_empty() {
        return component.iter().map(|edge| edge.key).min().expect("a component has keys");
    }
    let stored: Vec<Edge> =
        component.iter().filter(|edge| is_stored(edge.key, held)).copied().collect();
    let cycles = simple_cycles(&stored);
    assert_eq!(cycles.len(), 1, "the stored keys of {component:?} form one cycle");
    let smallest = cycles.iter().flatten().min();
    *smallest.expect("a cycle has keys")
}

/// The key after a key that is not the root.
///
/// Request Two: "each next one is the card sitting in the last one's other pocket". Only a tree's
/// smallest key sits in both its slots, and that is the root; so there is one other slot. The next
/// key sits there, in the other table, and the step after it leads back to this one: "The step out
/// of rack 0 hands on to the step out of rack 1 and back."
fn step(key: u32, component: &[Edge], held: &Assignment) -> u32 {
    let edge = component.iter().find(|edge| edge.key == key).expect("a trail stays in a component");
    let is_own = |slot: &Slot| held.get(slot) == Some(&key);
    let (own, other): (Vec<Slot>, Vec<Slot>) = edge.slots.into_iter().partition(is_own);
    assert_eq!((own.len(), other.len()), (1, 1), "{key} sits in one of its slots");
    *held.get(&other[0]).expect("the stored keys of a component fill all its slots")
}
