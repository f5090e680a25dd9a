//! A whole list in one call (request Seven; the field's "bulk load"): the input, the call, and the
//! request's own rule for which keys are stored and which go to the stash, taken literally. Of
//! [`crate::image`] it uses only where a stored key sits: "Seats follow document 01." Slow on
//! purpose, like that module; the tests hold the rule against the image of the same set.

use std::collections::BTreeSet;

use crate::answer::{Answer, Refusal};
use crate::calls::finish;
use crate::counters::Counters;
use crate::graph::{edges, Edge};
use crate::hash::TABULATION_LEN;
use crate::image::{entries, Engine};
use crate::key::{first_part, is_blank};
use crate::layout::{Contents, Shape, Slot};
use crate::set::{set, Member, MAX_TIER};

/// Makes the words the list of all keys of the input, each with its tier.
///
/// Request Seven: "r, s and station are given as when laying. [..] All is refused or all is laid,
/// and a refusal leaves the target unchanged. It moves the meter as lay does. Checks are 1, 2 for
/// the target's r, s, station and length, and 3; then 5, 9, 14 and 13 (between input cards), each
/// over the whole input, a lone last word being a card; then 8." As for init, what the words held
/// before has no say. The scratch "is zero over its full length after every call that borrows it".
// What insert borrows and what init is given come together here.
#[allow(clippy::too_many_arguments)]
pub fn bulk_load(
    engine: &impl Engine,
    tabulation: &[u16],
    words: &mut [u32],
    scratch: &mut [u32],
    counters: &mut Counters,
    r: u32,
    s: u32,
    station: u32,
    input: &[u32],
) -> Answer {
    let shape = target_shape(tabulation.len(), words.len(), scratch.len(), r, s, station);
    let new_words = shape.and_then(|shape| loaded_words(engine, tabulation, shape, input));
    finish(new_words, words, scratch, counters)
}

/// The shape that the words are to have, or 1, 2 or 3, in this order.
fn target_shape(
    tabulation_len: usize,
    words_len: usize,
    scratch_len: usize,
    r: u32,
    s: u32,
    station: u32,
) -> Result<Shape, Refusal> {
    if tabulation_len != TABULATION_LEN {
        return Err(Refusal::WrongTabulation);
    }
    let shape = Shape::new(r, s, station)?;
    if words_len != shape.words_len() {
        return Err(Refusal::WrongShape);
    }
    if scratch_len < shape.scratch_len() {
        return Err(Refusal::ShortScratch);
    }
    Ok(shape)
}

/// The words after a bulk load, or 5, 9, 14, 13 or 8, in this order.
fn loaded_words(
    engine: &impl Engine,
    tabulation: &[u16],
    shape: Shape,
    input: &[u32],
) -> Result<Vec<u32>, Refusal> {
    let members = members(input)?;
    let (r, s, station) = shape.numbers();
    engine.bulk_image(tabulation, r, s, station, &members).ok_or(Refusal::FullStash)
}

/// The members that an input lists, ascending; or 5, 9, 14 or 13, in this order.
///
/// Request Seven: "Lent words alternate card and tier"; "5, 9, 14 and 13 (between input cards),
/// each over the whole input, a lone last word being a card"; "14 (odd number of words, or cards
/// not strictly rising) after 9". So a lone last word can be blank, but it has no tier.
pub fn members(input: &[u32]) -> Result<Vec<Member>, Refusal> {
    let keys: Vec<u32> = input.iter().step_by(2).copied().collect();
    let tiers: Vec<u32> = input.iter().skip(1).step_by(2).copied().collect();
    if keys.iter().any(|&key| is_blank(key)) {
        return Err(Refusal::BlankKey);
    }
    if tiers.iter().any(|&tier| tier > MAX_TIER) {
        return Err(Refusal::WrongTier);
    }
    if keys.len() != tiers.len() || !is_rising(&keys) {
        return Err(Refusal::NotRising);
    }
    let first_parts: BTreeSet<u32> = keys.iter().map(|&key| first_part(key)).collect();
    if first_parts.len() < keys.len() {
        return Err(Refusal::OtherIssue);
    }
    Ok(keys.into_iter().zip(tiers).collect())
}

/// The input that lists these members, in the order given: [`members`] the other way round.
pub fn input(members: &[Member]) -> Vec<u32> {
    members.iter().flat_map(|&(key, tier)| [key, tier]).collect()
}

/// Whether each key is larger than the one before it.
fn is_rising(keys: &[u32]) -> bool {
    keys.windows(2).all(|pair| pair[0] < pair[1])
}

/// The words that a bulk load leaves, by request Seven's own rule; see [`Engine::bulk_image`].
///
/// Whether the stash fits is looked at before any key gets its slot, so that an input of any length
/// is refused soon.
pub fn image(
    tabulation: &[u16],
    r: u32,
    s: u32,
    station: u32,
    members: &[Member],
) -> Option<Vec<u32>> {
    let shape = Shape::new(r, s, station).ok()?;
    let tiers = set(members)?;
    let keys: Vec<u32> = members.iter().map(|&(key, _)| key).collect();
    if !is_rising(&keys) {
        return None;
    }
    let components = finished_components(&edges(tabulation, r, station, &keys).ok()?);
    let mut contents = Contents::default();
    for component in &components {
        contents.stash.extend(component.stashed().into_iter().map(|key| (key, tiers[&key])));
    }
    if contents.stash.len() > s as usize {
        return None;
    }
    for component in &components {
        contents.entries.extend(entries(&component.stored(), &tiers));
    }
    Some(shape.write(&contents))
}

/// A component (the paper's "group") that grows while keys are taken in ascending order.
#[derive(Clone, Debug, Default, PartialEq, Eq)]
pub struct Component {
    /// Its slots.
    pub slots: BTreeSet<Slot>,
    /// The keys that joined two separate components when they were taken; they made this one.
    pub joining: Vec<Edge>,
    /// The keys that closed a cycle when they were taken.
    pub closing: Vec<Edge>,
}

impl Component {
    /// The keys that sit in slots once the component is finished.
    ///
    /// Request Seven: "Going up, a card that joins two separate groups is seated. Of the cards that
    /// close a loop, the smallest in each finished group is seated".
    pub fn stored(&self) -> Vec<Edge> {
        let smallest = self.smallest_closing();
        let closing = self.closing.iter().filter(|edge| Some(edge.key) == smallest);
        self.joining.iter().chain(closing).copied().collect()
    }

    /// The keys that go to the stash once the component is finished.
    ///
    /// Request Seven: "and the others go to the drawer".
    pub fn stashed(&self) -> BTreeSet<u32> {
        let smallest = self.smallest_closing();
        let closing = self.closing.iter().map(|edge| edge.key);
        closing.filter(|&key| Some(key) != smallest).collect()
    }

    fn smallest_closing(&self) -> Option<u32> {
        self.closing.iter().map(|edge| edge.key).min()
    }

    /// This component and another one, joined by an edge.
    fn join(mut self, other: Component, edge: Edge) -> Component {
        self.slots.extend(other.slots);
        self.joining.extend(other.joining);
        self.joining.push(edge);
        self.closing.extend(other.closing);
        self
    }
}

/// The components that have at least one key, after all edges were taken in the order given, which
/// must be ascending by key.
///
/// Request Seven: "Going up, a card that joins two separate groups is seated." Before the first
/// key, each slot is a component of its own. A key whose slots are in one component already closes
/// a cycle.
pub fn finished_components(edges: &[Edge]) -> Vec<Component> {
    let slots: BTreeSet<Slot> = edges.iter().flat_map(|edge| edge.slots).collect();
    let lone = |slot| Component { slots: BTreeSet::from([slot]), ..Component::default() };
    let mut components: Vec<Component> = slots.into_iter().map(lone).collect();
    for &edge in edges {
        let mut first = take_component(&mut components, edge.slots[0]);
        if first.slots.contains(&edge.slots[1]) {
            first.closing.push(edge);
        } else {
            let second = take_component(&mut components, edge.slots[1]);
            first = first.join(second, edge);
        }
        components.push(first);
    }
    components
}

/// Takes the component with this slot out of the others.
fn take_component(components: &mut Vec<Component>, slot: Slot) -> Component {
    let at = components.iter().position(|component| component.slots.contains(&slot));
    components.swap_remove(at.expect("every slot is in a component"))
}
