//! The slow engine's own ground: listed cycles against all subsets of keys, and components against
//! pairwise reachability.

use std::collections::{BTreeMap, BTreeSet};

use reference::graph::{components, edges, reachable, simple_cycles, Edge};
use reference::layout::Slot;
use reference::rng::Rng;
use reference::samples::{random_keys, random_station, random_tabulation};

use crate::common::Tally;

/// A set of edges is one simple cycle when each of its slots has two of them and all hang together.
fn is_simple_cycle(edges: &[Edge]) -> bool {
    let mut degrees: BTreeMap<Slot, usize> = BTreeMap::new();
    for slot in edges.iter().flat_map(|edge| edge.slots) {
        *degrees.entry(slot).or_default() += 1;
    }
    !edges.is_empty()
        && degrees.values().all(|&degree| degree == 2)
        && reachable(edges, edges[0].slots[0]).len() == degrees.len()
}

fn cycles_among_all_subsets(edges: &[Edge]) -> BTreeSet<BTreeSet<u32>> {
    let mut cycles = BTreeSet::new();
    for mask in 0..1usize << edges.len() {
        let chosen: Vec<Edge> = edges
            .iter()
            .enumerate()
            .filter(|(i, _)| mask >> i & 1 == 1)
            .map(|(_, edge)| *edge)
            .collect();
        if is_simple_cycle(&chosen) {
            cycles.insert(chosen.iter().map(|edge| edge.key).collect());
        }
    }
    cycles
}

#[test]
fn listed_cycles_are_the_cycles_among_all_subsets() {
    let mut rng = Rng::new(21);
    let mut tally = Tally::default();
    for _ in 0..600 {
        let (r, station) = (1 + rng.below(5) as u32, random_station(&mut rng));
        let (tabulation, count) = (random_tabulation(&mut rng, 7), rng.below(9));
        let edges = edges(&tabulation, r, station, &random_keys(&mut rng, count)).unwrap();
        let cycles = simple_cycles(&edges);
        assert_eq!(cycles, cycles_among_all_subsets(&edges), "{edges:?}");
        tally.add("boards");
        tally.add_many("cycles", cycles.len());
        tally.add_many("cycles of two", cycles.iter().filter(|cycle| cycle.len() == 2).count());
        tally.add_many(
            "cycles of six or more",
            cycles.iter().filter(|cycle| cycle.len() >= 6).count(),
        );
    }
    tally.report("cycles", &["boards", "cycles", "cycles of two", "cycles of six or more"]);
}

#[test]
fn components_are_the_connected_keys() {
    let mut rng = Rng::new(22);
    let mut tally = Tally::default();
    for _ in 0..500 {
        let (r, station) = (1 + rng.below(6) as u32, random_station(&mut rng));
        let (tabulation, count) = (random_tabulation(&mut rng, 9), rng.below(9));
        let edges = edges(&tabulation, r, station, &random_keys(&mut rng, count)).unwrap();
        let components = components(&edges);
        assert_eq!(components.iter().map(Vec::len).sum::<usize>(), edges.len());
        let component_of = |key: u32| {
            components.iter().position(|part| part.iter().any(|edge| edge.key == key)).unwrap()
        };
        for a in &edges {
            for b in &edges {
                let connected = reachable(&edges, a.slots[0]).contains(&b.slots[1]);
                assert_eq!(component_of(a.key) == component_of(b.key), connected);
            }
        }
        tally.add("boards");
        tally.add(if components.len() > 1 { "several components" } else { "at most one" });
    }
    tally.report("components", &["boards", "several components", "at most one"]);
}
