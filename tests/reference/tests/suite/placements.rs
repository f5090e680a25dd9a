//! The canonical stash against placements in general: it has at most s keys exactly when some
//! placement with s stash places exists. Matching itself is held against trying all placements.

use std::collections::BTreeSet;

use reference::answer::Found;
use reference::calls::lookup;
use reference::fast::Fast;
use reference::graph::{edges, Edge};
use reference::image::{canonical_stash, Engine, Slow};
use reference::placement::{placement, Place};
use reference::rng::Rng;
use reference::samples::{random_keys, random_station, random_tabulation, random_tiers};
use reference::set::set;

use crate::common::{other_issues, Tally};

/// Whether the edges can all be placed, by trying every way.
pub fn placeable(rest: &[Edge], taken: &BTreeSet<Place>, s: u32) -> bool {
    let Some((edge, rest)) = rest.split_first() else {
        return true;
    };
    let open = edge.slots.map(Place::Slot).into_iter().chain((0..s).map(Place::Stash));
    open.filter(|place| !taken.contains(place)).any(|place| {
        let mut more = taken.clone();
        more.insert(place);
        placeable(rest, &more, s)
    })
}

#[test]
fn matching_finds_a_placement_exactly_when_there_is_one() {
    let mut rng = Rng::new(41);
    let mut tally = Tally::default();
    for _ in 0..1_500 {
        let (r, s) = (1 + rng.below(3) as u32, rng.below(3) as u32);
        let station = random_station(&mut rng);
        let (tabulation, count) = (random_tabulation(&mut rng, 5), rng.below(7));
        let keys = random_keys(&mut rng, count);
        let edges = edges(&tabulation, r, station, &keys).unwrap();
        let found = placement(&tabulation, r, s, station, &keys).unwrap();
        assert_eq!(found.is_some(), placeable(&edges, &BTreeSet::new(), s));
        tally.add(if found.is_some() { "placed" } else { "not placeable" });
        let Some(found) = found else { continue };
        assert_eq!(found.len(), keys.len());
        assert_eq!(found.values().collect::<BTreeSet<_>>().len(), keys.len(), "one key to a place");
        for edge in &edges {
            assert!(match found[&edge.key] {
                Place::Slot(slot) => edge.slots.contains(&slot),
                Place::Stash(place) => place < s,
            });
        }
    }
    tally.report("matching", &["placed", "not placeable"]);
}

#[test]
fn the_canonical_stash_fits_exactly_when_a_placement_exists() {
    let mut rng = Rng::new(42);
    let mut tally = Tally::default();
    for _ in 0..4_000 {
        let (r, station) = (1 + rng.below(6) as u32, random_station(&mut rng));
        let (values, count) = (1 + rng.below(9), rng.below(9));
        let tabulation = random_tabulation(&mut rng, values);
        let keys = random_keys(&mut rng, count);
        let members = random_tiers(&mut rng, &keys);
        let needed = canonical_stash(&tabulation, r, station, &keys).unwrap().len();
        for s in 0..=4 {
            let exists = placement(&tabulation, r, s, station, &keys).unwrap().is_some();
            assert_eq!(needed <= s as usize, exists, "r {r}, s {s}, station {station}, {keys:?}");
            assert_eq!(Slow.image(&tabulation, r, s, station, &members).is_some(), exists);
            assert_eq!(Fast.image(&tabulation, r, s, station, &members).is_some(), exists);
            tally.add(if exists { "placed" } else { "not placeable" });
        }
        tally.add("boards");
        tally.add(format!("stash of {}", needed.min(3)));
    }
    let wanted = [
        "boards",
        "placed",
        "not placeable",
        "stash of 0",
        "stash of 1",
        "stash of 2",
        "stash of 3",
    ];
    tally.report("placements", &wanted);
}

#[test]
fn images_are_placements_that_lookup_reads() {
    let mut rng = Rng::new(43);
    let mut tally = Tally::default();
    for _ in 0..3_000 {
        let (r, s) = (1 + rng.below(5) as u32, rng.below(4) as u32);
        let station = random_station(&mut rng);
        let (tabulation, count) = (random_tabulation(&mut rng, 6), rng.below(8));
        let keys = random_keys(&mut rng, count);
        let members = random_tiers(&mut rng, &keys);
        let Some(words) = Slow.image(&tabulation, r, s, station, &members) else {
            continue;
        };
        let set = set(&members).unwrap();
        for (&key, &tier) in &set {
            assert_eq!(lookup(&tabulation, &words, key), Ok(Found::Listed(tier)));
            for near in other_issues(key).into_iter().chain([key.wrapping_add(10).max(10)]) {
                let near_found = set.get(&near).map_or(Found::Absent, |&tier| Found::Listed(tier));
                assert_eq!(lookup(&tabulation, &words, near), Ok(near_found));
            }
        }
        tally.add("boards");
        tally.add_many("keys", keys.len());
    }
    tally.report("lookup in images", &["boards", "keys"]);
}
