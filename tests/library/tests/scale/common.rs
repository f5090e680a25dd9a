//! What the tests at scale share: images of random sets, ways to a set and trails of its keys; from the files below it
//! what is drawn at random, the prices of sales, and words taken apart.

mod draws;
mod prices;
mod words;

use library::beside::Beside;
use library::Change::{Insert, Remove};
use library::{change, fresh, scratch_length, Change};
use reference::fast::{image, Fast};
use reference::house::HOUSE;
use reference::image::Engine;
use reference::key::first_part;
use reference::rng::Rng;
use reference::samples::{random_keys, random_station, random_tier, random_tiers, tier_0};
use reference::set::Member;

pub use draws::*;
pub use prices::*;
pub use words::*;

/// What a dictionary is laid with: r, s and the station.
pub type Laid = [u32; 3];

/// The image of a set, by the reference.
pub fn image_of(tabulation: &[u16], [r, s, station]: Laid, members: &[Member]) -> Option<Vec<u32>> {
    image(tabulation, r, s, station, members)
}

/// The image of a random set on a small board that crowds its keys, with what it was made from.
pub struct Small {
    pub r: u32,
    pub s: u32,
    pub tabulation: Vec<u16>,
    pub keys: Vec<u32>,
    pub words: Vec<u32>,
}

/// Such an image, with up to so many slots, and fewer than so many places and keys; none where the set does not fit.
pub fn random_image(rng: &mut Rng, [slots, places, most]: [usize; 3]) -> Option<Small> {
    let (r, s) = (1 + rng.below(slots) as u32, rng.below(places) as u32);
    let tabulation = narrow_tabulation(rng);
    let count = rng.below(most);
    let keys = random_keys(rng, count);
    let laid = [r, s, random_station(rng)];
    let words = image_of(&tabulation, laid, &random_tiers(rng, &keys))?;
    Some(Small { r, s, tabulation, keys, words })
}

/// What a board is laid with, its tabulation and a set of keys that fit, for two histories: mostly of a small board,
/// now and then of the largest.
pub fn fitting_set(rng: &mut Rng, round: usize) -> Option<(Laid, Vec<u16>, Vec<u32>)> {
    let large = round % 600 == 0;
    let (r, s) = if large { (1_024, 64) } else { (1 + rng.below(8) as u32, rng.below(5) as u32) };
    let tabulation = if large { HOUSE.to_vec() } else { narrow_tabulation(rng) };
    let count = if large { 600 } else { 1 + rng.below(2 * r as usize) };
    let keys = if large { any_keys(rng, count) } else { random_keys(rng, count) };
    let laid = [r, s, random_station(rng)];
    image_of(&tabulation, laid, &tier_0(&keys)).map(|_| (laid, tabulation, keys))
}

/// Keys that are not in the set, nor is another issue of them.
pub fn strangers_to(rng: &mut Rng, keys: &[u32]) -> Vec<u32> {
    let is_strange = |key: &u32| keys.iter().all(|of_set| first_part(*of_set) != first_part(*key));
    (0..6).map(|_| any_key(rng)).filter(is_strange).collect()
}

/// A random way to a set: its keys in any order, with strangers that come and go, keys that go and come again, at first
/// with another tier or of another issue, and refused calls.
pub fn way_to(
    rng: &mut Rng,
    tabulation: &[u16],
    [r, s, station]: Laid,
    members: &[Member],
    strangers: &[u32],
) -> Vec<u32> {
    let mut words = fresh(r, s, station);
    let mut order = members.to_vec();
    rng.shuffle(&mut order);
    let mut call = |way: Change, key: u32| change(way, tabulation, &mut words, key);
    for (key, tier) in order {
        let (stranger, strange) = (rng.pick(strangers), random_tier(rng));
        if call(Insert(strange), stranger) == 0 {
            assert_eq!(call(Insert(strange), stranger), 6);
            assert_eq!(call(Insert(other_tier(rng, strange)), stranger), 10);
            assert_eq!(call(Remove, stranger), 0);
        }
        if rng.one_in(3) {
            assert_eq!(call(Insert(other_tier(rng, tier)), key), 0);
            assert_eq!(call(Insert(tier), key), 10);
            assert_eq!(call(Remove, key), 0);
            assert_eq!(call(Remove, key), 7);
        }
        if rng.one_in(3) {
            let earlier = other_issue(rng, key);
            assert_eq!(call(Insert(random_tier(rng)), earlier), 0);
            assert_eq!(call(Insert(tier), key), 13);
            assert_eq!(call(Remove, key), 7);
            assert_eq!(call(Remove, earlier), 0);
        }
        assert_eq!(call(Insert(8), key), 9);
        assert_eq!(call(Insert(tier), key), 0);
    }
    words
}

/// How many keys the trail of a key has, by the reference; 0 where the set does not have the key.
pub fn trail_length(
    tabulation: &[u16],
    [r, s, station]: Laid,
    members: &[Member],
    key: u32,
) -> usize {
    Fast.trail(tabulation, r, s, station, members, key).map_or(0, |trail| trail.len())
}

/// The trails of the keys of a set, from scratch and over sheets with any old content.
pub fn trails_of(
    rng: &mut Rng,
    beside: &mut Beside,
    tabulation: &[u16],
    words: &[u32],
    keys: &[u32],
) -> Vec<Vec<u32>> {
    let mut trail = |key: &u32| {
        let scratch = random_words(rng, scratch_length(words[0], words[1]));
        let sheet = random_words(rng, 2 * words[0] as usize);
        let (answer, trail) = beside.trail(tabulation, words, &scratch, *key, &sheet);
        assert_eq!(answer, 0, "2r words are enough for the trail of {key} in {words:?}");
        trail
    };
    keys.iter().map(&mut trail).collect()
}
