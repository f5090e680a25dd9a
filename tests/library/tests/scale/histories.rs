//! Two histories of one set, with strangers that come and go, keys that go and come again and refused calls between
//! them, leave the same words, and both tell the same trails and give the same sales.

use library::beside::{Beside, Kind};
use reference::rng::Rng;
use reference::samples::random_tiers;

use crate::common::{fitting_set, image_of, random_prices, strangers_to, trails_of, way_to};

/// Two random histories of one set leave the same words, and those are the image of the set. Both tell the same trails,
/// and give the same sales.
#[test]
fn two_histories_of_one_set() {
    let mut rng = Rng::new(44);
    let mut beside = Beside::new();
    let (mut sets, mut stashed) = (0, 0);
    for round in 0..3_000 {
        let Some((laid, tabulation, keys)) = fitting_set(&mut rng, round) else { continue };
        let members = random_tiers(&mut rng, &keys);
        let canonical = image_of(&tabulation, laid, &members).expect("they fit with any tiers");
        let strangers = strangers_to(&mut rng, &keys);
        let one = way_to(&mut rng, &tabulation, laid, &members, &strangers);
        let two = way_to(&mut rng, &tabulation, laid, &members, &strangers);
        assert_eq!(one, two, "two histories of {members:?}");
        assert_eq!(one, canonical, "not the image of {members:?}");
        let mut trails =
            |words: &[u32]| trails_of(&mut rng, &mut beside, &tabulation, words, &keys);
        assert_eq!(trails(&one), trails(&two), "trails after two histories of {members:?}");
        let (base, steps) = random_prices(&mut rng);
        let mut sale = |words: &[u32], key: u32| beside.open(&tabulation, words, key, base, &steps);
        for key in keys.iter().chain(&strangers) {
            assert_eq!(sale(&one, *key), sale(&two, *key), "a sale of {key}, {members:?}");
        }
        sets += 1;
        stashed += canonical[3];
    }
    let [trails, sales] = [Kind::Trail, Kind::Open].map(|kind| beside.given(kind, 0));
    println!("{sets} sets by two histories each, {stashed} keys stashed");
    println!("{trails} trails, {sales} sales");
    assert!(sets > 1_000 && stashed > 500 && trails > 10_000 && sales > 5_000);
}
