//! Damage of single words, tier words and the station included: check finds it, unless the damaged
//! words are the image of another set or of the same set at another station. Which words are images
//! is told by a table of the images of all sets over a few keys and tiers at two stations.

use std::collections::BTreeMap;

use reference::answer::Refusal;
use reference::calls::check;
use reference::image::{Engine, Slow};
use reference::rng::Rng;
use reference::samples::{chosen_tabulation, random_station};
use reference::set::Member;

use crate::common::{all_sets, engines, hand_words, tier_words, Tally};

/// The answer of check, the same from both engines.
fn checked(tabulation: &[u16], words: &[u32]) -> Result<(), Refusal> {
    let mut scratch = vec![1; 12 * 1_024 + 8 * 64];
    let [slow, fast] = engines().map(|(_, engine)| check(&engine, tabulation, words, &mut scratch));
    assert_eq!(slow, fast);
    slow
}

/// The keys of the small boards: first parts 1 to 5, two of them with two issues.
const KEYS: [u32; 7] = [10, 20, 25, 30, 40, 49, 50];

/// A small board: its tabulation and the images of all sets of these keys with tiers from 0 to 2,
/// at two stations.
struct Images {
    tabulation: Vec<u16>,
    stations: [u32; 2],
    sets: BTreeMap<Vec<u32>, Vec<Member>>,
}

impl Images {
    fn new(rng: &mut Rng) -> Images {
        let (r, s) = (1 + rng.below(2) as u32, rng.below(3) as u32);
        let ends: Vec<[u16; 2]> =
            (0..6).map(|_| [rng.below(2) as u16, rng.below(2) as u16]).collect();
        let mut tabulation = chosen_tabulation(&ends);
        // Some ones in the fifth stretches, so that another station moves some keys.
        for at in (1_024..1_280).chain(2_304..2_560) {
            tabulation[at] = rng.one_in(4).into();
        }
        let station = random_station(rng);
        let stations = [station, (station + 1 + rng.below(255) as u32) % 256];
        let sets = all_sets(&KEYS, &[0, 1, 2]);
        let mut images = BTreeMap::new();
        for station in stations {
            for set in &sets {
                let image = Slow.image(&tabulation, r, s, station, set);
                images.extend(image.map(|words| (words, set.clone())));
            }
        }
        Images { tabulation, stations, sets: images }
    }

    /// The images of the empty set and some others.
    fn some(&self, rng: &mut Rng) -> Vec<(&Vec<u32>, &Vec<Member>)> {
        self.sets.iter().filter(|(_, set)| set.is_empty() || rng.one_in(96)).collect()
    }
}

/// What kind of word this is, for the tally.
fn kind(words: &[u32], at: usize) -> &'static str {
    match tier_words(words).into_iter().find(|&(tier_at, _)| tier_at == at) {
        Some((_, key_at)) if words[key_at] == 0 => "tier beside no key",
        Some(_) => "tier beside a key",
        None if at == 4 => "station",
        None => "other word",
    }
}

#[test]
fn a_damaged_word_is_found_unless_the_words_are_another_image() {
    let mut rng = Rng::new(71);
    let mut tally = Tally::default();
    for _ in 0..16 {
        let images = Images::new(&mut rng);
        for (words, set) in images.some(&mut rng) {
            assert_eq!(checked(&images.tabulation, words), Ok(()));
            for at in 2..words.len() {
                // Values of the few keys, tiers and stations, blank keys, tiers above 7 and
                // stations above 255, so that the table of images tells the answer.
                let kind = kind(words, at);
                let [station, other_station] = images.stations;
                let values = match kind {
                    "other word" => [&KEYS[..], &[0, 1, 2, 3, 5, 9]].concat(),
                    "station" => {
                        vec![station, other_station, 256, 256 + station, 1 << 31, u32::MAX]
                    }
                    _ => vec![0, 1, 2, 8, 9, u32::MAX],
                };
                for value in values.into_iter().filter(|&value| value != words[at]) {
                    let mut damaged = words.clone();
                    damaged[at] = value;
                    let other = images.sets.get(&damaged);
                    let is_same_set = other == Some(set);
                    assert_eq!(is_same_set, kind == "station" && other.is_some());
                    let wrong_station = kind == "station" && value > 255;
                    let refusal =
                        if wrong_station { Refusal::WrongShape } else { Refusal::NotCanonical };
                    let expected = other.map(|_| ()).ok_or(refusal);
                    assert_eq!(checked(&images.tabulation, &damaged), expected, "{damaged:?}");
                    let outcome = match expected {
                        Ok(()) => "another image",
                        Err(Refusal::WrongShape) => "wrong shape",
                        Err(_) => "found",
                    };
                    tally.add(format!("{kind}: {outcome}"));
                    assert!(kind != "tier beside no key" || other.is_none());
                }
            }
            tally.add("images");
        }
        tally.add_many("table of images", images.sets.len());
    }
    let wanted = [
        "images",
        "station: wrong shape",
        "station: found",
        "station: another image",
        "other word: found",
        "other word: another image",
        "tier beside a key: found",
        "tier beside a key: another image",
        "tier beside no key: found",
    ];
    tally.report("damaged words", &wanted);
}

#[test]
fn any_value_in_a_word_is_found_unless_the_words_are_another_image() {
    let mut rng = Rng::new(72);
    let mut tally = Tally::default();
    for _ in 0..16 {
        let images = Images::new(&mut rng);
        for (words, set) in images.some(&mut rng) {
            for at in 2..words.len() {
                let value = words[at]
                    ^ match rng.below(4) {
                        0 => rng.next_u32().max(1),
                        1 => 1 << rng.below(32),
                        // Often another issue.
                        _ => 1 + rng.below(15) as u32,
                    };
                let mut damaged = words.clone();
                damaged[at] = value;
                let answer = checked(&images.tabulation, &damaged);
                assert_eq!(answer, expected_of(&images.tabulation, words, set, at, value));
                let outcome = match answer {
                    Ok(()) => "another image",
                    Err(Refusal::WrongShape) => "wrong shape",
                    Err(_) => "found",
                };
                tally.add(format!("{}: {outcome}", kind(words, at)));
            }
        }
    }
    let wanted = [
        "station: wrong shape",
        "station: found",
        "station: another image",
        "other word: found",
        "other word: another image",
        "tier beside a key: found",
        "tier beside a key: another image",
        "tier beside no key: found",
    ];
    tally.report("damaged words, any value", &wanted);
}

/// What check should answer with this value in one word of the image of a set.
///
/// Only a stash key, or the tier of a key that stands in one place only, is told by a single word;
/// only with such a word changed can the words be the image of another set. With another station
/// they can only be the image of the same set.
fn expected_of(
    tabulation: &[u16],
    words: &[u32],
    set: &[Member],
    at: usize,
    value: u32,
) -> Result<(), Refusal> {
    let stash_at = 5 + 6 * words[0] as usize;
    let key_words: Vec<usize> = tier_words(words).into_iter().map(|(_, key_at)| key_at).collect();
    let beside = tier_words(words).into_iter().find(|&(tier_at, _)| tier_at == at);
    let mut other = set.to_vec();
    let mut damaged = words.to_vec();
    damaged[at] = value;
    let (r, s, station) = (words[0], words[1], words[4]);
    if at == 4 && value > 255 {
        return Err(Refusal::WrongShape);
    }
    if at == 4 {
        let image = Slow.image(tabulation, r, s, value, set);
        return if image == Some(damaged) { Ok(()) } else { Err(Refusal::NotCanonical) };
    }
    if let Some((_, key_at)) = beside {
        let key = words[key_at];
        let copies = key_words.iter().filter(|&&key_at| words[key_at] == key).count();
        let is_set = key != 0 && copies == 1 && value <= 7;
        let found = other.iter_mut().filter(|member| member.0 == key);
        found.for_each(|member| member.1 = value);
        if is_set {
            let image = Slow.image(tabulation, r, s, station, &other);
            assert_eq!(image, Some(damaged), "tiers decide over no place");
        }
        return if is_set { Ok(()) } else { Err(Refusal::NotCanonical) };
    }
    if !key_words.contains(&at) || at < stash_at || words[at] == 0 {
        return Err(Refusal::NotCanonical);
    }
    let found = other.iter_mut().filter(|member| member.0 == words[at]);
    found.for_each(|member| member.0 = value);
    let image = Slow.image(tabulation, r, s, station, &other);
    if image == Some(damaged) {
        Ok(())
    } else {
        Err(Refusal::NotCanonical)
    }
}

#[test]
fn damage_of_r_or_s_alone_is_a_wrong_shape() {
    let mut rng = Rng::new(73);
    let mut tally = Tally::default();
    for _ in 0..16 {
        let images = Images::new(&mut rng);
        for (words, _) in images.some(&mut rng) {
            for at in 0..2 {
                // A length fixes r once s is given, and s once r is: no other value keeps the
                // shape. The last would, if 5 + 6r + 2s wrapped at 32 bits.
                let far = [1_024, 1_025, u32::MAX, words[at] ^ 1 << 30, words[at] ^ 1 << 31];
                for value in (0..70).chain(far).filter(|&value| value != words[at]) {
                    let mut damaged = words.clone();
                    damaged[at] = value;
                    assert_eq!(
                        checked(&images.tabulation, &damaged),
                        Err(Refusal::WrongShape),
                        "{damaged:?}"
                    );
                    tally.add("found");
                }
            }
        }
    }
    tally.report("damaged r or s", &["found"]);
}

/// Damage of words 0 and 1 together can keep the length; then the words are judged as any others.
#[test]
fn damage_of_r_and_s_together_can_keep_the_shape() {
    let tabulation = chosen_tabulation(&[]);
    let empty = hand_words(2, 1, 9, 0, &[], &[]);
    let mut turned = empty.clone();
    turned[..2].copy_from_slice(&[1, 4]);
    assert_eq!(
        checked(&tabulation, &turned),
        Ok(()),
        "the image of the empty set of another shape"
    );
    for tier in [0, 2, 7] {
        let mut turned = Slow.image(&tabulation, 2, 1, 9, &[(30, tier)]).unwrap();
        turned[..2].copy_from_slice(&[1, 4]);
        assert_eq!(checked(&tabulation, &turned), Err(Refusal::NotCanonical));
    }
}
