//! Stations: the hashes at each of them, one set at two of them, and another number in the word that has the station.
//! Numbers above 255 are no stations.

use std::collections::{BTreeMap, BTreeSet};

use library::beside::{Beside, Kind};
use library::Change::{Insert, Remove};
use library::{change, fresh, scratch_length, Counters, HEADER_LENGTH};
use reference::fast::image;
use reference::hash::{MAX_STATION, TABULATION_LEN};
use reference::key::is_blank;
use reference::rng::Rng;
use reference::samples::{random_keys, random_station, random_tabulation, random_tiers};

use crate::common::{
    as_check, copies, fitting_set, image_of, narrow_tabulation, random_words, sale_at,
    strangers_to, way_to, BASE, STEPS, WRONG_STATIONS,
};

/// The hashes of every lowest byte of a first part at every station, with any other bytes and any issue, at any r and
/// at the largest, where no entry is lost in the remainder.
#[test]
fn hashes_at_every_station() {
    let mut rng = Rng::new(55);
    let mut beside = Beside::new();
    let distinct: Vec<u16> = (0..TABULATION_LEN as u16).map(|entry| entry * 7).collect();
    for station in 0..=MAX_STATION {
        let random = random_tabulation(&mut rng, 65_536);
        for byte in 0..256 {
            let first_part = 256 * (1 + rng.below(1_677_720) as u32) + byte;
            let key = 10 * first_part + rng.below(10) as u32;
            let r = 1 + rng.below(1_024) as u32;
            assert_eq!(beside.hashes(&random, r, station, key), 0);
            assert_eq!(beside.hashes(&distinct, 1_024, station, key), 0);
        }
        for (wrong, key) in [(station + 256, 10), (rng.pick(&WRONG_STATIONS), station % 10)] {
            assert_eq!(beside.hashes(&random, 4, wrong, key), 2);
            for length in [2_048, 2_559, 2_561, 5_120] {
                let lent: Vec<u16> = random.iter().copied().cycle().take(length).collect();
                assert_eq!(beside.hashes(&lent, 4, wrong, key), 1, "{length} entries");
                assert_eq!(beside.hashes(&lent, 4, station, key), 1, "{length} entries");
            }
        }
        for key in 0..10 {
            assert_eq!(beside.hashes(&random, 4, station, key), 5);
        }
    }
    beside.report(&[Kind::Hashes]);
}

/// One set at two stations never leaves the same words: each has the image at its own station, by a history of its own.
/// They agree in r, s and the number of keys, and differ in word 4; mostly the keys sit elsewhere, too, and some sets
/// fit at one station alone. With the other's station in word 4 the words are an image exactly where the keys sit
/// alike.
#[test]
fn one_set_at_two_stations() {
    let mut rng = Rng::new(53);
    let mut beside = Beside::new();
    let (mut alike, mut elsewhere, mut full) = (0, 0, 0);
    for round in 0..3_000 {
        let Some((laid, tabulation, keys)) = fitting_set(&mut rng, round) else { continue };
        let [r, s, station] = laid;
        let other = (station + 1 + rng.below(255) as u32) % 256;
        let members = random_tiers(&mut rng, &keys);
        let strangers = strangers_to(&mut rng, &keys);
        let here = way_to(&mut rng, &tabulation, laid, &members, &strangers);
        let Some(canonical) = image_of(&tabulation, [r, s, other], &members) else {
            let mut words = fresh(r, s, other);
            let answers = BTreeSet::from_iter(
                members
                    .iter()
                    .map(|(key, tier)| change(Insert(*tier), &tabulation, &mut words, *key)),
            );
            assert!(answers.contains(&8), "{members:?} fit at station {other}");
            full += 1;
            continue;
        };
        let there = way_to(&mut rng, &tabulation, [r, s, other], &members, &strangers);
        assert_eq!(there, canonical, "not the image of {members:?} at station {other}");
        assert_eq!([here[4], there[4]], [station, other]);
        assert_eq!(here[..3], there[..3], "{members:?} at the stations {station} and {other}");
        let is_alike = here[HEADER_LENGTH..] == there[HEADER_LENGTH..];
        let mut moved = here.clone();
        moved[4] = other;
        let scratch = random_words(&mut rng, scratch_length(r, s));
        let answer = beside.check(&tabulation, &moved, &scratch);
        assert_eq!(answer, if is_alike { 0 } else { 4 }, "{here:?} with station {other}");
        (alike, elsewhere) = (alike + u32::from(is_alike), elsewhere + u32::from(!is_alike));
    }
    println!(
        "two stations: {alike} sets sit alike, {elsewhere} elsewhere, {full} fit at one alone"
    );
    assert!(alike > 300 && elsewhere > 1_000 && full > 30);
}

/// Check, which must answer so, and the stash view: 2 comes before a short scratch and behind a wrong tabulation, and
/// the view, which asks for no slot, answers nothing else. A salvage is done, or nothing of the words counts at their
/// station.
fn station_alone(
    beside: &mut Beside,
    tabulation: &[u16],
    words: &[u32],
    scratch: &[u32],
    answer: u32,
) {
    let value = words[4];
    assert_eq!(beside.check(tabulation, words, scratch), answer, "{value}: {words:?}");
    assert_eq!(beside.check(&tabulation[1..], words, &scratch[1..]), 1);
    let short = beside.check(tabulation, words, &scratch[1..]);
    assert_eq!(short, if answer == 2 { 2 } else { 3 }, "{value}");
    assert_eq!(beside.stash(words), if answer == 2 { 2 } else { 0 }, "{value}");
    let mut target = vec![9; words.len()];
    let (salvaged, lost) = beside.salvage(tabulation, words, &mut target, scratch);
    match answer {
        2 => assert_eq!(salvaged, 2, "{value}"),
        0 => assert_eq!((salvaged, lost, &target[..]), (0, Some(0), words), "{value}"),
        _ => assert!(matches!(salvaged, 0 | 15), "{salvaged}, {value}"),
    }
    assert!(salvaged != 0 || target[4] == value, "{value}");
}

/// A lookup and a sale of a key on words of which check answers this: both look into the slots of the station that
/// stands there. Gives the answer of the sale.
fn found_there(
    beside: &mut Beside,
    tabulation: &[u16],
    words: &[u32],
    key: u32,
    checked: u32,
) -> u32 {
    let found = beside.lookup(tabulation, words, key);
    let opened = beside.open(tabulation, words, key, BASE, &STEPS);
    let tier = match checked {
        2 => Err(2),
        _ if is_blank(key) => Err(5),
        _ => Ok(copies(tabulation, words, key).first().copied()),
    };
    assert_eq!(found, tier.map_or_else(|n| (n, None), |tier| (0, tier)), "{key}");
    assert_eq!(opened, tier.map_or_else(|n| (n, None), |tier| sale_at(key, tier)));
    opened.0
}

/// The station word of many small images changed, as every call sees it: above 255 each answers 2, before any other
/// cause but the tabulation; else the words are the image at that station of the same set where its keys sit alike, and
/// of no set (4) where they do not. A lookup looks into the slots of the new station, and so does a sale; the view asks
/// for no slot.
#[test]
fn damages_of_the_station() {
    let mut rng = Rng::new(54);
    let mut beside = Beside::new();
    let mut counters = Counters::default();
    let mut times: BTreeMap<(u32, u32), u32> = BTreeMap::new();
    for _ in 0..400 {
        let (r, s) = (1 + rng.below(4) as u32, rng.below(4) as u32);
        let tabulation = narrow_tabulation(&mut rng);
        let count = 1 + rng.below(7);
        let keys = random_keys(&mut rng, count);
        let members = random_tiers(&mut rng, &keys);
        let station = random_station(&mut rng);
        let Some(sound) = image(&tabulation, r, s, station, &members) else { continue };
        let scratch = vec![5; scratch_length(r, s)];
        let near = [station ^ 1, (station + 1) % 256, station ^ 128, station + 256, 0, 255];
        for value in near.into_iter().chain([random_station(&mut rng)]).chain(WRONG_STATIONS) {
            let mut words = sound.clone();
            words[4] = value;
            let answer = match image(&tabulation, r, s, value, &members) {
                _ if value > MAX_STATION => 2,
                Some(image) if image == words => 0,
                _ => 4,
            };
            station_alone(&mut beside, &tabulation, &words, &scratch, answer);
            for key in keys.iter().copied().chain([0, 9]) {
                for way in [Insert(0), Insert(8), Remove] {
                    let mut words = words.clone();
                    let got =
                        beside.change(way, &tabulation, &mut words, &scratch, &mut counters, key);
                    assert_eq!(as_check(got), answer, "{way:?} of {key}, {value}");
                    assert_eq!(words[4], value, "{way:?} of {key}");
                }
                let sheet = random_words(&mut rng, 2 * r as usize);
                let (traced, _) = beside.trail(&tabulation, &words, &scratch, key, &sheet);
                assert_eq!(as_check(traced), answer, "trail of {key}, {value}");
                let opened = found_there(&mut beside, &tabulation, &words, key, answer);
                if !is_blank(key) {
                    *times.entry((answer, opened)).or_default() += 1;
                }
            }
        }
    }
    println!("changed stations, by the answers of check and of a sale: {times:?}");
    assert_eq!(Vec::from_iter(times.keys().copied()), [(0, 0), (2, 2), (4, 0), (4, 7)]);
    assert!(times.values().all(|times| *times > 300));
    for kind in Kind::ON_WORDS {
        assert!(beside.refused_stations(kind) > 2_000, "{kind:?} was seldom asked");
    }
}
