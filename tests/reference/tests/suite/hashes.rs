//! The hashes of a key and the house tabulation: its rule over the whole table, its first entries,
//! and that all its entries differ.

use std::collections::BTreeSet;

use reference::answer::{number, Refusal};
use reference::hash::hashes;
use reference::house::HOUSE;
use reference::rng::Rng;
use reference::samples::{random_station, random_tabulation, test_tabulation};

use crate::common::Tally;

#[test]
fn house_table_follows_its_rule() {
    assert_eq!(HOUSE.len(), 2_560);
    assert_eq!(HOUSE[..4], [13_849, 39_022, 49_020, 43_843]);
    // The rule once more by differences: the squares of i and i + 1 are 2i + 1 apart.
    let mut entry = 13_849u64;
    for (i, &shipped) in HOUSE.iter().enumerate() {
        assert_eq!(u64::from(shipped), entry, "entry {i}");
        entry = (entry + 25_173 * (2 * i as u64 + 1)) % 65_521;
    }
    let different: BTreeSet<u16> = HOUSE.iter().copied().collect();
    assert_eq!(different.len(), 2_560, "all entries differ");
}

/// Document 01's cards multiplied by ten, and their other issues; and the edge that is not.
#[test]
fn test_tabulation_gives_the_places_the_paper_names() {
    for card in 1..256 {
        for issue in 0..10 {
            let places = hashes(&test_tabulation(), 4, 0, 10 * card + issue);
            assert_eq!(places, Ok([card % 4, card / 16 % 4]), "{card}, issue {issue}");
        }
    }
    assert_eq!(hashes(&test_tabulation(), 4, 0, u32::MAX), Ok([1, 1]));
    assert_eq!(hashes(&test_tabulation(), 1_024, 0, u32::MAX), Ok([153, 9]));
}

#[test]
fn hashes_sum_five_entries_of_their_half() {
    let mut rng = Rng::new(11);
    let mut tally = Tally::default();
    for _ in 0..2_000 {
        let tabulation = random_tabulation(&mut rng, 65_536);
        // The last digit decides over nothing. The largest first part has no issue above 5.
        let first = 1 + rng.below(429_496_728) as u32;
        let key = 10 * first + rng.below(10) as u32;
        let (r, station) = (1 + rng.below(1_024) as u32, random_station(&mut rng));
        // By division instead of shifts, and as a sum over 64 bits.
        let b0 = first % 256;
        let moved = if b0 + station < 256 { b0 + station } else { b0 + station - 256 };
        tally.add(if moved < b0 { "wraps" } else { "no wrap" });
        let bytes = [b0, first / 256 % 256, first / 65_536 % 256, first / 16_777_216, moved];
        let place = |table: u32| {
            let entry = |i: u32| {
                u64::from(tabulation[(1_280 * table + 256 * i + bytes[i as usize]) as usize])
            };
            ((0..5).map(entry).sum::<u64>() % u64::from(r)) as u32
        };
        assert_eq!(hashes(&tabulation, r, station, key), Ok([place(0), place(1)]));
    }
    tally.report("hashes", &["wraps", "no wrap"]);
}

#[test]
fn hashes_of_the_largest_entries_station_and_key() {
    let tabulation = vec![u16::MAX; 2_560];
    let place = (5 * 65_535) % 1_023;
    assert_eq!(hashes(&tabulation, 1_023, 255, u32::MAX), Ok([place, place]));
    assert_eq!(hashes(&tabulation, 1, 255, u32::MAX), Ok([0, 0]));
}

/// Any input with each number now and then at its limit or over it.
#[test]
fn hashes_answer_any_input() {
    let mut rng = Rng::new(12);
    let mut tally = Tally::default();
    let longest = random_tabulation(&mut rng, 65_536).repeat(2);
    for _ in 0..4_000 {
        let len = if rng.one_in(4) { rng.pick(&[0, 2_048, 2_559, 2_561, 5_120]) } else { 2_560 };
        let r = rng.pick(&[0, 1, 2, 7, 1_023, 1_024, 1_025, u32::MAX]);
        let station = rng.pick(&[0, 1, 100, 254, 255, 256, 511, u32::MAX]);
        let some_key = rng.clone().next_u32().max(10);
        let key = rng.pick(&[0, 1, 5, 9, 10, 11, 99, 2_559, 2_560, some_key, u32::MAX]);
        let answer = hashes(&longest[..len], r, station, key);
        let expected = match () {
            _ if len != 2_560 => Err(Refusal::WrongTabulation),
            _ if r == 0 || r > 1_024 || station > 255 => Err(Refusal::WrongShape),
            _ if key < 10 => Err(Refusal::BlankKey),
            _ => Ok(()),
        };
        assert_eq!(answer.map(|_| ()), expected, "{len}, {r}, {station}, {key}");
        assert!(answer.map_or(true, |places| places.iter().all(|&place| place < r)));
        tally.add(format!("hashes {}", number(expected)));
    }
    tally.report("any input", &["hashes 0", "hashes 1", "hashes 2", "hashes 5"]);
}

#[test]
fn hashes_refuse_in_order() {
    let right = test_tabulation();
    let long = vec![0; 2_561];
    for (tabulation, r, station, key, refusal) in [
        (&right[..2_559], 0, 0, 0, Refusal::WrongTabulation),
        (&long[..], 1_025, 0, 0, Refusal::WrongTabulation),
        (&[][..], 4, 0, 10, Refusal::WrongTabulation),
        (&right[..2_559], 4, 256, 10, Refusal::WrongTabulation),
        (&long[..], 0, u32::MAX, 0, Refusal::WrongTabulation),
        // The length without the station.
        (&right[..2_048], 4, 0, 10, Refusal::WrongTabulation),
        (&right[..], 0, 0, 0, Refusal::WrongShape),
        (&right[..], 1_025, 0, 0, Refusal::WrongShape),
        (&right[..], u32::MAX, 0, 10, Refusal::WrongShape),
        (&right[..], 4, 256, 10, Refusal::WrongShape),
        (&right[..], 4, 256, 0, Refusal::WrongShape),
        (&right[..], 4, 512, 10, Refusal::WrongShape),
        (&right[..], 4, 1 << 31, 10, Refusal::WrongShape),
        (&right[..], 1_024, u32::MAX, 10, Refusal::WrongShape),
        (&right[..], 0, 256, 0, Refusal::WrongShape),
        (&right[..], 1, 0, 0, Refusal::BlankKey),
        (&right[..], 1_024, 0, 0, Refusal::BlankKey),
        (&right[..], 1_024, 255, 0, Refusal::BlankKey),
        (&right[..2_559], 4, 0, 9, Refusal::WrongTabulation),
        (&right[..], 0, 0, 9, Refusal::WrongShape),
        (&right[..], 4, 256, 1, Refusal::WrongShape),
        (&right[..], 4, 0, 1, Refusal::BlankKey),
        (&right[..], 4, 0, 5, Refusal::BlankKey),
        (&right[..], 4, 0, 9, Refusal::BlankKey),
        (&right[..], 4, 255, 9, Refusal::BlankKey),
    ] {
        assert_eq!(hashes(tabulation, r, station, key), Err(refusal), "{r}, {station}, {key}");
    }
    for (r, station) in [(1, 0), (1, 255), (1_024, 0), (1_024, 255)] {
        assert!(hashes(&right, r, station, 10).is_ok());
    }
}
