//! The hashes of a key, from the built library, against the program by another hand.

use hashing::hashes;
use pinorange::Refusal;
use reference::hash::{MAX_R, MAX_STATION, TABULATION_LEN};
use reference::key::first_part;
use reference::rng::Rng;
use reference::samples::random_station;

/// What stands in the out-parameters before each call, to see that a refusal leaves it.
const OLD: [u32; 2] = [0xDEAD_BEEF, 0x0BAD_CAFE];

/// Keys at the edges of the bytes of their first parts, and of their own.
#[rustfmt::skip]
const EXTREME: [u32; 16] = [
    10, 19, 2_559, 2_560, 655_359, 655_360, 167_772_159, 167_772_160, 255, 256, 0x00FF_00FF, 0xFF00_FF00, 0x7FFF_FFFF,
    0x8000_0000, 4_294_967_290, u32::MAX,
];

fn random_tabulation(rng: &mut Rng) -> Vec<u16> {
    (0..TABULATION_LEN).map(|_| rng.next_u32() as u16).collect()
}

/// Compares one call with the reference, answer and out-parameters, and the crate's safe call, too; gives the answer.
fn compare(tabulation: &[u16], r: u32, station: u32, key: u32) -> u32 {
    let told = reference::hash::hashes(tabulation, r, station, key).map_err(|refusal| refusal.number());
    let (expected, written) = match told {
        Ok(both) => (0, both),
        Err(number) => (number, OLD),
    };
    let got = hashes(tabulation, r, station, key, OLD);
    assert_eq!(got, (expected, written), "r {r}, station {station}, key {key}");
    let safe = pinorange::hashes(tabulation, r, station, key);
    assert_eq!(safe.map_err(Refusal::number), told, "r {r}, station {station}, key {key}");
    expected
}

/// The names of the three refusals, and what else a till gets of the crate.
#[test]
fn what_the_crate_has_for_a_till() {
    let tabulation = [0; pinorange::TABULATION_LENGTH];
    let lent = |length| pinorange::hashes(&tabulation[..length], 1_024, 255, 10);
    assert_eq!((lent(2_559), lent(2_560)), (Err(Refusal::WrongTabulation), Ok([0, 0])));
    assert_eq!(pinorange::hashes(&tabulation, 1_025, 255, 10), Err(Refusal::WrongShape));
    assert_eq!(pinorange::hashes(&tabulation, 1_024, 255, 9), Err(Refusal::BlankKey));
    assert_eq!((pinorange::MAX_SLOTS, pinorange::MAX_STATION), (MAX_R, MAX_STATION));
    for key in EXTREME {
        assert_eq!(pinorange::first_part(key), first_part(key));
    }
}

#[test]
fn every_r_with_random_tabulations_stations_and_keys() {
    let mut rng = Rng::new(1);
    let extremes = [vec![0; TABULATION_LEN], vec![u16::MAX; TABULATION_LEN]];
    for r in 1..=1_024 {
        let random = random_tabulation(&mut rng);
        for tabulation in extremes.iter().chain([&random]) {
            for key in EXTREME {
                assert_eq!(compare(tabulation, r, random_station(&mut rng), key), 0);
            }
            for _ in 0..50 {
                compare(tabulation, r, random_station(&mut rng), rng.next_u32());
            }
        }
    }
}

/// A tabulation with one entry 1 at a time: the hash is 1 exactly where the first part of the key has that byte there,
/// or its lowest byte and the station come to that entry of the fifth stretch. At station 254 the sum is 255, and at
/// 255 it is 256, which is 0.
#[test]
fn both_tables_every_byte_and_the_station_count() {
    let first_part: u32 = 0x04_03_02_01;
    for (issue, station, turned) in [(0, 0, 1), (1, 7, 8), (5, 254, 255), (9, 255, 0)] {
        let key = 10 * first_part + issue;
        for entry in 0..TABULATION_LEN {
            let mut tabulation = vec![0; TABULATION_LEN];
            tabulation[entry] = 1;
            compare(&tabulation, 1_000, station, key);
            let (answer, both) = hashes(&tabulation, 1_000, station, key, OLD);
            let hit = |table: usize| {
                let start = 1_280 * table;
                let of_byte = (0..4).any(|i| entry == start + 256 * i + i + 1);
                u32::from(of_byte || entry == start + 1_024 + turned)
            };
            assert_eq!((answer, both), (0, [hit(0), hit(1)]), "entry {entry}, station {station}");
        }
    }
}

/// Every lowest byte of a first part at every station, with other bytes of several kinds and any issue, under a
/// tabulation that tells which entry of the fifth stretch was taken: it goes up by one with the byte, from the station
/// on, and from 255 to 0. Neither another byte nor the issue moves it.
#[test]
fn every_lowest_byte_at_every_station() {
    let mut tabulation = vec![0; TABULATION_LEN];
    for (entry, number) in (0..256).zip(0u16..) {
        (tabulation[1_024 + entry], tabulation[2_304 + entry]) = (number, 1_000 - number);
    }
    for station in 0..256 {
        let mut taken = station;
        for byte in 0..256 {
            for (issue, others) in (0..).step_by(2).zip([0x100, 0x0100_0000, 0x00FF_0000, 0x1999_9800, 0x1180_7F00]) {
                let key = 10 * (others | byte) + (issue + byte) % 10;
                let got = hashes(&tabulation, 1_024, station, key, OLD);
                assert_eq!(got, (0, [taken, 1_000 - taken]), "byte {byte}, station {station}, key {key}");
            }
            taken = if taken == 255 { 0 } else { taken + 1 };
        }
    }
}

/// All issues of a first part have the same hashes; the issues of the first parts before and behind it have others,
/// under a tabulation that tells their lowest bytes.
#[test]
fn issues_of_one_first_part() {
    let mut rng = Rng::new(4);
    let mut tabulation = random_tabulation(&mut rng);
    for (byte, entry) in (0..256).zip(0u16..) {
        (tabulation[byte], tabulation[1_280 + byte]) = (entry, 1_000 - entry);
        (tabulation[1_024 + byte], tabulation[2_304 + byte]) = (0, 0);
    }
    for round in 0..2_000 {
        let station = random_station(&mut rng);
        let first_part = 256 * (1 + rng.below(1_677_720) as u32) + 1 + round % 254;
        let [before, own, behind] = [first_part - 1, first_part, first_part + 1].map(|first_part| {
            let of_issue = |issue| hashes(&tabulation, 1_024, station, 10 * first_part + issue, OLD);
            let all: Vec<(u32, [u32; 2])> = (0..10).map(of_issue).collect();
            assert!(all.iter().all(|one| *one == all[0]), "{first_part}: {all:?}");
            all[0]
        });
        assert_eq!([before.0, own.0, behind.0], [0; 3]);
        for table in 0..2 {
            assert!(before.1[table] != own.1[table] && own.1[table] != behind.1[table], "{first_part}");
        }
    }
}

/// The first parts of the largest keys and of the smallest, on the test book with r = 4, by hand.
#[test]
fn the_first_and_the_last_first_part() {
    let tabulation = reference::samples::test_tabulation();
    for (keys, answer, both) in [
        (0..=9, 5, OLD),
        (10..=19, 0, [1, 0]),
        (20..=29, 0, [2, 0]),
        (160..=169, 0, [0, 1]),
        (2_550..=2_559, 0, [3, 3]),
        (4_294_967_280..=4_294_967_289, 0, [0, 1]),
        (4_294_967_290..=u32::MAX, 0, [1, 1]),
    ] {
        for key in keys {
            assert_eq!(hashes(&tabulation, 4, 0, key, OLD), (answer, both), "key {key}");
        }
    }
}

#[test]
fn every_refusal_in_its_order() {
    let mut rng = Rng::new(2);
    let mut seen = [0u32; 6];
    for length in (0..10).chain(2_552..2_568).chain([1_024, 1_280, 2_048, 4_096, 5_120]) {
        let tabulation: Vec<u16> = (0..length).map(|_| rng.next_u32() as u16).collect();
        for r in [0, 1, 2, 1_023, 1_024, 1_025, 65_536, u32::MAX] {
            for station in [0, 1, 255, 256, 257, 511, 65_536, 1 << 31, u32::MAX] {
                for key in (0..=11).chain([99, 170, u32::MAX]) {
                    let answer = compare(&tabulation, r, station, key);
                    let expected = match key {
                        _ if length != 2_560 => 1,
                        _ if !(1..=1_024).contains(&r) || station > 255 => 2,
                        0..=9 => 5,
                        _ => 0,
                    };
                    assert_eq!(answer, expected, "{length} entries, r {r}, station {station}, key {key}");
                    seen[answer as usize] += 1;
                }
            }
        }
    }
    eprintln!("answers 0 to 5: {seen:?}");
    for number in [0, 1, 2, 5] {
        assert!(seen[number] > 0, "answer {number} was never reached");
    }
}

#[test]
fn the_tabulation_may_stand_anywhere() {
    // Lent from the middle of a larger piece of memory, so that a read outside its ends would show in the sum.
    let mut rng = Rng::new(3);
    for offset in 1..40 {
        let around: Vec<u16> = (0..TABULATION_LEN + 80).map(|_| rng.next_u32() as u16).collect();
        let tabulation = &around[offset..offset + TABULATION_LEN];
        for key in EXTREME {
            for station in [0, 1, 128, 254, 255] {
                assert_eq!(compare(tabulation, 1_009, station, key), 0);
            }
        }
    }
}
