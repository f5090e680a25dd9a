//! Request Five, stations: the hashes by hand, over all lowest bytes and stations, and against
//! document 01's; boards at several stations by hand; that every call takes the station of the
//! words; and stations above 255 everywhere.

use std::collections::BTreeSet;

use reference::answer::{number, Found, Refusal};
use reference::calls::{self, check, init, lookup, stash, stash_answer};
use reference::counters::Counters;
use reference::fast;
use reference::hash::{hashes, HALF_LEN, MAX_STATION, TABULATION_LEN};
use reference::house::HOUSE;
use reference::image::{Engine, Slow};
use reference::layout::HEADER_LEN;
use reference::model::{Call, Model, Reply};
use reference::rng::Rng;
use reference::sale::{open, Sale};
use reference::samples::{
    random_keys, random_station, random_tabulation, random_tiers, test_tabulation,
};
use reference::set::Member;

use crate::common::{
    engines, hand_words, many_keys, permutations, subset, HandEntry, Harness, Tally,
};

/// Stations that no list has.
const WRONG_STATIONS: [u32; 8] = [256, 257, 300, 511, 512, 65_536, 1 << 31, u32::MAX];

#[test]
fn lengths_and_limits_are_the_requests() {
    assert_eq!((TABULATION_LEN, HALF_LEN), (2_560, 1_280));
    assert_eq!((HEADER_LEN, MAX_STATION), (5, 255));
    // The house table by its rule at both ends of each half and of each fifth stretch.
    for i in [0, 1_023, 1_024, 1_279, 1_280, 2_047, 2_048, 2_303, 2_304, 2_559usize] {
        assert_eq!(usize::from(HOUSE[i]), (25_173 * i * i + 13_849) % 65_521, "entry {i}");
    }
}

#[test]
fn hashes_at_stations_by_hand() {
    // The test tabulation, and its values once more in the fifth stretches: v in table 0's, and
    // v/16 rounded down in table 1's.
    let mut tabulation = test_tabulation();
    for v in 0..256 {
        tabulation[1_024 + v] = v as u16;
        tabulation[2_304 + v] = v as u16 / 16;
    }
    for (first, station, places) in [
        (1, 0, [1 + 1, 0]),
        (1, 15, [1 + 16, 1]),
        (1, 254, [1 + 255, 15]),
        (1, 255, [1, 0]),
        (17, 0, [17 + 17, 1 + 1]),
        (17, 15, [17 + 32, 1 + 2]),
        (17, 238, [17 + 255, 1 + 15]),
        (17, 239, [17, 1]),
        (17, 255, [17 + 16, 1 + 1]),
        (255, 0, [255 + 255, 15 + 15]),
        (255, 1, [255, 15]),
        (255, 255, [255 + 254, 15 + 15]),
        // The lowest byte alone is added to, and nothing is carried to the others.
        (256, 0, [0, 0]),
        (256, 255, [255, 15]),
        (511, 1, [255, 15]),
        (65_281, 255, [1, 0]),
        // The bytes of 429,496,575 and 429,496,576 are 255 and 0 (lowest), 152 and 153, 153, 25.
        (429_496_575, 1, [255, 15]),
        (429_496_575, 17, [255 + 16, 15 + 1]),
        (429_496_576, 7, [7, 0]),
    ] {
        for issue in 0..10 {
            let key = 10 * first + issue;
            assert_eq!(hashes(&tabulation, 1_024, station, key), Ok(places), "{key}, {station}");
            let modulo_4 = places.map(|place| place % 4);
            assert_eq!(hashes(&tabulation, 4, station, key), Ok(modulo_4), "{key}, {station}");
        }
    }
    // The largest first part, 429,496,729, has the lowest byte 153.
    for key in u32::MAX - 5..=u32::MAX {
        assert_eq!(hashes(&tabulation, 1_024, 0, key), Ok([153 + 153, 9 + 9]), "{key}");
        assert_eq!(hashes(&tabulation, 1_024, 102, key), Ok([153 + 255, 9 + 15]), "{key}");
        assert_eq!(hashes(&tabulation, 1_024, 103, key), Ok([153, 9]), "{key}");
    }
}

/// A tabulation of zeros but for the fifth stretches, which tell their entry: v in table 0's, and
/// 255 - v in table 1's.
fn telling_tabulation() -> Vec<u16> {
    let mut tabulation = vec![0; 2_560];
    for v in 0..256 {
        tabulation[1_024 + v] = v as u16;
        tabulation[2_304 + v] = 255 - v as u16;
    }
    tabulation
}

/// All lowest bytes at all stations, whatever the other bytes are.
#[test]
fn the_fifth_entry_is_at_the_lowest_byte_plus_the_station_modulo_256() {
    let tabulation = telling_tabulation();
    for station in 0..256 {
        let mut at = station;
        for b0 in 0..256 {
            for others in [0x100, 0x0100_0000, 0x00ff_0000, 0x1999_9800, 0x1180_7f00u32] {
                let key = 10 * (others | b0) + station % 10;
                let place = hashes(&tabulation, 1_024, station, key);
                assert_eq!(place, Ok([at, 255 - at]), "{b0}, {station}");
            }
            at = if at == 255 { 0 } else { at + 1 };
        }
        assert_eq!(at, station, "round and back");
    }
}

/// The same in the words and for both lookups: a lone key sits in both its slots.
#[test]
fn a_lone_key_sits_where_its_station_says() {
    let tabulation = telling_tabulation();
    for (_, engine) in engines() {
        for key in [10, 29, 170, 1_281, 2_549, 2_550, 2_559, 2_560, 5_115, u32::MAX - 6, u32::MAX] {
            for station in 0..256 {
                let at = ((key / 10 % 256 + station) % 256) as usize;
                let entries = [(0, at, key, key, 3), (1, 255 - at, key, key, 3)];
                let words = hand_words(256, 0, station, 1, &entries, &[]);
                let image = engine.image(&tabulation, 256, 0, station, &[(key, 3)]);
                assert_eq!(image.as_ref(), Some(&words), "{key}, {station}");
                assert_eq!(lookup(&tabulation, &words, key), Ok(Found::Listed(3)));
                assert_eq!(fast::lookup(&tabulation, &words, key), Ok(Found::Listed(3)));
            }
        }
    }
}

/// Document 01: "Its place in rack k is the sum over i = 0 to 3 of book entry 1,024k + 256i + bi,
/// taken modulo r." With request Six its cards are our first parts.
fn hashes_of_document_01(book: &[u16], r: u32, card: u32) -> [u32; 2] {
    assert_eq!(book.len(), 2_048);
    let mut sums = [0; 2];
    for (k, sum) in sums.iter_mut().enumerate() {
        for i in 0..4 {
            let byte = card >> (8 * i) & 255;
            *sum += u32::from(book[1_024 * k + 256 * i + byte as usize]);
        }
    }
    sums.map(|sum| sum % r)
}

/// The tabulation with a book of 2,048 numbers in it and zeros in its fifth stretches.
fn with_zero_stretches(book: &[u16]) -> Vec<u16> {
    [&book[..1_024], &[0; 256], &book[1_024..], &[0; 256]].concat()
}

#[test]
fn with_zeros_in_the_fifth_stretches_the_hashes_are_document_01s() {
    let mut rng = Rng::new(121);
    for _ in 0..500 {
        let book: Vec<u16> = (0..2_048).map(|_| rng.next_u32() as u16).collect();
        let tabulation = with_zero_stretches(&book);
        let r = 1 + rng.below(1_024) as u32;
        for key in many_keys(&mut rng, 8).into_iter().chain(10..=28) {
            let places = hashes_of_document_01(&book, r, key / 10);
            assert_eq!(hashes(&tabulation, r, 0, key), Ok(places), "{r}, {key}");
            let station = random_station(&mut rng);
            assert_eq!(hashes(&tabulation, r, station, key), Ok(places), "{r}, {station}, {key}");
        }
    }
    // The test book of document 01.
    let book: Vec<u16> = (0..2_048)
        .map(|i| match i {
            0..=255 => i,
            1_024..=1_279 => (i - 1_024) / 16,
            _ => 0,
        })
        .collect();
    assert_eq!(test_tabulation(), with_zero_stretches(&book));
}

/// The tabulation that at station 0 gives the hashes that this one gives at a station.
fn turned(tabulation: &[u16], station: u32) -> Vec<u16> {
    let mut turned = tabulation.to_vec();
    turned[1_024..1_280].rotate_left(station as usize);
    turned[2_304..].rotate_left(station as usize);
    turned
}

#[test]
fn a_station_turns_the_fifth_stretches_and_changes_nothing_else() {
    let mut rng = Rng::new(122);
    let mut tally = Tally::default();
    for _ in 0..1_500 {
        let (r, s) = (1 + rng.below(6) as u32, rng.below(4) as u32);
        let (values, count) = (1 + rng.below(9), rng.below(9));
        let (tabulation, station) = (random_tabulation(&mut rng, values), random_station(&mut rng));
        let turned = turned(&tabulation, station);
        let keys = random_keys(&mut rng, count);
        for &key in &keys {
            let at_station = hashes(&tabulation, r, station, key);
            assert_eq!(at_station, hashes(&turned, r, 0, key), "{r}, {station}, {key}");
        }
        let members = random_tiers(&mut rng, &keys);
        for (name, engine) in engines() {
            let image = engine.image(&tabulation, r, s, station, &members);
            let at_0 = engine.image(&turned, r, s, 0, &members);
            let moved = at_0.map(|mut words| {
                assert_eq!(words[4], 0);
                words[4] = station;
                words
            });
            assert_eq!(image, moved, "{name}, {r}, {s}, {station}, {members:?}");
            for &key in &keys {
                let trail = engine.trail(&tabulation, r, s, station, &members, key);
                assert_eq!(trail, engine.trail(&turned, r, s, 0, &members, key), "{name}");
                tally.add(if trail.is_some() { "trails" } else { "no trail" });
            }
            tally.add(if image.is_some() { "images" } else { "no image" });
        }
    }
    tally.report("stations as turns", &["images", "no image", "trails", "no trail"]);
}

/// The test tabulation with two more entries: entry 16 of table 0's fifth stretch and entry 0 of
/// table 1's are 1. A key at a station sits where the test board has it; but where first part and
/// station come to 16 modulo 256, one slot on in table 0, and where they come to 0, one slot on in
/// table 1.
fn station_tabulation() -> Vec<u16> {
    let mut tabulation = test_tabulation();
    tabulation[1_024 + 16] = 1;
    tabulation[2_304] = 1;
    tabulation
}

/// The tiers of K5's keys on the boards below.
const MEMBERS: [Member; 3] = [(10, 5), (650, 0), (1_290, 7)];

/// K5's keys at a station, r = 4 and s = 1.
struct Board {
    station: u32,
    entries: &'static [HandEntry],
    stash: &'static [Member],
    /// The trails of keys 10, 650 and 1290.
    trails: [&'static [u32]; 3],
    /// What an insert of key 1930 answers.
    answer_1930: u32,
}

/// K5, where all three keys have 0.1 and 1.0.
const K5_ENTRIES: &[HandEntry] = &[(0, 1, 10, 650, 5), (1, 0, 650, 10, 0)];
const K5_STASH: &[Member] = &[(1_290, 7)];

/// At most stations no key comes to 16 or 0. At the others one of the keys leaves the other two,
/// which form a loop of two in 0.1 and 1.0, and all are seated. Key 1930, which comes to 0 at
/// station 63 and to 16 at station 79, has 0.1 and 1.0 at all others; on K5 there is no place for
/// it then.
const BOARDS: [Board; 11] = [
    board_k5(0),
    board_k5(1),
    board_k5(240),
    // 1 + 15 is 16: key 10 has 0.2 and 1.0, and 650 is the smaller on the loop.
    Board {
        station: 15,
        entries: &[(0, 1, 650, 1_290, 0), (0, 2, 10, 650, 5), (1, 0, 1_290, 10, 7)],
        stash: &[],
        trails: [&[10, 1_290, 650], &[650], &[1_290, 650]],
        answer_1930: 0,
    },
    // 1 + 255 is 256: key 10 has 0.1 and 1.1.
    Board {
        station: 255,
        entries: &[(0, 1, 650, 1_290, 0), (1, 0, 1_290, 10, 7), (1, 1, 10, 650, 5)],
        stash: &[],
        trails: [&[10, 650], &[650], &[1_290, 650]],
        answer_1930: 0,
    },
    // 65 + 207 is 272: key 650 has 0.2 and 1.0.
    Board {
        station: 207,
        entries: &[(0, 1, 10, 650, 5), (0, 2, 650, 1_290, 0), (1, 0, 1_290, 10, 7)],
        stash: &[],
        trails: [&[10], &[650, 1_290, 10], &[1_290, 10]],
        answer_1930: 0,
    },
    // 65 + 191 is 256: key 650 has 0.1 and 1.1.
    Board {
        station: 191,
        entries: &[(0, 1, 10, 650, 5), (1, 0, 1_290, 10, 7), (1, 1, 650, 1_290, 0)],
        stash: &[],
        trails: [&[10], &[650, 10], &[1_290, 10]],
        answer_1930: 0,
    },
    // 129 + 143 is 272: key 1290 has 0.2 and 1.0.
    Board {
        station: 143,
        entries: &[(0, 1, 10, 650, 5), (0, 2, 1_290, 10, 7), (1, 0, 650, 1_290, 0)],
        stash: &[],
        trails: [&[10], &[650, 10], &[1_290, 650, 10]],
        answer_1930: 0,
    },
    // 129 + 127 is 256: key 1290 has 0.1 and 1.1.
    Board {
        station: 127,
        entries: &[(0, 1, 10, 650, 5), (1, 0, 650, 1_290, 0), (1, 1, 1_290, 10, 7)],
        stash: &[],
        trails: [&[10], &[650, 10], &[1_290, 10]],
        answer_1930: 0,
    },
    // 193 + 63 is 256: K5 for the three, but key 1930 has 0.1 and 1.1.
    Board { answer_1930: 0, ..board_k5(63) },
    // 193 + 79 is 272: K5 for the three, but key 1930 has 0.2 and 1.0.
    Board { answer_1930: 0, ..board_k5(79) },
];

const fn board_k5(station: u32) -> Board {
    Board {
        station,
        entries: K5_ENTRIES,
        stash: K5_STASH,
        trails: [&[10], &[650, 10], &[]],
        answer_1930: 8,
    }
}

impl Board {
    fn words(&self) -> Vec<u32> {
        hand_words(4, 1, self.station, 3, self.entries, self.stash)
    }
}

#[test]
fn boards_at_stations_by_hand() {
    let tabulation = station_tabulation();
    for (name, engine) in engines() {
        for board in &BOARDS {
            let station = board.station;
            let image = engine.image(&tabulation, 4, 1, station, &MEMBERS);
            assert_eq!(image, Some(board.words()), "station {station}, {name}");
            for order in permutations(&MEMBERS) {
                let mut list = Harness::new(engine, &tabulation, 4, 1, station);
                for &(key, tier) in &order {
                    assert_eq!(list.insert(key, tier), Ok(()), "station {station}, {name}");
                }
                assert_eq!(list.words, board.words(), "station {station}, {name}");
                assert_eq!(list.check(), Ok(()));
                for ((key, tier), trail) in MEMBERS.into_iter().zip(board.trails) {
                    assert_eq!(list.trail(key, 3), Ok(trail.to_vec()), "station {station}");
                    let found = lookup(&tabulation, &list.words, key);
                    assert_eq!(found, Ok(Found::Listed(tier)), "station {station}");
                    assert_eq!(found, fast::lookup(&tabulation, &list.words, key));
                    let price = 1_000;
                    let sale = list.open(key, price, &[0; 8]);
                    assert_eq!(sale, Ok(Sale { key, tier, price }), "station {station}");
                }
                assert_eq!(number(list.insert(1_930, 0)), board.answer_1930, "station {station}");
                if board.answer_1930 == 0 {
                    assert_eq!(list.remove(1_930), Ok(()));
                }
                assert_eq!(list.words, board.words(), "station {station}, {name}");
                for (key, _) in order {
                    assert_eq!(list.remove(key), Ok(()), "station {station}, {name}");
                }
                assert_eq!(list.words, hand_words(4, 1, station, 0, &[], &[]), "the station stays");
            }
        }
    }
}

/// The reference model has the station from the start and answers by it.
#[test]
fn the_model_answers_by_its_station() {
    let (tabulation_len, scratch_len) = (2_560, 56);
    for board in &BOARDS {
        let mut model = Model::new(Slow, &station_tabulation(), 4, 1, board.station).unwrap();
        assert_eq!(model.words(), hand_words(4, 1, board.station, 0, &[], &[]));
        for (key, tier) in MEMBERS {
            let call = Call::Insert { tabulation_len, scratch_len, key, tier };
            assert_eq!(model.feed(&call), Reply::Answer(Ok(())));
        }
        assert_eq!(model.words(), board.words());
        let view: Vec<u32> = board.stash.iter().flat_map(|&(key, tier)| [key, tier]).collect();
        assert_eq!(model.feed(&Call::Stash), Reply::Stash(view), "station {}", board.station);
        for ((key, _), trail) in MEMBERS.into_iter().zip(board.trails) {
            let trail_sheet_len = trail.len();
            let call = Call::Trail { tabulation_len, scratch_len, key, trail_sheet_len };
            assert_eq!(model.feed(&call), Reply::Trail(Ok(trail.to_vec())));
        }
        let call = Call::Insert { tabulation_len, scratch_len, key: 1_930, tier: 0 };
        let Reply::Answer(answer) = model.feed(&call) else { unreachable!("an insert") };
        assert_eq!(number(answer), board.answer_1930, "station {}", board.station);
    }
}

/// The words of each board with each value in word 4, by both engines: 2 above 255, else an image
/// exactly where that station has these slots. Lookups and sales go by the new station, and the
/// view asks only whether it is above 255.
#[test]
fn another_station_in_word_4_is_another_list() {
    let tabulation = station_tabulation();
    let mut tally = Tally::default();
    for board in &BOARDS {
        for station in (0..256).chain(WRONG_STATIONS) {
            let mut words = board.words();
            words[4] = station;
            let right = Slow.image(&tabulation, 4, 1, station, &MEMBERS);
            let expected = match right {
                None => Err(Refusal::WrongShape),
                Some(image) if image == words => Ok(()),
                Some(_) => Err(Refusal::NotCanonical),
            };
            assert_eq!(expected == Err(Refusal::WrongShape), station > 255);
            for (_, engine) in engines() {
                let mut scratch = vec![1; 56];
                assert_eq!(check(&engine, &tabulation, &words, &mut scratch), expected);
            }
            tally.add(format!("check {}", number(expected)));
            let viewed = if station > 255 { Err(Refusal::WrongShape) } else { Ok(()) };
            assert_eq!(stash_answer(&words), viewed);
            for (key, _) in MEMBERS {
                let found = lookup(&tabulation, &words, key);
                assert_eq!(found, fast::lookup(&tabulation, &words, key), "{station}, {key}");
                let expected = hashes(&tabulation, 4, station, key).map(|places| {
                    // Slots of table 1 come after the four of table 0.
                    let own = [0, 1].map(|table| 5 + 3 * (4 * table + places[table] as usize));
                    let first = own.into_iter().chain([29]).find(|&at| words[at] == key);
                    let tier = |at: usize| words[if at == 29 { 30 } else { at + 2 }];
                    first.map_or(Found::Absent, |at| Found::Listed(tier(at)))
                });
                assert_eq!(found, expected, "{station}, {key}");
                let opened = open(&tabulation, &words, key, 1_000, &[0; 8]).map(|sale| sale.tier);
                let expected = found.and_then(|found| match found {
                    Found::Listed(tier) => Ok(tier),
                    Found::Absent => Err(Refusal::NotListed),
                });
                assert_eq!(opened, expected, "{station}, {key}");
                tally.add(format!("open {}", number(opened.map(|_| ()))));
            }
        }
    }
    let wanted = ["check 0", "check 2", "check 4", "open 0", "open 2", "open 7"];
    tally.report("other stations in word 4", &wanted);
}

#[test]
fn every_station_to_255_is_accepted_and_none_above() {
    for station in (0..=300).chain(WRONG_STATIONS) {
        let mut words = vec![9; 13];
        let mut counters = Counters::default();
        let answer = init(1, 1, station, &mut words, &mut counters);
        let places = hashes(&vec![0; 2_560], 1, station, 50);
        if station <= 255 {
            assert_eq!((answer, places), (Ok(()), Ok([0, 0])));
            assert_eq!(words, hand_words(1, 1, station, 0, &[], &[]));
            assert_eq!(counters, Counters { done: 1, refused: 0 });
        } else {
            let refusal = Refusal::WrongShape;
            assert_eq!((answer, places), (Err(refusal), Err(refusal)));
            assert_eq!(words, [9; 13]);
            assert_eq!(counters, Counters { done: 0, refused: 1 });
        }
    }
}

/// Request Five: "a station above 255, given or in word 4, is a 2". After 1 and before all else,
/// and whatever else is wrong with the words, the key or the scratch.
#[test]
fn a_station_above_255_in_word_4_is_a_2_in_every_call() {
    for (_, engine) in engines() {
        for station in WRONG_STATIONS {
            for is_tampered in [false, true] {
                let mut list = Harness::new(engine, &test_tabulation(), 4, 1, 0);
                for (key, tier) in MEMBERS {
                    assert_eq!(list.insert(key, tier), Ok(()));
                }
                list.words[4] = station;
                if is_tampered {
                    list.words[3] = 2;
                }
                for (scratch_len, len, refusal) in [
                    (56, 2_560, Refusal::WrongShape),
                    (0, 2_560, Refusal::WrongShape),
                    (56, 2_559, Refusal::WrongTabulation),
                    (0, 2_048, Refusal::WrongTabulation),
                ] {
                    list.scratch_len = scratch_len;
                    list.tabulation.resize(len, 0);
                    assert_eq!(list.check(), Err(refusal));
                    for key in [0, 9, 10, 19, 20, 1_290, 1_930] {
                        assert_eq!(list.insert(key, 8), Err(refusal));
                        assert_eq!(list.insert(key, 5), Err(refusal));
                        assert_eq!(list.remove(key), Err(refusal));
                        assert_eq!(list.trail(key, 0), Err(refusal));
                        assert_eq!(list.trail(key, 8), Err(refusal));
                        assert_eq!(list.open(key, 0, &[]), Err(refusal));
                        assert_eq!(lookup(&list.tabulation, &list.words, key), Err(refusal));
                        assert_eq!(fast::lookup(&list.tabulation, &list.words, key), Err(refusal));
                    }
                    list.tabulation = test_tabulation();
                }
                assert_eq!(stash_answer(&list.words), Err(Refusal::WrongShape));
                assert!(stash(&list.words).is_empty());
                // A fresh init mends it.
                let answer = init(4, 1, 255, &mut list.words, &mut list.counters);
                assert_eq!(answer, Ok(()));
                assert_eq!(list.words, hand_words(4, 1, 255, 0, &[], &[]));
            }
        }
    }
}

/// Words as they were before this request, without the station: 2 in every call.
#[test]
fn words_without_a_station_are_refused() {
    for board in &BOARDS {
        let mut words = board.words();
        words.remove(4);
        assert_eq!(words.len(), 4 + 6 * 4 + 2);
        let refused = Err(Refusal::WrongShape);
        let mut counters = Counters::default();
        for (_, engine) in engines() {
            let (tabulation, mut scratch) = (station_tabulation(), vec![1; 56]);
            assert_eq!(check(&engine, &tabulation, &words, &mut scratch), refused);
            let trail = calls::trail(&engine, &tabulation, &words, &mut scratch, 10, &mut [0; 8]);
            assert_eq!(trail.map(|_| ()), refused);
            let mut words = words.clone();
            let inserted =
                calls::insert(&engine, &tabulation, &mut words, &mut scratch, &mut counters, 20, 0);
            assert_eq!(inserted, refused);
            let removed =
                calls::remove(&engine, &tabulation, &mut words, &mut scratch, &mut counters, 10);
            assert_eq!(removed, refused);
        }
        assert_eq!(counters, Counters { done: 0, refused: 4 });
        assert_eq!(lookup(&station_tabulation(), &words, 10).map(|_| ()), refused);
        assert_eq!(fast::lookup(&station_tabulation(), &words, 10).map(|_| ()), refused);
        assert_eq!(open(&station_tabulation(), &words, 10, 1, &[0; 8]).map(|_| ()), refused);
        assert_eq!(stash_answer(&words), refused);
    }
}

/// Request Five: "Identical words are now promised for lists of one station number." One set at two
/// stations never has one list; often the keys sit elsewhere, and now and then one station has room
/// for the set and the other has not.
#[test]
fn two_stations_give_different_words() {
    let mut rng = Rng::new(123);
    let mut tally = Tally::default();
    for _ in 0..1_500 {
        let (r, s) = (1 + rng.below(5) as u32, rng.below(3) as u32);
        let (tabulation, keys) = (random_tabulation(&mut rng, 6), random_keys(&mut rng, 7));
        let chosen = subset(&keys, rng.below(1 << 7));
        let members = random_tiers(&mut rng, &chosen);
        let stations = [random_station(&mut rng), random_station(&mut rng)];
        for (_, engine) in engines() {
            let images = stations.map(|station| engine.image(&tabulation, r, s, station, &members));
            tally.add(match images {
                [Some(one), Some(other)] => {
                    assert_eq!([one[4], other[4]], stations);
                    assert_eq!([one[0], one[1], one[2]], [other[0], other[1], other[2]]);
                    assert_eq!(one == other, stations[0] == stations[1]);
                    match (one == other, one[5..] == other[5..]) {
                        (true, _) => "one station",
                        (_, true) => "same slots",
                        (_, false) => "other slots",
                    }
                }
                [None, None] => "no image",
                _ => "room at one station",
            });
        }
    }
    let wanted = ["one station", "same slots", "other slots", "no image", "room at one station"];
    tally.report("two stations", &wanted);
}

/// "Stations spread their cards differently": with the house table no two stations have the same
/// slots for a few keys.
#[test]
fn the_house_table_spreads_keys_by_station() {
    let keys: Vec<u32> = (1..=40).map(|first| 10 * first).collect();
    let places = |station: u32| -> Vec<[u32; 2]> {
        keys.iter().map(|&key| hashes(&HOUSE, 1_024, station, key).unwrap()).collect()
    };
    let different: BTreeSet<Vec<[u32; 2]>> = (0..256).map(places).collect();
    assert_eq!(different.len(), 256);
}
