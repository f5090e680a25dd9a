//! The order of refusals. An input is built with each combination of defects, and the first in the
//! paper's order must be the answer. Some pairs cannot both apply by their nature: a blank key is
//! in no set (5 with 6, 7, 8, 10 or 13), a listed key leaves the set as it is (6 or 10 with 8), and
//! no other issue of it is listed (6 or 10 with 13). Opening a sale has an order of its own. The
//! input of a bulk load can have all its defects at once. A salvage gives 2 for each of two areas;
//! its order stands in [`crate::salvage`].

use reference::answer::{number, Answer, Found};
use reference::bulk::{self, bulk_load};
use reference::calls::{check, insert, lookup, remove, stash, stash_answer, trail};
use reference::counters::Counters;
use reference::fast;
use reference::image::Engine;
use reference::sale::{open, Sale};
use reference::samples::test_tabulation;
use reference::set::Member;

use crate::common::{engines, hand_words, Tally};

/// Which defects an input has, by the paper's numbers.
#[derive(Clone, Copy)]
struct Defects(u32);

impl Defects {
    fn has(self, number: u32) -> bool {
        self.0 >> number & 1 == 1
    }

    /// The first defect in the paper's order; 0 when there is none.
    fn first(self, possible: &[u32]) -> u32 {
        possible.iter().copied().find(|&number| self.has(number)).unwrap_or(0)
    }

    /// All combinations of these defects.
    fn all(possible: &'static [u32]) -> impl Iterator<Item = Defects> {
        (0..1usize << possible.len()).map(|mask| {
            let chosen = possible.iter().enumerate().filter(|(i, _)| mask >> i & 1 == 1);
            Defects(chosen.map(|(_, number)| 1 << number).sum())
        })
    }
}

/// K5, whose stash is full, with other tiers and issues: {14, 650, 1295} with 1295 in the stash.
/// The station is 5, which changes no slot: the test tabulation has zeros in its fifth stretches.
fn k5() -> Vec<u32> {
    hand_words(4, 1, 5, 3, &[(0, 1, 14, 650, 3), (1, 0, 650, 14, 0)], &[(1_295, 6)])
}

/// Other issues than those in K5.
const OTHER_ISSUES: [u32; 8] = [10, 13, 15, 19, 651, 659, 1_294, 1_296];

/// The ways in which words can have a wrong shape; all keep their defect 4 if they have it.
const WRONG_SHAPES: usize = 8;

fn input_words(defects: Defects, way: usize) -> Vec<u32> {
    let mut words = k5();
    if defects.has(4) {
        words[3] = 2;
    }
    if defects.has(2) {
        match way {
            0 => drop(words.pop()),
            1 => words.push(0),
            2 => words.truncate(4),
            3 => words[0] = 0,
            4 => words[1] = 65,
            5 => words[0] = 1_025,
            6 => words[4] = 256,
            _ => words[4] = u32::MAX,
        }
    }
    words
}

fn input_tabulation(defects: Defects, way: usize) -> Vec<u16> {
    let mut tabulation = test_tabulation();
    if defects.has(1) {
        tabulation.resize([2_559, 2_561, 0, 2_048][way % 4], 0);
    }
    tabulation
}

/// 12r + 8s is 56 for K5; with a wrong shape the scratch is too short by any reading of words 0 and
/// 1.
fn input_scratch(defects: Defects) -> Vec<u32> {
    let len = match (defects.has(3), defects.has(2)) {
        (true, true) => 0,
        (true, false) => 55,
        (false, _) => 12 * 1_025 + 8 * 65,
    };
    vec![4; len]
}

/// The key for an insert or remove; of several defects of the key, the first decides it. A key that
/// is not listed (7) is half of the time another issue of one that is.
fn input_key(defects: Defects, way: usize) -> u32 {
    match () {
        _ if defects.has(5) => [0, 1, 2, 4, 5, 6, 8, 9][way],
        _ if defects.has(13) => OTHER_ISSUES[way],
        _ if defects.has(10) => 14,
        _ if defects.has(6) => 14,
        _ if defects.has(7) && way % 2 == 1 => 1_930,
        _ if defects.has(7) => OTHER_ISSUES[way],
        _ if defects.has(8) => 1_939,
        _ => 20,
    }
}

/// The tier for an insert: above 7 (9), or not the one of key 14 (10), or its own.
fn input_tier(defects: Defects, way: usize) -> u32 {
    match () {
        _ if defects.has(9) => [8, 9, 11, u32::MAX][way % 4],
        _ if defects.has(10) => [0, 2, 4, 7][way % 4],
        _ => 3,
    }
}

/// The key for a call on a listed key: this one, unless the key has a defect.
fn listed_unless_defect(defects: Defects, way: usize, listed: u32) -> u32 {
    if defects.has(5) || defects.has(7) {
        input_key(defects, way)
    } else {
        listed
    }
}

/// Makes an insert or remove and checks that a refusal leaves everything as it should.
fn change(engine: &dyn Engine, is_insert: bool, defects: Defects, way: usize) -> Answer {
    let (tabulation, mut words, mut scratch) =
        (input_tabulation(defects, way), input_words(defects, way), input_scratch(defects));
    let (words_before, mut counters) = (words.clone(), Counters { done: 10, refused: 20 });
    let answer = if is_insert {
        let (key, tier) = (input_key(defects, way), input_tier(defects, way));
        insert(&engine, &tabulation, &mut words, &mut scratch, &mut counters, key, tier)
    } else {
        // Without a defect of the key, a listed one is taken out.
        let key = listed_unless_defect(defects, way, 650);
        remove(&engine, &tabulation, &mut words, &mut scratch, &mut counters, key)
    };
    assert!(scratch.iter().all(|&word| word == 0));
    assert_eq!(words == words_before, answer.is_err());
    let refused = u32::from(answer.is_err());
    assert_eq!(counters, Counters { done: 11 - refused, refused: 20 + refused });
    answer
}

#[test]
fn insert_refuses_in_order() {
    // Request One: "9 (tier above 7) after 5; 10 (add of a listed card with another tier) just
    // before 6". A listed key cannot fill the stash any further; with the stash full already, 10
    // and 6 go before 8. Request Six: "13 (another issue is listed) just before 10". In the full
    // stash of K5 there would be no place for another issue either.
    const POSSIBLE: &[u32] = &[1, 2, 3, 4, 5, 9, 13, 10, 6, 8];
    let mut tally = Tally::default();
    for (_, engine) in engines() {
        for defects in Defects::all(POSSIBLE) {
            for way in 0..WRONG_SHAPES {
                let answer = number(change(engine, true, defects, way));
                assert_eq!(answer, defects.first(POSSIBLE), "{:b}", defects.0);
                tally.add(format!("insert {answer}"));
            }
        }
    }
    let wanted = [
        "insert 0",
        "insert 1",
        "insert 2",
        "insert 3",
        "insert 4",
        "insert 5",
        "insert 6",
        "insert 8",
        "insert 9",
        "insert 10",
        "insert 13",
    ];
    tally.report("order of refusals", &wanted);
}

#[test]
fn remove_refuses_in_order() {
    const POSSIBLE: &[u32] = &[1, 2, 3, 4, 5, 7];
    let mut tally = Tally::default();
    for (_, engine) in engines() {
        for defects in Defects::all(POSSIBLE) {
            for way in 0..WRONG_SHAPES {
                let answer = number(change(engine, false, defects, way));
                assert_eq!(answer, defects.first(POSSIBLE), "{:b}", defects.0);
                tally.add(format!("remove {answer}"));
            }
        }
    }
    let wanted =
        ["remove 0", "remove 1", "remove 2", "remove 3", "remove 4", "remove 5", "remove 7"];
    tally.report("order of refusals", &wanted);
}

/// Makes a trail and checks that a refusal leaves everything as it should.
///
/// Without a defect of the key, it is 650, whose trail is 650, 14; a trail sheet of one word is too
/// short for it (11), and one of no word for any key in a slot.
fn trail_answer(engine: &dyn Engine, defects: Defects, way: usize) -> Answer {
    let (tabulation, words, mut scratch) =
        (input_tabulation(defects, way), input_words(defects, way), input_scratch(defects));
    let key = listed_unless_defect(defects, way, 650);
    let before = if defects.has(11) { vec![8; way % 2] } else { vec![8; 2 + way] };
    let mut trail_sheet = before.clone();
    let count = trail(&engine, &tabulation, &words, &mut scratch, key, &mut trail_sheet);
    assert!(scratch.iter().all(|&word| word == 0));
    match count {
        Err(_) => assert_eq!(trail_sheet, before),
        Ok(count) => {
            assert_eq!((count, &trail_sheet[..2]), (2, &[650, 14][..]));
            assert!(trail_sheet[2..].iter().all(|&word| word == 0));
        }
    }
    count.map(|_| ())
}

#[test]
fn trail_refuses_in_order() {
    // Request Two: "Checks run as for withdraw [..]. Answers: 11 (trail sheet shorter than the
    // trail) after 7".
    const POSSIBLE: &[u32] = &[1, 2, 3, 4, 5, 7, 11];
    let mut tally = Tally::default();
    for (_, engine) in engines() {
        for defects in Defects::all(POSSIBLE) {
            for way in 0..WRONG_SHAPES {
                let answer = number(trail_answer(engine, defects, way));
                assert_eq!(answer, defects.first(POSSIBLE), "{:b}", defects.0);
                tally.add(format!("trail {answer}"));
            }
        }
    }
    let wanted =
        ["trail 0", "trail 1", "trail 2", "trail 3", "trail 4", "trail 5", "trail 7", "trail 11"];
    tally.report("order of refusals", &wanted);
}

/// Opens a sale for key 1295, which is in the stash with tier 6, or for a key with a defect.
///
/// Request Four takes 4 from the tier found alone. As a defect all keys of the words have a tier
/// above 7, and so the words are no image whether the key is listed or not (7).
fn opened(defects: Defects, way: usize) -> Answer {
    let (tabulation, mut words) = (input_tabulation(defects, way), input_words(defects, way));
    for at in [10, 19, 30].into_iter().filter(|_| defects.has(4)) {
        if let Some(tier) = words.get_mut(at) {
            *tier = [8, 9, u32::MAX][way % 3];
        }
    }
    let key = listed_unless_defect(defects, way, 1_295);
    let (mut base, mut steps) = (500, vec![1, 2, 3, 4, 5, 6, -499, 8]);
    if defects.has(12) {
        match way {
            0 => base = 0,
            1 => base = 100_000,
            2 => base = 499,
            3 => steps[6] = 501,
            4 => steps[2] = -501,
            _ => steps.push(0),
        }
    }
    let sale = open(&tabulation, &words, key, base, &steps)?;
    assert_eq!(sale, Sale { key: 1_295, tier: 6, price: 1 });
    Ok(())
}

#[test]
fn opening_a_sale_refuses_in_order() {
    // Request Four: "Opening checks as look-up does, then 7, then 4 if the tier found is above 7.
    // Answers: 12 [..] after that."
    const POSSIBLE: &[u32] = &[1, 2, 5, 7, 4, 12];
    let mut tally = Tally::default();
    for defects in Defects::all(POSSIBLE) {
        for way in 0..WRONG_SHAPES {
            let answer = number(opened(defects, way));
            assert_eq!(answer, defects.first(POSSIBLE), "{:b}, way {way}", defects.0);
            tally.add(format!("open {answer}"));
        }
    }
    let wanted = ["open 0", "open 1", "open 2", "open 4", "open 5", "open 7", "open 12"];
    tally.report("order of refusals", &wanted);
}

/// The r, s and station for a bulk load and the length of its words: those of K5, or with defect 2
/// one of them wrong and the others as they should be.
fn input_target(defects: Defects, way: usize) -> (u32, u32, u32, usize) {
    if !defects.has(2) {
        return (4, 1, 5, 31);
    }
    match way {
        0 => (4, 1, 5, 30),
        1 => (4, 1, 5, 32),
        2 => (4, 1, 5, 0),
        3 => (0, 1, 5, 7),
        4 => (4, 65, 5, 5 + 6 * 4 + 2 * 65),
        5 => (1_025, 1, 5, 5 + 6 * 1_025 + 2),
        6 => (4, 1, 256, 31),
        _ => (4, 1, u32::MAX, 31),
    }
}

/// The input of a bulk load: the members of K5 in rising order, and further ones that bring the
/// defects; each defect stands beside the others and at several positions.
fn bulk_input(defects: Defects, way: usize) -> Vec<u32> {
    let mut members = vec![(14, 3), (650, 0), (1_295, 6)];
    if defects.has(8) {
        let crowding: [&[Member]; 3] = [&[(1_939, 0)], &[(55, 7)], &[(330, 0), (1_979, 0)]];
        members.extend_from_slice(crowding[way % 3]);
    }
    if defects.has(13) {
        members.push((OTHER_ISSUES[way], way as u32));
    }
    members.sort_unstable();
    if defects.has(9) {
        let at = [0, members.len() - 1, 1][way % 3];
        members[at].1 = [8, u32::MAX, 10][way % 3];
    }
    if defects.has(14) {
        let last = members.len() - 1;
        match way {
            0 => members.insert(0, (members[0].0, 0)),
            1 => members.push((members[last].0, 7)),
            2 => members.swap(0, 1),
            3 => members.swap(last - 1, last),
            4 => members.rotate_left(1),
            // Odd numbers of words are below.
            _ => {}
        }
    }
    if defects.has(5) {
        let blank = (way + 2) as u32;
        let at = [0, members.len(), 1][way % 3];
        members.insert(at, (blank, 3));
    }
    let mut input = bulk::input(&members);
    if defects.has(14) && way >= 5 {
        input.push([u32::MAX, 14, 10][way - 5]);
    }
    input
}

#[test]
fn bulk_load_refuses_in_order() {
    // Request Seven: "Checks are 1, 2 for the target's r, s, station and length, and 3; then 5, 9,
    // 14 and 13 (between input cards), each over the whole input [..]; then 8."
    const POSSIBLE: &[u32] = &[1, 2, 3, 5, 9, 14, 13, 8];
    let mut tally = Tally::default();
    for (name, engine) in engines() {
        for defects in Defects::all(POSSIBLE) {
            for way in 0..WRONG_SHAPES {
                let (r, s, station, len) = input_target(defects, way);
                let (tabulation, mut scratch) =
                    (input_tabulation(defects, way), input_scratch(defects));
                let (mut words, input) = (vec![77; len], bulk_input(defects, way));
                let mut counters = Counters { done: 10, refused: 20 };
                let answer = bulk_load(
                    &engine,
                    &tabulation,
                    &mut words,
                    &mut scratch,
                    &mut counters,
                    r,
                    s,
                    station,
                    &input,
                );
                let given = format!("{name}, {:b}, way {way}, {input:?}", defects.0);
                assert_eq!(number(answer), defects.first(POSSIBLE), "{given}");
                assert!(scratch.iter().all(|&word| word == 0), "{given}");
                assert_eq!(words, if answer.is_ok() { k5() } else { vec![77; len] }, "{given}");
                let refused = u32::from(answer.is_err());
                assert_eq!(counters, Counters { done: 11 - refused, refused: 20 + refused });
                tally.add(format!("bulk load {}", number(answer)));
            }
        }
    }
    let wanted = [
        "bulk load 0",
        "bulk load 1",
        "bulk load 2",
        "bulk load 3",
        "bulk load 5",
        "bulk load 8",
        "bulk load 9",
        "bulk load 13",
        "bulk load 14",
    ];
    tally.report("order of refusals", &wanted);
}

#[test]
fn check_refuses_in_order() {
    const POSSIBLE: &[u32] = &[1, 2, 3, 4];
    let mut tally = Tally::default();
    for (_, engine) in engines() {
        for defects in Defects::all(POSSIBLE) {
            for way in 0..WRONG_SHAPES {
                let mut scratch = input_scratch(defects);
                let answer = check(
                    &engine,
                    &input_tabulation(defects, way),
                    &input_words(defects, way),
                    &mut scratch,
                );
                assert!(scratch.iter().all(|&word| word == 0));
                assert_eq!(number(answer), defects.first(POSSIBLE), "{:b}", defects.0);
                tally.add(format!("check {}", number(answer)));
            }
        }
    }
    tally.report("order of refusals", &["check 0", "check 1", "check 2", "check 3", "check 4"]);
}

#[test]
fn lookup_refuses_in_order() {
    // Words that are no image (4) are no reason to refuse.
    const GIVEN: &[u32] = &[1, 2, 5];
    let mut tally = Tally::default();
    for defects in Defects::all(&[1, 2, 4, 5]) {
        for way in 0..WRONG_SHAPES {
            let (tabulation, words) = (input_tabulation(defects, way), input_words(defects, way));
            let key = listed_unless_defect(defects, way, 1_295);
            let found = lookup(&tabulation, &words, key);
            assert_eq!(found, fast::lookup(&tabulation, &words, key));
            let answer = found.map(|found| assert_eq!(found, Found::Listed(6)));
            assert_eq!(number(answer), defects.first(GIVEN), "{:b}", defects.0);
            tally.add(format!("lookup {}", number(answer)));
        }
    }
    tally.report("order of refusals", &["lookup 0", "lookup 1", "lookup 2", "lookup 5"]);
}

#[test]
fn the_stash_view_refuses_in_order() {
    const POSSIBLE: &[u32] = &[2, 4];
    let mut tally = Tally::default();
    for defects in Defects::all(POSSIBLE) {
        for way in 0..WRONG_SHAPES {
            let words = input_words(defects, way);
            let answer = number(stash_answer(&words));
            assert_eq!(answer, defects.first(POSSIBLE), "{:b}", defects.0);
            assert_eq!(stash(&words), if answer == 0 { &[1_295, 6][..] } else { &[] });
            tally.add(format!("stash {answer}"));
        }
    }
    tally.report("order of refusals", &["stash 0", "stash 2", "stash 4"]);
}
