//! Request Eight, reading a head that got wet: lists written out by hand; every refusal, the length
//! edges and what stays of target and scratch; lists without damage; damage of single words of
//! every kind; issues and copies in all places; blank numbers, wrong slots and tiers; where 15 is
//! due; garbage on small boards against a second definition; attempts to find survivors that do not
//! fit; the largest lists; and the reference model after a salvage.

use std::collections::{BTreeMap, BTreeSet};

use reference::answer::{number, Found, Refusal};
use reference::bulk::input;
use reference::calls::{check, lookup};
use reference::counters::Counters;
use reference::fast::Fast;
use reference::house::HOUSE;
use reference::image::{canonical_stash, Engine, Slow};
use reference::layout::{Shape, Slot};
use reference::model::{Call, Model, Reply};
use reference::placement::{placement, Place};
use reference::rng::Rng;
use reference::salvage::{all_held, counts, is_own_slot, lost, salvage, survivors, Held};
use reference::samples::{
    chosen_tabulation, random_issue, random_keys, random_station, random_tabulation, random_tier,
    random_tiers, test_tabulation,
};
use reference::set::{members, Member, Set};

use crate::common::{
    engines, hand_words, many_keys, numbered_ends, other_issues, permutations, same_first_part,
    small_key, tier_words, Harness, Tally,
};

/// The words of a target after a salvage and how many numbers were lost, or why it was refused.
pub type Salvaged = Result<(Vec<u32>, u32), Refusal>;

/// Makes a salvage and checks what every salvage promises beside its answer: a refusal leaves the
/// target, and the scratch ends as zeros over its full length. Words and tabulation it cannot
/// write: they are borrowed to be read.
pub fn salvage_to(
    engine: &dyn Engine,
    tabulation: &[u16],
    words: &[u32],
    target: &[u32],
    scratch: &[u32],
) -> Salvaged {
    let (mut new_target, mut new_scratch) = (target.to_vec(), scratch.to_vec());
    let answer = salvage(&engine, tabulation, words, &mut new_target, &mut new_scratch);
    assert!(new_scratch.iter().all(|&word| word == 0), "the scratch ends as zeros");
    if answer.is_err() {
        assert_eq!(new_target, target, "a refusal leaves the target");
    }
    answer.map(|lost| (new_target, lost))
}

/// What a salvage gives with a target and a scratch of the right lengths, which held something
/// else; the words must not be shorter than their header.
pub fn salvage_by(engine: &dyn Engine, tabulation: &[u16], words: &[u32]) -> Salvaged {
    let scratch_len = (12 * words[0].min(1_024) + 8 * words[1].min(64)) as usize;
    salvage_to(engine, tabulation, words, &vec![1_234_567; words.len()], &vec![5; scratch_len])
}

/// What a salvage gives, the same from both engines.
pub fn salvaged(tabulation: &[u16], words: &[u32]) -> Salvaged {
    let [slow, fast] = engines().map(|(_, engine)| salvage_by(engine, tabulation, words));
    assert_eq!(slow, fast, "{words:?}");
    slow
}

/// The place of a key, said another way: not by `hash`.
fn plain_place(tabulation: &[u16], table: usize, words: &[u32], key: u32) -> usize {
    let (r, station, digits) = (words[0] as usize, words[4] as usize, key as usize / 10);
    let half = &tabulation[1_280 * table..][..1_280];
    let bytes = [digits % 256, digits / 256 % 256, digits / 65_536 % 256, digits / 16_777_216];
    let mut sum = usize::from(half[1_024 + (bytes[0] + station) % 256]);
    for (stretch, byte) in bytes.into_iter().enumerate() {
        sum += usize::from(half[256 * stretch + byte]);
    }
    sum % r
}

/// Where a key word stands: in which table's which slot, or in the stash. Not by `layout`.
fn plain_slot(words: &[u32], key_at: usize) -> Option<(usize, usize)> {
    let (r, before) = (words[0] as usize, (key_at - 5) / 3);
    (before < 2 * r).then(|| (before / r, before % r))
}

/// Whether a number with a tier counts at the position of a key word of the words.
fn plain_counts(tabulation: &[u16], words: &[u32], key_at: usize, (key, tier): Member) -> bool {
    let own = |(table, index)| plain_place(tabulation, table, words, key) == index;
    key > 9 && tier < 8 && plain_slot(words, key_at).is_none_or(own)
}

/// What a salvage makes of words, said another way and without `salvage`: for each first part the
/// positions of all that counts, of which the least stands.
#[derive(Debug, Default, PartialEq, Eq)]
struct Plain {
    /// The survivors, ascending by key.
    survivors: Vec<Member>,
    /// How many numbers are lost.
    lost: u32,
    /// How many numbers count.
    counting: u32,
}

impl Plain {
    fn of(tabulation: &[u16], words: &[u32]) -> Plain {
        let mut plain = Plain::default();
        let mut by_first_part: BTreeMap<u32, BTreeMap<usize, Member>> = BTreeMap::new();
        for (tier_at, key_at) in tier_words(words) {
            let member = (words[key_at], words[tier_at]);
            if plain_counts(tabulation, words, key_at, member) {
                by_first_part.entry(member.0 / 10).or_default().insert(key_at, member);
                plain.counting += 1;
            } else if member.0 != 0 {
                plain.lost += 1;
            }
        }
        let least = |copies: &BTreeMap<usize, Member>| *copies.first_key_value().unwrap().1;
        plain.survivors = by_first_part.values().map(least).collect();
        plain
    }

    /// What a salvage of these words should give; the words tell r, s and station.
    fn salvaged(&self, tabulation: &[u16], words: &[u32]) -> Salvaged {
        if self.lost > 0 && self.counting == 0 {
            return Err(Refusal::NothingCounts);
        }
        let (r, s, station) = (words[0], words[1], words[4]);
        let image = Slow.image(tabulation, r, s, station, &self.survivors);
        Ok((image.expect("the survivors fit"), self.lost))
    }
}

/// A list before a salvage and after it, and how many numbers are lost.
type Example<'a> = (&'a str, &'a [u32], &'a [u32], u32);

/// Document 01's test board, every key multiplied by ten, worked out by hand: a card 10v has the
/// places v modulo 4 and v/16 modulo 4. The lines are header, table 0, table 1, stash.
#[rustfmt::skip]
const EXAMPLES: [Example; 12] = [
    ("K3, of whose 10 one copy became 9: the other stands for it", &[
        4, 1, 2, 0, 0,
        0, 0, 0,   9, 170, 0,   0, 0, 0,   0, 0, 0,
        10, 170, 0,   170, 10, 0,   0, 0, 0,   0, 0, 0,
        0, 0,
    ], &[
        4, 1, 2, 0, 0,
        0, 0, 0,   10, 170, 0,   0, 0, 0,   0, 0, 0,
        10, 170, 0,   170, 10, 0,   0, 0, 0,   0, 0, 0,
        0, 0,
    ], 1),
    ("K3, of whose 10 the first copy became 11: that issue stands, and 10 is dropped, not lost", &[
        4, 1, 2, 0, 0,
        0, 0, 0,   11, 170, 0,   0, 0, 0,   0, 0, 0,
        10, 170, 0,   170, 10, 0,   0, 0, 0,   0, 0, 0,
        0, 0,
    ], &[
        4, 1, 2, 0, 0,
        0, 0, 0,   11, 170, 0,   0, 0, 0,   0, 0, 0,
        11, 170, 0,   170, 11, 0,   0, 0, 0,   0, 0, 0,
        0, 0,
    ], 0),
    ("K5 with tiers, that of 10 above 7: without it the stash key moves to a slot", &[
        4, 1, 3, 1, 0,
        0, 0, 0,   10, 650, 8,   0, 0, 0,   0, 0, 0,
        650, 10, 0,   0, 0, 0,   0, 0, 0,   0, 0, 0,
        1_290, 6,
    ], &[
        4, 1, 2, 0, 0,
        0, 0, 0,   650, 1_290, 0,   0, 0, 0,   0, 0, 0,
        1_290, 650, 6,   0, 0, 0,   0, 0, 0,   0, 0, 0,
        0, 0,
    ], 1),
    ("three issues, the first with tier 8: the second stands, the third is dropped", &[
        4, 1, 77, 9, 200,
        0, 0, 0,   171, 5, 8,   0, 0, 0,   0, 0, 0,
        0, 0, 0,   172, 171, 7,   0, 0, 0,   0, 0, 0,
        170, 2,
    ], &[
        4, 1, 1, 0, 200,
        0, 0, 0,   172, 172, 7,   0, 0, 0,   0, 0, 0,
        0, 0, 0,   172, 172, 7,   0, 0, 0,   0, 0, 0,
        0, 0,
    ], 1),
    ("K10 with two slots of table 0 in the wrong order: what is left are two lone keys", &[
        4, 1, 4, 0, 0,
        0, 0, 0,   340, 980, 0,   10, 650, 0,   0, 0, 0,
        650, 10, 0,   0, 0, 0,   980, 340, 0,   0, 0, 0,
        0, 0,
    ], &[
        4, 1, 2, 0, 0,
        0, 0, 0,   650, 650, 0,   980, 980, 0,   0, 0, 0,
        650, 650, 0,   0, 0, 0,   980, 980, 0,   0, 0, 0,
        0, 0,
    ], 2),
    ("K11 with tiers, without counts and next numbers, and the stash tier all ones", &[
        4, 1, 0, 0, 0,
        0, 0, 0,   10, 0, 6,   340, 0, 0,   0, 0, 0,
        650, 0, 7,   0, 0, 0,   2_250, 0, 1,   0, 0, 0,
        980, 4_294_967_295,
    ], &[
        4, 1, 4, 0, 0,
        0, 0, 0,   10, 340, 6,   340, 650, 0,   0, 0, 0,
        650, 2_250, 7,   0, 0, 0,   2_250, 10, 1,   0, 0, 0,
        0, 0,
    ], 1),
    ("the keys of K9 in slots of their own, but in another way: all find back", &[
        4, 1, 5, 1, 0,
        0, 0, 0,   650, 0, 4,   980, 0, 5,   0, 0, 0,
        10, 0, 1,   0, 0, 0,   340, 0, 3,   0, 0, 0,
        330, 2,
    ], &[
        4, 1, 5, 1, 0,
        0, 0, 0,   10, 330, 1,   340, 650, 3,   0, 0, 0,
        650, 10, 4,   0, 0, 0,   330, 340, 2,   0, 0, 0,
        980, 5,
    ], 0),
    ("a stash with a gap, out of order, at s = 3 and with word 3 at 0", &[
        4, 3, 0, 0, 255,
        0, 0, 0,   0, 0, 0,   0, 0, 0,   0, 0, 0,
        0, 0, 0,   0, 0, 0,   0, 0, 0,   0, 0, 0,
        0, 5,   1_930, 1,   655, 7,
    ], &[
        4, 3, 2, 0, 255,
        0, 0, 0,   655, 1_930, 7,   0, 0, 0,   0, 0, 0,
        1_930, 655, 1,   0, 0, 0,   0, 0, 0,   0, 0, 0,
        0, 0,   0, 0,   0, 0,
    ], 0),
    ("numbers from 1 to 9, one in each place but that of 50", &[
        4, 1, 9, 1, 0,
        1, 1, 0,   2, 2, 0,   3, 3, 0,   4, 4, 0,
        50, 50, 3,   6, 6, 0,   7, 7, 0,   8, 8, 0,
        9, 0,
    ], &[
        4, 1, 1, 0, 0,
        0, 0, 0,   50, 50, 3,   0, 0, 0,   0, 0, 0,
        50, 50, 3,   0, 0, 0,   0, 0, 0,   0, 0, 0,
        0, 0,
    ], 8),
    ("no number at all, but next numbers, tiers and counts", &[
        4, 1, 3, 1, 9,
        0, 10, 1,   0, 10, 7,   0, 8, 8,   0, 0, 0,
        0, 650, 0,   0, 0, 9,   0, 1, 1,   0, 0, 1,
        0, 7,
    ], &[
        4, 1, 0, 0, 9,
        0, 0, 0,   0, 0, 0,   0, 0, 0,   0, 0, 0,
        0, 0, 0,   0, 0, 0,   0, 0, 0,   0, 0, 0,
        0, 0,
    ], 0),
    ("the largest key, in the stash and in a slot of another one", &[
        4, 1, 0, 0, 0,
        4_294_967_295, 0, 1,   0, 0, 0,   0, 0, 0,   0, 0, 0,
        0, 0, 0,   0, 0, 0,   0, 0, 0,   0, 0, 0,
        4_294_967_295, 2,
    ], &[
        4, 1, 1, 0, 0,
        0, 0, 0,   4_294_967_295, 4_294_967_295, 2,   0, 0, 0,   0, 0, 0,
        0, 0, 0,   4_294_967_295, 4_294_967_295, 2,   0, 0, 0,   0, 0, 0,
        0, 0,
    ], 1),
    ("K8, in which 170 stands three times with three tiers: that of table 0 counts", &[
        4, 1, 3, 0, 0,
        0, 0, 0,   170, 650, 4,   0, 0, 0,   0, 0, 0,
        1_290, 170, 0,   170, 650, 5,   0, 0, 0,   0, 0, 0,
        170, 6,
    ], &[
        4, 1, 2, 0, 0,
        0, 0, 0,   170, 1_290, 4,   0, 0, 0,   0, 0, 0,
        1_290, 170, 0,   170, 1_290, 4,   0, 0, 0,   0, 0, 0,
        0, 0,
    ], 0),
];

#[test]
fn lists_written_out_by_hand() {
    for (name, words, target, lost) in EXAMPLES {
        assert_eq!(salvaged(&test_tabulation(), words), Ok((target.to_vec(), lost)), "{name}");
        assert_eq!(salvaged(&test_tabulation(), target), Ok((target.to_vec(), 0)), "{name}, again");
        let plain = Plain::of(&test_tabulation(), words).salvaged(&test_tabulation(), words);
        assert_eq!(plain, Ok((target.to_vec(), lost)), "{name}, by the second definition");
    }
    // 10 in a slot beside its own, and a blank number in the stash.
    let words = [
        &[4, 1, 2, 1, 0][..],
        &[10, 10, 0, 0, 0, 0, 0, 0, 0, 0, 0, 0],
        &[0, 0, 0, 10, 10, 0, 0, 0, 0, 0, 0, 0],
        &[5, 0],
    ];
    assert_eq!(salvaged(&test_tabulation(), &words.concat()), Err(Refusal::NothingCounts));
}

/// The questions of the fourth example one by one: what stands where, what counts, what survives
/// and what is lost.
#[test]
fn the_parts_of_a_salvage_by_hand() {
    let (tabulation, words) = (test_tabulation(), EXAMPLES[3].1);
    let shape = Shape::of(words).unwrap();
    let (own_0, own_1) = (Slot { table: 0, index: 1 }, Slot { table: 1, index: 1 });
    let held = [
        Held { place: Place::Slot(own_0), key: 171, tier: 8 },
        Held { place: Place::Slot(own_1), key: 172, tier: 7 },
        Held { place: Place::Stash(0), key: 170, tier: 2 },
    ];
    assert_eq!(all_held(shape, words), held);
    let counting = held.each_ref().map(|held| counts(&tabulation, shape, held));
    assert_eq!(counting, [false, true, true]);
    assert_eq!(survivors(&tabulation, shape, words), [held[1]]);
    assert_eq!(lost(&tabulation, shape, words), 1);
    for slot in shape.slots() {
        let own = slot == own_0 || slot == own_1;
        assert_eq!(is_own_slot(&tabulation, shape, slot, 170), own, "{slot:?}");
        for blank in 0..10 {
            assert!(!is_own_slot(&tabulation, shape, slot, blank), "{slot:?}, {blank}");
        }
    }
    // Word order: table 0, table 1, stash, each from its first place on.
    let all: Vec<u32> =
        (0..31).map(|at| if at < 5 { words[at] } else { 100 + at as u32 }).collect();
    let keys: Vec<u32> = all_held(shape, &all).iter().map(|held| held.key).collect();
    assert_eq!(keys, [105, 108, 111, 114, 117, 120, 123, 126, 129]);
    let tiers: Vec<u32> = all_held(shape, &all).iter().map(|held| held.tier).collect();
    assert_eq!(tiers, [107, 110, 113, 116, 119, 122, 125, 128, 130]);
}

/// A list with one stored key that counts, one that does not and one in the stash.
fn wet_board() -> (Vec<u32>, Vec<u32>) {
    let words = hand_words(4, 1, 5, 9, &[(0, 1, 14, 0, 3), (1, 3, 20, 0, 0)], &[(655, 6)]);
    let after = hand_words(4, 1, 5, 2, &[(0, 1, 14, 655, 3), (1, 0, 655, 14, 6)], &[]);
    (words, after)
}

/// The answer's number under the test tabulation, brought to this length.
fn number_on_board(tabulation_len: usize, words: &[u32], target_len: usize, sheet: usize) -> u32 {
    let mut tabulation = test_tabulation();
    tabulation.resize(tabulation_len, 0);
    let [slow, fast] = engines().map(|(_, engine)| {
        salvage_to(engine, &tabulation, words, &vec![9; target_len], &vec![4; sheet])
    });
    assert_eq!(slow, fast);
    number(slow.map(|_| ()))
}

/// Each length at its edges, the others as they should be.
#[test]
fn each_length_has_its_edges() {
    let (words, _) = wet_board();
    assert_eq!(number_on_board(2_560, &words, 31, 56), 0);
    for len in [0, 1, 2_047, 2_048, 2_559, 2_561, 5_120] {
        assert_eq!(number_on_board(len, &words, 31, 56), 1, "tabulation of {len}");
    }
    for len in (0..64).chain([310, 6_277]) {
        let expected = if len == 31 { 0 } else { 2 };
        assert_eq!(number_on_board(2_560, &words, len, 56), expected, "target of {len}");
        // Words and target of one length, but that of another shape.
        let mut others = words.clone();
        others.resize(len, 0);
        assert_eq!(number_on_board(2_560, &others, len, 999), expected, "both of {len}");
        assert_eq!(number_on_board(2_560, &others, 31, 999), expected, "words of {len}");
    }
    for len in 0..56 {
        assert_eq!(number_on_board(2_560, &words, 31, len), 3, "scratch of {len}");
    }
    for len in [56, 57, 100, 12_800, 20_000] {
        assert_eq!(number_on_board(2_560, &words, 31, len), 0, "scratch of {len}");
    }
    for (r, s) in [(1, 0), (1, 1), (1, 64), (3, 7), (1_024, 0), (1_024, 64)] {
        let (len, sheet) = ((5 + 6 * r + 2 * s) as usize, (12 * r + 8 * s) as usize);
        let words = hand_words(r, s, 255, 0, &[], &[]);
        assert_eq!(number_on_board(2_560, &words, len, sheet), 0, "r {r}, s {s}");
        assert_eq!(number_on_board(2_560, &words, len, sheet - 1), 3, "r {r}, s {s}");
        for wrong in [0, 4, 5, len - 1, len + 1, 2 * len] {
            assert_eq!(number_on_board(2_560, &words, wrong, sheet), 2, "r {r}, s {s}, {wrong}");
            assert_eq!(number_on_board(2_560, &words, wrong, 0), 2, "2 before 3, {wrong}");
        }
    }
}

/// Request Eight: "2 for the first area": r, s or station outside its range, whatever the length.
#[test]
fn shapes_out_of_range_are_2() {
    for (r, s, station) in [
        (0, 0, 0),
        (0, 3, 0),
        (1_025, 64, 0),
        (1_024, 65, 0),
        (4, 65, 255),
        (4, 1, 256),
        (1, 0, u32::MAX),
        (1, 0, 1 << 31),
    ] {
        let words = hand_words(r, s, station, 0, &[], &[]);
        for sheet in [0, 56, 13_000] {
            let answer = number_on_board(2_560, &words, words.len(), sheet);
            assert_eq!(answer, 2, "r {r}, s {s}, station {station}");
        }
        assert_eq!(number_on_board(2_559, &words, words.len(), 13_000), 1, "1 before 2");
    }
    // In 32-bit arithmetic 5 + 6r + 2s would wrap to the length of r = 1, s = 1.
    for (r, s) in [(1 + (1 << 31), 1), (1, 1 + (1 << 31)), (2, u32::MAX - 1), (2, (1 << 31) - 2)] {
        let mut words = hand_words(1, 1, 0, 0, &[], &[]);
        words[..2].copy_from_slice(&[r, s]);
        assert_eq!(number_on_board(2_560, &words, 13, 13_000), 2, "r {r}, s {s}");
    }
    for len in 0..5 {
        let words = vec![1; len];
        assert_eq!(number_on_board(2_560, &words, len, 13_000), 2, "shorter than a header");
    }
}

/// The target's and the scratch's content has no effect; a scratch of any length ends as zeros, and
/// a refused salvage leaves a target of any length, whatever the refusal.
#[test]
fn target_and_scratch_have_no_say() {
    let mut rng = Rng::new(161);
    let tabulation = test_tabulation();
    let (words, after) = wet_board();
    let lone = |len: usize| hand_words(4, 1, 0, 0, &[(0, 0, 10, 10, 0)], &[])[..len].to_vec();
    let accepted: Salvaged = Ok((after.clone(), 1));
    let refused =
        |number: u32| move |answer: Salvaged| answer.err().map(Refusal::number) == Some(number);
    for (_, engine) in engines() {
        let mut targets = vec![vec![0; 31], vec![u32::MAX; 31], words.clone(), after.clone()];
        targets.push(hand_words(4, 1, 6, 0, &[], &[]));
        targets.extend(EXAMPLES.iter().map(|example| example.1.to_vec()));
        targets.retain(|target| target.len() == 31);
        targets.extend((0..20).map(|_| (0..31).map(|_| rng.next_u32()).collect()));
        for target in &targets {
            for len in [56, 57, 300] {
                let scratch: Vec<u32> = (0..len).map(|_| rng.next_u32()).collect();
                let given = salvage_to(engine, &tabulation, &words, target, &scratch);
                assert_eq!(given, accepted, "{target:?}");
                let short = &scratch[..rng.below(56)];
                for (expected, answer) in [
                    (1, salvage_to(engine, &tabulation[1..], &words, target, &scratch)),
                    (2, salvage_to(engine, &tabulation, &words[1..], target, &scratch)),
                    (2, salvage_to(engine, &tabulation, &words, &target[1..], &scratch)),
                    (2, salvage_to(engine, &tabulation, &words, &[], short)),
                    (3, salvage_to(engine, &tabulation, &words, target, short)),
                    (15, salvage_to(engine, &tabulation, &lone(31), target, &scratch)),
                    (2, salvage_to(engine, &tabulation, &lone(30), target, &scratch)),
                ] {
                    assert!(refused(expected)(answer), "{expected}, {target:?}");
                }
            }
        }
    }
}

/// Request Eight: "Checks are 1, 2 for the first area, 2 for the second's length, and 3. Answers:
/// 15 [..] last". All combinations of defects, of which there are two ways each.
#[test]
fn refusals_in_order() {
    let mut tally = Tally::default();
    for mask in 0..1 << 5 {
        let has = |defect: usize| mask >> defect & 1 == 1;
        for way in 0..2 {
            let tabulation = vec![0; if has(0) { 2_559 + 2 * way } else { 2_560 }];
            // All keys have the first slot of either table.
            let index = if has(4) { 1 } else { 0 };
            let mut words = hand_words(4, 1, 5, 1, &[(way, index, 14, 0, 3)], &[(9, 0)]);
            let mut before = vec![77; words.len() - if has(2) { 1 + way } else { 0 }];
            if has(1) && way == 0 {
                words[4] = 256;
            } else if has(1) {
                words.push(0);
                before.push(77);
            }
            let scratch_len = if has(3) { 55 - 55 * way } else { 56 };
            let first = [1, 2, 2, 3, 15].into_iter().enumerate().find(|&(defect, _)| has(defect));
            let expected = first.map_or(0, |(_, number)| number);
            for (name, engine) in engines() {
                let (mut target, mut scratch) = (before.clone(), vec![4; scratch_len]);
                let answer = salvage(&engine, &tabulation, &words, &mut target, &mut scratch);
                assert_eq!(number(answer.map(|_| ())), expected, "{name}, {mask:b}, way {way}");
                assert_eq!(scratch, vec![0; scratch_len], "{name}, {mask:b}, way {way}");
                assert_eq!(target == before, answer.is_err(), "{name}, {mask:b}, way {way}");
                assert!(answer.is_err() || answer == Ok(1), "the 9 is lost");
            }
            tally.add(format!("salvage {expected}"));
        }
    }
    let wanted = ["salvage 0", "salvage 1", "salvage 2", "salvage 3", "salvage 15"];
    tally.report("order of refusals", &wanted);
}

/// The words with the counts of the header and all next numbers replaced by random ones.
pub fn without_counts_and_next(words: &[u32], rng: &mut Rng) -> Vec<u32> {
    let mut others = words.to_vec();
    let next_words = (0..2 * words[0] as usize).map(|slot| 5 + 3 * slot + 1);
    for at in next_words.chain([2, 3]) {
        others[at] = match rng.below(4) {
            0 => 0,
            1 => small_key(rng, 9),
            2 => rng.below(4) as u32,
            _ => rng.next_u32(),
        };
    }
    others
}

/// Request Eight: "An untampered list gives itself and 0." So does one whose counts and next
/// numbers are overwritten: they have no say.
#[test]
fn untampered_lists_give_themselves() {
    let mut rng = Rng::new(162);
    let mut tally = Tally::default();
    for _ in 0..1_500 {
        let (r, s) = (1 + rng.below(4) as u32, rng.below(4) as u32);
        let (station, values, count) = (random_station(&mut rng), 2 + rng.below(6), rng.below(8));
        let tabulation = random_tabulation(&mut rng, values);
        let keys = random_keys(&mut rng, count);
        let members = random_tiers(&mut rng, &keys);
        let Some(words) = Slow.image(&tabulation, r, s, station, &members) else {
            continue;
        };
        assert_eq!(salvaged(&tabulation, &words), Ok((words.clone(), 0)));
        let others = without_counts_and_next(&words, &mut rng);
        assert_eq!(salvaged(&tabulation, &others), Ok((words.clone(), 0)), "{others:?}");
        tally.add(if words[3] > 0 { "with stash" } else { "without stash" });
        tally.add(format!("of {}", members.len().min(5)));
    }
    // Larger lists, by the fast engine alone; each filled until the stash is full, or nearly.
    for (r, s) in [(8, 2), (50, 5), (200, 64), (1_024, 0), (1_024, 64)] {
        let mut keys = many_keys(&mut rng, 2 * r as usize);
        let (tabulation, station) = (random_tabulation(&mut rng, 65_536), random_station(&mut rng));
        let mut image = None;
        while image.is_none() {
            let members = random_tiers(&mut rng, &keys);
            image = Fast.image(&tabulation, r, s, station, &members);
            keys.truncate(keys.len() * 19 / 20);
        }
        let words = image.unwrap();
        assert_eq!(salvage_by(&Fast, &tabulation, &words), Ok((words.clone(), 0)), "r {r}, s {s}");
        let others = without_counts_and_next(&words, &mut rng);
        assert_eq!(salvage_by(&Fast, &tabulation, &others), Ok((words, 0)), "r {r}, s {s}");
        tally.add("large");
    }
    let wanted = ["with stash", "without stash", "large", "of 0", "of 1", "of 3", "of 5"];
    tally.report("untampered lists", &wanted);
}

/// No number at all: the empty list, whatever stands in the other words.
#[test]
fn without_any_number_the_list_is_empty() {
    let mut rng = Rng::new(163);
    for (r, s, station) in [(1, 0, 0), (1, 1, 200), (4, 1, 0), (3, 7, 255), (1_024, 64, 9)] {
        let empty = hand_words(r, s, station, 0, &[], &[]);
        assert_eq!(salvaged(&HOUSE, &empty), Ok((empty.clone(), 0)));
        for _ in 0..5 {
            let mut words = without_counts_and_next(&empty, &mut rng);
            for (tier_at, _) in tier_words(&empty) {
                words[tier_at] = rng.next_u32() >> rng.below(33).min(31);
            }
            assert_eq!(salvaged(&HOUSE, &words), Ok((empty.clone(), 0)), "r {r}, s {s}");
        }
    }
}

/// A small board and the image of a set on it.
struct Board {
    tabulation: Vec<u16>,
    words: Vec<u32>,
    set: Set,
}

impl Board {
    /// A board with a set that fits and has at most six keys with first parts to 9.
    fn random(rng: &mut Rng) -> Board {
        loop {
            let (r, s) = (1 + rng.below(3) as u32, rng.below(3) as u32);
            let tabulation = random_tabulation(rng, 4);
            let mut keys: Vec<u32> = (0..rng.below(7)).map(|_| small_key(rng, 9).max(10)).collect();
            keys.sort_unstable();
            keys.dedup_by_key(|key| *key / 10);
            let (members, station) = (random_tiers(rng, &keys), random_station(rng));
            if let Some(words) = Slow.image(&tabulation, r, s, station, &members) {
                return Board { tabulation, words, set: members.into_iter().collect() };
            }
        }
    }

    /// The positions of this key's copies, in word order.
    fn copies(&self, key: u32) -> Vec<usize> {
        let key_words = tier_words(&self.words).into_iter().map(|(_, key_at)| key_at);
        key_words.filter(|&key_at| self.words[key_at] == key).collect()
    }

    /// Takes a key out of the set unless a copy of it stands elsewhere.
    fn set_without(&self, key_at: usize) -> Set {
        let (key, mut set) = (self.words[key_at], self.set.clone());
        if self.copies(key) == [key_at] {
            set.remove(&key);
        }
        set
    }

    /// The set and the number of lost ones after damage of one word that is not the station, said
    /// as a change of the set; and a name for what became of it.
    fn after(&self, at: usize, value: u32) -> (Set, u32, &'static str) {
        let (words, set) = (&self.words, self.set.clone());
        let beside = tier_words(words).into_iter().find(|&(tier_at, _)| tier_at == at);
        let is_key_word = tier_words(words).iter().any(|&(_, key_at)| key_at == at);
        match beside {
            Some((_, key_at)) if words[key_at] == 0 => (set, 0, "tier beside no key"),
            Some((_, key_at)) if value > 7 => match self.set_without(key_at) {
                same if same == set => (set, 1, "tier above 7, and a copy is left"),
                fewer => (fewer, 1, "tier above 7"),
            },
            Some((_, key_at)) if self.copies(words[key_at])[0] == key_at => {
                let mut other = set;
                other.insert(words[key_at], value);
                (other, 0, "tier of the first copy")
            }
            Some(_) => (set, 0, "tier of the second copy"),
            None if is_key_word => self.after_key(at, value),
            None if at < 5 => (set, 0, "count"),
            None => (set, 0, "next number"),
        }
    }

    /// The same for a key word.
    fn after_key(&self, key_at: usize, value: u32) -> (Set, u32, &'static str) {
        let tier =
            self.words[key_at + if plain_slot(&self.words, key_at).is_some() { 2 } else { 1 }];
        let mut set = self.set_without(key_at);
        if value == 0 {
            let all_left = set == self.set;
            return (set, 0, if all_left { "cleared, and a copy is left" } else { "cleared" });
        }
        if value < 10 {
            return (set, 1, "blank");
        }
        if !plain_counts(&self.tabulation, &self.words, key_at, (value, tier)) {
            return (set, 1, "not its slot");
        }
        // Here the new number counts; it stands unless one of its first part stands before it.
        let listed = set.keys().copied().find(|&other| same_first_part(other, value));
        let Some(listed) = listed else {
            set.insert(value, tier);
            return (set, 0, "a key more");
        };
        let copies = self.copies(listed);
        let first = copies.into_iter().find(|&other_at| other_at != key_at);
        if first.is_some_and(|first| first < key_at) {
            return (set, 0, "dropped behind one that stands");
        }
        set.remove(&listed);
        set.insert(value, tier);
        (set, 0, "stands before the one that stood")
    }
}

/// Numbers to damage a word with.
fn damages(board: &Board, rng: &mut Rng) -> Vec<u32> {
    let mut values: Vec<u32> =
        vec![0, 1, 7, 8, 9, 10, rng.next_u32(), 1 << rng.below(32), u32::MAX];
    values.extend((0..6).map(|_| small_key(rng, 9)));
    values.extend(board.set.keys().flat_map(|&key| [key, random_issue(rng, key), key ^ 1]));
    values
}

/// What kind of word stands at a position behind the header, for the tally.
fn kind(words: &[u32], at: usize) -> String {
    let key_words = tier_words(words).into_iter().map(|(_, key_at)| key_at);
    let key_at = key_words.filter(|&key_at| key_at <= at).max().expect("behind the header");
    match plain_slot(words, key_at) {
        Some((table, _)) => format!("{} in table {table}", ["key", "next", "tier"][at - key_at]),
        None => format!("{} in the stash", ["key", "tier"][at - key_at]),
    }
}

/// Damage of each single word but the station, with what is lost and gained.
#[test]
fn a_damaged_word_loses_and_gains_what_it_may() {
    let mut rng = Rng::new(164);
    let mut tally = Tally::default();
    for _ in 0..120 {
        let board = Board::random(&mut rng);
        let (r, s, station) = (board.words[0], board.words[1], board.words[4]);
        for at in (0..board.words.len()).filter(|&at| at != 4) {
            for value in damages(&board, &mut rng) {
                let mut damaged = board.words.clone();
                damaged[at] = value;
                if at < 2 && value != board.words[at] {
                    let answer = salvage_by(&Fast, &board.tabulation, &damaged);
                    assert_eq!(answer, Err(Refusal::WrongShape), "{damaged:?}");
                    tally.add("r or s");
                    continue;
                }
                let (set, lost, name) = board.after(at, value);
                let expected = if set.is_empty() && lost > 0 {
                    tally.add("15");
                    Err(Refusal::NothingCounts)
                } else {
                    let image = Slow.image(&board.tabulation, r, s, station, &members(&set));
                    Ok((image.expect("the survivors fit"), lost))
                };
                assert_eq!(salvaged(&board.tabulation, &damaged), expected, "{name}, {damaged:?}");
                tally.add(name);
                if at >= 5 {
                    tally.add(kind(&damaged, at));
                }
            }
        }
    }
    let wanted = [
        "r or s",
        "count",
        "key in table 0",
        "next in table 0",
        "tier in table 0",
        "key in table 1",
        "next in table 1",
        "tier in table 1",
        "key in the stash",
        "tier in the stash",
        "next number",
        "tier beside no key",
        "tier above 7",
        "tier above 7, and a copy is left",
        "tier of the first copy",
        "tier of the second copy",
        "cleared",
        "cleared, and a copy is left",
        "blank",
        "not its slot",
        "a key more",
        "dropped behind one that stands",
        "stands before the one that stood",
        "15",
    ];
    tally.report("damaged words", &wanted);
}

/// Damage of the station: above 255 it is 2; else the stash keys survive, and the stored ones that
/// have a slot of their own at that station, too.
#[test]
fn a_damaged_station_moves_the_slots() {
    let mut rng = Rng::new(165);
    let mut tally = Tally::default();
    for _ in 0..400 {
        let board = Board::random(&mut rng);
        let (mut damaged, stash_at) = (board.words.clone(), 5 + 6 * board.words[0] as usize);
        for value in [256, 256 + damaged[4], 512, 1 << 31, u32::MAX] {
            damaged[4] = value;
            assert_eq!(salvaged(&board.tabulation, &damaged), Err(Refusal::WrongShape));
        }
        damaged[4] = random_station(&mut rng);
        let (mut set, mut lost) = (Set::new(), 0);
        for (&key, &tier) in &board.set {
            let (own, other): (Vec<usize>, Vec<usize>) =
                board.copies(key).into_iter().partition(|&at| {
                    at >= stash_at || plain_counts(&board.tabulation, &damaged, at, (key, tier))
                });
            set.extend((!own.is_empty()).then_some((key, tier)));
            lost += other.len() as u32;
        }
        let (r, s, station) = (damaged[0], damaged[1], damaged[4]);
        let image = Slow.image(&board.tabulation, r, s, station, &members(&set));
        let nothing = set.is_empty() && lost > 0;
        let expected =
            if nothing { Err(Refusal::NothingCounts) } else { Ok((image.unwrap(), lost)) };
        assert_eq!(salvaged(&board.tabulation, &damaged), expected, "{damaged:?}");
        tally.add(match expected {
            Err(_) => "15",
            Ok((_, 0)) => "nothing lost",
            Ok(_) if set.len() < board.set.len() => "keys lost",
            Ok(_) => "copies lost",
        });
    }
    tally.report("damaged stations", &["15", "nothing lost", "keys lost", "copies lost"]);
}

/// One card in its slot of table 0, its slot of table 1 and two stash places, each with an issue
/// and a tier or something that does not count, in all ways: the first that counts stands.
#[test]
fn the_first_that_counts_stands() {
    let kinds: [Member; 8] =
        [(0, 3), (170, 0), (170, 7), (171, 7), (179, 1), (170, 8), (175, u32::MAX), (9, 0)];
    let mut tally = Tally::default();
    for choice in 0..8_usize.pow(4) {
        let [a, b, c, d] = [1, 8, 64, 512].map(|step| kinds[choice / step % 8]);
        let entries = [(0, 1, a.0, 0, a.1), (1, 1, b.0, 0, b.1)];
        let words = hand_words(4, 2, 0, 0, &entries, &[c, d]);
        let counting = |&(key, tier): &Member| key >= 170 && tier <= 7;
        let first = [a, b, c, d].into_iter().find(counting);
        let lost = [a, b, c, d].iter().filter(|kind| kind.0 != 0 && !counting(kind)).count() as u32;
        let expected = match first {
            Some((key, tier)) => {
                let entries = [(0, 1, key, key, tier), (1, 1, key, key, tier)];
                Ok((hand_words(4, 2, 0, 1, &entries, &[]), lost))
            }
            None if lost > 0 => Err(Refusal::NothingCounts),
            None => Ok((hand_words(4, 2, 0, 0, &[], &[]), 0)),
        };
        let tabulation = test_tabulation();
        assert_eq!(salvaged(&tabulation, &words), expected, "{a:?}, {b:?}, {c:?}, {d:?}");
        let at = [a, b, c, d].iter().position(counting);
        tally.add(at.map_or("none".to_string(), |at| format!("at {at}")));
    }
    tally.report("the first that counts", &["at 0", "at 1", "at 2", "at 3", "none"]);
}

/// Issues in all slots of a table and in the stash, in every order: only in its own slot an issue
/// counts, so the stash decides where that slot holds something else.
#[test]
fn a_key_counts_in_its_own_slot_only() {
    for issues in permutations(&[170, 173, 176, 179]) {
        for table in 0..2 {
            let entries: Vec<_> =
                (0..4).map(|index| (table, index, issues[index], 0, index as u32)).collect();
            let words = hand_words(4, 1, 0, 0, &entries, &[(178, 7)]);
            let stands = [(0, 1, issues[1], issues[1], 1), (1, 1, issues[1], issues[1], 1)];
            let expected = (hand_words(4, 1, 0, 1, &stands, &[]), 3);
            assert_eq!(salvaged(&test_tabulation(), &words), Ok(expected));
            let others: Vec<_> = entries.into_iter().filter(|entry| entry.1 != 1).collect();
            let words = hand_words(4, 1, 0, 0, &others, &[(178, 7)]);
            let stands = [(0, 1, 178, 178, 7), (1, 1, 178, 178, 7)];
            let expected = (hand_words(4, 1, 0, 1, &stands, &[]), 3);
            assert_eq!(salvaged(&test_tabulation(), &words), Ok(expected));
            let words = hand_words(4, 1, 0, 0, &others, &[]);
            assert_eq!(salvaged(&test_tabulation(), &words), Err(Refusal::NothingCounts));
        }
    }
    // The place in the other table is none: 30 has 0.3 and 1.0, so 0.0 and 1.3 are not its slots.
    for (table, index, own) in [(0, 3, true), (1, 0, true), (0, 0, false), (1, 3, false)] {
        let words = hand_words(4, 0, 0, 0, &[(table, index, 30, 30, 0)], &[]);
        assert_eq!(salvaged(&test_tabulation(), &words).is_ok(), own, "{table}.{index}");
    }
}

/// The numbers 0 to 12 in every place, under a tabulation that gives first parts 0 and 1 the first
/// slots, so that it is not the place that speaks against a blank number; tiers 0 to 9.
#[test]
fn blank_numbers_and_tiers_above_7_do_not_count() {
    let zeros = vec![0; 2_560];
    for key in 0..13 {
        for tier in 0..10 {
            let counts = key >= 10 && tier <= 7;
            let entries = [(0, 0, key, key, tier), (1, 0, key, key, tier)];
            let kept = (hand_words(3, 2, 0, 1, &entries, &[]), 0);
            let empty = (hand_words(3, 2, 0, 0, &[], &[]), 0);
            let expected = match key {
                0 => Ok(empty),
                _ if counts => Ok(kept),
                _ => Err(Refusal::NothingCounts),
            };
            for entry in entries {
                let words = hand_words(3, 2, 0, 1, &[entry], &[]);
                assert_eq!(salvaged(&zeros, &words), expected, "{entry:?}");
            }
            for stash in [[(key, tier), (0, 0)], [(0, 0), (key, tier)]] {
                let words = hand_words(3, 2, 0, 1, &[], &stash);
                assert_eq!(salvaged(&zeros, &words), expected, "{stash:?}");
            }
            // Beside a key that counts it is lost, or dropped as a copy.
            let beside = hand_words(3, 2, 0, 1, &entries[..1], &[(500, 1)]);
            let lost = u32::from(key != 0 && !counts);
            let answer = salvaged(&zeros, &beside).map(|(words, lost)| (words[2], lost));
            assert_eq!(answer, Ok((1 + u32::from(counts), lost)), "{key}, {tier}");
        }
    }
}

/// All s stash places are read, whatever word 3 says.
#[test]
fn every_stash_place_is_read() {
    let tabulation = test_tabulation();
    for s in [1, 2, 3, 64] {
        for place in 0..s {
            let mut words = hand_words(4, s as u32, 0, 0, &[], &[]);
            words[29 + 2 * place..][..2].copy_from_slice(&[170, 5]);
            let entries = [(0, 1, 170, 170, 5), (1, 1, 170, 170, 5)];
            let expected = hand_words(4, s as u32, 0, 1, &entries, &[]);
            for filled in [0, 1, place as u32, s as u32, s as u32 + 1, 65, u32::MAX] {
                words[3] = filled;
                assert_eq!(salvage_by(&Fast, &tabulation, &words), Ok((expected.clone(), 0)));
                // A blank number in another place is lost.
                let other = s - 1 - place;
                if other != place {
                    let mut more = words.clone();
                    more[29 + 2 * other] = 7;
                    assert_eq!(salvage_by(&Fast, &tabulation, &more), Ok((expected.clone(), 1)));
                }
            }
        }
        // As many keys as there are places, from the largest down to the smallest.
        let stash: Vec<Member> = (0..s as u32).map(|i| (10 * (200 - i) + i % 10, i % 8)).collect();
        let mut words = hand_words(4, s as u32, 0, 0, &[], &stash);
        words[3] = 0;
        let sorted: Vec<Member> = stash.iter().rev().copied().collect();
        let image = Fast.image(&tabulation, 4, s as u32, 0, &sorted).unwrap();
        assert_eq!(salvage_by(&Fast, &tabulation, &words), Ok((image, 0)), "s {s}");
    }
}

/// Garbage for a board: in each place nothing, a key that counts there, a small key, a blank number
/// or anything; with tiers up to 7 mostly.
fn garbage(tabulation: &[u16], shape: (u32, u32, u32), most: usize, rng: &mut Rng) -> Vec<u32> {
    let (r, s, station) = shape;
    let mut words = hand_words(r, s, station, 0, &[], &[]);
    let (empty_in, bad_in) = (1 + rng.below(8), 2 + rng.below(20));
    for (tier_at, key_at) in tier_words(&words) {
        let (any, bit) = (rng.next_u32(), 1 << rng.below(32));
        words[tier_at] = if rng.one_in(bad_in) {
            rng.pick(&[8, 9, 10, 256, bit, u32::MAX, any])
        } else {
            random_tier(rng)
        };
        if rng.one_in(empty_in) && !rng.one_in(4) {
            continue;
        }
        words[key_at] = if rng.one_in(bad_in) {
            rng.pick(&[1, 9, 10, bit, u32::MAX, any])
        } else if rng.one_in(4) {
            small_key(rng, most)
        } else {
            let small: Vec<u32> = (0..40).map(|_| small_key(rng, most)).collect();
            let counting = |&key: &u32| plain_counts(tabulation, &words, key_at, (key, 0));
            small.into_iter().find(counting).unwrap_or_else(|| small_key(rng, most))
        };
    }
    without_counts_and_next(&words, rng)
}

/// What must hold of the survivors of any words: they are a set; each was found in a place of its
/// own, one to a place; and so they fit.
fn assert_survivors_fit(tabulation: &[u16], words: &[u32]) {
    let shape = Shape::of(words).unwrap();
    let (r, s, station) = shape.numbers();
    let survivors = survivors(tabulation, shape, words);
    let mut places = BTreeSet::new();
    let mut stashed = 0;
    for survivor in &survivors {
        assert!(survivor.key >= 10 && survivor.tier <= 7, "{survivor:?}");
        assert!(places.insert(survivor.place), "one to a place: {survivor:?}");
        match survivor.place {
            Place::Slot(slot) => {
                assert_eq!(plain_place(tabulation, slot.table, words, survivor.key), slot.index);
            }
            Place::Stash(place) => {
                assert!(place < s);
                stashed += 1;
            }
        }
        let is_other = |other: &&Held| same_first_part(other.key, survivor.key);
        assert_eq!(survivors.iter().filter(is_other).count(), 1, "one issue: {survivor:?}");
    }
    let keys: Vec<u32> = survivors.iter().map(|survivor| survivor.key).collect();
    let stash = canonical_stash(tabulation, r, station, &keys).unwrap();
    assert!(stash.len() <= stashed, "no more than stood in the stash: {words:?}");
    assert!(placement(tabulation, r, s, station, &keys).unwrap().is_some(), "{words:?}");
}

/// Garbage of a right shape on small boards, where many keys collide: the second definition agrees,
/// the survivors fit, and the words written are a list that holds just them.
#[test]
fn garbage_is_salvaged_by_the_second_definition() {
    let mut rng = Rng::new(166);
    let mut tally = Tally::default();
    for _ in 0..12_000 {
        let (r, s) = (1 + rng.below(4) as u32, rng.below(4) as u32);
        let (station, values) = (random_station(&mut rng), 1 + rng.below(5));
        let (tabulation, most) = (random_tabulation(&mut rng, values), 2 + rng.below(11));
        let words = garbage(&tabulation, (r, s, station), most, &mut rng);
        let plain = Plain::of(&tabulation, &words);
        let given = salvaged(&tabulation, &words);
        assert_eq!(given, plain.salvaged(&tabulation, &words), "{words:?}");
        assert_survivors_fit(&tabulation, &words);
        let Ok((target, lost)) = given else {
            tally.add("15");
            continue;
        };
        assert_eq!(salvaged(&tabulation, &target), Ok((target.clone(), 0)), "{words:?}");
        let mut scratch = vec![0; (12 * r + 8 * s) as usize];
        assert_eq!(check(&Fast, &tabulation, &target, &mut scratch), Ok(()));
        assert_eq!(target[2] as usize, plain.survivors.len());
        for &(key, tier) in &plain.survivors {
            assert_eq!(lookup(&tabulation, &target, key), Ok(Found::Listed(tier)));
            assert!(matches!(lookup(&tabulation, &words, key), Ok(Found::Listed(_))));
        }
        tally.add(format!("lost {}", lost.min(3)));
        tally.add(format!("stash of {}", target[3].min(3)));
        tally.add(format!("survivors {}", plain.survivors.len().min(5)));
        tally.add(if plain.counting > target[2] { "copies" } else { "no copies" });
        if plain.survivors.len() as u32 == 2 * r + s {
            tally.add("every place filled");
        }
    }
    let wanted = [
        "15",
        "lost 0",
        "lost 1",
        "lost 3",
        "stash of 0",
        "stash of 1",
        "stash of 3",
        "survivors 0",
        "survivors 5",
        "copies",
        "no copies",
        "every place filled",
    ];
    tally.report("garbage", &wanted);
}

/// Request Eight: "The tool writes their canonical list": it is the one that inserts of the
/// survivors into a fresh list leave, in any order, and that a bulk load of them leaves. All of
/// them are accepted.
#[test]
fn the_survivors_can_be_inserted_and_bulk_loaded() {
    let mut rng = Rng::new(175);
    let mut tally = Tally::default();
    for _ in 0..1_200 {
        let (r, s) = (1 + rng.below(4) as u32, rng.below(4) as u32);
        let (tabulation, station) = (random_tabulation(&mut rng, 4), random_station(&mut rng));
        let words = garbage(&tabulation, (r, s, station), 12, &mut rng);
        let Ok((target, _)) = salvaged(&tabulation, &words) else {
            continue;
        };
        let mut survivors = Plain::of(&tabulation, &words).survivors;
        let mut list = Harness::new(&Fast, &tabulation, r, s, station);
        assert_eq!(list.bulk_load(r, s, station, &input(&survivors)), Ok(()), "{words:?}");
        assert_eq!(list.words, target, "{words:?}");
        let mut list = Harness::new(&Fast, &tabulation, r, s, station);
        rng.shuffle(&mut survivors);
        for &(key, tier) in &survivors {
            assert_eq!(list.insert(key, tier), Ok(()), "{survivors:?}");
        }
        assert_eq!(list.words, target, "{survivors:?}");
        tally.add(if target[3] > 0 { "with stash" } else { "without stash" });
    }
    tally.report("survivors laid", &["with stash", "without stash"]);
}

/// Request Eight: "The survivors always fit: show that." Every filling of small boards with few
/// keys, of which one has two issues, under every choice of places.
#[test]
fn survivors_fit_on_every_filling_of_small_boards() {
    let mut tally = Tally::default();
    let boards = [(1_usize, 0, 3), (1, 1, 3), (1, 2, 3), (2, 0, 3), (2, 1, 3), (2, 0, 4)];
    for (r, s, first_parts) in boards {
        let mut keys: Vec<u32> = (1..=first_parts).map(|first| 10 * first).collect();
        keys.extend([0, 19]);
        let places = 2 * r + s;
        for ends in 0..(r * r).pow(first_parts) {
            let ends = numbered_ends(ends, r, first_parts as usize);
            let tabulation = chosen_tabulation(&ends);
            for filling in 0..keys.len().pow(places as u32) {
                let (mut words, mut left) =
                    (hand_words(r as u32, s as u32, 3, 0, &[], &[]), filling);
                for (i, (tier_at, key_at)) in tier_words(&words).into_iter().enumerate() {
                    words[key_at] = keys[left % keys.len()];
                    words[tier_at] = i as u32;
                    left /= keys.len();
                }
                let plain = Plain::of(&tabulation, &words);
                let given = salvage_by(&Fast, &tabulation, &words);
                let answer = given.as_ref().map(|(target, lost)| (target[2] as usize, *lost));
                if plain.lost > 0 && plain.counting == 0 {
                    assert_eq!(answer, Err(&Refusal::NothingCounts), "{words:?}");
                    tally.add("15");
                } else {
                    assert_eq!(answer, Ok((plain.survivors.len(), plain.lost)), "{words:?}");
                    tally.add("salvaged");
                }
                if filling % 13 == 0 {
                    assert_eq!(given, plain.salvaged(&tabulation, &words), "{words:?}");
                    assert_survivors_fit(&tabulation, &words);
                }
            }
        }
    }
    tally.report("fillings", &["salvaged", "15"]);
}

/// Boards on which every place holds a key that counts there, all of different cards: as many
/// survivors as places. This is as full as a list can be.
#[test]
fn survivors_fit_where_every_place_is_filled() {
    let mut rng = Rng::new(167);
    let mut tally = Tally::default();
    for board in 0..800 {
        let large = board % 40 == 0;
        let (r, s) = if large {
            (20 + rng.below(100) as u32, rng.below(65) as u32)
        } else {
            (1 + rng.below(4) as u32, rng.below(4) as u32)
        };
        let (station, values) = (random_station(&mut rng), if large { 500 } else { 4 });
        let tabulation = random_tabulation(&mut rng, values);
        let mut words = hand_words(r, s, station, 0, &[], &[]);
        let mut taken = BTreeSet::new();
        let mut fill = |words: &mut Vec<u32>, tier_at: usize, key_at: usize| {
            for _ in 0..50_000 {
                let member = (rng.next_u32() >> rng.below(22), random_tier(&mut rng));
                if plain_counts(&tabulation, words, key_at, member) && taken.insert(member.0 / 10) {
                    (words[key_at], words[tier_at]) = member;
                    return true;
                }
            }
            false
        };
        let filled =
            tier_words(&words).iter().all(|&(tier_at, key_at)| fill(&mut words, tier_at, key_at));
        if !filled {
            tally.add("given up");
            continue;
        }
        let words = without_counts_and_next(&words, &mut rng);
        let (target, lost) = salvage_by(&Fast, &tabulation, &words).unwrap();
        assert_eq!((target[2], target[3], lost), (2 * r + s, s, 0));
        if !large {
            assert_eq!(salvage_by(&Slow, &tabulation, &words), Ok((target, lost)));
            assert_survivors_fit(&tabulation, &words);
        }
        tally.add(if large { "large" } else { "small" });
    }
    tally.report("filled boards", &["large", "small"]);
}

/// What has no say: numbers that do not count but for being lost, copies that do not stand, counts,
/// next numbers and tiers beside no number; and the order of the stash where no card comes twice.
#[test]
fn what_does_not_stand_has_no_say() {
    let mut rng = Rng::new(168);
    let mut tally = Tally::default();
    for _ in 0..2_000 {
        let (r, s) = (1 + rng.below(3) as u32, rng.below(4) as u32);
        let (tabulation, station) = (random_tabulation(&mut rng, 4), random_station(&mut rng));
        let words = garbage(&tabulation, (r, s, station), 9, &mut rng);
        let Ok((target, lost)) = salvage_by(&Fast, &tabulation, &words) else {
            continue;
        };
        let others = without_counts_and_next(&words, &mut rng);
        assert_eq!(salvage_by(&Fast, &tabulation, &others), Ok((target.clone(), lost)));
        let shape = Shape::of(&words).unwrap();
        let stands: Vec<Place> =
            survivors(&tabulation, shape, &words).iter().map(|held| held.place).collect();
        // All numbers that do not stand become zeros, one by one.
        let mut cleared = words.clone();
        let mut left = lost;
        let all = all_held(shape, &words).into_iter();
        for held in all.filter(|held| !stands.contains(&held.place)) {
            let counts = counts(&tabulation, shape, &held);
            cleared[position(shape, held.place)] = 0;
            left -= u32::from(!counts);
            let given = salvage_by(&Fast, &tabulation, &cleared);
            assert_eq!(given, Ok((target.clone(), left)), "{held:?} in {words:?}");
            tally.add(if counts { "copies" } else { "lost" });
        }
        for (tier_at, key_at) in tier_words(&cleared) {
            if cleared[key_at] == 0 {
                cleared[tier_at] = rng.next_u32();
            }
        }
        assert_eq!(salvage_by(&Fast, &tabulation, &cleared), Ok((target.clone(), 0)));
        let stash_at = 5 + 6 * r as usize;
        let mut stash: Vec<Member> =
            cleared[stash_at..].chunks(2).map(|place| (place[0], place[1])).collect();
        rng.shuffle(&mut stash);
        cleared.truncate(stash_at);
        cleared.extend(stash.into_iter().flat_map(|(key, tier)| [key, tier]));
        assert_eq!(salvage_by(&Fast, &tabulation, &cleared), Ok((target, 0)), "stash in any order");
        tally.add("boards");
    }
    tally.report("no say", &["boards", "copies", "lost"]);
}

/// The position of a place's key word.
fn position(shape: Shape, place: Place) -> usize {
    match place {
        Place::Slot(slot) => shape.slot_at(slot),
        Place::Stash(place) => shape.place_at(place as usize),
    }
}

/// 15 exactly where some number other than zero stands and none counts: a few numbers of which none
/// counts, and the same with one that does.
#[test]
fn fifteen_is_due_where_numbers_stand_and_none_counts() {
    let mut rng = Rng::new(169);
    let tabulation = test_tabulation();
    for _ in 0..1_500 {
        let s = rng.below(3) as u32;
        let mut words = hand_words(4, s, random_station(&mut rng), 0, &[], &[]);
        let places = tier_words(&words);
        let filled = rng.below(places.len() + 1);
        for _ in 0..filled {
            let (tier_at, key_at) = rng.pick(&places);
            let mut member = (small_key(&mut rng, 20).max(1), random_tier(&mut rng));
            if plain_counts(&tabulation, &words, key_at, member) {
                member = if rng.one_in(2) { (member.0 % 9 + 1, 0) } else { (member.0, 8) };
            }
            (words[key_at], words[tier_at]) = member;
        }
        let answer = salvaged(&tabulation, &words);
        if filled > 0 {
            assert_eq!(answer, Err(Refusal::NothingCounts), "{words:?}");
        } else {
            assert_eq!(answer, Ok((hand_words(4, s, words[4], 0, &[], &[]), 0)));
        }
        // One that counts, in a slot or the stash.
        let (tier_at, key_at) = rng.pick(&places);
        let counting = |&key: &u32| plain_counts(&tabulation, &words, key_at, (key, 0));
        let key = (10..2_560).find(counting).expect("each slot is the place of a key");
        (words[key_at], words[tier_at]) = (key, 4);
        let standing = places.iter().filter(|&&(_, other)| words[other] != 0).count() as u32;
        let answer = salvaged(&tabulation, &words).map(|(target, lost)| (target[2], lost));
        assert_eq!(answer, Ok((1, standing - 1)), "{words:?}");
    }
}

/// The smallest list: two slots, which are those of every key, and no stash.
#[test]
fn the_smallest_list() {
    let kinds = [(0, 0), (9, 0), (10, 0), (15, 7), (15, 8), (20, 1), (u32::MAX, 2)];
    let mut rng = Rng::new(170);
    let tabulation = random_tabulation(&mut rng, 65_536);
    for (first, first_tier) in kinds {
        for (second, second_tier) in kinds {
            let words = [1, 0, 5, 5, 99, first, 8, first_tier, second, 8, second_tier];
            let counts = |key: u32, tier: u32| key >= 10 && tier <= 7;
            let kept = match (counts(first, first_tier), counts(second, second_tier)) {
                (true, true) if first / 10 == second / 10 => vec![(first, first_tier)],
                (true, true) => vec![(first, first_tier), (second, second_tier)],
                (true, false) => vec![(first, first_tier)],
                (false, true) => vec![(second, second_tier)],
                (false, false) => vec![],
            };
            let lost = u32::from(first != 0 && !counts(first, first_tier))
                + u32::from(second != 0 && !counts(second, second_tier));
            // The smaller in table 0; a lone one in both.
            let expected = match (kept.iter().min(), kept.iter().max()) {
                (Some(&(a, at)), Some(&(b, bt))) => {
                    Ok((vec![1, 0, kept.len() as u32, 0, 99, a, b, at, b, a, bt], lost))
                }
                _ if lost > 0 => Err(Refusal::NothingCounts),
                _ => Ok((vec![1, 0, 0, 0, 99, 0, 0, 0, 0, 0, 0], 0)),
            };
            assert_eq!(salvaged(&tabulation, &words), expected, "{words:?}");
        }
    }
}

/// The largest lists: full ones, damaged ones and garbage, against the second definition.
#[test]
fn the_largest_lists() {
    let mut rng = Rng::new(171);
    let (r, s, station) = (1_024, 64, 255);
    // The slow engine on few keys.
    let entries = [(0, 5, 44, 0, 0), (1, 1_023, 44, 0, 0)];
    let mut words = hand_words(r, s, station, 0, &entries, &[]);
    let last = words.len() - 2;
    words[last..].copy_from_slice(&[u32::MAX, 7]);
    let image = Fast.image(&HOUSE, r, s, station, &[(u32::MAX, 7)]).unwrap();
    assert_eq!(salvaged(&HOUSE, &words), Ok((image, 2)));
    // A list as full as it gets by chance; then more and more of its words are overwritten.
    let mut keys = many_keys(&mut rng, 1_100);
    let mut image = None;
    while image.is_none() {
        keys.truncate(keys.len() * 49 / 50);
        image = Fast.image(&HOUSE, r, s, station, &random_tiers(&mut rng, &keys));
    }
    let mut words = image.unwrap();
    let mut survivors = words[2];
    for damage in [1, 10, 100, 1_000, 5_000] {
        for _ in 0..damage {
            let at = 5 + rng.below(words.len() - 5);
            words[at] = if rng.one_in(2) { rng.next_u32() } else { words[at] ^ 1 << rng.below(32) };
        }
        let plain = Plain::of(&HOUSE, &words);
        let image = Fast.image(&HOUSE, r, s, station, &plain.survivors).unwrap();
        let given = salvage_by(&Fast, &HOUSE, &words);
        assert_eq!(given, Ok((image.clone(), plain.lost)), "{damage} words damaged");
        assert_eq!(salvage_by(&Fast, &HOUSE, &image), Ok((image.clone(), 0)));
        assert!(damage < 100 || image[2] < survivors, "{damage} words damaged");
        survivors = image[2];
    }
    // All places filled: of the first parts 2k and 2k + 1 both sit in the slots k.
    let mut paired = vec![0; 2_560];
    for byte in 0..256 {
        for half in [0, 1_280] {
            paired[half + byte] = byte as u16 / 2;
            paired[half + 256 + byte] = 128 * byte as u16;
        }
    }
    let member = |first: u32| (10 * first + first % 10, first % 8);
    let all: Vec<Member> = (2..2 * r + 2 + s).map(member).collect();
    let words = Fast.image(&paired, r, s, station, &all).unwrap();
    assert_eq!(words[2..4], [2 * r + s, s]);
    assert_eq!(salvage_by(&Fast, &paired, &words), Ok((words.clone(), 0)));
    let mut swapped = words.clone();
    // The two tables the other way round: every key is in a slot of its own.
    let half = 3 * r as usize;
    swapped[5..5 + 2 * half].rotate_left(half);
    assert_eq!(salvage_by(&Fast, &paired, &swapped), Ok((words.clone(), 0)));
    // Each table moved on by one slot: only the stash counts.
    let mut moved = words.clone();
    moved[5..5 + half].rotate_left(3);
    moved[5 + half..5 + 2 * half].rotate_left(3);
    let stash = Fast.image(&paired, r, s, station, &all[2 * r as usize..]).unwrap();
    assert_eq!(salvage_by(&Fast, &paired, &moved), Ok((stash, 2 * r)));
    // Nothing counts at all: every place holds a blank number.
    for (tier_at, key_at) in tier_words(&words) {
        (moved[key_at], moved[tier_at]) = (1 + key_at as u32 % 9, 0);
    }
    assert_eq!(salvage_by(&Fast, &paired, &moved), Err(Refusal::NothingCounts));
}

/// What a salvage should answer but for 15, by the request's words and without `salvage`.
fn plain_refusal(tabulation_len: usize, words: &[u32], target: usize, sheet: usize) -> Option<u32> {
    let &[r, s, _, _, station, ..] = words else {
        return Some(if tabulation_len == 2_560 { 2 } else { 1 });
    };
    let [wide_r, wide_s] = [r, s].map(u64::from);
    match () {
        _ if tabulation_len != 2_560 => Some(1),
        _ if r == 0 || r > 1_024 || s > 64 || station > 255 => Some(2),
        _ if words.len() as u64 != 5 + 6 * wide_r + 2 * wide_s => Some(2),
        _ if target as u64 != 5 + 6 * wide_r + 2 * wide_s => Some(2),
        _ if (sheet as u64) < 12 * wide_r + 8 * wide_s => Some(3),
        _ => None,
    }
}

/// A number that is mostly this one, now and then one beside it or any up to twice as large.
fn mostly(number: usize, rng: &mut Rng) -> usize {
    match rng.below(40) {
        0 => number + 1,
        1 => number.saturating_sub(1),
        2 => rng.below(2 * number + 1),
        _ => number,
    }
}

/// Any lengths and content of everything: both engines give the same, and the answer is the
/// request's.
#[test]
fn salvage_answers_anything() {
    let mut rng = Rng::new(172);
    let mut tally = Tally::default();
    for _ in 0..8_000 {
        let (r, s) = (1 + rng.below(3) as u32, rng.below(3) as u32);
        let tabulation_len = mostly(2_560, &mut rng);
        let tabulation: Vec<u16> = (0..tabulation_len).map(|_| rng.below(5) as u16).collect();
        let station = random_station(&mut rng);
        let mut words = if rng.one_in(10) || tabulation_len != 2_560 {
            (0..rng.below(60)).map(|_| rng.next_u32() >> rng.below(32)).collect()
        } else {
            garbage(&tabulation, (r, s, station), 9, &mut rng)
        };
        let len = mostly(words.len(), &mut rng);
        words.resize(len, 0);
        if rng.one_in(20) && words.len() > 4 {
            let at = rng.pick(&[0, 1, 4]);
            words[at] = rng.pick(&[0, 1, 2, 65, 256, 1_025, u32::MAX]);
        }
        let target_len = mostly(words.len(), &mut rng);
        let sheet = mostly((12 * r + 8 * s) as usize, &mut rng);
        let target: Vec<u32> = (0..target_len).map(|_| rng.next_u32()).collect();
        let scratch: Vec<u32> = (0..sheet).map(|_| rng.next_u32()).collect();
        let [slow, fast] =
            engines().map(|(_, engine)| salvage_to(engine, &tabulation, &words, &target, &scratch));
        assert_eq!(slow, fast);
        let refusal = plain_refusal(tabulation_len, &words, target_len, sheet);
        let answer = number(slow.clone().map(|_| ()));
        match refusal {
            Some(refusal) => assert_eq!(answer, refusal, "{words:?}"),
            None => {
                let plain = Plain::of(&tabulation, &words);
                assert_eq!(slow, plain.salvaged(&tabulation, &words), "{words:?}");
            }
        }
        tally.add(format!("salvage {answer}"));
    }
    let wanted = ["salvage 0", "salvage 1", "salvage 2", "salvage 3", "salvage 15"];
    tally.report("any memory", &wanted);
}

/// A lookup in the damaged words and the survivors: a key that is found with a tier up to 7 stands
/// after the salvage, or another issue does.
#[test]
fn what_lookup_finds_survives() {
    let mut rng = Rng::new(173);
    let mut tally = Tally::default();
    for _ in 0..1_500 {
        let (r, s) = (1 + rng.below(3) as u32, rng.below(3) as u32);
        let (tabulation, station) = (random_tabulation(&mut rng, 4), random_station(&mut rng));
        let words = garbage(&tabulation, (r, s, station), 9, &mut rng);
        let after = salvage_by(&Fast, &tabulation, &words).map(|(target, _)| target);
        for key in 10..100 {
            let Ok(Found::Listed(tier)) = lookup(&tabulation, &words, key) else {
                if let Ok(target) = &after {
                    assert_eq!(lookup(&tabulation, target, key), Ok(Found::Absent));
                }
                continue;
            };
            if tier > 7 {
                continue;
            }
            let target = after.as_ref().expect("a key counts");
            let found = lookup(&tabulation, target, key).unwrap();
            if found == Found::Listed(tier) {
                tally.add("the key itself");
            } else {
                assert_eq!(found, Found::Absent, "its tier is that of the first copy");
                let is_listed =
                    |&other: &u32| lookup(&tabulation, target, other) != Ok(Found::Absent);
                let others = other_issues(key).into_iter().filter(is_listed).count();
                assert_eq!(others, 1, "{key} in {words:?}");
                tally.add("another issue");
            }
        }
    }
    tally.report("lookups", &["the key itself", "another issue"]);
}

/// The counters stand aside: a salvage between two counted calls moves nothing, and the list that
/// it wrote takes further calls.
#[test]
fn a_salvaged_list_goes_on_as_any_other() {
    for (_, engine) in engines() {
        let (words, after) = wet_board();
        let mut list = Harness::new(engine, &test_tabulation(), 4, 1, 5);
        let (target, lost) = salvage_by(engine, &list.tabulation, &words).unwrap();
        assert_eq!((&target, lost), (&after, 1));
        assert_eq!(list.counters, Counters { done: 1, refused: 0 });
        list.words = target;
        assert_eq!(list.check(), Ok(()));
        assert_eq!(list.insert(14, 3), Err(Refusal::Listed));
        assert_eq!(list.insert(15, 3), Err(Refusal::OtherIssue));
        assert_eq!(list.insert(20, 0), Ok(()), "the key that was lost");
        assert_eq!(list.remove(655), Ok(()));
        let salvaged = salvage_by(engine, &list.tabulation, &list.words);
        assert_eq!(salvaged, Ok((list.words.clone(), 0)));
        assert_eq!(list.counters, Counters { done: 3, refused: 2 });
    }
}

/// The reference model after an accepted salvage: it starts with the survivors, and a salvage of
/// its list gives the list and 0.
#[test]
fn the_model_starts_with_the_survivors() {
    let (tabulation_len, scratch_len, target_len) = (2_560, 56, 31);
    let (words, after) = wet_board();
    for (_, engine) in engines() {
        let mut model = Model::salvaged(engine, &test_tabulation(), &words).unwrap();
        assert_eq!(model.set(), &Set::from([(14, 3), (655, 6)]));
        assert_eq!(model.words(), after);
        for (tabulation_len, target_len, scratch_len, expected) in [
            (tabulation_len, target_len, scratch_len, Ok((after.clone(), 0))),
            (2_559, 30, 55, Err(Refusal::WrongTabulation)),
            (2_560, 30, 55, Err(Refusal::WrongShape)),
            (2_560, 32, 56, Err(Refusal::WrongShape)),
            (2_560, 31, 55, Err(Refusal::ShortScratch)),
        ] {
            let call = Call::Salvage { tabulation_len, target_len, scratch_len };
            assert_eq!(model.feed(&call), Reply::Salvage(expected));
        }
        // A refused salvage of other words to the list leaves the set.
        let refusal = Refusal::NothingCounts;
        assert_eq!(model.feed(&Call::Other { refusal }), Reply::Answer(Err(refusal)));
        let insert = Call::Insert { tabulation_len, scratch_len, key: 20, tier: 0 };
        assert_eq!(model.feed(&insert), Reply::Answer(Ok(())));
        let call = Call::Salvage { tabulation_len, target_len, scratch_len };
        assert_eq!(model.feed(&call), Reply::Salvage(Ok((model.words(), 0))));
        let (mut wrong, blank) = (words.clone(), hand_words(4, 1, 0, 1, &[(0, 1, 9, 9, 0)], &[]));
        wrong[4] = 256;
        for (len, words, refusal) in
            [(2_559, &wrong, 1), (2_560, &wrong, 2), (2_559, &blank, 1), (2_560, &blank, 15)]
        {
            let model = Model::salvaged(engine, &test_tabulation()[..len], words);
            assert_eq!(model.err().map(Refusal::number), Some(refusal));
        }
    }
}
