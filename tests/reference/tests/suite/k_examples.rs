//! Document 01's "Cards on a test board": K1 to K12, each as the image of its set, as the result of
//! inserts in every order, as laid by one bulk load and as salvaged from itself, with both engines.
//! Request One: "Document 01's board has tier 0 throughout." Request Five: "The test board runs
//! with station 0". Request Six: "The test board [..] run[s] with every card multiplied by ten, but
//! for the edge 4,294,967,295." Then some of the boards with other tiers, T2 to T12, and with other
//! issues, I2 to I12.

use reference::answer::Refusal;
use reference::bulk::input;
use reference::rng::Rng;
use reference::samples::test_tabulation;
use reference::set::Member;

use crate::common::{engines, hand_words, permutations, HandEntry, Harness, Tally};
use crate::salvage::{salvage_to, salvaged, without_counts_and_next};

/// A board of the paper, or one with other tiers or issues. Next numbers the paper does not write
/// out follow from its rule.
struct Board {
    name: &'static str,
    r: u32,
    s: u32,
    members: &'static [Member],
    entries: &'static [HandEntry],
    stash: &'static [Member],
}

impl Board {
    fn words(&self) -> Vec<u32> {
        hand_words(self.r, self.s, 0, self.members.len() as u32, self.entries, self.stash)
    }
}

const K1: Board = Board { name: "K1", r: 4, s: 1, members: &[], entries: &[], stash: &[] };
const K2: Board = Board {
    name: "K2",
    r: 4,
    s: 1,
    members: &[(170, 0)],
    entries: &[(0, 1, 170, 170, 0), (1, 1, 170, 170, 0)],
    stash: &[],
};
const K3: Board = Board {
    name: "K3",
    r: 4,
    s: 1,
    members: &[(10, 0), (170, 0)],
    entries: &[(0, 1, 10, 170, 0), (1, 0, 10, 170, 0), (1, 1, 170, 10, 0)],
    stash: &[],
};
const K4: Board = Board {
    name: "K4",
    r: 4,
    s: 1,
    members: &[(10, 0), (650, 0)],
    entries: &[(0, 1, 10, 650, 0), (1, 0, 650, 10, 0)],
    stash: &[],
};
const K5: Board = Board {
    name: "K5",
    r: 4,
    s: 1,
    members: &[(10, 0), (650, 0), (1_290, 0)],
    entries: &[(0, 1, 10, 650, 0), (1, 0, 650, 10, 0)],
    stash: &[(1_290, 0)],
};
const K6_TWO_PLACES: Board = Board {
    name: "K6 with s = 2",
    r: 4,
    s: 2,
    members: &[(10, 0), (650, 0), (1_290, 0), (1_930, 0)],
    entries: &[(0, 1, 10, 650, 0), (1, 0, 650, 10, 0)],
    stash: &[(1_290, 0), (1_930, 0)],
};
const K7: Board = Board {
    name: "K7",
    r: 4,
    s: 1,
    members: &[(10, 0), (1_290, 0)],
    entries: &[(0, 1, 10, 1_290, 0), (1, 0, 1_290, 10, 0)],
    stash: &[],
};
const K8: Board = Board {
    name: "K8",
    r: 4,
    s: 1,
    members: &[(170, 0), (650, 0), (1_290, 0)],
    entries: &[(0, 1, 650, 1_290, 0), (1, 0, 1_290, 170, 0), (1, 1, 170, 650, 0)],
    stash: &[],
};
const K9: Board = Board {
    name: "K9",
    r: 4,
    s: 1,
    members: &[(10, 0), (330, 0), (340, 0), (650, 0), (980, 0)],
    entries: &[(0, 1, 10, 330, 0), (1, 0, 650, 10, 0), (1, 2, 330, 340, 0), (0, 2, 340, 650, 0)],
    stash: &[(980, 0)],
};
const K10: Board = Board {
    name: "K10",
    r: 4,
    s: 1,
    members: &[(10, 0), (340, 0), (650, 0), (980, 0)],
    entries: &[(0, 1, 10, 650, 0), (1, 0, 650, 10, 0), (0, 2, 340, 980, 0), (1, 2, 980, 340, 0)],
    stash: &[],
};
const K11: Board = Board {
    name: "K11",
    r: 4,
    s: 1,
    members: &[(10, 0), (340, 0), (650, 0), (980, 0), (2_250, 0)],
    entries: &[
        (0, 1, 10, 340, 0),
        (1, 0, 650, 2_250, 0),
        (0, 2, 340, 650, 0),
        (1, 2, 2_250, 10, 0),
    ],
    stash: &[(980, 0)],
};
const K12: Board = Board {
    name: "K12",
    r: 1,
    s: 0,
    members: &[(30, 0), (2_000, 0)],
    entries: &[(0, 0, 30, 2_000, 0), (1, 0, 2_000, 30, 0)],
    stash: &[],
};

const T2: Board = Board {
    name: "T2",
    r: 4,
    s: 1,
    members: &[(170, 5)],
    entries: &[(0, 1, 170, 170, 5), (1, 1, 170, 170, 5)],
    stash: &[],
};
const T3: Board = Board {
    name: "T3",
    r: 4,
    s: 1,
    members: &[(10, 7), (170, 2)],
    entries: &[(0, 1, 10, 170, 7), (1, 0, 10, 170, 7), (1, 1, 170, 10, 2)],
    stash: &[],
};
const T5: Board = Board {
    name: "T5",
    r: 4,
    s: 1,
    members: &[(10, 3), (650, 0), (1_290, 6)],
    entries: &[(0, 1, 10, 650, 3), (1, 0, 650, 10, 0)],
    stash: &[(1_290, 6)],
};
/// The larger stash key has the smaller tier: the stash is ascending by key.
const T6_TWO_PLACES: Board = Board {
    name: "T6 with s = 2",
    r: 4,
    s: 2,
    members: &[(10, 1), (650, 2), (1_290, 7), (1_930, 0)],
    entries: &[(0, 1, 10, 650, 1), (1, 0, 650, 10, 2)],
    stash: &[(1_290, 7), (1_930, 0)],
};
const T7: Board = Board {
    name: "T7",
    r: 4,
    s: 1,
    members: &[(10, 3), (1_290, 6)],
    entries: &[(0, 1, 10, 1_290, 3), (1, 0, 1_290, 10, 6)],
    stash: &[],
};
const T9: Board = Board {
    name: "T9",
    r: 4,
    s: 1,
    members: &[(10, 1), (330, 2), (340, 3), (650, 4), (980, 5)],
    entries: &[(0, 1, 10, 330, 1), (1, 0, 650, 10, 4), (1, 2, 330, 340, 2), (0, 2, 340, 650, 3)],
    stash: &[(980, 5)],
};
const T10: Board = Board {
    name: "T10",
    r: 4,
    s: 1,
    members: &[(10, 1), (340, 3), (650, 4), (980, 5)],
    entries: &[(0, 1, 10, 650, 1), (1, 0, 650, 10, 4), (0, 2, 340, 980, 3), (1, 2, 980, 340, 5)],
    stash: &[],
};
const T11: Board = Board {
    name: "T11",
    r: 4,
    s: 1,
    members: &[(10, 6), (340, 0), (650, 7), (980, 7), (2_250, 1)],
    entries: &[
        (0, 1, 10, 340, 6),
        (1, 0, 650, 2_250, 7),
        (0, 2, 340, 650, 0),
        (1, 2, 2_250, 10, 1),
    ],
    stash: &[(980, 7)],
};
const T12: Board = Board {
    name: "T12",
    r: 1,
    s: 0,
    members: &[(30, 7), (2_000, 1)],
    entries: &[(0, 0, 30, 2_000, 7), (1, 0, 2_000, 30, 1)],
    stash: &[],
};

/// The edge, which is not multiplied by ten. Its first part, 429,496,729, has the lowest byte 153.
const EDGE: Board = Board {
    name: "4,294,967,295",
    r: 4,
    s: 1,
    members: &[(u32::MAX, 0)],
    entries: &[(0, 1, u32::MAX, u32::MAX, 0), (1, 1, u32::MAX, u32::MAX, 0)],
    stash: &[],
};
/// The edge beside 170, which has the same places.
const EDGE_LOOP: Board = Board {
    name: "4,294,967,295 on a loop",
    r: 4,
    s: 1,
    members: &[(170, 2), (u32::MAX, 7)],
    entries: &[(0, 1, 170, u32::MAX, 2), (1, 1, u32::MAX, 170, 7)],
    stash: &[],
};

const I2: Board = Board {
    name: "I2",
    r: 4,
    s: 1,
    members: &[(179, 0)],
    entries: &[(0, 1, 179, 179, 0), (1, 1, 179, 179, 0)],
    stash: &[],
};
const I5: Board = Board {
    name: "I5",
    r: 4,
    s: 1,
    members: &[(19, 3), (650, 0), (1_295, 6)],
    entries: &[(0, 1, 19, 650, 3), (1, 0, 650, 19, 0)],
    stash: &[(1_295, 6)],
};
const I8: Board = Board {
    name: "I8",
    r: 4,
    s: 1,
    members: &[(171, 0), (659, 1), (1_290, 2)],
    entries: &[(0, 1, 659, 1_290, 1), (1, 0, 1_290, 171, 2), (1, 1, 171, 659, 0)],
    stash: &[],
};
/// 339 and 340 follow one another, with first parts 33 and 34.
const I9: Board = Board {
    name: "I9",
    r: 4,
    s: 1,
    members: &[(11, 0), (339, 0), (340, 0), (658, 0), (987, 0)],
    entries: &[(0, 1, 11, 339, 0), (1, 0, 658, 11, 0), (1, 2, 339, 340, 0), (0, 2, 340, 658, 0)],
    stash: &[(987, 0)],
};
const I10: Board = Board {
    name: "I10",
    r: 4,
    s: 1,
    members: &[(11, 0), (340, 0), (658, 0), (987, 0)],
    entries: &[(0, 1, 11, 658, 0), (1, 0, 658, 11, 0), (0, 2, 340, 987, 0), (1, 2, 987, 340, 0)],
    stash: &[],
};
const I12: Board = Board {
    name: "I12",
    r: 1,
    s: 0,
    members: &[(39, 7), (40, 1)],
    entries: &[(0, 0, 39, 40, 7), (1, 0, 40, 39, 1)],
    stash: &[],
};

const BOARDS: [&Board; 29] = [
    &K1,
    &K2,
    &K3,
    &K4,
    &K5,
    &K6_TWO_PLACES,
    &K7,
    &K8,
    &K9,
    &K10,
    &K11,
    &K12,
    &T2,
    &T3,
    &T5,
    &T6_TWO_PLACES,
    &T7,
    &T9,
    &T10,
    &T11,
    &T12,
    &EDGE,
    &EDGE_LOOP,
    &I2,
    &I5,
    &I8,
    &I9,
    &I10,
    &I12,
];

#[test]
fn boards_are_the_images_of_their_sets() {
    for (name, engine) in engines() {
        for board in BOARDS {
            let image = engine.image(&test_tabulation(), board.r, board.s, 0, board.members);
            assert_eq!(image, Some(board.words()), "{}, {name}", board.name);
        }
        for board in [K6_TWO_PLACES, T6_TWO_PLACES] {
            let k6 = engine.image(&test_tabulation(), 4, 1, 0, board.members);
            assert_eq!(k6, None, "{}, but s = 1, {name}", board.name);
        }
    }
}

#[test]
fn boards_come_from_inserts_in_every_order() {
    let mut tally = Tally::default();
    for (name, engine) in engines() {
        for board in BOARDS {
            for order in permutations(board.members) {
                let mut list = Harness::new(engine, &test_tabulation(), board.r, board.s, 0);
                for &(key, tier) in &order {
                    assert_eq!(list.insert(key, tier), Ok(()), "{} {order:?}, {name}", board.name);
                }
                assert_eq!(list.words, board.words(), "{} {order:?}, {name}", board.name);
                assert_eq!(list.check(), Ok(()));
                tally.add("orders");
            }
        }
    }
    tally.report("K boards by inserts", &["orders"]);
}

/// Request Seven: "The image equals, word by word, that of adding the same cards with their tiers
/// to a list laid alike". Each board is laid over all boards of its length, itself included.
#[test]
fn boards_are_laid_by_one_bulk_load() {
    for (name, engine) in engines() {
        for board in BOARDS {
            let mut list = Harness::new(engine, &test_tabulation(), board.r, board.s, 0);
            let len = list.words.len();
            for before in BOARDS.into_iter().filter(|before| before.words().len() == len) {
                list.words = before.words();
                let answer = list.bulk_load(board.r, board.s, 0, &input(board.members));
                let boards = format!("{} over {}, {name}", board.name, before.name);
                assert_eq!(answer, Ok(()), "{boards}");
                assert_eq!(list.words, board.words(), "{boards}");
            }
            assert_eq!(list.check(), Ok(()));
        }
        // K6 with s = 1, and K12 with a third key before, between and after the two.
        let mut list = Harness::new(engine, &test_tabulation(), 4, 1, 0);
        for board in [K6_TWO_PLACES, T6_TWO_PLACES] {
            let answer = list.bulk_load(4, 1, 0, &input(board.members));
            assert_eq!(answer, Err(Refusal::FullStash), "{}, but s = 1, {name}", board.name);
        }
        let mut list = Harness::new(engine, &test_tabulation(), 1, 0, 0);
        for board in [K12, T12] {
            for third in [10, 1_000, 2_010, u32::MAX] {
                let mut members = [board.members, &[(third, 0)]].concat();
                members.sort_unstable();
                let answer = list.bulk_load(1, 0, 0, &input(&members));
                assert_eq!(answer, Err(Refusal::FullStash), "{} and {third}, {name}", board.name);
            }
        }
    }
}

/// Request Eight: "An untampered list gives itself and 0." Each board is written over all boards of
/// its length; its counts and next numbers have no say. Nor have they with zeros in their place, or
/// with one of a key's two copies gone.
#[test]
fn boards_are_salvaged_as_themselves() {
    let (mut rng, tabulation) = (Rng::new(174), test_tabulation());
    for board in BOARDS {
        let (words, itself) = (board.words(), Ok((board.words(), 0)));
        for before in BOARDS.into_iter().filter(|before| before.words().len() == words.len()) {
            for (name, engine) in engines() {
                let given = salvage_to(engine, &tabulation, &words, &before.words(), &[9; 64]);
                assert_eq!(given, itself, "{} over {}, {name}", board.name, before.name);
            }
        }
        for _ in 0..20 {
            let others = without_counts_and_next(&words, &mut rng);
            assert_eq!(salvaged(&tabulation, &others), itself, "{}, {others:?}", board.name);
        }
        let copies = |key: u32| board.entries.iter().filter(move |entry| entry.2 == key).count();
        for &(table, index, key, ..) in board.entries.iter().filter(|entry| copies(entry.2) == 2) {
            let mut others = words.clone();
            let at = 5 + 3 * (table * board.r as usize + index);
            others[at..at + 3].fill(0);
            assert_eq!(salvaged(&tabulation, &others), itself, "{}, {key} once", board.name);
        }
    }
}

/// A list that was filled with a board's keys.
fn filled(engine: &'static dyn reference::image::Engine, board: &Board) -> Harness<'static> {
    let mut list = Harness::new(engine, &test_tabulation(), board.r, board.s, 0);
    for &(key, tier) in board.members {
        assert_eq!(list.insert(key, tier), Ok(()));
    }
    assert_eq!(list.words, board.words());
    list
}

#[test]
fn k6_is_refused_with_one_stash_place() {
    for (_, engine) in engines() {
        let mut list = filled(engine, &K5);
        assert_eq!(list.insert(1_930, 0), Err(Refusal::FullStash));
        assert_eq!(list.words, K5.words());
        let mut list = filled(engine, &T5);
        for tier in 0..=7 {
            assert_eq!(list.insert(1_930, tier), Err(Refusal::FullStash));
        }
        assert_eq!(list.words, T5.words());
        let mut list = filled(engine, &I5);
        for key in 1_930..=1_939 {
            assert_eq!(list.insert(key, 0), Err(Refusal::FullStash));
        }
        assert_eq!(list.words, I5.words());
    }
}

#[test]
fn k7_and_k10_bring_the_stash_key_back() {
    for (_, engine) in engines() {
        for (before, key, after) in
            [(&K5, 650, &K7), (&K9, 330, &K10), (&T5, 650, &T7), (&T9, 330, &T10), (&I9, 339, &I10)]
        {
            let mut list = filled(engine, before);
            assert_eq!(list.remove(key), Ok(()));
            assert_eq!(list.words, after.words(), "{} to {}", before.name, after.name);
        }
    }
}

#[test]
fn k12_takes_two_keys_and_refuses_a_third() {
    for (_, engine) in engines() {
        for board in [K12, T12, I12] {
            for order in permutations(board.members) {
                let mut list = Harness::new(engine, &test_tabulation(), 1, 0, 0);
                for (key, tier) in order {
                    assert_eq!(list.insert(key, tier), Ok(()));
                }
                assert_eq!(list.words, board.words());
                for third in [10, 1_000, 2_010, u32::MAX] {
                    assert_eq!(list.insert(third, 0), Err(Refusal::FullStash));
                    assert_eq!(list.insert(third, 7), Err(Refusal::FullStash));
                }
            }
        }
    }
}

#[test]
fn removes_lead_back_to_k1_from_every_board() {
    for (_, engine) in engines() {
        for board in BOARDS {
            let mut list = filled(engine, board);
            for &(key, _) in board.members {
                assert_eq!(list.remove(key), Ok(()), "{}", board.name);
            }
            assert_eq!(list.words, hand_words(board.r, board.s, 0, 0, &[], &[]), "{}", board.name);
        }
    }
}
