//! Request Two, the trail of a key: document 01's boards by hand, trail sheets of every length, the
//! request's sentences one by one on random boards, the two ways against each other, and how long a
//! trail can be.

use std::collections::BTreeSet;

use reference::answer::Refusal;
use reference::calls;
use reference::fast::Fast;
use reference::graph::{edges, reachable, Edge};
use reference::hash::{hashes, TABULATION_LEN};
use reference::house::HOUSE;
use reference::image::{Engine, Slow};
use reference::model::{Call, Model, Reply};
use reference::rng::Rng;
use reference::samples::{
    chosen_tabulation, random_keys, random_station, random_tabulation, random_tier, random_tiers,
    test_tabulation, tier_0,
};
use reference::set::Member;

use crate::common::{
    engines, many_keys, numbered_ends, on_cycle, other_issues, subset, Harness, Tally,
};

/// A board of the paper, or one of ours, on the test tabulation.
struct Board {
    name: &'static str,
    r: u32,
    s: u32,
    /// The trail of each key of the set.
    trails: &'static [&'static [u32]],
    /// The keys in the stash, whose trails are empty.
    stash: &'static [u32],
}

impl Board {
    fn keys(&self) -> Vec<u32> {
        self.trails.iter().map(|trail| trail[0]).chain(self.stash.iter().copied()).collect()
    }

    /// The list with this set, and with tiers that differ.
    fn list(&self, engine: &'static dyn Engine) -> Harness<'static> {
        let mut list = Harness::new(engine, &test_tabulation(), self.r, self.s, 0);
        for key in self.keys() {
            assert_eq!(list.insert(key, key % 8), Ok(()), "{}", self.name);
        }
        list
    }
}

/// The trails read off the paper's boards by hand: the pocket where a card sits stands there, its
/// other pocket is (card modulo 4) in rack 0 or (card/16 rounded down, modulo 4) in rack 1. Request
/// Six: "with every card multiplied by ten".
const BOARDS: [Board; 16] = [
    Board { name: "K1", r: 4, s: 1, trails: &[], stash: &[] },
    Board { name: "K2", r: 4, s: 1, trails: &[&[170]], stash: &[] },
    // No loop: 10 sits in 0.1 and 1.0. 170 sits in 1.1, its other pocket is 0.1.
    Board { name: "K3", r: 4, s: 1, trails: &[&[10], &[170, 10]], stash: &[] },
    Board { name: "K4", r: 4, s: 1, trails: &[&[10], &[650, 10]], stash: &[] },
    Board { name: "K5", r: 4, s: 1, trails: &[&[10], &[650, 10]], stash: &[1_290] },
    Board {
        name: "K6 with s = 2",
        r: 4,
        s: 2,
        trails: &[&[10], &[650, 10]],
        stash: &[1_290, 1_930],
    },
    Board { name: "K7", r: 4, s: 1, trails: &[&[10], &[1_290, 10]], stash: &[] },
    // The root is 650, which is not the smallest of the group.
    Board { name: "K8", r: 4, s: 1, trails: &[&[170, 650], &[650], &[1_290, 650]], stash: &[] },
    // 340 sits in 0.2; 1.2 holds 330, and 0.1 holds 10, the smaller one of the loop 10, 650.
    Board {
        name: "K9",
        r: 4,
        s: 1,
        trails: &[&[10], &[330, 10], &[340, 330, 10], &[650, 10]],
        stash: &[980],
    },
    // Two groups, a loop each.
    Board {
        name: "K10",
        r: 4,
        s: 1,
        trails: &[&[10], &[340], &[650, 10], &[980, 340]],
        stash: &[],
    },
    Board {
        name: "K11",
        r: 4,
        s: 1,
        trails: &[&[10], &[340, 2_250, 10], &[650, 10], &[2_250, 10]],
        stash: &[980],
    },
    Board { name: "K12", r: 1, s: 0, trails: &[&[30], &[2_000, 30]], stash: &[] },
    // No loop, and the root is reached from both its sides: 20 sits in 0.2, its other pocket is
    // 1.0.
    Board { name: "both sides", r: 4, s: 1, trails: &[&[10], &[20, 10], &[170, 10]], stash: &[] },
    // Loops 10, 1930 and 340, 980 with 330 between them. 1930 goes to the drawer, so 340, 980 is
    // the loop that the seated cards form: 340 sits in 0.2, 980 in 1.2, 330 in 0.1 and 10 in 1.0.
    // The root is 340, though 10 is on a loop of the group.
    Board {
        name: "loop of seated cards",
        r: 4,
        s: 1,
        trails: &[&[10, 330, 980, 340], &[330, 980, 340], &[340], &[980, 340]],
        stash: &[1_930],
    },
    // K9 with other issues.
    Board {
        name: "I9",
        r: 4,
        s: 1,
        trails: &[&[11], &[339, 11], &[340, 339, 11], &[658, 11]],
        stash: &[987],
    },
    // The edge, on a loop of two with 175.
    Board { name: "4,294,967,295", r: 4, s: 0, trails: &[&[175], &[u32::MAX, 175]], stash: &[] },
];

#[test]
fn boards_have_their_trails() {
    for (name, engine) in engines() {
        for board in &BOARDS {
            let list = board.list(engine);
            let words = list.words.clone();
            for &trail in board.trails {
                let found = list.trail(trail[0], 2 * board.r as usize);
                assert_eq!(found, Ok(trail.to_vec()), "{}, {name}", board.name);
            }
            for &key in board.stash {
                assert_eq!(list.trail(key, 2 * board.r as usize), Ok(vec![]), "{}", board.name);
            }
            let others = board.keys().into_iter().flat_map(other_issues);
            for key in others.chain([50, 970, 2_555, u32::MAX - 10]) {
                let refused = Err(Refusal::NotListed);
                assert_eq!(list.trail(key, 0), refused, "{}", board.name);
                assert_eq!(list.trail(key, 8), refused, "{}", board.name);
            }
            for key in 0..10 {
                assert_eq!(list.trail(key, 0), Err(Refusal::BlankKey), "{}", board.name);
                assert_eq!(list.trail(key, 8), Err(Refusal::BlankKey), "{}", board.name);
            }
            assert_eq!(list.words, words);
        }
    }
}

/// Exactly long enough, one short, longer; the sheet holds something else before.
#[test]
fn the_trail_sheet_needs_the_length_of_the_trail() {
    for (_, engine) in engines() {
        for board in &BOARDS {
            let list = board.list(engine);
            for &trail in board.trails {
                for len in 0..=trail.len() + 9 {
                    let enough = len >= trail.len();
                    let expected =
                        if enough { Ok(trail.to_vec()) } else { Err(Refusal::ShortTrailSheet) };
                    assert_eq!(list.trail(trail[0], len), expected, "{}, {len}", board.name);
                }
            }
            for &key in board.stash {
                for len in 0..9 {
                    assert_eq!(list.trail(key, len), Ok(vec![]), "{}: no length", board.name);
                }
            }
        }
    }
}

/// Request Two: "Its card numbers are written to a lent sheet, rest zeros"; every word by hand.
#[test]
fn the_words_of_the_trail_sheet_by_hand() {
    for (_, engine) in engines() {
        // K9.
        let list = BOARDS[8].list(engine);
        for (key, before, count, after) in [
            (340, &[7, 7, 7][..], Ok(3), &[340, 330, 10][..]),
            (340, &[7, 7], Err(Refusal::ShortTrailSheet), &[7, 7]),
            (340, &[], Err(Refusal::ShortTrailSheet), &[]),
            (340, &[980, 980, 980, 980, 0, 980], Ok(3), &[340, 330, 10, 0, 0, 0]),
            (10, &[u32::MAX, 340], Ok(1), &[10, 0]),
            (10, &[7], Ok(1), &[10]),
            (10, &[], Err(Refusal::ShortTrailSheet), &[]),
            (980, &[1, 2, 3], Ok(0), &[0, 0, 0]),
            (980, &[], Ok(0), &[]),
            (970, &[1, 2, 3], Err(Refusal::NotListed), &[1, 2, 3]),
            (341, &[1, 2, 3], Err(Refusal::NotListed), &[1, 2, 3]),
            (981, &[], Err(Refusal::NotListed), &[]),
            (0, &[1, 2, 3], Err(Refusal::BlankKey), &[1, 2, 3]),
            (9, &[1, 2, 3], Err(Refusal::BlankKey), &[1, 2, 3]),
        ] {
            let (mut scratch, mut trail_sheet) = (vec![5; 59], before.to_vec());
            let found = calls::trail(
                &engine,
                &list.tabulation,
                &list.words,
                &mut scratch,
                key,
                &mut trail_sheet,
            );
            assert_eq!((found, &trail_sheet[..]), (count, after), "{key}");
            assert_eq!(scratch, [0; 59]);
        }
    }
}

/// The scratch is long enough from 12r + 8s on, and words with one wrong word are refused.
#[test]
fn short_scratch_and_damaged_words_are_refused() {
    for (_, engine) in engines() {
        for board in &BOARDS {
            let mut list = board.list(engine);
            let (keys, words) = (board.keys(), list.words.clone());
            list.scratch_len -= 1;
            for &key in keys.iter().chain(&[0, 9, 50]) {
                assert_eq!(list.trail(key, 8), Err(Refusal::ShortScratch));
                assert_eq!(list.trail(key, 0), Err(Refusal::ShortScratch));
            }
            list.scratch_len += 1;
            list.tabulation.push(0);
            assert_eq!(list.trail(170, 8), Err(Refusal::WrongTabulation));
            list.tabulation.pop();
            for at in 0..words.len() {
                list.words = words.clone();
                list.words[at] ^= 1 << 20;
                let refusal = if [0, 1, 4].contains(&at) {
                    Refusal::WrongShape
                } else {
                    Refusal::NotCanonical
                };
                if list.check() != Err(refusal) {
                    // One stash key for another can be the image of another set.
                    assert!(list.check().is_ok() && at >= 5 + 6 * board.r as usize);
                    continue;
                }
                for &key in keys.iter().chain(&[0, 9, 50]) {
                    assert_eq!(list.trail(key, 8), Err(refusal), "{}, {at}", board.name);
                    assert_eq!(list.trail(key, 0), Err(refusal), "{}, {at}", board.name);
                }
            }
        }
    }
}

/// The key that a slot of the words holds, 0 for none; read off without the layout module.
fn held(words: &[u32], table: usize, index: u32) -> u32 {
    words[5 + 3 * (table * words[0] as usize + index as usize)]
}

/// The tables in whose slot the key sits.
fn tables_of(tabulation: &[u16], words: &[u32], key: u32) -> Vec<usize> {
    let own = hashes(tabulation, words[0], words[4], key).unwrap();
    (0..2).filter(|&table| held(words, table, own[table]) == key).collect()
}

/// Checks a trail of a stored key against the request's sentences, but for its end.
fn check_steps(tabulation: &[u16], words: &[u32], key: u32, trail: &[u32]) {
    assert_eq!(trail.first(), Some(&key), "the trail starts with the key");
    let once: BTreeSet<u32> = trail.iter().copied().collect();
    assert_eq!(once.len(), trail.len(), "no key twice");
    assert!(trail.len() <= 2 * words[0] as usize, "at most 2r");
    for pair in trail.windows(2) {
        let own = hashes(tabulation, words[0], words[4], pair[0]).unwrap();
        let [table] = tables_of(tabulation, words, pair[0])[..] else {
            panic!("{} is not the root and sits in one slot", pair[0])
        };
        let other = 1 - table;
        assert_eq!(pair[1], held(words, other, own[other]), "sits in the other slot");
        assert!(tables_of(tabulation, words, pair[1]).contains(&other), "from table to table");
    }
}

/// The root of a stored key's component, with `on_cycle` for the loop.
fn root(edges: &[Edge], stash: &[u32], key: u32) -> (u32, &'static str) {
    let own = edges.iter().find(|edge| edge.key == key).unwrap();
    let reached = reachable(edges, own.slots[0]);
    let component: Vec<Edge> =
        edges.iter().filter(|edge| reached.contains(&edge.slots[0])).copied().collect();
    let stored: Vec<Edge> =
        component.iter().filter(|edge| !stash.contains(&edge.key)).copied().collect();
    if !component.iter().any(|edge| on_cycle(&component, edge)) {
        return (component.iter().map(|edge| edge.key).min().unwrap(), "root of a tree");
    }
    let on_one = stored.iter().filter(|edge| on_cycle(&stored, edge)).map(|edge| edge.key);
    let on_any = component.iter().filter(|edge| on_cycle(&component, edge)).map(|edge| edge.key);
    let (root, of_all) = (on_one.min().unwrap(), on_any.min().unwrap());
    let smallest = stored.iter().map(|edge| edge.key).min().unwrap();
    let kind = match () {
        _ if root != of_all => "root is not the smallest on any cycle",
        _ if root != smallest => "root is not the smallest of its component",
        _ => "root of a cycle",
    };
    (root, kind)
}

/// Checks the trails of all keys of a set, by both engines and by the request's sentences.
fn check_board(
    tabulation: &[u16],
    r: u32,
    s: u32,
    station: u32,
    members: &[Member],
    tally: &mut Tally,
) {
    let Some(words) = Fast.image(tabulation, r, s, station, members) else {
        for (_, engine) in engines() {
            for key in (0..12).chain(members.iter().map(|&(key, _)| key)) {
                assert_eq!(engine.trail(tabulation, r, s, station, members, key), None, "no image");
            }
        }
        return tally.add("no image");
    };
    let keys: Vec<u32> = members.iter().map(|&(key, _)| key).collect();
    let edges = edges(tabulation, r, station, &keys).unwrap();
    let stash: Vec<u32> = words[5 + 6 * r as usize..].iter().copied().step_by(2).collect();
    for &key in &keys {
        let trail = Slow.trail(tabulation, r, s, station, members, key).expect("it is in the set");
        assert_eq!(
            Fast.trail(tabulation, r, s, station, members, key).as_ref(),
            Some(&trail),
            "{key}"
        );
        tally.add(format!("trail of {}", trail.len().min(5)));
        if stash.contains(&key) {
            assert_eq!(trail, [], "a stash key's trail is empty");
            continue;
        }
        check_steps(tabulation, &words, key, &trail);
        let (root, kind) = root(&edges, &stash, key);
        assert_eq!(trail.last(), Some(&root), "{kind}: r {r}, {station}, {members:?}, {key}");
        tally.add(kind);
        if root == key {
            tally.add("trail of the root");
        }
    }
    tally.add("boards");
}

#[test]
fn trails_on_random_small_boards() {
    let mut rng = Rng::new(101);
    let mut tally = Tally::default();
    for _ in 0..6_000 {
        let (r, s) = (1 + rng.below(6) as u32, rng.below(5) as u32);
        let (values, count) = (1 + rng.below(10), rng.below(11));
        let tabulation = random_tabulation(&mut rng, values);
        let keys = random_keys(&mut rng, count);
        let members = random_tiers(&mut rng, &keys);
        check_board(&tabulation, r, s, random_station(&mut rng), &members, &mut tally);
    }
    let wanted = [
        "boards",
        "no image",
        "trail of 0",
        "trail of 1",
        "trail of 2",
        "trail of 3",
        "trail of 4",
        "trail of 5",
        "trail of the root",
        "root of a tree",
        "root of a cycle",
        "root is not the smallest of its component",
        "root is not the smallest on any cycle",
    ];
    tally.report("trails", &wanted);
}

#[test]
fn trails_under_all_hashes() {
    let mut tally = Tally::default();
    for (r, most_keys) in [(1usize, 5), (2, 5), (3, 3)] {
        for count in 0..=most_keys {
            for number in 0..(r * r).pow(count as u32) {
                let ends = numbered_ends(number, r, count);
                let issue = |first: u32| (number as u32 + 3 * first) % 10;
                let keys: Vec<u32> =
                    (1..=count as u32).map(|first| 10 * first + issue(first)).collect();
                let (s, station) = ((number % 4) as u32, (number % 256) as u32);
                let tabulation = chosen_tabulation(&ends);
                check_board(&tabulation, r as u32, s, station, &tier_0(&keys), &mut tally);
            }
        }
    }
    tally.report("trails, all hashes", &["boards", "no image", "trail of 0", "trail of 4"]);
}

/// A key of another set, a blank key, another issue, or what no list has: no trail to work out, by
/// either engine.
#[test]
fn engines_give_no_trail_outside_the_set() {
    let tabulation = vec![0; TABULATION_LEN];
    for (_, engine) in engines() {
        for (len, r, s, station, members, key) in [
            (2_560, 1, 1, 9, &[(10, 0)][..], 20),
            (2_560, 1, 1, 9, &[(10, 0)], 0),
            (2_560, 1, 1, 9, &[(10, 0)], 11),
            (2_560, 1, 1, 9, &[(11, 0)], 10),
            (2_560, 1, 1, 9, &[(10, 0)], 1),
            (2_560, 1, 1, 9, &[], 10),
            (2_559, 1, 1, 0, &[(10, 0)], 10),
            (2_048, 1, 1, 0, &[(10, 0)], 10),
            (2_560, 0, 1, 0, &[(10, 0)], 10),
            (2_560, 1, 65, 0, &[(10, 0)], 10),
            (2_560, 1, 1, 256, &[(10, 0)], 10),
            (2_560, 1, 1, u32::MAX, &[(10, 0)], 10),
            (2_560, 1, 1, 9, &[(0, 0)], 0),
            (2_560, 1, 1, 9, &[(9, 0)], 9),
            (2_560, 1, 1, 9, &[(10, 8)], 10),
            (2_560, 1, 1, 9, &[(10, 0), (10, 1)], 10),
            (2_560, 1, 1, 9, &[(10, 0), (11, 0)], 10),
            (2_560, 1, 1, 9, &[(10, 0), (11, 0)], 11),
            (2_560, 1, 0, 9, &[(10, 0), (20, 0), (30, 0)], 10),
        ] {
            let trail = engine.trail(&tabulation[..len], r, s, station, members, key);
            assert_eq!(trail, None, "station {station}, {members:?}");
        }
        let any_order = [(30, 6), (19, 7), (20, 0), (30, 6), (19, 7)];
        for (key, trail) in [(19, vec![19]), (20, vec![20, 19]), (30, vec![])] {
            assert_eq!(engine.trail(&tabulation, 1, 1, 255, &any_order, key), Some(trail));
        }
    }
}

/// The trail depends on the keys alone, not on their tiers or on the free stash places.
#[test]
fn tiers_and_free_stash_places_change_no_trail() {
    let mut rng = Rng::new(102);
    let mut tally = Tally::default();
    for _ in 0..300 {
        let (r, tabulation) = (1 + rng.below(5) as u32, random_tabulation(&mut rng, 6));
        let (count, station) = (rng.below(9), random_station(&mut rng));
        let keys = subset(&random_keys(&mut rng, count), rng.below(1 << 9));
        let members = random_tiers(&mut rng, &keys);
        for &key in &keys {
            let plain = Slow.trail(&tabulation, r, 64, station, &tier_0(&keys), key);
            for (_, engine) in engines() {
                assert_eq!(engine.trail(&tabulation, r, 64, station, &members, key), plain);
                let fewer = engine.trail(&tabulation, r, count as u32, station, &members, key);
                assert_eq!(fewer, plain);
            }
            tally.add("keys");
        }
    }
    tally.report("trails with tiers", &["keys"]);
}

/// A tabulation under which first parts 1 to 2r form one cycle, for each r: first part k has the
/// hashes k/2 and (k + 1)/2 rounded down, so each has one slot in common with the one before it.
/// The fifth stretches are zero, so any station will do.
fn cycle_tabulation() -> Vec<u16> {
    let mut tabulation = vec![0; TABULATION_LEN];
    for byte in 0..256 {
        tabulation[byte] = byte as u16 / 2;
        tabulation[1_280 + byte] = (byte as u16).div_ceil(2);
        tabulation[256 + byte] = 128 * byte as u16;
        tabulation[1_536 + byte] = 128 * byte as u16;
    }
    tabulation
}

/// The key with first part k in the longest trails; the issues go from 1 to 9 and to 0 again.
fn kth(k: u32) -> u32 {
    10 * k + k % 10
}

/// The longest trails, keys by their first parts. On the cycle key 1, the root, sits in table 0, in
/// slot 0, which it has in common with key 2r. So key 2 sits in table 1, in the slot that it has in
/// common with key 1, and each key k in the slot in common with k - 1; key k's other slot is held
/// by k + 1. Without key 2r there is a path, key 1 sits in both its slots, and each key's other
/// slot leads down to it.
fn check_longest(engine: &dyn Engine, r: u32, tally: &mut Tally) {
    let (tabulation, station) = (cycle_tabulation(), r % 256);
    let keys: Vec<u32> = (1..=2 * r).map(kth).collect();
    let image = |keys: &[u32]| engine.image(&tabulation, r, 0, station, &tier_0(keys));
    let mut list = Harness {
        engine,
        words: image(&keys).expect("one cycle needs no stash"),
        tabulation: tabulation.clone(),
        scratch_len: 12 * r as usize,
        counters: Default::default(),
    };
    let longest: Vec<u32> = (2..=2 * r).chain([1]).map(kth).collect();
    assert_eq!(longest.len(), 2 * r as usize);
    assert_eq!(list.trail(kth(2), 2 * r as usize), Ok(longest.clone()), "2r is reached");
    assert_eq!(list.trail(kth(2), 2 * r as usize + 3), Ok(longest.clone()));
    assert_eq!(list.trail(kth(2), 2 * r as usize - 1), Err(Refusal::ShortTrailSheet));
    let middle = r as usize;
    assert_eq!(list.trail(longest[middle], 2 * r as usize), Ok(longest[middle..].to_vec()));
    assert_eq!(list.trail(kth(1), 1), Ok(vec![kth(1)]));
    let path = &keys[..keys.len() - 1];
    list.words = image(path).expect("a path needs no stash");
    let down: Vec<u32> = path.iter().rev().copied().collect();
    assert_eq!(list.trail(kth(2 * r - 1), path.len()), Ok(down.clone()), "a tree gives 2r - 1");
    assert_eq!(list.trail(kth(1), 1), Ok(vec![kth(1)]));
    if path.len() > 1 {
        assert_eq!(list.trail(kth(2 * r - 1), path.len() - 1), Err(Refusal::ShortTrailSheet));
    }
    tally.add("longest trails");
}

#[test]
fn trails_of_2r_keys_are_reached() {
    let mut tally = Tally::default();
    for r in 1..=5 {
        check_longest(&Slow, r, &mut tally);
    }
    for r in (1..=40).chain([127, 128, 129, 500, 1_023, 1_024]) {
        check_longest(&Fast, r, &mut tally);
    }
    tally.report("longest trails", &["longest trails"]);
}

/// The key after this one, on and on past the root; a key in both its slots stays.
fn step(tabulation: &[u16], words: &[u32], key: u32) -> u32 {
    match tables_of(tabulation, words, key)[..] {
        [table] => {
            let own = hashes(tabulation, words[0], words[4], key).unwrap();
            held(words, 1 - table, own[1 - table])
        }
        _ => key,
    }
}

/// The next number of a stored key.
fn next(tabulation: &[u16], words: &[u32], key: u32) -> u32 {
    let own = hashes(tabulation, words[0], words[4], key).unwrap();
    let table = tables_of(tabulation, words, key)[0];
    words[6 + 3 * (table * words[0] as usize + own[table] as usize)]
}

/// On lists too large for the definition the end of a trail is told by where the steps would lead
/// on: a tree's root sits in both its slots and is the smallest of its component by the next
/// numbers; any other root is come to again, and is the smallest of those passed on the way.
fn check_end(tabulation: &[u16], words: &[u32], root: u32) -> &'static str {
    let is_tree = tables_of(tabulation, words, root).len() == 2;
    let further = |key: &u32| {
        let further = if is_tree { next } else { step };
        Some(further(tabulation, words, *key)).filter(|&key| key != root)
    };
    let all: Vec<u32> = std::iter::successors(Some(root), further).take(2_049).collect();
    assert!(all.len() <= 2_048, "round and back");
    assert_eq!(all.iter().min(), Some(&root));
    if is_tree {
        "end of a tree"
    } else {
        "end of a cycle"
    }
}

#[test]
fn trails_on_full_size_lists() {
    let mut rng = Rng::new(103);
    let mut tally = Tally::default();
    let mixed = random_tabulation(&mut rng, 65_536);
    for tabulation in [&HOUSE[..], &mixed] {
        for count in [600, 1_000, 1_400] {
            let members: Vec<Member> = many_keys(&mut rng, count)
                .into_iter()
                .map(|key| (key, random_tier(&mut rng)))
                .collect();
            let station = 1 + rng.below(255) as u32;
            let Some(words) = Fast.image(tabulation, 1_024, 64, station, &members) else {
                tally.add("no image");
                continue;
            };
            let list = Harness {
                engine: &Fast,
                tabulation: tabulation.to_vec(),
                words,
                scratch_len: 12 * 1_024 + 8 * 64,
                counters: Default::default(),
            };
            let stash = calls::stash(&list.words);
            for (at, &(key, _)) in members.iter().enumerate() {
                let is_stashed = stash.iter().step_by(2).any(|&other| other == key);
                if !is_stashed && at % 10 != 0 {
                    continue;
                }
                let trail = list.trail(key, 2_048).expect("2r words are enough");
                assert_eq!(trail.is_empty(), is_stashed);
                tally.add(if is_stashed { "stash keys" } else { "stored keys" });
                if let Some(&last) = trail.last() {
                    check_steps(tabulation, &list.words, key, &trail);
                    tally.add(check_end(tabulation, &list.words, last));
                    tally.add(if trail.len() > 9 { "long trails" } else { "short trails" });
                }
            }
            tally.add("lists");
        }
    }
    let wanted = [
        "lists",
        "stash keys",
        "stored keys",
        "end of a tree",
        "end of a cycle",
        "long trails",
        "short trails",
    ];
    tally.report("trails, full size", &wanted);
}

/// The reference model by hand: it answers a trail from its own set, and the set stays.
#[test]
fn the_model_answers_trails() {
    let (tabulation_len, scratch_len) = (2_560, 56);
    let mut model = Model::new(Slow, &test_tabulation(), 4, 1, 0).unwrap();
    // K11.
    for key in [980, 2_250, 10, 340, 650] {
        let call = Call::Insert { tabulation_len, scratch_len, key, tier: 2 };
        assert_eq!(model.feed(&call), Reply::Answer(Ok(())));
    }
    let words = model.words();
    for (tabulation_len, scratch_len, key, trail_sheet_len, trail) in [
        (2_560, 56, 340, 3, Ok(vec![340, 2_250, 10])),
        (2_560, 99, 340, 9, Ok(vec![340, 2_250, 10])),
        (2_560, 56, 10, 1, Ok(vec![10])),
        (2_560, 56, 980, 0, Ok(vec![])),
        (2_560, 56, 340, 2, Err(Refusal::ShortTrailSheet)),
        (2_560, 56, 10, 0, Err(Refusal::ShortTrailSheet)),
        (2_560, 56, 330, 0, Err(Refusal::NotListed)),
        (2_560, 56, 349, 3, Err(Refusal::NotListed)),
        (2_560, 56, 981, 0, Err(Refusal::NotListed)),
        (2_560, 56, 0, 0, Err(Refusal::BlankKey)),
        (2_560, 56, 9, 3, Err(Refusal::BlankKey)),
        (2_560, 55, 0, 0, Err(Refusal::ShortScratch)),
        (2_559, 55, 0, 0, Err(Refusal::WrongTabulation)),
        (2_048, 56, 340, 3, Err(Refusal::WrongTabulation)),
    ] {
        let call = Call::Trail { tabulation_len, scratch_len, key, trail_sheet_len };
        assert_eq!(model.feed(&call), Reply::Trail(trail), "{call:?}");
        assert_eq!(model.words(), words);
    }
}
