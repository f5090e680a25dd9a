//! Request Nine, the stolen list: lists and starts written out by hand; every refusal, with every
//! other that can be due beside it; all lists of few slots over few numbers; one start for all
//! keys; all orders of small sets; images in four ways; damage of every kind; lookups on any words;
//! stations and tabulations other than those a list was written under; full and largest lists; and
//! sequences against the reference model.

use std::collections::{BTreeMap, BTreeSet};

use reference::answer::{number, Refusal};
use reference::house::HOUSE;
use reference::rng::Rng;
use reference::samples::{
    chosen_tabulation, random_issue, random_keys, random_station, random_tabulation,
    test_tabulation,
};
use reference::stolen::displacement::{self, image_by_passes, is_image};
use reference::stolen::model::Model;
use reference::stolen::{image, insert, lay, listed_keys, lookup, way, Keys};

use crate::common::{many_keys, permutations, subset, Tally};

/// Makes an insert in both ways, which must agree in answer and words, and checks what every insert
/// promises beside its answer: a refusal leaves the words; accepted, one word fewer is 0 and the
/// key stands. Gives the paper's number.
fn insert_to(tabulation: &[u16], words: &mut [u32], station: u32, key: u32) -> u32 {
    let before = words.to_vec();
    let mut displaced = before.clone();
    let answer = insert(tabulation, words, station, key);
    let displaced_answer = displacement::insert(tabulation, &mut displaced, station, key);
    assert_eq!(displaced_answer, answer, "{before:?}, {station}, {key}: the two ways");
    assert_eq!(displaced, words, "{before:?}, {station}, {key}: the two ways");
    if answer.is_err() {
        assert_eq!(words, before, "a refusal leaves the words");
    } else {
        assert_eq!(zeros(words) + 1, zeros(&before), "an insert fills one slot");
        assert!(words.contains(&key) && !before.contains(&key), "it is the key that came");
    }
    number(answer)
}

fn zeros(words: &[u32]) -> usize {
    words.iter().filter(|&&word| word == 0).count()
}

/// Words after inserts into a freshly laid list, each of which must be accepted.
fn inserted(tabulation: &[u16], r: usize, station: u32, keys: &[u32]) -> Vec<u32> {
    let mut words = vec![7; r];
    assert_eq!(lay(&mut words), Ok(()));
    for &key in keys {
        assert_eq!(insert_to(tabulation, &mut words, station, key), 0, "{keys:?}: {key}");
    }
    words
}

/// The start of a key, said another way: not by `hash`.
fn plain_start(tabulation: &[u16], r: usize, station: u32, key: u32) -> usize {
    let digits = key as usize / 10;
    let bytes = [digits % 256, digits / 256 % 256, digits / 65_536 % 256, digits / 16_777_216];
    let mut sum = usize::from(tabulation[1_024 + (bytes[0] + station as usize) % 256]);
    for (stretch, byte) in bytes.into_iter().enumerate() {
        sum += usize::from(tabulation[256 * stretch + byte]);
    }
    sum % r
}

/// The image of a set, said another way; there must be no more keys than slots.
fn plain_image(tabulation: &[u16], r: usize, station: u32, keys: &[u32]) -> Vec<u32> {
    let ascending: BTreeSet<u32> = keys.iter().copied().collect();
    assert!(ascending.len() <= r);
    let mut words = vec![0; r];
    for key in ascending {
        let mut slot = plain_start(tabulation, r, station, key);
        while words[slot] != 0 {
            slot = if slot == r - 1 { 0 } else { slot + 1 };
        }
        words[slot] = key;
    }
    words
}

/// Whether words are the image of a set, said another way: of the set of all that stands in them.
fn plain_is_image(tabulation: &[u16], words: &[u32], station: u32) -> bool {
    let standing: Vec<u32> = words.iter().copied().filter(|&word| word != 0).collect();
    standing.iter().all(|&key| key > 9)
        && plain_image(tabulation, words.len(), station, &standing) == words
}

/// What a lookup says, said another way: with the words turned such that the key's start comes
/// first, nothing but smaller numbers other than 0 stands before the key's first copy.
fn plain_lookup(tabulation: &[u16], words: &[u32], station: u32, key: u32) -> bool {
    let mut turned = words.to_vec();
    turned.rotate_left(plain_start(tabulation, words.len(), station, key));
    let first = turned.iter().position(|&word| word == key);
    first.is_some_and(|first| turned[..first].iter().all(|word| (1..key).contains(word)))
}

/// A tabulation under which the keys with first part v start at `starts[v]` at every station; in
/// table 1 they have another hash.
fn starting(starts: &[u16]) -> Vec<u16> {
    let hashes: Vec<[u16; 2]> = starts.iter().map(|&start| [start, start + 1]).collect();
    chosen_tabulation(&hashes)
}

/// All choices of starts below r for the first parts 1 to `count`; first part 0 starts at 0.
fn all_starts(r: usize, count: u32) -> Vec<Vec<u16>> {
    let chosen = |choice: usize| {
        let mut left = choice;
        let mut starts = vec![0];
        for _ in 0..count {
            starts.push((left % r) as u16);
            left /= r;
        }
        starts
    };
    (0..r.pow(count)).map(chosen).collect()
}

/// All lists of this many slots with these numbers.
fn all_lists(numbers: &[u32], r: usize) -> Vec<Vec<u32>> {
    let mut lists = vec![Vec::new()];
    for _ in 0..r {
        let longer = |list: Vec<u32>| {
            numbers.iter().map(move |&number| [&list[..], &[number]].concat()).collect::<Vec<_>>()
        };
        lists = lists.into_iter().flat_map(longer).collect();
    }
    lists
}

/// The images of all sets over these keys that fit, each with its set.
fn all_images(
    tabulation: &[u16],
    r: usize,
    station: u32,
    keys: &[u32],
) -> BTreeMap<Vec<u32>, Vec<u32>> {
    let sets = (0..1 << keys.len()).map(|mask| subset(keys, mask)).filter(|set| set.len() <= r);
    let with_image = |set: Vec<u32>| (plain_image(tabulation, r, station, &set), set);
    sets.map(with_image).collect()
}

/// Random keys in random order, several issues of a first part among them: small ones half of the
/// time.
fn random_issues(rng: &mut Rng, count: usize) -> Vec<u32> {
    let first_parts = random_keys(rng, count.min(100));
    let mut keys = BTreeSet::new();
    while keys.len() < count {
        let key = rng.pick(&first_parts);
        keys.insert(random_issue(rng, key));
    }
    let mut keys: Vec<u32> = keys.into_iter().collect();
    rng.shuffle(&mut keys);
    keys
}

/// A random tabulation: now and then the house's or one with a single start for all keys, else one
/// whose starts crowd or spread.
fn any_tabulation(rng: &mut Rng) -> Vec<u16> {
    match rng.below(8) {
        0 => HOUSE.to_vec(),
        1 => vec![rng.below(65_536) as u16; 2_560],
        2..=4 => random_tabulation(rng, 2),
        _ => random_tabulation(rng, 65_536),
    }
}

/// A random canonical list with its tabulation and its station; at times full or empty.
fn random_list(rng: &mut Rng, most: usize) -> (Vec<u16>, u32, Vec<u32>) {
    let (tabulation, station, r) = (any_tabulation(rng), random_station(rng), 1 + rng.below(most));
    let count = if rng.one_in(4) { r } else { rng.below(r + 1) };
    let keys = random_issues(rng, count);
    let words = plain_image(&tabulation, r, station, &keys);
    (tabulation, station, words)
}

/// Keys, in the order in which they are inserted, and the words that they leave.
type Example<'a> = (&'a str, &'a [u32], &'a [u32]);

/// Document 01's test board, worked out by hand: a card 10v, and each issue of it, starts at v
/// modulo the length, as long as v is below 256.
#[rustfmt::skip]
const EXAMPLES: [Example; 16] = [
    ("no key", &[], &[0, 0, 0, 0]),
    ("one slot", &[42], &[42]),
    ("two slots, one start, round the end", &[10, 30], &[30, 10]),
    ("two slots, one start, the smaller key last", &[30, 10], &[30, 10]),
    ("two slots, two starts", &[30, 20], &[20, 30]),
    ("one start, the smallest last", &[90, 50, 10], &[0, 10, 50, 90]),
    ("20 takes its start, and two keys step on", &[90, 50, 10, 20], &[90, 10, 20, 50]),
    ("issues of one first part", &[19, 11, 14], &[0, 11, 14, 19]),
    ("an issue in the start of another key", &[11, 20, 12], &[0, 11, 12, 20, 0]),
    ("it is v that counts, not the number", &[36, 31], &[0, 0, 0, 31, 36, 0, 0, 0]),
    ("a whole run steps on", &[10, 20, 30, 11], &[0, 10, 11, 20, 30, 0]),
    ("a run that steps on round the end", &[20, 50, 21], &[21, 50, 20]),
    ("a smaller key starts behind the end", &[20, 50, 30], &[30, 50, 20]),
    ("two runs that come together", &[40, 45, 50, 100, 101, 30], &[50, 100, 101, 30, 40, 45]),
    ("keys that never meet", &[30, 90, 10], &[0, 10, 0, 30, 0, 0, 0, 0, 0, 90]),
    ("the largest key: the lowest byte of v is 153", &[4_294_967_295, 50],
        &[0, 50, 4_294_967_295, 0]),
];

#[test]
fn lists_written_out_by_hand() {
    for (name, keys, words) in EXAMPLES {
        for station in [0, 255] {
            let set: Keys = keys.iter().copied().collect();
            assert_eq!(inserted(&test_tabulation(), words.len(), station, keys), words, "{name}");
            assert_eq!(listed_keys(&test_tabulation(), words, station), Some(set), "{name}");
            for key in 10..=100 {
                let found = lookup(&test_tabulation(), words, station, key);
                assert_eq!(found, Ok(keys.contains(&key)), "{name}: {key}");
            }
        }
    }
    assert_eq!(Refusal::FullTable.number(), 16);
}

/// Starts under the house tabulation, worked out from the paper's rules: r, station, key, start.
const HOUSE_STARTS: [(usize, u32, u32, usize); 12] = [
    (1_024, 0, 10, 194),
    (1_024, 0, 19, 194),
    (1_024, 0, 20, 251),
    (1_024, 1, 10, 493),
    (1_024, 255, 10, 80),
    (1_024, 255, 20, 976),
    (1_000, 7, 123_456_789, 146),
    (1_024, 0, 4_294_967_295, 57),
    (1_023, 255, 4_294_967_295, 148),
    (2, 0, 10, 0),
    (3, 100, 2_560, 2),
    (1, 0, 10, 0),
];

#[test]
fn starts_under_the_house_tabulation() {
    for (r, station, key, start) in HOUSE_STARTS {
        let mut alone = vec![0; r];
        alone[start] = key;
        assert_eq!(inserted(&HOUSE, r, station, &[key]), alone, "{r}, {station}, {key}");
        assert_eq!(plain_start(&HOUSE, r, station, key), start, "{r}, {station}, {key}");
    }
}

/// A way is one full round: every slot once, from the start on, and no slot a second time.
#[test]
fn the_way_of_a_key() {
    for r in 1..=9 {
        for start in 0..r {
            let tabulation = starting(&[0, start as u16, 0]);
            let mut round: Vec<usize> = (0..r).collect();
            round.rotate_left(start);
            for key in [10, 13, 19] {
                let way = way(&tabulation, r as u32, 0, key).unwrap();
                // More than a round is cut off, so that it shows and does not go on for ever.
                assert_eq!(way.take(3 * r).collect::<Vec<usize>>(), round, "{r}, {start}, {key}");
            }
        }
    }
    let refused = |tabulation: &[u16], r, station, key| {
        way(tabulation, r, station, key).map(|_| ()).map_err(Refusal::number)
    };
    let tabulation = test_tabulation();
    assert_eq!(refused(&tabulation[1..], 0, 256, 9), Err(1));
    assert_eq!(refused(&tabulation, 0, 0, 9), Err(2));
    assert_eq!(refused(&tabulation, 1_025, 0, 10), Err(2));
    assert_eq!(refused(&tabulation, 1, 256, 9), Err(2));
    assert_eq!(refused(&tabulation, 1, 255, 9), Err(5));
    assert_eq!(refused(&tabulation, 1_024, 255, 10), Ok(()));
}

#[test]
fn a_lay_gives_zeros_or_2() {
    for r in [1, 2, 3, 1_023, 1_024] {
        let mut words: Vec<u32> = (0..r).map(|at| u32::MAX - at).collect();
        assert_eq!(lay(&mut words), Ok(()), "{r}");
        assert_eq!(words, vec![0; r as usize], "{r}");
    }
    for r in [0, 1_025, 2_048, 65_537] {
        let before: Vec<u32> = (0..r).map(|at| at % 3).collect();
        let mut words = before.clone();
        assert_eq!(lay(&mut words), Err(Refusal::WrongShape), "{r}");
        assert_eq!(words, before, "{r}: a refusal leaves the words");
    }
}

/// Words with which a call can be refused, and whether they are an image under the test board; a
/// length that no list has makes them none.
fn lists_for_refusals() -> Vec<(Vec<u32>, bool)> {
    vec![
        (vec![0, 0, 0], true),
        (vec![0, 10, 40], true),
        (vec![30, 10, 20], true),
        (vec![70, 10, 40], true),
        (vec![10], true),
        // No image: a key behind a gap, one behind a larger key, a blank one, a copy; and full lists
        // with a wrong start and with the last three.
        (vec![10, 0, 0], false),
        (vec![0, 40, 10], false),
        (vec![0, 10, 5], false),
        (vec![0, 10, 10], false),
        (vec![10, 20, 30], false),
        (vec![70, 40, 10], false),
        (vec![9, 10, 40], false),
        (vec![10, 10, 20], false),
        (vec![5], false),
        // Lengths that no list has.
        (vec![], false),
        (vec![0; 1_025], false),
        (vec![10; 1_025], false),
        (vec![5; 2_048], false),
        (plain_image(&test_tabulation(), 1_025, 0, &[10, 40]), false),
    ]
}

/// All faults of a call, by the paper's numbers and in its order, whether or not they can be due at
/// once.
fn faults(tabulation_len: usize, words: &[u32], image: bool, station: u32, key: u32) -> Vec<u32> {
    let wrong_shape = !(1..=1_024).contains(&words.len()) || station > 255;
    let all = [
        (1, tabulation_len != 2_560),
        (2, wrong_shape),
        (4, !image),
        (5, key < 10),
        (6, key != 0 && words.contains(&key)),
        (16, !words.contains(&0)),
    ];
    all.into_iter().filter(|&(_, due)| due).map(|(number, _)| number).collect()
}

/// The refusals that can be due at once.
#[rustfmt::skip]
const PAIRS: [&str; 15] = [
    "1 with 2", "1 with 4", "1 with 5", "1 with 6", "1 with 16",
    "2 with 4", "2 with 5", "2 with 6", "2 with 16",
    "4 with 5", "4 with 6", "4 with 16",
    "5 with 6", "5 with 16",
    "6 with 16",
];

#[test]
fn refusals_in_their_order() {
    let mut tally = Tally::default();
    for tabulation_len in [2_560, 0, 1_280, 2_048, 2_559, 2_561] {
        let mut tabulation = test_tabulation();
        tabulation.resize(tabulation_len, 0);
        for (words, is_image) in lists_for_refusals() {
            for station in [0, 255, 256, 65_536, u32::MAX] {
                for key in [0, 1, 5, 9, 10, 40, 70, 11, 100, u32::MAX] {
                    let faults = faults(tabulation_len, &words, is_image, station, key);
                    let given = format!("{tabulation_len}, {words:?}, {station}, {key}");
                    let mut new_words = words.clone();
                    let answer = insert_to(&tabulation, &mut new_words, station, key);
                    assert_eq!(answer, faults.first().copied().unwrap_or(0), "{given}");
                    tally.add(format!("insert {answer}"));
                    for (at, first) in faults.iter().enumerate() {
                        for second in &faults[at + 1..] {
                            tally.add(format!("{first} with {second}"));
                        }
                    }
                    let found = lookup(&tabulation, &words, station, key);
                    let refusal = faults.iter().copied().find(|number| [1, 2, 5].contains(number));
                    match refusal {
                        Some(refusal) => {
                            assert_eq!(found.map_err(Refusal::number), Err(refusal), "{given}");
                            tally.add(format!("lookup {refusal}"));
                        }
                        None => {
                            let says = plain_lookup(&tabulation, &words, station, key);
                            assert_eq!(found, Ok(says), "{given}");
                            tally.add(format!("lookup {says}"));
                        }
                    }
                }
            }
        }
    }
    let inserts = ["insert 0", "insert 1", "insert 2", "insert 4", "insert 5", "insert 6"];
    let lookups = ["lookup 1", "lookup 2", "lookup 5", "lookup true", "lookup false"];
    let wanted = [&inserts[..], &["insert 16"], &lookups, &PAIRS];
    tally.report("refusals of a stolen list", &wanted.concat());
}

/// What an insert should give on words of which it is known whether they are an image, and of
/// which set.
fn expected_insert(
    tabulation: &[u16],
    words: &[u32],
    station: u32,
    key: u32,
    set: Option<&Vec<u32>>,
) -> (u32, Vec<u32>) {
    let unchanged = |number| (number, words.to_vec());
    match set {
        None => unchanged(4),
        Some(_) if key < 10 => unchanged(5),
        Some(set) if set.contains(&key) => unchanged(6),
        Some(set) if set.len() == words.len() => unchanged(16),
        Some(set) => {
            (0, plain_image(tabulation, words.len(), station, &[&set[..], &[key]].concat()))
        }
    }
}

/// All lists of these numbers, of which those that are no keys are blank: 4 is due exactly where
/// the list is not among the images of all sets, and all else follows from the set.
fn try_all_lists(tabulation: &[u16], r: usize, station: u32, numbers: &[u32], tally: &mut Tally) {
    let keys: Vec<u32> = numbers.iter().copied().filter(|&number| number > 9).collect();
    let images = all_images(tabulation, r, station, &keys);
    let fitting = (0..1_usize << keys.len()).filter(|mask| mask.count_ones() as usize <= r);
    assert_eq!(images.len(), fitting.count(), "two sets never have the same image");
    for words in all_lists(numbers, r) {
        let set = images.get(&words);
        let listed = listed_keys(tabulation, &words, station);
        assert_eq!(listed, set.map(|set| set.iter().copied().collect()), "{words:?}");
        assert_eq!(is_image(tabulation, &words, station), set.is_some(), "{words:?}");
        for &key in numbers.iter().chain(&[7, 29, u32::MAX]) {
            let expected = expected_insert(tabulation, &words, station, key, set);
            let mut new_words = words.clone();
            let answer = insert_to(tabulation, &mut new_words, station, key);
            assert_eq!((answer, new_words), expected, "{words:?}, {key}");
            tally.add(format!("insert {answer}"));
            if key > 9 {
                let says = plain_lookup(tabulation, &words, station, key);
                assert_eq!(lookup(tabulation, &words, station, key), Ok(says), "{words:?}, {key}");
                let is_listed = set.map(|set| set.contains(&key));
                assert!(is_listed.is_none_or(|listed| listed == says), "{words:?}, {key}");
                tally.add(format!("lookup {says}"));
            }
        }
    }
}

const ALL_WAYS_OUT: [&str; 7] =
    ["insert 0", "insert 4", "insert 5", "insert 6", "insert 16", "lookup true", "lookup false"];

#[test]
fn all_lists_of_up_to_three_slots_with_all_starts() {
    let mut tally = Tally::default();
    for r in 1..=3 {
        for starts in all_starts(r, 3) {
            try_all_lists(&starting(&starts), r, 0, &[0, 9, 10, 11, 25, 30], &mut tally);
        }
    }
    tally.report("all lists of up to three slots", &ALL_WAYS_OUT);
}

#[test]
fn all_lists_of_four_slots_with_some_starts() {
    let mut tally = Tally::default();
    for starts in [[0, 0, 0, 0], [0, 3, 3, 3], [0, 1, 0, 1], [0, 3, 3, 0], [0, 2, 1, 0]] {
        try_all_lists(&starting(&starts), 4, 0, &[0, 1, 10, 19, 20, 30], &mut tally);
    }
    tally.report("all lists of four slots", &ALL_WAYS_OUT);
}

/// Under a tabulation of zeros all keys start in slot 0. Then a list is an image exactly when it is
/// some keys, strictly rising, and zeros behind them.
#[test]
fn one_start_for_all_keys() {
    let mut tally = Tally::default();
    let tabulation = vec![0; 2_560];
    for r in 1..=5 {
        for words in all_lists(&[0, 9, 10, 11, 12, 200], r) {
            let filled = words.iter().take_while(|&&word| word != 0).count();
            let (keys, rest) = words.split_at(filled);
            let rising = keys.windows(2).all(|pair| pair[0] < pair[1]);
            let canonical =
                rising && keys.iter().all(|&key| key > 9) && rest.iter().all(|&word| word == 0);
            assert_eq!(listed_keys(&tabulation, &words, 9).is_some(), canonical, "{words:?}");
            assert_eq!(is_image(&tabulation, &words, 9), canonical, "{words:?}");
            tally.add(format!("canonical {canonical}"));
        }
    }
    // The same start, but another one: the list is turned, and may go round the end.
    for start in 0..4 {
        let turned = vec![start; 2_560];
        let mut words = vec![10, 11, 12, 0];
        // Five entries make a start: four for the bytes and one for the station.
        words.rotate_right(usize::from(start) * 5 % 4);
        assert_eq!(inserted(&turned, 4, 3, &[12, 10, 11]), words, "{start}");
    }
    tally.report("one start for all keys", &["canonical true", "canonical false"]);
}

/// Every order of every small set with every choice of starts leaves the image of the set, and each
/// insert on the way that of the keys so far.
#[test]
fn all_orders_of_small_sets() {
    let mut tally = Tally::default();
    for r in 1..=4 {
        for starts in all_starts(r, 3) {
            let tabulation = starting(&starts);
            for mask in 1..16 {
                let keys = subset(&[15, 20, 34, 37], mask);
                if keys.len() > r {
                    continue;
                }
                let image = plain_image(&tabulation, r, 0, &keys);
                for order in permutations(&keys) {
                    let mut words = vec![0; r];
                    for key in order {
                        assert_eq!(insert_to(&tabulation, &mut words, 0, key), 0);
                    }
                    assert_eq!(words, image, "{starts:?}, {keys:?}");
                    tally.add(format!("{} keys", keys.len()));
                }
            }
        }
    }
    tally.report("orders of small sets", &["1 keys", "2 keys", "3 keys", "4 keys"]);
}

#[test]
fn images_in_four_ways() {
    let mut rng = Rng::new(901);
    let mut tally = Tally::default();
    for _ in 0..150 {
        let (tabulation, station, words) = random_list(&mut rng, 40);
        let r = words.len() as u32;
        let mut keys: Vec<u32> = words.iter().copied().filter(|&word| word != 0).collect();
        let set: Keys = keys.iter().copied().collect();
        assert_eq!(image(&tabulation, r, station, &set).as_ref(), Some(&words));
        assert_eq!(image_by_passes(&tabulation, r, station, &set).as_ref(), Ok(&words));
        rng.shuffle(&mut keys);
        assert_eq!(inserted(&tabulation, words.len(), station, &keys), words);
        let wraps = |&key: &u32| {
            let start = plain_start(&tabulation, words.len(), station, key);
            words[..start].contains(&key)
        };
        tally.add(if keys.iter().any(wraps) { "round the end" } else { "not round the end" });
        tally.add(if keys.len() == words.len() { "full" } else { "not full" });
        for key in random_issues(&mut rng, 20) {
            let found = lookup(&tabulation, &words, station, key);
            assert_eq!(found, Ok(set.contains(&key)), "{words:?}, {key}");
        }
        for key in keys {
            assert_eq!(lookup(&tabulation, &words, station, key), Ok(true), "{words:?}, {key}");
        }
    }
    let wanted = ["round the end", "not round the end", "full", "not full"];
    tally.report("images of stolen lists", &wanted);
}

/// Where a set has no image.
#[test]
fn sets_without_an_image() {
    let tabulation = test_tabulation();
    let set = |keys: &[u32]| keys.iter().copied().collect::<Keys>();
    let image_of = |keys: &[u32], r, station| image(&tabulation, r, station, &set(keys));
    assert_eq!(image_of(&[10, 11], 2, 255), Some(vec![11, 10]));
    assert_eq!(image_of(&[10, 11, 12], 2, 255), None, "more keys than slots");
    assert_eq!(image_of(&[9, 10], 2, 255), None, "a blank key");
    assert_eq!(image_of(&[0], 2, 255), None, "a blank key");
    for (r, station) in [(0, 0), (1_025, 0), (u32::MAX, 0), (2, 256), (2, u32::MAX)] {
        assert_eq!(image_of(&[], r, station), None, "{r}, {station}");
        assert_eq!(image_of(&[10], r, station), None, "{r}, {station}");
    }
    assert_eq!(image(&tabulation[1..], 2, 0, &set(&[])), None, "a short tabulation");
    assert_eq!(listed_keys(&tabulation, &[], 0), None, "no slots");
    assert_eq!(listed_keys(&tabulation, &[0; 1_025], 0), None, "too many slots");
    assert_eq!(listed_keys(&tabulation, &[0; 2], 256), None, "a wrong station");
    assert_eq!(listed_keys(&tabulation, &[0; 2], 255), Some(Keys::new()));
}

/// One way to damage words. `None` where it does not apply; it may also change nothing.
type Damage = fn(&mut Rng, &[u32]) -> Option<Vec<u32>>;

/// A random slot that holds a key.
fn filled_slot(rng: &mut Rng, words: &[u32]) -> Option<usize> {
    let filled: Vec<usize> = (0..words.len()).filter(|&slot| words[slot] != 0).collect();
    (!filled.is_empty()).then(|| rng.pick(&filled))
}

/// A random slot that is empty.
fn empty_slot(rng: &mut Rng, words: &[u32]) -> Option<usize> {
    let empty: Vec<usize> = (0..words.len()).filter(|&slot| words[slot] == 0).collect();
    (!empty.is_empty()).then(|| rng.pick(&empty))
}

fn with_word(words: &[u32], slot: usize, word: u32) -> Vec<u32> {
    let mut words = words.to_vec();
    words[slot] = word;
    words
}

/// A random number from `least` to `most`.
fn between(rng: &mut Rng, least: u32, most: u32) -> u32 {
    least + rng.below((most - least) as usize + 1) as u32
}

/// All kinds of damage, and whether what is left can still be an image: of the set without the key,
/// with another one in its place, or with one more. With the same keys in other slots it cannot.
const DAMAGES: [(&str, bool, Damage); 12] = [
    ("zeroed", true, |rng, words| Some(with_word(words, filled_slot(rng, words)?, 0))),
    ("smaller", true, |rng, words| {
        let slot = filled_slot(rng, words)?;
        let less = words[slot].checked_sub(1).filter(|&less| less > 9)?;
        Some(with_word(words, slot, between(rng, 10, less)))
    }),
    ("larger", true, |rng, words| {
        let slot = filled_slot(rng, words)?;
        let more = words[slot].checked_add(1)?;
        Some(with_word(words, slot, between(rng, more, u32::MAX)))
    }),
    ("one more or less", true, |rng, words| {
        let slot = filled_slot(rng, words)?;
        let other = if rng.one_in(2) { words[slot] - 1 } else { words[slot].saturating_add(1) };
        Some(with_word(words, slot, other))
    }),
    ("another issue", true, |rng, words| {
        let slot = filled_slot(rng, words)?;
        let issue = random_issue(rng, words[slot]);
        Some(with_word(words, slot, issue))
    }),
    ("one more key", true, |rng, words| {
        let key = rng.next_u32().max(10);
        Some(with_word(words, empty_slot(rng, words)?, key))
    }),
    ("blank", false, |rng, words| {
        let blank = 1 + rng.below(9) as u32;
        Some(with_word(words, rng.below(words.len()), blank))
    }),
    ("blank instead of a key", false, |rng, words| {
        let blank = 1 + rng.below(9) as u32;
        Some(with_word(words, filled_slot(rng, words)?, blank))
    }),
    ("copy of a key in another slot", false, |rng, words| {
        let key = words[filled_slot(rng, words)?];
        Some(with_word(words, rng.below(words.len()), key))
    }),
    ("copy of a key in an empty slot", false, |rng, words| {
        let key = words[filled_slot(rng, words)?];
        Some(with_word(words, empty_slot(rng, words)?, key))
    }),
    ("swapped", false, |rng, words| {
        let mut swapped = words.to_vec();
        swapped.swap(rng.below(words.len()), rng.below(words.len()));
        Some(swapped)
    }),
    ("turned", false, |rng, words| {
        let mut turned = words.to_vec();
        turned.rotate_left(rng.below(words.len()));
        Some(turned)
    }),
];

#[test]
fn damaged_lists() {
    let mut rng = Rng::new(902);
    let mut tally = Tally::default();
    for _ in 0..250 {
        let (tabulation, station, words) = random_list(&mut rng, 12);
        for (name, can_be_image, damage) in DAMAGES {
            let Some(damaged) = damage(&mut rng, &words) else {
                continue;
            };
            if damaged == words {
                continue;
            }
            let canonical = plain_is_image(&tabulation, &damaged, station);
            assert!(can_be_image || !canonical, "{name}: {damaged:?}");
            assert_eq!(is_image(&tabulation, &damaged, station), canonical, "{damaged:?}");
            assert_eq!(listed_keys(&tabulation, &damaged, station).is_some(), canonical);
            // 4 comes before all that is due for the key, whatever key it is.
            for key in [0, 9, damaged[0], rng.next_u32(), words[rng.below(words.len())]] {
                let mut new_words = damaged.clone();
                let answer = insert_to(&tabulation, &mut new_words, station, key);
                assert_eq!(answer == 4, !canonical, "{name}: {damaged:?}, {key}");
            }
            tally.add(format!("{name}: {}", if canonical { "an image" } else { "none" }));
        }
    }
    let outcomes = DAMAGES.iter().flat_map(|&(name, can_be_image, _)| {
        let image = can_be_image.then(|| format!("{name}: an image"));
        [Some(format!("{name}: none")), image].into_iter().flatten()
    });
    let wanted: Vec<String> = outcomes.collect();
    tally.report("damage", &wanted.iter().map(String::as_str).collect::<Vec<_>>());
}

/// A list in which every single word is changed to numbers near its keys and of every start, and
/// which of them leave an image, worked out by hand: the number itself must come to its slot past
/// smaller keys alone, and it must not be in the way of a key behind it as a larger one or an empty
/// slot.
#[test]
fn every_word_of_a_list_changed() {
    let tabulation = test_tabulation();
    let words = inserted(&tabulation, 7, 0, &[40, 45, 50, 110, 20]);
    assert_eq!(words, [110, 0, 20, 0, 40, 45, 50]);
    let near = [0, 1, 9, 10, 19, 20, 29, 30, 39, 40, 44, 46, 49, 51, 59, 60, 109, 111, 120, 179];
    let leaving_images: [&[u32]; 7] = [
        &[0, 51, 59, 60, 111, 120],
        &[0, 10, 19, 111, 120],
        &[0, 20, 29],
        &[0, 29, 30, 39, 109, 179],
        &[40, 44],
        &[44, 46, 49],
        &[46, 49, 51, 59, 60],
    ];
    for (slot, leaving_image) in leaving_images.into_iter().enumerate() {
        for number in near {
            let mut changed = with_word(&words, slot, number);
            let canonical = leaving_image.contains(&number);
            assert_eq!(listed_keys(&tabulation, &changed, 0).is_some(), canonical, "{changed:?}");
            assert_eq!(is_image(&tabulation, &changed, 0), canonical, "{changed:?}");
            let expected = if canonical { 5 } else { 4 };
            assert_eq!(insert_to(&tabulation, &mut changed, 0, 7), expected, "{changed:?}");
        }
    }
}

#[test]
fn lookups_on_any_words() {
    let mut rng = Rng::new(903);
    let mut tally = Tally::default();
    for _ in 0..1_500 {
        let (tabulation, station, r) =
            (any_tabulation(&mut rng), random_station(&mut rng), 1 + rng.below(10));
        let numbers = [0, 1, 9, 10, 11, 19, 20, 300, 301, u32::MAX - 1, u32::MAX];
        let rare_zeros = rng.one_in(2);
        let any = |rng: &mut Rng| rng.pick(&numbers[usize::from(rare_zeros)..]);
        let words: Vec<u32> = (0..r).map(|_| any(&mut rng)).collect();
        for &key in &numbers {
            let found = lookup(&tabulation, &words, station, key);
            if key < 10 {
                assert_eq!(found, Err(Refusal::BlankKey), "{words:?}, {key}");
                continue;
            }
            let says = plain_lookup(&tabulation, &words, station, key);
            assert_eq!(found, Ok(says), "{words:?}, {key}");
            let stands = if words.contains(&key) { "stands" } else { "does not stand" };
            tally.add(format!("{stands}: {says}"));
            if words.iter().all(|&word| (1..key).contains(&word)) {
                tally.add("full round");
            }
        }
    }
    let wanted = ["stands: true", "stands: false", "does not stand: false", "full round"];
    tally.report("lookups on any words", &wanted);
}

/// Each way in which a lookup ends, by hand; keys start as on the test board.
#[test]
fn lookups_by_hand() {
    let says = |words: &[u32], key| lookup(&test_tabulation(), words, 0, key).unwrap();
    // At the start, behind smaller keys, behind blank numbers, round the end.
    assert!(says(&[0, 10, 0], 10));
    assert!(says(&[0, 10, 40], 40));
    assert!(!says(&[0, 1, 9, 40], 50));
    assert!(says(&[0, 1, 9, 50], 50));
    assert!(says(&[50, 1, 9, 10], 50));
    assert!(says(&[20, 40, 5, 39], 40));
    // An empty slot, a larger key or a full round before it; a smaller one does not end it.
    assert!(!says(&[0, 0, 50, 0], 50));
    assert!(!says(&[0, 51, 50, 0], 50));
    assert!(says(&[0, 49, 50, 0], 50));
    assert!(!says(&[10, 11, 12, 13], 50));
    assert!(!says(&[10], 50));
    assert!(!says(&[0], 50));
    assert!(says(&[50], 50));
    // Another issue of the key is another key, be it smaller or larger.
    assert!(!says(&[0, 51, 0, 0], 50));
    assert!(!says(&[0, 51, 0, 0], 52));
    assert!(says(&[0, 51, 52, 0], 52));
}

/// The station moves the start: the fifth stretch's entry is that at the lowest byte of the first
/// part plus the station, modulo 256.
#[test]
fn the_station_moves_the_start() {
    let mut tabulation = vec![0; 2_560];
    for v in 0..256 {
        tabulation[1_024 + v] = v as u16;
        tabulation[2_304 + v] = 7;
    }
    for station in 0..=255 {
        for key in [10, 19, 1_230, 2_559, 2_560, 4_294_967_295] {
            let words = inserted(&tabulation, 256, station, &[key]);
            let start = (key / 10 + station) as usize % 256;
            assert_eq!(words[start], key, "{station}, {key}");
        }
    }
}

/// A list is that of one station: zeros are a list of every station, and another station finds the
/// keys of a list elsewhere, unless its starts are the same.
#[test]
fn other_stations() {
    let tabulation = HOUSE.to_vec();
    let keys = [1_230, 4_560, 7_890, 1_239];
    let words = inserted(&tabulation, 64, 5, &keys);
    let mut found_elsewhere = 0;
    for station in 0..=255 {
        let mut zeros = vec![0; 64];
        assert_eq!(insert_to(&tabulation, &mut zeros, station, 1_230), 0, "{station}");
        let mut filled = words.clone();
        let expected = if station == 5 { 0 } else { 4 };
        assert_eq!(insert_to(&tabulation, &mut filled, station, 50), expected, "{station}");
        let mut again = words.clone();
        let expected = if station == 5 { 6 } else { 4 };
        assert_eq!(insert_to(&tabulation, &mut again, station, 4_560), expected, "{station}");
        for key in keys {
            let says = lookup(&tabulation, &words, station, key).unwrap();
            assert_eq!(says, plain_lookup(&tabulation, &words, station, key), "{station}, {key}");
            assert!(says || station != 5);
            found_elsewhere += u32::from(says && station != 5);
        }
    }
    assert!(found_elsewhere < 100, "most keys are not found from another station's start");
    // On the test board all stations are alike: its fifth stretch is zeros.
    let mut words = inserted(&test_tabulation(), 8, 0, &[10, 11, 90]);
    assert_eq!(insert_to(&test_tabulation(), &mut words, 200, 12), 0);
    assert_eq!(insert_to(&test_tabulation(), &mut words, 256, 13), 2);
    assert_eq!(words, [0, 10, 11, 12, 90, 0, 0, 0]);
}

/// Of a tabulation only table 0's half is read: the other may change, and each entry of the first
/// half moves the keys that have it.
#[test]
fn the_half_of_table_0() {
    let mut rng = Rng::new(904);
    for _ in 0..200 {
        let (mut tabulation, station) = (any_tabulation(&mut rng), random_station(&mut rng));
        let (keys, r) = (random_issues(&mut rng, 6), 17);
        let words = inserted(&tabulation, r, station, &keys);
        for entry in &mut tabulation[1_280..] {
            *entry = rng.next_u32() as u16;
        }
        assert_eq!(inserted(&tabulation, r, station, &keys), words);
        // One entry that a key's start adds up, moved on by one.
        let bytes = (keys[0] / 10).to_le_bytes().map(usize::from);
        let of_station = 1_024 + (bytes[0] + station as usize) % 256;
        let own = [bytes[0], 256 + bytes[1], 512 + bytes[2], 768 + bytes[3], of_station];
        let before = inserted(&tabulation, r, station, &keys[..1]);
        let at = rng.pick(&own);
        tabulation[at] = tabulation[at].wrapping_add(1);
        let after = inserted(&tabulation, r, station, &keys[..1]);
        // From 65,535 to 0 it is another step.
        if tabulation[at] != 0 {
            let mut turned = before.clone();
            turned.rotate_right(1);
            assert_eq!(after, turned, "entry {at}");
        }
    }
}

/// Issues of one first part are separate keys that start alike, in the order of their numbers;
/// there is no 13.
#[test]
fn issues_are_separate_keys() {
    let tabulation = test_tabulation();
    let all: Vec<u32> = (50..60).collect();
    let mut mixed = all.clone();
    Rng::new(905).shuffle(&mut mixed);
    let words = inserted(&tabulation, 10, 0, &mixed);
    assert_eq!(words, [55, 56, 57, 58, 59, 50, 51, 52, 53, 54]);
    let some = inserted(&tabulation, 10, 0, &[53, 57]);
    assert_eq!(some, [0, 0, 0, 0, 0, 53, 57, 0, 0, 0]);
    for key in all {
        assert_eq!(lookup(&tabulation, &words, 0, key), Ok(true), "{key}");
        assert_eq!(lookup(&tabulation, &some, 0, key), Ok([53, 57].contains(&key)), "{key}");
        let mut again = some.clone();
        let expected = if [53, 57].contains(&key) { 6 } else { 0 };
        assert_eq!(insert_to(&tabulation, &mut again, 0, key), expected, "{key}");
    }
    // The largest first part has six issues.
    let largest: Vec<u32> = (4_294_967_290..=u32::MAX).collect();
    assert_eq!(inserted(&tabulation, 6, 0, &largest)[153 % 6], 4_294_967_290);
}

/// A full list takes no key: 6 for one that it has, 16 for any other, 5 for a blank one.
#[test]
fn full_lists() {
    let mut rng = Rng::new(906);
    for r in 1..=20 {
        for _ in 0..4 {
            let (tabulation, station) = (any_tabulation(&mut rng), random_station(&mut rng));
            let keys = random_issues(&mut rng, r);
            let mut words = inserted(&tabulation, r, station, &keys);
            let full = words.clone();
            assert_eq!(zeros(&full), 0);
            for blank in 0..10 {
                assert_eq!(insert_to(&tabulation, &mut words, station, blank), 5);
            }
            for &key in &keys {
                assert_eq!(insert_to(&tabulation, &mut words, station, key), 6);
                assert_eq!(lookup(&tabulation, &words, station, key), Ok(true));
            }
            for key in [10, 11, 12, rng.next_u32().max(10), u32::MAX - 1, u32::MAX] {
                let listed = keys.contains(&key);
                let expected = if listed { 6 } else { 16 };
                assert_eq!(insert_to(&tabulation, &mut words, station, key), expected, "{key}");
                assert_eq!(lookup(&tabulation, &words, station, key), Ok(listed), "{key}");
            }
            assert_eq!(words, full);
        }
    }
}

#[test]
fn the_largest_lists() {
    let mut rng = Rng::new(907);
    let keys = many_keys(&mut rng, 1_026);
    let (last, [over, other]) = keys.split_at(1_024) else {
        panic!("two keys more than slots");
    };
    for (tabulation, station) in [(HOUSE.to_vec(), 77), (vec![0; 2_560], 0)] {
        let mut words = plain_image(&tabulation, 1_024, station, &last[..1_020]);
        for &key in &last[1_020..] {
            assert_eq!(insert_to(&tabulation, &mut words, station, key), 0);
        }
        assert_eq!(words, plain_image(&tabulation, 1_024, station, last));
        let set: Keys = last.iter().copied().collect();
        assert_eq!(
            image_by_passes(&HOUSE, 1_024, 3, &set),
            Ok(plain_image(&HOUSE, 1_024, 3, last))
        );
        assert_eq!(insert_to(&tabulation, &mut words, station, *over), 16);
        assert_eq!(insert_to(&tabulation, &mut words, station, last[500]), 6);
        for &key in &keys {
            let listed = key != *over && key != *other;
            assert_eq!(lookup(&tabulation, &words, station, key), Ok(listed), "{key}");
        }
        // A list with one slot more or without any is none, full or empty.
        words.push(0);
        assert_eq!(insert_to(&tabulation, &mut words, station, *over), 2);
        assert_eq!(lookup(&tabulation, &words, station, *over), Err(Refusal::WrongShape));
        assert_eq!(insert_to(&tabulation, &mut [0; 1_025], station, *over), 2);
        assert_eq!(insert_to(&tabulation, &mut [], station, *over), 2);
        assert_eq!(lookup(&tabulation, &[], station, *over), Err(Refusal::WrongShape));
        assert_eq!(insert_to(&tabulation, &mut [0; 1_024], station, *over), 0);
        assert_eq!(insert_to(&tabulation, &mut [0; 1], station, *over), 0);
    }
}

/// Tabulations that the calls of a sequence are given: one most of the time, one that differs from
/// it in few entries, one that differs altogether, and one of a wrong length.
fn tabulations_for_sequences(rng: &mut Rng) -> [Vec<u16>; 4] {
    let own = any_tabulation(rng);
    let mut near = own.clone();
    for _ in 0..3 {
        let at = rng.below(256);
        near[at] = rng.next_u32() as u16;
    }
    let other = any_tabulation(rng);
    let mut wrong = own.clone();
    wrong.resize(rng.pick(&[0, 2_048, 2_559, 2_561]), 0);
    [own, near, other, wrong]
}

#[test]
fn sequences_against_the_reference_model() {
    let mut rng = Rng::new(908);
    let mut tally = Tally::default();
    for _ in 0..150 {
        let most = rng.pick(&[3, 12, 12]);
        let r = 1 + rng.below(most);
        let tabulations = tabulations_for_sequences(&mut rng);
        let (own, stray) = (random_station(&mut rng), random_station(&mut rng));
        let keys = random_issues(&mut rng, r + 3);
        let mut words: Vec<u32> = (0..r).map(|_| rng.next_u32()).collect();
        assert_eq!(lay(&mut words), Ok(()));
        let mut model = Model::new(r as u32).unwrap();
        assert_eq!(model.words(), words);
        for _ in 0..40 {
            let strange = if rng.one_in(2) { 0 } else { rng.below(4) };
            let tabulation = &tabulations[strange];
            let stations = [own, own, own, own, own, stray, random_station(&mut rng), 256];
            let station = rng.pick(&stations);
            let key = if rng.one_in(12) { rng.below(10) as u32 } else { rng.pick(&keys) };
            let given = format!("{words:?}, tabulation {strange}, {station}, {key}");
            match rng.below(40) {
                0 => {
                    assert_eq!(lay(&mut words), model.lay());
                    tally.add("lay");
                }
                1..=15 => {
                    let says = lookup(tabulation, &words, station, key);
                    match model.lookup(tabulation, station, key) {
                        Some(reply) => {
                            assert_eq!(says, reply, "{given}");
                            tally.add(format!("lookup {says:?}"));
                        }
                        None => {
                            let literal = plain_lookup(tabulation, &words, station, key);
                            assert_eq!(says, Ok(literal), "{given}");
                            tally.add(format!("lookup of the words alone {literal}"));
                        }
                    }
                }
                _ => {
                    let filled = !model.keys().is_empty();
                    let answer = insert_to(tabulation, &mut words, station, key);
                    let reply = model.insert(tabulation, station, key);
                    assert_eq!(answer, number(reply), "{given}");
                    tally.add(format!("insert {answer}"));
                    if answer == 0 && filled && (strange != 0 || station != own) {
                        tally.add("accepted from elsewhere");
                    }
                }
            }
            assert_eq!(words, model.words(), "{given}");
        }
        let standing: Keys = words.iter().copied().filter(|&word| word != 0).collect();
        assert_eq!(*model.keys(), standing);
    }
    let inserts = ["insert 0", "insert 1", "insert 2", "insert 4", "insert 5", "insert 6"];
    let others = [
        "insert 16",
        "lay",
        "accepted from elsewhere",
        "lookup Ok(true)",
        "lookup Ok(false)",
        "lookup Err(WrongTabulation)",
        "lookup Err(WrongShape)",
        "lookup Err(BlankKey)",
        "lookup of the words alone true",
        "lookup of the words alone false",
    ];
    tally.report("sequences on stolen lists", &[&inserts[..], &others].concat());
}

/// Two histories with one tabulation and station, refused calls among them, leave the same words
/// exactly when they end in one set, and a later call answers the same then.
#[test]
fn two_histories() {
    let mut rng = Rng::new(909);
    let mut tally = Tally::default();
    for _ in 0..300 {
        let (tabulation, station, r) =
            (any_tabulation(&mut rng), random_station(&mut rng), 1 + rng.below(8));
        let keys = random_issues(&mut rng, 4);
        let mut history = || {
            let mut words = vec![0; r];
            let count = rng.below(8);
            for _ in 0..count {
                let key = rng.pick(&keys);
                insert_to(&tabulation, &mut words, station, key);
                insert_to(&tabulation, &mut words, station, rng.below(10) as u32);
                insert_to(&tabulation, &mut words, 256, key);
            }
            words
        };
        let (mut one, mut two) = (history(), history());
        let set = |words: &[u32]| words.iter().copied().collect::<BTreeSet<u32>>();
        let one_set = set(&one) == set(&two);
        assert_eq!(one == two, one_set, "{one:?}, {two:?}");
        tally.add(format!("one set: {one_set}"));
        if one_set {
            for key in keys {
                let found = [&one, &two].map(|words| lookup(&tabulation, words, station, key));
                assert_eq!(found[0], found[1]);
                let answers =
                    [&mut one, &mut two].map(|words| insert_to(&tabulation, words, station, key));
                assert_eq!(answers[0], answers[1]);
                assert_eq!(one, two);
            }
        }
    }
    tally.report("two histories of a stolen list", &["one set: true", "one set: false"]);
}

/// The model by hand: what it says of a list written under one tabulation and asked under another.
#[test]
fn the_reference_model_by_hand() {
    for r in [0, 1_025, u32::MAX] {
        assert_eq!(Model::new(r).err(), Some(Refusal::WrongShape), "{r}");
    }
    assert!(Model::new(1).is_ok() && Model::new(1_024).is_ok());
    let mut model = Model::new(4).unwrap();
    assert_eq!(model.words(), [0, 0, 0, 0]);
    let board = test_tabulation();
    assert_eq!(model.insert(&board, 0, 20), Ok(()));
    assert_eq!(model.insert(&board, 0, 20), Err(Refusal::Listed));
    assert_eq!(model.insert(&board, 0, 9), Err(Refusal::BlankKey));
    assert_eq!(model.insert(&board[1..], 256, 9), Err(Refusal::WrongTabulation));
    assert_eq!(model.insert(&board, 256, 9), Err(Refusal::WrongShape));
    // Where all keys start in slot 0, {20} has another image; where all start in slot 2, the same.
    let (zeros, twos) = (starting(&[0; 256]), starting(&[2; 256]));
    assert_eq!(model.insert(&zeros, 0, 9), Err(Refusal::NotCanonical));
    assert_eq!(model.lookup(&zeros, 0, 20), None);
    assert_eq!(model.lookup(&zeros, 0, 30), Some(Ok(false)));
    assert_eq!(model.lookup(&twos, 0, 20), Some(Ok(true)));
    assert_eq!(model.insert(&twos, 0, 10), Ok(()));
    assert_eq!(model.words(), [0, 0, 10, 20]);
    assert_eq!(model.insert(&board, 0, 50), Err(Refusal::NotCanonical));
    assert_eq!(model.insert(&twos, 0, 30), Ok(()));
    assert_eq!(model.insert(&twos, 0, 40), Ok(()));
    assert_eq!(model.words(), [30, 40, 10, 20]);
    assert_eq!(model.insert(&twos, 0, 50), Err(Refusal::FullTable));
    assert_eq!(model.insert(&twos, 0, 40), Err(Refusal::Listed));
    assert_eq!(model.lay(), Ok(()));
    assert_eq!(model.insert(&board, 0, 50), Ok(()));
    assert_eq!(model.words(), [0, 50, 0, 0]);
}
