//! The figures that the pages give a planner, measured anew: how many cards fit, how many slots of a stolen-card list a
//! lookup looks at, and which changes of a single bit a check lets pass. The pages must have them word for word.

use std::collections::BTreeSet;

use library::beside::{Kind, ANSWERS};
use library::room::Room;
use library::stolen::{image_of, start};
use library::Change::Insert;
use library::{change, check, fresh, hashes, house, scratch_length, words_length, HEADER_LENGTH};
use library::{stolen_insert, stolen_lookup};
use reference::rng::Rng;
use reference::samples::random_station;

const C: &str = include_str!("../../../docs/C.md");
const TILL: &str = include_str!("../../../docs/TILL.md");
const BENCH: &str = include_str!("../../../docs/BENCH.md");
const FIGURES: &str = include_str!("../../../docs/FIGURES.md");

/// Prints the texts, and asserts that the page has each of them, wherever its lines end.
fn page_has(page: &str, texts: &[String]) {
    println!("{}", texts.join("\n"));
    let page = page.split_whitespace().collect::<Vec<_>>().join(" ");
    for text in texts {
        assert!(page.contains(text.as_str()), "the page lacks: {text}");
    }
}

fn house_tabulation() -> Vec<u16> {
    let mut tabulation = vec![0; 2_560];
    assert_eq!(house(&mut tabulation), 0);
    tabulation
}

/// Random cards, each with another first part, with no end.
struct Cards {
    rng: Rng,
    seen: BTreeSet<u32>,
}

impl Cards {
    fn new(seed: u64) -> Cards {
        Cards { rng: Rng::new(seed), seen: BTreeSet::new() }
    }
}

impl Iterator for Cards {
    type Item = u32;

    fn next(&mut self) -> Option<u32> {
        loop {
            let card = self.rng.next_u32();
            if card >= 10 && self.seen.insert(card / 10) {
                return Some(card);
            }
        }
    }
}

/// How many of these cards are listed before the first that has no placement, by counting alone.
fn fitting(tabulation: &[u16], r: u32, s: u32, station: u32, cards: Cards) -> usize {
    let mut room = Room::new(2 * r as usize, s as usize);
    let fits = |card: &u32| {
        let (answer, [first, second]) = hashes(tabulation, r, station, *card, [0, 0]);
        assert_eq!(answer, 0);
        room.add(first as usize, (r + second) as usize)
    };
    cards.take_while(fits).count()
}

/// The same by the library: accepted inserts up to the first 8.
fn accepted(tabulation: &[u16], r: u32, s: u32, station: u32, cards: Cards) -> usize {
    let mut words = fresh(r, s, station);
    let answers = cards.map(|card| change(Insert(card % 8), tabulation, &mut words, card));
    let mut count = 0;
    for answer in answers {
        match answer {
            0 => count += 1,
            8 => break,
            other => panic!("an insert of a new card answered {other}"),
        }
    }
    count
}

/// How many lists of each size are filled.
const LISTS: usize = 1_000;

/// Random cards under the house book at random stations: how many are listed in each list when the first add is refused
/// for want of room, ascending. The first lists of each size are made by the library, too, card by card.
fn counts(r: u32, s: u32) -> Vec<usize> {
    let tabulation = house_tabulation();
    let count = |list: usize| {
        let seed = u64::from(r) << 32 | u64::from(s) << 16 | list as u64;
        let station = random_station(&mut Rng::new(!seed));
        let count = fitting(&tabulation, r, s, station, Cards::new(seed));
        if list < 2 {
            assert_eq!(accepted(&tabulation, r, s, station, Cards::new(seed)), count);
        }
        count
    };
    let mut counts: Vec<usize> = (0..LISTS).map(count).collect();
    counts.sort_unstable();
    counts
}

/// A row of the table of what fits.
fn row_of(r: u32, s: u32, counts: &[usize]) -> String {
    let [least, one_in_100, median] = [0, LISTS / 100, LISTS / 2].map(|i| grouped(counts[i]));
    let [slots, all] = [r, 2 * r + s].map(|number| grouped(number as usize));
    format!("| {slots} | {s} | {all} | {least} | {one_in_100} | {median} |")
}

#[test]
fn how_many_cards_fit() {
    let sizes: [(u32, u32); 8] =
        [(16, 4), (64, 8), (128, 8), (256, 16), (512, 32), (1_024, 0), (1_024, 16), (1_024, 64)];
    page_has(FIGURES, &sizes.map(|(r, s)| row_of(r, s, &counts(r, s))));
    // Of a size in between the page says to take the row with the next smaller r and s.
    for ((r, s), (less_r, less_s)) in
        [((100, 10), (64, 8)), ((300, 20), (256, 16)), ((800, 48), (512, 32))]
    {
        let (between, row) = (counts(r, s), counts(less_r, less_s));
        assert!((0..LISTS).step_by(LISTS / 100).all(|i| row[i] <= between[i]), "r {r}, s {s}");
    }
}

/// A row of the table of sizes to take.
fn size_row(cards: u32, r: u32, s: u32) -> String {
    let bytes = [words_length(r, s), scratch_length(r, s)].map(|words| grouped(4 * words));
    let [cards, slots] = [cards, r].map(|number| grouped(number as usize));
    format!("| {cards} | {slots} | {s} | {} | {} |", bytes[0], bytes[1])
}

/// The rule by which r and s are taken for so many cards: fewer than one list in a hundred refuses one of them.
#[test]
fn which_r_and_s() {
    let rows = [80_u32, 160, 320, 640, 1_280].map(|cards| {
        let r = (4 * cards).div_ceil(5);
        let s = r.div_ceil(16).max(8);
        let counts = counts(r, s);
        assert!(counts[LISTS / 100 - 1] >= cards as usize, "{cards} cards");
        size_row(cards, r, s)
    });
    page_has(FIGURES, &rows);
    // The largest size with more cards than it is for.
    let refusing = counts(1_024, 64).iter().filter(|count| **count < 1_500).count();
    let about_half = LISTS * 2 / 5..=LISTS * 3 / 5;
    assert!(about_half.contains(&refusing), "{refusing} lists refuse one of 1,500");
}

/// The places that a till maker is given to try a hash of his own on.
#[test]
fn places_for_a_till() {
    let tabulation = house_tabulation();
    let places = [410_017, 999_001, u32::MAX].map(|card| {
        let (answer, [first, second]) = hashes(&tabulation, 1_024, 17, card, [0, 0]);
        assert_eq!(answer, 0);
        format!("{card} {first} and {second}")
    });
    page_has(TILL, &places);
}

/// The bench's table of what A and W lines are answered has each number that an insert and a remove can give, in the
/// order in which they are tried, but for 1 to 4, which the console's own memory never gets.
#[test]
fn answers_at_the_bench() {
    let rows: Vec<[&str; 2]> = BENCH
        .lines()
        .skip_while(|line| *line != "| answer | on | what it says |")
        .skip(2)
        .map_while(|line| line.strip_prefix("| "))
        .map(|row| {
            let mut cells = row.split(" | ");
            [cells.next().unwrap_or(""), cells.next().unwrap_or("")]
        })
        .collect();
    for (letter, kind) in [("A", Kind::Insert), ("W", Kind::Remove)] {
        let on_line = |row: &&[&str; 2]| row[1].split(", ").any(|on| on == letter);
        let told: Vec<String> = rows.iter().filter(on_line).map(|row| row[0].to_string()).collect();
        let (_, answers) = ANSWERS.iter().find(|(of, _)| *of == kind).expect("a row of the calls");
        let given = answers.iter().filter(|answer| !(1..=4).contains(*answer));
        assert_eq!(told, given.map(u32::to_string).collect::<Vec<_>>(), "on {letter} lines");
    }
}

/// A number as the pages write it: 1,024.
fn grouped(number: usize) -> String {
    if number < 1_000 {
        number.to_string()
    } else {
        format!("{},{:03}", number / 1_000, number % 1_000)
    }
}

/// A list of as many cards as asked, of those that fit at r = 8 and s = 4, with random tiers.
fn small_list(tabulation: &[u16], cards: usize, seed: u64) -> Vec<u32> {
    let mut words = fresh(8, 4, 17);
    let mut rng = Rng::new(seed);
    for card in Cards::new(seed) {
        change(Insert(rng.below(8) as u32), tabulation, &mut words, card);
        if words[2] as usize == cards {
            return words;
        }
    }
    unreachable!("cards have no end")
}

/// Which words a bit of which can be turned without a check noticing, and how many such bits there are in slots' tiers,
/// in the stash's keys and in its tiers. Any other word makes the test fail.
fn unnoticed(tabulation: &[u16], words: &[u32]) -> [usize; 3] {
    let mut scratch = vec![0; scratch_length(words[0], words[1])];
    let stash = HEADER_LENGTH + 6 * words[0] as usize;
    let mut counts = [0; 3];
    for bit in 0..32 * words.len() {
        let mut changed = words.to_vec();
        let word = bit / 32;
        changed[word] ^= 1 << (bit % 32);
        if check(tabulation, &changed, &mut scratch) == 0 {
            let kind = match word {
                _ if word >= stash => 1 + (word - stash) % 2,
                _ if word >= HEADER_LENGTH && (word - HEADER_LENGTH) % 3 == 2 => 0,
                _ => panic!("a turned bit of word {word} passes the check"),
            };
            counts[kind] += 1;
        }
    }
    counts
}

/// What 0 of a check does not say: full lists of 20 cards, and lists of 10 with an empty drawer, with each bit turned
/// by itself.
#[test]
fn changes_that_a_check_lets_pass() {
    let tabulation = house_tabulation();
    let lists =
        |cards: usize| (1..=100).map(move |seed| small_list(&house_tabulation(), cards, seed));
    let mut sums = [0; 3];
    for words in lists(20) {
        let counts = unnoticed(&tabulation, &words);
        // Every slot is filled and no component is without a cycle, so that each tier stands once: three bits each.
        assert_eq!((counts[0], counts[2]), (3 * 16, 3 * 4));
        sums = [0, 1, 2].map(|i| sums[i] + counts[i]);
    }
    let [all, slots, places, keys] = [sums.iter().sum(), sums[0], sums[2], sums[1]].map(grouped);
    let texts = [
        format!("of 195,200 single bits {all} are not found"),
        format!("{slots} in the tiers of pockets, {places} in those of the drawer, {keys} in the drawer's card numbers"),
    ];
    page_has(C, &texts);
    let empty: Vec<Vec<u32>> = lists(10).filter(|words| words[3] == 0).collect();
    let found: Vec<[usize; 3]> = empty.iter().map(|words| unnoticed(&tabulation, words)).collect();
    assert!(empty.len() > 50 && found.iter().all(|counts| counts[1] == 0 && counts[2] == 0));
}

/// How many slots of a stolen-card list a lookup looks at: up to the key, an empty slot or a larger key, or all.
fn looked_at(tabulation: &[u16], words: &[u32], station: u32, key: u32) -> usize {
    let start = start(tabulation, station, words.len(), key);
    let mut way = words[start..].iter().chain(&words[..start]);
    way.position(|word| *word == 0 || *word >= key).map_or(words.len(), |before| before + 1)
}

/// A stolen-card list of so many random cards, its station, its cards and as many others. The first lists of each size
/// are made and asked by the library, too.
fn stolen_list(
    tabulation: &[u16],
    slots: usize,
    cards: usize,
    list: usize,
) -> (Vec<u32>, u32, [Vec<u32>; 2]) {
    let seed = (slots << 32 | cards << 16 | list) as u64;
    let station = random_station(&mut Rng::new(!seed));
    let mut all: Vec<u32> = Cards::new(seed).take(2 * cards).collect();
    let others = all.split_off(cards);
    let words = image_of(tabulation, station, slots, &all);
    if list < 2 {
        let mut made = vec![0; slots];
        for card in &all {
            assert_eq!(stolen_insert(tabulation, &mut made, station, *card), 0);
        }
        assert_eq!(made, words);
        for (asked, is_listed) in [(&all, 1), (&others, 0)] {
            for card in asked {
                let mut told = 77;
                assert_eq!(stolen_lookup(tabulation, &words, station, *card, &mut told), 0);
                assert_eq!(told, is_listed, "{card}");
            }
        }
    }
    (words, station, [all, others])
}

/// A row of the table of the stolen list: mean and most for its cards, and for as many others.
fn stolen_row(slots: usize, percent: usize) -> String {
    let tabulation = house_tabulation();
    let cards = slots * percent / 100;
    let (mut sums, mut most) = ([0; 2], [0; 2]);
    for list in 0..LISTS {
        let (words, station, asked) = stolen_list(&tabulation, slots, cards, list);
        for (i, cards) in asked.iter().enumerate() {
            for card in cards {
                let count = looked_at(&tabulation, &words, station, *card);
                (sums[i], most[i]) = (sums[i] + count, most[i].max(count));
            }
        }
    }
    let means = sums.map(|sum| format!("{:.1}", sum as f64 / (LISTS * cards) as f64));
    let [slots, cards] = [slots, cards].map(grouped);
    let [of_listed, of_others] = most.map(grouped);
    format!(
        "| {slots} | {percent} % | {cards} | {} | {of_listed} | {} | {of_others} |",
        means[0], means[1]
    )
}

#[test]
fn how_full_a_stolen_list_may_be() {
    let rows: Vec<String> = [128, 1_024]
        .into_iter()
        .flat_map(|slots| [50, 75, 90, 100].map(|percent| stolen_row(slots, percent)))
        .collect();
    page_has(FIGURES, &rows);
}

/// Single bits of stolen-card lists that a check lets pass: 100 lists of 48 cards in 64 slots. Of those most are in the
/// last digit of a card, which has no part in where its way starts.
#[test]
fn changes_of_a_stolen_list_that_pass() {
    let tabulation = house_tabulation();
    let (mut bits, mut passed, mut digits) = (0, 0, 0);
    for list in 0..100 {
        let (words, station, _) = stolen_list(&tabulation, 64, 48, list);
        for bit in 0..32 * words.len() {
            let (at, mut changed) = (bit / 32, words.clone());
            changed[at] ^= 1 << (bit % 32);
            let answer = stolen_insert(&tabulation, &mut changed, station, 0);
            assert!(answer == 4 || answer == 5, "{answer}");
            bits += 1;
            passed += usize::from(answer == 5);
            digits += usize::from(answer == 5 && changed[at] / 10 == words[at] / 10);
        }
    }
    let [bits, passed, digits] = [bits, passed, digits].map(grouped);
    let text = format!("of {bits} single bits {passed} are not found, {digits} of them in the last digit of a card");
    page_has(C, &[text]);
}
