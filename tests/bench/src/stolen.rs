//! The stolen-card list of the library beside a twin in Rust and std's `HashSet`: the instructions of lookups of its
//! keys and of others, and of inserts, at several fills. Random keys under the house book. `HashSet` keeps no promise
//! about words; it is there because it is what one would take otherwise.

pub mod twin;

use std::collections::{BTreeMap, BTreeSet, HashSet};

use reference::house::HOUSE;
use reference::rng::Rng;
use reference::samples::random_tabulation;

use crate::cases::{grouped, STATION};
use crate::tables::{head, row};

/// What stands in the place of a partner where these calls are counted.
pub const NAME: &str = "stolen";

/// The sizes, and how full they are in percent.
const SLOTS: [usize; 2] = [128, 1_024];
const FILLS: [usize; 6] = [12, 25, 50, 75, 90, 100];

/// How many keys are inserted, each into the list of the others.
const INSERTS: usize = 16;

/// Who is asked. The library is the first: its cost is told to that of each of the others.
const PARTNERS: [&str; 3] = ["pinorange", "twin", "hash_set"];

/// What is counted of each.
#[derive(Clone, Copy, PartialEq, Eq, PartialOrd, Ord)]
enum Asked {
    /// Lookups of all keys of the list.
    Listed,
    /// Lookups of as many others.
    Absent,
    Insert,
}

impl Asked {
    const ALL: [Asked; 3] = [Asked::Listed, Asked::Absent, Asked::Insert];

    fn name(self) -> &'static str {
        ["listed", "absent", "insert"][self as usize]
    }

    fn symbol(self, partner: &str) -> String {
        let call = if self == Asked::Insert { "insert" } else { "lookup" };
        format!("{partner}_stolen_{call}")
    }
}

/// A list: how many slots, its keys in no order, and as many others.
struct Case {
    slots: usize,
    fill: usize,
    keys: Vec<u32>,
    others: Vec<u32>,
}

/// The image of a set under a book at the station of all cases, by the reference, so that no other call of the library
/// is counted.
pub fn image(tabulation: &[u16], slots: usize, keys: &[u32]) -> Vec<u32> {
    let keys = keys.iter().copied().collect();
    let image = reference::stolen::image(tabulation, slots as u32, STATION, &keys);
    image.expect("a set that fits")
}

impl Case {
    fn numbered(number: usize) -> Case {
        let (slots, fill) = (SLOTS[number / FILLS.len()], FILLS[number % FILLS.len()]);
        let count = slots * fill / 100;
        let mut rng = Rng::new((slots * 1_000 + fill) as u64);
        let mut all = BTreeSet::new();
        while all.len() < 2 * count {
            all.insert(rng.next_u32().max(10));
        }
        let mut keys: Vec<u32> = all.into_iter().collect();
        rng.shuffle(&mut keys);
        let others = keys.split_off(count);
        Case { slots, fill, keys, others }
    }

    fn name(&self) -> String {
        format!("{} slots, {} %", grouped(self.slots as u64), self.fill)
    }

    fn words(&self, keys: &[u32]) -> Vec<u32> {
        image(&HOUSE, self.slots, keys)
    }

    /// The lookups of these keys by a partner: all must be reported, or none.
    fn look_up(&self, partner: &str, keys: &[u32], is_listed: bool) {
        let words = self.words(&self.keys);
        let set: HashSet<u32> = self.keys.iter().copied().collect();
        for key in keys {
            let mut reported = u32::MAX;
            let answer = match partner {
                "pinorange" => library::stolen_lookup(&HOUSE, &words, STATION, *key, &mut reported),
                "twin" => twin::lookup(&HOUSE, &words, STATION, *key, &mut reported),
                _ => {
                    reported = u32::from(contains(&set, *key));
                    0
                }
            };
            assert_eq!((answer, reported), (0, u32::from(is_listed)), "{partner}: {key}");
        }
    }

    /// Inserts by a partner of some keys, each into the list of the others: every one must lead to the list.
    fn insert(&self, partner: &str) {
        let all = self.words(&self.keys);
        for i in 0..INSERTS.min(self.keys.len()) {
            let mut others = self.keys.clone();
            let key = others.swap_remove(i);
            let mut words = self.words(&others);
            let mut set: HashSet<u32> = HashSet::with_capacity(self.slots);
            set.extend(&others);
            let answer = match partner {
                "pinorange" => library::stolen_insert(&HOUSE, &mut words, STATION, key),
                "twin" => twin::insert(&HOUSE, &mut words, STATION, key),
                _ => u32::from(!put(&mut set, key)),
            };
            assert_eq!(answer, 0, "{partner}: {key}");
            assert!(partner == "hash_set" || words == all, "{partner} does not lead to the list");
        }
    }

    fn make(&self, partner: &str, asked: Asked) {
        match asked {
            Asked::Listed => self.look_up(partner, &self.keys, true),
            Asked::Absent => self.look_up(partner, &self.others, false),
            Asked::Insert => self.insert(partner),
        }
    }

    /// How many calls are counted together.
    fn calls(&self, asked: Asked) -> usize {
        if asked == Asked::Insert {
            INSERTS.min(self.keys.len())
        } else {
            self.keys.len()
        }
    }
}

#[inline(never)]
#[export_name = "hash_set_stolen_lookup"]
fn contains(set: &HashSet<u32>, key: u32) -> bool {
    set.contains(&key)
}

#[inline(never)]
#[export_name = "hash_set_stolen_insert"]
fn put(set: &mut HashSet<u32>, key: u32) -> bool {
    set.insert(key)
}

const CASES: usize = SLOTS.len() * FILLS.len();

/// Prints what is to be counted, a line each: case, this module, what of whom, and the symbol to watch.
pub fn print_wanted() {
    for case in 0..CASES {
        for asked in Asked::ALL {
            for partner in PARTNERS {
                println!("{case} {NAME} {partner}-{} {}", asked.name(), asked.symbol(partner));
            }
        }
    }
}

/// The partner and what is asked, by their name.
fn named(name: &str) -> (usize, Asked) {
    let (partner, asked) = name.split_once('-').expect("a partner and what is asked");
    let partner = PARTNERS.iter().position(|one| *one == partner);
    let asked = Asked::ALL.into_iter().find(|one| one.name() == asked);
    (partner.expect("a partner"), asked.expect("something that is asked"))
}

/// Makes the calls of one count.
pub fn one(case: &str, name: &str) {
    let (partner, asked) = named(name);
    Case::numbered(case.parse().expect("the number of a case")).make(PARTNERS[partner], asked);
}

/// What was counted, by case, partner and what is asked.
pub struct Counted(BTreeMap<(usize, usize, Asked), u64>);

impl Counted {
    /// Reads lines of case, this module's name, what of whom, and count.
    pub fn read(path: &str) -> Counted {
        let text = std::fs::read_to_string(path).expect("the file of counts");
        let count = |line: &str| {
            let fields: Vec<&str> = line.split_whitespace().collect();
            let [case, NAME, name, count] = fields[..] else {
                panic!("nothing was counted: {line}")
            };
            let (partner, asked) = named(name);
            let which = (case.parse().expect("the number of a case"), partner, asked);
            (which, count.parse().expect("a count"))
        };
        Counted(text.lines().map(count).collect())
    }

    /// The library's count to that of another partner.
    fn ratio(&self, case: usize, partner: usize, asked: Asked) -> f64 {
        self.0[&(case, 0, asked)] as f64 / self.0[&(case, partner, asked)] as f64
    }

    /// The ratios of lookups, or of inserts, to the twin's, and where.
    pub fn to_twin(&self, is_lookup: bool) -> Vec<(f64, String)> {
        let asked = Asked::ALL.into_iter().filter(|asked| is_lookup == (*asked != Asked::Insert));
        let all = asked.flat_map(|asked| (0..CASES).map(move |case| (case, asked)));
        all.map(|(case, asked)| {
            let what = if is_lookup { format!("{}, ", asked.name()) } else { String::new() };
            (self.ratio(case, 1, asked), format!("{what}{}", Case::numbered(case).name()))
        })
        .collect()
    }

    /// Prints the table: the mean of a call by the library, of lookups of listed and of absent keys and of inserts, and
    /// that to the twin's and to `HashSet`'s.
    pub fn print(&self) {
        let columns =
            "stolen list|keys|listed|to twin|to HashSet|absent|to twin|to HashSet|insert|to twin|to HashSet";
        head(&columns.split('|').collect::<Vec<_>>());
        for number in 0..CASES {
            let case = Case::numbered(number);
            let cells = Asked::ALL.into_iter().flat_map(|asked| {
                let mean = self.0[&(number, 0, asked)] as f64 / case.calls(asked) as f64;
                let ratio = |partner: usize| told(self.ratio(number, partner, asked));
                [grouped(mean.round() as u64), ratio(1), ratio(2)]
            });
            let name = [case.name(), grouped(case.keys.len() as u64)];
            row(name.into_iter().chain(cells));
        }
    }
}

/// A ratio in a table: large ones as whole numbers.
fn told(ratio: f64) -> String {
    if ratio < 100.0 {
        format!("{ratio:.2}")
    } else {
        grouped(ratio.round() as u64)
    }
}

/// Random calls on small lists, some of them tampered with, or with something of a wrong length: the library and the
/// twin must leave the same and answer alike, and each answer of each call must come. On lists that are none of these
/// `HashSet` tells the same of every key.
pub fn compare(calls: usize) {
    let mut rng = Rng::new(9);
    let mut seen: BTreeMap<(bool, u32), usize> = BTreeMap::new();
    let mut made = 0;
    while made < calls {
        let slots = rng.pick(&[1, 2, 3, 5, 8, 30]);
        let values = rng.pick(&[1, 3, 65_536]);
        let tabulation = random_tabulation(&mut rng, values);
        let keys: Vec<u32> = (0..slots + 3).map(|_| 10 + rng.below(8 * slots) as u32).collect();
        let (mut words, mut set) = (vec![0; slots], HashSet::new());
        for _ in 0..4 * slots {
            let key = if rng.one_in(20) { rng.below(10) as u32 } else { rng.pick(&keys) };
            let mut book = tabulation.clone();
            let station = if rng.one_in(50) { 256 } else { STATION };
            if rng.one_in(50) {
                book.pop();
            }
            let (mut ours, mut told) = (words.clone(), [77, 77]);
            match rng.below(20) {
                0 => ours.clear(),
                1 => ours.resize(1_025, 0),
                2 | 3 => {
                    let at = rng.below(slots);
                    ours[at] = rng.pick(&[0, 5, keys[0], u32::MAX]);
                }
                _ => {}
            }
            let is_own = ours == words && book.len() == tabulation.len() && station == STATION;
            let mut theirs = ours.clone();
            let is_insert = rng.one_in(2);
            let answers = if is_insert {
                [
                    library::stolen_insert(&book, &mut ours, station, key),
                    twin::insert(&book, &mut theirs, station, key),
                ]
            } else {
                [
                    library::stolen_lookup(&book, &ours, station, key, &mut told[0]),
                    twin::lookup(&book, &theirs, station, key, &mut told[1]),
                ]
            };
            assert_eq!((answers[0], told[0], &ours), (answers[1], told[1], &theirs), "{key}");
            if is_own && is_insert && answers[0] == 0 {
                assert!(put(&mut set, key), "{key} was there");
                words = ours;
            } else if is_own && answers[0] == 0 {
                assert_eq!(told[0], u32::from(contains(&set, key)), "{key}");
            }
            *seen.entry((is_insert, answers[0])).or_insert(0) += 1;
            made += 1;
        }
    }
    println!("{made} random calls on stolen-card lists: the library and the twin agree.");
    for (is_insert, wanted) in [(true, &[0, 1, 2, 4, 5, 6, 16][..]), (false, &[0, 1, 2, 5])] {
        let given: Vec<u32> =
            seen.keys().filter(|(insert, _)| *insert == is_insert).map(|(_, a)| *a).collect();
        assert_eq!(given, wanted, "an answer is missing");
    }
}
