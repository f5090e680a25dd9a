//! Bulk loads of the library beside inserts, on lists of random keys: small ones, each beside one insert that leads to
//! the same set, and a large one beside as many inserts as it has keys, into a list that grows. The keys are inserted
//! ascending, so that an insert has no others to shift in scratch: the cheapest one.

use std::collections::BTreeMap;

use library::Counters;
use reference::hash::TABULATION_LEN;
use reference::house::HOUSE;
use reference::rng::Rng;
use reference::samples::random_tiers;
use reference::set::Member;

use crate::cases::{fitting_keys, grouped, input_of, PLACES, STATION};
use crate::partners::{symbol, Call};
use crate::tables::{head, row};
use crate::timing::time;

/// What stands in the place of a partner where these calls are counted.
pub const NAME: &str = "bulk";

/// The two ways to a list.
const WAYS: [Call; 2] = [Call::Insert, Call::BulkLoad];

/// A list that comes about in two ways: its largest keys are inserted, so many, or all are laid by a bulk load.
#[derive(Clone, Copy)]
struct List {
    r: u32,
    s: u32,
    keys: usize,
    inserts: usize,
}

/// The sizes of the small lists.
const SLOTS: [u32; 8] = [1, 2, 3, 4, 5, 6, 8, 16];
const STASHES: [u32; 2] = [0, 8];

/// The large list, of which every key is inserted.
const LARGE: List = List { r: 1_024, s: PLACES, keys: 1_400, inserts: 1_400 };

/// How often the two ways to the large list are timed.
const ROUNDS: usize = 20;

/// The small lists of a size: of one key, of two, and one that is full.
fn small(r: u32, s: u32) -> [List; 3] {
    [1, 2, (2 * r + s) as usize].map(|keys| List { r, s, keys, inserts: 1 })
}

/// All lists, by their numbers: the small ones, size by size, and the large one.
fn lists() -> Vec<List> {
    let sizes = SLOTS.into_iter().flat_map(|r| STASHES.map(|s| (r, s)));
    sizes.flat_map(|(r, s)| small(r, s)).chain([LARGE]).collect()
}

impl List {
    /// The members, ascending.
    fn members(&self) -> Vec<Member> {
        let mut rng =
            Rng::new(u64::from(self.r) << 32 | u64::from(self.s) << 16 | self.keys as u64);
        let mut keys = fitting_keys(&mut rng, &self.book(), [self.r, self.s], self.keys);
        keys.sort_unstable();
        random_tiers(&mut rng, &keys)
    }

    /// The house book; but for one key or two, one under which they have the same slots, where a bulk load saves least.
    fn book(&self) -> Vec<u16> {
        if self.keys > 2 {
            HOUSE.to_vec()
        } else {
            vec![0; TABULATION_LEN]
        }
    }

    fn image(&self, members: &[Member]) -> Vec<u32> {
        let image = reference::fast::image(&self.book(), self.r, self.s, STATION, members);
        image.expect("they fit")
    }

    /// Goes one of the ways, and gives its time in nanoseconds. The list must be the image of the members.
    fn come(&self, way: Call, members: &[Member]) -> f64 {
        let mut words = self.image(&members[..self.keys - self.inserts]);
        let mut scratch = vec![0; library::scratch_length(self.r, self.s)];
        let (book, mut counters) = (self.book(), Counters::default());
        let nanoseconds = if way == Call::Insert {
            let mut insert = |(key, tier): Member| {
                library::insert(&book, &mut words, &mut scratch, &mut counters, key, tier)
            };
            let coming = &members[self.keys - self.inserts..];
            time(|| coming.iter().map(|member| insert(*member)).max().unwrap_or(0))
        } else {
            let (input, laid) = (input_of(members), [self.r, self.s, STATION]);
            time(|| {
                library::bulk_load(&book, &mut words, &mut scratch, &mut counters, laid, &input)
            })
        };
        assert!(words == self.image(members), "{} does not lead to the list", way.name());
        nanoseconds
    }

    /// The shortest times of both ways, in nanoseconds.
    fn times(&self) -> [f64; WAYS.len()] {
        let members = self.members();
        let mut best = [f64::MAX; WAYS.len()];
        for _ in 0..ROUNDS {
            best = [0, 1].map(|i| best[i].min(self.come(WAYS[i], &members)));
        }
        best
    }
}

/// Prints what is to be counted, a line each: list, this module, way, and the symbol to watch.
pub fn print_wanted() {
    for (number, _) in lists().iter().enumerate() {
        for way in WAYS {
            println!("{number} {NAME} {} {}", way.name(), symbol(0, way));
        }
    }
}

/// Goes one way to one of the lists. Whatever else it needs is worked out without the library.
pub fn one(number: &str, way: &str) {
    let number: usize = number.parse().expect("the number of a list");
    let list = lists()[number];
    list.come(Call::named(way), &list.members());
}

/// What was counted, by list and way.
pub struct Counted(BTreeMap<(usize, Call), u64>);

impl Counted {
    /// Reads lines of list, this module's name, way and count.
    pub fn read(path: &str) -> Counted {
        let text = std::fs::read_to_string(path).expect("the file of counts");
        let count = |line: &str| {
            let fields: Vec<&str> = line.split_whitespace().collect();
            let [list, NAME, way, count] = fields[..] else {
                panic!("nothing was counted: {line}")
            };
            let which = (list.parse().expect("the number of a list"), Call::named(way));
            (which, count.parse().expect("a count"))
        };
        Counted(text.lines().map(count).collect())
    }

    /// The counts of both ways to a list.
    fn of(&self, list: usize) -> [u64; WAYS.len()] {
        WAYS.map(|way| self.0[&(list, way)])
    }

    /// A bulk load to one insert into the same set.
    fn ratio(&self, list: usize) -> f64 {
        let [insert, load] = self.of(list);
        load as f64 / insert as f64
    }

    fn print_small(&self) {
        let title = "bulk load to insert".to_string();
        let columns = STASHES
            .iter()
            .flat_map(|s| ["1 key", "2 keys", "full"].map(|keys| format!("{keys}, s = {s}")));
        let columns: Vec<String> = [title].into_iter().chain(columns).collect();
        head(&columns.iter().map(String::as_str).collect::<Vec<_>>());
        let of_size = columns.len() - 1;
        for (number, r) in SLOTS.iter().enumerate() {
            let lists = number * of_size..(number + 1) * of_size;
            let cells = lists.map(|list| format!("{:.3}", self.ratio(list)));
            row([format!("r = {r}")].into_iter().chain(cells));
        }
    }

    fn print_large(&self) {
        let name = format!("{} keys, r = {}", grouped(LARGE.keys as u64), grouped(LARGE.r));
        head(&[&name, "one by one", "bulk load", "one by one to bulk load"]);
        let line = |what: &str, [inserts, load]: [f64; WAYS.len()]| {
            let cells =
                [inserts, load, inserts / load].map(|number| grouped(number.round() as u64));
            row([what.to_string()].into_iter().chain(cells));
        };
        line("instructions", self.of(lists().len() - 1).map(|count| count as f64));
        line("time, µs", LARGE.times().map(|nanoseconds| nanoseconds / 1_000.0));
    }

    /// Prints both tables. Takes the times of the large list.
    pub fn print(&self) {
        self.print_small();
        self.print_large();
    }
}
