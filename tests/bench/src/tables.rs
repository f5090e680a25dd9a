//! The tables of docs/BENCHMARKS.md.

use crate::bulk::Counted;
use crate::cases::{grouped, numbered, Board, Case, CASES, LOADS, SETS, SIZES};
use crate::goals;
use crate::instructions::Instructions;
use crate::partners::{Call, PARTNERS};
use crate::salvage::Words;
use crate::stolen;
use crate::tally::{self, Tally};
use crate::timing::{both_lookups, changes, Changes, Lookups, CHANGES, ROUNDS};
use crate::trails::shortest_and_typical;

/// What is looked up in a row: the set's keys, and as many others.
pub const ASKED: [&str; 2] = ["its keys", "others"];

/// All that was measured, by the number of a case.
pub struct Measured {
    pub cases: Vec<Case>,
    pub instructions: Instructions,
    pub changes: Vec<Changes>,
    pub lookups: Vec<[Lookups; ASKED.len()]>,
}

pub fn head(columns: &[&str]) {
    println!("\n| {} |", columns.join(" | "));
    println!("|{}", "---|".repeat(columns.len()));
}

pub fn row(cells: impl IntoIterator<Item = String>) {
    let cells: Vec<String> = cells.into_iter().collect();
    println!("| {} |", cells.join(" | "));
}

fn name_and_keys(case: &Case) -> Vec<String> {
    vec![case.name(), grouped(case.keys() as u64)]
}

fn rounded(number: f64) -> String {
    grouped(number.round() as u64)
}

/// Rows of the three big calls: what the library takes, and that to each twin.
fn print_rows(cases: &[Case], cells: impl Fn(usize, usize) -> [String; PARTNERS.len()]) {
    for (number, case) in cases.iter().enumerate() {
        let cells = (0..CHANGES.len()).flat_map(|call| cells(number, call));
        row(name_and_keys(case).into_iter().chain(cells));
    }
}

impl Measured {
    fn print_instructions(&self) {
        let columns = "instructions|keys|insert|to plain|to ranks|remove|to plain|to ranks|check|to plain|to ranks";
        head(&columns.split('|').collect::<Vec<_>>());
        print_rows(&self.cases, |case, call| {
            let call = CHANGES[call];
            let ratio = |who: usize| format!("{:.2}", self.instructions.ratio(case, who, call));
            [grouped(self.instructions.of(case, 0, call)), ratio(1), ratio(2)]
        });
        head(&["instructions", "keys", "lookup of 2 × keys", "to the twins"]);
        for (number, case) in self.cases.iter().enumerate() {
            let ours = grouped(self.instructions.of(number, 0, Call::Lookup));
            let ratio = format!("{:.2}", self.instructions.ratio(number, 1, Call::Lookup));
            row(name_and_keys(case).into_iter().chain([ours, ratio]));
        }
    }

    /// Rows of bulk loads: what the library takes, that to its insert into the same set, and that to each twin.
    fn print_bulk_rows(&self, title: &str, ours: &str, cells: impl Fn(usize) -> [String; 4]) {
        head(&[title, "keys laid", ours, "to insert", "to plain", "to ranks"]);
        for (number, case) in self.cases.iter().enumerate() {
            let name = [case.name(), grouped(case.keys() as u64 + 1)];
            row(name.into_iter().chain(cells(number)));
        }
    }

    fn print_bulk_instructions(&self) {
        self.print_bulk_rows("instructions", "bulk load", |case| {
            let call = Call::BulkLoad;
            let ratio = |who: usize| format!("{:.2}", self.instructions.ratio(case, who, call));
            let to_insert = format!("{:.2}", self.instructions.bulk_load_to_insert(case));
            [grouped(self.instructions.of(case, 0, call)), to_insert, ratio(1), ratio(2)]
        });
    }

    fn print_bulk_times(&self) {
        self.print_bulk_rows("time", "bulk load µs", |case| {
            let Changes { nanoseconds: [ours, ..], ratios } = &self.changes[case];
            let [insert, load] = [Call::Insert, Call::BulkLoad].map(|call| ours[call as usize]);
            let ratio = |who: usize| format!("{:.2}", ratios[who][Call::BulkLoad as usize]);
            let to_insert = format!("{:.2}", load / insert);
            [format!("{:.1}", load / 1_000.0), to_insert, ratio(1), ratio(2)]
        });
    }

    /// What a trail takes beside a check of the same words.
    fn print_trails(&self) {
        let columns = "instructions|keys|check|shortest trail|its keys|typical trail|its keys";
        head(&columns.split('|').collect::<Vec<_>>());
        for (number, case) in self.cases.iter().enumerate() {
            let check = grouped(self.instructions.of(number, 0, Call::Check));
            let trails = shortest_and_typical(case).into_iter().flat_map(|trail| {
                [self.instructions.of_trail(number, trail.key), trail.length.into()].map(grouped)
            });
            row(name_and_keys(case).into_iter().chain([check]).chain(trails));
        }
    }

    /// What a salvage takes beside a check of the untampered words, and what it saves of damaged ones.
    fn print_salvages(&self) {
        let columns = "instructions|keys|check|salvage|to check|of damaged words|to check|keys saved|numbers lost";
        head(&columns.split('|').collect::<Vec<_>>());
        for (number, case) in self.cases.iter().enumerate() {
            let check = grouped(self.instructions.of(number, 0, Call::Check));
            let both = Words::BOTH.into_iter().flat_map(|words| {
                let ratio = self.instructions.salvage_to_check(number, words);
                [grouped(self.instructions.of_salvage(number, words)), format!("{ratio:.2}")]
            });
            let saved = Words::Damaged.salvage(case).map(grouped);
            row(name_and_keys(case).into_iter().chain([check]).chain(both).chain(saved));
        }
    }

    fn print_times(&self) {
        let columns = "time|keys|insert µs|to plain|to ranks|remove µs|to plain|to ranks|check µs|to plain|to ranks";
        head(&columns.split('|').collect::<Vec<_>>());
        print_rows(&self.cases, |case, call| {
            let found = &self.changes[case];
            let ratio = |who: usize| format!("{:.2}", found.ratios[who][call]);
            [format!("{:.1}", found.nanoseconds[0][call] / 1_000.0), ratio(1), ratio(2)]
        });
        head(&["lookup", "keys", "library ns", "to the twins", "to HashMap"]);
        for (case, both) in self.cases.iter().zip(&self.lookups) {
            for (what, found) in ASKED.iter().zip(both) {
                let name = format!("{}, {what}", case.name());
                let ratio = |who: usize| format!("{:.2}", found.ratios[who]);
                let ours = format!("{:.1}", found.nanoseconds[0]);
                row([name, grouped(case.keys() as u64), ours, ratio(1), ratio(2)]);
            }
        }
    }

    /// How many times as dear a call is at the largest size as at the smallest: by instructions, and by time.
    pub fn growth(&self, load: usize, call: usize) -> [f64; 2] {
        let (small, large) = (load, CASES - LOADS.len() + load);
        let instructions = [large, small].map(|case| self.instructions.of(case, 0, CHANGES[call]));
        let times = [large, small].map(|case| self.changes[case].nanoseconds[0][call]);
        [instructions[0] as f64 / instructions[1] as f64, times[0] / times[1]]
    }

    fn print_growth(&self) {
        let [small, .., large] = SIZES;
        let title = format!("r = {} against r = {small}", grouped(large));
        head(&[&title, "insert", "remove", "check", "insert, time", "remove, time", "check, time"]);
        for (number, load) in LOADS.iter().enumerate() {
            let cell =
                |which: usize, call: usize| format!("{:.1}", self.growth(number, call)[which]);
            let cells = (0..2).flat_map(|which| (0..CHANGES.len()).map(move |call| (which, call)));
            let cells = cells.map(|(which, call)| cell(which, call));
            row([load.to_string()].into_iter().chain(cells));
        }
    }
}

/// Measures the times, and prints all tables.
pub fn print(instructions: Instructions, bulk: Counted, stolen: stolen::Counted) {
    let cases: Vec<Case> = (0..CASES).map(|number| numbered(number, SETS)).collect();
    let times = cases.iter().map(|case| changes(case, ROUNDS)).collect();
    let lookups = cases.iter().map(|case| both_lookups(case, 20 * ROUNDS)).collect();
    let measured = Measured { cases, instructions, changes: times, lookups };
    measured.print_instructions();
    measured.print_bulk_instructions();
    bulk.print();
    measured.print_trails();
    measured.print_salvages();
    measured.print_times();
    measured.print_bulk_times();
    measured.print_growth();
    stolen.print();
    goals::print(&measured, &stolen);
}

/// What one build of each board of a case takes: a check is one build.
fn tallies(case: &Case) -> Vec<Tally> {
    let [_, _, ranks] = &PARTNERS;
    let mut scratch = case.scratch();
    let mut tally = |board: &Board| {
        tally::take();
        assert_eq!((ranks.check)(&case.tabulation, &board.words, &mut scratch), 0);
        tally::take()
    };
    case.boards.iter().map(&mut tally).collect()
}

/// Prints what a build of the ranks twin does in each case: means over the sets of the case, and the most. Union by size bounds a way by 11 steps where there are
/// 2,048 slots. The moves while linking are at most n log2 n ("Two-way chaining with reassignment"): a rank moves when its set is the smaller one of two.
pub fn print_counts() {
    assert!(cfg!(feature = "counts"), "this build does not count");
    let columns =
        "counts|keys n|n log2 n|steps|linking|most steps|longest way|moves|linking|most moves";
    head(&columns.split('|').collect::<Vec<_>>());
    for case in (0..CASES).map(|number| numbered(number, SETS)) {
        let tallies = tallies(&case);
        let mean = |count: fn(&Tally) -> u64| {
            let sum: u64 = tallies.iter().map(count).sum();
            rounded(sum as f64 / tallies.len() as f64)
        };
        let most = |count: fn(&Tally) -> u64| grouped(tallies.iter().map(count).max().unwrap_or(0));
        let n = case.keys() as f64;
        let cells = [
            rounded(n * n.log2()),
            mean(|tally| tally.steps),
            mean(|tally| tally.linking_steps),
            most(|tally| tally.steps),
            most(|tally| tally.longest),
            mean(|tally| tally.moves),
            mean(|tally| tally.linking_moves),
            most(|tally| tally.moves),
        ];
        row(name_and_keys(&case).into_iter().chain(cells));
    }
}
