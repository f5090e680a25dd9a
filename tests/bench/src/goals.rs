//! The goals, and beside each the worst that was found. Nothing is asserted: the times of single runs vary.

use crate::cases::{Case, Load, LOADS};
use crate::partners::Call;
use crate::salvage::Words;
use crate::stolen::Counted;
use crate::tables::{head, row, Measured, ASKED};
use crate::timing::{CHANGES, TIMED};

/// A number, and where it was found.
type Found = (f64, String);

/// The loads that a dictionary is meant for: 12 to 49 %.
fn light(load: Load) -> bool {
    matches!(load, Load::Percent(percent) if percent <= 49)
}

/// A number of insert, remove, check and bulk load on each of some cases.
fn of_builds(
    measured: &Measured,
    wanted: impl Fn(&Case) -> bool,
    number: impl Fn(usize, Call) -> f64,
) -> Vec<Found> {
    let cases = measured.cases.iter().enumerate().filter(|(_, case)| wanted(case));
    let calls = cases.flat_map(|(i, case)| TIMED.map(|call| (i, case, call)));
    let found = |(i, case, call): (usize, &Case, Call)| {
        (number(i, call), format!("{}, {}", call.title(), case.name()))
    };
    calls.map(found).collect()
}

fn lookups_by_instructions(measured: &Measured) -> Vec<Found> {
    let ratio = |case: usize| measured.instructions.ratio(case, 1, Call::Lookup);
    measured.cases.iter().enumerate().map(|(i, case)| (ratio(i), case.name())).collect()
}

fn lookups_by_time(measured: &Measured) -> Vec<Found> {
    let mut all = Vec::new();
    for (case, both) in measured.cases.iter().zip(&measured.lookups) {
        for (what, found) in ASKED.iter().zip(both) {
            all.push((found.ratios[1], format!("{}, {what}", case.name())));
        }
    }
    all
}

fn bulk_loads_to_inserts(measured: &Measured) -> Vec<Found> {
    let ratio = |case: usize| measured.instructions.bulk_load_to_insert(case);
    measured.cases.iter().enumerate().map(|(i, case)| (ratio(i), case.name())).collect()
}

/// Salvages of untampered and of damaged words, each to a check of the untampered ones.
fn salvages_to_checks(measured: &Measured) -> Vec<Found> {
    let mut all = Vec::new();
    for (i, case) in measured.cases.iter().enumerate() {
        for words in Words::BOTH {
            let ratio = measured.instructions.salvage_to_check(i, words);
            all.push((ratio, format!("{}, {}", words.name().replace("salvage-", ""), case.name())));
        }
    }
    all
}

/// The growth of each call at light loads: 0 by instructions, 1 by time.
fn growth(measured: &Measured, which: usize) -> Vec<Found> {
    let mut all = Vec::new();
    for (i, load) in LOADS.iter().enumerate().filter(|(_, load)| light(**load)) {
        for (call, name) in CHANGES.iter().enumerate().map(|(i, call)| (i, call.name())) {
            all.push((measured.growth(i, call)[which], format!("{name}, {load}")));
        }
    }
    all
}

fn print_goal(goal: &str, most: f64, found: Vec<Found>) {
    let worst = found.into_iter().max_by(|one, two| one.0.total_cmp(&two.0));
    let (number, place) = worst.expect("something is measured for each goal");
    let met = if number <= most { "yes" } else { "no" };
    row([goal.into(), most.to_string(), format!("{number:.2}"), place, met.into()]);
}

#[rustfmt::skip]
pub fn print(measured: &Measured, stolen: &Counted) {
    let instructions = |who: usize| {
        move |case: usize, call: Call| measured.instructions.ratio(case, who, call)
    };
    let time = |case: usize, call: Call| measured.changes[case].ratios[2][call as usize];
    let builds = |light_wanted: bool| of_builds(measured, |case| light(case.load) == light_wanted, instructions(1));
    head(&["goal", "at most", "worst found", "where", "met"]);
    print_goal("to the plain twin, 12 to 49 %, instructions", 0.5, builds(true));
    print_goal("to the plain twin, other cases, instructions", 0.65, builds(false));
    print_goal("to the ranks twin, instructions", 1.1, of_builds(measured, |_| true, instructions(2)));
    print_goal("to the ranks twin, time", 1.25, of_builds(measured, |_| true, time));
    print_goal("lookup to the twins, instructions", 1.1, lookups_by_instructions(measured));
    print_goal("lookup to the twins, time", 1.1, lookups_by_time(measured));
    print_goal("bulk load to an insert into the same set, instructions", 0.6, bulk_loads_to_inserts(measured));
    print_goal("salvage to a check of the untampered words, instructions", 1.5, salvages_to_checks(measured));
    print_goal("stolen list: lookup to the twin, instructions", 1.1, stolen.to_twin(true));
    print_goal("stolen list: insert to the twin, instructions", 1.1, stolen.to_twin(false));
    print_goal("from r = 128 to r = 1,024, 12 to 49 %, instructions", 12.0, growth(measured, 0));
    print_goal("from r = 128 to r = 1,024, 12 to 49 %, time", 12.0, growth(measured, 1));
}
