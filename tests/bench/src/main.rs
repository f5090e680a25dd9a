//! The benchmark: the library beside two twins in Rust. `tests/bench/run` uses it, in this order: `compare N` has all
//! partners refuse issues of one first part, and makes N random calls that they must answer alike; `counts` prints what
//! a build does, in a build with the feature of that name; `wanted` lists the calls whose instructions are to be
//! counted, trails and salvages by the library among them, and `one CASE PARTNER CALL` makes one of them; `tables FILE
//! BULK STOLEN` takes what was counted from files, takes times, and prints the tables; `picture FILE` draws times
//! against keys. For bulk loads beside inserts `bulk-wanted` lists what is to be counted, into the file BULK, and `one
//! LIST bulk CALL` makes one of them; for the stolen-card list so do `stolen-wanted`, into the file STOLEN, and `one
//! CASE stolen CALL`, and `stolen FILE` prints its table alone. For the dearest calls `worst-wanted` lists what is to be counted, `one SIZE worst NUMBER` makes one of
//! them, and `worst FILE` prints the most that was counted for each call.

mod bulk;
mod cases;
mod common;
mod compare;
mod goals;
mod instructions;
mod issues;
mod partners;
mod picture;
mod plain;
mod ranks;
mod salvage;
mod stolen;
mod tables;
mod tally;
mod timing;
mod trails;
mod worst;

use bulk::Counted;
use instructions::Instructions;

fn main() {
    let words: Vec<String> = std::env::args().skip(1).collect();
    let words: Vec<&str> = words.iter().map(String::as_str).collect();
    match words[..] {
        ["compare", calls] => {
            issues::run();
            let calls = calls.parse().expect("how many calls");
            compare::run(calls);
            stolen::compare(calls);
        }
        ["counts"] => tables::print_counts(),
        ["wanted"] => instructions::print_wanted(),
        ["bulk-wanted"] => bulk::print_wanted(),
        ["stolen-wanted"] => stolen::print_wanted(),
        ["stolen", file] => stolen::Counted::read(file).print(),
        ["worst-wanted"] => worst::print_wanted(),
        ["worst", file] => worst::print(file),
        ["one", r, worst::NAME, number] => worst::one(r, number),
        ["one", list, bulk::NAME, way] => bulk::one(list, way),
        ["one", case, stolen::NAME, call] => stolen::one(case, call),
        ["one", case, partner, call] => instructions::one(case, partner, call),
        ["tables", file, bulk, stolen] => {
            let stolen = stolen::Counted::read(stolen);
            tables::print(Instructions::read(file), Counted::read(bulk), stolen);
        }
        ["picture", file] => picture::draw(file),
        _ => panic!("see the top of main.rs"),
    }
}
