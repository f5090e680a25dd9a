//! A short head: it lays its list at station 17, takes three cards, is refused a fourth, sells a fill-up, and lists
//! what it has. Run it with `cargo run --example head`.

use pinorange::{scratch_length, words_length, Counters, List, Refusal, Scratch};
use pinorange::{STEPS, TABULATION_LENGTH};

/// Slots in each table, stash places, and the number of the station.
const R: u32 = 64;
const S: u32 = 4;
const STATION: u32 = 17;

/// What each tier adds to the base price, in tenths of a cent.
const PRICES: [i32; STEPS] = [0, -10, -20, -50, 0, 0, 20, -250];

fn main() -> Result<(), Refusal> {
    // All memory is the head's own; firmware would have it in statics.
    let mut tabulation = [0; TABULATION_LENGTH];
    let mut words = [0; words_length(R, S)];
    let mut scratch = Scratch::<[u32; scratch_length(R, S)]>::new();
    let mut counters = Counters::default();
    pinorange::house(&mut tabulation)?;
    let mut list = List::init(&tabulation, &mut words, R, S, STATION, &mut counters)?;

    for (card, tier) in [(410_010, 1), (410_025, 0), (733_001, 3), (410_013, 1)] {
        match list.insert(&mut scratch, card, tier) {
            Ok(()) => println!("{card}: listed at tier {tier}"),
            Err(Refusal::OtherIssue) => println!("{card}: withdraw the lost one first"),
            Err(Refusal::StashFull) => println!("{card}: no room"),
            Err(other) => return Err(other),
        }
    }

    match list.lookup(410_010)? {
        Some(tier) => println!("410010: tier {tier}"),
        None => println!("410010: not listed"),
    }

    // Nozzle lift. The card is withdrawn while the customer fills up, and the price stays.
    let sale = list.open_sale(410_010, 1_749, &PRICES)?;
    list.remove(&mut scratch, 410_010)?;
    println!("{}: {} tenths of a cent a litre", sale.key, pinorange::close_sale(&sale));

    println!("{} cards:", list.len());
    for (card, tier) in list.cards() {
        println!("{card} at tier {tier}");
    }
    let Counters { done, refused } = list.counters();
    println!("{done} calls done, {refused} refused");
    Ok(())
}

#[test]
fn the_head_runs() {
    assert_eq!(main(), Ok(()));
}
