//! The calls of the crate as firmware makes them, without `std`: each of them once, and the listings in the ways in
//! which a caller may go through them. A test builds it and reads off its symbols that nothing in it can panic.

#![no_std]

use core::fmt::{Result as Written, Write};

use pinorange::{
    bulk_load, cards, check, close_sale, hashes, house, init, insert, lookup, open_sale,
};
use pinorange::{first_part, place_start, scratch_length, slot_start, words_length};
use pinorange::{remove, salvage, stash, stolen_init, stolen_insert, stolen_lookup, trail};
use pinorange::{Counters, List, Refusal, Scratch, StolenList, STEPS, TABULATION_LENGTH};

/// Where a head shows a key and a number.
type Show = fn(u32, u32);

/// Lays a list, changes it and reads it.
#[no_mangle]
pub fn over_a_list(
    tabulation: &mut [u16; TABULATION_LENGTH],
    words: &mut [u32],
    scratch: &mut Scratch,
    counters: &mut Counters,
    sizes: [u32; 3],
    show: Show,
) -> Result<u32, Refusal> {
    house(tabulation)?;
    let [r, s, station] = sizes;
    let mut list = List::init(tabulation, words, r, s, station, counters)?;
    list.insert(scratch, 410_010, 1)?;
    list.insert(scratch, 733_001, 3)?;
    list.remove(scratch, 733_001)?;
    list.check(scratch)?;
    show(410_010, list.lookup(410_010)?.unwrap_or_default());
    let sale = list.open_sale(410_010, 1_749, &[0; STEPS])?;
    show_list(&list, scratch, show)?;
    Ok(close_sale(&sale))
}

/// Lays a whole list in one call, from pairs of card and tier.
#[no_mangle]
pub fn loaded(
    tabulation: &[u16; TABULATION_LENGTH],
    words: &mut [u32],
    scratch: &mut Scratch,
    counters: &mut Counters,
    sizes: [u32; 3],
    cards: &[[u32; 2]],
    show: Show,
) -> Result<(), Refusal> {
    let [r, s, station] = sizes;
    let input = cards.as_flattened();
    let list = List::bulk_load(tabulation, words, r, s, station, scratch, counters, input)?;
    show_list(&list, scratch, show)
}

/// Saves what is left of a damaged list.
#[no_mangle]
pub fn salvaged(
    tabulation: &[u16; TABULATION_LENGTH],
    words: &mut [u32],
    scratch: &mut Scratch,
    counters: &mut Counters,
    damaged: &[u32],
    show: Show,
) -> Result<(), Refusal> {
    let (list, lost) = List::salvage(tabulation, words, scratch, counters, damaged)?;
    show(list.len() as u32, lost);
    show_list(&list, scratch, show)
}

/// Opens a list that is there.
#[no_mangle]
pub fn opened(
    tabulation: &[u16; TABULATION_LENGTH],
    words: &mut [u32],
    scratch: &mut Scratch,
    counters: &mut Counters,
    show: Show,
) -> Result<(), Refusal> {
    show_list(&List::open(tabulation, words, scratch, counters)?, scratch, show)
}

/// All that a list tells of itself.
#[no_mangle]
pub fn show_list(list: &List, scratch: &mut Scratch, show: Show) -> Result<(), Refusal> {
    for (key, tier) in list.cards() {
        show(key, tier);
    }
    for (key, tier) in list.stash()? {
        show(key, tier);
    }
    let mut keys = [0; 32];
    for key in list.trail(scratch, 410_010, &mut keys)? {
        show(*key, 0);
    }
    show(list.slots(), list.places());
    show(list.station(), list.len() as u32);
    show(list.counters().done, list.counters().refused);
    show(list.is_empty().into(), list.words().len() as u32);
    Ok(())
}

/// The ways through a listing that are not step by step.
#[no_mangle]
pub fn through_cards(list: &List, show: Show) -> Result<(), Refusal> {
    show(list.cards().count() as u32, list.stash()?.count() as u32);
    let last = [list.cards().last(), list.stash()?.last(), list.cards().nth(7)];
    for (key, tier) in last.into_iter().flatten() {
        show(key, tier);
    }
    show(0, list.cards().fold(0, |all, (_, tier)| tier.max(all)));
    Ok(())
}

/// The same calls over slices.
#[no_mangle]
pub fn over_slices(
    tabulation: &[u16],
    words: &mut [u32],
    scratch: &mut [u32],
    keys: &mut [u32],
    counters: &mut Counters,
    target: &mut [u32],
    show: Show,
) -> Result<u32, Refusal> {
    bulk_load(tabulation, words, scratch, counters, 16, 2, 17, &[410_010, 1, 733_001, 3])?;
    init(words, 16, 2, 17, counters)?;
    insert(tabulation, words, scratch, counters, 410_010, 1)?;
    remove(tabulation, words, scratch, counters, 410_010)?;
    check(tabulation, words, scratch)?;
    show(0, salvage(tabulation, words, target, scratch)?);
    show(410_010, lookup(tabulation, words, 410_010)?.unwrap_or_default());
    for key in trail(tabulation, words, scratch, 410_010, keys)?.iter().chain(stash(words)?) {
        show(*key, 0);
    }
    for (key, tier) in cards(tabulation, words) {
        show(key, tier);
    }
    Ok(open_sale(tabulation, words, 410_010, 1_749, &[0; STEPS])?.price)
}

/// Lays a stolen-card list, reports a card and asks for it, and takes the words up again.
#[no_mangle]
pub fn stolen_cards(
    tabulation: &[u16; TABULATION_LENGTH],
    words: &mut [u32],
    station: u32,
    show: Show,
) -> Result<(), Refusal> {
    let mut stolen = StolenList::init(tabulation, words, station)?;
    stolen.insert(410_017)?;
    show(410_017, stolen.is_reported(410_017)?.into());
    let mut stolen = StolenList::open(tabulation, words, station)?;
    stolen.check()?;
    for key in stolen.cards() {
        show(key, stolen.station());
    }
    show(stolen.slots() as u32, stolen.len() as u32);
    show(stolen.is_empty().into(), stolen.words().len() as u32);
    stolen_init(words)?;
    stolen_insert(tabulation, words, station, 410_018)?;
    show(410_018, stolen_lookup(tabulation, words, station, 410_018)?.into());
    Ok(())
}

/// What a till needs, and the lengths of sizes that are not known before.
#[no_mangle]
pub fn places_of(tabulation: &[u16], r: u32, s: u32, key: u32, show: Show) -> Result<(), Refusal> {
    let [table_0, table_1] = hashes(tabulation, r, 17, key)?;
    show(table_0, table_1);
    show(words_length(r, s) as u32, scratch_length(r, s) as u32);
    show(slot_start(r, 1, table_1) as u32, place_start(r, s) as u32);
    show(first_part(key), key);
    Ok(())
}

/// A refusal in words, and lists and a scratch for a log.
#[no_mangle]
pub fn logged(
    log: &mut dyn Write,
    refusal: u32,
    list: &List,
    scratch: &Scratch,
    stolen: &StolenList,
) -> Written {
    if let Some(refusal) = Refusal::of(refusal) {
        write!(log, "{}: {refusal}, {refusal:?}", refusal.number())?;
    }
    write!(log, "{list:?}, {scratch:?}, {stolen:?}")
}
