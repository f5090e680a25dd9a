//! Lists the cards of a dictionary. This is plain Rust over the words and two of the calls, tested but not proved.
//! Slots and places are taken off slices by patterns: `chunks_exact` has a panic, for chunks of length 0.

use core::iter::from_fn;

use crate::{hashes, stash, TABULATION_LENGTH};

/// Each card of a canonical list once, with its tier: those that sit in table 0, slot by slot, then those that sit in
/// table 1 alone, then the stash.
///
/// Not proved, other than the calls. Of words of another shape, of words that count more stashed keys than they have
/// places, and with a tabulation of another length there is nothing. Words of the right shape that are no canonical
/// image may list a card twice, or something that is no card: [`check`](crate::check) tells whether words are such.
///
/// ```
/// # use pinorange::{scratch_length, words_length, Counters, Refusal, TABULATION_LENGTH};
/// # let (mut tabulation, mut counters) = ([0; TABULATION_LENGTH], Counters::default());
/// # let (mut words, mut scratch) = ([0; words_length(16, 2)], [0; scratch_length(16, 2)]);
/// # pinorange::house(&mut tabulation)?;
/// # pinorange::init(&mut words, 16, 2, 0, &mut counters)?;
/// for card in [410_017, 410_025] {
///     pinorange::insert(&tabulation, &mut words, &mut scratch, &mut counters, card, 3)?;
/// }
/// assert_eq!(pinorange::cards(&tabulation, &words).count(), 2);
/// for (card, tier) in pinorange::cards(&tabulation, &words) {
///     println!("{card} at tier {tier}");
/// }
/// # Ok::<(), Refusal>(())
/// ```
pub fn cards<'a>(tabulation: &'a [u16], words: &'a [u32]) -> impl Iterator<Item = (u32, u32)> + 'a {
    let Parts { r, station, table_0, table_1, stash } =
        parts(tabulation, words).unwrap_or_default();
    // The smallest key of a component without a cycle sits in both its slots.
    let sits_in_table_0 = move |key| {
        let [number, _] = hashes(tabulation, r, station, key).ok()?;
        let start = (number as usize).checked_mul(3)?;
        Some(*table_0.get(start)? == key)
    };
    let only_in_table_1 =
        filled(table_1).filter(move |&(key, _)| sits_in_table_0(key) != Some(true));
    filled(table_0).chain(only_in_table_1).chain(places(stash))
}

/// The parts of a dictionary's words. Of none, all are empty.
#[derive(Default)]
struct Parts<'a> {
    r: u32,
    station: u32,
    table_0: &'a [u32],
    table_1: &'a [u32],
    stash: &'a [u32],
}

/// The parts of words of the right shape: that they have it is what the stash view tells.
fn parts<'a>(tabulation: &[u16], words: &'a [u32]) -> Option<Parts<'a>> {
    if tabulation.len() != TABULATION_LENGTH {
        return None;
    }
    let stash = stash(words).ok()?;
    let [r, _, _, _, station, behind @ ..] = words else { return None };
    let (r, station) = (*r, *station);
    let table = (r as usize).checked_mul(3)?;
    let (table_0, behind) = behind.split_at_checked(table)?;
    let (table_1, _) = behind.split_at_checked(table)?;
    Some(Parts { r, station, table_0, table_1, stash })
}

/// Key and tier of each filled slot of a table: a slot is key, next number and tier.
fn filled(mut table: &[u32]) -> impl Iterator<Item = (u32, u32)> + '_ {
    let slots = from_fn(move || {
        let [key, _, tier, behind @ ..] = table else { return None };
        table = behind;
        Some((*key, *tier))
    });
    slots.filter(|(key, _)| *key != 0)
}

/// Key and tier of each place of a stretch of the stash.
pub(crate) fn places(mut stash: &[u32]) -> impl Iterator<Item = (u32, u32)> + '_ {
    from_fn(move || {
        let [key, tier, behind @ ..] = stash else { return None };
        stash = behind;
        Some((*key, *tier))
    })
}
