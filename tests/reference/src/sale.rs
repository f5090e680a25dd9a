//! A sale (request Four): what its price is when the nozzle is lifted, in a record that stays with
//! the caller. An opening only reads the words, and a closing borrows nothing: "The list never
//! shows that a sale is open."

use std::ops::RangeInclusive;

use crate::answer::{Found, Refusal};
use crate::calls::lookup;
use crate::set::MAX_TIER;

/// The range of the base price. Request Four: "a base price of 1 to 99,999 tenths of a cent".
const BASES: RangeInclusive<u32> = 1..=99_999;

/// The range of each step. Request Four: "eight signed steps, one for each tier, each from -500 to
/// 500".
const STEPS: RangeInclusive<i32> = -500..=500;

/// The number of steps: "eight [..], one for each tier".
const STEP_COUNT: usize = MAX_TIER as usize + 1;

/// An open sale.
///
/// Request Four: "The sale record holds card, tier and litre price, which is base plus the tier's
/// step."
#[derive(Clone, Copy, Debug, PartialEq, Eq)]
pub struct Sale {
    /// The key (the paper's "card").
    pub key: u32,
    /// The tier that the key had at the opening.
    pub tier: u32,
    /// The price of a litre, in tenths of a cent.
    pub price: u32,
}

/// Opens a sale for a listed key.
///
/// Request Four: "Opening checks as look-up does, then 7, then 4 if the tier found is above 7.
/// Answers: 12 (base or a step outside its range, or this card's price below 1) after that." So it
/// can give 1, 2, 5, 7 (for another issue of a listed key, too), 4 and 12, in this order; words
/// that are no image for any other reason than the tier found are not refused. Of several copies of
/// the key lookup's counts, the first in word order. It borrows no scratch, counts nowhere and
/// changes no word.
pub fn open(
    tabulation: &[u16],
    words: &[u32],
    key: u32,
    base: u32,
    steps: &[i32],
) -> Result<Sale, Refusal> {
    let Found::Listed(tier) = lookup(tabulation, words, key)? else {
        return Err(Refusal::NotListed);
    };
    if tier > MAX_TIER {
        return Err(Refusal::NotCanonical);
    }
    let price = price(tier, base, steps)?;
    Ok(Sale { key, tier, price })
}

/// The price that a sale closes with; never refused, whatever the record holds.
///
/// Request Four: "closing gives the record's price, though the card may have gone".
pub fn close(sale: Sale) -> u32 {
    sale.price
}

/// The price for a tier, which must not be above 7; or 12.
///
/// Request Four: "litre price, which is base plus the tier's step" and "12 (base or a step outside
/// its range, or this card's price below 1)". All eight steps must be in their range, but only the
/// price of this tier is looked at. It has no limit above, and comes to 100,499 at most.
///
/// The papers leave open what a number of steps other than eight gets. That it is 12, too, is a
/// choice: an input without a step for each tier has a step that is not in its range.
pub(crate) fn price(tier: u32, base: u32, steps: &[i32]) -> Result<u32, Refusal> {
    let are_steps = steps.len() == STEP_COUNT && steps.iter().all(|step| STEPS.contains(step));
    if !are_steps || !BASES.contains(&base) {
        return Err(Refusal::WrongPrice);
    }
    let price = i64::from(base) + i64::from(steps[tier as usize]);
    if price < 1 {
        return Err(Refusal::WrongPrice);
    }
    Ok(u32::try_from(price).expect("base and step are in their ranges"))
}
