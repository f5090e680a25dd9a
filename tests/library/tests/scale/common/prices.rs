//! Base prices and steps for the openings of sales: random ones, now and then outside their range, and a list that
//! gives every tier a price of its own.

use library::Sale;
use reference::rng::Rng;

/// A price list for the tests that ask about tiers: every tier has a price of its own, and all are right.
pub const BASE: u32 = 1_799;
pub const STEPS: [i32; 8] = [0, -500, 500, -1, 1, 25, -25, 499];

/// What an opening at these prices gives for a key that lookup finds with this tier, or does not find.
pub fn sale_at(key: u32, tier: Option<u32>) -> (u32, Option<Sale>) {
    match tier {
        None => (7, None),
        Some(8..) => (4, None),
        Some(tier) => {
            let price = [1_799, 1_299, 2_299, 1_798, 1_800, 1_824, 1_774, 2_298][tier as usize];
            (0, Some(Sale { key, tier, price }))
        }
    }
}

/// A step that is in its range: often 0, or at a limit.
fn random_step(rng: &mut Rng) -> i32 {
    match rng.below(6) {
        0 => 0,
        1 => rng.pick(&[-500, 500]),
        _ => rng.below(1_001) as i32 - 500,
    }
}

/// A base price and steps for an opening: mostly right ones, of which the low bases can come to a price below 1; now
/// and then one at its limit or outside it, or not eight steps.
pub fn random_prices(rng: &mut Rng) -> (u32, Vec<i32>) {
    let base = match rng.below(12) {
        0 => rng.pick(&[0, 100_000, u32::MAX]),
        1 => rng.pick(&[1, 99_999]),
        2..=4 => 1 + rng.below(500) as u32,
        _ => 1 + rng.below(99_999) as u32,
    };
    let mut steps: Vec<i32> = (0..8).map(|_| random_step(rng)).collect();
    match rng.below(10) {
        0 => steps[rng.below(8)] = rng.pick(&[-501, 501, i32::MIN, i32::MAX]),
        1 => steps.resize(rng.below(10), 0),
        _ => {}
    }
    (base, steps)
}
