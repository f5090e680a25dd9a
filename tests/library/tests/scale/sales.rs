//! Sales: prices at their limits and one beyond, and runs of calls with sales opened and closed between them, which
//! must not change what the calls answer and leave.

use library::beside::Beside;
use library::Change::{Insert, Remove};
use library::{fresh, scratch_length, Change, Counters, Sale};
use reference::fast::image;
use reference::house::HOUSE;
use reference::rng::Rng;
use reference::samples::{random_issue, random_keys, random_station};
use reference::set::Member;

use crate::common::{any_tier, narrow_tabulation, random_prices, Laid};

/// All eight steps 0, but for that of one tier.
fn one_step(tier: u32, step: i32) -> [i32; 8] {
    let mut steps = [0; 8];
    steps[tier as usize] = step;
    steps
}

/// What a sale at a tier must cost, or 12: by its base price, and the step of its tier, the others being 0.
const LIMITS: [(u32, i32, Result<u32, u32>); 29] = [
    (0, 0, Err(12)),
    (0, 1, Err(12)),
    (0, 500, Err(12)),
    // 1, 0 and -1, with the smallest base
    (1, 0, Ok(1)),
    (1, -1, Err(12)),
    (1, -2, Err(12)),
    (1, 500, Ok(501)),
    (1, 501, Err(12)),
    // 1, 0 and -1, with the smallest step
    (501, -500, Ok(1)),
    (500, -500, Err(12)),
    (499, -500, Err(12)),
    (501, -501, Err(12)),
    (1_000, -501, Err(12)),
    (1_000, -500, Ok(500)),
    (1_000, 500, Ok(1_500)),
    (1_000, 501, Err(12)),
    (1_000, i32::MIN, Err(12)),
    (1_000, i32::MAX, Err(12)),
    // the largest price
    (99_999, 500, Ok(100_499)),
    (99_999, 501, Err(12)),
    (99_999, 0, Ok(99_999)),
    (99_999, -500, Ok(99_499)),
    // a wrong base is not made good by its step, nor by a sum that wraps
    (100_000, 0, Err(12)),
    (100_000, -500, Err(12)),
    (u32::MAX, 0, Err(12)),
    (u32::MAX, 2, Err(12)),
    (u32::MAX, -500, Err(12)),
    (u32::MAX, i32::MIN, Err(12)),
    (1 << 31, i32::MIN, Err(12)),
];

/// Prices at their limits, of a key at each tier: its own step, the step of each other tier, which must be in its range
/// but may lead to a price below 1, and every number of steps up to nine.
#[test]
fn prices_at_their_limits() {
    let mut beside = Beside::new();
    let members: Vec<Member> = (0..8).map(|tier| (1_000 + 11 * tier, tier)).collect();
    let words = image(&HOUSE, 8, 8, 77, &members).expect("they fit");
    for (key, tier) in members {
        let mut price = |base, steps: &[i32]| {
            let (answer, sale) = beside.open(&HOUSE, &words, key, base, steps);
            sale.map_or(Err(answer), |sale| {
                assert_eq!((sale.key, sale.tier), (key, tier));
                Ok(sale.price)
            })
        };
        for (base, step, expected) in LIMITS {
            assert_eq!(price(base, &one_step(tier, step)), expected, "tier {tier}: {base}, {step}");
        }
        for other in (0..8).filter(|other| *other != tier) {
            for step in [-501, 501, i32::MIN, i32::MAX] {
                assert_eq!(price(1, &one_step(other, step)), Err(12), "{step} at {other}");
            }
            for step in [-500, -1, 500] {
                assert_eq!(price(1, &one_step(other, step)), Ok(1), "{step} at {other}");
            }
        }
        for length in 0..=9 {
            let expected = if length == 8 { Ok(1_010) } else { Err(12) };
            assert_eq!(price(1_000, &[10; 9][..length]), expected, "{length} steps");
        }
    }
}

/// Makes these changes on fresh words, and asks about the key of each; before each change `meanwhile` has the words.
/// Gives all answers and what was told with them, the words and the counters.
fn run(
    tabulation: &[u16],
    [r, s, station]: Laid,
    changes: &[(Change, u32)],
    mut meanwhile: impl FnMut(&[u32]),
) -> (Vec<u32>, Vec<u32>, Counters) {
    let mut words = fresh(r, s, station);
    let (mut counters, mut told) = (Counters::default(), Vec::new());
    let mut scratch = vec![9; scratch_length(r, s)];
    for (way, key) in changes {
        meanwhile(&words);
        told.push(library::update(*way, tabulation, &mut words, &mut scratch, &mut counters, *key));
        let [mut listed, mut tier, mut count] = [9; 3];
        let mut sheet = vec![9; 2 * r as usize];
        told.push(library::lookup(tabulation, &words, *key, &mut listed, &mut tier));
        told.push(library::check(tabulation, &words, &mut scratch));
        told.push(library::trail(tabulation, &words, &mut scratch, *key, &mut sheet, &mut count));
        told.extend([listed, tier, count]);
        told.extend(sheet);
    }
    (told, words, counters)
}

/// The sales of a run: those that are open, each with its price, and how many were opened, refused and closed.
#[derive(Default)]
struct Till {
    open: Vec<(Sale, u32)>,
    opened: u64,
    refused: u64,
    closed: u64,
}

impl Till {
    /// A few openings, and the closing of some of the sales that are open.
    fn serve(&mut self, rng: &mut Rng, tabulation: &[u16], words: &[u32], keys: &[u32]) {
        for _ in 0..rng.below(4) {
            let (base, steps) = random_prices(rng);
            let mut sale = Sale { key: 0, tier: 0, price: 0 };
            let key = rng.pick(keys);
            if library::open_sale(tabulation, words, key, base, &steps, &mut sale) == 0 {
                let price = i64::from(base) + i64::from(steps[sale.tier as usize]);
                self.open.push((sale, price as u32));
                self.opened += 1;
            } else {
                self.refused += 1;
            }
        }
        while !self.open.is_empty() && rng.one_in(2) {
            let (sale, price) = self.open.swap_remove(rng.below(self.open.len()));
            assert_eq!(library::close_sale(&sale), price, "{sale:?}");
            self.closed += 1;
        }
    }
}

/// A run with openings and closings between its calls, and the same run without them: words, answers and counters are
/// alike.
#[test]
fn sales_leave_no_trace() {
    let mut rng = Rng::new(52);
    let mut till = Till::default();
    let mut done = 0;
    for _ in 0..2_000 {
        let laid = [1 + rng.below(6) as u32, rng.below(4) as u32, random_station(&mut rng)];
        let tabulation = narrow_tabulation(&mut rng);
        let keys = random_keys(&mut rng, 12);
        let mut change = || {
            let way = if rng.one_in(3) { Remove } else { Insert(any_tier(&mut rng)) };
            let key = rng.pick(&keys);
            (way, if rng.one_in(4) { random_issue(&mut rng, key) } else { key })
        };
        let changes: Vec<(Change, u32)> = (0..40).map(|_| change()).collect();
        till.open.clear();
        let serve = |words: &[u32]| till.serve(&mut rng, &tabulation, words, &keys);
        let with = run(&tabulation, laid, &changes, serve);
        let without = run(&tabulation, laid, &changes, |_| ());
        assert_eq!(with, without, "{changes:?}");
        done += with.2.done;
    }
    let Till { opened, refused, closed, .. } = till;
    println!("{done} changes; {opened} sales opened, {refused} refused, {closed} closed");
    assert!(done > 20_000 && opened > 20_000 && refused > 20_000 && closed > 10_000);
}
