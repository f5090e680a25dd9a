//! Request Four, a sale stays with the price at nozzle lift: each refusal and each pair of them,
//! the limits of base, steps and price, tampered lists, closing after the list has changed, and
//! that a run of calls is the same with sales in it as without.

use reference::answer::{number, Found, Refusal};
use reference::calls::{check, lookup, stash};
use reference::image::{Engine, Slow};
use reference::model::{Call, Model, Reply};
use reference::rng::Rng;
use reference::sale::{close, open, Sale};
use reference::samples::{random_station, random_tabulation, random_tier, test_tabulation};

use crate::common::{engines, hand_price, hand_words, random_prices, small_key, Harness, Tally};

/// Steps that all differ, so that a price tells its tier.
const STEPS: [i32; 8] = [0, -10, 20, -30, 40, -50, 60, -500];

/// The prices with these steps and base 1,000.
const PRICES: [u32; 8] = [1_000, 990, 1_020, 970, 1_040, 950, 1_060, 500];

/// K5 with these tiers of 10 (which is in table 0), 650 (in table 1) and 1290 (in the stash).
fn k5([of_10, of_650, of_1290]: [u32; 3]) -> Vec<u32> {
    hand_words(4, 1, 0, 3, &[(0, 1, 10, 650, of_10), (1, 0, 650, 10, of_650)], &[(1_290, of_1290)])
}

/// An opening on the test board.
fn opened(words: &[u32], key: u32, base: u32, steps: &[i32]) -> Result<Sale, Refusal> {
    open(&test_tabulation(), words, key, base, steps)
}

/// What openings with base 1,000 and [`STEPS`] give for a tier found.
fn at_1_000(key: u32, tier: u32) -> Result<Sale, Refusal> {
    let price = PRICES.get(tier as usize).ok_or(Refusal::NotCanonical)?;
    Ok(Sale { key, tier, price: *price })
}

/// Steps that are 0 but for one tier.
fn one_step(tier: usize, step: i32) -> [i32; 8] {
    let mut steps = [0; 8];
    steps[tier] = step;
    steps
}

/// The price of a sale for key 10, which has this tier.
fn price_of_10(tier: usize, base: u32, steps: &[i32]) -> Result<u32, Refusal> {
    // The other keys have other tiers, which do not count.
    let tier = tier as u32;
    let sale = opened(&k5([tier, (tier + 1) % 8, (tier + 2) % 8]), 10, base, steps)?;
    assert_eq!((sale.key, sale.tier), (10, tier));
    Ok(sale.price)
}

/// Request Four: "The sale record holds card, tier and litre price, which is base plus the tier's
/// step."
#[test]
fn a_sale_holds_key_tier_and_price() {
    for tier in 0..8 {
        let tiers = [tier, (tier + 1) % 8, (tier + 3) % 8];
        let words = k5(tiers);
        for (key, tier) in [10, 650, 1_290].into_iter().zip(tiers) {
            assert_eq!(opened(&words, key, 1_000, &STEPS), at_1_000(key, tier));
        }
        for (_, engine) in engines() {
            let mut list = Harness::new(engine, &test_tabulation(), 4, 0, 0);
            assert_eq!(list.insert(u32::MAX, tier), Ok(()));
            assert_eq!(list.open(u32::MAX, 1_000, &STEPS), at_1_000(u32::MAX, tier));
        }
    }
}

/// Each refusal alone, and each two that follow one another in one input.
#[test]
fn every_refusal_and_its_neighbour() {
    let right_book = test_tabulation();
    let (short_book, long_book) = (&right_book[..2_559], [&right_book[..], &[0]].concat());
    let (right, above) = (k5([3, 0, 6]), k5([8, 8, 8]));
    let (short, long) = (&right[..30], [&right[..], &[0]].concat());
    let no_station =
        hand_words(4, 1, 256, 3, &[(0, 1, 10, 650, 3), (1, 0, 650, 10, 0)], &[(1_290, 6)]);
    // A key 0 would have 0.0 and 1.0, and 0.0 is empty in K5. Here both hold 40, and there is no
    // stash: no zero stands where a key 0 would.
    let no_zero = hand_words(4, 0, 0, 1, &[(0, 0, 40, 40, 2), (1, 0, 40, 40, 2)], &[]);
    for (tabulation, words, key, base, answer, why) in [
        (&right_book[..], &right[..], 10, 1_000, 0, "accepted"),
        (short_book, &right, 10, 1_000, 1, "1 alone"),
        (&long_book, &right, 10, 1_000, 1, "1 alone"),
        (&right_book, short, 10, 1_000, 2, "2 alone"),
        (&right_book, &long, 10, 1_000, 2, "2 alone"),
        (&right_book, &[], 10, 1_000, 2, "2 alone"),
        (&right_book[..2_048], &right, 10, 1_000, 1, "1 alone: the length without the station"),
        (&right_book, &no_station, 10, 1_000, 2, "2 alone: a station above 255"),
        (short_book, &no_station, 10, 1_000, 1, "1 before 2"),
        (&right_book, &no_station, 0, 0, 2, "2 before 5"),
        (&right_book, &no_station, 20, 0, 2, "2 before 7"),
        (&right_book, &right, 20, 1_000, 7, "7 alone"),
        (&right_book, &right, 1_930, 1_000, 7, "7 alone, with both its slots and the stash filled"),
        (&right_book, &above, 10, 1_000, 4, "4 alone"),
        (&right_book, &right, 10, 0, 12, "12 alone"),
        (short_book, short, 10, 1_000, 1, "1 before 2"),
        (&right_book, short, 0, 1_000, 2, "2 before 5"),
        (&right_book, &right, 0, 1_000, 5, "5 before 7, with a zero in its slot"),
        (&right_book, &no_zero, 0, 1_000, 5, "5 before 7, without one"),
        (&right_book, &no_zero, 9, 1_000, 5, "5 for any number below 10"),
        (&right_book, &no_station, 9, 0, 2, "2 before 5"),
        (&right_book, &right, 19, 1_000, 7, "7 for another issue, in table 0"),
        (&right_book, &right, 651, 1_000, 7, "7 for another issue, in table 1"),
        (&right_book, &right, 1_299, 1_000, 7, "7 for another issue, in the stash"),
        (&right_book, &above, 19, 0, 7, "7 before 4 and 12 for another issue"),
        (&right_book, &above, 20, 1_000, 7, "7 before 4: the words are no image"),
        (&right_book, &above, 10, 0, 4, "4 before 12"),
        (&right_book, &right, 20, 0, 7, "7 before 12"),
        (&right_book, &above, 0, 0, 5, "5 before 4 and 12"),
        (&right_book, &above[..30], 0, 0, 2, "2 before 5, 4 and 12"),
        (&[], &above[..30], 0, 0, 1, "1 before all"),
    ] {
        let opened = open(tabulation, words, key, base, &STEPS);
        assert_eq!(number(opened.map(|_| ())), answer, "{key}, {base}: {why}");
    }
}

#[test]
fn the_base_has_its_limits() {
    let refused = Err(Refusal::WrongPrice);
    for tier in 0..8 {
        for (base, price) in [
            (0, refused),
            (1, Ok(1)),
            (99_999, Ok(99_999)),
            (100_000, refused),
            (u32::MAX, refused),
        ] {
            assert_eq!(price_of_10(tier, base, &[0; 8]), price, "{base}");
        }
        // The step does not bring a base back into its range; the last sums are 1 by 32-bit words.
        for (base, step) in [
            (0, 1),
            (0, 500),
            (100_000, -1),
            (100_499, -500),
            (u32::MAX, -500),
            (u32::MAX, 2),
            (u32::MAX - 498, 500),
        ] {
            assert_eq!(price_of_10(tier, base, &one_step(tier, step)), refused, "{base}, {step}");
        }
    }
}

#[test]
fn every_step_has_its_limits() {
    let mut tally = Tally::default();
    for tier in 0..8 {
        for of_tier in 0..8 {
            for (step, price) in [
                (i32::MIN, None),
                (-501, None),
                (-500, Some(500)),
                (500, Some(1_500)),
                (501, None),
                (i32::MAX, None),
            ] {
                let steps = one_step(of_tier, step);
                let own = of_tier == tier;
                let expected = price.map(|price| if own { price } else { 1_000 });
                let found = price_of_10(tier, 1_000, &steps);
                assert_eq!(found, expected.ok_or(Refusal::WrongPrice), "{tier}, {steps:?}");
                let whose = if own { "own tier" } else { "another tier" };
                tally.add(format!("{whose}, {}", number(found.map(|_| ()))));
            }
        }
    }
    let wanted = ["own tier, 0", "own tier, 12", "another tier, 0", "another tier, 12"];
    tally.report("steps", &wanted);
}

#[test]
fn the_price_is_1_or_more() {
    let refused = Err(Refusal::WrongPrice);
    for (base, step, price) in [
        (1, 0, Ok(1)),
        (1, -1, refused),
        (1, -2, refused),
        (1, -500, refused),
        (2, -1, Ok(1)),
        (2, -2, refused),
        (499, -500, refused),
        (500, -500, refused),
        (501, -500, Ok(1)),
        (500, -499, Ok(1)),
        (1, 500, Ok(501)),
        (99_999, -500, Ok(99_499)),
        (99_999, 499, Ok(100_498)),
        (99_999, 500, Ok(100_499)),
    ] {
        for tier in 0..8 {
            let steps = one_step(tier, step);
            assert_eq!(price_of_10(tier, base, &steps), price, "{tier}, {base}, {step}");
        }
    }
}

/// Request Four: "this card's price below 1". A price of another tier may be.
#[test]
fn only_the_price_of_the_own_tier_counts() {
    for tier in 0..8 {
        let (mut others_low, mut own_low) = ([-500; 8], [500; 8]);
        others_low[tier] = 0;
        own_low[tier] = -1;
        assert_eq!(price_of_10(tier, 1, &others_low), Ok(1));
        assert_eq!(price_of_10(tier, 1, &own_low), Err(Refusal::WrongPrice));
    }
}

/// The papers leave this open; see the choice in `sale`.
#[test]
fn a_number_of_steps_other_than_eight_is_12() {
    for len in (0..20).chain([256, 264, 1 << 16]) {
        for tier in 0..8 {
            let expected = if len == 8 { Ok(1_000) } else { Err(Refusal::WrongPrice) };
            assert_eq!(price_of_10(tier, 1_000, &vec![0; len]), expected, "{tier}, {len}");
        }
        // After 7 and after 4, also where a step stands at the tier's position.
        assert_eq!(opened(&k5([3, 0, 6]), 20, 1_000, &vec![0; len]), Err(Refusal::NotListed));
        assert_eq!(opened(&k5([8, 0, 6]), 10, 1_000, &vec![0; len]), Err(Refusal::NotCanonical));
    }
}

#[test]
fn a_tier_above_7_is_4_before_12() {
    for tier in [8, 9, 15, 16, 255, 256, 1 << 31, u32::MAX] {
        for (base, steps) in
            [(1_000, STEPS), (0, STEPS), (100_000, STEPS), (1, [-1; 8]), (1_000, [501; 8])]
        {
            for key in [10, 650, 1_290] {
                let found = opened(&k5([tier; 3]), key, base, &steps);
                assert_eq!(found, Err(Refusal::NotCanonical), "{key}, {tier}, {base}");
                // The tier above 7 is that of the other keys.
                let tiers = [10, 650, 1_290].map(|other| if other == key { 7 } else { tier });
                let price = hand_price(7, base, &steps).ok_or(Refusal::WrongPrice);
                let expected = price.map(|price| Sale { key, tier: 7, price });
                assert_eq!(opened(&k5(tiers), key, base, &steps), expected, "{key}, {tier}");
            }
        }
    }
}

/// Damage of each word but r and s: it counts only where it takes the key away or changes its tier,
/// or where the station is above 255. (Another station changes no slot here: the fifth stretches
/// are zero.)
#[test]
fn a_list_tampered_in_any_other_way_is_not_refused() {
    let words = k5([3, 0, 6]);
    let mut tally = Tally::default();
    for at in 2..words.len() {
        // None of these is a key of the list; some are blank, some other issues of its keys.
        let values = [0, 5, 8, 19, 651, 1_299, 1 << 20, u32::MAX];
        for value in values.into_iter().filter(|&value| value != words[at]) {
            let mut damaged = words.clone();
            damaged[at] = value;
            let is_image = check(&Slow, &test_tabulation(), &damaged, &mut [0; 56]).is_ok();
            for (key, tier, key_at, tier_at) in
                [(10, 3, 8, 10), (650, 0, 17, 19), (1_290, 6, 29, 30)]
            {
                let expected = match at {
                    4 if value > 255 => Err(Refusal::WrongShape),
                    _ if at == key_at => Err(Refusal::NotListed),
                    _ if at == tier_at => at_1_000(key, value),
                    _ => at_1_000(key, tier),
                };
                let opened = opened(&damaged, key, 1_000, &STEPS);
                assert_eq!(opened, expected, "{key}: {value} in word {at}");
                let image = if is_image { "an image" } else { "no image" };
                tally.add(format!("{image}, {}", number(opened.map(|_| ()))));
            }
        }
    }
    let wanted = ["no image, 0", "no image, 2", "no image, 7", "no image, 4", "an image, 0"];
    tally.report("tampered lists", &wanted);
}

/// Look-up's rule: "should a tampered list show the card more than once, the first in word order
/// counts". In this order: the slot in table 0, the slot in table 1, the stash places.
#[test]
fn of_several_copies_the_first_counts() {
    for tiers in [[4, 9, 7, 0, u32::MAX], [8, 3, u32::MAX, 1, 6], [7, 8, 2, 12, 5]] {
        for mask in 0..32 {
            let has = |copy: usize| mask >> copy & 1 == 1;
            // Key 170 belongs into slot 1 of each table; the copy in 0.0 does not count.
            let slots = [(0, 1, 170, 170, tiers[0]), (1, 1, 170, 170, tiers[1])];
            let mut entries = vec![(0, 0, 170, 170, 2)];
            entries.extend((0..2).filter(|&copy| has(copy)).map(|copy| slots[copy]));
            let place = |copy: usize| if has(copy) { (170, tiers[copy]) } else { (171, 3) };
            let words = hand_words(4, 3, 0, 1, &entries, &[place(2), place(3), place(4)]);
            let expected = match (0..5).find(|&copy| has(copy)) {
                Some(first) => at_1_000(170, tiers[first]),
                None => Err(Refusal::NotListed),
            };
            assert_eq!(opened(&words, 170, 1_000, &STEPS), expected, "{tiers:?}, {mask:05b}");
        }
    }
}

/// Request Four: "Adds and withdrawals are allowed while sales are open; closing gives the record's
/// price, though the card may have gone."
#[test]
fn a_sale_closes_with_its_price_whatever_the_list_does() {
    for (_, engine) in engines() {
        let mut list = Harness::new(engine, &test_tabulation(), 4, 1, 0);
        for (key, tier) in [(10, 3), (650, 0), (1_290, 6)] {
            assert_eq!(list.insert(key, tier), Ok(()));
        }
        for (key, tier) in [(10, 3), (650, 0), (1_290, 6)] {
            let first = list.open(key, 1_000, &STEPS).unwrap();
            assert_eq!(close(first), PRICES[tier as usize], "nothing has changed");
            assert_eq!(list.remove(key), Ok(()), "allowed while the sale is open");
            assert_eq!(list.open(key, 1_000, &STEPS), Err(Refusal::NotListed));
            assert_eq!(close(first), PRICES[tier as usize], "the key has gone");
            assert_eq!(list.insert(key, 7), Ok(()), "allowed while the sale is open");
            let second = list.open(key, 1_000, &STEPS).unwrap();
            assert_eq!(close(second), 500, "the other tier's price");
            assert_eq!(close(first), PRICES[tier as usize], "the key has another tier");
            let third = list.open(key, 2_000, &STEPS).unwrap();
            assert_eq!([first, second, third].map(close), [PRICES[tier as usize], 500, 1_500]);
        }
    }
}

/// Closing has no refusal and looks at nothing but the record's price.
#[test]
fn any_record_closes_with_its_price() {
    for price in [0, 1, 100_499, 100_500, u32::MAX] {
        for (key, tier) in [(0, 0), (1, 7), (1, 8), (u32::MAX, u32::MAX)] {
            let sale = Sale { key, tier, price };
            assert_eq!([close(sale), close(sale)], [price, price], "as often as asked");
        }
    }
}

/// Makes a call on a list; the lengths in the call are those that the list has.
fn made(list: &mut Harness, call: &Call) -> Reply {
    match *call {
        Call::Insert { key, tier, .. } => Reply::Answer(list.insert(key, tier)),
        Call::Remove { key, .. } => Reply::Answer(list.remove(key)),
        Call::Lookup { key, .. } => Reply::Lookup(lookup(&list.tabulation, &list.words, key)),
        Call::Check { .. } => Reply::Answer(list.check()),
        Call::Stash => Reply::Stash(stash(&list.words).to_vec()),
        Call::Trail { key, trail_sheet_len, .. } => Reply::Trail(list.trail(key, trail_sheet_len)),
        Call::Open { key, base, ref steps, .. } => Reply::Open(list.open(key, base, steps)),
        Call::Close { sale } => Reply::Close(close(sale)),
        Call::Salvage { .. } | Call::Other { .. } => unreachable!("not drawn here"),
    }
}

/// A list with sales, the same list without, and the model of the first.
struct Runs<'a> {
    with: Harness<'a>,
    without: Harness<'a>,
    model: Model<Slow>,
    /// The sales opened so far, each with its price worked out beside it.
    sales: Vec<(Sale, u32)>,
}

impl<'a> Runs<'a> {
    fn start(engine: &'a dyn Engine, rng: &mut Rng) -> Self {
        let (r, s) = (1 + rng.below(3) as u32, rng.below(3) as u32);
        let (tabulation, station) = (random_tabulation(rng, 4), random_station(rng));
        let [with, without] = [(); 2].map(|_| Harness::new(engine, &tabulation, r, s, station));
        let model = Model::new(Slow, &tabulation, r, s, station).unwrap();
        Runs { with, without, model, sales: Vec::new() }
    }

    /// A random call that is no sale, made in both runs.
    fn call(&mut self, rng: &mut Rng, tally: &mut Tally) {
        let (tabulation_len, scratch_len) = (2_560, self.with.scratch_len);
        let (key, tier, trail_sheet_len) = (small_key(rng, 6), random_tier(rng), rng.below(5));
        let (call, name) = match rng.below(10) {
            0..=3 => (Call::Insert { tabulation_len, scratch_len, key, tier }, "insert"),
            4..=5 => (Call::Remove { tabulation_len, scratch_len, key }, "remove"),
            6 => (Call::Lookup { tabulation_len, key }, "lookup"),
            7 => (Call::Check { tabulation_len, scratch_len }, "check"),
            8 => (Call::Stash, "stash"),
            _ => (Call::Trail { tabulation_len, scratch_len, key, trail_sheet_len }, "trail"),
        };
        let reply = made(&mut self.without, &call);
        assert_eq!(made(&mut self.with, &call), reply, "{call:?}");
        assert_eq!(self.model.feed(&call), reply, "{call:?}");
        let open = if self.sales.is_empty() { "no sale" } else { "sales open" };
        let answer = match reply {
            Reply::Answer(answer) => number(answer).to_string(),
            _ => "some answer".to_string(),
        };
        tally.add(format!("{name}, {open}, {answer}"));
    }

    /// An opening in the run with sales; the model answers the same.
    fn open(&mut self, rng: &mut Rng, tally: &mut Tally) {
        let (key, (base, steps)) = (small_key(rng, 6), random_prices(rng));
        let listed = lookup(&self.without.tabulation, &self.without.words, key);
        let call = Call::Open { tabulation_len: 2_560, key, base, steps: steps.clone() };
        let reply = made(&mut self.with, &call);
        assert_eq!(self.model.feed(&call), reply, "{call:?}");
        let Reply::Open(opened) = reply else { unreachable!("{reply:?} to an opening") };
        tally.add(format!("open {}", number(opened.map(|_| ()))));
        if let Ok(Found::Listed(tier)) = listed {
            let price = hand_price(tier, base, &steps);
            let expected = price.map(|price| Sale { key, tier, price });
            assert_eq!(opened, expected.ok_or(Refusal::WrongPrice), "{call:?}");
            self.sales.extend(expected.zip(price));
        }
    }

    /// Closes one of the sales, which stays to be closed again.
    fn close(&mut self, sale: Sale, price: u32, tally: &mut Tally) {
        let call = Call::Close { sale };
        assert_eq!(made(&mut self.with, &call), Reply::Close(price), "{call:?}");
        assert_eq!(self.model.feed(&call), Reply::Close(price), "{call:?}");
        tally.add(match self.model.set().get(&sale.key) {
            Some(&tier) if tier == sale.tier => "close, as listed",
            Some(_) => "close, other tier",
            None => "close, key gone",
        });
    }

    /// Request Four: "The list never shows that a sale is open."
    fn compare(&self) {
        assert_eq!(self.with.words, self.without.words);
        assert_eq!(self.with.words, self.model.words());
        assert_eq!(self.with.counters, self.without.counters);
    }
}

#[test]
fn a_run_with_sales_is_the_run_without_them() {
    let mut rng = Rng::new(111);
    let mut tally = Tally::default();
    for (name, engine) in engines() {
        for _ in 0..if name == "slow" { 100 } else { 600 } {
            let mut runs = Runs::start(engine, &mut rng);
            for _ in 0..rng.below(50) {
                match rng.below(4) {
                    0 => runs.open(&mut rng, &mut tally),
                    1 if !runs.sales.is_empty() => {
                        let (sale, price) = rng.pick(&runs.sales);
                        runs.close(sale, price, &mut tally);
                    }
                    _ => runs.call(&mut rng, &mut tally),
                }
                runs.compare();
            }
            for (sale, price) in runs.sales.clone() {
                runs.close(sale, price, &mut tally);
            }
            runs.compare();
        }
    }
    let wanted = [
        "open 0",
        "open 5",
        "open 7",
        "open 12",
        "close, as listed",
        "close, other tier",
        "close, key gone",
        "insert, sales open, 0",
        "insert, sales open, 6",
        "insert, sales open, 8",
        "insert, sales open, 10",
        "insert, sales open, 13",
        "remove, sales open, 0",
        "remove, sales open, 7",
        "lookup, sales open, some answer",
        "check, sales open, 0",
        "stash, sales open, some answer",
        "trail, sales open, some answer",
    ];
    tally.report("runs with sales", &wanted);
}

/// The reference model by hand: it answers an opening from its own set, and the set stays.
#[test]
fn the_model_answers_sales() {
    let (tabulation_len, scratch_len) = (2_560, 56);
    let mut model = Model::new(Slow, &test_tabulation(), 4, 1, 0).unwrap();
    for (key, tier) in [(10, 3), (650, 0), (1_290, 6)] {
        let call = Call::Insert { tabulation_len, scratch_len, key, tier };
        assert_eq!(model.feed(&call), Reply::Answer(Ok(())));
    }
    let (words, set) = (model.words(), model.set().clone());
    for (tabulation_len, key, base, steps, opened) in [
        (2_560, 10, 1_000, &STEPS[..], Ok(Sale { key: 10, tier: 3, price: 970 })),
        (2_560, 650, 99_999, &[500; 8], Ok(Sale { key: 650, tier: 0, price: 100_499 })),
        (2_560, 1_290, 501, &[-500; 8], Ok(Sale { key: 1_290, tier: 6, price: 1 })),
        (2_560, 1_290, 500, &[-500; 8], Err(Refusal::WrongPrice)),
        (2_560, 1_290, 0, &STEPS, Err(Refusal::WrongPrice)),
        (2_560, 1_290, 100_000, &STEPS, Err(Refusal::WrongPrice)),
        (2_560, 1_290, 1_000, &STEPS[..7], Err(Refusal::WrongPrice)),
        (2_560, 1_290, 1_000, &[0, 0, 0, 0, 0, 0, 0, 501], Err(Refusal::WrongPrice)),
        (2_560, 20, 0, &STEPS, Err(Refusal::NotListed)),
        (2_560, 11, 1_000, &STEPS, Err(Refusal::NotListed)),
        (2_560, 1_299, 0, &STEPS, Err(Refusal::NotListed)),
        (2_560, 9, 0, &STEPS, Err(Refusal::BlankKey)),
        (2_560, 0, 0, &STEPS, Err(Refusal::BlankKey)),
        (2_559, 0, 0, &STEPS, Err(Refusal::WrongTabulation)),
        (2_561, 10, 1_000, &STEPS, Err(Refusal::WrongTabulation)),
        (2_048, 10, 1_000, &STEPS, Err(Refusal::WrongTabulation)),
    ] {
        let call = Call::Open { tabulation_len, key, base, steps: steps.to_vec() };
        assert_eq!(model.feed(&call), Reply::Open(opened), "{call:?}");
        assert_eq!((model.words(), model.set()), (words.clone(), &set));
    }
    let sale = Sale { key: 10, tier: 3, price: 970 };
    for _ in 0..2 {
        assert_eq!(model.feed(&Call::Close { sale }), Reply::Close(970), "as often as asked");
        assert_eq!(model.words(), words);
    }
    let removed = model.feed(&Call::Remove { tabulation_len, scratch_len, key: 10 });
    assert_eq!(removed, Reply::Answer(Ok(())));
    assert_eq!(model.feed(&Call::Close { sale }), Reply::Close(970), "the key has gone");
    let opened = model.feed(&Call::Open { tabulation_len, key: 10, base: 1, steps: vec![0; 8] });
    assert_eq!(opened, Reply::Open(Err(Refusal::NotListed)));
}
