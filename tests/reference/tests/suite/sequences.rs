//! Random sequences of calls on borrowed words against the reference model: every answer, the words
//! after every call, the scratch, the trail sheet, the counters and the sales that stay open. They
//! start with an init, a bulk load or a salvage. Then calls on arbitrary borrowed memory.

use reference::answer::{number, Answer, Found, Refusal};
use reference::bulk::{self, bulk_load};
use reference::calls::{check, init, insert, lookup, remove, stash, stash_answer, trail};
use reference::counters::Counters;
use reference::fast::{self, Fast};
use reference::image::{Engine, Slow};
use reference::model::{Call, Model, Reply};
use reference::rng::Rng;
use reference::sale::{close, open, Sale};
use reference::salvage::salvage;
use reference::samples::{
    random_issue, random_keys, random_station, random_tabulation, random_tier, random_tiers,
};
use reference::set::{Member, Set};

use crate::common::{engines, hand_price, other_issues, random_prices, small_key, Tally};
use crate::salvage::salvage_to;

/// A tier for an insert: mostly one of three, so that a listed key comes again with its own tier
/// and with another; now and then one above 7.
fn input_tier(rng: &mut Rng) -> u32 {
    match rng.below(10) {
        0 => 8 + rng.below(3) as u32,
        1 => rng.pick(&[u32::MAX, 1 << 31, 256, 16]),
        2 => rng.below(8) as u32,
        _ => rng.pick(&[0, 1, 7]),
    }
}

/// The input of a bulk load, mostly a right one, over the keys that the other calls have.
fn bulk_input(rng: &mut Rng) -> Vec<u32> {
    let mut keys: Vec<u32> = (0..rng.below(6)).map(|_| small_key(rng, 7)).collect();
    keys.sort_unstable();
    if !rng.one_in(5) {
        keys.retain(|&key| key >= 10);
        keys.dedup_by_key(|key| *key / 10);
    }
    let tier = |rng: &mut Rng| if rng.one_in(20) { input_tier(rng) } else { random_tier(rng) };
    let members: Vec<Member> = keys.into_iter().map(|key| (key, tier(rng))).collect();
    let mut input = bulk::input(&members);
    if rng.one_in(15) {
        input.push(small_key(rng, 7));
    }
    input
}

/// What a trail call gives, with its keys; checks what it leaves on the trail sheet.
fn trail_keys(
    engine: &dyn Engine,
    tabulation: &[u16],
    words: &[u32],
    scratch: &mut [u32],
    key: u32,
    trail_sheet: &[u32],
) -> Result<Vec<u32>, Refusal> {
    let mut written = trail_sheet.to_vec();
    let count = trail(&engine, tabulation, words, scratch, key, &mut written);
    if count.is_err() {
        assert_eq!(written, trail_sheet, "a refusal leaves the trail sheet");
    }
    let rest = written.split_off(count?);
    assert!(rest.iter().all(|&word| word == 0), "the rest is zeros");
    Ok(written)
}

/// One sequence in the making.
struct Sequence<'a> {
    engine: &'a dyn Engine,
    tabulation: Vec<u16>,
    r: u32,
    s: u32,
    station: u32,
    words: Vec<u32>,
    counters: Counters,
    /// Always by the definition, whichever engine stands behind the calls.
    model: Model<Slow>,
    /// The sales opened so far, each with its price worked out beside it.
    sales: Vec<(Sale, u32)>,
}

impl<'a> Sequence<'a> {
    fn start(engine: &'a dyn Engine, rng: &mut Rng) -> Self {
        let (r, s) = (1 + rng.below(3) as u32, rng.below(3) as u32);
        let (tabulation, station) = (random_tabulation(rng, 4), random_station(rng));
        let mut words: Vec<u32> = (0..5 + 6 * r + 2 * s).map(|_| rng.next_u32()).collect();
        let mut counters = Counters { done: rng.next_u32(), refused: rng.next_u32() };
        assert_eq!(init(r, s, station, &mut words, &mut counters), Ok(()));
        let model = Model::new(Slow, &tabulation, r, s, station).unwrap();
        assert_eq!(
            words,
            model.words(),
            "with no call at all the words are the image of the empty set"
        );
        Sequence { engine, tabulation, r, s, station, words, counters, model, sales: Vec::new() }
    }

    /// The sequence's tabulation, or now and then one of a wrong length.
    fn input_tabulation(&self, rng: &mut Rng) -> Vec<u16> {
        let mut tabulation = self.tabulation.clone();
        if rng.one_in(12) {
            let len = rng.pick(&[0, 1, 2_048, 2_559, 2_561, 5_120]);
            tabulation.resize(len, 1);
        }
        tabulation
    }

    /// A scratch of some length and content, now and then too short.
    fn input_scratch(&self, rng: &mut Rng) -> Vec<u32> {
        let enough = (12 * self.r + 8 * self.s) as usize;
        let len = if rng.one_in(10) { rng.below(enough) } else { enough + rng.below(3) };
        (0..len).map(|_| rng.next_u32()).collect()
    }

    /// A trail sheet of some length and content, now and then too short.
    fn input_trail_sheet(&self, rng: &mut Rng) -> Vec<u32> {
        let len = rng.below(2 * self.r as usize + 3);
        (0..len).map(|_| rng.next_u32()).collect()
    }

    /// Makes one random call on the words and returns what the model is to be fed, and the reply.
    fn call(&mut self, rng: &mut Rng) -> (Call, Reply) {
        let (tabulation, mut scratch) = (self.input_tabulation(rng), self.input_scratch(rng));
        let (tabulation_len, scratch_len) = (tabulation.len(), scratch.len());
        let (key, trail_sheet) = (small_key(rng, 7), self.input_trail_sheet(rng));
        let (words, counters) = (&mut self.words, &mut self.counters);
        let (call, reply) = match rng.below(19) {
            0..=4 => {
                let tier = input_tier(rng);
                let answer =
                    insert(&self.engine, &tabulation, words, &mut scratch, counters, key, tier);
                (Call::Insert { tabulation_len, scratch_len, key, tier }, Reply::Answer(answer))
            }
            5..=7 => {
                let answer = remove(&self.engine, &tabulation, words, &mut scratch, counters, key);
                (Call::Remove { tabulation_len, scratch_len, key }, Reply::Answer(answer))
            }
            8 => {
                let found = lookup(&tabulation, words, key);
                assert_eq!(found, fast::lookup(&tabulation, words, key));
                return (Call::Lookup { tabulation_len, key }, Reply::Lookup(found));
            }
            9 => {
                let answer = check(&self.engine, &tabulation, words, &mut scratch);
                (Call::Check { tabulation_len, scratch_len }, Reply::Answer(answer))
            }
            10 => {
                assert_eq!(stash_answer(words), Ok(()));
                return (Call::Stash, Reply::Stash(stash(words).to_vec()));
            }
            11 | 12 => {
                let keys =
                    trail_keys(self.engine, &tabulation, words, &mut scratch, key, &trail_sheet);
                let trail_sheet_len = trail_sheet.len();
                let call = Call::Trail { tabulation_len, scratch_len, key, trail_sheet_len };
                (call, Reply::Trail(keys))
            }
            13 | 14 => return self.open(rng, &tabulation, key),
            15 | 16 => return self.close(rng),
            17 => {
                let mut target: Vec<u32> = words.iter().map(|_| rng.next_u32()).collect();
                if rng.one_in(8) {
                    target.resize(rng.below(2 * words.len()), 3);
                }
                let salvaged = salvage_to(self.engine, &tabulation, words, &target, &scratch);
                let target_len = target.len();
                let call = Call::Salvage { tabulation_len, target_len, scratch_len };
                return (call, Reply::Salvage(salvaged));
            }
            _ => {
                // A call of another kind that is refused: an init with another shape.
                let (r, s, station) = rng.pick(&[
                    (self.r, self.s + 1, self.station),
                    (self.r + 1, self.s, self.station),
                    (0, self.s, self.station),
                    (self.r, u32::MAX, self.station),
                    (self.r + (1 << 31), self.s, self.station),
                    (self.r, self.s, 256),
                    (self.r, self.s, self.station + 256),
                    (self.r, self.s, u32::MAX),
                ]);
                let answer = init(r, s, station, words, counters);
                return (Call::Other { refusal: Refusal::WrongShape }, Reply::Answer(answer));
            }
        };
        assert!(scratch.iter().all(|&word| word == 0), "the scratch ends as zeros");
        (call, reply)
    }

    /// An r and an s for a bulk load, mostly with words as long as those that are there.
    fn input_shape(&self, rng: &mut Rng) -> (u32, u32) {
        match rng.below(8) {
            0 if self.r > 1 => (self.r - 1, self.s + 3),
            1 if self.s >= 3 => (self.r + 1, self.s - 3),
            2 => (self.r, self.s + 1),
            _ => (self.r, self.s),
        }
    }

    /// Makes a random bulk load on the words. Accepted, it starts the next sequence, perhaps with
    /// another shape or tabulation; refused, it stands in this one as a call of another kind.
    fn bulk_load(&mut self, rng: &mut Rng) -> Answer {
        let ((r, s), input) = (self.input_shape(rng), bulk_input(rng));
        let station = if rng.one_in(15) { 256 } else { random_station(rng) };
        let tabulation =
            if rng.one_in(2) { random_tabulation(rng, 4) } else { self.input_tabulation(rng) };
        let scratch_len = (12 * r + 8 * s) as usize + rng.below(3);
        let mut scratch = vec![9; if rng.one_in(10) { scratch_len / 2 } else { scratch_len }];
        let answer = bulk_load(
            &self.engine,
            &tabulation,
            &mut self.words,
            &mut scratch,
            &mut self.counters,
            r,
            s,
            station,
            &input,
        );
        assert!(scratch.iter().all(|&word| word == 0), "the scratch ends as zeros");
        match answer {
            Ok(()) => {
                self.model = Model::bulk_loaded(Slow, &tabulation, r, s, station, &input).unwrap();
                (self.tabulation, self.r, self.s, self.station) = (tabulation, r, s, station);
            }
            Err(refusal) => {
                let reply = self.model.feed(&Call::Other { refusal });
                assert_eq!(reply, Reply::Answer(answer));
            }
        }
        answer
    }

    /// Makes a salvage of some other words to the list's words. Accepted, it starts the next
    /// sequence, as a bulk load does; refused, it stands in this one as a call of another kind.
    fn salvage(&mut self, rng: &mut Rng) -> Answer {
        let tabulation = self.input_tabulation(rng);
        let mut others = almost_image(&self.tabulation, rng).unwrap_or_else(|| any_words(rng));
        if rng.one_in(3) {
            others = self.words.clone();
            let at = rng.below(others.len());
            others[at] = small_word(rng);
        }
        let (mut scratch, before) = (self.input_scratch(rng), self.words.clone());
        let lost = salvage(&self.engine, &tabulation, &others, &mut self.words, &mut scratch);
        assert!(scratch.iter().all(|&word| word == 0), "the scratch ends as zeros");
        match lost {
            Ok(_) => {
                self.model = Model::salvaged(Slow, &tabulation, &others).unwrap();
                (self.r, self.s, self.station) = (others[0], others[1], others[4]);
            }
            Err(refusal) => {
                assert_eq!(self.words, before, "a refusal leaves the target");
                let reply = self.model.feed(&Call::Other { refusal });
                assert_eq!(reply, Reply::Answer(Err(refusal)));
            }
        }
        lost.map(|_| ())
    }

    /// Opens a sale with random prices and keeps it; mostly for a listed key instead of this one.
    fn open(&mut self, rng: &mut Rng, tabulation: &[u16], key: u32) -> (Call, Reply) {
        let listed: Vec<u32> = self.model.set().keys().copied().collect();
        let key = if listed.is_empty() || rng.one_in(4) { key } else { rng.pick(&listed) };
        let (base, steps) = random_prices(rng);
        let opened = open(tabulation, &self.words, key, base, &steps);
        if matches!(opened, Ok(_) | Err(Refusal::WrongPrice)) {
            let price = hand_price(self.model.set()[&key], base, &steps);
            assert_eq!(opened.ok().map(|sale| sale.price), price, "{base}, {steps:?}");
            self.sales.extend(opened.ok().zip(price));
        }
        (Call::Open { tabulation_len: tabulation.len(), key, base, steps }, Reply::Open(opened))
    }

    /// Closes a sale opened before, perhaps not for the first time; before any opening, a record
    /// that no opening gave.
    fn close(&self, rng: &mut Rng) -> (Call, Reply) {
        let no_sale = (Sale { key: 0, tier: 8, price: u32::MAX }, u32::MAX);
        let (sale, price) = if self.sales.is_empty() { no_sale } else { rng.pick(&self.sales) };
        assert_eq!(close(sale), price);
        (Call::Close { sale }, Reply::Close(close(sale)))
    }
}

/// A name for a call and its reply in the tally, which says so where a key is not listed but
/// another issue is; the set is the one after the call.
fn label(call: &Call, reply: &Reply, set: &Set) -> String {
    let label = plain_label(call, reply, set);
    let (Call::Remove { key, .. }
    | Call::Lookup { key, .. }
    | Call::Trail { key, .. }
    | Call::Open { key, .. }) = call
    else {
        return label;
    };
    let is_other_issue = other_issues(*key).iter().any(|other| set.contains_key(other));
    if is_other_issue && (label.ends_with(" 7") || label.ends_with(" absent")) {
        label + ", another issue"
    } else {
        label
    }
}

fn plain_label(call: &Call, reply: &Reply, set: &Set) -> String {
    let kind = match call {
        Call::Insert { .. } => "insert",
        Call::Remove { .. } => "remove",
        Call::Lookup { .. } => "lookup",
        Call::Check { .. } => "check",
        Call::Stash => "stash",
        Call::Trail { .. } => "trail",
        Call::Open { .. } => "open",
        Call::Close { sale } if sale.key == 0 => "close, no sale",
        Call::Close { sale } => match set.get(&sale.key) {
            Some(&tier) if tier == sale.tier => "close, as listed",
            Some(_) => "close, other tier",
            None => "close, key gone",
        },
        Call::Salvage { .. } => "salvage of the list",
        Call::Other { .. } => "other",
    };
    match reply {
        Reply::Answer(answer) => format!("{kind} {}", number(*answer)),
        Reply::Lookup(Ok(Found::Listed(tier))) => format!("{kind} listed {tier}"),
        Reply::Lookup(Ok(Found::Absent)) => format!("{kind} absent"),
        Reply::Lookup(Err(refusal)) => format!("{kind} {}", refusal.number()),
        Reply::Stash(view) if view.is_empty() => format!("{kind} empty"),
        Reply::Stash(_) => format!("{kind} filled"),
        Reply::Trail(Ok(keys)) => format!("{kind} of {}", keys.len().min(3)),
        Reply::Trail(Err(refusal)) => format!("{kind} {}", refusal.number()),
        Reply::Open(opened) => format!("{kind} {}", number(opened.map(|_| ()))),
        Reply::Close(_) => kind.to_string(),
        Reply::Salvage(Ok(_)) => format!("{kind} 0"),
        Reply::Salvage(Err(refusal)) => format!("{kind} {}", refusal.number()),
    }
}

/// How the counters stand after a reply.
fn counted(mut counters: Counters, call: &Call, reply: &Reply) -> Counters {
    if let (Call::Insert { .. } | Call::Remove { .. } | Call::Other { .. }, Reply::Answer(answer)) =
        (call, reply)
    {
        counters.count(*answer);
    }
    counters
}

#[test]
fn sequences_answer_as_the_reference_model() {
    let mut rng = Rng::new(61);
    let mut tally = Tally::default();
    for (name, engine) in engines() {
        for _ in 0..if name == "slow" { 150 } else { 1_000 } {
            let mut sequence = Sequence::start(engine, &mut rng);
            for step in 0..rng.below(60) {
                let mut counters = sequence.counters;
                if step == 0 && rng.one_in(2) || rng.one_in(15) {
                    let answer = sequence.bulk_load(&mut rng);
                    counters.count(answer);
                    assert_eq!(sequence.words, sequence.model.words(), "{name}, a bulk load");
                    assert_eq!(sequence.counters, counters, "{name}, a bulk load");
                    tally.add(format!("bulk load {}", number(answer)));
                    continue;
                }
                if rng.one_in(15) {
                    let answer = sequence.salvage(&mut rng);
                    assert_eq!(sequence.words, sequence.model.words(), "{name}, a salvage");
                    assert_eq!(sequence.counters, counters, "{name}, a salvage");
                    tally.add(format!("salvage to the list {}", number(answer)));
                    continue;
                }
                let (call, reply) = sequence.call(&mut rng);
                assert_eq!(sequence.model.feed(&call), reply, "{name}, {call:?}");
                assert_eq!(sequence.words, sequence.model.words(), "{name}, {call:?}");
                assert_eq!(sequence.counters, counted(counters, &call, &reply), "{name}, {call:?}");
                tally.add(label(&call, &reply, sequence.model.set()));
            }
            tally.add("sequences");
        }
    }
    let wanted = [
        "sequences",
        "insert 0",
        "insert 1",
        "insert 3",
        "insert 5",
        "insert 6",
        "insert 8",
        "insert 9",
        "insert 10",
        "insert 13",
        "remove 0",
        "remove 1",
        "remove 3",
        "remove 5",
        "remove 7",
        "remove 7, another issue",
        "lookup listed 0",
        "lookup listed 1",
        "lookup listed 7",
        "lookup absent",
        "lookup absent, another issue",
        "lookup 1",
        "lookup 5",
        "check 0",
        "check 1",
        "check 3",
        "stash empty",
        "stash filled",
        "trail of 0",
        "trail of 1",
        "trail of 2",
        "trail of 3",
        "trail 1",
        "trail 3",
        "trail 5",
        "trail 7",
        "trail 7, another issue",
        "trail 11",
        "open 0",
        "open 1",
        "open 5",
        "open 7",
        "open 7, another issue",
        "open 12",
        "close, as listed",
        "close, other tier",
        "close, key gone",
        "close, no sale",
        "other 2",
        "bulk load 0",
        "bulk load 1",
        "bulk load 2",
        "bulk load 3",
        "bulk load 5",
        "bulk load 8",
        "bulk load 9",
        "bulk load 13",
        "bulk load 14",
        "salvage of the list 0",
        "salvage of the list 1",
        "salvage of the list 2",
        "salvage of the list 3",
        "salvage to the list 0",
        "salvage to the list 1",
        "salvage to the list 2",
        "salvage to the list 3",
        "salvage to the list 15",
    ];
    tally.report("sequences", &wanted);
}

#[test]
fn the_model_starts_only_where_init_is_accepted() {
    let tabulation = vec![0; 2_560];
    assert!(Model::new(Slow, &tabulation, 1_024, 64, 255).is_ok());
    for (len, r, s, station, refusal) in [
        (2_559, 1, 1, 0, Refusal::WrongTabulation),
        (2_048, 1, 1, 0, Refusal::WrongTabulation),
        (2_559, 1, 1, 256, Refusal::WrongTabulation),
        (2_560, 0, 1, 0, Refusal::WrongShape),
        (2_560, 1_025, 1, 0, Refusal::WrongShape),
        (2_560, 1, 65, 0, Refusal::WrongShape),
        (2_560, 1, 1, 256, Refusal::WrongShape),
        (2_560, 1, 1, u32::MAX, Refusal::WrongShape),
    ] {
        assert_eq!(Model::new(Slow, &tabulation[..len], r, s, station).err(), Some(refusal));
    }
}

/// Words of any length and content; often of a right shape, and with small numbers, blank keys and
/// small keys, so that keys and first parts repeat.
fn any_words(rng: &mut Rng) -> Vec<u32> {
    let (r, s) = (1 + rng.below(3) as u32, rng.below(3) as u32);
    let right_len = (5 + 6 * r + 2 * s) as usize;
    let len = if rng.one_in(4) { rng.below(28) } else { right_len };
    let mut words: Vec<u32> =
        (0..len).map(|_| if rng.one_in(3) { small_word(rng) } else { 0 }).collect();
    for (at, value) in [(0, r), (1, s), (4, random_station(rng))] {
        let value = match rng.below(20) {
            0 => rng.next_u32(),
            1 => value + 256,
            _ => value,
        };
        if let Some(word) = words.get_mut(at) {
            *word = value;
        }
    }
    words
}

/// A tier, a count or a key, which can be blank.
fn small_word(rng: &mut Rng) -> u32 {
    if rng.one_in(2) {
        rng.below(9) as u32
    } else {
        small_key(rng, 7)
    }
}

/// The words of an image, half of the time with one word changed, now and then the station.
fn almost_image(tabulation: &[u16], rng: &mut Rng) -> Option<Vec<u32>> {
    let (r, s) = (1 + rng.below(3) as u32, rng.below(3) as u32);
    let count = rng.below(5);
    let mut keys = random_keys(rng, count);
    keys.iter_mut().for_each(|key| *key = 10 + *key % 70);
    keys.sort_unstable();
    keys.dedup_by_key(|key| *key / 10);
    let station = random_station(rng);
    let mut words = Slow.image(tabulation, r, s, station, &random_tiers(rng, &keys))?;
    match rng.below(12) {
        0 => words[4] = rng.below(512) as u32,
        1..=5 => {
            let at = rng.below(words.len());
            words[at] = small_word(rng);
        }
        _ => {}
    }
    Some(words)
}

/// What opening a sale should give after what a lookup gave.
fn opening_after(
    found: Result<Found, Refusal>,
    key: u32,
    base: u32,
    steps: &[i32],
) -> Result<Sale, Refusal> {
    match found? {
        Found::Absent => Err(Refusal::NotListed),
        Found::Listed(8..) => Err(Refusal::NotCanonical),
        Found::Listed(tier) => {
            let price = hand_price(tier, base, steps).ok_or(Refusal::WrongPrice)?;
            Ok(Sale { key, tier, price })
        }
    }
}

/// What a call on arbitrary memory left.
type Outcome = (Answer, Vec<u32>, Vec<u32>, Counters);

#[test]
fn calls_are_total_and_the_engines_agree_on_any_memory() {
    let mut rng = Rng::new(62);
    let mut tally = Tally::default();
    for _ in 0..6_000 {
        let tabulation_len = if rng.one_in(15) { rng.below(3_000) } else { 2_560 };
        let tabulation: Vec<u16> = (0..tabulation_len).map(|_| rng.below(4) as u16).collect();
        let image = if rng.one_in(2) { almost_image(&tabulation, &mut rng) } else { None };
        let words = image.unwrap_or_else(|| any_words(&mut rng));
        let scratch: Vec<u32> = vec![6; rng.below(90)];
        // Mostly a number that stands in the words, or another issue of it.
        let key = if words.is_empty() || rng.one_in(4) {
            small_key(&mut rng, 7)
        } else {
            let word = rng.pick(&words);
            if rng.one_in(2) {
                random_issue(&mut rng, word)
            } else {
                word
            }
        };
        let tier = input_tier(&mut rng);
        let outcome = |engine: &dyn Engine, kind: usize| -> Outcome {
            let (mut words, mut scratch) = (words.clone(), scratch.clone());
            let mut counters = Counters::default();
            let answer = match kind {
                0 => {
                    insert(&engine, &tabulation, &mut words, &mut scratch, &mut counters, key, tier)
                }
                1 => remove(&engine, &tabulation, &mut words, &mut scratch, &mut counters, key),
                _ => check(&engine, &tabulation, &words, &mut scratch),
            };
            (answer, words, scratch, counters)
        };
        for (kind, name) in ["insert", "remove", "check"].into_iter().enumerate() {
            let slow = outcome(&Slow, kind);
            assert_eq!(slow, outcome(&Fast, kind));
            let (answer, words_after, scratch_after, _) = slow;
            assert!(scratch_after.iter().all(|&word| word == 0));
            if answer.is_err() || name == "check" {
                assert_eq!(words_after, words);
            }
            tally.add(format!("{name} {}", number(answer)));
        }
        let trail_sheet: Vec<u32> = vec![8; rng.below(7)];
        let checked = outcome(&Fast, 2).0;
        let [slow, fast] = engines().map(|(_, engine)| {
            let mut scratch = scratch.clone();
            let keys = trail_keys(engine, &tabulation, &words, &mut scratch, key, &trail_sheet);
            assert!(scratch.iter().all(|&word| word == 0));
            keys
        });
        assert_eq!(slow, fast);
        let answer = slow.map(|_| ());
        assert!(checked.is_ok() || answer == checked, "1 to 4 as a check gives them");
        tally.add(format!("trail {}", number(answer)));
        assert_eq!(lookup(&tabulation, &words, key), fast::lookup(&tabulation, &words, key));
        for key in (0..8).map(|first| 10 * first).chain([key]) {
            let (base, steps) = random_prices(&mut rng);
            let opened = open(&tabulation, &words, key, base, &steps);
            assert_eq!(opened, opening_after(lookup(&tabulation, &words, key), key, base, &steps));
            tally.add(format!("open {}", number(opened.map(|_| ()))));
        }
        tally.add(format!("stash {}", number(stash_answer(&words))));
        assert!(stash_answer(&words).is_ok() || stash(&words).is_empty());
    }
    let wanted = [
        "insert 0",
        "insert 1",
        "insert 2",
        "insert 3",
        "insert 4",
        "insert 5",
        "insert 6",
        "insert 8",
        "insert 9",
        "insert 10",
        "insert 13",
        "remove 0",
        "remove 1",
        "remove 2",
        "remove 3",
        "remove 4",
        "remove 5",
        "remove 7",
        "check 0",
        "check 1",
        "check 2",
        "check 3",
        "check 4",
        "stash 0",
        "stash 2",
        "stash 4",
        "trail 0",
        "trail 1",
        "trail 2",
        "trail 3",
        "trail 4",
        "trail 5",
        "trail 7",
        "trail 11",
        "open 0",
        "open 1",
        "open 2",
        "open 4",
        "open 5",
        "open 7",
        "open 12",
    ];
    tally.report("any memory", &wanted);
}
