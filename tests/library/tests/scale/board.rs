//! A dictionary in the middle of a sequence of calls, beside the register that must answer the same: one random call of
//! any kind, lent memory that is now and then wrong, sales that stay open, bulk loads and salvages of damaged words, with
//! which a sequence starts anew where they are accepted, and calls on a damaged copy of the words.

use library::beside::{record_of, sale_of, Beside};
use library::Change::{Insert, Remove};
use library::{scratch_length, words_length, Counters, Sale};
use reference::answer::Refusal;
use reference::fast::Fast;
use reference::key::issues;
use reference::model::{Call, Model, Reply};
use reference::rng::Rng;
use reference::samples::{random_issue, random_keys, random_station, random_tiers};
use reference::set::{members, Member};

use crate::common::{
    any_laid, any_station, any_tier, narrow_tabulation, random_prices, random_words, spoil,
    trail_length, trail_sheet, WRONG_STATIONS,
};

/// What a bulk load or a salvage may be refused with.
const LAYING_REFUSALS: [Refusal; 9] = [
    Refusal::WrongTabulation,
    Refusal::WrongShape,
    Refusal::ShortScratch,
    Refusal::BlankKey,
    Refusal::WrongTier,
    Refusal::NotRising,
    Refusal::OtherIssue,
    Refusal::FullStash,
    Refusal::NothingCounts,
];

/// A dictionary in the middle of a sequence of calls, with the register that must answer the same.
pub struct Board {
    pub r: u32,
    s: u32,
    station: u32,
    pub tabulation: Vec<u16>,
    keys: Vec<u32>,
    words: Vec<u32>,
    counters: Counters,
    register: Model<Fast>,
    /// Some sales that are open, each with the price that the register gave.
    sales: Vec<(Sale, u32)>,
    /// Of the closings of sales: how many keys were listed as at the opening, how many at another tier, and how many
    /// not at all.
    pub closed: [u64; 3],
}

impl Board {
    pub fn random(rng: &mut Rng, beside: &mut Beside) -> Board {
        let (r, s) = (1 + rng.below(6) as u32, rng.below(4) as u32);
        let station = random_station(rng);
        let tabulation = narrow_tabulation(rng);
        let keys = random_keys(rng, 12);
        let mut words = random_words(rng, words_length(r, s));
        let mut counters = Counters { done: rng.next_u32(), refused: u32::MAX - 3 };
        assert_eq!(beside.init(&mut words, r, s, station, &mut counters), 0);
        let register =
            Model::new(Fast, &tabulation, r, s, station).expect("a sound book and shape");
        let (sales, closed) = (Vec::new(), [0; 3]);
        Board { r, s, station, tabulation, keys, words, counters, register, sales, closed }
    }

    /// What a call lends: mostly a sound book and enough scratch, now and then not.
    fn lent(&self, rng: &mut Rng) -> (Vec<u16>, Vec<u32>, u32) {
        let mut book = self.tabulation.clone();
        if rng.one_in(20) {
            book.resize(rng.pick(&[0, 1, 2_048, 2_559, 2_561, 5_120]), 5);
        }
        let enough = scratch_length(self.r, self.s);
        let length = match rng.below(12) {
            0 => rng.below(enough),
            1 => enough + rng.below(9),
            _ => enough,
        };
        (book, random_words(rng, length), self.key(rng))
    }

    /// A key for a call: one of the board's, often another issue of it, or the issue that is listed; now and then one
    /// that has no first part.
    fn key(&self, rng: &mut Rng) -> u32 {
        if rng.one_in(15) {
            return rng.below(10) as u32;
        }
        let key = rng.pick(&self.keys);
        match self.listed_issue(key) {
            Some((listed, _)) if rng.one_in(3) => listed,
            _ if rng.one_in(3) => random_issue(rng, key),
            _ => key,
        }
    }

    /// The issue of a key that is listed, with its tier.
    fn listed_issue(&self, key: u32) -> Option<Member> {
        self.register.set().range(issues(key)).next().map(|(key, tier)| (*key, *tier))
    }

    /// A tier for an insert: of a key of which an issue is listed often the one that it has.
    fn tier(&self, rng: &mut Rng, key: u32) -> u32 {
        match self.listed_issue(key) {
            Some((_, tier)) if rng.one_in(2) => tier,
            _ => any_tier(rng),
        }
    }

    /// A key for a removal, a trail or a sale: half of the time one that is listed, where any is; else this one.
    fn listed_or(&self, rng: &mut Rng, key: u32) -> u32 {
        let listed: Vec<u32> = self.register.set().keys().copied().collect();
        if listed.is_empty() || rng.one_in(2) {
            key
        } else {
            rng.pick(&listed)
        }
    }

    /// A sheet for the trail of a key.
    fn trail_sheet(&self, rng: &mut Rng, key: u32) -> Vec<u32> {
        let members = members(self.register.set());
        let laid = [self.r, self.s, self.station];
        let count = trail_length(&self.tabulation, laid, &members, key);
        trail_sheet(rng, self.r, count)
    }

    /// One call on the words, which the register answers, too.
    pub fn call(&mut self, rng: &mut Rng, beside: &mut Beside) {
        let (call, answer, trail) = self.made(rng, beside);
        let expected = self.expected(&call, &trail);
        assert_eq!(answer, expected, "the register answers {call:?} otherwise");
        assert_eq!(self.words, self.register.words(), "not the image of the register's set");
    }

    /// A call on the words: what the register is fed of it, its answer, and the keys of the trail, if it is one.
    fn made(&mut self, rng: &mut Rng, beside: &mut Beside) -> (Call, u32, Vec<u32>) {
        let (book, scratch, key) = self.lent(rng);
        let tier = self.tier(rng, key);
        let (tabulation_len, scratch_len) = (book.len(), scratch.len());
        let mut trail = Vec::new();
        let counters = &mut self.counters;
        let (call, answer) = match rng.below(15) {
            0..=4 => (
                Call::Insert { tabulation_len, scratch_len, key, tier },
                beside.change(Insert(tier), &book, &mut self.words, &scratch, counters, key),
            ),
            5..=7 => {
                let key = if rng.one_in(2) { key } else { self.listed_or(rng, key) };
                let counters = &mut self.counters;
                let answer = beside.change(Remove, &book, &mut self.words, &scratch, counters, key);
                (Call::Remove { tabulation_len, scratch_len, key }, answer)
            }
            8 => (
                Call::Check { tabulation_len, scratch_len },
                beside.check(&book, &self.words, &scratch),
            ),
            9 | 10 => {
                let (answer, found) = beside.lookup(&book, &self.words, key);
                let tier = self.register.set().get(&key).copied();
                assert_eq!(found, if answer == 0 { tier } else { None });
                (Call::Lookup { tabulation_len, key }, answer)
            }
            11 => (Call::Stash, beside.stash(&self.words)),
            12 | 13 => {
                let key = self.listed_or(rng, key);
                let sheet = self.trail_sheet(rng, key);
                let trail_sheet_len = sheet.len();
                let (answer, keys) = beside.trail(&book, &self.words, &scratch, key, &sheet);
                trail = keys;
                (Call::Trail { tabulation_len, scratch_len, key, trail_sheet_len }, answer)
            }
            _ => {
                // An init with another shape is refused, and is then a call of another kind.
                let (r, station) = match rng.one_in(2) {
                    true => (self.r + 1, random_station(rng)),
                    false => (self.r, rng.pick(&WRONG_STATIONS)),
                };
                let answer = beside.init(&mut self.words, r, self.s, station, counters);
                (Call::Other { refusal: Refusal::WrongShape }, answer)
            }
        };
        (call, answer, trail)
    }

    /// What the register answers to a call. It must tell the same trail, and see the same stash in the words.
    fn expected(&mut self, call: &Call, trail: &[u32]) -> u32 {
        match self.register.feed(call) {
            Reply::Answer(answer) => reference::answer::number(answer),
            Reply::Lookup(answer) => answer.map_or_else(Refusal::number, |_| 0),
            Reply::Stash(part) => {
                let (answer, offset, length) = library::stash(&self.words);
                assert_eq!(answer, 0);
                assert_eq!(&self.words[offset as usize..][..length as usize], &part[..]);
                0
            }
            Reply::Trail(answer) => {
                assert_eq!(trail, answer.clone().unwrap_or_default());
                answer.map_or_else(Refusal::number, |_| 0)
            }
            Reply::Open(_) | Reply::Close(_) | Reply::Salvage(_) => {
                unreachable!("{call:?} has a reply of its own")
            }
        }
    }

    /// A bulk load over the words as they are, of some of the board's keys, now and then at another station, with a
    /// fault, or with wrong memory. Accepted, it starts a sequence anew, and the register with its set; refused, it is
    /// a call of another kind.
    pub fn bulk_load(&mut self, rng: &mut Rng, beside: &mut Beside) {
        let (book, scratch, _) = self.lent(rng);
        let mut input = self.input(rng);
        if rng.one_in(3) {
            spoil(rng, &mut input);
        }
        let station = if rng.one_in(2) { self.station } else { random_station(rng) };
        let laid = any_laid(rng, [self.r, self.s, station]);
        let counters = &mut self.counters;
        let answer = beside.bulk_load(&book, &mut self.words, &scratch, counters, laid, &input);
        if answer == 0 {
            let [r, s, station] = laid;
            let register = Model::bulk_loaded(Fast, &self.tabulation, r, s, station, &input);
            (self.register, self.station) = (register.expect("a load that is accepted"), station);
        } else {
            self.refused(answer);
        }
        assert_eq!(self.words, self.register.words(), "not the image of the register's set");
    }

    /// A refused call that would lay the list: one of another kind, to the register.
    fn refused(&mut self, answer: u32) {
        let refusal = LAYING_REFUSALS.into_iter().find(|one| one.number() == answer);
        let call = Call::Other { refusal: refusal.expect("a refusal of a call that lays a list") };
        assert_eq!(self.expected(&call, &[]), answer);
    }

    /// A salvage of the words to another area, which the register answers, too: the words themselves, and 0.
    pub fn salvage_to_another(&mut self, rng: &mut Rng, beside: &mut Beside) {
        let (book, scratch, _) = self.lent(rng);
        let more = if rng.one_in(9) { rng.below(3) } else { 1 };
        let mut target = random_words(rng, self.words.len() + more - 1);
        let before = target.clone();
        let (answer, lost) = beside.salvage(&book, &self.words, &mut target, &scratch);
        let call = Call::Salvage {
            tabulation_len: book.len(),
            target_len: target.len(),
            scratch_len: scratch.len(),
        };
        let Reply::Salvage(expected) = self.register.feed(&call) else { panic!("{call:?}") };
        match expected {
            Ok(told) => assert_eq!((answer, (target, lost)), (0, (told.0, Some(told.1)))),
            Err(refusal) => assert_eq!((answer, target), (refusal.number(), before), "{call:?}"),
        }
    }

    /// A salvage of a damaged copy of the words to the words themselves. Accepted, it starts a sequence anew, and the
    /// register with the survivors; refused, it is a call of another kind.
    pub fn salvage(&mut self, rng: &mut Rng, beside: &mut Beside) {
        let (book, scratch, _) = self.lent(rng);
        let damaged = self.damaged_words(rng);
        let (answer, _) = beside.salvage(&book, &damaged, &mut self.words, &scratch);
        if answer == 0 {
            let register = Model::salvaged(Fast, &self.tabulation, &damaged);
            (self.register, self.station) =
                (register.expect("a salvage that is accepted"), damaged[4]);
        } else {
            self.refused(answer);
        }
        assert_eq!(self.words, self.register.words(), "not the image of the register's set");
    }

    /// Some of the board's keys, of any issue and tier, as an input.
    fn input(&self, rng: &mut Rng) -> Vec<u32> {
        let some = rng.below(self.keys.len() + 1);
        let chosen = self.keys.iter().filter(|_| rng.below(self.keys.len()) < some);
        let keys: Vec<u32> = chosen.copied().collect();
        let keys: Vec<u32> = keys.into_iter().map(|key| random_issue(rng, key)).collect();
        reference::bulk::input(&random_tiers(rng, &keys))
    }

    /// An opening, which the register answers, too. The last few sales stay open, and the one before them is closed.
    pub fn open(&mut self, rng: &mut Rng, beside: &mut Beside) {
        let (book, _, key) = self.lent(rng);
        let key = self.listed_or(rng, key);
        let (base, steps) = random_prices(rng);
        let opened = beside.open(&book, &self.words, key, base, &steps);
        let call = Call::Open { tabulation_len: book.len(), key, base, steps };
        let Reply::Open(expected) = self.register.feed(&call) else { panic!("{call:?}") };
        let answer = expected.map_or_else(Refusal::number, |_| 0);
        assert_eq!(opened, (answer, expected.ok().map(sale_of)), "{call:?}");
        self.sales.extend(opened.1.zip(expected.ok().map(|sale| sale.price)));
        if self.sales.len() > 4 {
            let (sale, price) = self.sales.remove(0);
            self.close(beside, sale, price);
        }
    }

    /// The closing of a sale, at the price of its opening, whatever became of its key. It may be closed again later.
    fn close(&mut self, beside: &mut Beside, sale: Sale, price: u32) {
        assert_eq!(beside.close(&sale), price, "{sale:?}");
        let call = Call::Close { sale: record_of(sale) };
        assert_eq!(self.register.feed(&call), Reply::Close(price), "{call:?}");
        let now = match self.register.set().get(&sale.key) {
            Some(tier) if *tier == sale.tier => 0,
            Some(_) => 1,
            None => 2,
        };
        self.closed[now] += 1;
    }

    /// The closing of one of the open sales; where there is none, of a record that no opening gave.
    pub fn close_any(&mut self, rng: &mut Rng, beside: &mut Beside) {
        if self.sales.is_empty() {
            let [key, tier, price] = [(); 3].map(|()| rng.next_u32());
            assert_eq!(beside.close(&Sale { key, tier, price }), price);
        } else {
            let (sale, price) = rng.pick(&self.sales);
            self.close(beside, sale, price);
        }
    }

    /// What a damaged word holds: a key of the board, another issue of what stood there, one bit of it turned, or a
    /// small number.
    fn damaged(&self, rng: &mut Rng, word: u32) -> u32 {
        match rng.below(5) {
            0 => rng.pick(&self.keys),
            1 => random_issue(rng, word),
            2 => word ^ 1 << rng.below(32),
            _ => rng.below(10) as u32,
        }
    }

    /// The end of a sequence: the sales that are still open are closed.
    pub fn close_all(&mut self, beside: &mut Beside) {
        for (sale, price) in std::mem::take(&mut self.sales) {
            self.close(beside, sale, price);
        }
    }

    /// A copy of the words that is damaged.
    fn damaged_words(&self, rng: &mut Rng) -> Vec<u32> {
        let mut words = self.words.clone();
        for _ in 0..=rng.below(3) {
            let at = rng.below(words.len());
            words[at] = self.damaged(rng, words[at]);
        }
        if rng.one_in(6) {
            words[4] = any_station(rng);
        }
        if rng.one_in(12) {
            words.truncate(rng.below(words.len()));
        }
        words
    }

    /// One call on a copy of the words that is damaged; the sequence goes on with the sound ones.
    pub fn call_damaged(&self, rng: &mut Rng, beside: &mut Beside) {
        let (book, scratch, key) = self.lent(rng);
        let tier = self.tier(rng, key);
        let mut words = self.damaged_words(rng);
        let mut counters = self.counters;
        match rng.below(8) {
            0 => beside.change(Insert(tier), &book, &mut words, &scratch, &mut counters, key),
            1 => beside.change(Remove, &book, &mut words, &scratch, &mut counters, key),
            2 => beside.check(&book, &words, &scratch),
            3 => beside.lookup(&book, &words, key).0,
            4 => beside.trail(&book, &words, &scratch, key, &self.trail_sheet(rng, key)).0,
            5 => {
                let (base, steps) = random_prices(rng);
                beside.open(&book, &words, self.listed_or(rng, key), base, &steps).0
            }
            6 => beside.stash(&words),
            _ => {
                let (more, mut target) = (rng.below(2), words.clone());
                target.resize(words.len() + more, 7);
                beside.salvage(&book, &words, &mut target, &scratch).0
            }
        };
    }
}
