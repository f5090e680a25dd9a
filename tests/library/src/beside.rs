//! One call of the library beside the same call of the program by another hand: answer, every word, scratch, target,
//! tabulation, input, steps, counters and out-parameters, on memory with guards around every lent slice and every
//! record of a sale. The crate's safe function is called beside them on copies, and must give the same under its own
//! names. The answers are counted, call by call.

use pinorange::Refusal;
use reference::answer::{number, Found};
use reference::counters::Counters as Meter;
use reference::fast::Fast;
use reference::hash::{MAX_R, MAX_STATION};
use reference::key::{first_part, is_blank};

use crate::guarded::Guarded;
use crate::inputs::{Inputs, Lent};
use crate::issues::Issues;
use crate::safe::{self, named};
use crate::wet::{self, Salvages};
use crate::{are_sizes, Change, Counters, Sale, HEADER_LENGTH};

/// The calls that answer with a number. The closing of a sale gives a price, and is never refused.
#[derive(Clone, Copy, Debug, PartialEq, Eq)]
pub enum Kind {
    Init,
    BulkLoad,
    Insert,
    Remove,
    Check,
    Lookup,
    Stash,
    Trail,
    Salvage,
    Open,
    Hashes,
    House,
}

impl Kind {
    /// The calls on words that were laid before.
    pub const ON_WORDS: [Kind; 8] = [
        Kind::Insert,
        Kind::Remove,
        Kind::Check,
        Kind::Lookup,
        Kind::Stash,
        Kind::Trail,
        Kind::Salvage,
        Kind::Open,
    ];
}

/// The answers that each call can give, refusals in the order in which they are tried. Specification, "What a call gives back".
pub const ANSWERS: &[(Kind, &[u32])] = &[
    (Kind::Init, &[0, 2]),
    (Kind::BulkLoad, &[0, 1, 2, 3, 5, 9, 14, 13, 8]),
    (Kind::Insert, &[0, 1, 2, 3, 4, 5, 9, 13, 10, 6, 8]),
    (Kind::Remove, &[0, 1, 2, 3, 4, 5, 7]),
    (Kind::Check, &[0, 1, 2, 3, 4]),
    (Kind::Lookup, &[0, 1, 2, 5]),
    (Kind::Stash, &[0, 2, 4]),
    (Kind::Trail, &[0, 1, 2, 3, 4, 5, 7, 11]),
    (Kind::Salvage, &[0, 1, 2, 3, 15]),
    (Kind::Open, &[0, 1, 2, 5, 7, 4, 12]),
    (Kind::Hashes, &[0, 1, 2, 5]),
    (Kind::House, &[0, 1]),
];

/// The largest number that is an answer.
const LARGEST: usize = 15;

/// The answer that a station above 255 gets, among others.
const WRONG_SHAPE: u32 = 2;

/// The answer of an insert that another issue keeps out.
const OTHER_ISSUE: u32 = 13;

/// Marks an out-parameter that a refused call must leave.
const OLD: u32 = 0xDEAD_BEEF;
pub(crate) const GUARD: u32 = 0xABCD_1234;
pub(crate) const GUARD_ENTRY: u16 = 0x5A5A;
/// No step: where it is taken for one, the sale is refused.
pub(crate) const GUARD_STEP: i32 = 0x0BAD_57E9;

/// The record that an opening finds, and what stands around it.
const OLD_SALE: Sale = Sale { key: OLD, tier: !OLD, price: OLD >> 1 };
const GUARD_SALE: Sale = Sale { key: GUARD, tier: GUARD, price: GUARD };

/// Calls the library beside the reference and counts the answers.
#[derive(Default)]
pub struct Beside {
    seen: [[u64; LARGEST + 1]; ANSWERS.len()],
    /// Of the calls that were refused with 2, kind by kind: how many for a station above 255 alone.
    for_station: [u64; ANSWERS.len()],
    /// Of the hashes that were not refused: how many with a sum of lowest byte and station up to 255, and how many
    /// above, where it wraps.
    wrapped: [u64; 2],
    /// Of the lookups that were not refused: how many did not find their key, and how many did.
    found: [u64; 2],
    /// Of the trails that were not refused: how many had no key, since theirs is stashed, how many had one key, and how many had more.
    trails: [u64; 3],
    /// Of the sales that were opened: how many had a step below 0, how many one of 0, and how many one above.
    steps: [u64; 3],
    /// How many sales were closed.
    closed: u64,
    /// What the issues of the keys had to do with it.
    issues: Issues,
    /// Why bulk loads answered as they did.
    inputs: Inputs,
    /// Why salvages did, and what became of the numbers in their words.
    salvages: Salvages,
}

impl Beside {
    pub fn new() -> Beside {
        Beside::default()
    }

    fn count(&mut self, kind: Kind, answer: u32) -> u32 {
        self.seen[kind as usize][answer as usize] += 1;
        answer
    }

    /// Counts a call on words.
    fn count_on(&mut self, kind: Kind, words: &[u32], answer: u32) -> u32 {
        if let &[r, s, _, _, station, ..] = words {
            self.count_station(kind, are_sizes(r, s, words.len()), station, answer);
        }
        self.count(kind, answer)
    }

    /// Counts a call on words with a key.
    fn count_of(&mut self, kind: Kind, words: &[u32], key: u32, answer: u32) -> u32 {
        self.issues.refusal(kind, words, key, answer);
        self.count_on(kind, words, answer)
    }

    /// Counts a refusal with 2 where nothing but the station calls for it.
    fn count_station(&mut self, kind: Kind, is_rest_right: bool, station: u32, answer: u32) {
        let alone = is_rest_right && station > MAX_STATION;
        self.for_station[kind as usize] += u64::from(alone && answer == WRONG_SHAPE);
    }

    /// How many calls there were.
    pub fn calls(&self) -> u64 {
        self.seen.iter().flatten().sum::<u64>() + self.closed
    }

    /// How often a call gave an answer.
    pub fn given(&self, kind: Kind, answer: u32) -> u64 {
        self.seen[kind as usize][answer as usize]
    }

    /// How often a call answered 2 for a station above 255 alone.
    pub fn refused_stations(&self, kind: Kind) -> u64 {
        self.for_station[kind as usize]
    }

    /// Prints how often each call gave each answer. Fails where one of these calls never gave an answer that it can
    /// give, or never a 2 for the station alone; where an issue never had a part in an answer that it can have a part
    /// in; of bulk loads and salvages also where some two causes for a refusal never came together, of hashes where no
    /// sum of lowest byte and station wrapped, or each did, of lookups where all found their key, or none did, of trails
    /// where none was empty, or none longer than one key, of salvages where some number never had one of the fates that
    /// it can have, and of openings where no step was below 0, none 0, or none above.
    pub fn report(&self, kinds: &[Kind]) {
        for (kind, answers) in ANSWERS.iter().filter(|(kind, _)| kinds.contains(kind)) {
            let seen = &self.seen[*kind as usize];
            let counts: Vec<String> =
                answers.iter().map(|a| format!("{a}: {}", seen[*a as usize])).collect();
            println!("{kind:?}: {}", counts.join(", "));
            for answer in *answers {
                assert!(seen[*answer as usize] > 0, "{kind:?} never answered {answer}");
            }
            let given: u64 = answers.iter().map(|a| seen[*a as usize]).sum();
            assert_eq!(given, seen.iter().sum::<u64>(), "{kind:?} gave an answer it cannot give");
            if answers.contains(&WRONG_SHAPE) {
                let times = self.refused_stations(*kind);
                println!("{kind:?}: {times} of the 2s for a station above 255 alone");
                assert!(times > 0, "{kind:?} never refused a station");
            }
            self.issues.report(*kind, answers);
            self.report_done(*kind);
        }
    }

    /// What a call that is not refused can tell: of some kinds all that must have come up.
    fn report_done(&self, kind: Kind) {
        match kind {
            Kind::BulkLoad => self.inputs.report(),
            Kind::Salvage => self.salvages.report(),
            Kind::Lookup => {
                let [no, yes] = self.found;
                println!("{kind:?}: {yes} listed, {no} not listed");
                assert!(yes > 0 && no > 0, "lookups found every key, or none");
            }
            Kind::Trail => {
                let [empty, single, longer] = self.trails;
                println!("{kind:?}: {empty} empty, {single} of one key, {longer} longer");
                assert!(empty > 0 && longer > 0, "no trail was empty, or none longer than one key");
            }
            Kind::Open => {
                let [below, zero, above] = self.steps;
                println!("{kind:?}: {below} with a step below 0, {zero} with 0, {above} above");
                println!("{} closings", self.closed);
                assert!(self.steps.iter().all(|times| *times > 0), "steps of one sign are missing");
            }
            Kind::Hashes => {
                let [below, wrapped] = self.wrapped;
                println!("{kind:?}: {below} with a sum up to 255, {wrapped} with one above");
                assert!(below > 0 && wrapped > 0, "every sum wrapped, or none");
            }
            _ => {}
        }
    }

    pub fn init(
        &mut self,
        words: &mut [u32],
        r: u32,
        s: u32,
        station: u32,
        counters: &mut Counters,
    ) -> u32 {
        let mut expected = words.to_vec();
        let mut meter = meter_of(counters);
        let answer = reference::calls::init(r, s, station, &mut expected, &mut meter);
        let safe = safe::init(words, r, s, station, counters);
        let mut lent = Guarded::new(words, GUARD);
        let got = crate::init(lent.lent(), r, s, station, counters);
        assert_eq!(got, number(answer), "init {r}, {s}, {station} of {} words", words.len());
        assert_eq!(lent.content(), &expected[..]);
        assert_eq!(meter_of(counters), meter);
        assert_eq!(safe, (answer.map_err(named), expected.clone(), *counters), "the safe init");
        words.copy_from_slice(&expected);
        self.count_station(Kind::Init, are_sizes(r, s, words.len()), station, got);
        self.count(Kind::Init, got)
    }

    /// A bulk load of r slots, s places and a station.
    pub fn bulk_load(
        &mut self,
        tabulation: &[u16],
        words: &mut [u32],
        scratch: &[u32],
        counters: &mut Counters,
        laid: [u32; 3],
        input: &[u32],
    ) -> u32 {
        let [r, s, station] = laid;
        let mut expected = words.to_vec();
        let mut meter = meter_of(counters);
        let mut theirs = scratch.to_vec();
        #[rustfmt::skip]
        let answer = reference::bulk::bulk_load(
            &Fast, tabulation, &mut expected, &mut theirs, &mut meter, r, s, station, input,
        );
        let safe = safe::bulk_load(tabulation, words, scratch, counters, laid, input);
        let mut book = Guarded::new(tabulation, GUARD_ENTRY);
        let mut lent = Guarded::new(words, GUARD);
        let mut sheet = Guarded::new(scratch, GUARD);
        let mut list = Guarded::new(input, GUARD);
        let got =
            crate::bulk_load(book.lent(), lent.lent(), sheet.lent(), counters, laid, list.lent());
        let why = || format!("a bulk load of {input:?} as {laid:?} into {} words", words.len());
        assert_eq!(got, number(answer), "{}", why());
        assert_eq!(lent.content(), &expected[..], "{}", why());
        assert!(sheet.content().iter().all(|w| *w == 0), "the scratch is not zero");
        assert_eq!(book.content(), tabulation, "the tabulation changed");
        assert_eq!(list.content(), input, "the input changed");
        assert_eq!(meter_of(counters), meter, "{}", why());
        let told = (answer.map_err(named), expected.clone(), *counters);
        assert_eq!(safe, told, "with the safe call: {}", why());
        words.copy_from_slice(&expected);
        self.count_loaded(tabulation.len(), words, scratch.len(), laid, input, got)
    }

    /// Counts a bulk load, by the words that it left.
    fn count_loaded(
        &mut self,
        tabulation: usize,
        words: &[u32],
        scratch: usize,
        laid: [u32; 3],
        input: &[u32],
        answer: u32,
    ) -> u32 {
        let lent = Lent { tabulation, words: words.len(), scratch, laid, input };
        let stashed = if answer == 0 { words[3] } else { 0 };
        self.inputs.answer(&lent, answer, stashed);
        let keys = input.iter().copied().step_by(2);
        for key in keys.filter(|key| answer == 5 && is_blank(*key)) {
            self.issues.refusal(Kind::BulkLoad, &[], key, answer);
        }
        let [r, s, station] = laid;
        self.count_station(Kind::BulkLoad, are_sizes(r, s, words.len()), station, answer);
        self.count(Kind::BulkLoad, answer)
    }

    /// An insert or a remove.
    pub fn change(
        &mut self,
        change: Change,
        tabulation: &[u16],
        words: &mut [u32],
        scratch: &[u32],
        counters: &mut Counters,
        key: u32,
    ) -> u32 {
        let mut expected = words.to_vec();
        let mut meter = meter_of(counters);
        let mut theirs = scratch.to_vec();
        #[rustfmt::skip]
        let (kind, answer) = match change {
            Change::Insert(tier) => {
                (Kind::Insert, reference::calls::insert(&Fast, tabulation, &mut expected, &mut theirs, &mut meter, key, tier))
            }
            Change::Remove => {
                (Kind::Remove, reference::calls::remove(&Fast, tabulation, &mut expected, &mut theirs, &mut meter, key))
            }
        };
        let safe = safe::change(change, tabulation, words, scratch, counters, key);
        let mut book = Guarded::new(tabulation, GUARD_ENTRY);
        let mut lent = Guarded::new(words, GUARD);
        let mut sheet = Guarded::new(scratch, GUARD);
        let got = crate::update(change, book.lent(), lent.lent(), sheet.lent(), counters, key);
        assert_eq!(got, number(answer), "{change:?} of {key} on {words:?}");
        assert_eq!(lent.content(), &expected[..], "{change:?} of {key} on {words:?}");
        assert!(sheet.content().iter().all(|w| *w == 0), "the scratch is not zero");
        assert_eq!(book.content(), tabulation, "the tabulation changed");
        assert_eq!(meter_of(counters), meter, "{change:?}");
        let told = (answer.map_err(named), expected.clone(), *counters);
        assert_eq!(safe, told, "the safe {change:?} of {key} on {words:?}");
        if let (Change::Insert(tier), OTHER_ISSUE) = (change, got) {
            self.issues.other(words, key, tier);
        }
        words.copy_from_slice(&expected);
        self.count_of(kind, words, key, got)
    }

    pub fn check(&mut self, tabulation: &[u16], words: &[u32], scratch: &[u32]) -> u32 {
        let mut theirs = scratch.to_vec();
        let answer = reference::calls::check(&Fast, tabulation, words, &mut theirs);
        let mut book = Guarded::new(tabulation, GUARD_ENTRY);
        let mut lent = Guarded::new(words, GUARD);
        let mut sheet = Guarded::new(scratch, GUARD);
        let got = crate::check(book.lent(), lent.lent(), sheet.lent());
        assert_eq!(got, number(answer), "check of {words:?}");
        assert_eq!(lent.content(), words, "check changed the words");
        assert!(sheet.content().iter().all(|w| *w == 0), "the scratch is not zero");
        assert_eq!(book.content(), tabulation, "the tabulation changed");
        let safe = safe::check(tabulation, words, scratch);
        assert_eq!(safe, answer.map_err(named), "the safe check of {words:?}");
        self.count_on(Kind::Check, words, got)
    }

    /// A lookup: its answer, and the tier that it found, if it found the key. Where it did not, the tier stays as it was; refused, both out-parameters do.
    pub fn lookup(&mut self, tabulation: &[u16], words: &[u32], key: u32) -> (u32, Option<u32>) {
        let (answer, values, told) = match reference::calls::lookup(tabulation, words, key) {
            Ok(Found::Listed(tier)) => (0, [1, tier], Ok(Some(tier))),
            Ok(Found::Absent) => (0, [0, !OLD], Ok(None)),
            Err(refusal) => (refusal.number(), [OLD, !OLD], Err(named(refusal))),
        };
        let mut book = Guarded::new(tabulation, GUARD_ENTRY);
        let mut lent = Guarded::new(words, GUARD);
        let (mut listed, mut tier) = (OLD, !OLD);
        let got = crate::lookup(book.lent(), lent.lent(), key, &mut listed, &mut tier);
        assert_eq!((got, [listed, tier]), (answer, values), "lookup of {key} in {words:?}");
        assert_eq!((book.content(), lent.content()), (tabulation, words), "lookup changed memory");
        let safe = safe::lookup(tabulation, words, key);
        assert_eq!(safe, told, "the safe lookup of {key} in {words:?}");
        if got == 0 {
            self.found[listed as usize] += 1;
        }
        if (got, listed) == (0, 0) {
            self.issues.absent(Kind::Lookup, words, key);
        }
        (self.count_of(Kind::Lookup, words, key, got), (listed == 1).then_some(tier))
    }

    /// The stash view: its number. Offset and length name a part of the caller's own words, or nothing.
    pub fn stash(&mut self, words: &[u32]) -> u32 {
        let answer = reference::calls::stash_answer(words);
        let expected = reference::calls::stash(words);
        let mut lent = Guarded::new(words, GUARD);
        let (got, offset, length) = crate::stash(lent.lent());
        assert_eq!(lent.content(), words, "the view changed the words");
        assert_eq!(got, number(answer), "view of {words:?}");
        if got == 0 {
            assert_eq!(&words[offset as usize..][..length as usize], expected, "{words:?}");
            let stash = HEADER_LENGTH as u32 + 6 * words[0];
            assert_eq!(offset, stash, "the view does not begin with the stash");
        } else {
            assert_eq!((offset, length), (0, 0), "a refused view is not empty");
        }
        let told = answer.map(|_| (offset as usize, length as usize)).map_err(named);
        assert_eq!(safe::stash(words), told, "the safe view of {words:?}");
        self.count_on(Kind::Stash, words, got)
    }

    /// A trail, written over what the trail sheet holds: its answer, and its keys, none if it is refused. Refused, trail sheet and count stay as they were.
    pub fn trail(
        &mut self,
        tabulation: &[u16],
        words: &[u32],
        scratch: &[u32],
        key: u32,
        trail_sheet: &[u32],
    ) -> (u32, Vec<u32>) {
        let mut theirs = scratch.to_vec();
        let mut expected = trail_sheet.to_vec();
        #[rustfmt::skip]
        let traced = reference::calls::trail(&Fast, tabulation, words, &mut theirs, key, &mut expected);
        let (answer, count) = match traced {
            Ok(count) => (0, count as u32),
            Err(refusal) => (refusal.number(), OLD),
        };
        let mut book = Guarded::new(tabulation, GUARD_ENTRY);
        let mut lent = Guarded::new(words, GUARD);
        let mut sheet = Guarded::new(scratch, GUARD);
        let mut trail = Guarded::new(trail_sheet, GUARD);
        let mut told = OLD;
        let got =
            crate::trail(book.lent(), lent.lent(), sheet.lent(), key, trail.lent(), &mut told);
        assert_eq!((got, told), (answer, count), "trail of {key} in {words:?}");
        assert_eq!(trail.content(), &expected[..], "trail of {key} in {words:?}");
        assert!(sheet.content().iter().all(|w| *w == 0), "the scratch is not zero");
        assert_eq!((book.content(), lent.content()), (tabulation, words), "trail changed memory");
        let safe = safe::trail(tabulation, words, scratch, key, trail_sheet);
        let keys = traced.map(|count| expected[..count].to_vec()).map_err(named);
        assert_eq!(safe, (keys, expected.clone()), "the safe trail of {key} in {words:?}");
        if got == 0 {
            self.trails[told.min(2) as usize] += 1;
            expected.truncate(told as usize);
        } else {
            expected.clear();
        }
        (self.count_of(Kind::Trail, words, key, got), expected)
    }

    /// A salvage of words to a target with any old content: its answer, and how many numbers were lost, none if it is
    /// refused. Refused, the target and the number stay as they were.
    pub fn salvage(
        &mut self,
        tabulation: &[u16],
        words: &[u32],
        target: &mut [u32],
        scratch: &[u32],
    ) -> (u32, Option<u32>) {
        let mut expected = target.to_vec();
        let mut theirs = scratch.to_vec();
        #[rustfmt::skip]
        let told = reference::salvage::salvage(&Fast, tabulation, words, &mut expected, &mut theirs);
        let answer = number(told.map(|_| ()));
        let mut book = Guarded::new(tabulation, GUARD_ENTRY);
        let mut lent = Guarded::new(words, GUARD);
        let mut area = Guarded::new(target, GUARD);
        let mut sheet = Guarded::new(scratch, GUARD);
        let mut lost = OLD;
        let got = crate::salvage(book.lent(), lent.lent(), area.lent(), sheet.lent(), &mut lost);
        let why = || format!("a salvage of {words:?} to {} words", target.len());
        assert_eq!((got, lost), (answer, told.unwrap_or(OLD)), "{}", why());
        assert_eq!(area.content(), &expected[..], "{}", why());
        assert!(sheet.content().iter().all(|w| *w == 0), "the scratch is not zero");
        assert_eq!((book.content(), lent.content()), (tabulation, words), "salvage changed memory");
        let safe = safe::salvage(tabulation, words, target, scratch);
        let both = (told.map_err(named), expected.clone());
        assert_eq!(safe, both, "with the safe call: {}", why());
        target.copy_from_slice(&expected);
        let lent = wet::Lent { tabulation, words, target: target.len(), scratch: scratch.len() };
        self.salvages.answer(&lent, got, target, lost);
        (self.count_on(Kind::Salvage, words, got), told.ok())
    }

    /// An opening, over a record with marks: its answer, and the record, if a sale is opened. Refused, the record stays as it was.
    pub fn open(
        &mut self,
        tabulation: &[u16],
        words: &[u32],
        key: u32,
        base: u32,
        steps: &[i32],
    ) -> (u32, Option<Sale>) {
        let opened = reference::sale::open(tabulation, words, key, base, steps).map(sale_of);
        let answer = number(opened.map(|_| ()));
        let mut book = Guarded::new(tabulation, GUARD_ENTRY);
        let mut lent = Guarded::new(words, GUARD);
        let mut price_list = Guarded::new(steps, GUARD_STEP);
        let mut sale = Guarded::new(&[OLD_SALE], GUARD_SALE);
        let record = &mut sale.lent()[0];
        let got = crate::open_sale(book.lent(), lent.lent(), key, base, price_list.lent(), record);
        let why = || format!("a sale of {key} at {base} with {steps:?} in {words:?}");
        assert_eq!(got, answer, "{}", why());
        assert_eq!(sale.content(), [opened.unwrap_or(OLD_SALE)], "{}", why());
        assert_eq!((book.content(), lent.content()), (tabulation, words), "opening changed memory");
        assert_eq!(price_list.content(), steps, "opening changed the steps");
        let safe = safe::open(tabulation, words, key, base, steps);
        assert_eq!(safe, opened.map_err(named), "with the safe call: {}", why());
        if let Ok(sale) = opened {
            self.steps[(sale.price.cmp(&base) as i8 + 1) as usize] += 1;
        }
        (self.count_of(Kind::Open, words, key, got), opened.ok())
    }

    /// The closing of a sale, or of any other record, which stays as it was: its price.
    pub fn close(&mut self, sale: &Sale) -> u32 {
        let mut record = Guarded::new(&[*sale], GUARD_SALE);
        let got = crate::close_sale(&record.lent()[0]);
        assert_eq!(got, reference::sale::close(record_of(*sale)), "closing of {sale:?}");
        assert_eq!(pinorange::close_sale(&record.lent()[0]), got, "the safe closing of {sale:?}");
        assert_eq!(record.content(), [*sale], "closing changed the record");
        self.closed += 1;
        got
    }

    pub fn hashes(&mut self, tabulation: &[u16], r: u32, station: u32, key: u32) -> u32 {
        let told = reference::hash::hashes(tabulation, r, station, key);
        let (answer, both) = match told {
            Ok(both) => (0, both),
            Err(refusal) => (refusal.number(), [OLD, !OLD]),
        };
        let mut book = Guarded::new(tabulation, GUARD_ENTRY);
        let got = crate::hashes(book.lent(), r, station, key, [OLD, !OLD]);
        assert_eq!(book.content(), tabulation, "hashing changed the tabulation");
        assert_eq!(got, (answer, both), "hashes of {key} with r = {r} at station {station}");
        let safe = safe::hashes(tabulation, r, station, key);
        assert_eq!(safe, told.map_err(named), "the safe hashes of {key} with r = {r} at {station}");
        if answer == 0 {
            self.wrapped[usize::from(first_part(key) % 256 + station > 255)] += 1;
        }
        self.issues.refusal(Kind::Hashes, &[], key, answer);
        self.count_station(Kind::Hashes, (1..=MAX_R).contains(&r), station, answer);
        self.count(Kind::Hashes, answer)
    }

    pub fn house(&mut self, length: usize) -> u32 {
        let old = vec![3; length];
        let mut lent = Guarded::new(&old, GUARD_ENTRY);
        let got = crate::house(lent.lent());
        let safe = safe::house(&old);
        if length == reference::house::HOUSE.len() {
            assert_eq!((got, lent.content()), (0, &reference::house::HOUSE[..]));
            assert_eq!(safe, (Ok(()), reference::house::HOUSE.to_vec()));
        } else {
            assert_eq!((got, lent.content()), (1, &old[..]));
            assert_eq!(safe, (Err(Refusal::WrongTabulation), old));
        }
        self.count(Kind::House, got)
    }
}

/// A record of the program by another hand, as it crosses.
pub fn sale_of(sale: reference::sale::Sale) -> Sale {
    Sale { key: sale.key, tier: sale.tier, price: sale.price }
}

/// A record, as the program by another hand has it.
pub fn record_of(sale: Sale) -> reference::sale::Sale {
    reference::sale::Sale { key: sale.key, tier: sale.tier, price: sale.price }
}

fn meter_of(counters: &Counters) -> Meter {
    Meter { done: counters.done, refused: counters.refused }
}
