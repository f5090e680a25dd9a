//! The crate's safe calls, on copies of the lent memory with guards around them: what each gave, for beside.rs to
//! compare. That a call leaves what it only reads, and zeros its scratch, is asserted here.

use pinorange::{Counters, Refusal, Sale};
use reference::answer::Refusal as Theirs;

use crate::beside::{GUARD, GUARD_ENTRY, GUARD_STEP};
use crate::guarded::Guarded;
use crate::Change;

/// The crate's name for a refusal of the program by another hand.
pub fn named(refusal: Theirs) -> Refusal {
    match refusal {
        Theirs::WrongTabulation => Refusal::WrongTabulation,
        Theirs::WrongShape => Refusal::WrongShape,
        Theirs::ShortScratch => Refusal::ShortScratch,
        Theirs::NotCanonical => Refusal::NotCanonical,
        Theirs::BlankKey => Refusal::BlankKey,
        Theirs::WrongTier => Refusal::WrongTier,
        Theirs::NotRising => Refusal::NotRising,
        Theirs::OtherIssue => Refusal::OtherIssue,
        Theirs::OtherTier => Refusal::OtherTier,
        Theirs::Listed => Refusal::KeyPresent,
        Theirs::FullTable => Refusal::TableFull,
        Theirs::NotListed => Refusal::KeyAbsent,
        Theirs::ShortTrailSheet => Refusal::ShortTrail,
        Theirs::WrongPrice => Refusal::WrongPrice,
        Theirs::FullStash => Refusal::StashFull,
        Theirs::NothingCounts => Refusal::NoneCounts,
    }
}

/// What a call that moves the counters gave: its answer, the words and the counters after it.
pub type Changed = (Result<(), Refusal>, Vec<u32>, Counters);

pub fn init(words: &[u32], r: u32, s: u32, station: u32, counters: &Counters) -> Changed {
    let (mut lent, mut counters) = (Guarded::new(words, GUARD), *counters);
    let answer = pinorange::init(lent.lent(), r, s, station, &mut counters);
    (answer, lent.content().to_vec(), counters)
}

pub fn bulk_load(
    tabulation: &[u16],
    words: &[u32],
    scratch: &[u32],
    counters: &Counters,
    [r, s, station]: [u32; 3],
    input: &[u32],
) -> Changed {
    let mut counters = *counters;
    let mut book = Guarded::new(tabulation, GUARD_ENTRY);
    let mut lent = Guarded::new(words, GUARD);
    let mut sheet = Guarded::new(scratch, GUARD);
    let mut list = Guarded::new(input, GUARD);
    #[rustfmt::skip]
    let answer = pinorange::bulk_load(
        book.lent(), lent.lent(), sheet.lent(), &mut counters, r, s, station, list.lent(),
    );
    assert_eq!(book.content(), tabulation, "the tabulation changed");
    assert_eq!(list.content(), input, "the input changed");
    assert_zero(&sheet);
    (answer, lent.content().to_vec(), counters)
}

pub fn change(
    change: Change,
    tabulation: &[u16],
    words: &[u32],
    scratch: &[u32],
    counters: &Counters,
    key: u32,
) -> Changed {
    let mut counters = *counters;
    let mut book = Guarded::new(tabulation, GUARD_ENTRY);
    let mut lent = Guarded::new(words, GUARD);
    let mut sheet = Guarded::new(scratch, GUARD);
    let (tabulation_lent, words_lent, scratch_lent) = (book.lent(), lent.lent(), sheet.lent());
    #[rustfmt::skip]
    let answer = match change {
        Change::Insert(tier) => {
            pinorange::insert(tabulation_lent, words_lent, scratch_lent, &mut counters, key, tier)
        }
        Change::Remove => pinorange::remove(tabulation_lent, words_lent, scratch_lent, &mut counters, key),
    };
    assert_eq!(book.content(), tabulation, "the tabulation changed");
    assert_zero(&sheet);
    (answer, lent.content().to_vec(), counters)
}

pub fn check(tabulation: &[u16], words: &[u32], scratch: &[u32]) -> Result<(), Refusal> {
    let mut book = Guarded::new(tabulation, GUARD_ENTRY);
    let mut lent = Guarded::new(words, GUARD);
    let mut sheet = Guarded::new(scratch, GUARD);
    let answer = pinorange::check(book.lent(), lent.lent(), sheet.lent());
    assert_eq!((book.content(), lent.content()), (tabulation, words), "check changed memory");
    assert_zero(&sheet);
    answer
}

pub fn lookup(tabulation: &[u16], words: &[u32], key: u32) -> Result<Option<u32>, Refusal> {
    let mut book = Guarded::new(tabulation, GUARD_ENTRY);
    let mut lent = Guarded::new(words, GUARD);
    let found = pinorange::lookup(book.lent(), lent.lent(), key);
    assert_eq!((book.content(), lent.content()), (tabulation, words), "lookup changed memory");
    found
}

/// The stash view: offset and length of the stretch in the words that were lent.
pub fn stash(words: &[u32]) -> Result<(usize, usize), Refusal> {
    let mut lent = Guarded::new(words, GUARD);
    let start = lent.lent().as_ptr() as usize;
    let view = pinorange::stash(lent.lent());
    let stretch = view.map(|part| ((part.as_ptr() as usize - start) / 4, part.len()));
    assert_eq!(lent.content(), words, "the view changed the words");
    stretch
}

/// A trail: its keys, and the sheet after it. The keys must be the beginning of the sheet that was lent.
pub fn trail(
    tabulation: &[u16],
    words: &[u32],
    scratch: &[u32],
    key: u32,
    trail_sheet: &[u32],
) -> (Result<Vec<u32>, Refusal>, Vec<u32>) {
    let mut book = Guarded::new(tabulation, GUARD_ENTRY);
    let mut lent = Guarded::new(words, GUARD);
    let mut sheet = Guarded::new(scratch, GUARD);
    let mut trail = Guarded::new(trail_sheet, GUARD);
    let start = trail.lent().as_ptr();
    let told = pinorange::trail(book.lent(), lent.lent(), sheet.lent(), key, trail.lent());
    let keys = told.map(|part| {
        assert_eq!(part.as_ptr(), start, "the trail is no part of its sheet");
        part.to_vec()
    });
    assert_eq!((book.content(), lent.content()), (tabulation, words), "trail changed memory");
    assert_zero(&sheet);
    (keys, trail.content().to_vec())
}

/// A salvage over a target with this old content: what it told, and the target after it.
pub fn salvage(
    tabulation: &[u16],
    words: &[u32],
    target: &[u32],
    scratch: &[u32],
) -> (Result<u32, Refusal>, Vec<u32>) {
    let mut book = Guarded::new(tabulation, GUARD_ENTRY);
    let mut lent = Guarded::new(words, GUARD);
    let mut area = Guarded::new(target, GUARD);
    let mut sheet = Guarded::new(scratch, GUARD);
    let lost = pinorange::salvage(book.lent(), lent.lent(), area.lent(), sheet.lent());
    assert_eq!((book.content(), lent.content()), (tabulation, words), "salvage changed memory");
    assert_zero(&sheet);
    (lost, area.content().to_vec())
}

#[rustfmt::skip]
pub fn open(tabulation: &[u16], words: &[u32], key: u32, base: u32, steps: &[i32]) -> Result<Sale, Refusal> {
    let mut book = Guarded::new(tabulation, GUARD_ENTRY);
    let mut lent = Guarded::new(words, GUARD);
    let mut price_list = Guarded::new(steps, GUARD_STEP);
    let opened = pinorange::open_sale(book.lent(), lent.lent(), key, base, price_list.lent());
    assert_eq!((book.content(), lent.content()), (tabulation, words), "opening changed memory");
    assert_eq!(price_list.content(), steps, "opening changed the steps");
    opened
}

pub fn hashes(tabulation: &[u16], r: u32, station: u32, key: u32) -> Result<[u32; 2], Refusal> {
    let mut book = Guarded::new(tabulation, GUARD_ENTRY);
    let both = pinorange::hashes(book.lent(), r, station, key);
    assert_eq!(book.content(), tabulation, "hashing changed the tabulation");
    both
}

/// What a call that may write a stolen-card list gave: its answer, and the words after it.
pub type Stolen = (Result<(), Refusal>, Vec<u32>);

pub fn stolen_init(words: &[u32]) -> Stolen {
    let mut lent = Guarded::new(words, GUARD);
    let answer = pinorange::stolen_init(lent.lent());
    (answer, lent.content().to_vec())
}

pub fn stolen_insert(tabulation: &[u16], words: &[u32], station: u32, key: u32) -> Stolen {
    let mut book = Guarded::new(tabulation, GUARD_ENTRY);
    let mut lent = Guarded::new(words, GUARD);
    let answer = pinorange::stolen_insert(book.lent(), lent.lent(), station, key);
    assert_eq!(book.content(), tabulation, "the tabulation changed");
    (answer, lent.content().to_vec())
}

#[rustfmt::skip]
pub fn stolen_lookup(tabulation: &[u16], words: &[u32], station: u32, key: u32) -> Result<bool, Refusal> {
    let mut book = Guarded::new(tabulation, GUARD_ENTRY);
    let mut lent = Guarded::new(words, GUARD);
    let told = pinorange::stolen_lookup(book.lent(), lent.lent(), station, key);
    assert_eq!((book.content(), lent.content()), (tabulation, words), "lookup changed memory");
    told
}

/// The house tabulation, written over another content: its answer, and what is there after it.
pub fn house(tabulation: &[u16]) -> (Result<(), Refusal>, Vec<u16>) {
    let mut lent = Guarded::new(tabulation, GUARD_ENTRY);
    let answer = pinorange::house(lent.lent());
    (answer, lent.content().to_vec())
}

fn assert_zero(scratch: &Guarded<u32>) {
    assert!(scratch.content().iter().all(|word| *word == 0), "the scratch is not zero");
}
