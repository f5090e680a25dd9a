//! Calls that are counted, one at a time. Whatever a call needs is worked out without the library, so that no other
//! call is counted; and what it answers must be what is meant.

use library::{Counters, Sale};
use reference::hash::{hashes, STRETCH_LEN, TABULATION_LEN};
use reference::set::Member;

use super::lists::List;
use crate::cases::{an_issue, input_of, PLACES, STATION};
use crate::common::{HEADER, SLOT};
use crate::stolen;

/// A key to ask for.
#[derive(Clone, Copy)]
pub enum Key {
    Smallest,
    Middle,
    /// That in the last place of the stash, where the list is a cycle with a full stash.
    Largest,
    /// The extra one of the list, which is not in it.
    Extra,
    /// That stands in the place of a tier in the stash: not in its slots, and in no place.
    AsTier,
    /// That with the longest trail: it stands in the other slot of the root, which is the smallest key.
    LongTrail,
}

impl Key {
    fn of(self, list: &List) -> u32 {
        let (board, r) = (&list.board, list.r as usize);
        let keys = board.keys();
        match self {
            Key::Smallest => keys[0],
            Key::Middle => keys[keys.len() / 2],
            Key::Largest => keys[keys.len() - 1],
            Key::Extra => board.extra.0,
            Key::AsTier => board.words[HEADER + SLOT * 2 * r + 1],
            // The root of a cycle is in table 0.
            Key::LongTrail => {
                let slots = hashes(&list.tabulation, list.r, STATION, keys[0]);
                let other = r + slots.expect("a sound book and key")[1] as usize;
                board.words[HEADER + SLOT * other]
            }
        }
    }
}

/// A call, and with what it is made.
#[derive(Clone, Copy)]
pub enum Call {
    Init,
    /// Of the keys of the list.
    BulkLoad,
    /// Of these and the extra one.
    BulkLoadMore,
    Insert(Key),
    Remove(Key),
    Check,
    Lookup(Key),
    Stash,
    /// With so many words less than 2r for its keys.
    Trail(Key, usize),
    Salvage,
    /// At a base price, with the step of the last tier.
    Open(Key, u32, i32),
    Close,
    Hashes,
    House,
    StolenInit,
    StolenInsert(Stolen),
    StolenLookup(Stolen),
}

/// How the keys of a stolen-card list of r slots lie.
#[derive(Clone, Copy)]
pub enum Ways {
    /// All ways start at the first slot: each key stands behind all that are smaller.
    Alike,
    /// A large key is in the first slot, and all other ways start behind it: the test for 4 comes to it from each key.
    Behind,
}

/// Which key comes, or is asked for.
#[derive(Clone, Copy)]
pub enum Coming {
    /// The smallest, for the last slot, and moves all others of its way.
    Smallest,
    /// The largest of its way, for the last slot.
    Largest,
    /// The one in the last slot of the way, once more.
    Again,
    /// A larger one, where every slot is filled.
    Larger,
    /// The same, where a key stands twice, which is found at the end of the round.
    Tampered,
}

/// A stolen-card list on which a call is dear, and the key.
#[derive(Clone, Copy)]
pub struct Stolen(pub Ways, pub Coming);

/// The top byte of a first part that starts in the first slot, or in the last, where the others start behind the first.
const IN_FIRST: u32 = 0x10;
const IN_LAST: u32 = 0x11;

impl Stolen {
    /// The book: the highest byte of a first part alone says where a way starts.
    fn book(self, r: u32) -> Vec<u16> {
        let mut book = vec![0; TABULATION_LEN];
        if matches!(self.0, Ways::Behind) {
            book[3 * STRETCH_LEN] = 1;
            book[3 * STRETCH_LEN + IN_LAST as usize] = r as u16 - 1;
        }
        book
    }

    /// The words, and the key. Where all slots are filled behind a large key, a still larger one is in the last.
    fn words_and_key(self, r: u32) -> (Vec<u32>, u32) {
        let Stolen(ways, coming) = self;
        let is_full = !matches!(coming, Coming::Smallest | Coming::Largest);
        let others = match ways {
            Ways::Alike => Vec::new(),
            Ways::Behind if is_full => vec![IN_FIRST << 24, IN_LAST << 24],
            Ways::Behind => vec![IN_FIRST << 24],
        };
        let filled = if is_full { r } else { r - 1 };
        // First parts from 2 on, as many as there are slots left.
        let last = filled - others.len() as u32 + 1;
        let keys: Vec<u32> = (2..=last).chain(others).map(an_issue).collect();
        let mut words = stolen::image(&self.book(r), r as usize, &keys);
        if let (Coming::Tampered, [.., before, end, _]) = (coming, &mut words[..]) {
            *end = *before;
        }
        let part = match coming {
            Coming::Smallest => 1,
            Coming::Again => last,
            _ => last + 1,
        };
        (words, an_issue(part))
    }

    fn insert(self, r: u32) -> u32 {
        let (mut words, key) = self.words_and_key(r);
        library::stolen_insert(&self.book(r), &mut words, STATION, key)
    }

    /// Whether it is told what it must, and its answer.
    fn lookup(self, r: u32) -> u32 {
        let (words, key) = self.words_and_key(r);
        let mut reported = u32::MAX;
        let answer = library::stolen_lookup(&self.book(r), &words, STATION, key, &mut reported);
        assert_eq!(reported, u32::from(matches!(self.1, Coming::Again)), "what is looked up");
        answer
    }
}

/// Whether a lookup of a key finds it, and its answer.
fn lookup(list: &List, key: Key) -> u32 {
    let mut listed = u32::MAX;
    let (book, words) = (&list.tabulation, &list.board.words);
    let answer = library::lookup(book, words, key.of(list), &mut listed, &mut 0);
    assert_eq!(listed, u32::from(matches!(key, Key::Largest)), "what is looked up");
    answer
}

/// A trail, which must have all 2r keys where it is accepted.
fn trail(list: &List, scratch: &mut [u32], key: Key, less: usize) -> u32 {
    let (book, words) = (&list.tabulation, &list.board.words);
    let mut sheet = vec![0; 2 * list.r as usize - less];
    let mut count = 2 * list.r;
    let answer = library::trail(book, words, scratch, key.of(list), &mut sheet, &mut count);
    assert_eq!(count, 2 * list.r, "the keys of the trail");
    answer
}

/// A bulk load over the words of the list.
fn bulk_load(list: &List, members: &[Member]) -> u32 {
    let (input, laid) = (input_of(members), [list.r, PLACES, STATION]);
    let mut words = list.board.words.clone();
    let mut scratch = vec![u32::MAX; library::scratch_length(list.r, PLACES)];
    let mut counters = Counters::default();
    library::bulk_load(&list.tabulation, &mut words, &mut scratch, &mut counters, laid, &input)
}

impl Call {
    /// The symbol to watch.
    pub fn symbol(self) -> &'static str {
        match self {
            Call::Init => "pinorange_init",
            Call::BulkLoad | Call::BulkLoadMore => "pinorange_bulk_load",
            Call::Insert(_) => "pinorange_insert",
            Call::Remove(_) => "pinorange_remove",
            Call::Check => "pinorange_check",
            Call::Lookup(_) => "pinorange_lookup",
            Call::Stash => "pinorange_stash",
            Call::Trail(..) => "pinorange_trail",
            Call::Salvage => "pinorange_salvage",
            Call::Open(..) => "pinorange_open_sale",
            Call::Close => "pinorange_close_sale",
            Call::Hashes => "pinorange_hashes",
            Call::House => "pinorange_house",
            Call::StolenInit => "pinorange_stolen_init",
            Call::StolenInsert(_) => "pinorange_stolen_insert",
            Call::StolenLookup(_) => "pinorange_stolen_lookup",
        }
    }

    /// Makes the call, and no other of the library, and gives its answer; of a closing 0, if it gives the price.
    pub fn make(self, list: &List) -> u32 {
        let (r, book) = (list.r, &list.tabulation);
        let mut words = list.board.words.clone();
        let mut scratch = vec![u32::MAX; library::scratch_length(r, PLACES)];
        let mut counters = Counters::default();
        let mut sale = Sale { key: 0, tier: 0, price: 1_749 };
        match self {
            Call::Init => library::init(&mut words, r, PLACES, STATION, &mut counters),
            Call::BulkLoad => bulk_load(list, &list.board.members),
            Call::BulkLoadMore => bulk_load(list, &list.board.with_extra()),
            Call::Insert(key) => {
                let (key, tier) = (key.of(list), list.board.extra.1);
                library::insert(book, &mut words, &mut scratch, &mut counters, key, tier)
            }
            Call::Remove(key) => {
                library::remove(book, &mut words, &mut scratch, &mut counters, key.of(list))
            }
            Call::Check => library::check(book, &words, &mut scratch),
            Call::Lookup(key) => lookup(list, key),
            Call::Stash => library::stash(&words).0,
            Call::Trail(key, less) => trail(list, &mut scratch, key, less),
            Call::Salvage => {
                let mut target = vec![u32::MAX; words.len()];
                library::salvage(book, &words, &mut target, &mut scratch, &mut 0)
            }
            Call::Open(key, base, last) => {
                let steps = [-500, -10, 0, 10, 20, 30, 40, last];
                library::open_sale(book, &words, key.of(list), base, &steps, &mut sale)
            }
            Call::Close => u32::from(library::close_sale(&sale) != sale.price),
            Call::Hashes => library::hashes(book, r, STATION, Key::Largest.of(list), [0; 2]).0,
            Call::House => library::house(&mut [0; TABULATION_LEN]),
            Call::StolenInit => library::stolen_init(&mut words[..r as usize]),
            Call::StolenInsert(stolen) => stolen.insert(r),
            Call::StolenLookup(stolen) => stolen.lookup(r),
        }
    }
}
