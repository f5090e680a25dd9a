//! The reference model (the paper's "plain register"): a set of keys with tiers that answers every
//! call of a sequence without ever seeing the words. The calls on real words must answer as it
//! does.

use crate::answer::{Answer, Found, Refusal};
use crate::bulk;
use crate::hash::TABULATION_LEN;
use crate::image::Engine;
use crate::key::is_blank;
use crate::layout::{Shape, HEADER_LEN};
use crate::sale::{price, Sale};
use crate::salvage::surviving_set;
use crate::set::{has_other_issue, members, Set, MAX_TIER};

/// A call of a sequence, as the model is fed it.
///
/// Paper: "is fed each call's kind and arguments, what the sheet and the meter hold aside". Of a
/// tabulation borrowed by a single call only the length counts: "One book of the right length goes
/// through it; a call may lend one of a wrong length instead."
#[derive(Clone, Debug, PartialEq, Eq)]
pub enum Call {
    /// The paper's "add".
    Insert {
        /// Length of the borrowed tabulation.
        tabulation_len: usize,
        /// Length of the borrowed scratch.
        scratch_len: usize,
        /// The key to put in.
        key: u32,
        /// Its tier.
        tier: u32,
    },
    /// The paper's "withdrawal".
    Remove {
        /// Length of the borrowed tabulation.
        tabulation_len: usize,
        /// Length of the borrowed scratch.
        scratch_len: usize,
        /// The key to take out.
        key: u32,
    },
    /// The paper's "look-up".
    Lookup {
        /// Length of the borrowed tabulation.
        tabulation_len: usize,
        /// The key asked for.
        key: u32,
    },
    /// The paper's "check".
    Check {
        /// Length of the borrowed tabulation.
        tabulation_len: usize,
        /// Length of the borrowed scratch.
        scratch_len: usize,
    },
    /// The paper's "view".
    Stash,
    /// Request Two's trail. By the paper's letter it stands in a sequence only when it is refused,
    /// and could be fed as a call of another kind; it changes no word either way, so the model
    /// answers it in full.
    Trail {
        /// Length of the borrowed tabulation.
        tabulation_len: usize,
        /// Length of the borrowed scratch.
        scratch_len: usize,
        /// The key whose trail is asked for.
        key: u32,
        /// Length of the borrowed trail sheet.
        trail_sheet_len: usize,
    },
    /// Request Four's opening of a sale. As with a trail: by the paper's letter it stands in a
    /// sequence only when it is refused, it changes no word either way, and the model answers it in
    /// full.
    Open {
        /// Length of the borrowed tabulation.
        tabulation_len: usize,
        /// The key that the sale is for.
        key: u32,
        /// The base price.
        base: u32,
        /// The steps, of which there should be one for each tier.
        steps: Vec<i32>,
    },
    /// Request Four's closing of a sale. It borrows nothing of the list, so any record will do.
    Close {
        /// The record.
        sale: Sale,
    },
    /// Request Eight's salvage of the list to another area. As with a trail: by the paper's letter
    /// it stands in a sequence only when it is refused, it changes no word of the list either way,
    /// and the model answers it in full.
    Salvage {
        /// Length of the borrowed tabulation.
        tabulation_len: usize,
        /// Length of the other area.
        target_len: usize,
        /// Length of the borrowed scratch.
        scratch_len: usize,
    },
    /// Paper: "any other call on it may stand there if it is refused". So may an init, a bulk load
    /// and a salvage of some other words to the list; accepted, they start a sequence, see
    /// [`Model::new`], [`Model::bulk_loaded`] and [`Model::salvaged`].
    Other {
        /// The refusal the call gave.
        refusal: Refusal,
    },
}

/// What the model answers to a call.
#[derive(Clone, Debug, PartialEq, Eq)]
pub enum Reply {
    /// To an insert, remove, check or call of another kind.
    Answer(Answer),
    /// To a lookup.
    Lookup(Result<Found, Refusal>),
    /// To a stash view, which is never refused in a sequence (its number is 0): key and tier of
    /// each filled place.
    Stash(Vec<u32>),
    /// To a trail: its keys, first key first.
    Trail(Result<Vec<u32>, Refusal>),
    /// To the opening of a sale: the record.
    Open(Result<Sale, Refusal>),
    /// To the closing of a sale, which is never refused: the price.
    Close(u32),
    /// To a salvage of the list: the words of the other area, and how many numbers were lost.
    Salvage(Result<(Vec<u32>, u32), Refusal>),
}

/// The reference model.
///
/// Paper: "The register has the sequence's book [..]; of the list it knows only what lay was given.
/// Its state is a set of cards, empty at first." What init was given is r, s and, with request
/// Five, the station. Request One: ""set" means cards with their tiers everywhere". Request Six:
/// "a set has at most one issue of each such first part"; 13 keeps the state such a set. A sequence
/// may also start with an accepted bulk load of request Seven or an accepted salvage of request
/// Eight; its first state is then that set.
#[derive(Clone, Debug)]
pub struct Model<E> {
    engine: E,
    tabulation: Vec<u16>,
    shape: Shape,
    set: Set,
}

impl<E: Engine> Model<E> {
    /// The model at the start of a sequence, or why no sequence starts so: it needs a tabulation of
    /// the right length and an r, an s and a station that init accepts.
    pub fn new(
        engine: E,
        tabulation: &[u16],
        r: u32,
        s: u32,
        station: u32,
    ) -> Result<Self, Refusal> {
        refuse_tabulation(tabulation.len())?;
        let shape = Shape::new(r, s, station)?;
        Ok(Model { engine, tabulation: tabulation.to_vec(), shape, set: Set::new() })
    }

    /// The model at the start of a sequence that an accepted bulk load starts, or why no sequence
    /// starts so: what [`Model::new`] needs, and an input that a bulk load accepts.
    ///
    /// Request Seven: "The image equals, word by word, that of adding the same cards with their
    /// tiers to a list laid alike". So it is the image of the set that says whether 8 is due.
    pub fn bulk_loaded(
        engine: E,
        tabulation: &[u16],
        r: u32,
        s: u32,
        station: u32,
        input: &[u32],
    ) -> Result<Self, Refusal> {
        let mut model = Model::new(engine, tabulation, r, s, station)?;
        let set: Set = bulk::members(input)?.into_iter().collect();
        model.image(&set).ok_or(Refusal::FullStash)?;
        model.set = set;
        Ok(model)
    }

    /// The model at the start of a sequence that an accepted salvage to the list starts, or why no
    /// sequence starts so: the words are those that were gone over, and the lengths of the target
    /// and the scratch are taken to be right.
    ///
    /// Request Eight: "The tool writes their canonical list, with the same r, s and station".
    pub fn salvaged(engine: E, tabulation: &[u16], words: &[u32]) -> Result<Self, Refusal> {
        refuse_tabulation(tabulation.len())?;
        let shape = Shape::of(words)?;
        let set = surviving_set(tabulation, shape, words)?;
        Ok(Model { engine, tabulation: tabulation.to_vec(), shape, set })
    }

    /// The set: the tier of each key.
    pub fn set(&self) -> &Set {
        &self.set
    }

    /// The words that a list with this set has. "With no call at all the words are the image of the
    /// empty set", or that of the bulk load's or the salvage's set.
    pub fn words(&self) -> Vec<u32> {
        self.image(&self.set).expect("the set is kept such that it has an image")
    }

    /// Answers one call and keeps the set.
    ///
    /// Paper: "It tries that call's refusals in their order, "the set" being its own, and answers
    /// the first that applies; 2 and 4 never do. [..] On 0 an add puts its card in and a withdrawal
    /// takes its card out. Nothing else changes the set."
    pub fn feed(&mut self, call: &Call) -> Reply {
        match *call {
            Call::Insert { tabulation_len, scratch_len, key, tier } => {
                let answer = self.try_insert(tabulation_len, scratch_len, key, tier);
                if answer.is_ok() {
                    self.set.insert(key, tier);
                }
                Reply::Answer(answer)
            }
            Call::Remove { tabulation_len, scratch_len, key } => {
                let answer = self.try_remove(tabulation_len, scratch_len, key);
                if answer.is_ok() {
                    self.set.remove(&key);
                }
                Reply::Answer(answer)
            }
            Call::Lookup { tabulation_len, key } => {
                Reply::Lookup(self.try_lookup(tabulation_len, key))
            }
            Call::Check { tabulation_len, scratch_len } => {
                Reply::Answer(self.refuse_lengths(tabulation_len, scratch_len))
            }
            Call::Stash => Reply::Stash(self.stash()),
            Call::Trail { tabulation_len, scratch_len, key, trail_sheet_len } => {
                Reply::Trail(self.try_trail(tabulation_len, scratch_len, key, trail_sheet_len))
            }
            Call::Open { tabulation_len, key, base, ref steps } => {
                Reply::Open(self.try_open(tabulation_len, key, base, steps))
            }
            // Request Four: "closing gives the record's price, though the card may have gone".
            Call::Close { sale } => Reply::Close(sale.price),
            Call::Salvage { tabulation_len, target_len, scratch_len } => {
                Reply::Salvage(self.try_salvage(tabulation_len, target_len, scratch_len))
            }
            // Paper: "For a call of another kind nothing is tried: the register is fed the refusal,
            // answers it, and the set stays."
            Call::Other { refusal } => Reply::Answer(Err(refusal)),
        }
    }

    /// Request One: "9 (tier above 7) after 5; 10 (add of a listed card with another tier) just
    /// before 6". Request Six: "13 (another issue is listed) just before 10".
    fn try_insert(&self, tabulation_len: usize, scratch_len: usize, key: u32, tier: u32) -> Answer {
        self.refuse_lengths(tabulation_len, scratch_len)?;
        refuse_blank(key)?;
        if tier > MAX_TIER {
            return Err(Refusal::WrongTier);
        }
        if has_other_issue(&self.set, key) {
            return Err(Refusal::OtherIssue);
        }
        if self.set.get(&key).is_some_and(|&listed| listed != tier) {
            return Err(Refusal::OtherTier);
        }
        if self.set.contains_key(&key) {
            return Err(Refusal::Listed);
        }
        let mut new_set = self.set.clone();
        new_set.insert(key, tier);
        self.image(&new_set).map(|_| ()).ok_or(Refusal::FullStash)
    }

    fn try_remove(&self, tabulation_len: usize, scratch_len: usize, key: u32) -> Answer {
        self.refuse_lengths(tabulation_len, scratch_len)?;
        refuse_blank(key)?;
        if !self.set.contains_key(&key) {
            return Err(Refusal::NotListed);
        }
        Ok(())
    }

    /// Paper: "A look-up not refused says whether the card is in the set." Request One: "Look-up
    /// answers the tier or that the card isn't listed, in the plain register too".
    fn try_lookup(&self, tabulation_len: usize, key: u32) -> Result<Found, Refusal> {
        refuse_tabulation(tabulation_len)?;
        refuse_blank(key)?;
        Ok(self.set.get(&key).map_or(Found::Absent, |&tier| Found::Listed(tier)))
    }

    /// Paper: "A view gives the words of the filled drawer places in the set's canonical image."
    fn stash(&self) -> Vec<u32> {
        let words = self.words();
        let start = HEADER_LEN + 6 * self.shape.r() as usize;
        let filled = words[start..].chunks(2).filter(|place| place[0] != 0);
        filled.flatten().copied().collect()
    }

    /// Request Two: "Checks run as for withdraw [..]. Answers: 11 (trail sheet shorter than the
    /// trail) after 7".
    fn try_trail(
        &self,
        tabulation_len: usize,
        scratch_len: usize,
        key: u32,
        trail_sheet_len: usize,
    ) -> Result<Vec<u32>, Refusal> {
        self.try_remove(tabulation_len, scratch_len, key)?;
        let (r, s, station) = self.shape.numbers();
        let trail = self.engine.trail(&self.tabulation, r, s, station, &members(&self.set), key);
        let trail = trail.expect("a listed key has a trail");
        if trail_sheet_len < trail.len() {
            return Err(Refusal::ShortTrailSheet);
        }
        Ok(trail)
    }

    /// Request Four: "Opening checks as look-up does, then 7, then 4 if the tier found is above 7.
    /// Answers: 12 [..] after that." No tier of the set is above 7: "2 and 4 never do".
    fn try_open(
        &self,
        tabulation_len: usize,
        key: u32,
        base: u32,
        steps: &[i32],
    ) -> Result<Sale, Refusal> {
        let Found::Listed(tier) = self.try_lookup(tabulation_len, key)? else {
            return Err(Refusal::NotListed);
        };
        let price = price(tier, base, steps)?;
        Ok(Sale { key, tier, price })
    }

    /// Request Eight: "An untampered list gives itself and 0. Checks are 1, 2 for the first area, 2
    /// for the second's length, and 3." The first 2 never applies, and neither does 15: every key
    /// of the set counts where it stands. The second 2 is not about the list.
    fn try_salvage(
        &self,
        tabulation_len: usize,
        target_len: usize,
        scratch_len: usize,
    ) -> Result<(Vec<u32>, u32), Refusal> {
        refuse_tabulation(tabulation_len)?;
        if target_len != self.shape.words_len() {
            return Err(Refusal::WrongShape);
        }
        self.refuse_lengths(tabulation_len, scratch_len)?;
        Ok((self.words(), 0))
    }

    fn image(&self, set: &Set) -> Option<Vec<u32>> {
        let (r, s, station) = self.shape.numbers();
        self.engine.image(&self.tabulation, r, s, station, &members(set))
    }

    fn refuse_lengths(&self, tabulation_len: usize, scratch_len: usize) -> Answer {
        refuse_tabulation(tabulation_len)?;
        if scratch_len < self.shape.scratch_len() {
            return Err(Refusal::ShortScratch);
        }
        Ok(())
    }
}

fn refuse_tabulation(len: usize) -> Answer {
    if len == TABULATION_LEN {
        Ok(())
    } else {
        Err(Refusal::WrongTabulation)
    }
}

fn refuse_blank(key: u32) -> Answer {
    if is_blank(key) {
        Err(Refusal::BlankKey)
    } else {
        Ok(())
    }
}
