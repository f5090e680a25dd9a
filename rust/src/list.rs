//! A list as one value: tabulation, words and counters, lent together, so that they stay together. Its methods are the
//! functions of calls.rs on them, and nothing besides.

use core::fmt;

use crate::calls;
use crate::cards::{cards, places};
use crate::{Counters, Refusal, Sale, Scratch, STEPS, TABULATION_LENGTH};

/// A card list over memory that it is lent: a tabulation, words and counters.
///
/// [`init`](List::init) lays an empty one, [`bulk_load`](List::bulk_load) a whole one in one call,
/// [`open`](List::open) takes words that are a list already, and checks that they are, and [`salvage`](List::salvage)
/// saves what is left of words that are not any more. From then on nothing else in safe Rust can write the words or the
/// tabulation, so that the words stay the canonical image of a set under this tabulation. `WrongShape` and
/// `NotCanonical`, where a method may give them, say that it happened all the same: by a fault of the memory, or by
/// another program. What to do then stands in `pinorange.h`: lay all cards again from a record of your own; where there
/// is none, salvage.
///
/// Two lists of the same cards at the same tiers, with one tabulation, of one size and station, have the same
/// [`words`](List::words), whatever came before. Methods that take `&self` may run side by side.
///
/// ```
/// use pinorange::{scratch_length, words_length, Counters, List, Refusal, Scratch, TABULATION_LENGTH};
///
/// const R: u32 = 16;
/// const S: u32 = 2;
/// let mut tabulation = [0; TABULATION_LENGTH];
/// let mut words = [0; words_length(R, S)];
/// let mut scratch = Scratch::<[u32; scratch_length(R, S)]>::new();
/// let mut counters = Counters::default();
/// pinorange::house(&mut tabulation)?;
/// let mut list = List::init(&tabulation, &mut words, R, S, 17, &mut counters)?;
/// list.insert(&mut scratch, 410_010, 3)?;
///
/// // The card is made again: the old issue goes before the new one comes.
/// assert_eq!(list.insert(&mut scratch, 410_013, 3), Err(Refusal::OtherIssue));
/// list.remove(&mut scratch, 410_010)?;
/// list.insert(&mut scratch, 410_013, 3)?;
/// assert_eq!(list.lookup(410_010), Ok(None));
/// assert_eq!(list.lookup(410_013), Ok(Some(3)));
/// assert_eq!(list.counters(), Counters { done: 4, refused: 1 });
/// # Ok::<(), Refusal>(())
/// ```
pub struct List<'a> {
    tabulation: &'a [u16; TABULATION_LENGTH],
    words: &'a mut [u32],
    counters: &'a mut Counters,
}

impl<'a> List<'a> {
    /// Lays an empty list of r slots in each table and s stash places, at a station, whatever the words were.
    ///
    /// # Errors
    ///
    /// `WrongShape`: r, s or the station is outside its range, or there are not
    /// [`words_length`](crate::words_length)`(r, s)` words. The words stay as they were, and the counters count it.
    #[inline]
    pub fn init(
        tabulation: &'a [u16; TABULATION_LENGTH],
        words: &'a mut [u32],
        r: u32,
        s: u32,
        station: u32,
        counters: &'a mut Counters,
    ) -> Result<List<'a>, Refusal> {
        calls::init(words, r, s, station, counters)?;
        Ok(List { tabulation, words, counters })
    }

    /// Lays a whole list of r slots in each table and s stash places, at a station, in one call, whatever the words
    /// were: that of the keys in the input, which alternates key and tier, the keys strictly ascending. Its words are
    /// those of an empty list into which the same keys were inserted, in any order.
    ///
    /// Cards that come as pairs, `[card, tier]`, are lent as they stand, by `as_flattened`.
    ///
    /// ```
    /// # use pinorange::{scratch_length, words_length, Counters, List, Refusal, Scratch, TABULATION_LENGTH};
    /// # let (mut tabulation, mut counters) = ([0; TABULATION_LENGTH], Counters::default());
    /// # let mut words = [0; words_length(16, 2)];
    /// # let mut scratch = Scratch::<[u32; scratch_length(16, 2)]>::new();
    /// # pinorange::house(&mut tabulation)?;
    /// // What head office sends, sorted, in case that it is not.
    /// let mut cards = [[733_001, 7], [410_010, 3], [410_025, 0]];
    /// cards.sort_unstable();
    /// let input = cards.as_flattened();
    /// let list = List::bulk_load(&tabulation, &mut words, 16, 2, 17, &mut scratch, &mut counters, input)?;
    /// assert_eq!(list.lookup(733_001), Ok(Some(7)));
    /// assert_eq!(list.len(), 3);
    ///
    /// // Two issues of one card: all is refused, and the words are a list as before.
    /// let cards = [[410_010, 3], [410_013, 3]];
    /// let input = cards.as_flattened();
    /// let refused = List::bulk_load(&tabulation, &mut words, 16, 2, 17, &mut scratch, &mut counters, input);
    /// assert_eq!(refused.err(), Some(Refusal::OtherIssue));
    /// let list = List::open(&tabulation, &mut words, &mut scratch, &mut counters)?;
    /// assert_eq!(list.len(), 3);
    /// # Ok::<(), Refusal>(())
    /// ```
    ///
    /// # Errors
    ///
    /// In this order; the words stay as they were, and the counters count it. `WrongShape` as for [`init`](List::init);
    /// `ShortScratch`; over the whole input, each before the next, `BlankKey` (a last word without a partner is a key),
    /// `WrongTier`, `NotRising` (an odd number of words, or a key that is not larger than the one before it) and
    /// `OtherIssue` (two issues of one card); `StashFull`.
    #[inline]
    #[allow(clippy::too_many_arguments)] // Those of `init`, a scratch and the input.
    pub fn bulk_load(
        tabulation: &'a [u16; TABULATION_LENGTH],
        words: &'a mut [u32],
        r: u32,
        s: u32,
        station: u32,
        scratch: &mut Scratch,
        counters: &'a mut Counters,
        input: &[u32],
    ) -> Result<List<'a>, Refusal> {
        calls::bulk_load(tabulation, words, scratch.words(), counters, r, s, station, input)?;
        Ok(List { tabulation, words, counters })
    }

    /// Takes words that are a list already, after a check of the whole. The counters stay as they are. Of what a check
    /// cannot find, see [`check`](List::check).
    ///
    /// ```
    /// # use pinorange::{scratch_length, words_length, Counters, List, Refusal, Scratch, TABULATION_LENGTH};
    /// # let (mut tabulation, mut counters) = ([0; TABULATION_LENGTH], Counters::default());
    /// # let mut words = [0; words_length(16, 2)];
    /// # let mut scratch = Scratch::<[u32; scratch_length(16, 2)]>::new();
    /// # pinorange::house(&mut tabulation)?;
    /// let mut list = List::init(&tabulation, &mut words, 16, 2, 17, &mut counters)?;
    /// list.insert(&mut scratch, 410_017, 3)?;
    ///
    /// // Later, from the words alone.
    /// let list = List::open(&tabulation, &mut words, &mut scratch, &mut counters)?;
    /// assert_eq!((list.len(), list.station()), (1, 17));
    ///
    /// // The count of keys is word 2, and here one too high.
    /// words[2] += 1;
    /// let answer = List::open(&tabulation, &mut words, &mut scratch, &mut counters);
    /// assert_eq!(answer.err(), Some(Refusal::NotCanonical));
    /// # Ok::<(), Refusal>(())
    /// ```
    ///
    /// # Errors
    ///
    /// In this order: `WrongShape`, `ShortScratch`, `NotCanonical`. The words stay as they were.
    #[inline]
    pub fn open(
        tabulation: &'a [u16; TABULATION_LENGTH],
        words: &'a mut [u32],
        scratch: &mut Scratch,
        counters: &'a mut Counters,
    ) -> Result<List<'a>, Refusal> {
        calls::check(tabulation, words, scratch.words())?;
        Ok(List { tabulation, words, counters })
    }

    /// Saves what is left of damaged words: lays the list of the keys in them that still stand where they may, whatever
    /// its own words were, and tells how many slots and stash places of the damaged ones hold a number other than 0 that
    /// is no such key. These are only read. The header says which keys survive, and what to compare before the list is
    /// relied on: 0 does not say that the damaged words were as they should be. The counters stay as they are.
    ///
    /// ```
    /// # use pinorange::{scratch_length, words_length, Counters, List, Refusal, Scratch, TABULATION_LENGTH};
    /// # let (mut tabulation, mut counters) = ([0; TABULATION_LENGTH], Counters::default());
    /// # let (mut words, mut others) = ([0; words_length(16, 2)], [0; words_length(16, 2)]);
    /// # let mut scratch = Scratch::<[u32; scratch_length(16, 2)]>::new();
    /// # pinorange::house(&mut tabulation)?;
    /// let mut list = List::init(&tabulation, &mut words, 16, 2, 17, &mut counters)?;
    /// list.insert(&mut scratch, 410_017, 3)?;
    ///
    /// // The head got wet: both counts of its heading are gone.
    /// words[2..4].fill(u32::MAX);
    /// let opened = List::open(&tabulation, &mut words, &mut scratch, &mut counters);
    /// assert_eq!(opened.err(), Some(Refusal::NotCanonical));
    ///
    /// let (mut list, lost) = List::salvage(&tabulation, &mut others, &mut scratch, &mut counters, &words)?;
    /// assert_eq!((list.len(), lost), (1, 0));
    /// assert_eq!(list.lookup(410_017), Ok(Some(3)));
    /// list.insert(&mut scratch, 733_001, 7)?;
    /// # Ok::<(), Refusal>(())
    /// ```
    ///
    /// # Errors
    ///
    /// In this order, and its own words stay as they were: `WrongShape`, of the damaged words, and then if its own are not
    /// as many; `ShortScratch`; `NoneCounts` (there is some number in the slots and the stash, and no key).
    #[inline]
    pub fn salvage(
        tabulation: &'a [u16; TABULATION_LENGTH],
        words: &'a mut [u32],
        scratch: &mut Scratch,
        counters: &'a mut Counters,
        damaged: &[u32],
    ) -> Result<(List<'a>, u32), Refusal> {
        let lost = calls::salvage(tabulation, damaged, words, scratch.words())?;
        Ok((List { tabulation, words, counters }, lost))
    }

    /// Puts a key with its tier into the set.
    ///
    /// # Errors
    ///
    /// In this order, and the words stay as they were: `ShortScratch`, `BlankKey`, `WrongTier`, `OtherIssue`,
    /// `OtherTier`, `KeyPresent`, `StashFull`; before `ShortScratch` `WrongShape`, and behind it `NotCanonical`, if
    /// something else has written the memory.
    #[inline]
    pub fn insert(&mut self, scratch: &mut Scratch, key: u32, tier: u32) -> Result<(), Refusal> {
        calls::insert(self.tabulation, self.words, scratch.words(), self.counters, key, tier)
    }

    /// Takes a key out of the set, this issue and whatever its tier.
    ///
    /// # Errors
    ///
    /// In this order, and the words stay as they were: `ShortScratch`, `BlankKey`, `KeyAbsent`; `WrongShape` and
    /// `NotCanonical` as for [`insert`](List::insert).
    #[inline]
    pub fn remove(&mut self, scratch: &mut Scratch, key: u32) -> Result<(), Refusal> {
        calls::remove(self.tabulation, self.words, scratch.words(), self.counters, key)
    }

    /// Whether the words are still the canonical image of a set. `Ok` does not say that nothing changed them: a change
    /// that makes them the image of another set is not found, and the header says what to do about it.
    ///
    /// # Errors
    ///
    /// In this order: `WrongShape`, `ShortScratch`, `NotCanonical`.
    #[inline]
    pub fn check(&self, scratch: &mut Scratch) -> Result<(), Refusal> {
        calls::check(self.tabulation, self.words, scratch.words())
    }

    /// The tier of a key, this issue of it, or `None` if it is not listed.
    ///
    /// # Errors
    ///
    /// `BlankKey`; before it `WrongShape`, if something else has written the memory.
    #[inline]
    pub fn lookup(&self, key: u32) -> Result<Option<u32>, Refusal> {
        calls::lookup(self.tabulation, self.words, key)
    }

    /// Opens a sale, at nozzle lift: the record with the card's tier and its price. The list stays as it is, and what
    /// becomes of it later does not change the record. [`close_sale`](crate::close_sale) gives its price, at hang-up.
    ///
    /// `steps[t]` is what tier t adds to the base price.
    ///
    /// ```
    /// # use pinorange::{scratch_length, words_length, Counters, List, Refusal, Scratch, TABULATION_LENGTH};
    /// # let (mut tabulation, mut counters) = ([0; TABULATION_LENGTH], Counters::default());
    /// # let mut words = [0; words_length(16, 2)];
    /// # let mut scratch = Scratch::<[u32; scratch_length(16, 2)]>::new();
    /// # pinorange::house(&mut tabulation)?;
    /// # let mut list = List::init(&tabulation, &mut words, 16, 2, 17, &mut counters)?;
    /// # list.insert(&mut scratch, 410_017, 3)?;
    /// let sale = list.open_sale(410_017, 1_749, &[0, -10, -20, -50, 0, 0, 20, -250])?;
    /// list.remove(&mut scratch, 410_017)?;
    /// assert_eq!(pinorange::close_sale(&sale), 1_699);
    /// # Ok::<(), Refusal>(())
    /// ```
    ///
    /// # Errors
    ///
    /// In this order: `BlankKey`, `KeyAbsent`, `WrongPrice`; before `BlankKey` `WrongShape`, and behind `KeyAbsent`
    /// `NotCanonical` (the tier found is above 7), if something else has written the memory.
    #[inline]
    pub fn open_sale(&self, key: u32, base: u32, steps: &[i32; STEPS]) -> Result<Sale, Refusal> {
        calls::open_sale(self.tabulation, self.words, key, base, steps)
    }

    /// The trail of a key, from the key to its root: why it sits where it sits. It is written to `keys`, with zeros
    /// behind it, and what comes back is the part of `keys` that it takes; nothing of a stashed key. Twice as many
    /// words as a table has [`slots`](List::slots) are always enough.
    ///
    /// # Errors
    ///
    /// In this order, and `keys` stays as it was: `ShortScratch`, `BlankKey`, `KeyAbsent`, `ShortTrail`; `WrongShape`
    /// and `NotCanonical` as for [`insert`](List::insert).
    #[inline]
    pub fn trail<'k>(
        &self,
        scratch: &mut Scratch,
        key: u32,
        keys: &'k mut [u32],
    ) -> Result<&'k [u32], Refusal> {
        calls::trail(self.tabulation, self.words, scratch.words(), key, keys)
    }

    /// Each card once, with its tier: those that sit in table 0, slot by slot, then those that sit in table 1 alone,
    /// then the stash. It is plain Rust over the words, tested but not proved; if something else has written the
    /// memory, see the function [`cards`].
    pub fn cards(&self) -> impl Iterator<Item = (u32, u32)> + '_ {
        cards(self.tabulation, self.words)
    }

    /// Each stashed card, ascending, with its tier.
    ///
    /// # Errors
    ///
    /// In this order, if something else has written the memory: `WrongShape`, `NotCanonical` (word 3 counts more
    /// stashed keys than there are places).
    pub fn stash(&self) -> Result<impl Iterator<Item = (u32, u32)> + '_, Refusal> {
        calls::stash(self.words).map(places)
    }

    /// How many keys there are, stashed ones included.
    #[inline]
    #[must_use]
    pub fn len(&self) -> usize {
        self.heading(2) as usize
    }

    /// Whether there is no key.
    #[inline]
    #[must_use]
    pub fn is_empty(&self) -> bool {
        self.len() == 0
    }

    /// How many slots each table has: r.
    #[inline]
    #[must_use]
    pub fn slots(&self) -> u32 {
        self.heading(0)
    }

    /// How many places the stash has: s.
    #[inline]
    #[must_use]
    pub fn places(&self) -> u32 {
        self.heading(1)
    }

    /// The station that the list was laid with.
    #[inline]
    #[must_use]
    pub fn station(&self) -> u32 {
        self.heading(4)
    }

    /// How many calls that change a list were done and refused, since whoever lent the counters cleared them.
    #[inline]
    #[must_use]
    pub fn counters(&self) -> Counters {
        *self.counters
    }

    /// The words, to compare with those of another head, or to send them. The header has their layout.
    #[inline]
    #[must_use]
    pub fn words(&self) -> &[u32] {
        self.words
    }

    /// A word of the heading. There are five in every list.
    fn heading(&self, word: usize) -> u32 {
        self.words.get(word).copied().unwrap_or_default()
    }
}

/// Sizes and counts alone: a card number has no place in a log.
impl fmt::Debug for List<'_> {
    fn fmt(&self, f: &mut fmt::Formatter) -> fmt::Result {
        f.debug_struct("List")
            .field("slots", &self.slots())
            .field("places", &self.places())
            .field("station", &self.station())
            .field("len", &self.len())
            .field("counters", self.counters)
            .finish_non_exhaustive()
    }
}
