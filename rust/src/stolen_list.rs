//! A stolen-card list as one value: tabulation, words and station together. Its methods are the functions of calls.rs
//! on them, and a few that count and list what stands in the words.

use core::fmt;

use crate::calls;
use crate::{Refusal, TABULATION_LENGTH};

/// The list of cards that were reported stolen, over memory that it is lent: a tabulation and words, one for each slot.
///
/// [`init`](StolenList::init) lays an empty one, [`open`](StolenList::open) takes words that are a list already, and
/// checks that they are. From then on nothing else in safe Rust can write the words or the tabulation, so that the
/// words stay the image of a set under this tabulation, at this station. `NotCanonical`, where a method may give it,
/// says that it happened all the same. What to do then stands in `pinorange_stolen.h`: lay the list again from a record
/// of your own.
///
/// Cards are never taken off, and issues are cards of their own: each that was reported is listed by itself. Every set
/// of up to as many cards as there are [`slots`](StolenList::slots) fits. Two lists of the same cards, with one
/// tabulation, station and number of slots, have the same [`words`](StolenList::words), in whatever order the reports
/// came. Methods that take `&self` may run side by side.
///
/// ```
/// use pinorange::{Refusal, StolenList, TABULATION_LENGTH};
///
/// let (mut tabulation, mut words) = ([0; TABULATION_LENGTH], [0; 64]);
/// pinorange::house(&mut tabulation)?;
/// let mut stolen = StolenList::init(&tabulation, &mut words, 17)?;
/// stolen.insert(410_017)?;
/// assert_eq!(stolen.is_reported(410_017), Ok(true));
///
/// // The card is made again, and the new issue buys.
/// assert_eq!(stolen.is_reported(410_018), Ok(false));
///
/// // Until it is stolen, too.
/// stolen.insert(410_018)?;
/// assert_eq!(stolen.is_reported(410_018), Ok(true));
/// assert_eq!(stolen.insert(410_018), Err(Refusal::KeyPresent));
/// assert_eq!(stolen.len(), 2);
/// # Ok::<(), Refusal>(())
/// ```
pub struct StolenList<'a> {
    tabulation: &'a [u16; TABULATION_LENGTH],
    words: &'a mut [u32],
    station: u32,
}

impl<'a> StolenList<'a> {
    /// Lays an empty list at a station, whatever the words were. There are as many slots as words.
    ///
    /// # Errors
    ///
    /// `WrongShape`: there are not 1 to [`MAX_SLOTS`](crate::MAX_SLOTS) words, or the station is above
    /// [`MAX_STATION`](crate::MAX_STATION). The words stay as they were.
    #[inline]
    pub fn init(
        tabulation: &'a [u16; TABULATION_LENGTH],
        words: &'a mut [u32],
        station: u32,
    ) -> Result<StolenList<'a>, Refusal> {
        // The call itself takes no station. A lookup does, and without a key it tells of nothing else.
        sound(calls::stolen_lookup(tabulation, words, station, NO_KEY))?;
        calls::stolen_init(words)?;
        Ok(StolenList { tabulation, words, station })
    }

    /// Takes words that are a list already, after a check of the whole. Of what a check cannot find, see
    /// [`check`](StolenList::check).
    ///
    /// ```
    /// # use pinorange::{Refusal, StolenList, TABULATION_LENGTH};
    /// # let (mut tabulation, mut words) = ([0; TABULATION_LENGTH], [0; 64]);
    /// # pinorange::house(&mut tabulation)?;
    /// let mut stolen = StolenList::init(&tabulation, &mut words, 17)?;
    /// stolen.insert(410_017)?;
    ///
    /// // Later, from the words alone.
    /// let stolen = StolenList::open(&tabulation, &mut words, 17)?;
    /// assert_eq!(stolen.cards().collect::<Vec<_>>(), [410_017]);
    ///
    /// // At another station the card belongs elsewhere.
    /// let opened = StolenList::open(&tabulation, &mut words, 18);
    /// assert_eq!(opened.err(), Some(Refusal::NotCanonical));
    /// # Ok::<(), Refusal>(())
    /// ```
    ///
    /// # Errors
    ///
    /// In this order: `WrongShape`, as for [`init`](StolenList::init), `NotCanonical`. The words stay as they were.
    #[inline]
    pub fn open(
        tabulation: &'a [u16; TABULATION_LENGTH],
        words: &'a mut [u32],
        station: u32,
    ) -> Result<StolenList<'a>, Refusal> {
        let mut list = StolenList { tabulation, words, station };
        list.check()?;
        Ok(list)
    }

    /// Puts a key into the set: the card is reported stolen.
    ///
    /// # Errors
    ///
    /// In this order, and the words stay as they were: `BlankKey`, `KeyPresent`, `TableFull`; before `BlankKey`
    /// `NotCanonical`, if something else has written the memory.
    #[inline]
    pub fn insert(&mut self, key: u32) -> Result<(), Refusal> {
        calls::stolen_insert(self.tabulation, self.words, self.station, key)
    }

    /// Whether a key was reported, this issue of it.
    ///
    /// # Errors
    ///
    /// `BlankKey`.
    #[inline]
    pub fn is_reported(&self, key: u32) -> Result<bool, Refusal> {
        calls::stolen_lookup(self.tabulation, self.words, self.station, key)
    }

    /// Whether the words are the image of a set, which an insert tells that is refused in any case: the words stay as
    /// they are. `Ok` does not say that nobody changed them: a change that makes them the image of another set is not
    /// found.
    ///
    /// # Errors
    ///
    /// `NotCanonical`, if something else has written the memory.
    #[inline]
    pub fn check(&mut self) -> Result<(), Refusal> {
        sound(self.insert(NO_KEY))
    }

    /// Each card, in the order of the slots. It is plain Rust over the words, tested but not proved.
    pub fn cards(&self) -> impl Iterator<Item = u32> + '_ {
        self.words.iter().copied().filter(|word| *word != 0)
    }

    /// How many cards there are, counted slot by slot.
    #[must_use]
    pub fn len(&self) -> usize {
        self.cards().count()
    }

    /// Whether there is no card.
    #[must_use]
    pub fn is_empty(&self) -> bool {
        self.cards().next().is_none()
    }

    /// How many slots there are: the most cards that fit.
    #[inline]
    #[must_use]
    pub fn slots(&self) -> usize {
        self.words.len()
    }

    /// The station that the list is for.
    #[inline]
    #[must_use]
    pub fn station(&self) -> u32 {
        self.station
    }

    /// The words, to compare with those of another head, or to send them: a card or 0 for each slot.
    #[inline]
    #[must_use]
    pub fn words(&self) -> &[u32] {
        self.words
    }
}

/// A number that is no key. A call that is refused for it alone found nothing else to refuse.
const NO_KEY: u32 = 0;

/// What a call without a key tells of all else. That it is done all the same is not of this version's library.
fn sound<T>(told: Result<T, Refusal>) -> Result<(), Refusal> {
    match told {
        Err(Refusal::BlankKey) => Ok(()),
        Err(refusal) => Err(refusal),
        Ok(_) => Err(Refusal::Unknown(0)),
    }
}

/// Sizes and counts alone: a card number has no place in a log.
impl fmt::Debug for StolenList<'_> {
    fn fmt(&self, f: &mut fmt::Formatter) -> fmt::Result {
        f.debug_struct("StolenList")
            .field("slots", &self.slots())
            .field("station", &self.station)
            .field("len", &self.len())
            .finish_non_exhaustive()
    }
}

#[cfg(test)]
mod tests {
    use super::sound;
    use crate::Refusal;

    /// What a call without a key may give: only that it has none says that all else is as it must be.
    #[test]
    fn a_call_without_a_key() {
        assert_eq!(sound::<()>(Err(Refusal::BlankKey)), Ok(()));
        assert_eq!(sound::<()>(Err(Refusal::NotCanonical)), Err(Refusal::NotCanonical));
        assert_eq!(sound(Ok(true)), Err(Refusal::Unknown(0)));
    }
}
