//! The scratch that some calls borrow, in a type of its own, so that it cannot be lent in place of the words, nor they
//! in its place.

use core::fmt;

/// The scratch that a [`List`](crate::List) borrows for a bulk load, a change, a check, a trail or a salvage: its own
/// memory, of a length that the type has, at least [`scratch_length`](crate::scratch_length)`(r, s)` words. One may
/// serve any number of lists.
///
/// Calls take a `&mut Scratch`, to which a reference to a scratch of any length turns by itself. Its old content has
/// no effect, and after each call it is zeros over its full length, so that it tells nothing of the list.
///
/// ```
/// use pinorange::{scratch_length, Counters, List, Refusal, Scratch, TABULATION_LENGTH};
///
/// fn list_all(list: &mut List, scratch: &mut Scratch, cards: &[u32]) -> Result<(), Refusal> {
///     cards.iter().try_for_each(|card| list.insert(scratch, *card, 0))
/// }
///
/// # let (mut tabulation, mut counters) = ([0; TABULATION_LENGTH], Counters::default());
/// # pinorange::house(&mut tabulation)?;
/// # let mut words = [0; pinorange::words_length(16, 2)];
/// # let mut list = List::init(&tabulation, &mut words, 16, 2, 0, &mut counters)?;
/// let mut scratch = Scratch::<[u32; scratch_length(16, 2)]>::new();
/// list_all(&mut list, &mut scratch, &[410_017, 733_001])?;
/// assert_eq!(list.len(), 2);
/// # Ok::<(), Refusal>(())
/// ```
///
/// Plain words are no scratch, whatever their length, so that no call can zero a list by mistake:
///
/// ```compile_fail,E0308
/// # use pinorange::{scratch_length, Counters, List, Refusal, Scratch, TABULATION_LENGTH};
/// # let (mut tabulation, mut counters) = ([0; TABULATION_LENGTH], Counters::default());
/// # pinorange::house(&mut tabulation)?;
/// # let (mut words, mut other_words) = ([0; pinorange::words_length(16, 2)], [0; 300]);
/// # let mut list = List::init(&tabulation, &mut words, 16, 2, 0, &mut counters)?;
/// list.insert(&mut other_words, 410_017, 3)?;
/// # Ok::<(), Refusal>(())
/// ```
///
/// And scratch is no words, so that no list can be laid or opened in it:
///
/// ```compile_fail,E0308
/// # use pinorange::{scratch_length, Counters, List, Refusal, Scratch, TABULATION_LENGTH};
/// # let (mut tabulation, mut counters) = ([0; TABULATION_LENGTH], Counters::default());
/// # pinorange::house(&mut tabulation)?;
/// # let mut scratch = Scratch::<[u32; scratch_length(16, 2)]>::new();
/// let list = List::init(&tabulation, &mut scratch, 16, 2, 0, &mut counters)?;
/// # Ok::<(), Refusal>(())
/// ```
///
/// Memory whose length is not known before the program runs, or that serves other ends between two calls, is lent to
/// the functions, which take slices: [`insert`](crate::insert) and the others.
pub struct Scratch<W: ?Sized = [u32]> {
    words: W,
}

impl<const LENGTH: usize> Scratch<[u32; LENGTH]> {
    /// Scratch of zeros. A constant, for a `static`, too.
    #[must_use]
    pub const fn new() -> Self {
        Scratch { words: [0; LENGTH] }
    }
}

impl Scratch {
    /// The memory, to lend.
    pub(crate) fn words(&mut self) -> &mut [u32] {
        &mut self.words
    }
}

impl<const LENGTH: usize> Default for Scratch<[u32; LENGTH]> {
    fn default() -> Self {
        Scratch::new()
    }
}

impl<W: ?Sized + AsRef<[u32]>> fmt::Debug for Scratch<W> {
    fn fmt(&self, f: &mut fmt::Formatter) -> fmt::Result {
        let length = self.words.as_ref().len();
        f.debug_struct("Scratch").field("length", &length).finish_non_exhaustive()
    }
}
