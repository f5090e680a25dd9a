//! The reference model of a stolen list: a set of keys, with the tabulation and the station under
//! which it was last written, that answers every call of a sequence without seeing the words. The
//! calls on real words must answer as it does.

use crate::answer::{Answer, Refusal};
use crate::hash::{MAX_R, MAX_STATION, TABULATION_LEN};
use crate::key::is_blank;
use crate::stolen::{image, Keys};

/// The reference model.
///
/// Request Nine: "with one book, station and length these words, too, depend on the set alone". A
/// station and a tabulation are given to each call anew, so a sequence may change them. Then the
/// set does not tell what the words look like; it does together with those of the last accepted
/// insert.
#[derive(Clone, Debug)]
pub struct Model {
    r: u32,
    keys: Keys,
    written: Option<Written>,
}

/// What an accepted insert was given: under this the words are the image of the set.
#[derive(Clone, Debug)]
struct Written {
    tabulation: Vec<u16>,
    station: u32,
}

impl Model {
    /// The model at the start of a sequence, after an accepted lay of r slots, or why no sequence
    /// starts so.
    pub fn new(r: u32) -> Result<Model, Refusal> {
        if !(1..=MAX_R).contains(&r) {
            return Err(Refusal::WrongShape);
        }
        Ok(Model { r, keys: Keys::new(), written: None })
    }

    /// The set.
    pub fn keys(&self) -> &Keys {
        &self.keys
    }

    /// The words that a list with this set has: zeros as long as no key was put in.
    pub fn words(&self) -> Vec<u32> {
        match &self.written {
            None => vec![0; self.r as usize],
            Some(Written { tabulation, station }) => {
                let words = image(tabulation, self.r, *station, &self.keys);
                words.expect("the set is kept such that it has an image")
            }
        }
    }

    /// Answers a lay, which empties the set. The words of a sequence keep their length, so it is
    /// never refused.
    pub fn lay(&mut self) -> Answer {
        self.keys.clear();
        self.written = None;
        Ok(())
    }

    /// Answers an insert and keeps the set.
    ///
    /// Request Nine: "adding [..] checks 1, 2, 4, 5 and 6 [..]. Answers: 16 (all pockets filled)
    /// after 6." The words' length is right, so 2 is about the station alone.
    pub fn insert(&mut self, tabulation: &[u16], station: u32, key: u32) -> Answer {
        refuse_lent(tabulation, station)?;
        if !self.is_image_under(tabulation, station) {
            return Err(Refusal::NotCanonical);
        }
        if is_blank(key) {
            return Err(Refusal::BlankKey);
        }
        if self.keys.contains(&key) {
            return Err(Refusal::Listed);
        }
        if self.keys.len() == self.r as usize {
            return Err(Refusal::FullTable);
        }
        self.keys.insert(key);
        self.written = Some(Written { tabulation: tabulation.to_vec(), station });
        Ok(())
    }

    /// Answers a lookup, `None` where only the words can tell.
    ///
    /// Request Nine: "on a canonical list it is yes exactly for the set". Where the words are the
    /// image of no set, a key outside the set still stands in none of them, but a key of the set
    /// may or may not be met on its way.
    pub fn lookup(
        &self,
        tabulation: &[u16],
        station: u32,
        key: u32,
    ) -> Option<Result<bool, Refusal>> {
        if let Err(refusal) = refuse_lent(tabulation, station) {
            return Some(Err(refusal));
        }
        if is_blank(key) {
            return Some(Err(Refusal::BlankKey));
        }
        if !self.keys.contains(&key) {
            return Some(Ok(false));
        }
        self.is_image_under(tabulation, station).then_some(Ok(true))
    }

    /// Whether the words are the image of a set under this tabulation and station, which must be
    /// right ones.
    ///
    /// Only the keys that stand in the words can be that set, and these are the set's. So under
    /// another tabulation or station it is asked whether the set has the same image.
    fn is_image_under(&self, tabulation: &[u16], station: u32) -> bool {
        match &self.written {
            None => true,
            Some(written) if written.tabulation == tabulation && written.station == station => true,
            Some(_) => image(tabulation, self.r, station, &self.keys) == Some(self.words()),
        }
    }
}

fn refuse_lent(tabulation: &[u16], station: u32) -> Answer {
    if tabulation.len() != TABULATION_LEN {
        return Err(Refusal::WrongTabulation);
    }
    if station > MAX_STATION {
        return Err(Refusal::WrongShape);
    }
    Ok(())
}
