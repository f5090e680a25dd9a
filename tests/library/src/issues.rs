//! What the issues of a key had to do with the answers: counted beside them, call by call.

use std::collections::BTreeMap;

use reference::key::first_part;

use crate::beside::{Kind, ANSWERS};
use crate::entries;

/// Counts of the answers in which the last digit of a key had a part.
#[derive(Default)]
pub struct Issues {
    /// Of the refusals with 5, kind by kind: how many of key 0, and how many of a key from 1 to 9.
    blank: [[u64; 2]; ANSWERS.len()],
    /// Of the keys that were not there, kind by kind: how many of which another issue stands in the words.
    absent: [u64; ANSWERS.len()],
    /// The refusals with 13, by what kept the key out.
    refused: BTreeMap<Obstacle, u64>,
    /// Of the refusals with 9: how many of a key of which another issue stands in the words.
    wrong_tier: u64,
}

/// The other issue that kept a key out: whether it is smaller than the key, at the tier of the insert, and stashed; and
/// whether the stash is full.
type Obstacle = [&'static str; 4];

impl Issues {
    /// Counts a refusal of a key on these words.
    pub fn refusal(&mut self, kind: Kind, words: &[u32], key: u32, answer: u32) {
        match answer {
            5 => self.blank[kind as usize][usize::from(key > 0)] += 1,
            7 => self.absent(kind, words, key),
            9 => self.wrong_tier += u64::from(other_issue(words, key).is_some()),
            _ => {}
        }
    }

    /// Counts a key that was not there.
    pub fn absent(&mut self, kind: Kind, words: &[u32], key: u32) {
        self.absent[kind as usize] += u64::from(other_issue(words, key).is_some());
    }

    /// Counts a refusal with 13.
    pub fn other(&mut self, words: &[u32], key: u32, tier: u32) {
        let (other, listed, is_stashed) = other_issue(words, key).expect("another issue");
        let obstacle = [
            if other < key { "smaller" } else { "larger" },
            if listed == tier { "same tier" } else { "other tier" },
            if is_stashed { "stashed" } else { "seated" },
            if words[3] == words[1] { "full" } else { "room" },
        ];
        *self.refused.entry(obstacle).or_default() += 1;
    }

    /// Prints the counts of a call. Fails where a call that can answer 5 never refused key 0, or no key from 1 to 9;
    /// where one that wants the exact issue never missed it; and where one of the sixteen kinds of obstacles to an
    /// insert never came up.
    pub fn report(&self, kind: Kind, answers: &[u32]) {
        if answers.contains(&5) {
            let [zero, others] = self.blank[kind as usize];
            println!("{kind:?}: {zero} of the 5s for key 0, {others} for a key from 1 to 9");
            assert!(zero > 0 && others > 0, "{kind:?} never refused 0, or no key from 1 to 9");
        }
        if answers.contains(&7) || kind == Kind::Lookup {
            let times = self.absent[kind as usize];
            println!("{kind:?}: {times} of keys that are not listed, but another issue is");
            assert!(times > 0, "{kind:?} was never asked for another issue");
        }
        if kind == Kind::Insert {
            println!("{kind:?}: {} of the 9s with another issue listed", self.wrong_tier);
            println!("{kind:?}: the 13s by what kept the key out: {:?}", self.refused);
            assert!(self.wrong_tier > 0, "{kind:?} never tried 9 and 13 together");
            assert_eq!(self.refused.len(), 16, "{kind:?} never met some obstacles");
        }
    }
}

/// Another issue of a key that stands in the words, with its tier, and whether it is in the stash: the first, if any.
fn other_issue(words: &[u32], key: u32) -> Option<(u32, u32, bool)> {
    let is_other = |listed: u32| listed != key && first_part(listed) == first_part(key);
    entries(words).find(|(listed, ..)| is_other(*listed))
}
