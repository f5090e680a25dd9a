//! The counters (the paper's "meter"): how many calls were done and how many refused. They are no
//! part of the list, and no answer depends on them.

use crate::answer::Answer;

/// Paper: "The meter has two 32-bit counts: done, and refused."
#[derive(Clone, Copy, Debug, Default, PartialEq, Eq)]
pub struct Counters {
    /// Calls of init, insert, remove and bulk load that were accepted.
    pub done: u32,
    /// Calls of init, insert, remove and bulk load that were refused.
    pub refused: u32,
}

impl Counters {
    /// Moves the counters on by one answer of init, insert, remove or bulk load.
    ///
    /// Paper: "one more done if accepted, one more refused if not; a count at 4,294,967,295 stays
    /// there." Request Seven: "It moves the meter as lay does."
    pub fn count(&mut self, answer: Answer) {
        let count = if answer.is_ok() { &mut self.done } else { &mut self.refused };
        *count = count.saturating_add(1);
    }
}
