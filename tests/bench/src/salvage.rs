//! Salvages by the library, whose instructions are counted beside those of a check: of the untampered words of a case,
//! and of the same words with some of them changed. The twins have none, so that there is nothing to compare.

use reference::rng::Rng;

use crate::cases::Case;
use crate::common::HEADER;

/// The symbol of the call.
pub const SYMBOL: &str = "pinorange_salvage";

/// One word in so many behind the heading is damaged.
pub const ONE_IN: usize = 50;

/// What is salvaged.
#[derive(Clone, Copy, PartialEq, Eq, PartialOrd, Ord)]
pub enum Words {
    Untampered,
    Damaged,
}

impl Words {
    pub const BOTH: [Words; 2] = [Words::Untampered, Words::Damaged];

    /// Its name, as a call that is counted.
    pub fn name(self) -> &'static str {
        ["salvage-untampered", "salvage-damaged"][self as usize]
    }

    /// That with a name; none if the name is that of another call.
    pub fn named(name: &str) -> Option<Words> {
        Words::BOTH.into_iter().find(|words| words.name() == name)
    }

    /// The words of the first board of a case.
    fn of(self, case: &Case) -> Vec<u32> {
        let mut words = case.boards[0].words.clone();
        if self == Words::Damaged {
            let mut rng = Rng::new(words.len() as u64);
            for _ in 0..words.len() / ONE_IN {
                let at = HEADER + rng.below(words.len() - HEADER);
                words[at] = rng.next_u32();
            }
        }
        words
    }

    /// One salvage of these words of a case: how many keys are saved, and how many numbers are lost.
    pub fn salvage(self, case: &Case) -> [u32; 2] {
        let words = self.of(case);
        let (mut target, mut scratch) = (vec![0; words.len()], case.scratch());
        let mut lost = 0;
        let answer =
            library::salvage(&case.tabulation, &words, &mut target, &mut scratch, &mut lost);
        assert_eq!(answer, 0, "a salvage of a case is refused");
        assert!(self == Words::Damaged || (target == words && lost == 0), "it gives itself");
        [target[2], lost]
    }
}
