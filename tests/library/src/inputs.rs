//! Why a bulk load answered as it did: for each answer the causes that stood behind it, which would have been given
//! next, and what the input or the target was like. Counted beside the answers, so that a test can tell what it tried.

use std::collections::{BTreeMap, BTreeSet};

use reference::hash::{MAX_R, MAX_STATION, TABULATION_LEN};
use reference::key::{first_part, is_blank};
use reference::layout::MAX_S;
use reference::set::MAX_TIER;

use crate::{scratch_length, words_length};

/// The refusals of a bulk load, in the order in which they are tried.
pub const ORDER: [u32; 8] = [1, 2, 3, 5, 9, 14, 13, 8];

/// What must come up, besides each answer: what a call that is done was like, and the one cause of a refusal that has
/// several.
const KINDS: [&str; 14] = [
    "0: no key",
    "0: none stashed",
    "0: some stashed",
    "0: a key in every slot and place",
    "2: r alone",
    "2: s alone",
    "2: the station alone",
    "2: the length alone",
    "5: the last word alone, without a partner",
    "14: an odd number alone",
    "14: equal neighbours alone",
    "14: a smaller key alone",
    "8: no more keys than slots and places",
    "8: more",
];

/// What a bulk load was lent, in numbers, and its input.
pub struct Lent<'a> {
    pub tabulation: usize,
    pub words: usize,
    pub scratch: usize,
    pub laid: [u32; 3],
    pub input: &'a [u32],
}

/// Counts of the answers, by their causes.
#[derive(Default)]
pub struct Inputs {
    /// By the answer, and a cause that applied together with it: one that comes behind it in the order, or its own.
    causes: BTreeMap<(u32, u32), u64>,
    kinds: BTreeMap<&'static str, u64>,
}

impl Inputs {
    /// Counts an answer. `stashed` is how many keys the list has in its stash, if the call is done.
    pub fn answer(&mut self, lent: &Lent, answer: u32, stashed: u32) {
        let causes = lent.causes();
        // More keys than slots and places is not the only cause of 8.
        let expected = causes.first().copied().unwrap_or(if answer == 8 { 8 } else { 0 });
        assert_eq!(answer, expected, "the causes are {causes:?}");
        for cause in causes {
            *self.causes.entry((answer, cause)).or_default() += 1;
        }
        for kind in lent.kinds(answer, stashed) {
            *self.kinds.entry(kind).or_default() += 1;
        }
    }

    /// Prints the counts. Fails where two causes were never there together, the first of which is given, and where one
    /// of the kinds never came up.
    pub fn report(&self) {
        println!("bulk loads by their answer and a cause that applied: {:?}", self.causes);
        println!("bulk loads by what they were like: {:?}", self.kinds);
        for (at, given) in ORDER.into_iter().enumerate() {
            for behind in ORDER.into_iter().skip(at + 1) {
                let times = self.causes.get(&(given, behind)).copied().unwrap_or_default();
                assert!(times > 0, "{given} was never given where {behind} applied, too");
            }
        }
        let kinds: BTreeSet<&str> = self.kinds.keys().copied().collect();
        assert_eq!(kinds, BTreeSet::from(KINDS), "a kind of bulk load never came up");
    }
}

impl Lent<'_> {
    fn keys(&self) -> Vec<u32> {
        self.input.iter().copied().step_by(2).collect()
    }

    fn tiers(&self) -> impl Iterator<Item = u32> + '_ {
        self.input.iter().copied().skip(1).step_by(2)
    }

    /// How many slots and places there are.
    fn room(&self) -> usize {
        2 * self.laid[0] as usize + self.laid[1] as usize
    }

    /// What of r, s, the station and the length is not as it must be.
    fn wrong_shape(&self) -> [bool; 4] {
        let [r, s, station] = self.laid;
        let length = self.words != words_length(r, s);
        [!(1..=MAX_R).contains(&r), s > MAX_S, station > MAX_STATION, length]
    }

    /// Whether the number of words is odd, a key is that before it, or it is smaller.
    fn not_rising(&self) -> [bool; 3] {
        let keys = self.keys();
        let any = |is: fn(&[u32]) -> bool| keys.windows(2).any(is);
        [self.input.len() % 2 == 1, any(|pair| pair[0] == pair[1]), any(|pair| pair[0] > pair[1])]
    }

    /// All refusals that apply; 8 where there are more keys than slots and places.
    fn causes(&self) -> Vec<u32> {
        let [r, s, _] = self.laid;
        let keys = self.keys();
        let mut first_parts: Vec<u32> = keys.iter().copied().map(first_part).collect();
        first_parts.sort_unstable();
        let mut distinct = keys.clone();
        distinct.sort_unstable();
        distinct.dedup();
        first_parts.dedup();
        let applies = [
            self.tabulation != TABULATION_LEN,
            self.wrong_shape().contains(&true),
            self.scratch < scratch_length(r, s),
            keys.iter().copied().any(is_blank),
            self.tiers().any(|tier| tier > MAX_TIER),
            self.not_rising().contains(&true),
            first_parts.len() < distinct.len(),
            keys.len() > self.room(),
        ];
        ORDER.into_iter().zip(applies).filter(|(_, applies)| *applies).map(|(one, _)| one).collect()
    }

    /// Which of the kinds a call with this answer was.
    fn kinds(&self, answer: u32, stashed: u32) -> Vec<&'static str> {
        let keys = self.keys();
        let (last, others) = keys.split_last().map_or((10, &[][..]), |(last, all)| (*last, all));
        let is_lone_blank =
            self.input.len() % 2 == 1 && is_blank(last) && !others.iter().copied().any(is_blank);
        let is = match answer {
            0 => vec![
                keys.is_empty(),
                stashed == 0,
                stashed > 0,
                keys.len() == self.room() && self.laid[1] > 0,
            ],
            2 => [0, 1, 2, 3].map(|at| self.wrong_shape() == only(at)).to_vec(),
            5 => vec![is_lone_blank],
            14 => [0, 1, 2].map(|at| self.not_rising() == only(at)).to_vec(),
            8 => vec![keys.len() <= self.room(), keys.len() > self.room()],
            _ => vec![],
        };
        let of_answer = KINDS.iter().filter(|kind| kind.starts_with(&format!("{answer}:")));
        of_answer.zip(is).filter(|(_, is)| *is).map(|(kind, _)| *kind).collect()
    }
}

/// True at one place and nowhere else.
fn only<const COUNT: usize>(at: usize) -> [bool; COUNT] {
    let mut all = [false; COUNT];
    all[at] = true;
    all
}
