//! Why a salvage answered as it did: the causes of a refusal that stood behind the one that was given, and what became
//! of each slot and place that held a number other than 0. It is read off the words here by themselves, so that neither
//! the library nor the program by another hand is asked. Counted beside the answers, so that a test can tell what it
//! tried.

use std::collections::{BTreeMap, BTreeSet};

use reference::hash::{hashes, MAX_STATION, TABULATION_LEN};
use reference::key::{first_part, is_blank};
use reference::set::{Member, MAX_TIER};

use crate::{are_sizes, entries, scratch_length};

/// The causes of a refusal, in the order in which they are tried, and the number of each.
const ORDER: [(&str, u32); 5] =
    [("1", 1), ("2, the words", 2), ("2, the target", 2), ("3", 3), ("15", 15)];

/// Which two causes can apply together. Of words without a shape nobody can say whether a key counts.
const TOGETHER: [[usize; 2]; 9] =
    [[0, 1], [0, 2], [0, 3], [0, 4], [1, 2], [1, 3], [2, 3], [2, 4], [3, 4]];

/// What must come up, besides each answer and each fate.
const KINDS: [&str; 10] = [
    "0: no number in slots and stash",
    "0: the words give themselves",
    "0: none lost, and other words",
    "0: some lost",
    "0: some survivor is stashed",
    "0: a stashed key gets a slot",
    "0: a survivor behind the places that word 3 counts",
    "0: as many survivors as slots and places",
    "2: a target that is too short alone",
    "2: a target that is too long alone",
];

/// Where a number stands.
#[derive(Clone, Copy, Debug, PartialEq, Eq, PartialOrd, Ord)]
pub enum Spot {
    Table0,
    Table1,
    Stash,
}

/// What becomes of a number other than 0. The first three are lost; those behind `Stands` count, but do not stand.
#[derive(Clone, Copy, Debug, PartialEq, Eq, PartialOrd, Ord)]
pub enum Fate {
    Blank,
    WrongTier,
    NotItsSlot,
    Stands,
    Copy,
    OtherTier,
    SmallerIssue,
    LargerIssue,
}

impl Fate {
    pub fn is_lost(self) -> bool {
        self < Fate::Stands
    }
}

/// The fates that a number in a spot can have: the slot that two issues of a card share in table 0 holds one number.
fn possible() -> BTreeSet<(Spot, Fate)> {
    use Fate::{Blank, Copy, LargerIssue, NotItsSlot, OtherTier, SmallerIssue, Stands, WrongTier};
    let anywhere = [Blank, WrongTier, Stands];
    let behind = [Copy, OtherTier, SmallerIssue, LargerIssue];
    let mut all = BTreeSet::new();
    for spot in [Spot::Table0, Spot::Table1, Spot::Stash] {
        all.extend(anywhere.map(|fate| (spot, fate)));
        if spot != Spot::Stash {
            all.insert((spot, NotItsSlot));
        }
        if spot != Spot::Table0 {
            all.extend(behind.map(|fate| (spot, fate)));
        }
    }
    all
}

/// A slot or place that holds a number other than 0: its place among all of them, what stands there, and its fate.
#[derive(Clone, Copy, Debug)]
pub struct Held {
    pub at: usize,
    pub member: Member,
    pub spot: Spot,
    pub fate: Fate,
}

/// All of them, in word order, in words of the right shape with a tabulation of the right length.
pub fn held(tabulation: &[u16], words: &[u32]) -> Vec<Held> {
    let (r, station) = (words[0], words[4]);
    let mut all: Vec<Held> = Vec::new();
    for (at, (key, tier, _)) in entries(words).enumerate().filter(|(_, (key, ..))| *key != 0) {
        let spot = match at as u32 / r {
            0 => Spot::Table0,
            1 => Spot::Table1,
            _ => Spot::Stash,
        };
        let is_its_slot = || {
            let slots = hashes(tabulation, r, station, key).expect("a sound book, r and key");
            spot == Spot::Stash || slots[spot as usize] == at as u32 % r
        };
        let earlier = all
            .iter()
            .find(|held| held.fate == Fate::Stands && first_part(held.member.0) == first_part(key));
        let fate = match earlier.map(|held| held.member) {
            _ if is_blank(key) => Fate::Blank,
            _ if tier > MAX_TIER => Fate::WrongTier,
            _ if !is_its_slot() => Fate::NotItsSlot,
            None => Fate::Stands,
            Some(stands) if stands == (key, tier) => Fate::Copy,
            Some((stands, _)) if stands == key => Fate::OtherTier,
            Some((stands, _)) if key < stands => Fate::SmallerIssue,
            Some(_) => Fate::LargerIssue,
        };
        all.push(Held { at, member: (key, tier), spot, fate });
    }
    all
}

/// The survivors of such words, ascending.
pub fn survivors(tabulation: &[u16], words: &[u32]) -> Vec<Member> {
    let all = held(tabulation, words);
    let stands = all.iter().filter(|held| held.fate == Fate::Stands);
    let mut survivors: Vec<Member> = stands.map(|held| held.member).collect();
    survivors.sort_unstable();
    survivors
}

/// What a salvage was lent, and in which lengths.
pub struct Lent<'a> {
    pub tabulation: &'a [u16],
    pub words: &'a [u32],
    pub target: usize,
    pub scratch: usize,
}

impl Lent<'_> {
    fn is_shaped(&self) -> bool {
        match *self.words {
            [r, s, _, _, station, ..] => {
                are_sizes(r, s, self.words.len()) && station <= MAX_STATION
            }
            _ => false,
        }
    }

    /// Whether some number stands in the words, and no key counts. Without a tabulation of the right length: no number
    /// can be a key, wherever it stands.
    fn none_counts(&self) -> bool {
        if self.tabulation.len() != TABULATION_LEN {
            let mut filled = entries(self.words).filter(|(key, ..)| *key != 0).peekable();
            return filled.peek().is_some()
                && filled.all(|(key, tier, _)| is_blank(key) || tier > MAX_TIER);
        }
        let all = held(self.tabulation, self.words);
        !all.is_empty() && all.iter().all(|held| held.fate.is_lost())
    }

    /// All causes of a refusal, by their places in the order.
    fn causes(&self) -> Vec<usize> {
        let is_shaped = self.is_shaped();
        let enough = if is_shaped {
            scratch_length(self.words[0], self.words[1])
        } else {
            scratch_length(1, 0)
        };
        let applies = [
            self.tabulation.len() != TABULATION_LEN,
            !is_shaped,
            self.target != self.words.len(),
            self.scratch < enough,
            is_shaped && self.none_counts(),
        ];
        (0..ORDER.len()).filter(|at| applies[*at]).collect()
    }

    /// Which of the kinds a salvage was that left this target.
    fn kinds(&self, causes: &[usize], target: &[u32]) -> Vec<&'static str> {
        if !causes.is_empty() {
            let longer = self.target > self.words.len();
            return if causes == [2] { vec![KINDS[8 + usize::from(longer)]] } else { vec![] };
        }
        let (words, all) = (self.words, held(self.tabulation, self.words));
        let [r, s, _, stashed] = words[..4] else { unreachable!("they have a heading") };
        let lost = all.iter().any(|held| held.fate.is_lost());
        let stands = || all.iter().filter(|held| held.fate == Fate::Stands);
        let seated: BTreeSet<u32> =
            entries(target).filter(|(_, _, stashed)| !stashed).map(|(key, ..)| key).collect();
        let is = [
            all.is_empty(),
            !lost && target == words,
            !lost && target != words,
            lost,
            target[3] > 0,
            stands().any(|held| held.spot == Spot::Stash && seated.contains(&held.member.0)),
            stands().any(|held| held.at >= (2 * r) as usize + stashed as usize),
            s > 0 && stands().count() == (2 * r + s) as usize,
        ];
        KINDS.into_iter().zip(is).filter(|(_, is)| *is).map(|(kind, _)| kind).collect()
    }
}

/// Counts of the answers, by their causes, and of what became of the numbers.
#[derive(Default)]
pub struct Salvages {
    /// By the cause that was given, and one that applied, too.
    causes: BTreeMap<[&'static str; 2], u64>,
    fates: BTreeMap<(Spot, Fate), u64>,
    kinds: BTreeMap<&'static str, u64>,
}

impl Salvages {
    /// Counts a salvage, by the target that it left. Where it is done, target and number must be those that the fates
    /// come to.
    pub fn answer(&mut self, lent: &Lent, answer: u32, target: &[u32], lost: u32) {
        let causes = lent.causes();
        let expected = causes.first().map_or(0, |at| ORDER[*at].1);
        assert_eq!(answer, expected, "the causes are {causes:?}");
        for behind in causes.iter().skip(1) {
            let pair = [causes[0], *behind].map(|at| ORDER[at].0);
            *self.causes.entry(pair).or_default() += 1;
        }
        for kind in lent.kinds(&causes, target) {
            *self.kinds.entry(kind).or_default() += 1;
        }
        if answer != 0 {
            return;
        }
        let all = held(lent.tabulation, lent.words);
        let failed = all.iter().filter(|held| held.fate.is_lost()).count();
        assert_eq!(lost as usize, failed, "{all:?}");
        let mut listed: Vec<Member> = entries(target)
            .filter(|(key, ..)| *key != 0)
            .map(|(key, tier, _)| (key, tier))
            .collect();
        listed.sort_unstable();
        listed.dedup();
        assert_eq!(listed, survivors(lent.tabulation, lent.words), "{all:?}");
        for held in all {
            *self.fates.entry((held.spot, held.fate)).or_default() += 1;
        }
    }

    /// Prints the counts. Fails where two causes that can apply together never did, where a number never had one of the
    /// fates in a spot where it can, and where one of the kinds never came up.
    pub fn report(&self) {
        println!("salvages by their answer and a cause that applied, too: {:?}", self.causes);
        println!("numbers in salvaged words, by where they stand and their fate: {:?}", self.fates);
        println!("salvages by what they were like: {:?}", self.kinds);
        let together: BTreeSet<[&str; 2]> =
            TOGETHER.iter().map(|pair| pair.map(|at| ORDER[at].0)).collect();
        let pairs: BTreeSet<[&str; 2]> = self.causes.keys().copied().collect();
        assert!(pairs.is_superset(&together), "two causes never applied together: {pairs:?}");
        let fates: BTreeSet<(Spot, Fate)> = self.fates.keys().copied().collect();
        assert_eq!(fates, possible(), "a fate never came up");
        let kinds: BTreeSet<&str> = self.kinds.keys().copied().collect();
        assert_eq!(kinds, BTreeSet::from(KINDS), "a kind of salvage never came up");
    }
}
