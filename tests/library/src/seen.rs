//! Counts the answers that the calls of a list value give in a random run, compares each with that of the exported call,
//! and fails where one that a call can give never came up.

use std::collections::{BTreeMap, BTreeSet};

use pinorange::Refusal;

/// How often each call gave each answer.
#[derive(Default)]
pub struct Seen(BTreeMap<(&'static str, u32), u64>);

impl Seen {
    /// Compares what a call of a list gave with the number and the value of the exported call, and counts it.
    pub fn compare<T: PartialEq + std::fmt::Debug>(
        &mut self,
        call: &'static str,
        told: Result<T, Refusal>,
        answer: u32,
        value: T,
    ) {
        let expected = Refusal::of(answer).map_or(Ok(value), Err);
        assert_eq!(told, expected, "{call}");
        *self.0.entry((call, answer)).or_default() += 1;
    }

    /// Fails where a call never gave an answer that it can give, or gave another one.
    pub fn report(&self, answers: &[(&str, &[u32])]) {
        println!("{:?}", self.0);
        let possible = answers.iter().flat_map(|(call, all)| all.iter().map(|one| (*call, *one)));
        let given: BTreeSet<(&str, u32)> = self.0.keys().copied().collect();
        assert_eq!(given, possible.collect());
    }
}
