//! Sequences of calls of every kind: many on small boards, where cycles and full stashes are common, and some on the
//! largest board, from nearly empty to full.

use library::beside::{Beside, Kind};
use library::Change::{Insert, Remove};
use library::{change, fresh, scratch_length, Counters};
use reference::hash::TABULATION_LEN;
use reference::house::HOUSE;
use reference::rng::Rng;
use reference::samples::{random_station, random_tabulation, random_tier};
use reference::set::Member;

use crate::board::Board;
use crate::common::{
    any_key, any_station, any_tier, extreme_tabulation, other_issue, random_prices, sale_at,
    trail_length, trail_sheet, BASE, STEPS,
};

/// Hundreds of thousands of calls, in sequences of 60 on one board, which an init starts, and each accepted bulk load
/// or salvage anew.
#[test]
fn sequences_on_small_boards() {
    let mut rng = Rng::new(41);
    let mut beside = Beside::new();
    let mut closed = [0; 3];
    for _ in 0..8_000 {
        let mut board = Board::random(&mut rng, &mut beside);
        for _ in 0..60 {
            if rng.one_in(60) {
                board.bulk_load(&mut rng, &mut beside);
            }
            match rng.below(60) {
                0 => board.salvage(&mut rng, &mut beside),
                1 => board.salvage_to_another(&mut rng, &mut beside),
                _ => {}
            }
            match rng.below(16) {
                0 | 1 => board.call_damaged(&mut rng, &mut beside),
                2 | 3 => board.open(&mut rng, &mut beside),
                4 => board.close_any(&mut rng, &mut beside),
                _ => board.call(&mut rng, &mut beside),
            }
            let r = rng.pick(&[0, 1, board.r, 1_024, 1_025]);
            let key = if rng.one_in(9) { rng.below(10) as u32 } else { rng.next_u32() };
            let end = if rng.one_in(9) { rng.below(TABULATION_LEN) } else { TABULATION_LEN };
            beside.hashes(&board.tabulation[..end], r, any_station(&mut rng), key);
        }
        board.close_all(&mut beside);
        closed = [0, 1, 2].map(|now| closed[now] + board.closed[now]);
    }
    println!("{} calls on small boards", beside.calls());
    assert!(beside.calls() > 900_000);
    beside.report(&[Kind::Init, Kind::Hashes]);
    beside.report(&Kind::ON_WORDS);
    for refusal in [9, 13, 10, 6] {
        assert!(beside.given(Kind::Insert, refusal) > 5_000, "{refusal} is rare");
    }
    came_up(&beside, Kind::BulkLoad, &[0, 1, 2, 3, 5, 9, 14, 13, 8]);
    assert!(beside.given(Kind::Trail, 0) > 5_000 && beside.given(Kind::Trail, 11) > 2_000);
    assert!(beside.given(Kind::Open, 0) > 5_000 && beside.given(Kind::Open, 12) > 2_000);
    println!("sales closed with the key as at the opening, at another tier, gone: {closed:?}");
    assert!(closed.iter().all(|times| *times > 300));
}

/// The sizes of the largest board.
const R: u32 = 1_024;
const S: u32 = 64;

/// The largest board in the middle of a sequence of calls, with the keys that it must have.
struct Largest {
    tabulation: Vec<u16>,
    station: u32,
    words: Vec<u32>,
    inside: Vec<Member>,
}

impl Largest {
    /// Filled up without comparing, from nearly empty to full by the round; the calls after it compare every word.
    fn filled(rng: &mut Rng, round: usize) -> Largest {
        let tabulation = match round {
            0..=3 => HOUSE.to_vec(),
            4 => extreme_tabulation(rng),
            5 => random_tabulation(rng, 2_048),
            _ => random_tabulation(rng, 65_536),
        };
        let station = random_station(rng);
        let mut words = fresh(R, S, station);
        let mut inside = Vec::new();
        for _ in 0..[20, 250, 1_000, 3_000, 100, 700, 1_500, 2_500][round] {
            let (key, tier) = (any_key(rng), random_tier(rng));
            if change(Insert(tier), &tabulation, &mut words, key) == 0 {
                inside.push((key, tier));
            }
        }
        Largest { tabulation, station, words, inside }
    }

    /// One call, about a key of the set or a stranger, which may be another issue of that key.
    fn call(&mut self, rng: &mut Rng, beside: &mut Beside, counters: &mut Counters) {
        let at = rng.below(self.inside.len());
        let listed = self.inside[at];
        let stranger = match rng.below(4) {
            0 => other_issue(rng, listed.0),
            _ => any_key(rng),
        };
        let strange = (stranger, any_tier(rng));
        let (key, mut tier) = if rng.one_in(3) { listed } else { strange };
        if rng.one_in(3) {
            tier = any_tier(rng);
        }
        let scratch = vec![rng.next_u32(); scratch_length(R, S)];
        let Largest { tabulation, words, inside, .. } = self;
        match rng.below(12) {
            0..=2 => {
                let way = Insert(tier);
                if beside.change(way, tabulation, words, &scratch, counters, key) == 0 {
                    inside.push((key, tier));
                }
            }
            3 | 4 if inside.len() > 1 => {
                if beside.change(Remove, tabulation, words, &scratch, counters, key) == 0 {
                    inside.swap_remove(at);
                }
            }
            5 => assert_eq!(beside.check(tabulation, words, &scratch), 0),
            6 => assert_eq!(beside.stash(words), 0),
            7 | 8 => {
                let key = if rng.one_in(8) { stranger } else { listed.0 };
                self.trail(rng, beside, &scratch, key);
            }
            9 | 10 => self.open(rng, beside, listed, stranger),
            _ => assert_eq!(beside.lookup(tabulation, words, listed.0), (0, Some(listed.1))),
        }
    }

    /// The trail of a key, on a sheet that may be too short.
    fn trail(&self, rng: &mut Rng, beside: &mut Beside, scratch: &[u32], key: u32) {
        let count = trail_length(&self.tabulation, [R, S, self.station], &self.inside, key);
        let sheet = trail_sheet(rng, R, count);
        beside.trail(&self.tabulation, &self.words, scratch, key, &sheet);
    }

    /// Openings for a key of the set and for a stranger at any prices, and for the key at prices that are right.
    fn open(&self, rng: &mut Rng, beside: &mut Beside, (key, tier): Member, stranger: u32) {
        let (base, steps) = random_prices(rng);
        beside.open(&self.tabulation, &self.words, stranger, base, &steps);
        beside.open(&self.tabulation, &self.words, key, base, &steps);
        let opened = beside.open(&self.tabulation, &self.words, key, BASE, &STEPS);
        assert_eq!(opened, sale_at(key, Some(tier)));
    }
}

/// Each of these answers of a call must have come up more than 50 times.
fn came_up(beside: &Beside, kind: Kind, answers: &[u32]) {
    let given = Vec::from_iter(answers.iter().map(|answer| (*answer, beside.given(kind, *answer))));
    println!("{kind:?}, answer and how often: {given:?}");
    assert!(given.iter().all(|(_, times)| *times > 50));
}

/// Thousands of calls at r = 1,024, from nearly empty to full.
#[test]
fn sequences_on_the_largest_board() {
    let mut rng = Rng::new(42);
    let mut beside = Beside::new();
    let mut counters = Counters::default();
    for round in 0..8 {
        let mut board = Largest::filled(&mut rng, round);
        for _ in 0..600 {
            board.call(&mut rng, &mut beside, &mut counters);
        }
        assert_eq!(board.words[2] as usize, board.inside.len());
    }
    println!("{} calls at r = 1,024", beside.calls());
    assert!(beside.calls() > 6_000);
    came_up(&beside, Kind::Insert, &[9, 13, 10, 6, 8]);
    came_up(&beside, Kind::Trail, &[0, 7, 11]);
    came_up(&beside, Kind::Open, &[0, 7, 12]);
}
