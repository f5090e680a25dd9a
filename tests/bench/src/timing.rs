//! Times of calls on the boards of a case, each partner's call beside the others' in one run.

use std::collections::{HashMap, HashSet};
use std::hint::black_box;
use std::time::Instant;

use library::Counters;
use reference::set::Member;

use crate::cases::{input_of, Board, Case};
use crate::common::{is_blank, laid};
use crate::partners::{Call, Partner, PARTNERS};

/// How many turns each board of a row has in a table.
pub const ROUNDS: usize = 100;

/// The calls that read the whole list.
pub const CHANGES: [Call; 3] = [Call::Insert, Call::Remove, Call::Check];

/// The calls that build one, in the order in which a round makes them.
pub const TIMED: [Call; 4] = [Call::Insert, Call::BulkLoad, Call::Remove, Call::Check];

/// What is found of these calls on a case, by the number of the call: each partner's nanoseconds, of each board the
/// shortest, and the mean over the boards; and the library's time to each twin's, the median over all turns in which
/// their calls followed each other at once, so that a processor that changes its speed does not change the ratio.
pub struct Changes {
    pub nanoseconds: [[f64; TIMED.len()]; PARTNERS.len()],
    pub ratios: [[f64; TIMED.len()]; PARTNERS.len()],
}

/// The time of a call, in nanoseconds. The call must be accepted.
pub fn time(call: impl FnOnce() -> u32) -> f64 {
    let start = Instant::now();
    let answer = call();
    let time = start.elapsed().as_nanos() as f64;
    assert_eq!(answer, 0, "a call of a case is refused");
    time
}

fn median(mut numbers: Vec<f64>) -> f64 {
    numbers.sort_by(f64::total_cmp);
    numbers[numbers.len() / 2]
}

fn mean(numbers: impl ExactSizeIterator<Item = f64>) -> f64 {
    let count = numbers.len() as f64;
    numbers.sum::<f64>() / count
}

/// One call of a partner on its words of a board.
pub fn change(
    partner: &Partner,
    call: Call,
    tabulation: &[u16],
    (key, tier): Member,
    words: &mut [u32],
    scratch: &mut [u32],
) -> u32 {
    let mut counters = Counters::default();
    match call {
        Call::Insert => (partner.insert)(tabulation, words, scratch, &mut counters, key, tier),
        Call::Remove => (partner.remove)(tabulation, words, scratch, &mut counters, key),
        _ => (partner.check)(tabulation, words, scratch),
    }
}

/// A bulk load of a partner over words, with the r, s and station that they have.
pub fn bulk_load(
    partner: &Partner,
    tabulation: &[u16],
    input: &[u32],
    words: &mut [u32],
    scratch: &mut [u32],
) -> u32 {
    let laid = laid(words);
    (partner.bulk_load)(tabulation, words, scratch, &mut Counters::default(), laid, input)
}

/// In each round the extra key goes into every board, then the set with it is laid by a bulk load, then the key goes
/// out of every board, then every board is checked. The boards are taken in turn for each call, so that a call does not
/// find what the one before it did with the same set; on each board the partners follow each other, in turn each of
/// them first.
pub fn changes(case: &Case, rounds: usize) -> Changes {
    let mut scratch = case.scratch();
    let words: Vec<Vec<u32>> = case.boards.iter().map(|board| board.words.clone()).collect();
    let mut words = PARTNERS.map(|_| words.clone());
    let inputs: Vec<Vec<u32>> =
        case.boards.iter().map(|board| input_of(&board.with_extra())).collect();
    let mut best = vec![[[f64::MAX; TIMED.len()]; PARTNERS.len()]; case.boards.len()];
    let mut ratios = [const { [const { Vec::new() }; TIMED.len()] }; PARTNERS.len()];
    for round in 0..rounds {
        for call in TIMED {
            let number = call as usize;
            for (i, board) in case.boards.iter().enumerate() {
                let mut times = [0.0; PARTNERS.len()];
                for turn in 0..PARTNERS.len() {
                    let who = (round + turn) % PARTNERS.len();
                    let (words, book) = (&mut words[who][i], &case.tabulation);
                    let partner = &PARTNERS[who];
                    times[who] = time(|| match call {
                        Call::BulkLoad => bulk_load(partner, book, &inputs[i], words, &mut scratch),
                        _ => change(partner, call, book, board.extra, words, &mut scratch),
                    });
                }
                let same = words.iter().all(|theirs| theirs[i] == words[0][i]);
                assert!(same, "the partners differ: {}", case.name());
                for who in 0..PARTNERS.len() {
                    best[i][who][number] = best[i][who][number].min(times[who]);
                    ratios[who][number].push(times[0] / times[who]);
                }
            }
        }
    }
    let shortest = |who: usize, number: usize| mean(best.iter().map(|best| best[who][number]));
    Changes {
        nanoseconds: [0, 1, 2].map(|who| [0, 1, 2, 3].map(|number| shortest(who, number))),
        ratios: ratios.map(|ratios| ratios.map(median)),
    }
}

/// As many keys as the board has, none of them in it.
pub fn others(board: &Board) -> Vec<u32> {
    let inside: HashSet<u32> = board.keys().into_iter().collect();
    let spread = (1..).map(|i: u32| i.wrapping_mul(2_654_435_761));
    spread.filter(|key| !is_blank(*key) && !inside.contains(key)).take(inside.len()).collect()
}

/// Who looks keys up: the library, the twins, which have one lookup, and std's HashMap.
pub const SEEKERS: usize = 3;

/// What is found of lookups: nanoseconds of one, the shortest of many rounds, and the median of the library's time to each seeker's.
pub struct Lookups {
    pub nanoseconds: [f64; SEEKERS],
    pub ratios: [f64; SEEKERS],
}

/// Lookups of the keys of a case's first board, and of as many others.
pub fn both_lookups(case: &Case, rounds: usize) -> [Lookups; 2] {
    let board = &case.boards[0];
    [board.keys(), others(board)].map(|asked| lookups(case, board, &asked, rounds))
}

/// A lookup of some keys on one board. All must agree, in the tiers, too: for a found key 1 and its tier are added up.
fn lookups(case: &Case, board: &Board, asked: &[u32], rounds: usize) -> Lookups {
    let map: HashMap<u32, u32> = board.members.iter().copied().collect();
    let by = |partner: &Partner, key: u32| {
        let (mut listed, mut tier) = (0, 0);
        (partner.lookup)(&case.tabulation, &board.words, key, &mut listed, &mut tier);
        listed + tier
    };
    let in_map = |key: u32| map.get(&key).map_or(0, |tier| 1 + tier);
    let sum = asked.iter().map(|key| in_map(*key)).sum();
    let time = |find: &dyn Fn(u32) -> u32| {
        let start = Instant::now();
        let found = black_box(asked.iter().map(|key| find(*key)).sum::<u32>());
        let time = start.elapsed().as_nanos() as f64 / asked.len() as f64;
        assert_eq!(found, sum, "{}", case.name());
        time
    };
    let [library, twins, _] = &PARTNERS;
    let round = |_| [time(&|key| by(library, key)), time(&|key| by(twins, key)), time(&in_map)];
    let times: Vec<[f64; SEEKERS]> = (0..rounds).map(round).collect();
    Lookups {
        nanoseconds: [0, 1, 2].map(|who| times.iter().map(|t| t[who]).fold(f64::MAX, f64::min)),
        ratios: [0, 1, 2].map(|who| median(times.iter().map(|t| t[0] / t[who]).collect())),
    }
}
