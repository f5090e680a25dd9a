//! Tests at scale, as one binary: the built library against the program by another hand, on small boards, where cycles
//! and full stashes are common, and on the largest, at random stations. Every call is compared in answer, words,
//! scratch, counters, out-parameters and guards, and every answer that a call can give must come up. Fixed seeds;
//! nothing is timed. Run with `-- --show-output` to see how many calls, sets and damages were tried.

mod board;
mod bulk;
mod common;
mod damage;
mod histories;
mod issues;
mod sales;
mod salvage;
mod sequences;
mod sizes;
mod stations;
mod stolen;
mod tiers;
mod trails;
