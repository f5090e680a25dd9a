//! The tests of the reference implementation, as one binary: document 01's boards and listings, its
//! rules and those of requests One, Two and Four to Nine on random boards, and the fast engine
//! against the slow one. Fixed seeds; nothing is timed. Run with `-- --nocapture` to see how many
//! boards, sequences and lines were tried.

mod bulk;
mod common;
mod console;
mod damage;
mod edges;
mod engines;
mod graph;
mod hashes;
mod histories;
mod issues;
mod k_examples;
mod placements;
mod refusals;
mod sales;
mod salvage;
mod sequences;
mod stations;
mod stolen;
mod tiers;
mod trails;
mod wrong_images;
