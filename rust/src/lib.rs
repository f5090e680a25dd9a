//! The card list of a fuel-pump head for Rust: a dictionary in lent memory whose words are a function of the set alone.
//!
//! The calls are those of a proved library (`libpinorange.a`). `pinorange.h`, `pinorange_stolen.h` and
//! `pinorange_hashes.h` are the full text of what each promises; here is what Rust adds: a `List` and a `StolenList`
//! that keep the lent memory together, a `Result` for a number, and a [`Refusal`] with a name. The crate allocates
//! nothing, keeps no state and never panics.
//!
#![cfg_attr(feature = "list", doc = "```")]
#![cfg_attr(not(feature = "list"), doc = "```text")]
//! use pinorange::{scratch_length, words_length, Counters, List, Refusal, Scratch, TABULATION_LENGTH};
//!
//! const R: u32 = 64; // slots in each table
//! const S: u32 = 4; // places of the stash
//! const STATION: u32 = 17;
//!
//! fn main() -> Result<(), Refusal> {
//!     // All memory is the head's own; firmware would have it in statics.
//!     let mut tabulation = [0; TABULATION_LENGTH];
//!     let mut words = [0; words_length(R, S)];
//!     let mut scratch = Scratch::<[u32; scratch_length(R, S)]>::new();
//!     let mut counters = Counters::default();
//!     pinorange::house(&mut tabulation)?;
//!
//!     let mut list = List::init(&tabulation, &mut words, R, S, STATION, &mut counters)?;
//!     list.insert(&mut scratch, 410_017, 3)?;
//!     assert_eq!(list.lookup(410_017), Ok(Some(3)));
//!     assert_eq!(list.insert(&mut scratch, 410_018, 3), Err(Refusal::OtherIssue));
//!     for (card, tier) in list.cards() {
//!         println!("{card} at tier {tier}");
//!     }
//!     list.remove(&mut scratch, 410_017)?;
//!     assert!(list.is_empty());
//!     Ok(())
//! }
//! ```
//!
//! - The caller lends a tabulation of [`TABULATION_LENGTH`] entries, words and scratch. All lengths are constants, so
//!   that the memory may be arrays in a `static`.
//! - A call either is done and gives `Ok`, or is refused and leaves the words as they were.
//! - Cards that were reported stolen have a list of their own, a `StolenList`, in words of its own.
//! - The functions are the same calls over slices, one for each of C's, and `List` is thin over them. [`raw`] has the
//!   calls as C has them, and no other part of the crate has anything unsafe but to call these.
//!
//! The feature `list`, which is on unless you turn it off, is the whole list. Without it the crate links
//! `libtabulation.a` alone and has what `pinorange_hashes.h` has: for a till, which only needs to know where a card may
//! sit. The static library is looked for in the folder that the environment variable `PINORANGE_LIBRARIES` names; if
//! that is not set, in the folder above this crate, then in `target/staticlib` there.
//!
//! What `pinorange.h` says to a caller in C holds here, too: the library is x86-64 code (System V, SSE2, with a red
//! zone) that needs `memset` and no operating system, and the crate is not compiled for anything else; nobody reads or
//! writes the words while a call changes them, an interrupt handler no more than another core, which the borrows of a
//! `List` see to in safe Rust; on [`Refusal::NotCanonical`], and after a reset, the tabulation is written afresh, and
//! all cards are laid again from a record of the caller's own, in one call if that is ascending; where there is no
//! record, a salvage saves what still stands where it may.
//!
//! `examples/head.rs` is a short head.

#![no_std]
#![deny(missing_docs)]
#![deny(unsafe_code)]
#![deny(clippy::missing_errors_doc, clippy::must_use_candidate)]

// The kit's code is x86-64 by the System V convention, with lengths of 64 bits. On x86-64 with another convention it
// would be called with its arguments in other places than those it reads.
#[cfg(not(all(
    target_arch = "x86_64",
    target_pointer_width = "64",
    not(any(windows, target_os = "uefi"))
)))]
compile_error!("the library is x86-64 code (System V): there is none for this processor or system");

// The two modules that call the library.
#[allow(unsafe_code)]
#[cfg(feature = "list")]
mod calls;
#[allow(unsafe_code)]
mod hashing;

#[allow(unsafe_code)]
mod bound;
pub mod raw;
mod refusal;

#[cfg(feature = "list")]
mod cards;
#[cfg(feature = "list")]
mod list;
#[cfg(feature = "list")]
mod records;
#[cfg(feature = "list")]
mod scratch;
#[cfg(feature = "list")]
mod sizes;
#[cfg(feature = "list")]
mod stolen_list;

pub use hashing::{first_part, hashes, MAX_SLOTS, MAX_STATION, TABULATION_LENGTH, VERSION};
pub use refusal::Refusal;

#[cfg(feature = "list")]
pub use calls::{
    bulk_load, check, close_sale, house, init, insert, lookup, open_sale, remove, salvage, stash,
    stolen_init, stolen_insert, stolen_lookup, trail,
};
#[cfg(feature = "list")]
pub use cards::cards;
#[cfg(feature = "list")]
pub use list::List;
#[cfg(feature = "list")]
pub use records::{Counters, Sale};
#[cfg(feature = "list")]
pub use scratch::Scratch;
#[cfg(feature = "list")]
pub use sizes::{
    place_start, scratch_length, slot_start, words_length, HEADER_LENGTH, MAX_BASE, MAX_PLACES,
    MAX_STEP, MAX_TIER, STEPS,
};
#[cfg(feature = "list")]
pub use stolen_list::StolenList;
