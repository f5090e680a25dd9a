//! The program by another hand: an independent implementation of document 01 ("the forecourt card
//! list") and of document 02's requests One (a tier for each key), Two (the trail of a key), Four
//! (a sale stays with the price at nozzle lift), Five (stations spread their keys differently), Six
//! (a reissued key is the same key), Seven (head office sends the whole list), Eight (reading a
//! head that got wet) and Nine (the stolen-card list), written from the papers alone and used as
//! the yardstick for the product. (Request Three changes no answer.) It holds a plain and slow
//! version ([`image`], [`bulk`], [`trail`]) and a fast one ([`fast`]) behind the same calls
//! ([`calls`]); the stolen-card list has calls of its own, plain ones ([`stolen`]) and a second way
//! to the same words ([`stolen::displacement`]).
//!
//! The code uses the field's terms: a card is a key, a rack a table, a pocket a slot, the drawer
//! the stash, the spread book the tabulation, a place a hash, a group a component, a loop a cycle,
//! the lent list the words, the work sheet the scratch, the meter the counters, and the plain
//! register the reference model; a seated card is a stored key; a tier stays a tier, a trail with
//! its root and its trail sheet stays that, and so does a sale with its base, its steps and its
//! price. A station number is a station, and the stretches of the tabulation stay stretches. The
//! last digit of a key is its issue, and the digits before it are its first part. Laying a whole
//! list in one call is a bulk load, and what head office sends is its input. Reading a damaged list
//! is a salvage, and the second area that it writes to is its target; the keys that it keeps are
//! the survivors, and the numbers other than zero that do not count are lost. The stolen-card list
//! is the stolen list; a card there is a key, too, and a pocket a slot, of which its one table has
//! as many as there are words. A key's way leads from its start, slot by slot and round the end.
//! Formats, commands and printed output stay as the paper writes them.
//!
//! Where to start: [`mod@key`] parts a key into first part and issue, [`set`] says what is listed,
//! [`image`] is the definition of the canonical image, [`trail`] that of a key's trail, [`calls`]
//! the calls over them, [`bulk`] lays a whole list, [`salvage`] reads a damaged one, [`sale`] opens
//! and closes a sale, [`model`] is the reference model for whole sequences of calls, [`stolen`] the
//! stolen list with a reference model of its own, [`console`] the console program.

#![forbid(unsafe_code)]
#![warn(missing_docs)]

pub mod answer;
pub mod bulk;
pub mod calls;
pub mod console;
pub mod counters;
pub mod fast;
pub mod graph;
pub mod hash;
pub mod house;
pub mod image;
pub mod key;
pub mod layout;
pub mod model;
pub mod placement;
pub mod rng;
pub mod sale;
pub mod salvage;
pub mod samples;
pub mod set;
pub mod stolen;
pub mod trail;
