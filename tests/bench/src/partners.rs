//! The partners of the benchmark: the library and its two twins, behind the same calls.

use library::Counters;

use crate::{common, plain, ranks};

type Insert = fn(&[u16], &mut [u32], &mut [u32], &mut Counters, u32, u32) -> u32;
type Remove = fn(&[u16], &mut [u32], &mut [u32], &mut Counters, u32) -> u32;
type BulkLoad = fn(&[u16], &mut [u32], &mut [u32], &mut Counters, [u32; 3], &[u32]) -> u32;

/// The calls of one partner.
pub struct Partner {
    pub name: &'static str,
    pub insert: Insert,
    pub remove: Remove,
    pub check: fn(&[u16], &[u32], &mut [u32]) -> u32,
    /// With r, s and station, and the input.
    pub bulk_load: BulkLoad,
    pub lookup: fn(&[u16], &[u32], u32, &mut u32, &mut u32) -> u32,
}

/// The library is the first: its cost is told to that of each of the others.
pub const PARTNERS: [Partner; 3] = [
    Partner {
        name: "pinorange",
        insert: library::insert,
        remove: library::remove,
        check: library::check,
        bulk_load: library::bulk_load,
        lookup: library::lookup,
    },
    Partner {
        name: "plain",
        insert: plain::insert,
        remove: plain::remove,
        check: plain::check,
        bulk_load: plain::bulk_load,
        lookup: common::lookup,
    },
    Partner {
        name: "ranks",
        insert: ranks::insert,
        remove: ranks::remove,
        check: ranks::check,
        bulk_load: ranks::bulk_load,
        lookup: common::lookup,
    },
];

/// What is measured of each partner.
#[derive(Clone, Copy, PartialEq, Eq, PartialOrd, Ord, Debug)]
pub enum Call {
    Insert,
    Remove,
    Check,
    BulkLoad,
    Lookup,
}

impl Call {
    pub const ALL: [Call; 5] =
        [Call::Insert, Call::Remove, Call::Check, Call::BulkLoad, Call::Lookup];

    pub fn name(self) -> &'static str {
        ["insert", "remove", "check", "bulk_load", "lookup"][self as usize]
    }

    /// Its name in a table.
    pub fn title(self) -> String {
        self.name().replace('_', " ")
    }

    pub fn named(name: &str) -> Call {
        let call = Call::ALL.into_iter().find(|call| call.name() == name);
        call.unwrap_or_else(|| panic!("no such call: {name}"))
    }
}

/// The symbol of a partner's call. The twins have one lookup.
pub fn symbol(partner: usize, call: Call) -> String {
    let prefix = if partner > 0 && call == Call::Lookup { "twin" } else { PARTNERS[partner].name };
    format!("{prefix}_{}", call.name())
}
