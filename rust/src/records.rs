//! The two records that cross the border: the counts of calls, and a sale.

/// Counts of calls. A count at 4,294,967,295 stays there.
#[repr(C)]
#[derive(Clone, Copy, Debug, Default, PartialEq, Eq)]
pub struct Counters {
    /// Accepted.
    pub done: u32,
    /// Refused.
    pub refused: u32,
}

/// The record of a sale: what a head keeps from nozzle lift to hang-up.
#[repr(C)]
#[derive(Clone, Copy, Debug, PartialEq, Eq)]
pub struct Sale {
    /// The card.
    pub key: u32,
    /// The tier at which it was listed at nozzle lift.
    pub tier: u32,
    /// The price of a litre in this sale, in tenths of a cent.
    pub price: u32,
}
