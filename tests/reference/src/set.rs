//! What a list lists: a set of keys, at most one issue of each first part, each key with one tier.
//! Where a key sits never depends on its tier; the tier only stands beside it.

use std::collections::BTreeMap;

use crate::key::{is_blank, issues};

/// The largest tier. Request One: "Each card gets a tier, 0 to 7, given when it is added."
pub const MAX_TIER: u32 = 7;

/// A key with its tier, in this order.
pub type Member = (u32, u32);

/// A set: the tier of each key.
///
/// Request One: ""set" means cards with their tiers everywhere". A key has one tier only. Request
/// Six: "a set has at most one issue of each such first part"; "Every promise about sets means such
/// sets."
pub type Set = BTreeMap<u32, u32>;

/// The set with these members, given in any order (a repeated one counts once). `None` when no list
/// has them: a key is blank, a tier is above 7, a key stands with two tiers, or a first part with
/// two issues.
pub fn set(members: &[Member]) -> Option<Set> {
    let mut set = Set::new();
    for &(key, tier) in members {
        if is_blank(key) || tier > MAX_TIER || has_other_issue(&set, key) {
            return None;
        }
        if *set.entry(key).or_insert(tier) != tier {
            return None;
        }
    }
    Some(set)
}

/// Whether another issue of the key's first part is in the set; the key itself is none.
///
/// Request Six: "13 (another issue is listed)".
pub fn has_other_issue(set: &Set, key: u32) -> bool {
    set.range(issues(key)).any(|(&listed, _)| listed != key)
}

/// The members of a set, ascending by key.
pub fn members(set: &Set) -> Vec<Member> {
    set.iter().map(|(&key, &tier)| (key, tier)).collect()
}
