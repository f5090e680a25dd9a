//! The most instructions that were found for each exported call, at four sizes with all 64 places of the stash: one
//! table, for whoever has to plan a time. It is measured, not proved. For each call some candidates are counted, each
//! by itself, as `tests/bench/run` has it, and the largest count is printed.

mod calls;
mod lists;

use std::collections::BTreeMap;

use crate::cases::{grouped, Load, PLACES};
use crate::tables::{head, row};
use calls::{Call, Coming, Key, Stolen, Ways};
use lists::{Kind, List};

/// What stands in the place of a partner where these calls are counted.
pub const NAME: &str = "worst";

const SIZES: [u32; 4] = [16, 128, 512, 1_024];

/// A row of the table: a call, how it ends, and what may be its dearest cases.
struct Row {
    name: &'static str,
    candidates: &'static [Candidate],
}

/// A call that may be the dearest of its row: on which list it is made, what it must answer, and how the table says it.
struct Candidate {
    kind: Kind,
    call: Call,
    answer: u32,
    text: &'static str,
}

impl Candidate {
    /// Whether it is counted at a size. Cases of few keys, and those in which stashed keys weigh most, are for the
    /// smallest.
    fn is_at(&self, r: u32) -> bool {
        use Kind::{Halves, HalvesDisplaced, HalvesLastComes, Of};
        let small =
            matches!(self.kind, Of(Load::Keys(_)) | Halves | HalvesLastComes | HalvesDisplaced);
        !small || r == SIZES[0]
    }
}

const fn on(kind: Kind, call: Call, answer: u32, text: &'static str) -> Candidate {
    Candidate { kind, call, answer, text }
}

/// An insert into a stolen-card list, which no other list has a part in.
const fn stolen(ways: Ways, coming: Coming, answer: u32, text: &'static str) -> Candidate {
    on(Kind::Full, Call::StolenInsert(Stolen(ways, coming)), answer, text)
}

/// What is counted: the dearest, those that come close to it, and some that one would think of first. 63 keys are
/// sorted by a heap and 64 by bytes; 96 are the most at r = 16.
///
/// Others were counted once and are cheaper, in thousands at r = 1,024. Insert, of 1,520: `moves` with a stash that is
/// filled by parallel keys 1,263, the smallest key of the cycle 1,372, `path` 976, 73 % 694, 49 % 484, `one place` 129.
/// A cycle that is joined by halves: insert 1,265, check 805; dearer, by 1 % at most, at r = 16 alone. Insert refused,
/// of 1,301: with 8 where the largest key comes in place of the smallest 1,295, with 8 where no slot and no place is
/// left and with 13 930. Remove, of 1,517: the smallest key of the cycle 1,370, `moves` 1,182, `full` 931. Check of
/// canonical words, of 930: the cycle joined from end to end 682, `moves` 747, `full` 636. Check of tampered words, of
/// 1,236: keys that are displaced and one too many for the stash 1,088, or at the end two issues of one card 679; at r
/// = 16, of 69, keys ascending, descending or at random in the slots 58, all alike, since a sort by bytes takes the
/// same steps in any order; 63 keys, by a heap, 34 to 35. A trail, of 1,108: that of tests/c/memory.c, of as many keys,
/// 825, and with a full stash 860; of a stashed key 930. A lookup, of 549: a key in table 1 101. A sale, of 617: 4 or 7
/// where the whole stash is searched 563, 7 else 238. The stash view refused with 4: 26, of 28. Not counted, by the
/// code: 1, 2 and 3, which come before the list is read, and 5, 9, 10 and 6 of the calls with scratch, which come after
/// that and before a second build, as 13 and 7 do. Of a bulk load 5, 9, 14 and 13 come before a build, and take as long
/// as its input is, as 8 does of more keys than there are slots and places: here it has 2r + 65 keys at most.
#[rustfmt::skip]
const ROWS: &[Row] = &[
    Row { name: "init", candidates: &[
        on(Kind::Full, Call::Init, 0, "every accepted call"),
    ] },
    Row { name: "bulk load, accepted", candidates: &[
        on(Kind::Full, Call::BulkLoad, 0, "cycle through all slots, stash full"),
        on(Kind::Halves, Call::BulkLoad, 0, "the same, joined by halves"),
        on(Kind::Pendant, Call::BulkLoad, 0, "cycle but one, the smallest key in the last slot"),
        on(Kind::Of(Load::Moves), Call::BulkLoadMore, 0, "`moves`"),
        on(Kind::Of(Load::Full), Call::BulkLoadMore, 0, "`full`"),
        on(Kind::Of(Load::OnePlace), Call::BulkLoadMore, 0, "`one place`"),
    ] },
    Row { name: "bulk load, refused", candidates: &[
        on(Kind::NoRoom, Call::BulkLoadMore, 8, "8, cycle but one, the smallest key in the cycle"),
        on(Kind::Full, Call::BulkLoadMore, 8, "8, a key more than slots and places"),
    ] },
    Row { name: "insert, accepted", candidates: &[
        on(Kind::PendantComes, Call::Insert(Key::Extra), 0,
            "cycle but one; the smallest key, for the last slot"),
        on(Kind::LastComes, Call::Insert(Key::Extra), 0,
            "cycle through all slots; the largest key comes, for the last place"),
        on(Kind::HalvesLastComes, Call::Insert(Key::Extra), 0, "the same, joined by halves"),
        on(Kind::Of(Load::Moves), Call::Insert(Key::Extra), 0, "`moves`"),
        on(Kind::Of(Load::Full), Call::Insert(Key::Extra), 0, "`full`"),
        on(Kind::Of(Load::Keys(63)), Call::Insert(Key::Extra), 0, "63 keys"),
        on(Kind::Of(Load::Keys(64)), Call::Insert(Key::Extra), 0, "64 keys"),
    ] },
    Row { name: "insert, refused", candidates: &[
        on(Kind::NoRoom, Call::Insert(Key::Extra), 8,
            "8, cycle but one; the smallest key, for the cycle"),
        on(Kind::Displaced, Call::Insert(Key::Extra), 4, "4, 2r + 64 keys, none in a slot of its own"),
        on(Kind::HalvesDisplaced, Call::Insert(Key::Extra), 4, "the same, joined by halves"),
    ] },
    Row { name: "remove, accepted", candidates: &[
        on(Kind::Pendant, Call::Remove(Key::Smallest), 0,
            "cycle but one; the smallest key, from the last slot"),
        on(Kind::Full, Call::Remove(Key::Largest), 0, "cycle through all slots; the key in the last place goes"),
        on(Kind::Full, Call::Remove(Key::Middle), 0, "cycle through all slots; the middle key goes"),
        on(Kind::Halves, Call::Remove(Key::Middle), 0, "the same, joined by halves"),
    ] },
    Row { name: "remove, refused", candidates: &[
        on(Kind::Displaced, Call::Remove(Key::Largest), 4, "4, 2r + 64 keys, none in a slot of its own"),
        on(Kind::HalvesDisplaced, Call::Remove(Key::Largest), 4, "the same, joined by halves"),
        on(Kind::Full, Call::Remove(Key::Extra), 7, "7, cycle through all slots, stash full"),
    ] },
    Row { name: "check, canonical words", candidates: &[
        on(Kind::Full, Call::Check, 0, "cycle through all slots, stash full"),
        on(Kind::Halves, Call::Check, 0, "the same, joined by halves"),
        on(Kind::Pendant, Call::Check, 0, "cycle through all slots but one, all slots and the stash full"),
    ] },
    Row { name: "check, tampered words", candidates: &[
        on(Kind::Displaced, Call::Check, 4, "2r + 64 keys, none in a slot of its own"),
        on(Kind::HalvesDisplaced, Call::Check, 4, "the same, joined by halves"),
        on(Kind::LastTier, Call::Check, 4, "cycle through all slots, stash full, the last tier wrong"),
    ] },
    Row { name: "lookup", candidates: &[
        on(Kind::Full, Call::Lookup(Key::Largest), 0, "the key in the last place of a full stash"),
        on(Kind::Displaced, Call::Lookup(Key::AsTier), 0, "tampered words, the key stands where a tier should"),
        on(Kind::Full, Call::Lookup(Key::Extra), 0, "absent"),
    ] },
    Row { name: "stash view", candidates: &[
        on(Kind::Full, Call::Stash, 0, "every accepted call"),
    ] },
    Row { name: "trail, accepted", candidates: &[
        on(Kind::Full, Call::Trail(Key::LongTrail, 0), 0, "2r keys, cycle through all slots, stash full"),
        on(Kind::Halves, Call::Trail(Key::LongTrail, 0), 0, "the same, joined by halves"),
    ] },
    Row { name: "trail, refused", candidates: &[
        on(Kind::Displaced, Call::Trail(Key::Largest, 0), 4, "4, 2r + 64 keys, none in a slot of its own"),
        on(Kind::HalvesDisplaced, Call::Trail(Key::Largest, 0), 4, "the same, joined by halves"),
        on(Kind::Full, Call::Trail(Key::LongTrail, 1), 11, "11, 2r keys, and a word less for them"),
    ] },
    Row { name: "salvage, accepted", candidates: &[
        on(Kind::Full, Call::Salvage, 0, "cycle through all slots, stash full"),
        on(Kind::Halves, Call::Salvage, 0, "the same, joined by halves"),
        on(Kind::Pendant, Call::Salvage, 0, "cycle through all slots but one, all slots and the stash full"),
        on(Kind::LastTier, Call::Salvage, 0, "cycle through all slots, stash full, the last tier wrong"),
        on(Kind::StashedIssues, Call::Salvage, 0, "cycle through all slots, issues of its keys in the stash"),
        on(Kind::OneCard, Call::Salvage, 0, "cycle through all slots, issues of one card in the stash"),
        on(Kind::DisplacedSlots, Call::Salvage, 0, "no key in a slot of its own, stash full"),
        on(Kind::Of(Load::Moves), Call::Salvage, 0, "`moves`"),
        on(Kind::Of(Load::Full), Call::Salvage, 0, "`full`"),
        on(Kind::Of(Load::Keys(63)), Call::Salvage, 0, "63 keys"),
        on(Kind::Of(Load::Keys(64)), Call::Salvage, 0, "64 keys"),
    ] },
    Row { name: "salvage, refused", candidates: &[
        on(Kind::NoneCounts, Call::Salvage, 15, "15, no key in a slot of its own, no tier in a full stash"),
    ] },
    Row { name: "opening a sale", candidates: &[
        on(Kind::Full, Call::Open(Key::Largest, 1_749, 500), 0, "the key in the last place of a full stash, tier 7"),
        on(Kind::Full, Call::Open(Key::Largest, 500, -500), 12, "12, the same key, the price below 1"),
        on(Kind::Full, Call::Open(Key::Largest, 1_749, 501), 12, "12, the same key, the last step out of its range"),
    ] },
    Row { name: "closing a sale", candidates: &[
        on(Kind::Full, Call::Close, 0, "every call"),
    ] },
    Row { name: "hashes", candidates: &[
        on(Kind::Full, Call::Hashes, 0, "every accepted call"),
    ] },
    Row { name: "house", candidates: &[
        on(Kind::Full, Call::House, 0, "every accepted call"),
    ] },
    Row { name: "stolen list of r slots: init", candidates: &[
        on(Kind::Full, Call::StolenInit, 0, "every accepted call"),
    ] },
    Row { name: "stolen list: insert, accepted", candidates: &[
        stolen(Ways::Alike, Coming::Smallest, 0, "all ways start alike; the smallest key, for the last slot"),
        stolen(Ways::Alike, Coming::Largest, 0, "all ways start alike; the largest key, for the last slot"),
        stolen(Ways::Behind, Coming::Smallest, 0, "behind one; the smallest key, for the last slot"),
        stolen(Ways::Behind, Coming::Largest, 0, "behind one; the largest of the others"),
    ] },
    Row { name: "stolen list: insert, refused", candidates: &[
        stolen(Ways::Alike, Coming::Larger, 16, "16, all ways start alike, a larger key"),
        stolen(Ways::Alike, Coming::Again, 6, "6, all ways start alike, the key in the last slot"),
        stolen(Ways::Behind, Coming::Larger, 16, "16, behind one, every slot filled"),
        stolen(Ways::Behind, Coming::Again, 6, "6, behind one, the largest of the others"),
        stolen(Ways::Behind, Coming::Tampered, 4, "4, behind one, a key twice at the end of the round"),
    ] },
    Row { name: "stolen list: lookup", candidates: &[
        on(Kind::Full, Call::StolenLookup(Stolen(Ways::Alike, Coming::Again)), 0,
            "every slot filled, the key at the end of the round"),
        on(Kind::Full, Call::StolenLookup(Stolen(Ways::Alike, Coming::Larger)), 0,
            "every slot filled with a smaller key, absent"),
    ] },
];

/// Each candidate, with its number.
fn numbered() -> impl Iterator<Item = (usize, &'static Candidate)> {
    ROWS.iter().flat_map(|row| row.candidates).enumerate()
}

/// Prints what is to be counted, a line each: size, this table, candidate, and the symbol to watch.
pub fn print_wanted() {
    for r in SIZES {
        for (number, candidate) in numbered().filter(|(_, candidate)| candidate.is_at(r)) {
            println!("{r} {NAME} {number} {}", candidate.call.symbol());
        }
    }
}

/// Makes one of these calls.
pub fn one(r: &str, number: &str) {
    let number = number.parse().expect("the number of a candidate");
    let (_, candidate) = numbered().nth(number).expect("no such candidate");
    let list = List::new(r.parse().expect("a size"), candidate.kind);
    assert_eq!(candidate.call.make(&list), candidate.answer, "{}", candidate.text);
}

/// The counts in a file, by size and candidate.
fn read(path: &str) -> BTreeMap<(u32, usize), u64> {
    let text = std::fs::read_to_string(path).expect("the file of counts");
    let count = |line: &str| {
        let fields: Vec<&str> = line.split_whitespace().collect();
        let [r, NAME, number, count] = fields[..] else { panic!("nothing was counted: {line}") };
        let which = (r.parse().expect("a size"), number.parse().expect("a candidate"));
        (which, count.parse().expect("a count"))
    };
    text.lines().map(count).collect()
}

/// Prints the table: of each row the largest count at each size, and in which case it was found at the largest.
pub fn print(path: &str) {
    let counts = read(path);
    let sizes = SIZES.map(|r| format!("r = {}", grouped(r)));
    let title = format!("call, s = {PLACES}");
    let case = format!("where, at {}", sizes[SIZES.len() - 1]);
    head(&[&title, &sizes[0], &sizes[1], &sizes[2], &sizes[3], &case]);
    let mut first = 0;
    for Row { name, candidates } in ROWS {
        let most = SIZES.map(|r| {
            let at_size =
                candidates.iter().zip(first..).filter(|(candidate, _)| candidate.is_at(r));
            let found = at_size.map(|(candidate, number)| (counts[&(r, number)], candidate.text));
            found.max_by_key(|(count, _)| *count).expect("a row has candidates at each size")
        });
        let cells = most.map(|(count, _)| grouped(count));
        let (_, text) = most[SIZES.len() - 1];
        row([name.to_string()].into_iter().chain(cells).chain([text.to_string()]));
        first += candidates.len();
    }
}
