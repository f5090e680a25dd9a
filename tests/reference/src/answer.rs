//! What a call gives back: accepted, one of the refusals of document 01's table (with those that
//! requests One, Two, Four and Six to Nine add to it), or what a lookup found.
//! Every other module names refusals by this enum; the paper's numbers stand only here.

/// Why a call was refused.
///
/// Paper: the table under "What a call gives back". "They are tried in this order, and none is
/// given otherwise." Request One puts 9 and 10 between 5 and 6, request Two 11 after 7, request
/// Four 12 after that, request Six 13 just before 10, request Seven 14 after 9 and before 13,
/// request Eight 15 last, request Nine 16 after 6; the variants stand in the order of this table,
/// in which they are tried. Only opening a sale tries 4 after 7: "Opening checks as look-up does,
/// then 7, then 4 if the tier found is above 7." A salvage tries 2 for each of its two areas before
/// 3.
#[derive(Clone, Copy, Debug, PartialEq, Eq, PartialOrd, Ord, Hash)]
pub enum Refusal {
    /// Paper: 1, "wrong book": "book not 2,048 long"; request Five: "The book becomes 2,560
    /// numbers".
    WrongTabulation = 1,
    /// Paper: 2, "wrong shape": "list shorter than 4 words, r or s outside its range, or length not
    /// 4 + 4r + s"; request One: "the length becomes 4 + 6r + 2s"; request Five: "the length grows
    /// by one" and "a station above 255, given or in word 4, is a 2"; request Eight: "2 for the
    /// second's length", which must be that of the first area; request Nine, for a stolen list: "2
    /// (length or station)", with a length of 1 to 1,024.
    WrongShape = 2,
    /// Paper: 3, "short sheet": "work sheet shorter than 8r + 4s"; request One: "at least
    /// 12r + 8s".
    ShortScratch = 3,
    /// Paper: 4, "tampered": "the list is the canonical image of no set". (For the stash view: "4
    /// when word 3 exceeds s". For opening a sale, request Four: "4 if the tier found is above 7".
    /// For an insert into a stolen list the image is request Nine's.)
    NotCanonical = 4,
    /// Paper: 5, "blank card": "number 0"; request Six: "A blank card is any number below 10."
    BlankKey = 5,
    /// Request One: "9 (tier above 7) after 5".
    WrongTier = 9,
    /// Request Seven: "14 (odd number of words, or cards not strictly rising) after 9", in the
    /// input of a bulk load.
    NotRising = 14,
    /// Request Six: "13 (another issue is listed) just before 10, never together with 10 or 6". A
    /// bulk load gives it for two issues in its input, request Seven: "13 (between input cards)".
    OtherIssue = 13,
    /// Request One: "10 (add of a listed card with another tier) just before 6".
    OtherTier = 10,
    /// Paper: 6, "listed": "add of a card in the set".
    Listed = 6,
    /// Request Nine: "16 (all pockets filled) after 6", in an insert into a stolen list.
    FullTable = 16,
    /// Paper: 7, "not listed": "withdrawal of a card outside the set". Request Two asks the same of
    /// a trail: "Checks run as for withdraw". Opening a sale gives it where lookup finds no key:
    /// request Four, "Opening a sale takes a listed card".
    NotListed = 7,
    /// Request Two: "11 (trail sheet shorter than the trail) after 7".
    ShortTrailSheet = 11,
    /// Request Four: "12 (base or a step outside its range, or this card's price below 1) after
    /// that".
    WrongPrice = 12,
    /// Paper: 8, "full drawer": "the new set's canonical drawer would have more than s cards". The
    /// new set of a bulk load is that of its input.
    FullStash = 8,
    /// Request Eight: "15 (some pocket or drawer place holds a card number other than zero, yet no
    /// card counts) last", in the words that a salvage goes over.
    NothingCounts = 15,
}

impl Refusal {
    /// The paper's number of this refusal: column "No." of the table.
    pub fn number(self) -> u32 {
        self as u32
    }
}

/// What a lookup gives that is not refused.
///
/// Request One: "Look-up answers the tier or that the card isn't listed".
#[derive(Clone, Copy, Debug, PartialEq, Eq)]
pub enum Found {
    /// The key is listed with this tier. It is the word as it stands, so in a damaged list it can
    /// be above 7.
    Listed(u32),
    /// The key is not listed.
    Absent,
}

/// What init, insert, remove, check and a bulk load give back, and lay and insert of a stolen list;
/// `Ok` is the paper's 0, "done": "accepted".
pub type Answer = Result<(), Refusal>;

/// The paper's number of an answer: 0 when accepted, else the number of the refusal.
pub fn number(answer: Answer) -> u32 {
    match answer {
        Ok(()) => 0,
        Err(refusal) => refusal.number(),
    }
}
