//! Counts of what one build of the ranks twin does. They are there in a build with the feature `counts` alone; in the timed one the calls below are empty and
//! leave no instruction behind.

use std::sync::atomic::{AtomicU64, Ordering::Relaxed};

static STEPS: AtomicU64 = AtomicU64::new(0);
static LONGEST: AtomicU64 = AtomicU64::new(0);
static MOVES: AtomicU64 = AtomicU64::new(0);
static LINKING_STEPS: AtomicU64 = AtomicU64::new(0);
static LINKING_MOVES: AtomicU64 = AtomicU64::new(0);

/// What was counted of one build.
#[derive(Clone, Copy, Default)]
pub struct Tally {
    /// Steps from a slot to its parent, on all ways to a representative.
    pub steps: u64,
    /// Those while the ranks were linked; the others look for labels.
    pub linking_steps: u64,
    /// Those on the longest of these ways.
    pub longest: u64,
    /// Moves: a rank leaves a slot and is put into its other one. The rank with which a re-rooting begins is not counted: it had no slot, or keeps it.
    pub moves: u64,
    /// Those while the ranks were linked; the others finish the components.
    pub linking_moves: u64,
}

/// A way to a representative was gone, of this many steps.
#[inline]
pub fn way(steps: u64) {
    if cfg!(feature = "counts") {
        STEPS.fetch_add(steps, Relaxed);
        LONGEST.fetch_max(steps, Relaxed);
    }
}

/// A rank moved.
#[inline]
pub fn moved() {
    if cfg!(feature = "counts") {
        MOVES.fetch_add(1, Relaxed);
    }
}

/// The ranks are linked.
#[inline]
pub fn linked() {
    if cfg!(feature = "counts") {
        LINKING_STEPS.store(STEPS.load(Relaxed), Relaxed);
        LINKING_MOVES.store(MOVES.load(Relaxed), Relaxed);
    }
}

/// What was counted since the last time.
pub fn take() -> Tally {
    let taken = |count: &AtomicU64| count.swap(0, Relaxed);
    Tally {
        steps: taken(&STEPS),
        linking_steps: taken(&LINKING_STEPS),
        longest: taken(&LONGEST),
        moves: taken(&MOVES),
        linking_moves: taken(&LINKING_MOVES),
    }
}
