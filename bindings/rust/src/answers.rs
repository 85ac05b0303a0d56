//! What the calls of a map answer, in either layout.
use core::fmt;
use core::ops::Range;

use crate::{Refusal, U};

/// An entry of a store.
#[derive(Clone, Debug, PartialEq, Eq)]
pub struct Entry {
    /// Its slot, which is valid until the next removal: see
    /// [`Removed::slot_after`](crate::Removed::slot_after) and [`Ticket`](crate::Ticket).
    pub slot: u64,
    /// The addresses that it holds.
    pub range: Range<u64>,
    /// The value that was given with the range.
    pub value: u64,
}

/// The place of a lookup. [`Map::fresh`](crate::Map::fresh) and [`Map::begin`](crate::Map::begin)
/// make the first one, steps and drains the next ones. At the end its slot is [`U`].
#[derive(Clone, Copy, Debug, PartialEq, Eq)]
pub struct Cursor {
    /// The slot that the lookup is at.
    pub slot: u64,
    /// How many levels of the tree it remembers.
    pub levels: u64,
    /// What it has done at each of them, two bits a level.
    pub bits: u64,
}

impl Cursor {
    /// The end of every lookup.
    pub(crate) const ENDED: Cursor = Cursor {
        slot: U,
        levels: 0,
        bits: 0,
    };
}

/// The answer of a step.
#[derive(Clone, Copy, Debug, PartialEq, Eq)]
pub enum Step {
    /// There is a next hit.
    Hit {
        /// Its slot.
        slot: u64,
        /// Where the next step begins.
        next: Cursor,
        /// How many nodes this step entered.
        entered: u64,
    },
    /// There is no further hit.
    End {
        /// How many nodes this step entered.
        entered: u64,
    },
}

/// The answer of a drain.
#[derive(Clone, Copy, Debug, PartialEq, Eq)]
pub struct Drained {
    /// How many slots were written.
    pub hits: u64,
    /// How many nodes were entered.
    pub entered: u64,
    /// Where the next drain begins. Its slot is [`U`] at the end.
    pub next: Cursor,
}

/// The answer of a lookup that finds all hits at once.
#[derive(Clone, Copy, Debug, PartialEq, Eq)]
pub struct Tally {
    /// How many hits there are. A plain lookup writes all of them, and [`Map::find_all`] as many as
    /// the output has places for.
    ///
    /// [`Map::find_all`]: crate::Map::find_all
    pub hits: u64,
    /// How many nodes were entered; for a plain lookup all of them.
    pub entered: u64,
}

/// Why an insertion into a disjoint map was refused, and the slot that the refusal names.
#[derive(Clone, Copy, Debug, PartialEq, Eq)]
pub struct NotPlaced {
    /// The refusal.
    pub why: Refusal,
    /// With [`Refusal::Overlap`] the slot of the first entry, in the map's order, that intersects
    /// the new one, and [`U`] with any other.
    pub slot: u64,
}

impl From<NotPlaced> for Refusal {
    fn from(not: NotPlaced) -> Refusal {
        not.why
    }
}

impl fmt::Display for NotPlaced {
    fn fmt(&self, f: &mut fmt::Formatter<'_>) -> fmt::Result {
        match self.slot {
            U => write!(f, "{}", self.why),
            slot => write!(f, "{}, in slot {slot}", self.why),
        }
    }
}

#[cfg(not(iset_no_core_error))]
impl core::error::Error for NotPlaced {}

/// The answer of a point lookup.
#[derive(Clone, Copy, Debug, PartialEq, Eq)]
pub struct Spot {
    /// The slot of the entry that holds the address, [`U`] if there is none.
    pub slot: u64,
    /// How many nodes were entered: at most as many as the tree is high.
    pub entered: u64,
}
