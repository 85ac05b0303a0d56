//! What the changes of a [`Map`] answer.
use super::Map;
use crate::U;

/// The answer of a removal.
#[derive(Clone, Copy, Debug, PartialEq, Eq)]
pub struct Removed {
    /// The map after the removal.
    pub map: Map,
    /// The slot that was removed.
    pub slot: u64,
    /// The value of the entry that was removed.
    pub value: u64,
    /// The other entries that changed slot, as (old slot, new slot), by rising old slot. Unused
    /// ones are ([`U`], [`U`]).
    pub pairs: [(u64, u64); 3],
    /// How many of the hulls that the removal worked out changed, at either end.
    pub reach: u64,
}

impl Removed {
    /// The pairs that are used.
    pub fn moved(&self) -> impl Iterator<Item = (u64, u64)> {
        self.pairs.into_iter().filter(|pair| pair.0 != U)
    }

    /// The slot of the entry that was in slot `kept` before the removal; `None` if it was removed.
    /// Call it for every slot that you kept.
    ///
    /// ```
    #[doc = using!("{Map, Removed, U}")]
    ///
    /// let removed = Removed {
    ///     map: Map { count: 4, root: 2, version: 2 },
    ///     slot: 1,
    ///     value: 2,
    ///     pairs: [(0, 1), (4, 0), (U, U)],
    ///     reach: 1,
    /// };
    /// let kept = [0, 1, 2, 4].map(|slot| removed.slot_after(slot));
    /// assert_eq!(kept, [Some(1), None, Some(2), Some(0)]);
    /// ```
    pub fn slot_after(&self, kept: u64) -> Option<u64> {
        if kept == self.slot {
            return None;
        }
        let moved = self.moved().find(|pair| pair.0 == kept);
        Some(moved.map_or(kept, |pair| pair.1))
    }
}

/// The answer of an insertion.
#[derive(Clone, Copy, Debug, PartialEq, Eq)]
pub struct Inserted {
    /// The map after the insertion.
    pub map: Map,
    /// The slot of the new entry: the count before.
    pub slot: u64,
    /// How many of the hulls that the insertion worked out changed, at either end.
    pub reach: u64,
}

/// The answer of an unloading.
#[derive(Clone, Copy, Debug, PartialEq, Eq)]
pub struct Unloaded {
    /// The map after the unloading. Its version is higher by [`gone`](Unloaded::gone).
    pub map: Map,
    /// How many entries went.
    pub gone: u64,
}
