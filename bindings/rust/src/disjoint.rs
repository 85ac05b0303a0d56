//! Maps in which no two ranges overlap, though one may end where the next one starts.
use core::ops::{Range, RangeBounds};

use super::calls::{OPENED, PUBLIC};
use super::hits::refused;
use super::lent::{Lent, LentMut};
use super::{Inserted, Map, Removed, StoreRef};
use crate::{Entry, NotPlaced, Refusal, Rule, Spot};

/// A map in which no two ranges overlap, by value. Any map may stand in it: each call takes the
/// memory and checks all of it. All other calls are those of the [`Map`] in it. For a map that is
/// checked once see [`DisjointStore`].
///
#[cfg_attr(iset_linked, doc = "```")]
#[cfg_attr(not(iset_linked), doc = "```no_run")]
#[doc = using!("{DisjointMap, Map, NotPlaced, Refusal, NODE_WORDS}")]
///
/// # fn main() -> Result<(), Refusal> {
/// let (mut nodes, mut colours) = ([0; 3 * NODE_WORDS], [0; 1]);
/// let none = DisjointMap { map: Map::new() };
/// let first = none.insert(&mut nodes, &mut colours, 10, 20, 1)?;
/// let one = DisjointMap { map: first.map };
/// let refused = one.insert(&mut nodes, &mut colours, 19, 30, 2);
/// assert_eq!(refused, Err(NotPlaced { why: Refusal::Overlap, slot: 0 }));
/// assert_eq!(one.point(&nodes, &colours, 19)?.slot, first.slot);
///
/// let both = first.map.insert(&mut nodes, &mut colours, 19, 30, 2)?.map;
/// assert_eq!(DisjointMap { map: both }.check(&nodes, &colours), Err(Refusal::NotDisjoint));
/// # Ok(())
/// # }
/// ```
#[derive(Clone, Copy, Debug, PartialEq, Eq)]
pub struct DisjointMap {
    /// The map.
    pub map: Map,
}

impl DisjointMap {
    fn over<'a>(self, nodes: &'a [u64], colours: &'a [u8]) -> Lent<'a> {
        Lent {
            map: self.map,
            nodes,
            colours,
        }
    }

    fn over_mut<'a>(self, nodes: &'a mut [u64], colours: &'a mut [u8]) -> LentMut<'a> {
        LentMut {
            map: self.map,
            nodes,
            colours,
        }
    }

    /// Checks the store, and that no two entries intersect.
    ///
    /// # Errors
    ///
    /// [`Refusal::NoRoom`], [`Refusal::Broken`], [`Refusal::NotDisjoint`].
    pub fn check(self, nodes: &[u64], colours: &[u8]) -> Result<(), Refusal> {
        self.over(nodes, colours).check_disjoint()
    }

    /// Finds the entry that holds an address.
    ///
    /// # Errors
    ///
    /// Those of [`DisjointMap::check`].
    pub fn point(self, nodes: &[u64], colours: &[u8], address: u64) -> Result<Spot, Refusal> {
        self.over(nodes, colours).point(&PUBLIC, address)
    }

    /// Adds an entry, if no stored entry intersects it. No other entry changes slot.
    ///
    /// # Errors
    ///
    /// Those of [`DisjointMap::check`], [`Refusal::BadInterval`], [`Refusal::Overlap`],
    /// [`Refusal::NoRoom`] if the slices hold no more entries than the count.
    pub fn insert(
        self,
        nodes: &mut [u64],
        colours: &mut [u8],
        start: u64,
        end: u64,
        value: u64,
    ) -> Result<Inserted, NotPlaced> {
        let mut lent = self.over_mut(nodes, colours);
        lent.place(PUBLIC.disjoint_insert, [start, end, value])
    }

    /// Removes the entry of a slot. What is left is disjoint too.
    ///
    /// # Errors
    ///
    /// Those of [`DisjointMap::check`], [`Refusal::NoSuch`].
    pub fn remove(
        self,
        nodes: &mut [u64],
        colours: &mut [u8],
        slot: u64,
    ) -> Result<Removed, Refusal> {
        let mut lent = self.over_mut(nodes, colours);
        lent.take(PUBLIC.disjoint_remove, slot)
    }
}

/// A map in which no two ranges overlap, and its memory, checked once: as [`Store`](super::Store),
/// with the rule of a [`DisjointMap`]. Its calls keep the rule (the theorem `disjoint-calls-sound`
/// of crate disjoint). Lookups other than [`DisjointStore::at`] are those of
/// [`DisjointStore::read`].
///
#[cfg_attr(iset_linked, doc = "```")]
#[cfg_attr(not(iset_linked), doc = "```no_run")]
#[doc = using!("{DisjointStore, NotPlaced, Refusal, NODE_WORDS}")]
///
/// # fn main() -> Result<(), Refusal> {
/// let (mut nodes, mut colours) = ([0; 3 * NODE_WORDS], [0; 1]);
/// let mut store = DisjointStore::new(&mut nodes, &mut colours);
/// store.insert(10..20, 1)?;
/// store.insert(20..30, 2)?;
/// assert_eq!(store.at(19).map(|entry| entry.value), Some(1));
/// assert_eq!(store.at(20).map(|entry| entry.value), Some(2));
/// assert_eq!(store.at(30), None);
/// assert_eq!(store.insert(15..25, 3), Err(NotPlaced { why: Refusal::Overlap, slot: 0 }));
/// store.remove(0)?;
/// store.insert(15..20, 3)?;
/// assert!(store.read().entries().map(|entry| entry.value).eq([3, 2]));
/// # Ok(())
/// # }
/// ```
#[derive(Debug)]
pub struct DisjointStore<'m> {
    lent: LentMut<'m>,
}

impl<'m> DisjointStore<'m> {
    /// The map of no entries.
    pub fn new(nodes: &'m mut [u64], colours: &'m mut [u8]) -> DisjointStore<'m> {
        let map = Map::new();
        let lent = LentMut {
            map,
            nodes,
            colours,
        };
        DisjointStore { lent }
    }

    /// Checks the store, and that no two entries intersect, once. As for
    /// [`Store::open`](super::Store::open), no other process may write the memory.
    ///
    /// # Errors
    ///
    /// [`Refusal::NoRoom`], [`Refusal::Broken`], [`Refusal::NotDisjoint`].
    pub fn open(
        map: Map,
        nodes: &'m mut [u64],
        colours: &'m mut [u8],
    ) -> Result<DisjointStore<'m>, Refusal> {
        DisjointMap { map }.check(nodes, colours)?;
        let lent = LentMut {
            map,
            nodes,
            colours,
        };
        Ok(DisjointStore { lent })
    }

    /// The same store for reading, with all lookups of any map.
    #[inline]
    pub fn read(&self) -> StoreRef<'_> {
        StoreRef {
            lent: self.lent.read(),
        }
    }

    /// The number of entries. They are in slots 0 to `len() - 1`.
    #[inline]
    pub fn len(&self) -> usize {
        self.read().len()
    }

    /// Whether there are no entries.
    #[inline]
    pub fn is_empty(&self) -> bool {
        self.read().is_empty()
    }

    /// The entry of a slot; `None` if the slot is not below the number of entries.
    #[inline]
    pub fn get(&self, slot: u64) -> Option<Entry> {
        self.read().get(slot)
    }

    /// The entry that holds an address. There is at most one.
    ///
    /// # Panics
    ///
    /// If the lookup is refused. The archives that belong to this crate never do that.
    #[inline]
    pub fn at(&self, address: u64) -> Option<Entry> {
        match self.point(address) {
            Ok(spot) => self.get(spot.slot),
            Err(why) => refused(why),
        }
    }

    /// The slot of the entry that holds an address, and how many nodes were entered.
    ///
    /// # Errors
    ///
    /// None while the memory holds what this store left in it.
    #[inline]
    pub fn point(&self, address: u64) -> Result<Spot, Refusal> {
        self.lent.read().point(&OPENED, address)
    }

    /// Adds an entry, if no stored entry intersects it, and returns its slot. No other entry
    /// changes slot.
    ///
    /// # Errors
    ///
    /// [`Refusal::BadInterval`], [`Refusal::Overlap`], [`Refusal::NoRoom`] if the memory is full.
    pub fn insert(&mut self, range: Range<u64>, value: u64) -> Result<u64, NotPlaced> {
        let entry = [range.start, range.end, value];
        let inserted = self.lent.place(OPENED.disjoint_insert, entry)?;
        Ok(inserted.slot)
    }

    /// Removes the entry of a slot. Up to three others change slot: see [`Removed::slot_after`].
    ///
    /// # Errors
    ///
    /// [`Refusal::NoSuch`].
    pub fn remove(&mut self, slot: u64) -> Result<Removed, Refusal> {
        self.lent.take(OPENED.disjoint_remove, slot)
    }

    /// Removes every entry that intersects a range by a rule, and returns how many went: as
    /// [`Store::unload`](super::Store::unload). What is left is disjoint too (the theorem
    /// `unload-keeps` of crate disjoint).
    ///
    /// # Errors
    ///
    /// [`Refusal::BadRange`].
    pub fn unload(&mut self, rule: Rule, range: impl RangeBounds<u64>) -> Result<u64, Refusal> {
        Ok(self.lent.unload(&OPENED, rule, range)?.gone)
    }

    /// Moves the entry of each slot s to slot `plan[s]`: as
    /// [`Store::renumber`](super::Store::renumber). [`StoreRef::propose`] of
    /// [`DisjointStore::read`] makes a plan. What is left is disjoint too (the theorem
    /// `renumber-keeps` of crate disjoint).
    ///
    /// # Errors
    ///
    /// [`Refusal::BadPlan`].
    pub fn renumber(&mut self, plan: &[u64]) -> Result<(), Refusal> {
        self.lent.renumber(&OPENED, plan)
    }

    /// Gives the memory back, and returns the map in it.
    pub fn close(self) -> Map {
        self.lent.map
    }
}
