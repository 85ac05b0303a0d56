//! A map together with the memory that it lives in, checked once.
use core::iter::FusedIterator;
use core::ops::{Range, RangeBounds};

use super::calls::OPENED;
use super::lent::{Lent, LentMut};
use super::{Hits, Map, Removed, NODE_WORDS};
use crate::{Entry, Query, Refusal, Rule, Tally, Ticket};

/// How many hits an iterator fetches at a time. A call that continues tests its cursor, one link a
/// level, and an exact one searches for its beginning again: that costs if few are fetched.
const MANY: usize = 64;

/// The same for the entries at an address: they are few, and there the size of the array itself
/// costs.
const FEW: usize = 8;

/// A checked map over memory that nobody writes while it is borrowed. It can be copied and sent to
/// other threads.
#[derive(Clone, Copy, Debug)]
pub struct StoreRef<'m> {
    pub(crate) lent: Lent<'m>,
}

impl<'m> StoreRef<'m> {
    /// Checks the store, once. As for [`Store::open`], no other process may write the memory.
    ///
    /// # Errors
    ///
    /// [`Refusal::NoRoom`], [`Refusal::Broken`].
    pub fn open(map: Map, nodes: &'m [u64], colours: &'m [u8]) -> Result<StoreRef<'m>, Refusal> {
        let lent = Lent {
            map,
            nodes,
            colours,
        };
        lent.check()?;
        Ok(StoreRef { lent })
    }

    /// The number of entries. They are in slots 0 to `len() - 1`.
    #[inline]
    pub fn len(self) -> usize {
        self.lent.map.count as usize
    }

    /// Whether there are no entries.
    #[inline]
    pub fn is_empty(self) -> bool {
        self.lent.map.count == 0
    }

    /// The entry of a slot; `None` if the slot is not below the number of entries.
    #[inline]
    pub fn get(self, slot: u64) -> Option<Entry> {
        (slot < self.lent.map.count).then(|| self.entry(slot))
    }

    /// The entry of a slot that is below the number of entries.
    #[inline]
    fn entry(self, slot: u64) -> Entry {
        let words = &self.lent.nodes[slot as usize * NODE_WORDS..][..NODE_WORDS];
        Entry {
            slot,
            range: words[0]..words[1],
            value: words[2],
        }
    }

    /// A ticket for a slot. The slot is tested when the ticket is used.
    #[inline]
    pub fn ticket(self, slot: u64) -> Ticket {
        self.lent.map.ticket(slot)
    }

    /// The entry of a ticket.
    ///
    /// # Errors
    ///
    /// [`Refusal::Stale`], [`Refusal::NoSuch`].
    pub fn read_ticket(self, ticket: Ticket) -> Result<Entry, Refusal> {
        self.lent.read(&OPENED, ticket)
    }

    /// Writes the map as an image to the front of `out`, and returns the image's length: as
    /// [`Map::write_image`].
    ///
    /// # Errors
    ///
    /// [`Refusal::ShortOutput`].
    pub fn write_image(self, out: &mut [u8]) -> Result<usize, Refusal> {
        self.lent.write_image(&OPENED, out)
    }

    /// Writes a plan that numbers the slots in order: as [`Map::propose`].
    ///
    /// # Errors
    ///
    /// [`Refusal::ShortOutput`].
    pub fn propose(self, out: &mut [u64]) -> Result<(), Refusal> {
        self.lent.propose(&OPENED, out)
    }

    /// All entries in order: by start, then end, equal ones in the order in which they were added.
    #[inline]
    pub fn entries(self) -> Entries<'m, MANY> {
        Entries::of_map(self, Query::overlap(..))
    }

    /// The entries that hold an address, in order: found at once, by [`Map::find_all`] without the
    /// check.
    ///
    /// # Panics
    ///
    /// As [`Hits`].
    #[inline]
    pub fn at(self, address: u64) -> Entries<'m, FEW> {
        let hits = Hits::at(self, address, [0; FEW]);
        Entries { hits }
    }

    /// The entries that intersect a range, in order.
    ///
    /// # Errors
    ///
    /// [`Refusal::BadRange`].
    pub fn overlap(self, range: impl RangeBounds<u64>) -> Result<Entries<'m, MANY>, Refusal> {
        Entries::new(self, Query::overlap(range))
    }

    /// The entries equal to a range, in the order in which they were added.
    ///
    /// # Errors
    ///
    /// [`Refusal::BadInterval`].
    pub fn exact(self, range: Range<u64>) -> Result<Entries<'m, MANY>, Refusal> {
        let Range { start, end } = range;
        Entries::new(self, Query::Exact { start, end })
    }

    /// The slots of all hits, in order, fetched through a lent buffer: as many at a time as it
    /// holds.
    ///
    /// # Errors
    ///
    /// [`Refusal::BadRange`] or [`Refusal::BadInterval`]; [`Refusal::ShortOutput`] if the buffer is
    /// empty.
    pub fn hits<'a>(self, query: Query, buffer: &'a mut [u64]) -> Result<Hits<'a>, Refusal>
    where
        'm: 'a,
    {
        let mut hits = Hits::new(self, query, buffer)?;
        hits.fetch()?;
        Ok(hits)
    }

    /// Writes the slots of all hits to `out`, without pruning: as [`Map::plain`].
    ///
    /// # Errors
    ///
    /// [`Refusal::BadRange`] or [`Refusal::BadInterval`]; [`Refusal::ShortOutput`].
    pub fn plain(self, query: Query, out: &mut [u64]) -> Result<Tally, Refusal> {
        self.lent.plain(&OPENED, query, out)
    }

    /// Writes the slots of the first hits to `out`, as many as it holds: as [`Map::find_all`].
    ///
    /// # Errors
    ///
    /// [`Refusal::BadRange`] or [`Refusal::BadInterval`].
    pub fn find_all(self, query: Query, out: &mut [u64]) -> Result<Tally, Refusal> {
        self.lent.find_all(&OPENED, query, out)
    }
}

/// A checked map and its memory. While it lives nobody else can write that memory, and its own
/// calls leave a store that passes the check (the theorem `opened-keeps` of crate iset), so the
/// check is made once. No method lends out the words to be written.
///
#[cfg_attr(iset_linked, doc = "```")]
#[cfg_attr(not(iset_linked), doc = "```no_run")]
#[doc = using!("{Query, Refusal, Store, NODE_WORDS}")]
///
/// # fn main() -> Result<(), Refusal> {
/// let (mut nodes, mut colours) = ([0; 4 * NODE_WORDS], [0; 1]);
/// let list = [[10, 20, 1], [10, 30, 2], [25, 40, 3]];
/// let mut store = Store::build(&mut nodes, &mut colours, &list)?;
/// assert_eq!(store.insert(25..40, 4)?, 3);
/// assert!(store.overlap(20..=25)?.map(|entry| entry.value).eq([2, 3, 4]));
/// assert!(store.exact(25..40)?.map(|entry| entry.slot).eq([2, 3]));
///
/// let mut sum = 0;
/// for slot in store.hits(Query::overlap(20..=25), &mut [0; 2])? {
///     sum += slot;
/// }
/// assert_eq!(sum, 1 + 2 + 3);
///
/// let removed = store.remove(0)?;
/// assert_eq!((removed.value, removed.slot_after(0)), (1, None));
/// let kept = removed.slot_after(3).unwrap();
/// assert_eq!(store.get(kept).map(|entry| entry.value), Some(4));
///
/// let map = store.close();
/// assert_eq!(map.check(&nodes, &colours), Ok(()));
/// # Ok(())
/// # }
/// ```
#[derive(Debug)]
pub struct Store<'m> {
    lent: LentMut<'m>,
}

impl<'m> Store<'m> {
    /// Checks the store, once.
    ///
    /// The borrows keep the rest of this program from writing the memory. They do not keep another
    /// process from it if the memory is shared. If one writes it, answers may be wrong and a call
    /// may take long; still every call ends and stays inside the memory.
    ///
    /// # Errors
    ///
    /// [`Refusal::NoRoom`], [`Refusal::Broken`].
    pub fn open(
        map: Map,
        nodes: &'m mut [u64],
        colours: &'m mut [u8],
    ) -> Result<Store<'m>, Refusal> {
        map.check(nodes, colours)?;
        let lent = LentMut {
            map,
            nodes,
            colours,
        };
        Ok(Store { lent })
    }

    /// Builds the map of a sorted list of entries start, end, value. Entry k goes to slot k. The
    /// map has version 1: to load a new list later, use [`Store::rebuild`].
    ///
    /// # Errors
    ///
    /// [`Refusal::NoRoom`], [`Refusal::BadInterval`], [`Refusal::NotSorted`].
    pub fn build(
        nodes: &'m mut [u64],
        colours: &'m mut [u8],
        list: &[[u64; 3]],
    ) -> Result<Store<'m>, Refusal> {
        let lent = LentMut {
            map: Map::new(),
            nodes,
            colours,
        };
        let mut store = Store { lent };
        store.rebuild(list)?;
        Ok(store)
    }

    /// Builds the map of a sorted list in the place of this store's, with the next version: every
    /// ticket of before is stale. If it is refused, the store is unchanged.
    ///
    /// # Errors
    ///
    /// [`Refusal::NoRoom`], [`Refusal::BadInterval`], [`Refusal::NotSorted`].
    pub fn rebuild(&mut self, list: &[[u64; 3]]) -> Result<(), Refusal> {
        // SAFETY: n arrays of three numbers are 3 n numbers, one after the other.
        let flat = unsafe { core::slice::from_raw_parts(list.as_ptr().cast(), list.len() * 3) };
        self.lent.build(flat)
    }

    /// The same store for reading: it can be copied and sent to other threads, and nothing writes
    /// while one of them lives.
    #[inline]
    pub fn read(&self) -> StoreRef<'_> {
        StoreRef {
            lent: self.lent.read(),
        }
    }

    /// The number of entries. They are in slots 0 to `len() - 1`.
    #[inline]
    pub fn len(&self) -> usize {
        self.read().len()
    }

    /// Whether there are no entries.
    #[inline]
    pub fn is_empty(&self) -> bool {
        self.read().is_empty()
    }

    /// The entry of a slot; `None` if the slot is not below the number of entries.
    #[inline]
    pub fn get(&self, slot: u64) -> Option<Entry> {
        self.read().get(slot)
    }

    /// A ticket for a slot: it can be read until the next change. The slot is tested then.
    #[inline]
    pub fn ticket(&self, slot: u64) -> Ticket {
        self.read().ticket(slot)
    }

    /// The entry of a ticket. ([`Store::read`] is the whole store for reading.)
    ///
    /// # Errors
    ///
    /// [`Refusal::Stale`] if the store has changed since the ticket was taken, [`Refusal::NoSuch`].
    pub fn read_ticket(&self, ticket: Ticket) -> Result<Entry, Refusal> {
        self.read().read_ticket(ticket)
    }

    /// Writes the map as an image to the front of `out`, and returns the image's length: as
    /// [`Map::write_image`].
    ///
    /// # Errors
    ///
    /// [`Refusal::ShortOutput`].
    pub fn write_image(&self, out: &mut [u8]) -> Result<usize, Refusal> {
        self.read().write_image(out)
    }

    /// Reads the map of an image in the place of this store's, with the next version: as
    /// [`Map::read_image`]. If it is refused, the store is unchanged.
    ///
    /// # Errors
    ///
    /// [`Refusal::BadImage`], [`Refusal::NoRoom`], [`Refusal::Broken`].
    pub fn read_image(&mut self, image: &[u8]) -> Result<(), Refusal> {
        self.lent.read_image(image)
    }

    /// All entries in order: by start, then end, equal ones in the order in which they were added.
    #[inline]
    pub fn entries(&self) -> Entries<'_, MANY> {
        self.read().entries()
    }

    /// The entries that hold an address, in order: found at once, by [`Map::find_all`] without the
    /// check.
    ///
    /// # Panics
    ///
    /// As [`Hits`].
    #[inline]
    pub fn at(&self, address: u64) -> Entries<'_, FEW> {
        self.read().at(address)
    }

    /// The entries that intersect a range, in order.
    ///
    /// # Errors
    ///
    /// [`Refusal::BadRange`].
    pub fn overlap(&self, range: impl RangeBounds<u64>) -> Result<Entries<'_, MANY>, Refusal> {
        self.read().overlap(range)
    }

    /// The entries equal to a range, in the order in which they were added.
    ///
    /// # Errors
    ///
    /// [`Refusal::BadInterval`].
    pub fn exact(&self, range: Range<u64>) -> Result<Entries<'_, MANY>, Refusal> {
        self.read().exact(range)
    }

    /// The slots of all hits, in order, fetched through a lent buffer: as many at a time as it
    /// holds.
    ///
    /// # Errors
    ///
    /// [`Refusal::BadRange`] or [`Refusal::BadInterval`]; [`Refusal::ShortOutput`] if the buffer is
    /// empty.
    pub fn hits<'a>(&'a self, query: Query, buffer: &'a mut [u64]) -> Result<Hits<'a>, Refusal> {
        self.read().hits(query, buffer)
    }

    /// Writes the slots of all hits to `out`, without pruning: as [`Map::plain`].
    ///
    /// # Errors
    ///
    /// [`Refusal::BadRange`] or [`Refusal::BadInterval`]; [`Refusal::ShortOutput`].
    pub fn plain(&self, query: Query, out: &mut [u64]) -> Result<Tally, Refusal> {
        self.read().plain(query, out)
    }

    /// Writes the slots of the first hits to `out`, as many as it holds: as [`Map::find_all`].
    ///
    #[cfg_attr(iset_linked, doc = "```")]
    #[cfg_attr(not(iset_linked), doc = "```no_run")]
    #[doc = using!("{Query, Refusal, Store, NODE_WORDS}")]
    ///
    /// # fn main() -> Result<(), Refusal> {
    /// let (mut nodes, mut colours, mut out) = ([0; 3 * NODE_WORDS], [0; 1], [7; 3]);
    /// let list = [[10, 20, 1], [10, 30, 2], [25, 40, 3]];
    /// let store = Store::build(&mut nodes, &mut colours, &list)?;
    /// let found = store.find_all(Query::overlap(20..30), &mut out)?;
    /// assert_eq!((found.hits, out), (2, [1, 2, 7]));
    /// # Ok(())
    /// # }
    /// ```
    ///
    /// # Errors
    ///
    /// [`Refusal::BadRange`] or [`Refusal::BadInterval`].
    pub fn find_all(&self, query: Query, out: &mut [u64]) -> Result<Tally, Refusal> {
        self.read().find_all(query, out)
    }

    /// Adds an entry, after those that are equal to it, and returns its slot. No other entry
    /// changes slot.
    ///
    /// # Errors
    ///
    /// [`Refusal::NoRoom`] if the memory is full, [`Refusal::BadInterval`].
    pub fn insert(&mut self, range: Range<u64>, value: u64) -> Result<u64, Refusal> {
        let inserted = self.lent.insert(&OPENED, [range.start, range.end, value])?;
        Ok(inserted.slot)
    }

    /// Removes the entry of a slot. Up to three others change slot: see [`Removed::slot_after`].
    ///
    /// # Errors
    ///
    /// [`Refusal::NoSuch`].
    pub fn remove(&mut self, slot: u64) -> Result<Removed, Refusal> {
        self.lent.remove(&OPENED, slot)
    }

    /// Removes every entry that intersects a range by a rule, always the first one in order, and
    /// returns how many went. The others keep their order, and may change slot. Tickets of before
    /// are stale, unless none went.
    ///
    #[cfg_attr(iset_linked, doc = "```")]
    #[cfg_attr(not(iset_linked), doc = "```no_run")]
    #[doc = using!("{Refusal, Rule, Store, NODE_WORDS}")]
    ///
    /// # fn main() -> Result<(), Refusal> {
    /// let (mut nodes, mut colours) = ([0; 3 * NODE_WORDS], [0; 1]);
    /// let list = [[10, 20, 1], [10, 30, 2], [25, 40, 3]];
    /// let mut store = Store::build(&mut nodes, &mut colours, &list)?;
    /// let ticket = store.ticket(0);
    /// assert_eq!(store.unload(Rule::Any, 40..)?, 0);
    /// assert_eq!(store.read_ticket(ticket)?.value, 1);
    /// assert_eq!(store.unload(Rule::Any, 20..30)?, 2);
    /// assert_eq!(store.read_ticket(ticket), Err(Refusal::Stale));
    /// assert!(store.entries().map(|entry| entry.value).eq([1]));
    /// # Ok(())
    /// # }
    /// ```
    ///
    /// # Errors
    ///
    /// [`Refusal::BadRange`].
    pub fn unload(&mut self, rule: Rule, range: impl RangeBounds<u64>) -> Result<u64, Refusal> {
        Ok(self.lent.unload(&OPENED, rule, range)?.gone)
    }

    /// Writes a plan that numbers the slots in order: as [`Map::propose`].
    ///
    /// # Errors
    ///
    /// [`Refusal::ShortOutput`].
    pub fn propose(&self, out: &mut [u64]) -> Result<(), Refusal> {
        self.read().propose(out)
    }

    /// Moves the entry of each slot s to slot `plan[s]`: as [`Map::renumber`]. Tickets of before
    /// are stale, also if nothing moved. If it is refused, the store is unchanged.
    ///
    /// # Errors
    ///
    /// [`Refusal::BadPlan`].
    pub fn renumber(&mut self, plan: &[u64]) -> Result<(), Refusal> {
        self.lent.renumber(&OPENED, plan)
    }

    /// Gives the memory back, and returns the map in it.
    pub fn close(self) -> Map {
        self.lent.map
    }
}

/// An iterator over entries of a checked store, in order. It fetches N slots at a time.
///
/// # Panics
///
/// As [`Hits`].
#[derive(Clone, Debug)]
pub struct Entries<'m, const N: usize> {
    hits: Hits<'m, [u64; N]>,
}

impl<'m, const N: usize> Entries<'m, N> {
    /// A lookup whose query may be refused.
    fn new(store: StoreRef<'m>, query: Query) -> Result<Entries<'m, N>, Refusal> {
        let mut hits = Hits::new(store, query, [0; N])?;
        hits.fetch()?;
        Ok(Entries { hits })
    }

    /// A lookup whose query is never refused, and which fetches when it is first asked.
    fn of_map(store: StoreRef<'m>, query: Query) -> Entries<'m, N> {
        let next = store.lent.map.fresh();
        let hits = Hits::from_cursor(store, query, next, [0; N]);
        Entries { hits }
    }
}

impl<const N: usize> Iterator for Entries<'_, N> {
    type Item = Entry;

    fn next(&mut self) -> Option<Entry> {
        let slot = self.hits.next()?;
        Some(self.hits.store().entry(slot))
    }
}

impl<const N: usize> FusedIterator for Entries<'_, N> {}
