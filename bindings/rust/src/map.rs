//! The map by value: its calls take the memory, and each checks all of it.
use core::ops::RangeBounds;

use super::calls::PUBLIC;
use super::lent::{Lent, LentMut};
use super::{Hits, Inserted, Removed, StoreRef, Unloaded};
use crate::{Cursor, Drained, Entry, Query, Refusal, Rule, Step, Tally, Ticket, U};

/// A map: how many entries it has, in slots 0 to count - 1, the slot of its root, and its version.
#[derive(Clone, Copy, Debug, PartialEq, Eq)]
pub struct Map {
    /// The number of entries.
    pub count: u64,
    /// The slot of the root, [`U`] if there are no entries.
    pub root: u64,
    /// How often it was changed, modulo 2^32: each build, removal, insertion, renumbering and
    /// reading of an image that is not refused counts, and an unloading counts once for each entry
    /// that went.
    pub version: u32,
}

impl Map {
    /// The map of no entries.
    pub const fn new() -> Map {
        Map {
            count: 0,
            root: U,
            version: 0,
        }
    }

    fn over<'a>(self, nodes: &'a [u64], colours: &'a [u8]) -> Lent<'a> {
        Lent {
            map: self,
            nodes,
            colours,
        }
    }

    fn over_mut<'a>(self, nodes: &'a mut [u64], colours: &'a mut [u8]) -> LentMut<'a> {
        LentMut {
            map: self,
            nodes,
            colours,
        }
    }

    /// Checks the store.
    ///
    /// # Errors
    ///
    /// [`Refusal::NoRoom`], [`Refusal::Broken`].
    pub fn check(self, nodes: &[u64], colours: &[u8]) -> Result<(), Refusal> {
        self.over(nodes, colours).check()
    }

    /// Builds the map of a sorted list of triples start, end, value, in the place of this map.
    /// Entry k goes to slot k. Of this map only the version is read: the new map has the next one.
    /// So build on the map that you have, and on [`Map::new`] only if there is none.
    ///
    /// # Errors
    ///
    /// [`Refusal::BadList`], [`Refusal::NoRoom`], [`Refusal::BadInterval`], [`Refusal::NotSorted`].
    pub fn build(
        self,
        nodes: &mut [u64],
        colours: &mut [u8],
        list: &[u64],
    ) -> Result<Map, Refusal> {
        let mut lent = self.over_mut(nodes, colours);
        lent.build(list)?;
        Ok(lent.map)
    }

    /// A ticket for a slot. The slot is tested when the ticket is used.
    pub const fn ticket(self, slot: u64) -> Ticket {
        Ticket::new(slot, self.version)
    }

    /// The entry of a ticket.
    ///
    /// # Errors
    ///
    /// [`Refusal::NoRoom`], [`Refusal::Broken`], [`Refusal::Stale`], [`Refusal::NoSuch`].
    pub fn read(self, nodes: &[u64], colours: &[u8], ticket: Ticket) -> Result<Entry, Refusal> {
        self.over(nodes, colours).read(&PUBLIC, ticket)
    }

    /// Writes the map as an image to the front of `out`, and returns the image's length, which is
    /// [`image_len`](crate::image_len) of the count. Bytes past the image are unchanged. The
    /// version is not in the image.
    ///
    #[cfg_attr(iset_linked, doc = "```")]
    #[cfg_attr(not(iset_linked), doc = "```no_run")]
    #[doc = using!("{image_len, Map, Refusal, NODE_WORDS}")]
    ///
    /// # fn main() -> Result<(), Refusal> {
    /// let (mut nodes, mut colours) = ([0; 3 * NODE_WORDS], [0; 1]);
    /// let list = [10, 20, 1, 10, 30, 2, 25, 40, 3];
    /// let map = Map::new().build(&mut nodes, &mut colours, &list)?;
    /// let mut image = [0; image_len(3)];
    /// assert_eq!(map.write_image(&nodes, &colours, &mut image), Ok(153));
    ///
    /// let (mut words, mut bits) = ([0; 3 * NODE_WORDS], [0; 1]);
    /// let back = Map::new().read_image(&mut words, &mut bits, &image)?;
    /// assert_eq!((back, words, bits), (map, nodes, colours));
    /// image[8] = 2;
    /// assert_eq!(back.read_image(&mut words, &mut bits, &image), Err(Refusal::BadImage));
    /// # Ok(())
    /// # }
    /// ```
    ///
    /// # Errors
    ///
    /// [`Refusal::NoRoom`], [`Refusal::Broken`], [`Refusal::ShortOutput`].
    pub fn write_image(
        self,
        nodes: &[u64],
        colours: &[u8],
        out: &mut [u8],
    ) -> Result<usize, Refusal> {
        self.over(nodes, colours).write_image(&PUBLIC, out)
    }

    /// Reads the map of an image, in the place of this map: the map that was written, in the same
    /// slots. Of this map only the version is read: the new map has the next one. The image may
    /// come from anywhere. It is tested as a whole before anything is written.
    ///
    /// # Errors
    ///
    /// [`Refusal::BadImage`] if the bytes have not the layout or the length of an image,
    /// [`Refusal::NoRoom`], [`Refusal::Broken`] if the store in the image does not pass the check.
    pub fn read_image(
        self,
        nodes: &mut [u64],
        colours: &mut [u8],
        image: &[u8],
    ) -> Result<Map, Refusal> {
        let mut lent = self.over_mut(nodes, colours);
        lent.read_image(image)?;
        Ok(lent.map)
    }

    /// Removes the entry of a slot.
    ///
    /// # Errors
    ///
    /// [`Refusal::NoRoom`], [`Refusal::Broken`], [`Refusal::NoSuch`].
    pub fn remove(
        self,
        nodes: &mut [u64],
        colours: &mut [u8],
        slot: u64,
    ) -> Result<Removed, Refusal> {
        self.over_mut(nodes, colours).remove(&PUBLIC, slot)
    }

    /// Adds an entry, after those that are equal to it. No other entry changes slot.
    ///
    #[cfg_attr(iset_linked, doc = "```")]
    #[cfg_attr(not(iset_linked), doc = "```no_run")]
    #[doc = using!("{Map, Refusal, NODE_WORDS}")]
    ///
    /// # fn main() -> Result<(), Refusal> {
    /// let (mut nodes, mut colours) = ([0; 2 * NODE_WORDS], [0; 1]);
    /// let first = Map::new().insert(&mut nodes, &mut colours, 15, 30, 8)?;
    /// let second = first.map.insert(&mut nodes, &mut colours, 10, 20, 7)?;
    /// assert_eq!((first.slot, second.slot), (0, 1));
    /// assert_eq!(second.map.insert(&mut nodes, &mut colours, 10, 20, 9), Err(Refusal::NoRoom));
    /// # Ok(())
    /// # }
    /// ```
    ///
    /// # Errors
    ///
    /// [`Refusal::NoRoom`] if the slices hold no more entries than the count, [`Refusal::Broken`],
    /// [`Refusal::BadInterval`].
    pub fn insert(
        self,
        nodes: &mut [u64],
        colours: &mut [u8],
        start: u64,
        end: u64,
        value: u64,
    ) -> Result<Inserted, Refusal> {
        let mut lent = self.over_mut(nodes, colours);
        lent.insert(&PUBLIC, [start, end, value])
    }

    /// Removes every entry that intersects a range by a rule, always the first one in order. The
    /// others keep their order, and may change slot. If none went, nothing has changed.
    ///
    #[cfg_attr(iset_linked, doc = "```")]
    #[cfg_attr(not(iset_linked), doc = "```no_run")]
    #[doc = using!("{Map, Refusal, Rule, NODE_WORDS}")]
    ///
    /// # fn main() -> Result<(), Refusal> {
    /// let (mut nodes, mut colours) = ([0; 3 * NODE_WORDS], [0; 1]);
    /// let list = [10, 20, 1, 10, 30, 2, 25, 40, 3];
    /// let map = Map::new().build(&mut nodes, &mut colours, &list)?;
    /// let unloaded = map.unload(&mut nodes, &mut colours, Rule::Any, 20..30)?;
    /// assert_eq!((unloaded.gone, unloaded.map.count, unloaded.map.version), (2, 1, 3));
    /// # Ok(())
    /// # }
    /// ```
    ///
    /// # Errors
    ///
    /// [`Refusal::NoRoom`], [`Refusal::Broken`], [`Refusal::BadRange`].
    pub fn unload(
        self,
        nodes: &mut [u64],
        colours: &mut [u8],
        rule: Rule,
        range: impl RangeBounds<u64>,
    ) -> Result<Unloaded, Refusal> {
        self.over_mut(nodes, colours).unload(&PUBLIC, rule, range)
    }

    /// Proposes a plan that numbers the slots in order: `out[slot]` becomes the place of that
    /// slot's entry, counted from 0. The plan is the first `count` places; those past it are
    /// unchanged. Nothing moves: [`Map::renumber`] takes the plan.
    ///
    #[cfg_attr(iset_linked, doc = "```")]
    #[cfg_attr(not(iset_linked), doc = "```no_run")]
    #[doc = using!("{Map, Refusal, NODE_WORDS}")]
    ///
    /// # fn main() -> Result<(), Refusal> {
    /// let (mut nodes, mut colours, mut out) = ([0; 3 * NODE_WORDS], [0; 1], [7; 3]);
    /// let late = Map::new().insert(&mut nodes, &mut colours, 25, 40, 3)?.map;
    /// let map = late.insert(&mut nodes, &mut colours, 10, 20, 1)?.map;
    /// map.propose(&nodes, &colours, &mut out)?;
    /// assert_eq!(out, [1, 0, 7]);
    ///
    /// let tidy = map.renumber(&mut nodes, &mut colours, &out[..2])?;
    /// tidy.propose(&nodes, &colours, &mut out)?;
    /// assert_eq!((tidy.version, out), (3, [0, 1, 7]));
    /// # Ok(())
    /// # }
    /// ```
    ///
    /// # Errors
    ///
    /// [`Refusal::NoRoom`], [`Refusal::Broken`], [`Refusal::ShortOutput`] if `out` has fewer places
    /// than the count.
    pub fn propose(self, nodes: &[u64], colours: &[u8], out: &mut [u64]) -> Result<(), Refusal> {
        self.over(nodes, colours).propose(&PUBLIC, out)
    }

    /// Moves the entry of each slot s to slot `plan[s]`, with its colour and its links. The plan is
    /// that of [`Map::propose`] or any other: it has `count` numbers, and each slot below the count
    /// is one of them. The entries keep their order. The new map has the next version, also if
    /// nothing moved. The call takes up to 24 KiB of stack.
    ///
    /// # Errors
    ///
    /// [`Refusal::NoRoom`], [`Refusal::Broken`], [`Refusal::BadPlan`].
    pub fn renumber(
        self,
        nodes: &mut [u64],
        colours: &mut [u8],
        plan: &[u64],
    ) -> Result<Map, Refusal> {
        let mut lent = self.over_mut(nodes, colours);
        lent.renumber(&PUBLIC, plan)?;
        Ok(lent.map)
    }

    /// Where an overlap lookup begins. The map is tested when the cursor is used.
    #[inline]
    pub const fn fresh(self) -> Cursor {
        Cursor {
            slot: self.root,
            levels: 1,
            bits: 0,
        }
    }

    /// Where an exact lookup begins: at the highest entry in the tree that is equal to the
    /// interval.
    ///
    /// # Errors
    ///
    /// [`Refusal::NoRoom`], [`Refusal::Broken`], [`Refusal::BadInterval`].
    pub fn fresh_exact(
        self,
        nodes: &[u64],
        colours: &[u8],
        start: u64,
        end: u64,
    ) -> Result<Cursor, Refusal> {
        self.begin(nodes, colours, Query::Exact { start, end })
    }

    /// Where a lookup of a query begins.
    ///
    /// # Errors
    ///
    /// None for an overlap; for an exact lookup those of [`Map::fresh_exact`].
    pub fn begin(self, nodes: &[u64], colours: &[u8], query: Query) -> Result<Cursor, Refusal> {
        self.over(nodes, colours).begin(&PUBLIC, query)
    }

    /// The next hit after a cursor, or the end.
    ///
    /// # Errors
    ///
    /// [`Refusal::NoRoom`], [`Refusal::Broken`], [`Refusal::BadRange`] or [`Refusal::BadInterval`],
    /// [`Refusal::BadCursor`].
    pub fn step(
        self,
        nodes: &[u64],
        colours: &[u8],
        query: Query,
        from: Cursor,
    ) -> Result<Step, Refusal> {
        self.over(nodes, colours).step(&PUBLIC, query, from)
    }

    /// Steps until the end, or until `limit` slots are written to `out`. A limit of 0 means
    /// `out.len()`: as many as fit. Places past the slots are unchanged.
    ///
    /// # Errors
    ///
    /// Those of [`Map::step`], then [`Refusal::ShortOutput`].
    pub fn drain(
        self,
        nodes: &[u64],
        colours: &[u8],
        query: Query,
        from: Cursor,
        limit: u64,
        out: &mut [u64],
    ) -> Result<Drained, Refusal> {
        let lent = self.over(nodes, colours);
        lent.drain(&PUBLIC, query, from, limit, out)
    }

    /// Finds all hits without pruning: it visits every entry in order, tests each, and writes the
    /// slots of the hits to `out`, which has a place for every entry. They are the slots that
    /// [`Map::hits`] hands out.
    ///
    #[cfg_attr(iset_linked, doc = "```")]
    #[cfg_attr(not(iset_linked), doc = "```no_run")]
    #[doc = using!("{Map, Query, Refusal, NODE_WORDS}")]
    ///
    /// # fn main() -> Result<(), Refusal> {
    /// let (mut nodes, mut colours, mut out) = ([0; 3 * NODE_WORDS], [0; 1], [7; 3]);
    /// let list = [10, 20, 1, 10, 30, 2, 25, 40, 3];
    /// let map = Map::new().build(&mut nodes, &mut colours, &list)?;
    /// let found = map.plain(&nodes, &colours, Query::overlap(20..30), &mut out)?;
    /// assert_eq!((found.hits, found.entered, out), (2, 3, [1, 2, 7]));
    /// # Ok(())
    /// # }
    /// ```
    ///
    /// # Errors
    ///
    /// [`Refusal::NoRoom`], [`Refusal::Broken`], [`Refusal::BadRange`] or [`Refusal::BadInterval`],
    /// [`Refusal::ShortOutput`].
    pub fn plain(
        self,
        nodes: &[u64],
        colours: &[u8],
        query: Query,
        out: &mut [u64],
    ) -> Result<Tally, Refusal> {
        self.over(nodes, colours).plain(&PUBLIC, query, out)
    }

    /// Finds all hits at once, and writes the slots of the first of them to `out`: as many as it
    /// holds. They are the slots that [`Map::hits`] hands out. The number of hits includes those
    /// that were not written. It enters no node that [`Map::drain`] does not enter.
    ///
    #[cfg_attr(iset_linked, doc = "```")]
    #[cfg_attr(not(iset_linked), doc = "```no_run")]
    #[doc = using!("{Map, Query, Refusal, NODE_WORDS}")]
    ///
    /// # fn main() -> Result<(), Refusal> {
    /// let (mut nodes, mut colours, mut out) = ([0; 3 * NODE_WORDS], [0; 1], [7; 2]);
    /// let list = [10, 20, 1, 10, 30, 2, 25, 40, 3];
    /// let map = Map::new().build(&mut nodes, &mut colours, &list)?;
    /// let found = map.find_all(&nodes, &colours, Query::at(27), &mut out)?;
    /// assert_eq!((found.hits, out), (2, [1, 2]));
    /// let found = map.find_all(&nodes, &colours, Query::overlap(..), &mut out)?;
    /// assert_eq!((found.hits, out), (3, [0, 1]));
    /// # Ok(())
    /// # }
    /// ```
    ///
    /// # Errors
    ///
    /// [`Refusal::NoRoom`], [`Refusal::Broken`], [`Refusal::BadRange`] or [`Refusal::BadInterval`].
    pub fn find_all(
        self,
        nodes: &[u64],
        colours: &[u8],
        query: Query,
        out: &mut [u64],
    ) -> Result<Tally, Refusal> {
        self.over(nodes, colours).find_all(&PUBLIC, query, out)
    }

    /// The slots of all hits, in order, fetched through a lent buffer: as many at a time as it
    /// holds. The store is checked once, here: the borrow keeps it as it is.
    ///
    /// # Errors
    ///
    /// [`Refusal::NoRoom`], [`Refusal::Broken`], [`Refusal::BadRange`] or [`Refusal::BadInterval`];
    /// [`Refusal::ShortOutput`] if the buffer is empty.
    pub fn hits<'a>(
        self,
        nodes: &'a [u64],
        colours: &'a [u8],
        query: Query,
        buffer: &'a mut [u64],
    ) -> Result<Hits<'a>, Refusal> {
        StoreRef::open(self, nodes, colours)?.hits(query, buffer)
    }
}

impl Default for Map {
    fn default() -> Map {
        Map::new()
    }
}
