//! The hits of a lookup, one after the other.
use core::iter::FusedIterator;

use super::calls::OPENED;
use super::StoreRef;
use crate::{Cursor, Query, Refusal, U};

/// An iterator over the slots of the hits, in the order of the entries. It fetches as many slots as
/// its buffer holds at a time.
///
/// The first fetch can be refused: that is the `Result` of [`Map::hits`](super::Map::hits) and of
/// [`Store::hits`](super::Store::hits). After it the borrow keeps the store as it is, and no fetch
/// is refused.
///
/// # Panics
///
/// `next` panics if a later fetch is refused. The archives that belong to this crate never do that:
/// it is proved. Hits are never left out silently.
#[derive(Clone, Debug)]
pub struct Hits<'m, B = &'m mut [u64]> {
    store: StoreRef<'m>,
    query: Query,
    /// Where the next fetch begins.
    next: Cursor,
    buffer: B,
    /// The places of the buffer that are not handed out yet: from `at` up to `end`.
    at: usize,
    end: usize,
}

impl<'m, B: AsRef<[u64]> + AsMut<[u64]>> Hits<'m, B> {
    /// A lookup from its beginning, which has fetched nothing yet.
    pub(crate) fn new(
        store: StoreRef<'m>,
        query: Query,
        buffer: B,
    ) -> Result<Hits<'m, B>, Refusal> {
        let next = store.lent.begin(&OPENED, query)?;
        Ok(Hits::from_cursor(store, query, next, buffer))
    }

    /// A lookup from a cursor, which has fetched nothing yet.
    pub(crate) fn from_cursor(
        store: StoreRef<'m>,
        query: Query,
        next: Cursor,
        buffer: B,
    ) -> Hits<'m, B> {
        Hits {
            store,
            query,
            next,
            buffer,
            at: 0,
            end: 0,
        }
    }

    /// The lookup of an address, by one call that finds all hits. If the buffer does not hold them,
    /// it is fetched from its beginning in pieces.
    pub(crate) fn at(store: StoreRef<'m>, address: u64, mut buffer: B) -> Hits<'m, B> {
        let query = Query::at(address);
        let out = buffer.as_mut();
        let found = match store.lent.find_all(&OPENED, query, out) {
            Ok(tally) => tally.hits,
            Err(why) => refused(why),
        };
        let held = found <= out.len() as u64;
        let mut hits = Hits::from_cursor(store, query, store.lent.map.fresh(), buffer);
        if held {
            hits.next = Cursor::ENDED;
            hits.end = found as usize;
        }
        hits
    }

    /// Fetches the next slots into the buffer.
    pub(crate) fn fetch(&mut self) -> Result<(), Refusal> {
        let out = self.buffer.as_mut();
        let drained = self
            .store
            .lent
            .drain(&OPENED, self.query, self.next, 0, out)?;
        // A drain into no place answers no hits, as if there were none.
        if out.is_empty() {
            return Err(Refusal::ShortOutput);
        }
        self.next = drained.next;
        self.at = 0;
        self.end = drained.hits as usize;
        Ok(())
    }

    pub(crate) fn store(&self) -> StoreRef<'m> {
        self.store
    }
}

/// An answer that cannot be: the query was accepted, or is an address, the store is borrowed, and
/// the cursor is the last answer's own (the theorem `cursor-accepted` of crate iset).
#[cold]
pub(crate) fn refused(why: Refusal) -> ! {
    panic!("a lookup of a checked store was refused: {why}; are the archives of another version?")
}

impl<B: AsRef<[u64]> + AsMut<[u64]>> Iterator for Hits<'_, B> {
    type Item = u64;

    fn next(&mut self) -> Option<u64> {
        if self.at == self.end && self.next.slot != U {
            if let Err(why) = self.fetch() {
                refused(why);
            }
        }
        let slot = *self.buffer.as_ref()[..self.end].get(self.at)?;
        self.at += 1;
        Some(slot)
    }
}

impl<B: AsRef<[u64]> + AsMut<[u64]>> FusedIterator for Hits<'_, B> {}
