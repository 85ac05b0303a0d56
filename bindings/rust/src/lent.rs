//! A map over the two slices that are lent to a call, and the calls.
use core::ops::{Bound, RangeBounds};

use super::calls::ALONE;
use super::{Inserted, Map, Removed, Unloaded};
use crate::ffi::{self, Calls};
use crate::{
    Cursor, Drained, Entry, NotPlaced, Query, Refusal, Rule, Spot, Step, Tally, Ticket, U,
};

/// A map and slices that a call reads.
#[derive(Clone, Copy, Debug)]
pub(crate) struct Lent<'a> {
    pub map: Map,
    pub nodes: &'a [u64],
    pub colours: &'a [u8],
}

/// A map and slices that a call writes.
#[derive(Debug)]
pub(crate) struct LentMut<'a> {
    pub map: Map,
    pub nodes: &'a mut [u64],
    pub colours: &'a mut [u8],
}

/// Makes a call: over what is lent, by the pointers that `$ptr` gives, with the numbers, and with
/// further slices that the call writes. A call that is `dated` takes the map's version too.
macro_rules! call {
    (dated $call:expr, $lent:expr, $ptr:ident; $($number:expr),*; $($written:expr),*) => {
        call!(@ $call, $lent, $ptr, $lent.map.version; $($number),*; $($written),*)
    };
    ($call:expr, $lent:expr, $ptr:ident; $($number:expr),*; $($written:expr),*) => {
        call!(@ $call, $lent, $ptr; $($number),*; $($written),*)
    };
    (@ $call:expr, $lent:expr, $ptr:ident $(, $version:expr)?; $($number:expr),*; $($written:expr),*) => {
        $call(
            $lent.map.count,
            $lent.map.root,
            $($version,)?
            $lent.nodes.$ptr(),
            $lent.nodes.len(),
            $lent.colours.$ptr(),
            $lent.colours.len(),
            $($number,)*
            $($written.as_mut_ptr(), $written.len()),*
        )
    };
}

/// Makes a call that puts another map in the place of the one that is lent, from a slice.
macro_rules! replace {
    ($call:expr, $lent:expr, $from:expr, $answer:expr) => {
        $call(
            $lent.map.version,
            $lent.nodes.as_mut_ptr(),
            $lent.nodes.len(),
            $lent.colours.as_mut_ptr(),
            $lent.colours.len(),
            $from.as_ptr(),
            $from.len(),
            $answer.as_mut_ptr(),
            $answer.len(),
        )
    };
}

/// The number that a call returned as a `Result`: every number but 0 is a refusal.
fn told(number: u64) -> Result<(), Refusal> {
    match Refusal::from_number(number) {
        None => Ok(()),
        Some(why) => Err(why),
    }
}

/// The map of an answer's numbers. A version has 32 bits.
fn map(count: u64, root: u64, version: u64) -> Map {
    Map {
        count,
        root,
        version: version as u32,
    }
}

/// A bound as the calls take it: its kind and its number.
fn numbers(bound: Bound<u64>) -> (u64, u64) {
    match bound {
        Bound::Included(x) => (0, x),
        Bound::Excluded(x) => (1, x),
        Bound::Unbounded => (2, 0),
    }
}

impl LentMut<'_> {
    #[inline]
    pub fn read(&self) -> Lent<'_> {
        Lent {
            map: self.map,
            nodes: self.nodes,
            colours: self.colours,
        }
    }

    pub fn build(&mut self, list: &[u64]) -> Result<(), Refusal> {
        let mut answer = [0; 3];
        // SAFETY: the slices and the answer are live during the call. Those that it writes are
        // borrowed by `&mut`, so they overlap nothing and nobody else uses them.
        told(unsafe { replace!(ALONE.build, self, list, answer) })?;
        self.replaced(answer)
    }

    pub fn read_image(&mut self, image: &[u8]) -> Result<(), Refusal> {
        let mut answer = [0; 3];
        // SAFETY: as in `build`.
        told(unsafe { replace!(ALONE.read_image, self, image, answer) })?;
        self.replaced(answer)
    }

    /// Takes the map of an answer.
    fn replaced(&mut self, answer: [u64; 3]) -> Result<(), Refusal> {
        let [count, root, version] = answer;
        self.map = map(count, root, version);
        Ok(())
    }

    pub fn remove(&mut self, calls: &Calls, slot: u64) -> Result<Removed, Refusal> {
        self.take(calls.remove, slot)
    }

    /// A removal by a call, of a disjoint map too.
    pub fn take(&mut self, call: ffi::Remove, slot: u64) -> Result<Removed, Refusal> {
        let mut answer = [0; 11];
        // SAFETY: as in `build`.
        told(unsafe { call!(dated call, self, as_mut_ptr; slot; answer) })?;
        let [value, count, root, a, a_now, b, b_now, c, c_now, reach, version] = answer;
        self.map = map(count, root, version);
        Ok(Removed {
            map: self.map,
            slot,
            value,
            pairs: [(a, a_now), (b, b_now), (c, c_now)],
            reach,
        })
    }

    pub fn insert(&mut self, calls: &Calls, entry: [u64; 3]) -> Result<Inserted, Refusal> {
        Ok(self.place(calls.insert, entry)?)
    }

    /// An insertion by a call, into a disjoint map too. There the answer of a refusal may be
    /// written, and then names a slot.
    pub fn place(&mut self, call: ffi::Insert, entry: [u64; 3]) -> Result<Inserted, NotPlaced> {
        let [start, end, value] = entry;
        let mut answer = [0, 0, U, 0, 0];
        // SAFETY: as in `build`.
        let number = unsafe { call!(dated call, self, as_mut_ptr; start, end, value; answer) };
        let [count, root, slot, reach, version] = answer;
        told(number).map_err(|why| NotPlaced { why, slot })?;
        self.map = map(count, root, version);
        Ok(Inserted {
            map: self.map,
            slot,
            reach,
        })
    }

    pub fn unload(
        &mut self,
        calls: &Calls,
        rule: Rule,
        range: impl RangeBounds<u64>,
    ) -> Result<Unloaded, Refusal> {
        let (a, lo) = numbers(range.start_bound().cloned());
        let (b, hi) = numbers(range.end_bound().cloned());
        let mut answer = [0; 4];
        told(match rule {
            Rule::Any => {
                // SAFETY: as in `build`.
                unsafe { call!(dated calls.unload, self, as_mut_ptr; a, lo, b, hi; answer) }
            }
            Rule::Whole => {
                let rule = rule as u64;
                // SAFETY: as in `build`.
                unsafe {
                    call!(dated calls.unload_ruled, self, as_mut_ptr; rule, a, lo, b, hi; answer)
                }
            }
        })?;
        let [count, root, version, gone] = answer;
        self.map = map(count, root, version);
        Ok(Unloaded {
            map: self.map,
            gone,
        })
    }

    pub fn renumber(&mut self, calls: &Calls, plan: &[u64]) -> Result<(), Refusal> {
        let (from, many) = (plan.as_ptr(), plan.len());
        let mut answer = [0; 3];
        // SAFETY: as in `build`; the plan is live too, and the call only reads it.
        told(unsafe { call!(dated calls.renumber, self, as_mut_ptr; from, many; answer) })?;
        self.replaced(answer)
    }
}

impl Lent<'_> {
    pub fn check(self) -> Result<(), Refusal> {
        // SAFETY: the slices are live during the call, which only reads them.
        told(unsafe { call!(ALONE.check, self, as_ptr;;) })
    }

    pub fn check_disjoint(self) -> Result<(), Refusal> {
        // SAFETY: as in `check`.
        told(unsafe { call!(ALONE.disjoint_check, self, as_ptr;;) })
    }

    /// The entry that holds an address, in a disjoint map.
    #[inline]
    pub fn point(self, calls: &Calls, address: u64) -> Result<Spot, Refusal> {
        let mut answer = [0; 2];
        // SAFETY: as in `begin`.
        told(unsafe { call!(calls.disjoint_point, self, as_ptr; address; answer) })?;
        let [slot, entered] = answer;
        Ok(Spot { slot, entered })
    }

    /// Writes the place of each slot in order.
    pub fn propose(self, calls: &Calls, out: &mut [u64]) -> Result<(), Refusal> {
        // SAFETY: as in `begin`, with the output for the answer.
        told(unsafe { call!(calls.propose, self, as_ptr;; out) })
    }

    /// The entry of a ticket.
    pub fn read(self, calls: &Calls, ticket: Ticket) -> Result<Entry, Refusal> {
        let (slot, taken) = (ticket.slot(), ticket.version());
        let mut answer = [0; 3];
        // SAFETY: as in `begin`.
        told(unsafe { call!(dated calls.read, self, as_ptr; slot, taken; answer) })?;
        let [start, end, value] = answer;
        Ok(Entry {
            slot,
            range: start..end,
            value,
        })
    }

    /// Writes the map as an image, and returns the image's length.
    pub fn write_image(self, calls: &Calls, out: &mut [u8]) -> Result<usize, Refusal> {
        let mut answer = [0; 1];
        // SAFETY: as in `begin`; the output is borrowed by `&mut` too.
        told(unsafe { call!(calls.write_image, self, as_ptr;; out, answer) })?;
        Ok(answer[0] as usize)
    }

    /// Where a lookup begins.
    pub fn begin(self, calls: &Calls, query: Query) -> Result<Cursor, Refusal> {
        let (start, end) = match query {
            Query::Overlap(..) | Query::Ruled(..) => return Ok(self.map.fresh()),
            Query::Exact { start, end } => (start, end),
        };
        let mut answer = [0; 3];
        // SAFETY: the slices are live during the call, which only reads them. The answer is
        // borrowed by `&mut`, so it overlaps nothing and nobody else uses it.
        told(unsafe { call!(calls.fresh_exact, self, as_ptr; start, end; answer) })?;
        let [slot, levels, bits] = answer;
        Ok(Cursor { slot, levels, bits })
    }

    pub fn step(self, calls: &Calls, query: Query, from: Cursor) -> Result<Step, Refusal> {
        let Cursor { slot, levels, bits } = from;
        let mut answer = [0; 5];
        told(match query {
            Query::Overlap(lo, hi) => {
                let ((a, lo), (b, hi)) = (numbers(lo), numbers(hi));
                // SAFETY: as in `begin`.
                unsafe { call!(calls.step, self, as_ptr; a, lo, b, hi, slot, levels, bits; answer) }
            }
            Query::Ruled(rule, lo, hi) => {
                let (rule, (a, lo), (b, hi)) = (rule as u64, numbers(lo), numbers(hi));
                // SAFETY: as in `begin`.
                unsafe {
                    call!(calls.step_ruled, self, as_ptr; rule, a, lo, b, hi, slot, levels, bits;
                        answer)
                }
            }
            Query::Exact { start, end } => {
                // SAFETY: as in `begin`.
                unsafe {
                    call!(calls.step_exact, self, as_ptr; start, end, slot, levels, bits; answer)
                }
            }
        })?;
        let [hit, slot, levels, bits, entered] = answer;
        let next = Cursor { slot, levels, bits };
        Ok(match hit {
            U => Step::End { entered },
            slot => Step::Hit {
                slot,
                next,
                entered,
            },
        })
    }

    pub fn drain(
        self,
        calls: &Calls,
        query: Query,
        from: Cursor,
        limit: u64,
        out: &mut [u64],
    ) -> Result<Drained, Refusal> {
        let Cursor { slot, levels, bits } = from;
        let mut answer = [0; 5];
        told(match query {
            Query::Overlap(lo, hi) => {
                let ((a, lo), (b, hi)) = (numbers(lo), numbers(hi));
                // SAFETY: as in `begin`; the output is borrowed by `&mut` too.
                unsafe {
                    call!(calls.drain, self, as_ptr; a, lo, b, hi, slot, levels, bits, limit;
                        out, answer)
                }
            }
            Query::Ruled(rule, lo, hi) => {
                let (rule, (a, lo), (b, hi)) = (rule as u64, numbers(lo), numbers(hi));
                // SAFETY: as in `begin`; the output is borrowed by `&mut` too.
                unsafe {
                    call!(calls.drain_ruled, self, as_ptr;
                        rule, a, lo, b, hi, slot, levels, bits, limit; out, answer)
                }
            }
            Query::Exact { start, end } => {
                // SAFETY: as in `begin`; the output is borrowed by `&mut` too.
                unsafe {
                    call!(calls.drain_exact, self, as_ptr; start, end, slot, levels, bits, limit;
                        out, answer)
                }
            }
        })?;
        let [hits, entered, slot, levels, bits] = answer;
        let next = Cursor { slot, levels, bits };
        Ok(Drained {
            hits,
            entered,
            next,
        })
    }

    pub fn plain(self, calls: &Calls, query: Query, out: &mut [u64]) -> Result<Tally, Refusal> {
        self.at_once(
            calls.plain,
            calls.plain_ruled,
            calls.plain_exact,
            query,
            out,
        )
    }

    pub fn find_all(self, calls: &Calls, query: Query, out: &mut [u64]) -> Result<Tally, Refusal> {
        self.at_once(
            calls.find_all,
            calls.find_all_ruled,
            calls.find_all_exact,
            query,
            out,
        )
    }

    /// A lookup that finds all hits at once, by a call for each kind of query. The plain one and
    /// the fast one have the same arguments.
    fn at_once(
        self,
        overlap: ffi::Plain,
        ruled: ffi::PlainRuled,
        exact: ffi::PlainExact,
        query: Query,
        out: &mut [u64],
    ) -> Result<Tally, Refusal> {
        let mut answer = [0; 2];
        told(match query {
            Query::Overlap(lo, hi) => {
                let ((a, lo), (b, hi)) = (numbers(lo), numbers(hi));
                // SAFETY: as in `begin`; the output is borrowed by `&mut` too.
                unsafe { call!(overlap, self, as_ptr; a, lo, b, hi; out, answer) }
            }
            Query::Ruled(rule, lo, hi) => {
                let (rule, (a, lo), (b, hi)) = (rule as u64, numbers(lo), numbers(hi));
                // SAFETY: as in `begin`; the output is borrowed by `&mut` too.
                unsafe { call!(ruled, self, as_ptr; rule, a, lo, b, hi; out, answer) }
            }
            Query::Exact { start, end } => {
                // SAFETY: as in `begin`; the output is borrowed by `&mut` too.
                unsafe { call!(exact, self, as_ptr; start, end; out, answer) }
            }
        })?;
        let [hits, entered] = answer;
        Ok(Tally { hits, entered })
    }
}
