//! The interval map of loaded code: ranges of addresses, each with a value, in a red-black tree
//! inside memory that the caller lends. The map is written in Rattle and proved. This crate is its
//! face for Rust, without `std`, without allocation and without dependencies.
//!
//! The entries of a map are in two lent slices: `nodes`, eight words a slot, and `colours`, one bit
//! a slot. A call answers, or returns the first [`Refusal`] that applies, and then nothing lent has
//! changed.
//!
//! A [`Store`] is a map together with its two slices. It checks them once, when it is opened. After
//! that nobody else can write the slices, and each call takes the time of its own work. A
//! [`StoreRef`] is the same for reading.
//!
//! A [`Map`] is the count, the root and the version alone, by value. Its calls take any numbers and
//! any contents, and test all of them each time. That takes a time that grows with the count.
//!
//! A [`DisjointStore`] and a [`DisjointMap`] are the same for a map in which no two ranges overlap:
//! one lookup finds the only entry that holds an address, by one way down the tree.
//!
//! A [`Ticket`] is a slot that knows the version of its map: reading through it after a change is
//! refused.
//!
//! The functions of [`image`] look an address up in a saved map, over its bytes alone.
//!
//! The types of [`narrow`] are the same for nodes of six words a slot, which take three quarters of
//! the memory.
//!
#![cfg_attr(iset_linked, doc = "```")]
#![cfg_attr(not(iset_linked), doc = "```no_run")]
//! use iset_proved::{Query, Store};
//!
//! # fn main() -> Result<(), iset_proved::Refusal> {
//! let list = [[10, 20, 1], [10, 30, 2], [25, 40, 3], [40, 50, 4], [45, 60, 5]];
//! let (mut nodes, mut colours) = ([0; 5 * 8], [0; 1]);
//! let mut store = Store::build(&mut nodes, &mut colours, &list)?;
//!
//! let removed = store.remove(1)?;
//! assert_eq!(removed.value, 2);
//! assert!(removed.moved().eq([(0, 1), (4, 0)]));
//!
//! let mut buffer = [0; 2];
//! for slot in store.hits(Query::overlap(20..45), &mut buffer)? {
//!     assert!(slot == 2 || slot == 3);
//! }
//!
//! let slot = store.insert(45..48, 6)?;
//! assert!(store.at(47).map(|entry| entry.value).eq([4, 6, 5]));
//! assert_eq!(store.remove(slot)?.value, 6);
//! # Ok(())
//! # }
//! ```
#![no_std]
#![warn(missing_docs)]

/// Where an example in the documentation takes its names from: the types of eight-word nodes are
/// here. The modules changes, disjoint, hits, lent, map and store are compiled twice. They take
/// what differs from the module above them, `super`: here, and in [`narrow`].
macro_rules! using {
    ($names:literal) => {
        concat!("use iset_proved::", $names, ";")
    };
}

mod answers;
mod changes;
mod disjoint;
pub mod ffi;
mod hits;
pub mod image;
mod lent;
mod map;
pub mod narrow;
mod query;
mod refusal;
mod store;
mod ticket;

/// The calls on eight-word nodes.
mod calls {
    pub(crate) use crate::ffi::{ALONE, OPENED, PUBLIC};
}

pub use answers::{Cursor, Drained, Entry, NotPlaced, Spot, Step, Tally};
pub use changes::{Inserted, Removed, Unloaded};
pub use disjoint::{DisjointMap, DisjointStore};
pub use hits::Hits;
pub use map::Map;
pub use query::{Query, Rule};
pub use refusal::Refusal;
pub use store::{Entries, Store, StoreRef};
pub use ticket::Ticket;

/// No slot: the root of the map of no entries, and a link that leads nowhere.
pub const U: u64 = 4294967295;

/// How many words of `nodes` a slot has: start, end, value, hull start, hull end, left, right,
/// parent.
pub const NODE_WORDS: usize = 8;

/// The most entries that a map holds, whatever is lent.
pub const MOST_ENTRIES: usize = 65535;

/// How many entries the slices and [`MOST_ENTRIES`] leave room for, by the lengths of the slices.
///
/// ```
/// assert_eq!(iset_proved::capacity(40, 1), 5);
/// assert_eq!(iset_proved::capacity(400, 1), 8);
/// ```
pub fn capacity(nodes: usize, colours: usize) -> usize {
    room(nodes / NODE_WORDS, colours)
}

/// How many entries so many slots, the colours and [`MOST_ENTRIES`] leave room for.
fn room(slots: usize, colours: usize) -> usize {
    slots.min(colours.saturating_mul(8)).min(MOST_ENTRIES)
}

/// How many bytes the image of a map of so many entries has.
///
/// ```
/// assert_eq!(iset_proved::image_len(0), 44);
/// assert_eq!(iset_proved::image_len(5), 225);
/// ```
pub const fn image_len(entries: usize) -> usize {
    44 + entries * 36 + entries / 8 + (entries % 8 != 0) as usize
}

/// Threads may share and pass on all of it.
const _: () = {
    const fn shared<T: Send + Sync>() {}
    shared::<Map>();
    shared::<Store<'static>>();
    shared::<StoreRef<'static>>();
    shared::<Entries<'static, 1>>();
    shared::<(DisjointMap, DisjointStore<'static>, NotPlaced, Spot)>();
    shared::<Hits<'static>>();
    shared::<(Query, Entry, Refusal, Ticket)>();
    shared::<(Removed, Inserted, Unloaded, Cursor, Step, Drained, Tally)>();
    shared::<(narrow::Map, narrow::Store<'static>)>();
    shared::<(narrow::StoreRef<'static>, narrow::Entries<'static, 1>)>();
    shared::<(narrow::DisjointMap, narrow::DisjointStore<'static>)>();
    shared::<(
        narrow::Hits<'static>,
        narrow::Removed,
        narrow::Inserted,
        narrow::Unloaded,
    )>();
};
