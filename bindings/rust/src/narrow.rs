//! The same map on nodes of six words a slot: start, end, value, hull start, hull end, links.
//!
//! A slot is below 65,535, so the three links of a node fit one word, 16 bits each: left in the
//! lowest bits, then right, then parent. 65535 is a link that leads nowhere, and the top 16 bits
//! are 0. So the nodes take three quarters of the memory that eight words a slot take. An insertion
//! and a removal take longer. docs/MANUAL.md, at the top of the repository, says when to choose it.
//!
//! Every type here has the name, the methods and the answers of the type at the top of the crate.
//! If a program says [`NODE_WORDS`] for the words of a node, the path of its `use` decides on the
//! layout. Each call returns what the call at the top returns on the same nodes in eight words, and
//! leaves the same map and the same nodes (the theorem `agrees-both` of crate layouts).
//!
//! - The capacity counts six words a slot: see [`capacity`].
//! - A node below the count that has one of the top 16 bits set is [`Refusal::Broken`].
//! - The slot that a removal empties gets three links that lead nowhere: its last word is
//!   281474976710655.
//! - An image is the same from both layouts, and each reads what the other wrote.
//! - A [`Map`] of one layout is not a `Map` of the other. Its numbers are the same.
//!
#![cfg_attr(iset_linked, doc = "```")]
#![cfg_attr(not(iset_linked), doc = "```no_run")]
//! use iset_proved::narrow::{image_len, Store, NODE_WORDS};
//!
//! # fn main() -> Result<(), iset_proved::Refusal> {
//! let list = [[10, 20, 1], [10, 30, 2], [25, 40, 3], [40, 50, 4], [45, 60, 5]];
//! let (mut nodes, mut colours) = ([0; 5 * NODE_WORDS], [0; 1]);
//! let mut store = Store::build(&mut nodes, &mut colours, &list)?;
//! assert_eq!(store.remove(1)?.value, 2);
//! assert!(store.at(26).map(|entry| entry.value).eq([3]));
//!
//! let mut image = [0; image_len(4)];
//! store.write_image(&mut image)?;
//! store.close();
//! assert_eq!(nodes[4 * NODE_WORDS + 5], 281474976710655);
//!
//! let (mut wide, mut bits) = ([0; 4 * 8], [0; 1]);
//! let mut other = iset_proved::Store::build(&mut wide, &mut bits, &[])?;
//! other.read_image(&image)?;
//! assert!(other.at(26).map(|entry| entry.value).eq([3]));
//! # Ok(())
//! # }
//! ```

// The methods of both layouts are written once: these files are compiled with other calls here.
#![allow(clippy::duplicate_mod)]

/// As at the top of the crate, for the examples here.
macro_rules! using {
    ($names:literal) => {
        concat!("use iset_proved::narrow::", $names, ";")
    };
}

#[path = "changes.rs"]
mod changes;
#[path = "disjoint.rs"]
mod disjoint;
#[path = "hits.rs"]
mod hits;
#[path = "lent.rs"]
mod lent;
#[path = "map.rs"]
mod map;
#[path = "store.rs"]
mod store;

/// The calls on six-word nodes.
mod calls {
    pub(crate) use crate::ffi::{
        NARROW_ALONE as ALONE, NARROW_OPENED as OPENED, NARROW_PUBLIC as PUBLIC,
    };
}

pub use crate::{
    image, image_len, Cursor, Drained, Entry, NotPlaced, Query, Refusal, Rule, Spot, Step, Tally,
    Ticket, MOST_ENTRIES, U,
};
pub use changes::{Inserted, Removed, Unloaded};
pub use disjoint::{DisjointMap, DisjointStore};
pub use hits::Hits;
pub use map::Map;
pub use store::{Entries, Store, StoreRef};

/// How many words of `nodes` a slot has: start, end, value, hull start, hull end, links.
pub const NODE_WORDS: usize = 6;

/// How many entries the slices and [`MOST_ENTRIES`] leave room for, by the lengths of the slices.
///
/// ```
/// assert_eq!(iset_proved::narrow::capacity(30, 1), 5);
/// assert_eq!(iset_proved::narrow::capacity(35, 1), 5);
/// assert_eq!(iset_proved::narrow::capacity(400, 1), 8);
/// ```
pub fn capacity(nodes: usize, colours: usize) -> usize {
    crate::room(nodes / NODE_WORDS, colours)
}
