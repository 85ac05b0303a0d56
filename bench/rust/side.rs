//! The Rust side of the bench, for a C main: the crate iset 0.3.3 behind C functions, a plain check
//! of a store, a plain writer and reader of images, and bindings/rust.
#![no_std]
extern crate alloc;

mod heap;
mod image;
mod store;

use alloc::boxed::Box;
use alloc::vec::Vec;
use core::slice::{from_raw_parts, from_raw_parts_mut};
use iset::bench::{remove_at, store, Map};

/// A sorted list of triples without equals.
#[no_mangle]
pub unsafe extern "C" fn rust_build(list: *const u64, n: usize) -> *mut Map {
    let list = from_raw_parts(list, 3 * n);
    Box::into_raw(Box::new(Map::from_sorted(list.chunks_exact(3).map(|e| (e[0]..e[1], e[2])))))
}

/// No entries, with the memory for n.
#[no_mangle]
pub unsafe extern "C" fn rust_empty(n: usize) -> *mut Map {
    Box::into_raw(Box::new(Map::with_capacity(n)))
}

/// One entry more, equals kept.
#[no_mangle]
pub unsafe extern "C" fn rust_insert(map: *mut Map, start: u64, end: u64, value: u64) {
    (*map).force_insert(start..end, value);
}

#[no_mangle]
pub unsafe extern "C" fn rust_clone(map: *const Map) -> *mut Map {
    Box::into_raw(Box::new((*map).clone()))
}

#[no_mangle]
pub unsafe extern "C" fn rust_free(map: *mut Map) {
    drop(Box::from_raw(map));
}

#[no_mangle]
pub unsafe extern "C" fn rust_store(map: *const Map, words: *mut u64, bytes: *mut u8, n: usize) -> u64 {
    store(&*map, from_raw_parts_mut(words, 8 * n), from_raw_parts_mut(bytes, (n + 7) / 8))
}

#[no_mangle]
pub unsafe extern "C" fn rust_remove(map: *mut Map, slot: u64) -> u64 {
    remove_at(&mut *map, slot as u32).unwrap()
}

/// Removes the entries that intersect a range, one after the other, by their intervals. How many
/// there were.
#[no_mangle]
pub unsafe extern "C" fn rust_unload(map: *mut Map, start: u64, end: u64) -> u64 {
    let hits: Vec<_> = (*map).intervals(start..end).collect();
    hits.iter().filter(|hit| (*map).remove((*hit).clone()).is_some()).count() as u64
}

/// The sum of the values of all entries.
#[no_mangle]
pub unsafe extern "C" fn rust_all(map: *const Map) -> u64 {
    (*map).iter(..).map(|(_, v)| *v).sum()
}

/// The sum of the values of the entries that hold a point.
#[no_mangle]
pub unsafe extern "C" fn rust_point(map: *const Map, p: u64) -> u64 {
    (*map).overlap(p).map(|(_, v)| *v).sum()
}

/// The sum of the values of the entries that intersect a range.
#[no_mangle]
pub unsafe extern "C" fn rust_window(map: *const Map, start: u64, end: u64) -> u64 {
    (*map).iter(start..end).map(|(_, v)| *v).sum()
}

/// The sum of the values of the entries equal to an interval.
#[no_mangle]
pub unsafe extern "C" fn rust_exact(map: *const Map, start: u64, end: u64) -> u64 {
    (*map).values_at(start..end).sum()
}

const U: u64 = 4294967295;

/// What a subtree shows to the node above it.
#[derive(Clone, Copy)]
struct Seen {
    size: u64,
    blacks: u64,
    red: bool,
    hull: (u64, u64),
    first: (u64, u64),
    last: (u64, u64),
}

impl Seen {
    /// A node with its two subtrees; None where they do not fit.
    #[inline(always)]
    fn with(self, left: Option<Seen>, right: Option<Seen>) -> Option<Seen> {
        let (mut seen, own, red) = (self, self.first, self.red);
        let mut blacks = [0; 2];
        if let Some(l) = left {
            if l.last > own || red && l.red {
                return None;
            }
            seen.size += l.size;
            seen.hull = (seen.hull.0.min(l.hull.0), seen.hull.1.max(l.hull.1));
            seen.first = l.first;
            blacks[0] = l.blacks;
        }
        if let Some(r) = right {
            if r.first < own || red && r.red {
                return None;
            }
            seen.size += r.size;
            seen.hull = (seen.hull.0.min(r.hull.0), seen.hull.1.max(r.hull.1));
            seen.last = r.last;
            blacks[1] = r.blacks;
        }
        if blacks[0] != blacks[1] {
            return None;
        }
        seen.blacks = blacks[0] + !red as u64;
        Some(seen)
    }
}

struct Store<'a> {
    words: &'a [u64],
    bytes: &'a [u8],
    count: u64,
}

impl Store<'_> {
    /// Every clause of document 01's check for the subtree of a link; None where one fails. An
    /// empty subtree is Some(None).
    fn subtree(&self, link: u64, parent: u64, height: u32) -> Option<Option<Seen>> {
        if link == U {
            return Some(None);
        }
        if link >= self.count || height == 0 {
            return None;
        }
        let w: &[u64; 8] = self.words[8 * link as usize..][..8].try_into().unwrap();
        // a node is reached once: its parent link leads back, and its two links differ
        if w[7] != parent || w[0] >= w[1] || w[5] == w[6] && w[5] != U {
            return None;
        }
        let left = self.subtree(w[5], link, height - 1)?;
        let right = self.subtree(w[6], link, height - 1)?;
        let red = self.bytes[link as usize / 8] >> (link % 8) & 1 == 1;
        let own = (w[0], w[1]);
        let seen = Seen { size: 1, blacks: 0, red, hull: own, first: own, last: own }.with(left, right)?;
        if seen.hull == (w[3], w[4]) {
            Some(Some(seen))
        } else {
            None
        }
    }
}

#[no_mangle]
pub unsafe extern "C" fn rust_check(words: *const u64, w: usize, bytes: *const u8, b: usize, count: u64, root: u64) -> bool {
    let s = Store { words: from_raw_parts(words, w), bytes: from_raw_parts(bytes, b), count };
    match s.subtree(root, U, 33) {
        None => false,
        Some(None) => count == 0,
        Some(Some(seen)) => seen.size == count && !seen.red,
    }
}
