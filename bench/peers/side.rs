//! The Rust peers behind C functions: the crates iset 0.3.3 and intervaltree. Each function goes
//! through a whole batch.
#![no_std]
extern crate alloc;

#[path = "../rust/heap.rs"]
mod heap;

use alloc::boxed::Box;
use core::slice::from_raw_parts;

/// An entry: start, end, value.
type Item = [u64; 3];

/// Hits and the sum of their values, put into one number.
fn folded(before: u64, hits: u64, sum: u64) -> u64 {
    before.wrapping_mul(3).wrapping_add(sum).wrapping_add(hits << 40)
}

fn fold<'a>(before: u64, values: impl Iterator<Item = &'a u64>) -> u64 {
    let (mut hits, mut sum) = (0, 0);
    for v in values {
        hits += 1;
        sum += *v;
    }
    folded(before, hits, sum)
}

#[cfg(has_iset)]
mod map {
    use super::*;
    use iset::IntervalMap;

    type Map = IntervalMap<u64, u64, u32>;

    /// `from_sorted` panics on equals: a list with equals is inserted entry by entry.
    #[no_mangle]
    pub unsafe extern "C" fn iset_rs_build(list: *const Item, n: usize, equals: bool) -> *mut Map {
        let list = from_raw_parts(list, n);
        if !equals {
            return Box::into_raw(Box::new(Map::from_sorted(list.iter().map(|e| (e[0]..e[1], e[2])))));
        }
        let mut map = Map::with_capacity(n);
        for e in list {
            map.force_insert(e[0]..e[1], e[2]);
        }
        Box::into_raw(Box::new(map))
    }

    #[no_mangle]
    pub unsafe extern "C" fn iset_rs_free(map: *mut Map) {
        drop(Box::from_raw(map));
    }

    #[no_mangle]
    pub unsafe extern "C" fn iset_rs_points(map: *const Map, points: *const u64, k: usize) -> u64 {
        from_raw_parts(points, k).iter().fold(0, |a, p| fold(a, (*map).overlap(*p).map(|(_, v)| v)))
    }

    #[no_mangle]
    pub unsafe extern "C" fn iset_rs_windows(map: *const Map, windows: *const [u64; 2], k: usize) -> u64 {
        from_raw_parts(windows, k).iter().fold(0, |a, w| fold(a, (*map).values(w[0]..w[1])))
    }

    #[no_mangle]
    pub unsafe extern "C" fn iset_rs_all(map: *const Map) -> u64 {
        fold(0, (*map).values(..))
    }

    #[no_mangle]
    pub unsafe extern "C" fn iset_rs_find(map: *const Map, list: *const Item, k: usize) -> u64 {
        from_raw_parts(list, k).iter().fold(0, |a, e| folded(a, 1, *(*map).get(e[0]..e[1]).unwrap()))
    }

    #[no_mangle]
    pub unsafe extern "C" fn iset_rs_remove(map: *mut Map, list: *const Item, k: usize) -> u64 {
        from_raw_parts(list, k).iter().fold(0, |a, e| folded(a, 1, (*map).remove(e[0]..e[1]).unwrap()))
    }

    #[no_mangle]
    pub unsafe extern "C" fn iset_rs_insert(map: *mut Map, list: *const Item, k: usize) {
        for e in from_raw_parts(list, k) {
            (*map).force_insert(e[0]..e[1], e[2]);
        }
    }
}

#[cfg(has_intervaltree)]
mod tree {
    use super::*;
    use intervaltree::IntervalTree;

    type Tree = IntervalTree<u64, u64>;

    #[no_mangle]
    pub unsafe extern "C" fn tree_rs_build(list: *const Item, n: usize) -> *mut Tree {
        Box::into_raw(Box::new(from_raw_parts(list, n).iter().map(|e| (e[0]..e[1], e[2])).collect()))
    }

    #[no_mangle]
    pub unsafe extern "C" fn tree_rs_free(tree: *mut Tree) {
        drop(Box::from_raw(tree));
    }

    #[no_mangle]
    pub unsafe extern "C" fn tree_rs_points(tree: *const Tree, points: *const u64, k: usize) -> u64 {
        from_raw_parts(points, k).iter().fold(0, |a, p| fold(a, (*tree).query_point(*p).map(|e| &e.value)))
    }

    #[no_mangle]
    pub unsafe extern "C" fn tree_rs_windows(tree: *const Tree, windows: *const [u64; 2], k: usize) -> u64 {
        from_raw_parts(windows, k).iter().fold(0, |a, w| fold(a, (*tree).query(w[0]..w[1]).map(|e| &e.value)))
    }

    #[no_mangle]
    pub unsafe extern "C" fn tree_rs_all(tree: *const Tree) -> u64 {
        fold(0, (*tree).iter_sorted().map(|e| &e.value))
    }
}
