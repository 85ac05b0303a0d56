//! `Store` and `DisjointStore` of bindings/rust behind C functions, and a binary search beside the
//! latter.
use alloc::boxed::Box;
use core::slice::{from_raw_parts, from_raw_parts_mut};
use iset_proved::{DisjointStore, Map, Store};

/// Null where the store is refused.
#[no_mangle]
pub unsafe extern "C" fn store_open(count: u64, root: u64, w: *mut u64, wn: usize, b: *mut u8, bn: usize) -> *mut Store<'static> {
    match Store::open(Map { count, root, version: 1 }, from_raw_parts_mut(w, wn), from_raw_parts_mut(b, bn)) {
        Ok(store) => Box::into_raw(Box::new(store)),
        Err(_) => core::ptr::null_mut(),
    }
}

/// The root at the end.
#[no_mangle]
pub unsafe extern "C" fn store_close(store: *mut Store) -> u64 {
    Box::from_raw(store).close().root
}

#[no_mangle]
pub unsafe extern "C" fn store_remove(store: *mut Store, slot: u64) -> u64 {
    (*store).remove(slot).map_or(u64::MAX, |removed| removed.value)
}

#[no_mangle]
pub unsafe extern "C" fn store_insert(store: *mut Store, start: u64, end: u64, value: u64) -> u64 {
    (*store).insert(start..end, value).unwrap_or(u64::MAX)
}

/// The sum of the values of all entries.
#[no_mangle]
pub unsafe extern "C" fn store_all(store: *const Store) -> u64 {
    (*store).entries().map(|entry| entry.value).sum()
}

/// The sum of the values of the entries that hold a point.
#[no_mangle]
pub unsafe extern "C" fn store_point(store: *const Store, p: u64) -> u64 {
    (*store).at(p).map(|entry| entry.value).sum()
}

/// The sum of the values of the entries equal to an interval.
#[no_mangle]
pub unsafe extern "C" fn store_exact(store: *const Store, start: u64, end: u64) -> u64 {
    (*store).exact(start..end).map_or(0, |found| found.map(|entry| entry.value).sum())
}

/// Null where the store is refused.
#[no_mangle]
pub unsafe extern "C" fn disjoint_open(count: u64, root: u64, w: *mut u64, wn: usize, b: *mut u8, bn: usize) -> *mut DisjointStore<'static> {
    match DisjointStore::open(Map { count, root, version: 1 }, from_raw_parts_mut(w, wn), from_raw_parts_mut(b, bn)) {
        Ok(store) => Box::into_raw(Box::new(store)),
        Err(_) => core::ptr::null_mut(),
    }
}

#[no_mangle]
pub unsafe extern "C" fn disjoint_close(store: *mut DisjointStore) {
    Box::from_raw(store).close();
}

/// The value of the entry that holds a point, 0 if there is none.
#[no_mangle]
pub unsafe extern "C" fn disjoint_point(store: *const DisjointStore, p: u64) -> u64 {
    (*store).at(p).map_or(0, |entry| entry.value)
}

/// The same in a sorted slice of start, end, value, by a binary search: what a host could keep
/// instead.
#[no_mangle]
pub unsafe extern "C" fn rust_search(list: *const [u64; 3], n: usize, p: u64) -> u64 {
    let list = from_raw_parts(list, n);
    match list[..list.partition_point(|entry| entry[0] <= p)].last() {
        Some(entry) if p < entry[1] => entry[2],
        _ => 0,
    }
}
