//! An archive of another version. It refuses every call with a number that this crate does not
//! know: a public call with 77, an opened one with 78, and on six-word nodes with 87 and 88. No
//! call may pass that off as an answer. The archive is the functions below, so the real one is not
//! linked.
#![cfg(not(iset_linked))]
use std::panic::{catch_unwind, AssertUnwindSafe};

use iset_proved::{Cursor, Query, Refusal, Rule};

/// The functions take more arguments than are named here, and look at none of them.
macro_rules! refusing {
    ($number:literal: $($name:ident)*) => {
        $(#[no_mangle]
        extern "C" fn $name() -> u64 {
            $number
        })*
    };
}

refusing! {
    77: iset_build iset_remove iset_insert iset_unload iset_unload_ruled iset_propose
    iset_renumber iset_read iset_fresh_exact iset_step iset_step_exact iset_drain
    iset_drain_exact iset_plain iset_plain_exact iset_find_all iset_find_all_exact iset_write_image
    iset_read_image iset_image_count iset_image_value iset_image_refusal iset_step_ruled iset_drain_ruled
    iset_plain_ruled iset_find_all_ruled iset_disjoint_check iset_disjoint_point iset_disjoint_insert
    iset_disjoint_remove
}

refusing! {
    78: iset_open_remove iset_open_insert iset_open_unload iset_open_unload_ruled
    iset_open_propose iset_open_renumber iset_open_read iset_open_fresh_exact iset_open_step
    iset_open_step_exact iset_open_drain iset_open_drain_exact iset_open_plain iset_open_plain_exact
    iset_open_find_all iset_open_find_all_exact iset_open_write_image iset_open_step_ruled
    iset_open_drain_ruled iset_open_plain_ruled iset_open_find_all_ruled iset_open_disjoint_point
    iset_open_disjoint_insert iset_open_disjoint_remove
}

refusing! {
    87: iset_narrow_build iset_narrow_remove iset_narrow_insert iset_narrow_unload
    iset_narrow_unload_ruled iset_narrow_propose iset_narrow_renumber iset_narrow_read iset_narrow_fresh_exact
    iset_narrow_step iset_narrow_step_exact iset_narrow_drain iset_narrow_drain_exact iset_narrow_plain
    iset_narrow_plain_exact iset_narrow_find_all iset_narrow_find_all_exact iset_narrow_write_image
    iset_narrow_read_image iset_narrow_step_ruled iset_narrow_drain_ruled iset_narrow_plain_ruled
    iset_narrow_find_all_ruled iset_narrow_disjoint_check iset_narrow_disjoint_point
    iset_narrow_disjoint_insert iset_narrow_disjoint_remove
}

refusing! {
    88: iset_narrow_open_remove iset_narrow_open_insert iset_narrow_open_unload
    iset_narrow_open_unload_ruled iset_narrow_open_propose iset_narrow_open_renumber
    iset_narrow_open_read
    iset_narrow_open_fresh_exact iset_narrow_open_step iset_narrow_open_step_exact
    iset_narrow_open_drain iset_narrow_open_drain_exact iset_narrow_open_plain
    iset_narrow_open_plain_exact iset_narrow_open_find_all iset_narrow_open_find_all_exact
    iset_narrow_open_write_image iset_narrow_open_step_ruled iset_narrow_open_drain_ruled
    iset_narrow_open_plain_ruled iset_narrow_open_find_all_ruled iset_narrow_open_disjoint_point
    iset_narrow_open_disjoint_insert iset_narrow_open_disjoint_remove
}

/// The check passes the map of no entries, so that a store can be opened, and no other.
#[no_mangle]
extern "C" fn iset_check(count: u64) -> u64 {
    if count == 0 {
        0
    } else {
        77
    }
}

#[no_mangle]
extern "C" fn iset_narrow_check(count: u64) -> u64 {
    if count == 0 {
        0
    } else {
        87
    }
}

const QUERIES: [Query; 3] = [
    Query::Overlap(core::ops::Bound::Unbounded, core::ops::Bound::Unbounded),
    Query::Exact { start: 1, end: 2 },
    Query::Ruled(
        Rule::Whole,
        core::ops::Bound::Unbounded,
        core::ops::Bound::Unbounded,
    ),
];
const FROM: Cursor = Cursor {
    slot: 0,
    levels: 1,
    bits: 0,
};

/// The tests of a layout: where its types are, and the numbers of its public and opened calls.
macro_rules! layout {
    ($name:ident: $($path:ident)::+, $public:literal, $opened:literal) => {
        mod $name {
            use super::{catch_unwind, AssertUnwindSafe, Refusal, Rule, FROM, QUERIES};
            use $($path)::+::{DisjointMap, DisjointStore, Map, Store, StoreRef, U};

            const PUBLIC: Option<Refusal> = Some(Refusal::Unknown($public));
            const OPENED: Option<Refusal> = Some(Refusal::Unknown($opened));

            #[test]
            fn maps() {
                let (mut nodes, mut colours, mut out) = ([0; 16], [0; 1], [0; 2]);
                let map = Map {
                    count: 1,
                    root: 0,
                    version: 0,
                };
                assert_eq!(map.check(&nodes, &colours).err(), PUBLIC);
                assert_eq!(map.build(&mut nodes, &mut colours, &[]).err(), PUBLIC);
                assert_eq!(map.read(&nodes, &colours, map.ticket(0)).err(), PUBLIC);
                let written = map.write_image(&nodes, &colours, &mut [0; 100]);
                assert_eq!(written.err(), PUBLIC);
                let loaded = map.read_image(&mut nodes, &mut colours, &[]);
                assert_eq!(loaded.err(), PUBLIC);
                assert_eq!(map.remove(&mut nodes, &mut colours, 0).err(), PUBLIC);
                assert_eq!(map.insert(&mut nodes, &mut colours, 1, 2, 3).err(), PUBLIC);
                for rule in [Rule::Any, Rule::Whole] {
                    let unloaded = map.unload(&mut nodes, &mut colours, rule, 1..2);
                    assert_eq!(unloaded.err(), PUBLIC);
                }
                assert_eq!(map.propose(&nodes, &colours, &mut out).err(), PUBLIC);
                assert_eq!(map.renumber(&mut nodes, &mut colours, &[0]).err(), PUBLIC);
                assert_eq!(map.fresh_exact(&nodes, &colours, 1, 2).err(), PUBLIC);
                assert_eq!(map.begin(&nodes, &colours, QUERIES[1]).err(), PUBLIC);
                for query in QUERIES {
                    assert_eq!(map.step(&nodes, &colours, query, FROM).err(), PUBLIC);
                    let drained = map.drain(&nodes, &colours, query, FROM, 0, &mut out);
                    assert_eq!(drained.err(), PUBLIC);
                    assert_eq!(map.plain(&nodes, &colours, query, &mut out).err(), PUBLIC);
                    let found = map.find_all(&nodes, &colours, query, &mut out);
                    assert_eq!(found.err(), PUBLIC);
                    assert_eq!(map.hits(&nodes, &colours, query, &mut out).err(), PUBLIC);
                    let hits = Map::new().hits(&nodes, &colours, query, &mut out);
                    assert_eq!(hits.err(), OPENED);
                }
                assert_eq!((nodes, colours, out), ([0; 16], [0; 1], [0; 2]));
            }

            /// Lookups that a sound archive never refuses have no `Result`. They panic rather than
            /// end early.
            #[test]
            fn stores() {
                let (mut nodes, mut colours, mut out) = ([0; 16], [0; 1], [0; 2]);
                let map = Map {
                    count: 1,
                    root: 0,
                    version: 0,
                };
                assert_eq!(StoreRef::open(map, &nodes, &colours).err(), PUBLIC);
                assert_eq!(Store::open(map, &mut nodes, &mut colours).err(), PUBLIC);
                assert_eq!(Store::build(&mut nodes, &mut colours, &[]).err(), PUBLIC);
                // a map that the check passes, with a root, so that lookups begin
                let rooted = Map { count: 0, ..map };
                let mut store = Store::open(rooted, &mut nodes, &mut colours).unwrap();
                assert_eq!(store.insert(1..2, 3).err(), OPENED);
                assert_eq!(store.remove(0).err(), OPENED);
                assert_eq!(store.unload(Rule::Any, 1..2).err(), OPENED);
                assert_eq!(store.unload(Rule::Whole, 1..2).err(), OPENED);
                assert_eq!(store.propose(&mut out).err(), OPENED);
                assert_eq!(store.renumber(&[]).err(), OPENED);
                assert_eq!(store.rebuild(&[]).err(), PUBLIC);
                assert_eq!(store.read_ticket(store.ticket(0)).err(), OPENED);
                assert_eq!(store.write_image(&mut [0; 44]).err(), OPENED);
                assert_eq!(store.overlap(1..2).err(), OPENED);
                assert_eq!(store.exact(1..2).err(), OPENED);
                for query in QUERIES {
                    assert_eq!(store.hits(query, &mut out).err(), OPENED);
                    assert_eq!(store.plain(query, &mut out).err(), OPENED);
                    assert_eq!(store.find_all(query, &mut out).err(), OPENED);
                }
                assert!(catch_unwind(AssertUnwindSafe(|| store.at(1).count())).is_err());
                assert!(catch_unwind(AssertUnwindSafe(|| store.entries().count())).is_err());
            }

            /// A refused insertion names no slot.
            #[test]
            fn disjoint_maps() {
                let (mut nodes, mut colours) = ([0; 16], [0; 1]);
                let map = Map::new();
                let disjoint = DisjointMap { map };
                assert_eq!(disjoint.check(&nodes, &colours).err(), PUBLIC);
                assert_eq!(disjoint.point(&nodes, &colours, 1).err(), PUBLIC);
                let placed = disjoint.insert(&mut nodes, &mut colours, 1, 2, 3);
                let not = placed.unwrap_err();
                assert_eq!((Some(not.why), not.slot), (PUBLIC, U));
                assert_eq!(disjoint.remove(&mut nodes, &mut colours, 0).err(), PUBLIC);
                let store = DisjointStore::open(map, &mut nodes, &mut colours);
                assert_eq!(store.err(), PUBLIC);
                let mut store = DisjointStore::new(&mut nodes, &mut colours);
                assert_eq!(store.point(1).err(), OPENED);
                let not = store.insert(1..2, 3).unwrap_err();
                assert_eq!((Some(not.why), not.slot), (OPENED, U));
                assert_eq!(store.remove(0).err(), OPENED);
                assert_eq!(store.unload(Rule::Any, 1..2).err(), OPENED);
                assert_eq!(store.renumber(&[]).err(), OPENED);
                assert!(catch_unwind(AssertUnwindSafe(|| store.at(1))).is_err());
            }
        }
    };
}

layout!(eight_words: iset_proved, 77, 78);
layout!(six_words: iset_proved::narrow, 87, 88);

#[test]
fn images() {
    use iset_proved::image;
    let refused = Some(Refusal::Unknown(77));
    assert_eq!(image::count(&[], 0).err(), refused);
    assert_eq!(image::value(&[], 0, 0).err(), refused);
}
