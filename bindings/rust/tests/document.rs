//! Document 01's examples through the crate. They need the archives: without ISET_LIB_DIR there is
//! nothing here to run.
#![cfg(iset_linked)]
use core::ops::Bound;

use iset_proved::{Cursor, Entry, Map, Query, Refusal, Rule, Step, Tally, Ticket, Unloaded, U};

const LIST_A: [u64; 15] = [10, 20, 1, 10, 30, 2, 25, 40, 3, 40, 50, 4, 45, 60, 5];
const NONE: (u64, u64) = (U, U);
const ENDED: Cursor = Cursor {
    slot: U,
    levels: 0,
    bits: 0,
};

fn map(count: u64, root: u64, version: u32) -> Map {
    Map {
        count,
        root,
        version,
    }
}

struct Store {
    map: Map,
    nodes: [u64; 40],
    colours: [u8; 1],
}

impl Store {
    fn of(list: &[u64]) -> Store {
        let (mut nodes, mut colours) = ([0; 40], [0; 1]);
        let map = Map::new().build(&mut nodes, &mut colours, list).unwrap();
        Store {
            map,
            nodes,
            colours,
        }
    }

    /// Inserts the entry start, end, value, and gives its slot.
    fn insert(&mut self, [start, end, value]: [u64; 3]) -> u64 {
        let inserted = self
            .map
            .insert(&mut self.nodes, &mut self.colours, start, end, value)
            .unwrap();
        assert_eq!(inserted.map.count, self.map.count + 1);
        assert_eq!(inserted.map.check(&self.nodes, &self.colours), Ok(()));
        self.map = inserted.map;
        inserted.slot
    }

    fn all(&self, query: Query, buffer: usize) -> Result<Vec<u64>, Refusal> {
        let mut buffer = vec![0; buffer];
        let hits = self
            .map
            .hits(&self.nodes, &self.colours, query, &mut buffer)?;
        Ok(hits.collect())
    }

    fn step(&self, query: Query, from: Cursor) -> Result<Step, Refusal> {
        self.map.step(&self.nodes, &self.colours, query, from)
    }
}

#[test]
fn built() {
    let a = Store::of(&LIST_A);
    assert_eq!((a.map, a.colours), (map(5, 2, 1), [9]));
    assert_eq!(a.map.check(&a.nodes, &a.colours), Ok(()));
    assert_eq!(
        a.map.check(&a.nodes[..39], &a.colours),
        Err(Refusal::NoRoom)
    );
    assert_eq!(
        Map { root: 1, ..a.map }.check(&a.nodes, &a.colours),
        Err(Refusal::Broken)
    );
    assert_eq!(Map::new().check(&[], &[]), Ok(()));
}

#[test]
fn refused_builds_change_nothing() {
    let (mut nodes, mut colours) = ([7; 16], [7; 1]);
    let lists: [(&[u64], Refusal); 4] = [
        (&LIST_A[..4], Refusal::BadList),
        (&LIST_A[..9], Refusal::NoRoom),
        (&[5, 9, 1, 4, 4, 2], Refusal::BadInterval),
        (&[5, 9, 1, 4, 9, 2], Refusal::NotSorted),
    ];
    for (list, why) in lists {
        assert_eq!(Map::new().build(&mut nodes, &mut colours, list), Err(why));
    }
    assert_eq!((nodes, colours), ([7; 16], [7; 1]));
}

#[test]
fn removed() {
    // slot, value, pairs, colours, how many hulls changed
    let cases = [
        (0, 1, [(4, 0), NONE, NONE], 8, 0),
        (1, 2, [(0, 1), (4, 0), NONE], 8, 1),
        (2, 3, [(3, 2), (4, 3), NONE], 1, 1),
        (4, 5, [NONE; 3], 1, 2),
    ];
    for (slot, value, pairs, colours, reach) in cases {
        let mut a = Store::of(&LIST_A);
        let removed = a.map.remove(&mut a.nodes, &mut a.colours, slot).unwrap();
        assert_eq!(
            (removed.value, removed.pairs, a.colours, removed.reach),
            (value, pairs, [colours], reach)
        );
        assert_eq!(removed.map, map(4, 2, 2));
        assert_eq!(removed.map.check(&a.nodes, &a.colours), Ok(()));
    }
    let mut a = Store::of(&LIST_A);
    for slot in [5, U] {
        assert_eq!(
            a.map.remove(&mut a.nodes, &mut a.colours, slot),
            Err(Refusal::NoSuch)
        );
    }
    let mut b = Store::of(&[5, 9, 1, 5, 9, 2, 5, 9, 3]);
    for (slot, value, root, colours) in [(0, 1, 1, 5), (1, 2, 0, 4), (0, 3, U, 4)] {
        let removed = b.map.remove(&mut b.nodes, &mut b.colours, slot).unwrap();
        assert_eq!(
            (removed.value, removed.map.root, b.colours),
            (value, root, [colours])
        );
        b.map = removed.map;
    }
    assert_eq!(b.map, map(0, U, 4));
}

#[test]
fn inserted() {
    let mut a = Store::of(&[]);
    let entries = [[40, 50, 4], [10, 20, 1], [25, 40, 3], [10, 20, 2]];
    for (slot, entry) in entries.into_iter().enumerate() {
        assert_eq!(a.insert(entry), slot as u64);
    }
    // an equal one comes after its equals
    assert_eq!(a.all(Query::overlap(..), 4), Ok(vec![1, 3, 2, 0]));
    // room given up by a removal is used again
    a.map = a.map.remove(&mut a.nodes, &mut a.colours, 1).unwrap().map;
    assert_eq!((a.insert([12, 13, 9]), a.insert([12, 13, 8])), (3, 4));
    let before = (a.nodes, a.colours);
    let cases = [
        (a.map, 12, Refusal::NoRoom),
        (Map { count: 4, ..a.map }, 13, Refusal::Broken),
        (Map::new(), 13, Refusal::BadInterval),
    ];
    for (map, start, why) in cases {
        let refused = map.insert(&mut a.nodes, &mut a.colours, start, 13, 9);
        assert_eq!(refused, Err(why));
    }
    assert_eq!((a.nodes, a.colours), before);
    // how many hulls changed: none, that of the root, and three of the four of two rotations
    let (mut nodes, mut colours, mut map) = ([0; 3 * 8], [0; 1], Map::new());
    for (start, end, reach) in [(20, 30, 0), (10, 15, 1), (12, 14, 3)] {
        let inserted = map.insert(&mut nodes, &mut colours, start, end, 1).unwrap();
        assert_eq!(inserted.reach, reach);
        map = inserted.map;
    }
}

/// Reads in a store through a ticket: the entry as start, end, value.
fn read(store: &Store, ticket: Ticket) -> Result<[u64; 3], Refusal> {
    let entry: Entry = store.map.read(&store.nodes, &store.colours, ticket)?;
    assert_eq!(entry.slot, ticket.slot());
    Ok([entry.range.start, entry.range.end, entry.value])
}

#[test]
fn tickets() {
    let mut a = Store::of(&LIST_A);
    for (slot, entry) in LIST_A.chunks(3).enumerate() {
        let ticket = a.map.ticket(slot as u64);
        assert_eq!((ticket.slot(), ticket.version()), (slot as u64, 1));
        assert_eq!(read(&a, ticket).unwrap(), entry);
    }
    for slot in [5, U, (1 << 32) + 2, u64::MAX] {
        assert_eq!(read(&a, a.map.ticket(slot)), Err(Refusal::NoSuch));
    }
    let (first, ticket) = (a.map, a.map.ticket(2));
    // a refused change leaves the version
    let refused = a.map.remove(&mut a.nodes, &mut a.colours, 9);
    assert_eq!(refused, Err(Refusal::NoSuch));
    assert_eq!(read(&a, ticket), Ok([25, 40, 3]));
    // a removal, an insertion and a build raise it; stale comes before no such slot
    a.map = a.map.remove(&mut a.nodes, &mut a.colours, 1).unwrap().map;
    assert_eq!((read(&a, ticket), a.map.version), (Err(Refusal::Stale), 2));
    assert_eq!(read(&a, first.ticket(4)), Err(Refusal::Stale));
    assert_eq!(read(&a, a.map.ticket(4)), Err(Refusal::NoSuch));
    let second = a.map.ticket(2);
    assert_eq!(read(&a, second), Ok([25, 40, 3]));
    a.insert([12, 13, 6]);
    assert_eq!((read(&a, second), a.map.version), (Err(Refusal::Stale), 3));
    let built = a.map.build(&mut a.nodes, &mut a.colours, &LIST_A[..6]);
    a.map = built.unwrap();
    assert_eq!(
        (a.map, read(&a, a.map.ticket(1))),
        (map(2, 1, 4), Ok([10, 30, 2]))
    );
    // the check comes first
    a.map.root = 0;
    assert_eq!(read(&a, ticket), Err(Refusal::Broken));
    a.map.count = 6;
    assert_eq!(read(&a, ticket), Err(Refusal::NoRoom));
}

/// The version runs round to 0; and only one map of several copies keeps its tickets apart.
#[test]
fn versions() {
    let mut a = Store::of(&LIST_A);
    a.map.version = u32::MAX;
    let ticket = a.map.ticket(2);
    assert_eq!(read(&a, ticket), Ok([25, 40, 3]));
    a.map = a.map.remove(&mut a.nodes, &mut a.colours, 4).unwrap().map;
    assert_eq!((a.map.version, read(&a, ticket)), (0, Err(Refusal::Stale)));
    let (mut one, mut other) = (Store::of(&LIST_A), Store::of(&LIST_A));
    one.map = one
        .map
        .remove(&mut one.nodes, &mut one.colours, 1)
        .unwrap()
        .map;
    let removed = other.map.remove(&mut other.nodes, &mut other.colours, 2);
    other.map = removed.unwrap().map;
    let ticket = one.map.ticket(0);
    assert_eq!(read(&one, ticket), Ok([45, 60, 5]));
    assert_eq!(read(&other, ticket), Ok([10, 20, 1]));
}

/// A ticket of before can be read after an unloading of nothing, and is stale after one of an
/// entry.
#[test]
fn unloaded() {
    let mut a = Store::of(&LIST_A);
    let (ticket, whole) = (a.map.ticket(2), (Bound::Excluded(39), Bound::Excluded(45)));
    let none = a.map.unload(&mut a.nodes, &mut a.colours, Rule::Any, 60..);
    assert_eq!(
        none,
        Ok(Unloaded {
            map: a.map,
            gone: 0
        })
    );
    assert_eq!(read(&a, ticket), Ok([25, 40, 3]));
    // [25, 40) has no address above 39: rule 2 keeps it
    let one = a
        .map
        .unload(&mut a.nodes, &mut a.colours, Rule::Whole, whole);
    a.map = one.unwrap().map;
    assert_eq!((one.unwrap().gone, a.map.count, a.map.version), (1, 4, 2));
    assert_eq!(read(&a, ticket), Err(Refusal::Stale));
    assert_eq!(a.map.check(&a.nodes, &a.colours), Ok(()));
    let one = a.map.unload(&mut a.nodes, &mut a.colours, Rule::Any, whole);
    a.map = one.unwrap().map;
    let values: Vec<u64> = a.all(Query::overlap(..), 2).unwrap();
    let values = values.iter().map(|&slot| a.nodes[slot as usize * 8 + 2]);
    assert!(values.eq([1, 2, 5]));
    a.map.version = u32::MAX - 1;
    let rest = a.map.unload(&mut a.nodes, &mut a.colours, Rule::Any, ..);
    assert_eq!(
        rest,
        Ok(Unloaded {
            map: map(0, U, 1),
            gone: 3
        })
    );
    assert!(a
        .nodes
        .chunks(8)
        .all(|node| *node == [0, 0, 0, 0, 0, U, U, U]));
}

/// The refusals in their order, and nothing changes.
#[test]
fn refused_unloadings() {
    let mut a = Store::of(&LIST_A);
    let (nodes, colours) = (a.nodes, a.colours);
    let top = (Bound::Excluded(u64::MAX), Bound::Unbounded);
    let falling = (Bound::Included(3), Bound::Included(1));
    let mut refused = |map: Map, rule, range: (Bound<u64>, Bound<u64>)| {
        let why = map.unload(&mut a.nodes, &mut a.colours, rule, range).err();
        assert_eq!((a.nodes, a.colours), (nodes, colours));
        why
    };
    for rule in [Rule::Any, Rule::Whole] {
        assert_eq!(refused(a.map, rule, falling), Some(Refusal::BadRange));
        let broken = map(5, 1, 1);
        assert_eq!(refused(broken, rule, falling), Some(Refusal::Broken));
        let above = map(6, 1, 1);
        assert_eq!(refused(above, rule, falling), Some(Refusal::NoRoom));
    }
    assert_eq!(refused(a.map, Rule::Whole, top), Some(Refusal::BadRange));
    assert_eq!(refused(a.map, Rule::Any, top), None);
}

/// The planner writes places in tree order, and its plan is accepted; then nothing is left to move.
#[test]
fn tidied() {
    let mut a = Store::of(&LIST_A);
    a.map = a.map.remove(&mut a.nodes, &mut a.colours, 0).unwrap().map;
    a.insert([10, 20, 6]);
    a.map.version = u32::MAX;
    let (ticket, before) = (a.map.ticket(1), a.all(Query::overlap(..), 3).unwrap());
    let mut out = [7; 7];
    assert_eq!(a.map.propose(&a.nodes, &a.colours, &mut out), Ok(()));
    for (place, &slot) in before.iter().enumerate() {
        assert_eq!(out[slot as usize], place as u64);
    }
    assert_eq!(out[5..], [7; 2]);
    assert!(read(&a, ticket).is_ok());
    let (plan, values) = (out, values(&a));
    let moved = a.map.renumber(&mut a.nodes, &mut a.colours, &out[..5]);
    assert_eq!((moved.unwrap().count, moved.unwrap().version), (5, 0));
    assert_eq!(
        (moved.unwrap().root, out),
        (plan[a.map.root as usize], plan)
    );
    a.map = moved.unwrap();
    assert_eq!(a.map.check(&a.nodes, &a.colours), Ok(()));
    assert_eq!(a.all(Query::overlap(..), 3), Ok(vec![0, 1, 2, 3, 4]));
    assert_eq!(self::values(&a), values);
    assert_eq!(read(&a, ticket), Err(Refusal::Stale));
    assert_eq!(a.map.propose(&a.nodes, &a.colours, &mut out), Ok(()));
    assert_eq!(out, [0, 1, 2, 3, 4, 7, 7]);
    // a plan that moves nothing is a change too
    let (nodes, colours) = (a.nodes, a.colours);
    let same = a.map.renumber(&mut a.nodes, &mut a.colours, &out[..5]);
    assert_eq!(same, Ok(map(5, a.map.root, 1)));
    assert_eq!((a.nodes, a.colours), (nodes, colours));
}

/// The values of all entries in order.
fn values(store: &Store) -> Vec<u64> {
    let slots = store.all(Query::overlap(..), 3).unwrap();
    let value = |slot: &u64| store.nodes[*slot as usize * 8 + 2];
    slots.iter().map(value).collect()
}

/// The refusals in their order, and nothing changes.
#[test]
fn refused_plans() {
    let mut a = Store::of(&LIST_A);
    let (nodes, colours, good, broken) = (a.nodes, a.colours, a.map, map(5, 1, 1));
    let mut out = [7; 4];
    for (map, why) in [
        (good, Refusal::ShortOutput),
        (broken, Refusal::Broken),
        (map(6, 2, 1), Refusal::NoRoom),
    ] {
        assert_eq!(map.propose(&nodes, &colours, &mut out), Err(why));
    }
    assert_eq!(out, [7; 4]);
    let plans: [&[u64]; 9] = [
        &[],
        &[0, 1, 2, 3],
        &[0, 1, 2, 3, 4, 5],
        &[0, 1, 2, 3, 4, 4],
        &[0, 1, 2, 3, 3],
        &[0, 1, 2, 3, 5],
        &[0, 1, 2, 3, U],
        &[0, 1, 2, 3, (1 << 32) + 4],
        &[u64::MAX, 1, 2, 3, 4],
    ];
    for plan in plans {
        for (map, why) in [
            (good, Refusal::BadPlan),
            (broken, Refusal::Broken),
            (map(6, 2, 1), Refusal::NoRoom),
        ] {
            let refused = map.renumber(&mut a.nodes, &mut a.colours, plan);
            assert_eq!((refused, a.nodes, a.colours), (Err(why), nodes, colours));
        }
    }
    // the map of no entries: the plan is empty, and the version rises
    let none = Map::new().renumber(&mut a.nodes, &mut a.colours, &[]);
    assert_eq!((none, a.nodes), (Ok(map(0, U, 1)), nodes));
}

#[test]
fn stepped() {
    let a = Store::of(&LIST_A);
    let query = Query::overlap(20..25);
    let next = Cursor {
        slot: 1,
        levels: 2,
        bits: 6,
    };
    assert_eq!(
        a.step(query, a.map.fresh()),
        Ok(Step::Hit {
            slot: 1,
            next,
            entered: 3
        })
    );
    assert_eq!(a.step(query, next), Ok(Step::End { entered: 0 }));
    assert_eq!(a.step(query, ENDED), Ok(Step::End { entered: 0 }));
    assert_eq!(
        a.step(Query::overlap(60..70), a.map.fresh()),
        Ok(Step::End { entered: 2 })
    );
    assert_eq!(
        a.step(
            query,
            Cursor {
                slot: 1,
                levels: 2,
                bits: 7
            }
        ),
        Err(Refusal::BadCursor)
    );
    assert_eq!(
        a.step(
            Query::overlap((Bound::Excluded(7), Bound::Included(7))),
            a.map.fresh()
        ),
        Err(Refusal::BadRange)
    );
    assert_eq!(
        a.step(Query::Exact { start: 9, end: 9 }, a.map.fresh()),
        Err(Refusal::BadInterval)
    );
}

#[test]
fn drained() {
    let a = Store::of(&LIST_A);
    let mut out = [777; 64];
    let query = Query::overlap((Bound::Excluded(20), Bound::Included(25)));
    let drained = a
        .map
        .drain(&a.nodes, &a.colours, query, a.map.fresh(), 0, &mut out)
        .unwrap();
    assert_eq!((drained.hits, drained.entered, drained.next), (2, 3, ENDED));
    assert_eq!(out[..3], [1, 2, 777]);
    let from = a.map.fresh();
    let short = a
        .map
        .drain(&a.nodes, &a.colours, query, from, 2, &mut out[..1]);
    assert_eq!(short, Err(Refusal::ShortOutput));
    // A limit of 0 means as many as fit: one, and none with the cursor as given.
    let one = a
        .map
        .drain(&a.nodes, &a.colours, query, from, 0, &mut out[..1])
        .unwrap();
    assert_eq!((one.hits, one.entered, one.next.slot), (1, 3, 1));
    let none = a
        .map
        .drain(&a.nodes, &a.colours, query, from, 0, &mut [])
        .unwrap();
    assert_eq!((none.hits, none.entered, none.next), (0, 0, from));
}

#[test]
fn looked_up_plainly() {
    let a = Store::of(&LIST_A);
    let mut out = [7; 6];
    let ranges = [
        Query::overlap(20..25),
        Query::overlap(..),
        Query::overlap(60..70),
        Query::Exact { start: 25, end: 40 },
        Query::Exact { start: 25, end: 41 },
    ];
    for query in ranges {
        let hits = a.all(query, 2).unwrap();
        let found = Tally {
            hits: hits.len() as u64,
            entered: 5,
        };
        out.fill(7);
        assert_eq!(
            a.map.plain(&a.nodes, &a.colours, query, &mut out),
            Ok(found)
        );
        assert!(out[..hits.len()].eq(&hits[..]));
        assert!(out[hits.len()..].iter().all(|&place| place == 7));
    }
    out.fill(7);
    let mut refused = |map: Map, query, places| {
        let why = map.plain(&a.nodes, &a.colours, query, &mut out[..places]);
        assert_eq!(out, [7; 6]);
        why.err()
    };
    let all = Query::overlap(..);
    let falling = Query::overlap((Bound::Included(3), Bound::Included(1)));
    let empty = Query::Exact { start: 9, end: 9 };
    assert_eq!(refused(a.map, all, 4), Some(Refusal::ShortOutput));
    assert_eq!(refused(a.map, falling, 4), Some(Refusal::BadRange));
    assert_eq!(refused(a.map, empty, 4), Some(Refusal::BadInterval));
    let broken = Map { root: 1, ..a.map };
    assert_eq!(refused(broken, falling, 4), Some(Refusal::Broken));
    let none = Map::new().plain(&[], &[], all, &mut []);
    let nothing = Tally {
        hits: 0,
        entered: 0,
    };
    assert_eq!(none, Ok(nothing));
}

#[test]
fn found_all() {
    let a = Store::of(&LIST_A);
    let queries = [
        (Query::overlap(20..25), 2),
        (Query::overlap(..), 5),
        (Query::overlap(60..70), 1),
        (Query::at(47), 3),
        (Query::Exact { start: 25, end: 40 }, 1),
        (Query::Exact { start: 25, end: 41 }, 0),
    ];
    for (query, entered) in queries {
        let all = a.all(query, 2).unwrap();
        let hits = all.len() as u64;
        for places in 0..6 {
            let mut out = [7; 6];
            let found = a
                .map
                .find_all(&a.nodes, &a.colours, query, &mut out[..places]);
            assert_eq!(found, Ok(Tally { hits, entered }));
            let written = places.min(all.len());
            assert_eq!(out[..written], all[..written]);
            assert!(out[written..].iter().all(|&place| place == 7));
        }
    }
    let mut out = [7; 6];
    let mut refused = |map: Map, query| {
        let why = map.find_all(&a.nodes, &a.colours, query, &mut out);
        assert_eq!(out, [7; 6]);
        why.err()
    };
    let falling = Query::overlap((Bound::Included(3), Bound::Included(1)));
    let empty = Query::Exact { start: 9, end: 9 };
    assert_eq!(refused(a.map, falling), Some(Refusal::BadRange));
    assert_eq!(refused(a.map, empty), Some(Refusal::BadInterval));
    let broken = Map { root: 1, ..a.map };
    assert_eq!(refused(broken, falling), Some(Refusal::Broken));
    let above = Map { count: 6, ..a.map };
    assert_eq!(refused(above, falling), Some(Refusal::NoRoom));
}

#[test]
fn hits_in_pieces() {
    let a = Store::of(&LIST_A);
    let b = Store::of(&[5, 9, 1, 5, 9, 2, 5, 9, 3]);
    for buffer in 1..8 {
        assert_eq!(a.all(Query::overlap(..), buffer), Ok(vec![0, 1, 2, 3, 4]));
        assert_eq!(a.all(Query::overlap(20..25), buffer), Ok(vec![1]));
        assert_eq!(
            b.all(Query::Exact { start: 5, end: 9 }, buffer),
            Ok(vec![0, 1, 2])
        );
        assert_eq!(b.all(Query::Exact { start: 5, end: 8 }, buffer), Ok(vec![]));
        assert_eq!(
            b.all(Query::Exact { start: 9, end: 5 }, buffer),
            Err(Refusal::BadInterval)
        );
    }
    for query in [Query::overlap(..), Query::Exact { start: 5, end: 8 }] {
        assert_eq!(a.all(query, 0), Err(Refusal::ShortOutput));
    }
    // the refusals in their order
    let refused = |map: Map, query, places| {
        let mut buffer = vec![0; places];
        let hits = map.hits(&a.nodes, &a.colours, query, &mut buffer);
        hits.err()
    };
    let broken = Map { root: 1, ..a.map };
    let large = Map { count: 6, ..a.map };
    let falling = Query::overlap((Bound::Included(25), Bound::Excluded(20)));
    for places in [0, 1] {
        assert_eq!(refused(large, falling, places), Some(Refusal::NoRoom));
        assert_eq!(refused(broken, falling, places), Some(Refusal::Broken));
        assert_eq!(refused(a.map, falling, places), Some(Refusal::BadRange));
    }
}

#[test]
fn ended_hits_stay_ended() {
    let a = Store::of(&LIST_A);
    let mut buffer = [0; 2];
    let query = Query::overlap(20..=25);
    let mut hits = a
        .map
        .hits(&a.nodes, &a.colours, query, &mut buffer)
        .unwrap();
    let found = [hits.next(), hits.next(), hits.next(), hits.next()];
    assert_eq!(found, [Some(1), Some(2), None, None]);
}

/// The crate makes the first cursor itself.
#[test]
fn fresh_as_the_archive_has_it() {
    for map in [Map::new(), map(5, 2, 1), map(9, U, u32::MAX)] {
        let mut answer = [7; 3];
        // SAFETY: the answer is an array of three places.
        let number =
            unsafe { iset_proved::ffi::iset_fresh(map.count, map.root, answer.as_mut_ptr(), 3) };
        let Cursor { slot, levels, bits } = map.fresh();
        assert_eq!((number, answer), (0, [slot, levels, bits]));
    }
}

/// `Removed::slot_after` and the archive's own function.
#[test]
fn slots_after_as_the_archive_has_them() {
    for slot in 0..5 {
        let mut a = Store::of(&LIST_A);
        let removed = a.map.remove(&mut a.nodes, &mut a.colours, slot).unwrap();
        let [(b, c), (d, e), (f, g)] = removed.pairs;
        let answer = [0, 0, 0, b, c, d, e, f, g, 0, 0];
        for kept in 0..5 {
            // SAFETY: the answer has eleven numbers.
            let after = unsafe { iset_proved::ffi::iset_slot_after(answer.as_ptr(), slot, kept) };
            assert_eq!(removed.slot_after(kept).unwrap_or(U), after);
        }
    }
}
