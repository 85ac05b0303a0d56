//! `DisjointMap` and `DisjointStore` beside a plain list of ranges. They need the archives: without
//! ISET_LIB_DIR there is nothing here to run.
#![cfg(iset_linked)]
mod chance;

use chance::Chance;
use iset_proved::{DisjointMap, DisjointStore, Map, NotPlaced, Query, Refusal, Rule, U};

const SLOTS: usize = 40;

/// The first of the ranges by start, with its slot, that intersects the new one.
fn met(list: &[(u64, u64)], start: u64, end: u64) -> Option<u64> {
    let slots = (0..list.len()).filter(|&i| list[i].0 < end && start < list[i].1);
    slots.min_by_key(|&i| list[i].0).map(|slot| slot as u64)
}

/// What an insertion should return: its slot or why not.
fn expected(list: &[(u64, u64)], start: u64, end: u64) -> Result<u64, NotPlaced> {
    let refused = |why, slot| Err(NotPlaced { why, slot });
    if start >= end {
        return refused(Refusal::BadInterval, U);
    }
    match met(list, start, end) {
        Some(slot) => refused(Refusal::Overlap, slot),
        None if list.len() == SLOTS => refused(Refusal::NoRoom, U),
        None => Ok(list.len() as u64),
    }
}

fn insert(store: &mut DisjointStore, list: &mut Vec<(u64, u64)>, chance: &mut Chance) {
    let start = chance.below(300);
    let end = start + chance.below(12);
    let wanted = expected(list, start, end);
    assert_eq!(store.insert(start..end, start ^ end), wanted);
    if wanted.is_ok() {
        list.push((start, end));
    }
}

fn remove(store: &mut DisjointStore, list: &mut Vec<(u64, u64)>, chance: &mut Chance) {
    let slot = chance.below(list.len() as u64 + 2);
    if slot >= list.len() as u64 {
        assert_eq!(store.remove(slot), Err(Refusal::NoSuch));
        return;
    }
    let removed = store.remove(slot).unwrap();
    let mut after = vec![(0, 0); list.len() - 1];
    for (old, range) in list.iter().enumerate() {
        if let Some(new) = removed.slot_after(old as u64) {
            after[new as usize] = *range;
        }
    }
    *list = after;
}

/// The ranges with an address in a window go, and the others are left.
fn unload(store: &mut DisjointStore, list: &mut Vec<(u64, u64)>, chance: &mut Chance) {
    let start = chance.below(300);
    let end = start + 1 + chance.below(12);
    let mut left = list.clone();
    left.retain(|range| end <= range.0 || range.1 <= start);
    let gone = store.unload(Rule::Whole, start..end);
    assert_eq!(gone, Ok((list.len() - left.len()) as u64));
    *list = (0..left.len() as u64)
        .map(|slot| store.get(slot).unwrap().range)
        .map(|range| (range.start, range.end))
        .collect();
    let mut found = list.clone();
    left.sort();
    found.sort();
    assert_eq!(left, found);
}

/// Tidies the store: slot i is then the i-th range.
fn tidy(store: &mut DisjointStore, list: &mut [(u64, u64)]) {
    let mut plan = [0; SLOTS];
    store.read().propose(&mut plan).unwrap();
    assert_eq!(store.renumber(&plan), list_is_full(list));
    if list.len() < SLOTS {
        store.renumber(&plan[..list.len()]).unwrap();
    }
    list.sort();
    for (slot, range) in list.iter().enumerate() {
        let entry = store.get(slot as u64).unwrap();
        assert_eq!((entry.range.start, entry.range.end), *range);
    }
}

/// What a plan of as many places as there are slots comes to.
fn list_is_full(list: &[(u64, u64)]) -> Result<(), Refusal> {
    (list.len() == SLOTS).then_some(()).ok_or(Refusal::BadPlan)
}

#[test]
fn by_chance() {
    let mut chance = Chance(88172645463325252);
    for _ in 0..30 {
        let (mut nodes, mut colours) = ([0; SLOTS * 8], [0; SLOTS / 8]);
        let mut store = DisjointStore::new(&mut nodes, &mut colours);
        let mut list = Vec::new();
        for _ in 0..150 {
            match chance.below(30) {
                0..=8 => remove(&mut store, &mut list, &mut chance),
                9 => unload(&mut store, &mut list, &mut chance),
                10 => tidy(&mut store, &mut list),
                _ => insert(&mut store, &mut list, &mut chance),
            }
            assert_eq!(store.len(), list.len());
            let address = chance.below(320);
            let found = met(&list, address, address + 1);
            assert_eq!(store.at(address).map(|entry| entry.slot), found);
            assert!(store.point(address).unwrap().entered <= 11);
            assert!(store
                .read()
                .at(address)
                .map(|e| Some(e.slot))
                .eq(found.map(Some)));
        }
        let map = store.close();
        assert_eq!(DisjointMap { map }.check(&nodes, &colours), Ok(()));
        DisjointStore::open(map, &mut nodes, &mut colours).unwrap();
    }
}

#[test]
fn by_value() {
    let (mut nodes, mut colours) = ([0; SLOTS * 8], [0; SLOTS / 8]);
    let mut map = DisjointMap { map: Map::new() };
    let mut list = Vec::new();
    let mut chance = Chance(424242);
    for value in 0..120 {
        let start = chance.below(300);
        let end = start + chance.below(10);
        let (words, bits) = (nodes, colours);
        let placed = map.insert(&mut nodes, &mut colours, start, end, value);
        assert_eq!(
            placed.map(|inserted| inserted.slot),
            expected(&list, start, end)
        );
        match placed {
            Ok(inserted) => {
                list.push((start, end));
                map.map = inserted.map;
            }
            Err(_) => assert_eq!((words, bits), (nodes, colours)),
        }
        let address = chance.below(300);
        let spot = map.point(&nodes, &colours, address).unwrap();
        assert_eq!(spot.slot, met(&list, address, address + 1).unwrap_or(U));
        let mut out = [0; 2];
        let found = map
            .map
            .find_all(&nodes, &colours, Query::at(address), &mut out);
        assert_eq!(found.unwrap().hits, u64::from(spot.slot != U));
    }
    let removed = map.remove(&mut nodes, &mut colours, 0).unwrap();
    assert_eq!(removed.map.count, list.len() as u64 - 1);
    assert_eq!(map.check(&nodes, &colours), Err(Refusal::Broken));
}

#[test]
fn refusals() {
    let (mut nodes, mut colours) = ([0; 5 * 8], [0; 1]);
    let list = [10, 20, 1, 10, 30, 2, 25, 40, 3, 40, 50, 4, 45, 60, 5];
    let map = Map::new().build(&mut nodes, &mut colours, &list).unwrap();
    let both = DisjointMap { map };
    let (words, bits) = (nodes, colours);
    let not = NotPlaced {
        why: Refusal::NotDisjoint,
        slot: U,
    };
    assert_eq!(both.check(&nodes, &colours), Err(Refusal::NotDisjoint));
    assert_eq!(both.point(&nodes, &colours, 1), Err(Refusal::NotDisjoint));
    assert_eq!(both.insert(&mut nodes, &mut colours, 5, 5, 0), Err(not));
    assert_eq!(
        both.remove(&mut nodes, &mut colours, 0),
        Err(Refusal::NotDisjoint)
    );
    assert!(DisjointStore::open(map, &mut nodes, &mut colours).is_err());
    assert_eq!((words, bits), (nodes, colours));
    let overlap = NotPlaced {
        why: Refusal::Overlap,
        slot: 3,
    };
    assert_eq!(
        overlap.to_string(),
        "a stored entry intersects the new one (13), in slot 3"
    );
    assert_eq!(not.to_string(), "two entries intersect (14)");
    assert_eq!(Refusal::from(overlap), Refusal::Overlap);
}
