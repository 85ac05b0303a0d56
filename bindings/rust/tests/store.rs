//! `Store` and `StoreRef` beside a plain list of entries. They need the archives: without
//! ISET_LIB_DIR there is nothing here to run.
#![cfg(iset_linked)]
mod chance;

use core::ops::{Bound, RangeBounds};

use chance::Chance;
use iset_proved::{Entry, Map, Query, Refusal, Rule, Store, StoreRef, U};

const SLOTS: usize = 200;

/// The entries as (start, end, value), in tree order, and each one's slot.
struct Plain(Vec<(u64, u64, u64, u64)>);

impl Plain {
    fn insert(&mut self, start: u64, end: u64, value: u64, slot: u64) {
        let after = self.0.partition_point(|e| (e.0, e.1) <= (start, end));
        self.0.insert(after, (start, end, value, slot));
    }

    /// What a lookup should hand out.
    fn those(&self, want: impl Fn(u64, u64) -> bool) -> Vec<Entry> {
        let hits = self.0.iter().filter(|e| want(e.0, e.1));
        hits.map(|&(start, end, value, slot)| Entry {
            slot,
            range: start..end,
            value,
        })
        .collect()
    }
}

fn insert(store: &mut Store, plain: &mut Plain, chance: &mut Chance) {
    let (start, value) = (chance.below(300), chance.below(1000));
    let end = start + chance.below(20);
    let full = store.len() == SLOTS;
    match store.insert(start..end, value) {
        Ok(slot) => plain.insert(start, end, value, slot),
        Err(Refusal::NoRoom) => assert!(full),
        Err(why) => assert_eq!((why, full, start), (Refusal::BadInterval, false, end)),
    }
}

fn remove(store: &mut Store, plain: &mut Plain, chance: &mut Chance) {
    let slot = chance.below(store.len() as u64 + 2);
    if slot >= store.len() as u64 {
        assert_eq!(store.remove(slot), Err(Refusal::NoSuch));
        return;
    }
    let removed = store.remove(slot).unwrap();
    let at = plain.0.iter().position(|e| e.3 == slot).unwrap();
    assert_eq!(plain.0.remove(at).2, removed.value);
    assert_eq!(removed.slot_after(slot), None);
    for entry in &mut plain.0 {
        entry.3 = removed.slot_after(entry.3).unwrap();
    }
}

/// The plain and the fast lookup write, and `hits` hands out, the slots of the entries.
fn same_slots(store: &Store, query: Query, found: Result<Vec<Entry>, Refusal>, piece: usize) {
    let (mut out, mut buffer) = ([U; SLOTS], [U; SLOTS]);
    let tally = store.plain(query, &mut out);
    let hits = store.hits(query, &mut buffer[..piece]);
    let mut first = [U; SLOTS];
    let fast = store.find_all(query, &mut first[..piece]);
    assert_eq!(
        fast.map(|fast| fast.hits).err(),
        tally.map(|tally| tally.hits).err()
    );
    if let (Ok(fast), Ok(tally)) = (fast, tally) {
        let held = piece.min(tally.hits as usize);
        assert!(fast.hits == tally.hits && fast.entered <= tally.entered);
        assert_eq!(first[..held], out[..held]);
        assert!(first[held..].iter().all(|&place| place == U));
    }
    match (tally, found) {
        (Ok(tally), Ok(found)) => {
            assert!(hits.unwrap().eq(found.iter().map(|entry| entry.slot)));
            assert_eq!(tally.entered, store.len() as u64);
            let slots = out[..tally.hits as usize].iter().copied();
            assert!(slots.eq(found.iter().map(|entry| entry.slot)));
        }
        (tally, found) => {
            assert_eq!(tally.err(), found.err());
            assert_eq!(tally.err(), hits.err());
        }
    }
}

fn look_up(store: &Store, plain: &Plain, chance: &mut Chance) {
    let (a, w) = (chance.below(320), chance.below(30));
    assert!(store
        .at(a)
        .eq(plain.those(|start, end| start <= a && a < end)));
    let open = (Bound::Included(a), Bound::Excluded(a + w));
    match store.overlap(open) {
        Ok(found) => assert!(found.eq(plain.those(|start, end| a < end && start < a + w))),
        Err(why) => assert_eq!((why, w), (Refusal::BadRange, 0)),
    }
    match store.exact(a..a + w) {
        Ok(found) => assert!(found.eq(plain.those(|start, end| (start, end) == (a, a + w)))),
        Err(why) => assert_eq!((why, w), (Refusal::BadInterval, 0)),
    }
    same_slots(
        store,
        Query::overlap(open),
        store.overlap(open).map(Vec::from_iter),
        1 + chance.below(5) as usize,
    );
    by_rules(store, plain, chance);
    let (start, end) = (a, a + w);
    same_slots(
        store,
        Query::Exact { start, end },
        store.exact(start..end).map(Vec::from_iter),
        1 + chance.below(5) as usize,
    );
}

/// A bound near an address.
fn bound(chance: &mut Chance) -> Bound<u64> {
    let a = chance.below(320);
    [Bound::Included(a), Bound::Excluded(a), Bound::Unbounded][chance.below(3) as usize]
}

/// By rule 1 the slots are those without a rule. By rule 2 an entry is found if one of its
/// addresses lies in the range, and a range without an address is refused.
fn by_rules(store: &Store, plain: &Plain, chance: &mut Chance) {
    let range = (bound(chance), bound(chance));
    let places = 1 + chance.below(5) as usize;
    let any = Query::Ruled(Rule::Any, range.0, range.1);
    same_slots(store, any, store.overlap(range).map(Vec::from_iter), places);
    let some = (0..400).any(|a| range.contains(&a));
    let those = plain.those(|start, end| (start..end).any(|a| range.contains(&a)));
    let found = some.then_some(those).ok_or(Refusal::BadRange);
    same_slots(store, Query::whole(range), found, places);
}

/// Unloads a window, mostly a small one: those that a lookup finds go, and the others keep their
/// order.
fn unload(store: &mut Store, plain: &mut Plain, chance: &mut Chance) {
    let rule = [Rule::Any, Rule::Whole][chance.below(2) as usize];
    let a = chance.below(320);
    let (lo, hi) = match chance.below(8) {
        0 => (bound(chance), bound(chance)),
        _ => (Bound::Excluded(a), Bound::Excluded(a + chance.below(9))),
    };
    let mut out = [U; SLOTS];
    let found = store.plain(Query::Ruled(rule, lo, hi), &mut out);
    let gone = store.unload(rule, (lo, hi));
    assert_eq!(gone, found.map(|found| found.hits));
    let Ok(gone) = gone else { return };
    plain.0.retain(|e| !out[..gone as usize].contains(&e.3));
    assert_eq!(store.len(), plain.0.len());
    for (old, entry) in plain.0.iter_mut().zip(store.entries()) {
        assert_eq!((old.0..old.1, old.2), (entry.range, entry.value));
        old.3 = entry.slot;
    }
}

/// Renumbers by the planner's proposal, or by chance: the entries keep their order, and each is in
/// the slot that the plan gave it.
fn renumber(store: &mut Store, plain: &mut Plain, chance: &mut Chance) {
    let count = store.len();
    let mut plan = [U; SLOTS];
    assert_eq!(store.propose(&mut plan), Ok(()));
    assert!(plan[count..].iter().all(|&place| place == U));
    if count > 0 {
        let short = store.propose(&mut [0; SLOTS][..count - 1]);
        assert_eq!(short, Err(Refusal::ShortOutput));
    }
    for (place, entry) in plain.0.iter().enumerate() {
        assert_eq!(plan[entry.3 as usize], place as u64);
    }
    if chance.below(2) == 0 {
        for i in (1..count).rev() {
            plan.swap(i, chance.below(i as u64 + 1) as usize);
        }
    }
    if count > 1 {
        let kept = plan[0];
        plan[0] = plan[1];
        assert_eq!(store.renumber(&plan[..count]), Err(Refusal::BadPlan));
        plan[0] = kept;
    }
    assert_eq!(store.renumber(&plan[..count]), Ok(()));
    for entry in &mut plain.0 {
        entry.3 = plan[entry.3 as usize];
    }
}

#[test]
fn as_a_plain_list() {
    let mut chance = Chance(88172645463325252);
    let (mut nodes, mut colours) = ([7; SLOTS * 8], [7; SLOTS / 8]);
    let mut store = Store::open(Map::new(), &mut nodes, &mut colours).unwrap();
    let mut plain = Plain(vec![]);
    for k in 0..3000 {
        let growing = k / 500 % 2 == 0;
        if (chance.below(3) == 0) == growing {
            remove(&mut store, &mut plain, &mut chance);
        } else {
            insert(&mut store, &mut plain, &mut chance);
        }
        if k % 20 == 19 {
            unload(&mut store, &mut plain, &mut chance);
        }
        if k % 20 == 9 {
            renumber(&mut store, &mut plain, &mut chance);
        }
        assert_eq!(
            (store.len(), store.is_empty()),
            (plain.0.len(), plain.0.is_empty())
        );
        assert!(store.entries().eq(plain.those(|_, _| true)));
        look_up(&store, &plain, &mut chance);
    }
    let all = plain.those(|_, _| true);
    let map = store.close();
    assert_eq!(map.check(&nodes, &colours), Ok(()));
    let read = StoreRef::open(map, &nodes, &colours).unwrap();
    assert!(read.entries().eq(all));
}

#[test]
fn opened_and_built() {
    let (mut nodes, mut colours) = ([0; 24], [0; 1]);
    let list = [[5, 9, 1], [5, 9, 2], [5, 9, 3]];
    let falling = [[5, 9, 1], [4, 9, 2]];
    let refused = Store::build(&mut nodes, &mut colours, &falling).err();
    assert_eq!(refused, Some(Refusal::NotSorted));
    let map = Store::build(&mut nodes, &mut colours, &list)
        .unwrap()
        .close();
    let broken = Map { root: U, ..map };
    assert_eq!(
        StoreRef::open(broken, &nodes, &colours).err(),
        Some(Refusal::Broken)
    );
    assert_eq!(
        Store::open(broken, &mut nodes, &mut colours).err(),
        Some(Refusal::Broken)
    );
    assert_eq!(
        Store::open(map, &mut nodes[..23], &mut colours).err(),
        Some(Refusal::NoRoom)
    );
    let store = Store::open(map, &mut nodes, &mut colours).unwrap();
    assert_eq!(store.get(3), None);
    assert_eq!(store.get(U), None);
    let second = Entry {
        slot: 1,
        range: 5..9,
        value: 2,
    };
    assert_eq!(store.get(1), Some(second));
}

/// A ticket holds until the next change: a removal, an insertion, an unloading of an entry, a
/// renumbering or a build.
#[test]
fn tickets() {
    let (mut nodes, mut colours) = ([0; 32], [0; 1]);
    let list = [[5, 9, 1], [6, 9, 2], [7, 9, 3]];
    let mut store = Store::build(&mut nodes, &mut colours, &list).unwrap();
    type Change = fn(&mut Store) -> Result<u64, Refusal>;
    let changes: [Change; 5] = [
        |store| store.insert(8..9, 4),
        |store| store.remove(0).map(|removed| removed.value),
        |store| store.unload(Rule::Any, 6..7),
        |store| store.renumber(&[0, 1]).map(|()| 0),
        |store| store.rebuild(&[[1, 2, 7], [3, 4, 8]]).map(|()| 0),
    ];
    for change in changes {
        let ticket = store.ticket(1);
        let entry = store.read_ticket(ticket).unwrap();
        assert_eq!(store.get(1), Some(entry.clone()));
        assert_eq!(store.read().read_ticket(store.read().ticket(1)), Ok(entry));
        assert_eq!(store.remove(9), Err(Refusal::NoSuch));
        assert_eq!(
            store.rebuild(&[[5, 9, 1], [4, 9, 2]]),
            Err(Refusal::NotSorted)
        );
        assert_eq!(store.unload(Rule::Any, 9..), Ok(0));
        assert_eq!(store.unload(Rule::Whole, 9..9), Err(Refusal::BadRange));
        assert_eq!(store.renumber(&[0, 0]), Err(Refusal::BadPlan));
        assert!(store.read_ticket(ticket).is_ok());
        change(&mut store).unwrap();
        assert_eq!(store.read_ticket(ticket), Err(Refusal::Stale));
        assert_eq!(store.read_ticket(store.ticket(9)), Err(Refusal::NoSuch));
    }
    assert_eq!((store.len(), store.close().version), (2, 6));
}

#[test]
fn in_pieces() {
    let list: Vec<[u64; 3]> = (0..1000).map(|k| [k / 300, 2000, k]).collect();
    let (mut nodes, mut colours) = (vec![0; 8000], vec![0; 125]);
    let store = Store::build(&mut nodes, &mut colours, &list).unwrap();
    assert!(store.entries().map(|entry| entry.value).eq(0..1000));
    assert!(store.at(1).map(|entry| entry.value).eq(0..600));
    // as many as are fetched at once, one less and one more
    for n in 7..10 {
        let (mut nodes, mut colours) = (vec![0; 80], vec![0; 2]);
        let store = Store::build(&mut nodes, &mut colours, &list[..n]).unwrap();
        assert!(store.at(1).map(|entry| entry.value).eq(0..n as u64));
        assert_eq!(store.at(2000).next(), None);
    }
    let third = store.exact(2..2000).unwrap();
    assert!(third.map(|entry| entry.value).eq(600..900));
    let mut buffer = [0; 7];
    let hits = store.hits(Query::overlap(..), &mut buffer).unwrap();
    assert!(hits.eq(0..1000));
    let mut ended = store.overlap(3000..).unwrap();
    assert_eq!((ended.next(), ended.next()), (None, None));
}
