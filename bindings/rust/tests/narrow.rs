//! Six-word nodes beside eight-word nodes, on the same map, by chance: every call returns the same,
//! and leaves the same words once the links are unpacked. The tests need the archives: without
//! ISET_LIB_DIR there is nothing here to run.
#![cfg(iset_linked)]
mod chance;

use core::ops::Bound;

use chance::Chance;
use iset_proved::narrow::{self, capacity};
use iset_proved::{
    image, image_len, Cursor, DisjointMap, DisjointStore, Entry, Inserted, Map, NotPlaced, Query,
    Refusal, Removed, Rule, Step, Store, StoreRef, Unloaded, U,
};

const SLOTS: usize = 24;
const NO_LINKS: u64 = 281474976710655;

impl Chance {
    /// An interval near the others, sometimes one that is refused.
    fn interval(&mut self) -> (u64, u64) {
        let start = self.below(60);
        (start, start + self.below(10))
    }

    fn bound(&mut self) -> Bound<u64> {
        let a = self.below(70);
        [Bound::Included(a), Bound::Excluded(a), Bound::Unbounded][self.below(3) as usize]
    }

    /// A window to unload, mostly a small one, and a rule.
    fn window(&mut self) -> (Rule, (Bound<u64>, Bound<u64>)) {
        let (start, end) = self.interval();
        let range = match self.below(6) {
            0 => (self.bound(), self.bound()),
            _ => (Bound::Excluded(start), Bound::Included(end)),
        };
        ([Rule::Any, Rule::Whole][self.below(2) as usize], range)
    }

    /// A plan for so many slots, seldom one that is refused.
    fn plan(&mut self, count: u64) -> Vec<u64> {
        let mut plan: Vec<u64> = (0..count).collect();
        for i in (1..plan.len()).rev() {
            plan.swap(i, self.below(i as u64 + 1) as usize);
        }
        match self.below(8) {
            0 => plan.push(count),
            1 if count > 0 => plan[self.below(count) as usize] = self.below(count + 1),
            _ => {}
        }
        plan
    }

    fn query(&mut self) -> Query {
        let (lo, hi) = (self.bound(), self.bound());
        match self.below(4) {
            0 => Query::Ruled(Rule::Any, lo, hi),
            1 => Query::whole((lo, hi)),
            2 => {
                let (start, end) = self.interval();
                Query::Exact { start, end }
            }
            _ => Query::overlap((lo, hi)),
        }
    }

    /// A list to build, sorted or, seldom, not.
    fn list(&mut self) -> Vec<[u64; 3]> {
        let many = self.below(SLOTS as u64 + 2);
        let mut list: Vec<[u64; 3]> = (0..many)
            .map(|value| {
                let (start, end) = self.interval();
                [start, end + (self.below(40) > 0) as u64, value]
            })
            .collect();
        if self.below(6) > 0 {
            list.sort();
        }
        list
    }
}

/// A link of 16 bits, or a parent's of 32, as a word: 65535 leads nowhere. A parent with one of the
/// top bits set becomes a word that is no link.
fn link(bits: u64) -> u64 {
    match bits {
        0..=65534 => bits,
        _ => bits - 65535 + U,
    }
}

/// Six-word nodes as eight-word nodes. The words past the last whole node stay.
fn unpack(nodes: &[u64]) -> Vec<u64> {
    let whole = nodes.chunks_exact(6);
    let rest = whole.remainder().to_vec();
    let mut words: Vec<u64> = whole
        .flat_map(|node| {
            let links = node[5];
            let parts = [links % 65536, links / 65536 % 65536, links >> 32];
            node[..5].iter().copied().chain(parts.map(link))
        })
        .collect();
    words.extend(rest);
    words
}

/// Eight-word nodes whose links fit as six-word nodes.
fn pack(words: &[u64]) -> Vec<u64> {
    let bits = |word: u64| if word == U { 65535 } else { word };
    let node = |node: &[u64]| {
        let links = bits(node[5]) + 65536 * bits(node[6]) + 4294967296 * bits(node[7]);
        [node[0], node[1], node[2], node[3], node[4], links]
    };
    words.chunks_exact(8).flat_map(node).collect()
}

/// The map of the other layout with the same numbers.
fn wide(map: narrow::Map) -> Map {
    let narrow::Map {
        count,
        root,
        version,
    } = map;
    Map {
        count,
        root,
        version,
    }
}

fn removed(answer: narrow::Removed) -> Removed {
    Removed {
        map: wide(answer.map),
        slot: answer.slot,
        value: answer.value,
        pairs: answer.pairs,
        reach: answer.reach,
    }
}

fn inserted(answer: narrow::Inserted) -> Inserted {
    Inserted {
        map: wide(answer.map),
        slot: answer.slot,
        reach: answer.reach,
    }
}

fn unloaded(answer: narrow::Unloaded) -> Unloaded {
    Unloaded {
        map: wide(answer.map),
        gone: answer.gone,
    }
}

/// A map in both layouts, each with its memory.
#[derive(Clone, Debug)]
struct Both {
    six: narrow::Map,
    eight: Map,
    narrow: Vec<u64>,
    nodes: Vec<u64>,
    /// The colours beside the six-word nodes, and beside the eight-word ones.
    bits: Vec<u8>,
    colours: Vec<u8>,
}

impl Both {
    /// The map of no entries, in memory that is filled by chance, with up to five words left over.
    fn empty(chance: &mut Chance) -> Both {
        let words = SLOTS as u64 * 6 + chance.below(6);
        let narrow: Vec<u64> = (0..words).map(|_| chance.below(u64::MAX)).collect();
        let bits: Vec<u8> = (0..SLOTS / 8).map(|_| chance.below(256) as u8).collect();
        Both {
            six: narrow::Map::new(),
            eight: Map::new(),
            nodes: unpack(&narrow),
            narrow,
            colours: bits.clone(),
            bits,
        }
    }

    /// The maps have the same numbers, and the memories the same contents.
    fn same(&self) {
        assert_eq!(wide(self.six), self.eight);
        assert_eq!(unpack(&self.narrow), self.nodes);
        assert_eq!(self.bits, self.colours);
    }

    fn build(&mut self, list: &[u64]) {
        let six = self.six.build(&mut self.narrow, &mut self.bits, list);
        let eight = self.eight.build(&mut self.nodes, &mut self.colours, list);
        assert_eq!(six.map(wide), eight);
        self.six = six.unwrap_or(self.six);
        self.eight = eight.unwrap_or(self.eight);
        self.same();
    }

    fn insert(&mut self, start: u64, end: u64, value: u64) {
        let six = (self.six).insert(&mut self.narrow, &mut self.bits, start, end, value);
        let eight = (self.eight).insert(&mut self.nodes, &mut self.colours, start, end, value);
        assert_eq!(six.map(inserted), eight);
        self.six = six.map_or(self.six, |answer| answer.map);
        self.eight = eight.map_or(self.eight, |answer| answer.map);
        self.same();
    }

    fn remove(&mut self, slot: u64) {
        let six = self.six.remove(&mut self.narrow, &mut self.bits, slot);
        let eight = self.eight.remove(&mut self.nodes, &mut self.colours, slot);
        assert_eq!(six.map(removed), eight);
        for kept in 0..SLOTS as u64 {
            let after = eight.map(|answer| answer.slot_after(kept));
            assert_eq!(six.map(|answer| answer.slot_after(kept)), after);
        }
        self.six = six.map_or(self.six, |answer| answer.map);
        self.eight = eight.map_or(self.eight, |answer| answer.map);
        self.same();
    }

    fn unload(&mut self, rule: Rule, range: (Bound<u64>, Bound<u64>)) {
        let six = (self.six).unload(&mut self.narrow, &mut self.bits, rule, range);
        let eight = (self.eight).unload(&mut self.nodes, &mut self.colours, rule, range);
        assert_eq!(six.map(unloaded), eight);
        self.six = six.map_or(self.six, |answer| answer.map);
        self.eight = eight.map_or(self.eight, |answer| answer.map);
        self.same();
    }

    /// A plan into so many places.
    fn propose(&self, places: usize) {
        let (mut out, mut other) = (vec![7; places], vec![7; places]);
        let eight = (self.eight).propose(&self.nodes, &self.colours, &mut out);
        let six = (self.six).propose(&self.narrow, &self.bits, &mut other);
        assert_eq!((six, other), (eight, out));
    }

    fn renumber(&mut self, plan: &[u64]) {
        let six = (self.six).renumber(&mut self.narrow, &mut self.bits, plan);
        let eight = (self.eight).renumber(&mut self.nodes, &mut self.colours, plan);
        assert_eq!(six.map(wide), eight);
        self.six = six.unwrap_or(self.six);
        self.eight = eight.unwrap_or(self.eight);
        self.same();
    }

    fn place(&mut self, start: u64, end: u64, value: u64) {
        let (six, eight) = self.disjoint();
        let six = six.insert(&mut self.narrow, &mut self.bits, start, end, value);
        let eight = eight.insert(&mut self.nodes, &mut self.colours, start, end, value);
        assert_eq!(six.map(inserted), eight);
        self.six = six.map_or(self.six, |answer| answer.map);
        self.eight = eight.map_or(self.eight, |answer| answer.map);
        self.same();
    }

    fn take(&mut self, slot: u64) {
        let (six, eight) = self.disjoint();
        let six = six.remove(&mut self.narrow, &mut self.bits, slot);
        let eight = eight.remove(&mut self.nodes, &mut self.colours, slot);
        assert_eq!(six.map(removed), eight);
        self.six = six.map_or(self.six, |answer| answer.map);
        self.eight = eight.map_or(self.eight, |answer| answer.map);
        self.same();
    }

    fn disjoint(&self) -> (narrow::DisjointMap, DisjointMap) {
        let (six, eight) = (self.six, self.eight);
        (narrow::DisjointMap { map: six }, DisjointMap { map: eight })
    }

    /// The check of both kinds, and the entry that holds an address if no two overlap.
    fn check(&self, chance: &mut Chance) {
        let six = self.six.check(&self.narrow, &self.bits);
        assert_eq!(six, self.eight.check(&self.nodes, &self.colours));
        let (six, eight) = self.disjoint();
        let checked = eight.check(&self.nodes, &self.colours);
        assert_eq!(six.check(&self.narrow, &self.bits), checked);
        let address = chance.below(70);
        let point = eight.point(&self.nodes, &self.colours, address);
        assert_eq!(six.point(&self.narrow, &self.bits, address), point);
    }

    /// A ticket of now and of one change before, for any slot.
    fn tickets(&self, chance: &mut Chance) {
        let slot = chance.below(SLOTS as u64 + 2);
        let before = Map {
            version: self.eight.version.wrapping_sub(1),
            ..self.eight
        };
        for ticket in [self.eight.ticket(slot), before.ticket(slot)] {
            let eight = self.eight.read(&self.nodes, &self.colours, ticket);
            assert_eq!(self.six.read(&self.narrow, &self.bits, ticket), eight);
        }
        assert_eq!(self.six.ticket(slot), self.eight.ticket(slot));
    }

    /// A lookup by steps, and by drains of two, from its beginning to its end or its refusal.
    fn walk(&self, query: Query) {
        let begun = self.eight.begin(&self.nodes, &self.colours, query);
        assert_eq!(self.six.begin(&self.narrow, &self.bits, query), begun);
        let mut from = begun.unwrap_or(self.eight.fresh());
        assert_eq!(self.six.fresh(), self.eight.fresh());
        loop {
            let step = self.step(query, from);
            self.drain(query, from, 2, 2);
            match step {
                Ok(Step::Hit { next, .. }) if next.slot != U => from = next,
                _ => return,
            }
        }
    }

    fn step(&self, query: Query, from: Cursor) -> Result<Step, Refusal> {
        let eight = self.eight.step(&self.nodes, &self.colours, query, from);
        assert_eq!(self.six.step(&self.narrow, &self.bits, query, from), eight);
        eight
    }

    fn drain(&self, query: Query, from: Cursor, limit: u64, places: usize) {
        let (mut out, mut other) = (vec![7; places], vec![7; places]);
        let eight = (self.eight).drain(&self.nodes, &self.colours, query, from, limit, &mut out);
        let six = (self.six).drain(&self.narrow, &self.bits, query, from, limit, &mut other);
        assert_eq!((six, other), (eight, out));
    }

    /// The lookups that find all hits at once, and the iterator.
    fn at_once(&self, query: Query, places: usize) {
        let (mut out, mut other) = (vec![7; places], vec![7; places]);
        let eight = (self.eight).plain(&self.nodes, &self.colours, query, &mut out);
        let six = (self.six).plain(&self.narrow, &self.bits, query, &mut other);
        assert_eq!((six, &other), (eight, &out));
        let eight = (self.eight).find_all(&self.nodes, &self.colours, query, &mut out);
        let six = (self.six).find_all(&self.narrow, &self.bits, query, &mut other);
        assert_eq!((six, &other), (eight, &out));
        let eight = (self.eight).hits(&self.nodes, &self.colours, query, &mut out);
        let six = (self.six).hits(&self.narrow, &self.bits, query, &mut other);
        assert_eq!(six.map(Vec::from_iter), eight.map(Vec::from_iter));
    }

    fn look_up(&self, chance: &mut Chance) {
        let query = chance.query();
        self.walk(query);
        let from = Cursor {
            slot: chance.below(SLOTS as u64 + 1),
            levels: chance.below(6),
            bits: chance.below(256),
        };
        let _ = self.step(query, from);
        self.drain(query, from, chance.below(5), chance.below(5) as usize);
        self.at_once(query, chance.below(SLOTS as u64 + 2) as usize);
        let (start, end) = chance.interval();
        let eight = (self.eight).fresh_exact(&self.nodes, &self.colours, start, end);
        let six = (self.six).fresh_exact(&self.narrow, &self.bits, start, end);
        assert_eq!(six, eight);
    }

    /// The map saved by each layout: the same bytes, and the same refusal of a short output.
    fn save(&self, places: usize) -> Result<Vec<u8>, Refusal> {
        let (mut out, mut other) = (vec![238; places], vec![238; places]);
        let eight = (self.eight).write_image(&self.nodes, &self.colours, &mut out);
        let six = (self.six).write_image(&self.narrow, &self.bits, &mut other);
        assert_eq!((six, &other), (eight, &out));
        eight.map(|length| out[..length].to_vec())
    }

    /// An image loaded into each layout.
    fn load(&mut self, image: &[u8]) {
        let six = (self.six).read_image(&mut self.narrow, &mut self.bits, image);
        let eight = (self.eight).read_image(&mut self.nodes, &mut self.colours, image);
        assert_eq!(six.map(wide), eight);
        self.six = six.unwrap_or(self.six);
        self.eight = eight.unwrap_or(self.eight);
        self.same();
    }

    /// A change, by chance.
    fn change(&mut self, chance: &mut Chance) {
        let slot = chance.below(self.eight.count + 1);
        let (start, end) = chance.interval();
        match chance.below(14) {
            13 => {
                self.propose(chance.below(SLOTS as u64 + 2) as usize);
                let plan = chance.plan(self.eight.count);
                self.renumber(&plan);
            }
            12 => {
                let (rule, range) = chance.window();
                self.unload(rule, range);
            }
            0 => {
                let list = chance.list().concat();
                let cut = list.len() - (chance.below(9) == 0 && !list.is_empty()) as usize;
                self.build(&list[..cut]);
            }
            1..=4 => self.remove(slot),
            5 => self.place(start, end, chance.below(u64::MAX)),
            6 => self.take(slot),
            _ => self.insert(start, end, chance.below(u64::MAX)),
        }
    }
}

#[test]
fn maps() {
    let mut chance = Chance(88172645463325252);
    for _ in 0..40 {
        let mut both = Both::empty(&mut chance);
        for _ in 0..100 {
            both.change(&mut chance);
            both.check(&mut chance);
            both.tickets(&mut chance);
            both.look_up(&mut chance);
        }
        let whole = both.six.count as usize * 6;
        let words = both.eight.count as usize * 8;
        assert_eq!(pack(&both.nodes[..words]), both.narrow[..whole]);
    }
}

/// A damaged word, a wrong count or root, and short slices are refused alike, and nothing changes.
#[test]
fn damage() {
    let mut chance = Chance(77);
    let mut met = [0; 3];
    for _ in 0..400 {
        let mut both = Both::empty(&mut chance);
        for _ in 0..20 {
            both.change(&mut chance);
        }
        match chance.below(4) {
            0 => both.six.count = chance.below(SLOTS as u64 + 2),
            1 => both.six.root = chance.below(SLOTS as u64),
            2 => both
                .narrow
                .truncate(chance.below(SLOTS as u64 * 6) as usize),
            _ => {
                let at = chance.below(SLOTS as u64 * 6) as usize;
                both.narrow[at] ^= 1 << chance.below(64);
            }
        }
        both.eight = wide(both.six);
        both.nodes = unpack(&both.narrow);
        both.check(&mut chance);
        both.look_up(&mut chance);
        both.tickets(&mut chance);
        let _ = both.save(image_len(SLOTS));
        let before = both.clone();
        both.remove(0);
        let checked = before.six.check(&before.narrow, &before.bits);
        if checked.is_err() {
            both.insert(1, 2, 3);
            assert_eq!((&before.narrow, &before.bits), (&both.narrow, &both.bits));
        }
        met[match checked {
            Ok(()) => 0,
            Err(Refusal::NoRoom) => 1,
            Err(why) => {
                assert_eq!(why, Refusal::Broken);
                2
            }
        }] += 1;
    }
    assert!(met.iter().all(|&times| times > 0), "{met:?}");
}

/// An image is the same from both, and each reads the other's, or refuses it.
#[test]
fn images() {
    let mut chance = Chance(12);
    for _ in 0..200 {
        let (mut from, mut to) = (Both::empty(&mut chance), Both::empty(&mut chance));
        for _ in 0..30 {
            from.change(&mut chance);
            to.change(&mut chance);
        }
        let long = image_len(from.eight.count as usize);
        assert_eq!(from.save(long - 1), Err(Refusal::ShortOutput));
        let mut saved = from.save(long + 3).unwrap();
        to.load(&saved);
        assert_eq!((to.six.count, to.six.root), (from.six.count, from.six.root));
        let words = to.six.count as usize * 6;
        assert_eq!(to.narrow[..words], from.narrow[..words]);
        assert_eq!(to.save(long), Ok(saved.clone()));

        let address = chance.below(70);
        let mut out = [0; SLOTS];
        let hits = (to.six).find_all(&to.narrow, &to.bits, Query::at(address), &mut out);
        let count = image::count(&saved, address).unwrap();
        assert_eq!(hits.map(|tally| tally.hits), Ok(count));
        for (k, &slot) in out[..count as usize].iter().enumerate() {
            let value = image::value(&saved, address, k as u64);
            assert_eq!(value, Ok(to.narrow[slot as usize * 6 + 2]));
        }

        let at = chance.below(long as u64 * 8) as usize;
        saved[at / 8] ^= 1 << (at % 8);
        to.load(&saved);
        to.load(&saved[..long - 1]);
    }
}

#[test]
fn disjoint_maps() {
    let mut chance = Chance(424242);
    for _ in 0..60 {
        let mut both = Both::empty(&mut chance);
        for value in 0..80 {
            let (start, end) = chance.interval();
            match chance.below(4) {
                0 => both.take(chance.below(both.six.count + 1)),
                _ => both.place(start, end, value),
            }
            both.check(&mut chance);
        }
        assert_eq!(both.disjoint().0.check(&both.narrow, &both.bits), Ok(()));
    }
}

/// What the readers of both layouts say of one map.
fn readers(six: narrow::StoreRef, eight: StoreRef, chance: &mut Chance) {
    assert_eq!((six.len(), six.is_empty()), (eight.len(), eight.is_empty()));
    assert!(six.entries().eq(eight.entries()));
    let address = chance.below(70);
    assert!(six.at(address).eq(eight.at(address)));
    let slot = chance.below(SLOTS as u64 + 1);
    assert_eq!(six.get(slot), eight.get(slot));
    assert_eq!(six.ticket(slot), eight.ticket(slot));
    let ticket = eight.ticket(slot);
    assert_eq!(six.read_ticket(ticket), eight.read_ticket(ticket));

    let range = (chance.bound(), chance.bound());
    let (all, others) = (six.overlap(range), eight.overlap(range));
    assert_eq!(all.map(Vec::from_iter), others.map(Vec::from_iter));
    let (start, end) = chance.interval();
    let (all, others) = (six.exact(start..end), eight.exact(start..end));
    assert_eq!(all.map(Vec::from_iter), others.map(Vec::from_iter));

    let (query, places) = (chance.query(), chance.below(SLOTS as u64 + 1) as usize);
    let (mut out, mut other) = (vec![7; places], vec![7; places]);
    let plain = (six.plain(query, &mut out), eight.plain(query, &mut other));
    assert_eq!((plain.0, &out), (plain.1, &other));
    let found = (
        six.find_all(query, &mut out),
        eight.find_all(query, &mut other),
    );
    assert_eq!((found.0, &out), (found.1, &other));
    let plans = (six.propose(&mut out), eight.propose(&mut other));
    assert_eq!((plans.0, &out), (plans.1, &other));
    let hits = (six.hits(query, &mut out), eight.hits(query, &mut other));
    assert_eq!(hits.0.map(Vec::from_iter), hits.1.map(Vec::from_iter));
    let (mut saved, mut others) = ([0; image_len(SLOTS)], [0; image_len(SLOTS)]);
    let written = six.write_image(&mut saved[places..]);
    assert_eq!(written, eight.write_image(&mut others[places..]));
    assert_eq!(saved, others);
}

/// A chain of changes of two stores, each checked once. The memories are compared at its end.
#[test]
fn stores() {
    let mut chance = Chance(5);
    let mut both = Both::empty(&mut chance);
    for _ in 0..150 {
        let mut six = narrow::Store::open(both.six, &mut both.narrow, &mut both.bits).unwrap();
        let mut eight = Store::open(both.eight, &mut both.nodes, &mut both.colours).unwrap();
        for _ in 0..8 {
            let (slot, value) = (chance.below(SLOTS as u64), chance.below(u64::MAX));
            let (start, end) = chance.interval();
            match chance.below(11) {
                10 => {
                    let plan = chance.plan(eight.len() as u64);
                    assert_eq!(six.renumber(&plan), eight.renumber(&plan));
                }
                9 => {
                    let (rule, range) = chance.window();
                    assert_eq!(six.unload(rule, range), eight.unload(rule, range));
                }
                0 => {
                    let list = chance.list();
                    assert_eq!(six.rebuild(&list), eight.rebuild(&list));
                }
                1..=3 => assert_eq!(six.remove(slot).map(removed), eight.remove(slot)),
                4 => {
                    let mut saved = [0; image_len(SLOTS)];
                    let length = six.write_image(&mut saved).unwrap();
                    let loaded = six.read_image(&saved[..length]);
                    assert_eq!(
                        (loaded, eight.read_image(&saved[..length])),
                        (Ok(()), Ok(()))
                    );
                }
                _ => {
                    let six = six.insert(start..end, value);
                    assert_eq!(six, eight.insert(start..end, value));
                }
            }
            readers(six.read(), eight.read(), &mut chance);
        }
        (both.six, both.eight) = (six.close(), eight.close());
        both.same();
    }
    let six = narrow::StoreRef::open(both.six, &both.narrow, &both.bits).unwrap();
    let eight = StoreRef::open(both.eight, &both.nodes, &both.colours).unwrap();
    readers(six, eight, &mut chance);
}

#[test]
fn disjoint_stores() {
    let mut chance = Chance(6);
    for _ in 0..60 {
        let mut both = Both::empty(&mut chance);
        let mut six = narrow::DisjointStore::new(&mut both.narrow, &mut both.bits);
        let mut eight = DisjointStore::new(&mut both.nodes, &mut both.colours);
        for value in 0..80 {
            let (start, end) = chance.interval();
            let slot = chance.below(eight.len() as u64 + 2);
            if chance.below(4) == 0 {
                assert_eq!(six.remove(slot).map(removed), eight.remove(slot));
            } else if chance.below(12) == 0 {
                let (rule, range) = chance.window();
                assert_eq!(six.unload(rule, range), eight.unload(rule, range));
            } else if chance.below(12) == 0 {
                let plan = chance.plan(eight.len() as u64);
                assert_eq!(six.renumber(&plan), eight.renumber(&plan));
            } else {
                let placed = six.insert(start..end, value);
                assert_eq!(placed, eight.insert(start..end, value));
            }
            let address = chance.below(70);
            assert_eq!(six.point(address), eight.point(address));
            assert_eq!(six.at(address), eight.at(address));
            assert_eq!((six.len(), six.get(slot)), (eight.len(), eight.get(slot)));
            readers(six.read(), eight.read(), &mut chance);
        }
        (both.six, both.eight) = (six.close(), eight.close());
        both.same();
        let six = narrow::DisjointStore::open(both.six, &mut both.narrow, &mut both.bits);
        assert!(six.is_ok());
        both.insert(10, 12, 0);
        both.insert(11, 13, 0);
        let six = narrow::DisjointStore::open(both.six, &mut both.narrow, &mut both.bits);
        assert!(matches!(six.err(), Some(Refusal::NotDisjoint)) || both.six.count == SLOTS as u64);
    }
}

const LIST: [u64; 15] = [10, 20, 1, 10, 30, 2, 25, 40, 3, 40, 50, 4, 45, 60, 5];

/// Document 01's store A: five entries in six words each.
fn store_a() -> (narrow::Map, [u64; 36], [u8; 1]) {
    let (mut nodes, mut colours) = ([7; 36], [0; 1]);
    let map = (narrow::Map::new().build(&mut nodes, &mut colours, &LIST)).unwrap();
    (map, nodes, colours)
}

#[test]
fn the_words_of_a_node() {
    let (map, nodes, colours) = store_a();
    assert_eq!((map.count, map.root, colours), (5, 2, [9]));
    let links = |left: u64, right: u64, parent: u64| left + (right << 16) + (parent << 32);
    let n = 65535;
    let expected = [
        [10, 20, 1, 10, 20, links(n, n, 1)],
        [10, 30, 2, 10, 30, links(0, n, 2)],
        [25, 40, 3, 10, 60, links(1, 4, n)],
        [40, 50, 4, 40, 50, links(n, n, 4)],
        [45, 60, 5, 40, 60, links(3, n, 2)],
        [7; 6],
    ];
    assert_eq!(nodes[..], expected.concat());
}

/// The slot that a removal empties: five words 0, and three links that lead nowhere.
#[test]
fn an_emptied_slot() {
    for slot in 0..5 {
        let (map, mut nodes, mut colours) = store_a();
        map.remove(&mut nodes, &mut colours, slot).unwrap();
        assert_eq!(nodes[24..], [0, 0, 0, 0, 0, NO_LINKS, 7, 7, 7, 7, 7, 7]);
    }
    let (mut map, mut nodes, mut colours) = store_a();
    for _ in 0..5 {
        map = map.remove(&mut nodes, &mut colours, 0).unwrap().map;
    }
    assert_eq!((map.count, map.root), (0, U));
    assert_eq!(nodes[..30], [0, 0, 0, 0, 0, NO_LINKS].repeat(5));
}

/// One of the top 16 bits set below the count, or all bits of a root's links: no call passes it.
/// From the count on nobody reads them.
#[test]
fn top_bits() {
    let (map, nodes, colours) = store_a();
    for (slot, bit) in (0..6).flat_map(|slot| (48..64).map(move |bit| (slot, bit))) {
        let mut set = nodes;
        set[slot * 6 + 5] |= 1 << bit;
        if slot < 5 {
            refused(map, set, colours);
            continue;
        }
        assert_eq!(map.check(&set, &colours), Ok(()));
        let (mut after, mut bits) = (set, colours);
        map.remove(&mut after, &mut bits, 1).unwrap();
        assert_eq!(after[30..], set[30..]);
        // a new node in that slot is clean
        let (mut after, mut bits) = (set, colours);
        let answer = map.insert(&mut after, &mut bits, 1, 2, 3).unwrap();
        assert_eq!(after[35], NO_LINKS - (65535 << 32));
        assert_eq!(answer.map.check(&after, &bits), Ok(()));
    }
    let mut set = nodes;
    set[2 * 6 + 5] |= 65535 << 48;
    refused(map, set, colours);
    set[2 * 6 + 5] = u64::MAX;
    refused(map, set, colours);
}

/// Every call that checks the store refuses it as broken, and leaves it.
fn refused(map: narrow::Map, set: [u64; 36], colours: [u8; 1]) {
    let broken = Some(Refusal::Broken);
    let (mut nodes, mut bits, mut out) = (set, colours, [0; 5]);
    let none = NotPlaced {
        why: Refusal::Broken,
        slot: U,
    };
    assert_eq!(map.check(&nodes, &bits).err(), broken);
    assert_eq!(map.read(&nodes, &bits, map.ticket(0)).err(), broken);
    assert_eq!(map.remove(&mut nodes, &mut bits, 0).err(), broken);
    assert_eq!(map.insert(&mut nodes, &mut bits, 1, 2, 3).err(), broken);
    let written = map.write_image(&nodes, &bits, &mut [0; image_len(5)]);
    assert_eq!(written.err(), broken);
    assert_eq!(map.fresh_exact(&nodes, &bits, 1, 2).err(), broken);
    for query in [
        Query::at(1),
        Query::whole(..),
        Query::Exact { start: 1, end: 2 },
    ] {
        assert_eq!(map.step(&nodes, &bits, query, map.fresh()).err(), broken);
        let drained = map.drain(&nodes, &bits, query, map.fresh(), 0, &mut out);
        assert_eq!(drained.err(), broken);
        assert_eq!(map.plain(&nodes, &bits, query, &mut out).err(), broken);
        assert_eq!(map.find_all(&nodes, &bits, query, &mut out).err(), broken);
        assert_eq!(map.hits(&nodes, &bits, query, &mut out).err(), broken);
    }
    let disjoint = narrow::DisjointMap { map };
    assert_eq!(disjoint.check(&nodes, &bits).err(), broken);
    assert_eq!(disjoint.point(&nodes, &bits, 1).err(), broken);
    let placed = disjoint.insert(&mut nodes, &mut bits, 1, 2, 3);
    assert_eq!(placed.err(), Some(none));
    assert_eq!(disjoint.remove(&mut nodes, &mut bits, 0).err(), broken);
    assert_eq!(narrow::StoreRef::open(map, &nodes, &bits).err(), broken);
    let store = narrow::Store::open(map, &mut nodes, &mut bits);
    assert_eq!(store.err(), broken);
    let store = narrow::DisjointStore::open(map, &mut nodes, &mut bits);
    assert_eq!(store.err(), broken);
    assert_eq!((nodes, bits, out), (set, colours, [0; 5]));
}

/// The capacity counts six words a slot, also where eight words would be a slot less.
#[test]
fn room() {
    assert_eq!((narrow::NODE_WORDS, iset_proved::NODE_WORDS), (6, 8));
    assert_eq!((capacity(47, 1), iset_proved::capacity(47, 1)), (7, 5));
    for words in 0..50 {
        let held = capacity(words, 1) as u64;
        assert_eq!(held, (words as u64 / 6).min(8));
        let (mut nodes, mut colours) = (vec![0; words], [0; 1]);
        let mut map = narrow::Map::new();
        for k in 0..held {
            let answer = map.insert(&mut nodes, &mut colours, k, k + 1, k).unwrap();
            map = answer.map;
        }
        let more = map.insert(&mut nodes, &mut colours, 9, 10, 9);
        assert_eq!(more, Err(Refusal::NoRoom));
        let over = narrow::Map {
            count: held + 1,
            ..map
        };
        assert_eq!(over.check(&nodes, &colours), Err(Refusal::NoRoom));
    }
}

/// A full map, with the links 65534 and 65535, in as few words as hold it and in five more.
#[test]
fn a_full_map() {
    let list: Vec<u64> = (0..65536).flat_map(|k| [k, k + 2, k]).collect();
    for more in [0, 5] {
        let (mut nodes, mut colours) = (vec![0; 393210 + more], vec![0; 8192]);
        let mut build = |words, entries: usize| {
            let list = &list[..3 * entries];
            narrow::Map::new().build(&mut nodes[..words], &mut colours, list)
        };
        assert_eq!(build(393209, 65535), Err(Refusal::NoRoom));
        assert_eq!(build(393210 + more, 65536), Err(Refusal::NoRoom));
        let map = build(393210 + more, 65535).unwrap();
        let store = narrow::Store::open(map, &mut nodes, &mut colours).unwrap();
        let last = Entry {
            slot: 65534,
            range: 65534..65536,
            value: 65534,
        };
        assert!(store.at(65535).eq([last]));
        assert!(store.entries().map(|entry| entry.value).eq(0..65535));
        let map = store.close();
        let more = map.insert(&mut nodes, &mut colours, 1, 2, 3);
        assert_eq!(more, Err(Refusal::NoRoom));
        let removed = map.remove(&mut nodes, &mut colours, 65534).unwrap();
        assert_eq!(removed.value, 65534);
        assert_eq!(nodes[393209], NO_LINKS);
    }
}
