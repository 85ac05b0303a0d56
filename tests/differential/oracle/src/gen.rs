//! Requests by chance, repeatable by their seed. The crate answers each one on the way, so that
//! cursors and slots are of the store as it is then.

use crate::session::{Cursor, Query, Session, Store, BROKEN, ENDED, U};
use iset::probe;
use std::io::Write;

/// SplitMix64.
pub struct Rng(u64);

impl Rng {
    pub fn new(seed: u64) -> Self {
        Rng(seed)
    }

    pub fn next(&mut self) -> u64 {
        self.0 = self.0.wrapping_add(0x9E3779B97F4A7C15);
        let z = (self.0 ^ (self.0 >> 30)).wrapping_mul(0xBF58476D1CE4E5B9);
        let z = (z ^ (z >> 27)).wrapping_mul(0x94D049BB133111EB);
        z ^ (z >> 31)
    }

    pub fn below(&mut self, n: u64) -> u64 {
        self.next() % n
    }

    pub fn one_in(&mut self, n: u64) -> bool {
        self.below(n) == 0
    }

    pub fn shuffle<T>(&mut self, items: &mut [T]) {
        for i in (1..items.len()).rev() {
            items.swap(i, self.below(i as u64 + 1) as usize);
        }
    }
}

/// The kinds of requests wanted: all, or those in the variable KINDS.
pub fn wanted(kind: &str) -> bool {
    match std::env::var("KINDS") {
        Ok(kinds) if !kinds.trim().is_empty() => kinds.split_whitespace().any(|k| k == kind),
        _ => true,
    }
}

/// Whether any wanted request needs a store.
pub fn on_stores() -> bool {
    ["check", "remove", "insert", "unload", "lookup", "exact"].iter().any(|kind| wanted(kind))
}

/// Where addresses are taken from.
#[derive(Clone, Copy)]
pub enum Keys {
    Small,
    Medium,
    Edges,
    Wide,
}

pub struct Gen<'a> {
    pub rng: Rng,
    pub session: Session,
    out: Box<dyn Write + 'a>,
    pairs_of_bounds: u64,
}

impl<'a> Gen<'a> {
    pub fn new(seed: u64, out: Box<dyn Write + 'a>) -> Self {
        Gen { rng: Rng::new(seed), session: Session::new(), out, pairs_of_bounds: 0 }
    }

    /// Prints a line and gives the numbers of its answer before the `@`.
    pub fn say(&mut self, line: &str) -> Vec<u64> {
        writeln!(self.out, "{line}").unwrap();
        let answer = self.session.answer(line).unwrap_or_default();
        let shown = answer.split(" @").next().unwrap();
        shown.split(' ').filter_map(|n| n.parse().ok()).collect()
    }

    fn point(&mut self, keys: Keys) -> u64 {
        match keys {
            Keys::Small => self.rng.below(13),
            Keys::Medium => self.rng.below(1000),
            Keys::Edges => match self.rng.below(3) {
                0 => self.rng.below(6),
                1 => u64::MAX - self.rng.below(6),
                _ => [1 << 32, (1 << 32) - 1, 1 << 63, (1 << 63) - 1][self.rng.below(4) as usize],
            },
            Keys::Wide => self.rng.next(),
        }
    }

    pub fn range(&mut self, keys: Keys) -> (u64, u64) {
        loop {
            let a = self.point(keys);
            let b = match keys {
                Keys::Medium => a + 1 + self.rng.below(60),
                _ => self.point(keys),
            };
            if a != b {
                return (a.min(b), a.max(b));
            }
        }
    }

    pub fn keys(&mut self) -> Keys {
        [Keys::Small, Keys::Small, Keys::Medium, Keys::Medium, Keys::Edges, Keys::Wide][self.rng.below(6) as usize]
    }

    /// A map made by the crate; values inside are not used.
    fn grow(&mut self, n: u64, keys: Keys) -> probe::Map {
        let mut map = probe::Map::new();
        let mut ranges: Vec<_> = (0..n).map(|_| self.range(keys)).collect();
        match self.rng.below(6) {
            0 => {
                ranges.sort();
                ranges.dedup();
                return probe::Map::from_sorted(ranges.into_iter().map(|(a, b)| (a..b, 0)));
            }
            1 => ranges.sort(),
            2 => {
                ranges.sort();
                ranges.reverse();
            }
            _ => {}
        }
        let more = if self.rng.one_in(2) { 0 } else { self.rng.below(n + 1) };
        ranges.extend((0..more).map(|_| self.range(keys)));
        for (a, b) in ranges {
            map.force_insert(a..b, 0);
        }
        for _ in 0..more {
            let slot = self.rng.below(map.len() as u64);
            probe::remove_at(&mut map, slot as u32);
        }
        map
    }

    /// A store of such a map, with values of its own and, at times, places past its count with
    /// anything in them.
    pub fn store(&mut self, n: u64, keys: Keys) -> Store {
        let map = self.grow(n, keys);
        let (mut words, mut bytes, root) = probe::read(&map);
        let count = words.len() as u64 / 8;
        bytes.resize((count as usize + 7) / 8, 0);
        for slot in 0..count as usize {
            words[8 * slot + 2] = if self.rng.one_in(4) { self.rng.next() } else { self.rng.below(100) };
        }
        for slot in count..bytes.len() as u64 * 8 {
            bytes[slot as usize / 8] &= !(1 << (slot % 8));
            bytes[slot as usize / 8] |= (self.rng.below(2) as u8) << (slot % 8);
        }
        for _ in 0..self.rng.below(3) * self.rng.below(12) {
            words.push(self.rng.next());
        }
        for _ in 0..self.rng.below(3) {
            bytes.push(self.rng.next() as u8);
        }
        Store { count, root: root as u64, words, bytes }
    }

    fn live(&mut self) -> u64 {
        match self.session.store.count {
            0 => 0,
            n => self.rng.below(n),
        }
    }

    /// An end of an entry, one beside it, or any point.
    fn near(&mut self, keys: Keys) -> u64 {
        if self.session.store.count == 0 || self.rng.one_in(3) {
            return self.point(keys);
        }
        let slot = self.live();
        let word = self.rng.below(2) as usize;
        let end = self.session.store.link(slot, word);
        match self.rng.below(4) {
            0 => end.saturating_sub(1),
            1 => end.saturating_add(1),
            _ => end,
        }
    }

    /// Each pair of kinds in turn; mostly in order.
    pub fn overlap(&mut self, keys: Keys) -> Query {
        let (a, b) = (self.near(keys), self.near(keys));
        let (a, b) = if a > b && !self.rng.one_in(12) { (b, a) } else { (a, b) };
        let pair = self.pairs_of_bounds % 9;
        self.pairs_of_bounds += 1;
        let bound = |kind, number| (kind, if kind == 2 { 0 } else { number });
        Query::Overlap(bound(pair / 3, a), bound(pair % 3, b))
    }

    /// Mostly an entry that is there.
    pub fn exact(&mut self, keys: Keys) -> Query {
        let (start, end) = if self.session.store.count == 0 || self.rng.one_in(3) {
            self.range(keys)
        } else {
            let slot = self.live();
            (self.session.store.link(slot, 0), self.session.store.link(slot, 1))
        };
        match self.rng.below(20) {
            0 => Query::Exact(end, start),
            1 => Query::Exact(start, start),
            2 => Query::Exact(start, end.saturating_add(1)),
            _ => Query::Exact(start, end),
        }
    }

    fn step(&mut self, query: Query, c: Cursor) -> (u64, Cursor) {
        let a = self.say(&format!("step {} {}", query.text(), c.text()));
        (a[1], Cursor { slot: a[2], levels: a[3], bits: a[4] })
    }

    fn drain(&mut self, query: Query, c: Cursor, limit: u64, room: u64) -> (u64, Cursor) {
        let a = self.say(&format!("drain {} {} {limit} {room}", query.text(), c.text()));
        (a[1], Cursor { slot: a[3], levels: a[4], bits: a[5] })
    }

    /// One lookup from its fresh cursor: by steps, by drains, from any held slot, with a cursor
    /// that has no form.
    pub fn lookup(&mut self, query: Query, most: u64) {
        let fresh = if query.refusal() == 0 {
            let a = self.say(&format!("fresh {}", query.text()));
            Cursor { slot: a[1], levels: a[2], bits: a[3] }
        } else {
            Cursor { slot: self.session.store.root, levels: 1, bits: 0 }
        };
        let (mut c, mut seen) = (fresh, vec![fresh, ENDED]);
        for _ in 0..most {
            let (slot, next) = self.step(query, c);
            c = next;
            seen.push(c);
            if slot == U {
                break;
            }
        }
        self.step(query, ENDED);
        let mut c = fresh;
        for _ in 0..most / 4 + 1 {
            let limit = [0, 1, 2, 5, self.session.store.count + 1][self.rng.below(5) as usize];
            let room = if limit == 0 {
                self.rng.below(67)
            } else if self.rng.one_in(12) {
                limit - 1
            } else {
                limit + self.rng.below(3)
            };
            let (hits, next) = self.drain(query, c, limit, room);
            c = next;
            if hits == 0 {
                break;
            }
        }
        // Any slot under the start can be held, a hit or not.
        let any = self.live();
        if let Some(c) = self.session.store.held(fresh.slot, any) {
            self.step(query, c);
            let limit = 1 + self.rng.below(9);
            self.drain(query, c, limit, limit);
        }
        // Mostly no form at all.
        let mut c = seen[self.rng.below(seen.len() as u64) as usize];
        match self.rng.below(6) {
            0 => c.levels = c.levels.wrapping_add(1),
            1 => c.levels = c.levels.wrapping_sub(1),
            2 => c.bits ^= 1 << self.rng.below(64),
            3 => c.slot = self.rng.below(self.session.store.count + 2),
            4 => c.slot ^= 1 << 32,
            _ => c = Cursor { slot: U, levels: 1, bits: 0 },
        }
        self.step(query, c);
        // No room at times: then two refusals could be given.
        if self.rng.one_in(4) {
            let room = self.rng.below(2);
            self.drain(query, c, 1, room);
        }
    }

    fn pick(&mut self, way: u64) -> u64 {
        match way {
            0 => self.session.store.root,
            1 => 0,
            2 => self.session.store.count - 1,
            _ => self.live(),
        }
    }

    /// What was done becomes the store. A cursor made before is tried on it, and at times a new one
    /// is made; at times the store is checked.
    fn settle(&mut self, carried: &mut Vec<(Query, Cursor)>, keys: Keys) {
        self.say("commit");
        for (query, c) in std::mem::take(carried) {
            self.step(query, c);
            self.drain(query, c, 2, 2);
        }
        if self.rng.one_in(4) {
            let query = if self.rng.one_in(2) { self.overlap(keys) } else { self.exact(keys) };
            let kind = if matches!(query, Query::Exact(..)) { "exact" } else { "lookup" };
            if wanted(kind) && query.refusal() == 0 {
                let a = self.say(&format!("fresh {}", query.text()));
                let (slot, c) = self.step(query, Cursor { slot: a[1], levels: a[2], bits: a[3] });
                if slot != U {
                    carried.push((query, c));
                }
            }
        }
        if wanted("check") && self.rng.one_in(16) {
            self.say("check");
        }
    }

    /// Removals one after the other.
    pub fn chain(&mut self, length: u64, keys: Keys) {
        let way = self.rng.below(6);
        let mut carried = vec![];
        for _ in 0..length.min(self.session.store.count) {
            let slot = self.pick(way);
            self.say(&format!("remove {slot}"));
            self.settle(&mut carried, keys);
        }
    }

    /// Gives a store so many slots more than it has entries, at least, with anything in them.
    pub fn widen(&mut self, store: &mut Store, more: u64) {
        let slots = store.count + more;
        while (store.words.len() as u64) < 8 * slots {
            store.words.push(self.rng.next());
        }
        while (store.bytes.len() as u64) * 8 < slots {
            store.bytes.push(self.rng.next() as u8);
        }
    }

    /// An insertion after all entries, before them, equal to one of them, or anywhere; at times of
    /// what is no interval. Gives the refusal's number.
    pub fn insert(&mut self, way: u64, keys: Keys) -> u64 {
        let store = &self.session.store;
        let mut there = (0..store.count).map(|slot| (store.link(slot, 0), store.link(slot, 1)));
        let some = match way {
            0 => there.max().map(|(a, b)| (a, b.saturating_add(1))),
            1 => there.min().map(|(a, b)| (a.saturating_sub(1), b)),
            2 if store.count > 0 => there.nth(self.rng.below(store.count) as usize),
            _ => None,
        };
        let (a, b) = if self.rng.one_in(5) { None } else { some }.unwrap_or_else(|| self.range(keys));
        let (a, b) = match self.rng.below(40) {
            0 => (b, a),
            1 => (a, a),
            _ => (a, b),
        };
        let value = self.rng.below(100);
        self.say(&format!("insert {a} {b} {value}"))[0]
    }

    /// Insertions and removals mixed. The store grows until it is full, shrinks until it is empty,
    /// or turns before that.
    pub fn mixed(&mut self, length: u64, keys: Keys) {
        let (mut lean, mut way) = (8, self.rng.below(6));
        let mut carried = vec![];
        for _ in 0..length {
            if self.rng.one_in(64) {
                lean = 2 + 3 * self.rng.below(3);
                way = self.rng.below(6);
            }
            let count = self.session.store.count;
            if count == 0 {
                lean = 8;
            }
            if count == 0 || !wanted("remove") || self.rng.below(10) < lean {
                if self.insert(way, keys) == 1 {
                    lean = 2;
                }
            } else {
                let slot = self.pick(way);
                self.say(&format!("remove {slot}"));
            }
            self.settle(&mut carried, keys);
        }
    }

    /// Into the present store, given more room: single insertions, then a mixed chain, and what is
    /// left is damaged.
    pub fn insertions(&mut self, more: u64, keys: Keys) {
        let mut store = self.session.store.clone();
        self.widen(&mut store, more);
        self.say(&store.line());
        for _ in 0..6 {
            let way = self.rng.below(6);
            self.insert(way, keys);
        }
        self.mixed(3 * more + 6, keys);
        self.damage(keys);
    }

    fn unload(&mut self, keys: Keys) {
        let query = self.overlap(keys);
        self.say(&format!("unload {}", query.text()));
    }

    /// Ranges of the present store, each unloaded from the whole of it; then two one after the
    /// other, and one from a damaged store.
    pub fn unloadings(&mut self, keys: Keys) {
        for _ in 0..3 {
            self.unload(keys);
        }
        let mut carried = vec![];
        for _ in 0..2 {
            self.unload(keys);
            self.settle(&mut carried, keys);
        }
        self.damage(keys);
        self.unload(keys);
    }

    /// Builds into slices of any content, sometimes refused. The last good one becomes the store.
    pub fn build(&mut self, n: u64, keys: Keys) {
        let mut ranges: Vec<_> = (0..n).map(|_| self.range(keys)).collect();
        ranges.sort();
        if self.rng.one_in(2) {
            ranges.dedup();
        }
        let n = ranges.len() as u64;
        let mut input: Vec<u64> = ranges.iter().flat_map(|r| [r.0, r.1, self.rng.next() >> self.rng.below(64)]).collect();
        let slots = n + self.rng.below(3);
        let words: Vec<u64> = (0..slots * 8 + self.rng.below(8)).map(|_| self.rng.below(1000)).collect();
        let bytes: Vec<u8> = (0..(n + 7) / 8 + self.rng.below(2)).map(|_| self.rng.next() as u8).collect();
        self.say(&Store { count: 0, root: U, words, bytes }.line());
        let ask = |input: &[u64]| {
            let text: Vec<_> = input.iter().map(|n| n.to_string()).collect();
            format!("build {} {}", input.len(), text.join(" ")).trim_end().to_string()
        };
        self.say(&ask(&input));
        self.say("commit");
        // One fault or two: not a multiple of 3, too many, a bad interval, a fall.
        for _ in 0..self.rng.below(3) {
            match self.rng.below(4) {
                0 => input.push(self.rng.below(9)),
                1 => input.extend([U, U + 1, 1].repeat(slots as usize + 1)),
                _ if n == 0 => {}
                2 => {
                    let at = 3 * self.rng.below(n) as usize;
                    input[at + 1] = input[at];
                }
                _ => {
                    let at = 3 * self.rng.below(n) as usize;
                    input[at] /= 1 + self.rng.below(5);
                }
            }
            self.say(&ask(&input));
        }
    }

    /// The present store with one number changed that the others fix: count, root, a hull, a link
    /// or a colour. So the check must fail. At times the slices are too short for the count
    /// instead.
    pub fn damage(&mut self, keys: Keys) {
        let mut s = self.session.store.clone();
        if s.count == 0 {
            return;
        }
        let slot = self.live();
        let word = 8 * slot as usize + 3 + self.rng.below(5) as usize;
        let room = s.words.len() as u64 / 8 > s.count && s.bytes.len() as u64 * 8 > s.count;
        let mut broken = true;
        match self.rng.below(8) {
            0 if room => s.count += 1,
            0 => s.count -= 1,
            1 => s.root = [U, (s.root + 1) % (s.count + 1), (1 << 32) + s.root][self.rng.below(3) as usize],
            2 => s.bytes[slot as usize / 8] ^= 1 << (slot % 8),
            3 => s.words[word] = s.words[word].wrapping_add(1),
            4 => s.words[word] = s.words[word].wrapping_sub(1),
            5 => s.words[word] ^= 1 << 32,
            6 => s.words[word] = if s.words[word] == U { slot } else { U },
            _ => {
                s.words.truncate(8 * s.count as usize - 1);
                broken = false;
            }
        }
        if broken {
            self.say(BROKEN);
        }
        self.say(&s.line());
        if wanted("check") {
            self.say("check");
        }
        if wanted("remove") {
            self.say(&format!("remove {slot}"));
        }
        if wanted("insert") {
            self.insert(3, keys);
        }
        if wanted("lookup") {
            let query = self.overlap(keys);
            self.step(query, Cursor { slot: s.root, levels: 1, bits: 0 });
        }
        if wanted("exact") {
            let query = self.exact(keys);
            self.drain(query, ENDED, 1, 1);
        }
    }

    pub fn bits(&mut self, calls: u64) {
        let n = self.rng.below(6) * self.rng.below(6);
        let mut line = format!("bytes {n}");
        for _ in 0..n {
            line += &format!(" {}", self.rng.below(256));
        }
        self.say(&line);
        let mut len = self.rng.below(n * 8 + 1);
        for _ in 0..calls {
            let i = if self.rng.one_in(8) { len } else { self.rng.below(len.max(1)) };
            let v = self.rng.below(2);
            let at = match self.rng.below(12) {
                0 => n * 8 + self.rng.below(3),
                1 => [0, 1, 8, u64::MAX][self.rng.below(4) as usize],
                _ => len,
            };
            let request = match self.rng.below(6) {
                0 => format!("bget {at} {i}"),
                1 => format!("bset {at} {i} {v}"),
                2 => format!("bpush {at} {v}"),
                3 => format!("bpop {at}"),
                4 => format!("bswap {at} {i}"),
                _ => format!("bfrom {at} {v}"),
            };
            let a = self.say(&request);
            if self.rng.one_in(2) {
                self.say("commit");
                len = if a[0] == 0 { a[2] } else { len };
            }
        }
    }

    pub fn stack(&mut self, calls: u64) {
        let names = ["spush", "spop", "sleft", "smatch", "sright", "scanleft", "scanmatch", "scanright", "sempty"];
        for _ in 0..calls {
            let name = names[self.rng.below(9) as usize];
            let levels = match self.rng.below(8) {
                0 => [0, 31, 32, 33, u64::MAX][self.rng.below(5) as usize],
                _ => self.rng.below(33),
            };
            // Bits above the levels are there at times; they stay.
            let mut bits = self.rng.next();
            if levels < 32 && !self.rng.one_in(4) {
                bits &= (1 << (2 * levels)) - 1;
            }
            self.say(&format!("{name} {levels} {bits}"));
        }
    }

    /// The queries on the present store.
    pub fn queries(&mut self, lookups: u64, most: u64, keys: Keys) {
        for _ in 0..lookups {
            if wanted("lookup") {
                let query = self.overlap(keys);
                self.lookup(query, most);
            }
            if wanted("exact") {
                let query = self.exact(keys);
                self.lookup(query, most);
            }
        }
    }

    fn round(&mut self) {
        if wanted("bits") {
            self.bits(30);
        }
        if wanted("stack") {
            self.stack(30);
        }
        let keys = self.keys();
        let n = match self.rng.below(20) {
            0..=4 => self.rng.below(13),
            5..=11 => self.rng.below(60),
            12..=16 => self.rng.below(200),
            _ => self.rng.below(401),
        };
        if wanted("build") {
            self.build(n, keys);
        }
        if !on_stores() {
            return;
        }
        // Every third round goes on with what was built.
        if !wanted("build") || !self.rng.one_in(3) || self.session.store.count == 0 {
            let store = self.store(n, keys);
            self.say(&store.line());
        }
        if wanted("check") {
            self.say("check");
        }
        self.queries(3, 12, keys);
        let whole = self.session.store.line();
        self.damage(keys);
        self.say(&whole);
        if wanted("remove") {
            let count = self.session.store.count;
            for _ in 0..count.min(8) {
                let slot = self.live();
                self.say(&format!("remove {slot}"));
            }
            // No slot at all.
            let none = [count, count + 1, U, u64::MAX, (1 << 32) + count / 2][self.rng.below(5) as usize];
            self.say(&format!("remove {none}"));
            let length = if count < 60 || self.rng.one_in(2) { count } else { 30 };
            self.chain(length, keys);
            self.queries(1, 3, keys);
        }
        if wanted("insert") {
            // What the removals left, or the store before them.
            if self.rng.one_in(2) {
                self.say(&whole);
            }
            self.insertions(n, keys);
        }
        if wanted("unload") {
            self.say(&whole);
            self.unloadings(keys);
        }
    }
}

pub fn run(seed: u64, rounds: u64) {
    let mut gen = Gen::new(seed, Box::new(std::io::BufWriter::new(std::io::stdout().lock())));
    for _ in 0..rounds {
        gen.round();
    }
}
