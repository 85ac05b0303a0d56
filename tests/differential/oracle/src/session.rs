//! The protocol of the program `drive`, answered by the crate. Refusals that need no crate are
//! decided here; a store that fails the check is never given. Where document 01 and the crate
//! differ, the answer is made document 01's, each time at a comment that begins with DIFFERS.

use iset::probe;
use std::ops::Bound;

pub const U: u64 = 4294967295;

#[derive(Clone)]
pub struct Store {
    pub count: u64,
    pub root: u64,
    pub words: Vec<u64>,
    pub bytes: Vec<u8>,
}

impl Store {
    pub fn line(&self) -> String {
        let bytes: Vec<u64> = self.bytes.iter().map(|b| *b as u64).collect();
        format!("store {} {} {} {}", self.count, self.root, list(&self.words), list(&bytes))
    }

    fn capacity(&self) -> u64 {
        (self.words.len() as u64 / 8).min(self.bytes.len() as u64 * 8).min(65535)
    }

    pub fn link(&self, slot: u64, word: usize) -> u64 {
        self.words[8 * slot as usize + word]
    }

    /// Whether an entry has this interval.
    pub fn has(&self, start: u64, end: u64) -> bool {
        (0..self.count).any(|slot| (self.link(slot, 0), self.link(slot, 1)) == (start, end))
    }

    /// The held cursor of a slot under `top`, by the parent links; none where it is not under it.
    pub fn held(&self, top: u64, slot: u64) -> Option<Cursor> {
        if slot >= self.count {
            return None;
        }
        let (mut at, mut levels, mut bits) = (slot, 1, 1);
        while at != top {
            let parent = self.link(at, 7);
            if parent >= self.count {
                return None;
            }
            let side = if self.link(parent, 5) == at { 2 } else { 3 };
            // What is there moves up one level, the parent's state goes below.
            bits = bits << 2 | side;
            levels += 1;
            at = parent;
        }
        Some(Cursor { slot, levels, bits })
    }
}

#[derive(Clone, Copy, PartialEq, Debug)]
pub struct Cursor {
    pub slot: u64,
    pub levels: u64,
    pub bits: u64,
}

pub const ENDED: Cursor = Cursor { slot: U, levels: 0, bits: 0 };

impl Cursor {
    pub fn text(&self) -> String {
        format!("{} {} {}", self.slot, self.levels, self.bits)
    }
}

#[derive(Clone, Copy)]
pub enum Query {
    Overlap((u64, u64), (u64, u64)),
    Exact(u64, u64),
}

impl Query {
    pub fn text(&self) -> String {
        match self {
            Query::Overlap(lo, hi) => format!("o {} {} {} {}", lo.0, lo.1, hi.0, hi.1),
            Query::Exact(start, end) => format!("e {start} {end}"),
        }
    }

    /// BadRange or BadInterval, or 0.
    pub fn refusal(&self) -> u64 {
        match *self {
            Query::Overlap(lo, hi) => {
                let free = lo.0 == 2 || hi.0 == 2;
                let bad = lo.1 > hi.1 || lo.1 == hi.1 && (lo.0, hi.0) != (0, 0);
                if !free && bad { 4 } else { 0 }
            }
            Query::Exact(start, end) => if start >= end { 5 } else { 0 },
        }
    }
}

fn bound(b: (u64, u64)) -> Bound<u64> {
    match b.0 {
        0 => Bound::Included(b.1),
        1 => Bound::Excluded(b.1),
        _ => Bound::Unbounded,
    }
}

fn list(numbers: &[u64]) -> String {
    let mut text = numbers.len().to_string();
    for n in numbers {
        text += &format!(" {n}");
    }
    text
}

/// The places that differ, with their new content.
fn changes<T: PartialEq + Copy + Into<u64>>(before: &[T], after: &[T]) -> String {
    let places: Vec<_> = (0..before.len()).filter(|i| before[*i] != after[*i]).collect();
    let mut text = places.len().to_string();
    for i in places {
        text += &format!(" {i} {}", after[i].into());
    }
    text
}

/// Whether a call of the crate panics, without its message.
fn panics<T>(call: impl FnOnce() -> T) -> bool {
    let hook = std::panic::take_hook();
    std::panic::set_hook(Box::new(|_| {}));
    let result = std::panic::catch_unwind(std::panic::AssertUnwindSafe(call));
    std::panic::set_hook(hook);
    result.is_err()
}

struct Tokens<'a>(std::str::Split<'a, char>);

impl Tokens<'_> {
    fn word(&mut self) -> &str {
        self.0.next().expect("a word is missing")
    }

    fn num(&mut self) -> u64 {
        self.word().parse().expect("no number")
    }

    fn list(&mut self) -> Vec<u64> {
        (0..self.num()).map(|_| self.num()).collect()
    }

    fn cursor(&mut self) -> Cursor {
        Cursor { slot: self.num(), levels: self.num(), bits: self.num() }
    }

    fn query(&mut self) -> Query {
        match self.word() {
            "o" => Query::Overlap((self.num(), self.num()), (self.num(), self.num())),
            "e" => Query::Exact(self.num(), self.num()),
            other => panic!("no such query: {other}"),
        }
    }
}

pub struct Session {
    pub store: Store,
    pub bytes: Vec<u8>,
    left_store: Store,
    left_bytes: Vec<u8>,
    about_bits: bool,
    broken: bool,
    next_is_broken: bool,
}

/// A comment that says of the store line after it that the check fails: the crate has no check, the
/// generator knows how it made the store.
pub const BROKEN: &str = "# the next store fails the check";

impl Session {
    pub fn new() -> Self {
        let store = Store { count: 0, root: U, words: vec![], bytes: vec![] };
        let left_store = store.clone();
        Session { store, left_store, bytes: vec![], left_bytes: vec![], about_bits: false, broken: false, next_is_broken: false }
    }

    /// One line in, one line out; nothing for settings, comments and empty lines.
    pub fn answer(&mut self, line: &str) -> Option<String> {
        if line.is_empty() || line.starts_with('#') {
            self.next_is_broken |= line == BROKEN;
            return None;
        }
        let mut t = Tokens(line.split(' '));
        let name = t.word().to_string();
        match name.as_str() {
            "store" => {
                let (count, root, words, bytes) = (t.num(), t.num(), t.list(), t.list());
                self.store = Store { count, root, words, bytes: bytes.iter().map(|b| *b as u8).collect() };
                self.broken = std::mem::take(&mut self.next_is_broken);
                return None;
            }
            "bytes" => {
                self.bytes = t.list().iter().map(|b| *b as u8).collect();
                return None;
            }
            "commit" => {
                if self.about_bits {
                    self.bytes = self.left_bytes.clone();
                } else {
                    self.store = self.left_store.clone();
                }
                return None;
            }
            _ => {}
        }
        self.left_store = self.store.clone();
        self.left_bytes = self.bytes.clone();
        self.about_bits = name.starts_with('b') && name != "build";
        if self.about_bits {
            let answer = self.bits(&name, &mut t);
            return Some(format!("{answer} @ {}", changes(&self.bytes, &self.left_bytes)));
        }
        let answer = match name.as_str() {
            "check" => self.store_refusal().to_string(),
            "build" => self.build(&t.list()),
            "remove" => self.remove(t.num()),
            "insert" => self.insert(t.num(), t.num(), t.num()),
            "unload" => self.unload(t.query()),
            "step" => self.step(t.query(), t.cursor()),
            "drain" => self.drain(t.query(), t.cursor(), t.num(), t.num()),
            "fresh" => return Some(self.fresh(t.query())),
            _ => return Some(self.stack(&name, t.num(), t.num())),
        };
        let words = changes(&self.store.words, &self.left_store.words);
        Some(format!("{answer} @ {words} {}", changes(&self.store.bytes, &self.left_store.bytes)))
    }

    /// NoRoom, Broken or 0.
    fn store_refusal(&self) -> u64 {
        if self.store.count > self.store.capacity() { 1 } else if self.broken { 2 } else { 0 }
    }

    /// The crate's map of the store; an empty one where the store is refused.
    fn map(&self) -> probe::Map {
        if self.store_refusal() != 0 {
            return probe::Map::new();
        }
        let s = &self.store;
        probe::load(&s.words[..8 * s.count as usize], s.bytes.clone(), s.root as u32)
    }

    fn build(&mut self, input: &[u64]) -> String {
        let n = input.len() / 3;
        let entries: Vec<_> = input.chunks_exact(3).map(|e| (e[0], e[1], e[2])).collect();
        let falls = entries.windows(2).any(|w| (w[1].0, w[1].1) < (w[0].0, w[0].1));
        let no = if input.len() % 3 != 0 { 8 }
            else if n as u64 > self.store.capacity() { 1 }
            else if entries.iter().any(|e| e.0 >= e.1) { 5 }
            else if falls { 6 }
            else { 0 };
        self.left_store.count = 0;
        self.left_store.root = U;
        let ranges: Vec<_> = entries.iter().map(|e| (e.0..e.1, e.2)).collect();
        // DIFFERS: from_sorted panics on equal neighbours; what it does after that test is run
        // without it.
        let equals = entries.windows(2).any(|w| (w[0].0, w[0].1) == (w[1].0, w[1].1));
        if matches!(no, 5 | 6) || no == 0 && equals {
            assert!(panics(|| probe::Map::from_sorted(ranges.clone())), "from_sorted takes what is refused here");
        }
        if no != 0 || n == 0 {
            return format!("{no} 0 {U}");
        }
        let map = if equals { probe::build_with_equals(ranges) } else { probe::Map::from_sorted(ranges) };
        let (words, colours, root) = probe::read(&map);
        let left = &mut self.left_store;
        left.count = n as u64;
        left.root = root as u64;
        left.words[..8 * n].copy_from_slice(&words);
        // DIFFERS: document 01's colours are red below depth D; the crate's are others exactly at n
        // = 2^k - 1, k >= 2, which is tested here.
        let d = (n as u64 + 1).ilog2() as u64;
        let mut same = true;
        for slot in 0..n {
            let red = left.held(left.root, slot as u64).unwrap().levels > d;
            same &= red == (colours[slot / 8] >> (slot % 8) & 1 == 1);
            let weight = 1 << (slot % 8);
            left.bytes[slot / 8] = left.bytes[slot / 8] & !weight | if red { weight } else { 0 };
        }
        assert_eq!(same, n < 3 || !(n + 1).is_power_of_two(), "a new difference in the builder's colours at n = {n}");
        format!("0 {n} {root}")
    }

    fn remove(&mut self, slot: u64) -> String {
        let count = self.store.count;
        let no = match self.store_refusal() {
            0 if slot >= count => 3,
            no => no,
        };
        if no != 0 {
            return format!("{no} 0 {count} {} {U} {U} {U} {U} {U} {U}", self.store.root);
        }
        let mut map = self.map();
        let gone = probe::remove_at(&mut map, slot as u32);
        assert_eq!(gone, Some(slot), "another entry was removed");
        let (words, colours, root) = probe::read(&map);
        let left = &mut self.left_store;
        left.count = count - 1;
        left.root = root as u64;
        left.words[..words.len()].copy_from_slice(&words);
        // DIFFERS: the crate drops the last node; here its links become U and its other words 0.
        // Its colour bit stays, see prepare.py on pop.
        left.words[words.len()..words.len() + 5].fill(0);
        left.words[words.len() + 5..words.len() + 8].fill(U);
        left.bytes.copy_from_slice(&colours);
        // Inside the map a value is the slot the entry had before.
        let mut pairs = vec![];
        for new in 0..left.count {
            let old = left.link(new, 2);
            left.words[8 * new as usize + 2] = self.store.link(old, 2);
            if old != new {
                pairs.push((old, new));
            }
        }
        pairs.sort();
        assert!(pairs.len() <= 3, "more than three entries moved");
        pairs.resize(3, (U, U));
        let pairs: Vec<_> = pairs.iter().map(|p| format!("{} {}", p.0, p.1)).collect();
        format!("0 {} {} {root} {}", self.store.link(slot, 2), left.count, pairs.join(" "))
    }

    fn insert(&mut self, start: u64, end: u64, value: u64) -> String {
        let count = self.store.count;
        let bad = start >= end;
        if bad {
            assert!(panics(|| probe::Map::new().force_insert(start..end, 0)), "force_insert takes what is refused here");
        }
        let full = count >= self.store.capacity();
        let no = if full { 1 } else if self.broken { 2 } else if bad { 5 } else { 0 };
        if no != 0 {
            return format!("{no} {count} {} {U}", self.store.root);
        }
        let mut map = self.map();
        map.force_insert(start..end, count);
        let (words, colours, root) = probe::read(&map);
        let left = &mut self.left_store;
        left.count = count + 1;
        left.root = root as u64;
        left.words[..words.len()].copy_from_slice(&words);
        left.bytes.copy_from_slice(&colours);
        // Inside the map a value is the slot the entry had before; the new one's is the old count.
        for slot in 0..left.count {
            assert_eq!(left.link(slot, 2), slot, "an entry lies in another slot");
            left.words[8 * slot as usize + 2] = if slot == count { value } else { self.store.link(slot, 2) };
        }
        format!("0 {} {root} {count}", left.count)
    }

    /// The crate has no such call: its own removals of the first hit, one after the other, until
    /// there is none.
    fn unload(&mut self, query: Query) -> String {
        let no = match self.store_refusal() {
            0 => query.refusal(),
            no => no,
        };
        let whole = self.store.clone();
        let mut gone = 0;
        while no == 0 {
            let fresh = Cursor { slot: self.store.root, levels: 1, bits: 0 };
            let (slot, ..) = self.walk(&self.map(), query, fresh);
            if slot == U {
                break;
            }
            self.remove(slot);
            self.store = self.left_store.clone();
            gone += 1;
        }
        self.store = whole;
        format!("{no} {} {} {gone}", self.left_store.count, self.left_store.root)
    }

    /// Where a fresh cursor of this query stands.
    fn start(&self, map: &probe::Map, query: Query) -> u64 {
        match query {
            Query::Overlap(..) => self.store.root,
            Query::Exact(start, end) => probe::find_index(map, start, end) as u64,
        }
    }

    fn fresh(&self, query: Query) -> String {
        let no = match query {
            Query::Overlap(..) => 0,
            Query::Exact(..) => self.store_refusal().max(query.refusal()),
        };
        assert_eq!(no, 0, "a refused fresh cursor is not asked for");
        format!("0 {} 1 0", self.start(&self.map(), query))
    }

    /// The refusal of a step, or 0.
    fn step_refusal(&self, map: &probe::Map, query: Query, c: Cursor) -> u64 {
        // The crate panics on a query exactly where it is refused here.
        let crate_panics = panics(|| match query {
            Query::Overlap(lo, hi) => drop(map.iter((bound(lo), bound(hi)))),
            Query::Exact(start, end) => drop(map.values_at(start..end)),
        });
        assert_eq!(crate_panics, query.refusal() != 0, "another judgement of a query");
        for no in [self.store_refusal(), query.refusal()] {
            if no != 0 {
                return no;
            }
        }
        let top = self.start(map, query);
        let fresh = Cursor { slot: top, levels: 1, bits: 0 };
        if c == fresh || c == ENDED || self.store.held(top, c.slot) == Some(c) { 0 } else { 7 }
    }

    /// One accepted step: slot, next cursor, nodes entered.
    fn walk(&self, map: &probe::Map, query: Query, c: Cursor) -> (u64, Cursor, u64) {
        let before = probe::pushes();
        let (slot, levels, bits) = match query {
            Query::Overlap(lo, hi) => probe::step(map, c.slot as u32, c.levels as usize, c.bits, (bound(lo), bound(hi))),
            Query::Exact(start, end) => probe::step_exact(map, c.slot as u32, c.levels as usize, c.bits, start, end),
        };
        let fresh = c.levels == 1 && c.bits == 0 && c.slot != U;
        let entered = probe::pushes() - before + fresh as u64;
        // DIFFERS: the crate keeps a level where the lookup starts at U, and leaves old bits above
        // its levels.
        let next = if slot as u64 == U { ENDED } else {
            let live = if levels == 32 { bits } else { bits & ((1 << (2 * levels)) - 1) };
            Cursor { slot: slot as u64, levels: levels as u64, bits: live }
        };
        (slot as u64, next, entered)
    }

    fn step(&self, query: Query, c: Cursor) -> String {
        let map = self.map();
        let no = self.step_refusal(&map, query, c);
        let (slot, next, entered) = if no == 0 { self.walk(&map, query, c) } else { (U, c, 0) };
        format!("{no} {slot} {} {entered}", next.text())
    }

    fn drain(&self, query: Query, mut c: Cursor, limit: u64, room: u64) -> String {
        let map = self.map();
        let limit = if limit == 0 { room } else { limit };
        let mut no = self.step_refusal(&map, query, c);
        if no == 0 && limit > room {
            no = 9;
        }
        let (mut hits, mut sum) = (0, 0);
        let mut output = vec![777777; room as usize];
        while no == 0 && hits < limit {
            let (slot, next, entered) = self.walk(&map, query, c);
            c = next;
            sum += entered;
            if slot == U {
                break;
            }
            output[hits as usize] = slot;
            hits += 1;
        }
        format!("{no} {hits} {sum} {} {}", c.text(), list(&output))
    }

    fn bits(&mut self, call: &str, t: &mut Tokens) -> String {
        let len = t.num();
        let i = if matches!(call, "bget" | "bset" | "bswap") { t.num() } else { 0 };
        let value = matches!(call, "bset" | "bpush" | "bfrom") && t.num() == 1;
        let places = self.bytes.len() as u64 * 8;
        let bad = len > places || match call {
            "bpush" => len == places,
            "bpop" => len == 0,
            "bfrom" => false,
            _ => i >= len,
        };
        if bad {
            return format!("10 0 {}", if call == "bfrom" { 0 } else { len });
        }
        let (bit, len, data) = probe::bits(call, self.bytes.clone(), len as usize, i as usize, value);
        // from_elem makes new bytes, as many as it needs; the others keep their state.
        self.left_bytes[..data.len()].copy_from_slice(&data);
        format!("0 {} {len}", bit as u64)
    }

    fn stack(&self, call: &str, levels: u64, bits: u64) -> String {
        let bad = levels > 32 || match call {
            "spush" => levels == 32,
            "sempty" => false,
            _ => levels == 0,
        };
        if bad {
            return format!("10 0 {levels} {bits}");
        }
        let (answer, levels, mut bits) = probe::stack(call, levels as usize, bits);
        // DIFFERS: document 01's pop clears the two bits of its level.
        if call == "spop" {
            bits &= !(3 << (2 * levels));
        }
        format!("0 {} {levels} {bits}", answer as u64)
    }
}
