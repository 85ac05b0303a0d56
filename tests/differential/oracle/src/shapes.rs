//! Every red-black tree of up to 8 nodes, each slot removed and an entry inserted at each place,
//! with the slots numbered in several ways; and a build of every size up to 130.

use crate::gen::{on_stores, wanted, Rng};
use crate::session::{Store, U};
use std::io::Write;

#[derive(Clone)]
struct Tree {
    red: bool,
    left: Option<Box<Tree>>,
    right: Option<Box<Tree>>,
}

/// All trees of `n` nodes with so many blacks on every way down; a red root only where
/// `may_be_red`.
fn trees(n: usize, blacks: usize, may_be_red: bool) -> Vec<Option<Box<Tree>>> {
    if n == 0 {
        return if blacks == 0 { vec![None] } else { vec![] };
    }
    let mut all = vec![];
    for red in [false, true] {
        if red && !may_be_red || !red && blacks == 0 {
            continue;
        }
        for in_left in 0..n {
            let below = if red { blacks } else { blacks - 1 };
            let rights = trees(n - 1 - in_left, below, !red);
            for left in trees(in_left, below, !red) {
                for right in &rights {
                    all.push(Some(Box::new(Tree { red, left: left.clone(), right: right.clone() })));
                }
            }
        }
    }
    all
}

/// The interval of the k-th node in tree order.
fn interval(k: u64, equal: bool) -> (u64, u64) {
    if equal { (5, 9) } else { (3 * k, 3 * k + 1 + (7 * k + 3) % 11) }
}

/// Puts a tree into the store: the k-th node in tree order lies in slot `slots[k]`. Gives its slot
/// and hull.
fn put(tree: &Option<Box<Tree>>, parent: u64, next: &mut usize, slots: &[u64], equal: bool, store: &mut Store) -> (u64, u64, u64) {
    let Some(node) = tree else { return (U, u64::MAX, 0) };
    let size_of_left = size(&node.left);
    let k = *next + size_of_left;
    let slot = slots[k];
    let (start, end) = interval(k as u64, equal);
    let left = put(&node.left, slot, next, slots, equal, store);
    *next += 1;
    let right = put(&node.right, slot, next, slots, equal, store);
    let hull = (start.min(left.1).min(right.1), end.max(left.2).max(right.2));
    let words = [start, end, 100 + slot, hull.0, hull.1, left.0, right.0, parent];
    store.words[8 * slot as usize..][..8].copy_from_slice(&words);
    store.bytes[0] |= (node.red as u8) << slot;
    (slot, hull.0, hull.1)
}

fn size(tree: &Option<Box<Tree>>) -> usize {
    tree.as_ref().map_or(0, |t| 1 + size(&t.left) + size(&t.right))
}

/// All orders of up to 4 slots; of more, the rising, the falling and four others.
fn numberings(n: usize, rng: &mut Rng) -> Vec<Vec<u64>> {
    let rising: Vec<u64> = (0..n as u64).collect();
    if n <= 4 {
        let mut all = vec![vec![]];
        for _ in 0..n {
            all = all.iter().flat_map(|o: &Vec<u64>| {
                rising.iter().filter(|s| !o.contains(s)).map(|s| [&o[..], &[*s]].concat()).collect::<Vec<_>>()
            }).collect();
        }
        return all;
    }
    let mut all = vec![rising.clone(), rising.iter().rev().copied().collect()];
    for _ in 0..4 {
        let mut other = rising.clone();
        rng.shuffle(&mut other);
        all.push(other);
    }
    all
}

pub fn run() {
    let mut out = std::io::BufWriter::new(std::io::stdout().lock());
    if wanted("build") {
        for n in 0..=130 {
            let store = Store { count: 0, root: U, words: vec![0; 8 * n], bytes: vec![255 * (n % 2) as u8; (n + 7) / 8] };
            let entries: String = (0..n).map(|k| format!(" {k} {} {}", k + 1 + k % 7, n - k)).collect();
            writeln!(out, "{}\nbuild {}{entries}", store.line(), 3 * n).unwrap();
        }
    }
    if on_stores() {
        trees_of_up_to_8(&mut out);
    }
}

/// What is inserted: into distinct entries an interval for each gap, once short and once with an
/// end beyond all others, and one equal to each entry; into equal ones an equal interval, a lesser
/// and a greater one. Each gap of a tree is one of the places where a new node can hang.
fn newcomers(n: u64, equal: bool) -> Vec<(u64, u64)> {
    if equal {
        return vec![(5, 9), (5, 8), (4, 99), (5, 10), (6, 7)];
    }
    let gaps = (0..=n).map(|k| (3 * k).saturating_sub(1)).flat_map(|start| [(start, start + 1), (start, 99)]);
    // Before [0,4) there is room for [0,1) alone.
    gaps.filter(|entry| *entry != (0, 99)).chain((0..n).map(|k| interval(k, false))).collect()
}

/// Insertions into the store, given one slot more with anything in it. The new slot's colour bit is
/// red before in every other store.
fn insertions(mut store: Store, number: usize, equal: bool, out: &mut impl Write) {
    store.words.extend([9; 8]);
    store.bytes.resize(store.count as usize / 8 + 1, 0);
    store.bytes[store.count as usize / 8] |= ((number % 2) as u8) << (store.count % 8);
    writeln!(out, "{}", store.line()).unwrap();
    for (start, end) in newcomers(store.count, equal) {
        writeln!(out, "insert {start} {end} 7").unwrap();
    }
}

fn trees_of_up_to_8(out: &mut impl Write) {
    let mut rng = Rng::new(8);
    for n in 1..=8 {
        for tree in (1..=4).flat_map(|blacks| trees(n, blacks, false)) {
            for (i, slots) in numberings(n, &mut rng).iter().enumerate() {
                for equal in [false, true] {
                    let mut store = Store { count: n as u64, root: 0, words: vec![0; 8 * n], bytes: vec![0] };
                    store.root = put(&tree, U, &mut 0, slots, equal, &mut store).0;
                    writeln!(out, "{}", store.line()).unwrap();
                    if wanted("check") {
                        writeln!(out, "check").unwrap();
                    }
                    if wanted("remove") {
                        (0..n).for_each(|slot| writeln!(out, "remove {slot}").unwrap());
                    }
                    if wanted("insert") {
                        insertions(store.clone(), i, equal, out);
                    }
                    if wanted("exact") && i == 0 && equal {
                        writeln!(out, "fresh e 5 9\ndrain e 5 9 {} 1 0 8 8", store.root).unwrap();
                    }
                    if wanted("lookup") && i == 0 && !equal {
                        for (lo, hi) in [("2 0", "2 0"), ("0 9", "0 15"), ("1 9", "1 15"), ("0 10", "2 0"), ("2 0", "1 12")] {
                            writeln!(out, "drain o {lo} {hi} {} 1 0 8 8", store.root).unwrap();
                        }
                    }
                }
            }
        }
    }
}
