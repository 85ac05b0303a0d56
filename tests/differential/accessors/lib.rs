/// For the comparison only: a store in and out by its numbers, and the private calls that the store
/// needs.
pub mod probe {
    use super::*;
    use core::sync::atomic::{AtomicU64, Ordering::Relaxed};

    pub use crate::bitvec::probe_bits as bits;
    pub use crate::iter::{probe_stack as stack, probe_step as step, probe_step_exact as step_exact};

    pub type Map = IntervalMap<u64, u64, u32>;

    /// Eight words a slot: start, end, value, hull start, hull end, left, right, parent. The value
    /// inside the map is the slot's number.
    pub fn load(words: &[u64], bytes: Vec<u8>, root: u32) -> Map {
        let nodes: Vec<_> = words.chunks(8).enumerate().map(|(slot, w)| Node {
            interval: Interval { start: w[0], end: w[1] },
            subtree_interval: Interval { start: w[3], end: w[4] },
            value: slot as u64,
            left: w[5] as u32,
            right: w[6] as u32,
            parent: w[7] as u32,
        }).collect();
        let colors = BitVec::load(nodes.len(), bytes);
        IntervalMap { nodes, colors, root }
    }

    /// The words of all slots, the colour bytes, the root.
    pub fn read(map: &Map) -> (Vec<u64>, Vec<u8>, u32) {
        let words = map.nodes.iter().flat_map(|n| {
            let (own, hull) = (&n.interval, &n.subtree_interval);
            [own.start, own.end, n.value, hull.start, hull.end, n.left as u64, n.right as u64, n.parent as u64].to_vec()
        }).collect();
        (words, map.colors.bytes().to_vec(), map.root)
    }

    pub fn remove_at(map: &mut Map, slot: u32) -> Option<u64> {
        map.remove_at(slot)
    }

    pub fn find_index(map: &Map, start: u64, end: u64) -> u32 {
        map.find_index(&Interval::new(&(start..end)))
    }

    /// What `from_sorted` does after its test of the order, which refuses equal neighbours.
    pub fn build_with_equals(entries: Vec<(Range<u64>, u64)>) -> Map {
        let nodes: Vec<_> = entries.into_iter().map(|(range, value)| Node::new(Interval::new(&range), value)).collect();
        let n = nodes.len();
        let mut map = Map { nodes, colors: BitVec::from_elem(n, false), root: u32::MAX };
        let max_depth = (usize::BITS - n.leading_zeros()) as u16;
        map.root = map.init_from_sorted(0, n, max_depth);
        map.set_black(map.root);
        map
    }

    static PUSHES: AtomicU64 = AtomicU64::new(0);
    const NONE: AtomicU64 = AtomicU64::new(0);
    static CASES: [AtomicU64; 16] = [NONE; 16];

    pub fn count_push() {
        PUSHES.fetch_add(1, Relaxed);
    }

    pub fn pushes() -> u64 {
        PUSHES.load(Relaxed)
    }

    pub fn count_case(number: usize, left: bool) {
        CASES[2 * number + !left as usize].fetch_add(1, Relaxed);
    }

    /// How often each case of a repair ran, the five of removal and the three of insertion: case 1
    /// left, case 1 right, case 2 left, ...
    pub fn cases() -> Vec<u64> {
        CASES.iter().map(|c| c.load(Relaxed)).collect()
    }
}
