
/// For the bench only: the removal by index, and the store by its numbers, eight words a slot.
pub mod bench {
    use super::*;

    pub type Map = IntervalMap<u64, u64, u32>;

    pub fn remove_at(map: &mut Map, slot: u32) -> Option<u64> {
        map.remove_at(slot)
    }

    pub fn store(map: &Map, words: &mut [u64], bytes: &mut [u8]) -> u64 {
        for (slot, node) in map.nodes.iter().enumerate() {
            let (own, hull) = (&node.interval, &node.subtree_interval);
            let links = [node.left as u64, node.right as u64, node.parent as u64];
            words[8 * slot..8 * slot + 5].copy_from_slice(&[own.start, own.end, node.value, hull.start, hull.end]);
            words[8 * slot + 5..8 * slot + 8].copy_from_slice(&links);
            let bit = 1u8 << (slot % 8);
            bytes[slot / 8] = bytes[slot / 8] & !bit | if map.colors.get(slot) { bit } else { 0 };
        }
        map.root as u64
    }
}
