impl BitVec {
    /// For the comparison only: a vector on given bytes, and its bytes.
    pub(crate) fn load(len: usize, data: Vec<u8>) -> Self {
        Self { len, data }
    }

    pub(crate) fn bytes(&self) -> &[u8] {
        &self.data
    }
}

/// For the comparison only: one call by its name in the protocol; the bit, the length and the bytes
/// afterwards.
pub fn probe_bits(call: &str, data: Vec<u8>, len: usize, i: usize, value: bool) -> (bool, usize, Vec<u8>) {
    let mut vec = BitVec::load(len, data);
    let mut bit = false;
    match call {
        "bget" => bit = vec.get(i),
        "bset" => vec.set(i, value),
        "bpush" => vec.push(value),
        "bpop" => bit = vec.pop(),
        "bswap" => bit = vec.swap_remove(i),
        "bfrom" => vec = BitVec::from_elem(len, value),
        _ => panic!("no such bit call: {}", call),
    }
    (bit, vec.len(), vec.data)
}
