impl ActionStack {
    /// For the comparison only: a stack by its levels and bits, and back. Eight bytes hold 32
    /// levels.
    fn load(levels: usize, bits: u64) -> Self {
        Self(BitVec::load(2 * levels, bits.to_le_bytes().to_vec()))
    }

    fn read(&self) -> (usize, u64) {
        let mut bytes = [0; 8];
        bytes.copy_from_slice(self.0.bytes());
        (self.0.len() / 2, u64::from_le_bytes(bytes))
    }
}

/// For the comparison only: `move_to_next` from a given place; where it comes to, with levels and
/// bits.
pub fn probe_step(
    map: &IntervalMap<u64, u64, u32>, index: u32, levels: usize, bits: u64, range: (Bound<u64>, Bound<u64>)
) -> (u32, usize, u64) {
    let mut stack = ActionStack::load(levels, bits);
    let index = move_to_next(&map.nodes, index, &range, &mut stack);
    let (levels, bits) = stack.read();
    (index, levels, bits)
}

/// The same with `move_to_next_exact`.
pub fn probe_step_exact(
    map: &IntervalMap<u64, u64, u32>, index: u32, levels: usize, bits: u64, start: u64, end: u64
) -> (u32, usize, u64) {
    let mut stack = ActionStack::load(levels, bits);
    let index = move_to_next_exact(&map.nodes, index, &Interval { start, end }, &mut stack);
    let (levels, bits) = stack.read();
    (index, levels, bits)
}

/// One call of the stack by its name in the protocol.
pub fn probe_stack(call: &str, levels: usize, bits: u64) -> (bool, usize, u64) {
    let mut stack = ActionStack::load(levels, bits);
    let mut answer = false;
    match call {
        "spush" => stack.push(),
        "spop" => stack.pop(),
        "sleft" => stack.go_left(),
        "smatch" => stack.make_match(),
        "sright" => stack.go_right(),
        "scanleft" => answer = stack.can_go_left(),
        "scanmatch" => answer = stack.can_match(),
        "scanright" => answer = stack.can_go_right(),
        "sempty" => answer = stack.is_empty(),
        _ => panic!("no such stack call: {}", call),
    }
    let (levels, bits) = stack.read();
    (answer, levels, bits)
}
