//! Slips that more than one test needs, three words a node.

/// The paper's grammar: a program of a sequence of numbers.
pub const GRAMMAR: [u32; 9] = [3, 8, 1, 1, 1, 4, 2, 1, 2];
/// The paper's slip: 2.00, 5.00.
pub const SLIP: [u32; 18] = [0, 0, 6, 1, 0, 5, 2, 200, 1, 1, 0, 3, 2, 500, 1, 1, 1, 1];
/// The same in the edition before the counts, two words a node.
pub const TWO_WORD_SLIP: [u32; 12] = [0, 0, 1, 0, 2, 200, 1, 0, 2, 500, 1, 1];

/// The paper's slip of these numbers.
pub fn numbers(values: &[u32]) -> Vec<u32> {
    // A sequence of n elements has 2 n + 1 nodes.
    let nodes = |elements: usize| 2 * elements as u32 + 1;
    let mut slip = vec![0, 0, nodes(values.len()) + 1];
    for (index, &value) in values.iter().enumerate() {
        slip.extend([1, 0, nodes(values.len() - index), 2, value, 1]);
    }
    slip.extend([1, 1, 1]);
    slip
}

/// The grammar of an opt of itself.
pub const OPTS: [u32; 3] = [1, 2, 0];

/// Its slip of this nesting, which has as many nodes.
pub fn opts(nesting: u32) -> Vec<u32> {
    let node = |below: u32| [0, u32::from(below == 1), below];
    (1..=nesting).rev().flat_map(node).collect()
}
