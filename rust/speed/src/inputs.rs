//! Inputs that more than one table needs.

use generate::slip_of;

/// The paper's grammar: a program of a sequence of numbers.
pub fn numbers() -> Vec<u32> {
    vec![3, 8, 1, 1, 1, 4, 2, 1, 2]
}

/// The slip of a sequence of these numbers, in the paper's grammar: two nodes
/// for each, one for the end of the sequence and one for the program.
pub fn sequence(values: impl IntoIterator<Item = u32>) -> Vec<u32> {
    let mut tree = vec![0, 0];
    for value in values {
        tree.extend([1, 0, 2, value]);
    }
    tree.extend([1, 1]);
    slip_of(&numbers(), &tree)
}
