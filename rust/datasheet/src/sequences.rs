//! Sequences in trees, patterns and replacements: type 1 is the sequence, type 2 its
//! element.

use generate::Random;

/// So many elements of a sequence of type 1, without its end.
pub fn elements(count: usize, element: &[u32]) -> Vec<u32> {
    let one = [&[1, 0][..], element].concat();
    one.repeat(count)
}

/// The grammar of a program of a sequence whose elements have 0 to 8 numbers.
pub fn counted_grammar() -> Vec<u32> {
    let mut grammar = vec![4, 8, 1, 1, 1, 4, 2, 8, 9];
    for count in 0..9 {
        grammar.push(count);
        grammar.extend(vec![3; count as usize]);
    }
    grammar.extend([1, 2]);
    grammar
}

/// Such a sequence of so many nodes at most.
pub fn counted_elements(random: &mut Random, most: usize) -> Vec<u32> {
    let mut words = Vec::new();
    while words.len() / 2 + 11 <= most {
        let count = random.below(9);
        let element = [vec![2, count as u32], [3, 100].repeat(count)].concat();
        words.extend(elements(1, &element));
    }
    [words, vec![1, 1]].concat()
}

/// A construct of a sequence of as many pairs as it may have.
pub fn built_elements(random: &mut Random) -> Vec<u32> {
    let sequence = counted_elements(random, 128);
    let pairs = sequence.len() as u32 / 2;
    [vec![4, 1, pairs], sequence].concat()
}
