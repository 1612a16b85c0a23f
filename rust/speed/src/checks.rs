//! Times the single checks.

use std::hint::black_box;

use generate::{slip_of, Random};

use crate::inputs::{numbers, sequence};
use crate::timing::times;

/// Rule books with their grammars, as bench inputs.
const BOOKS: [(&str, &[u8]); 4] = [
    ("the paper's", include_bytes!("../workloads/smallest.txt")),
    ("8 rules", include_bytes!("../workloads/typical.txt")),
    (
        "27 calls nested",
        include_bytes!("../workloads/call_heavy.txt"),
    ),
    (
        "16,384 words, refused at the end",
        include_bytes!("../workloads/refuse_book.txt"),
    ),
];

/// Prints the table of checks.
pub fn print_table() {
    println!("| check | input | words | proved ns | reference ns | ratio |");
    println!("|---|---|---|---|---|---|");
    for (name, grammar) in grammars() {
        let times = times(
            || _ = black_box(tamarind::check_grammar(black_box(&grammar))),
            || _ = black_box(reference::check_grammar(black_box(&grammar))),
        );
        print_row("grammar", name, grammar.len(), times);
    }
    for (name, grammar, slip) in slips() {
        let times = times(
            || _ = black_box(tamarind::check_slip(black_box(&grammar), black_box(&slip))),
            || _ = black_box(reference::check_slip(black_box(&grammar), black_box(&slip))),
        );
        print_row("slip", name, slip.len(), times);
    }
    for (name, text) in BOOKS {
        let input = reference::bench::parse(text).expect("a bench input");
        let times = rules_times(&input.grammar, &input.rules);
        print_row("rules", name, input.rules.len(), times);
    }
    print_long_books();
}

/// Prints the rows of two books of which one is four times as long.
fn print_long_books() {
    let grammar = numbers();
    let proved = [4, 16].map(|count| {
        let rules = long_book(count);
        assert_eq!(tamarind::check_rules(&grammar, &rules), Ok(()));
        let times = rules_times(&grammar, &rules);
        print_row("rules", &format!("{count} long rules"), rules.len(), times);
        times.0
    });
    let ratio = proved[1] / proved[0];
    println!("\n16 long rules take {ratio:.2} times as long as 4.");
}

/// The times of the check of a rule book.
fn rules_times(grammar: &[u32], rules: &[u32]) -> (f64, f64) {
    times(
        || _ = black_box(tamarind::check_rules(black_box(grammar), black_box(rules))),
        || _ = black_box(reference::check_rules(black_box(grammar), black_box(rules))),
    )
}

fn print_row(check: &str, input: &str, words: usize, (proved, reference): (f64, f64)) {
    let ratio = proved / reference;
    println!("| {check} | {input} | {words} | {proved:.0} | {reference:.0} | {ratio:.2} |");
}

/// So many rules of 990 words, each of which builds four sequences of 60 numbers.
fn long_book(count: u32) -> Vec<u32> {
    let mut built = vec![4, 1, 121];
    for value in 0..60 {
        built.extend([1, 0, 2, value]);
    }
    built.extend([1, 1]);
    let mut rule = vec![13, 1, 2, 1, 64, 1, 4];
    for _ in 0..4 {
        rule.extend(&built);
    }
    rule.extend([1, 65, 0]);
    let mut book = vec![count];
    for _ in 0..count {
        book.extend(&rule);
    }
    book
}

/// The paper's grammar, a chain of types each finished only by the next, and a
/// large grammar with many forms.
fn grammars() -> Vec<(&'static str, Vec<u32>)> {
    let mut chain = vec![64];
    for next in 1..64 {
        chain.extend([8, 1, 1, next]);
    }
    chain.extend([1, 1]);
    let mut random = Random::new(1);
    let mut large = vec![64];
    for _ in 0..63 {
        large.extend([8, 8]);
        for _ in 0..8 {
            large.push(6);
            large.extend((0..6).map(|_| random.below(64) as u32));
        }
    }
    large.extend([1, 2]);
    let mut refused = large.clone();
    *refused.last_mut().expect("it has words") = 4;
    vec![
        ("the paper's", numbers()),
        ("a chain of 64 types", chain),
        ("64 types of 8 forms", large),
        ("the same, refused at its last word", refused),
    ]
}

/// A grammar and a slip of it: small, sequences of no elements, of 50 and of
/// 1,023, 1,535 nodes in forms of two children, and nesting 64.
fn slips() -> Vec<(&'static str, Vec<u32>, Vec<u32>)> {
    // Form 0 is a name, form 1 two trees: a full tree of ten levels.
    let pairs = vec![2, 8, 2, 1, 1, 2, 0, 0, 1, 1];
    let full = slip_of(&pairs, &full_tree(9));
    // An opt of itself.
    let opts = vec![1, 2, 0];
    let mut deep = vec![0; 128];
    deep[127] = 1;
    let deep = slip_of(&opts, &deep);
    vec![
        ("the paper's", numbers(), sequence([200, 500])),
        ("2 nodes, an empty sequence", numbers(), sequence([])),
        (
            "102 nodes, a sequence of 50 elements",
            numbers(),
            sequence(0..50),
        ),
        (
            "2,048 nodes, a sequence of 1,023 elements",
            numbers(),
            sequence(0..1_023),
        ),
        ("a full tree of two children a node", pairs, full),
        ("nesting 64", opts, deep),
    ]
}

/// A tree with so many levels of two children below its root.
fn full_tree(levels: u32) -> Vec<u32> {
    if levels == 0 {
        return vec![0, 0, 1, 7];
    }
    let half = full_tree(levels - 1);
    [&[0, 1], half.as_slice(), half.as_slice()].concat()
}

#[cfg(test)]
mod tests {
    use super::*;

    #[test]
    fn each_slip_passes_and_has_the_nodes_that_its_name_says() {
        let slips = slips();
        for (name, grammar, slip) in &slips {
            assert_eq!(tamarind::check_slip(grammar, slip), Ok(()), "{name}");
            assert_eq!(reference::check_slip(grammar, slip), Ok(()), "{name}");
        }
        let nodes: Vec<usize> = slips.iter().map(|(.., slip)| slip.len() / 3).collect();
        assert_eq!(nodes, [6, 2, 102, 2_048, 1_535, 64]);
    }
}
