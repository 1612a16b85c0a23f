//! The proved core keeps blanks apart as the reference does: fields alike that hold
//! a blank, and fields alike that just do not.

use std::collections::BTreeMap;
use std::io::{stdout, Write};

use compare::{compare_run, Counts};
use generate::blank_fields;
use reference::grammar::Grammar;
use reference::tree::Tree;

/// A transfer with a payer and a payee, and a sequence of fields, in the trees of
/// `blank_fields`.
const TRANSFER: u32 = 2;
const WITH_TWO_FIELDS: u32 = 0;
const FIELDS: u32 = 8;
const IN_A_SEQUENCE: &str = "alike, a blank in a sequence";
/// How often each make of two fields must come.
const LEAST: u32 = 50;

/// The nesting of the first blank of a tree.
fn first_blank(grammar: &Grammar, tree: &Tree) -> Option<usize> {
    (0..tree.size())
        .map(|position| tree.find(position))
        .find(|(node, _)| node.value() == 0 && grammar.is_text(node.ty()))
        .map(|(_, nesting)| nesting)
}

/// The words of a tree that differ from those of another of the same length.
fn others(tree: &Tree, other: &Tree) -> Vec<(u32, u32)> {
    let (words, others) = (tree.words(), other.words());
    if words.len() != others.len() {
        return vec![];
    }
    let pairs = words.into_iter().zip(others);
    pairs.filter(|(word, other)| word != other).collect()
}

/// Whether a sequence in a tree holds a blank.
fn blank_in_a_sequence(grammar: &Grammar, tree: &Tree) -> bool {
    let mut nodes = tree.preorder();
    nodes.any(|node| node.ty() == FIELDS && node.holds_blank(grammar))
}

/// How two fields are to each other, as it is counted.
fn make(grammar: &Grammar, payer: &Tree, payee: &Tree) -> String {
    match (first_blank(grammar, payer), &others(payer, payee)[..]) {
        (Some(nesting), []) if payer == payee => format!("alike, a blank at nesting {nesting}"),
        (None, []) if payer == payee && payer.size() > 4 => "alike, many nodes, no blank".into(),
        (None, []) if payer == payee => "alike, few nodes, no blank".into(),
        (_, [(0, _) | (_, 0)]) => "one word is 0 in one of them".into(),
        _ => "others".into(),
    }
}

#[test]
fn fields_that_hold_blanks_are_kept_apart() {
    let mut endings = Counts::new();
    let mut makes: BTreeMap<String, u32> = BTreeMap::new();
    for seed in 0..6_000 {
        let input = blank_fields(seed);
        if let Err(disagreement) = compare_run(&input, &mut endings) {
            panic!("seed {seed}: {disagreement}");
        }
        let grammar = Grammar::read(&input.grammar).expect("a valid grammar");
        let tree = Tree::read_slip(&grammar, &input.slip).expect("a valid slip");
        for node in tree.preorder() {
            if (node.ty(), node.value()) == (TRANSFER, WITH_TWO_FIELDS) {
                let [payer, payee] = node.children() else {
                    panic!("seed {seed}: a transfer has two fields");
                };
                *makes.entry(make(&grammar, payer, payee)).or_default() += 1;
                if payer == payee && blank_in_a_sequence(&grammar, payer) {
                    *makes.entry(IN_A_SEQUENCE.into()).or_default() += 1;
                }
            }
        }
    }
    // Written, not printed: a test's prints are shown only where it fails.
    writeln!(stdout(), "runs with blanks end {endings:?}").expect("written");
    writeln!(stdout(), "their pairs of fields: {makes:?}").expect("written");
    for number in endings.keys() {
        assert!([0, 40].contains(number), "{number} in a run with blanks");
    }
    let at_nestings = (2..=6).map(|nesting| format!("alike, a blank at nesting {nesting}"));
    let others = [
        IN_A_SEQUENCE,
        "alike, many nodes, no blank",
        "alike, few nodes, no blank",
        "one word is 0 in one of them",
    ];
    for make in at_nestings.chain(others.map(String::from)) {
        let count = makes.get(&make).copied().unwrap_or(0);
        assert!(count >= LEAST, "{make}: {count} times");
    }
}
