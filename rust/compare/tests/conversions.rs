//! The proved core converts slips between grammars as the reference (T-08):
//! answers, the result word by word, and what is converted is a slip.

use std::collections::BTreeMap;
use std::io::{stdout, Write};

use compare::{compare_conversion, Answered, ConversionCounts};
use generate::{conversion, Damage};

const INPUTS: u64 = 20_000;
/// How often each label must come at least.
const LEAST: u64 = 50;

/// How often each answer must be given at least in each edition: its number, the
/// grammar at fault, and how often.
const ANSWERS: [(u32, u32, u64); 16] = [
    (0, 0, 1_500),
    (1, 0, 130),
    (4, 1, 110),
    (4, 2, 110),
    (10, 1, 80),
    (10, 2, 60),
    (11, 1, 150),
    (11, 2, 90),
    (12, 1, 80),
    (12, 2, 60),
    (30, 0, 220),
    (31, 0, 70),
    (32, 0, 150),
    (33, 0, 50),
    (60, 0, 700),
    (61, 0, 750),
];

/// How often an answer was given in an edition.
fn given(counts: &ConversionCounts, number: u32, grammar: u32, counted: bool) -> u64 {
    let answered = Answered {
        number,
        grammar,
        counted,
    };
    counts.get(&answered).copied().unwrap_or(0)
}

#[test]
fn conversions_agree_answers_and_results() {
    let mut counts = ConversionCounts::new();
    let mut labels: BTreeMap<Damage, u64> = BTreeMap::new();
    for seed in 0..INPUTS {
        let made = conversion(seed);
        *labels.entry(made.damage).or_default() += 1;
        if let Err(disagreement) = compare_conversion(&made.input, &mut counts) {
            panic!("seed {seed}, {:?}: {disagreement}", made.damage);
        }
    }
    // Written, not printed: a test's prints are shown only where it fails.
    writeln!(
        stdout(),
        "{INPUTS} conversions agree; answers by number, grammar and words a node: {counts:?}\n\
         by what was done to them: {labels:?}"
    )
    .expect("written");
    for (number, grammar, least) in ANSWERS {
        for counted in [false, true] {
            let count = given(&counts, number, grammar, counted);
            assert!(
                count >= least,
                "answer {number} of grammar {grammar} is given {count} times, counted: {counted}"
            );
        }
    }
    // Only a slip with counts can have a wrong one.
    assert!(given(&counts, 34, 0, true) >= 2 * LEAST);
    assert_eq!(given(&counts, 34, 0, false), 0);
    for damage in Damage::all() {
        let count = labels.get(&damage).copied().unwrap_or(0);
        assert!(count >= LEAST, "{damage:?} comes {count} times");
    }
}
