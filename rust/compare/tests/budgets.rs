//! Raising a budget changes nothing that was finished: inputs are run under
//! rising budgets on both cores, and each answer is held to the one before it.

use std::io::{stdout, Write};

use compare::{compare_budgets, RaisedCounts};
use generate::{any_run_input, rising_budgets};

const INPUTS: u64 = 20_000;
/// How often each pair of numbers must come at least.
const LEAST: u64 = 50;

/// Done, the stops other than 40, and the refusals other than 3, none of which
/// changes; but for 1 and 2, since the memories are long enough here.
const FINISHED: [u32; 21] = [
    0, 41, 42, 43, 44, 45, 4, 5, 10, 11, 12, 20, 21, 22, 23, 24, 30, 31, 32, 33, 34,
];

/// What can follow where 40 was: 40 again, and every other ending.
const AFTER_40: [u32; 7] = [40, 0, 41, 42, 43, 44, 45];

#[test]
fn a_larger_budget_changes_nothing_that_was_finished() {
    let mut counts = RaisedCounts::new();
    for seed in 0..INPUTS {
        let input = any_run_input(seed);
        let budgets = rising_budgets(seed, &input);
        if let Err(fault) = compare_budgets(&input, &budgets, &mut counts) {
            panic!("seed {seed}: {fault}");
        }
    }
    // Written, not printed: a test's prints are shown only where it fails.
    writeln!(
        stdout(),
        "{INPUTS} inputs agree under rising budgets; numbers under a budget and under the next: {counts:?}"
    )
    .expect("written");
    let same = FINISHED.into_iter().map(|number| (number, number));
    let after = AFTER_40.into_iter().map(|number| (40, number));
    // A budget of 0, and one over the greatest.
    let around = [(3, 0), (3, 40), (0, 3), (40, 3)];
    for pair in same.chain(after).chain(around) {
        let count = counts.get(&pair).copied().unwrap_or(0);
        assert!(count >= LEAST, "{pair:?} comes {count} times");
    }
}
