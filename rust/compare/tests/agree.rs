//! The proved core answers as the reference, on many generated inputs.

use std::io::{stdout, Write};

use compare::{compare_checks, Counts};
use generate::check_input;

const INPUTS: u64 = 20_000;
/// How often each refusal must be given at least.
const LEAST: u64 = 50;

#[test]
fn the_checks_agree_number_and_position() {
    let mut counts = Counts::new();
    for seed in 0..INPUTS {
        if let Err(disagreement) = compare_checks(&check_input(seed), &mut counts) {
            panic!("seed {seed}: {disagreement}");
        }
    }
    // Written, not printed: a test's prints are shown only where it fails.
    writeln!(
        stdout(),
        "{INPUTS} inputs agree; answers by number: {counts:?}"
    )
    .expect("written");
    for number in [4, 5, 10, 11, 12, 20, 21, 22, 23, 24, 30, 31, 32, 33, 34] {
        let count = counts.get(&number).copied().unwrap_or(0);
        assert!(count >= LEAST, "refusal {number} is given {count} times");
    }
}
