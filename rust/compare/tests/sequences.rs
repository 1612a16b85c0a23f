//! The proved core applies the operations on sequences as the reference does, on
//! small sequences of every make and near the limits of a result.

use std::collections::BTreeMap;
use std::io::{stdout, Write};

use compare::{compare_run, Counts};
use generate::{sequence_operations, sequences_near_limit, Input};

/// The operations on sequences.
const OPERATIONS: std::ops::RangeInclusive<u32> = 1_010..=1_015;
/// How often each operation must stand in a run that is done, and each stop must
/// be reached.
const LEAST: u64 = 50;

/// Runs so many inputs of a family on both cores and counts, for each operation,
/// the endings of the runs in whose rules it stands.
fn endings_by_operation(family: fn(u64) -> Input, count: u64) -> BTreeMap<u32, Counts> {
    let mut all: BTreeMap<u32, Counts> = BTreeMap::new();
    for seed in 0..count {
        let input = family(seed);
        let mut counts = Counts::new();
        if let Err(disagreement) = compare_run(&input, &mut counts) {
            panic!("seed {seed}: {disagreement}");
        }
        for operation in OPERATIONS.filter(|number| input.rules.contains(number)) {
            let own = all.entry(operation).or_default();
            for (ending, times) in &counts {
                *own.entry(*ending).or_default() += times;
            }
        }
    }
    all
}

fn written(name: &str, endings: &BTreeMap<u32, Counts>) {
    // Written, not printed: a test's prints are shown only where it fails.
    for (operation, counts) in endings {
        writeln!(stdout(), "{name}: {operation} in runs that end {counts:?}").expect("written");
    }
}

fn times(endings: &BTreeMap<u32, Counts>, operation: u32, ending: u32) -> u64 {
    let counts = endings.get(&operation);
    let times = counts.and_then(|counts| counts.get(&ending));
    times.copied().unwrap_or(0)
}

#[test]
fn each_operation_gives_what_the_reference_gives() {
    let endings = endings_by_operation(sequence_operations, 6_000);
    written("sequence_operations", &endings);
    for operation in OPERATIONS {
        let done = times(&endings, operation, 0);
        assert!(done >= LEAST, "{operation} is done {done} times");
    }
}

#[test]
fn each_stop_at_a_result_comes_and_is_just_missed() {
    let endings = endings_by_operation(sequences_near_limit, 2_000);
    written("sequences_near_limit", &endings);
    // What is cut nests no deeper than its scope and has no more nodes, and a
    // length is one node for one: they are stopped by 42 alone.
    let expected = [
        (1_010, vec![0, 42, 43, 44]),
        (1_011, vec![0, 42]),
        (1_012, vec![0, 42]),
        (1_013, vec![0, 42]),
        (1_014, vec![0, 42]),
        (1_015, vec![0, 42, 43, 44]),
    ];
    for (operation, numbers) in expected {
        for ending in numbers {
            let count = times(&endings, operation, ending);
            assert!(
                count >= LEAST / 5,
                "{operation} ends by {ending} {count} times"
            );
        }
    }
}
