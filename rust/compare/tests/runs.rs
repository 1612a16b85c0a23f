//! The proved core runs as the reference: outcomes, both memories word by
//! word, and the words to post, one run after another over the same memories.

use std::io::{stdout, Write};

use compare::{compare_list, compare_run, Counts};
use generate::{run_list, Input};

const LISTS: u64 = 8_000;
/// How many runs the lists must have at least.
const LEAST_RUNS: u64 = 20_000;
/// How often each ending must be reached at least.
const LEAST: u64 = 50;

/// Done, the stops and the refusals.
const ENDINGS: [u32; 25] = [
    0, 40, 41, 42, 43, 44, 45, 1, 2, 3, 4, 5, 10, 11, 12, 20, 21, 22, 23, 24, 30, 31, 32, 33, 34,
];

#[test]
fn lists_of_runs_agree_outcomes_and_memories() {
    let mut counts = Counts::new();
    for seed in 0..LISTS {
        if let Err(disagreement) = compare_list(&run_list(seed), &mut counts) {
            panic!("seed {seed}: {disagreement}");
        }
    }
    let runs: u64 = counts.values().sum();
    // Written, not printed: a test's prints are shown only where it fails.
    writeln!(
        stdout(),
        "{runs} runs in {LISTS} lists agree; endings by number: {counts:?}"
    )
    .expect("written");
    assert!(runs >= LEAST_RUNS, "only {runs} runs");
    for number in ENDINGS {
        let count = counts.get(&number).copied().unwrap_or(0);
        assert!(count >= LEAST, "ending {number} is reached {count} times");
    }
}

/// Compares one run, which must end by a number.
fn agrees(input: &Input, ending: u32) {
    let mut counts = Counts::new();
    if let Err(disagreement) = compare_run(input, &mut counts) {
        panic!("{disagreement}");
    }
    assert_eq!(counts, Counts::from([(ending, 1)]));
}

#[test]
fn the_greatest_budget_can_be_spent() {
    // 2.00 becomes 2.00 again and again.
    let mut input = Input {
        budget: 1_000_000,
        grammar: vec![3, 8, 1, 1, 1, 4, 2, 1, 2],
        rules: vec![1, 9, 2, 2, 1, 2, 200, 1, 2, 200],
        slip: vec![0, 0, 6, 1, 0, 5, 2, 500, 1, 1, 0, 3, 2, 200, 1, 1, 1, 1],
    };
    agrees(&input, 40);
    input.budget += 1;
    agrees(&input, 3);
}

#[test]
fn the_workloads_agree() {
    let folder = concat!(env!("CARGO_MANIFEST_DIR"), "/../speed/workloads");
    let mut workloads = 0;
    for entry in std::fs::read_dir(folder).expect("the workloads are there") {
        let path = entry.expect("a file").path();
        if path.extension() != Some("txt".as_ref()) {
            continue;
        }
        let text = std::fs::read(&path).expect("it can be read");
        let input = reference::bench::parse(&text).expect("a bench input");
        // Slips of another edition would be refused by both, and compare nothing.
        let checked = reference::check_slip(&input.grammar, &input.slip);
        assert_eq!(checked, Ok(()), "{}", path.display());
        let mut counts = Counts::new();
        if let Err(disagreement) = compare_run(&input, &mut counts) {
            panic!("{}: {disagreement}", path.display());
        }
        workloads += 1;
    }
    assert_eq!(workloads, 17);
}
