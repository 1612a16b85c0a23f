//! Times whole runs, over memories that each run finds as the one before left
//! them.

use std::hint::black_box;

use compare::{compare_run, Counts};
use generate::{reference_outcome, Input};
use reference::Outcome;

use crate::inputs::{numbers, sequence};
use crate::timing::{medians, times};

/// Runs as bench inputs.
const WORKLOADS: [(&str, &[u8]); 17] = [
    ("smallest", include_bytes!("../workloads/smallest.txt")),
    ("typical", include_bytes!("../workloads/typical.txt")),
    (
        "search_heavy",
        include_bytes!("../workloads/search_heavy.txt"),
    ),
    (
        "search_late",
        include_bytes!("../workloads/search_late.txt"),
    ),
    (
        "search_bind",
        include_bytes!("../workloads/search_bind.txt"),
    ),
    (
        "replace_heavy",
        include_bytes!("../workloads/replace_heavy.txt"),
    ),
    (
        "replace_grow",
        include_bytes!("../workloads/replace_grow.txt"),
    ),
    ("one_pass", include_bytes!("../workloads/one_pass.txt")),
    (
        "one_pass_shrink",
        include_bytes!("../workloads/one_pass_shrink.txt"),
    ),
    ("call_heavy", include_bytes!("../workloads/call_heavy.txt")),
    ("bind_heavy", include_bytes!("../workloads/bind_heavy.txt")),
    (
        "compare_differ",
        include_bytes!("../workloads/compare_differ.txt"),
    ),
    (
        "compare_equal",
        include_bytes!("../workloads/compare_equal.txt"),
    ),
    ("join_heavy", include_bytes!("../workloads/join_heavy.txt")),
    (
        "select_heavy",
        include_bytes!("../workloads/select_heavy.txt"),
    ),
    (
        "extract_heavy",
        include_bytes!("../workloads/extract_heavy.txt"),
    ),
    (
        "refuse_book",
        include_bytes!("../workloads/refuse_book.txt"),
    ),
];

/// Prints the table of runs.
pub fn print_table() {
    println!(
        "| run | ending | attempts | replacements | nodes before | nodes after | proved ns | reference ns | ratio |"
    );
    println!("|---|---|---|---|---|---|---|---|---|");
    let mut memories = Memories::dirty();
    for (name, text) in WORKLOADS {
        let input = reference::bench::parse(text).expect("a bench input");
        print_row(name, &input, &mut memories);
    }
    print_row("read_write", &read_write(), &mut memories);
    print_clearing(&mut memories);
    print_slip(&mut memories);
    print_replacement(&mut memories);
}

/// A run that reads the greatest slip and writes it as it was: its only attempt
/// is at the root, where the first number is not 2.00.
fn read_write() -> Input {
    let pattern = [4, 0, 0, 1, 0, 2, 200, 64, 1];
    let replacement = [4, 0, 0, 1, 0, 2, 200, 65, 0];
    Input {
        budget: 1,
        grammar: numbers(),
        rules: [&[1, 8, 0], &pattern[..], &replacement].concat(),
        slip: sequence(300..300 + 1_023),
    }
}

/// Prints how long it takes to read and to write the greatest slip: a run that
/// changes nothing, beside its check alone and the clearing of work memory.
fn print_slip(memories: &mut Memories) {
    let input = read_write();
    let nodes = input.slip.len() / 3;
    let mut work = vec![u32::MAX; tamarind::WORK_WORDS];
    let [run, check, clearing] = medians(|number| match number {
        0 => _ = black_box(memories.run(black_box(&input))),
        1 => _ = black_box(tamarind::check_slip(&input.grammar, black_box(&input.slip))),
        _ => black_box(&mut work).fill(0),
    });
    println!();
    println!("A run that changes nothing reads and writes {nodes} nodes in {run:.0} ns: the check of the slip takes {check:.0} of them, the clearing of work memory {clearing:.0}.");
}

/// Prints how long the smallest run takes beside the clearing of its work memory,
/// which every run does that is not refused.
fn print_clearing(memories: &mut Memories) {
    let input = reference::bench::parse(WORKLOADS[0].1).expect("a bench input");
    let mut work = vec![u32::MAX; tamarind::WORK_WORDS];
    let (run, clearing) = times(
        || _ = black_box(memories.run(black_box(&input))),
        || black_box(&mut work).fill(0),
    );
    let ratio = run / clearing;
    println!();
    println!("Clearing work memory alone takes {clearing:.0} ns, the smallest run {ratio:.2} times that.");
}

/// Prints what a replacement costs in one pass beside one in `replace_heavy`: the
/// time of the run by its replacements.
fn print_replacement(memories: &mut Memories) {
    let input = |wanted: &str| {
        let mut all = WORKLOADS.iter();
        let (_, text) = all.find(|(name, _)| *name == wanted).expect("a workload");
        reference::bench::parse(text).expect("a bench input")
    };
    let again = input("replace_heavy");
    for name in ["one_pass", "one_pass_shrink"] {
        let once = input(name);
        let mut runs = |input: &Input| _ = black_box(memories.run(black_box(input)));
        let [once_time, again_time] = medians(|number| match number {
            0 => runs(&once),
            _ => runs(&again),
        });
        let once_each = once_time / f64::from(replacements(&once));
        let again_each = again_time / f64::from(replacements(&again));
        let ratio = once_each / again_each;
        println!();
        println!("A replacement takes {once_each:.0} ns in {name} and {again_each:.0} ns in replace_heavy: {ratio:.2} times that.");
    }
}

/// The replacements of a run that nothing refuses.
fn replacements(input: &Input) -> u32 {
    match reference_outcome(input) {
        Outcome::Refused(refusal) => panic!("refused: {refusal:?}"),
        Outcome::Ended { replacements, .. } => replacements,
    }
}

/// The two memories that a run is lent, never cleared from outside.
pub struct Memories {
    result: Vec<u32>,
    work: Vec<u32>,
}

impl Memories {
    /// Memories of the least lengths, as no run leaves them.
    pub fn dirty() -> Memories {
        Memories {
            result: vec![u32::MAX; tamarind::RESULT_WORDS],
            work: vec![u32::MAX; tamarind::WORK_WORDS],
        }
    }

    /// Runs an input on the proved core.
    pub fn run(&mut self, input: &Input) -> tamarind::Outcome {
        tamarind::run(
            &input.grammar,
            &input.rules,
            &input.slip,
            input.budget,
            &mut self.result,
            &mut self.work,
        )
    }
}

/// Panics if the cores do not run an input alike: only the same work can be
/// compared.
pub fn assert_alike(name: &str, input: &Input) {
    if let Err(disagreement) = compare_run(input, &mut Counts::new()) {
        panic!("{name}: {disagreement}");
    }
}

/// Times one input and prints its row.
fn print_row(name: &str, input: &Input, memories: &mut Memories) {
    assert_alike(name, input);
    let (proved, reference) = times(
        || _ = black_box(memories.run(black_box(input))),
        || _ = black_box(reference_outcome(black_box(input))),
    );
    let cells = outcome_cells(input);
    let ratio = proved / reference;
    println!("| {name} | {cells} | {proved:.0} | {reference:.0} | {ratio:.2} |");
}

/// How the run ends, its attempts and replacements, and the nodes of the slip
/// before and after it. A refused run has only a number.
fn outcome_cells(input: &Input) -> String {
    match reference_outcome(input) {
        Outcome::Refused(refusal) => format!("refused {} | | | |", refusal.number),
        Outcome::Ended {
            stop,
            attempts,
            replacements,
            words,
        } => {
            let ending = ending(stop);
            let (before, after) = (input.slip.len() / 3, words.len() / 3);
            format!("{ending} | {attempts} | {replacements} | {before} | {after}")
        }
    }
}

/// The ending of a run that nothing refuses, as the bench has it.
pub fn ending(stop: Option<u32>) -> String {
    stop.map_or("done".to_string(), |number| format!("stopped {number}"))
}

#[cfg(test)]
mod tests {
    use super::*;

    #[test]
    fn what_reads_and_writes_makes_one_attempt_and_changes_nothing() {
        let input = read_write();
        assert_eq!(input.slip.len(), tamarind::limits::MOST_SLIP_WORDS);
        let due = Outcome::Ended {
            stop: None,
            attempts: 1,
            replacements: 0,
            words: input.slip.clone(),
        };
        assert_eq!(reference_outcome(&input), due);
        assert_eq!(compare_run(&input, &mut Counts::new()), Ok(()));
    }

    #[test]
    fn the_slip_of_each_workload_passes() {
        for (name, text) in WORKLOADS {
            let input = reference::bench::parse(text).expect("a bench input");
            let checked = tamarind::check_slip(&input.grammar, &input.slip);
            assert_eq!(checked, Ok(()), "{name}");
        }
    }
}
