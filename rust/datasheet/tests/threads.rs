//! Two threads that run the core at the same time over memories of their own
//! get the answers that one thread gets.

use std::sync::Barrier;
use std::thread;

use datasheet::abi::{run, Outcome, RESULT_WORDS, WORK_WORDS};
use generate::any_run_input;

/// How many runs each thread makes.
const RUNS: u64 = 1_500;

/// The outcomes of the runs from a seed on, each over the memories as the run
/// before left them, and the filled words of the result.
fn answers(first: u64) -> Vec<(Outcome, Vec<u32>)> {
    let mut result = vec![u32::MAX; RESULT_WORDS];
    let mut work = vec![u32::MAX; WORK_WORDS];
    let inputs = (first..first + RUNS).map(any_run_input);
    let runs = inputs.map(|input| {
        let outcome = run(&input, &mut result, &mut work);
        (outcome, result[..outcome.filled].to_vec())
    });
    runs.collect()
}

#[test]
fn two_threads_over_memories_of_their_own_do_not_disturb_each_other() {
    let firsts = [0, 1_000_000];
    let alone = firsts.map(answers);
    assert_ne!(alone[0], alone[1]);
    let barrier = Barrier::new(2);
    let together = thread::scope(|scope| {
        let started = firsts.map(|first| {
            let barrier = &barrier;
            scope.spawn(move || {
                barrier.wait();
                answers(first)
            })
        });
        started.map(|thread| thread.join().expect("the thread ends"))
    });
    assert!(alone == together, "an answer differs");
}
