//! Lists of runs over the same two memories.

use reference::bench::Input;
use reference::limits;

use crate::inputs::any_run_input;
use crate::random::Random;

/// Runs one after another: each gets the memories as the run before left them.
#[derive(Clone, Debug, PartialEq, Eq)]
pub struct RunList {
    /// The result memory before the first run.
    pub result: Vec<u32>,
    /// The work memory before the first run.
    pub work: Vec<u32>,
    pub inputs: Vec<Input>,
}

/// A list of runs, refused ones among them, over memories that hold any words
/// at first. A memory that is too short has every run of its list refused.
pub fn run_list(seed: u64) -> RunList {
    let mut random = Random::new(seed);
    let result = memory(&mut random, limits::RESULT_WORDS);
    let work = memory(&mut random, limits::WORK_WORDS);
    let short = result.len() < limits::RESULT_WORDS || work.len() < limits::WORK_WORDS;
    let runs = random.between(1, if short { 2 } else { 9 });
    let mut inputs: Vec<Input> = Vec::new();
    for _ in 0..runs {
        // The same run again must end the same, whatever came between.
        let input = match random.pick_any(&inputs) {
            Some(input) if random.chance(10) => input,
            _ => any_run_input(u64::from(random.word())),
        };
        inputs.push(input);
    }
    RunList {
        result,
        work,
        inputs,
    }
}

/// A memory of at least so many words, seldom of fewer: two thirds of a result
/// were enough for two words a node. Its words are random, or small like those
/// of trees and counts, or all the same.
fn memory(random: &mut Random, least: usize) -> Vec<u32> {
    let length = match random.below(20) {
        0 => random.pick(&[
            0,
            1,
            2 * least / 3,
            least - 3,
            least - 2,
            least - 1,
            least - 1,
        ]),
        1..=11 => least,
        12..=14 => least + random.between(1, 3),
        15..=18 => least + random.below(1_000),
        _ => 3 * least,
    };
    let style = random.below(6);
    let mut word = || match style {
        0 => 0,
        1 => u32::MAX,
        2 => random.below(5) as u32,
        _ => random.word(),
    };
    (0..length).map(|_| word()).collect()
}
