//! The budgets under which one input is run.

use reference::bench::Input;
use reference::limits;
use reference::Outcome;

use crate::inputs::{run_with, MOST_ATTEMPTS};
use crate::random::Random;

/// Budgets for runs of one input, each larger than the one before. Some are
/// spent; if the run ends by itself, one is just enough, its neighbours are
/// there, and some are far over it. Seldom the first and the last are not allowed.
pub fn rising_budgets(seed: u64, input: &Input) -> Vec<u32> {
    let mut random = Random::new(seed);
    let mut budgets = match run_with(input, MOST_ATTEMPTS) {
        Outcome::Ended { stop: Some(40), .. } => spent(&mut random),
        Outcome::Ended { attempts, .. } => around(&mut random, attempts),
        Outcome::Refused(_) => vec![1, any(&mut random, limits::BUDGET), limits::BUDGET],
    };
    if random.chance(10) {
        budgets.extend([0, limits::BUDGET + 1]);
    }
    budgets.sort_unstable();
    budgets.dedup();
    budgets
}

/// A budget from 1 to `most`.
fn any(random: &mut Random, most: u32) -> u32 {
    random.between(1, most as usize) as u32
}

/// Budgets of a run that spends them all.
fn spent(random: &mut Random) -> Vec<u32> {
    let some = any(random, MOST_ATTEMPTS);
    vec![1, any(random, some), some, MOST_ATTEMPTS]
}

/// Budgets of a run that makes so many attempts.
fn around(random: &mut Random, attempts: u32) -> Vec<u32> {
    let needed = attempts.max(1);
    let mut budgets = vec![
        needed,
        needed + 1,
        2 * needed,
        any(random, limits::BUDGET).max(needed),
        random.pick(&[limits::BUDGET - 1, limits::BUDGET]),
    ];
    if needed > 1 {
        budgets.extend([1, any(random, needed - 1), needed - 1]);
    }
    budgets
}
