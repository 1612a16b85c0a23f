//! Runs one input under several budgets on both cores, and holds the answers of
//! the proved core to what a larger budget may change.

use std::collections::BTreeMap;

use generate::{shrink, to_bench, Input};
use tamarind::{Outcome, Refusal, Stop, GREATEST_BUDGET};

use crate::memories::Memories;
use crate::runs::{number, run_both};

/// How often a run had one number under a budget and another under the next
/// larger one: 0 stands for done.
pub type RaisedCounts = BTreeMap<(u32, u32), u64>;

/// A run under one budget: what it was answered, and the words it filled.
struct Run {
    budget: u32,
    outcome: Outcome,
    filled: Vec<u32>,
}

/// Runs an input under budgets that rise, one run after another over the same
/// memories, and counts the numbers. A disagreement with the reference, or an
/// answer that a larger budget may not have changed, is told by an input in the
/// bench format, made smaller.
pub fn compare_budgets(
    input: &Input,
    budgets: &[u32],
    counts: &mut RaisedCounts,
) -> Result<(), String> {
    let Ok(runs) = held_to_budgets(input, budgets) else {
        let small = shrink(input.clone(), |input| {
            held_to_budgets(input, budgets).is_err()
        });
        let fault = held_to_budgets(&small, budgets).err().unwrap_or_default();
        let bench = to_bench(&small);
        return Err(format!(
            "{fault}, under the budgets {budgets:?}, on\n{bench}"
        ));
    };
    for pair in runs.windows(2) {
        let numbers = (number(&pair[0].outcome), number(&pair[1].outcome));
        *counts.entry(numbers).or_default() += 1;
    }
    Ok(())
}

/// The runs under the budgets, or what is wrong with one of them.
fn held_to_budgets(input: &Input, budgets: &[u32]) -> Result<Vec<Run>, String> {
    let mut memories = Memories::least(u32::MAX);
    let mut runs: Vec<Run> = Vec::new();
    for &budget in budgets {
        let run = run_under(budget, input, &mut memories)?;
        check_spent(&run)?;
        if let Some(before) = runs.last() {
            check_raised(before, &run)?;
        }
        runs.push(run);
    }
    Ok(runs)
}

/// Runs an input under a budget on both cores.
fn run_under(budget: u32, input: &Input, memories: &mut Memories) -> Result<Run, String> {
    let mut input = input.clone();
    input.budget = budget;
    let outcome = run_both(&input, memories)
        .map_err(|difference| format!("budget {budget}: {difference}"))?;
    let filled = match outcome {
        Outcome::Ended { filled, .. } => memories.result()[..filled].to_vec(),
        Outcome::Refused(_) => vec![],
    };
    Ok(Run {
        budget,
        outcome,
        filled,
    })
}

/// A run that ended in 40 has made exactly as many attempts as its budget.
fn check_spent(run: &Run) -> Result<(), String> {
    let (budget, outcome) = (run.budget, &run.outcome);
    match outcome {
        Outcome::Ended {
            stop: Some(Stop::BudgetSpent),
            attempts,
            ..
        } if *attempts != budget => Err(format!("budget {budget}: {outcome:?}")),
        _ => Ok(()),
    }
}

/// Two runs under rising budgets: what did not end in 40 and was not refused by
/// 3 is the same; a run that ended in 40 goes on.
fn check_raised(run: &Run, larger: &Run) -> Result<(), String> {
    let right = match run.outcome {
        _ if larger.budget > GREATEST_BUDGET => number(&larger.outcome) == Refusal::BUDGET,
        Outcome::Refused(refusal) if refusal.number == Refusal::BUDGET => run.budget == 0,
        Outcome::Ended {
            stop: Some(Stop::BudgetSpent),
            attempts,
            ..
        } => goes_on(&larger.outcome, attempts),
        _ => run.outcome == larger.outcome && run.filled == larger.filled,
    };
    if right {
        return Ok(());
    }
    Err(format!(
        "budget {}: {:?}, but budget {}: {:?}",
        run.budget, run.outcome, larger.budget, larger.outcome
    ))
}

/// Whether a run makes more than so many attempts.
fn goes_on(outcome: &Outcome, before: u32) -> bool {
    matches!(outcome, Outcome::Ended { attempts, .. } if *attempts > before)
}
