//! Compares the proved core with the reference, a core written apart from the
//! same papers.

mod budgets;
mod conversions;
mod memories;
mod runs;

use std::collections::BTreeMap;

use generate::{shrink, to_bench, Input};

pub use budgets::{compare_budgets, RaisedCounts};
pub use conversions::{compare_conversion, Answered, ConversionCounts};
pub use runs::{compare_list, compare_run};

/// A check's answer: nothing, or number and position.
pub type Answer = Result<(), (u32, usize)>;

/// A single check, by both cores.
type Check = (&'static str, fn(&Input) -> Answer, fn(&Input) -> Answer);

const CHECKS: [Check; 3] = [
    (
        "grammar",
        |input| proved(tamarind::check_grammar(&input.grammar)),
        |input| reference(reference::check_grammar(&input.grammar)),
    ),
    (
        "slip",
        |input| proved(tamarind::check_slip(&input.grammar, &input.slip)),
        |input| reference(reference::check_slip(&input.grammar, &input.slip)),
    ),
    (
        "rules",
        |input| proved(tamarind::check_rules(&input.grammar, &input.rules)),
        |input| reference(reference::check_rules(&input.grammar, &input.rules)),
    ),
];

fn proved(result: Result<(), tamarind::Refusal>) -> Answer {
    result.map_err(|refusal| (refusal.number, refusal.position))
}

fn reference(result: Result<(), reference::Refusal>) -> Answer {
    result.map_err(|refusal| (refusal.number, refusal.position))
}

/// How often each answer was given: 0 stands for nothing refused, of a run for
/// done.
pub type Counts = BTreeMap<u32, u64>;

/// Runs all checks of one input on both cores and counts the answers. A
/// disagreement is told by an input in the bench format, made smaller.
pub fn compare_checks(input: &Input, counts: &mut Counts) -> Result<(), String> {
    for (name, proved, reference) in CHECKS {
        let (ours, theirs) = (proved(input), reference(input));
        if ours != theirs {
            let small = shrink(input.clone(), |input| proved(input) != reference(input));
            let (ours, theirs) = (proved(&small), reference(&small));
            let bench = to_bench(&small);
            return Err(format!(
                "check of the {name}: proved {ours:?}, reference {theirs:?}, on\n{bench}"
            ));
        }
        let number = ours.map_or_else(|(number, _)| number, |()| 0);
        *counts.entry(number).or_default() += 1;
    }
    Ok(())
}
