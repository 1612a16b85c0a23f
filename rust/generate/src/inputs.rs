//! Whole inputs: for the checks, with faults in any place, and for runs.

use reference::bench::Input;
use reference::grammar::Grammar;
use reference::limits;
use reference::tree::Tree;
use reference::{run, Outcome};

use crate::blanks;
use crate::families;
use crate::grammars::{any_grammar, damaged_grammar, grammar, long_grammar};
use crate::one_pass;
use crate::random::Random;
use crate::rulebooks::{damaged_rules, rules};
use crate::sequences;
use crate::slips::{damaged_slip, slip, slip_at_limits, SLIP_NODE};
use crate::trees::{random_tree, Shapes};

/// The greatest budget of most generated runs, so that each is short.
pub(crate) const MOST_ATTEMPTS: u32 = 2_000;
/// The greatest budget of runs that would not end without it.
const MOST_ENDLESS_ATTEMPTS: u32 = 20_000;
/// The most nodes of a tree that is given that budget.
const MOST_ENDLESS_NODES: usize = 40;

/// An input whose grammar, rules and slip pass their checks, but for rules
/// that sometimes do not.
pub fn typed_input(seed: u64) -> Input {
    let mut random = Random::new(seed);
    loop {
        let words = grammar(u64::from(random.word()));
        let grammar = Grammar::read(&words).expect("a valid grammar");
        let shapes = Shapes::new(&grammar);
        if !shapes.has_tree() {
            continue;
        }
        let slip = slip(&grammar, &random_tree(&mut random, &shapes));
        let Ok(tree) = Tree::read_slip(&grammar, &slip) else {
            continue;
        };
        // Many grammars have only tiny trees; some of those are enough.
        if tree.size() < 5 && random.chance(70) {
            continue;
        }
        return Input {
            rules: rules(u64::from(random.word()), &grammar, &tree),
            grammar: words,
            slip,
            budget: random.between(1, MOST_ATTEMPTS as usize) as u32,
        };
    }
}

/// An input for the checks: mostly with one fault in its grammar, its rules or
/// its slip.
pub fn check_input(seed: u64) -> Input {
    let mut random = Random::new(seed);
    let mut input = typed_input(u64::from(random.word()));
    let seed = u64::from(random.word());
    let decoded = Grammar::read(&input.grammar).expect("a valid grammar");
    match random.below(100) {
        0..=19 => input.grammar = damaged_grammar(seed),
        20..=22 => input.grammar = long_grammar(seed),
        23..=25 => input.grammar = any_grammar(seed),
        26..=63 => {
            if let Ok(tree) = Tree::read_slip(&decoded, &input.slip) {
                input.rules = damaged_rules(seed, &decoded, &tree);
            }
        }
        64..=84 => input.slip = damaged_slip(seed, &decoded),
        85..=89 => input.slip = slip_at_limits(seed, &decoded),
        90 => input.budget = random.pick(&[0, 1, limits::BUDGET, limits::BUDGET + 1, u32::MAX]),
        91..=95 => input = damaged_family(&mut random, seed),
        96 | 97 => input = families::numbers_at_limit(seed),
        _ => {}
    }
    input
}

/// An input of a family that is rich in chains, with one word of its rules
/// changed.
fn damaged_family(random: &mut Random, seed: u64) -> Input {
    let mut input = match random.below(7) {
        0 => families::conditions(seed),
        1 => families::calls_near_limit(seed),
        2 | 3 => sequences::sequence_operations(seed),
        4 => one_pass::one_pass(seed),
        _ => families::operations_near_limit(seed),
    };
    let position = random.below(input.rules.len());
    input.rules[position] = match random.below(4) {
        0 | 1 => random.below(5) as u32,
        2 => random.between(64, 67) as u32,
        _ => random.between(999, 1_016) as u32,
    };
    input
}

/// An input for runs: typed rules on a tree they are made for, or one of the
/// families that reach a stop or just miss it. The budget is often the one
/// that the run needs, or one off.
pub fn run_input(seed: u64) -> Input {
    let mut random = Random::new(seed);
    let seed = u64::from(random.word());
    let input = match random.below(28) {
        0 | 1 => families::calls_near_limit(seed),
        2 => families::nodes_near_limit(seed),
        3 | 4 => families::nesting_near_limit(seed),
        5 => families::live_nodes_near_limit(seed),
        6 => families::live_nodes_at_limit(seed),
        7 => families::operations_near_limit(seed),
        8 => families::conditions(seed),
        9 => families::searches(seed),
        10 => families::rounding(seed),
        11 | 12 => sequences::sequence_operations(seed),
        13 => sequences::sequences_near_limit(seed),
        14 | 15 => blanks::blank_fields(seed),
        16 | 17 => one_pass::one_pass(seed),
        _ => typed_input(seed),
    };
    if random.chance(50) {
        with_budget_near_need(seed, input)
    } else {
        input
    }
}

/// An input for a run as it comes: mostly one that runs, sometimes one with a
/// great budget or a long run, sometimes one that is refused.
pub fn any_run_input(seed: u64) -> Input {
    let mut random = Random::new(seed);
    let seed = u64::from(random.word());
    match random.below(20) {
        0..=3 => refused_input(seed),
        4 => with_large_budget(seed, run_input(seed)),
        5 => with_budget_near_need(seed, families::counting_down(seed)),
        _ => run_input(seed),
    }
}

/// An input that is mostly refused, some with faults in several places, of
/// which only the first is told.
pub fn refused_input(seed: u64) -> Input {
    let mut random = Random::new(seed);
    let mut input = check_input(u64::from(random.word()));
    let other = check_input(u64::from(random.word()));
    match random.below(10) {
        0 => input.budget = random.pick(&[0, limits::BUDGET + 1, u32::MAX]),
        1 => input.slip = other.slip,
        2 => input.rules = other.rules,
        3 => input.grammar = other.grammar,
        4 => input = with_slip_at_limits(seed),
        _ => {}
    }
    // What passes after all must not run for long.
    if (1..=limits::BUDGET).contains(&input.budget) {
        input.budget = input.budget.min(MOST_ATTEMPTS);
    }
    input
}

/// An input in which only the slip may be refused, at a limit.
fn with_slip_at_limits(seed: u64) -> Input {
    let mut input = typed_input(seed);
    let decoded = Grammar::read(&input.grammar).expect("a valid grammar");
    input.slip = slip_at_limits(seed, &decoded);
    input
}

/// Gives an input a budget far over what its run needs, or, where the run does
/// not end by itself, a greater one that the tree is small enough for.
pub fn with_large_budget(seed: u64, mut input: Input) -> Input {
    let mut random = Random::new(seed);
    let ends = matches!(
        run_with(&input, MOST_ATTEMPTS),
        Outcome::Ended {
            stop: None | Some(41..),
            ..
        }
    );
    let most = if ends {
        limits::BUDGET
    } else if input.slip.len() <= SLIP_NODE * MOST_ENDLESS_NODES {
        MOST_ENDLESS_ATTEMPTS
    } else {
        return input;
    };
    let any = random.between(MOST_ATTEMPTS as usize, most as usize) as u32;
    input.budget = random.pick(&[any, any, most - 1, most]);
    input
}

/// Gives an input the budget that its run needs, or one more or less.
pub fn with_budget_near_need(seed: u64, mut input: Input) -> Input {
    let mut random = Random::new(seed);
    let needed = match run_with(&input, input.budget.max(MOST_ATTEMPTS)) {
        Outcome::Ended {
            stop: None | Some(41..),
            attempts,
            ..
        } => attempts,
        _ => return input,
    };
    let budget = match random.below(4) {
        0 => needed.saturating_sub(1),
        1 => needed,
        2 => needed + 1,
        _ => random.between(0, needed as usize) as u32,
    };
    input.budget = budget.max(1);
    input
}

/// Runs an input on the reference with another budget.
pub(crate) fn run_with(input: &Input, budget: u32) -> Outcome {
    run(
        &input.grammar,
        &input.rules,
        &input.slip,
        budget,
        limits::RESULT_WORDS,
        limits::WORK_WORDS,
    )
}

/// The outcome of an input on the reference.
pub fn reference_outcome(input: &Input) -> Outcome {
    run_with(input, input.budget)
}
