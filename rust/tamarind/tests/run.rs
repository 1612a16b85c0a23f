//! Runs through the wrapper: document 01's bench example, its variants, each
//! stop, the refusals of the call, the counts of results, and the words to post.

mod common;

use common::{numbers, opts, GRAMMAR, OPTS, SLIP, TWO_WORD_SLIP};
use tamarind::{check_slip, output, run, Outcome, Refusal, Stop};
use tamarind::{GREATEST_BUDGET, RESULT_WORDS, WORK_WORDS};

const RULES: [u32; 10] = [1, 9, 2, 2, 1, 2, 200, 1, 2, 4200];
const REWRITTEN: [u32; 18] = [0, 0, 6, 1, 0, 5, 2, 4200, 1, 1, 0, 3, 2, 500, 1, 1, 1, 1];
/// What the memories hold before a run.
const DIRT: u32 = 0xdead_beef;

/// Runs over memories full of dirt, a little longer than they must be. Gives
/// the outcome and the filled words, which must be a slip again, and looks at
/// all other words.
fn run_dirty(grammar: &[u32], rules: &[u32], slip: &[u32], budget: u32) -> (Outcome, Vec<u32>) {
    let mut result = vec![DIRT; RESULT_WORDS + 3];
    let mut work = vec![DIRT; WORK_WORDS + 5];
    let outcome = run(grammar, rules, slip, budget, &mut result, &mut work);
    let (filled, left) = match outcome {
        Outcome::Refused(_) => (0, DIRT),
        Outcome::Ended { filled, .. } => (filled, 0),
    };
    assert!(result[filled..].iter().all(|&word| word == DIRT));
    assert!(work.iter().all(|&word| word == left));
    let done = matches!(outcome, Outcome::Ended { stop: None, .. });
    let due = if done { &result[..filled] } else { slip };
    assert_eq!(output(&outcome, &result, slip), due);
    result.truncate(filled);
    if filled > 0 {
        assert_eq!(check_slip(grammar, &result), Ok(()));
    }
    (outcome, result)
}

fn ended(
    stop: Option<Stop>,
    attempts: u32,
    replacements: u32,
    slip: &[u32],
) -> (Outcome, Vec<u32>) {
    let outcome = Outcome::Ended {
        stop,
        attempts,
        replacements,
        filled: slip.len(),
    };
    (outcome, slip.to_vec())
}

fn refused(number: u32, position: usize) -> (Outcome, Vec<u32>) {
    (Outcome::Refused(Refusal { number, position }), vec![])
}

#[test]
fn the_papers_example_and_smaller_budgets() {
    let run = |budget| run_dirty(&GRAMMAR, &RULES, &SLIP, budget);
    let stop = Some(Stop::BudgetSpent);
    assert_eq!(run(3), ended(None, 3, 1, &REWRITTEN));
    assert_eq!(run(GREATEST_BUDGET), ended(None, 3, 1, &REWRITTEN));
    assert_eq!(run(2), ended(stop, 2, 1, &REWRITTEN));
    assert_eq!(run(1), ended(stop, 1, 1, &REWRITTEN));
}

#[test]
fn reach_one_no_numbers_and_a_rule_without_end() {
    let mut rules = RULES;
    rules[3] = 1;
    let first = run_dirty(&GRAMMAR, &rules, &SLIP, 3);
    assert_eq!(first, ended(None, 1, 1, &REWRITTEN));
    let empty = run_dirty(&GRAMMAR, &RULES, &[0, 0, 2, 1, 1, 1], 3);
    assert_eq!(empty, ended(None, 0, 0, &[0, 0, 2, 1, 1, 1]));
    let mut rules = RULES;
    rules[9] = 200;
    let endless = run_dirty(&GRAMMAR, &rules, &SLIP, 7);
    assert_eq!(endless, ended(Some(Stop::BudgetSpent), 7, 7, &SLIP));
}

#[test]
fn reach_three_tries_each_number_once() {
    let mut rules = RULES;
    rules[3] = 3;
    for budget in [2, 3] {
        let once = run_dirty(&GRAMMAR, &rules, &SLIP, budget);
        assert_eq!(once, ended(None, 2, 1, &REWRITTEN));
    }
    let short = run_dirty(&GRAMMAR, &rules, &SLIP, 1);
    assert_eq!(short, ended(Some(Stop::BudgetSpent), 1, 1, &REWRITTEN));
    // Without end under reach 2.
    rules[9] = 200;
    let same = run_dirty(&GRAMMAR, &rules, &SLIP, 7);
    assert_eq!(same, ended(None, 2, 1, &SLIP));
    rules[3] = 4;
    assert_eq!(run_dirty(&GRAMMAR, &rules, &SLIP, 7), refused(21, 3));
}

#[test]
fn grammar_rules_and_slip_are_refused_in_a_run() {
    let mut rules = RULES;
    rules[8..].copy_from_slice(&[1, 1]);
    assert_eq!(run_dirty(&GRAMMAR, &rules, &SLIP, 3), refused(23, 8));
    let endless = [1, 8, 1, 1, 0];
    assert_eq!(run_dirty(&endless, &RULES, &SLIP, 3), refused(12, 1));
    assert_eq!(run_dirty(&GRAMMAR, &RULES, &[0, 0, 1], 3), refused(31, 3));
    let longer = [&SLIP[..], &[1, 1, 1]].concat();
    assert_eq!(run_dirty(&GRAMMAR, &RULES, &longer, 3), refused(31, 18));
    for number in [1_000_000_000, 4_000_000_000] {
        let slip = numbers(&[number]);
        let passes = run_dirty(&GRAMMAR, &RULES, &slip, 3);
        assert_eq!(passes, ended(None, 1, 0, &slip));
    }
    let over = numbers(&[4_000_000_001]);
    assert_eq!(run_dirty(&GRAMMAR, &RULES, &over, 3), refused(32, 7));
    let deep = run_dirty(&OPTS, &DEEPER, &opts(65), 3);
    assert_eq!(deep, refused(33, 3 * 64));
}

#[test]
fn a_wrong_count_is_refused_in_a_run() {
    for (position, count) in [(2, 5), (5, 0), (8, 2), (14, u32::MAX), (17, 0)] {
        let mut slip = SLIP;
        slip[position] = count;
        let outcome = run_dirty(&GRAMMAR, &RULES, &slip, 3);
        assert_eq!(outcome, refused(34, position));
    }
    // After all other refusals, the rule book's too.
    let mut slip = SLIP;
    slip[2] = 5;
    let mut rules = RULES;
    rules[8] = 1;
    assert_eq!(run_dirty(&GRAMMAR, &rules, &slip, 3), refused(23, 8));
    slip[15] = 2;
    assert_eq!(run_dirty(&GRAMMAR, &RULES, &slip, 3), refused(32, 15));
    assert_eq!(run_dirty(&GRAMMAR, &RULES, &slip, 0), refused(3, 0));
}

#[test]
fn a_slip_of_two_words_a_node_is_not_run() {
    let old = run_dirty(&GRAMMAR, &RULES, &TWO_WORD_SLIP, 3);
    assert_eq!(old, refused(32, 3));
}

#[test]
fn slips_up_to_the_longest_are_run() {
    let full = numbers(&[7; 1_023]);
    let outcome = run_dirty(&GRAMMAR, &RULES, &full, 1_023);
    assert_eq!(outcome, ended(None, 1_023, 0, &full));
    let longer = [&full[..], &[1]].concat();
    assert_eq!(longer.len(), 6_145);
    assert_eq!(run_dirty(&GRAMMAR, &RULES, &longer, 9), refused(30, 0));
}

#[test]
fn rounding_and_quotient() {
    let round = [1, 9, 2, 1, 1, 64, 2, 3, 66, 0, 1, 0, 1_004, 0];
    let document_01 = [(125, 100), (150, 200), (49, 0)];
    let half_to_even = [(250, 200), (50, 0), (175, 200)];
    let great = [
        (999_999_950, 1_000_000_000),
        (3_999_999_850, 3_999_999_800),
        (3_999_999_950, 4_000_000_000),
    ];
    let rounds = document_01.into_iter().chain(half_to_even).chain(great);
    for (number, rounded) in rounds {
        let outcome = run_dirty(&GRAMMAR, &round, &numbers(&[number]), 9);
        assert_eq!(outcome, ended(None, 1, 1, &numbers(&[rounded])));
    }
    let by_300 = [
        1, 13, 2, 1, 1, 64, 2, 1, 4, 2, 1, 2, 300, 4, 66, 0, 1, 0, 1_002, 1, 65, 1,
    ];
    let outcome = run_dirty(&GRAMMAR, &by_300, &numbers(&[1_000]), 9);
    assert_eq!(outcome, ended(None, 1, 1, &numbers(&[300])));
}

#[test]
fn sums_and_quotients_up_to_the_greatest_number() {
    // The first two numbers are taken for the sum, or the whole quotient.
    let with = |operation| {
        let pattern = [5, 1, 0, 64, 2, 1, 0, 64, 2, 64, 1];
        let replacement = [6, 1, 0, 66, 0, 1, 0, operation, 1, 65, 1, 65, 2];
        [&[1, 9, 1, 1][..], &pattern, &replacement].concat()
    };
    for (operation, a, b, result) in [
        (1_000, 3_999_999_999, 1, Some(4_000_000_000)),
        (1_000, 4_000_000_000, 1, None),
        (1_000, 4_000_000_000, 294_967_296, None),
        (1_000, 4_000_000_000, 4_000_000_000, None),
        (1_002, 40_000_000, 1, Some(4_000_000_000)),
        (1_002, 40_000_001, 1, None),
        (1_002, 42_949_673, 1, None),
        (1_003, 4_000_000_000, 1, Some(0)),
    ] {
        let slip = numbers(&[a, b]);
        let outcome = run_dirty(&GRAMMAR, &with(operation), &slip, 9);
        let due = match result {
            Some(number) => ended(None, 1, 1, &numbers(&[number])),
            None => ended(Some(Stop::OutOfRange), 1, 0, &slip),
        };
        assert_eq!(outcome, due, "{operation} {a} {b}");
    }
}

#[test]
fn calls_and_nodes_stop() {
    // The main rule calls itself on the whole tree.
    let calls = [1, 8, 0, 1, 64, 0, 3, 66, 0, 1, 0, 0, 0];
    let outcome = run_dirty(&GRAMMAR, &calls, &SLIP, 99);
    assert_eq!(outcome, ended(Some(Stop::CallsTooDeep), 32, 0, &SLIP));
    // From 2,046 nodes on, twice.
    let slip = numbers(&[7; 1_022]);
    let full = numbers(&[&[5][..], &[7; 1_022]].concat());
    let outcome = run_dirty(&GRAMMAR, &LONGER, &slip, 99);
    assert_eq!(outcome, ended(Some(Stop::TooManyNodes), 2, 1, &full));
}

#[test]
fn nesting_and_live_nodes_stop() {
    // From nesting 63 on, twice.
    let outcome = run_dirty(&OPTS, &DEEPER, &opts(63), 99);
    assert_eq!(outcome, ended(Some(Stop::NestsTooDeep), 2, 1, &opts(64)));
    // Scope, variable and copy of 2,048 nodes are allowed, one node more not.
    let full = numbers(&[7; 1_023]);
    let copy = [1, 8, 0, 1, 64, 0, 1, 65, 0];
    let outcome = run_dirty(&GRAMMAR, &copy, &full, 99);
    assert_eq!(outcome, ended(None, 1, 1, &full));
    let more = [1, 12, 0, 1, 64, 0, 1, 4, 2, 1, 2, 5, 1, 65, 0];
    let outcome = run_dirty(&GRAMMAR, &more, &full, 99);
    assert_eq!(outcome, ended(Some(Stop::TooManyLiveNodes), 1, 0, &full));
}

#[test]
fn the_call_itself_is_refused() {
    let lengths = |result, work, budget| {
        let (mut result, mut work) = (vec![DIRT; result], vec![DIRT; work]);
        let outcome = run(&GRAMMAR, &RULES, &SLIP, budget, &mut result, &mut work);
        assert!(result.iter().chain(&work).all(|&word| word == DIRT));
        assert_eq!(output(&outcome, &result, &SLIP), SLIP);
        (outcome, vec![])
    };
    assert_eq!(RESULT_WORDS, 6_144);
    assert_eq!(lengths(RESULT_WORDS - 1, 0, 0), refused(1, 0));
    assert_eq!(lengths(RESULT_WORDS - 1, WORK_WORDS, 3), refused(1, 0));
    assert_eq!(lengths(0, WORK_WORDS, 3), refused(1, 0));
    assert_eq!(lengths(RESULT_WORDS, WORK_WORDS - 1, 0), refused(2, 0));
    assert_eq!(lengths(RESULT_WORDS, WORK_WORDS, 0), refused(3, 0));
    let over = GREATEST_BUDGET + 1;
    assert_eq!(lengths(RESULT_WORDS, WORK_WORDS, over), refused(3, 0));
    let long = [0; 16_385];
    assert_eq!(run_dirty(&long[..4_097], &long, &SLIP, 3), refused(4, 0));
    assert_eq!(run_dirty(&GRAMMAR, &long, &SLIP, 3), refused(5, 0));
}

#[test]
fn memories_of_the_least_lengths_are_enough_for_the_longest_slip() {
    let full = numbers(&[200; 1_023]);
    let (mut result, mut work) = (vec![DIRT; 6_144], vec![DIRT; 16_384]);
    let mut rules = RULES;
    rules[3] = 3;
    let outcome = run(&GRAMMAR, &rules, &full, 1_023, &mut result, &mut work);
    assert_eq!(outcome, ended(None, 1_023, 1_023, &full).0);
    assert_eq!(result, numbers(&[4_200; 1_023]));
    assert!(work.iter().all(|&word| word == 0));
}

/// The sequence gets one number more, its first.
const LONGER: [u32; 14] = [1, 9, 1, 2, 1, 64, 1, 3, 1, 0, 2, 5, 65, 0];
/// The sequence loses its first number.
const SHORTER: [u32; 14] = [1, 9, 1, 2, 3, 1, 0, 64, 2, 64, 1, 1, 65, 1];
/// The sequence loses each 2.00, wherever it stands.
const WITHOUT: [u32; 14] = [1, 9, 1, 2, 3, 1, 0, 2, 200, 64, 1, 1, 65, 0];
/// The opt is put into another one.
const DEEPER: [u32; 12] = [1, 9, 0, 2, 1, 64, 0, 2, 0, 0, 65, 0];
/// The opt is taken out of the one around it.
const FLATTER: [u32; 12] = [1, 9, 0, 2, 2, 0, 0, 64, 0, 1, 65, 0];

#[test]
fn every_count_is_right_after_runs_that_grow() {
    let stop = Some(Stop::BudgetSpent);
    for budget in [1, 2, 7, 500] {
        let grown = [&vec![5; budget as usize][..], &[200, 500]].concat();
        let outcome = run_dirty(&GRAMMAR, &LONGER, &SLIP, budget);
        assert_eq!(outcome, ended(stop, budget, budget, &numbers(&grown)));
    }
    for budget in 1..62 {
        let outcome = run_dirty(&OPTS, &DEEPER, &opts(2), budget);
        assert_eq!(outcome, ended(stop, budget, budget, &opts(2 + budget)));
    }
    // Once, so that it is done.
    let mut once = LONGER;
    once[3] = 1;
    let outcome = run_dirty(&GRAMMAR, &once, &SLIP, 9);
    assert_eq!(outcome, ended(None, 1, 1, &numbers(&[5, 200, 500])));
}

#[test]
fn every_count_is_right_after_runs_that_shrink() {
    let stop = Some(Stop::BudgetSpent);
    let values: Vec<u32> = (0..600).collect();
    for budget in [1, 2, 7, 599] {
        let outcome = run_dirty(&GRAMMAR, &SHORTER, &numbers(&values), budget);
        let shrunk = numbers(&values[budget as usize..]);
        assert_eq!(outcome, ended(stop, budget, budget, &shrunk));
    }
    // To the empty sequence, which is tried last.
    let outcome = run_dirty(&GRAMMAR, &SHORTER, &numbers(&values), 999);
    assert_eq!(outcome, ended(None, 601, 600, &[0, 0, 2, 1, 1, 1]));
    for budget in 1..63 {
        let outcome = run_dirty(&OPTS, &FLATTER, &opts(64), budget);
        assert_eq!(outcome, ended(stop, budget, budget, &opts(64 - budget)));
    }
}

#[test]
fn every_count_is_right_where_fields_go_from_the_middle() {
    for (before, after) in [
        (&[200][..], &[][..]),
        (&[1, 200, 2], &[1, 2]),
        (&[200, 1, 200, 200, 2, 200], &[1, 2]),
        (&[1, 2, 3, 200], &[1, 2, 3]),
    ] {
        let (outcome, filled) = run_dirty(&GRAMMAR, &WITHOUT, &numbers(before), 99);
        assert!(outcome.is_done(), "{outcome:?}");
        assert_eq!(filled, numbers(after));
    }
}

#[test]
fn the_words_to_post_are_the_result_only_if_done_and_there() {
    let (result, slip) = ([5, 6, 7], [1, 2]);
    let post = |stop, filled| {
        let outcome = Outcome::Ended {
            stop,
            attempts: 1,
            replacements: 1,
            filled,
        };
        output(&outcome, &result, &slip).to_vec()
    };
    assert_eq!(post(None, 2), [5, 6]);
    assert_eq!(post(None, 3), [5, 6, 7]);
    assert_eq!(post(None, 4), [1, 2]);
    assert_eq!(post(None, usize::MAX), [1, 2]);
    assert_eq!(post(Some(Stop::NestsTooDeep), 2), [1, 2]);
    let refusal = Outcome::Refused(Refusal {
        number: 30,
        position: 0,
    });
    assert_eq!(output(&refusal, &result, &slip), [1, 2]);
}

#[test]
fn stops_and_outcomes_print_their_meaning() {
    for number in 40..=45 {
        assert_eq!(Stop::from_number(number).map(Stop::number), Some(number));
    }
    assert_eq!((Stop::from_number(39), Stop::from_number(46)), (None, None));
    let (stopped, _) = run_dirty(&GRAMMAR, &RULES, &SLIP, 2);
    let text = "stopped 40: an attempt is due and the budget is spent, attempts 2, replacements 1";
    assert_eq!(stopped.to_string(), text);
    let (refused, _) = run_dirty(&GRAMMAR, &RULES, &SLIP, 0);
    let text = "refused 3 at word 0: budget 0 or over 1,000,000";
    assert_eq!(refused.to_string(), text);
}
