//! The inputs that the sheet's formula is checked on do what they are for, and
//! the sheet has the formula as it is.

use datasheet::abi;
use datasheet::exports::run;
use datasheet::formula::{dearest_attempt, formula, set_against_all};
use datasheet::nesting::table_to_itself;
use datasheet::painted::Stack;
use datasheet::sheet;
use datasheet::slow::slow_checks;
use datasheet::worst::all;

const BUDGET_SPENT: u32 = 40;

#[test]
fn each_run_repeats_its_round_until_the_budget_is_spent() {
    let mut stack = Stack::new();
    for worst in all() {
        let name = &worst.name;
        let [once, thrice] = [1, 3].map(|rounds| {
            let input = worst.rounds(rounds);
            let (outcome, _) = run(&mut stack, &input);
            assert_eq!(outcome.number, BUDGET_SPENT, "{name}");
            assert_eq!(outcome.attempts, input.budget, "{name}");
            assert_eq!(outcome.filled, input.slip.len(), "{name}");
            outcome.replacements
        });
        assert!(once > 0, "{name}");
        assert_eq!(thrice, 3 * once, "{name}");
    }
}

#[test]
fn the_slow_checks_pass() {
    let mut result = vec![u32::MAX; abi::RESULT_WORDS];
    for (check, input) in slow_checks() {
        if check == "conversion" {
            let table = table_to_itself(&input.grammar);
            let answer = abi::convert(&input, &table, &mut result);
            assert_eq!((answer.number, answer.filled), (0, input.slip.len()));
            assert_eq!(result[..answer.filled], input.slip);
            continue;
        }
        let answer = match check {
            "grammar" => abi::check_grammar(&input),
            "slip" => abi::check_slip(&input),
            _ => abi::check_rules(&input),
        };
        assert_eq!((answer.number, answer.position), (0, 0), "{check}");
    }
}

#[test]
fn no_round_costs_more_than_its_attempts_may() {
    for worst in all() {
        let most = worst.round.attempts as f64 * dearest_attempt();
        assert!(formula(&worst.round) <= most, "{}", worst.name);
    }
}

#[test]
fn the_sheet_has_the_terms_of_the_formula() {
    let text = sheet::read();
    assert_eq!(sheet::table(&text, "terms"), sheet::terms_table());
    assert_eq!(sheet::table(&text, "most"), sheet::most_table());
}

#[test]
fn the_short_formula_for_a_searching_deconstruct_says_no_less() {
    assert!(sheet::read().contains("<=  n (12 + 4.5 k) ns"));
    for nodes in [64, 200, 1_000, 2_048] {
        for pairs in [1, 2, 10, 50, 64] {
            let short = nodes as f64 * (12.0 + 4.5 * pairs as f64);
            let long = formula(&set_against_all(nodes, pairs));
            assert!(long <= short && short < 1.1 * long, "{nodes} {pairs}");
        }
    }
}
