//! Every bullet of the paper's chapter "The two-to-forty-two bench", with the
//! examples that T-01 adds to the one on rounding, the greatest number as T-02
//! moves it, and slips and results as T-07 writes them.

mod common;

use common::*;

const REWRITTEN: &str = "0 0 6 1 0 5 2 4200 1 1 0 3 2 500 1 1 1 1";

/// Rules that apply an operation without argument to the first number.
fn unary(operation: u32) -> Vec<u32> {
    rules(&[RuleText {
        target: 2,
        reach: 1,
        pattern: &[(64, 2)],
        replacement: &[(66, 0), (1, 0), (operation, 0)],
        ..NONE
    }
    .words()])
}

/// Rules that put first operation second in the place of two numbers.
fn binary(operation: u32) -> Vec<u32> {
    rules(&[RuleText {
        target: 1,
        reach: 1,
        pattern: &[(1, 0), (64, 2), (1, 0), (64, 2), (64, 1)],
        replacement: &[(1, 0), (66, 0), (1, 0), (operation, 1), (65, 1), (65, 2)],
        ..NONE
    }
    .words()])
}

#[test]
fn the_example_as_printed_in_the_paper() {
    let input = "3 9 3 8 1 1 1 4 2 1 2 10 1 9 2 2 1 2 200 1 2 4200 \
                 18 0 0 6 1 0 5 2 200 1 1 0 3 2 500 1 1 1 1";
    assert_eq!(
        reference::bench::answer(input.as_bytes()),
        "done 3 1 18\n0 0 6 1 0 5 2 4200 1 1 0 3 2 500 1 1 1 1\n"
    );
}

#[test]
fn budget_3_2_and_1() {
    let with = |budget| bench(budget, GRAMMAR, RULES, TREE);
    assert_eq!(with(3), format!("done 3 1 18\n{REWRITTEN}"));
    assert_eq!(with(2), format!("stopped 40 2 1 18\n{REWRITTEN}"));
    assert_eq!(with(1), format!("stopped 40 1 1 18\n{REWRITTEN}"));
}

#[test]
fn reach_1_and_an_empty_sequence() {
    let reach_1 = [1, 9, 2, 1, 1, 2, 200, 1, 2, 4200];
    assert_eq!(
        bench(3, GRAMMAR, &reach_1, TREE),
        format!("done 1 1 18\n{REWRITTEN}")
    );
    assert_eq!(
        bench(3, GRAMMAR, RULES, &[0, 0, 1, 1]),
        "done 0 0 6\n0 0 2 1 1 1"
    );
}

#[test]
fn a_replacement_equal_to_its_match_spends_the_budget() {
    let same = [1, 9, 2, 2, 1, 2, 200, 1, 2, 200];
    assert_eq!(
        bench(7, GRAMMAR, &same, TREE),
        "stopped 40 7 7 18\n0 0 6 1 0 5 2 200 1 1 0 3 2 500 1 1 1 1"
    );
}

#[test]
fn a_replacement_of_another_type_and_an_endless_type() {
    let wrong = [1, 9, 2, 2, 1, 2, 200, 1, 1, 1];
    assert_eq!(bench(3, GRAMMAR, &wrong, TREE), "refused 23 8");
    assert_eq!(bench_slip(3, &[1, 8, 1, 1, 0], RULES, SLIP), "refused 12 1");
}

#[test]
fn trees_short_over_and_with_great_numbers() {
    assert_eq!(bench_slip(3, GRAMMAR, RULES, &[0, 0, 1]), "refused 31 3");
    let over = [SLIP, &[1, 1, 1]].concat();
    assert_eq!(bench_slip(3, GRAMMAR, RULES, &over), "refused 31 18");
    for number in [999_999_999, 1_000_000_000, 4_000_000_000] {
        assert_eq!(
            bench(3, GRAMMAR, RULES, &list(&[number, 500])),
            format!("done 2 0 18\n0 0 6 1 0 5 2 {number} 1 1 0 3 2 500 1 1 1 1")
        );
    }
    assert_eq!(
        bench(3, GRAMMAR, RULES, &list(&[4_000_000_001, 500])),
        "refused 32 7"
    );
}

#[test]
fn round_and_quotient() {
    let document_01 = [(125, 100), (150, 200), (49, 0)];
    let t01 = [(150, 200), (250, 200), (50, 0), (125, 100), (175, 200)];
    let t02 = [(999_999_950, 1_000_000_000)];
    for (number, rounded) in document_01.into_iter().chain(t01).chain(t02) {
        assert_eq!(
            bench(3, GRAMMAR, &unary(1_004), &list(&[number])),
            format!("done 1 1 12\n0 0 4 1 0 3 2 {rounded} 1 1 1 1")
        );
    }
    assert_eq!(
        bench(3, GRAMMAR, &binary(1_002), &list(&[1000, 300])),
        "done 1 1 12\n0 0 4 1 0 3 2 300 1 1 1 1"
    );
}

#[test]
fn where_readers_go_astray() {
    // Searching on past the replaced node would take 2 attempts, not 3, and
    // skipping the rest of a sequence would take fewer: see budget 3 above.
    // The rest of a sequence is a node that can be the target.
    let rest = rules(&[RuleText {
        target: 1,
        reach: 1,
        pattern: &[(1, 0), (2, 500), (64, 1)],
        replacement: &[(65, 0)],
        ..NONE
    }
    .words()]);
    assert_eq!(
        bench(9, GRAMMAR, &rest, TREE),
        "done 2 1 12\n0 0 4 1 0 3 2 200 1 1 1 1"
    );
    // A failed attempt's bindings: variable 0 must be the second attempt's.
    let last = rules(&[RuleText {
        target: 1,
        reach: 1,
        pattern: &[(1, 0), (64, 2), (1, 1)],
        replacement: &[(1, 0), (65, 0), (1, 0), (65, 0), (1, 1)],
        ..NONE
    }
    .words()]);
    assert_eq!(
        bench(9, GRAMMAR, &last, TREE),
        "done 2 1 24\n0 0 8 1 0 7 2 200 1 1 0 5 2 500 1 1 0 3 2 500 1 1 1 1"
    );
    // A sequence does not stand for its element: pattern 2 200 for type 1.
    let element = [1, 9, 1, 2, 1, 2, 200, 1, 1, 1];
    assert_eq!(bench(3, GRAMMAR, &element, TREE), "refused 23 5");
    // No stop 40 after the last attempt with none due.
    let once = [1, 9, 2, 1, 1, 2, 200, 1, 2, 4200];
    assert_eq!(
        bench(1, GRAMMAR, &once, TREE),
        format!("done 1 1 18\n{REWRITTEN}")
    );
    assert_eq!(
        bench(1, GRAMMAR, RULES, &list(&[7])),
        "done 1 0 12\n0 0 4 1 0 3 2 7 1 1 1 1"
    );
}
