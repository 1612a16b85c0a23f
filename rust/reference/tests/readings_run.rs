//! The readings M (meaning), H (live nodes and limits), O (operations) with
//! T01 (half to even) and T02 (larger amounts), and A (answer), one test each.
//! All numbers are worked out by hand, but for those that a search finds.

mod common;

use common::*;
use reference::run::round_half_even;

/// A rule on the whole tree that binds it to variable 0.
const WHOLE: RuleText = RuleText {
    pattern: &[(64, 0)],
    ..NONE
};

/// A rule on the whole tree of the paper's grammar that fits only the empty
/// list, and binds nothing.
const ON_EMPTY: RuleText = RuleText {
    pattern: &[(0, 0), (1, 1)],
    ..NONE
};

/// Root 0 is `form 0: [0]`, `form 1: [sequence]` or `form 2: [0, 0]`, over the
/// paper's sequence of numbers.
const DEEP: &[u32] = &[3, 8, 3, 1, 0, 1, 1, 2, 0, 0, 4, 2, 1, 2];

/// A tree of `DEEP`: that many levels of form 0, then a sequence. It has
/// levels + 2 x numbers + 2 nodes, and nesting levels + 3 (+ 2 if empty).
fn deep(levels: usize, numbers: usize) -> Vec<u32> {
    let mut words = [0, 0].repeat(levels);
    words.extend([0, 1]);
    words.extend(sequence(&vec![5; numbers]));
    words
}

fn on_list(budget: u32, texts: &[RuleText], tree: &[u32]) -> String {
    on(GRAMMAR, budget, texts, tree)
}

fn on(grammar: &[u32], budget: u32, texts: &[RuleText], tree: &[u32]) -> String {
    let words: Vec<Vec<u32>> = texts.iter().map(RuleText::words).collect();
    bench(budget, grammar, &rules(&words), tree)
}

/// Only the first line, for great trees.
fn line(grammar: &[u32], budget: u32, texts: &[RuleText], tree: &[u32]) -> String {
    let text = on(grammar, budget, texts, tree);
    text.lines().next().unwrap_or_default().to_string()
}

#[test]
fn m1_40_only_when_an_attempt_is_due() {
    assert_eq!(first_line(3, GRAMMAR, RULES, TREE), "done 3 1 18");
    assert_eq!(first_line(1, GRAMMAR, RULES, &[0, 0, 1, 1]), "done 0 0 6");
    assert_eq!(first_line(1, GRAMMAR, RULES, &list(&[5])), "done 1 0 12");
}

#[test]
fn m2_opening_a_call_comes_before_its_first_attempt() {
    let texts = [
        RuleText {
            replacement: &[(66, 0), (1, 0), (1, 1), (65, 0)],
            ..WHOLE
        },
        RuleText {
            parameters: &[0],
            replacement: &[(65, 1)],
            ..WHOLE
        },
    ];
    // Scope, variable and copy are 6,144; the argument is too much.
    let great = list_of_nodes(2_048);
    assert_eq!(line(GRAMMAR, 1, &texts, &great), "stopped 44 1 0 6144");
    assert_eq!(line(GRAMMAR, 1, &texts, TREE), "stopped 40 1 0 18");
    // The 33rd call comes before the 33rd attempt.
    let endless = RuleText {
        replacement: &[(66, 0), (1, 0), (0, 0)],
        ..WHOLE
    };
    assert_eq!(line(GRAMMAR, 32, &[endless], TREE), "stopped 41 32 0 18");
}

#[test]
fn m3_a_variable_is_bound_at_its_pair() {
    // Type 0 is a sequence and a number: 2 x numbers + 3 nodes.
    let grammar = [3, 8, 1, 2, 1, 2, 4, 2, 1, 2];
    let tree = |numbers: usize| [vec![0, 0], sequence(&vec![5; numbers]), vec![2, 5]].concat();
    // Rule 1 binds the sequence and then fails at the number.
    let texts = [
        RuleText {
            replacement: &[(66, 0), (1, 0), (1, 1), (65, 0)],
            ..WHOLE
        },
        RuleText {
            parameters: &[0],
            pattern: &[(0, 0), (64, 1), (2, 777)],
            replacement: &[(65, 0)],
            ..NONE
        },
    ];
    assert_eq!(line(&grammar, 9, &texts, &tree(400)), "done 2 1 2409");
    // 4 x 1,535 = 6,140 are live, and 1,533 are bound.
    assert_eq!(line(&grammar, 9, &texts, &tree(766)), "stopped 44 2 0 4605");
}

#[test]
fn m4_a_searching_part_does_not_go_back() {
    let texts = [RuleText {
        parts: &[search(2, 0, &[(64, 2)]), deconstruct(1, &[(2, 500)])],
        replacement: &[(0, 0), (1, 1)],
        ..WHOLE
    }];
    assert_eq!(line(GRAMMAR, 9, &texts, TREE), "done 1 0 18");
}

#[test]
fn m5_a_searching_part_tries_the_root_and_drops_failed_bindings() {
    let last = [RuleText {
        parts: &[search(1, 0, &[(1, 0), (64, 2), (1, 1)])],
        replacement: &[(0, 0), (1, 0), (65, 1), (1, 1)],
        ..WHOLE
    }];
    assert_eq!(
        on_list(9, &last, TREE),
        "done 1 1 12\n0 0 4 1 0 3 2 500 1 1 1 1"
    );
    let root = [RuleText {
        parts: &[search(0, 0, &[(0, 0), (1, 0), (64, 2), (64, 1)])],
        replacement: &[(0, 0), (65, 2)],
        ..WHOLE
    }];
    assert_eq!(
        on_list(9, &root, TREE),
        "done 1 1 12\n0 0 4 1 0 3 2 500 1 1 1 1"
    );
}

#[test]
fn m6_applications_of_a_test_up_to_the_first_success() {
    let both = [(66, 0), (2, 0), (1, 0), (1, 0)];
    let second = [(66, 0), (2, 0), (2, 0), (1, 0)];
    let with = |part: Vec<u32>| {
        let texts = [
            RuleText {
                parts: &[part],
                replacement: &[(0, 0), (1, 1)],
                ..WHOLE
            },
            WHOLE,
            ON_EMPTY,
        ];
        line(GRAMMAR, 9, &texts, TREE)
    };
    assert_eq!(with(condition(&both)), "done 2 1 6");
    assert_eq!(with(condition(&second)), "done 3 1 6");
    assert_eq!(with(not_condition(&both)), "done 2 0 18");
    assert_eq!(with(not_condition(&second)), "done 3 0 18");
}

#[test]
fn m7_a_replacement_is_not_worked_in_a_test() {
    let divide = [(66, 0), (1, 0), (1_002, 1), (65, 0)];
    let main = RuleText {
        target: 2,
        reach: 1,
        pattern: &[(64, 2)],
        parts: &[condition(&[(66, 0), (1, 0), (1, 0)])],
        replacement: &[(2, 9)],
        ..NONE
    };
    let replacing = RuleText {
        target: 2,
        pattern: &[(64, 2)],
        replacement: &divide,
        ..NONE
    };
    let texts = [RuleText { ..main }, replacing];
    assert_eq!(
        on_list(9, &texts, &list(&[0])),
        "done 2 1 12\n0 0 4 1 0 3 2 9 1 1 1 1"
    );
    // A part of it is worked.
    let constructing = RuleText {
        target: 2,
        pattern: &[(64, 2)],
        parts: &[construct(2, &divide)],
        replacement: &[(65, 1)],
        ..NONE
    };
    assert_eq!(
        on_list(9, &[main, constructing], &list(&[0])),
        "stopped 45 2 0 12\n0 0 4 1 0 3 2 0 1 1 1 1"
    );
}

/// Rule 0 puts 7 for the head of a sequence and calls itself on the rest.
const RECURSIVE: RuleText = RuleText {
    target: 1,
    reach: 1,
    pattern: &[(1, 0), (64, 2), (64, 1)],
    replacement: &[(1, 0), (2, 7), (66, 1), (1, 0), (0, 0)],
    ..NONE
};

#[test]
fn m8_only_the_first_call_counts_replacements() {
    assert_eq!(
        on_list(9, &[RECURSIVE], TREE),
        "done 3 1 18\n0 0 6 1 0 5 2 7 1 1 0 3 2 7 1 1 1 1"
    );
}

#[test]
fn m9_the_search_begins_again_at_the_root() {
    // Numbers under 4 fall by 1 down to 1. The search goes three times over
    // three numbers: 5 5 3, 5 5 2, 5 5 1.
    let texts = [RuleText {
        target: 2,
        reach: 2,
        pattern: &[(64, 2)],
        parts: &[
            construct(2, &[(2, 4)]),
            condition(&[(66, 1), (1, 0), (1_009, 1), (65, 0)]),
            construct(2, &[(2, 1)]),
            not_condition(&[(66, 0), (1, 0), (1_008, 1), (65, 2)]),
        ],
        replacement: &[(66, 0), (1, 0), (1_001, 1), (65, 2)],
        ..NONE
    }];
    assert_eq!(
        on_list(99, &texts, &list(&[5, 5, 3])),
        "done 9 2 24\n0 0 8 1 0 7 2 5 1 1 0 5 2 5 1 1 0 3 2 1 1 1 1 1"
    );
}

#[test]
fn m10_the_same_tree_is_equal_wherever_it_stands() {
    let texts = [RuleText {
        target: 1,
        reach: 1,
        pattern: &[(1, 0), (64, 2), (1, 0), (65, 0), (64, 1)],
        replacement: &[(65, 1)],
        ..NONE
    }];
    assert_eq!(
        on_list(9, &texts, &list(&[4, 5, 5, 6])),
        "done 2 1 18\n0 0 6 1 0 5 2 4 1 1 0 3 2 6 1 1 1 1"
    );
}

#[test]
fn m11_an_application_without_match_leaves_the_copy() {
    let on_number = |from: &'static [(u32, u32)], to: &'static [(u32, u32)]| RuleText {
        target: 2,
        pattern: from,
        replacement: to,
        ..NONE
    };
    let texts = [
        RuleText {
            target: 2,
            reach: 1,
            pattern: &[(64, 2)],
            replacement: &[(66, 0), (2, 0), (1, 0), (2, 0)],
            ..NONE
        },
        on_number(&[(2, 1)], &[(2, 2)]),
        on_number(&[(2, 5)], &[(2, 6)]),
    ];
    assert_eq!(
        on_list(9, &texts, &list(&[5])),
        "done 3 1 12\n0 0 4 1 0 3 2 6 1 1 1 1"
    );
}

#[test]
fn m12_a_condition_ends_at_its_first_match() {
    let main = RuleText {
        parts: &[condition(&[(66, 0), (1, 0), (1, 0)])],
        replacement: &[(0, 0), (1, 1)],
        ..WHOLE
    };
    let condition_rule = RuleText {
        target: 2,
        reach: 2,
        pattern: &[(2, 5)],
        ..NONE
    };
    let rewriting = RuleText {
        replacement: &[(2, 5)],
        ..condition_rule
    };
    let tree = list(&[4, 5, 5]);
    assert_eq!(
        line(GRAMMAR, 9, &[RuleText { ..main }, condition_rule], &tree),
        "done 3 1 6"
    );
    assert_eq!(line(GRAMMAR, 9, &[main, rewriting], &tree), "done 3 1 6");
}

#[test]
fn m13_operations_and_searching_parts_are_no_attempts() {
    let texts = [RuleText {
        parts: &[
            search(2, 0, &[(2, 500)]),
            construct(2, &[(2, 3)]),
            condition(&[(66, 1), (1, 0), (1_008, 1), (65, 1)]),
        ],
        replacement: &[(0, 0), (1, 0), (66, 1), (1, 0), (1_004, 0), (1, 1)],
        ..WHOLE
    }];
    assert_eq!(
        on_list(1, &texts, TREE),
        "done 1 1 12\n0 0 4 1 0 3 2 0 1 1 1 1"
    );
}

#[test]
fn h1_putting_in_place_never_raises_live_nodes() {
    let texts = [RuleText {
        replacement: &[(65, 0)],
        ..WHOLE
    }];
    let great = list_of_nodes(2_048);
    assert_eq!(line(GRAMMAR, 9, &texts, &great), "done 1 1 6144");
}

#[test]
fn h2_a_parameter_counts_once() {
    let texts = [
        RuleText {
            replacement: &[(66, 0), (1, 0), (1, 1), (65, 0)],
            ..WHOLE
        },
        RuleText {
            parameters: &[0],
            replacement: &[(65, 0)],
            ..ON_EMPTY
        },
    ];
    // Scope, variable, copy and argument: 4 x 1,536 = 6,144.
    let with = |nodes| line(GRAMMAR, 9, &texts, &list_of_nodes(nodes));
    assert_eq!(with(1_536), "done 2 1 4608");
    assert_eq!(with(1_538), "stopped 44 1 0 4614");
}

#[test]
fn h3_the_copy_comes_before_the_call() {
    let endless = RuleText {
        replacement: &[(66, 0), (1, 0), (0, 0)],
        ..WHOLE
    };
    // The 32nd call has 64 trees live when bound, and then copies one more.
    let with = |nodes| {
        let texts = [RuleText { ..endless }];
        line(GRAMMAR, 99, &texts, &list_of_nodes(nodes))
    };
    assert_eq!(with(96), "stopped 44 32 0 288");
    assert_eq!(with(94), "stopped 41 32 0 282");
}

#[test]
fn h4_42_for_a_chain_is_judged_at_the_move() {
    let main = RuleText {
        replacement: &[(0, 2), (65, 0), (0, 2), (65, 0), (66, 0), (1, 0), (1, 0)],
        ..WHOLE
    };
    let shrinking = RuleText {
        replacement: &[(0, 1), (1, 1)],
        ..WHOLE
    };
    let idle = RuleText {
        pattern: &[(0, 0), (64, 0)],
        replacement: &[(65, 0)],
        ..NONE
    };
    // 1 + 900 + 1 + 900 nodes are under way when 900 are copied.
    let tree = deep(0, 449);
    assert_eq!(
        line(DEEP, 9, &[RuleText { ..main }, shrinking], &tree),
        "done 2 1 5412"
    );
    assert_eq!(line(DEEP, 9, &[main, idle], &tree), "stopped 42 2 0 2700");
}

#[test]
fn h5_the_copy_of_a_test_is_live_till_the_test_ends() {
    let test = not_condition(&[(66, 0), (1, 0), (1, 0)]);
    let twice = [
        RuleText {
            parts: &[test.clone(), test],
            replacement: &[(65, 0)],
            ..WHOLE
        },
        ON_EMPTY,
    ];
    let great = list_of_nodes(2_048);
    assert_eq!(line(GRAMMAR, 9, &twice, &great), "done 3 1 6144");
    // With operations only: 2,048 + 2,047 + numbers + 2,047 are live, then the
    // copy of a number. The last part always fails.
    let with = |numbers: usize| {
        let mut parts = vec![construct(2, &[(2, 5)]); numbers];
        parts.push(construct(1, &[(65, 0)]));
        parts.push(condition(&[(66, 1), (1, 0), (1_008, 1), (65, 1)]));
        parts.push(deconstruct(1, &[(2, 6)]));
        let texts = [RuleText {
            pattern: &[(0, 0), (64, 1)],
            parts: &parts,
            replacement: &[(0, 0), (1, 1)],
            ..NONE
        }];
        line(GRAMMAR, 9, &texts, &great)
    };
    assert_eq!(with(1), "done 1 0 6144");
    assert_eq!(with(2), "stopped 44 1 0 6144");
}

#[test]
fn h6_arguments_count_each_and_in_one_step_with_the_call() {
    let application = [(1, 2), (65, 0), (65, 0)];
    let chain = [&[(66, 0), (2, 0)], &application[..], &application[..]].concat();
    let texts = [
        RuleText {
            replacement: &chain,
            ..WHOLE
        },
        RuleText {
            parameters: &[0, 0],
            replacement: &[(65, 0)],
            ..ON_EMPTY
        },
    ];
    // Scope, variable, copy and twice the argument, for each application.
    let with = |nodes| line(GRAMMAR, 9, &texts, &list_of_nodes(nodes));
    assert_eq!(with(1_228), "done 3 1 3684");
    assert_eq!(with(1_230), "stopped 44 1 0 3690");
    // The 33rd call would have 97 trees of 64 nodes live: 41 is lower.
    let endless = [
        RuleText {
            replacement: &[(66, 0), (1, 0), (1, 1), (65, 0)],
            ..WHOLE
        },
        RuleText {
            parameters: &[0],
            replacement: &[(66, 1), (1, 0), (1, 1), (65, 0)],
            ..WHOLE
        },
    ];
    assert_eq!(
        line(GRAMMAR, 99, &endless, &list_of_nodes(64)),
        "stopped 41 32 0 192"
    );
}

#[test]
fn h7_an_operation_holds_nothing_more() {
    // 2,048 + 2,047 + 1 + 2,047 are live, then the copy: 6,144. The last part
    // always fails.
    let with = |application: &[(u32, u32)], number| {
        let texts = [RuleText {
            pattern: &[(0, 0), (64, 1)],
            parts: &[
                construct(2, &[(2, number)]),
                construct(1, &[(65, 0)]),
                construct(2, &[&[(66, 1), (1, 0)], application].concat()),
                deconstruct(3, &[(2, 1)]),
            ],
            replacement: &[(0, 0), (1, 1)],
            ..NONE
        }];
        line(GRAMMAR, 9, &texts, &list_of_nodes(2_048))
    };
    let round = [(1_004, 0)];
    let add_itself = [(1_000, 1), (65, 1)];
    assert_eq!(with(&round, 250), "done 1 0 6144");
    assert_eq!(with(&add_itself, 250), "done 1 0 6144");
    assert_eq!(with(&add_itself, 2_000_000_001), "stopped 45 1 0 6144");
}

#[test]
fn h8_open_calls() {
    let tree = |numbers| list(&vec![5; numbers]);
    // A sequence of 31 takes 32 calls, the last on the empty rest.
    assert_eq!(line(GRAMMAR, 99, &[RECURSIVE], &tree(31)), "done 32 1 192");
    assert_eq!(
        line(GRAMMAR, 99, &[RECURSIVE], &tree(32)),
        "stopped 41 32 0 198"
    );
    // An operation in the 32nd call is no call: it gives 45, not 41.
    let doubling = RuleText {
        parts: &[construct(2, &[(66, 0), (1, 0), (1_000, 1), (65, 0)])],
        ..RECURSIVE
    };
    let mut numbers = vec![5; 31];
    numbers.push(2_000_000_001);
    assert_eq!(
        line(GRAMMAR, 99, &[doubling], &list(&numbers)),
        "stopped 45 32 0 198"
    );
    // Calls of tests are nested calls too.
    let testing = RuleText {
        parts: &[condition(&[(66, 0), (1, 0), (0, 0)])],
        replacement: &[(65, 0)],
        ..WHOLE
    };
    assert_eq!(
        line(GRAMMAR, 99, &[testing], &[0, 0, 1, 1]),
        "stopped 41 32 0 6"
    );
}

#[test]
fn h9_nesting_is_judged_after_the_last_pair() {
    // Nesting 64, 2,001 nodes.
    let tree = deep(61, 969);
    let deeper = RuleText {
        replacement: &[(0, 0), (65, 0)],
        ..WHOLE
    };
    let holding_more = RuleText {
        parts: &[construct(0, &[(65, 0)])],
        ..deeper
    };
    assert_eq!(line(DEEP, 9, &[deeper], &tree), "stopped 43 1 0 6003");
    assert_eq!(line(DEEP, 9, &[holding_more], &tree), "stopped 44 1 0 6003");
}

/// A tree of `DEEP`: two trees, one deep and one long. It has
/// levels + 2 x numbers + 5 nodes.
fn two(levels: usize, numbers: usize) -> Vec<u32> {
    [vec![0, 2], deep(levels, 0), deep(0, numbers)].concat()
}

/// Makes the first tree under form 2 two levels deeper: its own nesting is
/// then levels + 4.
const DEEPEN_FIRST: RuleText = RuleText {
    target: 0,
    reach: 1,
    pattern: &[(0, 0), (64, 0)],
    replacement: &[(0, 0), (0, 0), (0, 0), (65, 0)],
    ..NONE
};

#[test]
fn h10_43_of_the_finished_tree_comes_before_42_in_place() {
    assert_eq!(
        line(DEEP, 9, &[DEEPEN_FIRST], &two(61, 991)),
        "stopped 43 2 0 6144"
    );
}

#[test]
fn h11_nesting_of_a_moved_tree_is_judged_when_the_tree_above_is_finished() {
    // Root 0 is `form 0: [0]`, `form 1: [number]` or `form 2: [0, 0]`.
    let grammar = [3, 8, 3, 1, 0, 1, 2, 2, 0, 0, 4, 2, 1, 2];
    let tree = [[0, 0].repeat(62), vec![0, 1, 2, 0]].concat();
    let idle = RuleText {
        pattern: &[(0, 1), (64, 2)],
        replacement: &[(0, 1), (65, 0)],
        ..NONE
    };
    let with = |replacement: &[(u32, u32)]| {
        let main = RuleText {
            parts: &[search(2, 0, &[(64, 2)])],
            replacement,
            ..WHOLE
        };
        line(&grammar, 9, &[main, RuleText { ..idle }], &tree)
    };
    let moved = [(0, 2), (66, 0), (1, 0), (1, 0), (0, 1)];
    let divided = [(66, 1), (1, 0), (1_002, 1), (65, 1)];
    assert_eq!(with(&[&moved[..], &divided].concat()), "stopped 45 2 0 192");
    assert_eq!(
        with(&[&moved[..], &[(65, 1)]].concat()),
        "stopped 43 2 0 192"
    );
    assert_eq!(
        with(&[&[(0, 2), (65, 0), (0, 1)], &divided[..]].concat()),
        "stopped 45 1 0 192"
    );
}

#[test]
fn h12_42_in_place_counts_the_scope_as_it_would_be() {
    let texts = [RuleText {
        target: 2,
        reach: 1,
        pattern: &[(2, 5)],
        replacement: &[(2, 6)],
        ..NONE
    }];
    let great = list_of_nodes(2_048);
    assert_eq!(line(GRAMMAR, 9, &texts, &great), "done 1 1 6144");
    // One number more in the sequence is 2,050 nodes.
    let growing = [RuleText {
        target: 1,
        reach: 1,
        pattern: &[(64, 1)],
        replacement: &[(1, 0), (2, 5), (65, 0)],
        ..NONE
    }];
    let with = |nodes| line(GRAMMAR, 9, &growing, &list_of_nodes(nodes));
    assert_eq!(with(2_046), "done 1 1 6144");
    assert_eq!(with(2_048), "stopped 42 1 0 6144");
}

#[test]
fn h13_in_place_42_comes_before_43() {
    let with = |levels, numbers| line(DEEP, 9, &[DEEPEN_FIRST], &two(levels, numbers));
    assert_eq!(with(60, 991), "stopped 42 2 0 6141");
    assert_eq!(with(60, 10), "stopped 43 2 0 255");
    assert_eq!(with(59, 10), "done 2 1 258");
}

#[test]
fn h14_nesting_in_place_is_counted_in_the_calls_own_scope() {
    let levels = |count, end: &[(u32, u32)]| [&vec![(0, 0); count], end].concat();
    let with = |chain: &[(u32, u32)]| {
        let main = levels(60, chain);
        let deepening = levels(10, &[(65, 0)]);
        let texts = [
            RuleText {
                replacement: &main,
                ..WHOLE
            },
            RuleText {
                replacement: &deepening,
                ..WHOLE
            },
            RuleText {
                replacement: &[(0, 1), (1, 1)],
                ..WHOLE
            },
        ];
        line(DEEP, 9, &texts, &[0, 1, 1, 1])
    };
    assert_eq!(with(&[(66, 0), (2, 0), (1, 0), (2, 0)]), "done 3 1 186");
    assert_eq!(with(&[(66, 0), (1, 0), (1, 0)]), "stopped 43 2 0 6");
    // The place keeps its nesting as the rest of a sequence: the tenth rest
    // of a sequence of itself has nesting 1 and may get nesting 64.
    let tree = [[0, 0, 0, 1].repeat(10), vec![0, 1]].concat();
    let deepest = [vec![(0, 0); 63], vec![(0, 1); 64]].concat();
    let texts = [RuleText {
        target: 0,
        reach: 1,
        pattern: &[(0, 0), (0, 1), (0, 1)],
        replacement: &deepest,
        ..NONE
    }];
    assert_eq!(line(&[1, 4, 0], 99, &texts, &tree), "done 19 1 435");
}

#[test]
fn h15_a_construct_is_judged_though_never_used() {
    let texts = [RuleText {
        parts: &[construct(0, &[(0, 0), (65, 0)])],
        replacement: &[(65, 0)],
        ..WHOLE
    }];
    assert_eq!(line(DEEP, 9, &texts, &deep(61, 1)), "stopped 43 1 0 195");
    assert_eq!(line(DEEP, 9, &texts, &deep(60, 1)), "done 1 1 192");
}

#[test]
fn h16_one_step_over_42_and_44_gives_42() {
    // A copy: 1 + 2,048 nodes, and 6,145 live.
    let copying = [RuleText {
        replacement: &[(0, 0), (65, 0)],
        ..WHOLE
    }];
    assert_eq!(
        line(DEEP, 9, &copying, &deep(0, 1_023)),
        "stopped 42 1 0 6144"
    );
    // A written node: the 2,049th, and the 6,145th live one.
    let writing = [RuleText {
        parts: &vec![construct(2, &[(2, 1)]); 4],
        replacement: &[(0, 2), (65, 0), (0, 1), (1, 1)],
        ..WHOLE
    }];
    assert_eq!(
        line(DEEP, 9, &writing, &deep(0, 1_022)),
        "stopped 42 1 0 6138"
    );
}

#[test]
fn h17_42_holds_for_trees_under_way() {
    let texts = [RuleText {
        parts: &[construct(0, &[(0, 2), (65, 0), (65, 0)])],
        replacement: &[(65, 0)],
        ..WHOLE
    }];
    let with = |numbers| line(DEEP, 9, &texts, &deep(0, numbers));
    assert_eq!(with(749), "stopped 42 1 0 4500");
    assert_eq!(with(510), "done 1 1 3066");
}

#[test]
fn h18_a_failed_attempt_lets_go_of_its_variables() {
    let texts = [RuleText {
        target: 1,
        reach: 1,
        pattern: &[(1, 0), (64, 2), (64, 1)],
        parts: &[construct(2, &[(65, 0)]), deconstruct(0, &[(2, 9)])],
        replacement: &[(1, 1)],
        ..NONE
    }];
    let great = list_of_nodes(2_048);
    assert_eq!(line(GRAMMAR, 2_000, &texts, &great), "done 1024 0 6144");
}

/// What one number and an operation with another as argument give.
fn operate(operation: u32, scope: u32, argument: u32) -> String {
    let texts = [RuleText {
        target: 1,
        reach: 1,
        pattern: &[(1, 0), (64, 2), (1, 0), (64, 2), (64, 1)],
        replacement: &[(1, 0), (66, 0), (1, 0), (operation, 1), (65, 1), (65, 2)],
        ..NONE
    }];
    result(&on_list(9, &texts, &list(&[scope, argument])))
}

/// What one number and an operation without argument give.
fn operate_alone(operation: u32, scope: u32) -> String {
    let texts = [RuleText {
        target: 2,
        reach: 1,
        pattern: &[(64, 2)],
        replacement: &[(66, 0), (1, 0), (operation, 0)],
        ..NONE
    }];
    result(&on_list(9, &texts, &list(&[scope])))
}

/// The only number of a list, or the stop.
fn result(text: &str) -> String {
    let one_number = text
        .strip_prefix("done 1 1 12\n0 0 4 1 0 3 2 ")
        .and_then(|rest| rest.strip_suffix(" 1 1 1 1"));
    match one_number {
        Some(number) => number.to_string(),
        None => text.split(' ').take(2).collect::<Vec<_>>().join(" "),
    }
}

#[test]
fn o1_quotient_and_remainder() {
    assert_eq!(operate(1_003, 250, 120), "10");
    assert_eq!(operate(1_003, 4_000_000_000, 1), "0");
    assert_eq!(operate(1_002, 1_000, 300), "300");
    assert_eq!(operate(1_002, 299, 300), "0");
    assert_eq!(operate(1_002, 40_000_000, 1), "4000000000");
    assert_eq!(operate(1_002, 40_000_001, 1), "stopped 45");
    assert_eq!(operate(1_002, 4_000_000_000, 1), "stopped 45");
}

#[test]
fn o2_round_and_truncate() {
    for (scope, rounded) in [(0, "0"), (49, "0"), (50, "0"), (149, "100")] {
        assert_eq!(operate_alone(1_004, scope), rounded);
    }
    assert_eq!(operate_alone(1_004, 3_999_999_949), "3999999900");
    assert_eq!(operate_alone(1_004, 3_999_999_950), "4000000000");
    assert_eq!(operate_alone(1_005, 99), "0");
    assert_eq!(operate_alone(1_005, 199), "100");
    assert_eq!(operate_alone(1_005, 3_999_999_999), "3999999900");
    assert_eq!(operate_alone(1_005, 4_000_000_000), "4000000000");
}

#[test]
fn t01_1_an_exact_half_goes_to_the_even_whole_number() {
    let even_and_half = [
        (50, "0"),
        (250, "200"),
        (450, "400"),
        (4_000_050, "4000000"),
    ];
    let odd_and_half = [
        (150, "200"),
        (350, "400"),
        (550, "600"),
        (4_000_150, "4000200"),
    ];
    let under = [(49, "0"), (149, "100"), (249, "200"), (349, "300")];
    let over = [(51, "100"), (151, "200"), (251, "300"), (351, "400")];
    let others = [(0, "0"), (1, "0"), (99, "100"), (100, "100"), (200, "200")];
    let quarters = [(125, "100"), (175, "200"), (225, "200"), (275, "300")];
    for cases in [
        &even_and_half[..],
        &odd_and_half,
        &under,
        &over,
        &others,
        &quarters,
    ] {
        for &(scope, rounded) in cases {
            assert_eq!(operate_alone(1_004, scope), rounded, "{scope}");
        }
    }
}

#[test]
fn t01_2_halves_near_the_greatest_number() {
    assert_eq!(operate_alone(1_004, 999_999_850), "999999800");
    assert_eq!(operate_alone(1_004, 999_999_949), "999999900");
    // The half between 9,999,999 and 10,000,000, which is even; with T-02 it
    // is no longer too great.
    assert_eq!(operate_alone(1_004, 999_999_950), "1000000000");
    assert_eq!(operate_alone(1_004, 999_999_951), "1000000000");
    assert_eq!(operate_alone(1_004, 999_999_999), "1000000000");

    assert_eq!(operate_alone(1_004, 3_999_999_750), "3999999800");
    assert_eq!(operate_alone(1_004, 3_999_999_849), "3999999800");
    assert_eq!(operate_alone(1_004, 3_999_999_850), "3999999800");
    assert_eq!(operate_alone(1_004, 3_999_999_851), "3999999900");
    assert_eq!(operate_alone(1_004, 3_999_999_900), "3999999900");
    assert_eq!(operate_alone(1_004, 3_999_999_949), "3999999900");
    // The half between 39,999,999 and 40,000,000, which is even.
    assert_eq!(operate_alone(1_004, 3_999_999_950), "4000000000");
    assert_eq!(operate_alone(1_004, 3_999_999_951), "4000000000");
    assert_eq!(operate_alone(1_004, 3_999_999_999), "4000000000");
    assert_eq!(operate_alone(1_004, 4_000_000_000), "4000000000");
}

#[test]
fn t01_3_no_other_operation_rounds_to_even() {
    let down = [
        (50, "0", "50"),
        (150, "100", "50"),
        (175, "100", "75"),
        (199, "100", "99"),
        (250, "200", "50"),
        (251, "200", "51"),
        (350, "300", "50"),
    ];
    for (scope, whole, rest) in down {
        assert_eq!(operate(1_002, scope, 100), whole, "{scope}");
        assert_eq!(operate(1_003, scope, 100), rest, "{scope}");
        assert_eq!(operate_alone(1_005, scope), whole, "{scope}");
    }
    // 1.5 and 3.5 times the argument.
    assert_eq!(operate(1_002, 450, 300), "100");
    assert_eq!(operate(1_003, 450, 300), "150");
    assert_eq!(operate(1_002, 1_050, 300), "300");
    assert_eq!(operate(1_003, 1_050, 300), "150");
}

/// What T-01 says of `number / divisor`, by a search: of all whole numbers
/// the nearest, and of two that are equally near the even one.
fn nearest_by_search(number: u64, divisor: u64) -> u64 {
    let distance = |whole: u64| (whole * divisor).abs_diff(number);
    let candidates = || (0..).take_while(|whole| whole * divisor <= number + divisor);
    let least = candidates().map(distance).min();
    let nearest: Vec<u64> = candidates()
        .filter(|&whole| Some(distance(whole)) == least)
        .collect();
    match nearest[..] {
        [only] => only,
        [even, odd] | [odd, even] if even.is_multiple_of(2) && odd % 2 == 1 => even,
        _ => panic!("one nearest, or an even and an odd one"),
    }
}

#[test]
fn t01_the_rounding_is_the_nearest_found_by_a_search() {
    for divisor in [
        1, 2, 3, 4, 5, 7, 10, 16, 25, 99, 100, 101, 250, 1_000, 1_001,
    ] {
        for number in 0..=4_000 {
            assert_eq!(
                round_half_even(number, divisor),
                nearest_by_search(number, divisor),
                "{number} by {divisor}"
            );
        }
    }
    for number in 0..=1_000 {
        let rounded = nearest_by_search(number.into(), 100) * 100;
        assert_eq!(operate_alone(1_004, number), rounded.to_string());
    }
}

#[test]
fn t01_the_rounding_of_great_numbers_does_not_wrap() {
    const HALF: u64 = 1 << 63;
    assert_eq!(round_half_even(u32::MAX.into(), 100), 42_949_673);
    assert_eq!(round_half_even(u64::MAX, 1), u64::MAX);
    // Halves under HALF, which is even, and over HALF - 2.
    assert_eq!(round_half_even(u64::MAX, 2), HALF);
    assert_eq!(round_half_even(u64::MAX - 2, 2), HALF - 2);
    // Just under and over a half, a half, and one.
    assert_eq!(round_half_even(HALF - 1, u64::MAX), 0);
    assert_eq!(round_half_even(HALF, u64::MAX), 1);
    assert_eq!(round_half_even(HALF - 1, u64::MAX - 1), 0);
    assert_eq!(round_half_even(u64::MAX, u64::MAX), 1);
}

#[test]
fn o3_divisor_0_and_results_out_of_range() {
    for operation in [1_002, 1_003] {
        assert_eq!(operate(operation, 500, 0), "stopped 45");
        assert_eq!(operate(operation, 0, 0), "stopped 45");
        assert_eq!(operate(operation, 0, 1), "0");
    }
    assert_eq!(operate(1_000, 3_999_999_999, 1), "4000000000");
    assert_eq!(operate(1_000, 4_000_000_000, 1), "stopped 45");
    assert_eq!(operate(1_001, 5, 5), "0");
    assert_eq!(operate(1_001, 5, 6), "stopped 45");
}

/// Two types of numbers, one of each.
const TWO_NUMBERS: &[u32] = &[3, 8, 1, 2, 1, 2, 1, 2, 1, 2];

/// Whether one number compared with another of the other type holds.
fn compare(operation: u32, one: u32, two: u32) -> bool {
    let texts = [RuleText {
        pattern: &[(0, 0), (64, 1), (64, 2)],
        parts: &[condition(&[(66, 0), (1, 0), (operation, 1), (65, 1)])],
        replacement: &[(0, 0), (1, 1), (2, 1)],
        ..NONE
    }];
    match &line(TWO_NUMBERS, 9, &texts, &[0, 0, 1, one, 2, two])[..] {
        "done 1 1 9" => true,
        "done 1 0 9" => false,
        other => panic!("a comparison never stops: {other}"),
    }
}

#[test]
fn o4_number_types_may_differ() {
    let adding = [RuleText {
        pattern: &[(0, 0), (64, 1), (64, 2)],
        replacement: &[(0, 0), (66, 0), (1, 0), (1_000, 1), (65, 1), (65, 1)],
        ..NONE
    }];
    assert_eq!(
        on(TWO_NUMBERS, 9, &adding, &[0, 0, 1, 250, 2, 120]),
        "done 1 1 9\n0 0 3 1 370 1 2 120 1"
    );
    assert!(compare(1_008, 5, 5) && !compare(1_008, 5, 6));
    assert!(compare(1_009, 6, 5) && !compare(1_009, 5, 5) && !compare(1_009, 5, 6));
}

#[test]
fn t02_1_numbers_of_a_run_to_the_new_limit() {
    let with = |number, pattern: &[(u32, u32)], replacement: &[(u32, u32)]| {
        let texts = [RuleText {
            target: 2,
            reach: 1,
            pattern,
            replacement,
            ..NONE
        }];
        on_list(9, &texts, &list(&[number]))
    };
    let greatest = [(2, 4_000_000_000)];
    assert_eq!(
        with(3_999_999_999, &greatest, &[(2, 5)]),
        "done 1 0 12\n0 0 4 1 0 3 2 3999999999 1 1 1 1"
    );
    assert_eq!(
        with(4_000_000_000, &greatest, &[(2, 5)]),
        "done 1 1 12\n0 0 4 1 0 3 2 5 1 1 1 1"
    );
    assert_eq!(
        with(5, &[(2, 5)], &greatest),
        "done 1 1 12\n0 0 4 1 0 3 2 4000000000 1 1 1 1"
    );
    // A result of 4,000,000,000 is a number like others for what follows.
    let doubled_and = |operation: &[(u32, u32)]| {
        let chain = [&[(66, 0), (2, 0), (1_000, 1), (65, 0)], operation].concat();
        with(2_000_000_000, &[(64, 2)], &chain)
    };
    assert_eq!(
        doubled_and(&[(1_005, 0)]),
        "done 1 1 12\n0 0 4 1 0 3 2 4000000000 1 1 1 1"
    );
    assert_eq!(
        doubled_and(&[(1_001, 1), (65, 0)]),
        "done 1 1 12\n0 0 4 1 0 3 2 2000000000 1 1 1 1"
    );
    assert_eq!(
        doubled_and(&[(1_000, 1), (65, 0)]),
        "stopped 45 1 0 12\n0 0 4 1 0 3 2 2000000000 1 1 1 1"
    );
}

#[test]
fn t02_2_the_true_sum_is_judged() {
    assert_eq!(operate(1_000, 4_000_000_000, 0), "4000000000");
    assert_eq!(operate(1_000, 0, 4_000_000_000), "4000000000");
    assert_eq!(operate(1_000, 2_000_000_000, 2_000_000_000), "4000000000");
    assert_eq!(operate(1_000, 1, 3_999_999_999), "4000000000");
    assert_eq!(operate(1_000, 1, 4_000_000_000), "stopped 45");
    assert_eq!(operate(1_000, 2_000_000_000, 2_000_000_001), "stopped 45");
    // 2^32 - 1, 2^32 and 2^32 + 1, which would wrap to 0 and 1.
    assert_eq!(operate(1_000, 4_000_000_000, 294_967_295), "stopped 45");
    assert_eq!(operate(1_000, 4_000_000_000, 294_967_296), "stopped 45");
    assert_eq!(operate(1_000, 4_000_000_000, 294_967_297), "stopped 45");
    assert_eq!(operate(1_000, 1 << 31, 1 << 31), "stopped 45");
    // 8,000,000,000 would wrap to 3,705,032,704, which is in range.
    assert_eq!(operate(1_000, 4_000_000_000, 4_000_000_000), "stopped 45");
}

#[test]
fn t02_2_the_true_difference_is_judged() {
    assert_eq!(operate(1_001, 4_000_000_000, 0), "4000000000");
    assert_eq!(operate(1_001, 4_000_000_000, 1), "3999999999");
    assert_eq!(operate(1_001, 4_000_000_000, 3_999_999_999), "1");
    assert_eq!(operate(1_001, 4_000_000_000, 4_000_000_000), "0");
    assert_eq!(operate(1_001, 3_999_999_999, 4_000_000_000), "stopped 45");
    // These would wrap to 4,000,000,000 and 294,967,296, which are in range.
    assert_eq!(operate(1_001, 0, 294_967_296), "stopped 45");
    assert_eq!(operate(1_001, 0, 4_000_000_000), "stopped 45");
}

#[test]
fn t02_2_the_true_product_of_a_quotient_is_judged() {
    assert_eq!(operate(1_002, 39_999_999, 1), "3999999900");
    assert_eq!(operate(1_002, 40_000_000, 1), "4000000000");
    assert_eq!(operate(1_002, 40_000_001, 1), "stopped 45");
    assert_eq!(operate(1_002, 80_000_001, 2), "4000000000");
    assert_eq!(operate(1_002, 80_000_002, 2), "stopped 45");
    assert_eq!(operate(1_002, 4_000_000_000, 100), "4000000000");
    assert_eq!(operate(1_002, 4_000_000_000, 99), "stopped 45");
    assert_eq!(operate(1_002, 4_000_000_000, 4_000_000_000), "100");
    assert_eq!(operate(1_002, 3_999_999_999, 4_000_000_000), "0");
    // 4,294,967,200 and 4,294,967,300 lie about 2^32, 8,589,934,600 is just
    // over 2^33: these two would wrap to 4 and 8.
    assert_eq!(operate(1_002, 42_949_672, 1), "stopped 45");
    assert_eq!(operate(1_002, 42_949_673, 1), "stopped 45");
    assert_eq!(operate(1_002, 85_899_346, 1), "stopped 45");
    // 400,000,000,000 would wrap to 568,041,472.
    assert_eq!(operate(1_002, 4_000_000_000, 1), "stopped 45");
}

#[test]
fn t02_2_the_quotient_of_a_remainder_may_pass_any_limit() {
    // In hundredths the quotients would be 400,000,000,000, 200,000,000,000,
    // 133,333,333,300 and 4,000,000,100.
    assert_eq!(operate(1_003, 4_000_000_000, 1), "0");
    assert_eq!(operate(1_003, 4_000_000_000, 2), "0");
    assert_eq!(operate(1_003, 4_000_000_000, 3), "1");
    assert_eq!(operate(1_003, 40_000_001, 1), "0");
    assert_eq!(operate(1_003, 4_000_000_000, 3_999_999_999), "1");
    assert_eq!(operate(1_003, 4_000_000_000, 4_000_000_000), "0");
    assert_eq!(operate(1_003, 3_999_999_999, 4_000_000_000), "3999999999");
}

#[test]
fn t02_2_every_pair_of_numbers_about_the_limits() {
    let edges = [
        2,
        100,
        40_000_000,
        42_949_673,
        294_967_296,
        1_000_000_000,
        2_000_000_000,
        1 << 31,
        4_000_000_000,
    ];
    let mut numbers = vec![0];
    numbers.extend(edges.iter().flat_map(|edge| [edge - 1, *edge, edge + 1]));
    numbers.retain(|&number| number <= 4_000_000_000);
    let in_range = |result: i128| match result {
        0..=4_000_000_000 => result.to_string(),
        _ => "stopped 45".to_string(),
    };
    for &scope in &numbers {
        for &argument in &numbers {
            let about = format!("{scope} and {argument}");
            let (a, b) = (i128::from(scope), i128::from(argument));
            assert_eq!(operate(1_000, scope, argument), in_range(a + b), "{about}");
            assert_eq!(operate(1_001, scope, argument), in_range(a - b), "{about}");
            // A divisor of 0 is out of range like a result under 0.
            let whole = a.checked_div(b);
            let quotient = whole.map_or(-1, |whole| whole * 100);
            let remainder = whole.map_or(-1, |whole| a - b * whole);
            assert_eq!(
                operate(1_002, scope, argument),
                in_range(quotient),
                "{about}"
            );
            assert_eq!(
                operate(1_003, scope, argument),
                in_range(remainder),
                "{about}"
            );
            assert_eq!(compare(1_008, scope, argument), a == b, "{about}");
            assert_eq!(compare(1_009, scope, argument), a > b, "{about}");
        }
    }
}

#[test]
fn t02_2_comparisons_about_the_limits() {
    assert!(compare(1_008, 4_000_000_000, 4_000_000_000));
    assert!(!compare(1_008, 4_000_000_000, 3_999_999_999));
    assert!(compare(1_009, 4_000_000_000, 3_999_999_999));
    assert!(!compare(1_009, 4_000_000_000, 4_000_000_000));
    assert!(!compare(1_009, 3_999_999_999, 4_000_000_000));
    // From 2^31 on a number is greater still, not under 0.
    assert!(compare(1_009, 1 << 31, (1 << 31) - 1));
    assert!(compare(1_009, 4_000_000_000, 0) && !compare(1_009, 0, 4_000_000_000));
}

#[test]
fn t02_round_gives_the_nearest_whole_number_and_never_45() {
    let below_the_limit = 3_999_995_000..=4_000_000_000;
    let about_the_old_limit = 999_999_500..=1_000_000_500;
    let about_2_31 = (1 << 31) - 500..=(1 << 31) + 500;
    // The step shares no divisor with 200, so all hundredths of even and odd
    // whole numbers come.
    let all_over = (0..=4_000_000_000).step_by(399_989);
    for number in below_the_limit
        .chain(about_the_old_limit)
        .chain(about_2_31)
        .chain(all_over)
    {
        // A float has 53 bits: halves are exact and nothing else comes near.
        let rounded = (f64::from(number) / 100.0).round_ties_even() * 100.0;
        assert_eq!(operate_alone(1_004, number), rounded.to_string());
    }
}

#[test]
fn a1_without_a_replacement_the_result_is_the_tree() {
    assert_eq!(
        bench(9, GRAMMAR, RULES, &list(&[7, 8])),
        "done 2 0 18\n0 0 6 1 0 5 2 7 1 1 0 3 2 8 1 1 1 1"
    );
}

#[test]
fn a2_a_stop_leaves_the_last_replacement() {
    let texts = [RuleText {
        target: 1,
        reach: 2,
        pattern: &[(1, 0), (64, 2), (1, 0), (64, 2), (64, 1)],
        replacement: &[(1, 0), (66, 0), (1, 0), (1_001, 1), (65, 1), (65, 2)],
        ..NONE
    }];
    assert_eq!(
        on_list(9, &texts, &list(&[10, 3, 9])),
        "stopped 45 2 1 18\n0 0 6 1 0 5 2 7 1 1 0 3 2 9 1 1 1 1"
    );
}

#[test]
fn a3_the_attempt_of_a_stop_is_counted_and_one_not_started_is_not() {
    assert_eq!(first_line(2, GRAMMAR, RULES, TREE), "stopped 40 2 1 18");
    assert_eq!(operate(1_001, 5, 6), "stopped 45");
    // The stop of the second replacement above falls in attempt 2; here in 1.
    let texts = [RuleText {
        target: 2,
        reach: 1,
        pattern: &[(64, 2)],
        replacement: &[(66, 0), (1, 0), (1_001, 1), (65, 0)],
        ..NONE
    }];
    assert_eq!(line(GRAMMAR, 1, &texts, TREE), "done 1 1 18");
    let stopping = [RuleText {
        replacement: &[(66, 0), (1, 0), (1_002, 1), (65, 0)],
        target: 2,
        reach: 1,
        pattern: &[(64, 2)],
        ..NONE
    }];
    assert_eq!(
        line(GRAMMAR, 1, &stopping, &list(&[0])),
        "stopped 45 1 0 12"
    );
}
