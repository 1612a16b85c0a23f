//! The sentences of T-06 (each field once) and the readings T06-1 to T06-11,
//! one test each or more. All outcomes are worked out by hand, but for those
//! of all small trees, which `Pass` works out on their words.

mod common;

use common::*;
use reference::check_rules;

fn on(grammar: &[u32], budget: u32, texts: &[RuleText], tree: &[u32]) -> String {
    let words: Vec<Vec<u32>> = texts.iter().map(RuleText::words).collect();
    bench(budget, grammar, &rules(&words), tree)
}

/// The maps of the two kinds of sequence.
const REPEAT_AND_LIST: [u32; 2] = [4, 16];

/// Type 0 is a repeat 1 of fields 2. A field is a name 3 (form 0), or a name as
/// prefix and a field (form 1).
const FIELDS: &[u32] = &[4, 8, 1, 1, 1, 4, 2, 8, 2, 1, 3, 2, 3, 2, 1, 1];

/// The words of a field: its prefixes, and at last its name.
fn field(names: &[u32]) -> Vec<u32> {
    let (name, prefixes) = names.split_last().expect("a name");
    let prefixes = prefixes.iter().flat_map(|&prefix| [2, 1, 3, prefix]);
    prefixes.chain([2, 0, 3, *name]).collect()
}

/// A tree of `FIELDS`: 2 + fields + 2 x names nodes, of which as many are
/// fields as are names.
fn fields(fields: &[&[u32]]) -> Vec<u32> {
    let fields: Vec<Vec<u32>> = fields.iter().map(|names| field(names)).collect();
    [vec![0, 0], sequence_of(1, &fields)].concat()
}

/// Adds the prefix 7 to a field.
const PREFIXING: RuleText = RuleText {
    target: 2,
    reach: 3,
    pattern: &[(64, 2)],
    replacement: &[(2, 1), (3, 7), (65, 0)],
    ..NONE
};

/// Takes one prefix from a field that has one.
const UNPREFIXING: RuleText = RuleText {
    target: 2,
    reach: 3,
    pattern: &[(2, 1), (64, 3), (64, 2)],
    replacement: &[(65, 1)],
    ..NONE
};

/// Adds to a field without prefix its own name as prefix.
const DOUBLING: RuleText = RuleText {
    target: 2,
    reach: 3,
    pattern: &[(2, 0), (64, 3)],
    replacement: &[(2, 1), (65, 0), (2, 0), (65, 0)],
    ..NONE
};

/// Puts 1.00 for a number of the paper's grammar, but stops 45 for 0.
const DIVIDING: RuleText = RuleText {
    target: 2,
    reach: 3,
    pattern: &[(64, 2)],
    replacement: &[(66, 0), (1, 0), (1_002, 1), (65, 0)],
    ..NONE
};

#[test]
fn t06_a_prefix_is_added_to_each_field_once() {
    let tree = fields(&[&[1], &[2], &[3]]);
    let with = |reach, budget| on(FIELDS, budget, &[RuleText { reach, ..PREFIXING }], &tree);
    let each = fields(&[&[7, 1], &[7, 2], &[7, 3]]);
    assert_eq!(with(3, 3), ended(FIELDS, "done 3 3", &each));
    assert_eq!(with(3, 1_000_000), ended(FIELDS, "done 3 3", &each));
    // Reach 2 finds the first field again and again, reach 1 only once.
    let first = fields(&[&[7, 7, 7, 7, 7, 1], &[2], &[3]]);
    assert_eq!(with(2, 5), ended(FIELDS, "stopped 40 5 5", &first));
    let first = fields(&[&[7, 1], &[2], &[3]]);
    assert_eq!(with(1, 3), ended(FIELDS, "done 1 1", &first));
}

#[test]
fn t06_the_example_of_the_paper_with_reach_3() {
    let reach_3 = [1, 9, 2, 3, 1, 2, 200, 1, 2, 4200];
    let with = |budget| bench(budget, GRAMMAR, &reach_3, TREE);
    let rewritten = list(&[4200, 500]);
    assert_eq!(with(3), ended(GRAMMAR, "done 2 1", &rewritten));
    assert_eq!(with(2), ended(GRAMMAR, "done 2 1", &rewritten));
    assert_eq!(with(1), ended(GRAMMAR, "stopped 40 1 1", &rewritten));
    // A replacement equal to its match does not spend the budget.
    let same = [1, 9, 2, 3, 1, 2, 200, 1, 2, 200];
    assert_eq!(
        bench(7, GRAMMAR, &same, TREE),
        ended(GRAMMAR, "done 2 1", TREE)
    );
}

#[test]
fn t06_1_what_is_put_in_place_is_not_entered() {
    let with = |text, tree: &[&[u32]]| on(FIELDS, 99, &[text], &fields(tree));
    // It is a match, and holds the matched tree.
    assert_eq!(
        with(PREFIXING, &[&[1, 2], &[3]]),
        ended(FIELDS, "done 2 2", &fields(&[&[7, 1, 2], &[7, 3]]))
    );
    // It is no match, but holds one.
    assert_eq!(
        with(DOUBLING, &[&[1], &[2]]),
        ended(FIELDS, "done 2 2", &fields(&[&[1, 1], &[2, 2]]))
    );
    // It was a part of the matched tree, and is a match.
    assert_eq!(
        with(UNPREFIXING, &[&[5, 6, 1], &[8, 9, 2]]),
        ended(FIELDS, "done 2 2", &fields(&[&[6, 1], &[9, 2]]))
    );
    // It is as large as the matched tree, and holds a match.
    let changing = RuleText {
        pattern: &[(2, 1), (3, 5), (64, 2)],
        replacement: &[(2, 1), (3, 6), (65, 0)],
        ..PREFIXING
    };
    assert_eq!(
        with(changing, &[&[5, 5, 1], &[5, 2]]),
        ended(FIELDS, "done 2 2", &fields(&[&[6, 5, 1], &[6, 2]]))
    );
}

#[test]
fn t06_1_the_pass_goes_on_with_the_node_behind() {
    // Behind a replacement that is smaller than its match.
    assert_eq!(
        on(
            FIELDS,
            99,
            &[UNPREFIXING],
            &fields(&[&[8, 2], &[3], &[9, 4], &[6, 5]])
        ),
        ended(FIELDS, "done 4 3", &fields(&[&[2], &[3], &[4], &[5]]))
    );
    // Behind one that is larger. The prefixed field is tried in vain.
    assert_eq!(
        on(FIELDS, 99, &[DOUBLING], &fields(&[&[1], &[8, 2], &[3]])),
        ended(FIELDS, "done 4 3", &fields(&[&[1, 1], &[8, 2, 2], &[3, 3]]))
    );
    // Behind one of the same size.
    assert_eq!(
        on(GRAMMAR, 99, &[DIVIDING], &list(&[5, 6, 7])),
        ended(GRAMMAR, "done 3 3", &list(&[100, 100, 100]))
    );
}

#[test]
fn t06_2_a_match_is_replaced_before_the_next_attempt() {
    let with = |budget| on(FIELDS, budget, &[PREFIXING], &fields(&[&[1], &[2], &[3]]));
    assert_eq!(
        with(1),
        ended(FIELDS, "stopped 40 1 1", &fields(&[&[7, 1], &[2], &[3]]))
    );
    assert_eq!(
        with(2),
        ended(FIELDS, "stopped 40 2 2", &fields(&[&[7, 1], &[7, 2], &[3]]))
    );
    // A stop in the work of a replacement falls in its own attempt.
    let divided = |numbers: &[u32]| on(GRAMMAR, 99, &[DIVIDING], &list(numbers));
    assert_eq!(
        divided(&[0, 8, 9]),
        ended(GRAMMAR, "stopped 45 1 0", &list(&[0, 8, 9]))
    );
    assert_eq!(
        divided(&[7, 8, 0, 9]),
        ended(GRAMMAR, "stopped 45 3 2", &list(&[100, 100, 0, 9]))
    );
}

#[test]
fn t06_2_a_nested_call_too_many_leaves_the_earlier_replacements() {
    // Rule 1 calls itself for ever on 9, and does not match other numbers.
    let main = RuleText {
        replacement: &[(66, 0), (1, 0), (1, 0)],
        ..DIVIDING
    };
    let endless = RuleText {
        target: 2,
        pattern: &[(64, 2)],
        parts: &[deconstruct(0, &[(2, 9)])],
        replacement: &[(66, 0), (1, 0), (1, 0)],
        ..NONE
    };
    // Two numbers with two attempts each; the third has one, and one in each
    // of 31 calls.
    assert_eq!(
        on(GRAMMAR, 99, &[main, endless], &list(&[4, 5, 9, 6])),
        ended(GRAMMAR, "stopped 41 36 2", &list(&[4, 5, 9, 6]))
    );
}

#[test]
fn t06_3_only_nodes_of_the_target_type_are_tried() {
    let renaming = RuleText {
        target: 3,
        reach: 3,
        pattern: &[(64, 3)],
        replacement: &[(3, 9)],
        ..NONE
    };
    let with = |budget, text, tree: &[&[u32]]| on(FIELDS, budget, &[text], &fields(tree));
    // Names below one, two and three fields.
    assert_eq!(
        with(6, renaming, &[&[1], &[2, 3], &[4, 5, 6]]),
        ended(FIELDS, "done 6 6", &fields(&[&[9], &[9, 9], &[9, 9, 9]]))
    );
    // No field, so no attempt.
    assert_eq!(with(1, PREFIXING, &[]), "done 0 0 6\n0 0 2 1 1 1");
    // Only the root has type 0.
    let root = RuleText {
        target: 0,
        reach: 3,
        pattern: &[(0, 0), (1, 1)],
        replacement: &[(0, 0), (1, 1)],
        ..NONE
    };
    let tree: [&[u32]; 2] = [&[1], &[2]];
    assert_eq!(
        with(1, root, &tree),
        ended(FIELDS, "done 1 0", &fields(&tree))
    );
}

/// The paper's grammar with this map for its sequence.
fn sequences(map: u32) -> Vec<u32> {
    vec![3, 8, 1, 1, 1, map, 2, 1, 2]
}

#[test]
fn t06_4_the_rest_of_a_sequence_is_a_child() {
    for map in REPEAT_AND_LIST {
        let with = |pattern, replacement, numbers: &[u32]| {
            let text = RuleText {
                target: 1,
                reach: 3,
                pattern,
                replacement,
                ..NONE
            };
            on(&sequences(map), 99, &[text], &list(numbers))
        };
        // Every rest is tried, the empty one too.
        let seven = |numbers| with(&[(1, 0), (2, 7), (64, 1)], &[(65, 0)], numbers);
        assert_eq!(
            seven(&[4, 5, 6]),
            ended(GRAMMAR, "done 4 0", &list(&[4, 5, 6]))
        );
        // The rest of a match is not, though it would match.
        assert_eq!(
            seven(&[4, 7, 7, 7, 5]),
            ended(GRAMMAR, "done 2 1", &list(&[4, 7, 7, 5]))
        );
        assert_eq!(
            seven(&[7, 4, 7]),
            ended(GRAMMAR, "done 1 1", &list(&[4, 7]))
        );
        assert_eq!(
            seven(&[4, 5, 7]),
            ended(GRAMMAR, "done 3 1", &list(&[4, 5]))
        );
        // The last rest, and the sequence itself.
        let append = |numbers| with(&[(1, 1)], &[(1, 0), (2, 9), (1, 1)], numbers);
        assert_eq!(
            append(&[4, 5]),
            ended(GRAMMAR, "done 3 1", &list(&[4, 5, 9]))
        );
        assert_eq!(append(&[]), ended(GRAMMAR, "done 1 1", &list(&[9])));
        let prepend = |numbers| with(&[(64, 1)], &[(1, 0), (2, 9), (65, 0)], numbers);
        assert_eq!(
            prepend(&[4, 5]),
            ended(GRAMMAR, "done 1 1", &list(&[9, 4, 5]))
        );
    }
}

#[test]
fn t06_4_an_element_is_tried_before_the_rest() {
    for map in REPEAT_AND_LIST {
        // A sequence of itself, of two empty ones: A, its element B, its rest
        // C, C's element D, C's rest E.
        let grammar = [1, map, 0];
        let tree = [0, 0, 0, 1, 0, 0, 0, 1, 0, 1];
        let with = |budget| {
            let text = RuleText {
                reach: 3,
                pattern: &[(0, 1)],
                replacement: &[(0, 0), (0, 1), (0, 1)],
                ..NONE
            };
            on(&grammar, budget, &[text], &tree)
        };
        let (a, c) = ([0, 0], [0, 0]);
        let (old, new) = ([0, 1], [0, 0, 0, 1, 0, 1]);
        let b = [&a[..], &new, &c, &old, &old].concat();
        let b_d = [&a[..], &new, &c, &new, &old].concat();
        let b_d_e = [&a[..], &new, &c, &new, &new].concat();
        assert_eq!(with(1), ended(&grammar, "stopped 40 1 0", &tree));
        assert_eq!(with(2), ended(&grammar, "stopped 40 2 1", &b));
        assert_eq!(with(3), ended(&grammar, "stopped 40 3 1", &b));
        assert_eq!(with(4), ended(&grammar, "stopped 40 4 2", &b_d));
        assert_eq!(with(5), ended(&grammar, "done 5 3", &b_d_e));
    }
}

#[test]
fn t06_4_the_children_of_an_unmatched_node_are_tried() {
    let with = |part, tree: &[&[u32]]| {
        let text = RuleText {
            parts: &[part],
            ..PREFIXING
        };
        on(FIELDS, 99, &[text], &fields(tree))
    };
    // Only a field without prefix is a match, as the part says. It lies below
    // none, one and two other fields.
    assert_eq!(
        with(
            deconstruct(0, &[(2, 0), (64, 3)]),
            &[&[1], &[5, 2], &[5, 6, 3]]
        ),
        ended(
            FIELDS,
            "done 6 3",
            &fields(&[&[7, 1], &[5, 7, 2], &[5, 6, 7, 3]])
        )
    );
    // Only a field that holds the name 4.
    assert_eq!(
        with(search(3, 0, &[(3, 4)]), &[&[5, 1], &[4, 2], &[5, 4], &[4]]),
        ended(
            FIELDS,
            "done 5 3",
            &fields(&[&[5, 1], &[7, 4, 2], &[7, 5, 4], &[7, 4]])
        )
    );
}

#[test]
fn t06_5_a_match_at_the_root_of_the_scope_ends_the_pass() {
    // Adds a field in front.
    let adding = RuleText {
        target: 0,
        reach: 3,
        pattern: &[(0, 0), (64, 1)],
        replacement: &[(0, 0), (1, 0), (2, 0), (3, 7), (65, 0)],
        ..NONE
    };
    assert_eq!(
        on(FIELDS, 1, &[adding], &fields(&[&[1]])),
        ended(FIELDS, "done 1 1", &fields(&[&[7], &[1]]))
    );
    // The root's type also stands below it: `form 0: []` or `form 1: [0]`.
    let grammar = [1, 8, 2, 0, 1, 0];
    let with = |pattern, replacement| {
        let text = RuleText {
            reach: 3,
            pattern,
            replacement,
            ..NONE
        };
        on(&grammar, 1, &[text], &[0, 1, 0, 1, 0, 0])
    };
    assert_eq!(
        with(&[(64, 0)], &[(0, 1), (65, 0)]),
        "done 1 1 12\n0 1 4 0 1 3 0 1 2 0 0 1"
    );
    assert_eq!(
        with(&[(0, 1), (64, 0)], &[(65, 0)]),
        "done 1 1 6\n0 1 2 0 0 1"
    );
}

/// A rule on the whole tree of the paper's grammar that makes it empty if its
/// part holds.
fn emptying_if(part: Vec<u32>, rule_1: RuleText, numbers: &[u32]) -> String {
    let main = RuleText {
        pattern: &[(64, 0)],
        parts: &[part],
        replacement: &[(0, 0), (1, 1)],
        ..NONE
    };
    on(GRAMMAR, 99, &[main, rule_1], &list(numbers))
}

#[test]
fn t06_6_in_a_test_reach_3_acts_as_reach_1() {
    // A condition; a rule with a replacement; one whose replacement would stop
    // 45, as 5 is divided by 0.
    let divided: &[(u32, u32)] = &[(66, 0), (1, 0), (1_002, 1), (65, 1)];
    let holds_5 = |reach, replacement| RuleText {
        target: 2,
        reach,
        parameters: &[2, 2],
        pattern: &[(65, 0)],
        replacement,
        ..NONE
    };
    // The attempts of rule 1, and whether it succeeds.
    let cases: [(&[u32], u32, bool); 6] = [
        (&[], 0, false),
        (&[4], 1, false),
        (&[5], 1, true),
        (&[4, 5, 5], 2, true),
        (&[5, 5, 5], 1, true),
        (&[4, 4, 4], 3, false),
    ];
    for (numbers, attempts, success) in cases {
        for replacement in [&[][..], &[(2, 6)], divided] {
            for reach in [1, 3] {
                let with = |test: fn(&[(u32, u32)]) -> Vec<u32>| {
                    let main = RuleText {
                        pattern: &[(64, 0)],
                        parts: &[
                            construct(2, &[(2, 5)]),
                            construct(2, &[(2, 0)]),
                            test(&chain(0, &[apply(1, &[1, 2])])),
                        ],
                        replacement: &[(0, 0), (1, 0), (2, 8), (1, 1)],
                        ..NONE
                    };
                    let rule_1 = holds_5(reach, replacement);
                    on(GRAMMAR, 99, &[main, rule_1], &list(numbers))
                };
                let trials = attempts + 1;
                let held = ended(GRAMMAR, &format!("done {trials} 1"), &list(&[8]));
                let failed = ended(GRAMMAR, &format!("done {trials} 0"), &list(numbers));
                let (plain, negated) = match success {
                    true => (held, failed),
                    false => (failed, held),
                };
                assert_eq!(with(condition), plain, "{numbers:?}");
                assert_eq!(with(not_condition), negated, "{numbers:?}");
            }
        }
    }
}

#[test]
fn t06_6_the_first_success_ends_a_test() {
    let seven = || RuleText {
        target: 2,
        reach: 3,
        pattern: &[(2, 7)],
        ..NONE
    };
    let twice = chain(0, &[apply(1, &[]), apply(1, &[])]);
    // Success ends the first application, and no second one follows.
    assert_eq!(
        emptying_if(condition(&twice), seven(), &[4, 7, 7]),
        ended(GRAMMAR, "done 3 1", &list(&[]))
    );
    assert_eq!(
        emptying_if(not_condition(&twice), seven(), &[4, 7, 7]),
        ended(GRAMMAR, "done 3 0", &list(&[4, 7, 7]))
    );
    // Both try all numbers in vain.
    assert_eq!(
        emptying_if(condition(&twice), seven(), &[4, 5, 6]),
        ended(GRAMMAR, "done 7 0", &list(&[4, 5, 6]))
    );
    assert_eq!(
        emptying_if(not_condition(&twice), seven(), &[4, 5, 6]),
        ended(GRAMMAR, "done 7 1", &list(&[]))
    );
}

#[test]
fn t06_6_a_condition_of_reach_3_tries_nested_nodes() {
    // Takes all fields away if the first one holds a field like this.
    let with = |pattern, names: &[u32]| {
        let main = RuleText {
            pattern: &[(0, 0), (1, 0), (64, 2), (64, 1)],
            parts: &[condition(&chain(0, &[apply(1, &[])]))],
            replacement: &[(0, 0), (1, 1)],
            ..NONE
        };
        let like = RuleText {
            target: 2,
            reach: 3,
            pattern,
            ..NONE
        };
        on(FIELDS, 99, &[main, like], &fields(&[names, &[5]]))
    };
    let none = fields(&[]);
    assert_eq!(
        with(&[(64, 2)], &[1, 2, 5]),
        ended(FIELDS, "done 2 1", &none)
    );
    let five: &[(u32, u32)] = &[(2, 0), (3, 5)];
    assert_eq!(with(five, &[5]), ended(FIELDS, "done 2 1", &none));
    assert_eq!(with(five, &[1, 2, 5]), ended(FIELDS, "done 4 1", &none));
    assert_eq!(
        with(five, &[1, 5, 2]),
        ended(FIELDS, "done 4 0", &fields(&[&[1, 5, 2], &[5]]))
    );
}

#[test]
fn t06_6_a_one_pass_rule_with_a_test() {
    // Puts 6 for each number of which the test holds. Rule 1 has reach 3 and a
    // single number as scope.
    let with = |test: fn(&[(u32, u32)]) -> Vec<u32>, replacement, budget| {
        let main = RuleText {
            target: 2,
            reach: 3,
            pattern: &[(64, 2)],
            parts: &[test(&chain(0, &[apply(1, &[])]))],
            replacement: &[(2, 6)],
            ..NONE
        };
        let five = RuleText {
            target: 2,
            reach: 3,
            pattern: &[(2, 5)],
            replacement,
            ..NONE
        };
        on(GRAMMAR, budget, &[main, five], &list(&[5, 4, 5]))
    };
    for replacement in [&[][..], &[(2, 9)]] {
        let with = |test, budget| with(test, replacement, budget);
        assert_eq!(
            with(condition, 6),
            ended(GRAMMAR, "done 6 2", &list(&[6, 4, 6]))
        );
        assert_eq!(
            with(not_condition, 6),
            ended(GRAMMAR, "done 6 1", &list(&[5, 6, 5]))
        );
        // The test of the third number is due, and its own attempt.
        let first = list(&[6, 4, 5]);
        assert_eq!(with(condition, 5), ended(GRAMMAR, "stopped 40 5 1", &first));
        assert_eq!(with(condition, 4), ended(GRAMMAR, "stopped 40 4 1", &first));
        let second = list(&[5, 6, 5]);
        assert_eq!(
            with(not_condition, 5),
            ended(GRAMMAR, "stopped 40 5 1", &second)
        );
        assert_eq!(
            with(not_condition, 4),
            ended(GRAMMAR, "stopped 40 4 1", &second)
        );
        // The test of the second one.
        assert_eq!(
            with(not_condition, 3),
            ended(GRAMMAR, "stopped 40 3 0", &list(&[5, 4, 5]))
        );
    }
}

#[test]
fn t06_7_40_only_if_a_further_node_comes_up() {
    let with = |budget, tree: &[&[u32]]| on(FIELDS, budget, &[PREFIXING], &fields(tree));
    let three: [&[u32]; 3] = [&[1], &[2], &[3]];
    let each = fields(&[&[7, 1], &[7, 2], &[7, 3]]);
    assert_eq!(with(3, &three), ended(FIELDS, "done 3 3", &each));
    assert_eq!(with(4, &three), ended(FIELDS, "done 3 3", &each));
    let two = fields(&[&[7, 1], &[7, 2], &[3]]);
    assert_eq!(with(2, &three), ended(FIELDS, "stopped 40 2 2", &two));
    // The fields in a match do not come up.
    let prefixed = fields(&[&[7, 1], &[7, 5, 6, 2]]);
    assert_eq!(
        with(2, &[&[1], &[5, 6, 2]]),
        ended(FIELDS, "done 2 2", &prefixed)
    );
    assert_eq!(with(1, &[]), ended(FIELDS, "done 0 0", &fields(&[])));
    // The last number is not a match; only an empty rest is behind it.
    let reach_3 = [1, 9, 2, 3, 1, 2, 5, 1, 2, 6];
    let with = |budget| bench(budget, GRAMMAR, &reach_3, &list(&[5, 5, 4]));
    assert_eq!(with(3), ended(GRAMMAR, "done 3 2", &list(&[6, 6, 4])));
    assert_eq!(with(2), ended(GRAMMAR, "stopped 40 2 2", &list(&[6, 6, 4])));
}

#[test]
fn t06_8_42_counts_the_earlier_replacements() {
    // 2 + 3 x fields nodes, and 2 more with each replacement.
    let with = |count: usize| {
        let tree: Vec<&[u32]> = vec![&[1]; count];
        on(FIELDS, 999, &[PREFIXING], &fields(&tree))
    };
    let prefixed = |count: usize, others: usize| {
        let mut tree: Vec<&[u32]> = vec![&[7, 1]; count];
        tree.extend(vec![&[1][..]; others]);
        fields(&tree)
    };
    // 2,047 nodes when all is done.
    assert_eq!(with(409), ended(FIELDS, "done 409 409", &prefixed(409, 0)));
    // 1,232 nodes, and 2,048 after 408 replacements.
    assert_eq!(
        with(410),
        ended(FIELDS, "stopped 42 409 408", &prefixed(408, 2))
    );
    // 1,502 nodes, and 2,048 after 273.
    assert_eq!(
        with(500),
        ended(FIELDS, "stopped 42 274 273", &prefixed(273, 227))
    );
}

/// Type 0 is a repeat 1 of rows 2, each of two repeats 3 of numbers 4.
const ROWS: &[u32] = &[5, 8, 1, 1, 1, 4, 2, 8, 1, 2, 3, 3, 4, 4, 1, 2];

/// A tree of `ROWS` with that many numbers on the left and on the right of each
/// row: 2 + 4 x rows + 2 x numbers nodes.
fn rows(lengths: &[(usize, usize)]) -> Vec<u32> {
    let side = |length| sequence_of(3, &vec![vec![4, 5]; length]);
    let row = |&(left, right): &(usize, usize)| [vec![2, 0], side(left), side(right)].concat();
    let rows: Vec<Vec<u32>> = lengths.iter().map(row).collect();
    [vec![0, 0], sequence_of(1, &rows)].concat()
}

/// Puts a copy of the left side of a row for its right one.
const LEFT_TWICE: RuleText = RuleText {
    target: 2,
    reach: 3,
    pattern: &[(2, 0), (64, 3), (64, 3)],
    replacement: &[(2, 0), (65, 0), (65, 0)],
    ..NONE
};

#[test]
fn t06_8_42_counts_what_earlier_replacements_have_taken_away() {
    let with = |lengths: &[(usize, usize)]| on(ROWS, 99, &[LEFT_TWICE], &rows(lengths));
    // 2,030 nodes, 1,030 after the first replacement, then 2,010.
    assert_eq!(
        with(&[(0, 500), (500, 10)]),
        ended(ROWS, "done 2 2", &rows(&[(0, 0), (500, 500)]))
    );
    // 2,030 nodes, and 3,010 after the first replacement.
    let grown_first = [(500, 10), (0, 500)];
    assert_eq!(
        with(&grown_first),
        ended(ROWS, "stopped 42 1 0", &rows(&grown_first))
    );
    // In the end 10 + 4 x 509 = 2,046 nodes, and 2,050 with 510.
    assert_eq!(
        with(&[(0, 100), (509, 0)]),
        ended(ROWS, "done 2 2", &rows(&[(0, 0), (509, 509)]))
    );
    assert_eq!(
        with(&[(0, 100), (510, 0)]),
        ended(ROWS, "stopped 42 2 1", &rows(&[(0, 0), (510, 0)]))
    );
    // The replacement alone has 3 + 4 x 512 = 2,051 nodes.
    assert_eq!(
        with(&[(1, 0), (512, 0), (2, 0)]),
        ended(ROWS, "stopped 42 2 1", &rows(&[(1, 1), (512, 0), (2, 0)]))
    );
}

/// Type 0 is `form 0: [0]`, `form 1: [1]` or `form 2: [0, 0]`, and type 1 is
/// `form 0: [2]` or `form 1: [1]` over names 2.
const BRANCHES: &[u32] = &[3, 8, 3, 1, 0, 1, 1, 2, 0, 0, 8, 2, 1, 2, 1, 1, 1, 1];

/// A tree of `BRANCHES` with two trees of type 1, the first below `first`
/// levels and itself with `added` more, the second likewise. Their names have
/// nesting levels + added + 4.
fn branches(first: (usize, usize), second: (usize, usize)) -> Vec<u32> {
    let branch = |(levels, added)| {
        let [levels, added] = [[0, 0].repeat(levels), [1, 1].repeat(added)];
        [levels, vec![0, 1], added, vec![1, 0, 2, 5]].concat()
    };
    [vec![0, 2], branch(first), branch(second)].concat()
}

#[test]
fn t06_8_43_in_a_later_place() {
    let with = |tree: &[u32]| {
        let deepening = RuleText {
            target: 1,
            reach: 3,
            pattern: &[(64, 1)],
            replacement: &[(1, 1), (65, 0)],
            ..NONE
        };
        on(BRANCHES, 99, &[deepening], tree)
    };
    assert_eq!(
        with(&branches((59, 0), (59, 0))),
        ended(BRANCHES, "done 2 2", &branches((59, 1), (59, 1)))
    );
    assert_eq!(
        with(&branches((0, 0), (60, 0))),
        ended(BRANCHES, "stopped 43 2 1", &branches((0, 1), (60, 0)))
    );
    assert_eq!(
        with(&branches((60, 0), (0, 0))),
        ended(BRANCHES, "stopped 43 1 0", &branches((60, 0), (0, 0)))
    );
    // The inner trees of type 1 are not tried.
    assert_eq!(
        with(&branches((10, 3), (20, 39))),
        ended(BRANCHES, "done 2 2", &branches((10, 4), (20, 40)))
    );
    assert_eq!(
        with(&branches((10, 3), (20, 40))),
        ended(BRANCHES, "stopped 43 2 1", &branches((10, 4), (20, 40)))
    );
}

#[test]
fn t06_8_live_nodes_fall_by_the_nodes_replaced() {
    let with = |lengths: &[(usize, usize)]| {
        let text = RuleText {
            parts: &[construct(3, &[(65, 0)])],
            ..LEFT_TWICE
        };
        on(ROWS, 99, &[text], &rows(lengths))
    };
    // The first row has 2 x taken nodes less after its replacement. Then the
    // scope has 10 + 2 x (500 + 282) nodes, the variables 1,001 + 565 + 1,001
    // and the replacement 2,003, in all 6,144.
    for taken in [0, 1, 100, 237] {
        assert_eq!(
            with(&[(0, taken), (500, 282)]),
            ended(ROWS, "done 2 2", &rows(&[(0, 0), (500, 500)]))
        );
    }
    // With one number more on the right, 4 more.
    for taken in [0, 1, 100, 236] {
        assert_eq!(
            with(&[(0, taken), (500, 283)]),
            ended(ROWS, "stopped 44 2 1", &rows(&[(0, 0), (500, 283)]))
        );
    }
    // Here the first row has 18 nodes more after its replacement; then the
    // scope has 10 + 2 x (18 + 500 + 273) nodes, the variables 1,001 + 547 +
    // 1,001 and the replacement 2,003, in all 6,144.
    assert_eq!(
        with(&[(9, 0), (500, 273)]),
        ended(ROWS, "done 2 2", &rows(&[(9, 9), (500, 500)]))
    );
    assert_eq!(
        with(&[(9, 0), (500, 274)]),
        ended(ROWS, "stopped 44 2 1", &rows(&[(9, 9), (500, 274)]))
    );
}

#[test]
fn t06_9_each_match_has_its_own_variables() {
    let swapping = RuleText {
        replacement: &[(2, 0), (65, 1), (65, 0)],
        ..LEFT_TWICE
    };
    assert_eq!(
        on(ROWS, 99, &[swapping], &rows(&[(1, 2), (3, 4), (5, 0)])),
        ended(ROWS, "done 3 3", &rows(&[(2, 1), (4, 3), (0, 5)]))
    );
    // Built ones too: each field gets its own name as prefix.
    let building = RuleText {
        pattern: &[(2, 0), (64, 3)],
        parts: &[construct(2, &[(2, 0), (65, 0)])],
        replacement: &[(2, 1), (65, 0), (65, 1)],
        ..PREFIXING
    };
    assert_eq!(
        on(FIELDS, 99, &[building], &fields(&[&[1], &[2], &[3]])),
        ended(FIELDS, "done 3 3", &fields(&[&[1, 1], &[2, 2], &[3, 3]]))
    );
}

#[test]
fn t06_9_a_failed_attempt_keeps_nothing() {
    // Each attempt binds a number and the rest, in all more than can be live.
    let with = |numbers: &[u32]| {
        let text = RuleText {
            target: 1,
            reach: 3,
            pattern: &[(1, 0), (64, 2), (64, 1)],
            parts: &[deconstruct(0, &[(2, 9)])],
            replacement: &[(65, 1)],
            ..NONE
        };
        on(GRAMMAR, 2_000, &[text], &list(numbers))
    };
    let mut numbers = vec![5; 1_023];
    assert_eq!(
        with(&numbers),
        ended(GRAMMAR, "done 1024 0", &list(&numbers))
    );
    numbers[1_022] = 9;
    assert_eq!(
        with(&numbers),
        ended(GRAMMAR, "done 1023 1", &list(&numbers[..1_022]))
    );
}

#[test]
fn t06_9_parameters_stay_to_the_end_of_the_pass() {
    // The name of the first field goes as prefix to all others.
    let main = RuleText {
        pattern: &[(0, 0), (1, 0), (2, 0), (64, 3), (64, 1)],
        replacement: &[vec![(0, 0)], chain(1, &[apply(1, &[0])])].concat(),
        ..NONE
    };
    let prefixing = RuleText {
        parameters: &[3],
        replacement: &[(2, 1), (65, 0), (65, 1)],
        ..PREFIXING
    };
    assert_eq!(
        on(
            FIELDS,
            99,
            &[main, prefixing],
            &fields(&[&[9], &[1], &[5, 2], &[3]])
        ),
        ended(FIELDS, "done 4 1", &fields(&[&[9, 1], &[9, 5, 2], &[9, 3]]))
    );
}

#[test]
fn t06_9_parameters_are_live_to_the_end_of_the_pass() {
    let with = |lengths: &[(usize, usize)]| {
        let main = RuleText {
            pattern: &[(0, 0), (64, 1)],
            replacement: &[vec![(0, 0)], chain(0, &[apply(1, &[0])])].concat(),
            ..NONE
        };
        let left_twice = RuleText {
            parameters: &[1],
            parts: &[construct(4, &[(4, 5)])],
            replacement: &[(2, 0), (65, 1), (65, 1)],
            ..LEFT_TWICE
        };
        on(ROWS, 99, &[main, left_twice], &rows(lengths))
    };
    // With n = taken + 300 + right numbers, the first call has a scope of
    // 10 + 2n nodes, a variable of 9 + 2n and 1 written node; the second call a
    // copy of 9 + 2n, less 2 x taken by its first replacement, and a parameter
    // of 9 + 2n. Its second match binds 601, 1 + 2 x right and 1, and writes
    // 1,203: in all 6,144.
    for (taken, right) in [(0, 190), (5, 187), (100, 130), (315, 1)] {
        assert_eq!(
            with(&[(0, taken), (300, right)]),
            ended(ROWS, "done 3 1", &rows(&[(0, 0), (300, 300)]))
        );
        let over = [(0, taken), (300, right + 1)];
        assert_eq!(with(&over), ended(ROWS, "stopped 44 3 0", &rows(&over)));
    }
}

/// The refusal of rules under the paper's grammar.
fn refusal(rules: &[u32]) -> Option<(u32, usize)> {
    let refusal = check_rules(GRAMMAR, rules).err();
    refusal.map(|refusal| (refusal.number, refusal.position))
}

#[test]
fn t06_10_reach_0_and_4_are_refused_at_the_reach_word() {
    let main = |reach| vec![1, 9, 2, reach, 1, 2, 200, 1, 2, 4200];
    // Behind the paper's rule 0 a rule 1 from word 10 on: a condition, one with
    // a parameter, a rule with a replacement, and one with a parameter.
    let rule_1 = |rule: &[u32]| [&[2], &RULES[1..], rule].concat();
    let rules_1 = |reach| {
        [
            rule_1(&[1, 2, reach, 1, 2, 5]),
            rule_1(&[3, 2, reach, 1, 2, 1, 65, 0]),
            rule_1(&[9, 2, reach, 1, 2, 5, 1, 2, 5]),
            rule_1(&[11, 2, reach, 1, 2, 1, 65, 0, 1, 65, 0]),
        ]
    };
    for reach in 1..=3 {
        assert_eq!(refusal(&main(reach)), None);
        assert_eq!(rules_1(reach).map(|rules| refusal(&rules)), [None; 4]);
    }
    for reach in [0, 4, 5, 64, u32::MAX] {
        assert_eq!(refusal(&main(reach)), Some((21, 3)));
        let refusals = rules_1(reach).map(|rules| refusal(&rules));
        assert_eq!(refusals, [Some((21, 12)); 4]);
        assert_eq!(bench(9, GRAMMAR, &main(reach), TREE), "refused 21 3");
    }
    // The rules may end with the reach, or before.
    assert_eq!(refusal(&[1, 9, 2, 3]), Some((20, 4)));
    assert_eq!(refusal(&[1, 9, 2]), Some((20, 3)));
    // Rule 0 has a wrong pair at word 5, which is typing.
    let wrong_pair = |reach| {
        [
            &[2, 9, 2, 3, 1, 99, 0, 1, 2, 5],
            &[1, 2, reach, 1, 2, 5][..],
        ]
        .concat()
    };
    assert_eq!(refusal(&wrong_pair(3)), Some((23, 5)));
    assert_eq!(refusal(&wrong_pair(4)), Some((21, 12)));
}

#[test]
fn t06_10_rule_0_with_reach_3_has_any_target() {
    let with = |target| vec![1, 9, target, 3, 1, 64, target, 1, 65, 0];
    for target in 0..=2 {
        assert_eq!(refusal(&with(target)), None);
        // Each puts the outermost node, or all numbers, in its own place.
        let ending = if target < 2 { "done 1 1" } else { "done 2 2" };
        assert_eq!(
            bench(9, GRAMMAR, &with(target), TREE),
            ended(GRAMMAR, ending, TREE)
        );
    }
    assert_eq!(refusal(&with(3)), Some((21, 2)));
    // It still has a replacement and no parameters.
    assert_eq!(refusal(&[1, 1, 2, 3, 1, 2, 5]), Some((21, 1)));
    assert_eq!(
        refusal(&[1, 11, 2, 3, 1, 2, 1, 2, 5, 1, 2, 5]),
        Some((21, 1))
    );
}

#[test]
fn t06_10_a_rule_of_reach_3_is_applied_to_any_scope() {
    // Rule 0 binds a number; its application stands at word 12. Rule 1 has
    // sequences as target.
    let with = |reach, replacement| {
        let main = RuleText {
            target: 2,
            reach: 1,
            pattern: &[(64, 2)],
            replacement: &chain(0, &[apply(1, &[])]),
            ..NONE
        };
        let rule_1 = RuleText {
            target: 1,
            reach,
            pattern: &[(64, 1)],
            replacement,
            ..NONE
        };
        rules(&[main.words(), rule_1.words()])
    };
    assert_eq!(refusal(&with(3, &[(65, 0)])), None);
    assert_eq!(refusal(&with(0, &[(65, 0)])), Some((22, 12)));
    // No sequence is in the number: no attempt, and the copy stays.
    assert_eq!(
        bench(1, GRAMMAR, &with(3, &[(65, 0)]), TREE),
        ended(GRAMMAR, "done 1 1", TREE)
    );
    // A condition is not applied by a replacement, but by a test.
    assert_eq!(refusal(&with(3, &[])), Some((22, 12)));
    let tested = RuleText {
        target: 1,
        reach: 3,
        pattern: &[(1, 0), (64, 2), (1, 1)],
        ..NONE
    };
    assert_eq!(
        emptying_if(condition(&chain(0, &[apply(1, &[])])), tested, &[4, 5]),
        ended(GRAMMAR, "done 3 1", &list(&[]))
    );
}

/// Rule 0 for the whole tree, which puts what these applications make of a copy
/// of its sequence (variable 0) in its place.
fn on_copy(
    grammar: &[u32],
    budget: u32,
    applied: &[u32],
    rule_1: RuleText,
    tree: &[u32],
) -> String {
    let applications: Vec<_> = applied.iter().map(|&rule| apply(rule, &[])).collect();
    let main = RuleText {
        pattern: &[(0, 0), (64, 1)],
        replacement: &[vec![(0, 0)], chain(0, &applications)].concat(),
        ..NONE
    };
    on(grammar, budget, &[main, rule_1], tree)
}

#[test]
fn t06_11_in_a_group_it_is_one_pass_over_the_copy() {
    let with = |budget, applied: &[u32]| {
        on_copy(
            FIELDS,
            budget,
            applied,
            PREFIXING,
            &fields(&[&[1], &[5, 2]]),
        )
    };
    assert_eq!(
        with(9, &[1]),
        ended(FIELDS, "done 3 1", &fields(&[&[7, 1], &[7, 5, 2]]))
    );
    // Each application is a pass of its own.
    let twice = fields(&[&[7, 7, 1], &[7, 7, 5, 2]]);
    assert_eq!(with(5, &[1, 1]), ended(FIELDS, "done 5 1", &twice));
    // A stop in a copy leaves nothing of it.
    let unchanged = fields(&[&[1], &[5, 2]]);
    assert_eq!(
        with(4, &[1, 1]),
        ended(FIELDS, "stopped 40 4 0", &unchanged)
    );
    assert_eq!(with(2, &[1]), ended(FIELDS, "stopped 40 2 0", &unchanged));
    assert_eq!(
        on_copy(GRAMMAR, 9, &[1], DIVIDING, &list(&[8, 0, 9])),
        ended(GRAMMAR, "stopped 45 3 0", &list(&[8, 0, 9]))
    );
}

#[test]
fn t06_11_a_match_at_the_root_of_the_copy_ends_the_pass() {
    // The copy is a sequence, and so are all its rests.
    let doubling = RuleText {
        target: 1,
        reach: 3,
        pattern: &[(1, 0), (64, 2), (64, 1)],
        replacement: &[(1, 0), (65, 0), (1, 0), (65, 0), (65, 1)],
        ..NONE
    };
    assert_eq!(
        on_copy(GRAMMAR, 9, &[1], doubling, &list(&[4, 5])),
        ended(GRAMMAR, "done 2 1", &list(&[4, 4, 5]))
    );
}

#[test]
fn t06_11_the_variable_is_not_changed_by_a_pass_over_its_copy() {
    let main = RuleText {
        pattern: &[(0, 0), (1, 0), (64, 2), (64, 1)],
        replacement: &[
            vec![(0, 0), (1, 0)],
            chain(0, &[apply(1, &[])]),
            vec![(1, 0), (65, 0), (65, 1)],
        ]
        .concat(),
        ..NONE
    };
    assert_eq!(
        on(FIELDS, 9, &[main, PREFIXING], &fields(&[&[1, 2], &[3]])),
        ended(FIELDS, "done 2 1", &fields(&[&[7, 1, 2], &[1, 2], &[3]]))
    );
}

#[test]
fn t06_11_only_the_replacements_of_the_first_call_count() {
    // One pass over fields applies another one over the names of each.
    let with = |budget| {
        let main = RuleText {
            replacement: &[(66, 0), (1, 0), (1, 0)],
            ..PREFIXING
        };
        let renaming = RuleText {
            target: 3,
            reach: 3,
            pattern: &[(64, 3)],
            replacement: &[(3, 9)],
            ..NONE
        };
        let tree = fields(&[&[1, 2], &[3], &[4, 5, 6]]);
        on(FIELDS, budget, &[main, renaming], &tree)
    };
    assert_eq!(
        with(9),
        ended(FIELDS, "done 9 3", &fields(&[&[9, 9], &[9], &[9, 9, 9]]))
    );
    // The last field has its own attempt and two of its three names.
    let two = fields(&[&[9, 9], &[9], &[4, 5, 6]]);
    assert_eq!(with(8), ended(FIELDS, "stopped 40 8 2", &two));
    assert_eq!(with(5), ended(FIELDS, "stopped 40 5 2", &two));
    let one = fields(&[&[9, 9], &[3], &[4, 5, 6]]);
    assert_eq!(with(4), ended(FIELDS, "stopped 40 4 1", &one));
    // Rule 0 puts 7 for the head of a sequence and calls itself on the rest.
    let recursive = RuleText {
        target: 1,
        reach: 3,
        pattern: &[(1, 0), (64, 2), (64, 1)],
        replacement: &[(1, 0), (2, 7), (66, 1), (1, 0), (0, 0)],
        ..NONE
    };
    assert_eq!(
        on(GRAMMAR, 9, &[recursive], TREE),
        ended(GRAMMAR, "done 3 1", &list(&[7, 7]))
    );
}

/// Type 0 is `form 0: []`, `form 1: [0]` or `form 2: [1]`, and type 1 a
/// sequence of type 0.
fn shapes(map: u32) -> Vec<u32> {
    vec![2, 8, 3, 0, 1, 0, 1, 1, map, 0]
}

/// The types of the children of a node of `shapes`.
fn child_types(ty: u32, value: u32) -> &'static [u32] {
    match (ty, value) {
        (0, 1) => &[0],
        (0, 2) => &[1],
        (1, 0) => &[0, 1],
        _ => &[],
    }
}

/// The words of all trees of `shapes` with that many nodes; where several types
/// are due, of all rows of such trees.
fn all_trees(due: &[u32], nodes: usize) -> Vec<Vec<u32>> {
    let Some((&ty, later)) = due.split_first() else {
        return vec![vec![]; usize::from(nodes == 0)];
    };
    let values = if ty == 0 { 0..3 } else { 0..2 };
    let with_value = |value| {
        let due = [child_types(ty, value), later].concat();
        let others = all_trees(&due, nodes - 1).into_iter();
        others.map(move |other| [vec![ty, value], other].concat())
    };
    match nodes {
        0 => vec![],
        _ => values.flat_map(with_value).collect(),
    }
}

/// The trees below the root of a tree of `shapes`.
fn children(tree: &[u32]) -> Vec<&[u32]> {
    let mut children = Vec::new();
    let mut later = &tree[2..];
    while !later.is_empty() {
        let (mut owed, mut end) = (1, 0);
        while owed > 0 {
            owed = owed - 1 + child_types(later[end], later[end + 1]).len();
            end += 2;
        }
        children.push(&later[..end]);
        later = &later[end..];
    }
    children
}

/// A rule of `shapes`, as pairs and as what it makes of the words of a match.
struct Rewriting {
    text: RuleText<'static>,
    rewritten: fn(&[u32]) -> Option<Vec<u32>>,
}

/// One pass over the words of a tree: "nodes of the scope are tried parent
/// first; a matched tree is replaced and not entered; an unmatched node's
/// children are tried, left to right".
struct Pass<'a> {
    rule: &'a Rewriting,
    budget: u32,
    trials: u32,
    replacements: u32,
    stopped: bool,
}

impl Pass<'_> {
    /// What is printed for the pass.
    fn printed(rule: &Rewriting, budget: u32, tree: &[u32]) -> String {
        let mut pass = Pass {
            rule,
            budget,
            trials: 0,
            replacements: 0,
            stopped: false,
        };
        let words = pass.over(tree);
        let ending = if pass.stopped { "stopped 40" } else { "done" };
        ended(
            &shapes(4),
            &format!("{ending} {} {}", pass.trials, pass.replacements),
            &words,
        )
    }

    /// The words of a tree after the pass.
    fn over(&mut self, tree: &[u32]) -> Vec<u32> {
        let due = tree[0] == self.rule.text.target;
        self.stopped |= due && self.trials == self.budget;
        if due && !self.stopped {
            self.trials += 1;
            if let Some(new) = (self.rule.rewritten)(tree) {
                self.replacements += 1;
                return new;
            }
        }
        let children = children(tree)
            .into_iter()
            .flat_map(|child| self.over(child));
        tree[..2].iter().copied().chain(children).collect()
    }
}

/// Rules of `shapes` without parts, which apply no rules.
fn rewritings() -> Vec<Rewriting> {
    fn rewriting(
        target: u32,
        pattern: &'static [(u32, u32)],
        replacement: &'static [(u32, u32)],
        rewritten: fn(&[u32]) -> Option<Vec<u32>>,
    ) -> Rewriting {
        let text = RuleText {
            target,
            reach: 3,
            pattern,
            replacement,
            ..NONE
        };
        Rewriting { text, rewritten }
    }
    vec![
        // Any tree goes one level down.
        rewriting(0, &[(64, 0)], &[(0, 1), (65, 0)], |tree| {
            Some([&[0, 1], tree].concat())
        }),
        // A leaf goes one level down.
        rewriting(0, &[(0, 0)], &[(0, 1), (0, 0)], |tree| {
            (tree == [0, 0]).then(|| vec![0, 1, 0, 0])
        }),
        // One level is taken away.
        rewriting(0, &[(0, 1), (64, 0)], &[(65, 0)], |tree| {
            (tree[1] == 1).then(|| tree[2..].to_vec())
        }),
        // One of two levels is taken away.
        rewriting(0, &[(0, 1), (0, 1), (64, 0)], &[(0, 1), (65, 0)], |tree| {
            tree.starts_with(&[0, 1, 0, 1]).then(|| tree[2..].to_vec())
        }),
        // A sequence is taken away, or doubled as the element of another.
        rewriting(0, &[(0, 2), (64, 1)], &[(0, 0)], |tree| {
            (tree[1] == 2).then(|| vec![0, 0])
        }),
        rewriting(
            0,
            &[(0, 2), (64, 1)],
            &[(0, 2), (1, 0), (0, 2), (65, 0), (65, 0)],
            |tree| (tree[1] == 2).then(|| [&[0, 2, 1, 0], tree, &tree[2..]].concat()),
        ),
        // An element is added at the end.
        rewriting(1, &[(1, 1)], &[(1, 0), (0, 0), (1, 1)], |tree| {
            (tree[1] == 1).then(|| vec![1, 0, 0, 0, 1, 1])
        }),
        // An element is added in front of any sequence.
        rewriting(1, &[(64, 1)], &[(1, 0), (0, 0), (65, 0)], |tree| {
            Some([&[1, 0, 0, 0], tree].concat())
        }),
        // The first element is taken away, any or a leaf.
        rewriting(1, &[(1, 0), (64, 0), (64, 1)], &[(65, 1)], |tree| {
            (tree[1] == 0).then(|| children(tree)[1].to_vec())
        }),
        rewriting(1, &[(1, 0), (0, 0), (64, 1)], &[(65, 0)], |tree| {
            tree.starts_with(&[1, 0, 0, 0]).then(|| tree[4..].to_vec())
        }),
        // The second of two equal elements is taken away.
        rewriting(
            1,
            &[(1, 0), (64, 0), (1, 0), (65, 0), (64, 1)],
            &[(1, 0), (65, 0), (65, 1)],
            |tree| {
                let [first, rest] = children(tree)[..] else {
                    return None;
                };
                let [second, last] = children(rest)[..] else {
                    return None;
                };
                (first == second).then(|| [&[1, 0], first, last].concat())
            },
        ),
    ]
}

/// All trees of `shapes` with at most 11 nodes.
fn small_trees() -> Vec<Vec<u32>> {
    let trees: Vec<Vec<u32>> = (1..=11).flat_map(|nodes| all_trees(&[0], nodes)).collect();
    // 1, 2, 2, 3, 5, 8, 15, 29, 57, 117 and 243 of 1 to 11 nodes.
    assert_eq!(trees.len(), 482);
    trees
}

/// The nodes of a type in the words of a tree.
fn nodes_of_type(ty: u32, tree: &[u32]) -> u32 {
    tree.chunks(2).filter(|node| node[0] == ty).count() as u32
}

#[test]
fn t06_one_pass_over_all_small_trees() {
    for map in REPEAT_AND_LIST {
        for rule in rewritings() {
            let rules = rules(&[rule.text.words()]);
            for tree in small_trees() {
                let nodes = nodes_of_type(rule.text.target, &tree);
                for budget in 1..=nodes + 1 {
                    assert_eq!(
                        bench(budget, &shapes(map), &rules, &tree),
                        Pass::printed(&rule, budget, &tree),
                        "{rules:?} on {tree:?}"
                    );
                }
            }
        }
    }
}

#[test]
fn t06_a_budget_of_the_nodes_of_the_target_type_never_leads_to_40() {
    for rule in rewritings() {
        let rules = rules(&[rule.text.words()]);
        for tree in small_trees() {
            let nodes = nodes_of_type(rule.text.target, &tree);
            let with = |budget| bench(budget, &shapes(4), &rules, &tree);
            let enough = with(nodes.max(1));
            let trials: u32 = enough.split(' ').nth(1).unwrap().parse().unwrap();
            assert!(enough.starts_with("done ") && trials <= nodes, "{tree:?}");
            // More is not used.
            assert_eq!(with(nodes + 1), enough);
            // One less is enough just where one node or more lies in a match.
            if nodes > 1 {
                let stopped = with(nodes - 1).starts_with("stopped 40 ");
                assert_eq!(stopped, trials == nodes, "{rules:?} on {tree:?}");
            }
        }
    }
}

#[test]
fn t06_the_bound_on_the_attempts_of_great_trees() {
    // 1,023 numbers in a tree of 2,048 nodes; each is a match, or none is.
    let numbers = list(&[5; 1_023]);
    let with = |from, to, budget| {
        let rules = [1, 9, 2, 3, 1, 2, from, 1, 2, to];
        bench(budget, GRAMMAR, &rules, &numbers)
    };
    let six = list(&[6; 1_023]);
    for budget in [1_023, 1_024] {
        assert_eq!(with(5, 6, budget), ended(GRAMMAR, "done 1023 1023", &six));
        assert_eq!(with(6, 5, budget), ended(GRAMMAR, "done 1023 0", &numbers));
    }
    let last_is_5 = [vec![6; 1_022], vec![5]].concat();
    assert_eq!(
        with(5, 6, 1_022),
        ended(GRAMMAR, "stopped 40 1022 1022", &list(&last_is_5))
    );
    assert_eq!(
        with(6, 5, 1_022),
        ended(GRAMMAR, "stopped 40 1022 0", &numbers)
    );
    // A field below 60 prefixes, the deepest there is; all 61 are tried.
    let names = [5; 61];
    let with = |pattern, replacement, budget| {
        let text = RuleText {
            pattern,
            replacement,
            ..PREFIXING
        };
        on(FIELDS, budget, &[text], &fields(&[&names]))
    };
    let renaming = |budget| with(&[(2, 0), (64, 3)], &[(2, 0), (3, 2)], budget);
    let mut renamed = names;
    renamed[60] = 2;
    assert_eq!(
        renaming(60),
        ended(FIELDS, "stopped 40 60 0", &fields(&[&names]))
    );
    assert_eq!(
        renaming(61),
        ended(FIELDS, "done 61 1", &fields(&[&renamed]))
    );
    assert_eq!(
        renaming(62),
        ended(FIELDS, "done 61 1", &fields(&[&renamed]))
    );
    // Too deep by one, but not 40.
    let doubling = |budget| with(DOUBLING.pattern, DOUBLING.replacement, budget);
    assert_eq!(
        doubling(61),
        ended(FIELDS, "stopped 43 61 0", &fields(&[&names]))
    );
}

#[test]
fn t06_the_bound_with_operations() {
    // Operations are no attempts, though they may stop.
    let with = |budget, numbers: &[u32]| on(GRAMMAR, budget, &[DIVIDING], &list(numbers));
    let done = list(&[100, 100, 100]);
    assert_eq!(with(4, &[3, 4, 5]), ended(GRAMMAR, "done 3 3", &done));
    assert_eq!(with(3, &[3, 4, 5]), ended(GRAMMAR, "done 3 3", &done));
    assert_eq!(
        with(2, &[3, 4, 5]),
        ended(GRAMMAR, "stopped 40 2 2", &list(&[100, 100, 5]))
    );
    assert_eq!(
        with(3, &[3, 4, 0]),
        ended(GRAMMAR, "stopped 45 3 2", &list(&[100, 100, 0]))
    );
    assert_eq!(with(1, &[]), ended(GRAMMAR, "done 0 0", &list(&[])));
}
