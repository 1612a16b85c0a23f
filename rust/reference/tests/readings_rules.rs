//! The readings L (layout of the rules) and T (typing) with T02-1 (larger
//! amounts), one test each. Positions are counted by hand.

mod common;

use common::*;
use reference::check_rules;

/// The refusal of rules under the paper's grammar.
fn refusal(rules: &[u32]) -> Option<(u32, usize)> {
    refusal_under(GRAMMAR, rules)
}

fn refusal_under(grammar: &[u32], rules: &[u32]) -> Option<(u32, usize)> {
    let refusal = check_rules(grammar, rules).err();
    refusal.map(|refusal| (refusal.number, refusal.position))
}

/// The paper's rule 0 (words 1 to 9), and a rule 1 from word 10 on.
fn with_rule_1(rule_1: &[u32]) -> Vec<u32> {
    [&[2], &RULES[1..], rule_1].concat()
}

/// A rule 0 that binds its root (variable 0, type 0), has one part from word 7
/// on, and is replaced by its root.
fn with_part(part: &[u32]) -> Vec<u32> {
    [&[1, 12, 0, 1, 64, 0, 1], part, &[1, 65, 0]].concat()
}

/// A rule 0 that binds a number (variable 0, type 2), with a replacement of
/// these pairs; the first stands at word 8.
fn with_replacement(replacement: &[(u32, u32)]) -> Vec<u32> {
    [vec![1, 9, 2, 1, 1, 64, 2], pairs(replacement)].concat()
}

#[test]
fn l1_maps_of_rules_are_0_to_15() {
    assert_eq!(refusal(&[1, 25, 2]), Some((21, 1)));
    assert_eq!(refusal(&with_rule_1(&[16, 2, 1, 2, 5])), Some((21, 10)));
    assert_eq!(refusal(&with_rule_1(&[0, 2, 1, 2, 5])), None);
}

#[test]
fn l2_the_bits_of_rule_0_are_refused_at_its_map() {
    for map in 0..16 {
        let refused = refusal(&[1, map]) == Some((21, 1));
        let allowed = map & 8 != 0 && map & 2 == 0;
        assert_eq!(refused, !allowed, "{map}");
        if allowed {
            assert_eq!(refusal(&[1, map]), Some((20, 2)));
        }
    }
}

#[test]
fn l3_maps_of_parts() {
    for map in (0..=64).chain([u32::MAX]) {
        let refused = refusal(&[1, 12, 0, 1, 64, 0, 1, map]);
        let expected = match map {
            1 | 3 | 4 | 8 | 24 => (20, 8),
            _ => (21, 7),
        };
        assert_eq!(refused, Some(expected), "{map}");
    }
}

#[test]
fn l4_types_outside_pairs() {
    assert_eq!(refusal(&[1, 8, 3]), Some((21, 2)));
    assert_eq!(refusal(&with_rule_1(&[2, 0, 1, 3])), Some((21, 13)));
    assert_eq!(refusal(&with_part(&[3, 3])), Some((21, 8)));
    assert_eq!(refusal(&with_part(&[4, 3])), Some((21, 8)));
}

#[test]
fn l5_the_variable_taken_apart_is_typing() {
    assert_eq!(refusal(&with_part(&[1, 0, 1, 65, 0])), None);
    assert_eq!(refusal(&with_part(&[1, 1, 1, 65, 0])), Some((22, 8)));
    assert_eq!(refusal(&with_part(&[1, u32::MAX, 1, 65, 0])), Some((22, 8)));
    assert_eq!(refusal(&with_part(&[3, 2, 1, 1, 64, 2])), Some((22, 9)));
}

#[test]
fn l6_counts() {
    assert_eq!(refusal(&[0]), Some((21, 0)));
    assert_eq!(refusal(&[65]), Some((21, 0)));
    assert_eq!(refusal(&with_rule_1(&[2, 0, 0])), Some((21, 12)));
    assert_eq!(refusal(&with_rule_1(&[2, 0, 5])), Some((21, 12)));
    assert_eq!(refusal(&[1, 12, 0, 1, 64, 0, 0]), Some((21, 6)));
    assert_eq!(refusal(&[1, 12, 0, 1, 64, 0, 9]), Some((21, 6)));
    assert_eq!(refusal(&[1, 9, 2, 2, 0]), Some((21, 4)));
    assert_eq!(refusal(&[1, 9, 2, 2, 129]), Some((21, 4)));
    assert_eq!(refusal(&[1, 9, 2, 2, 128]), Some((20, 5)));
    assert_eq!(refusal(&[1, 9, 2, 2, 1, 2, 200, 0]), Some((21, 7)));
    assert_eq!(refusal(&with_part(&[8, 0])), Some((21, 8)));
    // 64 rules, 4 parameters and 8 parts are allowed.
    let main = RuleText {
        pattern: &[(64, 0)],
        parts: &vec![deconstruct(0, &[(65, 0)]); 8],
        replacement: &[(65, 0)],
        ..NONE
    };
    let other = RuleText {
        parameters: &[0, 1, 2, 2],
        pattern: &[(65, 0)],
        ..NONE
    };
    let mut all = vec![main.words()];
    all.extend(vec![other.words(); 63]);
    assert_eq!(refusal(&rules(&all)), None);
}

#[test]
fn l7_layout_is_read_whole_before_typing() {
    // The pattern's pair is wrong at word 5; the layout is wrong at word 10.
    assert_eq!(
        refusal(&[1, 9, 2, 2, 1, 99, 200, 1, 2, 4200]),
        Some((23, 5))
    );
    assert_eq!(
        refusal(&[1, 9, 2, 2, 1, 99, 200, 1, 2, 4200, 7]),
        Some((20, 10))
    );
    // Pairs that run out end early, whatever their words are.
    assert_eq!(refusal(&[1, 9, 2, 2, 1, 99]), Some((20, 6)));
    assert_eq!(refusal(&[1, 9, 2, 2, 2, 2, 200, 1]), Some((20, 8)));
}

#[test]
fn l8_reach_is_1_to_3() {
    assert_eq!(refusal(&[1, 9, 2, 0]), Some((21, 3)));
    // Reach 3 is allowed with T-06; here the rules end behind it.
    for reach in 1..=3 {
        assert_eq!(refusal(&[1, 9, 2, reach]), Some((20, 4)));
    }
    assert_eq!(refusal(&[1, 9, 2, 4]), Some((21, 3)));
}

#[test]
fn t1_a_root_only_rule_0_has_type_0() {
    assert_eq!(refusal(&[1, 8, 2, 1, 99, 200, 1, 2, 4200]), Some((23, 2)));
    // Other rules may have any target.
    assert_eq!(refusal(&with_rule_1(&[8, 2, 1, 2, 1, 1, 2, 2])), None);
}

#[test]
fn t2_rules_are_typed_though_nothing_applies_them() {
    let wrong = [8, 2, 1, 1, 1, 1, 2, 2];
    assert_eq!(refusal(&with_rule_1(&wrong)), Some((23, 13)));
}

#[test]
fn t3_first_words_that_cannot_stand_there() {
    for first in [0, 1, 3, 63, 66, 67, 70_000, u32::MAX] {
        let rules = [1, 9, 2, 2, 1, first, 0, 1, 2, 4200];
        assert_eq!(refusal(&rules), Some((23, 5)), "{first}");
    }
    for first in [0, 1, 3, 63, 64, 67, 70_000, u32::MAX] {
        let rules = with_replacement(&[(first, 0)]);
        assert_eq!(refusal(&rules), Some((23, 8)), "{first}");
    }
    for first in [0, 64, 65, 67] {
        let rules = with_part(&[8, 1, first, 0]);
        assert_eq!(refusal(&rules), Some((23, 9)), "{first}");
    }
}

#[test]
fn t4_the_type_of_a_new_variable() {
    let with = |ty| refusal(&[1, 9, 2, 2, 1, 64, ty, 1, 2, 4200]);
    assert_eq!(with(1), Some((23, 6)));
    assert_eq!(with(99), Some((23, 6)));
    assert_eq!(with(2), None);
}

/// A rule 0 with target 1 whose pattern binds 16 numbers and then has one
/// last pair, at words 69 and 70.
fn with_16_variables_and(first: u32, second: u32) -> Vec<u32> {
    let mut pattern = [(1, 0), (64, 2)].repeat(16);
    pattern.push((first, second));
    rules(&[RuleText {
        target: 1,
        reach: 1,
        pattern: &pattern,
        replacement: &[(1, 1)],
        ..NONE
    }
    .words()])
}

#[test]
fn t5_wrong_type_against_17th_variable_and_variable_not_there() {
    assert_eq!(refusal(&with_16_variables_and(1, 1)), None);
    assert_eq!(refusal(&with_16_variables_and(64, 1)), Some((24, 70)));
    assert_eq!(refusal(&with_16_variables_and(64, 2)), Some((23, 70)));
    assert_eq!(refusal(&with_16_variables_and(65, 16)), Some((22, 70)));
    assert_eq!(refusal(&with_16_variables_and(65, 15)), Some((23, 70)));
}

#[test]
fn t6_a_17th_built_variable_is_told_at_its_part() {
    // 15 numbers and the rest are 16 variables; the parts start at word 68.
    let mut pattern = [(1, 0), (64, 2)].repeat(15);
    pattern.push((64, 1));
    let with = |parts: &[Vec<u32>]| {
        refusal(&rules(&[RuleText {
            target: 1,
            reach: 1,
            pattern: &pattern,
            parts,
            replacement: &[(1, 1)],
            ..NONE
        }
        .words()]))
    };
    let wrong = construct(2, &[(99, 99)]);
    assert_eq!(with(std::slice::from_ref(&wrong)), Some((24, 68)));
    let good = deconstruct(15, &[(65, 15)]);
    assert_eq!(with(&[good, wrong.clone()]), Some((24, 73)));
    let short = deconstruct(15, &[(1, 0)]);
    assert_eq!(with(&[short, wrong]), Some((23, 73)));
}

#[test]
fn t7_nesting_65_of_any_pair() {
    // Optional of itself: pair number n (from 1) has nesting n.
    let grammar = [1, 2, 0];
    let pattern = |levels: usize, last: &[(u32, u32)]| {
        let pattern = [&[(0, 0)].repeat(levels), last].concat();
        let rule = RuleText {
            pattern: &pattern,
            replacement: &[(0, 1)],
            ..NONE
        };
        refusal_under(&grammar, &rules(&[rule.words()]))
    };
    // The 65th pair of the pattern stands at word 4 + 128.
    assert_eq!(pattern(63, &[(64, 0)]), None);
    assert_eq!(pattern(64, &[(64, 0)]), Some((24, 132)));
    assert_eq!(pattern(64, &[(0, 1)]), Some((24, 132)));
    assert_eq!(pattern(64, &[(0, 7)]), Some((24, 132)));
    assert_eq!(pattern(64, &[(65, 7)]), Some((24, 132)));
    assert_eq!(pattern(64, &[(67, 0)]), Some((23, 132)));
    assert_eq!(pattern(64, &[]), Some((23, 132)));
    let replacement = |levels: usize, last: &[(u32, u32)]| {
        let replacement = [&[(0, 0)].repeat(levels), last].concat();
        let rule = RuleText {
            pattern: &[(64, 0)],
            replacement: &replacement,
            ..NONE
        };
        refusal_under(&grammar, &rules(&[rule.words()]))
    };
    // The 65th pair of the replacement stands at word 7 + 128.
    let chain = [(66, 0), (1, 0), (0, 0)];
    assert_eq!(replacement(63, &[(65, 0)]), None);
    assert_eq!(replacement(63, &chain), None);
    assert_eq!(replacement(64, &[(65, 0)]), Some((24, 135)));
    assert_eq!(replacement(64, &chain), Some((24, 135)));
    // The root of a part has nesting 1.
    let deepest = [vec![(0, 0); 63], vec![(0, 1)]].concat();
    let rule = RuleText {
        pattern: &[(64, 0)],
        parts: &[
            deconstruct(0, &deepest),
            search(0, 0, &deepest),
            construct(0, &deepest),
        ],
        replacement: &deepest,
        ..NONE
    };
    assert_eq!(refusal_under(&grammar, &rules(&[rule.words()])), None);
}

#[test]
fn t8_the_length_of_a_chain() {
    let with = |k, zero| refusal(&with_replacement(&[(66, 0), (k, zero), (1_004, 0)]));
    assert_eq!(with(1, 0), None);
    assert_eq!(with(0, 0), Some((23, 10)));
    assert_eq!(with(5, 0), Some((23, 10)));
    assert_eq!(with(1, 1), Some((23, 11)));
    assert_eq!(with(5, 1), Some((23, 10)));
    let four = [
        (66, 0),
        (4, 0),
        (1_004, 0),
        (1_005, 0),
        (1_004, 0),
        (1_005, 0),
    ];
    assert_eq!(refusal(&with_replacement(&four)), None);
}

#[test]
fn t9_rules_and_operations_not_there_or_not_usable() {
    let applied = |number| refusal(&with_replacement(&[(66, 0), (1, 0), (number, 0)]));
    assert_eq!(applied(0), None);
    assert_eq!(applied(1_004), None);
    for number in [1, 64, 999, 1_006, 1_007, 1_008, 1_009, 1_016, u32::MAX] {
        assert_eq!(applied(number), Some((22, 12)), "{number}");
    }
    // T-04's operations on sequences are there, but not on a number.
    for number in [1_010, 1_011, 1_012, 1_013, 1_015] {
        assert_eq!(applied(number), Some((22, 12)), "{number}");
    }
    // A rule 1 on a number: the replacement of rule 0 stands at word 8.
    let rule_1_applied = |rule_1: &RuleText| {
        let rule_0 = RuleText {
            target: 2,
            reach: 1,
            pattern: &[(64, 2)],
            replacement: &[(66, 0), (1, 0), (1, 0)],
            ..NONE
        };
        refusal(&rules(&[rule_0.words(), rule_1.words()]))
    };
    let on_numbers = RuleText {
        target: 2,
        pattern: &[(64, 2)],
        replacement: &[(65, 0)],
        ..NONE
    };
    assert_eq!(rule_1_applied(&on_numbers), None);
    let condition_on_numbers = RuleText {
        replacement: &[],
        ..on_numbers
    };
    assert_eq!(rule_1_applied(&condition_on_numbers), Some((22, 12)));
    let on_sequences = RuleText {
        target: 1,
        pattern: &[(64, 1)],
        replacement: &[(65, 0)],
        ..NONE
    };
    assert_eq!(rule_1_applied(&on_sequences), Some((22, 12)));
    // An operation on a sequence; its number stands at word 16.
    let on_sequence = rules(&[RuleText {
        target: 1,
        reach: 1,
        pattern: &[(1, 0), (64, 2), (64, 1)],
        replacement: &[(66, 1), (1, 0), (1_004, 0)],
        ..NONE
    }
    .words()]);
    assert_eq!(refusal(&on_sequence), Some((22, 16)));
    // Tests: operations that change numbers are not usable, conditions are.
    // The number stands at word 14, the scope is variable 0, a number.
    let test = |number, arguments: &[(u32, u32)]| {
        let mut chain = vec![(66, 0), (1, 0), (number, arguments.len() as u32)];
        chain.extend(arguments);
        let rule_0 = RuleText {
            target: 2,
            reach: 1,
            pattern: &[(64, 2)],
            parts: &[condition(&chain)],
            replacement: &[(65, 0)],
            ..NONE
        };
        let rule_1 = RuleText {
            target: 2,
            pattern: &[(2, 5)],
            ..NONE
        };
        refusal(&rules(&[rule_0.words(), rule_1.words()]))
    };
    assert_eq!(test(1, &[]), None);
    assert_eq!(test(1_008, &[(65, 0)]), None);
    assert_eq!(test(1_009, &[(65, 0)]), None);
    for number in (1_000..=1_007).chain(1_010..=1_016) {
        assert_eq!(test(number, &[(65, 0)]), Some((22, 14)), "{number}");
    }
}

#[test]
fn t10_argument_counts() {
    let with = |number, count, arguments: &[(u32, u32)]| {
        let chain = [&[(66, 0), (1, 0), (number, count)], arguments].concat();
        refusal(&with_replacement(&chain))
    };
    for number in [1_000, 1_001, 1_002, 1_003] {
        assert_eq!(with(number, 1, &[(65, 0)]), None);
        assert_eq!(with(number, 0, &[]), Some((22, 13)));
        assert_eq!(with(number, 2, &[(99, 0), (99, 0)]), Some((22, 13)));
    }
    for number in [1_004, 1_005] {
        assert_eq!(with(number, 0, &[]), None);
        assert_eq!(with(number, 1, &[(65, 0)]), Some((22, 13)));
    }
    assert_eq!(with(0, 1, &[(65, 0)]), Some((22, 13)));
}

#[test]
fn t11_arguments() {
    let with = |argument| {
        let chain = [(66, 0), (1, 0), (1_000, 1), argument];
        refusal(&with_replacement(&chain))
    };
    assert_eq!(with((65, 0)), None);
    assert_eq!(with((64, 0)), Some((23, 14)));
    assert_eq!(with((2, 5)), Some((23, 14)));
    assert_eq!(with((65, 1)), Some((22, 15)));
    // An operation's argument that is a sequence; it stands at words 20, 21.
    let sequence = rules(&[RuleText {
        target: 1,
        reach: 1,
        pattern: &[(1, 0), (64, 2), (64, 1)],
        replacement: &[(1, 0), (66, 0), (1, 0), (1_000, 1), (65, 1), (65, 1)],
        ..NONE
    }
    .words()]);
    assert_eq!(refusal(&sequence), Some((23, 21)));
    // Two types of numbers: operations mix them, parameters do not.
    let grammar = [3, 8, 1, 2, 1, 2, 1, 2, 1, 2];
    let mixed = |applied, parameter| {
        let rule_0 = RuleText {
            pattern: &[(0, 0), (64, 1), (64, 2)],
            replacement: &[(0, 0), (66, 0), (1, 0), (applied, 1), (65, 1), (65, 1)],
            ..NONE
        };
        let rule_1 = RuleText {
            target: 1,
            parameters: &[parameter],
            pattern: &[(64, 1)],
            replacement: &[(65, 1)],
            ..NONE
        };
        refusal_under(&grammar, &rules(&[rule_0.words(), rule_1.words()]))
    };
    assert_eq!(mixed(1_000, 1), None);
    assert_eq!(mixed(1, 2), None);
    // Map, target, count and three pairs: 10 words; then count, four pairs and
    // the argument's second word at 11 + 8 + 1.
    assert_eq!(mixed(1, 1), Some((23, 20)));
}

#[test]
fn t12_when_a_variable_is_there() {
    let pattern = |pattern: &[(u32, u32)]| {
        refusal(&rules(&[RuleText {
            target: 1,
            reach: 1,
            pattern,
            replacement: &[(1, 1)],
            ..NONE
        }
        .words()]))
    };
    assert_eq!(
        pattern(&[(1, 0), (64, 2), (1, 0), (65, 0), (64, 1)]),
        None,
        "in the same pattern"
    );
    assert_eq!(
        pattern(&[(1, 0), (65, 0), (1, 0), (64, 2), (64, 1)]),
        Some((22, 8)),
        "before it"
    );
    // A built variable is there after its part only.
    assert_eq!(refusal(&with_part(&[4, 0, 1, 65, 1])), Some((22, 11)));
    let after = rules(&[RuleText {
        pattern: &[(64, 0)],
        parts: &[construct(0, &[(65, 0)]), deconstruct(1, &[(65, 1)])],
        replacement: &[(65, 1)],
        ..NONE
    }
    .words()]);
    assert_eq!(refusal(&after), None);
}

#[test]
fn t13_pairs_short() {
    assert_eq!(refusal(&[1, 9, 1, 1, 1, 1, 0, 1, 1, 1]), Some((23, 7)));
    // At the end of the rules.
    assert_eq!(refusal(&[1, 9, 1, 1, 1, 1, 1, 1, 1, 0]), Some((23, 10)));
    // Inside a chain: no length, no application, no argument.
    assert_eq!(refusal(&with_replacement(&[(66, 0)])), Some((23, 10)));
    assert_eq!(
        refusal(&with_replacement(&[(66, 0), (1, 0)])),
        Some((23, 12))
    );
    assert_eq!(
        refusal(&with_replacement(&[(66, 0), (1, 0), (1_000, 1)])),
        Some((23, 14))
    );
    // The argument count is told first.
    assert_eq!(
        refusal(&with_replacement(&[(66, 0), (1, 0), (1_000, 4)])),
        Some((22, 13))
    );
}

#[test]
fn t14_pairs_over() {
    assert_eq!(
        refusal(&[1, 9, 2, 2, 2, 2, 200, 99, 99, 1, 2, 4200]),
        Some((23, 7))
    );
    assert_eq!(
        refusal(&with_replacement(&[(65, 0), (65, 0)])),
        Some((23, 10))
    );
}

#[test]
fn t15_a_test_is_one_chain() {
    let with = |chain: &[(u32, u32)]| {
        let rule_0 = RuleText {
            pattern: &[(64, 0)],
            parts: &[condition(chain)],
            replacement: &[(65, 0)],
            ..NONE
        };
        let rule_1 = RuleText {
            pattern: &[(64, 0)],
            ..NONE
        };
        refusal(&rules(&[rule_0.words(), rule_1.words()]))
    };
    assert_eq!(with(&[(66, 0), (1, 0), (1, 0)]), None);
    assert_eq!(with(&[(65, 0)]), Some((23, 9)));
    assert_eq!(with(&[(66, 0), (1, 0), (1, 0), (65, 0)]), Some((23, 15)));
    assert_eq!(with(&[(66, 1), (1, 0), (1, 0)]), Some((22, 10)));
}

#[test]
fn t16_a_chain_of_another_type_is_told_at_its_variable() {
    let with = |variable| {
        refusal(&rules(&[RuleText {
            target: 1,
            reach: 1,
            pattern: &[(1, 0), (64, 2), (64, 1)],
            replacement: &[(1, 0), (66, variable), (1, 0), (1_004, 0), (65, 1)],
            ..NONE
        }
        .words()]))
    };
    assert_eq!(with(0), None);
    assert_eq!(with(1), Some((23, 15)));
    assert_eq!(with(9), Some((22, 15)));
}

#[test]
fn t17_rule_0_applied_and_scopes_that_cannot_hold_the_target() {
    let with = |applied, count| {
        let rule_0 = RuleText {
            target: 2,
            reach: 1,
            pattern: &[(64, 2)],
            parts: &[condition(&[(66, 0), (1, 0), (applied, count)])],
            replacement: &[(66, 0), (1, 0), (applied, count)],
            ..NONE
        };
        let rule_1 = RuleText {
            target: 0,
            reach: 2,
            pattern: &[(64, 0)],
            replacement: &[(65, 0)],
            ..NONE
        };
        refusal(&rules(&[rule_0.words(), rule_1.words()]))
    };
    assert_eq!(with(0, 0), None);
    assert_eq!(with(1, 0), None);
    assert_eq!(with(0, 1), Some((22, 15)));
}

#[test]
fn t18_values_of_nodes_in_pairs() {
    assert_eq!(
        refusal(&[1, 9, 2, 2, 1, 2, 4_000_000_001, 1, 2, 4200]),
        Some((23, 6))
    );
    assert_eq!(
        refusal(&[1, 9, 2, 2, 1, 2, 200, 1, 2, 4_000_000_001]),
        Some((23, 9))
    );
    assert_eq!(refusal(&[1, 8, 0, 1, 0, 1, 1, 64, 0]), Some((23, 5)));
    assert_eq!(refusal(&[1, 9, 1, 1, 1, 1, 2, 1, 1, 1]), Some((23, 6)));
}

#[test]
fn t02_1_values_of_tokens_in_pairs() {
    // One token as pattern, value at word 5, and as replacement, at word 8.
    let with = |class, pattern, replacement| {
        let rules = [1, 8, 0, 1, 0, pattern, 1, 0, replacement];
        refusal_under(&[1, 1, class], &rules)
    };
    for value in [0, 999_999_999, 1_000_000_000, 1 << 31, 4_000_000_000] {
        assert_eq!(with(2, value, value), None, "{value}");
    }
    for value in [4_000_000_001, u32::MAX] {
        assert_eq!(with(2, value, 0), Some((23, 5)), "{value}");
        assert_eq!(with(2, 0, value), Some((23, 8)), "{value}");
        assert_eq!(with(2, value, value), Some((23, 5)), "{value}");
    }
    // Patterns and replacements of parts.
    let taken_apart = |value| with_part(&[1, 0, 4, 0, 0, 1, 0, 2, value, 1, 1]);
    let searched = |value| with_part(&[3, 2, 0, 1, 2, value]);
    let built = |value| with_part(&[4, 2, 1, 2, value]);
    assert_eq!(refusal(&taken_apart(4_000_000_000)), None);
    assert_eq!(refusal(&taken_apart(4_000_000_001)), Some((23, 15)));
    assert_eq!(refusal(&searched(4_000_000_000)), None);
    assert_eq!(refusal(&searched(4_000_000_001)), Some((23, 12)));
    assert_eq!(refusal(&built(4_000_000_000)), None);
    assert_eq!(refusal(&built(4_000_000_001)), Some((23, 11)));
    // Names and strings keep 65,535.
    for class in [1, 3] {
        assert_eq!(with(class, 65_535, 65_535), None);
        for value in [65_536, 999_999_999, 4_000_000_000, u32::MAX] {
            assert_eq!(with(class, value, 0), Some((23, 5)), "{value}");
            assert_eq!(with(class, 0, value), Some((23, 8)), "{value}");
        }
    }
}
