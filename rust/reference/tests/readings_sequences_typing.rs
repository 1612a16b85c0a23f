//! The readings T04-1 to T04-8 (typing of the sequence operations) and T04-25
//! to T04-28 (the list), one test each. Positions are counted by hand.

mod common;

use common::*;
use reference::{check_grammar, check_rules, check_slip};

/// Type 0 has one tree of each other type: 1 a repeat and 2 a list of number
/// 3, 4 another number, 5 another repeat and 6 an optional of number 3, 7 a
/// name and 8 a repeat of itself.
const KINDS: &[u32] = &[
    9, 8, 1, 8, 1, 2, 3, 4, 5, 6, 7, 8, 4, 3, 16, 3, 1, 2, 1, 2, 4, 3, 2, 3, 1, 1, 4, 8,
];

/// The variables of a rule that binds them all. Each has the type one higher.
const REPEAT: u32 = 0;
const LIST: u32 = 1;
const NUMBER: u32 = 2;
const OTHER_NUMBER: u32 = 3;
const OTHER_REPEAT: u32 = 4;
const OPTIONAL: u32 = 5;
const NAME: u32 = 6;
const OF_ITSELF: u32 = 7;
const ALL: [u32; 8] = [
    REPEAT,
    LIST,
    NUMBER,
    OTHER_NUMBER,
    OTHER_REPEAT,
    OPTIONAL,
    NAME,
    OF_ITSELF,
];
const SEQUENCES: [u32; 4] = [REPEAT, LIST, OTHER_REPEAT, OF_ITSELF];
const NUMBERS: [u32; 2] = [NUMBER, OTHER_NUMBER];

const OPERATIONS: [u32; 6] = [JOIN, SELECT, HEAD, TAIL, LENGTH, EXTRACT];

fn refusal_under(grammar: &[u32], rules: &[u32]) -> Option<(u32, usize)> {
    let refusal = check_rules(grammar, rules).err();
    refusal.map(|refusal| (refusal.number, refusal.position))
}

fn grammar_refusal(words: &[u32]) -> Option<(u32, usize)> {
    let refusal = check_grammar(words).err();
    refusal.map(|refusal| (refusal.number, refusal.position))
}

fn slip_refusal(grammar: &[u32], slip: &[u32]) -> Option<(u32, usize)> {
    let refusal = check_slip(grammar, slip).err();
    refusal.map(|refusal| (refusal.number, refusal.position))
}

/// The refusal of the slip of a tree whose nodes are those that its grammar
/// wants.
fn tree_refusal(grammar: &[u32], tree: &[u32]) -> Option<(u32, usize)> {
    slip_refusal(grammar, &slip(grammar, tree))
}

/// The refusal of a rule that binds a tree of each type of `KINDS` and has
/// these parts, the first at word 23, and this replacement.
fn binding_all(parts: &[Vec<u32>], replacement: &[(u32, u32)]) -> Option<(u32, usize)> {
    let new_variables = ALL.map(|variable| (64, variable + 1));
    let rule = RuleText {
        pattern: &[&[(0, 0)], &new_variables[..]].concat(),
        parts,
        replacement,
        ..NONE
    };
    refusal_under(KINDS, &rules(&[rule.words()]))
}

fn with_part(part: Vec<u32>) -> Option<(u32, usize)> {
    let copies = ALL.map(|variable| (65, variable));
    binding_all(&[part], &[&[(0, 0)], &copies[..]].concat())
}

/// The refusal of a build with one application. The application stands at word
/// 30, its arguments at 32 and on.
fn built(scope: u32, application: &[(u32, u32)]) -> Option<(u32, usize)> {
    let chain = chain(scope, &[application.to_vec()]);
    with_part(construct(scope + 1, &chain))
}

/// Arguments that fit an operation on a scope.
fn arguments(operation: u32, scope: u32) -> Vec<u32> {
    match operation {
        JOIN => vec![scope],
        SELECT => vec![NUMBER, OTHER_NUMBER],
        HEAD | TAIL => vec![NUMBER],
        LENGTH => vec![REPEAT],
        _ => vec![NAME],
    }
}

/// The variables that can be the one argument of an operation. All others are
/// refused at the argument's second word.
fn fitting_arguments(operation: u32, scope: u32) -> Vec<u32> {
    let fits = |argument: &u32| match built(scope, &apply(operation, &[*argument])) {
        None => true,
        Some((23, 33)) => false,
        other => panic!("{argument} of {operation}: {other:?}"),
    };
    ALL.into_iter().filter(fits).collect()
}

#[test]
fn t04_1_the_numbers_of_the_operations() {
    for operation in OPERATIONS {
        let scope = if operation == LENGTH { NUMBER } else { REPEAT };
        let application = apply(operation, &arguments(operation, scope));
        assert_eq!(built(scope, &application), None, "{operation}");
    }
    for number in [1_006, 1_007, 1_016, 1_017, 1_024, 2_010] {
        for scope in ALL {
            for arguments in [&[][..], &[NUMBER], &[NUMBER, NUMBER]] {
                let application = apply(number, arguments);
                assert_eq!(built(scope, &application), Some((22, 30)), "{number}");
            }
        }
    }
}

#[test]
fn t04_2_a_scope_that_does_not_fit_is_told_at_the_operation() {
    for operation in OPERATIONS {
        for scope in ALL {
            let fits = match operation {
                LENGTH => NUMBERS.contains(&scope),
                _ => SEQUENCES.contains(&scope),
            };
            let expected = if fits { None } else { Some((22, 30)) };
            let about = format!("{operation} on {scope}");
            let application = apply(operation, &arguments(operation, scope));
            assert_eq!(built(scope, &application), expected, "{about}");
            if !fits {
                // It comes before the argument count and the arguments.
                assert_eq!(built(scope, &[(operation, 9)]), expected, "{about}");
                let nonsense = [(operation, 1), (99, 99)];
                assert_eq!(built(scope, &nonsense), expected, "{about}");
            }
        }
    }
    // A type with forms is no sequence; the operation stands at word 11.
    for operation in OPERATIONS {
        let rule = [1, 8, 0, 1, 64, 0, 4, 66, 0, 1, 0, operation, 1, 65, 0];
        assert_eq!(refusal_under(GRAMMAR, &rule), Some((22, 11)), "{operation}");
    }
}

#[test]
fn t04_3_an_argument_that_does_not_fit_is_told_at_its_variable() {
    assert_eq!(fitting_arguments(JOIN, REPEAT), [REPEAT, NUMBER]);
    assert_eq!(fitting_arguments(JOIN, LIST), [LIST, NUMBER]);
    for scope in SEQUENCES {
        assert_eq!(fitting_arguments(HEAD, scope), NUMBERS);
        assert_eq!(fitting_arguments(TAIL, scope), NUMBERS);
        assert_eq!(fitting_arguments(EXTRACT, scope), ALL);
    }
    for scope in NUMBERS {
        assert_eq!(fitting_arguments(LENGTH, scope), SEQUENCES);
    }
    for operation in [JOIN, HEAD, TAIL, LENGTH, EXTRACT] {
        let scope = if operation == LENGTH { NUMBER } else { REPEAT };
        let with = |argument| built(scope, &[(operation, 1), argument]);
        // Variable 8 is the one that is being built.
        assert_eq!(with((65, 8)), Some((22, 33)), "{operation}");
        assert_eq!(with((65, u32::MAX)), Some((22, 33)), "{operation}");
        for first in [0, 1, 3, 64, 66, 67] {
            assert_eq!(with((first, 0)), Some((23, 32)), "{operation}");
        }
    }
}

#[test]
fn t04_3_the_two_arguments_of_select() {
    let with = |one, two| built(LIST, &[(SELECT, 2), one, two]);
    for one in ALL {
        for two in ALL {
            let expected = match (NUMBERS.contains(&one), NUMBERS.contains(&two)) {
                (true, true) => None,
                (true, false) => Some((23, 35)),
                (false, _) => Some((23, 33)),
            };
            assert_eq!(with((65, one), (65, two)), expected, "{one} and {two}");
        }
    }
    let number = (65, NUMBER);
    assert_eq!(with(number, (65, 8)), Some((22, 35)));
    assert_eq!(with(number, (3, 100)), Some((23, 34)));
    assert_eq!(with((65, 8), (3, 100)), Some((22, 33)));
    assert_eq!(with((3, 100), (65, 8)), Some((23, 32)));
}

#[test]
fn t04_4_argument_counts_are_told_before_the_arguments() {
    for operation in OPERATIONS {
        let scope = if operation == LENGTH { NUMBER } else { REPEAT };
        let wanted = if operation == SELECT { 2 } else { 1 };
        for count in (0..=4).filter(|&count| count != wanted) {
            let good = vec![(65, NUMBER); count as usize];
            let nonsense = vec![(99, 99); count as usize];
            for arguments in [good, nonsense, vec![]] {
                let application = [vec![(operation, count)], arguments].concat();
                let about = format!("{operation} with {count}");
                assert_eq!(built(scope, &application), Some((22, 31)), "{about}");
            }
        }
        // Pairs short: the word after the last.
        let short = [(operation, wanted)];
        assert_eq!(built(scope, &short), Some((23, 32)), "{operation}");
    }
    let one_missing = [(SELECT, 2), (65, NUMBER)];
    assert_eq!(built(REPEAT, &one_missing), Some((23, 34)));
    // One over: the first left over.
    let one_more = [(HEAD, 1), (65, NUMBER), (65, NUMBER)];
    assert_eq!(built(REPEAT, &one_more), Some((23, 34)));
}

#[test]
fn t04_5_only_the_very_type_is_joined_as_a_sequence() {
    let join = |scope, argument| built(scope, &apply(JOIN, &[argument]));
    assert_eq!(join(REPEAT, REPEAT), None);
    assert_eq!(join(LIST, LIST), None);
    assert_eq!(join(OTHER_REPEAT, OTHER_REPEAT), None);
    // All three have the same element.
    for (scope, argument) in [
        (REPEAT, LIST),
        (LIST, REPEAT),
        (REPEAT, OTHER_REPEAT),
        (OTHER_REPEAT, REPEAT),
        (LIST, OTHER_REPEAT),
    ] {
        assert_eq!(join(scope, argument), Some((23, 33)));
    }
    // An element is of the very type, too.
    for scope in [REPEAT, LIST, OTHER_REPEAT] {
        assert_eq!(join(scope, NUMBER), None);
        assert_eq!(join(scope, OTHER_NUMBER), Some((23, 33)));
        assert_eq!(join(scope, OPTIONAL), Some((23, 33)));
    }
}

#[test]
fn t04_6_lists_for_all_six() {
    for operation in [JOIN, SELECT, HEAD, TAIL, EXTRACT] {
        let application = apply(operation, &arguments(operation, LIST));
        assert_eq!(built(LIST, &application), None, "{operation}");
    }
    assert_eq!(built(NUMBER, &apply(LENGTH, &[LIST])), None);
    assert_eq!(built(LIST, &apply(EXTRACT, &[LIST])), None);
    assert_eq!(built(REPEAT, &apply(EXTRACT, &[LIST])), None);
}

#[test]
fn t04_7_a_sequence_of_itself_is_joined_with_its_own_type_only() {
    assert_eq!(fitting_arguments(JOIN, OF_ITSELF), [OF_ITSELF]);
}

#[test]
fn t04_8_only_replacements_apply_these_operations() {
    for operation in OPERATIONS {
        let scope = if operation == LENGTH { NUMBER } else { REPEAT };
        let application = apply(operation, &arguments(operation, scope));
        let chain = chain(scope, std::slice::from_ref(&application));
        // A build, in which the due type is the scope's.
        assert_eq!(built(scope, &application), None, "{operation}");
        // The replacement of a rule, in which the chain stands for its scope.
        let place = |variable| match variable == scope {
            true => chain.clone(),
            false => vec![(65, variable)],
        };
        let replacement = [vec![(0, 0)], ALL.map(place).concat()].concat();
        assert_eq!(binding_all(&[], &replacement), None, "{operation}");
        // A test; the operation stands at word 29.
        assert_eq!(with_part(condition(&chain)), Some((22, 29)), "{operation}");
        assert_eq!(with_part(not_condition(&chain)), Some((22, 29)));
    }
}

#[test]
fn t04_25_the_record_of_a_list() {
    for map in [17, 18, 20, 24, 31, 32, 48] {
        assert_eq!(grammar_refusal(&[1, map, 0]), Some((11, 1)), "{map}");
    }
    assert_eq!(grammar_refusal(&[1, 16]), Some((10, 2)));
    assert_eq!(grammar_refusal(&[1, 16, 1]), Some((11, 2)));
    assert_eq!(grammar_refusal(&[1, 16, 65_536]), Some((11, 2)));
    assert_eq!(grammar_refusal(&[1, 16, 0, 0]), Some((10, 3)));
    assert_eq!(grammar_refusal(&[2, 16, 1, 1, 2]), None);
    // 12 never falls on a list, as the empty one is finite: type 0 is a list
    // of type 1, which has one form, of type 0 and then of itself.
    assert_eq!(grammar_refusal(&[1, 16, 0]), None);
    assert_eq!(grammar_refusal(&[2, 16, 1, 8, 1, 1, 0]), None);
    assert_eq!(grammar_refusal(&[2, 16, 1, 8, 1, 1, 1]), Some((12, 3)));
}

/// A list of itself.
const LIST_OF_ITSELF: &[u32] = &[1, 16, 0];

/// Lists of one element in each other: the innermost element has nesting
/// levels + 1.
fn nested(levels: usize) -> Vec<(u32, u32)> {
    [vec![(0, 0); levels], vec![(0, 1); levels + 1]].concat()
}

/// The words of a tree written as pairs.
fn words(pairs: &[(u32, u32)]) -> Vec<u32> {
    pairs.iter().flat_map(|&(ty, value)| [ty, value]).collect()
}

#[test]
fn t04_26_a_list_in_a_tree_is_as_a_repeat() {
    let with = |pairs: &[(u32, u32)]| tree_refusal(LIST_OF_ITSELF, &words(pairs));
    assert_eq!(with(&[(0, 1)]), None);
    let damaged = |slip| slip_refusal(LIST_OF_ITSELF, slip);
    assert_eq!(damaged(&[0, 2, 1]), Some((32, 1)));
    assert_eq!(damaged(&[0, 0, 3, 0, 1, 1]), Some((31, 6)));
    let over = [0, 0, 3, 0, 1, 1, 0, 1, 1, 0, 1, 1];
    assert_eq!(damaged(&over), Some((31, 9)));
    // The rest has its parent's nesting, an element one more.
    let long = [[(0, 0), (0, 1)].repeat(1_023), vec![(0, 1)]].concat();
    assert_eq!(with(&long), None);
    assert_eq!(with(&nested(63)), None);
    assert_eq!(with(&nested(64)), Some((33, 192)));
}

#[test]
fn t04_26_a_list_in_pairs_is_as_a_repeat() {
    let with = |pattern: &[(u32, u32)], replacement: &[(u32, u32)]| {
        let rule = RuleText {
            pattern,
            replacement,
            ..NONE
        };
        refusal_under(LIST_OF_ITSELF, &rules(&[rule.words()]))
    };
    // Elements and rests: 127 pairs of nesting 2 at most.
    let long = [[(0, 0), (0, 1)].repeat(63), vec![(0, 1)]].concat();
    assert_eq!(with(&long, &long), None);
    // 63 levels are 127 pairs; 64 would be too many, so the last pairs of the
    // pattern, which stands at word 4, are left out.
    assert_eq!(with(&nested(63), &nested(63)), None);
    let too_deep = [vec![(0, 0); 64], vec![(0, 1)]].concat();
    assert_eq!(with(&too_deep, &[(0, 1)]), Some((24, 132)));
    assert_eq!(with(&[(0, 1)], &too_deep), Some((24, 135)));
    // Values are 0 and 1.
    assert_eq!(with(&[(0, 2)], &[(0, 1)]), Some((23, 5)));
    assert_eq!(with(&[(0, 1)], &[(0, 2)]), Some((23, 8)));
}

#[test]
fn t04_26_a_list_in_a_run_is_as_a_repeat() {
    let with = |replacement: &[(u32, u32)]| {
        let rule = RuleText {
            pattern: &[(64, 0)],
            replacement,
            ..NONE
        };
        let tree = words(&nested(63));
        first_line(9, LIST_OF_ITSELF, &rules(&[rule.words()]), &tree)
    };
    // The tree of 127 nodes has nesting 64, and may be a rest, but no element.
    assert_eq!(with(&[(0, 0), (0, 1), (65, 0)]), "done 1 1 387");
    assert_eq!(with(&[(0, 0), (65, 0), (0, 1)]), "stopped 43 1 0 381");
}

#[test]
fn t04_27_commas_have_no_nodes() {
    let grammar = [3, 8, 1, 1, 1, 16, 2, 1, 2];
    assert_eq!(
        bench(3, &grammar, RULES, TREE),
        "done 3 1 18\n0 0 6 1 0 5 2 4200 1 1 0 3 2 500 1 1 1 1"
    );
    assert_eq!(
        bench(3, &grammar, RULES, &[0, 0, 1, 1]),
        "done 0 0 6\n0 0 2 1 1 1"
    );
    // 1,023 numbers are 2,048 nodes.
    assert_eq!(tree_refusal(&grammar, &list_of_nodes(2_048)), None);
}

/// Type 0 has a repeat 1 and a list 2 of number 3.
const REPEAT_AND_LIST: &[u32] = &[4, 8, 1, 2, 1, 2, 4, 3, 16, 3, 1, 2];

#[test]
fn t04_28_a_list_does_not_stand_for_a_repeat_in_pairs() {
    let with = |one, two, replacement: &[(u32, u32)]| {
        let rule = RuleText {
            pattern: &[(0, 0), one, two],
            replacement,
            ..NONE
        };
        refusal_under(REPEAT_AND_LIST, &rules(&[rule.words()]))
    };
    // The second pair of the pattern stands at word 6, the third at 8.
    let empty = [(0, 0), (1, 1), (2, 1)];
    assert_eq!(with((64, 1), (64, 2), &empty), None);
    assert_eq!(with((64, 2), (64, 2), &empty), Some((23, 7)));
    assert_eq!(with((64, 1), (64, 1), &empty), Some((23, 9)));
    assert_eq!(with((2, 1), (64, 2), &empty), Some((23, 6)));
    assert_eq!(with((64, 1), (1, 1), &empty), Some((23, 8)));
    assert_eq!(with((64, 1), (65, 0), &empty), Some((23, 9)));
    // The second pair of the replacement stands at word 13, the third at 15.
    let replaced = |one, two| with((64, 1), (64, 2), &[(0, 0), one, two]);
    assert_eq!(replaced((65, 0), (65, 1)), None);
    assert_eq!(replaced((65, 1), (65, 1)), Some((23, 14)));
    assert_eq!(replaced((65, 0), (65, 0)), Some((23, 16)));
    assert_eq!(replaced((2, 1), (65, 1)), Some((23, 13)));
    assert_eq!(replaced((65, 0), (1, 1)), Some((23, 15)));
    assert_eq!(replaced((66, 1), (65, 1)), Some((23, 14)));
}

#[test]
fn t04_28_a_list_does_not_stand_for_a_repeat_as_argument_or_in_a_tree() {
    // The argument stands at words 19 and 20.
    let with = |applied, argument| {
        let applied = [chain(0, &[apply(applied, &[argument])]), vec![(65, 1)]].concat();
        let main = RuleText {
            pattern: &[(0, 0), (64, 1), (64, 2)],
            replacement: &[&[(0, 0)], &applied[..]].concat(),
            ..NONE
        };
        let taking_a_repeat = RuleText {
            target: 1,
            parameters: &[1],
            pattern: &[(64, 1)],
            replacement: &[(65, 0)],
            ..NONE
        };
        let words = [main.words(), taking_a_repeat.words()];
        refusal_under(REPEAT_AND_LIST, &rules(&words))
    };
    for applied in [1, JOIN] {
        assert_eq!(with(applied, 0), None);
        assert_eq!(with(applied, 1), Some((23, 20)));
    }
    assert_eq!(tree_refusal(REPEAT_AND_LIST, &[0, 0, 1, 1, 2, 1]), None);
    assert_eq!(
        slip_refusal(REPEAT_AND_LIST, &[0, 0, 3, 2, 1, 1, 1, 1, 1]),
        Some((32, 3))
    );
}
