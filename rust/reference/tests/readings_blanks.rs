//! The readings T05-1 to T05-5 (blank is not the same as blank), one test each
//! or more. All outcomes are worked out by hand.

mod common;

use common::*;

/// The records of tokens.
const NAME: &[u32] = &[1, 1];
const NUMBER: &[u32] = &[1, 2];
const STRING: &[u32] = &[1, 3];

/// The maps of the two kinds of sequence.
const REPEAT_AND_LIST: [u32; 2] = [4, 16];

fn on(grammar: &[u32], budget: u32, texts: &[RuleText], tree: &[u32]) -> String {
    let words: Vec<Vec<u32>> = texts.iter().map(RuleText::words).collect();
    bench(budget, grammar, &rules(&words), tree)
}

/// Type 0 is a transfer with a payer and a payee (form 0), or one marked "to
/// own account" (form 1). All accounts are of type 1; the records of type 1 and
/// on are given.
fn transfers(types: &[&[u32]]) -> Vec<u32> {
    let count = types.len() as u32 + 1;
    [vec![count, 8, 2, 2, 1, 1, 1, 1], types.concat()].concat()
}

/// Marks a transfer whose payee is the same as its payer.
const MARKING: RuleText = RuleText {
    pattern: &[(0, 0), (64, 1), (65, 0)],
    replacement: &[(0, 1), (65, 0)],
    ..NONE
};

/// Whether a transfer from an account to the same account is marked.
fn marked(types: &[&[u32]], account: &[u32]) -> bool {
    let grammar = transfers(types);
    let tree = [&[0, 0], account, account].concat();
    let text = on(&grammar, 1, &[MARKING], &tree);
    if text == ended(&grammar, "done 1 0", &tree) {
        return false;
    }
    let marked = [&[0, 1], account].concat();
    assert_eq!(text, ended(&grammar, "done 1 1", &marked));
    true
}

#[test]
fn t05_1_two_empty_fields_are_not_the_same() {
    for class in [1, 3] {
        let grammar = [2, 8, 2, 2, 1, 1, 1, 1, 1, class];
        let with = |payer, payee| on(&grammar, 1, &[MARKING], &[0, 0, 1, payer, 1, payee]);
        assert_eq!(with(0, 0), "done 1 0 9\n0 0 3 1 0 1 1 0 1");
        // Fields that are filled, as before.
        assert_eq!(with(1, 1), "done 1 1 6\n0 1 2 1 1 1");
        assert_eq!(with(7, 7), "done 1 1 6\n0 1 2 1 7 1");
        assert_eq!(with(65_535, 65_535), "done 1 1 6\n0 1 2 1 65535 1");
        assert_eq!(with(7, 8), "done 1 0 9\n0 0 3 1 7 1 1 8 1");
        assert_eq!(with(0, 7), "done 1 0 9\n0 0 3 1 0 1 1 7 1");
        assert_eq!(with(7, 0), "done 1 0 9\n0 0 3 1 7 1 1 0 1");
    }
}

#[test]
fn t05_1_a_blank_below_the_root_of_the_tree() {
    for text in [NAME, STRING] {
        // A form of a number and a text, and of a text and a number.
        let last = |value| marked(&[&[8, 1, 2, 3, 2], text, NUMBER], &[1, 0, 3, 5, 2, value]);
        let first = |value| marked(&[&[8, 1, 2, 2, 3], text, NUMBER], &[1, 0, 2, value, 3, 5]);
        let optional = |value| marked(&[&[2, 2], text], &[1, 0, 2, value]);
        // An optional of a form of a text.
        let lower = |value| marked(&[&[2, 2], &[8, 1, 1, 3], text], &[1, 0, 2, 0, 3, value]);
        for value in [1, 7, 65_535] {
            assert!(last(value) && first(value) && optional(value) && lower(value));
        }
        assert!(!last(0) && !first(0) && !optional(0) && !lower(0));
    }
}

#[test]
fn t05_1_a_blank_anywhere_in_a_sequence() {
    for map in REPEAT_AND_LIST {
        let with = |values: &[u32]| {
            let elements: Vec<Vec<u32>> = values.iter().map(|&value| vec![2, value]).collect();
            marked(&[&[map, 2], STRING], &sequence_of(1, &elements))
        };
        assert!(with(&[7]) && with(&[7, 8]) && with(&[7, 8, 9]));
        assert!(!with(&[0]) && !with(&[0, 0]));
        assert!(!with(&[0, 8, 9]) && !with(&[7, 0, 9]) && !with(&[7, 8, 0]));
        // In a sequence of sequences of names.
        let inner = |value| sequence_of(2, &[vec![3, 7], vec![3, value]]);
        let with = |value| {
            let account = sequence_of(1, &[vec![2, 1], inner(value), inner(9)]);
            marked(&[&[map, 2], &[map, 3], NAME], &account)
        };
        assert!(with(8) && !with(0));
    }
}

#[test]
fn t05_1_a_blank_at_the_end_of_a_great_tree() {
    // Two trees of 1,023 nodes.
    let longest = |last| {
        let mut elements = vec![vec![2, 7]; 510];
        elements.push(vec![2, last]);
        marked(&[&[4, 2], NAME], &sequence_of(1, &elements))
    };
    assert!(longest(7) && !longest(0));
    // Type 1 is `form 0: [1]` or `form 1: [name]`; the name has nesting 64.
    let deepest = |value| {
        let account = [[1, 0].repeat(61), vec![1, 1, 2, value]].concat();
        marked(&[&[8, 2, 1, 1, 1, 2], NAME], &account)
    };
    assert!(deepest(7) && !deepest(0));
}

#[test]
fn t05_1_every_form_of_a_name_a_number_and_a_string() {
    let values = [0, 1, 2, 100, 65_535];
    for name in values {
        for number in values {
            for string in values {
                let account = [1, 0, 2, name, 3, number, 4, string];
                let types = [&[8, 1, 3, 2, 3, 4], NAME, NUMBER, STRING];
                let expected = name > 0 && string > 0;
                assert_eq!(marked(&types, &account), expected, "{account:?}");
            }
        }
    }
}

#[test]
fn t05_1_a_tree_with_a_blank_does_not_match_its_own_variable() {
    let taken_apart = |variable, payer, payee| {
        let text = RuleText {
            pattern: &[(0, 0), (64, 1), (64, 1)],
            parts: &[deconstruct(variable, &[(65, variable)])],
            replacement: &[(0, 1), (65, variable)],
            ..NONE
        };
        on(&transfers(&[NAME]), 1, &[text], &[0, 0, 1, payer, 1, payee])
    };
    assert_eq!(taken_apart(0, 0, 7), "done 1 0 9\n0 0 3 1 0 1 1 7 1");
    assert_eq!(taken_apart(1, 7, 0), "done 1 0 9\n0 0 3 1 7 1 1 0 1");
    // The other one may be blank.
    assert_eq!(taken_apart(0, 7, 0), "done 1 1 6\n0 1 2 1 7 1");
    assert_eq!(taken_apart(1, 0, 7), "done 1 1 6\n0 1 2 1 7 1");
    // The whole tree, taken apart and searched.
    for part in [deconstruct(0, &[(65, 0)]), search(0, 0, &[(65, 0)])] {
        let with = |payer, payee| {
            let text = RuleText {
                pattern: &[(64, 0)],
                parts: std::slice::from_ref(&part),
                replacement: &[(0, 1), (1, 9)],
                ..NONE
            };
            on(&transfers(&[NAME]), 1, &[text], &[0, 0, 1, payer, 1, payee])
        };
        assert_eq!(with(7, 8), "done 1 1 6\n0 1 2 1 9 1");
        assert_eq!(with(0, 8), "done 1 0 9\n0 0 3 1 0 1 1 8 1");
        assert_eq!(with(7, 0), "done 1 0 9\n0 0 3 1 7 1 1 0 1");
    }
}

#[test]
fn t05_1_a_blank_outside_the_tree_does_not_matter() {
    // A payer, a payee and a purpose (form 0), or only two of them (form 1).
    let grammar = [2, 8, 2, 3, 1, 1, 1, 2, 1, 1, 1, 1];
    let with = |payer, payee, purpose| {
        let text = RuleText {
            pattern: &[(0, 0), (64, 1), (65, 0), (64, 1)],
            replacement: &[(0, 1), (65, 0), (65, 1)],
            ..NONE
        };
        on(
            &grammar,
            1,
            &[text],
            &[0, 0, 1, payer, 1, payee, 1, purpose],
        )
    };
    assert_eq!(with(7, 7, 0), "done 1 1 9\n0 1 3 1 7 1 1 0 1");
    assert_eq!(with(0, 0, 7), "done 1 0 12\n0 0 4 1 0 1 1 0 1 1 7 1");
    assert_eq!(with(0, 0, 0), "done 1 0 12\n0 0 4 1 0 1 1 0 1 1 0 1");
    assert_eq!(with(7, 7, 7), "done 1 1 9\n0 1 3 1 7 1 1 7 1");
}

#[test]
fn t05_2_a_number_0_is_not_blank() {
    let grammar = transfers(&[NUMBER]);
    assert_eq!(
        on(&grammar, 1, &[MARKING], &[0, 0, 1, 0, 1, 0]),
        "done 1 1 6\n0 1 2 1 0 1"
    );
    assert!(marked(&[&[8, 1, 2, 2, 2], NUMBER], &[1, 0, 2, 0, 2, 0]));
    assert!(marked(&[&[2, 2], NUMBER], &[1, 0, 2, 0]));
    for map in REPEAT_AND_LIST {
        let zeros = sequence_of(1, &[vec![2, 0], vec![2, 0]]);
        assert!(marked(&[&[map, 2], NUMBER], &zeros));
    }
}

#[test]
fn t05_2_what_is_absent_or_without_elements_is_not_blank() {
    for text in [NAME, STRING] {
        assert!(marked(&[&[2, 2], text], &[1, 1]), "an absent optional");
        for map in REPEAT_AND_LIST {
            assert!(marked(&[&[map, 2], text], &[1, 1]), "an empty sequence");
        }
    }
    // Form 0 without elements, form 1 of a literal, form 2 of a form 0.
    let forms: &[u32] = &[8, 3, 0, 1, 65_536, 1, 1];
    assert!(marked(&[forms], &[1, 0]));
    assert!(marked(&[forms], &[1, 1]));
    assert!(marked(&[forms], &[1, 2, 1, 0]));
}

#[test]
fn t05_2_all_that_is_not_blank_beside_a_name() {
    // Type 1 has an optional 2, a repeat 3 and a list 4 of name 5, a number 6,
    // a type 7 without elements, and a name 5.
    let types: [&[u32]; 7] = [
        &[8, 1, 6, 2, 3, 4, 6, 7, 5],
        &[2, 5],
        &[4, 5],
        &[16, 5],
        NAME,
        NUMBER,
        &[8, 1, 0],
    ];
    let with = |optional: &[u32], repeat: &[u32], list: &[u32], name| {
        let account = [&[1, 0], optional, repeat, list, &[6, 0, 7, 0, 5, name]].concat();
        marked(&types, &account)
    };
    let (absent, empty_repeat, empty_list) = (&[2, 1], &[3, 1], &[4, 1]);
    assert!(with(absent, empty_repeat, empty_list, 7));
    assert!(with(&[2, 0, 5, 7], empty_repeat, empty_list, 7));
    assert!(with(absent, &[3, 0, 5, 7, 3, 1], empty_list, 7));
    assert!(with(absent, empty_repeat, &[4, 0, 5, 7, 4, 1], 7));
    // One of them blank.
    assert!(!with(absent, empty_repeat, empty_list, 0));
    assert!(!with(&[2, 0, 5, 0], empty_repeat, empty_list, 7));
    assert!(!with(absent, &[3, 0, 5, 0, 3, 1], empty_list, 7));
    assert!(!with(absent, empty_repeat, &[4, 0, 5, 0, 4, 1], 7));
}

/// Type 0 is a repeat 1 of transfers 2 as type 0 of `transfers`, the accounts
/// being names 3.
const LEDGER: &[u32] = &[4, 8, 1, 1, 1, 4, 2, 8, 2, 2, 3, 3, 1, 3, 1, 1];

/// A tree of `LEDGER`: 4 x transfers + 2 nodes.
fn ledger(transfers: &[(u32, u32)]) -> Vec<u32> {
    let transfer = |&(payer, payee): &(u32, u32)| vec![2, 0, 3, payer, 3, payee];
    let transfers: Vec<Vec<u32>> = transfers.iter().map(transfer).collect();
    [vec![0, 0], sequence_of(1, &transfers)].concat()
}

#[test]
fn t05_3_in_the_pattern_of_a_rule_with_reach() {
    let marking = |reach| RuleText {
        target: 2,
        reach,
        pattern: &[(2, 0), (64, 3), (65, 0)],
        replacement: &[(2, 1), (65, 0)],
        ..NONE
    };
    let tree = ledger(&[(0, 0), (7, 7), (0, 0), (8, 8)]);
    assert_eq!(
        on(LEDGER, 9, &[marking(1)], &tree),
        "done 2 1 51\n0 0 17 1 0 16 2 0 3 3 0 1 3 0 1 1 0 12 2 1 2 3 7 1 1 0 9 2 0 3 3 0 1 3 0 1 1 0 5 2 0 3 3 8 1 3 8 1 1 1 1"
    );
    // Two attempts, then four up to the last transfer, then four in vain.
    assert_eq!(
        on(LEDGER, 99, &[marking(2)], &tree),
        "done 10 2 48\n0 0 16 1 0 15 2 0 3 3 0 1 3 0 1 1 0 11 2 1 2 3 7 1 1 0 8 2 0 3 3 0 1 3 0 1 1 0 4 2 1 2 3 8 1 1 1 1"
    );
    // Put in its own place, a match is found again and again.
    let idle = || RuleText {
        replacement: &[(2, 0), (65, 0), (65, 0)],
        ..marking(2)
    };
    assert_eq!(
        on(LEDGER, 5, &[idle()], &ledger(&[(0, 0)])),
        "done 1 0 18\n0 0 6 1 0 5 2 0 3 3 0 1 3 0 1 1 1 1"
    );
    assert_eq!(
        on(LEDGER, 5, &[idle()], &ledger(&[(7, 7)])),
        "stopped 40 5 5 18\n0 0 6 1 0 5 2 0 3 3 7 1 3 7 1 1 1 1"
    );
}

/// Whether a rule marks a transfer with twice the same name. Its variable 0 is
/// a parameter, that name.
fn marked_by(name: u32, pattern: &[(u32, u32)], parts: &[Vec<u32>]) -> bool {
    let calling = RuleText {
        pattern: &[(64, 0)],
        parts: &[search(1, 0, &[(64, 1)])],
        replacement: &chain(0, &[apply(1, &[1])]),
        ..NONE
    };
    let called = RuleText {
        parameters: &[1],
        pattern,
        parts,
        replacement: &[(0, 1), (1, 9)],
        ..NONE
    };
    let tree = [0, 0, 1, name, 1, name];
    let grammar = transfers(&[NAME]);
    let text = on(&grammar, 2, &[calling, called], &tree);
    if text == ended(&grammar, "done 2 1", &tree) {
        return false;
    }
    assert_eq!(text, "done 2 1 6\n0 1 2 1 9 1");
    true
}

#[test]
fn t05_3_parameters_and_variables_of_the_pattern_in_the_pattern_of_a_rule() {
    let patterns = [
        [(0, 0), (65, 0), (64, 1)],
        [(0, 0), (64, 1), (65, 0)],
        [(0, 0), (65, 0), (65, 0)],
        [(0, 0), (64, 1), (65, 1)],
    ];
    for pattern in patterns {
        assert!(marked_by(1, &pattern, &[]), "{pattern:?}");
        assert!(marked_by(7, &pattern, &[]), "{pattern:?}");
        assert!(!marked_by(0, &pattern, &[]), "{pattern:?}");
    }
}

/// Parts that compare the variable, a name, with the names of the variable
/// `whole`, a transfer, or with itself.
fn comparing(whole: u32, variable: u32) -> [Vec<u32>; 6] {
    let same = (65, variable);
    [
        deconstruct(whole, &[(0, 0), same, (64, 1)]),
        deconstruct(whole, &[(0, 0), (64, 1), same]),
        search(0, whole, &[(0, 0), same, same]),
        search(1, whole, &[same]),
        deconstruct(variable, &[same]),
        search(1, variable, &[same]),
    ]
}

#[test]
fn t05_3_variables_of_every_kind_in_the_patterns_of_parts() {
    for name in [0, 1, 7] {
        let bind = |pattern: &[(u32, u32)], parts: &[Vec<u32>], whole, variable| {
            for part in comparing(whole, variable) {
                let parts = [parts, std::slice::from_ref(&part)].concat();
                let marked = marked_by(name, pattern, &parts);
                assert_eq!(marked, name > 0, "{name} by {part:?}");
            }
        };
        let both = [(0, 0), (64, 1), (64, 1)];
        let all = [(64, 0)];
        // A parameter; a variable of the pattern, with the transfer built.
        bind(&all, &[], 1, 0);
        bind(&both, &[construct(0, &[(0, 0), (65, 1), (65, 2)])], 3, 1);
        // Variables of a part that takes apart, and of one that searches.
        bind(&all, &[deconstruct(1, &both)], 1, 2);
        bind(&all, &[search(1, 1, &[(64, 1)])], 1, 2);
        // A built variable, written out and copied.
        bind(&all, &[construct(1, &[(1, name)])], 1, 2);
        bind(&all, &[construct(1, &[(65, 0)])], 1, 2);
    }
}

#[test]
fn t05_3_a_searching_part_tries_the_next_node() {
    // Leaves the first transfer in which both names are the same.
    let with = |transfers: &[(u32, u32)]| {
        let text = RuleText {
            pattern: &[(64, 0)],
            parts: &[search(2, 0, &[(2, 0), (64, 3), (65, 1)])],
            replacement: &[(0, 0), (1, 0), (2, 1), (65, 1), (1, 1)],
            ..NONE
        };
        on(LEDGER, 1, &[text], &ledger(transfers))
    };
    assert_eq!(
        with(&[(7, 8), (0, 0), (0, 0), (9, 9), (5, 5)]),
        "done 1 1 15\n0 0 5 1 0 4 2 1 2 3 9 1 1 1 1"
    );
    assert_eq!(
        with(&[(4, 4), (0, 0)]),
        "done 1 1 15\n0 0 5 1 0 4 2 1 2 3 4 1 1 1 1"
    );
    assert_eq!(
        with(&[(0, 0), (0, 0)]),
        "done 1 0 30\n0 0 10 1 0 9 2 0 3 3 0 1 3 0 1 1 0 5 2 0 3 3 0 1 3 0 1 1 1 1"
    );
}

#[test]
fn t05_3_a_searching_part_does_not_find_a_blank() {
    // Searches all names for a built one.
    let with = |built, transfers: &[(u32, u32)]| {
        let text = RuleText {
            pattern: &[(64, 0)],
            parts: &[construct(3, &[(3, built)]), search(3, 0, &[(65, 1)])],
            replacement: &[(0, 0), (1, 1)],
            ..NONE
        };
        on(LEDGER, 1, &[text], &ledger(transfers))
    };
    assert_eq!(
        with(0, &[(0, 7)]),
        "done 1 0 18\n0 0 6 1 0 5 2 0 3 3 0 1 3 7 1 1 1 1"
    );
    assert_eq!(with(7, &[(0, 7)]), "done 1 1 6\n0 0 2 1 1 1");
    assert_eq!(with(7, &[(0, 0), (0, 7)]), "done 1 1 6\n0 0 2 1 1 1");
    assert_eq!(
        with(8, &[(0, 7)]),
        "done 1 0 18\n0 0 6 1 0 5 2 0 3 3 0 1 3 7 1 1 1 1"
    );
}

#[test]
fn t05_3_in_the_pattern_of_a_rule_in_a_test() {
    // Rule 1 has the payer as scope and the payee as argument.
    let applied = chain(0, &[apply(1, &[1])]);
    let with_rule_1 = |part: Vec<u32>, replacement: &[(u32, u32)], tree: &[u32]| {
        let main = RuleText {
            pattern: &[(0, 0), (64, 1), (64, 1)],
            parts: &[part],
            replacement: &[(0, 1), (65, 0)],
            ..NONE
        };
        let same = RuleText {
            target: 1,
            parameters: &[1],
            pattern: &[(65, 0)],
            replacement,
            ..NONE
        };
        on(&transfers(&[NAME]), 2, &[main, same], tree)
    };
    let with = |part: fn(&[(u32, u32)]) -> Vec<u32>, payer, payee| {
        let tree = [0, 0, 1, payer, 1, payee];
        let text = with_rule_1(part(&applied), &[], &tree);
        // A rule with a replacement acts as a condition.
        assert_eq!(with_rule_1(part(&applied), &[(1, 9)], &tree), text);
        text
    };
    assert_eq!(with(condition, 0, 0), "done 2 0 9\n0 0 3 1 0 1 1 0 1");
    assert_eq!(with(condition, 7, 7), "done 2 1 6\n0 1 2 1 7 1");
    assert_eq!(with(condition, 7, 8), "done 2 0 9\n0 0 3 1 7 1 1 8 1");
    assert_eq!(with(not_condition, 0, 0), "done 2 1 6\n0 1 2 1 0 1");
    assert_eq!(with(not_condition, 7, 7), "done 2 0 9\n0 0 3 1 7 1 1 7 1");
    assert_eq!(with(not_condition, 7, 8), "done 2 1 6\n0 1 2 1 7 1");
}

/// The paper's grammar with this class for its numbers.
fn sequence_of_tokens(class: u32) -> Vec<u32> {
    vec![3, 8, 1, 1, 1, 4, 2, 1, class]
}

#[test]
fn t05_3_a_blank_lets_go_of_what_its_attempt_has_bound() {
    // Each attempt binds a name and the rest, in all more than can be live.
    let with = |names: &[u32]| {
        let text = RuleText {
            target: 1,
            reach: 1,
            pattern: &[(1, 0), (64, 2), (64, 1)],
            parts: &[deconstruct(0, &[(65, 0)])],
            replacement: &[(65, 1)],
            ..NONE
        };
        on(&sequence_of_tokens(1), 2_000, &[text], &list(names))
    };
    let mut names = vec![0; 1_023];
    assert_eq!(with(&names), ended(GRAMMAR, "done 1024 0", &list(&names)));
    names[1_022] = 7;
    assert_eq!(
        with(&names),
        ended(GRAMMAR, "done 1023 1", &list(&names[..1_022]))
    );
}

#[test]
fn t05_4_a_copy_of_a_blank() {
    let with = |parts: &[Vec<u32>], replacement: &[(u32, u32)], payer, payee| {
        let text = RuleText {
            pattern: &[(0, 0), (64, 1), (64, 1)],
            parts,
            replacement,
            ..NONE
        };
        on(&transfers(&[NAME]), 1, &[text], &[0, 0, 1, payer, 1, payee])
    };
    let swapped = [(0, 0), (65, 1), (65, 0)];
    assert_eq!(with(&[], &swapped, 0, 7), "done 1 1 9\n0 0 3 1 7 1 1 0 1");
    assert_eq!(with(&[], &swapped, 0, 0), "done 1 1 9\n0 0 3 1 0 1 1 0 1");
    let twice = [(0, 0), (65, 0), (65, 0)];
    assert_eq!(with(&[], &twice, 0, 7), "done 1 1 9\n0 0 3 1 0 1 1 0 1");
    // Copied to a build.
    let built = construct(0, &[(0, 0), (65, 1), (65, 0)]);
    assert_eq!(
        with(&[built], &[(65, 2)], 0, 7),
        "done 1 1 9\n0 0 3 1 7 1 1 0 1"
    );
}

#[test]
fn t05_4_a_blank_as_argument_and_as_scope() {
    // Puts the payee for the payer, and what rule 1 makes of the payee and the
    // argument, the payer, for the payee.
    let with = |pattern: &[(u32, u32)], replacement: &[(u32, u32)], payer, payee| {
        let main = RuleText {
            pattern: &[(0, 0), (64, 1), (64, 1)],
            replacement: &[vec![(0, 0), (65, 1)], chain(1, &[apply(1, &[0])])].concat(),
            ..NONE
        };
        let called = RuleText {
            target: 1,
            parameters: &[1],
            pattern,
            replacement,
            ..NONE
        };
        let tree = [0, 0, 1, payer, 1, payee];
        on(&transfers(&[NAME]), 2, &[main, called], &tree)
    };
    let any = [(64, 1)];
    let argument = [(65, 0)];
    assert_eq!(with(&any, &argument, 0, 7), "done 2 1 9\n0 0 3 1 7 1 1 0 1");
    assert_eq!(with(&any, &argument, 7, 0), "done 2 1 9\n0 0 3 1 0 1 1 7 1");
    assert_eq!(with(&any, &argument, 0, 0), "done 2 1 9\n0 0 3 1 0 1 1 0 1");
    // A scope that is blank, and a rule for blanks.
    let (blank, nine) = ([(1, 0)], [(1, 9)]);
    assert_eq!(with(&blank, &nine, 0, 0), "done 2 1 9\n0 0 3 1 0 1 1 9 1");
    assert_eq!(with(&blank, &nine, 0, 7), "done 2 1 9\n0 0 3 1 7 1 1 7 1");
}

#[test]
fn t05_4_a_test_of_a_blank() {
    let with = |part: fn(&[(u32, u32)]) -> Vec<u32>, pattern: &[(u32, u32)], payer| {
        let main = RuleText {
            pattern: &[(0, 0), (64, 1), (64, 1)],
            parts: &[part(&chain(0, &[apply(1, &[])]))],
            replacement: &[(0, 1), (65, 0)],
            ..NONE
        };
        let tested = RuleText {
            target: 1,
            pattern,
            ..NONE
        };
        let tree = [0, 0, 1, payer, 1, 8];
        on(&transfers(&[NAME]), 2, &[main, tested], &tree)
    };
    let (any, blank) = ([(64, 1)], [(1, 0)]);
    assert_eq!(with(condition, &any, 0), "done 2 1 6\n0 1 2 1 0 1");
    assert_eq!(
        with(not_condition, &any, 0),
        "done 2 0 9\n0 0 3 1 0 1 1 8 1"
    );
    assert_eq!(with(condition, &blank, 0), "done 2 1 6\n0 1 2 1 0 1");
    assert_eq!(with(condition, &blank, 7), "done 2 0 9\n0 0 3 1 7 1 1 8 1");
    assert_eq!(with(not_condition, &blank, 7), "done 2 1 6\n0 1 2 1 7 1");
}

#[test]
fn t05_4_equal_numbers() {
    let equal = |scope, argument| condition(&chain(scope, &[apply(1_008, &[argument])]));
    let with = |payer, payee| {
        let text = RuleText {
            pattern: &[(0, 0), (64, 1), (64, 1)],
            parts: &[equal(0, 1)],
            replacement: &[(0, 1), (65, 0)],
            ..NONE
        };
        on(
            &transfers(&[NUMBER]),
            1,
            &[text],
            &[0, 0, 1, payer, 1, payee],
        )
    };
    assert_eq!(with(0, 0), "done 1 1 6\n0 1 2 1 0 1");
    assert_eq!(with(0, 1), "done 1 0 9\n0 0 3 1 0 1 1 1 1");
    // Accounts of a number and a name, which is blank.
    let account = [(1, 0), (64, 2), (64, 3)];
    let text = RuleText {
        pattern: &[&[(0, 0)], &account[..], &account[..]].concat(),
        parts: &[equal(0, 2)],
        replacement: &[(0, 1), (1, 0), (65, 0), (65, 1)],
        ..NONE
    };
    let grammar = transfers(&[&[8, 1, 2, 2, 3], NUMBER, NAME]);
    let tree = [0, 0, 1, 0, 2, 5, 3, 0, 1, 0, 2, 5, 3, 0];
    assert_eq!(
        on(&grammar, 1, &[text], &tree),
        "done 1 1 12\n0 1 4 1 0 3 2 5 1 3 0 1"
    );
}

#[test]
fn t05_4_blanks_in_sequence_operations() {
    for class in [1, 3] {
        for operation in [JOIN, EXTRACT] {
            let text = RuleText {
                pattern: &[(0, 0), (64, 1)],
                replacement: &[vec![(0, 0)], chain(0, &[apply(operation, &[0])])].concat(),
                ..NONE
            };
            assert_eq!(
                on(&sequence_of_tokens(class), 1, &[text], &list(&[0, 7])),
                ended(GRAMMAR, "done 1 1", &list(&[0, 7, 0, 7]))
            );
        }
    }
    // Type 0 has a repeat 1 of names 2, and a number 3.
    let grammar = [4, 8, 1, 2, 1, 3, 4, 2, 1, 1, 1, 2];
    let text = RuleText {
        pattern: &[(0, 0), (64, 1), (64, 3)],
        replacement: &[vec![(0, 0), (1, 1)], chain(1, &[apply(LENGTH, &[0])])].concat(),
        ..NONE
    };
    let tree = [vec![0, 0], sequence(&[0, 0]), vec![3, 5]].concat();
    assert_eq!(
        on(&grammar, 1, &[text], &tree),
        "done 1 1 9\n0 0 3 1 1 1 3 200 1"
    );
}

#[test]
fn t05_5_a_written_out_token_matches_a_blank() {
    // Numbers 0 are matched alike, as before.
    for class in [1, 2, 3] {
        let grammar = transfers(&[&[1, class]]);
        let with = |pattern: &[(u32, u32)], payer, payee| {
            let text = RuleText {
                pattern,
                replacement: &[(0, 1), (1, 9)],
                ..NONE
            };
            let tree = [0, 0, 1, payer, 1, payee];
            let text = on(&grammar, 1, &[text], &tree);
            assert!(
                text == "done 1 1 6\n0 1 2 1 9 1" || text == ended(&grammar, "done 1 0", &tree)
            );
            text.starts_with("done 1 1")
        };
        // What a rule for two empty fields has to write.
        let both = [(0, 0), (1, 0), (1, 0)];
        assert!(with(&both, 0, 0));
        assert!(!with(&both, 0, 7) && !with(&both, 7, 0) && !with(&both, 7, 7));
        // Beside a new variable.
        let payee = [(0, 0), (64, 1), (1, 0)];
        assert!(with(&payee, 0, 0) && with(&payee, 7, 0));
        assert!(!with(&payee, 0, 7) && !with(&payee, 7, 7));
        let other = [(0, 0), (64, 1), (1, 7)];
        assert!(with(&other, 0, 7) && !with(&other, 0, 0));
    }
}

#[test]
fn t05_5_a_written_out_token_beside_the_same_tree() {
    // A payer, a payee and a purpose, or one name.
    let grammar = [2, 8, 2, 3, 1, 1, 1, 1, 1, 1, 1];
    let with = |payer, payee, purpose| {
        let text = RuleText {
            pattern: &[(0, 0), (64, 1), (65, 0), (1, 0)],
            replacement: &[(0, 1), (65, 0)],
            ..NONE
        };
        on(
            &grammar,
            1,
            &[text],
            &[0, 0, 1, payer, 1, payee, 1, purpose],
        )
    };
    assert_eq!(with(7, 7, 0), "done 1 1 6\n0 1 2 1 7 1");
    assert_eq!(with(7, 7, 7), "done 1 0 12\n0 0 4 1 7 1 1 7 1 1 7 1");
    assert_eq!(with(0, 0, 0), "done 1 0 12\n0 0 4 1 0 1 1 0 1 1 0 1");
}

#[test]
fn t05_5_a_written_out_token_in_parts() {
    let with = |parts: &[Vec<u32>], payer, payee| {
        let text = RuleText {
            pattern: &[(64, 0)],
            parts,
            replacement: &[(0, 1), (1, 9)],
            ..NONE
        };
        on(&transfers(&[NAME]), 1, &[text], &[0, 0, 1, payer, 1, payee])
    };
    let marked = "done 1 1 6\n0 1 2 1 9 1";
    let taken_apart = [deconstruct(0, &[(0, 0), (1, 0), (1, 0)])];
    assert_eq!(with(&taken_apart, 0, 0), marked);
    assert_eq!(with(&taken_apart, 0, 7), "done 1 0 9\n0 0 3 1 0 1 1 7 1");
    let searched = [search(1, 0, &[(1, 0)])];
    assert_eq!(with(&searched, 0, 7), marked);
    assert_eq!(with(&searched, 7, 0), marked);
    assert_eq!(with(&searched, 7, 7), "done 1 0 9\n0 0 3 1 7 1 1 7 1");
    // A variable that is blank, taken apart by a blank.
    let variable = [search(1, 0, &[(64, 1)]), deconstruct(1, &[(1, 0)])];
    assert_eq!(with(&variable, 0, 7), marked);
    assert_eq!(with(&variable, 7, 0), "done 1 0 9\n0 0 3 1 7 1 1 0 1");
}

#[test]
fn t05_5_a_new_variable_matches_a_blank() {
    // Numbers 0 are matched alike, as before.
    for class in [1, 2, 3] {
        let with = |pattern: &[(u32, u32)], parts: &[Vec<u32>], variable, payer, payee| {
            let text = RuleText {
                pattern,
                parts,
                replacement: &[(0, 1), (65, variable)],
                ..NONE
            };
            let grammar = transfers(&[&[1, class]]);
            on(&grammar, 1, &[text], &[0, 0, 1, payer, 1, payee])
        };
        let both = [(0, 0), (64, 1), (64, 1)];
        assert_eq!(with(&both, &[], 0, 0, 0), "done 1 1 6\n0 1 2 1 0 1");
        assert_eq!(with(&both, &[], 1, 0, 7), "done 1 1 6\n0 1 2 1 7 1");
        // In parts: the first name is taken, blank or not.
        let all = [(64, 0)];
        let apart = [deconstruct(0, &both)];
        assert_eq!(with(&all, &apart, 1, 0, 0), "done 1 1 6\n0 1 2 1 0 1");
        let first = [search(1, 0, &[(64, 1)])];
        assert_eq!(with(&all, &first, 1, 0, 7), "done 1 1 6\n0 1 2 1 0 1");
    }
}
