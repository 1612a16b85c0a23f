//! The readings B (bench), C (call), G (grammar) and S (tree) with T02-1 and
//! T02-3 (larger amounts), one test each. T-04 adds the list to the grammar,
//! T-07 a count to each node of a slip.

mod common;

use common::*;
use reference::bench::answer;
use reference::{check_grammar, check_rules, check_slip, run, Outcome, Refusal};

fn grammar_refusal(words: &[u32]) -> Option<(u32, usize)> {
    let refusal = check_grammar(words).err();
    refusal.map(|refusal| (refusal.number, refusal.position))
}

fn slip_refusal(grammar: &[u32], slip: &[u32]) -> Option<(u32, usize)> {
    let refusal = check_slip(grammar, slip).err();
    refusal.map(|refusal| (refusal.number, refusal.position))
}

/// The refusal of the slip of a tree whose nodes are those that its grammar
/// wants, but for values of tokens.
fn tree_refusal(grammar: &[u32], tree: &[u32]) -> Option<(u32, usize)> {
    slip_refusal(grammar, &slip(grammar, tree))
}

/// The example as text, in which a test changes something.
fn example() -> String {
    "3 9 3 8 1 1 1 4 2 1 2 10 1 9 2 2 1 2 200 1 2 4200 \
     18 0 0 6 1 0 5 2 200 1 1 0 3 2 500 1 1 1 1"
        .to_string()
}

const DONE: &str = "done 3 1 18\n0 0 6 1 0 5 2 4200 1 1 0 3 2 500 1 1 1 1\n";

#[test]
fn b1_numbers_over_u32_are_unread() {
    let budget = |text: &str| answer(example().replacen('3', text, 1).as_bytes());
    assert_eq!(budget("4294967295"), "refused 3 0\n");
    assert_eq!(budget("4294967296"), "unread\n");
    assert_eq!(budget("99999999999999999999999"), "unread\n");
    let word = |text: &str| answer(example().replace(" 500 ", text).as_bytes());
    assert_eq!(word(" 4294967295 "), "refused 32 13\n");
    assert_eq!(word(" 4294967296 "), "unread\n");
}

#[test]
fn t02_3_a_number_too_great_is_refused_where_it_stands() {
    let example = example();
    let words: Vec<&str> = example.split(' ').collect();
    let with = |index: usize, text| {
        let mut words = words.clone();
        words[index] = text;
        answer(words.join(" ").as_bytes())
    };
    // Behind the budget stand a length and 9 words, a length and 10 words, a
    // length and 18 words.
    let lengths = [1, 11, 22];
    let (grammar, rules, slip) = (2, 12, 23);
    assert_eq!(
        with(slip + 13, "4000000000"),
        "done 3 1 18\n0 0 6 1 0 5 2 4200 1 1 0 3 2 4000000000 1 1 1 1\n"
    );
    for too_great in ["4000000001", "4294967295"] {
        assert_eq!(with(0, too_great), "refused 3 0\n");
        assert_eq!(with(grammar + 8, too_great), "refused 11 8\n");
        assert_eq!(with(rules + 6, too_great), "refused 23 6\n");
        assert_eq!(with(rules + 9, too_great), "refused 23 9\n");
        assert_eq!(with(slip + 7, too_great), "refused 32 7\n");
        assert_eq!(with(slip + 13, too_great), "refused 32 13\n");
        // No place makes it unread but a length, being past its limit.
        for index in 0..words.len() {
            let unread = with(index, too_great) == "unread\n";
            assert_eq!(unread, lengths.contains(&index), "{too_great} at {index}");
        }
    }
    for index in 0..words.len() {
        assert_eq!(with(index, "4294967296"), "unread\n", "{index}");
    }
}

#[test]
fn b2_a_number_is_ascii_digits() {
    let budget = |text: &str| answer(example().replacen('3', text, 1).as_bytes());
    assert_eq!(budget("003"), DONE);
    assert_eq!(budget("00000000000000000003"), DONE);
    for other in ["+3", "-3", "3.0", "3,", "0x3", "1_0", "three", "٣"] {
        assert_eq!(budget(other), "unread\n", "{other}");
    }
}

#[test]
fn b3_any_ascii_white_space_stands_between_numbers() {
    for space in ["  ", "\t", "\n", "\r\n", "\x0b", "\x0c", " \n\t "] {
        let text = format!("{space}{}{space}", example().replace(' ', space));
        assert_eq!(answer(text.as_bytes()), DONE, "{space:?}");
    }
    for other in ["\0", "\u{a0}", "\u{2003}", ";", "\x1c", "\u{85}"] {
        let text = example().replacen(' ', other, 1);
        assert_eq!(answer(text.as_bytes()), "unread\n", "{other:?}");
    }
    let invalid = [example().as_bytes(), b" \xff"].concat();
    assert_eq!(answer(&invalid), "unread\n");
}

#[test]
fn b4_numbers_left_over_are_unread() {
    assert_eq!(answer((example() + " 1").as_bytes()), "unread\n");
}

#[test]
fn b5_too_few_numbers_are_unread() {
    let text = example();
    let words: Vec<&str> = text.split(' ').collect();
    for kept in 0..words.len() {
        assert_eq!(answer(words[..kept].join(" ").as_bytes()), "unread\n");
    }
}

#[test]
fn b6_lengths_one_past_their_limit_are_read() {
    let zeros = |length| vec![0; length];
    assert_eq!(bench_slip(3, &zeros(4_097), RULES, SLIP), "refused 4 0");
    assert_eq!(bench_slip(3, GRAMMAR, &zeros(16_385), SLIP), "refused 5 0");
    assert_eq!(bench_slip(3, GRAMMAR, RULES, &zeros(6_145)), "refused 30 0");
    assert_eq!(bench_slip(3, &zeros(4_098), RULES, SLIP), "unread");
    assert_eq!(bench_slip(3, GRAMMAR, &zeros(16_386), SLIP), "unread");
    assert_eq!(bench_slip(3, GRAMMAR, RULES, &zeros(6_146)), "unread");
    assert_eq!(bench_slip(0, &zeros(4_098), RULES, SLIP), "unread");
}

#[test]
fn b7_empty_input_and_length_0() {
    assert_eq!(answer(b""), "unread\n");
    assert_eq!(answer(b" \n"), "unread\n");
    assert_eq!(bench_slip(3, &[], RULES, SLIP), "refused 10 0");
    assert_eq!(bench_slip(3, GRAMMAR, &[], SLIP), "refused 20 0");
    assert_eq!(bench_slip(3, GRAMMAR, RULES, &[]), "refused 30 0");
}

#[test]
fn b8_lines_end_and_blanks_are_single() {
    assert_eq!(answer(example().as_bytes()), DONE);
    assert_eq!(
        answer(example().replacen('3', "2", 1).as_bytes()),
        "stopped 40 2 1 18\n0 0 6 1 0 5 2 4200 1 1 0 3 2 500 1 1 1 1\n"
    );
    assert_eq!(
        answer(example().replacen('3', "0", 1).as_bytes()),
        "refused 3 0\n"
    );
}

#[test]
fn c1_call_refusals_by_number() {
    let long_grammar = vec![0; 4_097];
    let long_rules = vec![0; 16_385];
    let with = |budget, grammar, rules| bench_slip(budget, grammar, rules, SLIP);
    assert_eq!(with(0, &long_grammar, &long_rules), "refused 3 0");
    assert_eq!(with(1_000_001, &long_grammar, &long_rules), "refused 3 0");
    assert_eq!(with(1, &long_grammar, &long_rules), "refused 4 0");
    assert_eq!(with(1, &[0], &long_rules), "refused 5 0");
    assert_eq!(
        first_line(1_000_000, GRAMMAR, RULES, TREE),
        "done 3 1 18",
        "the greatest budget"
    );
}

#[test]
fn c2_tree_lengths_come_after_grammar_and_rules() {
    assert_eq!(bench_slip(3, &[0], RULES, &[1]), "refused 11 0");
    assert_eq!(bench_slip(3, GRAMMAR, &[0], &[1]), "refused 21 0");
    assert_eq!(bench_slip(3, GRAMMAR, RULES, &[1]), "refused 30 0");
}

#[test]
fn c3_memories_and_single_checks() {
    let refused = |budget, result, work| match run(&[], RULES, SLIP, budget, result, work) {
        Outcome::Refused(refusal) => (refusal.number, refusal.position),
        ended => panic!("{ended:?}"),
    };
    assert_eq!(refused(0, 6_143, 16_383), (1, 0));
    assert_eq!(refused(0, 6_144, 16_383), (2, 0));
    assert_eq!(refused(0, 6_144, 16_384), (3, 0));
    assert_eq!(refused(1, 6_144, 16_384), (10, 0));

    let long = vec![0; 16_385];
    assert_eq!(check_grammar(&long), Err(Refusal::new(4, 0)));
    assert_eq!(check_grammar(GRAMMAR), Ok(()));
    assert_eq!(check_rules(&long, &long), Err(Refusal::new(4, 0)));
    assert_eq!(check_rules(&[0], &long), Err(Refusal::new(5, 0)));
    assert_eq!(check_rules(&[0], RULES), Err(Refusal::new(11, 0)));
    assert_eq!(check_rules(GRAMMAR, RULES), Ok(()));
    assert_eq!(check_slip(&long, &[]), Err(Refusal::new(4, 0)));
    assert_eq!(check_slip(&[0], &[]), Err(Refusal::new(11, 0)));
    assert_eq!(check_slip(GRAMMAR, &[]), Err(Refusal::new(30, 0)));
    assert_eq!(check_slip(GRAMMAR, SLIP), Ok(()));
}

#[test]
fn g1_only_five_maps() {
    for map in (0..=32).chain([0x8000_0000, u32::MAX]) {
        let refused = grammar_refusal(&[1, map, 0]) == Some((11, 1));
        assert_eq!(refused, !matches!(map, 1 | 2 | 4 | 8 | 16), "{map}");
    }
}

#[test]
fn g2_the_first_fault_in_reading_order() {
    let cases: &[(&[u32], (u32, usize))] = &[
        (&[], (10, 0)),
        (&[0], (11, 0)),
        (&[65, 1, 1], (11, 0)),
        (&[1], (10, 1)),
        (&[1, 1], (10, 2)),
        (&[1, 1, 0], (11, 2)),
        (&[1, 1, 4], (11, 2)),
        (&[1, 1, 1, 1], (10, 3)),
        (&[2, 1, 1], (10, 3)),
        (&[1, 8], (10, 2)),
        (&[1, 8, 0], (11, 2)),
        (&[1, 8, 17], (11, 2)),
        (&[1, 8, 1, 9], (11, 3)),
        (&[1, 8, 2, 0], (10, 4)),
        (&[2, 1, 1, 8, 1, 1, 2], (11, 6)),
        (&[2, 1, 7, 9, 1, 1, 2], (11, 2)),
    ];
    for (words, refusal) in cases {
        assert_eq!(grammar_refusal(words), Some(*refusal), "{words:?}");
    }
    // 64 types, 16 forms and 8 elements are allowed.
    let mut words = vec![64];
    words.extend([1, 3].repeat(63));
    words.extend([8, 16]);
    words.extend([8, 0, 1, 2, 3, 4, 5, 6, 63].repeat(15));
    words.extend([0]);
    assert_eq!(grammar_refusal(&words), None);
}

#[test]
fn g3_words_left_over_beat_12() {
    assert_eq!(grammar_refusal(&[1, 8, 1, 1, 0, 7]), Some((10, 5)));
    assert_eq!(grammar_refusal(&[1, 8, 1, 1, 0]), Some((12, 1)));
}

#[test]
fn g4_no_finite_tree_whether_reached_or_not() {
    assert_eq!(grammar_refusal(&[2, 1, 1, 8, 1, 1, 1]), Some((12, 3)));
    // Two types that need each other: the lowest is told.
    assert_eq!(
        grammar_refusal(&[3, 1, 1, 8, 1, 1, 2, 8, 1, 2, 0, 1]),
        Some((12, 3))
    );
    // Finite, though its least tree has 1 + 8 + 64 + 512 + 4,096 nodes.
    let mut words = vec![5];
    for below in 1..=4 {
        words.extend([8, 1, 8]);
        words.extend([below; 8]);
    }
    words.extend([1, 1]);
    assert_eq!(grammar_refusal(&words), None);
}

#[test]
fn g5_literals_only_in_forms() {
    assert_eq!(grammar_refusal(&[1, 2, 65_536]), Some((11, 2)));
    assert_eq!(grammar_refusal(&[1, 4, 65_536]), Some((11, 2)));
    assert_eq!(grammar_refusal(&[1, 16, 65_536]), Some((11, 2)));
    assert_eq!(grammar_refusal(&[1, 2, 1]), Some((11, 2)));
    let form = |element| grammar_refusal(&[1, 8, 1, 1, element]);
    assert_eq!(form(65_536), None);
    assert_eq!(form(131_071), None);
    assert_eq!(form(65_535), Some((11, 4)));
    assert_eq!(form(131_072), Some((11, 4)));
    assert_eq!(form(1), Some((11, 4)));
    // A literal has no node: the form has one child.
    let grammar = [2, 8, 1, 3, 70_000, 1, 70_001, 1, 1];
    assert_eq!(tree_refusal(&grammar, &[0, 0, 1, 65_535]), None);
}

#[test]
fn g6_optional_and_sequence_of_themselves() {
    assert_eq!(grammar_refusal(&[1, 2, 0]), None);
    assert_eq!(grammar_refusal(&[1, 4, 0]), None);
    assert_eq!(grammar_refusal(&[1, 16, 0]), None);
    assert_eq!(grammar_refusal(&[2, 2, 1, 4, 0]), None);
    assert_eq!(grammar_refusal(&[2, 16, 1, 4, 0]), None);
}

#[test]
fn s1_the_root_has_type_0_and_each_child_the_type_due() {
    let with = |slip| slip_refusal(GRAMMAR, slip);
    assert_eq!(with(&[1, 1, 1]), Some((32, 0)));
    assert_eq!(with(&[0, 0, 2, 2, 5, 1]), Some((32, 3)));
    assert_eq!(with(&[0, 1, 2, 1, 1, 1]), Some((32, 1)));
    assert_eq!(with(&[0, 0, 2, 1, 2, 1]), Some((32, 4)));
    // Names and strings go to 65,535.
    assert_eq!(tree_refusal(&[1, 1, 1], &[0, 65_536]), Some((32, 1)));
    assert_eq!(tree_refusal(&[1, 1, 3], &[0, 65_536]), Some((32, 1)));
    assert_eq!(tree_refusal(&[1, 1, 3], &[0, 0]), None);
}

#[test]
fn t02_1_values_of_tokens_in_a_tree() {
    let with = |class, value| tree_refusal(&[1, 1, class], &[0, value]);
    for value in [0, 999_999_999, 1_000_000_000, 1 << 31, 4_000_000_000] {
        assert_eq!(with(2, value), None, "{value}");
    }
    for value in [4_000_000_001, u32::MAX] {
        assert_eq!(with(2, value), Some((32, 1)), "{value}");
    }
    // At the value, wherever the number stands.
    let third = |value| tree_refusal(GRAMMAR, &list(&[4_000_000_000, 0, value]));
    assert_eq!(third(4_000_000_000), None);
    assert_eq!(third(4_000_000_001), Some((32, 19)));
    assert_eq!(third(u32::MAX), Some((32, 19)));
    // Names and strings keep 65,535.
    for class in [1, 3] {
        assert_eq!(with(class, 65_535), None);
        for value in [65_536, 999_999_999, 4_000_000_000, u32::MAX] {
            assert_eq!(with(class, value), Some((32, 1)), "{value}");
        }
    }
}

#[test]
fn s2_nesting_65_and_other_faults() {
    // Optional of itself: each node is one deeper.
    let grammar = [1, 2, 0];
    // 64 nodes with the counts of a tree of 65, and what is given at word
    // 3 x 64.
    let with = |end: &[u32]| {
        let above = (0..64).flat_map(|above| [0, 0, 65 - above]);
        let slip: Vec<u32> = above.chain(end.iter().copied()).collect();
        slip_refusal(&grammar, &slip)
    };
    let deepest = [[0, 0].repeat(63), vec![0, 1]].concat();
    assert_eq!(tree_refusal(&grammar, &deepest), None);
    assert_eq!(with(&[0, 1, 1]), Some((33, 192)));
    assert_eq!(with(&[1, 1, 1]), Some((32, 192)));
    assert_eq!(with(&[0, 7, 1]), Some((33, 192)));
    assert_eq!(with(&[]), Some((31, 192)));
}

#[test]
fn s3_the_rest_keeps_the_nesting_by_its_position() {
    let grammar = [1, 4, 0];
    let long = [[0, 0, 0, 1].repeat(1_023), vec![0, 1]].concat();
    assert_eq!(tree_refusal(&grammar, &long), None);
    // Elements in elements: (0, 0) opens an element one deeper and a rest.
    let deep = |levels: usize| [[0, 0].repeat(levels), [0, 1].repeat(levels + 1)].concat();
    assert_eq!(tree_refusal(&grammar, &deep(63)), None);
    assert_eq!(tree_refusal(&grammar, &deep(64)), Some((33, 192)));
}

#[test]
fn s4_30_before_anything_the_words_hold() {
    assert_eq!(slip_refusal(GRAMMAR, &[9]), Some((30, 0)));
    assert_eq!(slip_refusal(GRAMMAR, &[]), Some((30, 0)));
    assert_eq!(slip_refusal(GRAMMAR, &vec![9; 6_147]), Some((30, 0)));
    assert_eq!(tree_refusal(GRAMMAR, &list_of_nodes(2_048)), None);
    assert_eq!(tree_refusal(GRAMMAR, &list_of_nodes(2_050)), Some((30, 0)));
}
