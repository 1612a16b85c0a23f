//! The sentences of T-07 (the count in the node) and the readings T07-1 to
//! T07-6, one test each or more. All outcomes are worked out by hand, but for
//! those of all small slips, whose counts are known as they are made.

mod common;

use std::slice::from_ref;

use common::*;
use reference::bench::answer;
use reference::grammar::Grammar;
use reference::tree::Tree;
use reference::{check_grammar, check_rules, check_slip, limits, run, Outcome, Refusal};

fn refusal(grammar: &[u32], slip: &[u32]) -> Option<(u32, usize)> {
    let refusal = check_slip(grammar, slip).err();
    refusal.map(|refusal| (refusal.number, refusal.position))
}

/// The refusal of a slip with one word changed.
fn with_word(grammar: &[u32], slip: &[u32], position: usize, word: u32) -> Option<(u32, usize)> {
    let mut slip = slip.to_vec();
    slip[position] = word;
    refusal(grammar, &slip)
}

/// Counts that are wrong for a node: about it, without itself, of its words,
/// at the limits, and such as are right when only some bits are looked at.
fn wrong_counts(node: &[u32]) -> Vec<u32> {
    let [_, value, count] = *node else {
        panic!("three words a node: {node:?}");
    };
    let mut wrong = vec![0, 1, 2, 3, value, 2_047, 2_048, 2_049, 4_096, 6_144];
    wrong.extend([count - 1, count + 1, count + 2, 2 * count, 3 * count]);
    for bit in [8, 11, 12, 16, 24, 31] {
        wrong.push(count | 1 << bit);
        wrong.push(count << bit);
    }
    wrong.extend([i32::MAX as u32, 1 << 31, u32::MAX - count, u32::MAX]);
    wrong.retain(|&wrong| wrong != count);
    wrong
}

/// Holds a slip to be right, and each of its counts to be told if it is wrong.
fn every_count_is_told(grammar: &[u32], slip: &[u32]) {
    assert_eq!(refusal(grammar, slip), None, "{slip:?}");
    for (index, node) in slip.chunks_exact(3).enumerate() {
        let position = 3 * index + 2;
        for wrong in wrong_counts(node) {
            assert_eq!(
                with_word(grammar, slip, position, wrong),
                Some((34, position)),
                "{wrong} in {slip:?}"
            );
        }
    }
}

#[test]
fn t07_the_example_slip() {
    let slip = [0, 0, 6, 1, 0, 5, 2, 200, 1, 1, 0, 3, 2, 500, 1, 1, 1, 1];
    assert_eq!(SLIP, slip);
    assert_eq!(refusal(GRAMMAR, &slip), None);
    assert_eq!(slip.to_vec(), common::slip(GRAMMAR, TREE));
    every_count_is_told(GRAMMAR, &slip);
}

#[test]
fn t07_the_cases_of_the_example() {
    let with = |slip: &[u32]| {
        let refusal = refusal(GRAMMAR, slip).expect("a refusal");
        let text = format!("refused {} {}", refusal.0, refusal.1);
        assert_eq!(bench_slip(3, GRAMMAR, RULES, slip), text);
        refusal
    };
    assert_eq!(with(&[0, 0, 1]), (31, 3));
    assert_eq!(with(&[SLIP, &[1, 1, 1]].concat()), (31, 18));
    for too_large in [4_000_000_001, u32::MAX] {
        let mut slip = SLIP.to_vec();
        slip[7] = too_large;
        assert_eq!(with(&slip), (32, 7));
    }
    assert_eq!(with_word(GRAMMAR, SLIP, 7, 4_000_000_000), None);
}

#[test]
fn t07_the_bench_reads_and_prints_this_edition() {
    let input = |budget: u32| {
        format!(
            "{budget} 9 3 8 1 1 1 4 2 1 2 10 1 9 2 2 1 2 200 1 2 4200 \
             18 0 0 6 1 0 5 2 200 1 1 0 3 2 500 1 1 1 1"
        )
    };
    let rewritten = "0 0 6 1 0 5 2 4200 1 1 0 3 2 500 1 1 1 1";
    let cases = [
        (3, "done 3 1 18"),
        (2, "stopped 40 2 1 18"),
        (1, "stopped 40 1 1 18"),
    ];
    for (budget, line) in cases {
        let text = format!("{line}\n{rewritten}\n");
        assert_eq!(answer(input(budget).as_bytes()), text);
    }
    // A wrong count is refused, and nothing is run.
    let wrong = input(3).replace(" 0 0 6 ", " 0 0 7 ");
    assert_eq!(answer(wrong.as_bytes()), "refused 34 2\n");
    let wrong = input(3).replace(" 1 0 3 ", " 1 0 2 ");
    assert_eq!(answer(wrong.as_bytes()), "refused 34 11\n");
}

#[test]
fn t07_the_edition_of_two_words_is_not_read_any_more() {
    // Twelve words are four nodes: 0 0 1, 0 2 200, 1 0 2, 500 1 1.
    assert_eq!(refusal(GRAMMAR, TREE), Some((32, 3)));
    // 0 0 1, 1 with a word missing each.
    assert_eq!(refusal(GRAMMAR, &[0, 0]), Some((30, 0)));
    assert_eq!(refusal(GRAMMAR, &[0, 0, 1, 1]), Some((30, 0)));
    let input = "3 9 3 8 1 1 1 4 2 1 2 10 1 9 2 2 1 2 200 1 2 4200 \
                 12 0 0 1 0 2 200 1 0 2 500 1 1";
    assert_eq!(answer(input.as_bytes()), "refused 32 3\n");
}

#[test]
fn t07_1_every_length() {
    // A root of type 9 is 32 at 0, unless the length is wrong.
    for word in [9, u32::MAX] {
        let words = vec![word; 6_300];
        for length in 0..words.len() {
            let whole = length > 0 && length % 3 == 0 && length <= 6_144;
            let expected = if whole { (32, 0) } else { (30, 0) };
            let refusal = refusal(GRAMMAR, &words[..length]);
            assert_eq!(refusal, Some(expected), "{length}");
        }
    }
    for length in [0, 1, 2, 4, 5, 6_143, 6_145, 6_146, 6_147, 8_192, 12_288] {
        let refusal = refusal(GRAMMAR, &vec![0; length]);
        assert_eq!(refusal, Some((30, 0)), "{length}");
    }
    for length in [6, 4_095, 4_098, 6_141, 6_144] {
        let refusal = refusal(GRAMMAR, &vec![0; length]);
        assert_eq!(refusal, Some((32, 3)), "{length}");
    }
    assert_eq!(refusal(GRAMMAR, &[0, 0, 0]), Some((31, 3)));
}

#[test]
fn t07_1_30_before_anything_the_words_hold() {
    // A slip that is right but for a word or two at its end.
    let great = slip(GRAMMAR, &list_of_nodes(2_048));
    assert_eq!(great.len(), 6_144);
    for slip in [SLIP, &great] {
        assert_eq!(refusal(GRAMMAR, slip), None);
        for more in [&[1][..], &[1, 1]] {
            let longer = [slip, more].concat();
            assert_eq!(refusal(GRAMMAR, &longer), Some((30, 0)));
        }
        for less in 1..=2 {
            let shorter = &slip[..slip.len() - less];
            assert_eq!(refusal(GRAMMAR, shorter), Some((30, 0)));
        }
        // A whole node less is 31 at the length.
        let shorter = &slip[..slip.len() - 3];
        assert_eq!(refusal(GRAMMAR, shorter), Some((31, shorter.len())));
    }
    // A node more than 2,048 is 30, not 31 at 6,144.
    let longer = [&great[..], &[1, 1, 1]].concat();
    assert_eq!(refusal(GRAMMAR, &longer), Some((30, 0)));
    // A tree of 2,050 nodes, in all else right.
    let longer = slip(GRAMMAR, &list_of_nodes(2_050));
    assert_eq!(refusal(GRAMMAR, &longer), Some((30, 0)));
}

#[test]
fn t07_1_30_after_the_grammar_and_the_rules() {
    let long = vec![0; 16_385];
    for slip in [&[][..], &[1], &[0, 0, 7]] {
        assert_eq!(check_slip(&long, slip), Err(Refusal::new(4, 0)));
        assert_eq!(check_slip(&[0], slip), Err(Refusal::new(11, 0)));
        assert_eq!(bench_slip(3, &[0], RULES, slip), "refused 11 0");
        assert_eq!(bench_slip(3, GRAMMAR, &[0], slip), "refused 21 0");
        assert_eq!(bench_slip(0, GRAMMAR, RULES, slip), "refused 3 0");
    }
    assert_eq!(bench_slip(3, GRAMMAR, RULES, &[1]), "refused 30 0");
}

#[test]
fn t07_1_the_result_needs_6144() {
    let refused = |slip: &[u32], budget, result, work| match run(
        GRAMMAR, RULES, slip, budget, result, work,
    ) {
        Outcome::Refused(refusal) => Some((refusal.number, refusal.position)),
        Outcome::Ended { .. } => None,
    };
    for result in [0, 18, 4_095, 4_096, 6_141, 6_142, 6_143] {
        assert_eq!(refused(SLIP, 3, result, 16_384), Some((1, 0)), "{result}");
        // It comes before all others.
        assert_eq!(refused(&[7], 0, result, 0), Some((1, 0)), "{result}");
    }
    for result in [6_144, 6_145, 6_147, 100_000] {
        assert_eq!(refused(SLIP, 3, result, 16_384), None, "{result}");
        assert_eq!(refused(SLIP, 0, result, 16_384), Some((3, 0)), "{result}");
        // Work memory stays at its length.
        assert_eq!(refused(SLIP, 3, result, 16_383), Some((2, 0)), "{result}");
    }
    assert_eq!(refused(SLIP, 3, 6_144, 24_576), None);
    assert_eq!(limits::SLIP_WORDS, 6_144);
    assert_eq!(limits::RESULT_WORDS, 6_144);
    assert_eq!(limits::WORK_WORDS, 16_384);
    assert_eq!(limits::NODES, 2_048);
}

/// The slip with the same count in all nodes, for several counts, and as it
/// is.
fn with_any_counts(slip: &[u32]) -> Vec<Vec<u32>> {
    let with = |count| {
        let nodes = slip.chunks_exact(3);
        nodes.flat_map(|node| [node[0], node[1], count]).collect()
    };
    let mut slips: Vec<Vec<u32>> = [0, 1, 2, 3, 6, 2_048, u32::MAX].map(with).into();
    slips.push(slip.to_vec());
    slips
}

#[test]
fn t07_2_the_tree_is_read_by_grammar_not_by_its_counts() {
    for slip in with_any_counts(SLIP) {
        let with = |position, word| with_word(GRAMMAR, &slip, position, word);
        for index in 0..6 {
            // Each type is at 3i, and each value at 3i + 1.
            for wrong in [3, 63, 64, u32::MAX] {
                assert_eq!(with(3 * index, wrong), Some((32, 3 * index)));
            }
            for wrong in [4_000_000_001, u32::MAX] {
                assert_eq!(with(3 * index + 1, wrong), Some((32, 3 * index + 1)));
            }
            // It ends early at the length.
            if index > 0 {
                let short = &slip[..3 * index];
                assert_eq!(refusal(GRAMMAR, short), Some((31, 3 * index)));
            }
        }
        // Form 1, and the value 2 of a repeat.
        assert_eq!(with(1, 1), Some((32, 1)));
        assert_eq!(with(4, 2), Some((32, 4)));
        // The first word behind the tree, whatever stands there.
        for over in [&[1, 1, 1][..], &[9, 9, 9], SLIP, &[u32::MAX; 30]] {
            let longer = [&slip, over].concat();
            assert_eq!(refusal(GRAMMAR, &longer), Some((31, 18)));
        }
    }
}

#[test]
fn t07_2_counts_that_fit_the_length_but_not_the_tree() {
    // The root says 1, and so does the length: one node, but the tree has more.
    assert_eq!(refusal(GRAMMAR, &[0, 0, 1]), Some((31, 3)));
    // The root says 3, which are there: the tree has two.
    assert_eq!(
        refusal(GRAMMAR, &[0, 0, 3, 1, 1, 1, 1, 1, 1]),
        Some((31, 6))
    );
    // The root says 2, but four nodes are there and belong to it.
    let short_count = [0, 0, 2, 1, 0, 3, 2, 7, 1, 1, 1, 1];
    assert_eq!(refusal(GRAMMAR, &short_count), Some((34, 2)));
    // A repeat that says 1, as if it were empty.
    let empty_count = [0, 0, 4, 1, 0, 1, 2, 7, 1, 1, 1, 1];
    assert_eq!(refusal(GRAMMAR, &empty_count), Some((34, 5)));
    // An empty repeat that says 3, as if it had an element and a rest.
    let full_count = [0, 0, 4, 1, 1, 3, 2, 7, 1, 1, 1, 1];
    assert_eq!(refusal(GRAMMAR, &full_count), Some((31, 6)));
}

#[test]
fn t07_2_nesting_is_at_the_type() {
    // Optional of itself: each node is one deeper, and has one node less.
    let grammar = [1, 2, 0];
    let chain = |nodes: u32| -> Vec<u32> {
        let nodes = (1..=nodes).rev();
        let words = nodes.flat_map(|count| [0, u32::from(count == 1), count]);
        words.collect()
    };
    assert_eq!(chain(3), [0, 0, 3, 0, 0, 2, 0, 1, 1]);
    every_count_is_told(&grammar, &chain(64));
    for nodes in [65, 66, 100, 2_048] {
        for slip in with_any_counts(&chain(nodes)) {
            assert_eq!(refusal(&grammar, &slip), Some((33, 192)), "{nodes}");
        }
    }
    // Nesting 65 and another fault at the node, as without counts.
    for slip in with_any_counts(&chain(65)) {
        let with = |position, word| with_word(&grammar, &slip, position, word);
        assert_eq!(with(192, 1), Some((32, 192)));
        assert_eq!(with(193, 7), Some((33, 192)));
        assert_eq!(refusal(&grammar, &slip[..192]), Some((31, 192)));
    }
}

#[test]
fn t07_2_nesting_in_a_sequence_of_itself() {
    for map in [4, 16] {
        let grammar = [1, map, 0];
        // Each element holds the next; the rests stand behind the innermost.
        let nested = |levels: u32| -> Vec<u32> {
            let above = (0..levels).flat_map(|level| [0, 0, 2 * (levels - level) + 1]);
            let ends = [0, 1, 1].repeat(levels as usize + 1);
            above.chain(ends).collect()
        };
        assert_eq!(nested(1), [0, 0, 3, 0, 1, 1, 0, 1, 1]);
        every_count_is_told(&grammar, &nested(63));
        for slip in with_any_counts(&nested(64)) {
            assert_eq!(refusal(&grammar, &slip), Some((33, 192)));
        }
    }
}

#[test]
fn t07_3_the_root_an_inner_and_the_last_count() {
    let with = |position, wrong| with_word(GRAMMAR, SLIP, position, wrong);
    // One too few, one too many, 0, the greatest, the value, without itself.
    for wrong in [5, 7, 0, u32::MAX] {
        assert_eq!(with(2, wrong), Some((34, 2)));
    }
    for wrong in [2, 4, 0, u32::MAX] {
        assert_eq!(with(11, wrong), Some((34, 11)));
    }
    for wrong in [0, 2, 200, u32::MAX] {
        assert_eq!(with(8, wrong), Some((34, 8)));
    }
    for wrong in [0, 2, 3, u32::MAX] {
        assert_eq!(with(17, wrong), Some((34, 17)));
    }
    // All nodes without themselves, all with their words, all with their
    // nesting, all with their children, each first wrong at the root.
    for counts in [
        [5, 4, 0, 2, 0, 0],
        [18, 15, 3, 9, 3, 3],
        [1, 2, 3, 2, 3, 2],
        [1, 2, 0, 2, 0, 0],
        [7, 6, 2, 4, 2, 2],
        [0; 6],
    ] {
        assert_eq!(with_counts(&counts), Some((34, 2)), "{counts:?}");
    }
    // How many nodes are still to come, itself included: wrong at the number.
    assert_eq!(with_counts(&[6, 5, 4, 3, 2, 1]), Some((34, 8)));
}

/// The refusal of the example with these counts.
fn with_counts(counts: &[u32; 6]) -> Option<(u32, usize)> {
    let mut slip = SLIP.to_vec();
    for (node, count) in slip.chunks_exact_mut(3).zip(counts) {
        node[2] = *count;
    }
    refusal(GRAMMAR, &slip)
}

#[test]
fn t07_3_a_count_of_its_own_value() {
    // One number, whose value is also 1: right, and wrong with each other one.
    assert_eq!(refusal(&[1, 1, 2], &[0, 1, 1]), None);
    for value in [0, 2, 200, 4_000_000_000] {
        assert_eq!(refusal(&[1, 1, 2], &[0, value, 1]), None);
        assert_eq!(refusal(&[1, 1, 2], &[0, value, value]), Some((34, 2)));
    }
}

#[test]
fn t07_3_the_first_of_several_wrong_counts() {
    let right = [6, 5, 1, 3, 1, 1];
    assert_eq!(with_counts(&right), None);
    for first in 0..6 {
        for second in first + 1..6 {
            for (one, two) in [(1, 1), (u32::MAX, u32::MAX), (1, u32::MAX), (u32::MAX, 1)] {
                let mut counts = right;
                // One more and one less, so that sums may be right.
                counts[first] = counts[first].wrapping_add(one);
                counts[second] = counts[second].wrapping_add(two);
                let expected = Some((34, 3 * first + 2));
                assert_eq!(with_counts(&counts), expected, "{counts:?}");
            }
            let mut counts = right;
            counts.swap(first, second);
            if counts != right {
                let expected = Some((34, 3 * first + 2));
                assert_eq!(with_counts(&counts), expected, "{counts:?}");
            }
        }
    }
    // Each node has one more than its children say, but a number says 2: the
    // fault comes up to the root. With a rest that takes it back, to itself.
    assert_eq!(with_counts(&[7, 6, 2, 3, 1, 1]), Some((34, 2)));
    assert_eq!(with_counts(&[7, 6, 1, 4, 2, 1]), Some((34, 2)));
    assert_eq!(with_counts(&[6, 5, 0, 4, 2, 1]), Some((34, 8)));
    assert_eq!(with_counts(&[6, 5, 2, 2, 0, 1]), Some((34, 8)));
    assert_eq!(with_counts(&[6, 5, 1, 3, 2, 0]), Some((34, 14)));
    assert_eq!(with_counts(&[6, 5, 1, 3, 0, 2]), Some((34, 14)));
}

#[test]
fn t07_3_34_only_where_31_to_33_find_nothing() {
    for wrong in 0..6 {
        let mut slip = SLIP.to_vec();
        slip[3 * wrong + 2] = 0;
        assert_eq!(refusal(GRAMMAR, &slip), Some((34, 3 * wrong + 2)));
        // 32 at each type and value, before and behind the wrong count.
        for position in (0..18).filter(|position| position % 3 < 2) {
            let refusal = with_word(GRAMMAR, &slip, position, u32::MAX);
            assert_eq!(refusal, Some((32, position)));
        }
        // 31 at the end, and behind it.
        for length in [3, 6, 9, 12, 15] {
            let refusal = refusal(GRAMMAR, &slip[..length]);
            assert_eq!(refusal, Some((31, length)));
        }
        let longer = [&slip[..], &[0, 0, 0]].concat();
        assert_eq!(refusal(GRAMMAR, &longer), Some((31, 18)));
        // 30.
        let odd = [&slip[..], &[0]].concat();
        assert_eq!(refusal(GRAMMAR, &odd), Some((30, 0)));
    }
    // 33 at the last of 65 nodes, the count of the first one being wrong.
    let mut deep: Vec<u32> = (0..65).flat_map(|above| [0, 0, 65 - above]).collect();
    deep[193] = 1;
    for position in (2..195).step_by(3) {
        assert_eq!(with_word(&[1, 2, 0], &deep, position, 0), Some((33, 192)));
    }
}

#[test]
fn t07_3_34_comes_last_of_all_refusals() {
    let mut wrong = SLIP.to_vec();
    wrong[2] = 5;
    let with = |budget, grammar: &[u32], rules: &[u32]| bench_slip(budget, grammar, rules, &wrong);
    assert_eq!(with(3, GRAMMAR, RULES), "refused 34 2");
    assert_eq!(with(0, GRAMMAR, RULES), "refused 3 0");
    assert_eq!(with(3, &[0], RULES), "refused 11 0");
    assert_eq!(with(3, &[1, 8, 1, 1, 0], RULES), "refused 12 1");
    assert_eq!(with(3, GRAMMAR, &[1]), "refused 20 1");
    // 23 at the last word of the rules.
    let typing = [1, 9, 2, 2, 1, 2, 200, 1, 2, u32::MAX];
    assert_eq!(with(3, GRAMMAR, &typing), "refused 23 9");
    // No budget makes a run of it.
    assert_eq!(with(1_000_000, GRAMMAR, RULES), "refused 34 2");
}

/// The slip of a tree of the paper's grammar with that many numbers, all the
/// same: the root, then a repeat and a number in turn, then an empty repeat.
fn list_slip(numbers: u32, number: u32) -> Vec<u32> {
    let nodes = 2 * numbers + 2;
    let mut slip = vec![0, 0, nodes];
    for before in 0..numbers {
        slip.extend([1, 0, nodes - 1 - 2 * before, 2, number, 1]);
    }
    slip.extend([1, 1, 1]);
    slip
}

#[test]
fn t07_3_2048_nodes_and_each_count_of_a_long_sequence() {
    assert_eq!(list_slip(1, 7), [0, 0, 4, 1, 0, 3, 2, 7, 1, 1, 1, 1]);
    for map in [4, 16] {
        let grammar = [3, 8, 1, 1, 1, map, 2, 1, 2];
        let great = list_slip(1_023, 5);
        assert_eq!(great.len(), 6_144);
        assert_eq!(refusal(&grammar, &great), None);
        for index in 0..2_048 {
            let position = 3 * index + 2;
            // One more, one less, or one that is another node's.
            let wrong = match index % 3 {
                0 => great[position] + 1,
                1 => great[position] - 1,
                _ => great[2] - great[position],
            };
            let refusal = with_word(&grammar, &great, position, wrong);
            assert_eq!(refusal, Some((34, position)), "{index}");
        }
        for (index, node) in [0, 1, 2, 1_023, 1_024, 2_046, 2_047].map(|i| (i, &great[3 * i..])) {
            for wrong in wrong_counts(&node[..3]) {
                let position = 3 * index + 2;
                let refusal = with_word(&grammar, &great, position, wrong);
                assert_eq!(refusal, Some((34, position)), "{wrong}");
            }
        }
    }
}

/// A type of each kind. Type 0 has one form: an opt 1 of number 7, a repeat 2
/// of name 5, a literal, a list 3 of type 4, type 4, name 5, string 6, number
/// 7. Type 4 is `form 0: []`, `form 1: [literal]` or `form 2: [4, 7]`.
const KINDS: &[u32] = &[
    8, 8, 1, 8, 1, 2, 70_000, 3, 4, 5, 6, 7, 2, 7, 4, 5, 16, 4, 8, 3, 0, 1, 65_536, 2, 4, 7, 1, 1,
    1, 3, 1, 2,
];

#[test]
fn t07_3_each_kind_of_type() {
    assert_eq!(check_grammar(KINDS), Ok(()));
    let full = [
        &[0, 0, 19][..],
        &[1, 0, 2, 7, 250, 1],
        &[2, 0, 5, 5, 3, 1, 2, 0, 3, 5, 0, 1, 2, 1, 1],
        &[3, 0, 3, 4, 1, 1, 3, 1, 1],
        &[4, 2, 5, 4, 2, 3, 4, 0, 1, 7, 0, 1, 7, 9, 1],
        &[5, 65_535, 1, 6, 0, 1, 7, 4_000_000_000, 1],
    ];
    every_count_is_told(KINDS, &full.concat());
    // All that may be absent or empty.
    let least = [
        0, 0, 8, 1, 1, 1, 2, 1, 1, 3, 1, 1, 4, 0, 1, 5, 0, 1, 6, 0, 1, 7, 0, 1,
    ];
    every_count_is_told(KINDS, &least);
}

#[test]
fn t07_3_slips_of_one_node() {
    // A name, a number, a string, an opt, a repeat, a list, and forms without
    // elements, with a literal.
    let cases: [(&[u32], u32); 8] = [
        (&[1, 1, 1], 65_535),
        (&[1, 1, 2], 4_000_000_000),
        (&[1, 1, 3], 0),
        (&[1, 2, 0], 1),
        (&[1, 4, 0], 1),
        (&[1, 16, 0], 1),
        (&[1, 8, 2, 1, 0, 0], 1),
        (&[1, 8, 1, 1, 65_536], 0),
    ];
    for (grammar, value) in cases {
        every_count_is_told(grammar, &[0, value, 1]);
    }
}

/// Runs rules and holds that every count of the result is right, that it is
/// refused by nothing as a slip, and that a run on it is not refused.
fn ran(grammar: &[u32], budget: u32, texts: &[RuleText], slip: &[u32]) -> (String, Vec<u32>) {
    let words: Vec<Vec<u32>> = texts.iter().map(RuleText::words).collect();
    let rules = rules(&words);
    let outcome = |slip: &[u32]| match run(grammar, &rules, slip, budget, 6_144, 16_384) {
        Outcome::Refused(refusal) => panic!("{refusal:?} of {slip:?}"),
        Outcome::Ended {
            stop,
            attempts,
            replacements,
            words,
        } => {
            let ending = stop.map_or("done".to_string(), |stop| format!("stopped {stop}"));
            (format!("{ending} {attempts} {replacements}"), words)
        }
    };
    let (ending, result) = outcome(slip);
    assert_eq!(refusal(grammar, &result), None);
    assert_eq!(recounted(grammar, &result), result);
    outcome(&result);
    (ending, result)
}

/// A slip whose counts are found anew.
fn recounted(grammar: &[u32], words: &[u32]) -> Vec<u32> {
    let nodes = words.chunks_exact(3);
    let tree: Vec<u32> = nodes.flat_map(|node| [node[0], node[1]]).collect();
    slip(grammar, &tree)
}

fn is(ending: &str, slip: &[u32]) -> (String, Vec<u32>) {
    (ending.to_string(), slip.to_vec())
}

/// Puts 9 at the end of the sequence of the paper's grammar.
const APPENDING: RuleText = RuleText {
    target: 1,
    reach: 1,
    pattern: &[(1, 1)],
    replacement: &[(1, 0), (2, 9), (1, 1)],
    ..NONE
};

#[test]
fn t07_the_counts_above_a_replacement_follow() {
    // Grown at the end: all counts above it are 2 more.
    assert_eq!(
        ran(GRAMMAR, 9, &[APPENDING], SLIP),
        is(
            "done 3 1",
            &[0, 0, 8, 1, 0, 7, 2, 200, 1, 1, 0, 5, 2, 500, 1, 1, 0, 3, 2, 9, 1, 1, 1, 1]
        )
    );
    // Shrunk by the first element, and by the last.
    let without_first = RuleText {
        pattern: &[(1, 0), (64, 2), (64, 1)],
        replacement: &[(65, 1)],
        ..APPENDING
    };
    assert_eq!(
        ran(GRAMMAR, 9, &[without_first], SLIP),
        is("done 1 1", &[0, 0, 4, 1, 0, 3, 2, 500, 1, 1, 1, 1])
    );
    let without_last = RuleText {
        pattern: &[(1, 0), (64, 2), (1, 1)],
        replacement: &[(1, 1)],
        ..APPENDING
    };
    assert_eq!(
        ran(GRAMMAR, 9, &[without_last], SLIP),
        is("done 2 1", &[0, 0, 4, 1, 0, 3, 2, 200, 1, 1, 1, 1])
    );
}

#[test]
fn t07_the_counts_above_a_replacement_of_the_same_size_stay() {
    let renumbering = RuleText {
        target: 2,
        pattern: &[(64, 2)],
        replacement: &[(2, 7)],
        ..APPENDING
    };
    assert_eq!(
        ran(GRAMMAR, 9, &[renumbering], SLIP),
        is(
            "done 1 1",
            &[0, 0, 6, 1, 0, 5, 2, 7, 1, 1, 0, 3, 2, 500, 1, 1, 1, 1]
        )
    );
}

#[test]
fn t07_the_counts_of_a_tree_replaced_at_its_root() {
    let with = |pattern, replacement| {
        let text = RuleText {
            pattern,
            replacement,
            ..NONE
        };
        ran(GRAMMAR, 1, &[text], SLIP)
    };
    assert_eq!(
        with(&[(64, 0)], &[(0, 0), (1, 1)]),
        is("done 1 1", &[0, 0, 2, 1, 1, 1])
    );
    assert_eq!(with(&[(64, 0)], &[(65, 0)]), is("done 1 1", SLIP));
    // Two numbers, of which the first is copied to the end.
    let all: &[(u32, u32)] = &[(0, 0), (1, 0), (64, 2), (1, 0), (64, 2), (1, 1)];
    let turned: &[(u32, u32)] = &[
        (0, 0),
        (1, 0),
        (65, 1),
        (1, 0),
        (65, 0),
        (1, 0),
        (65, 1),
        (1, 1),
    ];
    assert_eq!(
        with(all, turned),
        is(
            "done 1 1",
            &[0, 0, 8, 1, 0, 7, 2, 500, 1, 1, 0, 5, 2, 200, 1, 1, 0, 3, 2, 500, 1, 1, 1, 1]
        )
    );
}

/// Type 0 is `form 0: []`, `form 1: [0]` or `form 2: [0, 0]`.
const FORMS: &[u32] = &[1, 8, 3, 0, 1, 0, 2, 0, 0];

#[test]
fn t07_the_counts_after_several_replacements() {
    // Each leaf goes one level down; two leaves below the root.
    let deepening = || RuleText {
        reach: 3,
        pattern: &[(0, 0)],
        replacement: &[(0, 1), (0, 0)],
        ..NONE
    };
    let with = |budget| ran(FORMS, budget, &[deepening()], &[0, 2, 3, 0, 0, 1, 0, 0, 1]);
    assert_eq!(with(1), is("stopped 40 1 0", &[0, 2, 3, 0, 0, 1, 0, 0, 1]));
    assert_eq!(
        with(2),
        is("stopped 40 2 1", &[0, 2, 4, 0, 1, 2, 0, 0, 1, 0, 0, 1])
    );
    assert_eq!(
        with(3),
        is("done 3 2", &[0, 2, 5, 0, 1, 2, 0, 0, 1, 0, 1, 2, 0, 0, 1])
    );
    // Levels are taken away one by one: 0 1 4, 0 1 3, 0 1 2, 0 0 1.
    let flattening = RuleText {
        reach: 2,
        pattern: &[(0, 1), (64, 0)],
        replacement: &[(65, 0)],
        ..NONE
    };
    assert_eq!(
        ran(
            FORMS,
            9,
            &[flattening],
            &[0, 1, 4, 0, 1, 3, 0, 1, 2, 0, 0, 1]
        ),
        is("done 4 3", &[0, 0, 1])
    );
}

#[test]
fn t07_the_counts_of_what_operations_and_calls_make() {
    let on_sequence = |applications: &[Vec<(u32, u32)>]| {
        let main = RuleText {
            pattern: &[(0, 0), (64, 1)],
            parts: &[construct(2, &[(2, 100)])],
            replacement: &[vec![(0, 0)], chain(0, applications)].concat(),
            ..NONE
        };
        ran(GRAMMAR, 9, &[main, APPENDING], SLIP)
    };
    let twice = [
        0, 0, 10, 1, 0, 9, 2, 200, 1, 1, 0, 7, 2, 500, 1, 1, 0, 5, 2, 200, 1, 1, 0, 3, 2, 500, 1,
        1, 1, 1,
    ];
    let one = [0, 0, 4, 1, 0, 3, 2, 200, 1, 1, 1, 1];
    let one_and_9 = [0, 0, 6, 1, 0, 5, 2, 200, 1, 1, 0, 3, 2, 9, 1, 1, 1, 1];
    let (join, extract) = (apply(JOIN, &[0]), apply(EXTRACT, &[0]));
    let (head, tail) = (apply(HEAD, &[1]), apply(TAIL, &[1]));
    let call = apply(1, &[]);
    assert_eq!(on_sequence(from_ref(&join)), is("done 1 1", &twice));
    assert_eq!(on_sequence(&[extract]), is("done 1 1", &twice));
    assert_eq!(on_sequence(from_ref(&head)), is("done 1 1", &one));
    assert_eq!(on_sequence(&[join, head.clone()]), is("done 1 1", &one));
    assert_eq!(on_sequence(&[tail]), is("done 1 1", SLIP));
    // Cut, and then grown by a call.
    assert_eq!(on_sequence(&[head, call]), is("done 3 1", &one_and_9));
}

#[test]
fn t07_5_without_a_replacement_the_result_is_the_slip() {
    let idle = || RuleText {
        target: 2,
        reach: 2,
        pattern: &[(2, 4_000_000_000)],
        replacement: &[(2, 1)],
        ..NONE
    };
    let with = |budget, slip: &[u32]| ran(GRAMMAR, budget, &[idle()], slip);
    assert_eq!(with(9, SLIP), is("done 2 0", SLIP));
    assert_eq!(with(1, SLIP), is("stopped 40 1 0", SLIP));
    assert_eq!(
        with(1, &[0, 0, 2, 1, 1, 1]),
        is("done 0 0", &[0, 0, 2, 1, 1, 1])
    );
    let great = list_slip(1_023, 5);
    assert_eq!(with(2_000, &great), is("done 1023 0", &great));
    assert_eq!(with(1_022, &great), is("stopped 40 1022 0", &great));
    // A slip of all kinds of types, and a rule that matches nothing in it.
    let least = [
        0, 0, 8, 1, 1, 1, 2, 1, 1, 3, 1, 1, 4, 0, 1, 5, 0, 1, 6, 0, 1, 7, 0, 1,
    ];
    let idle = RuleText {
        target: 7,
        reach: 1,
        pattern: &[(7, 5)],
        replacement: &[(7, 6)],
        ..NONE
    };
    assert_eq!(ran(KINDS, 9, &[idle], &least), is("done 1 0", &least));
}

/// Puts 9 in front of the sequence of the paper's grammar, for ever.
const PREPENDING: RuleText = RuleText {
    target: 1,
    reach: 2,
    pattern: &[(64, 1)],
    replacement: &[(1, 0), (2, 9), (65, 0)],
    ..NONE
};

const EMPTY: &[u32] = &[0, 0, 2, 1, 1, 1];

#[test]
fn t07_the_counts_after_a_stop_40() {
    let with = |budget| ran(GRAMMAR, budget, &[PREPENDING], EMPTY);
    for budget in [1, 2, 3, 100, 1_000] {
        let ending = format!("stopped 40 {budget} {budget}");
        assert_eq!(with(budget), is(&ending, &list_slip(budget, 9)));
    }
}

/// Puts what applications make of the first number, variable 0, in front of
/// it, again and again. Variable 2 is 1.00, and rule 1 calls itself for ever on
/// 0. The slip is 2.00.
fn lowering(applications: &[Vec<(u32, u32)>]) -> (String, Vec<u32>) {
    let lowered = chain(0, applications);
    let main = RuleText {
        pattern: &[(1, 0), (64, 2), (64, 1)],
        parts: &[construct(2, &[(2, 100)])],
        replacement: &[&[(1, 0)], &lowered[..], &[(1, 0), (65, 0), (65, 1)]].concat(),
        ..PREPENDING
    };
    let endless = RuleText {
        target: 2,
        pattern: &[(64, 2)],
        parts: &[deconstruct(0, &[(2, 0)])],
        replacement: &[(66, 0), (1, 0), (1, 0)],
        ..NONE
    };
    let slip = [0, 0, 4, 1, 0, 3, 2, 200, 1, 1, 1, 1];
    ran(GRAMMAR, 99, &[main, endless], &slip)
}

#[test]
fn t07_the_counts_after_stops_41_and_45() {
    let subtract = apply(1_001, &[2]);
    assert_eq!(
        lowering(from_ref(&subtract)),
        is(
            "stopped 45 3 2",
            &[0, 0, 8, 1, 0, 7, 2, 0, 1, 1, 0, 5, 2, 100, 1, 1, 0, 3, 2, 200, 1, 1, 1, 1]
        )
    );
    // Two attempts for 1.00, then one of rule 0 and 31 of rule 1.
    assert_eq!(
        lowering(&[subtract, apply(1, &[])]),
        is(
            "stopped 41 34 1",
            &[0, 0, 6, 1, 0, 5, 2, 100, 1, 1, 0, 3, 2, 200, 1, 1, 1, 1]
        )
    );
}

#[test]
fn t07_the_counts_after_stops_42_and_44() {
    // From 2 nodes on, 2 more each time, up to 2,048.
    assert_eq!(
        ran(GRAMMAR, 9_999, &[PREPENDING], EMPTY),
        is("stopped 42 1024 1023", &list_slip(1_023, 9))
    );
    // With n nodes, n + 3 x (n - 1) are live when all is bound and built, and
    // the replacement has n + 1: 6,138 for 1,228 nodes, 6,148 for 1,230.
    let holding = RuleText {
        parts: &vec![construct(1, &[(65, 0)]); 2],
        ..PREPENDING
    };
    assert_eq!(
        ran(GRAMMAR, 9_999, &[holding], EMPTY),
        is("stopped 44 615 614", &list_slip(614, 9))
    );
}

#[test]
fn t07_the_counts_after_a_stop_43() {
    // The tree goes one level down, beside a leaf, till its nesting is 64.
    let deepening = RuleText {
        reach: 2,
        pattern: &[(64, 0)],
        replacement: &[(0, 2), (65, 0), (0, 0)],
        ..NONE
    };
    let deepest: Vec<u32> = (1..=63)
        .rev()
        .flat_map(|below| [0, 2, 2 * below + 1])
        .chain([0, 0, 1].repeat(64))
        .collect();
    assert_eq!(
        ran(FORMS, 999, &[deepening], &[0, 0, 1]),
        is("stopped 43 64 63", &deepest)
    );
}

#[test]
fn t07_the_terminal_steps_over_fields_by_size() {
    // From each node its count leads behind its tree: by the counts alone the
    // numbers of a result are come to, and the end of each repeat is the same.
    let (_, result) = ran(GRAMMAR, 9, &[APPENDING], SLIP);
    let step = |node: usize| node + result[3 * node + 2] as usize;
    let end = result.len() / 3;
    assert_eq!(step(0), end);
    let mut repeat = 1;
    let mut numbers = Vec::new();
    while result[3 * repeat + 1] == 0 {
        assert_eq!(step(repeat), end);
        numbers.push(result[3 * (repeat + 1) + 1]);
        repeat = step(repeat + 1);
    }
    assert_eq!(numbers, [200, 500, 9]);
    assert_eq!(step(repeat), end);
}

#[test]
fn t07_trees_are_written_both_ways() {
    let grammar = Grammar::read(GRAMMAR).expect("the paper's grammar");
    let tree = Tree::read_slip(&grammar, SLIP).expect("the paper's slip");
    assert_eq!(tree.slip(), SLIP);
    assert_eq!(tree.words(), TREE);
    // Each tree in it is a stretch of both.
    for (index, part) in tree.preorder().enumerate() {
        let size = part.size();
        assert_eq!(part.slip(), &SLIP[3 * index..3 * (index + size)]);
        assert_eq!(part.words(), &TREE[2 * index..2 * (index + size)]);
    }
    let refusal = |slip: &[u32]| Tree::read_slip(&grammar, slip).err();
    assert_eq!(refusal(&[]), Some(Refusal::new(30, 0)));
    assert_eq!(refusal(&[0, 0, 3, 1, 1, 1]), Some(Refusal::new(34, 2)));
}

#[test]
fn t07_4_lengths_that_the_bench_reads() {
    let zeros = |length| bench_slip(3, GRAMMAR, RULES, &vec![0; length]);
    assert_eq!(zeros(6_144), "refused 32 3");
    assert_eq!(zeros(6_145), "refused 30 0");
    for length in [6_146, 6_147, 8_192, 20_000] {
        assert_eq!(zeros(length), "unread");
    }
    // No longer unread, though past the limit of two words a node.
    assert_eq!(zeros(4_097), "refused 30 0");
    assert_eq!(zeros(4_098), "refused 32 3");
    assert_eq!(zeros(0), "refused 30 0");
    for length in [1, 2, 4, 5, 6_143] {
        assert_eq!(zeros(length), "refused 30 0");
    }
    // Unread comes before every refusal, read ones in their order.
    assert_eq!(bench_slip(0, &[0], RULES, &[0; 6_146]), "unread");
    assert_eq!(bench_slip(0, &[0], RULES, &[0; 6_145]), "refused 3 0");
    // The lengths of grammar and rules stay.
    assert_eq!(bench_slip(3, &[0; 4_097], RULES, SLIP), "refused 4 0");
    assert_eq!(bench_slip(3, &[0; 4_098], RULES, SLIP), "unread");
    assert_eq!(bench_slip(3, GRAMMAR, &[0; 16_385], SLIP), "refused 5 0");
    assert_eq!(bench_slip(3, GRAMMAR, &[0; 16_386], SLIP), "unread");
}

#[test]
fn t07_4_words_are_three_times_the_nodes() {
    let idle = [1, 9, 2, 2, 1, 2, 200, 1, 2, 4200];
    for numbers in [0, 1, 2, 100, 681, 682, 1_022, 1_023] {
        let slip = list_slip(numbers, 5);
        let text = bench_slip(2_000, GRAMMAR, &idle, &slip);
        let words: Vec<String> = slip.iter().map(u32::to_string).collect();
        let count = 3 * (2 * numbers + 2);
        let expected = format!("done {numbers} 0 {count}\n{}", words.join(" "));
        assert_eq!(text, expected);
    }
}

#[test]
fn t07_4_a_slip_with_words_missing_or_left_over_is_unread() {
    let text = |length: usize, words: usize| {
        let slip: Vec<String> = SLIP[..words].iter().map(u32::to_string).collect();
        let slip = slip.join(" ");
        let text = format!("3 9 3 8 1 1 1 4 2 1 2 10 1 9 2 2 1 2 200 1 2 4200 {length} {slip}");
        answer(text.as_bytes())
    };
    assert!(text(18, 18).starts_with("done 3 1 18\n"));
    for words in 12..18 {
        assert_eq!(text(18, words), "unread\n");
        assert_eq!(text(words, 18), "unread\n");
    }
    assert_eq!(text(15, 15), "refused 31 15\n");
    assert_eq!(text(16, 16), "refused 30 0\n");
}

#[test]
fn t07_6_books_and_their_positions_are_untouched() {
    let with = |rules: &[u32]| {
        let refusal = check_rules(GRAMMAR, rules).err();
        let refusal = refusal.map(|refusal| (refusal.number, refusal.position));
        if let Some((number, position)) = refusal {
            let text = format!("refused {number} {position}");
            assert_eq!(bench_slip(3, GRAMMAR, rules, SLIP), text);
        }
        refusal
    };
    // Two words a pair: the paper's rules, and one fault of each number.
    assert_eq!(with(RULES), None);
    assert_eq!(with(&[1, 9, 2, 2, 1, 2, 200, 1, 2]), Some((20, 9)));
    assert_eq!(with(&[1, 9, 2, 4, 1, 2, 200, 1, 2, 4200]), Some((21, 3)));
    assert_eq!(with(&[1, 9, 2, 2, 1, 64, 2, 1, 65, 1]), Some((22, 9)));
    assert_eq!(with(&[1, 9, 2, 2, 1, 2, 200, 1, 1, 1]), Some((23, 8)));
    // The 65th pair of a pattern of 64 levels, at word 4 + 2 x 64.
    let deep = [vec![1, 8, 0, 65], [0, 0].repeat(64), vec![0, 1, 1, 0, 1]].concat();
    assert_eq!(check_rules(&[1, 2, 0], &deep), Err(Refusal::new(24, 132)));
    // A pattern of three words a node is pairs of something else: 1 pair
    // 2 200, then 1 pair 1 2, and two words left over.
    let counted = [1, 9, 2, 2, 1, 2, 200, 1, 1, 2, 4200, 1];
    assert_eq!(with(&counted), Some((20, 10)));
    // 128 pairs and 16,384 words, no more.
    let pairs = |count: u32| [vec![1, 9, 2, 2, count], vec![0; 300]].concat();
    assert_eq!(with(&pairs(129)), Some((21, 4)));
    assert_eq!(with(&vec![9; 16_384]).map(|refusal| refusal.0), Some(21));
    assert_eq!(with(&vec![9; 16_385]), Some((5, 0)));
}

/// Type 0 is `form 0: []`, `form 1: [opt 1]`, `form 2: [repeat 2, literal,
/// list 3]`, `form 3: [number 4]` or `form 4: [0, 0]`. The opt is of type 0,
/// the repeat of numbers, the list of type 0.
const SMALL: &[u32] = &[
    5, 8, 5, 0, 1, 1, 3, 2, 65_536, 3, 1, 4, 2, 0, 0, 2, 0, 4, 4, 16, 0, 1, 2,
];

/// The children that a node of `SMALL` has with each of its values.
fn alternatives(ty: u32) -> &'static [(u32, &'static [u32])] {
    match ty {
        0 => &[(0, &[]), (1, &[1]), (2, &[2, 3]), (3, &[4]), (4, &[0, 0])],
        1 => &[(0, &[0]), (1, &[])],
        2 => &[(0, &[4, 2]), (1, &[])],
        3 => &[(0, &[0, 3]), (1, &[])],
        _ => &[(0, &[]), (3, &[])],
    }
}

/// The slips of all trees of a type with that many nodes: the root says so, and
/// its children share the others.
fn slips(ty: u32, nodes: u32) -> Vec<Vec<u32>> {
    if nodes == 0 {
        return Vec::new();
    }
    let with = |&(value, children): &(u32, &[u32])| {
        let below = shared(children, nodes - 1).into_iter();
        below.map(move |below| [vec![ty, value, nodes], below].concat())
    };
    alternatives(ty).iter().flat_map(with).collect()
}

/// All rows of trees of these types that have that many nodes in all.
fn shared(types: &[u32], nodes: u32) -> Vec<Vec<u32>> {
    let Some((&first, later)) = types.split_first() else {
        return vec![vec![]; usize::from(nodes == 0)];
    };
    let mut rows = Vec::new();
    for taken in 1..=nodes {
        let others = shared(later, nodes - taken);
        for tree in slips(first, taken) {
            rows.extend(others.iter().map(|other| [&tree[..], other].concat()));
        }
    }
    rows
}

/// All slips of `SMALL` with at most 8 nodes.
fn small_slips() -> Vec<Vec<u32>> {
    let slips: Vec<Vec<u32>> = (1..=8).flat_map(|nodes| slips(0, nodes)).collect();
    // 1, 3, 3, 9, 21, 48, 136 and 345 of 1 to 8 nodes.
    assert_eq!(slips.len(), 566);
    assert!(slips.iter().all(|slip| recounted(SMALL, slip) == *slip));
    slips
}

#[test]
fn t07_3_every_wrong_count_of_all_small_slips() {
    for slip in small_slips() {
        every_count_is_told(SMALL, &slip);
    }
}

#[test]
fn t07_3_all_counts_of_the_smallest_slips() {
    // Every row of counts from 0 to nodes + 1 for slips of up to 5 nodes.
    for slip in (1..=5).flat_map(|nodes| slips(0, nodes)) {
        let nodes = slip.len() / 3;
        let choices = nodes + 2;
        let mut right = 0;
        for row in 0..choices.pow(nodes as u32) {
            let mut changed = slip.clone();
            let mut later = row;
            for node in changed.chunks_exact_mut(3) {
                node[2] = (later % choices) as u32;
                later /= choices;
            }
            let first = (0..slip.len()).find(|&word| slip[word] != changed[word]);
            right += usize::from(first.is_none());
            let expected = first.map(|word| (34, word));
            assert_eq!(refusal(SMALL, &changed), expected, "{changed:?}");
        }
        assert_eq!(right, 1);
    }
}

#[test]
fn t07_3_other_faults_of_all_small_slips_with_a_wrong_count() {
    for slip in small_slips() {
        let end = slip.len();
        for wrong in (2..end).step_by(3) {
            let mut counted = slip.clone();
            counted[wrong] += 1;
            assert_eq!(refusal(SMALL, &counted), Some((34, wrong)));
            for node in (0..end).step_by(3) {
                let with = |position, word| with_word(SMALL, &counted, position, word);
                assert_eq!(with(node, 5), Some((32, node)));
                assert_eq!(with(node + 1, u32::MAX), Some((32, node + 1)));
                if node > 0 {
                    assert_eq!(refusal(SMALL, &counted[..node]), Some((31, node)));
                }
            }
            let over = [&counted[..], &[0, 0, 1]].concat();
            assert_eq!(refusal(SMALL, &over), Some((31, end)));
            let odd = [&counted[..], &[0]].concat();
            assert_eq!(refusal(SMALL, &odd), Some((30, 0)));
        }
    }
}

#[test]
fn t07_every_count_is_right_after_runs_on_all_small_slips() {
    let text = |target, reach, pattern, replacement| RuleText {
        target,
        reach,
        pattern,
        replacement,
        ..NONE
    };
    let rules: [&dyn Fn(u32) -> RuleText<'static>; 5] = [
        // Any tree goes into a list; a leaf too; an opt, a repeat and a list
        // are emptied or grown.
        &|reach| text(0, reach, &[(0, 1), (64, 1)], &[(0, 0)]),
        &|reach| {
            let grown = &[(0, 2), (2, 1), (3, 0), (0, 3), (4, 3), (3, 1)];
            text(0, reach, &[(0, 0)], grown)
        },
        &|reach| text(1, reach, &[(1, 0), (64, 0)], &[(1, 1)]),
        &|reach| text(2, reach, &[(2, 1)], &[(2, 0), (4, 3), (2, 1)]),
        &|reach| text(3, reach, &[(3, 0), (64, 0), (64, 3)], &[(65, 1)]),
    ];
    for slip in small_slips() {
        for rule in rules {
            for reach in 1..=3 {
                for budget in [1, 2, 5] {
                    ran(SMALL, budget, &[rule(reach)], &slip);
                }
            }
        }
    }
}
