//! The wrappers on the paper's examples, and the slips at each of their
//! refusals.

mod common;

use common::{numbers, opts, GRAMMAR, OPTS, SLIP, TWO_WORD_SLIP};
use tamarind::limits::{MOST_NODES, MOST_SLIP_WORDS};
use tamarind::{check_grammar, check_rules, check_slip, Refusal};

fn refused(number: u32, position: usize) -> Result<(), Refusal> {
    Err(Refusal { number, position })
}

#[test]
fn the_papers_grammar_passes() {
    assert_eq!(check_grammar(&GRAMMAR), Ok(()));
}

#[test]
fn a_refusal_has_its_number_and_position_and_prints_its_meaning() {
    let refusal = check_grammar(&[1, 8, 1, 1, 0]).unwrap_err();
    let expected = Refusal {
        number: 12,
        position: 1,
    };
    assert_eq!(refusal, expected);
    let printed = "refused 12 at word 1: a type of which no finite tree exists";
    assert_eq!(refusal.to_string(), printed);
}

#[test]
fn no_words_are_refused_not_read() {
    assert_eq!(check_grammar(&[]), refused(10, 0));
    assert_eq!(check_slip(&GRAMMAR, &[]), refused(30, 0));
}

#[test]
fn the_papers_slip_passes_and_its_cases_are_refused() {
    assert_eq!(check_slip(&GRAMMAR, &SLIP), Ok(()));
    assert_eq!(numbers(&[200, 500]), SLIP);
    assert_eq!(check_slip(&GRAMMAR, &[0, 0, 1]), refused(31, 3));
    let longer = [&SLIP[..], &[1, 1, 1]].concat();
    assert_eq!(check_slip(&GRAMMAR, &longer), refused(31, 18));
    let mut over = SLIP;
    over[7] = 4_000_000_001;
    assert_eq!(check_slip(&GRAMMAR, &over), refused(32, 7));
}

#[test]
fn each_wrong_count_is_refused_at_its_word() {
    for (node, words) in SLIP.chunks_exact(3).enumerate() {
        let right = words[2];
        let wrong = [0, right - 1, right + 1, right + 4_096, right + 65_536];
        let greatest = [u32::MAX - 1, u32::MAX];
        for count in wrong.into_iter().chain(greatest) {
            let mut slip = SLIP;
            slip[3 * node + 2] = count;
            let expected = refused(Refusal::SLIP_COUNT, 3 * node + 2);
            assert_eq!(check_slip(&GRAMMAR, &slip), expected, "{slip:?}");
        }
    }
}

#[test]
fn of_wrong_counts_the_first_is_told() {
    for first in 0..6 {
        let mut slip = SLIP;
        for count in slip.iter_mut().skip(2).step_by(3).skip(first) {
            *count += 1;
        }
        assert_eq!(check_slip(&GRAMMAR, &slip), refused(34, 3 * first + 2));
    }
    // The last of 2,048 nodes.
    let mut full = numbers(&[7; 1_023]);
    full[6_143] = 2;
    assert_eq!(check_slip(&GRAMMAR, &full), refused(34, 6_143));
}

#[test]
fn a_wrong_count_is_told_only_where_nothing_else_is_wrong() {
    let mut slip = SLIP;
    slip[2] = 7;
    assert_eq!(check_slip(&GRAMMAR, &slip), refused(34, 2));
    assert_eq!(check_slip(&GRAMMAR, &slip[..15]), refused(31, 15));
    let longer = [&slip[..], &[1, 1, 1]].concat();
    assert_eq!(check_slip(&GRAMMAR, &longer), refused(31, 18));
    for (position, word) in [(15, 2), (16, 2), (13, 4_000_000_001)] {
        let mut other = slip;
        other[position] = word;
        assert_eq!(check_slip(&GRAMMAR, &other), refused(32, position));
    }
    // Nested one too deep, at the last node.
    let mut deep = opts(65);
    deep[2] = 0;
    assert_eq!(check_slip(&OPTS, &deep), refused(33, 3 * 64));
    let mut deep = opts(64);
    assert_eq!(check_slip(&OPTS, &deep), Ok(()));
    deep[3 * 63 + 2] = 0;
    assert_eq!(check_slip(&OPTS, &deep), refused(34, 3 * 63 + 2));
}

#[test]
fn counts_do_not_say_where_a_tree_ends() {
    // By its counts the sequence would end with its first number.
    let ends = [0, 0, 4, 1, 0, 3, 2, 200, 1, 1, 0, 1];
    assert_eq!(check_slip(&GRAMMAR, &ends), refused(31, 12));
    // By its counts the number would have a child.
    let goes_on = [0, 0, 5, 1, 0, 4, 2, 200, 2, 2, 500, 1, 1, 1, 1];
    assert_eq!(check_slip(&GRAMMAR, &goes_on), refused(32, 9));
}

#[test]
fn lengths_just_within_and_just_outside() {
    let full = numbers(&[7; 1_023]);
    assert_eq!((full.len(), MOST_SLIP_WORDS), (6_144, 6_144));
    assert_eq!(full.len(), 3 * MOST_NODES);
    assert_eq!(check_slip(&GRAMMAR, &full), Ok(()));
    // One word more, and one node more.
    for more in [&[1][..], &[1, 1, 1]] {
        let longer = [&full[..], more].concat();
        assert_eq!(check_slip(&GRAMMAR, &longer), refused(30, 0));
    }
    for length in 0..SLIP.len() {
        let expected = match length {
            0 => refused(30, 0),
            _ if length % 3 == 0 => refused(31, length),
            _ => refused(30, 0),
        };
        assert_eq!(check_slip(&GRAMMAR, &SLIP[..length]), expected);
    }
    // Before anything that the words hold.
    assert_eq!(check_slip(&GRAMMAR, &[9, 9, 9, 9]), refused(30, 0));
}

#[test]
fn a_slip_of_two_words_a_node_is_refused() {
    assert_eq!(check_slip(&GRAMMAR, &TWO_WORD_SLIP), refused(32, 3));
    let short = [0, 0, 1, 1];
    assert_eq!(check_slip(&GRAMMAR, &short), refused(30, 0));
}

#[test]
fn the_papers_rules_pass_and_a_form_for_the_number_is_refused() {
    let mut rules = [1, 9, 2, 2, 1, 2, 200, 1, 2, 4200];
    assert_eq!(check_rules(&GRAMMAR, &rules), Ok(()));
    rules[8] = 1;
    assert_eq!(check_rules(&GRAMMAR, &rules), refused(23, 8));
}
