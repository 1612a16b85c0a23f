//! A pad over many runs: each answers as on a new one, whatever came before.

use tamarind::limits::{GREATEST_BUDGET, LEAST_BUDGET};
use tamarind::{output, run, Outcome, Pad, Posting, Refusal, Stop, RESULT_WORDS, WORK_WORDS};

const GRAMMAR: [u32; 9] = [3, 8, 1, 1, 1, 4, 2, 1, 2];
const RULES: [u32; 10] = [1, 9, 2, 2, 1, 2, 200, 1, 2, 4200];
const SLIP: [u32; 18] = [0, 0, 6, 1, 0, 5, 2, 200, 1, 1, 0, 3, 2, 500, 1, 1, 1, 1];
const REWRITTEN: [u32; 18] = [0, 0, 6, 1, 0, 5, 2, 4200, 1, 1, 0, 3, 2, 500, 1, 1, 1, 1];
const SHORT: [u32; 12] = [0, 0, 4, 1, 0, 3, 2, 700, 1, 1, 1, 1];
/// The second count is that of the sequence behind it.
const MISCOUNTED: [u32; 12] = [0, 0, 4, 1, 0, 1, 2, 700, 1, 1, 1, 1];

fn done(attempts: u32, replacements: u32, words: &[u32]) -> Posting<'_> {
    let outcome = Outcome::Ended {
        stop: None,
        attempts,
        replacements,
        filled: words.len(),
    };
    Posting { outcome, words }
}

/// After a stop the slip is posted, though the result holds another.
fn stopped() -> Posting<'static> {
    let outcome = Outcome::Ended {
        stop: Some(Stop::BudgetSpent),
        attempts: 2,
        replacements: 1,
        filled: REWRITTEN.len(),
    };
    Posting {
        outcome,
        words: &SLIP,
    }
}

fn refused(number: u32, position: usize, words: &[u32]) -> Posting<'_> {
    let outcome = Outcome::Refused(Refusal { number, position });
    Posting { outcome, words }
}

#[test]
fn each_run_of_a_list_answers_as_on_a_new_pad() {
    let mut pad = Pad::default();
    for _ in 0..3 {
        assert_eq!(pad.run(&GRAMMAR, &RULES, &SLIP, 3), done(3, 1, &REWRITTEN));
        assert_eq!(pad.run(&GRAMMAR, &RULES, &SHORT, 3), done(1, 0, &SHORT));
        assert_eq!(pad.run(&GRAMMAR, &RULES, &SLIP, 2), stopped());
        let ends_early = refused(Refusal::SLIP_END, 3, &SLIP[..3]);
        assert_eq!(pad.run(&GRAMMAR, &RULES, &SLIP[..3], 3), ends_early);
        let miscounted = refused(Refusal::SLIP_COUNT, 5, &MISCOUNTED);
        assert_eq!(pad.run(&GRAMMAR, &RULES, &MISCOUNTED, 3), miscounted);
        let no_words = refused(Refusal::SLIP_SIZE, 0, &[]);
        assert_eq!(pad.run(&GRAMMAR, &RULES, &[], 3), no_words);
    }
}

#[test]
fn budgets_just_within_and_just_outside() {
    let mut pad = Pad::new();
    let within = done(1, 0, &SHORT);
    let outside = refused(Refusal::BUDGET, 0, &SHORT);
    for (budget, expected) in [
        (LEAST_BUDGET - 1, outside),
        (LEAST_BUDGET, within),
        (GREATEST_BUDGET, within),
        (GREATEST_BUDGET + 1, outside),
    ] {
        let posting = pad.run(&GRAMMAR, &RULES, &SHORT, budget);
        assert_eq!(posting, expected, "{budget}");
    }
}

#[test]
fn a_pad_answers_as_memories_that_are_lent() {
    let (mut result, mut work) = ([7; RESULT_WORDS], [7; WORK_WORDS]);
    let outcome = run(&GRAMMAR, &RULES, &SLIP, 3, &mut result, &mut work);
    let words = output(&outcome, &result, &SLIP);
    let mut pad = Pad::new();
    let posting = pad.run(&GRAMMAR, &RULES, &SLIP, 3);
    assert_eq!(posting, Posting { outcome, words });
    assert!(outcome.is_done() && !stopped().outcome.is_done());
    assert!(!refused(1, 0, &[]).outcome.is_done());
}

#[test]
fn a_pad_is_as_large_as_its_page_says() {
    assert_eq!(size_of::<Pad>(), 88 * 1_024);
}
