//! The exported functions, each behind a safe one. A Rattle slice is a pointer
//! and then a length.

#![allow(unsafe_code)]

use core::mem::{offset_of, size_of};

use crate::{ConversionRefusal, Outcome, Refusal, Stop, WhichGrammar};

/// A single check's answer, as the core returns it.
#[repr(C)]
pub struct Answer {
    number: u32,
    position: usize,
}

impl From<Answer> for Result<(), Refusal> {
    fn from(answer: Answer) -> Self {
        match answer.number {
            0 => Ok(()),
            number => Err(Refusal {
                number,
                position: answer.position,
            }),
        }
    }
}

/// A run's outcome, as the core returns it.
#[repr(C)]
pub struct RunAnswer {
    ending: u32,
    number: u32,
    position: usize,
    attempts: u32,
    replacements: u32,
    filled: usize,
}

/// Where the words to post lie, as the core returns it.
#[repr(C)]
pub struct Posting {
    source: u32,
    words: usize,
}

/// What came of a conversion, as the core returns it.
#[repr(C)]
pub struct ConversionAnswer {
    number: u32,
    position: usize,
    grammar: u32,
    filled: usize,
}

// The layouts that the archive is compiled for, those of include/tamarind.h.
const _: () = {
    assert!(size_of::<usize>() == 8);
    assert!(size_of::<Answer>() == 16 && offset_of!(Answer, position) == 8);
    assert!(size_of::<RunAnswer>() == 32 && offset_of!(RunAnswer, number) == 4);
    assert!(offset_of!(RunAnswer, position) == 8 && offset_of!(RunAnswer, attempts) == 16);
    assert!(offset_of!(RunAnswer, replacements) == 20 && offset_of!(RunAnswer, filled) == 24);
    assert!(size_of::<Posting>() == 16 && offset_of!(Posting, words) == 8);
    assert!(size_of::<bool>() == 1 && size_of::<ConversionAnswer>() == 32);
    assert!(offset_of!(ConversionAnswer, position) == 8);
    assert!(offset_of!(ConversionAnswer, grammar) == 16);
    assert!(offset_of!(ConversionAnswer, filled) == 24);
};

const DONE: u32 = 0;
const STOPPED: u32 = 1;
const REFUSED: u32 = 2;

const POST_SLIP: u32 = 0;
const POST_RESULT: u32 = 1;

const OLD_GRAMMAR: u32 = 1;
const NEW_GRAMMAR: u32 = 2;

impl From<RunAnswer> for Outcome {
    fn from(answer: RunAnswer) -> Self {
        let ended = |stop| Outcome::Ended {
            stop,
            attempts: answer.attempts,
            replacements: answer.replacements,
            filled: answer.filled,
        };
        match (answer.ending, answer.number) {
            (DONE, _) => ended(None),
            (STOPPED, number) => {
                let stop = Stop::from_number(number);
                ended(Some(stop.expect("the core stops only by 40 to 45")))
            }
            (REFUSED, number) => Outcome::Refused(Refusal {
                number,
                position: answer.position,
            }),
            (ending, _) => unreachable!("the core has no ending {ending}"),
        }
    }
}

/// The words filled, or the refusal.
impl From<ConversionAnswer> for Result<usize, ConversionRefusal> {
    fn from(answer: ConversionAnswer) -> Self {
        let grammar = match answer.grammar {
            0 => None,
            OLD_GRAMMAR => Some(WhichGrammar::Old),
            NEW_GRAMMAR => Some(WhichGrammar::New),
            grammar => unreachable!("the core has no grammar {grammar}"),
        };
        match answer.number {
            0 => Ok(answer.filled),
            number => Err(ConversionRefusal {
                refusal: Refusal {
                    number,
                    position: answer.position,
                },
                grammar,
            }),
        }
    }
}

pub fn check_grammar(grammar: &[u32]) -> Answer {
    // SAFETY: the slice is passed as it is, its pointer and then its length.
    unsafe { tamarind_check_grammar(grammar.as_ptr(), grammar.len()) }
}

pub fn check_slip(grammar: &[u32], slip: &[u32]) -> Answer {
    // SAFETY: as above, both slices.
    unsafe { tamarind_check_slip(grammar.as_ptr(), grammar.len(), slip.as_ptr(), slip.len()) }
}

pub fn check_rules(grammar: &[u32], rules: &[u32]) -> Answer {
    // SAFETY: as above, both slices.
    unsafe { tamarind_check_rules(grammar.as_ptr(), grammar.len(), rules.as_ptr(), rules.len()) }
}

pub fn run(
    grammar: &[u32],
    rules: &[u32],
    slip: &[u32],
    budget: u32,
    result: &mut [u32],
    work: &mut [u32],
) -> RunAnswer {
    // SAFETY: as above, all slices. The two that are written are borrowed for
    // writing, so they share no word with each other or with the inputs.
    unsafe {
        tamarind_run(
            grammar.as_ptr(),
            grammar.len(),
            rules.as_ptr(),
            rules.len(),
            slip.as_ptr(),
            slip.len(),
            budget,
            result.as_mut_ptr(),
            result.len(),
            work.as_mut_ptr(),
            work.len(),
        )
    }
}

pub fn convert(
    old_grammar: &[u32],
    new_grammar: &[u32],
    table: &[u32],
    slip: &[u32],
    counted: bool,
    result: &mut [u32],
) -> ConversionAnswer {
    // SAFETY: as above, all slices. The result is borrowed for writing, so it
    // shares no word with the inputs.
    unsafe {
        tamarind_convert(
            old_grammar.as_ptr(),
            old_grammar.len(),
            new_grammar.as_ptr(),
            new_grammar.len(),
            table.as_ptr(),
            table.len(),
            slip.as_ptr(),
            slip.len(),
            counted,
            result.as_mut_ptr(),
            result.len(),
        )
    }
}

/// The ending and the filled words of an outcome, as the core returned them.
fn ending_of(outcome: &Outcome) -> (u32, usize) {
    match *outcome {
        Outcome::Refused(_) => (REFUSED, 0),
        Outcome::Ended {
            stop: None, filled, ..
        } => (DONE, filled),
        Outcome::Ended { filled, .. } => (STOPPED, filled),
    }
}

pub fn words_to_post<'a>(outcome: &Outcome, result: &'a [u32], slip: &'a [u32]) -> &'a [u32] {
    let (ending, filled) = ending_of(outcome);
    // SAFETY: no pointer is passed.
    let post = unsafe { tamarind_words_to_post(ending, filled, result.len(), slip.len()) };
    match post.source {
        POST_SLIP => &slip[..post.words],
        POST_RESULT => &result[..post.words],
        source => unreachable!("the core has no source {source}"),
    }
}

pub fn edition() -> u32 {
    // SAFETY: nothing is passed.
    unsafe { tamarind_edition() }
}

extern "C" {
    fn tamarind_edition() -> u32;
    fn tamarind_words_to_post(
        ending: u32,
        filled: usize,
        result_len: usize,
        slip_len: usize,
    ) -> Posting;
    fn tamarind_check_grammar(grammar: *const u32, grammar_len: usize) -> Answer;
    fn tamarind_check_slip(
        grammar: *const u32,
        grammar_len: usize,
        slip: *const u32,
        slip_len: usize,
    ) -> Answer;
    fn tamarind_check_rules(
        grammar: *const u32,
        grammar_len: usize,
        rules: *const u32,
        rules_len: usize,
    ) -> Answer;
    fn tamarind_run(
        grammar: *const u32,
        grammar_len: usize,
        rules: *const u32,
        rules_len: usize,
        slip: *const u32,
        slip_len: usize,
        budget: u32,
        result: *mut u32,
        result_len: usize,
        work: *mut u32,
        work_len: usize,
    ) -> RunAnswer;
    fn tamarind_convert(
        old_grammar: *const u32,
        old_grammar_len: usize,
        new_grammar: *const u32,
        new_grammar_len: usize,
        table: *const u32,
        table_len: usize,
        slip: *const u32,
        slip_len: usize,
        counted: bool,
        result: *mut u32,
        result_len: usize,
    ) -> ConversionAnswer;
}
