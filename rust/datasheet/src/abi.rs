//! The exported functions as include/tamarind.h has them, called directly: what
//! is measured is the core, with nothing around it.

use generate::Input;
// Links the archive.
use tamarind as _;

/// The fewest words of the two memories that a run accepts.
pub const RESULT_WORDS: usize = 6_144;
pub const WORK_WORDS: usize = 16_384;

/// `tamarind_answer`.
#[repr(C)]
#[derive(Clone, Copy, Debug, PartialEq, Eq)]
pub struct Answer {
    pub number: u32,
    pub position: usize,
}

/// `tamarind_outcome`.
#[repr(C)]
#[derive(Clone, Copy, Debug, Default, PartialEq, Eq)]
pub struct Outcome {
    pub ending: u32,
    pub number: u32,
    pub position: usize,
    pub attempts: u32,
    pub replacements: u32,
    pub filled: usize,
}

/// `tamarind_posting`.
#[repr(C)]
#[derive(Clone, Copy, Debug, PartialEq, Eq)]
pub struct Posting {
    pub source: u32,
    pub words: usize,
}

/// `tamarind_conversion`.
#[repr(C)]
#[derive(Clone, Copy, Debug, Default, PartialEq, Eq)]
pub struct Conversion {
    pub number: u32,
    pub position: usize,
    pub grammar: u32,
    pub filled: usize,
}

extern "C" {
    pub(crate) fn tamarind_edition() -> u32;
    pub(crate) fn tamarind_words_to_post(
        ending: u32,
        filled: usize,
        result_len: usize,
        slip_len: usize,
    ) -> Posting;
    pub(crate) fn tamarind_check_grammar(grammar: *const u32, grammar_len: usize) -> Answer;
    pub(crate) fn tamarind_check_slip(
        grammar: *const u32,
        grammar_len: usize,
        slip: *const u32,
        slip_len: usize,
    ) -> Answer;
    pub(crate) fn tamarind_check_rules(
        grammar: *const u32,
        grammar_len: usize,
        rules: *const u32,
        rules_len: usize,
    ) -> Answer;
    pub(crate) fn tamarind_run(
        grammar: *const u32,
        grammar_len: usize,
        rules: *const u32,
        rules_len: usize,
        slip: *const u32,
        slip_len: usize,
        budget: u32,
        result: *mut u32,
        result_len: usize,
        work: *mut u32,
        work_len: usize,
    ) -> Outcome;
    pub(crate) fn tamarind_convert(
        old_grammar: *const u32,
        old_grammar_len: usize,
        new_grammar: *const u32,
        new_grammar_len: usize,
        table: *const u32,
        table_len: usize,
        slip: *const u32,
        slip_len: usize,
        counted: bool,
        result: *mut u32,
        result_len: usize,
    ) -> Conversion;
}

/// The single check of an input's grammar.
pub fn check_grammar(input: &Input) -> Answer {
    let grammar = &input.grammar;
    // SAFETY: the slice is passed as it is, its pointer and then its length.
    unsafe { tamarind_check_grammar(grammar.as_ptr(), grammar.len()) }
}

/// The single check of an input's slip.
pub fn check_slip(input: &Input) -> Answer {
    let (grammar, slip) = (&input.grammar, &input.slip);
    // SAFETY: as above, both slices.
    unsafe { tamarind_check_slip(grammar.as_ptr(), grammar.len(), slip.as_ptr(), slip.len()) }
}

/// The single check of an input's rule book.
pub fn check_rules(input: &Input) -> Answer {
    let (grammar, rules) = (&input.grammar, &input.rules);
    // SAFETY: as above, both slices.
    unsafe { tamarind_check_rules(grammar.as_ptr(), grammar.len(), rules.as_ptr(), rules.len()) }
}

/// A run over memories of its caller.
pub fn run(input: &Input, result: &mut [u32], work: &mut [u32]) -> Outcome {
    // SAFETY: as above, all slices; those that are written are borrowed for
    // writing.
    unsafe {
        tamarind_run(
            input.grammar.as_ptr(),
            input.grammar.len(),
            input.rules.as_ptr(),
            input.rules.len(),
            input.slip.as_ptr(),
            input.slip.len(),
            input.budget,
            result.as_mut_ptr(),
            result.len(),
            work.as_mut_ptr(),
            work.len(),
        )
    }
}

/// The conversion of an input's slip, three words a node, to its own grammar by a
/// table.
pub fn convert(input: &Input, table: &[u32], result: &mut [u32]) -> Conversion {
    let (grammar, slip) = (&input.grammar, &input.slip);
    // SAFETY: as above, all slices; the one that is written is borrowed for
    // writing.
    unsafe {
        tamarind_convert(
            grammar.as_ptr(),
            grammar.len(),
            grammar.as_ptr(),
            grammar.len(),
            table.as_ptr(),
            table.len(),
            slip.as_ptr(),
            slip.len(),
            true,
            result.as_mut_ptr(),
            result.len(),
        )
    }
}
