//! The exported functions on a painted stack.

use generate::{without_counts, Input};

use crate::abi;
use crate::abi::{Conversion, Outcome, RESULT_WORDS, WORK_WORDS};
use crate::nesting::table_to_itself;
use crate::painted::Stack;

/// What a call answered, as the number of its refusal or stop (0 for none), the
/// bytes of stack that it took, and those of the arguments pushed for it.
#[derive(Clone, Copy, Debug, PartialEq, Eq)]
pub struct Measured {
    pub number: u32,
    pub stack: usize,
    pub pushed: usize,
}

/// An exported function by name, measured on an input.
pub type Export = (&'static str, fn(&mut Stack, &Input) -> Measured);

/// All of them, the run first.
pub const EXPORTS: [Export; 7] = [
    ("tamarind_run", |stack, input| run(stack, input).1),
    ("tamarind_check_grammar", check_grammar),
    ("tamarind_check_slip", check_slip),
    ("tamarind_check_rules", check_rules),
    ("tamarind_convert", convert),
    ("tamarind_words_to_post", words_to_post),
    ("tamarind_edition", edition),
];

/// A slice as the ABI passes it: its pointer and then its length.
fn passed(words: &[u32]) -> [usize; 2] {
    [words.as_ptr() as usize, words.len()]
}

/// Measures the single check of the grammar.
pub fn check_grammar(stack: &mut Stack, input: &Input) -> Measured {
    let arguments = passed(&input.grammar);
    answer(stack, abi::tamarind_check_grammar as *const (), &arguments)
}

/// Measures the single check of the slip.
pub fn check_slip(stack: &mut Stack, input: &Input) -> Measured {
    let arguments = [passed(&input.grammar), passed(&input.slip)].concat();
    answer(stack, abi::tamarind_check_slip as *const (), &arguments)
}

/// Measures the single check of the rule book.
pub fn check_rules(stack: &mut Stack, input: &Input) -> Measured {
    let arguments = [passed(&input.grammar), passed(&input.rules)].concat();
    answer(stack, abi::tamarind_check_rules as *const (), &arguments)
}

/// Measures the conversion of the slip to its own grammar, with its counts and
/// without them, and gives the greater stack.
pub fn convert(stack: &mut Stack, input: &Input) -> Measured {
    let older = without_counts(&input.slip);
    let counted = conversion(stack, &input.grammar, &input.slip, true);
    let uncounted = conversion(stack, &input.grammar, &older, false);
    Measured {
        stack: counted.stack.max(uncounted.stack),
        ..counted
    }
}

/// Measures one conversion over a result of the least length.
fn conversion(stack: &mut Stack, grammar: &[u32], slip: &[u32], counted: bool) -> Measured {
    let table = table_to_itself(grammar);
    let mut result = vec![u32::MAX; RESULT_WORDS];
    let mut answer = Conversion::default();
    let mut arguments = vec![&raw mut answer as usize];
    for words in [grammar, grammar, &table, slip] {
        arguments.extend(passed(words));
    }
    arguments.push(usize::from(counted));
    arguments.extend([result.as_mut_ptr() as usize, result.len()]);
    // SAFETY: the answer and the result are written through pointers to them,
    // each as long as it says, and read only after the calls.
    let returned = unsafe { stack.measure(abi::tamarind_convert as *const (), &arguments) };
    Measured {
        number: answer.number,
        stack: returned.stack,
        pushed: returned.pushed,
    }
}

/// Measures the words to post of a run that is done, had it filled as many words
/// as the slip has.
pub fn words_to_post(stack: &mut Stack, input: &Input) -> Measured {
    let words = input.slip.len();
    let arguments = [0, words, RESULT_WORDS, words];
    answer(stack, abi::tamarind_words_to_post as *const (), &arguments)
}

/// Measures the edition, which takes no input.
pub fn edition(stack: &mut Stack, _: &Input) -> Measured {
    answer(stack, abi::tamarind_edition as *const (), &[])
}

/// Measures a function that writes nothing and answers in registers: a number in
/// the low half of the first.
fn answer(stack: &mut Stack, target: *const (), arguments: &[usize]) -> Measured {
    // SAFETY: these functions only read what they are passed.
    let returned = unsafe { stack.measure(target, arguments) };
    Measured {
        number: returned.registers[0] as u32,
        stack: returned.stack,
        pushed: returned.pushed,
    }
}

/// Measures a run over memories of the least lengths.
pub fn run(stack: &mut Stack, input: &Input) -> (Outcome, Measured) {
    let mut result = vec![u32::MAX; RESULT_WORDS];
    let mut work = vec![u32::MAX; WORK_WORDS];
    let mut outcome = Outcome::default();
    let mut arguments = vec![&raw mut outcome as usize];
    for words in [&input.grammar, &input.rules, &input.slip] {
        arguments.extend(passed(words));
    }
    arguments.push(input.budget as usize);
    arguments.extend([result.as_mut_ptr() as usize, result.len()]);
    arguments.extend([work.as_mut_ptr() as usize, work.len()]);
    // SAFETY: the outcome and the memories are written through pointers to
    // them, each as long as it says, and read only after the calls.
    let returned = unsafe { stack.measure(abi::tamarind_run as *const (), &arguments) };
    let measured = Measured {
        number: outcome.number,
        stack: returned.stack,
        pushed: returned.pushed,
    };
    (outcome, measured)
}

extern "C" {
    fn memcpy(to: *mut u8, from: *const u8, bytes: usize) -> *mut u8;
    fn memset(to: *mut u8, byte: i32, bytes: usize) -> *mut u8;
}

/// The stack that this system's memcpy and memset take, whatever their length up
/// to that of the greatest array that the core copies or clears.
pub fn needed(stack: &mut Stack) -> [(&'static str, usize); 2] {
    let mut to = vec![1u8; 4 * WORK_WORDS];
    let from = vec![2u8; 4 * WORK_WORDS];
    let (to, from) = (to.as_mut_ptr() as usize, from.as_ptr() as usize);
    let mut measured = |target, second| {
        let lengths = (0..17).map(|doubled| (1 << doubled) - 1);
        // SAFETY: both arrays have so many bytes, and share none.
        let stacks = lengths.map(|bytes| unsafe { stack.measure(target, &[to, second, bytes]) });
        stacks.map(|returned| returned.stack).max()
    };
    let copied = measured(memcpy as *const (), from);
    let filled = measured(memset as *const (), 0);
    [
        ("memcpy", copied.expect("lengths")),
        ("memset", filled.expect("lengths")),
    ]
}
