//! Compares conversions between grammars: answers, the result afterwards word by
//! word, and that what is converted is a slip of the new grammar.

use std::collections::BTreeMap;
use std::fmt;

use generate::{ConversionInput, Random};
use reference::Conversion;
use tamarind::{ConversionRefusal, WhichGrammar};

/// How many words lie before and behind the result.
const GUARD: usize = 64;

/// What a conversion was answered.
#[derive(Clone, Copy, PartialEq, Eq, PartialOrd, Ord)]
pub struct Answered {
    /// The refusal's number; 0 stands for converted.
    pub number: u32,
    /// The grammar at fault: 1 the old one, 2 the new one.
    pub grammar: u32,
    /// Whether the slip has three words a node.
    pub counted: bool,
}

impl fmt::Debug for Answered {
    fn fmt(&self, f: &mut fmt::Formatter) -> fmt::Result {
        let grammar = ["", " old", " new"][self.grammar as usize];
        let words = if self.counted { 3 } else { 2 };
        write!(f, "{}{grammar}/{words}", self.number)
    }
}

/// How often each answer was given.
pub type ConversionCounts = BTreeMap<Answered, u64>;

/// Converts one input on both cores and counts the answer.
pub fn compare_conversion(
    input: &ConversionInput,
    counts: &mut ConversionCounts,
) -> Result<(), String> {
    let answered = convert_both(input).map_err(|text| format!("{text}, on\n{input:?}"))?;
    *counts.entry(answered).or_default() += 1;
    Ok(())
}

/// The reference's answer as the wrapper of the proved core would tell it.
fn in_our_form(conversion: &Conversion) -> Result<&[u32], ConversionRefusal> {
    match conversion {
        Conversion::Converted { words } => Ok(words),
        Conversion::Refused { refusal, grammar } => Err(ConversionRefusal {
            refusal: tamarind::Refusal {
                number: refusal.number,
                position: refusal.position,
            },
            grammar: match grammar.number() {
                0 => None,
                1 => Some(WhichGrammar::Old),
                _ => Some(WhichGrammar::New),
            },
        }),
    }
}

/// Converts an input on both cores. Gives the answer, or what is not as the
/// reference has it.
fn convert_both(input: &ConversionInput) -> Result<Answered, String> {
    let theirs = reference::convert(
        &input.old,
        &input.new,
        &input.table,
        input.counted,
        &input.slip,
        input.result_len,
    );
    let mut memory = junk(input.result_len + 2 * GUARD);
    let due = memory_due(memory.clone(), &theirs);
    let ours = tamarind::convert(
        &input.old,
        &input.new,
        &input.table,
        &input.slip,
        input.counted,
        &mut memory[GUARD..][..input.result_len],
    );
    let expected = in_our_form(&theirs);
    if ours != expected {
        return Err(format!("proved {ours:?}, reference {expected:?}"));
    }
    if let Ok(words) = ours {
        check_converted(&input.new, words)?;
    }
    if let Some(place) = (0..due.len()).find(|&place| memory[place] != due[place]) {
        let (is, due) = (memory[place], due[place]);
        let word = place as isize - GUARD as isize;
        return Err(format!("result word {word} is {is}, due {due}"));
    }
    Ok(answered(&theirs, input.counted))
}

/// The memory that is due: a refusal changes nothing, otherwise the result has
/// the slip's words and keeps those behind them.
fn memory_due(mut memory: Vec<u32>, conversion: &Conversion) -> Vec<u32> {
    if let Conversion::Converted { words } = conversion {
        memory[GUARD..][..words.len()].copy_from_slice(words);
    }
    memory
}

fn answered(conversion: &Conversion, counted: bool) -> Answered {
    let (number, grammar) = match conversion {
        Conversion::Converted { .. } => (0, 0),
        Conversion::Refused { refusal, grammar } => (refusal.number, grammar.number()),
    };
    Answered {
        number,
        grammar,
        counted,
    }
}

/// Words of which none is 0 or, but by chance, what is due there.
fn junk(length: usize) -> Vec<u32> {
    let mut random = Random::new(0);
    (0..length).map(|_| random.word() | 1 << 31).collect()
}

/// What is converted must be a slip of the new grammar.
fn check_converted(new: &[u32], words: &[u32]) -> Result<(), String> {
    let checked = tamarind::check_slip(new, words);
    checked.map_err(|refusal| format!("what is converted is no slip: {refusal}"))
}
