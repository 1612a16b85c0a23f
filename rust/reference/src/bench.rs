//! The bench format of document 01: decimal numbers in, one or two lines out.
//! T-07: "The bench program reads and prints this edition", three words a node.

use crate::limits;
use crate::{run, Outcome};

/// What the bench gives to the core: a budget, a grammar, rules and a slip.
#[derive(Clone, Debug, PartialEq, Eq)]
pub struct Input {
    pub budget: u32,
    pub grammar: Vec<u32>,
    pub rules: Vec<u32>,
    pub slip: Vec<u32>,
}

/// Answers one bench input with the lines to print.
pub fn answer(text: &[u8]) -> String {
    match parse(text) {
        None => "unread\n".to_string(),
        Some(input) => print(&run(
            &input.grammar,
            &input.rules,
            &input.slip,
            input.budget,
            limits::RESULT_WORDS,
            limits::WORK_WORDS,
        )),
    }
}

/// Reads a bench input, or `None` if it is unread.
pub fn parse(text: &[u8]) -> Option<Input> {
    let mut numbers = text
        .split(|byte| is_white_space(*byte))
        .filter(|word| !word.is_empty())
        .map(parse_number);
    let input = Input {
        budget: numbers.next()??,
        grammar: parse_words(&mut numbers, limits::GRAMMAR_WORDS)?,
        rules: parse_words(&mut numbers, limits::RULES_WORDS)?,
        slip: parse_words(&mut numbers, limits::SLIP_WORDS)?,
    };
    numbers.next().is_none().then_some(input)
}

/// A length and that many words. A length one past the limit is still read,
/// so that the core can refuse it.
fn parse_words(numbers: &mut impl Iterator<Item = Option<u32>>, limit: usize) -> Option<Vec<u32>> {
    let length = numbers.next()?? as usize;
    if length > limit + 1 {
        return None;
    }
    (0..length).map(|_| numbers.next()?).collect()
}

/// One or more decimal digits that make a u32.
fn parse_number(digits: &[u8]) -> Option<u32> {
    digits.iter().try_fold(0u32, |number, byte| {
        let digit = byte.is_ascii_digit().then(|| u32::from(byte - b'0'))?;
        number.checked_mul(10)?.checked_add(digit)
    })
}

fn is_white_space(byte: u8) -> bool {
    // Blank, tab, line feed, vertical tab, form feed, carriage return.
    matches!(byte, b' ' | 9..=13)
}

/// The lines that tell an outcome.
pub fn print(outcome: &Outcome) -> String {
    match outcome {
        Outcome::Refused(refusal) => {
            format!("refused {} {}\n", refusal.number, refusal.position)
        }
        Outcome::Ended {
            stop,
            attempts,
            replacements,
            words,
        } => {
            let ending = match stop {
                None => "done".to_string(),
                Some(number) => format!("stopped {number}"),
            };
            let count = words.len();
            let slip = join(words);
            format!("{ending} {attempts} {replacements} {count}\n{slip}\n")
        }
    }
}

/// Writes an input the way `parse` reads it, on one line.
pub fn write(input: &Input) -> String {
    let mut numbers = vec![input.budget];
    for words in [&input.grammar, &input.rules, &input.slip] {
        numbers.push(words.len() as u32);
        numbers.extend(words);
    }
    join(&numbers) + "\n"
}

fn join(numbers: &[u32]) -> String {
    let numbers: Vec<String> = numbers.iter().map(u32::to_string).collect();
    numbers.join(" ")
}
