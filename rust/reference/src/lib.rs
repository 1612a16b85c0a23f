//! A plain implementation of the rewriting core of document 01 ("The
//! rewriting core of the counter pad") with change requests T-01, T-02, T-04,
//! T-05, T-06, T-07 and T-08 of document 02, written from those papers alone
//! with real trees, to compare another core with.
//!
//! Names are the field's usual ones. The paper's own words stand at each
//! definition: a "slip" is a tree, or still a slip where its words are meant,
//! a "rule book" the rules, a "trial" an attempt, a "group" an application
//! chain, "held nodes" live nodes, a "repeat" or "list" a sequence, and "take
//! apart", "build" and "test" are deconstruct, construct and condition.

pub mod bench;
mod convert;
pub mod grammar;
pub mod limits;
pub mod rules;
pub mod run;
mod sequence;
pub mod tree;
pub mod typing;
mod words;

use grammar::Grammar;
use tree::Tree;
use typing::Program;

/// A refusal: nothing was run.
#[derive(Clone, Copy, Debug, PartialEq, Eq)]
pub struct Refusal {
    /// The paper's number.
    pub number: u32,
    /// The word at fault, counted in what is refused.
    pub position: usize,
}

impl Refusal {
    /// A refusal with this number at this word.
    pub fn new(number: u32, position: usize) -> Refusal {
        Refusal { number, position }
    }
}

/// The outcome of a call of the core.
#[derive(Clone, Debug, PartialEq, Eq)]
pub enum Outcome {
    Refused(Refusal),
    Ended {
        /// The number of the stop, or `None` if the run was done.
        stop: Option<u32>,
        /// The attempts that were started, the paper's "trials".
        attempts: u32,
        /// The replacements that the first call put in place.
        replacements: u32,
        /// The filled words of the result, three a node (T-07).
        words: Vec<u32>,
    },
}

/// Which of the two grammars a refusal is about. T-08: "in each A, then B, the
/// answer saying which".
#[derive(Clone, Copy, Debug, PartialEq, Eq)]
pub enum Which {
    Neither,
    /// The paper's grammar "A".
    Old,
    /// The paper's grammar "B".
    New,
}

impl Which {
    /// The number that the answer carries.
    pub fn number(self) -> u32 {
        match self {
            Which::Neither => 0,
            Which::Old => 1,
            Which::New => 2,
        }
    }
}

/// The outcome of a conversion.
#[derive(Clone, Debug, PartialEq, Eq)]
pub enum Conversion {
    Refused {
        refusal: Refusal,
        grammar: Which,
    },
    Converted {
        /// The filled words of the result, three a node.
        words: Vec<u32>,
    },
}

/// Checks a grammar alone (refusals 4, 10 to 12).
pub fn check_grammar(grammar: &[u32]) -> Result<(), Refusal> {
    check_length(grammar, limits::GRAMMAR_WORDS, 4)?;
    Grammar::read(grammar).map(|_| ())
}

/// Checks rules against a grammar (refusals 4, 5, 10 to 12, 20 to 24).
pub fn check_rules(grammar: &[u32], rules: &[u32]) -> Result<(), Refusal> {
    check_length(grammar, limits::GRAMMAR_WORDS, 4)?;
    check_length(rules, limits::RULES_WORDS, 5)?;
    let grammar = Grammar::read(grammar)?;
    read_rules(&grammar, rules).map(|_| ())
}

/// Checks a slip against a grammar (refusals 4, 10 to 12, 30 to 34).
pub fn check_slip(grammar: &[u32], slip: &[u32]) -> Result<(), Refusal> {
    check_length(grammar, limits::GRAMMAR_WORDS, 4)?;
    let grammar = Grammar::read(grammar)?;
    Tree::read_slip(&grammar, slip).map(|_| ())
}

/// Checks everything and runs the main rule on the slip's tree.
///
/// `result_len` and `work_len` are the lengths of the two memories that the
/// call lends; this implementation uses neither.
pub fn run(
    grammar: &[u32],
    rules: &[u32],
    slip: &[u32],
    budget: u32,
    result_len: usize,
    work_len: usize,
) -> Outcome {
    let checked = check_call(grammar, rules, budget, result_len, work_len)
        .and_then(|()| check_inputs(grammar, rules, slip));
    let (grammar, program, tree) = match checked {
        Ok(checked) => checked,
        Err(refusal) => return Outcome::Refused(refusal),
    };
    let ending = run::run(&grammar, &program, tree, budget);
    Outcome::Ended {
        stop: ending.stop.map(run::Stop::number),
        attempts: ending.attempts,
        replacements: ending.replacements,
        words: ending.tree.slip(),
    }
}

/// Converts a slip of the old grammar to one of the new grammar as the table
/// says (T-08).
///
/// `counted` says that the slip is in the edition of T-07, three words a node;
/// otherwise it is in that of document 01, two words a node. `result_len` is
/// the length of the memory that the call lends; this implementation does not
/// use it.
pub fn convert(
    old: &[u32],
    new: &[u32],
    table: &[u32],
    counted: bool,
    slip: &[u32],
    result_len: usize,
) -> Conversion {
    match convert::convert(old, new, table, counted, slip, result_len) {
        Ok(tree) => Conversion::Converted { words: tree.slip() },
        Err((refusal, grammar)) => Conversion::Refused { refusal, grammar },
    }
}

/// The refusals of the call itself, all at word 0.
fn check_call(
    grammar: &[u32],
    rules: &[u32],
    budget: u32,
    result_len: usize,
    work_len: usize,
) -> Result<(), Refusal> {
    check_result(result_len)?;
    if work_len < limits::WORK_WORDS {
        return Err(Refusal::new(2, 0));
    }
    if !(1..=limits::BUDGET).contains(&budget) {
        return Err(Refusal::new(3, 0));
    }
    check_length(grammar, limits::GRAMMAR_WORDS, 4)?;
    check_length(rules, limits::RULES_WORDS, 5)
}

fn check_inputs(
    grammar: &[u32],
    rules: &[u32],
    slip: &[u32],
) -> Result<(Grammar, Program, Tree), Refusal> {
    let grammar = Grammar::read(grammar)?;
    let program = read_rules(&grammar, rules)?;
    let tree = Tree::read_slip(&grammar, slip)?;
    Ok((grammar, program, tree))
}

fn read_rules(grammar: &Grammar, words: &[u32]) -> Result<Program, Refusal> {
    let layout = rules::read_layout(grammar, words)?;
    typing::check(grammar, &layout)
}

fn check_result(result_len: usize) -> Result<(), Refusal> {
    if result_len < limits::RESULT_WORDS {
        Err(Refusal::new(1, 0))
    } else {
        Ok(())
    }
}

fn check_length(words: &[u32], limit: usize, number: u32) -> Result<(), Refusal> {
    if words.len() > limit {
        Err(Refusal::new(number, 0))
    } else {
        Ok(())
    }
}
