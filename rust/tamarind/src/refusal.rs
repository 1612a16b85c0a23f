//! Refusals: nothing was run or converted, and no lent word was changed.

use core::error::Error;
use core::fmt;

use crate::meaning;

/// Why something was refused.
///
/// ```
/// use tamarind::Refusal;
///
/// // A type that holds itself has no finite tree.
/// let refusal = tamarind::check_grammar(&[1, 8, 1, 1, 0]).unwrap_err();
/// assert_eq!(refusal.number, Refusal::NO_FINITE_TREE);
/// assert_eq!(
///     refusal.to_string(),
///     "refused 12 at word 1: a type of which no finite tree exists"
/// );
/// ```
#[derive(Clone, Copy, Debug, PartialEq, Eq)]
pub struct Refusal {
    /// The number of the refusal, one of the constants below.
    pub number: u32,
    /// The word at fault, counted from 0 in what is refused.
    pub position: usize,
}

/// The numbers, by what is at fault.
impl Refusal {
    /// The result memory is too short.
    pub const RESULT_TOO_SHORT: u32 = 1;
    /// The work memory is too short.
    pub const WORK_TOO_SHORT: u32 = 2;
    /// The budget is not allowed.
    pub const BUDGET: u32 = 3;
    /// The grammar is too long.
    pub const GRAMMAR_TOO_LONG: u32 = 4;
    /// The rule book is too long.
    pub const RULES_TOO_LONG: u32 = 5;
    /// The grammar does not end where it must.
    pub const GRAMMAR_END: u32 = 10;
    /// A word of the grammar is not allowed.
    pub const GRAMMAR_WORD: u32 = 11;
    /// A type of the grammar has no finite tree.
    pub const NO_FINITE_TREE: u32 = 12;
    /// The rule book does not end where it must.
    pub const RULES_END: u32 = 20;
    /// A word of the rule book outside pairs is not allowed.
    pub const RULES_WORD: u32 = 21;
    /// A variable, rule or operation is not there or cannot be used.
    pub const RULES_REFERENCE: u32 = 22;
    /// A pair of the rule book cannot stand where it does.
    pub const RULES_PAIR: u32 = 23;
    /// A rule has too many variables, or is nested too deep.
    pub const RULES_LIMIT: u32 = 24;
    /// The slip's number of words is not allowed.
    pub const SLIP_SIZE: u32 = 30;
    /// The slip does not end where it must.
    pub const SLIP_END: u32 = 31;
    /// A type or value of the slip is not allowed.
    pub const SLIP_WORD: u32 = 32;
    /// The slip is nested too deep.
    pub const SLIP_NESTING: u32 = 33;
    /// A count of the slip is not the number of nodes in its node's tree.
    pub const SLIP_COUNT: u32 = 34;
    /// The table of a conversion is too short or too long, or names something
    /// that is not in the new grammar.
    pub const TABLE_NAMES: u32 = 60;
    /// A type or form of the old grammar does not fit what the table maps it to.
    pub const TABLE_FIT: u32 = 61;
}

impl Refusal {
    /// What the number stands for.
    pub const fn meaning(&self) -> &'static str {
        meaning(self.number)
    }
}

impl fmt::Display for Refusal {
    fn fmt(&self, f: &mut fmt::Formatter) -> fmt::Result {
        let (number, position) = (self.number, self.position);
        write!(f, "refused {number} at word {position}: {}", self.meaning())
    }
}

impl Error for Refusal {}
