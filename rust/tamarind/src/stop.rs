//! Stops: a run that was begun and could not be worked to its end.

use core::fmt;

use crate::meaning;

/// Why a run ended before it was done. Its number is the case's value.
///
/// ```
/// use tamarind::Stop;
///
/// assert_eq!(Stop::OutOfRange.number(), 45);
/// assert_eq!(Stop::from_number(45), Some(Stop::OutOfRange));
/// assert_eq!(Stop::from_number(46), None);
/// ```
#[derive(Clone, Copy, Debug, PartialEq, Eq)]
pub enum Stop {
    /// An attempt is due and the budget is spent. Of all endings this alone can be
    /// another under a larger budget.
    BudgetSpent = 40,
    /// One more call would be open than may be.
    CallsTooDeep = 41,
    /// A tree would have too many nodes.
    TooManyNodes = 42,
    /// A finished tree would be nested too deep.
    NestsTooDeep = 43,
    /// All open calls together would hold too many nodes.
    TooManyLiveNodes = 44,
    /// An operation's result is no number of the pad, or its divisor is 0.
    OutOfRange = 45,
}

impl Stop {
    /// All stops, in the order of their numbers.
    pub const ALL: [Stop; 6] = [
        Stop::BudgetSpent,
        Stop::CallsTooDeep,
        Stop::TooManyNodes,
        Stop::NestsTooDeep,
        Stop::TooManyLiveNodes,
        Stop::OutOfRange,
    ];

    /// The number of the stop, 40 to 45.
    pub const fn number(self) -> u32 {
        self as u32
    }

    /// The stop with a number, if there is one.
    pub fn from_number(number: u32) -> Option<Stop> {
        Stop::ALL.into_iter().find(|stop| stop.number() == number)
    }

    /// What the number stands for.
    pub const fn meaning(self) -> &'static str {
        meaning(self.number())
    }
}

impl fmt::Display for Stop {
    fn fmt(&self, f: &mut fmt::Formatter) -> fmt::Result {
        write!(f, "stopped {}: {}", self.number(), self.meaning())
    }
}
