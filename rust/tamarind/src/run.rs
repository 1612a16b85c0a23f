//! Runs: what one is given, how it ends, and the words to post.

use core::fmt;

use crate::{foreign, Refusal, Stop};

/// How a run ended.
///
/// Its text is for a log, and has no words of the result:
///
/// ```
/// # let grammar = [3, 8, 1, 1, 1, 4, 2, 1, 2];
/// # let rules = [1, 9, 2, 2, 1, 2, 200, 1, 2, 4200];
/// # let slip = [0, 0, 6, 1, 0, 5, 2, 200, 1, 1, 0, 3, 2, 500, 1, 1, 1, 1];
/// let mut pad = tamarind::Pad::new();
/// let done = pad.run(&grammar, &rules, &slip, 3).outcome;
/// assert_eq!(done.to_string(), "done, attempts 3, replacements 1");
/// ```
#[derive(Clone, Copy, Debug, PartialEq, Eq)]
#[must_use]
pub enum Outcome {
    /// Nothing was run; the result and the work memory are unchanged, and there
    /// is nothing to reset.
    Refused(Refusal),
    /// The run is over: the result holds a slip, of which every count is right,
    /// and the work memory only zeros.
    Ended {
        /// Why it ended early, or `None` if it is done.
        stop: Option<Stop>,
        /// The attempts that were started, the paper's "trials".
        attempts: u32,
        /// The replacements that the first call put in place.
        replacements: u32,
        /// How many words of the result are the slip, from word 0 on, three for
        /// each node. The words behind them are unchanged.
        filled: usize,
    },
}

impl Outcome {
    /// Whether the rules were worked to their end, so that the result is what
    /// is posted.
    pub const fn is_done(&self) -> bool {
        matches!(self, Outcome::Ended { stop: None, .. })
    }
}

impl fmt::Display for Outcome {
    fn fmt(&self, f: &mut fmt::Formatter) -> fmt::Result {
        match self {
            Outcome::Refused(refusal) => write!(f, "{refusal}"),
            Outcome::Ended {
                stop,
                attempts,
                replacements,
                ..
            } => {
                match stop {
                    None => write!(f, "done")?,
                    Some(stop) => write!(f, "{stop}")?,
                }
                write!(f, ", attempts {attempts}, replacements {replacements}")
            }
        }
    }
}

/// Checks everything and rewrites the slip's tree by the rule book into the
/// result, with at most `budget` attempts. [`Pad::run`](crate::Pad::run) is the same
/// over memories of its own.
///
/// Both memories may hold any words. [`RESULT_WORDS`](crate::RESULT_WORDS),
/// [`WORK_WORDS`](crate::WORK_WORDS) and
/// [`GREATEST_BUDGET`](crate::GREATEST_BUDGET) say what is not refused.
///
/// A larger budget changes nothing that was finished: a run that was not stopped by
/// [`Stop::BudgetSpent`] has the same outcome and the same filled words under every
/// larger budget that is allowed, and so has a refusal, but for the budget's own. A
/// run that was stopped by it has made exactly `budget` attempts.
///
/// ```
/// use tamarind::{output, run, RESULT_WORDS, WORK_WORDS};
///
/// let grammar = [3, 8, 1, 1, 1, 4, 2, 1, 2];
/// let rules = [1, 9, 2, 2, 1, 2, 200, 1, 2, 4200];
/// let slip = [0, 0, 4, 1, 0, 3, 2, 200, 1, 1, 1, 1];
/// let (mut result, mut work) = ([0; RESULT_WORDS], [0; WORK_WORDS]);
/// let outcome = run(&grammar, &rules, &slip, 9, &mut result, &mut work);
/// let posted = [0, 0, 4, 1, 0, 3, 2, 4200, 1, 1, 1, 1];
/// assert_eq!(output(&outcome, &result, &slip), posted);
/// ```
pub fn run(
    grammar: &[u32],
    rules: &[u32],
    slip: &[u32],
    budget: u32,
    result: &mut [u32],
    work: &mut [u32],
) -> Outcome {
    foreign::run(grammar, rules, slip, budget, result, work).into()
}

/// The words to post after a run: the filled part of the result if the run is
/// done, otherwise the slip itself. A filled number past the result's end gives
/// the slip as well.
///
/// ```
/// use tamarind::{output, Outcome, Refusal};
///
/// let (number, position) = (Refusal::SLIP_SIZE, 0);
/// let refused = Outcome::Refused(Refusal { number, position });
/// assert_eq!(output(&refused, &[7, 7, 7, 7], &[1, 2]), [1, 2]);
/// ```
pub fn output<'a>(outcome: &Outcome, result: &'a [u32], slip: &'a [u32]) -> &'a [u32] {
    foreign::words_to_post(outcome, result, slip)
}
