//! A pad: both memories of a run in one place.

use core::fmt;

use crate::{output, run, Outcome, RESULT_WORDS, WORK_WORDS};

/// The two memories that a run writes to, of the lengths that it asks for, so
/// that no run is refused by 1 or 2.
///
/// A pad is 88 KiB. It is made once and used for every slip: each run answers as
/// on a new pad, whatever came before it. [`Pad::new`] is `const`, so that a pad
/// can be a `static`:
///
/// ```
/// use std::sync::Mutex;
/// use tamarind::Pad;
///
/// static PAD: Mutex<Pad> = Mutex::new(Pad::new());
///
/// let grammar = [3, 8, 1, 1, 1, 4, 2, 1, 2];
/// let rules = [1, 9, 2, 2, 1, 2, 200, 1, 2, 4200];
/// let slip = [0, 0, 4, 1, 0, 3, 2, 200, 1, 1, 1, 1];
/// let mut pad = PAD.lock().unwrap();
/// let posting = pad.run(&grammar, &rules, &slip, 9);
/// assert!(posting.outcome.is_done());
/// assert_eq!(posting.words, [0, 0, 4, 1, 0, 3, 2, 4200, 1, 1, 1, 1]);
/// ```
pub struct Pad {
    result: [u32; RESULT_WORDS],
    work: [u32; WORK_WORDS],
}

/// How a run on a pad ended, and what is posted. The words lie in the pad or are
/// the slip that was given, so the next run waits until they are let go:
///
/// ```compile_fail,E0499
/// # let (grammar, rules, slip) = ([0], [0], [0]);
/// let mut pad = tamarind::Pad::new();
/// let first = pad.run(&grammar, &rules, &slip, 9);
/// let second = pad.run(&grammar, &rules, &slip, 9);
/// println!("{:?}", first.words);
/// ```
#[derive(Clone, Copy, Debug, PartialEq, Eq)]
#[must_use]
pub struct Posting<'a> {
    /// How the run ended.
    pub outcome: Outcome,
    /// The words to post.
    pub words: &'a [u32],
}

impl Pad {
    /// A pad just switched on: all words of both memories are 0.
    pub const fn new() -> Pad {
        Pad {
            result: [0; RESULT_WORDS],
            work: [0; WORK_WORDS],
        }
    }

    /// Checks everything, rewrites the slip's tree by the rule book with at most
    /// `budget` attempts, and hands back what came of it with the words to post.
    ///
    /// After a refusal the slip is what is posted, and the next run may follow at
    /// once:
    ///
    /// ```
    /// use tamarind::{Outcome, Pad, Refusal};
    ///
    /// let grammar = [3, 8, 1, 1, 1, 4, 2, 1, 2];
    /// let rules = [1, 9, 2, 2, 1, 2, 200, 1, 2, 4200];
    /// let slip = [0, 0, 1];
    /// let mut pad = Pad::new();
    /// let posting = pad.run(&grammar, &rules, &slip, 9);
    /// let (number, position) = (Refusal::SLIP_END, 3);
    /// assert_eq!(posting.outcome, Outcome::Refused(Refusal { number, position }));
    /// assert_eq!(posting.words, slip);
    /// ```
    pub fn run<'a>(
        &'a mut self,
        grammar: &[u32],
        rules: &[u32],
        slip: &'a [u32],
        budget: u32,
    ) -> Posting<'a> {
        let (result, work) = (&mut self.result, &mut self.work);
        let outcome = run(grammar, rules, slip, budget, result, work);
        let words = output(&outcome, &self.result, slip);
        Posting { outcome, words }
    }
}

impl Default for Pad {
    fn default() -> Pad {
        Pad::new()
    }
}

/// The name alone: what the memories hold between runs means nothing.
impl fmt::Debug for Pad {
    fn fmt(&self, f: &mut fmt::Formatter) -> fmt::Result {
        f.debug_struct("Pad").finish_non_exhaustive()
    }
}
