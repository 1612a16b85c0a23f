//! The proved rewriting core of the counter pad, for Rust programs.
//!
//! It rewrites a slip, a tree in words, by a rule book into the words that are
//! posted. A slip has three words for each node of its tree, a parent's before
//! its children's: the node's type, its value, and its count, which is the
//! number of nodes in its tree, itself included. A [`Pad`] owns the memory for
//! it:
//!
//! ```
//! use tamarind::Pad;
//!
//! tamarind::check_edition()?;
//! // A program is a sequence of numbers; replace every 2.00 by 42.00.
//! let grammar = [3, 8, 1, 1, 1, 4, 2, 1, 2];
//! let rules = [1, 9, 2, 2, 1, 2, 200, 1, 2, 4200];
//! // The slip of 2.00, 5.00.
//! let slip = [0, 0, 6, 1, 0, 5, 2, 200, 1, 1, 0, 3, 2, 500, 1, 1, 1, 1];
//!
//! let mut pad = Pad::new();
//! let posting = pad.run(&grammar, &rules, &slip, 3);
//! assert!(posting.outcome.is_done());
//! let posted = [0, 0, 6, 1, 0, 5, 2, 4200, 1, 1, 0, 3, 2, 500, 1, 1, 1, 1];
//! assert_eq!(posting.words, posted);
//! # Ok::<(), tamarind::WrongEdition>(())
//! ```
//!
//! Every count is right in a slip that [`check_slip`] passes, and in what a run
//! or a conversion has filled of its result. So a field is stepped over by its
//! count:
//!
//! ```
//! # let slip = [0, 0, 6, 1, 0, 5, 2, 200, 1, 1, 0, 3, 2, 500, 1, 1, 1, 1];
//! // From the first number to what stands behind it, and from there to the end.
//! let mut at = 6;
//! at += 3 * slip[at + 2] as usize;
//! assert_eq!(slip[at..at + 3], [1, 0, 3]);
//! at += 3 * slip[at + 2] as usize;
//! assert_eq!(at, slip.len());
//! ```
//!
//! `docs/bench.md` takes these words apart, and says what each refusal and stop
//! asks of a rule writer.
//!
//! [`convert`](convert()) is for a bank that renumbers its grammar: it turns
//! slips of the old grammar, of this edition or of two words a node, into slips of
//! the new one. `docs/convert.md` has an example, word by word.
//!
//! Each function calls the proved function of the same name in `libtamarind.a`
//! and turns its answer into Rust's own types. Any words of any length may be
//! passed. Nothing is kept between calls; threads may call at once. The crate
//! needs neither `std` nor `alloc`. What it adds to the core, and the Rust code
//! of it, is not proved.
//!
//! The archive is looked for in the repository's `target/staticlib`, or in the
//! folder that `TAMARIND_LIB_DIR` names when the crate is built.

#![no_std]
#![deny(missing_docs)]
#![deny(unsafe_code)]

mod convert;
mod edition;
mod foreign;
pub mod limits;
mod meaning;
mod pad;
mod refusal;
mod run;
mod stop;

pub use convert::{convert, ConversionRefusal, WhichGrammar};
pub use edition::{check_edition, edition, WrongEdition, EDITION};
pub use limits::{GREATEST_BUDGET, RESULT_WORDS, WORK_WORDS};
pub use meaning::meaning;
pub use pad::{Pad, Posting};
pub use refusal::Refusal;
pub use run::{output, run, Outcome};
pub use stop::Stop;

/// Checks a grammar (refusals 4, 10 to 12).
///
/// ```
/// assert_eq!(tamarind::check_grammar(&[3, 8, 1, 1, 1, 4, 2, 1, 2]), Ok(()));
/// ```
pub fn check_grammar(grammar: &[u32]) -> Result<(), Refusal> {
    foreign::check_grammar(grammar).into()
}

/// Checks a slip against a grammar (refusals 4, 10 to 12, 30 to 34). The grammar
/// alone says where the tree ends; the counts are held to it last, so 34 is given
/// only where 30 to 33 find nothing in the whole slip.
///
/// ```
/// # let grammar = [3, 8, 1, 1, 1, 4, 2, 1, 2];
/// let refusal = tamarind::check_slip(&grammar, &[0, 0, 1]).unwrap_err();
/// assert_eq!((refusal.number, refusal.position), (31, 3));
/// // The root's tree has two nodes.
/// let refusal = tamarind::check_slip(&grammar, &[0, 0, 1, 1, 1, 1]).unwrap_err();
/// assert_eq!((refusal.number, refusal.position), (34, 2));
/// ```
pub fn check_slip(grammar: &[u32], slip: &[u32]) -> Result<(), Refusal> {
    foreign::check_slip(grammar, slip).into()
}

/// Checks a rule book against a grammar (refusals 4, 5, 10 to 12, 20 to 24).
///
/// ```
/// # let grammar = [3, 8, 1, 1, 1, 4, 2, 1, 2];
/// // The replacement is a sequence where a number is due.
/// let rules = [1, 9, 2, 2, 1, 2, 200, 1, 1, 1];
/// let refusal = tamarind::check_rules(&grammar, &rules).unwrap_err();
/// assert_eq!((refusal.number, refusal.position), (23, 8));
/// ```
pub fn check_rules(grammar: &[u32], rules: &[u32]) -> Result<(), Refusal> {
    foreign::check_rules(grammar, rules).into()
}

/// The examples of `docs/convert.md`, run as the other examples of this crate are.
#[cfg(doctest)]
#[doc = include_str!("../../../docs/convert.md")]
pub struct ConvertPage;
