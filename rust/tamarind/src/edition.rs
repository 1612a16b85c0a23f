//! Whether the archive that is linked belongs to this crate.

use core::error::Error;
use core::fmt;

use crate::foreign;

/// The edition of the core that this crate is for: 0 is the core as first
/// specified, and a change request that a caller can see sets its own number.
/// 1 is T-01: operation 1,004 rounds an exact half to the even whole number.
/// 2 is T-02: a number may be as great as 4,000,000,000 hundredths.
/// 4 is T-04: the list, and operations on sequences.
/// 5 is T-05: in a pattern a variable whose tree holds an empty name or string
/// matches nothing.
/// 6 is T-06: reach 3, the one-pass rule.
/// 7 is T-07: each node of a slip and of a result has a third word, the number
/// of nodes in its tree.
/// 8 is T-08: [`convert`](crate::convert()), which converts a slip of one grammar
/// to a slip of another.
pub const EDITION: u32 = 8;

/// The edition of the archive that is linked.
pub fn edition() -> u32 {
    foreign::edition()
}

/// Asks whether the archive that is linked is of this crate's edition. A program
/// asks once when it starts, and makes no other call if it is not.
///
/// ```
/// assert_eq!(tamarind::check_edition(), Ok(()));
/// ```
pub fn check_edition() -> Result<(), WrongEdition> {
    match edition() {
        EDITION => Ok(()),
        linked => Err(WrongEdition { linked }),
    }
}

/// The archive that is linked is of another edition than [`EDITION`].
#[derive(Clone, Copy, Debug, PartialEq, Eq)]
pub struct WrongEdition {
    /// The archive's edition.
    pub linked: u32,
}

impl fmt::Display for WrongEdition {
    fn fmt(&self, f: &mut fmt::Formatter) -> fmt::Result {
        let linked = self.linked;
        write!(f, "libtamarind.a is of edition {linked}, not {EDITION}")
    }
}

impl Error for WrongEdition {}
