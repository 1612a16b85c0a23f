//! Conversions: slips of an old grammar become slips of a new one.

use core::error::Error;
use core::fmt;

use crate::{foreign, Refusal};

/// One of the two grammars of a conversion.
#[derive(Clone, Copy, Debug, PartialEq, Eq)]
pub enum WhichGrammar {
    /// The grammar that the slip is of, the paper's "A".
    Old,
    /// The grammar that the slip is converted to, the paper's "B".
    New,
}

/// Why nothing was converted. The result is unchanged.
///
/// ```
/// use tamarind::{convert, Refusal, WhichGrammar, RESULT_WORDS};
///
/// // A name, and a type that holds itself.
/// let (old, new) = ([1, 1, 1], [1, 8, 1, 1, 0]);
/// let mut result = [0; RESULT_WORDS];
/// let refused = convert(&old, &new, &[0], &[0, 7, 1], true, &mut result).unwrap_err();
/// assert_eq!(refused.refusal.number, Refusal::NO_FINITE_TREE);
/// assert_eq!(refused.grammar, Some(WhichGrammar::New));
/// assert_eq!(
///     refused.to_string(),
///     "refused 12 at word 1 of the new grammar: a type of which no finite tree exists"
/// );
/// ```
#[derive(Clone, Copy, Debug, PartialEq, Eq)]
pub struct ConversionRefusal {
    /// The number of the refusal and the word at fault.
    pub refusal: Refusal,
    /// The grammar at fault, of refusals 4 and 10 to 12; otherwise `None`.
    pub grammar: Option<WhichGrammar>,
}

impl fmt::Display for ConversionRefusal {
    fn fmt(&self, f: &mut fmt::Formatter) -> fmt::Result {
        let Refusal { number, position } = self.refusal;
        let of = match self.grammar {
            None => "",
            Some(WhichGrammar::Old) => " of the old grammar",
            Some(WhichGrammar::New) => " of the new grammar",
        };
        let meaning = self.refusal.meaning();
        write!(f, "refused {number} at word {position}{of}: {meaning}")
    }
}

impl Error for ConversionRefusal {}

/// Converts a slip of the old grammar to a slip of the new one, for a bank that
/// renumbers its grammar, and hands back the words of the new slip. The words of
/// the result behind them are unchanged.
///
/// The table has for each type of the old grammar, in order, its type in the new
/// one, and after it, if the type has forms, the number in the new grammar of
/// each form. `counted` says how the slip is written: `true`, three words a node;
/// `false`, two words a node, as before the counts. The new slip has three words a
/// node either way, and every count in it is right. The result has at least
/// [`RESULT_WORDS`](crate::RESULT_WORDS) words, which may be any.
///
/// ```
/// use tamarind::{convert, RESULT_WORDS};
///
/// // A program is a sequence of numbers. In the new grammar the number comes
/// // before the sequence: types 1 and 2 have changed places.
/// let old = [3, 8, 1, 1, 1, 4, 2, 1, 2];
/// let new = [3, 8, 1, 1, 2, 1, 2, 4, 1];
/// // Type 0 stays, and its only form; type 1 is type 2 now, type 2 type 1.
/// let table = [0, 0, 2, 1];
/// // The slip of 2.00, and the same in two words a node.
/// let slip = [0, 0, 4, 1, 0, 3, 2, 200, 1, 1, 1, 1];
/// let older = [0, 0, 1, 0, 2, 200, 1, 1];
///
/// let mut result = [0; RESULT_WORDS];
/// let expected = [0, 0, 4, 2, 0, 3, 1, 200, 1, 2, 1, 1];
/// assert_eq!(convert(&old, &new, &table, &slip, true, &mut result)?, expected);
/// assert_eq!(convert(&old, &new, &table, &older, false, &mut result)?, expected);
/// # Ok::<(), tamarind::ConversionRefusal>(())
/// ```
///
/// # Errors
///
/// The first fault is told: 1 of the result; 4 of the old grammar, 4 of the new
/// one; 10 to 12 of the old one, 10 to 12 of the new one; 60, then 61, of the
/// table, which is checked whole; 30 to 34 of the slip, no 34 where it is not
/// counted. The result is unchanged then.
///
/// ```
/// # use tamarind::{convert, Refusal, RESULT_WORDS};
/// # let old = [3, 8, 1, 1, 1, 4, 2, 1, 2];
/// # let new = [3, 8, 1, 1, 2, 1, 2, 4, 1];
/// # let slip = [0, 0, 4, 1, 0, 3, 2, 200, 1, 1, 1, 1];
/// // By this table the types stay as they are: word 1, the form of type 0, holds a
/// // type 1 where the new one holds a type 2.
/// let mut result = [0; RESULT_WORDS];
/// let refused = convert(&old, &new, &[0, 0, 1, 2], &slip, true, &mut result).unwrap_err();
/// let (number, position) = (Refusal::TABLE_FIT, 1);
/// assert_eq!(refused.refusal, Refusal { number, position });
/// ```
pub fn convert<'a>(
    old: &[u32],
    new: &[u32],
    table: &[u32],
    slip: &[u32],
    counted: bool,
    result: &'a mut [u32],
) -> Result<&'a [u32], ConversionRefusal> {
    let answer = foreign::convert(old, new, table, slip, counted, result);
    let filled = Result::from(answer)?;
    Ok(&result[..filled])
}
