//! What is done to the inputs of the converter between grammars (T-08), and the
//! answers that are due.

use reference::Which;

use crate::misfits::{self, Misfit};
use crate::table_faults::TableFault;

/// What a conversion is given.
#[derive(Clone, Debug, PartialEq, Eq)]
pub struct ConversionInput {
    pub old: Vec<u32>,
    pub new: Vec<u32>,
    pub table: Vec<u32>,
    /// Whether the slip has three words a node.
    pub counted: bool,
    pub slip: Vec<u32>,
    pub result_len: usize,
}

/// What was done to a conversion.
#[derive(Clone, Copy, Debug, PartialEq, Eq, PartialOrd, Ord)]
pub enum Damage {
    /// Nothing: the grammars are the same, or the new one has other numbers and
    /// literals, has one type or form for several, has more than the old one, or
    /// all of these.
    SameGrammar,
    Renumbered,
    Merged,
    Extended,
    Mixed,
    /// Nothing: both grammars have 4,096 words, or the slip is at a limit.
    LongestGrammars,
    SlipAtLimit,
    /// The result is too short, whatever else is wrong.
    ShortResult,
    /// A grammar is too long, whatever else is wrong.
    LongOld,
    LongNew,
    /// A grammar is refused by this number, the other is right.
    Old(u32),
    New(u32),
    /// Both are refused.
    OldAndNew,
    Table(TableFault),
    Misfit(Misfit),
    /// The table is wrong, and so is the slip.
    TableAndSlip,
    /// The slip is refused by this number.
    Slip(u32),
    /// The slip is written as the other edition has it.
    OtherEdition,
    /// One word of the table is another number that is there.
    OtherWord,
    /// The table has any words, or everything has.
    AnyTable,
    AnyWords,
}

use Damage::*;

/// The labels that are no other enum's.
const PLAIN: [Damage; 16] = [
    SameGrammar,
    Renumbered,
    Merged,
    Extended,
    Mixed,
    LongestGrammars,
    SlipAtLimit,
    ShortResult,
    LongOld,
    LongNew,
    OldAndNew,
    TableAndSlip,
    OtherEdition,
    OtherWord,
    AnyTable,
    AnyWords,
];

impl Damage {
    /// All labels.
    pub fn all() -> impl Iterator<Item = Damage> {
        let grammars = [10, 11, 12].into_iter();
        let grammars = grammars.flat_map(|number| [Old(number), New(number)]);
        PLAIN
            .into_iter()
            .chain(grammars)
            .chain(TableFault::all().map(Table))
            .chain(misfits::Misfit::all().map(Damage::Misfit))
            .chain((30..=34).map(Slip))
    }
}

/// The answer that is due.
#[derive(Clone, Copy, Debug, PartialEq, Eq)]
pub enum Due {
    Converted,
    /// A number about a grammar, at a word if that is known.
    Refused {
        number: u32,
        grammar: Which,
        position: Option<usize>,
    },
    /// Not known.
    Any,
}

/// A conversion, what was done to it, and what is due.
#[derive(Clone, Debug)]
pub struct LabeledConversion {
    pub input: ConversionInput,
    pub damage: Damage,
    pub due: Due,
}
