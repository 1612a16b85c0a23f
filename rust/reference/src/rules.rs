//! The layout of the rules, the paper's "rule book" (refusals 20 and 21).
//!
//! Reading the layout settles what every word is, but leaves the words of
//! pairs unread. Positions are kept for the typing, which reads those pairs.

use crate::grammar::{Grammar, TypeNumber};
use crate::limits;
use crate::words::Reader;
use crate::Refusal;

/// Which nodes of its scope a rule is tried on, the paper's "reach".
#[derive(Clone, Copy, Debug, PartialEq, Eq)]
pub enum Reach {
    /// No reach: only the root of the scope.
    RootOnly,
    /// Reach 1: the first match anywhere.
    FirstMatch,
    /// Reach 2: again and again until no match is left.
    Exhaustive,
    /// Reach 3 of T-06, "the one-pass rule": every match once, none of them
    /// entered.
    OnePass,
}

/// The pairs of one pattern or replacement, not read yet.
#[derive(Clone, Copy, Debug)]
pub struct Pairs<'a> {
    /// The position of the first pair.
    pub position: usize,
    /// The words of the pairs, two each.
    pub words: &'a [u32],
}

/// The layout of one rule.
#[derive(Clone, Debug)]
pub struct RuleLayout<'a> {
    pub target: TypeNumber,
    pub target_position: usize,
    pub reach: Reach,
    pub parameters: Vec<TypeNumber>,
    pub pattern: Pairs<'a>,
    pub parts: Vec<PartLayout<'a>>,
    /// A rule without a replacement is a condition.
    pub replacement: Option<Pairs<'a>>,
}

/// The layout of one part of a rule.
#[derive(Clone, Debug)]
pub struct PartLayout<'a> {
    pub map_position: usize,
    pub kind: PartKind<'a>,
}

/// The three kinds of part.
#[derive(Clone, Debug)]
pub enum PartKind<'a> {
    /// The paper's "take apart", searching if it names a type.
    Deconstruct {
        searched: Option<TypeNumber>,
        variable: u32,
        variable_position: usize,
        pattern: Pairs<'a>,
    },
    /// The paper's "build".
    Construct {
        ty: TypeNumber,
        replacement: Pairs<'a>,
    },
    /// The paper's "test".
    Condition { negated: bool, chain: Pairs<'a> },
}

const REACH_BIT: u32 = 1;
const PARAMETERS_BIT: u32 = 2;
const PARTS_BIT: u32 = 4;
const REPLACEMENT_BIT: u32 = 8;
const RULE_BITS: u32 = 15;

/// Reads the layout of all rules. Their length limit belongs to the call
/// (refusal 5).
pub fn read_layout<'a>(
    grammar: &Grammar,
    words: &'a [u32],
) -> Result<Vec<RuleLayout<'a>>, Refusal> {
    let mut reader = LayoutReader {
        grammar,
        reader: Reader::new(words, 20, 21),
    };
    let count = reader.reader.count(1, limits::RULES)?;
    let rules = (0..count)
        .map(|number| reader.rule(number == 0))
        .collect::<Result<_, _>>()?;
    reader.reader.finish()?;
    Ok(rules)
}

struct LayoutReader<'a, 'g> {
    grammar: &'g Grammar,
    reader: Reader<'a>,
}

impl<'a> LayoutReader<'a, '_> {
    fn rule(&mut self, main: bool) -> Result<RuleLayout<'a>, Refusal> {
        // The main rule rewrites, and nothing can give it arguments.
        let fits_main = |map| map & REPLACEMENT_BIT != 0 && map & PARAMETERS_BIT == 0;
        let map = self
            .reader
            .word_where(|map| map <= RULE_BITS && (!main || fits_main(map)))?;
        let target_position = self.reader.position();
        let target = self.ty()?;
        let reach = match map & REACH_BIT {
            0 => Reach::RootOnly,
            _ => self.reach()?,
        };
        let mut parameters = Vec::new();
        if map & PARAMETERS_BIT != 0 {
            for _ in 0..self.reader.count(1, limits::PARAMETERS)? {
                parameters.push(self.ty()?);
            }
        }
        let pattern = self.pairs()?;
        let mut parts = Vec::new();
        if map & PARTS_BIT != 0 {
            for _ in 0..self.reader.count(1, limits::PARTS)? {
                parts.push(self.part()?);
            }
        }
        let replacement = match map & REPLACEMENT_BIT {
            0 => None,
            _ => Some(self.pairs()?),
        };
        Ok(RuleLayout {
            target,
            target_position,
            reach,
            parameters,
            pattern,
            parts,
            replacement,
        })
    }

    fn reach(&mut self) -> Result<Reach, Refusal> {
        Ok(match self.reader.count(1, 3)? {
            1 => Reach::FirstMatch,
            2 => Reach::Exhaustive,
            _ => Reach::OnePass,
        })
    }

    fn part(&mut self) -> Result<PartLayout<'a>, Refusal> {
        let map_position = self.reader.position();
        let map = self
            .reader
            .word_where(|map| matches!(map, 1 | 3 | 4 | 8 | 24))?;
        let kind = match map {
            1 => self.deconstruct(None)?,
            3 => {
                let searched = self.ty()?;
                self.deconstruct(Some(searched))?
            }
            4 => PartKind::Construct {
                ty: self.ty()?,
                replacement: self.pairs()?,
            },
            _ => PartKind::Condition {
                negated: map == 24,
                chain: self.pairs()?,
            },
        };
        Ok(PartLayout { map_position, kind })
    }

    fn deconstruct(&mut self, searched: Option<TypeNumber>) -> Result<PartKind<'a>, Refusal> {
        Ok(PartKind::Deconstruct {
            searched,
            variable_position: self.reader.position(),
            variable: self.reader.word()?,
            pattern: self.pairs()?,
        })
    }

    fn pairs(&mut self) -> Result<Pairs<'a>, Refusal> {
        let count = self.reader.count(1, limits::PAIRS)?;
        Ok(Pairs {
            position: self.reader.position(),
            words: self.reader.take(2 * count as usize)?,
        })
    }

    fn ty(&mut self) -> Result<TypeNumber, Refusal> {
        self.reader.word_where(|word| self.grammar.has_type(word))
    }
}
