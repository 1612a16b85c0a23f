//! Tables that are too short, too long or name something that is not in the new
//! grammar (refusal 60).

use crate::random::Random;
use crate::renumbering::{form_count, Renumbering};

/// What is wrong with a table.
#[derive(Clone, Copy, Debug, PartialEq, Eq, PartialOrd, Ord)]
pub enum TableFault {
    Empty,
    ShortByOne,
    ShortByMany,
    LongByOne,
    LongByMany,
    NoSuchType,
    NoSuchForm,
    /// A type with forms is mapped to one without, whose values are no forms.
    FormOfNoForms,
    /// The word is right in a type that another type maps to.
    FormOfAnother,
    /// A type that no slip can hold.
    UnusedType,
    /// Two words, of which the lower is told.
    Two,
    /// A wrong word before the end of a table that is short, or long.
    WrongAndShort,
    WrongAndLong,
    /// A misfit (61) stands before the fault, or behind it.
    BehindMisfit,
    BeforeMisfit,
}

use TableFault::*;

const ALL: [TableFault; 15] = [
    Empty,
    ShortByOne,
    ShortByMany,
    LongByOne,
    LongByMany,
    NoSuchType,
    NoSuchForm,
    FormOfNoForms,
    FormOfAnother,
    UnusedType,
    Two,
    WrongAndShort,
    WrongAndLong,
    BehindMisfit,
    BeforeMisfit,
];

impl TableFault {
    /// All kinds.
    pub fn all() -> impl Iterator<Item = TableFault> {
        ALL.into_iter()
    }
}

/// A table and the word of it that is told.
pub(crate) type FaultyTable = (Vec<u32>, usize);

impl Renumbering {
    /// A table with a fault, if there is a place for it. The new grammar may be
    /// changed with it.
    pub fn faulty_table(&mut self, random: &mut Random, kind: TableFault) -> Option<FaultyTable> {
        let mut table = self.table();
        let length = table.len();
        let word = match kind {
            Empty | ShortByOne | ShortByMany => {
                table.truncate(match kind {
                    Empty => 0,
                    ShortByOne => length - 1,
                    _ => random.below(length),
                });
                table.len()
            }
            LongByOne | LongByMany => {
                let more = random.between(1, 40);
                let more = if kind == LongByOne { 1 } else { more };
                table.resize(length + more, random.below(3) as u32);
                length
            }
            FormOfNoForms => return self.form_of_no_forms(random),
            BehindMisfit | BeforeMisfit => return self.beside_misfit(random, kind),
            NoSuchType | NoSuchForm | FormOfAnother | UnusedType => {
                self.spoil(random, kind, &mut table)?
            }
            Two | WrongAndShort | WrongAndLong => {
                let word = self.spoil(random, NoSuchType, &mut table)?;
                match kind {
                    Two => return self.spoil_another(random, table, word),
                    WrongAndLong => table.push(0),
                    _ if word + 1 == length => return None,
                    _ => table.truncate(random.between(word + 1, length - 1)),
                }
                word
            }
        };
        Some((table, word))
    }

    /// Makes a word of the table name what is not there.
    fn spoil(&self, random: &mut Random, kind: TableFault, table: &mut [u32]) -> Option<usize> {
        let words = self.table_words();
        let unused = self.unused_types();
        let wanted: Vec<usize> = (0..words.len())
            .filter(|&word| {
                let (ty, form) = words[word];
                match kind {
                    NoSuchType => form.is_none(),
                    UnusedType => unused.contains(&ty),
                    _ => form.is_some(),
                }
            })
            .collect();
        let any = random.pick_any(&wanted)?;
        let word = random.pick(&[*wanted.first()?, *wanted.last()?, any, any, any]);
        let new_type = &self.new[self.entries[words[word].0].ty as usize];
        table[word] = match (kind, words[word].1) {
            (FormOfAnother, _) => random.between(form_count(new_type), 16) as u32,
            (_, Some(_)) => not_there(random, form_count(new_type) as u32, table[word]),
            (_, None) => not_there(random, self.new.len() as u32, table[word]),
        };
        Some(word)
    }

    fn spoil_another(
        &self,
        random: &mut Random,
        mut table: Vec<u32>,
        word: usize,
    ) -> Option<FaultyTable> {
        let kind = random.pick(&[NoSuchType, NoSuchForm]);
        let another = self.spoil(random, kind, &mut table)?;
        (word != another).then_some((table, word.min(another)))
    }

    /// A type with forms is mapped to one without. Its forms' words are often
    /// the values that an optional or a sequence may have.
    fn form_of_no_forms(&mut self, random: &mut Random) -> Option<FaultyTable> {
        let with_forms: Vec<usize> = (0..self.old.len())
            .filter(|&ty| form_count(&self.old[ty]) > 0)
            .collect();
        let ty = random.pick_any(&with_forms)?;
        let without: Vec<usize> = (0..self.new.len())
            .filter(|&ty| form_count(&self.new[ty]) == 0)
            .collect();
        let other = random.pick_any(&without)?;
        let mut table = self.table();
        let words = self.table_words();
        let word = words.iter().position(|&about| about == (ty, Some(0)))?;
        table[word - 1] = other as u32;
        if random.chance(70) {
            let forms = self.entries[ty].forms.len();
            for form in &mut table[word..word + forms] {
                *form = random.below(2) as u32;
            }
        }
        Some((table, word))
    }

    /// A fault before or behind a misfit: 60 is told in both cases.
    fn beside_misfit(&mut self, random: &mut Random, kind: TableFault) -> Option<FaultyTable> {
        let misfit = self.any_misfit(random)?;
        let mut table = self.table();
        let word = match random.below(4) {
            0 if kind == BehindMisfit => {
                table.push(0);
                table.len() - 1
            }
            1 if kind == BehindMisfit => {
                table.truncate(random.between(misfit + 1, table.len()));
                table.len()
            }
            2 => self.spoil(random, NoSuchForm, &mut table)?,
            _ => self.spoil(random, NoSuchType, &mut table)?,
        };
        // The full length is not short.
        let short = word < self.table().len() || word < table.len();
        let beside = if kind == BehindMisfit {
            word > misfit
        } else {
            word < misfit
        };
        (short && beside).then_some((table, word))
    }
}

/// A number from `count` on: the first, one near it, a great one, or one that is
/// right if only some bits are compared.
fn not_there(random: &mut Random, count: u32, right: u32) -> u32 {
    let numbers = [
        count,
        count,
        count + 1,
        64,
        u32::MAX,
        right + (1 << 8),
        right + (1 << 16),
        right + (1 << 31),
    ];
    random.pick(&numbers).max(count)
}
