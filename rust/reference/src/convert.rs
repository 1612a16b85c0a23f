//! The converter of T-08: a tree of an old grammar, the paper's "A", becomes
//! one of a new grammar, its "B", as a table says (refusals 60 and 61).
//!
//! The table "gives for each type of A, in order, its type in B, and after it,
//! for a type with forms, the number in B of each form".

use crate::grammar::{Grammar, Kind, TypeNumber};
use crate::limits;
use crate::tree::{Piece, Tree};
use crate::words::Reader;
use crate::{check_length, check_result, Refusal, Which};

/// Checks everything and converts the slip's tree. T-08: 60 and 61 "follow the
/// call refusals and then the grammars' (in each A, then B, the answer saying
/// which) and precede the slip's".
pub fn convert(
    old: &[u32],
    new: &[u32],
    table: &[u32],
    counted: bool,
    slip: &[u32],
    result_len: usize,
) -> Result<Tree, (Refusal, Which)> {
    let of_neither = |refusal| (refusal, Which::Neither);
    let of_old = |refusal| (refusal, Which::Old);
    let of_new = |refusal| (refusal, Which::New);
    check_result(result_len).map_err(of_neither)?;
    check_length(old, limits::GRAMMAR_WORDS, 4).map_err(of_old)?;
    check_length(new, limits::GRAMMAR_WORDS, 4).map_err(of_new)?;
    let old = Grammar::read(old).map_err(of_old)?;
    let new = Grammar::read(new).map_err(of_new)?;
    let table = Table::read(&old, &new, table).map_err(of_neither)?;
    // "60 is sought over the whole table before 61", so only now.
    table.check(&old, &new).map_err(of_neither)?;
    let tree = if counted {
        Tree::read_slip(&old, slip)
    } else {
        Tree::read_two_word_slip(&old, slip)
    };
    let tree = tree.map_err(of_neither)?;
    Ok(table.convert(&new, &tree))
}

/// A table that names only what is there.
struct Table {
    /// One for each type of the old grammar.
    entries: Vec<Entry>,
}

/// What the table says of one type of the old grammar.
struct Entry {
    /// The position of the type's word. Those of its forms follow it.
    position: usize,
    /// Its type in the new grammar.
    ty: TypeNumber,
    /// For each of its forms the number in the new grammar; empty for a type
    /// without forms.
    forms: Vec<u32>,
}

impl Table {
    /// Reads a table. 60: it "is too short, too long or names something not in
    /// B (such as a form of a type without forms)".
    fn read(old: &Grammar, new: &Grammar, words: &[u32]) -> Result<Table, Refusal> {
        let mut reader = Reader::new(words, 60, 60);
        let mut entries = Vec::new();
        for own in 0..old.types.len() {
            let position = reader.position();
            let ty = reader.word_where(|word| new.has_type(word))?;
            let forms = (0..form_count(old, own as TypeNumber))
                .map(|_| reader.word_where(|word| (word as usize) < form_count(new, ty)))
                .collect::<Result<_, _>>()?;
            entries.push(Entry {
                position,
                ty,
                forms,
            });
        }
        reader.finish()?;
        Ok(Table { entries })
    }

    /// 61: "a mapped type differs in kind or class, a mapped element or form
    /// differs in its mapped types, or type 0 does not map to type 0". Each is
    /// "at its lowest word (that of the type, or of the form that differs)".
    fn check(&self, old: &Grammar, new: &Grammar) -> Result<(), Refusal> {
        for (own, entry) in self.entries.iter().enumerate() {
            let own = own as TypeNumber;
            let zero_moves = own == 0 && entry.ty != 0;
            if zero_moves || new.kind(entry.ty) != old.kind(own) {
                return Err(Refusal::new(61, entry.position));
            }
            for (value, children) in old.types[own as usize].alternatives.iter().enumerate() {
                let value = value as u32;
                let mapped: Vec<TypeNumber> = children.iter().map(|&ty| self.ty(ty)).collect();
                if new.child_types(entry.ty, self.value(own, value)) != Some(&mapped) {
                    return Err(Refusal::new(61, entry.word_of(value)));
                }
            }
        }
        Ok(())
    }

    /// The new tree, "node for node, types and forms as the table says, all
    /// other values kept".
    fn convert(&self, new: &Grammar, tree: &Tree) -> Tree {
        let node = |tree: &Tree| Piece::Node {
            ty: self.ty(tree.ty()),
            value: self.value(tree.ty(), tree.value()),
        };
        Tree::assemble(new, tree.preorder().map(node).collect())
    }

    /// The new type of a node of an old type.
    fn ty(&self, old: TypeNumber) -> TypeNumber {
        self.entries[old as usize].ty
    }

    /// The new value of a node of an old type.
    fn value(&self, old: TypeNumber, value: u32) -> u32 {
        let forms = &self.entries[old as usize].forms;
        if forms.is_empty() {
            value
        } else {
            forms[value as usize]
        }
    }
}

impl Entry {
    /// The position of the word that answers for the children of a node with
    /// this value: its form's, or its type's where there are no forms.
    fn word_of(&self, value: u32) -> usize {
        if self.forms.is_empty() {
            self.position
        } else {
            self.position + 1 + value as usize
        }
    }
}

/// The number of forms of a type, none if it is of another kind.
fn form_count(grammar: &Grammar, ty: TypeNumber) -> usize {
    match grammar.kind(ty) {
        Kind::Forms => grammar.types[ty as usize].alternatives.len(),
        _ => 0,
    }
}
