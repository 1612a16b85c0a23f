//! Tables that name only what is there, but not what fits (refusal 61): the new
//! grammar or the table is changed in one place.

use reference::limits;

use crate::grammars::{infinite_type, TypeText, LITERALS};
use crate::random::Random;
use crate::renumbering::{form_count, is_literal, permutation, type_numbers, Entry, Renumbering};

/// What does not fit.
#[derive(Clone, Copy, Debug, PartialEq, Eq, PartialOrd, Ord)]
pub enum Misfit {
    /// Type 0 has another number; all else fits.
    RootElsewhere,
    OtherKind,
    /// A repeat for a list, or a list for a repeat.
    OtherSequence,
    OtherClass,
    OtherElement,
    /// An element, or a type in a form, is a type just like the one due.
    Twin,
    /// A form of the new grammar has a type more, less, another, or two in the
    /// other order.
    TypeMore,
    TypeLess,
    OtherType,
    OtherOrder,
    /// A type instead of a literal.
    TypeForLiteral,
    /// The table names a form with other types.
    OtherForm,
    /// A type that no slip can hold is mapped to one of another kind.
    UnusedType,
    /// Two places, of which the lower is told.
    Two,
}

use Misfit::*;

impl Misfit {
    /// All kinds.
    pub fn all() -> impl Iterator<Item = Misfit> {
        NEW_GRAMMAR
            .into_iter()
            .chain([RootElsewhere, OtherForm, UnusedType, Two])
    }
}

/// The kinds that change a place of the new grammar.
const NEW_GRAMMAR: [Misfit; 10] = [
    OtherKind,
    OtherSequence,
    OtherClass,
    OtherElement,
    Twin,
    TypeMore,
    TypeLess,
    OtherType,
    OtherOrder,
    TypeForLiteral,
];

/// A form of the new grammar that an old form maps to: its type and number.
type Place = (usize, usize);

impl Renumbering {
    /// Puts a misfit into a right renumbering, if it has a place for it. Gives
    /// the word of the table that is told, if it is known.
    pub fn misfit(&mut self, random: &mut Random, kind: Misfit) -> Option<Option<usize>> {
        match kind {
            RootElsewhere => self.move_root(random).map(Some),
            OtherForm => self.name_other_form(random).map(Some),
            UnusedType => self.map_unused_type(random).map(|()| None),
            Two => {
                let kinds = [random.pick(&NEW_GRAMMAR), random.pick(&NEW_GRAMMAR)];
                let first = self.change_new(random, kinds[0])?;
                let second = self.change_new(random, kinds[1])?;
                (first != second).then_some(Some(first.min(second)))
            }
            _ => self.change_new(random, kind).map(Some),
        }
    }

    /// A misfit in the new grammar, and the word that is told.
    pub fn any_misfit(&mut self, random: &mut Random) -> Option<usize> {
        let kind = random.pick(&NEW_GRAMMAR);
        self.change_new(random, kind)
    }

    fn change_new(&mut self, random: &mut Random, kind: Misfit) -> Option<usize> {
        let word = match kind {
            OtherKind | OtherSequence | OtherClass | OtherElement => {
                let changed = self.change_record(random, kind)?;
                self.lowest_word(changed, None)
            }
            Twin => self.refer_to_twin(random),
            _ => {
                let (ty, form) = self.change_form(random, kind)?;
                self.lowest_word(ty, Some(form))
            }
        };
        infinite_type(&self.new).is_none().then_some(word)?
    }

    /// Type 0 changes its number with another type.
    fn move_root(&mut self, random: &mut Random) -> Option<usize> {
        let numbers = permutation(random, self.new.len());
        (numbers[0] != 0).then(|| self.permute_new(&numbers))?;
        Some(0)
    }

    /// The types of the new grammar without forms that a type maps to.
    fn mapped_without_forms(&self) -> Vec<usize> {
        let mapped = self.entries.iter().map(|entry| entry.ty as usize);
        mapped
            .filter(|&ty| form_count(&self.new[ty]) == 0)
            .collect()
    }

    /// A mapped type without forms: first a kind or class that occurs, so that
    /// rare ones are hit as often as frequent ones.
    fn pick_record(&self, random: &mut Random) -> Option<usize> {
        let mapped = self.mapped_without_forms();
        let like = |one: usize, other: usize| match (&self.new[one], &self.new[other]) {
            (TypeText::Token(one), TypeText::Token(other)) => one == other,
            (one, other) => is_same_kind(one, other),
        };
        let first_of_kind = |place: &usize| {
            let before = &mapped[..*place];
            !before.iter().any(|&other| like(mapped[*place], other))
        };
        let kinds: Vec<usize> = (0..mapped.len()).filter(first_of_kind).collect();
        let kind = mapped[random.pick_any(&kinds)?];
        let alike = mapped.iter().copied().filter(|&other| like(kind, other));
        pick_often_at_an_end(random, &alike.collect::<Vec<_>>())
    }

    /// Changes the record of a type without forms.
    fn change_record(&mut self, random: &mut Random, kind: Misfit) -> Option<usize> {
        let ty = self.pick_record(random)?;
        let other = random.below(self.new.len()) as u32;
        let before = self.new[ty].clone();
        let after = match (kind, &before) {
            (OtherKind, _) => of_other_kind(random, &before, other),
            (OtherSequence, TypeText::Sequence(element)) => TypeText::List(*element),
            (OtherSequence, TypeText::List(element)) => TypeText::Sequence(*element),
            (OtherClass, TypeText::Token(class)) => {
                TypeText::Token((class + random.below(2) as u32) % 3 + 1)
            }
            (OtherElement, TypeText::Optional(_)) => TypeText::Optional(other),
            (OtherElement, TypeText::Sequence(_)) => TypeText::Sequence(other),
            (OtherElement, TypeText::List(_)) => TypeText::List(other),
            _ => return None,
        };
        (after != before).then(|| self.new[ty] = after)?;
        Some(ty)
    }

    /// The forms of the new grammar that a form maps to.
    fn mapped_forms(&self) -> Vec<Place> {
        let forms = |entry: &Entry| {
            let ty = entry.ty as usize;
            let forms = entry.forms.clone().into_iter();
            forms.map(move |form| (ty, form as usize))
        };
        self.entries.iter().flat_map(forms).collect()
    }

    /// A form that is mapped to, often the first, the last or the longest.
    fn pick_form(&self, random: &mut Random) -> Option<Place> {
        let forms = self.mapped_forms();
        let length = |&(ty, form): &Place| match &self.new[ty] {
            TypeText::Forms(forms) => types_of(&forms[form]).len(),
            _ => 0,
        };
        let longest = forms.iter().copied().max_by_key(length)?;
        let any = pick_often_at_an_end(random, &forms)?;
        Some(random.pick(&[longest, any, any]))
    }

    fn new_form(&mut self, (ty, form): Place) -> &mut Vec<u32> {
        let TypeText::Forms(forms) = &mut self.new[ty] else {
            unreachable!("a form is of a type with forms");
        };
        &mut forms[form]
    }

    /// Changes the types of one form.
    fn change_form(&mut self, random: &mut Random, kind: Misfit) -> Option<Place> {
        let place = self.pick_form(random)?;
        let other = random.below(self.new.len()) as u32;
        let form = self.new_form(place);
        let before = types_of(form);
        let at = |literal: bool| -> Vec<usize> {
            let places = 0..form.len();
            places
                .filter(|&at| is_literal(form[at]) == literal)
                .collect()
        };
        let (types, literals) = (at(false), at(true));
        match kind {
            TypeMore if form.len() < limits::ELEMENTS as usize => {
                form.insert(random.below(form.len() + 1), other);
            }
            TypeLess => {
                let gone = pick_often_at_an_end(random, &types)?;
                if random.chance(50) {
                    form.remove(gone);
                } else {
                    form[gone] = LITERALS[0];
                }
            }
            OtherType => form[pick_often_at_an_end(random, &types)?] = other,
            OtherOrder => form.swap(random.pick_any(&types)?, random.pick_any(&types)?),
            TypeForLiteral => form[random.pick_any(&literals)?] = other,
            _ => return None,
        }
        (types_of(form) != before).then_some(place)
    }

    /// A type that is used by a mapped type is given twice, and one place has
    /// the copy.
    fn refer_to_twin(&mut self, random: &mut Random) -> Option<usize> {
        let twin = self.new.len() as u32;
        if twin == limits::TYPES {
            return None;
        }
        let (place, word) = if random.chance(50) {
            let ty = random.pick_any(&self.mapped_without_forms())?;
            let word = self.lowest_word(ty, None)?;
            (type_numbers(&mut self.new[ty]).pop()?, word)
        } else {
            let (ty, form) = self.pick_form(random)?;
            let word = self.lowest_word(ty, Some(form))?;
            let elements = self.new_form((ty, form)).iter_mut();
            let types: Vec<&mut u32> = elements.filter(|element| !is_literal(**element)).collect();
            let chosen = random.below(types.len().max(1));
            (types.into_iter().nth(chosen)?, word)
        };
        let like = std::mem::replace(place, twin) as usize;
        self.new.push(self.new[like].clone());
        Some(word)
    }

    /// A form's number becomes that of a form with other types.
    fn name_other_form(&mut self, random: &mut Random) -> Option<usize> {
        let words = self.table_words();
        let word = random.below(words.len());
        let (ty, form) = words[word];
        let entry = &mut self.entries[ty];
        let TypeText::Forms(forms) = &self.new[entry.ty as usize] else {
            return None;
        };
        let before = entry.forms[form?] as usize;
        let after = random.below(forms.len());
        let differs = types_of(&forms[before]) != types_of(&forms[after]);
        differs.then(|| entry.forms[form.unwrap_or(0)] = after as u32)?;
        Some(word)
    }

    /// Maps a type that type 0 does not lead to, and that has no forms, to a
    /// type of another kind.
    fn map_unused_type(&mut self, random: &mut Random) -> Option<()> {
        let unused = random.pick_any(&self.unused_types())?;
        let other = random.below(self.new.len());
        let same = is_same_kind(&self.old[unused], &self.new[other]);
        if same || form_count(&self.old[unused]) > 0 {
            return None;
        }
        self.entries[unused].ty = other as u32;
        Some(())
    }

    /// The types that no slip of the old grammar can hold.
    pub fn unused_types(&self) -> Vec<usize> {
        let mut types = self.old.clone();
        let mut used = vec![false; types.len()];
        let mut to_come = vec![0];
        while let Some(ty) = to_come.pop() {
            if !std::mem::replace(&mut used[ty], true) {
                let below = type_numbers(&mut types[ty]).into_iter();
                to_come.extend(below.map(|number| *number as usize));
            }
        }
        (0..used.len()).filter(|&ty| !used[ty]).collect()
    }
}

/// One of a list, often the first or the last.
fn pick_often_at_an_end<T: Clone>(random: &mut Random, list: &[T]) -> Option<T> {
    let any = random.pick_any(list)?;
    let (first, last) = (list.first()?.clone(), list.last()?.clone());
    Some(random.pick(&[first, last.clone(), last, any.clone(), any]))
}

/// The types of a form, without its literals.
fn types_of(form: &[u32]) -> Vec<u32> {
    let elements = form.iter().copied();
    elements.filter(|&element| !is_literal(element)).collect()
}

fn is_same_kind(one: &TypeText, other: &TypeText) -> bool {
    std::mem::discriminant(one) == std::mem::discriminant(other)
}

/// A record of another kind, with the same element if it has one. A form
/// without elements keeps it finite.
fn of_other_kind(random: &mut Random, record: &TypeText, other: u32) -> TypeText {
    let element = match record {
        TypeText::Optional(element) | TypeText::Sequence(element) | TypeText::List(element) => {
            *element
        }
        _ => other,
    };
    let kinds = [
        TypeText::Token(1),
        TypeText::Token(2),
        TypeText::Token(3),
        TypeText::Optional(element),
        TypeText::Sequence(element),
        TypeText::List(element),
        TypeText::Forms(vec![vec![element], vec![]]),
    ];
    let differs = |kind: &TypeText| !is_same_kind(kind, record);
    let kinds: Vec<TypeText> = kinds.into_iter().filter(differs).collect();
    random.pick(&kinds)
}
