//! Renumbered grammars (T-08): an old grammar, a new one, and a table that says
//! how the types and forms of the old one are numbered in the new one. Each step
//! here keeps the table right.

use reference::limits;

use crate::grammars::{
    infinite_type, make_finite, one_form, one_type, valid_types, written, TypeText, LITERALS,
};
use crate::random::Random;

const MOST_TYPES: usize = limits::TYPES as usize;
const MOST_FORMS: usize = limits::FORMS as usize;
const MOST_ELEMENTS: usize = limits::ELEMENTS as usize;

/// What the table says of one type: its new number, and those of its forms.
#[derive(Clone, Debug)]
pub(crate) struct Entry {
    pub ty: u32,
    pub forms: Vec<u32>,
}

/// Two grammars and the table from the old one to the new one.
#[derive(Clone, Debug)]
pub(crate) struct Renumbering {
    pub old: Vec<TypeText>,
    pub new: Vec<TypeText>,
    /// One for each type of the old grammar.
    pub entries: Vec<Entry>,
}

/// What a word of the table is about: an old type, and a form of it or itself.
pub(crate) type TableWord = (usize, Option<usize>);

impl Renumbering {
    /// Nothing is renumbered.
    pub fn identity(types: Vec<TypeText>) -> Renumbering {
        let entry = |(number, ty): (usize, &TypeText)| Entry {
            ty: number as u32,
            forms: (0..form_count(ty) as u32).collect(),
        };
        Renumbering {
            entries: types.iter().enumerate().map(entry).collect(),
            old: types.clone(),
            new: types,
        }
    }

    /// The table's words.
    pub fn table(&self) -> Vec<u32> {
        let words = |entry: &Entry| [vec![entry.ty], entry.forms.clone()].concat();
        self.entries.iter().flat_map(words).collect()
    }

    /// What each word of the table is about.
    pub fn table_words(&self) -> Vec<TableWord> {
        let mut words = Vec::new();
        for (ty, entry) in self.entries.iter().enumerate() {
            words.push((ty, None));
            words.extend((0..entry.forms.len()).map(|form| (ty, Some(form))));
        }
        words
    }

    /// The lowest word of the table that names a type of the new grammar, or a
    /// form of it.
    pub fn lowest_word(&self, new_type: usize, new_form: Option<usize>) -> Option<usize> {
        self.table_words().iter().position(|&(ty, form)| {
            let entry = &self.entries[ty];
            let named = form.map(|form| entry.forms[form] as usize);
            entry.ty as usize == new_type && named == new_form
        })
    }

    /// The old grammar has a type twice: some of its places have the copy. In
    /// the new grammar both are one type.
    pub fn split_type(&mut self, random: &mut Random) {
        if self.old.len() == MOST_TYPES {
            return;
        }
        let split = random.below(self.old.len());
        let copy = self.old.len() as u32;
        self.old.push(self.old[split].clone());
        self.entries.push(self.entries[split].clone());
        for ty in &mut self.old {
            let places = type_numbers(ty).into_iter();
            for place in places.filter(|place| **place as usize == split) {
                if random.chance(50) {
                    *place = copy;
                }
            }
        }
    }

    /// A type of the old grammar has a form twice, in the new one once.
    pub fn split_form(&mut self, random: &mut Random) {
        let split = random.below(self.old.len());
        let entry = &mut self.entries[split];
        if let TypeText::Forms(forms) = &mut self.old[split] {
            if forms.len() < MOST_FORMS {
                let form = random.below(forms.len());
                forms.push(forms[form].clone());
                entry.forms.push(entry.forms[form]);
            }
        }
    }

    /// A form is only in the new grammar.
    pub fn drop_form(&mut self, random: &mut Random) {
        let ty = random.below(self.old.len());
        let mut fewer = self.old.clone();
        if let TypeText::Forms(forms) = &mut fewer[ty] {
            let form = random.below(forms.len());
            forms.remove(form);
            if !forms.is_empty() && infinite_type(&fewer).is_none() {
                self.old = fewer;
                self.entries[ty].forms.remove(form);
            }
        }
    }

    /// The new grammar has a type to which nothing maps.
    pub fn add_type(&mut self, random: &mut Random) {
        if self.new.len() < MOST_TYPES {
            let count = self.new.len() as u32 + 1;
            self.new.push(one_type(random, count));
            make_finite(random, &mut self.new);
        }
    }

    /// The new grammar has a form to which nothing maps.
    pub fn add_form(&mut self, random: &mut Random) {
        let count = self.new.len() as u32;
        let ty = random.below(self.new.len());
        if let TypeText::Forms(forms) = &mut self.new[ty] {
            if forms.len() < MOST_FORMS {
                forms.push(one_form(random, count));
            }
        }
    }

    /// Gives the types of the new grammar other numbers.
    pub fn permute_new(&mut self, numbers: &[u32]) {
        self.new = permuted(&self.new, numbers);
        for ty in &mut self.new {
            rename(ty, numbers);
        }
        for entry in &mut self.entries {
            entry.ty = numbers[entry.ty as usize];
        }
    }

    /// Gives the types of the old grammar other numbers.
    fn permute_old(&mut self, numbers: &[u32]) {
        self.old = permuted(&self.old, numbers);
        self.entries = permuted(&self.entries, numbers);
        for ty in &mut self.old {
            rename(ty, numbers);
        }
    }

    /// Gives the forms of each type other numbers, in both grammars.
    fn permute_forms(&mut self, random: &mut Random) {
        for (number, ty) in self.new.iter_mut().enumerate() {
            if let TypeText::Forms(forms) = ty {
                let numbers = permutation(random, forms.len());
                *forms = permuted(forms, &numbers);
                let mapped = self.entries.iter_mut();
                for entry in mapped.filter(|entry| entry.ty as usize == number) {
                    for form in &mut entry.forms {
                        *form = numbers[*form as usize];
                    }
                }
            }
        }
        for (ty, entry) in self.old.iter_mut().zip(&mut self.entries) {
            if let TypeText::Forms(forms) = ty {
                let numbers = permutation(random, forms.len());
                *forms = permuted(forms, &numbers);
                entry.forms = permuted(&entry.forms, &numbers);
            }
        }
    }

    /// Other numbers for everything but type 0, and other literals.
    pub fn renumber(&mut self, random: &mut Random) {
        self.permute_forms(random);
        let numbers = permutation_behind_0(random, self.old.len());
        self.permute_old(&numbers);
        let numbers = permutation_behind_0(random, self.new.len());
        self.permute_new(&numbers);
        change_literals(random, &mut self.old);
        change_literals(random, &mut self.new);
    }

    /// Types and forms of the old grammar fall together.
    pub fn merge(&mut self, random: &mut Random) {
        for _ in 0..random.between(1, 4) {
            self.split_type(random);
            self.split_form(random);
        }
    }

    /// The new grammar has more than the old one.
    pub fn extend(&mut self, random: &mut Random) {
        for _ in 0..random.between(1, 3) {
            self.add_type(random);
            self.add_form(random);
            self.drop_form(random);
        }
    }
}

/// Nearly as many types as can be, some with as many forms and elements.
fn large_types(random: &mut Random) -> Vec<TypeText> {
    let count = random.pick(&[MOST_TYPES, MOST_TYPES, MOST_TYPES - 2]);
    let mut types: Vec<TypeText> = (0..count).map(|_| one_type(random, count as u32)).collect();
    for _ in 0..random.between(2, 8) {
        let any = random.below(count);
        let place = random.pick(&[0, count - 1, any]);
        let forms = (0..MOST_FORMS).map(|_| {
            let elements = 0..random.pick(&[1, MOST_ELEMENTS, MOST_ELEMENTS]);
            elements.map(|_| random.below(count) as u32).collect()
        });
        types[place] = TypeText::Forms(forms.collect());
    }
    make_finite(random, &mut types);
    types
}

/// A right renumbering with something of everything.
pub(crate) fn renumbering(random: &mut Random) -> Renumbering {
    let types = match random.below(7) {
        0 => large_types(random),
        _ => valid_types(random),
    };
    let mut made = Renumbering::identity(types);
    if random.chance(50) {
        made.merge(random);
    }
    if random.chance(50) {
        made.extend(random);
    }
    if random.chance(90) {
        made.renumber(random);
    }
    made
}

/// A right renumbering of grammars with so many words, by literals.
pub(crate) fn renumbering_of_words(random: &mut Random, words: [usize; 2]) -> Option<Renumbering> {
    let mut types = valid_types(random);
    let most = random.between(40, MOST_TYPES);
    while types.len() < most {
        let forms = (0..MOST_FORMS).map(|_| {
            let elements = 0..random.below(3);
            elements.map(|_| random.below(most) as u32).collect()
        });
        types.push(TypeText::Forms(forms.collect()));
    }
    make_finite(random, &mut types);
    let mut made = Renumbering::identity(types);
    if random.chance(50) {
        made.merge(random);
    }
    if random.chance(80) {
        made.renumber(random);
    }
    let filled = fill(random, &mut made.old, words[0]) && fill(random, &mut made.new, words[1]);
    filled.then_some(made)
}

/// How many forms a type has: none if it is of another kind.
pub(crate) fn form_count(ty: &TypeText) -> usize {
    match ty {
        TypeText::Forms(forms) => forms.len(),
        _ => 0,
    }
}

/// Whether an element is a literal.
pub(crate) fn is_literal(element: u32) -> bool {
    element >= LITERALS[0]
}

/// The places of a type's text where a type stands.
pub(crate) fn type_numbers(ty: &mut TypeText) -> Vec<&mut u32> {
    match ty {
        TypeText::Token(_) => Vec::new(),
        TypeText::Optional(element) | TypeText::Sequence(element) | TypeText::List(element) => {
            vec![element]
        }
        TypeText::Forms(forms) => {
            let elements = forms.iter_mut().flatten();
            elements.filter(|element| !is_literal(**element)).collect()
        }
    }
}

fn rename(ty: &mut TypeText, numbers: &[u32]) {
    for place in type_numbers(ty) {
        *place = numbers[*place as usize];
    }
}

/// The numbers under `count` in any order.
pub(crate) fn permutation(random: &mut Random, count: usize) -> Vec<u32> {
    let mut numbers: Vec<u32> = (0..count as u32).collect();
    for place in (1..count).rev() {
        numbers.swap(place, random.below(place + 1));
    }
    numbers
}

fn permutation_behind_0(random: &mut Random, count: usize) -> Vec<u32> {
    let behind = permutation(random, count - 1);
    let behind = behind.into_iter().map(|number| number + 1);
    [0].into_iter().chain(behind).collect()
}

/// A list whose item at each place moves to the number that stands there.
fn permuted<T: Clone>(list: &[T], numbers: &[u32]) -> Vec<T> {
    let mut moved = list.to_vec();
    for (item, &number) in list.iter().zip(numbers) {
        moved[number as usize] = item.clone();
    }
    moved
}

/// Moves, adds and drops literals.
fn change_literals(random: &mut Random, types: &mut [TypeText]) {
    for form in all_forms(types) {
        form.retain(|&element| !is_literal(element) || random.chance(40));
        if random.chance(40) {
            for _ in 0..random.between(1, 3) {
                add_literal(random, form);
            }
        }
    }
}

fn all_forms(types: &mut [TypeText]) -> impl Iterator<Item = &mut Vec<u32>> {
    let forms = types.iter_mut().filter_map(|ty| match ty {
        TypeText::Forms(forms) => Some(forms),
        _ => None,
    });
    forms.flatten()
}

fn add_literal(random: &mut Random, form: &mut Vec<u32>) {
    if form.len() < MOST_ELEMENTS {
        let place = random.below(form.len() + 1);
        form.insert(place, random.pick(&LITERALS));
    }
}

/// Adds literals up to a number of words, if there is room for them.
fn fill(random: &mut Random, types: &mut [TypeText], words: usize) -> bool {
    let mut length = written(types).len();
    for form in all_forms(types) {
        while length < words && form.len() < MOST_ELEMENTS {
            add_literal(random, form);
            length += 1;
        }
    }
    length == words
}
