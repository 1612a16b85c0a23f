//! Random grammars: valid ones, ones as they come, and damaged ones.

use reference::limits;

use crate::labeled::{change_length, wrong_count, Labeled};
use crate::random::Random;

/// A type before it is written as words.
#[derive(Clone, Debug, PartialEq, Eq)]
pub(crate) enum TypeText {
    Token(u32),
    Optional(u32),
    Sequence(u32),
    List(u32),
    Forms(Vec<Vec<u32>>),
}

/// What a word of a grammar is.
#[derive(Clone, Copy, Debug, PartialEq, Eq)]
enum Field {
    TypeCount,
    Map,
    Class,
    Type,
    FormCount,
    ElementCount,
    Element,
}

const NUMBER_CLASS: u32 = 2;
pub(crate) const LITERALS: [u32; 4] = [65_536, 65_537, 70_000, 131_071];

/// A valid grammar.
pub fn grammar(seed: u64) -> Vec<u32> {
    valid(&mut Random::new(seed)).words
}

/// A grammar as it comes: its types need not have finite trees.
pub fn any_grammar(seed: u64) -> Vec<u32> {
    let mut random = Random::new(seed);
    write(&random_types(&mut random)).words
}

/// A valid grammar with one fault put into it. A few turn out valid again.
pub fn damaged_grammar(seed: u64) -> Vec<u32> {
    let mut random = Random::new(seed);
    match random.below(10) {
        0 => any_grammar(seed),
        1 => with_infinite_types(&mut random),
        2 => {
            let mut words = valid(&mut random).words;
            change_length(&mut random, &mut words);
            words
        }
        _ => {
            let mut grammar = valid(&mut random);
            damage_one_word(&mut random, &mut grammar);
            grammar.words
        }
    }
}

/// A grammar of 4,096 to 4,100 words, so mostly too long.
pub fn long_grammar(seed: u64) -> Vec<u32> {
    let mut random = Random::new(seed);
    let full = vec![vec![0; limits::ELEMENTS as usize]; limits::FORMS as usize];
    let mut types = vec![TypeText::Sequence(1); 35];
    types.extend(vec![TypeText::Forms(full); 29]);
    let mut words = write(&types).words;
    words.truncate(random.between(4_096, 4_100));
    words
}

fn valid(random: &mut Random) -> Labeled<Field> {
    write(&valid_types(random))
}

/// The types of a valid grammar.
pub(crate) fn valid_types(random: &mut Random) -> Vec<TypeText> {
    let mut types = match random.below(12) {
        0 => list_types(random),
        1 | 2 => expression_types(random),
        3 => nested_types(random),
        4 => full_types(random),
        _ => random_types(random),
    };
    make_finite(random, &mut types);
    types
}

/// The words of a grammar of these types.
pub(crate) fn written(types: &[TypeText]) -> Vec<u32> {
    write(types).words
}

/// A program of a sequence of tokens.
fn list_types(random: &mut Random) -> Vec<TypeText> {
    vec![
        TypeText::Forms(vec![vec![1]]),
        TypeText::Sequence(2),
        TypeText::Token(random.pick(&[1, 2, 2, 3])),
    ]
}

/// Statements and expressions, much like a small language.
fn expression_types(random: &mut Random) -> Vec<TypeText> {
    let literal = random.pick(&LITERALS);
    let mut expressions = vec![
        vec![4],
        vec![3, literal, 3],
        vec![5],
        vec![literal, 3, literal],
        vec![1],
    ];
    expressions.truncate(random.between(2, 5));
    vec![
        TypeText::Forms(vec![vec![1]]),
        TypeText::Sequence(2),
        TypeText::Forms(vec![vec![5, literal, 3], vec![6], vec![literal, 0], vec![]]),
        TypeText::Forms(expressions),
        TypeText::Token(NUMBER_CLASS),
        TypeText::Token(1),
        TypeText::Optional(3),
    ]
}

/// Optionals and sequences of each other or of themselves.
fn nested_types(random: &mut Random) -> Vec<TypeText> {
    let count = random.between(1, 4);
    (0..count)
        .map(|_| {
            let element = random.below(count) as u32;
            match random.below(5) {
                0 | 1 => TypeText::Optional(element),
                2 | 3 => TypeText::Sequence(element),
                _ => TypeText::Forms(vec![vec![element], vec![element, element], vec![]]),
            }
        })
        .collect()
}

/// 64 types, forms up to their greatest counts.
fn full_types(random: &mut Random) -> Vec<TypeText> {
    let mut types: Vec<TypeText> = (0..limits::TYPES)
        .map(|_| one_type(random, limits::TYPES))
        .collect();
    let elements = limits::ELEMENTS as usize;
    let forms = (0..limits::FORMS as usize).map(|form| {
        let types = 0..form.min(elements);
        types.map(|_| random.below(64) as u32).collect()
    });
    types[0] = TypeText::Forms(forms.collect());
    types[63] = TypeText::Token(NUMBER_CLASS);
    types
}

fn random_types(random: &mut Random) -> Vec<TypeText> {
    let count = match random.below(10) {
        0..=4 => random.between(1, 5),
        5..=7 => random.between(3, 10),
        8 => random.between(1, 24),
        _ => random.between(1, 64),
    };
    let mut types: Vec<TypeText> = (0..count).map(|_| one_type(random, count as u32)).collect();
    // A root that is a token leaves little to rewrite.
    if matches!(types[0], TypeText::Token(_)) && random.chance(90) {
        types[0] = TypeText::Sequence(random.below(count) as u32);
    }
    if count > 1 && random.chance(60) {
        types[count - 1] = TypeText::Token(NUMBER_CLASS);
    }
    types
}

pub(crate) fn one_type(random: &mut Random, count: u32) -> TypeText {
    let mut any = || random.below(count as usize) as u32;
    let element = any();
    match random.below(100) {
        0..=29 => TypeText::Token(random.pick(&[1, 2, 2, 3])),
        30..=42 => TypeText::Optional(element),
        43..=53 => TypeText::Sequence(element),
        54..=60 => TypeText::List(element),
        _ => {
            let forms = match random.below(20) {
                0 => 16,
                1..=9 => random.between(2, 4),
                _ => random.between(1, 3),
            };
            TypeText::Forms((0..forms).map(|_| one_form(random, count)).collect())
        }
    }
}

pub(crate) fn one_form(random: &mut Random, count: u32) -> Vec<u32> {
    let elements = match random.below(20) {
        0 => 8,
        1..=4 => 0,
        _ => random.between(1, 3),
    };
    let mut element = || {
        if random.chance(15) {
            random.pick(&LITERALS)
        } else {
            random.below(count as usize) as u32
        }
    };
    (0..elements).map(|_| element()).collect()
}

/// Gives a form without types to each type that has no finite tree.
pub(crate) fn make_finite(random: &mut Random, types: &mut [TypeText]) {
    while let Some(number) = infinite_type(types) {
        let TypeText::Forms(forms) = &mut types[number] else {
            unreachable!("only forms can lack a finite tree");
        };
        if forms.len() == limits::FORMS as usize {
            forms.pop();
        }
        let place = random.below(forms.len() + 1);
        let literal = random.chance(50).then_some(LITERALS[0]);
        forms.insert(place, literal.into_iter().collect());
    }
}

pub(crate) fn infinite_type(types: &[TypeText]) -> Option<usize> {
    let mut finite = vec![false; types.len()];
    loop {
        let before = finite.clone();
        for (number, ty) in types.iter().enumerate() {
            finite[number] |= match ty {
                TypeText::Forms(forms) => forms.iter().any(|form| {
                    form.iter()
                        .all(|&element| finite.get(element as usize).copied().unwrap_or(true))
                }),
                _ => true,
            };
        }
        if finite == before {
            return finite.iter().position(|finite| !finite);
        }
    }
}

/// A valid grammar in which a type, or a ring of two, needs itself.
fn with_infinite_types(random: &mut Random) -> Vec<u32> {
    let mut types = random_types(random);
    make_finite(random, &mut types);
    let one = random.below(types.len());
    let two = random.below(types.len());
    types[one] = TypeText::Forms(vec![vec![two as u32]; random.between(1, 2)]);
    types[two] = TypeText::Forms(vec![vec![LITERALS[0], one as u32]]);
    let mut words = write(&types).words;
    // Words left over are told first, though they stand behind.
    if random.chance(20) {
        words.push(0);
    }
    words
}

fn damage_one_word(random: &mut Random, grammar: &mut Labeled<Field>) {
    let types = grammar.words[0];
    let (position, field) = grammar.position(random);
    let word = grammar.words[position];
    grammar.words[position] = match field {
        Field::TypeCount => wrong_count(random, word, limits::TYPES),
        Field::Map => random.pick(&[0, 1, 2, 3, 4, 5, 8, 9, 12, 15, 16, 17, 20, 32, u32::MAX]),
        Field::Class => random.pick(&[0, 1, 2, 3, 4, u32::MAX]),
        Field::Type => random.pick(&[types, types - 1, 64, 65_536, u32::MAX]),
        Field::FormCount => wrong_count(random, word, limits::FORMS),
        Field::ElementCount => wrong_count(random, word, limits::ELEMENTS),
        Field::Element => random.pick(&[types, 0, 64, 65_535, 65_536, 131_071, 131_072, u32::MAX]),
    };
}

fn write(types: &[TypeText]) -> Labeled<Field> {
    let mut text = Labeled::new();
    text.push(Field::TypeCount, types.len() as u32);
    for ty in types {
        match ty {
            TypeText::Token(class) => {
                text.push(Field::Map, 1);
                text.push(Field::Class, *class);
            }
            TypeText::Optional(element) => {
                text.push(Field::Map, 2);
                text.push(Field::Type, *element);
            }
            TypeText::Sequence(element) => {
                text.push(Field::Map, 4);
                text.push(Field::Type, *element);
            }
            TypeText::List(element) => {
                text.push(Field::Map, 16);
                text.push(Field::Type, *element);
            }
            TypeText::Forms(forms) => {
                text.push(Field::Map, 8);
                text.push(Field::FormCount, forms.len() as u32);
                for form in forms {
                    text.push(Field::ElementCount, form.len() as u32);
                    for element in form {
                        text.push(Field::Element, *element);
                    }
                }
            }
        }
    }
    text
}
