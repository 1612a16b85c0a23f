//! The grammar: reading it (refusals 10, 11, 12) and what a node of each type
//! may be.

use crate::limits;
use crate::words::Reader;
use crate::Refusal;

/// The number of a type: its record's place in the grammar, from 0.
pub type TypeNumber = u32;

const LITERALS: std::ops::RangeInclusive<u32> = 65_536..=131_071;

/// The class of a token type.
#[derive(Clone, Copy, Debug, PartialEq, Eq)]
pub enum TokenClass {
    Name,
    Number,
    String,
}

/// The five kinds of type, one for each bit of a record's map.
#[derive(Clone, Copy, Debug, PartialEq, Eq)]
pub enum Kind {
    Token(TokenClass),
    /// The paper's "opt".
    Optional,
    Repeat,
    /// T-04: "a repeat in all but its bit".
    List,
    Forms,
}

impl Kind {
    /// Whether a type of this kind is a sequence: a repeat or a list.
    pub fn is_sequence(self) -> bool {
        matches!(self, Kind::Repeat | Kind::List)
    }
}

/// One type of a grammar.
#[derive(Clone, Debug)]
pub struct Type {
    pub kind: Kind,
    /// For each value that a node may have, the types of its children; empty
    /// for tokens, whose values are a range. Literals have no node, so they
    /// are not kept.
    pub alternatives: Vec<Vec<TypeNumber>>,
}

/// A grammar that has passed its check.
#[derive(Clone, Debug)]
pub struct Grammar {
    pub types: Vec<Type>,
}

impl Grammar {
    /// Reads a grammar. Its length limit belongs to the call (refusal 4).
    pub fn read(words: &[u32]) -> Result<Grammar, Refusal> {
        let mut reader = Reader::new(words, 10, 11);
        let count = reader.count(1, limits::TYPES)?;
        let mut types = Vec::new();
        let mut maps = Vec::new();
        for own in 0..count {
            maps.push(reader.position());
            types.push(read_type(&mut reader, own, count)?);
        }
        reader.finish()?;
        let grammar = Grammar { types };
        match grammar.first_infinite_type() {
            Some(ty) => Err(Refusal::new(12, maps[ty])),
            None => Ok(grammar),
        }
    }

    /// The kind of a type.
    pub fn kind(&self, ty: TypeNumber) -> Kind {
        self.types[ty as usize].kind
    }

    /// Whether a word names a type of this grammar.
    pub fn has_type(&self, word: u32) -> bool {
        (word as usize) < self.types.len()
    }

    /// Whether a type is a number token, on which number operations work.
    pub fn is_number(&self, ty: TypeNumber) -> bool {
        self.kind(ty) == Kind::Token(TokenClass::Number)
    }

    /// Whether a type is a name or string token, whose value 0 is "the empty
    /// token".
    pub fn is_text(&self, ty: TypeNumber) -> bool {
        matches!(
            self.kind(ty),
            Kind::Token(TokenClass::Name | TokenClass::String)
        )
    }

    /// The type of a sequence's elements, or `None` if the type is no
    /// sequence.
    pub fn element(&self, ty: TypeNumber) -> Option<TypeNumber> {
        let ty = &self.types[ty as usize];
        ty.kind.is_sequence().then(|| ty.alternatives[0][0])
    }

    /// The types of the children of a node, or `None` if a node of that type
    /// cannot have that value.
    pub fn child_types(&self, ty: TypeNumber, value: u32) -> Option<&[TypeNumber]> {
        let ty = &self.types[ty as usize];
        let most = match ty.kind {
            Kind::Token(TokenClass::Number) => limits::NUMBER_VALUE,
            Kind::Token(_) => limits::TEXT_VALUE,
            _ => return ty.alternatives.get(value as usize).map(Vec::as_slice),
        };
        (value <= most).then_some(&[])
    }

    /// The lowest type of which no finite tree exists.
    fn first_infinite_type(&self) -> Option<usize> {
        let mut finite = vec![false; self.types.len()];
        loop {
            let before = finite.clone();
            for (number, ty) in self.types.iter().enumerate() {
                finite[number] |= match ty.kind {
                    Kind::Token(_) => true,
                    _ => ty
                        .alternatives
                        .iter()
                        .any(|children| children.iter().all(|&child| finite[child as usize])),
                };
            }
            if finite == before {
                return finite.iter().position(|&finite| !finite);
            }
        }
    }
}

fn read_type(reader: &mut Reader, own: TypeNumber, count: u32) -> Result<Type, Refusal> {
    let is_type = |word| word < count;
    let map = reader.word_where(|word| matches!(word, 1 | 2 | 4 | 8 | 16))?;
    let (kind, alternatives) = match map {
        1 => {
            let class = match reader.count(1, 3)? {
                1 => TokenClass::Name,
                2 => TokenClass::Number,
                _ => TokenClass::String,
            };
            (Kind::Token(class), Vec::new())
        }
        2 => {
            let element = reader.word_where(is_type)?;
            (Kind::Optional, vec![vec![element], vec![]])
        }
        4 | 16 => {
            let kind = if map == 4 { Kind::Repeat } else { Kind::List };
            let element = reader.word_where(is_type)?;
            (kind, vec![vec![element, own], vec![]])
        }
        _ => {
            let forms = reader.count(1, limits::FORMS)?;
            let alternatives = (0..forms).map(|_| read_form(reader, is_type));
            (Kind::Forms, alternatives.collect::<Result<_, _>>()?)
        }
    };
    Ok(Type { kind, alternatives })
}

/// Reads one form and keeps the types of its children.
fn read_form(
    reader: &mut Reader,
    is_type: impl Fn(u32) -> bool,
) -> Result<Vec<TypeNumber>, Refusal> {
    let elements = reader.count(0, limits::ELEMENTS)?;
    let mut children = Vec::new();
    for _ in 0..elements {
        let element = reader.word_where(|word| is_type(word) || LITERALS.contains(&word))?;
        if is_type(element) {
            children.push(element);
        }
    }
    Ok(children)
}

/// One place of a tree: the type due there and its nesting.
#[derive(Clone, Copy, Debug, PartialEq, Eq)]
pub struct Place {
    pub ty: TypeNumber,
    pub nesting: usize,
}

/// The places of a tree that are still to be filled, when it is read parent
/// first and left to right.
pub struct OpenPlaces<'a> {
    grammar: &'a Grammar,
    /// The next place is the last of these.
    places: Vec<Place>,
}

impl<'a> OpenPlaces<'a> {
    /// The places of a tree of which nothing is read yet.
    pub fn new(grammar: &'a Grammar, ty: TypeNumber) -> Self {
        let root = Place { ty, nesting: 1 };
        OpenPlaces {
            grammar,
            places: vec![root],
        }
    }

    /// The place to be filled next, if the tree is not complete.
    pub fn next_place(&mut self) -> Option<Place> {
        self.places.pop()
    }

    /// Fills a place with a node of the type due there, which opens the
    /// places of its children. False if the node cannot have that value.
    pub fn fill_with_node(&mut self, place: Place, value: u32) -> bool {
        let Some(children) = self.grammar.child_types(place.ty, value) else {
            return false;
        };
        let sequence = self.grammar.kind(place.ty).is_sequence();
        for (index, &ty) in children.iter().enumerate().rev() {
            // The rest of a sequence keeps its parent's nesting.
            let rest = sequence && index == 1;
            let nesting = place.nesting + usize::from(!rest);
            self.places.push(Place { ty, nesting });
        }
        true
    }
}
