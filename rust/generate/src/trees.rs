//! Random trees of a grammar, two words a node: small, bushy, deep and long
//! ones, ones just beyond the limits, and damaged ones.

use reference::grammar::{Grammar, Kind, OpenPlaces, TokenClass, TypeNumber};
use reference::limits;
use reference::tree::{Piece, Tree};

use crate::random::Random;
use crate::slips::{slip, TREE_NODE};

/// What trees of each type of a grammar can be.
#[derive(Clone, Debug)]
pub struct Shapes<'a> {
    pub grammar: &'a Grammar,
    least_size: Vec<usize>,
    least_height: Vec<usize>,
    /// Whether a tree of the type can be nested without end.
    endless: Vec<bool>,
}

/// The greatest size and nesting of a tree to be grown.
#[derive(Clone, Copy, Debug)]
pub struct Bounds {
    pub nodes: usize,
    pub nesting: usize,
}

impl Bounds {
    /// The limits of the paper.
    pub const PAPER: Bounds = Bounds {
        nodes: limits::NODES,
        nesting: limits::NESTING,
    };
}

/// How a tree grows.
#[derive(Clone, Copy, Debug, PartialEq, Eq)]
pub enum Style {
    /// Mostly the least that is possible.
    Small,
    /// As it comes, up to the bounds.
    Bushy,
    /// One branch down to the greatest nesting.
    Deep,
    /// One sequence up to the greatest size.
    Long,
}

/// A place of a tree that is still to be filled.
#[derive(Clone, Copy)]
struct Place {
    ty: TypeNumber,
    nesting: usize,
    /// Whether the deep or long branch goes on here.
    spine: bool,
}

const FAR: usize = 1 << 40;

impl<'a> Shapes<'a> {
    pub fn new(grammar: &'a Grammar) -> Shapes<'a> {
        let count = grammar.types.len();
        let mut shapes = Shapes {
            grammar,
            least_size: vec![FAR; count],
            least_height: vec![FAR; count],
            endless: endless_types(grammar),
        };
        loop {
            let before = (shapes.least_size.clone(), shapes.least_height.clone());
            for ty in 0..count as TypeNumber {
                let values = shapes.values(ty);
                let sizes = values.iter().map(|&value| shapes.size_of(ty, value));
                let heights = values.iter().map(|&value| shapes.height_of(ty, value));
                let (size, height) = (sizes.min(), heights.min());
                shapes.least_size[ty as usize] = size.unwrap_or(1);
                shapes.least_height[ty as usize] = height.unwrap_or(1);
            }
            if before == (shapes.least_size.clone(), shapes.least_height.clone()) {
                return shapes;
            }
        }
    }

    /// Whether some tree of type 0 keeps the paper's limits.
    pub fn has_tree(&self) -> bool {
        self.least_size[0] <= limits::NODES && self.least_height[0] <= limits::NESTING
    }

    /// The values of a type that is no token.
    fn values(&self, ty: TypeNumber) -> Vec<u32> {
        let alternatives = self.grammar.types[ty as usize].alternatives.len();
        (0..alternatives as u32).collect()
    }

    fn children(&self, ty: TypeNumber, value: u32) -> &'a [TypeNumber] {
        self.grammar.child_types(ty, value).unwrap_or(&[])
    }

    /// The least size of a tree whose root has this value.
    fn size_of(&self, ty: TypeNumber, value: u32) -> usize {
        let children = self.children(ty, value).iter();
        let below: usize = children.map(|&child| self.least_size[child as usize]).sum();
        (1 + below).min(FAR)
    }

    /// The least height of a tree whose root has this value.
    fn height_of(&self, ty: TypeNumber, value: u32) -> usize {
        let children = self.children(ty, value).iter().enumerate();
        children
            .map(|(index, &child)| self.least_height[child as usize] + self.levels_to(ty, index))
            .max()
            .unwrap_or(1)
            .min(FAR)
    }

    fn levels_to(&self, ty: TypeNumber, index: usize) -> usize {
        usize::from(!(self.grammar.kind(ty).is_sequence() && index == 1))
    }

    /// Grows a tree within bounds, if it can be done; otherwise it passes
    /// them, but is not endless.
    pub fn grow(
        &self,
        random: &mut Random,
        ty: TypeNumber,
        bounds: Bounds,
        style: Style,
    ) -> Vec<u32> {
        let mut words = Vec::new();
        let mut places = vec![Place {
            ty,
            nesting: 1,
            spine: true,
        }];
        // The nodes that the open places need at least.
        let mut reserved = self.least_size[ty as usize];
        while let Some(place) = places.pop() {
            reserved -= self.least_size[place.ty as usize];
            let grown = words.len() / TREE_NODE;
            let room = bounds.nodes.saturating_sub(grown + reserved);
            if grown > 4 * limits::NODES {
                break;
            }
            let value = self.choose_value(random, place, room, bounds.nesting, style);
            words.extend([place.ty, value]);
            let children = self.children(place.ty, value);
            let spine = place
                .spine
                .then(|| self.spine_child(random, place.ty, children, style));
            for (index, &child) in children.iter().enumerate().rev() {
                reserved += self.least_size[child as usize];
                places.push(Place {
                    ty: child,
                    nesting: place.nesting + self.levels_to(place.ty, index),
                    spine: spine == Some(index),
                });
            }
        }
        words
    }

    /// The child on which the deep or long branch goes on.
    fn spine_child(
        &self,
        random: &mut Random,
        ty: TypeNumber,
        children: &[TypeNumber],
        style: Style,
    ) -> usize {
        let sequence = self.grammar.kind(ty).is_sequence();
        match style {
            Style::Long if sequence => 1,
            Style::Deep => {
                let deep: Vec<usize> = (0..children.len())
                    .filter(|&index| self.endless[children[index] as usize])
                    .filter(|&index| self.levels_to(ty, index) == 1)
                    .collect();
                random.pick_any(&deep).unwrap_or(0)
            }
            _ => random.below(children.len().max(1)),
        }
    }

    fn choose_value(
        &self,
        random: &mut Random,
        place: Place,
        room: usize,
        nesting: usize,
        style: Style,
    ) -> u32 {
        if let Kind::Token(class) = self.grammar.kind(place.ty) {
            return token_value(random, class);
        }
        let values = self.values(place.ty);
        let levels = (nesting + 1).saturating_sub(place.nesting);
        let fitting: Vec<u32> = values
            .iter()
            .copied()
            .filter(|&value| self.height_of(place.ty, value) <= levels)
            .filter(|&value| self.size_of(place.ty, value) <= room)
            .collect();
        let least = |values: &[u32]| {
            let by_height = values.iter().copied();
            by_height
                .min_by_key(|&value| {
                    (
                        self.height_of(place.ty, value),
                        self.size_of(place.ty, value),
                    )
                })
                .unwrap_or(0)
        };
        if fitting.is_empty() {
            return least(&values);
        }
        let with_children: Vec<u32> = fitting
            .iter()
            .copied()
            .filter(|&value| !self.children(place.ty, value).is_empty())
            .collect();
        let deep: Vec<u32> = with_children
            .iter()
            .copied()
            .filter(|&value| {
                let children = self.children(place.ty, value);
                children.iter().any(|&child| self.endless[child as usize])
            })
            .collect();
        let preferred = match style {
            Style::Small if random.chance(60) => return least(&fitting),
            Style::Small => None,
            Style::Bushy if random.chance(75) => random.pick_any(&with_children),
            Style::Bushy => None,
            Style::Deep if place.spine => random.pick_any(&deep),
            Style::Long if place.spine => random.pick_any(&with_children),
            Style::Deep | Style::Long if random.chance(85) => return least(&fitting),
            Style::Deep | Style::Long => None,
        };
        preferred.unwrap_or_else(|| random.pick(&fitting))
    }

    /// A small tree of any type.
    pub fn small_tree(&self, random: &mut Random, ty: TypeNumber) -> Tree {
        let bounds = Bounds {
            nodes: random.between(1, 12),
            nesting: limits::NESTING,
        };
        let words = self.grow(random, ty, bounds, Style::Small);
        let pieces = words.chunks_exact(TREE_NODE).map(|node| Piece::Node {
            ty: node[0],
            value: node[1],
        });
        Tree::assemble(self.grammar, pieces.collect())
    }

    /// Whether a small tree of the type can be made at all.
    pub fn has_small_tree(&self, ty: TypeNumber) -> bool {
        self.least_size[ty as usize] <= 100 && self.least_height[ty as usize] <= limits::NESTING
    }

    /// Whether trees of the type can be nested without end.
    pub fn is_endless(&self, ty: TypeNumber) -> bool {
        self.endless[ty as usize]
    }
}

/// The types whose trees can contain a tree of their own type, deeper down,
/// or of another such type.
fn endless_types(grammar: &Grammar) -> Vec<bool> {
    let count = grammar.types.len();
    let mut contains = vec![vec![false; count]; count];
    for (number, ty) in grammar.types.iter().enumerate() {
        for children in &ty.alternatives {
            // A rest is no deeper, so only elements of sequences count.
            let deeper = if ty.kind.is_sequence() {
                1
            } else {
                children.len()
            };
            for &child in children.iter().take(deeper) {
                contains[number][child as usize] = true;
            }
        }
    }
    for via in 0..count {
        let below = contains[via].clone();
        for from in contains.iter_mut().filter(|from| from[via]) {
            for (contained, below) in from.iter_mut().zip(&below) {
                *contained |= below;
            }
        }
    }
    (0..count)
        .map(|ty| contains[ty][ty] || (0..count).any(|to| contains[ty][to] && contains[to][to]))
        .collect()
}

/// A value of a token: few different ones, so that equal tokens are common,
/// and those at the ends of each range.
pub fn token_value(random: &mut Random, class: TokenClass) -> u32 {
    const NUMBERS: [u32; 19] = [
        0,
        1,
        49,
        50,
        99,
        100,
        150,
        200,
        250,
        300,
        500,
        4_200,
        40_000_000,
        999_999_950,
        999_999_999,
        1_000_000_000,
        limits::NUMBER_VALUE - 51,
        limits::NUMBER_VALUE - 50,
        limits::NUMBER_VALUE,
    ];
    match class {
        TokenClass::Number if random.chance(70) => random.below(5) as u32 * 100,
        TokenClass::Number => random.pick(&NUMBERS),
        _ if random.chance(90) => random.below(4) as u32,
        _ => random.pick(&[0, limits::TEXT_VALUE]),
    }
}

/// A tree of type 0, within the paper's limits if there is one.
pub fn tree(seed: u64, grammar: &Grammar) -> Vec<u32> {
    random_tree(&mut Random::new(seed), &Shapes::new(grammar))
}

/// The same from a stream of random numbers.
pub fn random_tree(random: &mut Random, shapes: &Shapes) -> Vec<u32> {
    let nodes = match random.below(20) {
        0..=6 => random.between(1, 12),
        7..=13 => random.between(5, 50),
        14..=17 => random.between(30, 300),
        18 => random.between(300, limits::NODES),
        _ => limits::NODES,
    };
    let nesting = match random.below(4) {
        0 => random.between(2, limits::NESTING),
        _ => limits::NESTING,
    };
    let style = random.pick(&[
        Style::Small,
        Style::Bushy,
        Style::Bushy,
        Style::Bushy,
        Style::Deep,
        Style::Long,
    ]);
    // Growth often ends early, so the greatest of a few trees is taken.
    let mut greatest = Vec::new();
    for _ in 0..4 {
        let words = shapes.grow(random, 0, Bounds { nodes, nesting }, style);
        if words.len() > greatest.len() && fits(shapes.grammar, &words) {
            greatest = words;
        }
        if greatest.len() / TREE_NODE > nodes / 2 {
            break;
        }
    }
    if greatest.is_empty() {
        greatest = shapes.grow(random, 0, Bounds::PAPER, Style::Small);
    }
    greatest
}

/// Whether a tree fits its grammar and keeps the limits.
fn fits(grammar: &Grammar, tree: &[u32]) -> bool {
    Tree::read_slip(grammar, &slip(grammar, tree)).is_ok()
}

/// A tree that is just within the limits or passes one of them by a little.
pub fn tree_at_limits(random: &mut Random, shapes: &Shapes) -> Vec<u32> {
    let (nodes, nesting, style) = match random.below(4) {
        0 => (limits::NODES, random.between(64, 66), Style::Deep),
        1 => (limits::NODES + random.below(3), 64, Style::Long),
        2 => (limits::NODES + random.below(3), 64, Style::Bushy),
        _ => (limits::NODES, random.between(64, 65), Style::Bushy),
    };
    let mut words = shapes.grow(random, 0, Bounds { nodes, nesting }, style);
    if random.chance(25) {
        damage_beyond_nesting(random, shapes.grammar, &mut words);
    }
    words
}

/// Puts another fault at the first node that is nested too deep, or ends the
/// tree there.
fn damage_beyond_nesting(random: &mut Random, grammar: &Grammar, words: &mut Vec<u32>) {
    let mut places = OpenPlaces::new(grammar, 0);
    for node in (0..words.len()).step_by(TREE_NODE) {
        let Some(place) = places.next_place() else {
            return;
        };
        if place.nesting > limits::NESTING {
            match random.below(3) {
                0 => words[node] += 1,
                1 => words[node + 1] = u32::MAX,
                _ => words.truncate(node),
            }
            return;
        }
        places.fill_with_node(place, words[node + 1]);
    }
}

/// Puts one fault into a tree. A few are trees again.
pub fn damage_tree(random: &mut Random, shapes: &Shapes, words: &mut Vec<u32>) {
    let grammar = shapes.grammar;
    let types = grammar.types.len() as u32;
    let node = TREE_NODE * random.below(words.len() / TREE_NODE);
    match random.below(5) {
        0 | 1 => {
            // A value: just outside its range, or another one.
            let values = match grammar.kind(words[node]) {
                Kind::Token(TokenClass::Number) => vec![limits::NUMBER_VALUE + 1],
                Kind::Token(_) => vec![limits::TEXT_VALUE + 1],
                _ => vec![0, 1, 2, shapes.values(words[node]).len() as u32],
            };
            words[node + 1] = if random.chance(15) {
                u32::MAX
            } else {
                random.pick(&values)
            };
        }
        2 => words[node] = random.pick(&[0, types - 1, types, 64, u32::MAX]),
        3 => {
            // Whole nodes cut off, or left over.
            if random.chance(50) {
                words.truncate(node.max(TREE_NODE));
            } else {
                words.extend_from_within(node..);
            }
        }
        _ => drop(words.drain(node..node + TREE_NODE)),
    }
}
