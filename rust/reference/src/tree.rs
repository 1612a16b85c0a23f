//! Trees, the paper's "slips" and their parts: reading them (refusals 30 to
//! 34), writing them, and what the run needs to know of them.
//!
//! A tree is a counted reference to its root node, so that a copy of it costs
//! nothing; a change clones only those nodes on its way that are shared. The
//! run counts copied nodes as the paper does, whatever is shared here.

use std::rc::Rc;

use crate::grammar::{Grammar, OpenPlaces, TypeNumber};
use crate::limits;
use crate::Refusal;

/// The words of a node in a slip or a result (T-07): its type, its value and
/// the number of nodes in its tree.
const SLIP_NODE: usize = 3;
/// The words of a node in a slip of document 01, which the converter of T-08
/// still takes: its type and its value.
const TWO_WORD_NODE: usize = 2;

/// A whole tree.
#[derive(Clone, Debug)]
pub struct Tree(Rc<Node>);

/// The root node of a tree, with its children.
#[derive(Clone, Debug)]
struct Node {
    ty: TypeNumber,
    value: u32,
    children: Vec<Tree>,
    /// Whether the second child is the rest of a sequence.
    sequence: bool,
    /// The number of nodes of the tree.
    size: usize,
    /// The greatest nesting in the tree, its root having nesting 1.
    height: usize,
}

/// A stretch of a tree in prefix order: one node, whose children follow, or a
/// whole tree.
#[derive(Clone, Debug)]
pub enum Piece {
    Node { ty: TypeNumber, value: u32 },
    Whole(Tree),
}

impl Tree {
    /// Reads a slip: the words of a tree of type 0, three a node. T-07: "type,
    /// value, and the number of nodes in its tree, itself included".
    pub fn read_slip(grammar: &Grammar, slip: &[u32]) -> Result<Tree, Refusal> {
        check_slip_length(slip, SLIP_NODE, limits::SLIP_WORDS)?;
        let tree = Tree::assemble(grammar, read_nodes(grammar, slip, SLIP_NODE)?);
        // T-07: 34 is "checked after 33 over the whole slip", so only now.
        match tree.first_wrong_count(slip) {
            Some(position) => Err(Refusal::new(34, position)),
            None => Ok(tree),
        }
    }

    /// Reads a slip of document 01, two words a node. T-08: "with 30 as in
    /// document 01, and no 34".
    pub fn read_two_word_slip(grammar: &Grammar, slip: &[u32]) -> Result<Tree, Refusal> {
        check_slip_length(slip, TWO_WORD_NODE, limits::TWO_WORD_SLIP_WORDS)?;
        let nodes = read_nodes(grammar, slip, TWO_WORD_NODE)?;
        Ok(Tree::assemble(grammar, nodes))
    }

    /// The lowest word of this tree's slip whose count is not the number of
    /// nodes in its node's tree.
    fn first_wrong_count(&self, slip: &[u32]) -> Option<usize> {
        let counts = slip.iter().enumerate().skip(2).step_by(SLIP_NODE);
        self.preorder()
            .zip(counts)
            .find(|(tree, (_, &count))| tree.size() != count as usize)
            .map(|(_, (position, _))| position)
    }

    /// Puts the pieces of one tree together. They must be complete and fit
    /// the grammar.
    pub fn assemble(grammar: &Grammar, pieces: Vec<Piece>) -> Tree {
        // Read from the end, the children of a node are the last trees made,
        // the first child on top.
        let mut made: Vec<Tree> = Vec::new();
        for piece in pieces.into_iter().rev() {
            let tree = match piece {
                Piece::Whole(tree) => tree,
                Piece::Node { ty, value } => {
                    let children = grammar.child_types(ty, value).map_or(0, <[_]>::len);
                    let children = made.drain(made.len() - children..).rev().collect();
                    Tree::node(grammar, ty, value, children)
                }
            };
            made.push(tree);
        }
        let tree = made.pop().expect("a tree has at least one piece");
        debug_assert!(made.is_empty());
        tree
    }

    fn node(grammar: &Grammar, ty: TypeNumber, value: u32, children: Vec<Tree>) -> Tree {
        let mut node = Node {
            ty,
            value,
            children,
            sequence: grammar.kind(ty).is_sequence(),
            size: 0,
            height: 0,
        };
        node.measure();
        Tree(Rc::new(node))
    }

    /// A sequence with these elements.
    pub fn sequence(grammar: &Grammar, ty: TypeNumber, elements: &[Tree]) -> Tree {
        let empty = Tree::node(grammar, ty, 1, Vec::new());
        elements.iter().rfold(empty, |rest, element| {
            Tree::node(grammar, ty, 0, vec![element.clone(), rest])
        })
    }

    /// The type of the root.
    pub fn ty(&self) -> TypeNumber {
        self.0.ty
    }

    /// The value of the root.
    pub fn value(&self) -> u32 {
        self.0.value
    }

    /// The trees below the root.
    pub fn children(&self) -> &[Tree] {
        &self.0.children
    }

    /// The number of nodes.
    pub fn size(&self) -> usize {
        self.0.size
    }

    /// The greatest nesting, the root having nesting 1.
    pub fn height(&self) -> usize {
        self.0.height
    }

    /// Whether a name or string anywhere in the tree, its root included, is
    /// empty.
    pub fn holds_blank(&self, grammar: &Grammar) -> bool {
        self.preorder()
            .any(|tree| tree.value() == 0 && grammar.is_text(tree.ty()))
    }

    /// The trees of all nodes, parent first and left to right. The place of a
    /// tree in this order is its position in `find` and `replace_at`.
    pub fn preorder(&self) -> Preorder<'_> {
        Preorder {
            to_come: vec![self],
        }
    }

    /// The elements of a sequence, the first one first.
    pub fn elements(&self) -> impl Iterator<Item = &Tree> {
        // The last rest is empty and has no children.
        std::iter::successors(Some(self), |rest| rest.children().get(1))
            .filter_map(|rest| rest.children().first())
    }

    /// The words of the tree, two a node, as they stand in patterns and
    /// replacements.
    pub fn words(&self) -> Vec<u32> {
        self.preorder()
            .flat_map(|tree| [tree.ty(), tree.value()])
            .collect()
    }

    /// The words of the tree as a slip or a result, three a node (T-07).
    pub fn slip(&self) -> Vec<u32> {
        self.preorder()
            .flat_map(|tree| [tree.ty(), tree.value(), tree.size() as u32])
            .collect()
    }

    /// The tree at a position, and the nesting of its root in this tree.
    pub fn find(&self, mut position: usize) -> (&Tree, usize) {
        let mut tree = self;
        let mut nesting = 1;
        while position > 0 {
            let (index, below) = tree.0.child_at(position);
            nesting += tree.0.levels_to(index);
            tree = &tree.0.children[index];
            position = below;
        }
        (tree, nesting)
    }

    /// Puts another tree in the place of the tree at a position.
    pub fn replace_at(&mut self, position: usize, replacement: Tree) {
        if position == 0 {
            *self = replacement;
            return;
        }
        // This calls itself once a level, at most 2,047 times.
        let node = Rc::make_mut(&mut self.0);
        let (index, below) = node.child_at(position);
        node.children[index].replace_at(below, replacement);
        node.measure();
    }

    /// Gives the root another value, for which it has the same children.
    pub fn set_value(&mut self, value: u32) {
        Rc::make_mut(&mut self.0).value = value;
    }
}

/// Holds the length of a slip to that of one or more whole nodes and to its
/// limit (refusal 30).
fn check_slip_length(slip: &[u32], node_words: usize, limit: usize) -> Result<(), Refusal> {
    let whole_nodes = slip.len().is_multiple_of(node_words);
    if slip.is_empty() || !whole_nodes || slip.len() > limit {
        return Err(Refusal::new(30, 0));
    }
    Ok(())
}

/// Reads the nodes of a slip (refusals 31 to 33), each beginning with its type
/// and its value. The grammar alone says where the tree ends; counts are not
/// looked at.
fn read_nodes(grammar: &Grammar, slip: &[u32], node_words: usize) -> Result<Vec<Piece>, Refusal> {
    let mut pieces = Vec::with_capacity(slip.len() / node_words);
    let mut places = OpenPlaces::new(grammar, 0);
    while let Some(place) = places.next_place() {
        let position = node_words * pieces.len();
        if position == slip.len() {
            return Err(Refusal::new(31, position));
        }
        let (ty, value) = (slip[position], slip[position + 1]);
        if ty != place.ty {
            return Err(Refusal::new(32, position));
        }
        if place.nesting > limits::NESTING {
            return Err(Refusal::new(33, position));
        }
        if !places.fill_with_node(place, value) {
            return Err(Refusal::new(32, position + 1));
        }
        pieces.push(Piece::Node { ty, value });
    }
    let end = node_words * pieces.len();
    if end < slip.len() {
        return Err(Refusal::new(31, end));
    }
    Ok(pieces)
}

impl Node {
    /// Sets the size and the height from those of the children.
    fn measure(&mut self) {
        self.size = 1;
        self.height = 1;
        for (index, child) in self.children.iter().enumerate() {
            self.size += child.size();
            self.height = self.height.max(child.height() + self.levels_to(index));
        }
    }

    /// How much deeper than this node a child is nested.
    fn levels_to(&self, index: usize) -> usize {
        usize::from(!(self.sequence && index == 1))
    }

    /// The child that holds the node at a position of this tree, and the
    /// position of that node in the child.
    fn child_at(&self, position: usize) -> (usize, usize) {
        let mut below = position - 1;
        for (index, child) in self.children.iter().enumerate() {
            if below < child.size() {
                return (index, below);
            }
            below -= child.size();
        }
        panic!("position {position} lies outside a tree of {}", self.size)
    }
}

impl Drop for Node {
    /// Drops the children in a loop, as a sequence is as deep as it is long.
    fn drop(&mut self) {
        let mut dropped = std::mem::take(&mut self.children);
        while let Some(tree) = dropped.pop() {
            if let Ok(mut node) = Rc::try_unwrap(tree.0) {
                dropped.append(&mut node.children);
            }
        }
    }
}

impl PartialEq for Tree {
    /// Trees are the same if their types and values are, wherever they stand.
    fn eq(&self, other: &Tree) -> bool {
        let mut to_compare = vec![(self, other)];
        while let Some((one, two)) = to_compare.pop() {
            if Rc::ptr_eq(&one.0, &two.0) {
                continue;
            }
            if one.size() != two.size() || one.ty() != two.ty() || one.value() != two.value() {
                return false;
            }
            to_compare.extend(one.children().iter().zip(two.children()));
        }
        true
    }
}

impl Eq for Tree {}

/// The trees of all nodes of a tree, parent first and left to right.
pub struct Preorder<'a> {
    to_come: Vec<&'a Tree>,
}

impl<'a> Iterator for Preorder<'a> {
    type Item = &'a Tree;

    fn next(&mut self) -> Option<&'a Tree> {
        let tree = self.to_come.pop()?;
        self.to_come.extend(tree.children().iter().rev());
        Some(tree)
    }
}
