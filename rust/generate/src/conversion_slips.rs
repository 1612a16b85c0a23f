//! Slips for the converter between grammars (T-08), with two or three words a
//! node: damaged ones, and the refusals that they are due.

use reference::grammar::{Grammar, OpenPlaces};
use reference::{check_slip, limits, Refusal};

use crate::damage::ConversionInput;
use crate::labeled::change_length;
use crate::random::Random;
use crate::slips::{damaged_slip, slip, SLIP_NODE, TREE_NODE};
use crate::trees::{damage_tree, random_tree, tree_at_limits, Bounds, Shapes, Style};

/// The words of the longest slip that has two words a node.
pub(crate) const TWO_WORD_SLIP: usize = TREE_NODE * limits::NODES;

/// The greatest nesting in a tree.
pub(crate) fn nesting(grammar: &Grammar, tree: &[u32]) -> usize {
    let mut places = OpenPlaces::new(grammar, 0);
    let mut most = 0;
    for node in tree.chunks_exact(TREE_NODE) {
        let Some(place) = places.next_place() else {
            break;
        };
        most = most.max(place.nesting);
        places.fill_with_node(place, node[1]);
    }
    most
}

/// The refusal that a slip is due. One of two words a node is given counts, and
/// the word is told where it stands without them.
pub(crate) fn slip_refusal(input: &ConversionInput, grammar: &Grammar) -> Option<Refusal> {
    let length = input.slip.len();
    if input.counted {
        return check_slip(&input.old, &input.slip).err();
    }
    if length == 0 || !length.is_multiple_of(TREE_NODE) || length > TWO_WORD_SLIP {
        return Some(Refusal::new(30, 0));
    }
    let Refusal { number, position } = check_slip(&input.old, &slip(grammar, &input.slip)).err()?;
    let position = position / SLIP_NODE * TREE_NODE + position % SLIP_NODE;
    Some(Refusal::new(number, position))
}

/// A slip that is mostly nested too deep, by one or two.
fn too_deep(random: &mut Random, shapes: &Shapes, counted: bool) -> Vec<u32> {
    let bounds = Bounds {
        nesting: limits::NESTING + random.between(1, 2),
        ..Bounds::PAPER
    };
    let tree = shapes.grow(random, 0, bounds, Style::Deep);
    if counted {
        slip(shapes.grammar, &tree)
    } else {
        tree
    }
}

/// A slip with a fault, in an edition. A few turn out right again.
pub(crate) fn damaged_words(
    random: &mut Random,
    grammar: &Grammar,
    counted: bool,
) -> Option<Vec<u32>> {
    let shapes = Shapes::new(grammar);
    if !shapes.has_tree() {
        return None;
    }
    if counted && random.chance(60) {
        return Some(damaged_slip(u64::from(random.word()), grammar));
    }
    let mut tree = random_tree(random, &shapes);
    match random.below(8) {
        0..=2 => damage_tree(random, &shapes, &mut tree),
        3 | 4 if shapes.is_endless(0) => return Some(too_deep(random, &shapes, counted)),
        3..=5 => tree = tree_at_limits(random, &shapes),
        _ => {}
    }
    let mut words = if counted { slip(grammar, &tree) } else { tree };
    match random.below(7) {
        0 => change_length(random, &mut words),
        1 | 2 => {
            let most = if counted {
                limits::SLIP_WORDS
            } else {
                TWO_WORD_SLIP
            };
            let length = random.between(most - 2, most + 4);
            words.resize(
                random.pick(&[0, 1, length, length, length, length, 6_144]),
                0,
            );
        }
        _ => {}
    }
    Some(words)
}
