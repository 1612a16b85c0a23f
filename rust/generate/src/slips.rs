//! Slips: trees with the count that each node has of the nodes in its own tree
//! (T-07), slips at the limits, and damaged ones.

use reference::grammar::Grammar;
use reference::limits;

use crate::counts::{with_any_wrong_count, with_last_count_wrong};
use crate::labeled::change_length;
use crate::random::Random;
use crate::trees::{damage_tree, random_tree, tree_at_limits, Shapes};

/// The words of a node in a tree: type and value.
pub(crate) const TREE_NODE: usize = 2;
/// The words of a node in a slip: type, value and count.
pub(crate) const SLIP_NODE: usize = 3;

/// The slip of a tree that is written two words a node.
///
/// A node stays open until as many trees have ended behind it as it has
/// children; the nodes passed by then are its count. A tree that does not fit
/// its grammar is counted as far as that goes: a node that cannot be has no
/// children, and a node whose children are missing ends where the words do.
pub fn slip(grammar: &Grammar, tree: &[u32]) -> Vec<u32> {
    let nodes: Vec<&[u32]> = tree.chunks_exact(TREE_NODE).collect();
    let mut counts = vec![0; nodes.len()];
    // The nodes whose trees have not ended, with the children still owed.
    let mut open: Vec<(usize, usize)> = Vec::new();
    for (place, node) in nodes.iter().enumerate() {
        open.push((place, children_of(grammar, node)));
        while let Some(&(ended, 0)) = open.last() {
            open.pop();
            counts[ended] = place + 1 - ended;
            if let Some((_, owed)) = open.last_mut() {
                *owed -= 1;
            }
        }
    }
    for (place, _) in open {
        counts[place] = nodes.len() - place;
    }
    let counted = nodes.iter().zip(counts);
    counted
        .flat_map(|(node, count)| [node[0], node[1], count as u32])
        .collect()
}

/// The same by the words of a valid grammar.
pub fn slip_of(grammar: &[u32], tree: &[u32]) -> Vec<u32> {
    slip(&Grammar::read(grammar).expect("a valid grammar"), tree)
}

/// How many children a node of a tree has.
fn children_of(grammar: &Grammar, node: &[u32]) -> usize {
    if !grammar.has_type(node[0]) {
        return 0;
    }
    grammar.child_types(node[0], node[1]).map_or(0, <[_]>::len)
}

/// The tree of a slip, two words a node.
pub fn without_counts(slip: &[u32]) -> Vec<u32> {
    let nodes = slip.chunks_exact(SLIP_NODE);
    nodes.flat_map(|node| [node[0], node[1]]).collect()
}

/// A slip that is just within the limits or passes one of them by a little.
/// Some have a wrong count as well, which is told only if nothing else is.
pub fn slip_at_limits(seed: u64, grammar: &Grammar) -> Vec<u32> {
    let mut random = Random::new(seed);
    let tree = tree_at_limits(&mut random, &Shapes::new(grammar));
    let slip = slip(grammar, &tree);
    match random.below(14) {
        0..=3 => with_last_count_wrong(&mut random, &slip),
        4..=7 => with_any_wrong_count(&mut random, &slip),
        _ => slip,
    }
}

/// A slip with one fault put into it, or with a wrong count beside another
/// fault. A few turn out valid again.
pub fn damaged_slip(seed: u64, grammar: &Grammar) -> Vec<u32> {
    let mut random = Random::new(seed);
    let shapes = Shapes::new(grammar);
    let mut tree = random_tree(&mut random, &shapes);
    let kind = random.below(18);
    if kind < 6 {
        damage_tree(&mut random, &shapes, &mut tree);
    }
    let mut slip = slip(grammar, &tree);
    match kind {
        0 | 1 => slip = with_any_wrong_count(&mut random, &slip),
        2..=5 => {}
        6 => change_length(&mut random, &mut slip),
        7 | 8 => give_other_length(&mut random, &mut slip),
        9 => slip = other_edition(&mut random, &slip),
        10..=15 => slip = with_any_wrong_count(&mut random, &slip),
        _ => return slip_at_limits(seed, grammar),
    }
    slip
}

/// Gives a slip a length that cuts a node, or one about the least or the
/// greatest.
fn give_other_length(random: &mut Random, slip: &mut Vec<u32>) {
    let node = random.below(slip.len() / SLIP_NODE);
    let cut = SLIP_NODE * node + random.between(1, 2);
    let near = random.between(limits::SLIP_WORDS - 3, limits::SLIP_WORDS + 3);
    let over = random.between(limits::SLIP_WORDS + 1, 2 * limits::SLIP_WORDS);
    let length = match random.below(8) {
        0 | 1 => random.below(SLIP_NODE + 1),
        2 | 3 => cut,
        4..=6 => near,
        _ => over,
    };
    slip.resize(length, random.pick(&[0, 1]));
}

/// The nodes as another edition would have them: without counts, with a word
/// more, or with their words in another order.
fn other_edition(random: &mut Random, slip: &[u32]) -> Vec<u32> {
    let edition = random.below(5);
    let nodes = slip.chunks_exact(SLIP_NODE);
    nodes
        .flat_map(|node| match edition {
            0 | 1 => vec![node[0], node[1]],
            2 => vec![node[0], node[1], node[2], 0],
            3 => vec![node[2], node[0], node[1]],
            _ => vec![node[0], node[2], node[1]],
        })
        .collect()
}
