//! Making a failing input smaller while it still fails.

use std::ops::Range;

use reference::bench::Input;
use reference::grammar::Grammar;
use reference::rules::{read_layout, Pairs, PartKind, RuleLayout};

use crate::rulebooks::{pair_fields, Field, Pair};
use crate::slips::{slip, without_counts, SLIP_NODE};

/// The most inputs that are tried.
const MOST_TRIES: usize = 20_000;

/// Shortens and zeroes the words of an input as long as it still fails.
///
/// Rules that keep their layout lose whole rules, parts and pairs, with the
/// counts of these lowered. A slip loses nodes and is counted anew, but a count
/// that was wrong stays as far off as it was. Any words lose stretches and are
/// lowered.
pub fn shrink(input: Input, still_fails: impl Fn(&Input) -> bool) -> Input {
    let mut shrinking = Shrinking {
        best: input,
        still_fails,
        tries_left: MOST_TRIES,
    };
    loop {
        let before = shrinking.best.clone();
        shrinking.shrink_budget();
        shrinking.remove_from_rules();
        shrinking.lift_trees();
        for part in [Part::Nodes, Part::Slip, Part::Rules, Part::Grammar] {
            shrinking.remove_stretches(part);
            shrinking.lower_words(part);
        }
        if shrinking.best == before || shrinking.tries_left == 0 {
            return shrinking.best;
        }
    }
}

/// What of an input is made smaller: one of its three word lists, or the nodes
/// of its slip.
#[derive(Clone, Copy)]
enum Part {
    Grammar,
    Rules,
    Slip,
    Nodes,
}

impl Part {
    /// The words of the least stretch that is taken out.
    fn unit(self) -> usize {
        match self {
            Part::Nodes => SLIP_NODE,
            _ => 1,
        }
    }

    /// How many such stretches there are.
    fn units(self, input: &Input) -> usize {
        match self {
            Part::Grammar => input.grammar.len(),
            Part::Rules => input.rules.len(),
            Part::Slip => input.slip.len(),
            Part::Nodes => input.slip.len() / SLIP_NODE,
        }
    }

    /// Changes the words of the part.
    fn change(self, input: &mut Input, change: impl Fn(&mut Vec<u32>)) {
        match self {
            Part::Grammar => change(&mut input.grammar),
            Part::Rules => change(&mut input.rules),
            Part::Slip => change(&mut input.slip),
            Part::Nodes => {
                // Without a grammar there is nothing to count by.
                if let Ok(grammar) = Grammar::read(&input.grammar) {
                    let mut nodes = with_counts_off(&grammar, &input.slip);
                    change(&mut nodes);
                    input.slip = with_counts_back(&grammar, &nodes);
                }
            }
        }
    }
}

/// A slip's nodes, each with how far its count is off in the count's place.
fn with_counts_off(grammar: &Grammar, words: &[u32]) -> Vec<u32> {
    combined(grammar, words, u32::wrapping_sub)
}

/// The slip of such nodes: each count is as far off as is said there.
fn with_counts_back(grammar: &Grammar, nodes: &[u32]) -> Vec<u32> {
    combined(grammar, nodes, u32::wrapping_add)
}

/// Puts the third word of each node together with the node's right count.
fn combined(grammar: &Grammar, words: &[u32], put: fn(u32, u32) -> u32) -> Vec<u32> {
    let right = slip(grammar, &without_counts(words));
    let nodes = words
        .chunks_exact(SLIP_NODE)
        .zip(right.chunks_exact(SLIP_NODE));
    nodes
        .flat_map(|(node, right)| [node[0], node[1], put(node[2], right[2])])
        .collect()
}

/// A stretch of the rules that can go, and the counts to be lowered with it:
/// each a position and by how much.
struct Removal {
    stretch: Range<usize>,
    counts: Vec<(usize, u32)>,
}

struct Shrinking<F> {
    best: Input,
    still_fails: F,
    tries_left: usize,
}

impl<F: Fn(&Input) -> bool> Shrinking<F> {
    /// Keeps the best input with a change, if it still fails.
    fn try_change(&mut self, change: impl Fn(&mut Input)) -> bool {
        if self.tries_left == 0 {
            return false;
        }
        let mut changed = self.best.clone();
        change(&mut changed);
        if changed == self.best {
            return false;
        }
        self.tries_left -= 1;
        if (self.still_fails)(&changed) {
            self.best = changed;
            return true;
        }
        false
    }

    fn shrink_budget(&mut self) {
        while self.try_change(|input| input.budget /= 2) {}
        while self.try_change(|input| input.budget = input.budget.saturating_sub(1)) {}
    }

    /// Takes rules, parts and pairs out of the rules, each until none can go.
    fn remove_from_rules(&mut self) {
        while self.tries_left > 0 {
            let removed = removals(&self.best).into_iter().any(|removal| {
                self.try_change(|input| {
                    for &(position, less) in &removal.counts {
                        input.rules[position] = input.rules[position].wrapping_sub(less);
                    }
                    input.rules.drain(removal.stretch.clone());
                })
            });
            if !removed {
                return;
            }
        }
    }

    /// Puts trees of the slip in the place of those around them, as long as
    /// that goes.
    fn lift_trees(&mut self) {
        while self.tries_left > 0 {
            let lifted = liftings(&self.best).into_iter().any(|(outer, inner)| {
                self.try_change(|input| {
                    Part::Nodes.change(input, |nodes| {
                        nodes.drain(inner.end..outer.end);
                        nodes.drain(outer.start..inner.start);
                    });
                })
            });
            if !lifted {
                return;
            }
        }
    }

    /// Takes out stretches, long ones first.
    fn remove_stretches(&mut self, part: Part) {
        let unit = part.unit();
        let mut length = part.units(&self.best);
        while length > 0 && self.tries_left > 0 {
            let mut end = part.units(&self.best);
            while end >= length {
                let stretch = unit * (end - length)..unit * end;
                self.try_change(|input| {
                    part.change(input, |words| drop(words.drain(stretch.clone())));
                });
                // Long stretches overlap by half, short ones lie anywhere.
                let step = if length > 16 { length / 2 } else { 1 };
                end = end.saturating_sub(step).min(part.units(&self.best));
            }
            length = if length > 16 { length / 2 } else { length - 1 };
        }
    }

    /// Makes single words 0, half or one less.
    fn lower_words(&mut self, part: Part) {
        for position in 0..part.unit() * part.units(&self.best) {
            let lowered = |lower: fn(u32) -> u32| {
                move |input: &mut Input| {
                    part.change(input, |words| words[position] = lower(words[position]));
                }
            };
            if self.try_change(lowered(|_| 0)) {
                continue;
            }
            while self.try_change(lowered(|word| word / 2)) {}
            self.try_change(lowered(|word| word.saturating_sub(1)));
        }
    }
}

/// The words of trees of a slip, each with those of the last or the first tree
/// of the same type inside it.
fn liftings(input: &Input) -> Vec<(Range<usize>, Range<usize>)> {
    let Ok(grammar) = Grammar::read(&input.grammar) else {
        return Vec::new();
    };
    let right = slip(&grammar, &without_counts(&input.slip));
    let nodes: Vec<&[u32]> = right.chunks_exact(SLIP_NODE).collect();
    let tree = |place: usize| place..place + nodes[place][2] as usize;
    let words = |tree: Range<usize>| SLIP_NODE * tree.start..SLIP_NODE * tree.end;
    let mut liftings = Vec::new();
    for place in 0..nodes.len() {
        let same_type = |inner: &usize| nodes[*inner][0] == nodes[place][0];
        let inside = tree(place).skip(1).filter(same_type);
        let (last, first) = (inside.clone().next_back(), inside.clone().next());
        for inner in last.into_iter().chain(first) {
            liftings.push((words(tree(place)), words(tree(inner))));
        }
    }
    liftings
}

/// What can be taken out of the rules of an input, great things first.
fn removals(input: &Input) -> Vec<Removal> {
    let Ok(grammar) = Grammar::read(&input.grammar) else {
        return Vec::new();
    };
    let Ok(rules) = read_layout(&grammar, &input.rules) else {
        return Vec::new();
    };
    let mut removals = Vec::new();
    let starts: Vec<usize> = rules.iter().map(|rule| rule.target_position - 1).collect();
    let applied: Vec<usize> = rules
        .iter()
        .flat_map(pairs_of)
        .flat_map(applied_positions)
        .collect();
    for (number, &start) in starts.iter().enumerate() {
        let end = starts.get(number + 1).copied();
        let stretch = start..end.unwrap_or(input.rules.len());
        // Rules behind the removed one get other numbers.
        let behind = number as u32 + 1..rules.len() as u32;
        let renumbered = applied
            .iter()
            .filter(|&position| !stretch.contains(position))
            .filter(|&&position| behind.contains(&input.rules[position]));
        let mut counts = vec![(0, 1)];
        counts.extend(renumbered.map(|&position| (position, 1)));
        removals.push(Removal { stretch, counts });
    }
    for rule in &rules {
        remove_parts(rule, &mut removals);
    }
    for pairs in rules.iter().flat_map(pairs_of) {
        remove_pairs(pairs, &mut removals);
    }
    removals
}

fn remove_parts(rule: &RuleLayout, removals: &mut Vec<Removal>) {
    const PARTS_BIT: u32 = 4;
    let Some(first) = rule.parts.first() else {
        return;
    };
    let count = first.map_position - 1;
    for part in &rule.parts {
        let end = end_of(&part.kind);
        removals.push(if rule.parts.len() == 1 {
            Removal {
                stretch: count..end,
                counts: vec![(rule.target_position - 1, PARTS_BIT)],
            }
        } else {
            Removal {
                stretch: part.map_position..end,
                counts: vec![(count, 1)],
            }
        });
    }
}

/// Takes out neighbouring pairs, alone or with the length of a chain or an
/// argument count before them lowered.
fn remove_pairs(pairs: Pairs, removals: &mut Vec<Removal>) {
    let count = pairs.words.len() / 2;
    for length in (1..count).rev() {
        for first in 0..=count - length {
            let start = pairs.position + 2 * first;
            let stretch = start..start + 2 * length;
            let pair_count = (pairs.position - 1, length as u32);
            removals.push(Removal {
                stretch: stretch.clone(),
                counts: vec![pair_count],
            });
            for other in pairs.position..start {
                if (1..=4).contains(&pairs.words[other - pairs.position]) && length <= 5 {
                    removals.push(Removal {
                        stretch: stretch.clone(),
                        counts: vec![pair_count, (other, 1)],
                    });
                }
            }
        }
    }
}

/// The positions of the numbers of applied rules and operations.
fn applied_positions(pairs: Pairs) -> Vec<usize> {
    let list: Vec<Pair> = pairs
        .words
        .chunks_exact(2)
        .map(|pair| (pair[0], pair[1]))
        .collect();
    let fields = pair_fields(&list).into_iter().enumerate();
    fields
        .filter(|(_, fields)| fields.0 == Field::Applied)
        .map(|(pair, _)| pairs.position + 2 * pair)
        .collect()
}

fn pairs_of<'a>(rule: &RuleLayout<'a>) -> Vec<Pairs<'a>> {
    let mut all = vec![rule.pattern];
    all.extend(rule.parts.iter().map(|part| pairs_of_part(&part.kind)));
    all.extend(rule.replacement);
    all
}

fn pairs_of_part<'a>(part: &PartKind<'a>) -> Pairs<'a> {
    match part {
        PartKind::Deconstruct { pattern, .. } => *pattern,
        PartKind::Construct { replacement, .. } => *replacement,
        PartKind::Condition { chain, .. } => *chain,
    }
}

/// The position after a part: its pairs are its last words.
fn end_of(part: &PartKind) -> usize {
    let pairs = pairs_of_part(part);
    pairs.position + pairs.words.len()
}
