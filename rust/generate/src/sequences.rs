//! Families of runs that apply the operations on sequences, 1,010 to 1,015: on
//! sequences of every make with positions at every edge, and near the limits that
//! a result is held to (stops 42 to 44).

use reference::bench::Input;
use reference::limits;

use crate::families::{construct, input};
use crate::random::Random;
use crate::rulebooks::{Pair, PartText, RuleText, CHAIN, NEW_VARIABLE, VARIABLE};

/// The root holds a repeat of items, a list of numbers, a number, a repeat of
/// itself and a list of lists of numbers. An item is a number, items again, or
/// nothing.
const SECTIONS: &[u32] = &[
    7, 8, 1, 5, ITEMS, NUMBERS, NUMBER, ITSELF, LISTS, 4, ITEM, 8, 3, 1, NUMBER, 1, ITEMS, 0, 16,
    NUMBER, 1, 2, 4, ITSELF, 16, NUMBERS,
];
const ITEMS: u32 = 1;
const ITEM: u32 = 2;
const NUMBERS: u32 = 3;
const NUMBER: u32 = 4;
const ITSELF: u32 = 5;
const LISTS: u32 = 6;
/// What the root holds, and the main rule binds.
const HELD: [u32; 5] = [ITEMS, NUMBERS, NUMBER, ITSELF, LISTS];

const JOIN: u32 = 1_010;
const SELECT: u32 = 1_011;
const HEAD: u32 = 1_012;
const TAIL: u32 = 1_013;
const LENGTH: u32 = 1_014;
const EXTRACT: u32 = 1_015;

/// The type of a sequence's elements.
fn element(ty: u32) -> Option<u32> {
    match ty {
        ITEMS => Some(ITEM),
        NUMBERS => Some(NUMBER),
        ITSELF => Some(ITSELF),
        LISTS => Some(NUMBERS),
        _ => None,
    }
}

/// A number that is a position: none, a fraction, one of the first, past the end,
/// or the greatest.
fn position(random: &mut Random) -> u32 {
    random.pick(&[
        0,
        50,
        99,
        100,
        101,
        199,
        200,
        250,
        300,
        400,
        900,
        limits::NUMBER_VALUE,
    ])
}

fn items(random: &mut Random, levels: usize) -> Vec<u32> {
    let mut words = Vec::new();
    for _ in 0..random.below(4) {
        words.extend([ITEMS, 0]);
        words.extend(item(random, levels));
    }
    words.extend([ITEMS, 1]);
    words
}

fn item(random: &mut Random, levels: usize) -> Vec<u32> {
    match random.below(3) {
        0 => vec![ITEM, 0, NUMBER, position(random)],
        1 if levels > 0 => [vec![ITEM, 1], items(random, levels - 1)].concat(),
        _ => vec![ITEM, 2],
    }
}

fn numbers(random: &mut Random) -> Vec<u32> {
    let mut words = Vec::new();
    for _ in 0..random.below(5) {
        words.extend([NUMBERS, 0, NUMBER, position(random)]);
    }
    words.extend([NUMBERS, 1]);
    words
}

fn itself(random: &mut Random, levels: usize) -> Vec<u32> {
    let mut words = Vec::new();
    let elements = if levels == 0 { 0 } else { random.below(3) };
    for _ in 0..elements {
        words.extend([ITSELF, 0]);
        words.extend(itself(random, levels - 1));
    }
    words.extend([ITSELF, 1]);
    words
}

fn lists(random: &mut Random) -> Vec<u32> {
    let mut words = Vec::new();
    for _ in 0..random.below(3) {
        words.extend([LISTS, 0]);
        words.extend(numbers(random));
    }
    words.extend([LISTS, 1]);
    words
}

/// A variable whose type fits.
fn variable_where(random: &mut Random, types: &[u32], fits: impl Fn(u32) -> bool) -> Option<Pair> {
    let fitting: Vec<u32> = (0..types.len() as u32)
        .filter(|&variable| fits(types[variable as usize]))
        .collect();
    random
        .pick_any(&fitting)
        .map(|variable| (VARIABLE, variable))
}

/// One application to a scope of a type: of an operation that fits, or of rule 1,
/// which takes any scope.
fn application(random: &mut Random, scope: u32, types: &[u32]) -> Vec<Pair> {
    let is_number = |ty| ty == NUMBER;
    let operation = match (scope, element(scope)) {
        (NUMBER, _) => random.pick(&[LENGTH, LENGTH, 1_000, 1_004]),
        (_, Some(_)) => random.pick(&[JOIN, JOIN, SELECT, HEAD, TAIL, EXTRACT, EXTRACT]),
        _ => 1,
    };
    let rule = vec![(1, 0)];
    if random.chance(10) {
        return rule;
    }
    let mut any = |fits: &dyn Fn(u32) -> bool| variable_where(random, types, fits);
    let arguments = match operation {
        JOIN => vec![any(&|ty| ty == scope || Some(ty) == element(scope))],
        SELECT => vec![any(&is_number), any(&is_number)],
        HEAD | TAIL | 1_000 => vec![any(&is_number)],
        LENGTH => vec![any(&|ty| element(ty).is_some())],
        EXTRACT => vec![any(&|_| true)],
        1_004 => vec![],
        _ => return rule,
    };
    let arguments: Option<Vec<Pair>> = arguments.into_iter().collect();
    arguments.map_or(rule, |arguments| {
        [vec![(operation, arguments.len() as u32)], arguments].concat()
    })
}

/// A chain of applications to a variable.
fn chain(random: &mut Random, variable: u32, types: &[u32]) -> Vec<Pair> {
    let length = random.pick(&[1, 1, 2, 2, 3, 4]);
    let mut pairs = vec![(CHAIN, variable), (length, 0)];
    for _ in 0..length {
        pairs.extend(application(random, types[variable as usize], types));
    }
    pairs
}

/// Parts that make numbers, an item, and what chains give.
fn built(random: &mut Random, types: &mut Vec<u32>) -> Vec<PartText> {
    let mut parts = Vec::new();
    let add = |parts: &mut Vec<PartText>, types: &mut Vec<u32>, ty, pairs: &[Pair]| {
        parts.push(construct(ty, pairs));
        types.push(ty);
    };
    for _ in 0..random.between(1, 3) {
        let number = (NUMBER, position(random));
        add(&mut parts, types, NUMBER, &[number]);
    }
    let words = item(random, 1);
    let pairs: Vec<Pair> = words
        .chunks_exact(2)
        .map(|pair| (pair[0], pair[1]))
        .collect();
    add(&mut parts, types, ITEM, &pairs);
    for _ in 0..random.below(3) {
        let variable = random.below(types.len()) as u32;
        let ty = types[variable as usize];
        let pairs = chain(random, variable, types);
        add(&mut parts, types, ty, &pairs);
    }
    parts
}

/// Every operation on small sequences: repeats and lists, of themselves and of
/// lists, empty ones, chains that mix operations on sequences, on numbers and a
/// rule.
pub fn sequence_operations(seed: u64) -> Input {
    let random = &mut Random::new(seed);
    let mut types = HELD.to_vec();
    let parts = built(random, &mut types);
    let mut pattern = vec![(0, 0)];
    let mut replacement = vec![(0, 0)];
    for (variable, ty) in HELD.iter().enumerate() {
        pattern.push((NEW_VARIABLE, *ty));
        if random.chance(70) {
            replacement.extend(chain(random, variable as u32, &types));
        } else {
            replacement.push((VARIABLE, variable as u32));
        }
    }
    let main = RuleText {
        pattern,
        parts,
        replacement: Some(replacement),
        ..RuleText::default()
    };
    let hundreds = RuleText {
        target: NUMBER,
        reach: random.pick(&[1, 2, 3]),
        pattern: vec![(NUMBER, 100)],
        replacement: Some(vec![(NUMBER, 200)]),
        ..RuleText::default()
    };
    let tree = [
        vec![0, 0],
        items(random, 2),
        numbers(random),
        vec![NUMBER, position(random)],
        itself(random, 3),
        lists(random),
    ]
    .concat();
    input(SECTIONS, &[main, hundreds], tree, 60)
}

/// A root of so many numbers before a sequence of numbers, of this map.
fn before_a_sequence(before: usize, map: u32) -> Vec<u32> {
    let form = [vec![8, 1, before as u32 + 1], vec![2; before], vec![1]].concat();
    [vec![3], form, vec![map, 2, 1, 2]].concat()
}

/// A rule on the whole tree of such a grammar that joins the sequence, variable
/// `before`, with itself so often, and may then cut it.
fn joining(random: &mut Random, before: usize, joins: usize, held: usize) -> RuleText {
    let numbers = before as u32;
    let (cut, number) = (random.chance(20), numbers + 1);
    let mut parts = vec![construct(2, &[(2, random.pick(&[0, 100, 300]))])];
    parts.extend(vec![construct(1, &[(VARIABLE, numbers)]); held]);
    let operation = random.pick(&[JOIN, JOIN, JOIN, EXTRACT]);
    let mut chain = vec![(CHAIN, numbers), (joins as u32 + u32::from(cut), 0)];
    for _ in 0..joins {
        chain.extend([(operation, 1), (VARIABLE, numbers)]);
    }
    if cut {
        chain.extend([(random.pick(&[HEAD, TAIL]), 1), (VARIABLE, number)]);
    }
    on_a_sequence(before, parts, chain)
}

/// A rule on the whole tree of such a grammar that writes the numbers anew, and a
/// chain for the sequence.
fn on_a_sequence(before: usize, parts: Vec<PartText>, chain: Vec<Pair>) -> RuleText {
    let written = vec![(2, 700); before];
    RuleText {
        pattern: [
            vec![(0, 0)],
            vec![(NEW_VARIABLE, 2); before],
            vec![(NEW_VARIABLE, 1)],
        ]
        .concat(),
        parts,
        replacement: Some([vec![(0, 0)], written, chain].concat()),
        ..RuleText::default()
    }
}

/// A tree of such a grammar with so many elements.
fn elements(before: usize, elements: usize) -> Vec<u32> {
    [
        vec![0, 0],
        [2, 100].repeat(before),
        [1, 0, 2, 300].repeat(elements),
        vec![1, 1],
    ]
    .concat()
}

/// A result of about as many nodes as the tree under way has room for (42).
fn nodes_at_an_operation(random: &mut Random) -> Input {
    let before = random.below(4);
    let joins = random.between(1, 3);
    // Elements after the joins fill the tree, but for the root, what is before
    // them and the last node.
    let most = (limits::NODES - 2 - before) / 2 / (joins + 1);
    let count = most + random.below(3) - 1;
    let rule = joining(random, before, joins, 0);
    let grammar = before_a_sequence(before, random.pick(&[4, 16]));
    input(&grammar, &[rule], elements(before, count), 5)
}

/// The numbers of a tree taken out of it behind its sequence: about as many as the
/// tree under way has room for (42).
fn nodes_at_an_extraction(random: &mut Random) -> Input {
    let before = random.below(4);
    let numbers = before as u32;
    // The elements come twice, with those numbers, behind the root and what is
    // before them.
    let most = (limits::NODES - 2 - 3 * before) / 4;
    let count = most + random.below(3) - 1;
    let variables = (0..=numbers).map(|variable| (VARIABLE, variable));
    let whole: Vec<Pair> = [(0, 0)].into_iter().chain(variables).collect();
    let taken = [(EXTRACT, 1), (VARIABLE, numbers + 1)];
    let chain = [vec![(CHAIN, numbers), (1, 0)], taken.to_vec()].concat();
    let rule = on_a_sequence(before, vec![construct(0, &whole)], chain);
    let grammar = before_a_sequence(before, random.pick(&[4, 16]));
    input(&grammar, &[rule], elements(before, count), 5)
}

/// A result at which about 6,144 nodes are live (44).
fn live_nodes_at_an_operation(random: &mut Random) -> Input {
    let before = random.below(3);
    let held = random.between(2, 6);
    // Scope, variable, what is held and the result of one join have so many
    // sequences' nodes, besides these few.
    let few = 4 + 3 * before + held;
    let sequences = 2 * (held + 2) + 4;
    let count = (limits::LIVE_NODES - few) / sequences + random.below(3) - 1;
    let rule = joining(random, before, 1, held);
    let grammar = before_a_sequence(before, random.pick(&[4, 16]));
    input(&grammar, &[rule], elements(before, count), 5)
}

/// A sequence of itself that is wrapped again and again, near nesting 64 (43).
fn nesting_at_an_operation(random: &mut Random) -> Input {
    let grammar = [2, 8, 1, 1, 1, random.pick(&[4, 16]), 1];
    let wraps = random.below(3);
    let mut parts = vec![construct(1, &[(1, 1)])];
    // Variable 0 is the tree's, 1 is empty, and each later one holds the one
    // before it.
    for wrap in 0..wraps as u32 {
        let held = if wrap == 0 { 0 } else { wrap + 1 };
        let chain = [(CHAIN, 1), (1, 0), (EXTRACT, 1), (VARIABLE, held)];
        parts.push(construct(1, &chain));
    }
    let last = if wraps == 0 { 0 } else { wraps as u32 + 1 };
    let operation = random.pick(&[EXTRACT, EXTRACT, JOIN]);
    let chain = [(CHAIN, 1), (1, 0), (operation, 1), (VARIABLE, last)];
    let rule = RuleText {
        pattern: vec![(0, 0), (NEW_VARIABLE, 1)],
        parts,
        replacement: Some([vec![(0, 0)], chain.to_vec()].concat()),
        ..RuleText::default()
    };
    let levels = random.between(59, 63);
    let tree = [vec![0, 0], [1, 0].repeat(levels - 1), [1, 1].repeat(levels)].concat();
    input(&grammar, &[rule], tree, 5)
}

/// An element near nesting 64 that is joined to an empty sequence, which may then
/// be cut off (43).
fn nesting_at_a_join(random: &mut Random) -> Input {
    // The root holds an item or a sequence of items; an item holds nothing, or one.
    let map = random.pick(&[4, 16]);
    let grammar = [4, 8, 2, 1, 2, 1, 1, map, 2, 8, 2, 0, 1, 2, 1, 2];
    let wraps = random.below(3) as u32;
    let mut parts = vec![construct(1, &[(1, 1)]), construct(3, &[(3, 0)])];
    // Variable 0 is the tree's item, 1 the empty sequence, 2 is 0.00, and each
    // later one holds the item before it.
    for wrap in 0..wraps {
        let held = if wrap == 0 { 0 } else { wrap + 2 };
        parts.push(construct(2, &[(2, 1), (VARIABLE, held)]));
    }
    let last = if wraps == 0 { 0 } else { wraps + 2 };
    let cut = random.chance(50);
    let mut chain = vec![(CHAIN, 1), (1 + u32::from(cut), 0)];
    chain.extend([(JOIN, 1), (VARIABLE, last)]);
    if cut {
        chain.extend([(HEAD, 1), (VARIABLE, 2)]);
    }
    let rule = RuleText {
        pattern: vec![(0, 0), (NEW_VARIABLE, 2)],
        parts,
        replacement: Some([vec![(0, 1)], chain].concat()),
        ..RuleText::default()
    };
    let nesting = random.between(60, 63);
    let tree = [vec![0, 0], [2, 1].repeat(nesting - 1), vec![2, 0]].concat();
    input(&grammar, &[rule], tree, 5)
}

/// A cut that leaves all, or a length, behind about as many nodes as leave no room
/// for it (42).
fn nodes_at_a_cut(random: &mut Random) -> Input {
    let operation = random.pick(&[SELECT, HEAD, TAIL, LENGTH]);
    let before = random.below(4);
    // The second form holds the sequence, so many numbers, and what is made.
    let made = if operation == LENGTH { 2 } else { 1 };
    let form = [vec![before as u32 + 2, 1], vec![2; before], vec![made]].concat();
    let head = [3, 8, 2, 2, 1, 2];
    let sequence = [random.pick(&[4, 16]), 2, 1, 2];
    let grammar = [&head[..], &form, &sequence].concat();
    // Variable 0 is the sequence, 1 the number, 2 and 3 are the first position and
    // one past the end.
    let (first, past) = (2, 3);
    let arguments = match operation {
        SELECT => vec![(VARIABLE, first), (VARIABLE, past)],
        HEAD => vec![(VARIABLE, past)],
        TAIL => vec![(VARIABLE, first)],
        _ => vec![(VARIABLE, 0)],
    };
    let scope = if operation == LENGTH { 1 } else { 0 };
    let application = vec![(operation, arguments.len() as u32)];
    let chain = [vec![(CHAIN, scope), (1, 0)], application, arguments].concat();
    let rule = RuleText {
        pattern: vec![(0, 0), (NEW_VARIABLE, 1), (NEW_VARIABLE, 2)],
        parts: vec![construct(2, &[(2, 100)]), construct(2, &[(2, 4_000_000)])],
        replacement: Some([vec![(0, 1), (VARIABLE, 0)], vec![(2, 700); before], chain].concat()),
        ..RuleText::default()
    };
    // The sequence stands there twice, or once and a number.
    let count = if operation == LENGTH { 1_022 } else { 511 };
    let tree = [vec![0, 0], [1, 0, 2, 300].repeat(count), vec![1, 1, 2, 100]].concat();
    input(&grammar, &[rule], tree, 5)
}

/// Operations on sequences near the limits that a result is held to (42 to 44).
pub fn sequences_near_limit(seed: u64) -> Input {
    let random = &mut Random::new(seed);
    match random.below(6) {
        0 => nodes_at_an_operation(random),
        1 => nodes_at_an_extraction(random),
        2 => live_nodes_at_an_operation(random),
        3 => nesting_at_an_operation(random),
        4 => nesting_at_a_join(random),
        _ => nodes_at_a_cut(random),
    }
}
