//! Families of runs that reach one of the stops 41 to 45, or just miss it,
//! and of searches, tests and roundings that random rules seldom make.

use reference::bench::Input;
use reference::limits;

use crate::random::Random;
use crate::rulebooks::{write_rules, Pair, PartText, RuleText};
use crate::slips::slip_of;

/// A program of a sequence of numbers.
const LIST: &[u32] = &[3, 8, 1, 1, 1, 4, 2, 1, 2];

/// Root 0 is `form 0: [0]`, `form 1: [sequence]`, `form 2: [0, 0]` or
/// `form 3: [number]`, over a sequence of numbers.
const DEEP: &[u32] = &[3, 8, 4, 1, 0, 1, 1, 2, 0, 0, 1, 2, 4, 2, 1, 2];

/// The nodes of a sequence of numbers without the root 0.
fn sequence(random: &mut Random, numbers: usize) -> Vec<u32> {
    let mut words = Vec::new();
    for _ in 0..numbers {
        words.extend([1, 0, 2, random.below(4) as u32 * 100]);
    }
    words.extend([1, 1]);
    words
}

/// A tree of `LIST`: 2 x numbers + 2 nodes.
fn list(random: &mut Random, numbers: usize) -> Vec<u32> {
    [vec![0, 0], sequence(random, numbers)].concat()
}

/// A tree of `DEEP`: form 0 so many times, then a sequence. It has
/// levels + 2 x numbers + 2 nodes.
fn deep(random: &mut Random, levels: usize, numbers: usize) -> Vec<u32> {
    [[0, 0].repeat(levels), vec![0, 1], sequence(random, numbers)].concat()
}

/// A rule on the whole tree that binds it to variable 0.
fn whole(replacement: &[Pair]) -> RuleText {
    RuleText {
        pattern: vec![(64, 0)],
        replacement: Some(replacement.to_vec()),
        ..RuleText::default()
    }
}

pub(crate) fn construct(ty: u32, replacement: &[Pair]) -> PartText {
    PartText::Construct {
        ty,
        replacement: replacement.to_vec(),
    }
}

/// An input with the slip of a tree that is written two words a node.
pub(crate) fn input(grammar: &[u32], rules: &[RuleText], tree: Vec<u32>, budget: usize) -> Input {
    Input {
        grammar: grammar.to_vec(),
        rules: write_rules(rules),
        slip: slip_of(grammar, &tree),
        budget: budget as u32,
    }
}

/// Nested calls, near 32 (stop 41).
pub fn calls_near_limit(seed: u64) -> Input {
    let random = &mut Random::new(seed);
    let budget = random.pick(&[31, 32, 33, 100]);
    let numbers = random.between(28, 34);
    let head_and_rest = RuleText {
        target: 1,
        reach: random.pick(&[1, 1, 2, 3]),
        pattern: vec![(1, 0), (64, 2), (64, 1)],
        ..RuleText::default()
    };
    match random.below(4) {
        // Rule 0 calls itself on the rest.
        0 => {
            let rule = RuleText {
                replacement: Some(vec![(1, 0), (2, 7), (66, 1), (1, 0), (0, 0)]),
                reach: random.pick(&[1, 3]),
                ..head_and_rest
            };
            let tree = list(random, numbers);
            input(LIST, &[rule], tree, budget)
        }
        // A condition tests itself on the rest.
        1 => {
            let negated = random.chance(50);
            let test = |rule| PartText::Condition {
                negated,
                chain: vec![(66, 1), (1, 0), (rule, 0)],
            };
            let main = RuleText {
                parts: vec![test(1)],
                replacement: Some(vec![(1, 1)]),
                ..head_and_rest.clone()
            };
            let condition = RuleText {
                reach: 0,
                parts: vec![test(1)],
                ..head_and_rest
            };
            let tree = list(random, numbers);
            input(LIST, &[main, condition], tree, budget)
        }
        // Endless calls on the whole tree, where copies near 6,144 / 65 nodes
        // bring 44 at about the same time.
        2 => {
            let tree = list(random, numbers + 15);
            let rule = whole(&[(66, 0), (1, 0), (0, 0)]);
            input(LIST, &[rule], tree, budget)
        }
        // The same with an argument: 97 trees are live.
        _ => {
            let main = whole(&[(66, 0), (1, 0), (1, 1), (65, 0)]);
            let mut called = whole(&[(66, 1), (1, 0), (1, 1), (65, 0)]);
            called.parameters = vec![0];
            let tree = list(random, numbers);
            input(LIST, &[main, called], tree, budget)
        }
    }
}

/// Trees that grow to about 2,048 nodes (stop 42).
pub fn nodes_near_limit(seed: u64) -> Input {
    let random = &mut Random::new(seed);
    let budget = random.between(1, 12);
    match random.below(5) {
        // A sequence that gets some numbers more each time.
        0 => {
            let more = random.between(1, 3);
            let mut replacement = [(1, 0), (2, 5)].repeat(more);
            replacement.push((65, 0));
            let rule = RuleText {
                target: 1,
                reach: random.pick(&[1, 2, 3]),
                pattern: vec![(64, 1)],
                replacement: Some(replacement),
                ..RuleText::default()
            };
            let numbers = 1_023 - random.below(8);
            let tree = list(random, numbers);
            input(LIST, &[rule], tree, budget)
        }
        // The whole tree twice.
        1 => {
            let mut rule = whole(&[(0, 2), (65, 0), (65, 0)]);
            rule.reach = random.pick(&[0, 2, 3]);
            let numbers = random.pick(&[510, 511, 255, 254, 600]);
            let tree = deep(random, 0, numbers);
            input(DEEP, &[rule], tree, budget)
        }
        // A chain moved to a tree of two copies, having grown or shrunk.
        2 => {
            let mut main = whole(&[(0, 2), (65, 0), (0, 2), (65, 0), (66, 0), (1, 0), (1, 0)]);
            let growing = whole(&[(0, 0), (65, 0)]);
            let shrinking = whole(&[(0, 1), (1, 1)]);
            let called = random.pick(&[growing, shrinking]);
            if random.chance(40) {
                // As a construct, which is not put in place.
                let built = main.replacement.replace(vec![(65, 0)]);
                main.parts = vec![construct(0, &built.unwrap_or_default())];
            }
            let numbers = random.pick(&[338, 339, 340, 341, 450, 510, 511]);
            let tree = deep(random, 0, numbers);
            input(DEEP, &[main, called], tree, budget)
        }
        // A part of the tree that grows in place.
        3 => {
            let main = RuleText {
                reach: random.pick(&[1, 3]),
                pattern: vec![(0, 1), (64, 1)],
                replacement: Some(vec![(0, 2), (0, 1), (65, 0), (0, 1), (1, 1)]),
                ..RuleText::default()
            };
            let numbers = 1_023 - random.below(4);
            let tree = deep(random, 0, numbers);
            input(DEEP, &[main], tree, budget)
        }
        // Written nodes that pass 2,048 in the tree and 6,144 live ones at
        // about the same time.
        _ => {
            let mut main = whole(&[(0, 2), (65, 0), (0, 2), (0, 3), (2, 1), (0, 3), (2, 1)]);
            main.parts = vec![construct(2, &[(2, 5)]); random.below(9)];
            let numbers = 1_023 - random.below(5);
            let tree = deep(random, 0, numbers);
            input(DEEP, &[main], tree, budget)
        }
    }
}

/// Trees that grow to a nesting of about 64 (stop 43).
pub fn nesting_near_limit(seed: u64) -> Input {
    let random = &mut Random::new(seed);
    let budget = random.between(1, 12);
    let more = random.between(1, 3);
    let mut deeper = vec![(0, 0); more];
    deeper.push((65, 0));
    let levels = random.between(56, 61);
    let numbers = random.pick(&[0, 1, 30, 950]);
    match random.below(6) {
        // Deeper at the root.
        0 => {
            let mut rule = whole(&deeper);
            rule.reach = random.pick(&[0, 1, 2, 3]);
            let tree = deep(random, levels, numbers);
            input(DEEP, &[rule], tree, budget)
        }
        // A construct that may never be used, with much live at its end.
        1 => {
            let mut rule = whole(&[(65, 0)]);
            rule.parts = vec![construct(0, &deeper)];
            let mut numbers = numbers;
            if random.chance(60) {
                rule.parts.insert(0, construct(0, &[(65, 0)]));
                numbers = 950;
            }
            let tree = deep(random, levels, numbers);
            input(DEEP, &[rule], tree, budget)
        }
        // One of two trees gets deeper in place, near 2,048 nodes.
        2 | 3 => {
            let rule = RuleText {
                reach: random.pick(&[1, 2, 3]),
                pattern: vec![(0, 0), (64, 0)],
                replacement: Some([vec![(0, 0)], deeper].concat()),
                ..RuleText::default()
            };
            // The most numbers that 2,048 nodes leave room for, or a few less.
            let most = (limits::NODES - 5 - levels) / 2;
            let long = random.pick(&[0, most, most, most, most - 1]);
            let mut tree = vec![0, 2];
            tree.extend(deep(random, levels, 0));
            tree.extend(deep(random, 0, long));
            input(DEEP, &[rule], tree, budget)
        }
        // Deeper in a call, and back again before it is moved.
        4 => {
            let main_levels = random.between(50, 63);
            let mut replacement = vec![(0, 0); main_levels];
            replacement.extend([(66, 0), (2, 0), (1, 0), (2, 0)]);
            let back = RuleText {
                pattern: vec![(0, 0), (64, 0)],
                replacement: Some(vec![(65, 0)]),
                ..RuleText::default()
            };
            let tree = deep(random, 0, 1);
            input(
                DEEP,
                &[whole(&replacement), whole(&deeper), back],
                tree,
                budget,
            )
        }
        // Too deep at first, but a later pair has its own stop.
        _ => {
            let mut rule = whole(&[
                (0, 2),
                (65, 0),
                (0, 3),
                (66, 1),
                (1, 0),
                (1_002, 1),
                (65, 2),
            ]);
            let divisor = random.pick(&[0, 100]);
            rule.parts = vec![construct(2, &[(2, 500)]), construct(2, &[(2, divisor)])];
            let levels = random.between(58, 61);
            let tree = deep(random, levels, 1);
            input(DEEP, &[rule], tree, budget)
        }
    }
}

/// Live nodes near 6,144 (stop 44).
pub fn live_nodes_near_limit(seed: u64) -> Input {
    let random = &mut Random::new(seed);
    if random.chance(25) {
        return operations_among_live_nodes(random);
    }
    let constructs = random.below(4);
    let arguments = random.below(5);
    let tested = random.chance(40);
    // Scope, variable, copy, constructs and arguments are trees of one size.
    let trees = 3 + constructs + arguments;
    let size = (limits::LIVE_NODES / trees).min(limits::NODES) - 4 + random.below(9);
    let numbers = (size / 2 - 1).min(1_023);
    let tree = list(random, numbers);
    let mut chain = vec![(66, 0), (1, 0), (1, arguments as u32)];
    chain.extend(vec![(65, 0); arguments]);
    let mut main = whole(&chain);
    main.parts = vec![construct(0, &[(65, 0)]); constructs];
    if tested {
        main.replacement = random.pick(&[Some(vec![(0, 0), (1, 1)]), Some(vec![(65, 0)])]);
        let condition = PartText::Condition {
            negated: random.chance(50),
            chain,
        };
        // A second test of the same kind has room only if the first let go.
        let conditions = random.between(1, 2);
        main.parts.extend(vec![condition; conditions]);
    }
    // A few nodes more, one by one.
    for _ in 0..random.below(4) {
        let place = random.below(main.parts.len() + 1);
        // Constructs that the chain names by number keep their places.
        if place >= constructs && main.parts.len() < limits::PARTS as usize {
            main.parts.insert(constructs, construct(2, &[(2, 5)]));
        }
    }
    let called = RuleText {
        parameters: vec![0; arguments],
        pattern: random.pick(&[
            vec![(0, 0), (1, 1)],
            vec![(64, 0)],
            vec![(0, 0), (1, 0), (64, 2), (64, 1)],
        ]),
        replacement: Some(vec![(0, 0), (1, 1)]),
        ..RuleText::default()
    };
    input(LIST, &[main, called], tree, random.pick(&[1, 2, 3, 50]))
}

/// Live nodes that come to 6,144 exactly, or a few more or less, at one kind of
/// step: a chain's copy, a call's arguments, a binding in the call, one in a
/// search there, a copied variable.
pub fn live_nodes_at_limit(seed: u64) -> Input {
    let random = &mut Random::new(seed);
    let last_step = random.below(5);
    let arguments = random.below(5);
    let found_late = random.chance(50);
    // The tree itself, its variable, the chain's copy, and what follows.
    let mut trees = 3;
    trees += if last_step >= 1 { arguments } else { 0 };
    trees += usize::from(last_step >= 2) + usize::from(last_step >= 4);
    trees += usize::from(last_step >= 3 && !found_late);
    let total = limits::LIVE_NODES - 4 + random.below(8);
    let numbers = (total / trees).min(limits::NODES) / 2 - 1;
    let tree = list(random, numbers);
    let mut chain = vec![(66, 0), (1, 0), (1, arguments as u32)];
    chain.extend(vec![(65, 0); arguments]);
    let mut main = whole(&chain);
    main.parts = built_nodes(total - trees * (2 * numbers + 2));
    let called = called_at_limit(arguments as u32, last_step, found_late);
    let budget = random.pick(&[1, 2, 3, 50]);
    input(LIST, &[main, called], tree, budget)
}

/// Parts that build so many nodes: sequences, which have an odd count each.
fn built_nodes(mut nodes: usize) -> Vec<PartText> {
    let mut parts = Vec::new();
    while nodes > 0 {
        let numbers = (nodes - 1).min(120) / 2;
        let mut built = [(1, 0), (2, 5)].repeat(numbers);
        built.push((1, 1));
        nodes -= built.len();
        parts.push(construct(1, &built));
    }
    parts
}

/// The rule that is called with so many arguments: it goes on as far as the
/// last step, by its pattern, its search and its replacement.
fn called_at_limit(arguments: u32, last_step: usize, found_late: bool) -> RuleText {
    let own = arguments;
    let mut called = whole(&[(0, 0), (1, 1)]);
    called.parameters = vec![0; arguments as usize];
    if last_step < 2 {
        called.pattern = vec![(0, 0), (1, 1)];
    }
    if last_step >= 3 {
        // Either the whole sequence, or its last number, after all others.
        let pattern = if found_late {
            vec![(1, 0), (64, 2), (1, 1)]
        } else {
            vec![(64, 1)]
        };
        called.parts.push(PartText::Deconstruct {
            searched: Some(1),
            variable: own,
            pattern,
        });
    }
    if last_step == 4 {
        called.replacement = Some(vec![(65, own)]);
    }
    called
}

/// Searches, in parts and by rules, for patterns that bind something before
/// they fail on most nodes.
pub fn searches(seed: u64) -> Input {
    let random = &mut Random::new(seed);
    let value = random.below(4) as u32 * 100;
    // Variables from `first` on: a number and, but for the second pattern,
    // the rest.
    let late_failing = |random: &mut Random, first: u32| match random.below(3) {
        0 => vec![(1, 0), (64, 2), (1, 0), (2, value), (64, 1)],
        1 => vec![(1, 0), (64, 2), (1, 1)],
        _ => vec![(1, 0), (64, 2), (1, 0), (65, first), (64, 1)],
    };
    let search = |variable, pattern| PartText::Deconstruct {
        searched: Some(1),
        variable,
        pattern,
    };
    let numbers = random.between(1, 7);
    let tree = list(random, numbers);
    if random.chance(40) {
        // A rule that searches; its first variable is the number.
        let pattern = late_failing(random, 0);
        let replacement = if pattern.len() == 3 {
            vec![(1, 0), (65, 0), (1, 0), (65, 0), (1, 1)]
        } else {
            vec![(1, 0), (65, 0), (65, 1)]
        };
        let rule = RuleText {
            target: 1,
            reach: random.pick(&[1, 2, 3]),
            pattern,
            replacement: Some(replacement),
            ..RuleText::default()
        };
        return input(LIST, &[rule], tree, 30);
    }
    // Variable 0 is the whole list, variable 1 the number found, variable 2
    // the rest if there is one, in which a second search may follow.
    let pattern = late_failing(random, 1);
    let with_rest = pattern.len() > 3;
    let mut main = whole(&[(0, 0), (1, 0), (65, 1), (1, 1)]);
    main.parts.push(search(0, pattern));
    if with_rest {
        main.replacement = Some(vec![(0, 0), (1, 0), (65, 1), (65, 2)]);
        if random.chance(50) {
            main.parts.push(search(2, late_failing(random, 3)));
            main.replacement = Some(vec![(0, 0), (1, 0), (65, 1), (1, 0), (65, 3), (65, 2)]);
        }
    }
    input(LIST, &[main], tree, 5)
}

/// Tests with several applications, of conditions and of rules with a
/// replacement, which must not be worked there.
pub fn conditions(seed: u64) -> Input {
    let random = &mut Random::new(seed);
    const RULES: u32 = 5;
    let test = |random: &mut Random, least: u32| {
        let length = random.between(1, 3) as u32;
        let mut chain = vec![(66, 0), (length, 0)];
        for _ in 0..length {
            chain.push((random.between(least as usize, RULES as usize - 1) as u32, 0));
        }
        PartText::Condition {
            negated: random.chance(40),
            chain,
        }
    };
    let mut rules = vec![whole(&[(0, 0), (1, 1)])];
    for _ in 0..random.between(1, 3) {
        let part = test(random, 1);
        rules[0].parts.push(part);
    }
    // The later rules take any scope; each may test or apply those behind it.
    for number in 1..RULES {
        let value = random.below(4) as u32 * 100;
        let pattern = random.pick(&[(2, value), (64, 2)]);
        let bound = pattern.0 == 64;
        let behind = number + 1;
        let mut parts = Vec::new();
        if bound && behind < RULES && random.chance(60) {
            parts.push(test(random, behind));
        }
        if bound && random.chance(20) {
            parts.push(construct(2, &[(66, 0), (1, 0), (1_003, 1), (65, 0)]));
        }
        let replacement = match random.below(4) {
            0 => None,
            1 if bound && behind < RULES => Some(vec![(66, 0), (1, 0), (RULES - 1, 0)]),
            2 if bound => Some(vec![(66, 0), (1, 0), (1_002, 1), (65, 0)]),
            _ => Some(vec![(2, value)]),
        };
        rules.push(RuleText {
            target: 2,
            reach: random.pick(&[1, 1, 2, 3]),
            pattern: vec![pattern],
            parts,
            replacement,
            ..RuleText::default()
        });
    }
    // The last rule is applied by replacements, so it must have one.
    rules[RULES as usize - 1].replacement = Some(vec![(2, 300)]);
    let numbers = random.between(0, 5);
    let tree = list(random, numbers);
    input(LIST, &rules, tree, 60)
}

/// Numbers that are lowered by 1.00 while they are greater than 0: many
/// attempts and replacements before the end. One that is no whole number comes
/// below 0 at last (stop 45).
pub fn counting_down(seed: u64) -> Input {
    let random = &mut Random::new(seed);
    let positive = PartText::Condition {
        negated: false,
        chain: vec![(66, 0), (1, 0), (1_009, 1), (65, 2)],
    };
    let rule = RuleText {
        target: 2,
        reach: 2,
        pattern: vec![(64, 2)],
        parts: vec![construct(2, &[(2, 100)]), construct(2, &[(2, 0)]), positive],
        replacement: Some(vec![(66, 0), (1, 0), (1_001, 1), (65, 1)]),
        ..RuleText::default()
    };
    let numbers = random.between(1, 24);
    let most = random.between(1, 24);
    let mut tree = vec![0, 0];
    for _ in 0..numbers {
        tree.extend([1, 0, 2, random.between(0, most) as u32 * 100]);
    }
    if random.chance(30) {
        *tree.last_mut().expect("a number") += 50;
    }
    tree.extend([1, 1]);
    input(LIST, &[rule], tree, limits::BUDGET as usize)
}

/// Operations and comparisons when about 6,144 nodes are live.
fn operations_among_live_nodes(random: &mut Random) -> Input {
    let number = random.pick(&[250, limits::NUMBER_VALUE]);
    let mut parts = vec![construct(2, &[(2, number)]); random.between(1, 4)];
    // The sequence is variable 0, the first number variable 1.
    parts.push(construct(1, &[(65, 0)]));
    for _ in 0..random.between(1, 2) {
        parts.push(if random.chance(50) {
            let changes = [
                vec![(1_000, 1), (65, 1)],
                vec![(1_004, 0)],
                vec![(1_005, 0)],
            ];
            let change = random.pick(&changes);
            construct(2, &[&[(66, 1), (1, 0)], &change[..]].concat())
        } else {
            PartText::Condition {
                negated: random.chance(20),
                chain: vec![(66, 1), (1, 0), (1_008, 1), (65, 1)],
            }
        });
    }
    // A part that fails lets the run end without a replacement.
    parts.push(PartText::Deconstruct {
        searched: None,
        variable: 1,
        pattern: vec![(2, random.pick(&[number, 0]))],
    });
    let rule = RuleText {
        pattern: vec![(0, 0), (64, 1)],
        parts,
        replacement: Some(vec![(0, 0), (1, 1)]),
        ..RuleText::default()
    };
    let numbers = 1_023 - random.below(2);
    let tree = list(random, numbers);
    input(LIST, &[rule], tree, 5)
}

/// The greatest number of document 01, before T-02.
const FIRST_LIMIT: u32 = 999_999_999;
const SMALL: [u32; 8] = [0, 1, 2, 3, 50, 99, 100, 120];
const GREAT: [u32; 8] = [
    FIRST_LIMIT - 49,
    FIRST_LIMIT,
    FIRST_LIMIT + 1,
    1 << 31,
    limits::NUMBER_VALUE / 2 + 1,
    limits::NUMBER_VALUE - 50,
    limits::NUMBER_VALUE - 1,
    limits::NUMBER_VALUE,
];

/// Any number, or one at an end of the range.
fn number_near_limit(random: &mut Random) -> u32 {
    match random.below(5) {
        0 | 1 => random.pick(&SMALL),
        2 => random.pick(&GREAT),
        3 => near_a_half(random),
        _ => random.below(limits::NUMBER_VALUE as usize + 1) as u32,
    }
}

/// Two numbers whose sum, or whose quotient in hundredths, is a limit, one past
/// it, or about 2^32; the limit is today's or that of document 01.
fn two_at_limit(random: &mut Random) -> [u32; 2] {
    let most = random.pick(&[FIRST_LIMIT, limits::NUMBER_VALUE]);
    let any = random.below(most as usize) as u32;
    let part = random.pick(&[0, 1, 100, any]);
    let rest = u32::MAX - most;
    random.pick(&[
        [most - part, part],
        [most - part, part + 1],
        [most, rest],
        [most, rest + 1],
        [most, most],
        [most / 100, 1],
        [most / 100 + 1, 1],
        [u32::MAX / 100, 1],
        [u32::MAX / 100 + 1, 1],
    ])
}

/// The chain that adds the second number to the first, or divides by it.
fn sum_or_quotient(random: &mut Random) -> Vec<Pair> {
    vec![(66, 0), (1, 0), (random.pick(&[1_000, 1_002]), 1), (65, 1)]
}

/// A chain of any operations on the first number, with the first two as
/// arguments.
fn any_operations(random: &mut Random) -> Vec<Pair> {
    let length = random.pick(&[1, 1, 1, 2, 3, 4]);
    let mut chain = vec![(66, 0), (length, 0)];
    for _ in 0..length {
        let operation = random.between(1_000, 1_005) as u32;
        let arguments = usize::from(operation < 1_004);
        chain.push((operation, arguments as u32));
        chain.extend(vec![(65, random.pick(&[0, 1, 1, 1])); arguments]);
    }
    chain
}

/// Great numbers in a tree, a pattern, a construct and a replacement. In half
/// of the inputs one of them is over the limit, mostly by one (refusals 23 and
/// 32).
pub fn numbers_at_limit(seed: u64) -> Input {
    let random = &mut Random::new(seed);
    let mut numbers = [0; 4].map(|_| random.pick(&GREAT));
    if random.chance(50) {
        let over = limits::NUMBER_VALUE + 1;
        numbers[random.below(4)] = random.pick(&[over, over, over, u32::MAX]);
    }
    let [number, matched, built, replacing] = numbers;
    let rule = RuleText {
        target: 2,
        reach: 1,
        pattern: vec![(2, matched)],
        parts: vec![construct(2, &[(2, built)])],
        replacement: Some(vec![(2, replacing)]),
        ..RuleText::default()
    };
    input(LIST, &[rule], vec![0, 0, 1, 0, 2, number, 1, 1], 5)
}

/// Operations with numbers at the ends of their range (stop 45).
pub fn operations_near_limit(seed: u64) -> Input {
    let random = &mut Random::new(seed);
    let (first_two, chain) = match random.below(10) {
        0..=3 => (two_at_limit(random), sum_or_quotient(random)),
        4..=6 => {
            let two = [random.pick(&GREAT), random.pick(&SMALL)];
            (two, any_operations(random))
        }
        _ => {
            let two = [number_near_limit(random), number_near_limit(random)];
            (two, any_operations(random))
        }
    };
    let mut numbers = first_two.to_vec();
    for _ in 0..random.between(0, 2) {
        numbers.push(number_near_limit(random));
    }
    let mut tree = vec![0, 0];
    for number in numbers {
        tree.extend([1, 0, 2, number]);
    }
    tree.extend([1, 1]);
    let replacement = [&[(1, 0)], &chain[..], &[(65, 2)]].concat();
    let parts = if random.chance(50) {
        vec![]
    } else {
        vec![PartText::Condition {
            negated: random.chance(50),
            chain: vec![
                (66, random.below(2) as u32),
                (1, 0),
                (random.pick(&[1_008, 1_009]), 1),
                (65, random.below(2) as u32),
            ],
        }]
    };
    let rule = RuleText {
        target: 1,
        reach: random.pick(&[1, 2, 2, 3]),
        pattern: vec![(1, 0), (64, 2), (1, 0), (64, 2), (64, 1)],
        parts,
        replacement: Some(replacement),
        ..RuleText::default()
    };
    input(LIST, &[rule], tree, 40)
}

/// Numbers that are no whole numbers are rounded, each once: exact halves of
/// odd and even wholes and numbers just off a half, some of them rounded to the
/// greatest number.
pub fn rounding(seed: u64) -> Input {
    let random = &mut Random::new(seed);
    let no_whole_number = PartText::Condition {
        negated: true,
        chain: vec![(66, 0), (1, 0), (1_008, 1), (65, 1)],
    };
    let rule = RuleText {
        target: 2,
        reach: random.pick(&[2, 3]),
        pattern: vec![(64, 2)],
        parts: vec![
            construct(2, &[(66, 0), (1, 0), (1_005, 0)]),
            no_whole_number,
        ],
        replacement: Some(vec![(66, 0), (1, 0), (1_004, 0)]),
        ..RuleText::default()
    };
    let mut tree = vec![0, 0];
    for _ in 0..random.between(1, 6) {
        tree.extend([1, 0, 2, near_a_half(random)]);
    }
    tree.extend([1, 1]);
    input(LIST, &[rule], tree, 40)
}

/// An exact half, or a number one or two hundredths from it: of a small whole
/// number, one of the last, or any.
fn near_a_half(random: &mut Random) -> u32 {
    let last = (limits::NUMBER_VALUE as usize - 52) / 100;
    let whole = match random.below(4) {
        0 | 1 => random.below(10),
        2 => last - random.below(4),
        _ => random.below(last + 1),
    };
    (whole * 100 + random.pick(&[48, 49, 50, 50, 50, 51, 52])) as u32
}
