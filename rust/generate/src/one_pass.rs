//! Runs of one-pass rules: rules of reach 3 on fields that hold fields, on
//! sequences and on optional parts, and near the limits that a later replacement
//! meets.

use reference::bench::Input;
use reference::{limits, Outcome};

use crate::families::{construct, input};
use crate::inputs::run_with;
use crate::random::Random;
use crate::rulebooks::{Pair, PartText, RuleText, CHAIN, NEW_VARIABLE, VARIABLE};
use crate::slips::{SLIP_NODE, TREE_NODE};

/// The root holds a sequence of fields, or a field and such a sequence. A field is
/// a number, a field, two fields, a sequence of fields, an optional field, nothing,
/// or a field behind a name.
fn grammar(random: &mut Random) -> Vec<u32> {
    let root = [6, 8, 2, 1, FIELDS, 2, FIELD, FIELDS];
    let fields = [random.pick(&[4, 16]), FIELD];
    let held = [1, NUMBER, 1, FIELD, 2, FIELD, FIELD, 1, FIELDS, 1, OPTIONAL];
    let field = [&[8, 7], &held[..], &[0, 2, NAME, FIELD]].concat();
    let others = [1, 2, 1, 1, 2, FIELD];
    [&root[..], &fields, &field, &others].concat()
}

const FIELDS: u32 = 1;
const FIELD: u32 = 2;
const NUMBER: u32 = 3;
const NAME: u32 = 4;
const OPTIONAL: u32 = 5;

/// The forms of a field, by what it holds.
const A_NUMBER: u32 = 0;
const A_FIELD: u32 = 1;
const TWO_FIELDS: u32 = 2;
const A_SEQUENCE: u32 = 3;
const AN_OPTION: u32 = 4;
const NOTHING: u32 = 5;
const BEHIND_A_NAME: u32 = 6;

const JOIN: u32 = 1_010;
const HEAD: u32 = 1_012;

/// The number and the name that patterns mostly ask for.
const WANTED: u32 = 100;
const WANTED_NAME: u32 = 7;
/// The attempts that a run of this family is given when its need is worked out.
const MOST_ATTEMPTS: u32 = 4_096;

fn number(random: &mut Random) -> u32 {
    random.pick(&[WANTED, WANTED, WANTED, 200, 300, limits::NUMBER_VALUE])
}

/// A field that holds fields down to so many levels.
fn field(random: &mut Random, levels: usize) -> Vec<u32> {
    if levels == 0 {
        let number = number(random);
        return random.pick(&[vec![FIELD, A_NUMBER, NUMBER, number], vec![FIELD, NOTHING]]);
    }
    let form = random.pick(&[0, 1, 1, 1, 2, 2, 3, 3, 4, 6, 6]);
    let inner = levels - 1;
    let below = match form {
        A_NUMBER => vec![NUMBER, number(random)],
        A_FIELD => field(random, inner),
        // Two fields alike now and then, so that a variable used twice matches.
        TWO_FIELDS if random.chance(30) => field(random, inner).repeat(2),
        TWO_FIELDS => [field(random, inner), field(random, inner)].concat(),
        A_SEQUENCE => fields(random, inner),
        AN_OPTION if random.chance(40) => vec![OPTIONAL, 1],
        AN_OPTION => [vec![OPTIONAL, 0], field(random, inner)].concat(),
        _ => {
            let name = random.pick(&[WANTED_NAME, WANTED_NAME, 1]);
            [vec![NAME, name], field(random, inner)].concat()
        }
    };
    [vec![FIELD, form], below].concat()
}

fn fields(random: &mut Random, levels: usize) -> Vec<u32> {
    let count = random.below(4);
    let elements: Vec<_> = (0..count).map(|_| field(random, levels)).collect();
    sequence(&elements)
}

/// The sequence of these fields.
fn sequence(elements: &[Vec<u32>]) -> Vec<u32> {
    let mut words = Vec::new();
    for element in elements {
        words.extend([FIELDS, 0]);
        words.extend(element);
    }
    words.extend([FIELDS, 1]);
    words
}

/// The tree that holds the sequence of these fields.
fn tree_of(elements: &[Vec<u32>]) -> Vec<u32> {
    [vec![0, 0], sequence(elements)].concat()
}

fn small_tree(random: &mut Random) -> Vec<u32> {
    let levels = random.between(1, 5);
    let count = random.below(5);
    let elements: Vec<_> = (0..count).map(|_| field(random, levels)).collect();
    if random.chance(60) {
        return tree_of(&elements);
    }
    [vec![0, 1], field(random, levels), sequence(&elements)].concat()
}

/// A one-pass rule without parts.
fn one_pass_rule(target: u32, pattern: Vec<Pair>, replacement: Vec<Pair>) -> RuleText {
    RuleText {
        target,
        reach: 3,
        pattern,
        replacement: Some(replacement),
        ..RuleText::default()
    }
}

const ANY: Pair = (NEW_VARIABLE, FIELD);
const FIRST: Pair = (VARIABLE, 0);

/// A pattern for a field whose variable 0 is a field in it, or the field itself.
fn pattern_with_a_field(random: &mut Random) -> Vec<Pair> {
    let patterns = [
        vec![ANY],
        vec![(FIELD, A_FIELD), ANY],
        vec![(FIELD, A_FIELD), ANY],
        vec![(FIELD, A_FIELD), (FIELD, A_FIELD), ANY],
        vec![(FIELD, BEHIND_A_NAME), (NAME, WANTED_NAME), ANY],
        vec![(FIELD, AN_OPTION), (OPTIONAL, 0), ANY],
        vec![(FIELD, TWO_FIELDS), ANY, FIRST],
        vec![(FIELD, TWO_FIELDS), ANY, (FIELD, NOTHING)],
        vec![(FIELD, TWO_FIELDS), ANY, ANY],
    ];
    random.pick(&patterns)
}

/// What takes the place of such a field: a level less, as much, or more. Much of
/// it would match again if it were entered.
fn replacement_with_a_field(random: &mut Random) -> Vec<Pair> {
    let replacements = [
        vec![FIRST],
        vec![FIRST],
        vec![(FIELD, A_FIELD), FIRST],
        vec![(FIELD, A_FIELD), (FIELD, A_FIELD), FIRST],
        vec![(FIELD, BEHIND_A_NAME), (NAME, WANTED_NAME), FIRST],
        vec![(FIELD, TWO_FIELDS), FIRST, FIRST],
        vec![(FIELD, A_SEQUENCE), (FIELDS, 0), FIRST, (FIELDS, 1)],
        vec![(FIELD, AN_OPTION), (OPTIONAL, 0), FIRST],
        vec![(FIELD, NOTHING)],
    ];
    random.pick(&replacements)
}

/// A rule for fields that have a field, so for a parent before its child.
fn on_parents(random: &mut Random) -> RuleText {
    if random.chance(20) {
        let swapped = vec![(FIELD, TWO_FIELDS), (VARIABLE, 1), FIRST];
        return one_pass_rule(FIELD, vec![(FIELD, TWO_FIELDS), ANY, ANY], swapped);
    }
    let pattern = pattern_with_a_field(random);
    one_pass_rule(FIELD, pattern, replacement_with_a_field(random))
}

/// A rule for fields that have none, so for a child whose parent does not match.
fn on_children(random: &mut Random) -> RuleText {
    let wanted = vec![(FIELD, A_NUMBER), (NUMBER, WANTED)];
    let pattern = random.pick(&[wanted.clone(), wanted.clone(), vec![(FIELD, NOTHING)]]);
    let replacements = [
        vec![(FIELD, A_NUMBER), (NUMBER, 200)],
        vec![(FIELD, NOTHING)],
        wanted.clone(),
        [vec![(FIELD, A_FIELD)], wanted.clone()].concat(),
        [vec![(FIELD, TWO_FIELDS), (FIELD, NOTHING)], wanted].concat(),
    ];
    one_pass_rule(FIELD, pattern, random.pick(&replacements))
}

/// A rule for sequences, whose rests are targets too.
fn on_sequences(random: &mut Random) -> RuleText {
    let rest = (NEW_VARIABLE, FIELDS);
    let second = (VARIABLE, 1);
    let wanted = [(FIELD, A_NUMBER), (NUMBER, WANTED)];
    let from_wanted = [vec![(FIELDS, 0)], wanted.to_vec(), vec![rest]].concat();
    let first_and_rest = vec![(FIELDS, 0), ANY, rest];
    let one_more = vec![(FIELDS, 0), (FIELD, NOTHING), FIRST];
    let joined = vec![(CHAIN, 0), (1, 0), (JOIN, 1), FIRST];
    let nothing = vec![(FIELDS, 0), (FIELD, NOTHING), (FIELDS, 1)];
    let holds_one = vec![(FIELDS, 0), (FIELD, A_SEQUENCE), (FIELDS, 1), (FIELDS, 1)];
    let last = vec![(FIELDS, 0), ANY, (FIELDS, 1)];
    let last_twice = vec![(FIELDS, 0), FIRST, (FIELDS, 0), FIRST, (FIELDS, 1)];
    let wrapped = vec![(FIELDS, 0), (FIELD, A_FIELD), FIRST, second];
    let rules = [
        (from_wanted.clone(), vec![FIRST]),
        (from_wanted.clone(), one_more.clone()),
        (from_wanted, joined.clone()),
        (first_and_rest.clone(), vec![second]),
        (first_and_rest, wrapped),
        (vec![(FIELDS, 1)], nothing),
        (vec![(FIELDS, 1)], holds_one),
        (vec![(FIELDS, 1)], vec![(FIELDS, 1)]),
        (last, last_twice),
        (vec![rest], one_more),
        (vec![rest], joined),
    ];
    let (pattern, replacement) = random.pick(&rules);
    one_pass_rule(FIELDS, pattern, replacement)
}

/// A rule for what is neither a field nor a sequence.
fn on_others(random: &mut Random) -> RuleText {
    let none = (OPTIONAL, 1);
    let some = vec![(OPTIONAL, 0), ANY];
    let a_number = vec![(NEW_VARIABLE, NUMBER)];
    let doubled = vec![(CHAIN, 0), (1, 0), (1_000, 1), FIRST];
    let sequence = vec![(0, 0), (NEW_VARIABLE, FIELDS)];
    let rules = [
        (OPTIONAL, vec![none], vec![(OPTIONAL, 0), (FIELD, NOTHING)]),
        (
            OPTIONAL,
            vec![none],
            vec![(OPTIONAL, 0), (FIELD, AN_OPTION), none],
        ),
        (OPTIONAL, some.clone(), vec![none]),
        (OPTIONAL, some, vec![(OPTIONAL, 0), (FIELD, A_FIELD), FIRST]),
        (NUMBER, vec![(NUMBER, WANTED)], vec![(NUMBER, 200)]),
        (NUMBER, a_number.clone(), vec![FIRST]),
        (NUMBER, a_number, doubled),
        (NAME, vec![(NAME, WANTED_NAME)], vec![(NAME, 1)]),
        (0, sequence, vec![(0, 1), (FIELD, NOTHING), FIRST]),
    ];
    let (target, pattern, replacement) = random.pick(&rules);
    one_pass_rule(target, pattern, replacement)
}

/// A rule of reach 3 with no parts that applies no rules, on a small tree.
fn alone(random: &mut Random) -> Input {
    let rule = match random.below(10) {
        0..=3 => on_parents(random),
        4 | 5 => on_children(random),
        6 | 7 => on_sequences(random),
        _ => on_others(random),
    };
    let tree = small_tree(random);
    input(&grammar(random), &[rule], tree, 1)
}

/// The rules that main rules test and apply, as numbers 1 to 4: a condition, two
/// rules without parameters, and one with a field as parameter.
fn helpers(random: &mut Random) -> Vec<RuleText> {
    let condition = RuleText {
        replacement: None,
        ..random_helper(random)
    };
    let (own, parameter) = (vec![(FIELD, A_FIELD), ANY], FIRST);
    let with_parameter = [
        (vec![(FIELD, A_NUMBER), (NUMBER, WANTED)], vec![parameter]),
        (vec![(FIELD, A_FIELD), parameter], vec![(FIELD, NOTHING)]),
        (own, vec![(FIELD, TWO_FIELDS), parameter, (VARIABLE, 1)]),
        (vec![parameter], vec![(FIELD, A_FIELD), parameter]),
    ];
    let (pattern, replacement) = random.pick(&with_parameter);
    let with_parameter = RuleText {
        parameters: vec![FIELD],
        ..one_pass_rule(FIELD, pattern, replacement)
    };
    let (first, second) = (random_helper(random), random_helper(random));
    vec![condition, first, second, with_parameter]
}

fn random_helper(random: &mut Random) -> RuleText {
    match random.below(5) {
        0 | 1 => on_parents(random),
        2 | 3 => on_children(random),
        _ => on_sequences(random),
    }
}

const WITH_PARAMETER: u32 = 4;

/// A group on variable 0 that applies some of the helpers from a number on.
fn helped(random: &mut Random, least: u32) -> Vec<Pair> {
    let length = random.pick(&[1, 1, 1, 2, 3]);
    let mut chain = vec![(CHAIN, 0), (length, 0)];
    for _ in 0..length {
        match random.between(least as usize, WITH_PARAMETER as usize) as u32 {
            WITH_PARAMETER => chain.extend([(WITH_PARAMETER, 1), FIRST]),
            rule => chain.push((rule, 0)),
        }
    }
    chain
}

/// A main rule whose tests apply one-pass rules, which act as reach 1 there.
fn with_tests(random: &mut Random) -> Input {
    let mut main = on_parents(random);
    for _ in 0..random.between(1, 2) {
        let negated = random.chance(40);
        let chain = helped(random, 1);
        main.parts.push(PartText::Condition { negated, chain });
    }
    main.reach = random.pick(&[1, 3, 3, 3]);
    let rules = [vec![main], helpers(random)].concat();
    let tree = small_tree(random);
    input(&grammar(random), &rules, tree, 1)
}

/// A replacement of a field that has a group in it.
fn with_a_group(random: &mut Random, chain: Vec<Pair>) -> Vec<Pair> {
    let before = random.pick(&[
        vec![],
        vec![(FIELD, A_FIELD)],
        vec![(FIELD, TWO_FIELDS), FIRST],
        vec![(FIELD, BEHIND_A_NAME), (NAME, WANTED_NAME)],
    ]);
    [before, chain].concat()
}

/// A main rule whose groups apply one-pass rules to a copy; these may apply others,
/// and the main rule may apply itself to what it does not enter.
fn with_groups(random: &mut Random) -> Input {
    let mut main = on_parents(random);
    main.pattern = pattern_with_a_field(random);
    main.reach = random.pick(&[1, 3, 3, 3]);
    let mut rules = helpers(random);
    let mut chain = helped(random, 2);
    let mut tree = small_tree(random);
    if random.chance(20) && main.pattern.len() > 1 {
        chain = vec![(CHAIN, 0), (1, 0), (0, 0)];
        if random.chance(50) {
            // About as many calls as may be open (41).
            main.pattern = vec![(FIELD, A_FIELD), ANY];
            tree = tree_of(&[deep(random.between(30, 33), &[FIELD, NOTHING])]);
        }
    }
    if random.chance(40) {
        // Rule 2 applies those behind it.
        rules[1].target = FIELD;
        rules[1].pattern = pattern_with_a_field(random);
        let chain = helped(random, 3);
        rules[1].replacement = Some(with_a_group(random, chain));
    }
    main.replacement = Some(with_a_group(random, chain));
    input(&grammar(random), &[vec![main], rules].concat(), tree, 1)
}

/// A field in so many others.
fn deep(levels: usize, innermost: &[u32]) -> Vec<u32> {
    [[FIELD, A_FIELD].repeat(levels), innermost.to_vec()].concat()
}

/// A tree of so many nodes that holds these fields, and behind one of them so many
/// fields of numbers or nothing that no rule here matches.
fn filled_up(random: &mut Random, mut elements: Vec<Vec<u32>>, nodes: usize) -> Vec<u32> {
    let missing = nodes.saturating_sub(tree_of(&elements).len() / TREE_NODE);
    let mut filling = vec![vec![FIELD, NOTHING]; missing / 2];
    if missing % 2 == 1 && missing > 1 {
        filling[0] = vec![FIELD, A_NUMBER, NUMBER, 900];
    }
    let place = random.below(elements.len() + 1);
    elements.splice(place..place, filling);
    tree_of(&elements)
}

/// The replacement of a wanted number by the same so many levels deeper.
fn deeper(levels: usize) -> RuleText {
    let wanted = vec![(FIELD, A_NUMBER), (NUMBER, WANTED)];
    let replacement = [vec![(FIELD, A_FIELD); levels], wanted.clone()].concat();
    one_pass_rule(FIELD, wanted, replacement)
}

/// Replacements that each add a few nodes, so that as many fit into 2,048 as
/// wanted (42).
fn nodes_in_a_later_replacement(random: &mut Random) -> Input {
    let more = random.between(1, 3);
    let matches = random.between(2, 6);
    // Often all fit, and fill the tree to its last node.
    let some = random.between(0, matches);
    let (fitting, less) = random.pick(&[(matches, 0), (some, 0), (some, more - 1)]);
    let levels = random.below(4);
    let wanted = deep(levels, &[FIELD, A_NUMBER, NUMBER, WANTED]);
    let nodes = limits::NODES - more * fitting - less;
    let tree = filled_up(random, vec![wanted; matches], nodes);
    input(&grammar(random), &[deeper(more)], tree, 1)
}

/// Replacements that grow or shrink by what they match, near 2,048 nodes: room made
/// by one is there for the next (42).
fn nodes_come_and_go(random: &mut Random) -> Input {
    let matches = random.between(2, 7);
    let two = |random: &mut Random| {
        let half = |levels| deep(levels, &[FIELD, NOTHING]);
        let (first, second) = (half(random.below(6)), half(random.below(6)));
        [vec![FIELD, TWO_FIELDS], first, second].concat()
    };
    let elements = (0..matches).map(|_| two(random)).collect();
    let nodes = limits::NODES - random.below(5);
    let tree = filled_up(random, elements, nodes);
    let pattern = vec![(FIELD, TWO_FIELDS), ANY, ANY];
    let rule = one_pass_rule(FIELD, pattern, vec![(FIELD, TWO_FIELDS), FIRST, FIRST]);
    input(&grammar(random), &[rule], tree, 1)
}

/// Fields at depths of which some get too deep (43): at their end, or at the name
/// that stands before them.
fn nesting_in_a_later_replacement(random: &mut Random) -> Input {
    let more = random.between(1, 3);
    let at_the_end = random.chance(50);
    // An element has nesting 3, and its number one more than its field; a name's
    // field is one level deeper than the name's.
    let most = limits::NESTING - 4 - usize::from(!at_the_end);
    let element = |random: &mut Random| {
        let levels = most - more + random.below(3);
        let levels = random.pick(&[0, 9, most - more, levels]).min(most);
        let field = deep(levels, &[FIELD, A_NUMBER, NUMBER, WANTED]);
        let name = vec![FIELD, BEHIND_A_NAME, NAME, WANTED_NAME];
        let before = if at_the_end { vec![] } else { name };
        [before, field].concat()
    };
    let elements: Vec<_> = (0..random.between(1, 6)).map(|_| element(random)).collect();
    let rule = if at_the_end {
        deeper(more)
    } else {
        let pattern = vec![(FIELD, BEHIND_A_NAME), (NAME, WANTED_NAME), ANY];
        let replacement = [vec![(FIELD, A_FIELD); more + 1], vec![FIRST]].concat();
        one_pass_rule(FIELD, pattern, replacement)
    };
    input(&grammar(random), &[rule], tree_of(&elements), 1)
}

/// A sequence of so many fields of nothing, in a field.
fn long(count: usize) -> Vec<u32> {
    let elements = vec![vec![FIELD, NOTHING]; count];
    [vec![FIELD, A_SEQUENCE], sequence(&elements)].concat()
}

/// A long sequence between short ones is copied twice, the second time to be cut,
/// when about 6,144 nodes are live (44). What the cut leaves may be too much (42).
fn live_nodes_at_a_later_cut(random: &mut Random) -> Input {
    let headed = |number: u32, count| {
        let head = vec![FIELD, TWO_FIELDS, FIELD, A_NUMBER, NUMBER, number];
        [head, long(count)].concat()
    };
    let count = random.between(755, 760);
    let nodes = 2 * count + 1;
    let mut elements = Vec::new();
    for _ in 0..random.between(1, 3) {
        elements.push(headed(random.pick(&[0, 100]), random.below(2)));
    }
    let number = random.pick(&[0, 0, 0, 100, 4_000_000]);
    let place = random.below(elements.len() + 1);
    elements.insert(place, headed(number, count));
    // Live are then the tree, both variables, the first copy with three nodes
    // before and behind it, and the second copy.
    let tree_nodes = limits::LIVE_NODES - 3 * nodes - 4 - 2 + random.below(5);
    let tree = filled_up(random, elements, tree_nodes);
    let head = [
        (FIELD, TWO_FIELDS),
        (FIELD, A_NUMBER),
        (NEW_VARIABLE, NUMBER),
    ];
    let pattern = [&head[..], &[(FIELD, A_SEQUENCE), (NEW_VARIABLE, FIELDS)]].concat();
    let copied = [(FIELD, TWO_FIELDS), (FIELD, A_SEQUENCE), (VARIABLE, 1)];
    let cut = [(FIELD, A_SEQUENCE), (CHAIN, 1), (1, 0), (HEAD, 1), FIRST];
    let rule = one_pass_rule(FIELD, pattern, [&copied[..], &cut].concat());
    input(&grammar(random), &[rule], tree, 1)
}

/// Sequences of one length that parts copy; the tree grows a little with each, or
/// shrinks, when about 6,144 nodes are live (44).
fn live_nodes_at_later_parts(random: &mut Random) -> Input {
    let pattern = vec![(FIELD, A_SEQUENCE), (NEW_VARIABLE, FIELDS)];
    let same = vec![(FIELD, A_SEQUENCE), FIRST];
    let grown = [vec![(FIELD, TWO_FIELDS), (FIELD, NOTHING)], same.clone()].concat();
    let replacement = random.pick(&[grown.clone(), grown, same, vec![(FIELD, NOTHING)]]);
    let kept = usize::from(replacement.contains(&FIRST));
    // The tree has about as many sequences as match; the variable, the copies and
    // the replacement have twice as many, so that the tree keeps to 2,048 nodes.
    let matches = random.between(2, 4);
    let copies = 2 * matches - kept;
    let live_sequences = copies + 1 + kept;
    let count = limits::LIVE_NODES / (matches + live_sequences) / 2 - 4;
    let fitting = random.below(matches + 1);
    let live = limits::LIVE_NODES - 2 * fitting + 1 - random.below(2);
    let written = replacement.len() - kept;
    let tree_nodes = live - live_sequences * (2 * count + 1) - written;
    let mut rule = one_pass_rule(FIELD, pattern, replacement);
    rule.parts = vec![construct(FIELDS, &[FIRST]); copies];
    let tree = filled_up(random, vec![long(count); matches], tree_nodes);
    input(&grammar(random), &[rule], tree, 1)
}

/// Two numbers made one by an operation, which may be out of range (45).
fn numbers_in_a_later_replacement(random: &mut Random) -> Input {
    let operation = random.between(1_000, 1_003) as u32;
    let great = limits::NUMBER_VALUE;
    let two = |random: &mut Random| {
        let first = random.pick(&[100, 300, great / 2, great]);
        let second = random.pick(&[0, 1, 100, 100, great / 2]);
        let levels = random.below(3);
        let numbers = [
            FIELD, A_NUMBER, NUMBER, first, FIELD, A_NUMBER, NUMBER, second,
        ];
        deep(levels, &[&[FIELD, TWO_FIELDS], &numbers[..]].concat())
    };
    let elements: Vec<_> = (0..random.between(1, 6)).map(|_| two(random)).collect();
    let a_number = [(FIELD, A_NUMBER), (NEW_VARIABLE, NUMBER)];
    let pattern = [&[(FIELD, TWO_FIELDS)], &a_number[..], &a_number].concat();
    let chain = [(CHAIN, 0), (1, 0), (operation, 1), (VARIABLE, 1)];
    let replacement = [&[(FIELD, A_NUMBER)], &chain[..]].concat();
    let rule = one_pass_rule(FIELD, pattern, replacement);
    input(&grammar(random), &[rule], tree_of(&elements), 1)
}

/// Gives a run a budget at what it needs or at the nodes of its target type, one
/// off it, far under it or far over it.
fn with_budget(random: &mut Random, mut input: Input) -> Input {
    let target = input.rules[2];
    let nodes = input
        .slip
        .chunks(SLIP_NODE)
        .filter(|node| node[0] == target)
        .count() as u32;
    let needed = match run_with(&input, MOST_ATTEMPTS) {
        Outcome::Ended { attempts, .. } => attempts,
        Outcome::Refused(_) => MOST_ATTEMPTS,
    };
    let budget = match random.below(11) {
        0 => needed.saturating_sub(1),
        1 | 2 => needed,
        3 => needed + 1,
        4 => nodes.saturating_sub(1),
        5 | 6 => nodes,
        7 => nodes + 1,
        8 => random.between(0, needed as usize) as u32,
        _ => MOST_ATTEMPTS,
    };
    input.budget = budget.max(1);
    input
}

/// One-pass rules on targets that hold targets, with replacements of every size:
/// mostly main rules with no parts that apply no rules, but also tests and groups
/// that apply such rules; and stops 42 to 45 at a later replacement, or just none.
pub fn one_pass(seed: u64) -> Input {
    let random = &mut Random::new(seed);
    let input = match random.below(20) {
        0..=7 => alone(random),
        8 | 9 => with_tests(random),
        10..=12 => with_groups(random),
        13 => nodes_in_a_later_replacement(random),
        14 => nodes_come_and_go(random),
        15 | 16 => nesting_in_a_later_replacement(random),
        17 => live_nodes_at_a_later_cut(random),
        18 => live_nodes_at_later_parts(random),
        _ => numbers_in_a_later_replacement(random),
    };
    with_budget(random, input)
}
