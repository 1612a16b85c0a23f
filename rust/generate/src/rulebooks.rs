//! Random rules for a grammar: typed ones whose patterns are made from a real
//! tree, so that they often match it, and damaged ones.

use reference::grammar::{Grammar, Kind, OpenPlaces, TypeNumber};
use reference::limits;
use reference::tree::{Piece, Tree};

use crate::labeled::{change_length, wrong_count, Labeled};
use crate::random::Random;
use crate::trees::{token_value, Bounds, Shapes, Style};

/// One pair of a pattern or replacement.
pub type Pair = (u32, u32);

pub(crate) const NEW_VARIABLE: u32 = 64;
pub(crate) const VARIABLE: u32 = 65;
pub(crate) const CHAIN: u32 = 66;

/// A rule before it is written as words. Its bit map follows from what it has.
#[derive(Clone, Debug, Default)]
pub struct RuleText {
    pub target: TypeNumber,
    /// 0 for a rule without reach.
    pub reach: u32,
    pub parameters: Vec<TypeNumber>,
    pub pattern: Vec<Pair>,
    pub parts: Vec<PartText>,
    pub replacement: Option<Vec<Pair>>,
}

/// A part before it is written as words.
#[derive(Clone, Debug)]
pub enum PartText {
    Deconstruct {
        searched: Option<TypeNumber>,
        variable: u32,
        pattern: Vec<Pair>,
    },
    Construct {
        ty: TypeNumber,
        replacement: Vec<Pair>,
    },
    Condition {
        negated: bool,
        chain: Vec<Pair>,
    },
}

/// What a word of rules is.
#[derive(Clone, Copy, Debug, PartialEq, Eq)]
pub enum Field {
    RuleCount,
    RuleMap,
    Type,
    Reach,
    ParameterCount,
    PairCount,
    /// The first word of a pair that is a node or variable.
    Kind,
    /// The second word of a node.
    Value,
    NewVariableType,
    /// A variable's number, also the one a chain starts from.
    Variable,
    ChainLength,
    ChainZero,
    Applied,
    ArgumentCount,
    ArgumentKind,
    ArgumentVariable,
    PartCount,
    PartMap,
    PartVariable,
}

/// The words of rules.
pub fn write_rules(rules: &[RuleText]) -> Vec<u32> {
    write(rules).words
}

fn write(rules: &[RuleText]) -> Labeled<Field> {
    let mut text = Labeled::new();
    text.push(Field::RuleCount, rules.len() as u32);
    for rule in rules {
        write_rule(&mut text, rule);
    }
    text
}

fn write_rule(text: &mut Labeled<Field>, rule: &RuleText) {
    let map = u32::from(rule.reach > 0)
        | u32::from(!rule.parameters.is_empty()) << 1
        | u32::from(!rule.parts.is_empty()) << 2
        | u32::from(rule.replacement.is_some()) << 3;
    text.push(Field::RuleMap, map);
    text.push(Field::Type, rule.target);
    if rule.reach > 0 {
        text.push(Field::Reach, rule.reach);
    }
    if !rule.parameters.is_empty() {
        text.push(Field::ParameterCount, rule.parameters.len() as u32);
        for ty in &rule.parameters {
            text.push(Field::Type, *ty);
        }
    }
    write_pairs(text, &rule.pattern);
    if !rule.parts.is_empty() {
        text.push(Field::PartCount, rule.parts.len() as u32);
        for part in &rule.parts {
            write_part(text, part);
        }
    }
    if let Some(replacement) = &rule.replacement {
        write_pairs(text, replacement);
    }
}

fn write_part(text: &mut Labeled<Field>, part: &PartText) {
    match part {
        PartText::Deconstruct {
            searched,
            variable,
            pattern,
        } => {
            text.push(Field::PartMap, if searched.is_some() { 3 } else { 1 });
            if let Some(ty) = searched {
                text.push(Field::Type, *ty);
            }
            text.push(Field::PartVariable, *variable);
            write_pairs(text, pattern);
        }
        PartText::Construct { ty, replacement } => {
            text.push(Field::PartMap, 4);
            text.push(Field::Type, *ty);
            write_pairs(text, replacement);
        }
        PartText::Condition { negated, chain } => {
            text.push(Field::PartMap, if *negated { 24 } else { 8 });
            write_pairs(text, chain);
        }
    }
}

fn write_pairs(text: &mut Labeled<Field>, pairs: &[Pair]) {
    text.push(Field::PairCount, pairs.len() as u32);
    for (&(first, second), (first_field, second_field)) in pairs.iter().zip(pair_fields(pairs)) {
        text.push(first_field, first);
        text.push(second_field, second);
    }
}

/// What the two words of each pair are.
pub fn pair_fields(pairs: &[Pair]) -> Vec<(Field, Field)> {
    // The pairs of a chain that are still to come.
    let (mut chain_starts, mut applications, mut arguments) = (false, 0, 0);
    let mut fields = Vec::new();
    for &(first, second) in pairs {
        fields.push(if chain_starts {
            chain_starts = false;
            applications = first;
            (Field::ChainLength, Field::ChainZero)
        } else if arguments > 0 {
            arguments -= 1;
            (Field::ArgumentKind, Field::ArgumentVariable)
        } else if applications > 0 {
            applications -= 1;
            arguments = second;
            (Field::Applied, Field::ArgumentCount)
        } else {
            chain_starts = first == CHAIN;
            match first {
                NEW_VARIABLE => (Field::Kind, Field::NewVariableType),
                VARIABLE | CHAIN => (Field::Kind, Field::Variable),
                _ => (Field::Kind, Field::Value),
            }
        });
    }
    fields
}

/// Rules for a grammar that usually pass the check and often match a tree.
/// The tree must fit the grammar.
pub fn rules(seed: u64, grammar: &Grammar, tree: &Tree) -> Vec<u32> {
    let shapes = Shapes::new(grammar);
    write_rules(&random_rules(&mut Random::new(seed), &shapes, tree))
}

/// Rules with one fault put into them. Some turn out valid again.
pub fn damaged_rules(seed: u64, grammar: &Grammar, tree: &Tree) -> Vec<u32> {
    let mut random = Random::new(seed);
    let shapes = Shapes::new(grammar);
    let mut rules = random_rules(&mut random, &shapes, tree);
    match random.below(20) {
        0..=2 if crowd_variables(&mut random, &shapes, &mut rules) => {
            return write_rules(&rules);
        }
        3..=5 if pass_nesting(&mut random, &shapes, &mut rules) => {
            return write_rules(&rules);
        }
        6 | 7 => {
            let mut words = write_rules(&rules);
            change_length(&mut random, &mut words);
            return words;
        }
        8 | 9 => {
            let rule = random.below(rules.len());
            change_pairs(&mut random, &mut rules[rule]);
            return write_rules(&rules);
        }
        10 => {
            // Rule 0 without reach on another type, or with other bits.
            match random.below(3) {
                0 => rules[0].reach = 0,
                1 => rules[0].replacement = None,
                _ => rules[0].parameters = vec![0],
            }
            rules[0].target = random.below(grammar.types.len()) as u32;
            return write_rules(&rules);
        }
        11 => {
            let mut words = write_rules(&rules);
            words.resize(limits::RULES_WORDS + random.below(3), 0);
            return words;
        }
        12 => {
            if let Some(words) = with_wrong_reach(&mut random, &rules) {
                return words;
            }
        }
        _ => {}
    }
    // Chains have the most ways to be wrong, so they are often aimed at.
    let aimed = random.chance(50);
    let mut text = write(&rules);
    for _ in 0..6 {
        if !aimed || text.has(Field::Applied) {
            break;
        }
        text = write(&random_rules(&mut random, &shapes, tree));
    }
    damage_one_word(&mut random, grammar, &mut text, aimed);
    text.words
}

/// Rules with one reach just outside its limits, if a rule has one.
fn with_wrong_reach(random: &mut Random, rules: &[RuleText]) -> Option<Vec<u32>> {
    let mut text = write(rules);
    let (position, _) = text.position_where(random, |field| field == Field::Reach)?;
    text.words[position] = random.pick(&[0, 4]);
    Some(text.words)
}

fn damage_one_word(
    random: &mut Random,
    grammar: &Grammar,
    text: &mut Labeled<Field>,
    aimed_at_chains: bool,
) {
    let types = grammar.types.len() as u32;
    let rules = text.words[0] as usize;
    let any_type = random.below(types as usize) as u32;
    let in_chain = |field| {
        matches!(
            field,
            Field::Applied
                | Field::ArgumentCount
                | Field::ArgumentKind
                | Field::ArgumentVariable
                | Field::Variable
        )
    };
    let (position, field) = text
        .position_where(random, |field| aimed_at_chains && in_chain(field))
        .unwrap_or_else(|| text.position(random));
    let word = text.words[position];
    text.words[position] = match field {
        Field::RuleCount => wrong_count(random, word, limits::RULES),
        Field::RuleMap => match random.below(3) {
            0 => word ^ (1 << random.below(5)),
            1 => random.below(18) as u32,
            _ => u32::MAX,
        },
        Field::Type => random.pick(&[types, 64, any_type, any_type, u32::MAX]),
        Field::Reach => random.pick(&[0, 1, 2, 3, 4, u32::MAX]),
        Field::ParameterCount => wrong_count(random, word, limits::PARAMETERS),
        Field::PairCount => wrong_count(random, word, limits::PAIRS),
        Field::PartCount => wrong_count(random, word, limits::PARTS),
        Field::PartMap => random.pick(&[0, 1, 2, 3, 4, 5, 8, 9, 16, 24, 25, 32, u32::MAX]),
        Field::PartVariable => random.pick(&[0, 1, word + 1, 15, 16, 64, u32::MAX]),
        Field::Kind => match random.below(5) {
            0 => any_type,
            1 => types,
            2 => random.between(63, 68) as u32,
            3 => random.word(),
            _ => random.pick(&[NEW_VARIABLE, VARIABLE, CHAIN]),
        },
        Field::Value => match random.below(4) {
            0 => word.wrapping_add(1),
            1 => word.wrapping_sub(1),
            2 => random.word(),
            _ => random.pick(&[limits::NUMBER_VALUE + 1, limits::TEXT_VALUE + 1, 16]),
        },
        Field::NewVariableType => random.pick(&[any_type, any_type, types, 64, u32::MAX]),
        Field::Variable | Field::ArgumentVariable => match random.below(6) {
            0 => word + 1,
            1 => random.below(17) as u32,
            2 => random.word(),
            _ => random.below(5) as u32,
        },
        Field::ChainLength => random.below(6) as u32,
        Field::ChainZero => random.pick(&[1, 2, u32::MAX]),
        Field::Applied => match random.below(5) {
            0 => random.between(998, 1_018) as u32,
            1 | 2 => random.below(rules + 1) as u32,
            3 => random.pick(&[63, 64, 65, 999]),
            _ => random.between(1_000, 1_016) as u32,
        },
        Field::ArgumentCount => random.pick(&[0, 1, 2, word + 1, u32::MAX]),
        Field::ArgumentKind => random.pick(&[0, any_type, 64, 66, u32::MAX]),
    };
}

/// Takes a pair out of a pattern or replacement, or puts one in, with the
/// right count of pairs.
fn change_pairs(random: &mut Random, rule: &mut RuleText) {
    let mut all: Vec<&mut Vec<Pair>> = vec![&mut rule.pattern];
    for part in &mut rule.parts {
        all.push(match part {
            PartText::Deconstruct { pattern, .. } => pattern,
            PartText::Construct { replacement, .. } => replacement,
            PartText::Condition { chain, .. } => chain,
        });
    }
    all.extend(&mut rule.replacement);
    let chosen = random.below(all.len());
    let pairs = &mut all[chosen];
    let place = random.below(pairs.len());
    if random.chance(50) && pairs.len() > 1 {
        pairs.remove(place);
    } else {
        let pair = pairs[place];
        pairs.insert(place, pair);
    }
}

/// Makes a rule with about 16 variables, if the grammar has a sequence.
fn crowd_variables(random: &mut Random, shapes: &Shapes, rules: &mut [RuleText]) -> bool {
    let grammar = shapes.grammar;
    let sequences: Vec<TypeNumber> = (0..grammar.types.len() as u32)
        .filter(|&ty| grammar.kind(ty).is_sequence())
        .collect();
    let Some(sequence) = random.pick_any(&sequences) else {
        return false;
    };
    let element = grammar.types[sequence as usize].alternatives[0][0];
    let constructs = random.below(5);
    let bound = random.pick(&[15, 16, 17, 17]) - constructs;
    let mut pattern = [(sequence, 0), (NEW_VARIABLE, element)].repeat(bound - 1);
    // Sometimes there is a second fault at the same place or behind it.
    let last = if random.chance(65) { sequence } else { element };
    pattern.push((NEW_VARIABLE, last));
    let wrong = random.pick(&[(sequence, 1), (sequence, 1), (99, 0), (sequence, 9)]);
    let construct = PartText::Construct {
        ty: sequence,
        replacement: vec![wrong],
    };
    let mut parts = vec![construct; constructs];
    if random.chance(30) {
        // A pattern that is short, so that its fault stands at the next part.
        let short = PartText::Deconstruct {
            searched: None,
            variable: bound as u32 - 1,
            pattern: vec![(sequence, 0)],
        };
        let place = random.below(parts.len() + 1);
        parts.insert(place, short);
    }
    let rule = RuleText {
        target: sequence,
        reach: 1,
        pattern,
        parts,
        replacement: Some(vec![(VARIABLE, bound as u32 - 1)]),
        ..RuleText::default()
    };
    let place = random.below(rules.len());
    rules[place] = rule;
    true
}

/// Makes a rule whose pattern or replacement has nesting 64 or a little more,
/// if the grammar has trees that deep.
fn pass_nesting(random: &mut Random, shapes: &Shapes, rules: &mut Vec<RuleText>) -> bool {
    let endless: Vec<TypeNumber> = (0..shapes.grammar.types.len() as u32)
        .filter(|&ty| shapes.is_endless(ty))
        .collect();
    let Some(ty) = random.pick_any(&endless) else {
        return false;
    };
    let bounds = Bounds {
        nodes: limits::PAIRS as usize,
        nesting: random.between(64, 66),
    };
    let words = shapes.grow(random, ty, bounds, Style::Deep);
    let mut deep: Vec<Pair> = words
        .chunks_exact(2)
        .map(|node| (node[0], node[1]))
        .collect();
    if random.chance(50) {
        end_with_other_pair(random, shapes.grammar, &mut deep);
    }
    if deep.len() > limits::PAIRS as usize {
        return false;
    }
    let variable = vec![(NEW_VARIABLE, ty)];
    let (pattern, replacement) = if random.chance(50) {
        (deep, None)
    } else {
        (variable, Some(deep))
    };
    rules.push(RuleText {
        target: ty,
        pattern,
        replacement,
        ..RuleText::default()
    });
    rules.len() <= limits::RULES as usize
}

/// Cuts the pairs of a deep tree off where nesting 64 is passed, and puts
/// another pair there, or none.
fn end_with_other_pair(random: &mut Random, grammar: &Grammar, pairs: &mut Vec<Pair>) {
    let mut places = OpenPlaces::new(grammar, pairs[0].0);
    for position in 0..pairs.len() {
        let Some(place) = places.next_place() else {
            return;
        };
        if place.nesting > limits::NESTING {
            pairs.truncate(position);
            match random.below(7) {
                0 => pairs.push((NEW_VARIABLE, place.ty)),
                1 => pairs.push((VARIABLE, random.below(2) as u32)),
                2 => pairs.extend([(CHAIN, 0), (1, 0), (0, 0)]),
                3 => pairs.push((place.ty + 1, 0)),
                4 => pairs.push((place.ty, u32::MAX)),
                5 => pairs.push((67, 0)),
                _ => {}
            }
            return;
        }
        places.fill_with_node(place, pairs[position].1);
    }
}

/// What other rules must know of a rule to apply it.
#[derive(Clone, Debug)]
struct Signature {
    target: TypeNumber,
    reach: u32,
    parameters: Vec<TypeNumber>,
    rewrites: bool,
}

/// The trees that patterns are made from.
struct Samples<'a> {
    shapes: &'a Shapes<'a>,
    /// The parts of a real tree, by their types.
    by_type: Vec<Vec<Tree>>,
    /// The types that a tree of each kind can be made of.
    usable: Vec<TypeNumber>,
    /// The types that occur in the real tree.
    present: Vec<TypeNumber>,
}

impl<'a> Samples<'a> {
    fn new(shapes: &'a Shapes<'a>, tree: &Tree) -> Self {
        let types = shapes.grammar.types.len() as u32;
        let mut by_type = vec![Vec::new(); types as usize];
        for part in tree.preorder() {
            by_type[part.ty() as usize].push(part.clone());
        }
        let has_sample = |ty: &TypeNumber| !by_type[*ty as usize].is_empty();
        Samples {
            shapes,
            usable: (0..types)
                .filter(|ty| has_sample(ty) || shapes.has_small_tree(*ty))
                .collect(),
            present: (0..types).filter(has_sample).collect(),
            by_type,
        }
    }

    /// A tree of a usable type, real if there is one.
    fn tree(&self, random: &mut Random, ty: TypeNumber) -> Tree {
        match random.pick_any(&self.by_type[ty as usize]) {
            Some(tree) if random.chance(90) || !self.shapes.has_small_tree(ty) => tree,
            _ => self.shapes.small_tree(random, ty),
        }
    }

    /// A usable type, mostly one that occurs in the real tree.
    fn ty(&self, random: &mut Random) -> TypeNumber {
        if random.chance(90) {
            random.pick(&self.present)
        } else {
            random.pick(&self.usable)
        }
    }
}

/// Typed rules, made from a real tree of the grammar.
pub fn random_rules(random: &mut Random, shapes: &Shapes, tree: &Tree) -> Vec<RuleText> {
    let samples = Samples::new(shapes, tree);
    let count = match random.below(20) {
        0 => random.between(7, 64),
        1..=6 => 1,
        _ => random.between(2, 6),
    };
    let signatures: Vec<Signature> = (0..count)
        .map(|number| random_signature(random, &samples, number == 0))
        .collect();
    (0..count)
        .map(|number| {
            let own = &signatures[number];
            let variables = own.parameters.iter().map(|&ty| Variable {
                ty,
                sample: Some(samples.tree(random, ty)),
            });
            let variables = variables.collect();
            RuleBody {
                random: &mut *random,
                samples: &samples,
                signatures: &signatures,
                number,
                variables,
            }
            .rule()
        })
        .collect()
}

fn random_signature(random: &mut Random, samples: &Samples, main: bool) -> Signature {
    let reach = random.pick(&[0, 0, 1, 1, 1, 2, 2, 3, 3]);
    let target = if main && reach == 0 {
        0
    } else {
        samples.ty(random)
    };
    let parameters = match random.below(10) {
        0..=5 => 0,
        6..=8 => random.between(1, 2),
        _ => random.between(1, 4),
    };
    Signature {
        target,
        reach,
        parameters: (0..if main { 0 } else { parameters })
            .map(|_| samples.ty(random))
            .collect(),
        rewrites: main || random.chance(70),
    }
}

/// A variable of a rule under way.
#[derive(Clone, Debug)]
struct Variable {
    ty: TypeNumber,
    /// A tree that it may well be bound to, if one is known.
    sample: Option<Tree>,
}

/// Makes the body of one rule.
struct RuleBody<'a> {
    random: &'a mut Random,
    samples: &'a Samples<'a>,
    signatures: &'a [Signature],
    number: usize,
    variables: Vec<Variable>,
}

impl RuleBody<'_> {
    fn rule(mut self) -> RuleText {
        let own = self.signatures[self.number].clone();
        let tree = self.samples.tree(self.random, own.target);
        let pattern = self.pattern(&tree, 85);
        let wanted = match self.random.below(10) {
            0..=3 => 0,
            4..=8 => self.random.between(1, 3),
            _ => self.random.between(4, limits::PARTS as usize),
        };
        let mut parts = Vec::new();
        for _ in 0..wanted {
            parts.extend(self.part());
        }
        let replacement = own.rewrites.then(|| self.replacement(own.target).0);
        RuleText {
            target: own.target,
            reach: own.reach,
            parameters: own.parameters,
            pattern,
            parts,
            replacement,
        }
    }

    fn is_full(&self) -> bool {
        self.variables.len() >= limits::VARIABLES
    }

    /// A pattern that matches a tree, with parts of the tree made variables.
    /// `node` is the chance that its root is a node.
    fn pattern(&mut self, tree: &Tree, node: usize) -> Vec<Pair> {
        let before = self.variables.len();
        let root_is_node = self.random.chance(node) || self.is_full();
        let abstracted = self.random.pick(&[15, 30, 50, 80]);
        // Variables in front and nodes behind: such a pattern often fails
        // after it has bound something.
        let front_first = self.random.chance(30);
        let most = self.random.pick(&[6, 12, 25, 60, limits::PAIRS as usize]);
        let mut pairs = Vec::new();
        let mut places = vec![tree.clone()];
        while let Some(place) = places.pop() {
            let crowded = pairs.len() + places.len() >= most;
            let may_abstract = !pairs.is_empty() || !root_is_node;
            let abstracted = match (front_first, pairs.len()) {
                (false, _) => abstracted,
                (true, 0..=3) => 80,
                (true, _) => 8,
            };
            if may_abstract && (crowded || self.random.chance(abstracted)) {
                if let Some(variable) = self.variable_like(&place) {
                    pairs.push((VARIABLE, variable));
                    continue;
                }
                if !self.is_full() {
                    pairs.push((NEW_VARIABLE, place.ty()));
                    self.variables.push(Variable {
                        ty: place.ty(),
                        sample: Some(place),
                    });
                    continue;
                }
            }
            pairs.push((place.ty(), self.pattern_value(&place)));
            places.extend(place.children().iter().rev().cloned());
        }
        if pairs.len() <= limits::PAIRS as usize {
            return pairs;
        }
        // Too great to be written out: any tree of that type.
        self.variables.truncate(before);
        if self.is_full() {
            return self.least_tree(tree.ty());
        }
        self.variables.push(Variable {
            ty: tree.ty(),
            sample: Some(tree.clone()),
        });
        vec![(NEW_VARIABLE, tree.ty())]
    }

    /// Mostly the value of a node, sometimes another one that fits it.
    fn pattern_value(&mut self, tree: &Tree) -> u32 {
        match self.samples.shapes.grammar.kind(tree.ty()) {
            Kind::Token(class) if self.random.chance(7) => token_value(self.random, class),
            _ => tree.value(),
        }
    }

    /// A variable whose sample is the same tree, or rarely one that has only
    /// the root in common.
    fn variable_like(&mut self, tree: &Tree) -> Option<u32> {
        let same = self.random.chance(85);
        let is_like = |sample: &Tree| {
            let same_root = sample.ty() == tree.ty() && sample.value() == tree.value();
            same_root && (!same || sample == tree)
        };
        let like: Vec<u32> = (0..self.variables.len())
            .filter(|&number| self.variables[number].sample.as_ref().is_some_and(is_like))
            .map(|number| number as u32)
            .collect();
        if self.random.chance(45) {
            self.random.pick_any(&like)
        } else {
            None
        }
    }

    fn part(&mut self) -> Option<PartText> {
        match self.random.below(10) {
            0 | 1 => self.deconstruct(),
            2 | 3 => self.search(),
            4..=6 => self.construct(),
            _ => self.condition(),
        }
    }

    /// A variable with a known sample, mostly not a token.
    fn sampled_variable(&mut self) -> Option<(u32, Tree)> {
        let grammar = self.samples.shapes.grammar;
        let tokens = self.random.chance(20);
        let known: Vec<(u32, Tree)> = self
            .variables
            .iter()
            .enumerate()
            .filter_map(|(number, variable)| Some((number as u32, variable.sample.clone()?)))
            .filter(|(_, tree)| tokens || !matches!(grammar.kind(tree.ty()), Kind::Token(_)))
            .collect();
        self.random.pick_any(&known)
    }

    fn deconstruct(&mut self) -> Option<PartText> {
        let (variable, sample) = self.sampled_variable()?;
        let sample = if self.random.chance(90) {
            sample
        } else {
            self.samples.tree(self.random, sample.ty())
        };
        Some(PartText::Deconstruct {
            searched: None,
            variable,
            pattern: self.pattern(&sample, 95),
        })
    }

    fn search(&mut self) -> Option<PartText> {
        let (variable, sample) = self.sampled_variable()?;
        let position = self.random.below(sample.size());
        let found = if self.random.chance(85) {
            sample.find(position).0.clone()
        } else {
            let ty = self.samples.ty(self.random);
            self.samples.tree(self.random, ty)
        };
        Some(PartText::Deconstruct {
            searched: Some(found.ty()),
            variable,
            pattern: self.pattern(&found, 75),
        })
    }

    fn construct(&mut self) -> Option<PartText> {
        if self.is_full() {
            return None;
        }
        let types: Vec<TypeNumber> = self.variables.iter().map(|variable| variable.ty).collect();
        let ty = match self.random.pick_any(&types) {
            Some(ty) if self.random.chance(70) => ty,
            _ => self.samples.ty(self.random),
        };
        let (replacement, sample) = self.replacement(ty);
        self.variables.push(Variable { ty, sample });
        Some(PartText::Construct { ty, replacement })
    }

    fn condition(&mut self) -> Option<PartText> {
        if self.variables.is_empty() {
            return None;
        }
        let variable = self.random.below(self.variables.len()) as u32;
        Some(PartText::Condition {
            negated: self.random.chance(40),
            chain: self.chain(variable, true)?,
        })
    }

    /// A replacement of a type, and the tree it gives if that is known.
    fn replacement(&mut self, ty: TypeNumber) -> (Vec<Pair>, Option<Tree>) {
        let copied = self.random.pick(&[20, 50, 80]);
        let chained = self.random.pick(&[0, 15, 30, 60]);
        let most = self.random.pick(&[4, 10, 25, 60]);
        let mut pairs = Vec::new();
        let mut pieces = Some(Vec::new());
        let mut places = vec![ty];
        while let Some(place) = places.pop() {
            let crowded = pairs.len() + places.len() >= most;
            if let Some(variable) = self.variable_of(place) {
                if self.random.chance(chained) {
                    if let Some(chain) = self.chain(variable, false) {
                        pairs.extend(chain);
                        pieces = None;
                        continue;
                    }
                }
                if crowded || self.random.chance(copied) {
                    pairs.push((VARIABLE, variable));
                    let sample = self.variables[variable as usize].sample.clone();
                    pieces = match (pieces, sample) {
                        (Some(mut pieces), Some(tree)) => {
                            pieces.push(Piece::Whole(tree));
                            Some(pieces)
                        }
                        _ => None,
                    };
                    continue;
                }
            }
            let value = if crowded || !self.samples.usable.contains(&place) {
                self.least_tree(place)[0].1
            } else {
                self.samples.tree(self.random, place).value()
            };
            pairs.push((place, value));
            if let Some(pieces) = &mut pieces {
                pieces.push(Piece::Node { ty: place, value });
            }
            let grammar = self.samples.shapes.grammar;
            let children = grammar.child_types(place, value).unwrap_or(&[]);
            places.extend(children.iter().rev());
            if pairs.len() > limits::PAIRS as usize {
                return self.simple_replacement(ty);
            }
        }
        if pairs.len() > limits::PAIRS as usize {
            return self.simple_replacement(ty);
        }
        let tree = pieces.map(|pieces| Tree::assemble(self.samples.shapes.grammar, pieces));
        (pairs, tree.filter(|tree| tree.size() <= limits::NODES))
    }

    /// A copy of a variable, or the least tree.
    fn simple_replacement(&mut self, ty: TypeNumber) -> (Vec<Pair>, Option<Tree>) {
        match self.variable_of(ty) {
            Some(variable) => {
                let sample = self.variables[variable as usize].sample.clone();
                (vec![(VARIABLE, variable)], sample)
            }
            None => (self.least_tree(ty), None),
        }
    }

    /// The pairs of about the least tree of a type, cut off where they are too
    /// many.
    fn least_tree(&mut self, ty: TypeNumber) -> Vec<Pair> {
        let bounds = Bounds {
            nodes: 1,
            nesting: limits::NESTING,
        };
        let words = self
            .samples
            .shapes
            .grow(self.random, ty, bounds, Style::Small);
        let nodes = words.chunks_exact(2).take(limits::PAIRS as usize);
        nodes.map(|node| (node[0], node[1])).collect()
    }

    /// A variable of a type.
    fn variable_of(&mut self, ty: TypeNumber) -> Option<u32> {
        self.variable_where(|variable| variable == ty)
    }

    /// A variable of a type that fits.
    fn variable_where(&mut self, fits: impl Fn(TypeNumber) -> bool) -> Option<u32> {
        let fitting: Vec<u32> = (0..self.variables.len())
            .filter(|&number| fits(self.variables[number].ty))
            .map(|number| number as u32)
            .collect();
        self.random.pick_any(&fitting)
    }

    /// A chain on a variable, if there is anything to apply to it.
    fn chain(&mut self, variable: u32, tested: bool) -> Option<Vec<Pair>> {
        let length = self.random.pick(&[1, 1, 1, 1, 2, 2, 3, 4]);
        let mut pairs = vec![(CHAIN, variable), (length, 0)];
        for _ in 0..length {
            let application = self.application(variable, tested)?;
            pairs.extend(application);
        }
        Some(pairs)
    }

    /// One application with its arguments.
    fn application(&mut self, variable: u32, tested: bool) -> Option<Vec<Pair>> {
        let scope = self.variables[variable as usize].ty;
        if !tested && self.random.chance(40) {
            if let Some(pairs) = self.sequence_application(scope) {
                return Some(pairs);
            }
        }
        let number = self.samples.shapes.grammar.is_number(scope);
        if number && self.random.chance(60) {
            let operation = if tested {
                self.random.pick(&[1_008, 1_009])
            } else {
                self.random.between(1_000, 1_005) as u32
            };
            let mut pairs = vec![(operation, 0)];
            if !matches!(operation, 1_004 | 1_005) {
                pairs[0].1 = 1;
                pairs.push((VARIABLE, self.number_variable()?));
            }
            return Some(pairs);
        }
        let own = self.number;
        // Calls of later rules end; others may go round.
        let forward = self.random.chance(85);
        let rules: Vec<usize> = (0..self.signatures.len())
            .filter(|&rule| rule > own || !forward)
            .filter(|&rule| tested || self.signatures[rule].rewrites)
            .filter(|&rule| {
                let signature = &self.signatures[rule];
                signature.reach > 0 || signature.target == scope
            })
            .collect();
        let rule = self.random.pick_any(&rules)?;
        let parameters = &self.signatures[rule].parameters;
        let mut pairs = vec![(rule as u32, parameters.len() as u32)];
        for &ty in parameters {
            pairs.push((VARIABLE, self.variable_of(ty)?));
        }
        Some(pairs)
    }

    fn number_variable(&mut self) -> Option<u32> {
        let grammar = self.samples.shapes.grammar;
        self.variable_where(|ty| grammar.is_number(ty))
    }

    /// An operation on sequences that fits the scope, with arguments that fit it,
    /// if there are any.
    fn sequence_application(&mut self, scope: TypeNumber) -> Option<Vec<Pair>> {
        let grammar = self.samples.shapes.grammar;
        if grammar.is_number(scope) {
            let sequence = self.variable_where(|ty| grammar.element(ty).is_some())?;
            return Some(vec![(1_014, 1), (VARIABLE, sequence)]);
        }
        let element = grammar.element(scope)?;
        let operation = self
            .random
            .pick(&[1_010, 1_010, 1_011, 1_012, 1_013, 1_015]);
        let arguments = match operation {
            1_010 => vec![self.variable_where(|ty| ty == scope || ty == element)?],
            1_011 => vec![self.number_variable()?, self.number_variable()?],
            1_015 => vec![self.variable_where(|_| true)?],
            _ => vec![self.number_variable()?],
        };
        let mut pairs = vec![(operation, arguments.len() as u32)];
        pairs.extend(arguments.iter().map(|&variable| (VARIABLE, variable)));
        Some(pairs)
    }
}
