//! The proved core makes one pass as the reference does: a matched tree is replaced
//! and not entered, and what lies behind it is tried. A main rule of reach 3 that
//! passes alone tries each node of its target type at most once.

use std::collections::BTreeMap;
use std::io::{stdout, Write};

use compare::{compare_run, Counts};
use generate::{one_pass, reference_outcome, run_input, slip, without_counts, Input, Random};
use reference::grammar::Grammar;
use reference::limits;
use reference::rules::{read_layout, Reach};
use reference::tree::Tree;
use reference::typing::{self, Applied, Chain, Part, Program, Replacement, ReplacementItem, Rule};
use reference::Outcome;
use tamarind::{Pad, Stop};

const INPUTS: u64 = 6_000;
/// How often each kind of run must come.
const LEAST: u32 = 50;
/// How often one must come that is rare.
const LEAST_RARE: u32 = 15;
/// The budget that no run here spends.
const GREAT: u32 = 1_000_000;
/// Where the reach of the main rule stands, where it has one.
const MAIN_REACH: usize = 3;
/// An element, two words a node, of the sequence that the trees of `one_pass`
/// begin with.
const A_FIELD_MORE: [u32; 4] = [1, 0, 2, 5];

/// An input that passes its checks, as it is read.
struct Read<'a> {
    input: &'a Input,
    grammar: Grammar,
    program: Program,
    tree: Tree,
}

impl Read<'_> {
    fn new(input: &Input) -> Option<Read<'_>> {
        let grammar = Grammar::read(&input.grammar).ok()?;
        let layout = read_layout(&grammar, &input.rules).ok()?;
        let program = typing::check(&grammar, &layout).ok()?;
        let tree = Tree::read_slip(&grammar, &input.slip).ok()?;
        Some(Read {
            input,
            grammar,
            program,
            tree,
        })
    }

    fn main_rule(&self) -> &Rule {
        &self.program.rules[0]
    }

    /// Whether the main rule has reach 3 and no parts, and applies no rules.
    fn passes_alone(&self) -> bool {
        let rule = self.main_rule();
        let mut groups = rule.replacement.iter().flat_map(groups);
        rule.reach == Reach::OnePass && rule.parts.is_empty() && !groups.any(applies_a_rule)
    }

    /// How many nodes the target type of the main rule has in the tree.
    fn targets(&self) -> u32 {
        let target = self.main_rule().target;
        self.tree
            .preorder()
            .filter(|node| node.ty() == target)
            .count() as u32
    }

    /// Whether a node of the target type holds another.
    fn has_nested_targets(&self) -> bool {
        let target = self.main_rule().target;
        let mut targets = self.tree.preorder().filter(|node| node.ty() == target);
        targets.any(|tree| tree.preorder().skip(1).any(|node| node.ty() == target))
    }

    /// Whether the rest of a sequence is of the target type.
    fn has_a_rest_as_target(&self) -> bool {
        let target = self.main_rule().target;
        let mut targets = self.tree.preorder().filter(|node| node.ty() == target);
        self.grammar.kind(target).is_sequence() && targets.any(|node| node.value() == 0)
    }

    /// The tests of all rules: whether they are negated, and their groups.
    fn tests(&self) -> impl Iterator<Item = (bool, &Chain)> {
        let parts = self.program.rules.iter().flat_map(|rule| &rule.parts);
        parts.filter_map(|part| match part {
            Part::Condition { negated, chain } => Some((*negated, chain)),
            _ => None,
        })
    }

    /// The applications of one-pass rules in a group: of each the rule, and whether
    /// it has arguments.
    fn one_passes<'a>(&'a self, chain: &'a Chain) -> impl Iterator<Item = (&'a Rule, bool)> {
        let all = chain.applications.iter();
        let rules = all.filter_map(|application| match application.applied {
            Applied::Rule(rule) => Some((&self.program.rules[rule], application)),
            _ => None,
        });
        let one_passes = rules.filter(|(rule, _)| rule.reach == Reach::OnePass);
        one_passes.map(|(rule, application)| (rule, !application.arguments.is_empty()))
    }

    /// Whether the run would end otherwise if the main rule had this reach.
    fn differs_with_reach(&self, reach: u32, outcome: &Outcome) -> bool {
        let mut other = self.input.clone();
        other.rules[MAIN_REACH] = reach;
        reference_outcome(&other) != *outcome
    }

    /// Whether the run would stop with 44 if the tree had a field of nothing more.
    fn just_fits(&self) -> bool {
        let mut tree = without_counts(&self.input.slip);
        if tree[..2] != [0, 0] || self.tree.size() + 2 > limits::NODES {
            return false;
        }
        tree.splice(2..2, A_FIELD_MORE);
        let mut other = self.input.clone();
        other.slip = slip(&self.grammar, &tree);
        other.budget = GREAT;
        matches!(
            reference_outcome(&other),
            Outcome::Ended { stop: Some(44), .. }
        )
    }
}

fn groups(replacement: &Replacement) -> impl Iterator<Item = &Chain> {
    replacement.iter().filter_map(|item| match item {
        ReplacementItem::Chain(chain) => Some(chain),
        _ => None,
    })
}

fn applies_a_rule(chain: &Chain) -> bool {
    let mut applied = chain.applications.iter().map(|each| each.applied);
    applied.any(|applied| matches!(applied, Applied::Rule(_)))
}

/// The kinds of an input by what it holds.
fn kinds_of_input(read: &Read) -> Vec<&'static str> {
    let mut kinds = vec![];
    if read.has_nested_targets() {
        kinds.push("nested targets");
    }
    if read.has_a_rest_as_target() {
        kinds.push("rest as target");
    }
    for (negated, chain) in read.tests() {
        kinds.extend(
            read.one_passes(chain)
                .map(|(rule, _)| match rule.replacement {
                    None => "one pass in a test, a condition",
                    Some(_) => "one pass in a test, with a replacement",
                }),
        );
        if negated && read.one_passes(chain).next().is_some() {
            kinds.push("one pass in a negated test");
        }
    }
    for (number, rule) in read.program.rules.iter().enumerate() {
        for chain in rule.replacement.iter().flat_map(groups) {
            kinds.extend(
                read.one_passes(chain)
                    .map(|(_, arguments)| match (number, arguments) {
                        (0, false) => "one pass in a group",
                        (0, true) => "one pass in a group, with an argument",
                        _ => "one pass in a group of a rule applied",
                    }),
            );
        }
    }
    kinds.sort_unstable();
    kinds.dedup();
    kinds
}

/// The kinds of an input by its budget, if its main rule passes alone.
fn kinds_of_budget(read: &Read) -> Vec<&'static str> {
    if !read.passes_alone() {
        return vec![];
    }
    let targets = read.targets();
    let of_budget = match read.input.budget.cmp(&targets.max(1)) {
        std::cmp::Ordering::Less => "alone, budget below the targets",
        std::cmp::Ordering::Equal => "alone, budget at the targets",
        std::cmp::Ordering::Greater => "alone, budget above the targets",
    };
    let none = (targets == 0).then_some("alone, no targets");
    [of_budget].into_iter().chain(none).collect()
}

/// The kinds of a run that is done and has replaced something: what became of the
/// tree, and the limits it has come to.
fn kinds_of_result(read: &Read, words: &[u32]) -> Vec<&'static str> {
    let tree = Tree::read_slip(&read.grammar, words).expect("a result is a slip");
    let (before, after) = (read.tree.size(), tree.size());
    let same = tree == read.tree;
    let near_limit = before > limits::NODES - 5;
    let all = [
        ("done, grown", after > before),
        ("done, shrunk", after < before),
        ("done, as large", after == before && !same),
        ("done, the same tree", same),
        (
            "done, shrunk from about 2,048 nodes",
            after < before && near_limit,
        ),
        ("done at 2,048 nodes", after == limits::NODES),
        ("done at nesting 64", tree.height() == limits::NESTING),
        ("done just under 44", read.just_fits()),
    ];
    let held = all.into_iter().filter(|(_, holds)| *holds);
    held.map(|(kind, _)| kind).collect()
}

/// The kinds of a run by how it ended.
fn kinds_of_outcome(read: &Read, outcome: &Outcome) -> Vec<String> {
    let Outcome::Ended {
        stop,
        replacements,
        words,
        ..
    } = outcome
    else {
        panic!("a one-pass input is refused: {outcome:?}");
    };
    let times = match replacements {
        0 => "no replacement",
        1 => "one replacement",
        _ => "several replacements",
    };
    let ending = stop.map_or("done".into(), |number| format!("stopped {number}"));
    let mut kinds = vec![times.to_string(), ending.clone()];
    if stop.is_some() && *replacements > 0 {
        let after = format!("{ending} after a replacement");
        let alone = read.passes_alone();
        kinds.push(format!(
            "{}, {after}",
            if alone { "alone" } else { "not alone" }
        ));
        kinds.push(after);
    }
    if stop.is_none() && *replacements > 0 {
        kinds.extend(kinds_of_result(read, words).into_iter().map(String::from));
    }
    if read.main_rule().reach == Reach::OnePass {
        for reach in [1, 2] {
            if read.differs_with_reach(reach, outcome) {
                kinds.push(format!("not as with reach {reach}"));
            }
        }
    }
    kinds
}

const EXPECTED: [&str; 26] = [
    "no replacement",
    "one replacement",
    "several replacements",
    "done",
    "done, grown",
    "done, shrunk",
    "done, as large",
    "done, the same tree",
    "done, shrunk from about 2,048 nodes",
    "done at 2,048 nodes",
    "done at nesting 64",
    "done just under 44",
    "nested targets",
    "rest as target",
    "one pass in a test, a condition",
    "one pass in a test, with a replacement",
    "one pass in a negated test",
    "one pass in a group",
    "one pass in a group, with an argument",
    "one pass in a group of a rule applied",
    "not as with reach 1",
    "not as with reach 2",
    "alone, budget below the targets",
    "alone, budget at the targets",
    "alone, budget above the targets",
    "alone, no targets",
];

/// The kinds of runs that must come, and how often.
fn expected_kinds() -> Vec<(String, u32)> {
    let counted = EXPECTED.iter().map(|kind| (kind.to_string(), LEAST));
    let stops = [40, 41, 42, 43, 44, 45].into_iter().flat_map(|number| {
        let stopped = format!("stopped {number}");
        let after = format!("{stopped} after a replacement");
        let (alone, other) = (format!("alone, {after}"), format!("not alone, {after}"));
        match number {
            // Calls come of groups alone, and there of few.
            41 => vec![(stopped, LEAST_RARE)],
            44 => vec![(stopped, LEAST), (alone, LEAST), (other, LEAST_RARE)],
            _ => vec![(stopped, LEAST), (after, LEAST), (alone, LEAST)],
        }
    });
    counted.chain(stops).collect()
}

#[test]
fn one_pass_rules_run_as_in_the_reference() {
    let mut endings = Counts::new();
    let mut kinds: BTreeMap<String, u32> = BTreeMap::new();
    for seed in 0..INPUTS {
        let input = one_pass(seed);
        if let Err(disagreement) = compare_run(&input, &mut endings) {
            panic!("seed {seed}: {disagreement}");
        }
        let read = Read::new(&input).unwrap_or_else(|| panic!("seed {seed} is refused"));
        let outcome = reference_outcome(&input);
        let of_input = [kinds_of_input(&read), kinds_of_budget(&read)].concat();
        let of_input = of_input.into_iter().map(String::from);
        for kind in of_input.chain(kinds_of_outcome(&read, &outcome)) {
            *kinds.entry(kind).or_default() += 1;
        }
    }
    // Written, not printed: a test's prints are shown only where it fails.
    writeln!(stdout(), "one-pass runs end {endings:?}").expect("written");
    writeln!(stdout(), "of {INPUTS} one-pass runs: {kinds:?}").expect("written");
    for (kind, least) in expected_kinds() {
        let count = kinds.get(&kind).copied().unwrap_or(0);
        assert!(count >= least, "{kind}: {count} times");
    }
}

/// How the proved core ends a run with a budget: the stop and the attempts.
fn proved(pad: &mut Pad, input: &Input, budget: u32) -> (Option<Stop>, u32) {
    let posting = pad.run(&input.grammar, &input.rules, &input.slip, budget);
    match posting.outcome {
        tamarind::Outcome::Ended { stop, attempts, .. } => (stop, attempts),
        tamarind::Outcome::Refused(refusal) => panic!("{refusal}"),
    }
}

/// Holds the proved core to the bound on one input whose main rule passes alone.
/// Gives how many attempts the run needs.
fn held_to_the_bound(pad: &mut Pad, input: &Input, targets: u32, seed: u64) -> u32 {
    let bound = targets.max(1);
    let (ending, needed) = proved(pad, input, GREAT);
    assert!(needed <= targets, "seed {seed}: {needed} attempts");
    assert_ne!(ending, Some(Stop::BudgetSpent), "seed {seed}");
    // As many attempts as are needed will do, and so will the nodes.
    for budget in [needed.max(1), bound, bound + 1] {
        let run = proved(pad, input, budget);
        assert_eq!(run, (ending, needed), "seed {seed}, budget {budget}");
    }
    if needed > 1 {
        let any = Random::new(seed).between(1, needed as usize - 1) as u32;
        for budget in [1, any, needed - 1] {
            let run = proved(pad, input, budget);
            let cut = (Some(Stop::BudgetSpent), budget);
            assert_eq!(run, cut, "seed {seed}, budget {budget}");
        }
    }
    needed
}

#[test]
fn a_main_rule_that_passes_alone_tries_each_target_at_most_once() {
    type Family = (&'static str, fn(u64) -> Input, u64);
    let families: [Family; 2] = [
        ("one_pass", one_pass, INPUTS),
        ("run_input", run_input, 20_000),
    ];
    let mut pad = Pad::new();
    for (name, family, inputs) in families {
        let mut kinds: BTreeMap<&str, u32> = BTreeMap::new();
        for seed in 0..inputs {
            let input = family(seed);
            let Some(read) = Read::new(&input).filter(Read::passes_alone) else {
                continue;
            };
            let targets = read.targets();
            let needed = held_to_the_bound(&mut pad, &input, targets, seed);
            let kind = match needed {
                0 => "no attempt",
                _ if needed == targets => "every target",
                _ => "not every target",
            };
            *kinds.entry(kind).or_default() += 1;
        }
        writeln!(
            stdout(),
            "{name}: attempts of rules that pass alone: {kinds:?}"
        )
        .expect("written");
        for kind in ["no attempt", "every target", "not every target"] {
            let count = kinds.get(kind).copied().unwrap_or(0);
            assert!(count >= LEAST, "{name}, {kind}: {count} times");
        }
    }
}
