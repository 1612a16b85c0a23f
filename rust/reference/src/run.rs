//! The meaning of a run, and its stops 40 to 45.
//!
//! A stop leaves the engine as it is at that step: only the main tree, the
//! attempts and the replacements are read afterwards.

use std::cmp::Ordering;

use crate::grammar::Grammar;
use crate::limits;
use crate::rules::Reach;
use crate::sequence;
use crate::tree::{Piece, Tree};
use crate::typing::{
    Application, Applied, Chain, Comparison, Operation, Part, PatternItem, Program, Replacement,
    ReplacementItem, Rule,
};

/// Why a run stopped before it was done.
#[derive(Clone, Copy, Debug, PartialEq, Eq)]
pub enum Stop {
    /// 40: an attempt is due and the budget is spent.
    BudgetSpent,
    /// 41: a 33rd nested call.
    CallsTooDeep,
    /// 42: a tree would pass 2,048 nodes.
    TooManyNodes,
    /// 43: a finished tree's nesting would pass 64.
    NestsTooDeep,
    /// 44: live nodes would pass 6,144.
    TooManyLiveNodes,
    /// 45: an operation's result out of range, or divisor 0.
    OutOfRange,
}

impl Stop {
    /// The paper's number of this stop.
    pub fn number(self) -> u32 {
        match self {
            Stop::BudgetSpent => 40,
            Stop::CallsTooDeep => 41,
            Stop::TooManyNodes => 42,
            Stop::NestsTooDeep => 43,
            Stop::TooManyLiveNodes => 44,
            Stop::OutOfRange => 45,
        }
    }
}

/// How a run ended.
#[derive(Clone, Debug)]
pub struct Ending {
    /// The stop, or `None` if the run was done.
    pub stop: Option<Stop>,
    /// All attempts that were started, the paper's "trials".
    pub attempts: u32,
    /// The replacements that the first call put in place.
    pub replacements: u32,
    /// The tree as left by the last of those replacements.
    pub tree: Tree,
}

/// Runs the main rule on a tree of type 0.
pub fn run(grammar: &Grammar, program: &Program, mut tree: Tree, budget: u32) -> Ending {
    let mut engine = Engine {
        grammar,
        program,
        budget,
        attempts: 0,
        replacements: 0,
        live: tree.size(),
        calls: 0,
    };
    let stop = engine
        .call(0, &mut tree, Vec::new(), Purpose::Rewrite)
        .err();
    // When the run is done, all that was made live is let go but the tree.
    debug_assert!(stop.is_some() || engine.live == tree.size());
    Ending {
        stop,
        attempts: engine.attempts,
        replacements: engine.replacements,
        tree,
    }
}

/// What a rule is called for.
#[derive(Clone, Copy, PartialEq, Eq)]
enum Purpose {
    /// To replace its matches.
    Rewrite,
    /// To say whether there is a match.
    Test,
}

struct Engine<'a> {
    grammar: &'a Grammar,
    program: &'a Program,
    budget: u32,
    attempts: u32,
    replacements: u32,
    /// The paper's "held nodes", over all open calls.
    live: usize,
    /// The number of open calls.
    calls: usize,
}

impl Engine<'_> {
    /// Calls a rule on a scope that is live already. Says whether it matched.
    fn call(
        &mut self,
        number: usize,
        scope: &mut Tree,
        arguments: Vec<Tree>,
        purpose: Purpose,
    ) -> Result<bool, Stop> {
        // Opening the call and taking all arguments is one step, in which the
        // lower number stops.
        if self.calls == limits::CALLS {
            return Err(Stop::CallsTooDeep);
        }
        self.calls += 1;
        self.hold(arguments.iter().map(Tree::size).sum())?;

        let program = self.program;
        let rule = &program.rules[number];
        let mut variables = arguments;
        let parameters = variables.len();
        let mut matched = false;
        let mut from = 0;
        while let Some(position) = self.search(rule, scope, from, &mut variables)? {
            matched = true;
            match &rule.replacement {
                Some(replacement) if purpose == Purpose::Rewrite => {
                    let new = self.construct(replacement, &variables)?;
                    let behind = position + new.size();
                    self.put_in_place(scope, position, new)?;
                    self.release_from(parameters, &mut variables);
                    match rule.reach {
                        Reach::RootOnly | Reach::FirstMatch => break,
                        // "the search then begins again at the scope's root".
                        Reach::Exhaustive => from = 0,
                        // T-06: "a matched tree is replaced and not entered",
                        // so the node behind it is next.
                        Reach::OnePass => from = behind,
                    }
                }
                // "The first match ends the search of a condition"; with
                // reach 3 conditions "act as reach 1" (T-06).
                _ => break,
            }
        }
        self.release_from(0, &mut variables);
        self.calls -= 1;
        Ok(matched)
    }

    /// Tries a rule on the nodes of a scope from a position on. Returns the
    /// position of the first match, whose variables stay bound.
    fn search(
        &mut self,
        rule: &Rule,
        scope: &Tree,
        from: usize,
        variables: &mut Vec<Tree>,
    ) -> Result<Option<usize>, Stop> {
        let nodes = match rule.reach {
            Reach::RootOnly => 1,
            Reach::FirstMatch | Reach::Exhaustive | Reach::OnePass => scope.size(),
        };
        for (position, node) in scope.preorder().enumerate().take(nodes).skip(from) {
            if node.ty() == rule.target && self.attempt(rule, node, variables)? {
                return Ok(Some(position));
            }
        }
        Ok(None)
    }

    /// One attempt, the paper's "trial", on one node of the target type. If it
    /// fails, the variables it has bound are gone.
    fn attempt(
        &mut self,
        rule: &Rule,
        node: &Tree,
        variables: &mut Vec<Tree>,
    ) -> Result<bool, Stop> {
        if self.attempts == self.budget {
            return Err(Stop::BudgetSpent);
        }
        self.attempts += 1;
        let bound_before = variables.len();
        let matched = self.matches(&rule.pattern, node, variables)?
            && self.parts_hold(&rule.parts, variables)?;
        if !matched {
            self.release_from(bound_before, variables);
        }
        Ok(matched)
    }

    /// Works the parts of a rule in order, up to the first that fails.
    fn parts_hold(&mut self, parts: &[Part], variables: &mut Vec<Tree>) -> Result<bool, Stop> {
        for part in parts {
            if !self.part(part, variables)? {
                return Ok(false);
            }
        }
        Ok(true)
    }

    /// Sets a whole pattern against a tree, binding new variables on the way.
    /// Those stay bound even if the tree does not match.
    fn matches(
        &mut self,
        pattern: &[PatternItem],
        tree: &Tree,
        variables: &mut Vec<Tree>,
    ) -> Result<bool, Stop> {
        self.match_items(&mut pattern.iter(), tree, variables)
    }

    /// Sets the next items of a pattern, which stand for one tree, against a
    /// tree of the same type.
    fn match_items(
        &mut self,
        items: &mut std::slice::Iter<PatternItem>,
        tree: &Tree,
        variables: &mut Vec<Tree>,
    ) -> Result<bool, Stop> {
        match items.next().expect("a typed pattern is complete") {
            PatternItem::Node { value } => {
                if *value != tree.value() {
                    return Ok(false);
                }
                for child in tree.children() {
                    if !self.match_items(items, child, variables)? {
                        return Ok(false);
                    }
                }
                Ok(true)
            }
            PatternItem::NewVariable => {
                self.hold(tree.size())?;
                variables.push(tree.clone());
                Ok(true)
            }
            // T-05: "a tree holding a name or string of value 0 matches
            // nothing, itself included".
            PatternItem::SameAs(variable) => {
                Ok(variables[*variable] == *tree && !tree.holds_blank(self.grammar))
            }
        }
    }

    /// Works one part of a rule. Says whether it holds.
    fn part(&mut self, part: &Part, variables: &mut Vec<Tree>) -> Result<bool, Stop> {
        match part {
            Part::Deconstruct {
                variable,
                searched,
                pattern,
            } => {
                let tree = variables[*variable].clone();
                let Some(searched) = searched else {
                    return self.matches(pattern, &tree, variables);
                };
                let bound_before = variables.len();
                for node in tree.preorder().filter(|node| node.ty() == *searched) {
                    if self.matches(pattern, node, variables)? {
                        return Ok(true);
                    }
                    self.release_from(bound_before, variables);
                }
                Ok(false)
            }
            Part::Construct { replacement } => {
                // The tree is live since it was worked, and stays so.
                let tree = self.construct(replacement, variables)?;
                variables.push(tree);
                Ok(true)
            }
            Part::Condition { negated, chain } => Ok(self.test(chain, variables)? != *negated),
        }
    }

    /// Tries the applications of a condition in order, up to the first
    /// success.
    fn test(&mut self, chain: &Chain, variables: &[Tree]) -> Result<bool, Stop> {
        let mut scope = self.copy_scope(chain, variables)?;
        let mut success = false;
        for application in &chain.applications {
            // What a test works on goes to no tree above it.
            success = self.apply(application, &mut scope, variables, Purpose::Test, 0)?;
            if success {
                break;
            }
        }
        self.live -= scope.size();
        Ok(success)
    }

    /// Works a replacement, pair by pair. The tree is live when it is done.
    fn construct(&mut self, replacement: &Replacement, variables: &[Tree]) -> Result<Tree, Stop> {
        let mut pieces = Vec::with_capacity(replacement.len());
        let mut size = 0;
        for item in replacement {
            pieces.push(match item {
                ReplacementItem::Node { ty, value } => {
                    size = grown(size, 1)?;
                    self.hold(1)?;
                    let (ty, value) = (*ty, *value);
                    Piece::Node { ty, value }
                }
                ReplacementItem::Copy(variable) => {
                    let tree = &variables[*variable];
                    size = grown(size, tree.size())?;
                    self.hold(tree.size())?;
                    Piece::Whole(tree.clone())
                }
                ReplacementItem::Chain(chain) => {
                    let mut scope = self.copy_scope(chain, variables)?;
                    for application in &chain.applications {
                        self.apply(application, &mut scope, variables, Purpose::Rewrite, size)?;
                    }
                    // Moved to the tree above, the scope stays live.
                    size = grown(size, scope.size())?;
                    Piece::Whole(scope)
                }
            });
        }
        let tree = Tree::assemble(self.grammar, pieces);
        if tree.height() > limits::NESTING {
            return Err(Stop::NestsTooDeep);
        }
        Ok(tree)
    }

    /// The copy of a variable's tree on which a chain acts, a tree of its own
    /// until it is moved.
    fn copy_scope(&mut self, chain: &Chain, variables: &[Tree]) -> Result<Tree, Stop> {
        let tree = &variables[chain.variable];
        self.hold(tree.size())?;
        Ok(tree.clone())
    }

    /// Applies a rule or operation to a scope that is to be moved to a tree
    /// with `above` nodes so far. Says whether it succeeded.
    fn apply(
        &mut self,
        application: &Application,
        scope: &mut Tree,
        variables: &[Tree],
        purpose: Purpose,
        above: usize,
    ) -> Result<bool, Stop> {
        let arguments = application.arguments.iter().map(|&v| &variables[v]);
        match application.applied {
            Applied::Rule(rule) => {
                let arguments = arguments.cloned().collect();
                self.call(rule, scope, arguments, purpose)
            }
            Applied::Operation(operation) => {
                let argument = arguments.map(Tree::value).next();
                let value = operate(operation, scope.value(), argument.unwrap_or(0))?;
                scope.set_value(value);
                Ok(true)
            }
            Applied::Comparison(comparison) => {
                let argument = arguments.map(Tree::value).next().unwrap_or(0);
                Ok(match comparison {
                    Comparison::Equal => scope.value() == argument,
                    Comparison::Greater => scope.value() > argument,
                })
            }
            Applied::SequenceOperation(operation) => {
                let arguments: Vec<&Tree> = arguments.collect();
                let result = sequence::operate(self.grammar, operation, scope, &arguments);
                self.take_place_of(scope, result, above)?;
                Ok(true)
            }
        }
    }

    /// Lets the result of a sequence operation take its scope's place. This is
    /// one step, in which the lowest number stops: 42 over all that the
    /// replacement has so far, 43 over the result alone.
    fn take_place_of(&mut self, scope: &mut Tree, result: Tree, above: usize) -> Result<(), Stop> {
        grown(above, result.size())?;
        if result.height() > limits::NESTING {
            return Err(Stop::NestsTooDeep);
        }
        // The scope goes as the result comes: they are never live together.
        self.live -= scope.size();
        self.hold(result.size())?;
        *scope = result;
        Ok(())
    }

    /// Puts a replacement, which is live, in the place of the match.
    fn put_in_place(&mut self, scope: &mut Tree, position: usize, new: Tree) -> Result<(), Stop> {
        let (replaced, nesting) = scope.find(position);
        let replaced = replaced.size();
        if scope.size() - replaced + new.size() > limits::NODES {
            return Err(Stop::TooManyNodes);
        }
        // All else in the scope was within the limit before.
        if nesting - 1 + new.height() > limits::NESTING {
            return Err(Stop::NestsTooDeep);
        }
        scope.replace_at(position, new);
        self.live -= replaced;
        // While only the first call is open, the replacement is its own.
        if self.calls == 1 {
            self.replacements += 1;
        }
        Ok(())
    }

    /// Makes that many nodes more live.
    fn hold(&mut self, nodes: usize) -> Result<(), Stop> {
        if self.live + nodes > limits::LIVE_NODES {
            return Err(Stop::TooManyLiveNodes);
        }
        self.live += nodes;
        Ok(())
    }

    /// Lets go of the variables from a number on.
    fn release_from(&mut self, number: usize, variables: &mut Vec<Tree>) {
        for tree in variables.drain(number..) {
            self.live -= tree.size();
        }
    }
}

/// The size of a tree under way when that many nodes are added.
fn grown(size: usize, nodes: usize) -> Result<usize, Stop> {
    if size + nodes > limits::NODES {
        Err(Stop::TooManyNodes)
    } else {
        Ok(size + nodes)
    }
}

/// The result of an operation on numbers, all in hundredths. A sum or product
/// may pass 2^32, so it is worked in u64 and judged once, at the end.
fn operate(operation: Operation, scope: u32, argument: u32) -> Result<u32, Stop> {
    let (scope, argument) = (u64::from(scope), u64::from(argument));
    let result = match operation {
        Operation::Add => Some(scope + argument),
        Operation::Subtract => scope.checked_sub(argument),
        Operation::Quotient => scope.checked_div(argument).map(|whole| whole * 100),
        Operation::Remainder => scope.checked_rem(argument),
        Operation::Round => Some(round_half_even(scope, 100) * 100),
        Operation::Truncate => Some(scope / 100 * 100),
    };
    match result.and_then(|result| u32::try_from(result).ok()) {
        Some(result) if result <= limits::NUMBER_VALUE => Ok(result),
        _ => Err(Stop::OutOfRange),
    }
}

/// The whole number nearest to `number / divisor`; an exact half is rounded
/// to the even whole number (T-01). The divisor is not 0.
pub fn round_half_even(number: u64, divisor: u64) -> u64 {
    let below = number / divisor;
    let past_below = number % divisor;
    match past_below.cmp(&(divisor - past_below)) {
        Ordering::Less => below,
        Ordering::Equal if below.is_multiple_of(2) => below,
        Ordering::Equal | Ordering::Greater => below + 1,
    }
}
