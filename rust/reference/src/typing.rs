//! The typing of the rules (refusals 22 to 24), which turns their layout into
//! the program that is run.

use crate::grammar::{Grammar, OpenPlaces, Place, TypeNumber};
use crate::limits;
use crate::rules::{Pairs, PartKind, PartLayout, Reach, RuleLayout};
use crate::Refusal;

/// The number of a variable in its rule.
pub type VariableNumber = usize;

/// Rules that fit their grammar. Rule 0 is the main rule.
#[derive(Clone, Debug)]
pub struct Program {
    pub rules: Vec<Rule>,
}

/// One rule.
#[derive(Clone, Debug)]
pub struct Rule {
    pub target: TypeNumber,
    pub reach: Reach,
    pub pattern: Pattern,
    pub parts: Vec<Part>,
    /// A rule without a replacement is a condition.
    pub replacement: Option<Replacement>,
}

/// A pattern, its items in prefix order.
pub type Pattern = Vec<PatternItem>;

/// One item of a pattern.
#[derive(Clone, Copy, Debug)]
pub enum PatternItem {
    /// A node with this value; its type is the one due at its place.
    Node { value: u32 },
    /// A new variable, which gets the next number of its rule.
    NewVariable,
    /// A variable that is there already, matching only the same tree, and with
    /// T-05 none that holds an empty name or string.
    SameAs(VariableNumber),
}

/// A replacement, its items in prefix order.
pub type Replacement = Vec<ReplacementItem>;

/// One item of a replacement.
#[derive(Clone, Debug)]
pub enum ReplacementItem {
    Node { ty: TypeNumber, value: u32 },
    Copy(VariableNumber),
    Chain(Chain),
}

/// An application chain, the paper's "group": a copy of the variable's tree,
/// and applications that act on it one after the other.
#[derive(Clone, Debug)]
pub struct Chain {
    pub variable: VariableNumber,
    pub applications: Vec<Application>,
}

/// One application of a rule or operation.
#[derive(Clone, Debug)]
pub struct Application {
    pub applied: Applied,
    pub arguments: Vec<VariableNumber>,
}

/// What is applied.
#[derive(Clone, Copy, Debug, PartialEq, Eq)]
pub enum Applied {
    Rule(usize),
    Operation(Operation),
    Comparison(Comparison),
    SequenceOperation(SequenceOperation),
}

/// The operations that change a number, 1,000 to 1,005.
#[derive(Clone, Copy, Debug, PartialEq, Eq)]
pub enum Operation {
    Add,
    Subtract,
    Quotient,
    Remainder,
    Round,
    Truncate,
}

/// The operations that compare numbers in a condition, 1,008 and 1,009.
#[derive(Clone, Copy, Debug, PartialEq, Eq)]
pub enum Comparison {
    Equal,
    Greater,
}

/// The operations on sequences of T-04, 1,010 to 1,015.
#[derive(Clone, Copy, Debug, PartialEq, Eq)]
pub enum SequenceOperation {
    Join,
    Select,
    Head,
    Tail,
    /// Its scope is a number, only its argument is a sequence.
    Length,
    Extract,
}

/// One part of a rule.
#[derive(Clone, Debug)]
pub enum Part {
    /// The paper's "take apart".
    Deconstruct {
        variable: VariableNumber,
        /// The type whose nodes are tried, if the part searches.
        searched: Option<TypeNumber>,
        pattern: Pattern,
    },
    /// The paper's "build".
    Construct { replacement: Replacement },
    /// The paper's "test"; negated with bit 4.
    Condition { negated: bool, chain: Chain },
}

/// Types all rules.
pub fn check(grammar: &Grammar, layout: &[RuleLayout]) -> Result<Program, Refusal> {
    let rules = (0..layout.len())
        .map(|number| {
            RuleTyping {
                grammar,
                layout,
                variables: layout[number].parameters.clone(),
            }
            .rule(number)
        })
        .collect::<Result<_, _>>()?;
    Ok(Program { rules })
}

/// Where a chain stands, which decides what it may apply.
#[derive(Clone, Copy, PartialEq, Eq)]
enum ChainUse {
    Replacement,
    Condition,
}

/// One pair with its position.
#[derive(Clone, Copy)]
struct Pair {
    position: usize,
    first: u32,
    second: u32,
}

impl Pair {
    const NEW_VARIABLE: u32 = 64;
    const VARIABLE: u32 = 65;
    const CHAIN: u32 = 66;

    fn refuse_first<T>(&self, number: u32) -> Result<T, Refusal> {
        Err(Refusal::new(number, self.position))
    }

    fn refuse_second<T>(&self, number: u32) -> Result<T, Refusal> {
        Err(Refusal::new(number, self.position + 1))
    }
}

/// Reads the pairs of one pattern or replacement.
struct PairReader<'a> {
    pairs: Pairs<'a>,
    read: usize,
}

impl<'a> PairReader<'a> {
    fn new(pairs: Pairs<'a>) -> Self {
        PairReader { pairs, read: 0 }
    }

    /// The next pair, or 23 at the word after the last if the pairs are short.
    fn pair(&mut self) -> Result<Pair, Refusal> {
        let position = self.pairs.position + self.read;
        let Some(&[first, second]) = self.pairs.words.get(self.read..self.read + 2) else {
            return Err(Refusal::new(23, position));
        };
        self.read += 2;
        Ok(Pair {
            position,
            first,
            second,
        })
    }

    /// Says that the tree is complete; pairs over are refused.
    fn finish(&self) -> Result<(), Refusal> {
        if self.read < self.pairs.words.len() {
            Err(Refusal::new(23, self.pairs.position + self.read))
        } else {
            Ok(())
        }
    }
}

/// The typing of one rule.
struct RuleTyping<'a> {
    grammar: &'a Grammar,
    layout: &'a [RuleLayout<'a>],
    /// The types of the variables that are there so far.
    variables: Vec<TypeNumber>,
}

impl RuleTyping<'_> {
    fn rule(mut self, number: usize) -> Result<Rule, Refusal> {
        let rule = &self.layout[number];
        // The main rule's scope has type 0 and, without reach, is all it tries.
        if number == 0 && rule.reach == Reach::RootOnly && rule.target != 0 {
            return Err(Refusal::new(23, rule.target_position));
        }
        let pattern = self.pattern(rule.pattern, rule.target)?;
        let mut parts = Vec::new();
        for part in &rule.parts {
            parts.push(self.part(part)?);
        }
        let replacement = match rule.replacement {
            Some(pairs) => Some(self.replacement(pairs, rule.target)?),
            None => None,
        };
        Ok(Rule {
            target: rule.target,
            reach: rule.reach,
            pattern,
            parts,
            replacement,
        })
    }

    fn part(&mut self, part: &PartLayout) -> Result<Part, Refusal> {
        match part.kind {
            PartKind::Deconstruct {
                searched,
                variable,
                variable_position,
                pattern,
            } => {
                let Some(&own_type) = self.variables.get(variable as usize) else {
                    return Err(Refusal::new(22, variable_position));
                };
                Ok(Part::Deconstruct {
                    variable: variable as usize,
                    searched,
                    pattern: self.pattern(pattern, searched.unwrap_or(own_type))?,
                })
            }
            PartKind::Construct { ty, replacement } => {
                if self.variables.len() == limits::VARIABLES {
                    return Err(Refusal::new(24, part.map_position));
                }
                let replacement = self.replacement(replacement, ty)?;
                // Only now is the variable there: not in its own replacement.
                self.variables.push(ty);
                Ok(Part::Construct { replacement })
            }
            PartKind::Condition { negated, chain } => {
                let mut pairs = PairReader::new(chain);
                let pair = pairs.pair()?;
                if pair.first != Pair::CHAIN {
                    return pair.refuse_first(23);
                }
                let chain = self.chain(&mut pairs, pair, None, ChainUse::Condition)?;
                pairs.finish()?;
                Ok(Part::Condition { negated, chain })
            }
        }
    }

    fn pattern(&mut self, pairs: Pairs, due: TypeNumber) -> Result<Pattern, Refusal> {
        let mut pairs = PairReader::new(pairs);
        let mut places = OpenPlaces::new(self.grammar, due);
        let mut pattern = Vec::new();
        while let Some(place) = places.next_place() {
            let pair = pairs.pair()?;
            let special = [Pair::NEW_VARIABLE, Pair::VARIABLE];
            self.check_kind_and_nesting(pair, place, &special)?;
            pattern.push(match pair.first {
                Pair::NEW_VARIABLE => {
                    if pair.second != place.ty {
                        return pair.refuse_second(23);
                    }
                    if self.variables.len() == limits::VARIABLES {
                        return pair.refuse_second(24);
                    }
                    self.variables.push(place.ty);
                    PatternItem::NewVariable
                }
                Pair::VARIABLE => PatternItem::SameAs(self.variable_of(pair, |ty| ty == place.ty)?),
                _ => {
                    if !places.fill_with_node(place, pair.second) {
                        return pair.refuse_second(23);
                    }
                    PatternItem::Node { value: pair.second }
                }
            });
        }
        pairs.finish()?;
        Ok(pattern)
    }

    fn replacement(&self, pairs: Pairs, due: TypeNumber) -> Result<Replacement, Refusal> {
        let mut pairs = PairReader::new(pairs);
        let mut places = OpenPlaces::new(self.grammar, due);
        let mut replacement = Vec::new();
        while let Some(place) = places.next_place() {
            let pair = pairs.pair()?;
            let special = [Pair::VARIABLE, Pair::CHAIN];
            self.check_kind_and_nesting(pair, place, &special)?;
            replacement.push(match pair.first {
                Pair::VARIABLE => {
                    ReplacementItem::Copy(self.variable_of(pair, |ty| ty == place.ty)?)
                }
                Pair::CHAIN => {
                    let due = Some(place.ty);
                    let chain = self.chain(&mut pairs, pair, due, ChainUse::Replacement)?;
                    ReplacementItem::Chain(chain)
                }
                ty => {
                    if !places.fill_with_node(place, pair.second) {
                        return pair.refuse_second(23);
                    }
                    let value = pair.second;
                    ReplacementItem::Node { ty, value }
                }
            });
        }
        pairs.finish()?;
        Ok(replacement)
    }

    /// The first word of a pair at a place of a tree: the type due there or
    /// one of the special kinds, and not nested too deep.
    fn check_kind_and_nesting(
        &self,
        pair: Pair,
        place: Place,
        special: &[u32],
    ) -> Result<(), Refusal> {
        if pair.first != place.ty && !special.contains(&pair.first) {
            return pair.refuse_first(23);
        }
        if place.nesting > limits::NESTING {
            return pair.refuse_first(24);
        }
        Ok(())
    }

    /// The variable that a pair names, which must be there with a type that
    /// fits.
    fn variable_of(
        &self,
        pair: Pair,
        fits: impl Fn(TypeNumber) -> bool,
    ) -> Result<VariableNumber, Refusal> {
        let variable = pair.second as usize;
        match self.variables.get(variable) {
            None => pair.refuse_second(22),
            Some(&ty) if !fits(ty) => pair.refuse_second(23),
            Some(_) => Ok(variable),
        }
    }

    /// A chain, of which the first pair is read already.
    fn chain(
        &self,
        pairs: &mut PairReader,
        first: Pair,
        due: Option<TypeNumber>,
        chain_use: ChainUse,
    ) -> Result<Chain, Refusal> {
        let variable = self.variable_of(first, |ty| due.is_none_or(|due| ty == due))?;
        let scope = self.variables[variable];
        let length = pairs.pair()?;
        if !(1..=limits::APPLICATIONS).contains(&length.first) {
            return length.refuse_first(23);
        }
        if length.second != 0 {
            return length.refuse_second(23);
        }
        let applications = (0..length.first)
            .map(|_| self.application(pairs, scope, chain_use))
            .collect::<Result<_, _>>()?;
        Ok(Chain {
            variable,
            applications,
        })
    }

    fn application(
        &self,
        pairs: &mut PairReader,
        scope: TypeNumber,
        chain_use: ChainUse,
    ) -> Result<Application, Refusal> {
        let pair = pairs.pair()?;
        let Some(applied) = self.applied(pair.first, scope, chain_use) else {
            return pair.refuse_first(22);
        };
        let parameters = self.parameters(applied, scope);
        if pair.second as usize != parameters.len() {
            return pair.refuse_second(22);
        }
        let mut arguments = Vec::new();
        for parameter in parameters {
            let pair = pairs.pair()?;
            if pair.first != Pair::VARIABLE {
                return pair.refuse_first(23);
            }
            arguments.push(self.variable_of(pair, |ty| self.fits(ty, parameter))?);
        }
        Ok(Application { applied, arguments })
    }

    /// The rule or operation with a number, if it is there and usable here
    /// and on a scope of this type.
    fn applied(&self, number: u32, scope: TypeNumber, chain_use: ChainUse) -> Option<Applied> {
        if let Some(rule) = self.layout.get(number as usize) {
            let usable_here = chain_use == ChainUse::Condition || rule.replacement.is_some();
            let usable_on_scope = rule.reach != Reach::RootOnly || rule.target == scope;
            return (usable_here && usable_on_scope).then_some(Applied::Rule(number as usize));
        }
        let applied = operation(number)?;
        let wanted_use = match applied {
            Applied::Comparison(_) => ChainUse::Condition,
            _ => ChainUse::Replacement,
        };
        (chain_use == wanted_use && self.works_on(applied, scope)).then_some(applied)
    }

    /// Whether an operation works on scopes of this type.
    fn works_on(&self, operation: Applied, scope: TypeNumber) -> bool {
        match operation {
            Applied::SequenceOperation(operation) if operation != SequenceOperation::Length => {
                self.grammar.element(scope).is_some()
            }
            _ => self.grammar.is_number(scope),
        }
    }

    /// What the arguments must be of a rule or operation on this scope.
    fn parameters(&self, applied: Applied, scope: TypeNumber) -> Vec<Parameter> {
        match applied {
            Applied::Rule(rule) => {
                let types = self.layout[rule].parameters.iter();
                types.copied().map(Parameter::Type).collect()
            }
            Applied::Operation(Operation::Round | Operation::Truncate) => vec![],
            Applied::Operation(_) | Applied::Comparison(_) => vec![Parameter::AnyNumber],
            Applied::SequenceOperation(operation) => match operation {
                SequenceOperation::Join => vec![Parameter::SameOrElement(scope)],
                SequenceOperation::Select => vec![Parameter::AnyNumber; 2],
                SequenceOperation::Head | SequenceOperation::Tail => vec![Parameter::AnyNumber],
                SequenceOperation::Length => vec![Parameter::AnySequence],
                SequenceOperation::Extract => vec![Parameter::Any],
            },
        }
    }

    /// Whether an argument of this type can stand for a parameter.
    fn fits(&self, ty: TypeNumber, parameter: Parameter) -> bool {
        match parameter {
            Parameter::Type(parameter) => ty == parameter,
            Parameter::AnyNumber => self.grammar.is_number(ty),
            Parameter::AnySequence => self.grammar.element(ty).is_some(),
            Parameter::SameOrElement(sequence) => {
                ty == sequence || self.grammar.element(sequence) == Some(ty)
            }
            Parameter::Any => true,
        }
    }
}

/// What an argument must be.
#[derive(Clone, Copy)]
enum Parameter {
    Type(TypeNumber),
    AnyNumber,
    AnySequence,
    /// A tree of the very type of this sequence, or one of its elements.
    SameOrElement(TypeNumber),
    Any,
}

/// The operation with a number, if there is one.
fn operation(number: u32) -> Option<Applied> {
    Some(match number {
        1_000 => Operation::Add.into(),
        1_001 => Operation::Subtract.into(),
        1_002 => Operation::Quotient.into(),
        1_003 => Operation::Remainder.into(),
        1_004 => Operation::Round.into(),
        1_005 => Operation::Truncate.into(),
        1_008 => Comparison::Equal.into(),
        1_009 => Comparison::Greater.into(),
        1_010 => SequenceOperation::Join.into(),
        1_011 => SequenceOperation::Select.into(),
        1_012 => SequenceOperation::Head.into(),
        1_013 => SequenceOperation::Tail.into(),
        1_014 => SequenceOperation::Length.into(),
        1_015 => SequenceOperation::Extract.into(),
        _ => return None,
    })
}

impl From<Operation> for Applied {
    fn from(operation: Operation) -> Applied {
        Applied::Operation(operation)
    }
}

impl From<Comparison> for Applied {
    fn from(comparison: Comparison) -> Applied {
        Applied::Comparison(comparison)
    }
}

impl From<SequenceOperation> for Applied {
    fn from(operation: SequenceOperation) -> Applied {
        Applied::SequenceOperation(operation)
    }
}
