//! Inputs that nest: calls in each way, and trees.

use generate::{slip_of, Input};

/// The calls that may be open at once, the main rule's among them.
pub const MOST_CALLS: usize = 32;
/// The nesting that a tree may have.
pub const MOST_NESTING: usize = 64;

/// The types that a grammar may have, the forms that a type may have, and the map
/// of a type with forms.
const MOST_TYPES: u32 = 64;
const MOST_FORMS: u32 = 16;
const FORMS: u32 = 8;

/// Enough for every run here, and far from the greatest budget.
const BUDGET: u32 = 100_000;
/// The paper's grammar: a program of a sequence of numbers.
const NUMBERS: [u32; 9] = [3, 8, 1, 1, 1, 4, 2, 1, 2];
const SEQUENCE: u32 = 1;
const NUMBER: u32 = 2;
/// The number that the main rule looks for, the slip's last.
const SOUGHT: u32 = 4_711;

/// How a rule calls the next one.
#[derive(Clone, Copy, Debug, PartialEq, Eq)]
pub enum Way {
    Construct,
    Replacement,
    Condition,
}

/// What the last rule does, which calls none.
#[derive(Clone, Copy, Debug, PartialEq, Eq)]
pub enum Last {
    Fails,
    Copies,
    Constructs,
    ConstructsBySum,
    ReplacesBySum,
    Deconstructs,
    Searches,
    Compares,
    Joins,
    JoinsElement,
    Selects,
    Counts,
    Extracts,
}

impl Last {
    pub const ALL: [Last; 13] = [
        Last::Fails,
        Last::Copies,
        Last::Constructs,
        Last::ConstructsBySum,
        Last::ReplacesBySum,
        Last::Deconstructs,
        Last::Searches,
        Last::Compares,
        Last::Joins,
        Last::JoinsElement,
        Last::Selects,
        Last::Counts,
        Last::Extracts,
    ];
}

/// A chain of rules, each calling the next: the main rule the first, by the
/// first way, with so many arguments. One more call is open at the end than
/// there are ways.
#[derive(Clone, Debug)]
pub struct Chain {
    pub ways: Vec<Way>,
    pub arguments: usize,
    pub last: Last,
    /// The main rule's reach: 1 for one replacement, 2 for as many as the budget
    /// allows.
    pub reach: u32,
}

impl Chain {
    /// A chain of so many calls that uses the ways in turn.
    pub fn in_turn(calls: usize, ways: &[Way], arguments: usize, last: Last) -> Chain {
        Chain {
            ways: ways.iter().copied().cycle().take(calls - 1).collect(),
            arguments,
            last,
            reach: 1,
        }
    }

    /// The run of this chain on a slip of so many nodes, an even number.
    pub fn on_slip_of(&self, nodes: usize) -> Input {
        Input {
            grammar: NUMBERS.to_vec(),
            rules: self.rules(),
            slip: slip(nodes),
            budget: BUDGET,
        }
    }

    fn rules(&self) -> Vec<u32> {
        let mut words = vec![self.ways.len() as u32 + 1];
        for (number, way) in self.ways.iter().enumerate() {
            let (parts, replacement) = self.call_of(number, *way);
            words.extend(self.rule(number, &parts, &replacement));
        }
        words.extend(self.last_rule());
        words
    }

    /// The number of the variable that a rule's pattern binds: after its
    /// parameters, of which the main rule has none.
    fn bound(&self, rule: usize) -> u32 {
        match rule {
            0 => 0,
            _ => self.arguments as u32,
        }
    }

    /// A rule of these parts. The main rule looks for the number sought, so
    /// that its search passes over the whole slip.
    fn rule(&self, number: usize, parts: &[Vec<u32>], replacement: &[u32]) -> Vec<u32> {
        let pattern = [1, 64, NUMBER];
        let mut parts = parts.to_vec();
        let head = match (number, self.arguments) {
            (0, _) => {
                parts.insert(0, vec![1, 0, 1, NUMBER, SOUGHT]);
                vec![1 + 4 + 8, NUMBER, self.reach]
            }
            (_, 0) => vec![4 + 8, NUMBER],
            (_, count) => {
                let types = vec![NUMBER; count];
                [vec![2 + 4 + 8, NUMBER, count as u32], types].concat()
            }
        };
        // A rule must have a part where its map says so.
        if parts.is_empty() {
            parts.push(vec![1, self.bound(number), 1, NUMBER, SOUGHT]);
        }
        let count = vec![parts.len() as u32];
        [
            head,
            pattern.to_vec(),
            count,
            parts.concat(),
            replacement.to_vec(),
        ]
        .concat()
    }

    /// The parts and the replacement of a rule that calls the next one.
    fn call_of(&self, rule: usize, way: Way) -> (Vec<Vec<u32>>, Vec<u32>) {
        let bound = self.bound(rule);
        let chain = application(bound, rule as u32 + 1, self.arguments);
        let copy = vec![1, 65, bound];
        match way {
            Way::Construct => (vec![[&[4, NUMBER][..], &chain].concat()], copy),
            Way::Condition => (vec![[&[8][..], &chain].concat()], copy),
            Way::Replacement => (vec![], chain),
        }
    }

    fn last_rule(&self) -> Vec<u32> {
        let number = self.ways.len();
        let bound = self.bound(number);
        let sum = application(bound, 1_000, 1);
        let copy = vec![1, 65, bound];
        let (parts, replacement) = match self.last {
            Last::Fails => (vec![vec![1, bound, 1, NUMBER, SOUGHT + 1]], copy),
            Last::Copies => (vec![], copy),
            Last::Constructs => (vec![vec![4, NUMBER, 1, NUMBER, 1]], copy),
            Last::ConstructsBySum => (vec![[vec![4, NUMBER], sum].concat()], copy),
            Last::ReplacesBySum => (vec![], sum),
            Last::Deconstructs => (vec![vec![1, bound, 1, NUMBER, SOUGHT]], copy),
            Last::Searches => (vec![vec![3, NUMBER, bound, 1, NUMBER, SOUGHT]], copy),
            Last::Compares => (vec![[vec![8], application(bound, 1_008, 1)].concat()], copy),
            Last::Joins => (edited(bound, 1_010, &[bound + 1]), copy),
            Last::JoinsElement => (edited(bound, 1_010, &[bound]), copy),
            Last::Selects => (edited(bound, 1_011, &[bound, bound]), copy),
            Last::Extracts => (edited(bound, 1_015, &[bound]), copy),
            Last::Counts => {
                let length = applied_to(bound, 1_014, &[bound + 1]);
                let parts = vec![one_number(bound), [vec![4, NUMBER], length].concat()];
                (parts, copy)
            }
        };
        self.rule(number, &parts, &replacement)
    }
}

/// A construct of the sequence of the bound number alone, the variable behind it.
fn one_number(bound: u32) -> Vec<u32> {
    vec![4, SEQUENCE, 3, SEQUENCE, 0, 65, bound, SEQUENCE, 1]
}

/// Constructs of that sequence, and of what an operation makes of it.
fn edited(bound: u32, operation: u32, arguments: &[u32]) -> Vec<Vec<u32>> {
    let chain = applied_to(bound + 1, operation, arguments);
    vec![one_number(bound), [vec![4, SEQUENCE], chain].concat()]
}

/// A replacement that is one application to a variable, which is also each of
/// the arguments.
fn application(variable: u32, applied: u32, arguments: usize) -> Vec<u32> {
    applied_to(variable, applied, &vec![variable; arguments])
}

/// A replacement that is one application to a variable, with these as arguments.
fn applied_to(variable: u32, applied: u32, arguments: &[u32]) -> Vec<u32> {
    let count = arguments.len() as u32;
    let mut words = vec![3 + count, 66, variable, 1, 0, applied, count];
    for argument in arguments {
        words.extend([65, *argument]);
    }
    words
}

/// A slip of so many nodes, an even number, whose last number is the one sought.
fn slip(nodes: usize) -> Vec<u32> {
    assert!(
        nodes.is_multiple_of(2) && nodes >= 4,
        "two nodes a number, and two"
    );
    let others = (nodes - 4) / 2;
    let mut tree = vec![0, 0];
    tree.extend([1, 0, NUMBER, 100].repeat(others));
    tree.extend([1, 0, NUMBER, SOUGHT, 1, 1]);
    slip_of(&NUMBERS, &tree)
}

/// A run on a slip of this nesting, at least 2, that is long: its deepest sequence
/// has so many elements, none of which has any.
pub fn long_slip(nesting: usize, elements: usize) -> Input {
    let around = nesting - 2;
    let deepest = [[0, 0, 0, 1].repeat(elements), vec![0, 1]].concat();
    let tree = [[0, 0].repeat(around), deepest, [0, 1].repeat(around)].concat();
    let input = Nest::Sequence.input(nesting);
    Input {
        slip: slip_of(&input.grammar, &tree),
        ..input
    }
}

/// The table that maps each type and each form of a grammar to itself. Of words
/// that are no grammar it is some table.
pub fn table_to_itself(grammar: &[u32]) -> Vec<u32> {
    let word = |at: usize| grammar.get(at).copied().unwrap_or(0);
    let mut table = Vec::new();
    let mut at = 1;
    for ty in 0..word(0).min(MOST_TYPES) {
        table.push(ty);
        let (map, count) = (word(at), word(at + 1));
        at += 2;
        if map == FORMS {
            for form in 0..count.min(MOST_FORMS) {
                table.push(form);
                at += 1 + word(at) as usize;
            }
        }
    }
    table
}

/// How a tree nests in itself.
#[derive(Clone, Copy, Debug, PartialEq, Eq)]
pub enum Nest {
    Forms,
    Optional,
    Sequence,
    InTurn,
}

impl Nest {
    pub const ALL: [Nest; 4] = [Nest::Forms, Nest::Optional, Nest::Sequence, Nest::InTurn];

    /// A run on a slip of this nesting, by a rule that replaces it by itself.
    pub fn input(self, nesting: usize) -> Input {
        let grammar = self.grammar();
        Input {
            slip: slip_of(&grammar, &self.tree(nesting)),
            grammar,
            rules: vec![1, 8, 0, 1, 64, 0, 1, 65, 0],
            budget: BUDGET,
        }
    }

    fn grammar(self) -> Vec<u32> {
        match self {
            Nest::Forms => vec![1, 8, 2, 1, 0, 0],
            Nest::Optional => vec![1, 2, 0],
            Nest::Sequence => vec![1, 4, 0],
            Nest::InTurn => vec![3, 8, 2, 1, 1, 0, 2, 2, 4, 0],
        }
    }

    /// Goes down so far and then ends each sequence on the way back.
    fn tree(self, nesting: usize) -> Vec<u32> {
        let types = match self {
            Nest::InTurn => 3,
            _ => 1,
        };
        let mut down = Vec::new();
        let mut back = Vec::new();
        for level in 0..nesting as u32 {
            let ty = level % types;
            let is_last = level + 1 == nesting as u32;
            down.extend([ty, u32::from(is_last)]);
            let is_sequence = self == Nest::Sequence || (self == Nest::InTurn && ty == 2);
            if is_sequence && !is_last {
                back.extend([ty, 1]);
            }
        }
        [down, back].concat()
    }
}
