//! What the tests share: the paper's bench example and short ways to write
//! other inputs.
#![allow(dead_code)]

use reference::bench::{self, Input};

/// The paper's grammar: a program of a sequence of numbers.
pub const GRAMMAR: &[u32] = &[3, 8, 1, 1, 1, 4, 2, 1, 2];
/// The paper's rules: every 2.00 becomes 42.00.
pub const RULES: &[u32] = &[1, 9, 2, 2, 1, 2, 200, 1, 2, 4200];
/// The paper's tree, two words a node: 2.00, 5.00.
pub const TREE: &[u32] = &[0, 0, 1, 0, 2, 200, 1, 0, 2, 500, 1, 1];
/// The same as T-07's slip, three words a node.
pub const SLIP: &[u32] = &[0, 0, 6, 1, 0, 5, 2, 200, 1, 1, 0, 3, 2, 500, 1, 1, 1, 1];

/// What the bench prints for an input, without the last line end.
pub fn bench_slip(budget: u32, grammar: &[u32], rules: &[u32], slip: &[u32]) -> String {
    let input = Input {
        budget,
        grammar: grammar.to_vec(),
        rules: rules.to_vec(),
        slip: slip.to_vec(),
    };
    let text = bench::answer(bench::write(&input).as_bytes());
    text.strip_suffix('\n').expect("a line end").to_string()
}

/// What the bench prints for the slip of a tree that fits its grammar.
pub fn bench(budget: u32, grammar: &[u32], rules: &[u32], tree: &[u32]) -> String {
    bench_slip(budget, grammar, rules, &slip(grammar, tree))
}

/// What is printed for an ending with this tree.
pub fn ended(grammar: &[u32], ending: &str, tree: &[u32]) -> String {
    let slip = slip(grammar, tree);
    let words: Vec<String> = slip.iter().map(u32::to_string).collect();
    format!("{ending} {}\n{}", words.len(), words.join(" "))
}

/// The slip of a tree that is written two words a node. A node's count is found
/// by going on from it to where no node of its tree is owed any more.
pub fn slip(grammar: &[u32], tree: &[u32]) -> Vec<u32> {
    let children: Vec<usize> = tree
        .chunks_exact(2)
        .map(|node| children_of(grammar, node[0], node[1]))
        .collect();
    let count = |first: usize| {
        let (mut owed, mut nodes) = (1, 0);
        while owed > 0 {
            owed += children[first + nodes];
            owed -= 1;
            nodes += 1;
        }
        nodes as u32
    };
    let nodes = tree.chunks_exact(2).enumerate();
    nodes
        .flat_map(|(index, node)| [node[0], node[1], count(index)])
        .collect()
}

/// The number of a node's children, by the words of the grammar. Each record is
/// passed over up to that of the node's type.
fn children_of(grammar: &[u32], ty: u32, value: u32) -> usize {
    let mut record = &grammar[1..];
    for _ in 0..ty {
        let fields = match record[0] {
            8 => forms(record).iter().map(|form| form.len()).sum::<usize>() + 1,
            _ => 1,
        };
        record = &record[1 + fields..];
    }
    match (record[0], value) {
        (1, _) => 0,
        (2, 0) => 1,
        (4 | 16, 0) => 2,
        (2 | 4 | 16, 1) => 0,
        (8, _) => {
            let elements = &forms(record)[value as usize][1..];
            elements.iter().filter(|&&element| element < 64).count()
        }
        (map, _) => panic!("map {map} with value {value}"),
    }
}

/// The forms of a record of map 8, each with its count of elements in front.
fn forms(record: &[u32]) -> Vec<&[u32]> {
    let mut later = &record[2..];
    let mut forms = Vec::new();
    for _ in 0..record[1] {
        let (form, behind) = later.split_at(1 + later[0] as usize);
        forms.push(form);
        later = behind;
    }
    forms
}

/// The first line of what the bench prints.
pub fn first_line(budget: u32, grammar: &[u32], rules: &[u32], tree: &[u32]) -> String {
    let text = bench(budget, grammar, rules, tree);
    text.lines().next().unwrap_or_default().to_string()
}

/// A tree of the paper's grammar with these numbers: 2 x numbers + 2 nodes, two
/// words each, as in all trees of these tests.
/// It is no list in the sense of T-04, but fits that kind of sequence as well.
pub fn list(numbers: &[u32]) -> Vec<u32> {
    [vec![0, 0], sequence(numbers)].concat()
}

/// The words of a sequence (type 1) of numbers (type 2).
pub fn sequence(numbers: &[u32]) -> Vec<u32> {
    let mut words: Vec<u32> = numbers.iter().flat_map(|&n| [1, 0, 2, n]).collect();
    words.extend([1, 1]);
    words
}

/// A list of that many nodes (an even number), all numbers 5.
pub fn list_of_nodes(nodes: usize) -> Vec<u32> {
    assert_eq!(nodes % 2, 0);
    let list = list(&vec![5; nodes / 2 - 1]);
    assert_eq!(list.len(), 2 * nodes);
    list
}

/// The words of a sequence of any type with these elements.
pub fn sequence_of(ty: u32, elements: &[Vec<u32>]) -> Vec<u32> {
    let mut words = Vec::new();
    for element in elements {
        words.extend([ty, 0]);
        words.extend(element);
    }
    words.extend([ty, 1]);
    words
}

/// The operations on sequences of T-04.
pub const JOIN: u32 = 1_010;
pub const SELECT: u32 = 1_011;
pub const HEAD: u32 = 1_012;
pub const TAIL: u32 = 1_013;
pub const LENGTH: u32 = 1_014;
pub const EXTRACT: u32 = 1_015;

/// The pairs of an application chain on a variable.
pub fn chain(variable: u32, applications: &[Vec<(u32, u32)>]) -> Vec<(u32, u32)> {
    let mut pairs = vec![(66, variable), (applications.len() as u32, 0)];
    pairs.extend(applications.concat());
    pairs
}

/// The pairs of one application, of a rule or operation, to these variables.
pub fn apply(applied: u32, arguments: &[u32]) -> Vec<(u32, u32)> {
    let mut pairs = vec![(applied, arguments.len() as u32)];
    pairs.extend(arguments.iter().map(|&variable| (65, variable)));
    pairs
}

/// A pattern or replacement: the count of pairs, and the pairs.
pub fn pairs(pairs: &[(u32, u32)]) -> Vec<u32> {
    let mut words = vec![pairs.len() as u32];
    words.extend(pairs.iter().flat_map(|&(first, second)| [first, second]));
    words
}

/// Rules from the words of each.
pub fn rules(rules: &[Vec<u32>]) -> Vec<u32> {
    [vec![rules.len() as u32], rules.concat()].concat()
}

/// One rule; its bit map is made from what is given.
pub struct RuleText<'a> {
    pub target: u32,
    /// 0 for none.
    pub reach: u32,
    pub parameters: &'a [u32],
    pub pattern: &'a [(u32, u32)],
    pub parts: &'a [Vec<u32>],
    /// Empty for none.
    pub replacement: &'a [(u32, u32)],
}

/// The fields that a rule may lack.
pub const NONE: RuleText = RuleText {
    target: 0,
    reach: 0,
    parameters: &[],
    pattern: &[],
    parts: &[],
    replacement: &[],
};

impl RuleText<'_> {
    pub fn words(&self) -> Vec<u32> {
        let mut words = vec![0, self.target];
        if self.reach > 0 {
            words[0] |= 1;
            words.push(self.reach);
        }
        if !self.parameters.is_empty() {
            words[0] |= 2;
            words.push(self.parameters.len() as u32);
            words.extend(self.parameters);
        }
        words.extend(pairs(self.pattern));
        if !self.parts.is_empty() {
            words[0] |= 4;
            words.push(self.parts.len() as u32);
            words.extend(self.parts.concat());
        }
        if !self.replacement.is_empty() {
            words[0] |= 8;
            words.extend(pairs(self.replacement));
        }
        words
    }
}

/// A part that takes a variable apart.
pub fn deconstruct(variable: u32, pattern: &[(u32, u32)]) -> Vec<u32> {
    [vec![1, variable], pairs(pattern)].concat()
}

/// A part that searches a variable for nodes of a type.
pub fn search(ty: u32, variable: u32, pattern: &[(u32, u32)]) -> Vec<u32> {
    [vec![3, ty, variable], pairs(pattern)].concat()
}

/// A part that builds a new variable.
pub fn construct(ty: u32, replacement: &[(u32, u32)]) -> Vec<u32> {
    [vec![4, ty], pairs(replacement)].concat()
}

/// A part that tests.
pub fn condition(chain: &[(u32, u32)]) -> Vec<u32> {
    [vec![8], pairs(chain)].concat()
}

/// A part that holds if no application succeeds.
pub fn not_condition(chain: &[(u32, u32)]) -> Vec<u32> {
    [vec![24], pairs(chain)].concat()
}
