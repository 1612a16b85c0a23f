//! Runs that are as slow as their attempts allow, each by one term of the formula
//! of docs/DATASHEET.md, with the counts of the terms.

use generate::{slip_of, Input, Random};

use crate::formula::Done;
use crate::nesting::{Chain, Last, Way, MOST_CALLS};
use crate::sequences::{built_elements, counted_elements, counted_grammar, elements};
use crate::sheet::written;

/// An input that repeats a round until its budget is spent. A round ends where
/// the slip is as it was when it began.
pub struct Worst {
    pub name: String,
    pub input: Input,
    pub round: Done,
}

impl Worst {
    fn new(name: &str, words: Words, round: Done) -> Worst {
        let (grammar, rules, tree) = words;
        Worst {
            name: name.to_string(),
            input: Input {
                slip: slip_of(&grammar, &tree),
                grammar,
                rules,
                budget: 1,
            },
            round,
        }
    }

    /// The input with a budget for so many rounds.
    pub fn rounds(&self, rounds: usize) -> Input {
        Input {
            budget: (rounds * self.round.attempts) as u32,
            ..self.input.clone()
        }
    }
}

/// Grammar, rules and the tree of the slip, two words a node.
type Words = (Vec<u32>, Vec<u32>, Vec<u32>);

/// All of them.
pub fn all() -> Vec<Worst> {
    let mut all = vec![
        passing_over(),
        searching_for_numbers(),
        searching_for_sequences(),
        searching_for_tokens(),
        comparing_regularly(),
        comparing_irregularly(),
        testing(2_048),
        testing(4),
        calling(),
        operating(),
        copying(),
        filling(),
        placing_last(),
        placing_first(),
        placing_irregularly(),
        filling_irregularly(),
        nesting(),
        binding(),
        selecting(),
        selecting_irregularly(),
        joining(),
        extracting(),
    ];
    all.extend([0, 1, 2, 3, 5, 8].map(searching_for_variables));
    all
}

/// A search passes over the whole slip to the only node of its type, the last.
fn passing_over() -> Worst {
    let grammar = vec![4, 8, 1, 2, 1, 3, 4, 2, 1, 2, 1, 1];
    let rules = vec![1, 9, 3, 2, 1, 3, 5, 1, 3, 5];
    let tree = [vec![0, 0], elements(1_022, &[2, 100]), vec![1, 1, 3, 5]].concat();
    let round = Done {
        attempts: 1,
        passed: 2_047,
        pairs: 1,
        filled: 1,
        built: 1,
        behind: 1,
        ..Done::default()
    };
    Worst::new(
        "a search passes over the slip",
        (grammar, rules, tree),
        round,
    )
}

/// Eight searching deconstructs of a variable. Their pattern is a sequence of 63
/// elements, the last unlike the others, as is the slip's last: so it is found at
/// the last place where it can be.
fn searching_parts(searched: u32, element: [u32; 2], last: [u32; 2]) -> Vec<u32> {
    let pattern = [elements(62, &element), elements(1, &last), vec![1, 1]].concat();
    let part = [vec![3, 1, searched, 127], pattern].concat();
    [vec![8], part.repeat(8)].concat()
}

/// What eight such parts do on a sequence of so many elements, in a slip of so many
/// nodes. An element that is a variable is compared with so many nodes; 0 if it is
/// none.
fn searched_round(elements: usize, nodes: usize, compared: usize) -> Done {
    let starts = elements - 62;
    Done {
        attempts: 1,
        parts: 8,
        starts: 8 * starts,
        pairs: 8 * (starts * 126 + 1) + 4,
        variables: 8 * starts * 62 * compared.min(1),
        compared: 8 * starts * 62 * compared,
        filled: 4,
        built: nodes,
        behind: nodes,
        passed: 1,
        ..Done::default()
    }
}

/// The pattern's elements are nodes.
fn searching_for_numbers() -> Worst {
    let grammar = vec![3, 8, 1, 1, 1, 4, 2, 1, 2];
    let head = vec![1, 13, 0, 2, 2, 0, 0, 64, 1];
    let parts = searching_parts(0, [2, 100], [2, 200]);
    let rules = [head, parts, vec![2, 0, 0, 65, 0]].concat();
    let tree = [
        vec![0, 0],
        elements(1_022, &[2, 100]),
        vec![1, 0, 2, 200, 1, 1],
    ]
    .concat();
    let round = searched_round(1_023, 2_048, 0);
    Worst::new("8 searches for 63 numbers", (grammar, rules, tree), round)
}

/// The pattern's elements are a variable bound to the slip's first element, of
/// one node and so many numbers, all of value 0.
fn searching_for_variables(numbers: usize) -> Worst {
    let types = vec![3; numbers];
    let forms = [vec![8, 2, numbers as u32], types, vec![0]].concat();
    let grammar = [vec![4, 8, 1, 1, 1, 4, 2], forms, vec![1, 2]].concat();
    let head = vec![1, 13, 0, 2, 4, 0, 0, 1, 0, 64, 2, 64, 1];
    let parts = searching_parts(1, [65, 0], [2, 1]);
    let rules = [head, parts, vec![4, 0, 0, 1, 0, 65, 0, 65, 1]].concat();
    let size = numbers + 1;
    let count = (2_048 - 4) / (size + 1);
    let element = [vec![2, 0], [3, 0].repeat(numbers)].concat();
    let tree = [
        vec![0, 0],
        elements(count, &element),
        vec![1, 0, 2, 1, 1, 1],
    ]
    .concat();
    let round = searched_round(count, tree.len() / 2, size);
    let plural = if size == 1 { "" } else { "s" };
    let name = format!("8 searches for 62 variables of {size} node{plural}");
    Worst::new(&name, (grammar, rules, tree), round)
}

/// The sequence is one of sequences of its own type, most of them empty: a
/// search comes to every node.
fn searching_for_sequences() -> Worst {
    let grammar = vec![2, 8, 1, 1, 1, 4, 1];
    let last = elements(1, &[1, 0, 1, 1, 1, 1]);
    let pattern = [elements(61, &[65, 0]), last.clone(), vec![1, 1]].concat();
    let part = [vec![3, 1, 1, 127], pattern].concat();
    let head = vec![1, 13, 0, 2, 4, 0, 0, 1, 0, 64, 1, 64, 1, 8];
    let rules = [head, part.repeat(8), vec![4, 0, 0, 1, 0, 65, 0, 65, 1]].concat();
    let count = 1_021;
    let tree = [vec![0, 0], elements(count, &[1, 1]), last, vec![1, 1]].concat();
    let starts = count - 61;
    let round = Done {
        attempts: 1,
        passed: 1,
        parts: 8,
        starts: 8 * 2 * starts,
        pairs: 8 * (starts * (124 + 1) + 3) + 4,
        variables: 8 * starts * 61,
        compared: 8 * starts * 61,
        filled: 4,
        built: 2_048,
        behind: 2_048,
        ..Done::default()
    };
    Worst::new(
        "8 searches for 61 variables, begun at each node",
        (grammar, rules, tree),
        round,
    )
}

/// Eight searching deconstructs for a token, found last.
fn searching_for_tokens() -> Worst {
    let grammar = vec![3, 8, 1, 1, 1, 4, 2, 1, 2];
    let part = [3, 2, 0, 1, 2, 200];
    let head = vec![1, 13, 0, 2, 2, 0, 0, 64, 1, 8];
    let rules = [head, part.repeat(8), vec![2, 0, 0, 65, 0]].concat();
    let tree = [
        vec![0, 0],
        elements(1_022, &[2, 100]),
        vec![1, 0, 2, 200, 1, 1],
    ]
    .concat();
    let round = Done {
        attempts: 1,
        passed: 8 * 1_023,
        parts: 8,
        starts: 8 * 1_023,
        pairs: 8 * 1_023 + 2,
        filled: 2,
        built: 2_048,
        behind: 2_048,
        ..Done::default()
    };
    Worst::new("8 searches for a number", (grammar, rules, tree), round)
}

/// Half of the slip is compared with the other half, and eight times with
/// itself.
fn comparing_regularly() -> Worst {
    comparing("half a slip compared 9 times", elements(511, &[2, 100]))
}

/// The same with numbers that are 0 or not as it comes: where a value is 0 a name
/// or string would be blank.
fn comparing_irregularly() -> Worst {
    let mut random = Random::new(0);
    let element = |_| elements(1, &[2, random.pick(&[0, 100])]);
    let numbers: Vec<Vec<u32>> = (0..511).map(element).collect();
    comparing("the same, irregular", numbers.concat())
}

/// A sequence of 511 numbers is compared.
fn comparing(name: &str, numbers: Vec<u32>) -> Worst {
    let grammar = vec![3, 8, 1, 2, 1, 1, 4, 2, 1, 2];
    let head = vec![1, 13, 0, 2, 3, 0, 0, 64, 1, 65, 0, 8];
    let part = [1, 0, 1, 65, 0];
    let rules = [head, part.repeat(8), vec![3, 0, 0, 65, 0, 65, 0]].concat();
    let half = [numbers, vec![1, 1]].concat();
    let tree = [vec![0, 0], half.clone(), half].concat();
    let round = Done {
        attempts: 1,
        passed: 1,
        parts: 8,
        pairs: 3 + 8,
        variables: 9,
        compared: 9 * 1_023,
        filled: 3,
        built: 2_047,
        behind: 2_047,
        ..Done::default()
    };
    Worst::new(name, (grammar, rules, tree), round)
}

/// Eight conditions of four applications each: rules that search the slip, of so
/// many nodes, for a type that is not in it.
fn testing(nodes: usize) -> Worst {
    let grammar = vec![4, 8, 1, 1, 1, 4, 2, 1, 2, 1, 3];
    let part = [24, 6, 66, 0, 4, 0, 1, 0, 1, 0, 1, 0, 1, 0];
    let main = [vec![13, 0, 2, 1, 64, 0, 8], part.repeat(8), vec![1, 65, 0]].concat();
    let tested = vec![1, 3, 1, 1, 64, 3];
    let rules = [vec![2], main, tested].concat();
    let tree = [vec![0, 0], elements((nodes - 2) / 2, &[2, 100]), vec![1, 1]].concat();
    let round = Done {
        attempts: 1,
        passed: 32 * nodes + 1,
        parts: 8,
        pairs: 1,
        applications: 32,
        filled: 1,
        built: nodes,
        behind: nodes,
        ..Done::default()
    };
    let name = format!("32 tests of a slip of {} nodes", written(nodes));
    Worst::new(&name, (grammar, rules, tree), round)
}

/// Eight constructs and a replacement, each with 18 chains of four applications
/// of a rule that finds no node of its type.
fn calling() -> Worst {
    let grammar = vec![5, 8, 1, 1, 1, 4, 2, 1, 2, 1, 3, 8, 1, 1, 2];
    let chain = [66, 0, 4, 0, 1, 0, 1, 0, 1, 0, 1, 0];
    let filled = [vec![127], elements(18, &chain), vec![1, 1]].concat();
    let part = [vec![4, 1], filled.clone()].concat();
    let main = [
        vec![13, 1, 2, 3, 1, 0, 64, 2, 64, 1, 8],
        part.repeat(8),
        filled,
    ]
    .concat();
    let called = vec![9, 3, 1, 1, 64, 3, 1, 65, 0];
    let rules = [vec![2], main, called].concat();
    let tree = [vec![0, 0], elements(18, &[2, 100]), vec![1, 1]].concat();
    let applications = 9 * 18 * 4;
    let round = Done {
        attempts: 1,
        passed: applications + 2,
        parts: 8,
        pairs: 3,
        applications,
        filled: 9 * 127,
        built: 9 * 37,
        behind: 38,
        ..Done::default()
    };
    Worst::new(
        "648 applications in one attempt",
        (grammar, rules, tree),
        round,
    )
}

/// The same with chains of four operations: a number divided by itself, in
/// hundredths, is 1.00.
fn operating() -> Worst {
    let grammar = vec![3, 8, 1, 1, 1, 4, 2, 1, 2];
    let chain = [vec![66, 0, 4, 0], [1_002, 1, 65, 0].repeat(4)].concat();
    let filled = [vec![122], elements(11, &chain), vec![1, 1]].concat();
    let part = [vec![4, 1], filled.clone()].concat();
    let head = vec![1, 13, 1, 2, 3, 1, 0, 64, 2, 64, 1, 8];
    let rules = [head, part.repeat(8), filled].concat();
    let tree = [vec![0, 0], elements(11, &[2, 100]), vec![1, 1]].concat();
    let round = Done {
        attempts: 1,
        passed: 2,
        parts: 8,
        pairs: 3,
        filled: 9 * 122,
        built: 9 * 23,
        before: 1,
        behind: 23,
        ..Done::default()
    };
    Worst::new(
        "396 operations in one attempt",
        (grammar, rules, tree),
        round,
    )
}

fn selecting() -> Worst {
    let sequence = [elements(980, &[2, 0]), vec![1, 1]].concat();
    cutting("352 selections in one attempt", sequence)
}

/// The same with elements of 0 to 8 numbers, in no order.
fn selecting_irregularly() -> Worst {
    let sequence = counted_elements(&mut Random::new(0), 1_961);
    cutting("the same, irregular", sequence)
}

/// A sequence whose last element is cut off three times, and then all of them.
fn cutting(name: &str, sequence: Vec<u32>) -> Worst {
    // One node of its own stands before each element, and one at its end.
    let nodes = 0..sequence.len() / 2;
    let own: Vec<usize> = nodes.filter(|node| sequence[2 * node] == 1).collect();
    let count = own.len() - 1;
    let [all, once, twice, thrice] = [0, 1, 2, 3].map(|cuts| own[count - cuts] + 1);
    // Each but the last result is the next scope; the last is one node, as each
    // argument is.
    let edited = all + 2 * (once + twice + thrice) + 1 + 4;
    let mut fields = vec![number(0)];
    fields.extend([1, 2, 3].map(|cuts| number(count - cuts)));
    fields.push((1, sequence));
    editing(name, &fields, 4, [1, 2, 3, 0].map(head), edited)
}

/// A sequence joined with itself and cut to what it was, and once more, then cut
/// off.
fn joining() -> Worst {
    let sequence = [elements(500, &[2, 0]), vec![1, 1]].concat();
    let nodes = sequence.len() / 2;
    let twice = 2 * nodes - 1;
    let edited = 2 * (2 * nodes + twice) + twice + 1 + nodes + twice + 2;
    let double = [1_010, 1, 65, 2];
    let fields = [number(0), number(500), (1, sequence)];
    let chain = [double, head(1), double, head(0)];
    editing("176 joins in one attempt", &fields, 2, chain, edited)
}

/// The elements of a sequence that another holds taken out twice, then cut to
/// half, and off.
fn extracting() -> Worst {
    let sequence = [elements(500, &[2, 0]), vec![1, 1]].concat();
    let nodes = sequence.len() / 2;
    let (holder, twice) = (nodes + 2, 2 * nodes - 1);
    let edited = (1 + holder + nodes) + (nodes + holder + twice) + (twice + 1 + nodes) + nodes + 2;
    let take = [1_015, 1, 65, 3];
    let held = [vec![4, 0], sequence, vec![4, 1]].concat();
    let fields = [number(0), number(500), (1, vec![1, 1]), (4, held)];
    let chain = [take, take, head(1), head(0)];
    editing("176 extractions in one attempt", &fields, 2, chain, edited)
}

/// A field that is a number token of so many whole ones.
fn number(whole: usize) -> (u32, Vec<u32>) {
    (3, vec![3, 100 * whole as u32])
}

/// The first elements, as many as a variable says.
fn head(variable: u32) -> [u32; 4] {
    [1_012, 1, 65, variable]
}

/// Eight constructs of 11 chains of four operations on a field of the slip.
fn editing(
    name: &str,
    fields: &[(u32, Vec<u32>)],
    scope: usize,
    operations: [[u32; 4]; 4],
    edited: usize,
) -> Worst {
    let count = fields.len() as u32;
    let types = fields.iter().map(|(ty, _)| *ty);
    let root = [vec![5, 8, 1, count], types.clone().collect()].concat();
    let grammar = [&root, &counted_grammar()[5..], &[4, 1]].concat();
    let chain = [vec![4, 0, 66, scope as u32, 4, 0], operations.concat()].concat();
    let part = [vec![4, 4, 122], chain.repeat(11), vec![4, 1]].concat();
    let bound = types.flat_map(|ty| [64, ty]).collect();
    let pattern = [vec![1, 13, 0, 2, count + 1, 0, 0], bound].concat();
    let put_back = (0..count).flat_map(|variable| [65, variable]).collect();
    let replacement = [vec![count + 1, 0, 0], put_back].concat();
    let rules = [pattern, vec![8], part.repeat(8), replacement].concat();
    let words = fields.iter().flat_map(|(_, words)| words.clone());
    let tree: Vec<u32> = [0, 0].into_iter().chain(words).collect();
    let nodes = tree.len() / 2;
    let round = Done {
        attempts: 1,
        passed: 1,
        parts: 8,
        pairs: fields.len() + 1,
        filled: 8 * 122 + fields.len() + 1,
        built: 8 * (11 * fields[scope].1.len() / 2 + 23) + nodes,
        edited: 8 * 11 * edited,
        behind: nodes,
        ..Done::default()
    };
    Worst::new(name, (grammar, rules, tree), round)
}

/// Eight constructs and a replacement that copy the slip.
fn copying() -> Worst {
    let grammar = vec![3, 8, 1, 1, 1, 4, 2, 1, 2];
    let part = [4, 0, 1, 65, 0];
    let head = vec![1, 13, 0, 2, 1, 64, 0, 8];
    let rules = [head, part.repeat(8), vec![1, 65, 0]].concat();
    let nodes = 550;
    let tree = [vec![0, 0], elements((nodes - 2) / 2, &[2, 100]), vec![1, 1]].concat();
    let round = Done {
        attempts: 1,
        passed: 1,
        parts: 8,
        pairs: 1,
        filled: 9,
        built: 9 * nodes,
        behind: nodes,
        ..Done::default()
    };
    Worst::new(
        "9 copies of a slip of 550 nodes",
        (grammar, rules, tree),
        round,
    )
}

/// Eight constructs and a replacement of 127 nodes that the rule writes.
fn filling() -> Worst {
    let grammar = vec![3, 8, 1, 1, 1, 4, 2, 1, 2];
    let sequence = [vec![127], elements(63, &[2, 100]), vec![1, 1]].concat();
    let part = [vec![4, 1], sequence.clone()].concat();
    let main = [vec![13, 1, 2, 1, 64, 1, 8], part.repeat(8), sequence].concat();
    let rules = [vec![1], main].concat();
    let tree = [vec![0, 0], elements(63, &[2, 100]), vec![1, 1]].concat();
    let round = Done {
        attempts: 1,
        passed: 2,
        parts: 8,
        pairs: 1,
        filled: 9 * 127,
        built: 9 * 127,
        behind: 128,
        ..Done::default()
    };
    Worst::new("9 times 127 nodes written", (grammar, rules, tree), round)
}

/// The same with sequences of elements that have 0 to 8 numbers, in no order.
fn filling_irregularly() -> Worst {
    let mut random = Random::new(0);
    let sequence = counted_elements(&mut random, 128);
    let built: Vec<Vec<u32>> = (0..8).map(|_| built_elements(&mut random)).collect();
    let pairs = |words: usize| words / 2;
    let filled = built
        .iter()
        .map(|part| pairs(part.len() - 3))
        .sum::<usize>()
        + pairs(sequence.len());
    let count = vec![pairs(sequence.len()) as u32];
    let head = vec![1, 13, 1, 2, 1, 64, 1, 8];
    let rules = [head, built.concat(), count, sequence.clone()].concat();
    let tree = [vec![0, 0], sequence.clone()].concat();
    let round = Done {
        attempts: 1,
        passed: 2,
        parts: 8,
        pairs: 1,
        filled,
        built: filled,
        behind: pairs(tree.len()),
        ..Done::default()
    };
    let words = (counted_grammar(), rules, tree);
    Worst::new("9 irregular sequences written", words, round)
}

/// A node of type 3 is turned from a form of nesting 1 into one of nesting 2 and
/// back, by three rules one after the other; the others of its scope are the
/// elements before and behind it.
fn placing(name: &str, before: Vec<u32>, behind: Vec<u32>) -> Worst {
    let element = [8, 4, 0, 1, 3, 1, 4, 2, 4, 4];
    let turned = [8, 3, 0, 1, 4, 2, 4, 4];
    let grammar = [&[5, 8, 1, 1, 1, 4, 2][..], &element, &turned, &[1, 2]].concat();
    let main = [9, 3, 2, 1, 64, 3, 5, 66, 0, 3, 0, 1, 0, 2, 0, 3, 0];
    let first = [8, 3, 1, 3, 0, 3, 3, 2, 4, 1, 4, 1];
    let second = [8, 3, 2, 3, 1, 64, 4, 1, 3, 0];
    let third = [8, 3, 3, 3, 2, 64, 4, 64, 4, 2, 3, 1, 65, 0];
    let rules = [&[4][..], &main, &first, &second, &third].concat();
    let turned = [1, 0, 2, 1, 3, 0];
    let place = 3 + before.len() / 2;
    let tree = [vec![0, 0], before, turned.to_vec(), behind, vec![1, 1]].concat();
    // One way the first and the third rule match, the other way the second.
    let round = Done {
        attempts: 8,
        passed: 2 * place + 6,
        pairs: 2 + 8 + 3,
        applications: 6,
        filled: 2 * 5 + 3 + 1 + 2,
        built: 12,
        before: 2 * place,
        behind: 2 * (tree.len() / 2 - place) + 6,
        ..Done::default()
    };
    Worst::new(name, (grammar, rules, tree), round)
}

/// Behind all others: each sequence above it is marked anew.
fn placing_last() -> Worst {
    let name = "nesting changes at the end";
    placing(name, elements(1_020, &[2, 0]), vec![])
}

/// Before all others: what is behind it is moved.
fn placing_first() -> Worst {
    let name = "nesting changes at the front";
    placing(name, vec![], elements(1_020, &[2, 0]))
}

/// Behind all others, which have no numbers, one or two, in no order.
fn placing_irregularly() -> Worst {
    let mut random = Random::new(0);
    let mut before = Vec::new();
    while before.len() < 4_080 {
        let element = match random.below(4) {
            0 | 1 => vec![2, 0],
            2 => vec![2, 2, 4, 100],
            _ => vec![2, 3, 4, 100, 4, 100],
        };
        before.extend(elements(1, &element));
    }
    placing("nesting changes at an irregular end", before, vec![])
}

/// Attempts that bind two variables, build a number and fail in a condition, at
/// each element but the last.
fn binding() -> Worst {
    let grammar = vec![3, 8, 1, 1, 1, 4, 2, 1, 2];
    let head = vec![1, 13, 1, 2, 3, 1, 0, 64, 2, 64, 1, 2];
    let construct = vec![4, 2, 1, 2, 250];
    let condition = vec![8, 4, 66, 2, 1, 0, 1_009, 1, 65, 0];
    let replacement = vec![3, 1, 0, 65, 0, 65, 1];
    let rules = [head, construct, condition, replacement].concat();
    let last = vec![1, 0, 2, 200, 1, 1];
    let tree = [vec![0, 0], elements(1_022, &[2, 300]), last].concat();
    let round = Done {
        attempts: 1_023,
        passed: 2_046,
        parts: 2 * 1_023,
        pairs: 3 * 1_023,
        filled: 1_023 + 3,
        built: 1_023 + 3,
        before: 2_045,
        behind: 3,
        ..Done::default()
    };
    Worst::new(
        "attempts that fail in their 2nd part",
        (grammar, rules, tree),
        round,
    )
}

/// 32 nested calls with four arguments each.
fn nesting() -> Worst {
    let ways = &[Way::Construct];
    let chain = Chain {
        reach: 2,
        ..Chain::in_turn(MOST_CALLS, ways, 4, Last::ConstructsBySum)
    };
    let round = Done {
        attempts: MOST_CALLS,
        passed: MOST_CALLS + 2,
        parts: MOST_CALLS + 1,
        pairs: MOST_CALLS + 1,
        applications: MOST_CALLS - 1,
        filled: 2 + (MOST_CALLS - 1) * 8 + 4,
        built: 2 * MOST_CALLS,
        behind: MOST_CALLS + 3,
        ..Done::default()
    };
    let input = Input {
        budget: 1,
        ..chain.on_slip_of(4)
    };
    let name = "32 nested calls".to_string();
    Worst { name, input, round }
}
