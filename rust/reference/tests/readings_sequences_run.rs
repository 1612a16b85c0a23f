//! The readings T04-7 and T04-9 to T04-17 (meaning of the sequence operations)
//! and T04-18 to T04-24 (limits of their results), one test each or more. All
//! runs are made with repeats and with lists, and answered alike (T04-6). All
//! numbers are worked out by hand.

mod common;

use common::*;

/// A grammar whose sequences have this map.
type GrammarOf = fn(u32) -> Vec<u32>;

/// What the bench prints, whether sequences are repeats (4) or lists (16).
fn on(grammar: GrammarOf, budget: u32, texts: &[RuleText], tree: &[u32]) -> String {
    let words: Vec<Vec<u32>> = texts.iter().map(RuleText::words).collect();
    let [repeat, list] = [4, 16].map(|map| bench(budget, &grammar(map), &rules(&words), tree));
    assert_eq!(repeat, list);
    repeat
}

/// Only the first line, for great trees.
fn line(grammar: GrammarOf, budget: u32, texts: &[RuleText], tree: &[u32]) -> String {
    let text = on(grammar, budget, texts, tree);
    text.lines().next().unwrap_or_default().to_string()
}

/// What is printed when one attempt and one replacement have made this tree.
fn done(grammar: GrammarOf, tree: &[u32]) -> String {
    ended(&grammar(4), "done 1 1", tree)
}

/// The paper's grammar.
fn numbers(map: u32) -> Vec<u32> {
    vec![3, 8, 1, 1, 1, map, 2, 1, 2]
}

/// What applications make of a sequence of numbers, variable 0. Variables 1
/// and on are these positions.
fn sequence_after(elements: &[u32], positions: &[u32], applications: &[Vec<(u32, u32)>]) -> String {
    let build = |&position: &u32| construct(2, &[(2, position)]);
    let text = RuleText {
        pattern: &[(0, 0), (64, 1)],
        parts: &positions.iter().map(build).collect::<Vec<_>>(),
        replacement: &[vec![(0, 0)], chain(0, applications)].concat(),
        ..NONE
    };
    on(numbers, 1, &[text], &list(elements))
}

fn select(elements: &[u32], from: u32, to: u32) -> String {
    sequence_after(elements, &[from, to], &[apply(SELECT, &[1, 2])])
}

fn head(elements: &[u32], to: u32) -> String {
    sequence_after(elements, &[to], &[apply(HEAD, &[1])])
}

fn tail(elements: &[u32], from: u32) -> String {
    sequence_after(elements, &[from], &[apply(TAIL, &[1])])
}

#[test]
fn t04_7_a_sequence_of_itself_is_joined_as_the_sequence() {
    let grammar = |map| vec![1, map, 0];
    let text = || RuleText {
        pattern: &[(64, 0)],
        replacement: &[(66, 0), (1, 0), (JOIN, 1), (65, 0)],
        ..NONE
    };
    // One empty element is joined with one empty element.
    assert_eq!(
        on(grammar, 1, &[text()], &[0, 0, 0, 1, 0, 1]),
        "done 1 1 15\n0 0 5 0 1 1 0 0 3 0 1 1 0 1 1"
    );
    // The empty sequence with itself.
    assert_eq!(on(grammar, 1, &[text()], &[0, 1]), "done 1 1 3\n0 1 1");
}

#[test]
fn t04_9_a_fraction_is_truncated_first() {
    let three = [10, 20, 30];
    assert_eq!(select(&three, 99, 100), done(numbers, &list(&[10])));
    assert_eq!(select(&three, 199, 199), done(numbers, &list(&[10])));
    assert_eq!(select(&three, 100, 99), done(numbers, &list(&[])));
    assert_eq!(select(&three, 0, 99), done(numbers, &list(&[])));
    assert_eq!(select(&three, 299, 200), done(numbers, &list(&[20])));
    assert_eq!(select(&three, 300, 299), done(numbers, &list(&[])));
    // Halves are cut off, not rounded to even.
    assert_eq!(select(&three, 150, 250), done(numbers, &list(&[10, 20])));
    assert_eq!(select(&three, 250, 350), done(numbers, &list(&[20, 30])));
    assert_eq!(head(&three, 99), done(numbers, &list(&[])));
    assert_eq!(head(&three, 150), done(numbers, &list(&[10])));
    assert_eq!(head(&three, 299), done(numbers, &list(&[10, 20])));
    assert_eq!(tail(&three, 99), done(numbers, &list(&three)));
    assert_eq!(tail(&three, 150), done(numbers, &list(&three)));
    assert_eq!(tail(&three, 299), done(numbers, &list(&[20, 30])));
    assert_eq!(tail(&three, 399), done(numbers, &list(&[30])));
}

#[test]
fn t04_10_positions_outside_the_sequence() {
    let three = [10, 20, 30];
    for (from, to) in [(400, 900), (400, 400), (400, 300), (900, 400)] {
        assert_eq!(select(&three, from, to), done(numbers, &list(&[])));
    }
    for (from, to) in [(0, 0), (200, 100), (4_000_000_000, 4_000_000_000)] {
        assert_eq!(select(&three, from, to), done(numbers, &list(&[])));
    }
    assert_eq!(select(&three, 300, 900), done(numbers, &list(&[30])));
    assert_eq!(
        select(&three, 300, 4_000_000_000),
        done(numbers, &list(&[30]))
    );
    assert_eq!(select(&three, 0, 100), done(numbers, &list(&[10])));
    assert_eq!(
        select(&three, 0, 4_000_000_000),
        done(numbers, &list(&three))
    );
}

#[test]
fn t04_11_head_and_tail_at_the_ends() {
    let three = [10, 20, 30];
    assert_eq!(head(&three, 0), done(numbers, &list(&[])));
    assert_eq!(head(&three, 100), done(numbers, &list(&[10])));
    assert_eq!(head(&three, 300), done(numbers, &list(&three)));
    assert_eq!(head(&three, 4_000_000_000), done(numbers, &list(&three)));
    assert_eq!(tail(&three, 0), done(numbers, &list(&three)));
    assert_eq!(tail(&three, 100), done(numbers, &list(&three)));
    assert_eq!(tail(&three, 300), done(numbers, &list(&[30])));
    assert_eq!(tail(&three, 400), done(numbers, &list(&[])));
    assert_eq!(tail(&three, 4_000_000_000), done(numbers, &list(&[])));
    for position in [0, 99, 100, 200, 4_000_000_000] {
        assert_eq!(head(&[], position), done(numbers, &list(&[])));
        assert_eq!(tail(&[], position), done(numbers, &list(&[])));
        assert_eq!(select(&[], position, position), done(numbers, &list(&[])));
        assert_eq!(select(&[], position, 100), done(numbers, &list(&[])));
    }
}

#[test]
fn t04_9_to_11_every_pair_of_positions() {
    let positions = [
        0, 1, 99, 100, 101, 150, 199, 200, 250, 299, 300, 399, 400, 401, 499, 500, 599,
    ];
    for length in 0..=4 {
        let elements: Vec<u32> = (1..=length).map(|number| 10 * number).collect();
        // Element p has position p from p.00 to p.99.
        let kept = |from: u32, to: u32| {
            let places = (1..=length).filter(|p| from < 100 * (p + 1) && to >= 100 * p);
            done(numbers, &list(&places.map(|p| 10 * p).collect::<Vec<_>>()))
        };
        for from in positions {
            for to in positions {
                assert_eq!(select(&elements, from, to), kept(from, to), "{from} {to}");
            }
            assert_eq!(head(&elements, from), kept(100, from), "{from}");
            assert_eq!(tail(&elements, from), kept(from, 4_000_000_000), "{from}");
        }
    }
}

/// A sequence 1 of trees 2, which have two numbers 3.
fn pairs_of_numbers(map: u32) -> Vec<u32> {
    vec![4, 8, 1, 1, 1, map, 2, 8, 1, 2, 3, 3, 1, 2]
}

#[test]
fn t04_12_the_nodes_of_a_result() {
    let tree = [
        0, 0, 1, 0, 2, 0, 3, 1, 3, 2, 1, 0, 2, 0, 3, 3, 3, 4, 1, 0, 2, 0, 3, 5, 3, 6, 1, 1,
    ];
    let with = |positions: [u32; 2], application: Vec<(u32, u32)>| {
        let text = RuleText {
            pattern: &[(0, 0), (64, 1)],
            parts: &positions.map(|position| construct(3, &[(3, position)])),
            replacement: &[vec![(0, 0)], chain(0, &[application])].concat(),
            ..NONE
        };
        on(pairs_of_numbers, 1, &[text], &tree)
    };
    let select = apply(SELECT, &[1, 2]);
    assert_eq!(with([400, 0], select.clone()), "done 1 1 6\n0 0 2 1 1 1");
    assert_eq!(
        with([200, 300], select.clone()),
        "done 1 1 30\n0 0 10 1 0 9 2 0 3 3 3 1 3 4 1 1 0 5 2 0 3 3 5 1 3 6 1 1 1 1"
    );
    assert_eq!(
        with([200, 200], select),
        "done 1 1 18\n0 0 6 1 0 5 2 0 3 3 3 1 3 4 1 1 1 1"
    );
    // Six elements of 3 nodes, 7 nodes of the sequence and the root.
    let joined = with([0, 0], apply(JOIN, &[0]));
    assert!(joined.starts_with("done 1 1 78\n"), "{joined}");
}

/// Type 0 has a sequence 1 of numbers 2, and a number 3.
fn sequence_and_number(map: u32) -> Vec<u32> {
    vec![4, 8, 1, 2, 1, 3, map, 2, 1, 2, 1, 2]
}

/// Puts the length of variable 0 for the number behind it.
const LENGTH_BEHIND: RuleText = RuleText {
    pattern: &[(0, 0), (64, 1), (64, 3)],
    replacement: &[(0, 0), (65, 0), (66, 1), (1, 0), (LENGTH, 1), (65, 0)],
    ..NONE
};

#[test]
fn t04_13_length_is_a_hundred_for_each_element() {
    let with = |elements: &[u32]| {
        let tree = |number| [vec![0, 0], sequence(elements), vec![3, number]].concat();
        let length = 100 * elements.len() as u32;
        let text = on(sequence_and_number, 1, &[LENGTH_BEHIND], &tree(777));
        assert_eq!(text, done(sequence_and_number, &tree(length)));
    };
    with(&[]);
    with(&[5]);
    with(&[5, 5]);
    with(&[10, 20, 30]);
    // A number of the element's type: two elements give 2.00.
    let text = RuleText {
        pattern: &[(0, 0), (64, 1)],
        parts: &[construct(2, &[(2, 5)])],
        replacement: &[
            (0, 0),
            (1, 0),
            (66, 1),
            (1, 0),
            (LENGTH, 1),
            (65, 0),
            (1, 1),
        ],
        ..NONE
    };
    assert_eq!(on(numbers, 1, &[text], TREE), done(numbers, &list(&[200])));
}

#[test]
fn t04_13_elements_of_sequences_inside_do_not_count() {
    let two_elements = |grammar: GrammarOf, elements: [Vec<u32>; 2]| {
        let sequence = sequence_of(1, &elements);
        let tree = |number| [vec![0, 0], sequence.clone(), vec![3, number]].concat();
        let text = on(grammar, 1, &[LENGTH_BEHIND], &tree(777));
        assert_eq!(text, done(grammar, &tree(200)));
    };
    // A sequence 1 of sequences 2 of numbers 3: three numbers, and none.
    let three = sequence_of(2, &[vec![3, 1], vec![3, 2], vec![3, 3]]);
    two_elements(
        |map| vec![4, 8, 1, 2, 1, 3, map, 2, map, 3, 1, 2],
        [three, vec![2, 1]],
    );
    // A sequence 1 of itself: two empty ones, and an empty one.
    let two = sequence_of(1, &[vec![1, 1], vec![1, 1]]);
    two_elements(
        |map| vec![4, 8, 1, 2, 1, 3, map, 1, 1, 2, 1, 2],
        [two, vec![1, 1]],
    );
}

#[test]
fn t04_13_the_longest_sequence() {
    let grammar = |map| vec![2, map, 1, 1, 2];
    let text = RuleText {
        pattern: &[(64, 0)],
        parts: &[construct(1, &[(1, 5)])],
        replacement: &[(0, 0), (66, 1), (1, 0), (LENGTH, 1), (65, 0), (0, 1)],
        ..NONE
    };
    let longest = sequence_of(0, &vec![vec![1, 5]; 1_023]);
    assert_eq!(
        on(grammar, 1, &[text], &longest),
        "done 1 1 9\n0 0 3 1 102300 1 0 1 1"
    );
}

/// Type 0 has a sequence 1 of expressions 2, and a repeat 3 of triples 4. An
/// expression is a leaf with a number 5, or two expressions; a triple is an
/// expression, a number and an expression.
fn expressions(map: u32) -> Vec<u32> {
    vec![
        6, 8, 1, 2, 1, 3, map, 2, 8, 2, 1, 5, 2, 2, 2, 4, 4, 8, 1, 3, 2, 5, 2, 1, 2,
    ]
}

fn leaf(number: u32) -> Vec<u32> {
    vec![2, 0, 5, number]
}

fn both(one: Vec<u32>, two: Vec<u32>) -> Vec<u32> {
    [vec![2, 1], one, two].concat()
}

fn triple(one: Vec<u32>, number: u32, two: Vec<u32>) -> Vec<u32> {
    [vec![4, 0], one, vec![5, number], two].concat()
}

/// A tree of `expressions`.
fn expression_tree(expressions: &[Vec<u32>], triples: &[Vec<u32>]) -> Vec<u32> {
    let expressions = sequence_of(1, expressions);
    let triples = sequence_of(3, triples);
    [vec![0, 0], expressions, triples].concat()
}

/// Works applications on the expressions, variable 0, and leaves no triples.
/// Variable 1 are the triples; of the first triple, variable 2 is the first
/// expression and variable 3 the number.
fn extracted(applications: &[Vec<(u32, u32)>], tree: &[u32]) -> String {
    let first = [(3, 0), (4, 0), (64, 2), (64, 5), (64, 2), (64, 3)];
    let text = RuleText {
        pattern: &[(0, 0), (64, 1), (64, 3)],
        parts: &[deconstruct(1, &first)],
        replacement: &[vec![(0, 0)], chain(0, applications), vec![(3, 1)]].concat(),
        ..NONE
    };
    on(expressions, 1, &[text], tree)
}

#[test]
fn t04_14_extract_appends_trees_left_to_right_and_enters_none_taken() {
    let own = [leaf(100), both(leaf(101), leaf(102))];
    let in_order = [
        both(leaf(1), leaf(2)),
        leaf(3),
        leaf(4),
        both(both(leaf(5), leaf(6)), leaf(9)),
    ];
    let [one, two, three, four] = in_order.clone();
    let triples = [triple(one, 7, two), triple(three, 8, four)];
    let tree = expression_tree(&own, &triples);
    let with = |arguments: &[u32]| {
        let extract = |&argument| apply(EXTRACT, &[argument]);
        extracted(&arguments.iter().map(extract).collect::<Vec<_>>(), &tree)
    };
    let holding =
        |elements: &[&[Vec<u32>]]| done(expressions, &expression_tree(&elements.concat(), &[]));
    // The scope's own elements are not searched and stay in front.
    assert_eq!(with(&[1]), holding(&[&own, &in_order]));
    // What is there already is appended again.
    assert_eq!(with(&[1, 1]), holding(&[&own, &in_order, &in_order]));
    // The argument's root is a tree in it.
    assert_eq!(with(&[2]), holding(&[&own, &in_order[..1]]));
    // Finding none.
    assert_eq!(with(&[3]), holding(&[&own]));
    // A sequence's own elements, from that sequence as argument.
    assert_eq!(with(&[0]), holding(&[&own, &own]));
}

#[test]
fn t04_14_rests_inside_a_taken_sequence_are_not_taken() {
    // Type 0 has a sequence 1 of sequences 2 of numbers 3, and a sequence 2.
    let grammar = |map| vec![4, 8, 1, 2, 1, 2, map, 2, map, 3, 1, 2];
    let inner = |numbers: &[u32]| {
        let elements: Vec<Vec<u32>> = numbers.iter().map(|&number| vec![3, number]).collect();
        sequence_of(2, &elements)
    };
    let tree = |outer: &[Vec<u32>], last: Vec<u32>| {
        let outer = sequence_of(1, outer);
        [vec![0, 0], outer, last].concat()
    };
    let before = tree(&[inner(&[9])], inner(&[5, 6, 7]));
    let with = |first: Vec<(u32, u32)>, second: Vec<(u32, u32)>| {
        let text = RuleText {
            pattern: &[(0, 0), (64, 1), (64, 2)],
            replacement: &[vec![(0, 0)], first, second].concat(),
            ..NONE
        };
        on(grammar, 1, &[text], &before)
    };
    let extract = |scope, argument| chain(scope, &[apply(EXTRACT, &[argument])]);
    assert_eq!(
        with(extract(0, 1), vec![(65, 1)]),
        done(
            grammar,
            &tree(&[inner(&[9]), inner(&[5, 6, 7])], inner(&[5, 6, 7]))
        )
    );
    // Numbers are taken from all over a sequence of sequences.
    assert_eq!(
        with(vec![(65, 0)], extract(1, 0)),
        done(grammar, &tree(&[inner(&[9])], inner(&[5, 6, 7, 9])))
    );
    assert_eq!(
        with(vec![(65, 0)], extract(1, 1)),
        done(grammar, &tree(&[inner(&[9])], inner(&[5, 6, 7, 5, 6, 7])))
    );
}

#[test]
fn t04_15_extract_takes_a_sequence_of_itself_as_one_element() {
    let grammar = |map| vec![1, map, 0];
    let with = |tree: &[u32]| {
        let text = RuleText {
            pattern: &[(64, 0)],
            replacement: &[(66, 0), (1, 0), (EXTRACT, 1), (65, 0)],
            ..NONE
        };
        on(grammar, 1, &[text], tree)
    };
    let empty = vec![0, 1];
    let one = vec![0, 0, 0, 1, 0, 1];
    assert_eq!(with(&empty), done(grammar, &one));
    assert_eq!(
        with(&one),
        done(grammar, &[0, 0, 0, 1, 0, 0, 0, 0, 0, 1, 0, 1, 0, 1])
    );
    let two = sequence_of(0, &[one.clone(), empty.clone()]);
    let three = sequence_of(0, &[one, empty, two.clone()]);
    assert_eq!(with(&two), done(grammar, &three));
}

#[test]
fn t04_16_the_argument_is_the_variable_as_bound() {
    let with =
        |applications: &[Vec<(u32, u32)>]| sequence_after(&[5, 6], &[100, 200], applications);
    let join = apply(JOIN, &[0]);
    let extract = apply(EXTRACT, &[0]);
    assert_eq!(
        with(&[join.clone(), join.clone()]),
        done(numbers, &list(&[5, 6, 5, 6, 5, 6]))
    );
    assert_eq!(
        with(&[extract.clone(), extract.clone()]),
        done(numbers, &list(&[5, 6, 5, 6, 5, 6]))
    );
    let head = apply(HEAD, &[1]);
    assert_eq!(
        with(&[head, join.clone()]),
        done(numbers, &list(&[5, 5, 6]))
    );
    let tail = apply(TAIL, &[2]);
    assert_eq!(
        with(&[tail.clone(), extract]),
        done(numbers, &list(&[6, 5, 6]))
    );
    assert_eq!(
        with(&[join.clone(), tail.clone(), tail]),
        done(numbers, &list(&[5, 6]))
    );
    // The copy is a tree of its own: the variable stays.
    let text = RuleText {
        pattern: &[(0, 0), (64, 1)],
        parts: &[construct(1, &chain(0, std::slice::from_ref(&join)))],
        replacement: &[vec![(0, 0)], chain(1, &[join])].concat(),
        ..NONE
    };
    assert_eq!(
        on(numbers, 1, &[text], &list(&[5, 6])),
        done(numbers, &list(&[5, 6, 5, 6, 5, 6]))
    );
}

#[test]
fn t04_17_operations_are_no_calls() {
    // Rule 0 calls itself on the rest of a sequence, and then rule 1, which
    // joins 9 to an empty one. For 31 numbers that is the 32nd nested call.
    let grammar = |map| vec![2, map, 1, 1, 2];
    let with = |count: usize| {
        let main = RuleText {
            pattern: &[(0, 0), (64, 1), (64, 0)],
            replacement: &[(0, 0), (65, 0), (66, 1), (2, 0), (0, 0), (1, 0)],
            ..NONE
        };
        let joining = RuleText {
            pattern: &[(0, 1)],
            parts: &[construct(1, &[(1, 9)]), construct(0, &[(0, 1)])],
            replacement: &chain(1, &[apply(JOIN, &[0])]),
            ..NONE
        };
        let tree = sequence_of(0, &vec![vec![1, 5]; count]);
        line(grammar, 99, &[main, joining], &tree)
    };
    // 32 attempts of rule 0 and 31 of rule 1; the result has 32 numbers.
    assert_eq!(with(31), "done 63 1 195");
    assert_eq!(with(32), "stopped 41 32 0 195");
}

#[test]
fn t04_17_arguments_are_not_live() {
    let great = list_of_nodes(2_048);
    // 2,048 + 2,047 + 1 + 2,047 are live, then the copy of a number: 6,144. The
    // last part always fails.
    let length = RuleText {
        pattern: &[(0, 0), (64, 1)],
        parts: &[
            construct(2, &[(2, 5)]),
            construct(1, &[(65, 0)]),
            construct(2, &chain(1, &[apply(LENGTH, &[0])])),
            deconstruct(3, &[(2, 5)]),
        ],
        replacement: &[(0, 0), (1, 1)],
        ..NONE
    };
    assert_eq!(line(numbers, 1, &[length], &great), "done 1 0 6144");
    // 2,048 + 2,047 + 1 are live, then a result of 2,047.
    for operation in [JOIN, EXTRACT] {
        let growing = RuleText {
            pattern: &[(0, 0), (64, 1)],
            parts: &[
                construct(1, &[(1, 1)]),
                construct(1, &chain(1, &[apply(operation, &[0])])),
                deconstruct(2, &[(1, 1)]),
            ],
            replacement: &[(0, 0), (1, 1)],
            ..NONE
        };
        assert_eq!(line(numbers, 1, &[growing], &great), "done 1 0 6144");
    }
}

/// Type 0 has forms of sequences 1 of numbers 2, and of numbers:
/// 0 [1], 1 [1 1], 2 [1 2 1], 3 [1 1 1], 4 [2 1 1 2] and 5 [1 1 2].
fn shapes(map: u32) -> Vec<u32> {
    let forms: [&[u32]; 6] = [
        &[1],
        &[1, 1],
        &[1, 2, 1],
        &[1, 1, 1],
        &[2, 1, 1, 2],
        &[1, 1, 2],
    ];
    let mut words = vec![3, 8, forms.len() as u32];
    for form in forms {
        words.push(form.len() as u32);
        words.extend(form);
    }
    words.extend([map, 2, 1, 2]);
    words
}

/// Form 2 of `shapes` with sequences of that many numbers and the number 0
/// between them: 2 x first + 2 x second + 4 nodes.
fn two_sequences(first: usize, second: usize) -> Vec<u32> {
    let fives = |count| sequence(&vec![5; count]);
    [vec![0, 2], fives(first), vec![2, 0], fives(second)].concat()
}

/// Binds the sequences to variables 0 and 2 and the 0 to variable 1.
const TWO_SEQUENCES: RuleText = RuleText {
    pattern: &[(0, 2), (64, 1), (64, 2), (64, 1)],
    ..NONE
};

/// Binds the sequence of form 0 to variable 0.
const ONE_SEQUENCE: RuleText = RuleText {
    pattern: &[(0, 0), (64, 1)],
    ..NONE
};

/// The first line for form 0 of `shapes` with a sequence of that many numbers:
/// 2 x numbers + 2 nodes.
fn on_one(count: usize, texts: &[RuleText]) -> String {
    line(shapes, 9, texts, &list(&vec![5; count]))
}

#[test]
fn document_004_example_of_joining_an_element_and_a_list() {
    // a,b,c joined with f(x) and with 1,2,3.
    let applications = [apply(JOIN, &[1]), apply(JOIN, &[2])];
    let joining = RuleText {
        replacement: &[vec![(0, 0)], chain(0, &applications)].concat(),
        ..TWO_SEQUENCES
    };
    let (first, last) = (sequence(&[11, 12, 13]), sequence(&[1, 2, 3]));
    let tree = [vec![0, 2], first, vec![2, 7], last].concat();
    assert_eq!(
        on(shapes, 1, &[joining], &tree),
        done(shapes, &list(&[11, 12, 13, 7, 1, 2, 3]))
    );
}

#[test]
fn document_004_example_of_deleting_an_element() {
    // The third: what is left are 1 to 2, and from 4 on.
    let applications = [apply(HEAD, &[1]), apply(JOIN, &[3])];
    let deleting = RuleText {
        parts: &[
            construct(2, &[(2, 200)]),
            construct(2, &[(2, 400)]),
            construct(1, &chain(0, &[apply(TAIL, &[2])])),
        ],
        replacement: &[vec![(0, 0)], chain(0, &applications)].concat(),
        ..ONE_SEQUENCE
    };
    assert_eq!(
        on(shapes, 1, &[deleting], &list(&[1, 2, 3, 4, 5])),
        done(shapes, &list(&[1, 2, 4, 5]))
    );
}

#[test]
fn document_004_example_of_the_last_five_elements() {
    // From the length less 4 on.
    let start = [apply(LENGTH, &[0]), apply(1_001, &[1])];
    let last_five = RuleText {
        parts: &[construct(2, &[(2, 400)]), construct(2, &chain(1, &start))],
        replacement: &[vec![(0, 0)], chain(0, &[apply(TAIL, &[2])])].concat(),
        ..ONE_SEQUENCE
    };
    assert_eq!(
        on(shapes, 1, &[last_five], &list(&[1, 2, 3, 4, 5, 6, 7])),
        done(shapes, &list(&[3, 4, 5, 6, 7]))
    );
}

#[test]
fn t04_18_42_counts_what_the_replacement_has_so_far() {
    let joined = chain(2, &[apply(JOIN, &[2])]);
    let copied = vec![(65, 0)];
    let moved = chain(0, &[apply(TAIL, &[1])]);
    for first in [copied, moved] {
        let pairs = [vec![(0, 2)], first, vec![(2, 5)], joined.clone()].concat();
        let replaced = |count| {
            let text = RuleText {
                replacement: &pairs,
                ..TWO_SEQUENCES
            };
            line(shapes, 1, &[text], &two_sequences(count, 300))
        };
        // 1 + 845 + 1 nodes so far, and 1,201.
        assert_eq!(replaced(422), "done 1 1 6144");
        assert_eq!(replaced(423), "stopped 42 1 0 4350");
        let built = |count| {
            let text = RuleText {
                parts: &[construct(0, &pairs)],
                replacement: &[(0, 0), (1, 1)],
                ..TWO_SEQUENCES
            };
            line(shapes, 1, &[text], &two_sequences(count, 300))
        };
        assert_eq!(built(422), "done 1 1 6");
        assert_eq!(built(423), "stopped 42 1 0 4350");
    }
}

#[test]
fn t04_18_places_still_to_fill_do_not_count() {
    // 1 + 2,047 nodes, and two places more.
    let thrice = chain(0, &[apply(JOIN, &[0]), apply(JOIN, &[0])]);
    let with = |application| {
        let number = chain(1, &[application]);
        let text = RuleText {
            replacement: &[vec![(0, 2)], thrice.clone(), number, vec![(65, 2)]].concat(),
            ..TWO_SEQUENCES
        };
        line(shapes, 1, &[text], &two_sequences(341, 0))
    };
    assert_eq!(with(apply(1_002, &[1])), "stopped 45 1 0 2058");
    assert_eq!(with(apply(1_004, &[])), "stopped 42 1 0 2058");
}

#[test]
fn t04_18_replacements_of_other_calls_do_not_count() {
    let join = apply(JOIN, &[0]);
    let joining = chain(0, std::slice::from_ref(&join));
    let with = |applications: &[Vec<(u32, u32)>]| {
        let texts = [
            RuleText {
                replacement: &[vec![(0, 1), (65, 0)], chain(0, applications)].concat(),
                ..ONE_SEQUENCE
            },
            RuleText {
                target: 1,
                pattern: &[(64, 1)],
                replacement: &joining,
                ..NONE
            },
            RuleText {
                target: 1,
                pattern: &[(64, 1)],
                replacement: &[(1, 1)],
                ..NONE
            },
        ];
        on_one(350, &texts)
    };
    // 1 + 701 nodes so far, and 1,401, which rule 2 makes 1.
    let (join_in_a_call, emptying) = (apply(1, &[]), apply(2, &[]));
    assert_eq!(
        with(&[join_in_a_call.clone(), emptying.clone()]),
        "done 3 1 2109"
    );
    assert_eq!(with(&[join, emptying]), "stopped 42 1 0 2106");
    assert_eq!(with(&[join_in_a_call]), "stopped 42 2 0 2106");
}

#[test]
fn t04_18_the_scope_replaced_does_not_count() {
    let with = |count, joins: usize| {
        let text = RuleText {
            replacement: &[vec![(0, 0)], chain(0, &vec![apply(JOIN, &[0]); joins])].concat(),
            ..ONE_SEQUENCE
        };
        on_one(count, &[text])
    };
    // 1,001 nodes give way to 2,001.
    assert_eq!(with(500, 1), "done 1 1 6006");
    // 1 + 2,047 nodes, and 1 + 2,053.
    assert_eq!(with(341, 2), "done 1 1 6144");
    assert_eq!(with(342, 2), "stopped 42 1 0 2058");
}

/// What applications make of the third copy of a sequence of 901 nodes, behind
/// 1 + 901 + 901 others. Variable 1 is 0 and variable 2 this position; rule 1
/// matches nothing but an empty sequence.
fn third_of_three(position: u32, applications: &[Vec<(u32, u32)>]) -> String {
    let texts = [
        RuleText {
            parts: &[construct(2, &[(2, 0)]), construct(2, &[(2, position)])],
            replacement: &[vec![(0, 3), (65, 0), (65, 0)], chain(0, applications)].concat(),
            ..ONE_SEQUENCE
        },
        RuleText {
            target: 1,
            pattern: &[(1, 1)],
            replacement: &[(1, 1)],
            ..NONE
        },
    ];
    on_one(450, &texts)
}

#[test]
fn t04_19_42_is_judged_at_the_operation() {
    let to_position = apply(HEAD, &[2]);
    let emptying = apply(HEAD, &[1]);
    // 1,803 + 245 nodes, and 1,803 + 247.
    let with =
        |count: u32, applications: &[Vec<(u32, u32)>]| third_of_three(100 * count, applications);
    let cut = [to_position.clone()];
    assert_eq!(with(122, &cut), "done 1 1 6144");
    assert_eq!(with(123, &cut), "stopped 42 1 0 2706");
    // Though the next application would make it 1,803 + 1.
    let cut_twice = [to_position, emptying.clone()];
    assert_eq!(with(122, &cut_twice), "done 1 1 5412");
    assert_eq!(with(123, &cut_twice), "stopped 42 1 0 2706");
    // Though the result is the whole scope, or is larger.
    let whole = [apply(TAIL, &[1]), emptying.clone()];
    assert_eq!(with(0, &whole), "stopped 42 1 0 2706");
    let joined = [apply(JOIN, &[0]), emptying];
    assert_eq!(with(0, &joined), "stopped 42 1 0 2706");
}

#[test]
fn t04_19_a_rules_result_and_the_copy_are_judged_at_the_move() {
    let idle = apply(1, &[]);
    let emptying = apply(HEAD, &[1]);
    assert_eq!(
        third_of_three(0, std::slice::from_ref(&emptying)),
        "done 1 1 5412"
    );
    assert_eq!(
        third_of_three(0, &[idle.clone(), emptying]),
        "done 2 1 5412"
    );
    assert_eq!(third_of_three(0, &[idle]), "stopped 42 2 0 2706");
    // A copy that is not cut.
    let copying = RuleText {
        replacement: &[(0, 3), (65, 0), (65, 0), (65, 0)],
        ..ONE_SEQUENCE
    };
    assert_eq!(on_one(450, &[copying]), "stopped 42 1 0 2706");
}

/// Type 0 is `form 0: [0]`, `form 1: [1]` or `form 2: [1, 0]` over a sequence 1
/// of type 0; type 2 is a number.
fn nested(map: u32) -> Vec<u32> {
    vec![3, 8, 3, 1, 0, 1, 1, 2, 1, 0, map, 0, 1, 2]
}

/// A tree of `nested`: that many levels of form 0, then an empty sequence. It
/// has levels + 2 nodes and that nesting.
fn deep(levels: usize) -> Vec<u32> {
    [[0, 0].repeat(levels), vec![0, 1, 1, 1]].concat()
}

#[test]
fn t04_20_43_over_the_result_alone() {
    // The tree is put in an empty sequence, which stands under form 1 and that
    // many levels of form 0. Variable 2 is 0.
    let with = |levels: usize, applications: &[Vec<(u32, u32)>], tree: &[u32]| {
        let above = [vec![(0, 0); levels], vec![(0, 1)]].concat();
        let text = RuleText {
            pattern: &[(64, 0)],
            parts: &[construct(1, &[(1, 1)]), construct(2, &[(2, 0)])],
            replacement: &[above, chain(1, applications)].concat(),
            ..NONE
        };
        line(nested, 1, &[text], tree)
    };
    let emptying = apply(HEAD, &[2]);
    for operation in [JOIN, EXTRACT] {
        let grow = apply(operation, &[0]);
        let grow_and_cut = [grow.clone(), emptying.clone()];
        // In the sequence a tree of nesting 63 has nesting 64 and passes, also
        // where its place has nesting 12; one of 64 stops.
        assert_eq!(with(0, &grow_and_cut, &deep(61)), "done 1 1 6");
        assert_eq!(with(10, &grow_and_cut, &deep(61)), "done 1 1 36");
        assert_eq!(with(0, &grow_and_cut, &deep(62)), "stopped 43 1 0 192");
        // Not cut, it stops when the replacement is finished.
        let grow = [grow];
        assert_eq!(with(0, &grow, &deep(60)), "done 1 1 195");
        assert_eq!(with(0, &grow, &deep(61)), "stopped 43 1 0 189");
    }
}

#[test]
fn t04_21_a_result_is_live_instead_of_its_scope() {
    let first_line = |text: String| text.lines().next().unwrap_or_default().to_string();
    // 2,048 + 2,047 + 1 + 1 + 2,047 are live with the copy: 6,144.
    let great = vec![5; 1_023];
    assert_eq!(first_line(head(&great, 100_000)), "done 1 1 6006");
    assert_eq!(first_line(tail(&great, 0)), "done 1 1 6144");
    assert_eq!(first_line(select(&great, 0, 0)), "stopped 44 1 0 6144");
    // 1,024 + 3 x 1,023 + numbers + 1 are live, then a result of 2,045.
    let with = |numbers: usize| {
        let mut parts = vec![construct(1, &[(65, 0)]); 2];
        parts.extend(vec![construct(2, &[(2, 5)]); numbers]);
        let text = RuleText {
            parts: &parts,
            replacement: &[vec![(0, 0)], chain(0, &[apply(JOIN, &[0])])].concat(),
            ..ONE_SEQUENCE
        };
        on_one(511, &[text])
    };
    assert_eq!(with(5), "done 1 1 6138");
    assert_eq!(with(6), "stopped 44 1 0 3072");
}

#[test]
fn t04_22_the_lowest_number_stops() {
    // The whole tree, which has a sequence of 3 x elements + 1 nodes and a deep
    // tree of levels + 2, is joined to that sequence as one element.
    let with = |elements: usize, levels: usize, holding: bool| {
        let sequence = sequence_of(1, &vec![vec![0, 1, 1, 1]; elements]);
        let tree = [vec![0, 2], sequence, deep(levels)].concat();
        let mut parts = vec![deconstruct(0, &[(0, 2), (64, 1), (64, 0)])];
        if holding {
            parts.push(construct(1, &[(65, 1)]));
        }
        let text = RuleText {
            pattern: &[(64, 0)],
            parts: &parts,
            replacement: &[vec![(0, 1)], chain(1, &[apply(JOIN, &[0])])].concat(),
            ..NONE
        };
        line(nested, 1, &[text], &tree)
    };
    // 331 elements pass 42, 330 do not; 61 levels pass 43, 60 do not; with the
    // build more than 6,144 nodes would be live.
    assert_eq!(with(331, 61, true), "stopped 42 1 0 3174");
    assert_eq!(with(331, 61, false), "stopped 42 1 0 3174");
    assert_eq!(with(331, 60, true), "stopped 42 1 0 3171");
    assert_eq!(with(330, 61, true), "stopped 43 1 0 3165");
    assert_eq!(with(330, 61, false), "stopped 43 1 0 3165");
    assert_eq!(with(330, 60, true), "stopped 44 1 0 3162");
}

/// What applications make of a number variable behind these pairs, in a tree
/// whose sequence has that many numbers. Variable 0 is the sequence, 1 the
/// number 0 and 2 the number 1.00.
fn last_number(
    above: &[(u32, u32)],
    count: usize,
    number: u32,
    applications: &[Vec<(u32, u32)>],
) -> String {
    let text = RuleText {
        parts: &[construct(2, &[(2, 0)]), construct(2, &[(2, 100)])],
        replacement: &[above, &chain(number, applications)[..]].concat(),
        ..ONE_SEQUENCE
    };
    on_one(count, &[text])
}

/// With sequences of 1,023 nodes these have 2,048 and 2,047.
const FORM_4: &[(u32, u32)] = &[(0, 4), (2, 5), (65, 0), (65, 0)];
const FORM_5: &[(u32, u32)] = &[(0, 5), (65, 0), (65, 0)];

#[test]
fn t04_23_42_at_the_result_of_length() {
    let length = apply(LENGTH, &[0]);
    let divide = apply(1_002, &[1]);
    let then_divide = [length.clone(), divide.clone()];
    let first_divide = [divide, length.clone()];
    let length = [length];
    assert_eq!(
        last_number(FORM_4, 511, 1, &then_divide),
        "stopped 42 1 0 3072"
    );
    assert_eq!(
        last_number(FORM_4, 511, 1, &first_divide),
        "stopped 45 1 0 3072"
    );
    assert_eq!(last_number(FORM_4, 511, 1, &length), "stopped 42 1 0 3072");
    // With 2,044 nodes so far, and with 2,047.
    assert_eq!(
        last_number(FORM_4, 510, 1, &then_divide),
        "stopped 45 1 0 3066"
    );
    assert_eq!(last_number(FORM_4, 510, 1, &length), "done 1 1 6135");
    assert_eq!(last_number(FORM_5, 511, 1, &length), "done 1 1 6144");
}

#[test]
fn t04_24_number_operations_give_nothing_but_45() {
    let divide = apply(1_002, &[1]);
    let operations = [
        apply(1_000, &[2]),
        apply(1_001, &[2]),
        apply(1_002, &[2]),
        apply(1_003, &[2]),
        apply(1_004, &[]),
        apply(1_005, &[]),
    ];
    for operation in operations {
        let then_divide = [operation.clone(), divide.clone()];
        assert_eq!(
            last_number(FORM_4, 511, 2, &then_divide),
            "stopped 45 1 0 3072"
        );
        // 42 comes at the move.
        let alone = std::slice::from_ref(&operation);
        assert_eq!(last_number(FORM_4, 511, 2, alone), "stopped 42 1 0 3072");
        assert_eq!(last_number(FORM_5, 511, 2, alone), "done 1 1 6144");
        // Or at a length behind it.
        let with_length = [operation, apply(LENGTH, &[0]), divide.clone()];
        assert_eq!(
            last_number(FORM_4, 511, 2, &with_length),
            "stopped 42 1 0 3072"
        );
    }
}
