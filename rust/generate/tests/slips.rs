//! The slip maker counts as the reference does, and damaged slips have wrong
//! counts of every kind, lengths of every kind, and both at the limits.

use std::collections::BTreeMap;

use generate::{
    check_input, one_pass, run_input, shrink, slip, typed_input, with_wrong_count, without_counts,
    Input, WrongCount,
};
use reference::grammar::Grammar;
use reference::limits;
use reference::tree::{Piece, Tree};
use reference::{check_slip, Refusal};

const INPUTS: u64 = 20_000;
const LEAST: u32 = 50;

type Counts<K> = BTreeMap<K, u32>;

fn is_often<K: Ord + std::fmt::Debug>(counts: &Counts<K>, kind: K, least: u32) {
    let count = counts.get(&kind).copied().unwrap_or(0);
    assert!(count >= least, "{kind:?}: {count} times");
}

/// The reference's tree of the nodes of a slip, whatever their counts.
fn assembled(grammar: &Grammar, slip: &[u32]) -> Tree {
    let nodes = slip.chunks_exact(3).map(|node| Piece::Node {
        ty: node[0],
        value: node[1],
    });
    Tree::assemble(grammar, nodes.collect())
}

/// Whether each node's children, stepped over by their counts, end where the
/// node's own count says.
fn can_be_stepped_over(grammar: &Grammar, slip: &[u32]) -> bool {
    let nodes: Vec<&[u32]> = slip.chunks_exact(3).collect();
    let end = |place: usize| place + nodes[place][2] as usize;
    (0..nodes.len()).all(|place| {
        let children = grammar.child_types(nodes[place][0], nodes[place][1]);
        let steps = children.expect("a value that is allowed").iter();
        steps.fold(place + 1, |next, _| end(next)) == end(place)
    })
}

#[test]
fn slips_are_counted_as_by_the_reference() {
    let mut sizes: Counts<usize> = Counts::new();
    for seed in 0..6_000 {
        let input = match seed % 3 {
            0 => typed_input(seed),
            1 => run_input(seed),
            _ => one_pass(seed),
        };
        let grammar = Grammar::read(&input.grammar).expect("a valid grammar");
        let tree = without_counts(&input.slip);
        assert_eq!(slip(&grammar, &tree), input.slip, "seed {seed}");
        let counted = assembled(&grammar, &input.slip);
        assert_eq!(counted.words(), tree, "seed {seed}");
        assert_eq!(counted.slip(), input.slip, "seed {seed}");
        assert!(can_be_stepped_over(&grammar, &input.slip), "seed {seed}");
        let least = [2_048, 1_000, 100, 10, 1];
        let class = least.into_iter().find(|&least| counted.size() >= least);
        *sizes.entry(class.expect("at least a node")).or_default() += 1;
    }
    println!("slips by their least number of nodes: {sizes:?}");
    for least in [1, 10, 100, 1_000, 2_048] {
        is_often(&sizes, least, LEAST);
    }
}

#[test]
fn trees_that_do_not_fit_are_counted_as_far_as_they_go() {
    let grammar = Grammar::read(&[3, 8, 1, 1, 1, 4, 2, 1, 2]).expect("a valid grammar");
    let cases: [(&[u32], &[u32]); 7] = [
        (&[], &[]),
        // Nothing comes behind what is missing.
        (&[0, 0], &[0, 0, 1]),
        (&[0, 0, 1, 0], &[0, 0, 2, 1, 0, 1]),
        // Nodes left over are a tree of their own.
        (&[0, 0, 1, 1, 1, 1], &[0, 0, 2, 1, 1, 1, 1, 1, 1]),
        // No such type, form or value has children.
        (&[3, 0, 1, 1], &[3, 0, 1, 1, 1, 1]),
        (&[0, 1, 1, 1], &[0, 1, 1, 1, 1, 1]),
        (
            &[0, 0, 1, 0, 2, u32::MAX, 1, 1],
            &[0, 0, 4, 1, 0, 3, 2, u32::MAX, 1, 1, 1, 1],
        ),
    ];
    for (tree, counted) in cases {
        assert_eq!(slip(&grammar, tree), counted, "{tree:?}");
    }
}

/// A slip that is refused, or not, beside the one with right counts.
struct Damaged {
    refusal: Option<Refusal>,
    slip: Vec<u32>,
    right: Vec<u32>,
    grammar: Grammar,
}

impl Damaged {
    fn new(input: &Input) -> Option<Damaged> {
        let grammar = Grammar::read(&input.grammar).ok()?;
        Some(Damaged {
            refusal: check_slip(&input.grammar, &input.slip).err(),
            right: slip(&grammar, &without_counts(&input.slip)),
            slip: input.slip.clone(),
            grammar,
        })
    }

    fn number(&self) -> u32 {
        self.refusal.map_or(0, |refusal| refusal.number)
    }

    fn nodes(&self) -> usize {
        self.right.len() / 3
    }

    /// The places of the nodes whose counts are wrong.
    fn wrong(&self) -> Vec<usize> {
        (0..self.nodes())
            .filter(|place| self.slip[3 * place + 2] != self.right[3 * place + 2])
            .collect()
    }

    fn counts(&self, place: usize) -> (u32, u32) {
        (self.slip[3 * place + 2], self.right[3 * place + 2])
    }
}

/// For each node of a tree the counts of its parent and of its siblings.
fn relatives(tree: &Tree) -> Vec<(Option<u32>, Vec<u32>)> {
    let mut found = Vec::new();
    let mut to_come: Vec<(&Tree, Option<&Tree>)> = vec![(tree, None)];
    while let Some((node, parent)) = to_come.pop() {
        let siblings = parent.map_or(&[][..], Tree::children);
        let siblings = siblings.iter().map(|sibling| sibling.size() as u32);
        found.push((
            parent.map(|parent| parent.size() as u32),
            siblings.collect(),
        ));
        let children = node.children().iter().rev();
        to_come.extend(children.map(|child| (child, Some(node))));
    }
    found
}

/// What a single wrong count is, by all that it may be.
fn kinds_of_one(damaged: &Damaged, place: usize) -> Vec<&'static str> {
    let (wrong, right) = damaged.counts(place);
    let node = &damaged.slip[3 * place..];
    let tree = assembled(&damaged.grammar, &damaged.right);
    let (parent, siblings) = &relatives(&tree)[place];
    let all = [
        ("one less", wrong == right - 1),
        ("one more", wrong == right + 1),
        ("a sibling's", siblings.contains(&wrong)),
        ("the parent's", *parent == Some(wrong)),
        ("the value", wrong == node[1]),
        ("the type", wrong == node[0]),
        ("0", wrong == 0),
        ("the greatest word", wrong == u32::MAX),
        ("4,096 more", wrong == right + 4_096),
        ("65,536 more", wrong == right + 65_536),
        ("2^31 more", wrong == right + (1 << 31)),
        ("three times, as words", wrong == 3 * right),
        ("twice, as words", wrong == 2 * right),
        ("in the first node", place == 0),
        ("in the last node", place + 1 == damaged.nodes()),
    ];
    let held = all.into_iter().filter(|(_, holds)| *holds);
    held.map(|(kind, _)| kind).collect()
}

/// What several wrong counts are together.
fn kinds_of_several(damaged: &Damaged, places: &[usize]) -> Vec<&'static str> {
    let counts: Vec<(u32, u32)> = places.iter().map(|&place| damaged.counts(place)).collect();
    let each = places.len() == damaged.nodes();
    let sum = |pick: fn(&(u32, u32)) -> u32| -> u32 {
        counts.iter().map(pick).fold(0, u32::wrapping_add)
    };
    let exchanged = matches!(
        counts[..],
        [first, second] if first == (second.1, second.0)
    );
    let all = [
        ("two", places.len() == 2),
        ("cancel", sum(|count| count.0) == sum(|count| count.1)),
        (
            "each without its own node",
            each && counts.iter().all(|(wrong, right)| wrong + 1 == *right),
        ),
        (
            "each in words",
            each && counts.iter().all(|(wrong, right)| *wrong == 3 * right),
        ),
        ("exchanged", exchanged),
    ];
    let held = all.into_iter().filter(|(_, holds)| *holds);
    held.map(|(kind, _)| kind).collect()
}

const KINDS: [&str; 20] = [
    "one less",
    "one more",
    "a sibling's",
    "the parent's",
    "the value",
    "the type",
    "0",
    "the greatest word",
    "4,096 more",
    "65,536 more",
    "2^31 more",
    "three times, as words",
    "twice, as words",
    "in the first node",
    "in the last node",
    "two",
    "cancel",
    "each without its own node",
    "each in words",
    "exchanged",
];

#[test]
fn wrong_counts_of_every_kind_are_among_the_inputs_of_the_checks() {
    let mut kinds: Counts<&str> = Counts::new();
    for damaged in (0..INPUTS).filter_map(|seed| Damaged::new(&check_input(seed))) {
        if damaged.number() != 34 {
            continue;
        }
        let wrong = damaged.wrong();
        let told = damaged.refusal.map(|refusal| refusal.position);
        assert_eq!(told, Some(3 * wrong[0] + 2), "{:?}", damaged.slip);
        let found = match wrong[..] {
            [place] => kinds_of_one(&damaged, place),
            _ => kinds_of_several(&damaged, &wrong),
        };
        for kind in found {
            *kinds.entry(kind).or_default() += 1;
        }
    }
    println!("wrong counts in {INPUTS} inputs of the checks: {kinds:?}");
    for kind in KINDS {
        is_often(&kinds, kind, LEAST);
    }
}

#[test]
fn wrong_counts_stand_before_and_behind_other_faults() {
    let mut kinds: Counts<(u32, &str)> = Counts::new();
    for damaged in (0..INPUTS).filter_map(|seed| Damaged::new(&check_input(seed))) {
        let Some(refusal) = damaged.refusal.filter(|_| damaged.slip.len() % 3 == 0) else {
            continue;
        };
        let wrong = damaged.wrong();
        let side = |place: &usize| 3 * place + 2 < refusal.position;
        for (name, before) in [("before", true), ("behind", false)] {
            let there = wrong.iter().any(|place| side(place) == before);
            *kinds.entry((refusal.number, name)).or_default() += u32::from(there);
        }
    }
    println!("slips with wrong counts, by their refusal and the side of it: {kinds:?}");
    for number in [31, 32, 33] {
        for side in ["before", "behind"] {
            is_often(&kinds, (number, side), LEAST / 2);
        }
    }
}

#[test]
fn lengths_and_editions_of_every_kind_are_tried() {
    let mut lengths: Counts<String> = Counts::new();
    for damaged in (0..INPUTS).filter_map(|seed| Damaged::new(&check_input(seed))) {
        let length = damaged.slip.len();
        let mut add = |kind: String| *lengths.entry(kind).or_default() += 1;
        match length {
            0..=3 | 6_141..=6_147 => add(length.to_string()),
            6_148.. => add("longer".into()),
            _ => add(format!("3 n + {}", length % 3)),
        }
        let is_slip = |words: Vec<u32>| Tree::read_slip(&damaged.grammar, &words).is_ok();
        let of_four = damaged.slip.chunks_exact(4);
        let of_four: Vec<u32> = of_four.flat_map(|node| node[..3].to_vec()).collect();
        if length > 3 && is_slip(slip(&damaged.grammar, &damaged.slip)) {
            add("two words a node".into());
        }
        if length > 4 && is_slip(of_four) {
            add("four words a node".into());
        }
    }
    println!("lengths and editions of {INPUTS} slips: {lengths:?}");
    let near = (0..=3)
        .chain(6_141..=6_147)
        .map(|length| length.to_string());
    for length in near {
        is_often(&lengths, length, 15);
    }
    for kind in [
        "3 n + 0",
        "3 n + 1",
        "3 n + 2",
        "longer",
        "two words a node",
    ] {
        is_often(&lengths, kind.into(), LEAST);
    }
    is_often(&lengths, "four words a node".into(), 15);
}

#[test]
fn slips_at_the_limits_pass_and_are_refused() {
    let mut kinds: Counts<(&str, bool, u32)> = Counts::new();
    for damaged in (0..INPUTS).filter_map(|seed| Damaged::new(&check_input(seed))) {
        let wrong = damaged.wrong();
        let number = damaged.number();
        let mut add = |kind| *kinds.entry((kind, wrong.is_empty(), number)).or_default() += 1;
        match damaged.slip.len() {
            6_144 => add("2,048 nodes"),
            6_147 => add("2,049 nodes"),
            _ => {}
        }
        if damaged.slip.len() == limits::SLIP_WORDS && wrong == [limits::NODES - 1] {
            add("2,048 nodes, the last count");
        }
        if [0, 34].contains(&number) {
            let height = assembled(&damaged.grammar, &damaged.right).height();
            if height == limits::NESTING {
                add("nesting 64");
            }
        }
        if number == 33 {
            add("nesting 65");
        }
    }
    println!("slips at the limits, by whether their counts are right and how they end: {kinds:?}");
    is_often(&kinds, ("2,048 nodes", true, 0), LEAST);
    is_often(&kinds, ("2,048 nodes", false, 34), LEAST);
    is_often(
        &kinds,
        ("2,048 nodes, the last count", false, 34),
        LEAST / 2,
    );
    is_often(&kinds, ("2,049 nodes", true, 30), LEAST / 2);
    is_often(&kinds, ("2,049 nodes", false, 30), LEAST / 2);
    is_often(&kinds, ("nesting 64", true, 0), LEAST);
    is_often(&kinds, ("nesting 64", false, 34), LEAST);
    is_often(&kinds, ("nesting 65", true, 33), LEAST);
    is_often(&kinds, ("nesting 65", false, 33), LEAST);
}

#[test]
fn each_kind_of_wrong_count_is_wrong_and_nothing_else() {
    let mut made: Counts<WrongCount> = Counts::new();
    for seed in 0..1_000 {
        let input = typed_input(seed);
        for kind in WrongCount::all() {
            let Some(words) = with_wrong_count(seed, &input.slip, kind) else {
                continue;
            };
            let differs = |&position: &usize| words[position] != input.slip[position];
            let wrong: Vec<usize> = (0..words.len()).filter(differs).collect();
            assert_eq!(words.len(), input.slip.len(), "seed {seed}, {kind:?}");
            assert!(wrong.iter().all(|position| position % 3 == 2), "{kind:?}");
            assert!(!wrong.is_empty(), "seed {seed}, {kind:?}");
            assert_eq!(wrong.len() == 1, kind.is_single() || words.len() == 3);
            let due = Err(Refusal::new(34, wrong[0]));
            assert_eq!(check_slip(&input.grammar, &words), due, "{kind:?}");
            *made.entry(kind).or_default() += 1;
        }
    }
    println!("wrong counts made for 1000 slips: {made:?}");
    for kind in WrongCount::all() {
        is_often(&made, kind, LEAST);
    }
}

/// Whether a core would miss all wrong counts of an input that looked at their
/// lowest twelve bits alone.
fn is_missed_in_twelve_bits(input: &Input) -> bool {
    let refused_by_34 =
        check_slip(&input.grammar, &input.slip).is_err_and(|refusal| refusal.number == 34);
    refused_by_34
        && Damaged::new(input).is_some_and(|damaged| {
            let wrong = damaged.wrong().into_iter();
            let mut counts = wrong.map(|place| damaged.counts(place));
            counts.all(|(wrong, right)| wrong % 4_096 == right % 4_096)
        })
}

#[test]
fn shrinking_keeps_a_wrong_count_and_makes_the_slip_small() {
    let (mut slips, mut words) = (0, Vec::new());
    for seed in 0..400 {
        let mut input = typed_input(seed);
        let more = WrongCount::MoreBy(1 << 12);
        input.slip = with_wrong_count(seed, &input.slip, more).expect("a count");
        if !(30..=600).contains(&input.slip.len()) || slips == 40 {
            continue;
        }
        slips += 1;
        let small = shrink(input.clone(), is_missed_in_twelve_bits);
        assert!(is_missed_in_twelve_bits(&small), "seed {seed}");
        assert!(small.rules.is_empty() && small.budget == 0, "seed {seed}");
        words.push((input.slip.len(), small.slip.len()));
    }
    println!("words of slips with a wrong count, and how many they shrink to: {words:?}");
    let made_small = words.iter().filter(|(_, small)| *small <= 9).count();
    assert!(slips == 40 && made_small >= 20);
}
