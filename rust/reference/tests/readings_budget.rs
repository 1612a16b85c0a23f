//! T-09, "A bigger budget changes nothing that was finished": a run that ends
//! otherwise than in 40 is the same under every larger budget, and a run that
//! ends in 40 has made exactly as many trials as its budget. All endings in the
//! tables are worked out by hand from the papers.

mod common;

use common::*;
use reference::{Outcome, Refusal};
use std::collections::BTreeMap;

/// Runs that finish, on the bench's grammar. A row is the rules, the numbers of
/// the slip, the ending with its trials and replacements, the numbers left.
const FINISHING: &[&str] = &[
    // Reach 2: none to try; the bench's own; 1 + 2 + 3 trials for two matches.
    "9 2 2 | 1 2 200 | 1 2 4200 : : done 0 0 :",
    "9 2 2 | 1 2 200 | 1 2 4200 : 200 500 : done 3 1 : 4200 500",
    "9 2 2 | 1 2 200 | 1 2 4200 : 200 200 500 : done 6 2 : 4200 4200 500",
    // Reach 1 ends at its match. Reach 3 tries each once.
    "9 2 1 | 1 2 200 | 1 2 4200 : 500 200 200 : done 2 1 : 500 4200 200",
    "9 2 3 | 1 2 200 | 1 2 4200 : 200 500 200 : done 3 2 : 4200 500 4200",
    // Without reach the root alone: joined with itself.
    "8 0 | 2 0 0 64 1 | 5 0 0 66 0 1 0 1010 1 65 0 : 200 500 : done 1 1 : 200 500 200 500",
    // 1.00 is built; what is greater loses it. Comparing costs no trial.
    "13 2 2 | 1 64 2 | 2  4 2 1 2 100  8 4 66 0 1 0 1009 1 65 1 | 4 66 0 1 0 1001 1 65 1
        : 100 300 : done 6 2 : 100 100",
    // A test by rule 1 is a trial more for each number, held or not, negated too.
    "13 2 2 | 1 64 2 | 1  8 3 66 0 1 0 1 0 | 1 2 7 / 0 2 | 1 2 200 : 200 5 : done 6 1 : 7 5",
    "13 2 1 | 1 64 2 | 1  24 3 66 0 1 0 1 0 | 1 2 7 / 0 2 | 1 2 200 : 200 5 : done 4 1 : 200 7",
    // Two applications in a test, up to the first success: 2 + 3 + 3.
    "13 2 3 | 1 64 2 | 1  8 4 66 0 2 0 1 0 2 0 | 1 2 4200 / 0 2 | 1 2 200 / 0 2 | 1 2 500
        : 200 500 700 : done 8 2 : 4200 4200 700",
    // Conditions with reach: to the first match; negated, past all numbers.
    "12 0 | 1 64 0 | 1  8 3 66 0 1 0 1 0 | 2 0 0 1 1 / 1 2 2 | 1 2 200 : 5 200 200 : done 3 1 :",
    "12 0 | 1 64 0 | 1  24 3 66 0 1 0 1 0 | 2 0 0 1 1 / 1 2 1 | 1 2 200 : 5 7 : done 3 1 :",
    // The tested rule 2 builds by rule 1 and takes apart: 1 + 2 for each number.
    "12 0 | 1 64 0 | 1  8 3 66 0 1 0 2 0 | 2 0 0 1 1 / 8 2 | 1 2 200 | 1 2 7
        / 13 2 2 | 1 64 2 | 2  4 2 3 66 0 1 0 1 0  1 1 1 2 7 | 1 2 200 : 5 200 : done 5 1 :",
    // Rule 1 is called twice in a replacement: 1 + 1 + 3.
    "8 0 | 1 64 0 | 4 66 0 2 0 1 0 1 0 / 9 2 1 | 1 2 200 | 1 2 7 : 200 5 200 : done 5 1 : 7 5 7",
    // Rule 1 takes the first number out of the rest: 1, then 2 and 2 trials.
    "9 1 1 | 3 1 0 64 2 64 1 | 6 1 0 65 0 66 1 1 0 1 1 65 0
        / 11 1 2 1 2 | 3 1 0 65 0 64 1 | 1 65 1 : 200 500 200 : done 5 1 : 200 500",
    // A searching part costs no trials, whether it finds 2.00 or not.
    "12 0 | 1 64 0 | 1  3 2 0 1 2 200 | 2 0 0 1 1 : 500 200 : done 1 1 :",
    "12 0 | 1 64 0 | 1  3 2 0 1 2 200 | 2 0 0 1 1 : 500 700 : done 1 0 : 500 700",
    // 41: 3 trials for 2.00, 2 for 5.00, then rule 1 in calls 2 to 32.
    "9 2 3 | 1 64 2 | 4 66 0 2 0 2 0 1 0 / 12 2 | 1 2 500 | 1  4 2 1 2 500 | 3 66 0 1 0 1 0
        / 8 2 | 1 2 200 | 1 2 4200 : 200 500 : stopped 41 36 1 : 4200 500",
    // 42: one number joined with itself up to 512; 1,024 would be 2,049 nodes.
    "9 1 2 | 1 64 1 | 4 66 0 1 0 1010 1 65 0 : 200 : stopped 42 10 9 : 200*512",
    // 44: then 1,026 and 1,025 are held, and the fourth tree built is too much.
    "13 1 2 | 1 64 1 | 4  4 1 1 65 0  4 1 1 65 0  4 1 1 65 0  4 1 1 65 0
        | 4 66 0 1 0 1010 1 65 0 : 200 : stopped 44 10 9 : 200*512",
    // 45: 5.00 less 2.00 again and again; in a negated test, less 0.03 once each.
    "9 1 2 | 5 1 0 64 2 1 0 64 2 64 1 | 8 1 0 66 0 1 0 1001 1 65 1 1 0 65 1 65 2
        : 500 200 : stopped 45 3 2 : 100 200",
    "13 2 3 | 1 64 2 | 1  24 3 66 0 1 0 1 0 | 1 2 700
        / 4 2 | 1 64 2 | 2  4 2 1 2 3  4 2 4 66 0 1 0 1001 1 65 1 : 5 2 : stopped 45 4 0 : 5 2",
];

/// Runs that never finish and leave the slip as it is: the rules, the numbers
/// of the slip, the trials for each replacement (0 where it is in a call).
const ENDLESS: &[&str] = &[
    "9 2 2 | 1 2 200 | 1 2 200 : 200 500 : 1",
    "9 2 2 | 1 2 200 | 1 2 200 : 500 200 : 2",
    "9 1 2 | 1 64 1 | 4 66 0 1 0 1010 1 65 0 : : 1",
    "9 2 2 | 1 64 2 | 3 66 0 1 0 1 0 / 8 2 | 1 2 200 | 1 2 200 : 200 : 2",
    "13 2 2 | 1 64 2 | 1  8 3 66 0 1 0 1 0 | 1 65 0 / 0 2 | 1 2 200 : 500 200 : 4",
    "13 2 2 | 1 64 2 | 1  24 3 66 0 1 0 1 0 | 1 65 0 / 0 2 | 1 2 200 : 200 500 : 4",
    "8 0 | 1 64 0 | 3 66 0 1 0 1 0 / 9 2 2 | 1 2 200 | 1 2 200 : 200 : 0",
    "12 0 | 1 64 0 | 1  8 3 66 0 1 0 1 0 | 1 65 0 / 4 0 | 1 64 0 | 1  4 0 3 66 0 1 0 2 0
        / 9 2 2 | 1 2 200 | 1 2 200 : 200 : 0",
];

/// Type 0 is a number (form 0), type 0 again (1) or a sequence of type 0 (2).
const NESTED: &[u32] = &[3, 8, 3, 1, 1, 1, 0, 1, 2, 1, 2, 4, 0];

/// The values of each type of `NESTED`, of numbers two, with the types below.
const VALUES: [&[(u32, &[u32])]; 3] = [
    &[(0, &[1]), (1, &[0]), (2, &[2])],
    &[(100, &[]), (200, &[])],
    &[(0, &[0, 2]), (1, &[])],
];

/// Rules on `NESTED`.
const BOOKS: &[&str] = &[
    // 1.00 becomes 2.00; itself, without end.
    "9 1 1 | 1 1 100 | 1 1 200",
    "9 1 2 | 1 1 100 | 1 1 200",
    "9 1 3 | 1 1 100 | 1 1 200",
    "9 1 2 | 1 1 100 | 1 1 100",
    // Form 1 is taken off; rule 0 calls itself below it; the first element goes.
    "8 0 | 2 0 1 64 0 | 1 65 0",
    "9 0 2 | 2 0 1 64 0 | 1 65 0",
    "8 0 | 2 0 1 64 0 | 4 0 1 66 0 1 0 0 0",
    "9 2 2 | 3 2 0 64 0 64 2 | 1 65 1",
    // To 42, 42, 43, 44 (with five trees built), 41, 41 (at 2.00), 45 and 45.
    "9 0 2 | 1 64 0 | 6 0 2 2 0 65 0 2 0 65 0 2 1",
    "9 2 2 | 1 64 2 | 4 66 0 1 0 1010 1 65 0",
    "9 0 2 | 1 64 0 | 6 0 1 0 1 0 1 0 1 0 1 65 0",
    "13 0 2 | 1 64 0 | 5  4 0 1 65 0  4 0 1 65 0  4 0 1 65 0  4 0 1 65 0  4 0 1 65 0
        | 8 0 2 2 0 65 0 2 0 65 0 2 0 65 0 2 1",
    "8 0 | 1 64 0 | 3 66 0 1 0 0 0",
    "9 0 3 | 2 0 0 64 1 | 4 0 0 66 0 1 0 1 0 / 12 1 | 1 1 200 | 1  4 1 1 1 200 | 3 66 0 1 0 1 0",
    "13 1 2 | 1 64 1 | 1  4 1 1 1 100 | 4 66 0 1 0 1001 1 65 1",
    "9 1 2 | 1 64 1 | 4 66 0 1 0 1000 1 65 0",
    // Tests; an argument; calls in replacements and in a test; searching parts.
    "13 1 2 | 1 64 1 | 1  8 3 66 0 1 0 1 0 | 1 1 200 / 0 1 | 1 1 100",
    "13 1 2 | 1 64 1 | 1  24 3 66 0 1 0 1 0 | 1 1 200 / 0 1 | 1 1 200",
    "12 0 | 1 64 0 | 1  8 3 66 0 1 0 1 0 | 2 0 0 1 100 / 1 1 1 | 1 1 200",
    "13 0 2 | 1 64 0 | 1  24 3 66 0 1 0 1 0 | 2 0 0 1 200 / 1 1 2 | 1 1 200",
    "13 1 3 | 1 64 1 | 1  8 4 66 0 2 0 1 0 2 0 | 1 1 0 / 0 1 | 1 1 200 / 0 1 | 1 1 100",
    "9 2 1 | 3 2 0 64 0 64 2 | 6 2 0 65 0 66 1 1 0 1 1 65 0
        / 11 2 2 1 0 | 3 2 0 65 0 64 2 | 1 65 1",
    "8 0 | 1 64 0 | 3 66 0 1 0 1 0 / 9 1 2 | 1 1 100 | 1 1 200",
    "8 0 | 1 64 0 | 3 66 0 1 0 1 0 / 9 1 2 | 1 1 100 | 1 1 100",
    "9 2 3 | 3 2 0 64 0 64 2 | 5 2 0 66 0 1 0 1 0 65 1 / 9 0 2 | 2 0 1 64 0 | 1 65 0",
    "12 0 | 1 64 0 | 1  8 3 66 0 1 0 2 0 | 1 65 0 / 8 1 | 1 1 100 | 1 1 200
        / 13 1 1 | 1 64 1 | 2  4 1 3 66 0 1 0 1 0  1 1 1 1 200 | 1 1 100",
    "13 0 3 | 1 64 0 | 1  3 1 0 1 1 200 | 2 0 0 1 100",
    "13 0 2 | 1 64 0 | 1  3 0 0 2 0 1 64 0 | 1 65 1",
];

/// Refused: number and position; grammar, book, slip, the bench's where blank.
const REFUSED: &[&str] = &[
    "4 0 : 0*4097 : :",
    "5 0 : : 0*16385 :",
    "10 8 : 3 8 1 1 1 4 2 1 : :",
    "11 0 : 0 : :",
    "12 1 : 1 8 1 1 0 : :",
    "20 9 : : 1 9 2 2 1 2 200 1 2 :",
    "21 1 : : 1 1 2 2 1 2 200 :",
    "22 9 : : 1 9 2 2 1 2 200 1 65 0 :",
    "23 8 : : 1 9 2 2 1 2 200 1 1 1 :",
    "24 132 : 1 2 0 : 1 8 0 65 0*130 1 0 1 :",
    "30 0 : : : 0",
    "31 3 : : : 0 0 6",
    "32 7 : : : 0 0 6 1 0 5 2 4000000001 1 1 0 3 2 500 1 1 1 1",
    "33 192 : 1 2 0 : 1 8 0 1 0 1 1 0 1 : 0*195",
    "34 17 : : : 0 0 6 1 0 5 2 200 1 1 0 3 2 500 1 1 1 2",
];

/// The words of a text; `|` is there for the eye, and 200*512 is 512 times 200.
fn words(text: &str) -> Vec<u32> {
    let number = |digits: &str| digits.parse::<u32>().expect("a number");
    let texts = text.split_whitespace().filter(|word| *word != "|");
    let runs = texts.map(|word| word.split_once('*').unwrap_or((word, "1")));
    runs.flat_map(|(word, times)| vec![number(word); number(times) as usize])
        .collect()
}

/// A rule book from its rules, which `/` parts.
fn book(text: &str) -> Vec<u32> {
    rules(&text.split('/').map(words).collect::<Vec<_>>())
}

/// Holds a run to an ending ("done", trials, replacements) and the tree left:
/// 40 under each smaller budget, the very same under larger ones.
fn finishes(grammar: &[u32], text: &str, tree: &[u32], ending: &str, left: &[u32]) {
    let with = |budget| bench(budget, grammar, &book(text), tree);
    let trials = words(ending.split(' ').rev().nth(1).expect("the trials"))[0];
    for budget in 1..trials {
        let spent = with(budget).starts_with(&format!("stopped 40 {budget} "));
        assert!(spent, "{text}, budget {budget}: {}", with(budget));
    }
    let enough = trials.max(1);
    let far_larger = [2 * enough, 1_000, 999_999, 1_000_000];
    for budget in (enough..=trials + 10).chain(far_larger) {
        let expected = ended(grammar, ending, left);
        assert_eq!(with(budget), expected, "{text}, budget {budget}");
    }
}

#[test]
fn finishing_runs_need_just_their_trials() {
    for row in FINISHING {
        let fields: Vec<&str> = row.split(':').map(str::trim).collect();
        let [tree, left] = [1, 3].map(|index| list(&words(fields[index])));
        finishes(GRAMMAR, fields[0], &tree, fields[2], &left);
    }
}

#[test]
fn runs_stopped_by_nesting_need_just_their_trials() {
    // An opt of itself: 40 levels are built over it, then it goes under 20.
    let (opt, left) = ([1, 2, 0], words("0*80 0 1"));
    let built = "13 0 2 | 1 64 0 | 1  4 0 41 0*80 65 0 | 21 0*40 65 0";
    finishes(&opt, built, &[0, 1], "stopped 43 3 2", &left);
    // 40 levels in the innermost one's place: 1 + 41 trials.
    let below = "9 0 2 | 1 0 1 | 41 0*80 0 1";
    finishes(&opt, below, &[0, 1], "stopped 43 42 1", &left);
}

#[test]
fn endless_runs_make_as_many_trials_as_the_budget() {
    for row in ENDLESS {
        let fields: Vec<&str> = row.split(':').collect();
        let (tree, each) = (list(&words(fields[1])), words(fields[2])[0]);
        for budget in (1..=70u32).chain([1_000, 65_535, 65_536, 999_999, 1_000_000]) {
            let replacements = budget.checked_div(each).unwrap_or(0);
            let ending = format!("stopped 40 {budget} {replacements}");
            let printed = bench(budget, GRAMMAR, &book(fields[0]), &tree);
            assert_eq!(printed, ended(GRAMMAR, &ending, &tree), "{row}");
        }
    }
}

/// Makes all trees of `NESTED` that go on from words to the types still owed.
fn grow(words: &[u32], owed: &[u32], nodes: usize, made: &mut Vec<Vec<u32>>) {
    let Some((&ty, later)) = owed.split_first() else {
        return made.push(words.to_vec());
    };
    for &(value, below) in VALUES[ty as usize] {
        let (words, owed) = ([words, &[ty, value]].concat(), [below, later].concat());
        if words.len() / 2 + owed.len() <= nodes {
            grow(&words, &owed, nodes, made);
        }
    }
}

/// The stop (0 if the run is done), the trials, the replacements, the tree.
fn ending(outcome: &Outcome) -> (u32, u32, u32, &[u32]) {
    match outcome {
        Outcome::Ended {
            stop,
            attempts,
            replacements,
            words,
        } => (stop.unwrap_or(0), *attempts, *replacements, words),
        Outcome::Refused(refusal) => panic!("{refusal:?}"),
    }
}

/// Holds runs under a budget and the next to T-09. Returns how both end.
fn hold_neighbours(budget: u32, smaller: &Outcome, larger: &Outcome) -> [u32; 2] {
    let [(stop, trials, count, tree), next] = [smaller, larger].map(ending);
    if stop == 40 {
        // A trial was due and is now made, with at most one replacement.
        assert_eq!((trials, next.1), (budget, budget + 1));
        assert!((next.2, next.3) == (count, tree) || next.2 == count + 1);
    } else {
        assert!(trials <= budget, "{trials} trials, budget {budget}");
        assert_eq!(smaller, larger);
    }
    [stop, next.0]
}

#[test]
fn neighbouring_budgets_on_all_small_slips() {
    let (mut trees, mut kinds) = (Vec::new(), BTreeMap::new());
    grow(&[], &[0], 9, &mut trees);
    // Of 2 to 9 nodes there are 3, 3, 3, 6, 9, 12, 27 and 54.
    assert_eq!(trees.len(), 117);
    for rules in BOOKS.iter().map(|text| book(text)) {
        for slip in trees.iter().map(|tree| slip(NESTED, tree)) {
            let run = |budget| reference::run(NESTED, &rules, &slip, budget, 6_144, 16_384);
            let outcomes: Vec<Outcome> = (1..=37).map(run).collect();
            for (budget, pair) in (1..).zip(outcomes.windows(2)) {
                let kind = hold_neighbours(budget, &pair[0], &pair[1]);
                *kinds.entry(kind).or_insert(0) += 1;
            }
            assert!(ending(&outcomes[36]).0 == 40 || outcomes[36] == run(1_000_000));
        }
    }
    // No kind of pair is missing or rare.
    for stop in [0, 40, 41, 42, 43, 44, 45] {
        assert!(kinds[&[stop, stop]] >= 500, "{kinds:?}");
        assert!(kinds[&[40, stop]] >= 100, "{kinds:?}");
    }
}

#[test]
fn refusals_are_the_same_under_every_budget() {
    for row in REFUSED {
        let fields: Vec<&str> = row.split(':').map(str::trim).collect();
        let given = |index: usize, own: &[u32]| match fields[index] {
            "" => own.to_vec(),
            text => words(text),
        };
        let (grammar, rules, slip) = (given(1, GRAMMAR), given(2, RULES), given(3, SLIP));
        let with = |budget| bench_slip(budget, &grammar, &rules, &slip);
        for budget in (1..=40).chain([1_000, 4_097, 65_536, 999_999, 1_000_000]) {
            assert_eq!(with(budget), format!("refused {}", fields[0]));
        }
        assert_eq!([0, 1_000_001, u32::MAX].map(with), ["refused 3 0"; 3]);
    }
}

#[test]
fn budgets_not_allowed_and_short_memories() {
    for budget in [0, 1, 1_000_000, 1_000_001, u32::MAX] {
        let with = |result, work| reference::run(GRAMMAR, RULES, SLIP, budget, result, work);
        let refused = |number| Outcome::Refused(Refusal::new(number, 0));
        assert_eq!(with(6_143, 16_383), refused(1));
        assert_eq!(with(6_144, 16_383), refused(2));
        let third = with(6_144, 16_384) == refused(3);
        assert_ne!(third, (1..=1_000_000).contains(&budget));
    }
}
