//! The counts of a slip (T-07): a wrong one of any kind is told where it stands,
//! by both cores and by a count of one's own, and only if nothing else is wrong;
//! after a run every count is right.

use std::collections::BTreeMap;
use std::fmt::Debug;
use std::io::{stdout, Write};

use compare::{compare_run, Counts};
use generate::{
    any_run_input, damaged_slip, run_input, slip, slip_at_limits, typed_input, with_wrong_count,
    without_counts, Input, WrongCount,
};
use reference::grammar::Grammar;
use tamarind::{Outcome, Stop, RESULT_WORDS, WORK_WORDS};

/// How many slips have their counts damaged.
const SLIPS: u64 = 400;
/// How many runs are made.
const RUNS: u64 = 12_000;
/// How often each kind must come at least.
const LEAST: u32 = 50;

type Kinds<K> = BTreeMap<K, u32>;

fn are_often<K: Ord + Debug>(kinds: &Kinds<K>, expected: impl IntoIterator<Item = K>, least: u32) {
    for kind in expected {
        let count = kinds.get(&kind).copied().unwrap_or(0);
        assert!(count >= least, "{kind:?}: {count} times");
    }
}

fn grammar_of(input: &Input) -> Grammar {
    Grammar::read(&input.grammar).expect("a valid grammar")
}

/// The same nodes with the counts that they ought to have.
fn recounted(grammar: &Grammar, words: &[u32]) -> Vec<u32> {
    slip(grammar, &without_counts(words))
}

/// The refusal that wrong counts alone are due, counted here.
fn due(grammar: &Grammar, words: &[u32]) -> Option<(u32, usize)> {
    let right = recounted(grammar, words);
    let wrong = (0..words.len()).find(|&position| words[position] != right[position]);
    wrong.map(|position| (34, position))
}

/// What both cores answer to a slip, which must be the same.
fn answer(grammar: &[u32], slip: &[u32]) -> Option<(u32, usize)> {
    let proved = tamarind::check_slip(grammar, slip).err();
    let proved = proved.map(|refusal| (refusal.number, refusal.position));
    let reference = reference::check_slip(grammar, slip).err();
    let reference = reference.map(|refusal| (refusal.number, refusal.position));
    assert_eq!(proved, reference, "{grammar:?} {slip:?}");
    proved
}

/// The slips to be damaged: of any grammar, and of runs up to the limits.
fn slip_to_damage(seed: u64) -> Input {
    match seed % 4 {
        0 => run_input(seed),
        _ => typed_input(seed),
    }
}

#[test]
fn wrong_counts_of_each_kind_are_told_where_they_stand() {
    let mut kinds: Kinds<WrongCount> = Kinds::new();
    for seed in 0..SLIPS {
        let mut input = slip_to_damage(seed);
        let grammar = grammar_of(&input);
        let right = input.slip.clone();
        assert_eq!(answer(&input.grammar, &right), None, "seed {seed}");
        for kind in WrongCount::all() {
            let Some(words) = with_wrong_count(seed, &right, kind) else {
                continue;
            };
            let due = due(&grammar, &words);
            assert!(due.is_some(), "seed {seed}: {kind:?} is right");
            assert_eq!(answer(&input.grammar, &words), due, "seed {seed}, {kind:?}");
            *kinds.entry(kind).or_default() += 1;
            input.slip = words;
        }
        // Nothing is run, and no memory is changed.
        let mut endings = Counts::new();
        if let Err(disagreement) = compare_run(&input, &mut endings) {
            panic!("seed {seed}: {disagreement}");
        }
        assert_eq!(endings, Counts::from([(34, 1)]), "seed {seed}");
    }
    // Written, not printed: a test's prints are shown only where it fails.
    writeln!(stdout(), "wrong counts in {SLIPS} slips: {kinds:?}").expect("written");
    are_often(&kinds, WrongCount::all(), LEAST);
    assert!(kinds.values().sum::<u32>() >= 5_000);
}

#[test]
fn every_other_count_of_a_small_slip_is_wrong() {
    let (mut slips, mut wrong) = (0, 0);
    for seed in 0..SLIPS {
        let input = typed_input(seed);
        let nodes = input.slip.len() / 3;
        if nodes > 20 {
            continue;
        }
        slips += 1;
        for position in (0..nodes).map(|node| 3 * node + 2) {
            let mut words = input.slip.clone();
            for count in 0..=3 * nodes as u32 + 3 {
                words[position] = count;
                let told = answer(&input.grammar, &words);
                let right = count == input.slip[position];
                let due = (!right).then_some((34, position));
                assert_eq!(told, due, "seed {seed}, count {count}");
                wrong += u32::from(!right);
            }
        }
    }
    writeln!(stdout(), "{wrong} wrong counts in {slips} small slips").expect("written");
    assert!(slips >= LEAST && wrong >= 10_000);
}

#[test]
fn other_faults_are_told_before_wrong_counts() {
    let mut kinds: Kinds<(u32, &str)> = Kinds::new();
    for seed in 0..4 * SLIPS {
        let input = typed_input(seed);
        let grammar = grammar_of(&input);
        let damaged = match seed % 2 {
            0 => damaged_slip(seed, &grammar),
            _ => slip_at_limits(seed, &grammar),
        };
        let right = recounted(&grammar, &damaged);
        let Some((number, position)) = answer(&input.grammar, &right) else {
            continue;
        };
        for kind in WrongCount::all() {
            let Some(words) = with_wrong_count(seed, &right, kind) else {
                continue;
            };
            let told = answer(&input.grammar, &words);
            assert_eq!(told, Some((number, position)), "seed {seed}, {kind:?}");
            let wrong = (0..words.len()).find(|&place| words[place] != right[place]);
            let before = wrong.is_some_and(|wrong| wrong < position);
            let side = if before { "before" } else { "behind" };
            *kinds.entry((number, side)).or_default() += 1;
        }
    }
    writeln!(
        stdout(),
        "wrong counts before and behind other faults: {kinds:?}"
    )
    .expect("written");
    let told_first = [31, 32, 33].into_iter().flat_map(|number| {
        let sides = ["before", "behind"];
        sides.map(|side| (number, side))
    });
    are_often(&kinds, told_first.chain([(30, "behind")]), LEAST);
}

/// What became of a slip in a run that was not refused.
fn kinds_of_run(input: &Input, stop: Option<Stop>, replaced: bool, filled: &[u32]) -> Vec<String> {
    let size = match filled.len().cmp(&input.slip.len()) {
        std::cmp::Ordering::Less => "fewer nodes",
        std::cmp::Ordering::Equal => "as many nodes",
        std::cmp::Ordering::Greater => "more nodes",
    };
    let ending = stop.map_or("done".into(), |stop| format!("stopped {}", stop.number()));
    let counts = |words: &[u32]| -> Vec<u32> { words.chunks(3).map(|node| node[2]).collect() };
    let moved = size == "as many nodes" && counts(filled) != counts(&input.slip);
    let mut kinds = vec![ending.clone()];
    if replaced {
        kinds.extend([size.to_string(), format!("{ending}, {size}")]);
    }
    if moved {
        kinds.push("as many nodes, other counts".into());
    }
    if filled == input.slip {
        kinds.push("the slip itself".into());
    }
    if filled.len() == RESULT_WORDS {
        kinds.push("2,048 nodes".into());
    }
    kinds
}

const KINDS_OF_RUN: [&str; 16] = [
    "done",
    "stopped 40",
    "stopped 41",
    "stopped 42",
    "stopped 43",
    "stopped 44",
    "stopped 45",
    "fewer nodes",
    "as many nodes",
    "more nodes",
    "done, fewer nodes",
    "done, more nodes",
    "stopped 40, more nodes",
    "as many nodes, other counts",
    "the slip itself",
    "2,048 nodes",
];

#[test]
fn every_count_is_right_after_a_run() {
    let mut kinds: Kinds<String> = Kinds::new();
    // Never cleared, so that a count that was not written would be another's.
    let (mut result, mut work) = (vec![u32::MAX; RESULT_WORDS], vec![0; WORK_WORDS]);
    for seed in 0..RUNS {
        let input = any_run_input(seed);
        let Input {
            grammar,
            rules,
            slip,
            budget,
        } = &input;
        let outcome = tamarind::run(grammar, rules, slip, *budget, &mut result, &mut work);
        let Outcome::Ended {
            stop,
            replacements,
            filled,
            ..
        } = outcome
        else {
            continue;
        };
        let filled = &result[..filled];
        assert_eq!(tamarind::check_slip(grammar, filled), Ok(()), "seed {seed}");
        let decoded = grammar_of(&input);
        assert_eq!(recounted(&decoded, filled), filled, "seed {seed}");
        for kind in kinds_of_run(&input, stop, replacements > 0, filled) {
            *kinds.entry(kind).or_default() += 1;
        }
    }
    writeln!(stdout(), "slips after {RUNS} runs: {kinds:?}").expect("written");
    are_often(&kinds, KINDS_OF_RUN.map(String::from), LEAST);
}
