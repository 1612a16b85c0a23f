//! The generators must reach every refusal and every stop often.

use std::collections::BTreeMap;

use generate::{
    calls_near_limit, check_input, counting_down, live_nodes_at_limit, live_nodes_near_limit,
    nesting_near_limit, nodes_near_limit, one_pass, operations_near_limit, reference_outcome,
    rounding, run_input, run_list, sequence_operations, shrink, to_bench, typed_input, Input,
};
use reference::bench;
use reference::grammar::Grammar;
use reference::limits;
use reference::rules::{read_layout, Reach};
use reference::tree::Tree;
use reference::{check_grammar, check_rules, check_slip, Outcome};

const INPUTS: u64 = 20_000;
const LISTS: u64 = 8_000;
const LEAST: u32 = 50;

/// The refusals that the single checks give: all but those of the memories and
/// the budget.
const REFUSALS_OF_CHECKS: [u32; 15] = [4, 5, 10, 11, 12, 20, 21, 22, 23, 24, 30, 31, 32, 33, 34];

#[test]
fn every_refusal_of_the_checks_is_given_often() {
    let mut counts: BTreeMap<u32, u32> = BTreeMap::new();
    let mut passed = 0;
    for seed in 0..INPUTS {
        let input = check_input(seed);
        let results = match check_grammar(&input.grammar) {
            Err(refusal) => vec![Err(refusal)],
            Ok(()) => vec![
                check_rules(&input.grammar, &input.rules),
                check_slip(&input.grammar, &input.slip),
            ],
        };
        passed += u32::from(results.iter().all(Result::is_ok));
        for refusal in results.into_iter().filter_map(Result::err) {
            *counts.entry(refusal.number).or_default() += 1;
        }
    }
    println!("of {INPUTS} inputs for the checks {passed} pass; refusals: {counts:?}");
    for number in REFUSALS_OF_CHECKS {
        let count = counts.get(&number).copied().unwrap_or(0);
        assert!(count >= LEAST, "refusal {number} is given {count} times");
    }
}

#[test]
fn every_refusal_of_runs_is_given_often() {
    let mut counts: BTreeMap<u32, u32> = BTreeMap::new();
    for seed in 0..LISTS {
        let list = run_list(seed);
        for input in &list.inputs {
            let outcome = reference::run(
                &input.grammar,
                &input.rules,
                &input.slip,
                input.budget,
                list.result.len(),
                list.work.len(),
            );
            if let Outcome::Refused(refusal) = outcome {
                *counts.entry(refusal.number).or_default() += 1;
            }
        }
    }
    println!("refusals of the runs of {LISTS} lists: {counts:?}");
    for number in [1, 2, 3].into_iter().chain(REFUSALS_OF_CHECKS) {
        let count = counts.get(&number).copied().unwrap_or(0);
        assert!(count >= LEAST, "refusal {number} is given {count} times");
    }
}

#[test]
fn every_stop_of_runs_is_reached_often() {
    let mut stops: BTreeMap<u32, u32> = BTreeMap::new();
    let mut refusals: BTreeMap<u32, u32> = BTreeMap::new();
    let (mut done, mut replaced, mut more_than_one) = (0, 0, 0);
    for seed in 0..INPUTS {
        match reference_outcome(&run_input(seed)) {
            Outcome::Refused(refusal) => *refusals.entry(refusal.number).or_default() += 1,
            Outcome::Ended {
                stop, replacements, ..
            } => {
                match stop {
                    Some(number) => *stops.entry(number).or_default() += 1,
                    None => done += 1,
                }
                replaced += u32::from(replacements > 0);
                more_than_one += u32::from(replacements > 1);
            }
        }
    }
    println!("of {INPUTS} runs {done} are done; stops: {stops:?}; refusals: {refusals:?}");
    println!("{replaced} runs replace something, {more_than_one} more than once");
    for number in 40..=45 {
        let count = stops.get(&number).copied().unwrap_or(0);
        assert!(count >= LEAST, "stop {number} is reached {count} times");
    }
    assert!(replaced > INPUTS as u32 / 4);
}

#[test]
fn typed_rules_usually_pass_and_often_match() {
    let (mut passed, mut replaced, mut kinds) = (0, 0, [0; 5]);
    for seed in 0..2_000 {
        let input = typed_input(seed);
        assert_eq!(check_grammar(&input.grammar), Ok(()));
        assert_eq!(check_slip(&input.grammar, &input.slip), Ok(()));
        if let Outcome::Ended { replacements, .. } = reference_outcome(&input) {
            passed += 1;
            replaced += u32::from(replacements > 0);
        }
        for (kind, map) in [1, 2, 4, 8, 16].iter().enumerate() {
            kinds[kind] += u32::from(input.grammar[1] == *map);
        }
    }
    println!("of 2000 typed inputs {passed} pass and {replaced} replace something");
    println!("roots that are token, optional, repeat, forms, list: {kinds:?}");
    assert!(passed > 1_800 && replaced > 600);
    assert!(kinds.iter().all(|&count| count > 0));
}

#[test]
fn trees_reach_every_size_and_depth() {
    let mut sizes = [0; 4];
    let mut depths = [0; 4];
    let (mut largest, mut deepest) = (0, 0);
    for seed in 0..4_000 {
        let input = typed_input(seed);
        let grammar = Grammar::read(&input.grammar).expect("a valid grammar");
        let tree = Tree::read_slip(&grammar, &input.slip).expect("a valid slip");
        sizes[[0, 10, 100, 1_000].partition_point(|&least| least <= tree.size()) - 1] += 1;
        depths[[0, 5, 20, 60].partition_point(|&least| least <= tree.height()) - 1] += 1;
        largest += u32::from(tree.size() >= 2_047);
        deepest += u32::from(tree.height() == 64);
    }
    println!(
        "of 4000 trees with nodes from 0, 10, 100, 1000: {sizes:?}, {largest} with 2047 or more"
    );
    println!("with nesting from 0, 5, 20, 60: {depths:?}, {deepest} with 64");
    assert!(sizes.iter().chain(&depths).all(|&count| count >= 100));
    assert!(largest >= 50 && deepest >= 50);
}

#[test]
fn results_are_slips_and_budgets_only_cut_runs_off() {
    for seed in 0..3_000 {
        let mut input = run_input(seed);
        let outcome = reference_outcome(&input);
        let Outcome::Ended {
            stop,
            attempts,
            ref words,
            ..
        } = outcome
        else {
            continue;
        };
        assert_eq!(check_slip(&input.grammar, words), Ok(()), "seed {seed}");
        if stop == Some(40) || attempts < 2 {
            continue;
        }
        input.budget = attempts;
        assert!(reference_outcome(&input) == outcome, "seed {seed}");
        input.budget = attempts - 1;
        assert!(
            matches!(
                reference_outcome(&input),
                Outcome::Ended { stop: Some(40), attempts: cut, .. } if cut == attempts - 1
            ),
            "seed {seed}"
        );
    }
}

#[test]
fn the_same_seed_gives_the_same_input_and_its_text_is_read_again() {
    for seed in 0..300 {
        assert!(check_input(seed) == check_input(seed), "seed {seed}");
        let input = run_input(seed);
        assert!(input == run_input(seed), "seed {seed}");
        let read = bench::parse(to_bench(&input).as_bytes());
        assert!(read == Some(input), "seed {seed}");
    }
}

#[test]
fn shrinking_keeps_the_failure_and_makes_it_small() {
    let stops_45 = |input: &Input| {
        matches!(
            reference_outcome(input),
            Outcome::Ended { stop: Some(45), .. }
        )
    };
    let words = |input: &Input| input.grammar.len() + input.rules.len() + input.slip.len();
    // Some families have a grammar that nothing can be taken out of.
    let found = (0..INPUTS).map(run_input).filter(stops_45).take(16);
    let mut sizes = Vec::new();
    for input in found {
        let small = shrink(input.clone(), stops_45);
        assert!(stops_45(&small));
        assert!(words(&small) <= words(&input));
        sizes.push((words(&input), words(&small)));
    }
    println!("words of inputs, and how many they shrink to: {sizes:?}");
    let made_small = sizes.iter().filter(|(_, small)| *small < 60).count();
    assert!(sizes.len() == 16 && made_small >= 8);
}

#[test]
fn each_family_reaches_its_stop_and_misses_it() {
    type Family = (&'static str, u32, fn(u64) -> Input);
    let families: [Family; 7] = [
        ("calls_near_limit", 41, calls_near_limit),
        ("nodes_near_limit", 42, nodes_near_limit),
        ("nesting_near_limit", 43, nesting_near_limit),
        ("live_nodes_near_limit", 44, live_nodes_near_limit),
        ("live_nodes_at_limit", 44, live_nodes_at_limit),
        ("operations_near_limit", 45, operations_near_limit),
        ("counting_down", 45, counting_down),
    ];
    for (name, number, family) in families {
        let (mut reached, mut missed) = (0, 0);
        for seed in 0..500 {
            match reference_outcome(&family(seed)) {
                Outcome::Ended { stop: None, .. } => missed += 1,
                Outcome::Ended { stop, .. } => reached += u32::from(stop == Some(number)),
                Outcome::Refused(refusal) => panic!("{name} {seed}: {refusal:?}"),
            }
        }
        println!("of 500 runs of {name} {reached} stop with {number}, {missed} are done");
        assert!(reached >= LEAST && missed >= LEAST / 2, "{name}");
    }
}

#[test]
fn halves_of_odd_and_even_wholes_are_rounded_and_just_missed() {
    // How often, by whether the whole is odd and by the hundredths above it.
    let mut rounded: BTreeMap<(bool, u32), u32> = BTreeMap::new();
    let mut to_the_greatest = 0;
    for seed in 0..500 {
        let input = rounding(seed);
        let Outcome::Ended {
            stop: None, words, ..
        } = reference_outcome(&input)
        else {
            panic!("seed {seed} is not done: round never stops");
        };
        for (before, after) in input.slip.chunks(3).zip(words.chunks(3)) {
            if before[0] == 2 {
                assert_eq!(after[1] % 100, 0, "seed {seed}");
                to_the_greatest += u32::from(after[1] == limits::NUMBER_VALUE);
                let whole = before[1] / 100;
                *rounded
                    .entry((whole % 2 == 1, before[1] % 100))
                    .or_default() += 1;
            }
        }
    }
    println!("numbers rounded, by an odd whole and its hundredths: {rounded:?}");
    println!("{to_the_greatest} are rounded to the greatest number");
    assert!(to_the_greatest >= LEAST);
    for odd in [false, true] {
        for hundredths in 49..=51 {
            assert!(rounded[&(odd, hundredths)] >= LEAST, "{odd} {hundredths}");
        }
    }
}

/// The numbers at and around the limit of document 01, which pass now, and
/// today's limit.
const AROUND_LIMITS: [u32; 4] = [
    999_999_999,
    1_000_000_000,
    limits::NUMBER_VALUE - 1,
    limits::NUMBER_VALUE,
];

#[test]
fn numbers_at_the_limits_pass_and_one_more_is_refused() {
    let mut passed: BTreeMap<u32, u32> = BTreeMap::new();
    let mut refused: BTreeMap<u32, u32> = BTreeMap::new();
    for seed in 0..INPUTS {
        let input = check_input(seed);
        if check_grammar(&input.grammar).is_err() {
            continue;
        }
        let checks = [
            (check_slip(&input.grammar, &input.slip), &input.slip),
            (check_rules(&input.grammar, &input.rules), &input.rules),
        ];
        for (result, words) in checks {
            match result {
                Ok(()) => {
                    for word in AROUND_LIMITS
                        .into_iter()
                        .filter(|word| words.contains(word))
                    {
                        *passed.entry(word).or_default() += 1;
                    }
                }
                Err(refusal) => {
                    let over = words.get(refusal.position) == Some(&(limits::NUMBER_VALUE + 1));
                    *refused.entry(refusal.number).or_default() += u32::from(over);
                }
            }
        }
    }
    println!("slips and rules that pass with a number at a limit: {passed:?}");
    println!("refusals at a number one over the limit: {refused:?}");
    for number in [999_999_999, 1_000_000_000, limits::NUMBER_VALUE] {
        let count = passed.get(&number).copied().unwrap_or(0);
        assert!(count >= LEAST, "{number} passes {count} times");
    }
    assert!(refused[&23] >= LEAST && refused[&32] >= LEAST);
}

#[test]
fn operations_reach_the_limits_and_just_pass_them() {
    let mut made: BTreeMap<u32, u32> = BTreeMap::new();
    let (mut one_over, mut over_32_bits) = (0, 0);
    for seed in 0..INPUTS / 2 {
        let input = operations_near_limit(seed);
        let outcome = reference_outcome(&input);
        let Outcome::Ended { stop, words, .. } = outcome else {
            panic!("seed {seed} is refused");
        };
        let new = |word: &u32| words.contains(word) && !input.slip.contains(word);
        for word in AROUND_LIMITS.into_iter().filter(new) {
            *made.entry(word).or_default() += 1;
        }
        // The first two numbers, which a stop with no replacement left there.
        if stop == Some(45) && words == input.slip {
            let sum = u64::from(words[7]) + u64::from(words[13]);
            one_over += u32::from(sum == u64::from(limits::NUMBER_VALUE) + 1);
            over_32_bits += u32::from(sum > u64::from(u32::MAX));
        }
    }
    println!("runs that make a number at a limit: {made:?}");
    println!("stops where the sum is one over the limit: {one_over}, over 32 bits: {over_32_bits}");
    for number in [1_000_000_000, limits::NUMBER_VALUE] {
        let count = made.get(&number).copied().unwrap_or(0);
        assert!(count >= LEAST, "{number} is made {count} times");
    }
    assert!(one_over >= LEAST && over_32_bits >= LEAST);
}

#[test]
fn lists_have_refused_runs_and_memories_of_every_kind() {
    let (mut short, mut least, mut longer, mut between) = (0, 0, 0, 0);
    let mut results: BTreeMap<usize, u32> = BTreeMap::new();
    for seed in 0..1_000 {
        let list = run_list(seed);
        *results.entry(list.result.len()).or_default() += 1;
        for (words, limit) in [
            (&list.result, limits::RESULT_WORDS),
            (&list.work, limits::WORK_WORDS),
        ] {
            short += u32::from(words.len() < limit);
            least += u32::from(words.len() == limit);
            longer += u32::from(words.len() > limit);
        }
        let refused = |input| matches!(reference_outcome(input), Outcome::Refused(_));
        let refused: Vec<bool> = list.inputs.iter().map(refused).collect();
        between += u32::from(
            refused
                .windows(3)
                .any(|three| three == [false, true, false]),
        );
    }
    println!("of 2000 memories {short} are too short, {least} just long enough, {longer} longer");
    println!("{between} of 1000 lists have a refused run between two accepted ones");
    assert!(short >= LEAST && least >= LEAST && longer >= LEAST && between >= LEAST);
    // Two words a node would need 4,096.
    for length in [0, 4_096, 6_141, 6_142, 6_143, 6_144, 6_145, 6_146, 6_147] {
        let count = results.get(&length).copied().unwrap_or(0);
        assert!(count >= 3, "a result of {length} words comes {count} times");
    }
}

#[test]
fn operations_on_sequences_are_never_refused() {
    let (mut done, mut stopped) = (0, 0);
    for seed in 0..2_000 {
        match reference_outcome(&sequence_operations(seed)) {
            Outcome::Ended { stop: None, .. } => done += 1,
            Outcome::Ended { .. } => stopped += 1,
            Outcome::Refused(refusal) => panic!("{seed}: {refusal:?}"),
        }
    }
    println!("of 2000 runs with operations on sequences {done} are done, {stopped} stopped");
    assert!(done >= 1_000);
}

/// Whether a word of rules is a reach: the only one for which 1 to 3 are allowed
/// and 0 and 4 are not.
fn is_reach(input: &Input, position: usize) -> bool {
    let allowed = |word| {
        let mut rules = input.rules.clone();
        rules[position] = word;
        let refusal = check_rules(&input.grammar, &rules).err();
        refusal.is_none_or(|refusal| (refusal.number, refusal.position) != (21, position))
    };
    (1..=3).all(allowed) && !allowed(0) && !allowed(4)
}

#[test]
fn every_reach_passes_and_those_just_outside_are_refused() {
    let mut passed = [0; 3];
    let mut refused: BTreeMap<u32, u32> = BTreeMap::new();
    for seed in 0..INPUTS {
        let input = check_input(seed);
        let Ok(grammar) = Grammar::read(&input.grammar) else {
            continue;
        };
        match check_rules(&input.grammar, &input.rules) {
            Ok(()) => {
                let rules = read_layout(&grammar, &input.rules).expect("rules that pass");
                let reaches = [Reach::FirstMatch, Reach::Exhaustive, Reach::OnePass];
                for (count, reach) in passed.iter_mut().zip(reaches) {
                    *count += u32::from(rules.iter().any(|rule| rule.reach == reach));
                }
            }
            Err(refusal) if refusal.number == 21 && refusal.position < input.rules.len() => {
                if is_reach(&input, refusal.position) {
                    let word = input.rules[refusal.position];
                    *refused.entry(word).or_default() += 1;
                }
            }
            Err(_) => {}
        }
    }
    println!("rules that pass with reach 1, 2 and 3: {passed:?}; reaches refused: {refused:?}");
    assert!(passed.iter().all(|&count| count >= 1_000));
    for word in [0, 4, u32::MAX] {
        let count = refused.get(&word).copied().unwrap_or(0);
        let least = if word == u32::MAX { LEAST / 10 } else { LEAST };
        assert!(count >= least, "reach {word} is refused {count} times");
    }
}

#[test]
fn one_pass_runs_are_never_refused() {
    let (mut done, mut stopped) = (0, 0);
    for seed in 0..2_000 {
        match reference_outcome(&one_pass(seed)) {
            Outcome::Ended { stop: None, .. } => done += 1,
            Outcome::Ended { .. } => stopped += 1,
            Outcome::Refused(refusal) => panic!("{seed}: {refusal:?}"),
        }
    }
    println!("of 2000 one-pass runs {done} are done, {stopped} stopped");
    assert!(done >= 1_000 && stopped >= 500);
}
