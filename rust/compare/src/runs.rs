//! Compares runs: outcomes, both memories afterwards, and the words to post.

use generate::{shrink, slip, to_bench, without_counts, Input, RunList};
use reference::grammar::Grammar;
use reference::Outcome;
use tamarind::Stop;

use crate::memories::Memories;
use crate::Counts;

/// Runs a list on both cores, each run over the memories as the run before
/// left them, and counts the endings: 0 stands for done. A disagreement is
/// told by an input in the bench format, made smaller.
pub fn compare_list(list: &RunList, counts: &mut Counts) -> Result<(), String> {
    let mut memories = Memories::of_list(list);
    for (run, input) in list.inputs.iter().enumerate() {
        let before = memories.clone();
        match run_both(input, &mut memories) {
            Ok(outcome) => *counts.entry(number(&outcome)).or_default() += 1,
            Err(difference) => {
                let small = describe_smaller(input, before);
                return Err(format!("run {run} of its list: {difference}\n{small}"));
            }
        }
    }
    Ok(())
}

/// Runs one input on both cores, over dirty memories of the least lengths.
pub fn compare_run(input: &Input, counts: &mut Counts) -> Result<(), String> {
    let list = RunList {
        result: vec![u32::MAX; tamarind::RESULT_WORDS],
        work: vec![u32::MAX; tamarind::WORK_WORDS],
        inputs: vec![input.clone()],
    };
    compare_list(&list, counts)
}

/// Runs an input on both cores. Gives the outcome, or what is not as the
/// reference has it.
pub(crate) fn run_both(
    input: &Input,
    memories: &mut Memories,
) -> Result<tamarind::Outcome, String> {
    let theirs = reference::run(
        &input.grammar,
        &input.rules,
        &input.slip,
        input.budget,
        memories.result().len(),
        memories.work().len(),
    );
    let due = memories_due(memories.clone(), &theirs);
    let (result, work) = memories.lend();
    let ours = tamarind::run(
        &input.grammar,
        &input.rules,
        &input.slip,
        input.budget,
        result,
        work,
    );
    let expected = in_our_form(&theirs);
    if ours != expected {
        return Err(format!("proved {ours:?}, reference {expected:?}"));
    }
    if let Some(difference) = memories.difference(&due) {
        return Err(format!("after {ours:?} {difference}"));
    }
    let posted = tamarind::output(&ours, memories.result(), &input.slip);
    if posted != output_due(&theirs, &input.slip) {
        return Err(format!("after {ours:?} other words are posted"));
    }
    if let tamarind::Outcome::Ended { filled, .. } = ours {
        check_filled(&input.grammar, &memories.result()[..filled])?;
    }
    Ok(ours)
}

/// The memories that the paper demands after a run: a refusal changes none;
/// otherwise the result has its filled words and keeps the others, and the
/// work memory is all zero.
fn memories_due(mut memories: Memories, outcome: &Outcome) -> Memories {
    if let Outcome::Ended { words, .. } = outcome {
        let (result, work) = memories.lend();
        result[..words.len()].copy_from_slice(words);
        work.fill(0);
    }
    memories
}

/// What is found after a run that was not refused: the filled words are a slip
/// again, and each count in them is right, as it is counted here.
fn check_filled(grammar: &[u32], filled: &[u32]) -> Result<(), String> {
    if let Err(refusal) = tamarind::check_slip(grammar, filled) {
        return Err(format!("the filled words are no slip: {refusal}"));
    }
    let grammar = Grammar::read(grammar).map_err(|refusal| format!("{refusal:?}"))?;
    if slip(&grammar, &without_counts(filled)) != filled {
        return Err("a count of the filled words is wrong".into());
    }
    Ok(())
}

/// The words to post that the paper demands.
fn output_due<'a>(outcome: &'a Outcome, slip: &'a [u32]) -> &'a [u32] {
    match outcome {
        Outcome::Ended {
            stop: None, words, ..
        } => words,
        _ => slip,
    }
}

/// The reference's outcome as the wrapper of the proved core would tell it.
fn in_our_form(outcome: &Outcome) -> tamarind::Outcome {
    match outcome {
        Outcome::Refused(refusal) => tamarind::Outcome::Refused(tamarind::Refusal {
            number: refusal.number,
            position: refusal.position,
        }),
        Outcome::Ended {
            stop,
            attempts,
            replacements,
            words,
        } => tamarind::Outcome::Ended {
            stop: stop.map(|number| Stop::from_number(number).expect("a stop of the paper")),
            attempts: *attempts,
            replacements: *replacements,
            filled: words.len(),
        },
    }
}

/// The number of a stop or refusal, or 0.
pub(crate) fn number(outcome: &tamarind::Outcome) -> u32 {
    match outcome {
        tamarind::Outcome::Refused(refusal) => refusal.number,
        tamarind::Outcome::Ended { stop, .. } => stop.map_or(0, Stop::number),
    }
}

/// What a run over these memories has wrong, if anything.
fn difference(input: &Input, memories: &Memories) -> Option<String> {
    run_both(input, &mut memories.clone()).err()
}

/// Makes a run on which the cores disagree smaller: first its memories, all
/// zero or all ones and of the least lengths if that will do, then its input.
fn describe_smaller(input: &Input, before: Memories) -> String {
    let (result, work) = (before.result().len(), before.work().len());
    let lengths = format!("the list's memories have {result} and {work} words");
    let candidates = [
        ("over memories all zero", Memories::least(0)),
        ("over memories all ones", Memories::least(u32::MAX)),
        ("over memories as the runs before left them", before),
    ];
    let failing = candidates
        .into_iter()
        .find(|(_, memories)| difference(input, memories).is_some());
    let Some((text, memories)) = failing else {
        return format!("seen only once, on\n{}", to_bench(input));
    };
    let small = shrink(input.clone(), |input| {
        difference(input, &memories).is_some()
    });
    let difference = difference(&small, &memories).unwrap_or_default();
    let bench = to_bench(&small);
    format!("{lengths}; made smaller, {text}: {difference}, on\n{bench}")
}
