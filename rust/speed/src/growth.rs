//! Times runs of which one thing is doubled twice, to show that the cost grows
//! with it and no faster: the nodes that one search goes over, the attempts of
//! a run, the fields that one pass replaces, and the elements of a sequence that
//! is joined and cut.
//!
//! Nothing is subtracted. Each time of the proved core includes the clearing of
//! 16,384 words of work memory, about 1.3 microseconds whatever the input, and
//! each time of either core the checks of the inputs, of which only that of the
//! slip grows with the nodes and none with the budget. So where runs are short
//! the factor is under 2; what doubles there is the growth from one size to the
//! next.

use std::hint::black_box;

use generate::{reference_outcome, slip_of, Input};
use reference::Outcome;

use crate::inputs::{numbers, sequence};
use crate::runs::{assert_alike, ending, Memories};
use crate::timing::medians;

/// The nodes of the trees that one search goes over, up to the most that a tree
/// may have.
const NODES: [u32; 3] = [512, 1_024, 2_048];
/// Whole searches of `search_heavy`, which has 1,023 attempts to each.
const SEARCH_BUDGETS: [u32; 3] = [25 * 1_023, 50 * 1_023, 100 * 1_023];
/// Whole searches where the 26th amount counts down. `replace_heavy` needs more
/// attempts than these to end.
const REPLACE_BUDGETS: [u32; 3] = [100 * 26, 200 * 26, 400 * 26];
/// The elements of the sequence that the operations of each round are applied
/// to, up to those of the workloads.
const ELEMENTS: [u32; 3] = [200, 400, 800];
/// The fields that one pass makes smaller, up to nearly those of the workload.
const FIELDS: [u32; 3] = [170, 340, 680];

const SEARCH_HEAVY: &[u8] = include_bytes!("../workloads/search_heavy.txt");
const REPLACE_HEAVY: &[u8] = include_bytes!("../workloads/replace_heavy.txt");
const ONE_PASS: &[u8] = include_bytes!("../workloads/one_pass.txt");
const ONE_PASS_SHRINK: &[u8] = include_bytes!("../workloads/one_pass_shrink.txt");
const JOIN_HEAVY: &[u8] = include_bytes!("../workloads/join_heavy.txt");
const SELECT_HEAVY: &[u8] = include_bytes!("../workloads/select_heavy.txt");
const EXTRACT_HEAVY: &[u8] = include_bytes!("../workloads/extract_heavy.txt");

/// What grows, and an input for each of its sizes.
struct Series {
    name: &'static str,
    inputs: [(u32, Input); 3],
}

/// Prints the table of growth.
pub fn print_table() {
    println!(
        "| what grows | size | ending | attempts | replacements | proved ns | times the size before | reference ns | times the size before |"
    );
    println!("|---|---|---|---|---|---|---|---|---|");
    let mut memories = Memories::dirty();
    for series in all_series() {
        print_rows(&series, &mut memories);
    }
}

/// Times the inputs of a series and prints a row for each, with the factors by
/// which the times have grown.
fn print_rows(series: &Series, memories: &mut Memories) {
    let times = series_times(series, memories);
    for (index, (size, input)) in series.inputs.iter().enumerate() {
        let (name, cells) = (series.name, outcome_cells(input));
        let [proved, reference] = times.map(|times| time_cells(&times, index));
        println!("| {name} | {size} | {cells} | {proved} | {reference} |");
    }
}

/// The times of both cores at each size, the proved core's first. All six are
/// measured in turn, as the factors compare them all.
fn series_times(series: &Series, memories: &mut Memories) -> [[f64; 3]; 2] {
    for (_, input) in &series.inputs {
        assert_alike(series.name, input);
    }
    let [p0, r0, p1, r1, p2, r2] = medians(|number| {
        let input = black_box(&series.inputs[number / 2].1);
        match number % 2 {
            0 => _ = black_box(memories.run(input)),
            _ => _ = black_box(reference_outcome(input)),
        }
    });
    [[p0, p1, p2], [r0, r1, r2]]
}

/// The time at a size, and how many times the one at the size before it is.
pub fn time_cells(times: &[f64; 3], index: usize) -> String {
    let time = times[index];
    match index {
        0 => format!("{time:.0} |"),
        _ => format!("{time:.0} | {:.2}", time / times[index - 1]),
    }
}

/// How the run ends, its attempts and its replacements.
fn outcome_cells(input: &Input) -> String {
    let (stop, attempts, replacements) = counts(input);
    format!("{} | {attempts} | {replacements}", ending(stop))
}

/// The number of the stop, if it was stopped, the attempts and the replacements
/// of a run that nothing refuses.
fn counts(input: &Input) -> (Option<u32>, u32, u32) {
    match reference_outcome(input) {
        Outcome::Refused(refusal) => panic!("refused: {refusal:?}"),
        Outcome::Ended {
            stop,
            attempts,
            replacements,
            ..
        } => (stop, attempts, replacements),
    }
}

fn all_series() -> [Series; 10] {
    [
        Series {
            name: "nodes of one search",
            inputs: NODES.map(|nodes| (nodes, one_search(fails_at_once(), nodes))),
        },
        Series {
            name: "nodes of one search, attempts that bind",
            inputs: NODES.map(|nodes| (nodes, one_search(fails_in_condition(), nodes))),
        },
        Series {
            name: "attempts of search_heavy",
            inputs: SEARCH_BUDGETS.map(|budget| (budget, with_budget(search_heavy(), budget))),
        },
        Series {
            name: "attempts of replace_heavy",
            inputs: REPLACE_BUDGETS.map(|budget| (budget, with_budget(replace_heavy(), budget))),
        },
        Series {
            name: "attempts of replace_heavy, one amount counts down",
            inputs: REPLACE_BUDGETS.map(|budget| (budget, with_budget(replace_evenly(), budget))),
        },
        Series {
            name: "nodes of one_pass",
            inputs: NODES.map(|nodes| (nodes, one_pass(nodes))),
        },
        Series {
            name: "fields of one_pass_shrink",
            inputs: FIELDS.map(|fields| (fields, one_pass_shrink(fields))),
        },
        Series {
            name: "elements of join_heavy",
            inputs: ELEMENTS.map(|elements| (elements, join_heavy(elements))),
        },
        Series {
            name: "elements of select_heavy",
            inputs: ELEMENTS.map(|elements| (elements, select_heavy(elements))),
        },
        Series {
            name: "elements of extract_heavy",
            inputs: ELEMENTS.map(|elements| (elements, first_elements(EXTRACT_HEAVY, elements))),
        },
    ]
}

/// Rules that search a tree of so many nodes once and find nothing, with more
/// budget than they need.
fn one_search(rules: Vec<u32>, nodes: u32) -> Input {
    let count = (nodes - 2) / 2;
    Input {
        budget: tamarind::GREATEST_BUDGET,
        grammar: numbers(),
        rules,
        slip: sequence(300..300 + count),
    }
}

/// The first 2.00 is replaced by itself: an attempt at each number, which fails
/// at its only pair where there is no 2.00.
fn fails_at_once() -> Vec<u32> {
    let rule = [9, 2, 1];
    let pattern = [1, 2, 200];
    let replacement = [1, 2, 200];
    [&[1], &rule[..], &pattern, &replacement].concat()
}

/// The first sequence whose first number is under 2.50 is replaced by itself:
/// each attempt binds that number and the rest of the sequence, builds 2.50 and
/// fails where that is not greater.
fn fails_in_condition() -> Vec<u32> {
    let rule = [13, 1, 1];
    let pattern = [3, 1, 0, 64, 2, 64, 1];
    let construct = [4, 2, 1, 2, 250];
    let condition = [8, 4, 66, 2, 1, 0, 1_009, 1, 65, 0];
    let replacement = [3, 1, 0, 65, 0, 65, 1];
    let parts = [&[2], &construct[..], &condition].concat();
    [&[1], &rule[..], &pattern, &parts, &replacement].concat()
}

fn search_heavy() -> Input {
    workload(SEARCH_HEAVY)
}

/// Fifty amounts that count down, one after the other. Each search passes over
/// those that are at 0, so a longer run has fewer replacements to its attempts.
fn replace_heavy() -> Input {
    workload(REPLACE_HEAVY)
}

/// The same with one amount that counts down, past any budget, so that each
/// search takes equally many attempts and attempts and replacements double
/// together. It is the one in the middle, which takes as many attempts as
/// `replace_heavy` takes on average.
fn replace_evenly() -> Input {
    let mut input = replace_heavy();
    let amounts = amounts(&input.slip);
    for &at in &amounts {
        input.slip[at] = 0;
    }
    input.slip[amounts[amounts.len() / 2]] = 999_999_999;
    input
}

/// The places of the amounts in a slip of `replace_heavy`, in which a node of
/// type 3 has one child, its amount.
fn amounts(slip: &[u32]) -> Vec<usize> {
    let nodes = slip.chunks_exact(3).enumerate();
    nodes
        .filter(|(_, node)| node[0] == 3)
        .map(|(index, _)| 3 * (index + 1) + 1)
        .collect()
}

/// Each amount of a tree of so many nodes is doubled, once.
fn one_pass(nodes: u32) -> Input {
    cut(workload(ONE_PASS), nodes as usize - 1)
}

/// So many optional amounts are taken away, each with one that moves all behind it
/// and has fewer nodes.
fn one_pass_shrink(fields: u32) -> Input {
    cut(workload(ONE_PASS_SHRINK), 1 + 3 * fields as usize)
}

/// Each round takes half of the elements and joins them with themselves.
fn join_heavy(elements: u32) -> Input {
    let mut input = first_elements(JOIN_HEAVY, elements);
    set_position(&mut input, 400, elements / 2);
    input
}

/// Each round cuts off the first and the last element, the first, the last
/// eighth, and all but one.
fn select_heavy(elements: u32) -> Input {
    let mut input = first_elements(SELECT_HEAVY, elements);
    set_position(&mut input, 799, elements - 1);
    set_position(&mut input, 700, elements - elements / 8);
    input
}

/// Sets a number that the rules have once.
fn set_position(input: &mut Input, from: u32, to: u32) {
    let mut words = input.rules.iter_mut();
    let word = words.find(|word| **word == 100 * from);
    *word.expect("a position") = 100 * to;
}

/// A workload on a sequence of numbers, at the end of its slip, with so many of
/// its elements.
fn first_elements(text: &[u8], elements: u32) -> Input {
    let input = workload(text);
    let others = 2 * (ELEMENTS[2] - elements) as usize;
    let kept = input.slip.len() / 3 - 1 - others;
    cut(input, kept)
}

/// An input whose slip has so many of its nodes and then the end of its sequence,
/// all counted anew.
fn cut(mut input: Input, nodes: usize) -> Input {
    let kept = input.slip.chunks_exact(3).take(nodes);
    let mut tree: Vec<u32> = kept.flat_map(|node| [node[0], node[1]]).collect();
    tree.extend([1, 1]);
    input.slip = slip_of(&input.grammar, &tree);
    input
}

fn workload(text: &[u8]) -> Input {
    reference::bench::parse(text).expect("a bench input")
}

fn with_budget(input: Input, budget: u32) -> Input {
    Input { budget, ..input }
}

#[cfg(test)]
mod tests {
    use compare::{compare_run, Counts};

    use super::*;

    /// The outcomes of a series, as size, stop, attempts and replacements.
    fn outcomes(series: &Series) -> [(u32, Option<u32>, u32, u32); 3] {
        series.inputs.each_ref().map(|(size, input)| {
            let (stop, attempts, replacements) = counts(input);
            (*size, stop, attempts, replacements)
        })
    }

    #[test]
    fn both_cores_run_each_input_alike() {
        for series in all_series() {
            for (size, input) in &series.inputs {
                let compared = compare_run(input, &mut Counts::new());
                assert_eq!(compared, Ok(()), "{} at {size}", series.name);
            }
        }
    }

    #[test]
    fn each_size_is_twice_the_one_before() {
        for series in all_series() {
            let sizes = series.inputs.map(|(size, _)| size);
            assert_eq!(sizes, [1, 2, 4].map(|times| times * sizes[0]));
        }
    }

    #[test]
    fn one_search_tries_each_node_of_its_type_once() {
        let [numbers, sequences, ..] = all_series();
        for series in [&numbers, &sequences] {
            for (nodes, input) in &series.inputs {
                assert_eq!(input.slip.len(), 3 * *nodes as usize);
            }
        }
        let tried = |ends| NODES.map(|nodes| (nodes, None, (nodes - 2) / 2 + ends, 0));
        assert_eq!(outcomes(&numbers), tried(0));
        assert_eq!(outcomes(&sequences), tried(1));
    }

    #[test]
    fn a_run_spends_its_budget() {
        let [_, _, search_heavy, replace_heavy, replace_evenly, ..] = all_series();
        let spent = |budgets: [u32; 3], replacements: [u32; 3]| {
            [0, 1, 2].map(|i| (budgets[i], Some(40), budgets[i], replacements[i]))
        };
        assert_eq!(
            outcomes(&search_heavy),
            spent(SEARCH_BUDGETS, [25, 50, 100])
        );
        assert_eq!(
            outcomes(&replace_heavy),
            spent(REPLACE_BUDGETS, [920, 1_342, 1_940])
        );
        assert_eq!(
            outcomes(&replace_evenly),
            spent(REPLACE_BUDGETS, [100, 200, 400])
        );
    }

    #[test]
    fn one_pass_replaces_each_field_once() {
        let [_, _, _, _, _, one_pass, one_pass_shrink, ..] = all_series();
        for (nodes, input) in &one_pass.inputs {
            assert_eq!(input.slip.len(), 3 * *nodes as usize);
        }
        let fields = |nodes: u32| (nodes - 2) / 2;
        let each_once = NODES.map(|nodes| (nodes, None, fields(nodes), fields(nodes)));
        assert_eq!(outcomes(&one_pass), each_once);
        let each_once = FIELDS.map(|fields| (fields, None, fields, fields));
        assert_eq!(outcomes(&one_pass_shrink), each_once);
    }

    #[test]
    fn a_run_on_sequences_has_as_many_rounds_whatever_its_elements() {
        let [.., join_heavy, select_heavy, extract_heavy] = all_series();
        for series in [&join_heavy, &select_heavy, &extract_heavy] {
            let rounds = ELEMENTS.map(|elements| (elements, None, 101, 100));
            assert_eq!(outcomes(series), rounds, "{}", series.name);
            for (elements, input) in &series.inputs {
                let nodes = input.slip.chunks_exact(3);
                let own = nodes.filter(|node| node[..2] == [1, 0]);
                assert_eq!(own.count(), *elements as usize, "{}", series.name);
                let Outcome::Ended { words, .. } = reference_outcome(input) else {
                    panic!("{} is refused", series.name);
                };
                assert_eq!(words.len(), input.slip.len(), "{}", series.name);
            }
        }
    }
}
