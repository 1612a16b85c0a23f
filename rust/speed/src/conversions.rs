//! Times conversions from a grammar to the same one renumbered, beside the checks
//! of the same words and beside the reference.

use std::hint::black_box;

use generate::{slip_of, without_counts, Random};
use reference::Conversion;
use tamarind::RESULT_WORDS;

use crate::growth::time_cells;
use crate::inputs::{numbers, sequence};
use crate::timing::medians;

/// The nodes of the slips of the first table, up to the most that a slip has.
const NODES: [usize; 5] = [2, 100, 512, 1_024, 2_048];
/// Those of the table of growth.
const DOUBLED: [usize; 3] = [512, 1_024, 2_048];
/// Whether a slip has counts, and what the tables call that.
const EDITIONS: [(bool, &str); 2] = [(true, "three words"), (false, "two words")];

/// A grammar, the same renumbered, and the table from the one to the other.
struct Pair {
    name: &'static str,
    old: Vec<u32>,
    new: Vec<u32>,
    table: Vec<u32>,
    /// The slip of the old grammar that has so many nodes.
    slip: fn(&[u32], usize) -> Vec<u32>,
}

/// Prints the table of conversions, and that of their growth.
pub fn print_tables() {
    println!(
        "| grammars | grammar words | nodes | slip | proved ns | checks ns | proved / checks | reference ns | proved / reference |"
    );
    println!("|---|---|---|---|---|---|---|---|---|");
    for pair in pairs() {
        for nodes in NODES {
            for (counted, edition) in EDITIONS {
                print_row(&pair, nodes, counted, edition);
            }
        }
    }
    println!(
        "\n| conversion | slip | nodes | proved ns | times the size before | reference ns | times the size before |"
    );
    println!("|---|---|---|---|---|---|---|");
    for pair in pairs() {
        for (counted, edition) in EDITIONS {
            print_growth(&pair, counted, edition);
        }
    }
}

/// Times one conversion, the checks of its words and the reference's conversion,
/// in turn.
fn print_row(pair: &Pair, nodes: usize, counted: bool, edition: &str) {
    let slip = (pair.slip)(&pair.old, nodes);
    let given = of_edition(&slip, counted);
    let mut result = vec![u32::MAX; RESULT_WORDS];
    let [proved, checks, reference] = medians(|number| match number {
        0 => convert(pair, &given, counted, &mut result),
        1 => check_all(pair, &slip),
        _ => convert_by_reference(pair, &given, counted),
    });
    let (name, words) = (pair.name, pair.old.len());
    let (to_checks, to_reference) = (proved / checks, proved / reference);
    println!(
        "| {name} | {words} | {nodes} | {edition} | {proved:.0} | {checks:.0} | {to_checks:.2} | {reference:.0} | {to_reference:.2} |"
    );
}

/// Times the conversions of slips of which each has twice the nodes of the one
/// before, all in turn, as the factors compare them all.
fn print_growth(pair: &Pair, counted: bool, edition: &str) {
    let slips = DOUBLED.map(|nodes| of_edition(&(pair.slip)(&pair.old, nodes), counted));
    let mut result = vec![u32::MAX; RESULT_WORDS];
    let [p0, r0, p1, r1, p2, r2] = medians(|number| {
        let slip = &slips[number / 2];
        match number % 2 {
            0 => convert(pair, slip, counted, &mut result),
            _ => convert_by_reference(pair, slip, counted),
        }
    });
    for (index, nodes) in DOUBLED.iter().enumerate() {
        let [proved, reference] =
            [[p0, p1, p2], [r0, r1, r2]].map(|times| time_cells(&times, index));
        let name = pair.name;
        println!("| {name} | {edition} | {nodes} | {proved} | {reference} |");
    }
}

/// A slip with its counts, or without them.
fn of_edition(slip: &[u32], counted: bool) -> Vec<u32> {
    match counted {
        true => slip.to_vec(),
        false => without_counts(slip),
    }
}

fn convert(pair: &Pair, slip: &[u32], counted: bool, result: &mut [u32]) {
    let (old, new, table) = (black_box(&pair.old), black_box(&pair.new), &pair.table);
    let slip = black_box(slip);
    _ = black_box(tamarind::convert(old, new, table, slip, counted, result));
}

/// The checks of both grammars and of the slip with its counts, one after the
/// other. The last of them reads the old grammar again.
fn check_all(pair: &Pair, slip: &[u32]) {
    let (old, new, slip) = (black_box(&pair.old), black_box(&pair.new), black_box(slip));
    _ = black_box(tamarind::check_grammar(old));
    _ = black_box(tamarind::check_grammar(new));
    _ = black_box(tamarind::check_slip(old, slip));
}

fn convert_by_reference(pair: &Pair, slip: &[u32], counted: bool) {
    _ = black_box(reference_answer(pair, black_box(slip), counted));
}

fn reference_answer(pair: &Pair, slip: &[u32], counted: bool) -> Conversion {
    let (old, new, table) = (&pair.old, &pair.new, &pair.table);
    reference::convert(old, new, table, counted, slip, RESULT_WORDS)
}

fn pairs() -> [Pair; 3] {
    let pair = |name, old: Vec<u32>, slip| {
        let (new, table) = renumbered(&old);
        Pair {
            name,
            old,
            new,
            table,
            slip,
        }
    };
    // A sequence of fields: a name, or a name as its prefix and a field.
    let fields = vec![4, 8, 1, 1, 1, 4, 2, 8, 2, 1, 3, 2, 3, 2, 1, 1];
    [
        pair("the paper's", numbers(), |_, nodes| {
            sequence(0..(nodes as u32 - 2) / 2)
        }),
        pair("names in two forms", fields, slip_of_fields),
        pair("64 types of 8 forms", large(), slip_of_large),
    ]
}

/// A grammar of 64 types. Type 0 is a sequence of type 2, whose forms hold the
/// number, type 63, or nothing; the types between have 8 forms of 6 elements,
/// which no slip here needs.
fn large() -> Vec<u32> {
    let mut random = Random::new(1);
    let mut grammar = vec![64, 8, 1, 1, 1, 4, 2];
    grammar.extend([8, 8]);
    for form in 0..8 {
        match form % 2 {
            0 => grammar.extend([2, 65_536 + form, 63]),
            _ => grammar.extend([1, 65_536 + form]),
        }
    }
    for _ in 3..63 {
        // By its first form each type has a finite tree.
        grammar.extend([8, 8, 6, 63, 63, 63, 63, 63, 63]);
        for _ in 1..8 {
            grammar.push(6);
            grammar.extend((0..6).map(|_| random.below(64) as u32));
        }
    }
    grammar.extend([1, 2]);
    grammar
}

/// The slip of the large grammar with so many nodes: elements of three nodes and
/// of two in turn, in all forms.
fn slip_of_large(grammar: &[u32], nodes: usize) -> Vec<u32> {
    let mut tree = vec![0, 0];
    let mut left = nodes - 2;
    let mut form = 0;
    while left > 0 {
        // One node alone cannot be left over.
        let holds = left == 3 || (form % 2 == 0 && left != 2 && left != 4);
        tree.extend([1, 0, 2, form - form % 2 + u32::from(!holds)]);
        if holds {
            tree.extend([63, left as u32]);
        }
        left -= 2 + usize::from(holds);
        form = (form + 1) % 8;
    }
    tree.extend([1, 1]);
    slip_of(grammar, &tree)
}

/// The slip of fields with so many nodes, an even number: fields without a prefix
/// and with one in turn, and with more in the last.
fn slip_of_fields(grammar: &[u32], nodes: usize) -> Vec<u32> {
    let mut tree = vec![0, 0];
    let mut left = nodes - 2;
    while left > 0 {
        // The last two fields have what is left over: at least 3 nodes, and 5.
        let prefixes = if left >= 16 { 1 } else { (left - 6) / 2 };
        for prefixes in [0, prefixes] {
            tree.extend([1, 0]);
            tree.extend([2, 1, 3, 9].repeat(prefixes));
            tree.extend([2, 0, 3, left as u32]);
            left -= 3 + 2 * prefixes;
        }
    }
    tree.extend([1, 1]);
    slip_of(grammar, &tree)
}

/// A grammar with the types behind type 0 in the opposite order, each form's
/// literals behind its types, and the forms of each type in the opposite order;
/// and the table from the grammar to that.
fn renumbered(grammar: &[u32]) -> (Vec<u32>, Vec<u32>) {
    let count = grammar[0];
    let to = |ty: u32| if ty == 0 { 0 } else { count - ty };
    let (mut records, mut table) = (Vec::new(), Vec::new());
    let mut at = 1;
    for ty in 0..count {
        let (map, second) = (grammar[at], grammar[at + 1]);
        at += 2;
        table.push(to(ty));
        let mut record = vec![map, second];
        match map {
            8 => {
                let forms = forms(grammar, &mut at, second);
                table.extend((0..second).rev());
                record.extend(forms.iter().rev().flat_map(|form| moved(form, to)));
            }
            1 => {}
            _ => record[1] = to(second),
        }
        records.push(record);
    }
    let others = records.drain(1..).rev().collect::<Vec<_>>();
    let new = [vec![count], records.concat(), others.concat()].concat();
    (new, table)
}

/// The elements of each of so many forms, which stand from a word on.
fn forms(grammar: &[u32], at: &mut usize, count: u32) -> Vec<Vec<u32>> {
    let mut form = || {
        let start = *at + 1;
        *at = start + grammar[*at] as usize;
        grammar[start..*at].to_vec()
    };
    (0..count).map(|_| form()).collect()
}

/// The words of a form whose types are renumbered and whose literals are last.
fn moved(form: &[u32], to: impl Fn(u32) -> u32) -> Vec<u32> {
    let is_literal = |element: &&u32| **element >= 65_536;
    let types = form.iter().filter(|element| !is_literal(element));
    let mut words = vec![form.len() as u32];
    words.extend(types.map(|ty| to(*ty)));
    words.extend(form.iter().filter(is_literal));
    words
}

#[cfg(test)]
mod tests {
    use super::*;

    #[test]
    fn each_slip_has_its_nodes_and_is_converted_alike_by_both_cores() {
        for pair in pairs() {
            for nodes in NODES {
                let slip = (pair.slip)(&pair.old, nodes);
                assert_eq!(slip.len(), 3 * nodes, "{}", pair.name);
                assert_eq!(tamarind::check_slip(&pair.old, &slip), Ok(()));
                for (counted, edition) in EDITIONS {
                    assert_alike(&pair, &of_edition(&slip, counted), counted, edition);
                }
            }
        }
    }

    /// Both cores convert the slip to the same slip of the new grammar.
    fn assert_alike(pair: &Pair, slip: &[u32], counted: bool, edition: &str) {
        let mut result = vec![u32::MAX; RESULT_WORDS];
        let (old, new, table) = (&pair.old, &pair.new, &pair.table);
        let converted = tamarind::convert(old, new, table, slip, counted, &mut result);
        let words = converted.expect("nothing is refused").to_vec();
        assert_eq!(tamarind::check_slip(new, &words), Ok(()));
        let place = format!("{}, {edition}", pair.name);
        let expected = Conversion::Converted { words };
        assert_eq!(reference_answer(pair, slip, counted), expected, "{place}");
    }

    #[test]
    fn the_papers_grammar_is_renumbered() {
        let [paper, ..] = pairs();
        assert_eq!(paper.new, [3, 8, 1, 1, 2, 1, 2, 4, 1]);
        assert_eq!(paper.table, [0, 0, 2, 1]);
    }

    #[test]
    fn the_slips_of_the_large_grammar_have_all_forms() {
        let slip = slip_of_large(&large(), 2_048);
        for form in 0..8 {
            let mut nodes = slip.chunks_exact(3);
            assert!(nodes.any(|node| node[..2] == [2, form]), "{form}");
        }
    }
}
