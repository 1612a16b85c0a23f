//! The sentences of T-08 (the converter between grammars) and the readings
//! T08-1 to T08-12, one test each or more. All outcomes are worked out by hand,
//! but for those of all small tables, which a second judge in this file gives.

mod common;

use common::*;
use reference::{check_grammar, check_slip, convert, limits, Conversion, Refusal, Which};

/// What stands in a refusal: its number, its position, and 1 or 2 where it is
/// about the old or the new grammar.
type Told = (u32, usize, u32);

/// The words of the result, or the refusal.
fn with_result(
    pair: &Pair,
    table: &[u32],
    counted: bool,
    slip: &[u32],
    result_len: usize,
) -> Result<Vec<u32>, Told> {
    match convert(&pair.old, &pair.new, table, counted, slip, result_len) {
        Conversion::Converted { words } => Ok(words),
        Conversion::Refused { refusal, grammar } => {
            Err((refusal.number, refusal.position, grammar.number()))
        }
    }
}

/// The two grammars of a conversion.
struct Pair {
    old: Vec<u32>,
    new: Vec<u32>,
}

impl Pair {
    fn new(old: &[u32], new: &[u32]) -> Pair {
        let (old, new) = (old.to_vec(), new.to_vec());
        Pair { old, new }
    }

    /// A slip of two words a node.
    fn pairs(&self, table: &[u32], slip: &[u32]) -> Result<Vec<u32>, Told> {
        with_result(self, table, false, slip, 6_144)
    }

    /// A slip of three words a node.
    fn triples(&self, table: &[u32], slip: &[u32]) -> Result<Vec<u32>, Told> {
        with_result(self, table, true, slip, 6_144)
    }

    /// The refusal of grammars or table, `None` if the slip comes to be read.
    /// No slip at all is 30 in both editions.
    fn table(&self, table: &[u32]) -> Option<Told> {
        let told = self.pairs(table, &[]);
        assert_eq!(told, self.triples(table, &[]));
        let told = told.expect_err("no slip is refused");
        (told != (30, 0, 0)).then_some(told)
    }

    /// Holds a tree of the old grammar to become one of the new, in both
    /// editions. Both are written two words a node.
    fn becomes(&self, table: &[u32], tree: &[u32], converted: &[u32]) {
        let converted = slip(&self.new, converted);
        assert_eq!(check_slip(&self.new, &converted), Ok(()));
        let triples = slip(&self.old, tree);
        assert_eq!(self.triples(table, &triples).as_ref(), Ok(&converted));
        assert_eq!(self.pairs(table, tree), Ok(converted));
    }
}

/// A grammar from the words of each record.
fn grammar(records: &[Vec<u32>]) -> Vec<u32> {
    [vec![records.len() as u32], records.concat()].concat()
}

/// A record of forms.
fn forms(forms: &[&[u32]]) -> Vec<u32> {
    let mut record = vec![8, forms.len() as u32];
    for form in forms {
        record.push(form.len() as u32);
        record.extend(*form);
    }
    record
}

const NAME: [u32; 2] = [1, 1];
const NUMBER: [u32; 2] = [1, 2];
const STRING: [u32; 2] = [1, 3];

/// Literals.
const L1: u32 = 65_536;
const L2: u32 = 131_071;

/// All kinds and classes of type: 1 name, 2 opt 1, 3 repeat 7, 4 list 7, 5
/// string, 6 opt 0, 7 number.
fn rich() -> Vec<u32> {
    grammar(&[
        forms(&[&[1, 2], &[], &[L1, 3, L2, 4, 5, 6]]),
        NAME.into(),
        vec![2, 1],
        vec![4, 7],
        vec![16, 7],
        STRING.into(),
        vec![2, 0],
        NUMBER.into(),
    ])
}

/// The same renumbered, types and forms, with other literals: 1 opt 3, 2 list
/// 4, 3 name, 4 number, 5 opt 0, 6 string, 7 repeat 4.
fn renumbered() -> Vec<u32> {
    grammar(&[
        forms(&[&[L2], &[7, 2, L1, 6, 5, L2, L2, L1], &[3, L1, 1]]),
        vec![2, 3],
        vec![16, 4],
        NAME.into(),
        NUMBER.into(),
        vec![2, 0],
        STRING.into(),
        vec![4, 4],
    ])
}

fn rich_pair() -> Pair {
    Pair::new(&rich(), &renumbered())
}

/// The table of the two: type 0 and its three forms at words 0 to 3, type t at
/// word t + 3.
const TABLE: [u32; 11] = [0, 2, 0, 1, 3, 1, 7, 2, 6, 5, 4];

/// The greatest number, and the greatest name or string.
const MOST: u32 = 4_000_000_000;
const TEXT: u32 = 65_535;

/// A tree of the rich grammar, with all its types and two of its forms.
const RICH_TREE: &[u32] = &[
    0, 2, 3, 0, 7, 200, 3, 0, 7, MOST, 3, 1, 4, 0, 7, 0, 4, 1, 5, TEXT, 6, 0, 0, 0, 1, 0, 2, 0, 1,
    TEXT,
];
/// What it becomes, node for node.
const RICH_CONVERTED: &[u32] = &[
    0, 1, 7, 0, 4, 200, 7, 0, 4, MOST, 7, 1, 2, 0, 4, 0, 2, 1, 6, TEXT, 5, 0, 0, 2, 3, 0, 1, 0, 3,
    TEXT,
];

/// The paper's grammar and a new one: form 0 is form 1, the repeat is type 2
/// and the number type 1.
fn paper_pair() -> Pair {
    let new = [forms(&[&[], &[L1, 2]]), NUMBER.into(), vec![4, 1]];
    Pair::new(GRAMMAR, &grammar(&new))
}

/// Its table.
const PAPER_TABLE: [u32; 4] = [0, 1, 2, 1];

/// A table, or other words, with one word changed.
fn with_word(words: &[u32], position: usize, word: u32) -> Vec<u32> {
    let mut words = words.to_vec();
    words[position] = word;
    words
}

#[test]
fn t08_the_example_slip_is_converted() {
    let pair = paper_pair();
    let new = [0, 1, 6, 2, 0, 5, 1, 200, 1, 2, 0, 3, 1, 500, 1, 2, 1, 1];
    assert_eq!(pair.triples(&PAPER_TABLE, SLIP), Ok(new.to_vec()));
    assert_eq!(pair.pairs(&PAPER_TABLE, TREE), Ok(new.to_vec()));
}

#[test]
fn t08_which_has_numbers() {
    let which = [Which::Neither, Which::Old, Which::New];
    assert_eq!(which.map(Which::number), [0, 1, 2]);
    let paper = paper_pair();
    let told = convert(&paper.old, &[0], &PAPER_TABLE, true, SLIP, 6_144);
    let refusal = Refusal::new(11, 0);
    let grammar = Which::New;
    assert_eq!(told, Conversion::Refused { refusal, grammar });
}

#[test]
fn t08_types_and_forms_as_the_table_says() {
    rich_pair().becomes(&TABLE, RICH_TREE, RICH_CONVERTED);
    // The other form, and the values 1.
    rich_pair().becomes(&TABLE, &[0, 1], &[0, 0]);
    rich_pair().becomes(&TABLE, &[0, 0, 1, 9, 2, 1], &[0, 2, 3, 9, 1, 1]);
    let empty = [0, 2, 3, 1, 4, 1, 5, 0, 6, 1];
    rich_pair().becomes(&TABLE, &empty, &[0, 1, 7, 1, 2, 1, 6, 0, 5, 1]);
}

#[test]
fn t08_and_back_again() {
    // 0 with forms 0 to 1, 1 to 2, 2 to 0; then 2, 4, 1, 7, 6, 5, 3.
    let back = [0, 1, 2, 0, 2, 4, 1, 7, 6, 5, 3];
    let pair = Pair::new(&renumbered(), &rich());
    pair.becomes(&back, RICH_CONVERTED, RICH_TREE);
    // To itself nothing changes.
    let pair = Pair::new(&rich(), &rich());
    pair.becomes(&[0, 0, 1, 2, 1, 2, 3, 4, 5, 6, 7], RICH_TREE, RICH_TREE);
}

#[test]
fn t08_the_result_is_written_three_words_a_node() {
    let pair = paper_pair();
    for tree in [list(&[]), list(&[7]), list(&[1, 2, 3]), TREE.to_vec()] {
        let words = pair.pairs(&PAPER_TABLE, &tree).expect("a result");
        assert_eq!(words.len(), tree.len() / 2 * 3);
        let triples = slip(GRAMMAR, &tree);
        assert_eq!(pair.triples(&PAPER_TABLE, &triples), Ok(words));
    }
}

#[test]
fn t08_literals_may_differ_in_place_and_count() {
    let types = [NUMBER.to_vec(), NAME.to_vec()];
    let with = |form: &[u32]| grammar(&[vec![forms(&[form])], types.to_vec()].concat());
    let all: [&[u32]; 7] = [
        &[1, 2],
        &[L1, 1, 2],
        &[1, L1, 2],
        &[1, 2, L2],
        &[L2, 1, L1, 2, L1],
        &[L1, L1, L1, 1, 2, L1, L1, L1],
        &[65_537, 1, 100_000, 2],
    ];
    for old in all {
        for new in all {
            let pair = Pair::new(&with(old), &with(new));
            pair.becomes(&[0, 0, 1, 2], &[0, 0, 1, 5, 2, 6], &[0, 0, 1, 5, 2, 6]);
        }
    }
    // Forms of literals only, eight or none.
    for (old, new) in [(&[][..], &[L1; 8][..]), (&[L2; 8], &[]), (&[L1], &[L2])] {
        let pair = Pair::new(&with(old), &with(new));
        pair.becomes(&[0, 0, 1, 2], &[0, 0], &[0, 0]);
    }
}

#[test]
fn t08_1_each_refusal_before_the_next() {
    // From a conversion with all faults, one after the other is mended.
    let long = vec![0; 4_097];
    let endless = [1, 8, 1, 1, 0];
    let paper = paper_pair();
    for counted in [false, true] {
        let told = |old: &[u32], new: &[u32], table: &[u32], slip: &[u32], result| {
            let pair = Pair::new(old, new);
            with_result(&pair, table, counted, slip, result)
        };
        assert_eq!(told(&long, &long, &[9], &[], 6_143), Err((1, 0, 0)));
        assert_eq!(told(&long, &long, &[9], &[], 6_144), Err((4, 0, 1)));
        // 4 of the new before 10 to 12 of the old.
        for old in [&[0][..], &[1, 8], &endless] {
            assert_eq!(told(old, &long, &[9], &[], 6_144), Err((4, 0, 2)));
        }
        // All of the old before all of the new.
        for new in [&[0][..], &[1, 8], &endless, &paper.new] {
            assert_eq!(told(&[0], new, &[9], &[], 6_144), Err((11, 0, 1)));
            assert_eq!(told(&[1, 8], new, &[9], &[], 6_144), Err((10, 2, 1)));
            assert_eq!(told(&endless, new, &[9], &[], 6_144), Err((12, 1, 1)));
        }
        let old = &paper.old;
        assert_eq!(told(old, &[0], &[9], &[], 6_144), Err((11, 0, 2)));
        assert_eq!(told(old, &[1, 8], &[9], &[], 6_144), Err((10, 2, 2)));
        assert_eq!(told(old, &endless, &[9], &[], 6_144), Err((12, 1, 2)));
        let new = &paper.new;
        assert_eq!(told(old, new, &[9], &[], 6_144), Err((60, 0, 0)));
        assert_eq!(told(old, new, &[0, 0, 2, 1], &[], 6_144), Err((61, 1, 0)));
        assert_eq!(told(old, new, &PAPER_TABLE, &[], 6_144), Err((30, 0, 0)));
    }
}

#[test]
fn t08_1_call_refusals_of_each_grammar() {
    let paper = paper_pair();
    for length in [4_097, 4_098, 10_000] {
        let long = vec![0; length];
        let pair = Pair::new(&long, &paper.new);
        assert_eq!(pair.table(&PAPER_TABLE), Some((4, 0, 1)));
        let pair = Pair::new(&paper.old, &long);
        assert_eq!(pair.table(&PAPER_TABLE), Some((4, 0, 2)));
        // A grammar that is right but for its length.
        let long = [&paper.old[..], &vec![0; length - 9]].concat();
        let pair = Pair::new(&long, &long);
        assert_eq!(pair.table(&PAPER_TABLE), Some((4, 0, 1)));
    }
    // 4,096 words are not too many; here they begin with a count of 0 types.
    let full = vec![0; 4_096];
    let pair = Pair::new(&full, &full);
    assert_eq!(pair.table(&PAPER_TABLE), Some((11, 0, 1)));
    let pair = Pair::new(&paper.old, &full);
    assert_eq!(pair.table(&PAPER_TABLE), Some((11, 0, 2)));
}

/// A grammar of 4,096 words: 64 types of forms, all of literals. Of the words
/// behind the first 63 types have 64, the last has 63.
fn full_grammar() -> Vec<u32> {
    let four = [L1; 4];
    let with = |last| forms(&[vec![&four[..]; 12], vec![last]].concat());
    let mut records = vec![with(&[L2][..]); 63];
    records.push(with(&[]));
    grammar(&records)
}

#[test]
fn t08_1_grammars_of_4096_words() {
    let full = full_grammar();
    assert_eq!(full.len(), 4_096);
    assert_eq!(check_grammar(&full), Ok(()));
    let pair = Pair::new(&full, &full);
    // Each type to itself, each form to the one before it, the first to the last.
    let table: Vec<u32> = (0..64)
        .flat_map(|ty| (0..14).map(move |word| if word == 0 { ty } else { (word + 11) % 13 }))
        .collect();
    assert_eq!(table.len(), 896);
    pair.becomes(&table, &[0, 0], &[0, 12]);
    pair.becomes(&table, &[0, 12], &[0, 11]);
    let longer = [&full[..], &[0]].concat();
    let pair = Pair::new(&full, &longer);
    assert_eq!(pair.table(&table), Some((4, 0, 2)));
}

#[test]
fn t08_2_the_answer_says_which() {
    // The same fault in one grammar or the other, at its own position.
    let faults: [(&[u32], u32, usize); 7] = [
        (&[], 10, 0),
        (&[3, 8, 1, 1, 1, 4, 2, 1], 10, 8),
        (&[3, 8, 1, 1, 1, 4, 2, 1, 2, 0], 10, 9),
        (&[65], 11, 0),
        (&[3, 8, 1, 1, 1, 32, 2, 1, 2], 11, 5),
        (&[3, 8, 1, 1, 1, 4, 3, 1, 2], 11, 6),
        (&[3, 8, 1, 1, 1, 8, 1, 1, 1, 1, 2], 12, 1),
    ];
    for (fault, number, position) in faults {
        let pair = Pair::new(fault, GRAMMAR);
        assert_eq!(pair.table(&[]), Some((number, position, 1)));
        let pair = Pair::new(GRAMMAR, fault);
        assert_eq!(pair.table(&[]), Some((number, position, 2)));
        let pair = Pair::new(fault, fault);
        assert_eq!(pair.table(&[]), Some((number, position, 1)));
    }
    // All others are about neither.
    let pair = paper_pair();
    let told = with_result(&pair, &PAPER_TABLE, true, SLIP, 0);
    assert_eq!(told, Err((1, 0, 0)));
    assert_eq!(pair.table(&[]), Some((60, 0, 0)));
    assert_eq!(pair.table(&[1, 1, 2, 1]), Some((60, 1, 0)));
    assert_eq!(pair.table(&[0, 1, 2, 2]), Some((61, 2, 0)));
    let wrong_count = with_word(SLIP, 2, 7);
    let told = pair.triples(&PAPER_TABLE, &wrong_count);
    assert_eq!(told, Err((34, 2, 0)));
}

#[test]
fn t08_3_short_at_the_length() {
    let pair = rich_pair();
    for length in 0..TABLE.len() {
        let told = pair.table(&TABLE[..length]);
        assert_eq!(told, Some((60, length, 0)), "{length}");
    }
    assert_eq!(pair.table(&TABLE), None);
}

#[test]
fn t08_3_long_at_the_first_word_left_over() {
    let pair = rich_pair();
    for over in [&[0][..], &[1], &[8], &[u32::MAX], &[0, 0], &[9; 50]] {
        let told = pair.table(&[&TABLE, over].concat());
        assert_eq!(told, Some((60, 11, 0)), "{over:?}");
    }
}

#[test]
fn t08_3_a_wrong_word_before_the_end_comes_first() {
    let pair = rich_pair();
    for position in 0..TABLE.len() {
        for wrong in [8, 9, 16, 64, 65_536, 1 << 31, u32::MAX] {
            let table = with_word(&TABLE, position, wrong);
            let expected = Some((60, position, 0));
            // Short, whole and long.
            for length in position + 1..=TABLE.len() {
                assert_eq!(pair.table(&table[..length]), expected, "{table:?}");
            }
            let longer = [&table[..], &[0]].concat();
            assert_eq!(pair.table(&longer), expected, "{longer:?}");
            // Behind the end of a short table it is not there.
            let short = &table[..position];
            assert_eq!(pair.table(short), expected, "{short:?}");
            // Of two wrong words the lower one.
            for later in position + 1..TABLE.len() {
                let table = with_word(&table, later, u32::MAX);
                assert_eq!(pair.table(&table), expected, "{table:?}");
            }
        }
    }
}

#[test]
fn t08_4_types_that_are_not_in_the_new_grammar() {
    // The old grammar has three types, the new one two, and the other way.
    let three = grammar(&[NAME.into(), NAME.into(), NAME.into()]);
    let two = grammar(&[NAME.into(), NAME.into()]);
    let pair = Pair::new(&three, &two);
    assert_eq!(pair.table(&[0, 1, 1]), None);
    assert_eq!(pair.table(&[0, 1, 2]), Some((60, 2, 0)));
    assert_eq!(pair.table(&[0, 2, 1]), Some((60, 1, 0)));
    assert_eq!(pair.table(&[2, 1, 1]), Some((60, 0, 0)));
    assert_eq!(pair.table(&[0, 1]), Some((60, 2, 0)));
    let pair = Pair::new(&two, &three);
    assert_eq!(pair.table(&[0, 2]), None);
    assert_eq!(pair.table(&[0, 3]), Some((60, 1, 0)));
    assert_eq!(pair.table(&[0, 1, 2]), Some((60, 2, 0)));
}

#[test]
fn t08_4_forms_that_are_not_in_the_mapped_type() {
    // Two forms in the old type, one or three in the new, and 16.
    let with = |count| grammar(&[forms(&vec![&[][..]; count])]);
    let pair = Pair::new(&with(2), &with(1));
    assert_eq!(pair.table(&[0, 0, 0]), None);
    assert_eq!(pair.table(&[0, 1, 0]), Some((60, 1, 0)));
    assert_eq!(pair.table(&[0, 0, 1]), Some((60, 2, 0)));
    let pair = Pair::new(&with(2), &with(3));
    assert_eq!(pair.table(&[0, 2, 2]), None);
    assert_eq!(pair.table(&[0, 3, 2]), Some((60, 1, 0)));
    assert_eq!(pair.table(&[0, 2, 3]), Some((60, 2, 0)));
    // It has a word for each old form, not for each new one.
    assert_eq!(pair.table(&[0, 2, 2, 2]), Some((60, 3, 0)));
    let pair = Pair::new(&with(16), &with(16));
    assert_eq!(pair.table(&[vec![0], vec![15; 16]].concat()), None);
    let told = pair.table(&[vec![0], vec![16; 16]].concat());
    assert_eq!(told, Some((60, 1, 0)));
}

#[test]
fn t08_4_forms_are_sought_in_the_mapped_type_not_in_another() {
    // Type 0 has one form, type 1 three, in both grammars.
    let both = grammar(&[forms(&[&[1]]), forms(&[&[], &[], &[]])]);
    let pair = Pair::new(&both, &both);
    assert_eq!(pair.table(&[0, 0, 1, 2, 1, 0]), None);
    assert_eq!(pair.table(&[0, 1, 1, 2, 1, 0]), Some((60, 1, 0)));
    // Type 1 to type 0, which has no form 1.
    assert_eq!(pair.table(&[0, 0, 0, 0, 1, 0]), Some((60, 4, 0)));
    // Type 0 to type 1, which has: 61, and only then.
    assert_eq!(pair.table(&[1, 2, 1, 2, 1, 0]), Some((61, 0, 0)));
    assert_eq!(pair.table(&[1, 3, 1, 2, 1, 0]), Some((60, 1, 0)));
}

/// The records of all kinds for type 1, with number as element or child.
fn kinds() -> Vec<Vec<u32>> {
    vec![
        NAME.into(),
        NUMBER.into(),
        STRING.into(),
        vec![2, 2],
        vec![4, 2],
        vec![16, 2],
        forms(&[&[2], &[]]),
    ]
}

#[test]
fn t08_4_and_6_kinds_all_against_all() {
    let with = |record: &Vec<u32>| grammar(&[forms(&[&[1]]), record.clone(), NUMBER.into()]);
    for old in kinds() {
        for new in kinds() {
            let pair = Pair::new(&with(&old), &with(&new));
            let table: &[u32] = match old[0] {
                8 => &[0, 0, 1, 0, 1, 2],
                _ => &[0, 0, 1, 2],
            };
            let expected = match (old[0], new[0]) {
                _ if old == new => None,
                // A form of a type without forms, never 61.
                (8, _) => Some((60, 3, 0)),
                _ => Some((61, 2, 0)),
            };
            assert_eq!(pair.table(table), expected, "{old:?} {new:?}");
        }
    }
}

#[test]
fn t08_4_no_form_of_a_type_without_forms() {
    // Not even 0 and 1, the values of opt, repeat and list.
    let old = grammar(&[forms(&[&[]]), forms(&[&[]])]);
    for record in kinds().into_iter().filter(|record| record[0] != 8) {
        let new = grammar(&[forms(&[&[]]), record, NUMBER.into()]);
        let pair = Pair::new(&old, &new);
        for form in [0, 1, 2, 65_535, 65_536, u32::MAX] {
            assert_eq!(pair.table(&[0, 0, 1, form]), Some((60, 3, 0)));
        }
        // Where the form's word is missing it is short, at the same word.
        assert_eq!(pair.table(&[0, 0, 1]), Some((60, 3, 0)));
        // At type 0, although it is not mapped to type 0 either.
        assert_eq!(pair.table(&[1, 0, 0, 0]), Some((60, 1, 0)));
    }
}

#[test]
fn t08_3_60_over_the_whole_table_before_61() {
    let pair = rich_pair();
    // 61 at 1: form 0 has no children now.
    let table = with_word(&TABLE, 1, 0);
    assert_eq!(pair.table(&table), Some((61, 1, 0)));
    for position in 2..TABLE.len() {
        let wrong = with_word(&table, position, 8);
        assert_eq!(pair.table(&wrong), Some((60, position, 0)));
        assert_eq!(pair.table(&table[..position]), Some((60, position, 0)));
    }
    let longer = [&table[..], &[0]].concat();
    assert_eq!(pair.table(&longer), Some((60, 11, 0)));
    // The same where the 61 is at word 0.
    let pair = Pair::new(
        &grammar(&[NAME.into(), NAME.into()]),
        &grammar(&[NAME.into(), NUMBER.into()]),
    );
    assert_eq!(pair.table(&[1, 1]), Some((61, 0, 0)));
    assert_eq!(pair.table(&[1, 2]), Some((60, 1, 0)));
    assert_eq!(pair.table(&[1]), Some((60, 1, 0)));
    assert_eq!(pair.table(&[1, 1, 1]), Some((60, 2, 0)));
}

#[test]
fn t08_5_each_type_differs_at_its_word() {
    // Each type to each type of the new grammar. But for its own it is 61, at
    // the lowest word that differs, and that is where the type is held.
    let pair = rich_pair();
    for ty in 1..8 {
        let position = ty + 3;
        // Types 1 and 2 are in form 0, 3 to 6 in form 2, and 7 in type 3.
        let differs = [0, 1, 1, 3, 3, 3, 3, 6][ty];
        for word in 0..8 {
            let table = with_word(&TABLE, position, word);
            let expected = (word != TABLE[position]).then_some((61, differs, 0));
            assert_eq!(pair.table(&table), expected, "{table:?}");
        }
    }
}

#[test]
fn t08_5_type_0_to_type_0() {
    let records = [NAME.to_vec(), NAME.to_vec()];
    let pair = Pair::new(&grammar(&records), &grammar(&records));
    assert_eq!(pair.table(&[0, 0]), None);
    assert_eq!(pair.table(&[0, 1]), None);
    assert_eq!(pair.table(&[1, 0]), Some((61, 0, 0)));
    assert_eq!(pair.table(&[1, 1]), Some((61, 0, 0)));
    // With forms: at the type's word, not at a form's.
    let both = grammar(&[forms(&[&[], &[1]]), forms(&[&[], &[1]])]);
    let pair = Pair::new(&both, &both);
    assert_eq!(pair.table(&[0, 0, 1, 1, 0, 1]), None);
    assert_eq!(pair.table(&[1, 0, 1, 0, 0, 1]), Some((61, 0, 0)));
    assert_eq!(pair.table(&[1, 1, 0, 0, 0, 1]), Some((61, 0, 0)));
    assert_eq!(pair.table(&[1, 0, 1, 1, 0, 1]), Some((61, 0, 0)));
    // Of each kind, also where another type is the same.
    for map in [2, 4, 16] {
        let both = grammar(&[vec![map, 2], vec![map, 2], NUMBER.into()]);
        let pair = Pair::new(&both, &both);
        assert_eq!(pair.table(&[0, 0, 2]), None);
        assert_eq!(pair.table(&[1, 1, 2]), Some((61, 0, 0)));
    }
}

#[test]
fn t08_5_an_element_differs_at_the_type_that_has_it() {
    for map in [2, 4, 16] {
        // 1 number, 2 with it as element; in the new grammar 3 is a number too.
        let old = grammar(&[forms(&[&[2]]), NUMBER.into(), vec![map, 1]]);
        let new = [forms(&[&[2]]), NUMBER.into(), vec![map, 1], NUMBER.into()];
        let pair = Pair::new(&old, &grammar(&new));
        assert_eq!(pair.table(&[0, 0, 1, 2]), None);
        assert_eq!(pair.table(&[0, 0, 3, 2]), Some((61, 3, 0)));
        // The same with the element's record behind.
        let old = grammar(&[forms(&[&[1]]), vec![map, 2], NUMBER.into()]);
        let new = [forms(&[&[1]]), vec![map, 2], NUMBER.into(), NUMBER.into()];
        let pair = Pair::new(&old, &grammar(&new));
        assert_eq!(pair.table(&[0, 0, 1, 2]), None);
        assert_eq!(pair.table(&[0, 0, 1, 3]), Some((61, 2, 0)));
        // The old number is kept as it was where the mapped one is meant.
        let new = [forms(&[&[1]]), vec![map, 3], NUMBER.into(), NUMBER.into()];
        let pair = Pair::new(&old, &grammar(&new));
        assert_eq!(pair.table(&[0, 0, 1, 2]), Some((61, 2, 0)));
        assert_eq!(pair.table(&[0, 0, 1, 3]), None);
    }
}

#[test]
fn t08_5_a_type_of_itself() {
    for map in [2, 4, 16] {
        let old = grammar(&[vec![map, 0], vec![map, 1]]);
        let new = grammar(&[vec![map, 0], NAME.into(), vec![map, 2], vec![map, 0]]);
        let pair = Pair::new(&old, &new);
        assert_eq!(pair.table(&[0, 2]), None);
        assert_eq!(pair.table(&[0, 0]), None);
        assert_eq!(pair.table(&[0, 1]), Some((61, 1, 0)));
        // Of type 0, which is not what type 1 becomes.
        assert_eq!(pair.table(&[0, 3]), Some((61, 1, 0)));
    }
}

#[test]
fn t08_5_a_form_differs_at_its_word() {
    let types = [NUMBER.to_vec(), NUMBER.to_vec()];
    let with = |form: &[u32]| {
        let root = forms(&[&[], form, &[2, L1]]);
        grammar(&[vec![root], types.to_vec()].concat())
    };
    // Types left out, added, in another order, doubled.
    let all: [&[u32]; 9] = [
        &[],
        &[1],
        &[2],
        &[1, 2],
        &[2, 1],
        &[1, 1],
        &[1, 2, 1],
        &[1, 2, 2],
        &[1; 8],
    ];
    for old in all {
        for new in all {
            let pair = Pair::new(&with(old), &with(new));
            let expected = (old != new).then_some((61, 2, 0));
            assert_eq!(pair.table(&[0, 0, 1, 2, 1, 2]), expected);
            // With 1 and 2 exchanged in the new grammar, of form 2 too.
            let exchanged: Vec<u32> = old.iter().map(|ty| 3 - ty).collect();
            let lowest = if exchanged != new { 2 } else { 3 };
            let told = pair.table(&[0, 0, 1, 2, 2, 1]);
            assert_eq!(told, Some((61, lowest, 0)), "{old:?} {new:?}");
        }
    }
}

#[test]
fn t08_5_a_literal_is_no_type_and_a_type_no_literal() {
    let with = |form: &[u32]| grammar(&[forms(&[form]), NUMBER.into()]);
    let pair = Pair::new(&with(&[1, L1]), &with(&[L1, L1]));
    assert_eq!(pair.table(&[0, 0, 1]), Some((61, 1, 0)));
    let pair = Pair::new(&with(&[L1, L1]), &with(&[1, L1]));
    assert_eq!(pair.table(&[0, 0, 1]), Some((61, 1, 0)));
}

#[test]
fn t08_5_the_lowest_of_several_words() {
    // Type 0: forms at 1, 2, 3; type 1 at 4 with forms at 5, 6; type 2 at 7.
    let old = grammar(&[
        forms(&[&[1], &[2], &[1, 2]]),
        forms(&[&[], &[2]]),
        NUMBER.into(),
    ]);
    let new = grammar(&[
        forms(&[&[1], &[2], &[1, 2]]),
        forms(&[&[], &[2]]),
        NUMBER.into(),
        NAME.into(),
    ]);
    let pair = Pair::new(&old, &new);
    assert_eq!(pair.table(&[0, 0, 1, 2, 1, 0, 1, 2]), None);
    assert_eq!(pair.table(&[0, 1, 0, 2, 1, 0, 1, 2]), Some((61, 1, 0)));
    assert_eq!(pair.table(&[0, 0, 0, 1, 1, 1, 0, 2]), Some((61, 2, 0)));
    assert_eq!(pair.table(&[0, 0, 1, 1, 1, 1, 0, 2]), Some((61, 3, 0)));
    assert_eq!(pair.table(&[0, 0, 1, 2, 1, 1, 0, 2]), Some((61, 5, 0)));
    assert_eq!(pair.table(&[0, 0, 1, 2, 1, 0, 0, 2]), Some((61, 6, 0)));
    // Type 2 to a name: at the first form that holds it.
    assert_eq!(pair.table(&[0, 0, 1, 2, 1, 0, 1, 3]), Some((61, 2, 0)));
    // Type 1 to type 0: at the first form that holds it.
    assert_eq!(pair.table(&[0, 0, 1, 2, 0, 0, 1, 2]), Some((61, 1, 0)));
}

#[test]
fn t08_6_a_repeat_is_no_list() {
    for (old, new) in [(4, 16), (16, 4)] {
        let pair = Pair::new(
            &grammar(&[vec![old, 1], NUMBER.into()]),
            &grammar(&[vec![new, 1], NUMBER.into()]),
        );
        assert_eq!(pair.table(&[0, 1]), Some((61, 0, 0)));
    }
    for map in [4, 16] {
        let both = grammar(&[vec![map, 1], NUMBER.into()]);
        let tree = [0, 0, 1, 5, 0, 1];
        Pair::new(&both, &both).becomes(&[0, 1], &tree, &tree);
    }
}

#[test]
fn t08_7_two_types_to_one() {
    let old = grammar(&[forms(&[&[1, 2]]), NUMBER.into(), NUMBER.into()]);
    let new = grammar(&[forms(&[&[1, 1]]), NUMBER.into()]);
    let pair = Pair::new(&old, &new);
    pair.becomes(&[0, 0, 1, 1], &[0, 0, 1, 5, 2, 6], &[0, 0, 1, 5, 1, 6]);
    // A type beside type 0 to type 0.
    let old = grammar(&[vec![2, 1], vec![2, 0]]);
    let new = grammar(&[vec![2, 0]]);
    let pair = Pair::new(&old, &new);
    pair.becomes(&[0, 0], &[0, 0, 1, 0, 0, 1], &[0, 0, 0, 0, 0, 1]);
}

#[test]
fn t08_7_two_forms_to_one() {
    let old = grammar(&[forms(&[&[1], &[L1, 1], &[]]), NUMBER.into()]);
    let new = grammar(&[forms(&[&[], &[1, L2]]), NUMBER.into()]);
    let pair = Pair::new(&old, &new);
    let table = [0, 1, 1, 0, 1];
    pair.becomes(&table, &[0, 0, 1, 5], &[0, 1, 1, 5]);
    pair.becomes(&table, &[0, 1, 1, 5], &[0, 1, 1, 5]);
    pair.becomes(&table, &[0, 2], &[0, 0]);
}

#[test]
fn t08_7_types_and_forms_to_which_nothing_maps() {
    let old = grammar(&[forms(&[&[1]]), NUMBER.into()]);
    let new = grammar(&[
        forms(&[&[1, 2, 3], &[], &[4], &[0]]),
        NAME.into(),
        vec![16, 3],
        forms(&[&[], &[1]]),
        NUMBER.into(),
        STRING.into(),
    ]);
    let pair = Pair::new(&old, &new);
    pair.becomes(&[0, 2, 4], &[0, 0, 1, 5], &[0, 2, 4, 5]);
}

#[test]
fn t08_8_types_that_no_slip_can_hold() {
    // Type 0 is a number: types 1 to 3 stand in no slip.
    let old = grammar(&[NUMBER.into(), NAME.into(), forms(&[&[1]]), vec![4, 1]]);
    let new = grammar(&[NUMBER.into(), NAME.into(), forms(&[&[1]]), vec![4, 1]]);
    let pair = Pair::new(&old, &new);
    let slip = [0, 5];
    assert_eq!(pair.pairs(&[0, 1, 2, 0, 3], &slip), Ok(vec![0, 5, 1]));
    let refusals = [
        ([0, 4, 2, 0, 3], (60, 1, 0)),
        ([0, 1, 2, 1, 3], (60, 3, 0)),
        ([0, 1, 2, 0, 4], (60, 4, 0)),
        ([0, 0, 2, 0, 3], (61, 1, 0)),
        ([0, 1, 2, 0, 1], (61, 4, 0)),
    ];
    for (table, refusal) in refusals {
        assert_eq!(pair.pairs(&table, &slip), Err(refusal), "{table:?}");
        assert_eq!(pair.triples(&table, &[0, 5, 1]), Err(refusal), "{table:?}");
    }
    // A form that no slip holds.
    let new = grammar(&[NUMBER.into(), NAME.into(), forms(&[&[]]), vec![4, 1]]);
    let pair = Pair::new(&old, &new);
    assert_eq!(pair.pairs(&[0, 1, 2, 0, 3], &slip), Err((61, 3, 0)));
}

#[test]
fn t08_9_30_of_each_edition() {
    // A root of type 9 is 32 at 0, unless the length is wrong.
    let pair = paper_pair();
    let words = vec![9; 6_300];
    let refused = |right: bool| if right { (32, 0, 0) } else { (30, 0, 0) };
    let lengths = (0..200).chain(4_000..4_200).chain(6_100..6_300);
    for length in lengths {
        let slip = &words[..length];
        let right = length > 0 && length % 2 == 0 && length <= 4_096;
        let told = pair.pairs(&PAPER_TABLE, slip);
        assert_eq!(told, Err(refused(right)), "{length}");
        let right = length > 0 && length % 3 == 0 && length <= 6_144;
        let told = pair.triples(&PAPER_TABLE, slip);
        assert_eq!(told, Err(refused(right)), "{length}");
    }
    assert_eq!(limits::TWO_WORD_SLIP_WORDS, 4_096);
}

#[test]
fn t08_9_30_before_anything_the_words_hold() {
    let pair = paper_pair();
    for over in [&[1][..], &[1, 1, 1]] {
        let told = pair.pairs(&PAPER_TABLE, &[TREE, over].concat());
        assert_eq!(told, Err((30, 0, 0)));
    }
    for over in [&[1][..], &[1, 1]] {
        let told = pair.triples(&PAPER_TABLE, &[SLIP, over].concat());
        assert_eq!(told, Err((30, 0, 0)));
    }
    for less in [1, 3, 5, 11] {
        let told = pair.pairs(&PAPER_TABLE, &TREE[..12 - less]);
        assert_eq!(told, Err((30, 0, 0)));
    }
    for less in [1, 2, 4, 17] {
        let told = pair.triples(&PAPER_TABLE, &SLIP[..18 - less]);
        assert_eq!(told, Err((30, 0, 0)));
    }
}

#[test]
fn t08_9_the_greatest_slips() {
    // 2,048 nodes: 4,096 words or 6,144. Type 1 becomes 2, type 2 becomes 1.
    let pair = paper_pair();
    let great = list_of_nodes(2_048);
    let converted: Vec<u32> = great
        .chunks_exact(2)
        .flat_map(|node| match node[0] {
            0 => [0, 1],
            1 => [2, node[1]],
            _ => [1, node[1]],
        })
        .collect();
    pair.becomes(&PAPER_TABLE, &great, &converted);
    let words = pair.pairs(&PAPER_TABLE, &great).expect("a result");
    assert_eq!(words.len(), 6_144);
    assert_eq!(words[..9], [0, 1, 2_048, 2, 0, 2_047, 1, 5, 1]);
    // 2,049 nodes, in all else right: 4,098 words or 6,147.
    let repeat = grammar(&[vec![4, 1], NUMBER.into()]);
    let pair = Pair::new(&repeat, &repeat);
    let with = |elements| sequence_of(0, &vec![vec![1, 5]; elements]);
    pair.becomes(&[0, 1], &with(1_023), &with(1_023));
    let longer = with(1_024);
    assert_eq!(longer.len(), 4_098);
    assert_eq!(pair.pairs(&[0, 1], &longer), Err((30, 0, 0)));
    let longer = slip(&repeat, &longer);
    assert_eq!(longer.len(), 6_147);
    assert_eq!(pair.triples(&[0, 1], &longer), Err((30, 0, 0)));
}

#[test]
fn t08_9_31_to_33_at_two_words_a_node() {
    let pair = paper_pair();
    let told = |slip: &[u32]| pair.pairs(&PAPER_TABLE, slip).expect_err("a refusal");
    for nodes in 1..6 {
        assert_eq!(told(&TREE[..2 * nodes]), (31, 2 * nodes, 0));
    }
    for over in [&[1, 1][..], &[9, 9], TREE] {
        assert_eq!(told(&[TREE, over].concat()), (31, 12, 0));
    }
    for node in 0..6 {
        for wrong in [3, 64, 65, 66, u32::MAX] {
            let slip = with_word(TREE, 2 * node, wrong);
            assert_eq!(told(&slip), (32, 2 * node, 0));
        }
        let slip = with_word(TREE, 2 * node + 1, 4_000_000_001);
        assert_eq!(told(&slip), (32, 2 * node + 1, 0));
    }
    // The lowest word of several.
    let slip = with_word(&with_word(TREE, 5, u32::MAX), 2, 2);
    assert_eq!(told(&slip), (32, 2, 0));
    assert_eq!(told(&slip[..2]), (31, 2, 0));
}

#[test]
fn t08_9_31_to_34_at_three_words_a_node() {
    let pair = paper_pair();
    let told = |slip: &[u32]| pair.triples(&PAPER_TABLE, slip).expect_err("a refusal");
    for nodes in 1..6 {
        assert_eq!(told(&SLIP[..3 * nodes]), (31, 3 * nodes, 0));
    }
    assert_eq!(told(&[SLIP, &[1, 1, 1]].concat()), (31, 18, 0));
    for node in 0..6 {
        let with = |offset, word| with_word(SLIP, 3 * node + offset, word);
        assert_eq!(told(&with(0, 3)), (32, 3 * node, 0));
        assert_eq!(told(&with(1, 4_000_000_001)), (32, 3 * node + 1, 0));
        for count in [0, 7, u32::MAX] {
            assert_eq!(told(&with(2, count)), (34, 3 * node + 2, 0));
        }
    }
    // 34 after 31 and 32, over the whole slip, at the first wrong count.
    let wrong = with_word(SLIP, 2, 5);
    assert_eq!(told(&with_word(&wrong, 13, u32::MAX)), (32, 13, 0));
    assert_eq!(told(&[&wrong[..], &[1, 1, 1]].concat()), (31, 18, 0));
    assert_eq!(told(&with_word(&wrong, 5, 0)), (34, 2, 0));
}

#[test]
fn t08_9_the_slip_is_held_to_the_old_grammar() {
    // A slip of the new grammar is none of the old one.
    let pair = paper_pair();
    let new = pair.pairs(&PAPER_TABLE, TREE).expect("a result");
    assert_eq!(check_slip(&pair.new, &new), Ok(()));
    assert_eq!(pair.triples(&PAPER_TABLE, &new), Err((32, 1, 0)));
    // Each value that is not allowed in the old grammar.
    let pair = rich_pair();
    let told = |slip: &[u32]| pair.pairs(&TABLE, slip);
    assert_eq!(told(&[0, 3]), Err((32, 1, 0)));
    assert_eq!(told(&[0, 0, 1, 65_536]), Err((32, 3, 0)));
    assert_eq!(told(&[0, 0, 1, 5, 2, 2]), Err((32, 5, 0)));
    assert_eq!(told(&[0, 2, 3, 2]), Err((32, 3, 0)));
    assert_eq!(told(&[0, 2, 3, 1, 4, 2]), Err((32, 5, 0)));
    assert_eq!(told(&[0, 2, 3, 1, 4, 1, 5, 65_536]), Err((32, 7, 0)));
    let number = [0, 2, 3, 0, 7, 4_000_000_001];
    assert_eq!(told(&number), Err((32, 5, 0)));
}

#[test]
fn t08_9_numbers_to_4_000_000_000_and_lists_in_both_editions() {
    let list = grammar(&[vec![16, 1], NUMBER.into()]);
    let pair = Pair::new(&list, &list);
    for number in [0, 999_999_999, 1_000_000_000, 4_000_000_000] {
        let tree = [0, 0, 1, number, 0, 1];
        pair.becomes(&[0, 1], &tree, &tree);
    }
    for number in [4_000_000_001, u32::MAX] {
        let tree = [0, 0, 1, number, 0, 1];
        assert_eq!(pair.pairs(&[0, 1], &tree), Err((32, 3, 0)));
        let told = pair.triples(&[0, 1], &slip(&list, &tree));
        assert_eq!(told, Err((32, 4, 0)));
    }
}

#[test]
fn t08_9_one_edition_read_as_the_other() {
    let pair = paper_pair();
    // 0 0 1, 0 2 200: type 0 where type 1 is due; 0 0, 6 1: type 6 is none.
    assert_eq!(pair.triples(&PAPER_TABLE, TREE), Err((32, 3, 0)));
    assert_eq!(pair.pairs(&PAPER_TABLE, SLIP), Err((32, 2, 0)));
    assert_eq!(pair.triples(&PAPER_TABLE, &[0, 0]), Err((30, 0, 0)));
    assert_eq!(pair.pairs(&PAPER_TABLE, &[0, 0, 1]), Err((30, 0, 0)));
    // Six words that are a slip in both: 0 0, 2 2, 1 1 and 0 0 2, 2 1 1.
    let both = grammar(&[forms(&[&[2]]), NUMBER.into(), forms(&[&[], &[], &[1]])]);
    let words = [0, 0, 2, 2, 1, 1];
    let pair = Pair::new(&both, &both);
    let table = [0, 0, 1, 2, 0, 0, 2];
    let three = vec![0, 0, 3, 2, 2, 2, 1, 1, 1];
    assert_eq!(pair.pairs(&table, &words), Ok(three));
    let two = vec![0, 0, 2, 2, 0, 1];
    assert_eq!(pair.triples(&table, &words), Ok(two));
}

#[test]
fn t08_9_nesting_in_both_editions() {
    // An opt in a form in an opt .., each one deeper.
    let old = grammar(&[vec![2, 1], forms(&[&[], &[0]]), NAME.into()]);
    let new = grammar(&[vec![2, 2], NAME.into(), forms(&[&[0], &[]])]);
    let pair = Pair::new(&old, &new);
    let table = [0, 2, 1, 0, 1];
    // 0 0, 1 1, 0 0, 1 1, .., the last an opt that is absent or form 0.
    let chain = |nodes: usize, opt: [u32; 2], form: [u32; 2], ends: [[u32; 2]; 2]| {
        let mut words: Vec<u32> = (1..nodes)
            .flat_map(|node| if node % 2 == 1 { opt } else { form })
            .collect();
        words.extend(ends[usize::from(nodes.is_multiple_of(2))]);
        words
    };
    let old_chain = |nodes| chain(nodes, [0, 0], [1, 1], [[0, 1], [1, 0]]);
    let new_chain = |nodes| chain(nodes, [0, 0], [2, 0], [[0, 1], [2, 1]]);
    for nodes in [1, 2, 3, 63, 64] {
        pair.becomes(&table, &old_chain(nodes), &new_chain(nodes));
    }
    for nodes in [65, 66, 100, 2_048] {
        let deep = old_chain(nodes);
        assert_eq!(pair.pairs(&table, &deep), Err((33, 128, 0)));
        let told = pair.triples(&table, &slip(&old, &deep));
        assert_eq!(told, Err((33, 192, 0)));
    }
    // 32 at the same word, 33 before a wrong value behind it and before 34.
    let deep = old_chain(65);
    let wrong = with_word(&deep, 128, 2);
    assert_eq!(pair.pairs(&table, &wrong), Err((32, 128, 0)));
    let wrong = with_word(&deep, 129, 2);
    assert_eq!(pair.pairs(&table, &wrong), Err((33, 128, 0)));
    let wrong = with_word(&slip(&old, &deep), 2, 0);
    assert_eq!(pair.triples(&table, &wrong), Err((33, 192, 0)));
    // Ending before the node of nesting 65.
    assert_eq!(pair.pairs(&table, &deep[..128]), Err((31, 128, 0)));
}

#[test]
fn t08_9_the_rest_of_a_sequence_is_no_deeper() {
    // Sequences of themselves: 100 rests, 64 elements, 65 elements.
    for map in [4, 16] {
        let own = grammar(&[vec![map, 0]]);
        let pair = Pair::new(&own, &own);
        let long = sequence_of(0, &vec![vec![0, 1]; 100]);
        pair.becomes(&[0], &long, &long);
        let deep = |nesting: usize| {
            let down = vec![[0, 0]; nesting - 1].concat();
            [down, vec![[0, 1]; nesting].concat()].concat()
        };
        pair.becomes(&[0], &deep(64), &deep(64));
        assert_eq!(pair.pairs(&[0], &deep(65)), Err((33, 128, 0)));
        let told = pair.triples(&[0], &slip(&own, &deep(65)));
        assert_eq!(told, Err((33, 192, 0)));
    }
}

#[test]
fn t08_10_the_result_needs_6144_words() {
    let pair = paper_pair();
    let one = slip(GRAMMAR, &list(&[]));
    for (counted, slip) in [(true, SLIP), (false, TREE), (true, &one), (false, &[])] {
        for result in [0, 6, 18, 4_096, 6_141, 6_142, 6_143] {
            let told = with_result(&pair, &PAPER_TABLE, counted, slip, result);
            assert_eq!(told, Err((1, 0, 0)), "{result}");
        }
        let told = with_result(&pair, &PAPER_TABLE, counted, slip, 6_144);
        assert_ne!(told, Err((1, 0, 0)));
        // More is as good, and nothing past the tree is written.
        for result in [6_145, 10_000, usize::MAX] {
            let more = with_result(&pair, &PAPER_TABLE, counted, slip, result);
            assert_eq!(more, told);
        }
    }
}

#[test]
fn t08_11_all_other_values_kept() {
    // Each token's values, at a type that moves.
    let old = grammar(&[
        forms(&[&[1, 2, 3]]),
        NAME.into(),
        NUMBER.into(),
        STRING.into(),
    ]);
    let new = grammar(&[
        forms(&[&[3, 1, 2]]),
        NUMBER.into(),
        STRING.into(),
        NAME.into(),
    ]);
    let pair = Pair::new(&old, &new);
    for value in [0, 1, 2, 7, 15, 63, 64, 255, 4_096, 65_535] {
        let tree = [0, 0, 1, value, 2, value, 3, value];
        pair.becomes(
            &[0, 0, 3, 1, 2],
            &tree,
            &[0, 0, 3, value, 1, value, 2, value],
        );
    }
    for value in [65_536, 1 << 31, 3_999_999_999, 4_000_000_000] {
        let tree = [0, 0, 1, 0, 2, value, 3, 0];
        pair.becomes(&[0, 0, 3, 1, 2], &tree, &[0, 0, 3, 0, 1, value, 2, 0]);
    }
}

#[test]
fn t08_11_the_values_0_and_1_beside_forms_that_change() {
    for map in [2, 4, 16] {
        let old = grammar(&[forms(&[&[1], &[]]), vec![map, 0]]);
        let new = grammar(&[forms(&[&[], &[1]]), vec![map, 0]]);
        let pair = Pair::new(&old, &new);
        let table = [0, 1, 0, 1];
        pair.becomes(&table, &[0, 0, 1, 1], &[0, 1, 1, 1]);
        let (tree, converted): (&[u32], &[u32]) = match map {
            2 => (&[0, 0, 1, 0, 0, 1], &[0, 1, 1, 0, 0, 0]),
            _ => (&[0, 0, 1, 0, 0, 1, 1, 1], &[0, 1, 1, 0, 0, 0, 1, 1]),
        };
        pair.becomes(&table, tree, converted);
    }
}

#[test]
fn t08_12_the_table_has_no_limit_of_its_own() {
    // The longest that fits: 64 types of 16 forms, forms the other way round.
    let full = grammar(&vec![forms(&[&[][..]; 16]); 64]);
    let pair = Pair::new(&full, &full);
    let table: Vec<u32> = (0..64)
        .flat_map(|ty| [vec![ty], (0..16).rev().collect()].concat())
        .collect();
    assert_eq!(table.len(), 1_088);
    pair.becomes(&table, &[0, 0], &[0, 15]);
    pair.becomes(&table, &[0, 14], &[0, 1]);
    let told = pair.table(&table[..1_087]);
    assert_eq!(told, Some((60, 1_087, 0)));
    // One of any length is refused where it is left over, not as too long.
    for more in [1, 4_096, 16_384, 100_000] {
        let longer = [&table[..], &vec![0; more]].concat();
        assert_eq!(pair.table(&longer), Some((60, 1_088, 0)));
    }
    let long = vec![0; 100_000];
    assert_eq!(paper_pair().table(&long), Some((60, 4, 0)));
    let pair = Pair::new(GRAMMAR, GRAMMAR);
    assert_eq!(pair.table(&long), Some((60, 4, 0)));
}

/// The words of each record of a grammar.
fn records(grammar: &[u32]) -> Vec<&[u32]> {
    let mut later = &grammar[1..];
    let mut records = Vec::new();
    for _ in 0..grammar[0] {
        let mut length = 2;
        if later[0] == 8 {
            for _ in 0..later[1] {
                length += 1 + later[length] as usize;
            }
        }
        let (record, behind) = later.split_at(length);
        records.push(record);
        later = behind;
    }
    records
}

/// For each form of a record the types in it; nothing for the other kinds.
fn types_of_forms(record: &[u32]) -> Vec<Vec<u32>> {
    let mut types = Vec::new();
    let mut later = &record[2..];
    while record[0] == 8 && !later.is_empty() {
        let (form, behind) = later.split_at(1 + later[0] as usize);
        let elements = form[1..].iter().copied();
        types.push(elements.filter(|&element| element < 64).collect());
        later = behind;
    }
    types
}

/// What a word of the table is for: a type of the old grammar, or one of its
/// forms.
#[derive(Clone, Copy, PartialEq)]
struct Slot {
    ty: u32,
    form: Option<usize>,
}

/// The second judge of tables, by the raw words: each word of the table has its
/// slot, and each sentence is asked of each slot.
struct Judge<'a> {
    old: Vec<&'a [u32]>,
    new: Vec<&'a [u32]>,
    slots: Vec<Slot>,
}

impl<'a> Judge<'a> {
    fn new(pair: &'a Pair) -> Judge<'a> {
        let old = records(&pair.old);
        let slots = old.iter().zip(0..).flat_map(|(record, ty)| {
            let forms = 0..types_of_forms(record).len();
            let slots = forms.map(move |form| Slot {
                ty,
                form: Some(form),
            });
            [Slot { ty, form: None }].into_iter().chain(slots)
        });
        let slots = slots.collect();
        let new = records(&pair.new);
        Judge { old, new, slots }
    }

    /// The word of the table for a type, or for one of its forms.
    fn word(&self, table: &[u32], ty: u32, form: Option<usize>) -> u32 {
        let slot = Slot { ty, form };
        let position = self.slots.iter().position(|&other| other == slot);
        table[position.expect("a slot")]
    }

    /// "the table is too short, too long or names something not in B"
    fn not_there(&self, table: &[u32], position: usize) -> bool {
        match (self.slots.get(position), table.get(position)) {
            (None, None) => false,
            (None, Some(_)) | (Some(_), None) => true,
            (Some(slot), Some(&word)) => {
                let there = match slot.form {
                    None => self.new.len(),
                    Some(_) => {
                        let new = self.word(table, slot.ty, None);
                        types_of_forms(self.new[new as usize]).len()
                    }
                };
                word as usize >= there
            }
        }
    }

    /// "a mapped type differs in kind or class, a mapped element or form
    /// differs in its mapped types, or type 0 does not map to type 0"
    fn differs(&self, table: &[u32], slot: Slot) -> bool {
        let mapped = |ty| self.word(table, ty, None);
        let old = self.old[slot.ty as usize];
        let new = self.new[mapped(slot.ty) as usize];
        if let Some(form) = slot.form {
            let mut types = types_of_forms(old)[form].clone();
            types.iter_mut().for_each(|ty| *ty = mapped(*ty));
            let form = self.word(table, slot.ty, slot.form);
            return types != types_of_forms(new)[form as usize];
        }
        let field = match old[0] {
            1 => old[1] != new[1],
            8 => false,
            _ => mapped(old[1]) != new[1],
        };
        old[0] != new[0] || field || (slot.ty == 0 && mapped(0) != 0)
    }

    /// "60 is sought over the whole table before 61, each at its lowest word"
    fn refusal(&self, table: &[u32]) -> Option<Told> {
        let words = table.len().max(self.slots.len());
        if let Some(position) = (0..words).find(|&word| self.not_there(table, word)) {
            return Some((60, position, 0));
        }
        let mut slots = self.slots.iter();
        let position = slots.position(|&slot| self.differs(table, slot));
        position.map(|position| (61, position, 0))
    }

    /// The tree that an old one must become, two words a node.
    fn converted(&self, table: &[u32], tree: &[u32]) -> Vec<u32> {
        let nodes = tree.chunks_exact(2);
        let node = |node: &[u32]| {
            let form = (self.old[node[0] as usize][0] == 8).then_some(node[1] as usize);
            let value = form.map_or(node[1], |_| self.word(table, node[0], form));
            [self.word(table, node[0], None), value]
        };
        nodes.flat_map(node).collect()
    }
}

/// All trees of a type with at most so many nodes, tokens having two values.
fn trees(records: &[&[u32]], ty: u32, most: usize) -> Vec<Vec<u32>> {
    let record = records[ty as usize];
    let values: Vec<(u32, Vec<u32>)> = match record[0] {
        1 => vec![(0, vec![]), (65_535, vec![])],
        2 => vec![(0, vec![record[1]]), (1, vec![])],
        8 => (0..).zip(types_of_forms(record)).collect(),
        _ => vec![(0, vec![record[1], ty]), (1, vec![])],
    };
    let mut all = Vec::new();
    for (value, children) in values {
        let mut begun = vec![vec![ty, value]];
        for (index, &child) in children.iter().enumerate() {
            // Each child still owed has at least one node.
            let owed = children.len() - index - 1;
            let longer = begun.iter().flat_map(|tree| {
                let left = most.saturating_sub(tree.len() / 2 + owed);
                let children = if left > 0 {
                    trees(records, child, left)
                } else {
                    vec![]
                };
                children
                    .into_iter()
                    .map(|child| [&tree[..], &child].concat())
            });
            begun = longer.collect();
        }
        all.extend(begun.into_iter().filter(|tree| tree.len() <= 2 * most));
    }
    all
}

/// The greatest nesting in the first tree of these words, three a node, its
/// root having this nesting, and the words of that tree.
fn nesting(records: &[&[u32]], words: &[u32], own: usize) -> (usize, usize) {
    let record = records[words[0] as usize];
    let children = match (record[0], words[1]) {
        (8, form) => types_of_forms(record)[form as usize].len(),
        (2, 0) => 1,
        (4 | 16, 0) => 2,
        _ => 0,
    };
    let (mut most, mut end) = (own, 3);
    for child in 0..children {
        let rest = child == 1 && matches!(record[0], 4 | 16);
        let (below, length) = nesting(records, &words[end..], own + usize::from(!rest));
        most = most.max(below);
        end += length;
    }
    (most, end)
}

/// Holds every tree of at most so many nodes to be converted as it must.
fn every_small_tree(pair: &Pair, table: &[u32], most: usize) {
    let judge = Judge::new(pair);
    for tree in trees(&judge.old, 0, most) {
        let old = slip(&pair.old, &tree);
        let words = pair.triples(table, &old).expect("a result");
        assert_eq!(pair.pairs(table, &tree).as_ref(), Ok(&words));
        assert_eq!(check_slip(&pair.new, &words), Ok(()), "{table:?} {tree:?}");
        let converted = slip(&pair.new, &judge.converted(table, &tree));
        assert_eq!(words, converted, "{table:?} {tree:?}");
        assert_eq!(words.len(), tree.len() / 2 * 3);
        let counts = |words: &[u32]| words.iter().copied().skip(2).step_by(3).collect::<Vec<_>>();
        assert_eq!(counts(&words), counts(&old));
        assert_eq!(nesting(&judge.new, &words, 1), nesting(&judge.old, &old, 1));
    }
}

/// All words of this length made of 0 to the greatest.
fn words_of(length: usize, greatest: u32) -> Vec<Vec<u32>> {
    let mut all = vec![vec![]];
    for _ in 0..length {
        let longer = |words: &Vec<u32>| {
            let words = words.clone();
            (0..=greatest).map(move |word| [&words[..], &[word]].concat())
        };
        all = all.iter().flat_map(longer).collect();
    }
    all
}

#[test]
fn t08_all_small_tables_of_a_pair() {
    // Six words: type 0 and its forms, then types 1 to 3. No slip holds type 3.
    let old = grammar(&[
        forms(&[&[1], &[L1]]),
        vec![4, 2],
        NUMBER.into(),
        NUMBER.into(),
    ]);
    let new = grammar(&[
        forms(&[&[], &[L1, 2], &[]]),
        NUMBER.into(),
        vec![4, 1],
        forms(&[&[2], &[]]),
        NAME.into(),
    ]);
    let pair = Pair::new(&old, &new);
    let judge = Judge::new(&pair);
    let longer = words_of(6, 5)
        .into_iter()
        .map(|table| [&table[..], &[0]].concat());
    let mut told = [0; 62];
    let mut converting = Vec::new();
    for table in (0..=6).flat_map(|length| words_of(length, 5)).chain(longer) {
        let refusal = pair.table(&table);
        assert_eq!(refusal, judge.refusal(&table), "{table:?}");
        told[refusal.map_or(0, |(number, ..)| number as usize)] += 1;
        if refusal.is_none() {
            every_small_tree(&pair, &table, 10);
            converting.push(table);
        }
    }
    assert_eq!(converting, [[0, 1, 0, 2, 1, 1], [0, 1, 2, 2, 1, 1]]);
    // Nothing is missing where the first word is 0 and the next two are of its
    // three forms, or is 3 and they are of its two, and then three types stand.
    let there = (9 + 4) * 125;
    assert_eq!(told[61], there - 2);
    let tables = 1 + 6 + 36 + 216 + 1_296 + 7_776 + 46_656 + 46_656;
    assert_eq!(told[60], tables - there);
}

/// Small grammars of three types.
fn small_grammars(last: &[Vec<u32>]) -> Vec<Vec<u32>> {
    let roots = [
        forms(&[&[1]]),
        forms(&[&[], &[1, L1, 2]]),
        vec![2, 1],
        NUMBER.into(),
    ];
    let middle = [
        NUMBER.into(),
        NAME.into(),
        vec![4, 2],
        vec![16, 2],
        vec![2, 0],
        forms(&[&[2], &[]]),
    ];
    let mut all = Vec::new();
    for root in &roots {
        for middle in &middle {
            all.extend(
                last.iter()
                    .map(|last| grammar(&[root.clone(), middle.clone(), last.clone()])),
            );
        }
    }
    all
}

#[test]
fn t08_all_small_tables_of_small_grammars() {
    let last = [NUMBER.into(), vec![2, 2], forms(&[&[L2]])];
    let mut told = [0; 62];
    for old in small_grammars(&last) {
        for new in small_grammars(&last) {
            let pair = Pair::new(&old, &new);
            let judge = Judge::new(&pair);
            for table in words_of(judge.slots.len(), 2) {
                let refusal = pair.table(&table);
                assert_eq!(refusal, judge.refusal(&table), "{old:?} {new:?} {table:?}");
                told[refusal.map_or(0, |(number, ..)| number as usize)] += 1;
                if refusal.is_none() {
                    every_small_tree(&pair, &table, 5);
                }
            }
        }
    }
    assert!(told[0] > 72 && told[60] > 0 && told[61] > 0, "{told:?}");
}
