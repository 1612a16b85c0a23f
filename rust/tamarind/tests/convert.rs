//! Conversions from an old grammar to a new one: the example of docs/convert.md in
//! both editions, each refusal at its word and with its grammar, the order of the
//! refusals, and the result afterwards.

mod common;

use common::{numbers, opts, GRAMMAR, OPTS, SLIP, TWO_WORD_SLIP};
use tamarind::limits::{MOST_GRAMMAR_WORDS, MOST_NODES};
use tamarind::{check_slip, convert, ConversionRefusal, Refusal, WhichGrammar, RESULT_WORDS};

/// A deposit of a holder and amounts, in cash or as a cheque.
const OLD: [u32; 20] = [
    5, 8, 1, 3, 1, 65_536, 2, 1, 1, 4, 3, 8, 2, 1, 4, 2, 4, 1, 1, 2,
];
/// A note is put in as type 1, the literal moves to the front, cash and cheque
/// change places, and an amount gets a third form, which has a note.
const NEW: [u32; 25] = [
    6, 8, 1, 3, 65_536, 2, 3, 1, 3, 1, 1, 4, 4, 8, 3, 2, 5, 2, 1, 5, 2, 5, 1, 1, 2,
];
const TABLE: [u32; 8] = [0, 0, 2, 3, 4, 1, 0, 5];
/// 2.00 in cash and a cheque of 5.00.
const DEPOSIT: [u32; 30] = [
    0, 0, 10, 1, 7, 1, 2, 0, 8, 3, 0, 2, 4, 200, 1, 2, 0, 5, 3, 1, 3, 4, 500, 1, 1, 9, 1, 2, 1, 1,
];
const CONVERTED: [u32; 30] = [
    0, 0, 10, 2, 7, 1, 3, 0, 8, 4, 1, 2, 5, 200, 1, 3, 0, 5, 4, 0, 3, 5, 500, 1, 2, 9, 1, 3, 1, 1,
];

/// The paper's grammar, and the table that leaves it as it is.
const SAME: [u32; 4] = [0, 0, 1, 2];

/// A conversion's inputs.
#[derive(Clone)]
struct Given {
    old: Vec<u32>,
    new: Vec<u32>,
    table: Vec<u32>,
    slip: Vec<u32>,
    counted: bool,
    result_words: usize,
}

impl Given {
    fn deposit() -> Given {
        Given {
            old: OLD.to_vec(),
            new: NEW.to_vec(),
            table: TABLE.to_vec(),
            slip: DEPOSIT.to_vec(),
            counted: true,
            result_words: RESULT_WORDS,
        }
    }

    /// A slip of a grammar that stays as it is.
    fn unchanged(grammar: &[u32], table: &[u32], slip: Vec<u32>, counted: bool) -> Given {
        Given {
            old: grammar.to_vec(),
            new: grammar.to_vec(),
            table: table.to_vec(),
            slip,
            counted,
            ..Given::deposit()
        }
    }

    fn with_table(table: &[u32]) -> Given {
        Given {
            table: table.to_vec(),
            ..Given::deposit()
        }
    }

    fn with_slip(slip: &[u32], counted: bool) -> Given {
        Given {
            slip: slip.to_vec(),
            counted,
            ..Given::deposit()
        }
    }

    /// The new slip. Nothing behind it is changed, nor anything by a refusal.
    fn convert(&self) -> Result<Vec<u32>, ConversionRefusal> {
        let before: Vec<u32> = (0..self.result_words as u32)
            .map(|word| 0xDEAD_0000 | word)
            .collect();
        let mut result = before.clone();
        let (old, new, table) = (&self.old, &self.new, &self.table);
        let converted = convert(old, new, table, &self.slip, self.counted, &mut result);
        let converted = converted.map(<[u32]>::to_vec);
        let filled = converted.as_ref().map_or(0, Vec::len);
        assert_eq!(result[filled..], before[filled..]);
        if let Ok(words) = &converted {
            assert_eq!(result[..filled], words[..]);
        }
        converted
    }
}

fn refusal(
    number: u32,
    position: usize,
    grammar: Option<WhichGrammar>,
) -> Result<Vec<u32>, ConversionRefusal> {
    let refusal = Refusal { number, position };
    Err(ConversionRefusal { refusal, grammar })
}

fn refused(number: u32, position: usize) -> Result<Vec<u32>, ConversionRefusal> {
    refusal(number, position, None)
}

/// A slip without its counts.
fn two_words(slip: &[u32]) -> Vec<u32> {
    let nodes = slip.chunks_exact(3);
    nodes.flat_map(|node| [node[0], node[1]]).collect()
}

#[test]
fn the_deposit_is_converted_from_both_editions() {
    assert_eq!(Given::deposit().convert(), Ok(CONVERTED.to_vec()));
    let older = Given::with_slip(&two_words(&DEPOSIT), false);
    assert_eq!(older.convert(), Ok(CONVERTED.to_vec()));
    assert_eq!(check_slip(&NEW, &CONVERTED), Ok(()));
}

#[test]
fn a_longer_result_is_changed_no_further() {
    let given = Given {
        result_words: RESULT_WORDS + 100,
        ..Given::deposit()
    };
    assert_eq!(given.convert(), Ok(CONVERTED.to_vec()));
}

#[test]
fn a_grammar_that_stays_gives_slips_their_counts() {
    let older = Given::unchanged(&GRAMMAR, &SAME, TWO_WORD_SLIP.to_vec(), false);
    assert_eq!(older.convert(), Ok(SLIP.to_vec()));
    let counted = Given::unchanged(&GRAMMAR, &SAME, SLIP.to_vec(), true);
    assert_eq!(counted.convert(), Ok(SLIP.to_vec()));
}

#[test]
fn the_longest_slips_fill_the_least_result() {
    let full = numbers(&[4_000_000_000; 1_023]);
    assert_eq!(full.len(), RESULT_WORDS);
    let counted = Given::unchanged(&GRAMMAR, &SAME, full.clone(), true);
    assert_eq!(counted.convert(), Ok(full.clone()));
    let older = two_words(&full);
    assert_eq!(older.len(), 2 * MOST_NODES);
    let older = Given::unchanged(&GRAMMAR, &SAME, older, false);
    assert_eq!(older.convert(), Ok(full.clone()));
    // One node more, and one word more.
    for (more, counted) in [(&[1, 1, 1][..], true), (&[1, 1], false), (&[1], false)] {
        let mut slip = match counted {
            true => full.clone(),
            false => two_words(&full),
        };
        slip.extend(more);
        let given = Given::unchanged(&GRAMMAR, &SAME, slip, counted);
        assert_eq!(given.convert(), refused(30, 0));
    }
}

#[test]
fn a_short_result_is_refused_by_1() {
    for result_words in [0, DEPOSIT.len(), RESULT_WORDS - 1] {
        for counted in [true, false] {
            let given = Given {
                result_words,
                counted,
                ..Given::deposit()
            };
            assert_eq!(given.convert(), refused(Refusal::RESULT_TOO_SHORT, 0));
        }
    }
}

#[test]
fn each_grammar_is_refused_with_its_name() {
    let long = vec![1; MOST_GRAMMAR_WORDS + 1];
    let endless = vec![1, 8, 1, 1, 0];
    for (grammar, number, position) in [
        (long, Refusal::GRAMMAR_TOO_LONG, 0),
        (vec![], Refusal::GRAMMAR_END, 0),
        (OLD[..19].to_vec(), Refusal::GRAMMAR_END, 19),
        (vec![1, 3, 1], Refusal::GRAMMAR_WORD, 1),
        (endless, Refusal::NO_FINITE_TREE, 1),
    ] {
        let (mut old, mut new) = (Given::deposit(), Given::deposit());
        old.old.clone_from(&grammar);
        new.new = grammar;
        let [of_old, of_new] = [WhichGrammar::Old, WhichGrammar::New];
        assert_eq!(old.convert(), refusal(number, position, Some(of_old)));
        assert_eq!(new.convert(), refusal(number, position, Some(of_new)));
    }
}

#[test]
fn a_table_of_another_length_is_refused_by_60() {
    for length in 0..TABLE.len() {
        let given = Given::with_table(&TABLE[..length]);
        assert_eq!(given.convert(), refused(Refusal::TABLE_NAMES, length));
    }
    for more in [&[0][..], &[9, 9, 9]] {
        let given = Given::with_table(&[&TABLE[..], more].concat());
        assert_eq!(given.convert(), refused(60, TABLE.len()));
    }
}

#[test]
fn a_table_that_names_what_is_not_there_is_refused_by_60() {
    // The first number that is not there, at each word.
    for (word, first) in [6, 1, 6, 6, 6, 3, 3, 6].into_iter().enumerate() {
        for wrong in [first, first + 1, 64, u32::MAX] {
            let mut table = TABLE;
            table[word] = wrong;
            let given = Given::with_table(&table);
            assert_eq!(given.convert(), refused(60, word), "{table:?}");
        }
    }
    // A form of a type without forms: of the token, of the repeat.
    for without in [5, 3] {
        let mut table = TABLE;
        table[4] = without;
        assert_eq!(Given::with_table(&table).convert(), refused(60, 5));
    }
    // A wrong word comes before the end of a table that is short.
    assert_eq!(Given::with_table(&[0, 0, 6]).convert(), refused(60, 2));
}

#[test]
fn a_table_that_does_not_fit_is_refused_by_61() {
    for (table, position) in [
        // Type 0 elsewhere.
        ([4, 1, 2, 3, 4, 1, 0, 5], 0),
        // The form of the deposit holds the note, or the amounts first.
        ([0, 0, 1, 3, 4, 1, 0, 5], 1),
        ([0, 0, 2, 2, 4, 1, 0, 5], 1),
        // The repeat's element is the deposit.
        ([0, 0, 2, 3, 0, 0, 0, 5], 3),
        // Cash as a cheque, a cheque as cash, a cheque as a draft.
        ([0, 0, 2, 3, 4, 0, 1, 5], 5),
        ([0, 0, 2, 3, 4, 1, 1, 5], 6),
        ([0, 0, 2, 3, 4, 1, 2, 5], 6),
        // Cash holds a name.
        ([0, 0, 2, 3, 4, 1, 0, 2], 5),
    ] {
        let given = Given::with_table(&table);
        let expected = refused(Refusal::TABLE_FIT, position);
        assert_eq!(given.convert(), expected, "{table:?}");
    }
}

#[test]
fn a_new_type_of_another_kind_class_or_element_is_refused_by_61() {
    for (word, wrong, position) in [
        // The holder becomes a string; the amounts a list, or a repeat of numbers;
        // the number a name.
        (10, 3, 2),
        (11, 16, 3),
        (12, 5, 3),
        (24, 1, 7),
    ] {
        let mut given = Given::deposit();
        given.new[word] = wrong;
        assert_eq!(given.convert(), refused(61, position), "{word}");
    }
}

#[test]
fn all_of_60_comes_before_61() {
    let table = [4, 1, 2, 3, 4, 0, 1, 6];
    assert_eq!(Given::with_table(&table).convert(), refused(60, 7));
    let short = &table[..7];
    assert_eq!(Given::with_table(short).convert(), refused(60, 7));
}

#[test]
fn a_counted_slip_is_refused_by_30_to_34() {
    let mut over = DEPOSIT;
    over[4] = 65_536;
    let mut miscounted = DEPOSIT;
    miscounted[5] = 2;
    for (slip, number, position) in [
        (&[][..], Refusal::SLIP_SIZE, 0),
        (&DEPOSIT[..29], Refusal::SLIP_SIZE, 0),
        (&DEPOSIT[..27], Refusal::SLIP_END, 27),
        (&[&DEPOSIT[..], &[2, 1, 1]].concat(), Refusal::SLIP_END, 30),
        (&CONVERTED, Refusal::SLIP_WORD, 3),
        (&over, Refusal::SLIP_WORD, 4),
        (&miscounted, Refusal::SLIP_COUNT, 5),
    ] {
        let given = Given::with_slip(slip, true);
        assert_eq!(given.convert(), refused(number, position), "{slip:?}");
    }
    let deep = Given::unchanged(&OPTS, &[0], opts(65), true);
    assert_eq!(deep.convert(), refused(Refusal::SLIP_NESTING, 3 * 64));
}

#[test]
fn a_slip_of_two_words_a_node_is_refused_by_30_to_33_at_its_own_words() {
    let older = two_words(&DEPOSIT);
    let mut over = older.clone();
    over[3] = 65_536;
    for (slip, number, position) in [
        (&[][..], Refusal::SLIP_SIZE, 0),
        (&older[..19], Refusal::SLIP_SIZE, 0),
        (&older[..18], Refusal::SLIP_END, 18),
        (&[&older[..], &[2, 1]].concat(), Refusal::SLIP_END, 20),
        (&two_words(&CONVERTED), Refusal::SLIP_WORD, 2),
        (&over, Refusal::SLIP_WORD, 3),
        // The other edition's words.
        (&DEPOSIT, Refusal::SLIP_WORD, 2),
    ] {
        let given = Given::with_slip(slip, false);
        assert_eq!(given.convert(), refused(number, position), "{slip:?}");
    }
    let deep = Given::unchanged(&OPTS, &[0], two_words(&opts(65)), false);
    assert_eq!(deep.convert(), refused(Refusal::SLIP_NESTING, 2 * 64));
    let within = Given::unchanged(&OPTS, &[0], two_words(&opts(64)), false);
    assert_eq!(within.convert(), Ok(opts(64)));
}

/// Everything is wrong at first, and is mended in the order in which it is told.
#[test]
fn the_refusals_come_in_order() {
    let long = vec![9; MOST_GRAMMAR_WORDS + 1];
    let mut given = Given {
        old: long.clone(),
        new: long,
        table: vec![4, 1, 2, 3, 4, 1, 0],
        slip: vec![0],
        counted: true,
        result_words: 0,
    };
    let (old, new) = (Some(WhichGrammar::Old), Some(WhichGrammar::New));
    assert_eq!(given.convert(), refused(1, 0));
    given.result_words = RESULT_WORDS;
    assert_eq!(given.convert(), refusal(4, 0, old));
    given.old = vec![1, 8, 1, 1, 0];
    assert_eq!(given.convert(), refusal(4, 0, new));
    given.new = vec![1, 8, 1, 1, 0];
    assert_eq!(given.convert(), refusal(12, 1, old));
    given.old = OLD.to_vec();
    assert_eq!(given.convert(), refusal(12, 1, new));
    given.new = NEW.to_vec();
    assert_eq!(given.convert(), refused(60, 7));
    given.table.push(5);
    assert_eq!(given.convert(), refused(61, 0));
    given.table = TABLE.to_vec();
    assert_eq!(given.convert(), refused(30, 0));
    given.slip = DEPOSIT.to_vec();
    assert_eq!(given.convert(), Ok(CONVERTED.to_vec()));
}

#[test]
fn a_refusal_prints_its_meaning_and_its_grammar() {
    let mut given = Given::deposit();
    given.old[1] = 3;
    let printed = given.convert().unwrap_err().to_string();
    let meaning = "count, map, class, type or element not allowed in the grammar";
    assert_eq!(
        printed,
        format!("refused 11 at word 1 of the old grammar: {meaning}")
    );
    let printed = Given::with_table(&[]).convert().unwrap_err().to_string();
    let meaning = "the table is too short, too long or names something not in the new grammar";
    assert_eq!(printed, format!("refused 60 at word 0: {meaning}"));
}
