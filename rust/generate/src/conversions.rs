//! Inputs of the converter between grammars (T-08): right ones, and ones with a
//! fault in any place, each with a label that says what was done to it and the
//! answer that is due.

use reference::grammar::Grammar;
use reference::{check_grammar, check_slip, limits, Refusal, Which};

use crate::conversion_slips::{damaged_words, nesting, slip_refusal, TWO_WORD_SLIP};
use crate::damage::{ConversionInput, Damage::*, Due, LabeledConversion};
use crate::grammars::{damaged_grammar, valid_types, written, TypeText};
use crate::labeled::change_length;
use crate::misfits;
use crate::random::Random;
use crate::renumbering::{renumbering, renumbering_of_words, Renumbering};
use crate::slips::{slip, TREE_NODE};
use crate::table_faults::TableFault;
use crate::trees::{random_tree, tree_at_limits, Shapes};

/// How many grammars are tried for a fault that not every one has a place for.
const TRIES: usize = 100;

/// A conversion of any kind.
pub fn conversion(seed: u64) -> LabeledConversion {
    any_conversion(&mut Random::new(seed))
}

fn any_conversion(random: &mut Random) -> LabeledConversion {
    let make = match random.below(100) {
        0..=29 => right,
        30..=33 => at_limits,
        34..=36 => short_result,
        37..=41 => long_grammar,
        42..=51 => bad_grammar,
        52..=64 => faulty_table,
        65..=78 => misfitting,
        79..=90 => bad_slip,
        91..=92 => other_edition,
        93..=97 => other_words,
        _ => any_words,
    };
    loop {
        // Not every grammar has a place for every fault.
        if let Some(made) = make(random) {
            return made;
        }
    }
}

fn refused(refusal: Refusal, grammar: Which) -> Due {
    Due::Refused {
        number: refusal.number,
        grammar,
        position: Some(refusal.position),
    }
}

/// A slip of the old grammar, in either edition, if it has one within limits.
fn input_of(random: &mut Random, made: &Renumbering) -> Option<ConversionInput> {
    let (old, new) = (written(&made.old), written(&made.new));
    if old.len().max(new.len()) > limits::GRAMMAR_WORDS {
        return None;
    }
    let grammar = Grammar::read(&old).expect("a valid grammar");
    let shapes = Shapes::new(&grammar);
    let tree = shapes
        .has_tree()
        .then(|| random_tree(random, &shapes))
        .filter(|tree| check_slip(&old, &slip(&grammar, tree)).is_ok())?;
    // Many grammars have only tiny trees; some of those are enough.
    if tree.len() < 5 * TREE_NODE && random.chance(60) {
        return None;
    }
    let counted = random.chance(50);
    let any = limits::RESULT_WORDS + random.below(3_000);
    Some(ConversionInput {
        table: made.table(),
        slip: if counted { slip(&grammar, &tree) } else { tree },
        old,
        new,
        counted,
        result_len: random.pick(&[limits::RESULT_WORDS, limits::RESULT_WORDS, any]),
    })
}

fn right(random: &mut Random) -> Option<LabeledConversion> {
    let damage = random.pick(&[SameGrammar, Renumbered, Merged, Extended, Mixed, Mixed]);
    let mut made = Renumbering::identity(valid_types(random));
    match damage {
        Merged => made.merge(random),
        Extended => made.extend(random),
        Mixed => made = renumbering(random),
        _ => {}
    }
    if matches!(damage, Renumbered | Merged | Extended) {
        made.renumber(random);
    }
    Some(LabeledConversion {
        input: input_of(random, &made)?,
        damage,
        due: Due::Converted,
    })
}

/// Right, with grammars or a slip as long as can be.
fn at_limits(random: &mut Random) -> Option<LabeledConversion> {
    let longest = limits::GRAMMAR_WORDS;
    let (input, damage) = if random.chance(15) {
        let made = renumbering_of_words(random, [longest, longest])?;
        (input_of(random, &made)?, LongestGrammars)
    } else {
        let made = renumbering(random);
        let mut input = input_of(random, &made)?;
        let grammar = Grammar::read(&input.old).expect("a valid grammar");
        let tree = tree_at_limits(random, &Shapes::new(&grammar));
        let slip = slip(&grammar, &tree);
        // Only what is large is wanted, or nested deep.
        let small = tree.len() < TWO_WORD_SLIP / 2 && nesting(&grammar, &tree) < limits::NESTING;
        if small || check_slip(&input.old, &slip).is_err() {
            return None;
        }
        input.slip = if input.counted { slip } else { tree };
        (input, SlipAtLimit)
    };
    Some(LabeledConversion {
        input,
        damage,
        due: Due::Converted,
    })
}

/// Any conversion with a result that is too short.
fn short_result(random: &mut Random) -> Option<LabeledConversion> {
    let mut made = any_conversion(random);
    let least = limits::RESULT_WORDS;
    made.input.result_len = random.pick(&[least - 1, least - 1, 4_096, made.input.slip.len(), 0]);
    made.input.result_len = made.input.result_len.min(least - 1);
    Some(LabeledConversion {
        due: refused(Refusal::new(1, 0), Which::Neither),
        damage: ShortResult,
        ..made
    })
}

/// Any conversion with a grammar that is too long, mostly by one word.
fn long_grammar(random: &mut Random) -> Option<LabeledConversion> {
    let longest = limits::GRAMMAR_WORDS;
    let over = longest + random.pick(&[1, 1, 1, 2, 900]);
    let mut made = any_conversion(random);
    made.input.result_len = made.input.result_len.max(limits::RESULT_WORDS);
    let long = if random.chance(25) {
        let words = renumbering_of_words(random, [longest + 1, longest + 1])?;
        written(&words.old)
    } else {
        vec![random.below(3) as u32; over]
    };
    let (damage, grammar) = if random.chance(50) {
        made.input.old = long;
        if random.chance(20) {
            made.input.new = vec![1; over];
        }
        (LongOld, Which::Old)
    } else {
        made.input.new = long;
        (LongNew, Which::New)
    };
    if made.input.old.len() > longest && damage == LongNew {
        return None;
    }
    let due = refused(Refusal::new(4, 0), grammar);
    let input = made.input;
    Some(LabeledConversion { input, damage, due })
}

/// A grammar that is refused, beside which other things may be wrong.
fn bad_grammar(random: &mut Random) -> Option<LabeledConversion> {
    let mut input = table_input(random)?;
    let side = random.below(5);
    if side != 1 && side != 3 {
        input.old = damaged(random, &input.old);
    }
    if side != 0 && side != 2 {
        input.new = damaged(random, &input.new);
    }
    let refusals = [
        check_grammar(&input.old).err(),
        check_grammar(&input.new).err(),
    ];
    let (damage, due) = match refusals {
        [Some(old), Some(_)] => (OldAndNew, refused(old, Which::Old)),
        [Some(old), None] => (Old(old.number), refused(old, Which::Old)),
        [None, Some(new)] => (New(new.number), refused(new, Which::New)),
        [None, None] => return None,
    };
    Some(LabeledConversion { input, damage, due })
}

/// An input with a right table or not, and a right slip or not.
fn table_input(random: &mut Random) -> Option<ConversionInput> {
    let make = random.pick(&[right, right, faulty_table, misfitting, bad_slip]);
    make(random).map(|made| made.input)
}

/// A grammar with a fault: one much like it, or any. It is not too long.
fn damaged(random: &mut Random, grammar: &[u32]) -> Vec<u32> {
    let seed = u64::from(random.word());
    let mut words = grammar.to_vec();
    match random.below(8) {
        0 | 1 => words = damaged_grammar(seed),
        2 | 3 => words = with_infinite_type(random),
        4 | 5 => change_length(random, &mut words),
        _ => {
            let place = random.below(words.len());
            let types = words[0];
            words[place] = random.pick(&[0, types, types - 1, 16, 17, 64, 131_072, u32::MAX]);
        }
    }
    words.truncate(limits::GRAMMAR_WORDS);
    words
}

/// A valid grammar in which one type is changed so that it has no finite tree.
fn with_infinite_type(random: &mut Random) -> Vec<u32> {
    let mut types = valid_types(random);
    let own = random.below(types.len());
    types[own] = TypeText::Forms(vec![vec![own as u32]]);
    written(&types)
}

/// A right renumbering, sometimes with a table of many hundred words.
fn any_renumbering(random: &mut Random) -> Option<Renumbering> {
    if random.chance(6) {
        let words = [0, 1].map(|_| limits::GRAMMAR_WORDS - random.between(1, 100));
        renumbering_of_words(random, words)
    } else {
        Some(renumbering(random))
    }
}

fn faulty_table(random: &mut Random) -> Option<LabeledConversion> {
    let kinds: Vec<TableFault> = TableFault::all().collect();
    let kind = random.pick(&kinds);
    (0..TRIES).find_map(|_| {
        let mut made = any_renumbering(random)?;
        let (table, word) = made.faulty_table(random, kind)?;
        let mut input = input_of(random, &made)?;
        input.table = table;
        let due = refused(Refusal::new(60, word), Which::Neither);
        let damage = Table(kind);
        Some(with_bad_slip(
            random,
            LabeledConversion { input, damage, due },
        ))
    })
}

fn misfitting(random: &mut Random) -> Option<LabeledConversion> {
    // There are many pairs of kinds.
    let often = [misfits::Misfit::OtherKind; 3];
    let kinds: Vec<misfits::Misfit> = misfits::Misfit::all().chain(often).collect();
    let kind = random.pick(&kinds);
    (0..TRIES).find_map(|_| {
        let mut made = any_renumbering(random)?;
        let position = made.misfit(random, kind)?;
        let due = Due::Refused {
            number: 61,
            grammar: Which::Neither,
            position,
        };
        let input = input_of(random, &made)?;
        let damage = Misfit(kind);
        Some(with_bad_slip(
            random,
            LabeledConversion { input, damage, due },
        ))
    })
}

/// Sometimes the slip behind a wrong table is wrong too.
fn with_bad_slip(random: &mut Random, made: LabeledConversion) -> LabeledConversion {
    if !random.chance(10) {
        return made;
    }
    let mut input = made.input.clone();
    let grammar = Grammar::read(&input.old).expect("a valid grammar");
    if let Some(words) = damaged_words(random, &grammar, input.counted) {
        input.slip = words;
    }
    match slip_refusal(&input, &grammar) {
        Some(_) => LabeledConversion {
            input,
            damage: TableAndSlip,
            ..made
        },
        None => made,
    }
}

/// A right table and a slip that is refused.
fn bad_slip(random: &mut Random) -> Option<LabeledConversion> {
    let made = renumbering(random);
    let mut input = input_of(random, &made)?;
    let grammar = Grammar::read(&input.old).expect("a valid grammar");
    input.slip = damaged_words(random, &grammar, input.counted)?;
    let refusal = slip_refusal(&input, &grammar)?;
    Some(LabeledConversion {
        input,
        damage: Slip(refusal.number),
        due: refused(refusal, Which::Neither),
    })
}

/// A right slip of one edition is given as one of the other.
fn other_edition(random: &mut Random) -> Option<LabeledConversion> {
    let mut made = right(random)?;
    made.input.counted = !made.input.counted;
    made.damage = OtherEdition;
    made.due = Due::Any;
    Some(made)
}

/// The table has another word that is there, or any words.
fn other_words(random: &mut Random) -> Option<LabeledConversion> {
    let made = renumbering(random);
    let mut input = input_of(random, &made)?;
    let mut damage = AnyTable;
    if random.chance(70) {
        let words = made.table_words();
        let word = random.below(words.len());
        let there = match words[word] {
            (_, None) => made.new.len(),
            (ty, Some(_)) => made.entries[ty].forms.len(),
        };
        input.table[word] = random.below(there) as u32;
        damage = OtherWord;
    } else {
        let most = random.pick(&[1, 2, made.new.len()]);
        for word in &mut input.table {
            *word = random.below(most) as u32;
        }
    }
    let due = Due::Any;
    Some(LabeledConversion { input, damage, due })
}

/// Each part is right, of another conversion, or of any words.
fn any_words(random: &mut Random) -> Option<LabeledConversion> {
    let parts = [right(random)?.input, right(random)?.input];
    let words = |random: &mut Random, part: fn(&ConversionInput) -> &Vec<u32>| match random.below(4)
    {
        0 => {
            let length = random.below(20);
            let most = random.pick(&[2, 5, 20]);
            (0..length).map(|_| random.below(most) as u32).collect()
        }
        1 => part(&parts[1]).clone(),
        _ => part(&parts[0]).clone(),
    };
    let input = ConversionInput {
        old: words(random, |input| &input.old),
        new: words(random, |input| &input.new),
        table: words(random, |input| &input.table),
        slip: words(random, |input| &input.slip),
        counted: random.chance(50),
        result_len: parts[0].result_len,
    };
    let (damage, due) = (AnyWords, Due::Any);
    Some(LabeledConversion { input, damage, due })
}
