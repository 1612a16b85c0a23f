//! Each label of a conversion says what the reference answers, and the
//! conversions reach every answer, size, limit and pair of kinds.

use std::collections::BTreeMap;
use std::fmt::Debug;

use generate::{conversion, slip_of, without_counts};
use generate::{ConversionInput, Damage, Due, LabeledConversion};
use reference::grammar::{Grammar, Kind, OpenPlaces};
use reference::{convert, Conversion, Refusal};

const INPUTS: u64 = 20_000;
/// How many are enough to see what they hold.
const FEWER: u64 = 8_000;
const LEAST: u32 = 50;

type Counts<K> = BTreeMap<K, u32>;

fn are_often<K: Ord + Debug>(counts: &Counts<K>, due: impl IntoIterator<Item = K>, least: u32) {
    for kind in due {
        let count = counts.get(&kind).copied().unwrap_or(0);
        assert!(count >= least, "{kind:?}: {count} times");
    }
}

fn answer(input: &ConversionInput) -> Conversion {
    convert(
        &input.old,
        &input.new,
        &input.table,
        input.counted,
        &input.slip,
        input.result_len,
    )
}

/// Whether an answer is the one that is due.
fn is_due(answer: &Conversion, due: Due) -> bool {
    match (answer, due) {
        (_, Due::Any) => true,
        (Conversion::Converted { .. }, due) => due == Due::Converted,
        (
            Conversion::Refused { refusal, grammar },
            Due::Refused {
                number,
                grammar: of,
                position,
            },
        ) => {
            (refusal.number, *grammar) == (number, of)
                && position.is_none_or(|position| position == refusal.position)
        }
        _ => false,
    }
}

#[test]
fn each_label_says_what_the_reference_answers() {
    let mut labels: Counts<Damage> = Counts::new();
    let mut answers: Counts<(u32, u32)> = Counts::new();
    for seed in 0..INPUTS {
        let LabeledConversion { input, damage, due } = conversion(seed);
        let answer = answer(&input);
        assert!(
            is_due(&answer, due),
            "seed {seed}, {damage:?}: {answer:?}, due {due:?}"
        );
        *labels.entry(damage).or_default() += 1;
        let key = match answer {
            Conversion::Refused { refusal, grammar } => (refusal.number, grammar.number()),
            Conversion::Converted { .. } => (0, 0),
        };
        *answers.entry(key).or_default() += 1;
    }
    println!("{INPUTS} conversions by label: {labels:?}");
    println!("by number and grammar: {answers:?}");
    are_often(&labels, Damage::all(), LEAST);
    let grammars = [4, 10, 11, 12].into_iter();
    let grammars = grammars.flat_map(|number| [(number, 1), (number, 2)]);
    let others = [0, 1, 30, 31, 32, 33, 34, 60, 61].map(|number| (number, 0));
    are_often(&answers, grammars.chain(others), 2 * LEAST);
}

/// What a word of a table is about: a type, and a form of it or itself.
fn table_words(grammar: &Grammar) -> Vec<(usize, Option<usize>)> {
    let mut words = Vec::new();
    for (number, ty) in grammar.types.iter().enumerate() {
        words.push((number, None));
        if ty.kind == Kind::Forms {
            words.extend((0..ty.alternatives.len()).map(|form| (number, Some(form))));
        }
    }
    words
}

/// The tree of a slip with types and forms as the table says.
fn mapped(input: &ConversionInput, grammar: &Grammar) -> Vec<u32> {
    let words = table_words(grammar);
    let said = |about| words.iter().position(|&word| word == about);
    let tree = match input.counted {
        true => without_counts(&input.slip),
        false => input.slip.clone(),
    };
    let nodes = tree.chunks_exact(2).flat_map(|node| {
        let (ty, value) = (node[0] as usize, node[1] as usize);
        let form = said((ty, Some(value))).filter(|_| grammar.kind(node[0]) == Kind::Forms);
        let ty = said((ty, None)).expect("a type of the grammar");
        [
            input.table[ty],
            form.map_or(node[1], |form| input.table[form]),
        ]
    });
    nodes.collect()
}

fn nesting(grammar: &Grammar, tree: &[u32]) -> usize {
    let mut places = OpenPlaces::new(grammar, 0);
    let nestings = tree.chunks_exact(2).map(|node| {
        let place = places.next_place().expect("a place for each node");
        places.fill_with_node(place, node[1]);
        place.nesting
    });
    nestings.max().expect("at least a node")
}

/// Whether a type has 16 forms, one of them with 8 types.
fn has_full_form(grammar: &Grammar) -> bool {
    grammar.types.iter().any(|ty| {
        let full = ty.alternatives.iter().any(|children| children.len() == 8);
        ty.alternatives.len() == 16 && full
    })
}

/// How many types map to a type where more than one do.
fn shared_types(input: &ConversionInput, grammar: &Grammar) -> Counts<u32> {
    let mut counts = Counts::new();
    for ((_, form), &word) in table_words(grammar).iter().zip(&input.table) {
        if form.is_none() {
            *counts.entry(word).or_default() += 1;
        }
    }
    counts.retain(|_, count| *count > 1);
    counts
}

/// What there is to see in a conversion that nothing refuses.
fn kinds_of_right(input: &ConversionInput, words: &[u32]) -> Vec<&'static str> {
    let old = Grammar::read(&input.old).expect("a valid grammar");
    let new = Grammar::read(&input.new).expect("a valid grammar");
    let (old_types, new_types) = (old.types.len(), new.types.len());
    let nodes = words.len() / 3;
    let shared = shared_types(input, &old);
    let nesting = nesting(&new, &without_counts(words));
    let has = |grammar: &Grammar, kind| grammar.types.iter().any(|ty| ty.kind == kind);
    let kinds = [
        ("two words a node", !input.counted),
        ("three words a node", input.counted),
        ("one node", nodes == 1),
        ("over 1,000 nodes", nodes > 1_000),
        ("2,048 nodes", nodes == 2_048),
        ("2,048 nodes of two words", nodes == 2_048 && !input.counted),
        ("nesting 64", nesting == 64),
        ("more types", new_types > old_types),
        ("fewer types", new_types < old_types),
        ("64 types, both", old_types == 64 && new_types == 64),
        ("one type", old_types == 1),
        ("two types in one", !shared.is_empty()),
        ("two types in type 0", shared.contains_key(&0)),
        ("a list", has(&old, Kind::List)),
        ("4,096 words, old", input.old.len() == 4_096),
        ("4,096 words, new", input.new.len() == 4_096),
        ("over 500 words of table", input.table.len() > 500),
        ("8 types in a form", has_full_form(&old)),
        ("least result", input.result_len == 6_144),
    ];
    let seen = kinds.into_iter().filter(|(_, seen)| *seen);
    seen.map(|(name, _)| name).collect()
}

const KINDS_OF_RIGHT: [&str; 19] = [
    "two words a node",
    "three words a node",
    "one node",
    "over 1,000 nodes",
    "2,048 nodes",
    "2,048 nodes of two words",
    "nesting 64",
    "more types",
    "fewer types",
    "64 types, both",
    "one type",
    "two types in one",
    "two types in type 0",
    "a list",
    "4,096 words, old",
    "4,096 words, new",
    "over 500 words of table",
    "8 types in a form",
    "least result",
];

#[test]
fn what_is_converted_has_types_and_forms_as_the_table_says() {
    let mut kinds: Counts<&str> = Counts::new();
    for seed in 0..FEWER {
        let input = conversion(seed).input;
        if let Conversion::Converted { words } = answer(&input) {
            let grammar = Grammar::read(&input.old).expect("a valid grammar");
            let due = slip_of(&input.new, &mapped(&input, &grammar));
            assert_eq!(words, due, "seed {seed}");
            for kind in kinds_of_right(&input, &words) {
                *kinds.entry(kind).or_default() += 1;
            }
        }
    }
    println!("what is converted: {kinds:?}");
    are_often(&kinds, KINDS_OF_RIGHT, LEAST / 2);
}

/// The pair of kinds that a word of a table is about: the old type's and, if it
/// is there, the new type's.
fn pair_of_kinds(input: &ConversionInput, word: usize) -> Option<String> {
    let old = Grammar::read(&input.old).expect("a valid grammar");
    let new = Grammar::read(&input.new).expect("a valid grammar");
    let (ty, form) = *table_words(&old).get(word)?;
    let type_word = word - form.map_or(0, |form| form + 1);
    let to = *input.table.get(type_word)?;
    let to = new.has_type(to).then(|| new.kind(to))?;
    let from = old.kind(ty as u32);
    (from != to).then(|| format!("{from:?} to {to:?}"))
}

#[test]
fn tables_confuse_every_two_kinds_and_classes() {
    let mut pairs: Counts<(u32, String)> = Counts::new();
    for seed in 0..INPUTS {
        let input = conversion(seed).input;
        if let Conversion::Refused { refusal, .. } = answer(&input) {
            let Refusal { number, position } = refusal;
            if let Some(pair) = [60, 61]
                .contains(&number)
                .then(|| pair_of_kinds(&input, position))
                .flatten()
            {
                *pairs.entry((number, pair)).or_default() += 1;
            }
        }
    }
    println!("kinds that differ: {pairs:?}");
    let classes = ["Token(Name)", "Token(Number)", "Token(String)"];
    let others = ["Optional", "Repeat", "List"];
    let without_forms = || classes.into_iter().chain(others);
    for from in without_forms() {
        for to in without_forms().chain(["Forms"]).filter(|&to| to != from) {
            are_often(&pairs, [(61, format!("{from} to {to}"))], 5);
        }
        // The forms' words are told before the kind.
        are_often(&pairs, [(60, format!("Forms to {from}"))], 5);
    }
}

/// The limits that an input reaches or just passes.
fn limits_of(input: &ConversionInput) -> Vec<String> {
    let sizes = [
        ("result", input.result_len, 6_143..=6_144),
        ("old", input.old.len(), 4_096..=4_097),
        ("new", input.new.len(), 4_096..=4_097),
        if input.counted {
            ("three-word slip", input.slip.len(), 6_143..=6_147)
        } else {
            ("two-word slip", input.slip.len(), 4_095..=4_098)
        },
    ];
    let near = sizes
        .into_iter()
        .filter(|(_, size, near)| near.contains(size));
    let mut limits: Vec<String> = near
        .map(|(name, size, _)| format!("{name} {size}"))
        .collect();
    if let (Ok(old), Ok(new)) = (Grammar::read(&input.old), Grammar::read(&input.new)) {
        limits.extend(table_limits(input, &old, &new));
    }
    limits
}

/// What of a table is just there, or just not.
fn table_limits(input: &ConversionInput, old: &Grammar, new: &Grammar) -> Vec<String> {
    let about = table_words(old);
    let mut limits = Vec::new();
    let length = input.table.len() as isize - about.len() as isize;
    if (-1..=1).contains(&length) {
        limits.push(format!("table {length}"));
    }
    let mut to = 0;
    for ((_, form), &word) in about.into_iter().zip(&input.table) {
        let (name, count) = match form {
            None => {
                to = word;
                ("type", new.types.len())
            }
            Some(_) if !new.has_type(to) => continue,
            Some(_) => match new.kind(to) {
                Kind::Forms => ("form", new.types[to as usize].alternatives.len()),
                _ => ("form of no forms", 0),
            },
        };
        let past = i64::from(word) - count as i64;
        if (-1..=1).contains(&past) {
            limits.push(format!("{name} {past}"));
        }
    }
    limits
}

#[test]
fn every_limit_is_reached_and_just_missed() {
    let mut limits: Counts<String> = Counts::new();
    for seed in 0..FEWER {
        for limit in limits_of(&conversion(seed).input) {
            *limits.entry(limit).or_default() += 1;
        }
    }
    println!("limits reached and just missed: {limits:?}");
    let due = [
        "result 6143",
        "result 6144",
        "old 4096",
        "old 4097",
        "new 4096",
        "new 4097",
        "two-word slip 4096",
        "two-word slip 4097",
        "two-word slip 4098",
        "three-word slip 6144",
        "three-word slip 6145",
        "three-word slip 6147",
        "table -1",
        "table 0",
        "table 1",
        "type -1",
        "type 0",
        "type 1",
        "form -1",
        "form 0",
        "form 1",
        "form of no forms 0",
        "form of no forms 1",
    ];
    are_often(&limits, due.map(String::from), 8);
}
