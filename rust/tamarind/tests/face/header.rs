//! The header's constants are those of the proved code and of this crate, and a
//! compiler that lays the structs out otherwise refuses it.

use std::collections::{BTreeMap, BTreeSet};
use std::fs;

use tamarind::{meaning, Stop};

use crate::{compiler, ended, folder, read, CRATE, ROOT};

type Constants = BTreeMap<String, u64>;

/// The constants of the header, without their prefix.
fn of_header() -> Constants {
    let text = read(format!("{ROOT}/include/tamarind.h"));
    let defined = |line: &str| {
        let (name, value) = line.strip_prefix("#define TAMARIND_")?.split_once(' ')?;
        let value = value.trim_end_matches('u');
        Some((name.to_string(), value.parse().ok()?))
    };
    text.lines().filter_map(defined).collect()
}

/// The constants of a text in Rust or Rattle.
fn of_source(text: &str) -> Constants {
    let constant = |line: &str| {
        let line = line.trim_start();
        let line = line.strip_prefix("pub ").unwrap_or(line);
        let (name, rest) = line.strip_prefix("const ")?.split_once(": ")?;
        let (_, value) = rest.strip_suffix(';')?.split_once(" = ")?;
        Some((name.to_string(), value.replace('_', "").parse().ok()?))
    };
    text.lines().filter_map(constant).collect()
}

/// The constants of this crate, by the header's names.
fn of_crate() -> Constants {
    let of_file = |file: &str| of_source(&read(format!("{CRATE}/src/{file}")));
    let refusals = of_file("refusal.rs").into_iter();
    let stops = Stop::ALL.map(|stop| (upper(&format!("{stop:?}")), u64::from(stop.number())));
    ["edition.rs", "limits.rs", "foreign.rs"]
        .into_iter()
        .flat_map(of_file)
        .chain(refusals.map(|(name, value)| (format!("REFUSAL_{name}"), value)))
        .chain(stops.map(|(name, value)| (format!("STOP{name}"), value)))
        .collect()
}

/// A name as constants are written: `OutOfRange` gives `_OUT_OF_RANGE`.
fn upper(name: &str) -> String {
    let letter = |c: char| match c.is_uppercase() {
        true => format!("_{c}"),
        false => c.to_uppercase().to_string(),
    };
    name.chars().map(letter).collect()
}

/// Where the proved code has each limit, the edition and the sources of a posting.
const PROVED: [(&str, &str, &str); 26] = [
    ("EDITION", "tamarind/src/lib.rt", "EDITION"),
    ("POST_SLIP", "tamarind/src/lib.rt", "POST_SLIP"),
    ("POST_RESULT", "tamarind/src/lib.rt", "POST_RESULT"),
    ("RESULT_WORDS", "tamarind/src/lib.rt", "LEAST_RESULT"),
    ("WORK_WORDS", "tamarind/src/lib.rt", "LEAST_WORK"),
    ("GREATEST_BUDGET", "tamarind/src/lib.rt", "MOST_BUDGET"),
    ("MOST_GRAMMAR_WORDS", "grammar/src/limits.rt", "MOST_WORDS"),
    ("MOST_RULES_WORDS", "rules/src/limits.rt", "MOST_WORDS"),
    ("MOST_SLIP_WORDS", "tree/src/limits.rt", "MOST_SLIP_WORDS"),
    ("MOST_TYPES", "grammar/src/limits.rt", "MOST_TYPES"),
    ("MOST_FORMS", "grammar/src/limits.rt", "MOST_FORMS"),
    ("MOST_ELEMENTS", "grammar/src/limits.rt", "MOST_ELEMENTS"),
    ("LEAST_LITERAL", "grammar/src/limits.rt", "FIRST_LITERAL"),
    ("GREATEST_LITERAL", "grammar/src/limits.rt", "LAST_LITERAL"),
    ("GREATEST_NAME", "grammar/src/limits.rt", "GREATEST_NAME"),
    (
        "GREATEST_NUMBER",
        "grammar/src/limits.rt",
        "GREATEST_NUMBER",
    ),
    ("MOST_NODES", "tree/src/limits.rt", "MOST_NODES"),
    ("MOST_NESTING", "tree/src/limits.rt", "MOST_NESTING"),
    ("MOST_RULES", "rules/src/limits.rt", "MOST_RULES"),
    ("MOST_PARAMETERS", "rules/src/limits.rt", "MOST_PARAMETERS"),
    ("MOST_PARTS", "rules/src/limits.rt", "MOST_PARTS"),
    ("MOST_VARIABLES", "rules/src/limits.rt", "MOST_VARIABLES"),
    ("MOST_PAIRS", "rules/src/limits.rt", "MOST_PAIRS"),
    (
        "MOST_APPLICATIONS",
        "rules/src/limits.rt",
        "MOST_APPLICATIONS",
    ),
    ("MOST_NESTED_CALLS", "tamarind/src/lib.rt", "MOST_CALLS"),
    ("MOST_LIVE_NODES", "rewrite/src/lib.rt", "MOST_LIVE"),
];

#[test]
fn this_crate_has_the_headers_constants_and_no_others() {
    assert_eq!(of_crate(), of_header());
}

#[test]
fn the_limits_edition_and_sources_are_the_proved_codes() {
    let header = of_header();
    for (name, file, constant) in PROVED {
        let proved = of_source(&read(format!("{ROOT}/crates/{file}")));
        let value = proved.get(constant);
        assert!(value.is_some(), "{file} has no {constant}");
        assert_eq!(header.get(name), value, "{name}");
    }
}

/// But for the least budget: the code only asks whether the budget is 0.
#[test]
fn no_limit_is_left_out() {
    for limit in of_source(&read(format!("{CRATE}/src/limits.rs"))).keys() {
        let held = PROVED.iter().any(|(name, ..)| name == limit);
        assert!(held != (limit == "LEAST_BUDGET"), "{limit}");
    }
}

#[test]
fn the_stops_are_the_proved_codes() {
    let code = read(format!("{ROOT}/crates/meaning/src/lib.rt"));
    let stop = |line: &str| {
        let (name, number) = line.trim().strip_prefix("Stop::")?.split_once(" => ")?;
        let number = number.strip_suffix(',')?.parse().ok()?;
        Some((name.to_string(), number))
    };
    let proved: Vec<(String, u32)> = code.lines().filter_map(stop).collect();
    let ours = Stop::ALL.map(|stop| (format!("{stop:?}"), stop.number()));
    assert_eq!(ours[..], proved);
}

#[test]
fn every_number_that_has_a_name_has_a_meaning_and_no_other() {
    let header = of_header().into_iter();
    let named: BTreeSet<u64> = header
        .filter(|(name, _)| name.starts_with("REFUSAL_") || name.starts_with("STOP_"))
        .map(|(_, value)| value)
        .chain([0])
        .collect();
    let unknown = meaning(u32::MAX);
    let known = (0..=99).filter(|&number| meaning(number) != unknown);
    assert!(known.map(u64::from).eq(named));
}

/// A number as the texts have it: 4096 is `4,096`.
fn grouped(number: u64) -> String {
    match number {
        0..1_000 => number.to_string(),
        _ => format!("{},{:03}", grouped(number / 1_000), number % 1_000),
    }
}

#[test]
fn the_texts_name_the_limits() {
    let limits = of_source(&read(format!("{CRATE}/src/limits.rs")));
    for (number, limit, one_more) in [
        (1, "RESULT_WORDS", 0),
        (2, "WORK_WORDS", 0),
        (3, "GREATEST_BUDGET", 0),
        (4, "MOST_GRAMMAR_WORDS", 0),
        (5, "MOST_RULES_WORDS", 0),
        (24, "MOST_VARIABLES", 1),
        (24, "MOST_NESTING", 0),
        (30, "MOST_SLIP_WORDS", 0),
        (33, "MOST_NESTING", 0),
        (41, "MOST_NESTED_CALLS", 1),
        (42, "MOST_NODES", 0),
        (43, "MOST_NESTING", 0),
        (44, "MOST_LIVE_NODES", 0),
        (45, "GREATEST_NUMBER", 0),
    ] {
        let text = meaning(number);
        let value = grouped(limits[limit] + one_more);
        assert!(text.contains(&value), "{text}: not {value}");
    }
    let of_two_words = grouped(2 * limits["MOST_NODES"]);
    assert!(meaning(30).ends_with(&format!("over {of_two_words}")));
}

/// Whether a program compiles that names this.
fn compiles(name: &str) -> bool {
    let file = folder("named").join("named.c");
    let text = "#include \"tamarind.h\"\nsize_t named(void);\n";
    let used = format!("{text}size_t named(void) {{ return (size_t){name}; }}\n");
    fs::write(&file, used).expect("written");
    let mut gcc = compiler("gcc");
    ended(gcc.arg("-fsyntax-only").arg(&file)).0
}

/// A program for two words a node must be looked at before it is compiled again.
#[test]
fn the_names_of_two_words_a_node_are_gone() {
    for (now, before) in [
        ("tamarind_check_slip", "tamarind_check_tree"),
        ("TAMARIND_MOST_SLIP_WORDS", "TAMARIND_MOST_TREE_WORDS"),
        ("TAMARIND_POST_SLIP", "TAMARIND_POST_TREE"),
        ("TAMARIND_REFUSAL_SLIP_SIZE", "TAMARIND_REFUSAL_TREE_SIZE"),
        ("TAMARIND_REFUSAL_SLIP_END", "TAMARIND_REFUSAL_TREE_END"),
        ("TAMARIND_REFUSAL_SLIP_WORD", "TAMARIND_REFUSAL_TREE_WORD"),
        (
            "TAMARIND_REFUSAL_SLIP_NESTING",
            "TAMARIND_REFUSAL_TREE_NESTING",
        ),
    ] {
        assert!(compiles(now), "{now}");
        assert!(!compiles(before), "{before}");
    }
}

/// Whether the header alone passes, with these words to the compiler.
fn passes(name: &str, language: &str, words: &[&str]) -> (bool, String) {
    let header = format!("{ROOT}/include/tamarind.h");
    let mut command = compiler(name);
    command.args(["-ffreestanding", "-fsyntax-only", "-x", language]);
    let (success, _, said) = ended(command.args(words).arg(header));
    (success, said)
}

#[test]
fn words_of_another_width_are_refused_when_compiled() {
    for (name, language, standard) in [
        ("gcc", "c", "-std=c99"),
        ("gcc", "c", "-std=c11"),
        ("g++", "c++", "-std=c++11"),
    ] {
        let (success, said) = passes(name, language, &[standard, "-m64"]);
        assert!(success, "{said}");
        let (success, said) = passes(name, language, &[standard, "-m32"]);
        assert!(!success && said.contains("size_t_has_8_bytes"), "{said}");
    }
}
