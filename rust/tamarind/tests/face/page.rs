//! The page docs/convert.md: its example, its tables of examples and its program
//! in C give what the page says. Its program in Rust is an example of the crate.

use std::collections::BTreeMap;
use std::fs;
use std::process::Command;

use tamarind::limits::MOST_GRAMMAR_WORDS;
use tamarind::{convert, meaning, ConversionRefusal, Refusal, RESULT_WORDS};

use crate::{compiler, folder, output, ARCHIVE, STRICT};

const PAGE: &str = include_str!("../../../../docs/convert.md");

/// What a conversion is given, by the page's names.
type Given = BTreeMap<String, Vec<u32>>;

/// The names of the example's block.
const NAMES: [&str; 6] = [
    "old grammar",
    "new grammar",
    "table",
    "slip",
    "two-word slip",
    "new slip",
];

/// The words of a text, with or without quotes around it.
fn words(text: &str) -> Vec<u32> {
    let words = text.trim().trim_matches('`').split_whitespace();
    words.map(|word| word.parse().expect("a word")).collect()
}

/// The fenced block of a language that comes after this text.
fn block<'a>(after: &str, language: &str) -> &'a str {
    let (_, rest) = PAGE.split_once(after).expect("the text is there");
    let (_, rest) = rest
        .split_once(&format!("```{language}\n"))
        .expect("a block");
    rest.split_once("```").expect("its end").0
}

/// The cells of each row of the first table that comes after this text.
fn table<'a>(after: &str) -> Vec<Vec<&'a str>> {
    let (_, rest) = PAGE.split_once(after).expect("the text is there");
    let rows = rest.lines().skip_while(|line| !line.starts_with('|'));
    let rows = rows.take_while(|line| line.starts_with('|')).skip(2);
    let cells = |row: &'a str| row.trim_matches('|').split('|').map(str::trim).collect();
    rows.map(cells).collect()
}

/// The words of a column, from top to bottom.
fn column(rows: &[Vec<&str>], number: usize) -> Vec<u32> {
    rows.iter().flat_map(|row| words(row[number])).collect()
}

fn example() -> Given {
    let block = block("## An example", "text");
    let named = |line: &str| {
        let name = NAMES.into_iter().find(|name| line.starts_with(name));
        let name = name.expect("a name");
        (name.to_string(), words(&line[name.len()..]))
    };
    block.lines().map(named).collect()
}

/// How a refusal stands in the tables: as it is printed, without its meaning.
fn told(refused: &ConversionRefusal) -> String {
    let printed = refused.to_string();
    let meaning = format!(": {}", meaning(refused.refusal.number));
    printed.strip_suffix(&meaning).expect("a meaning").into()
}

/// What the tables say of a conversion: the new slip or the refusal. The result is
/// changed in its filled words alone.
fn answer(given: &Given, slip: &str, result_words: usize) -> String {
    let before = vec![7; result_words];
    let mut result = before.clone();
    let counted = slip == "slip";
    let [old, new, table, slip] =
        ["old grammar", "new grammar", "table", slip].map(|name| &given[name]);
    let (answer, filled) = match convert(old, new, table, slip, counted, &mut result) {
        Err(refused) => (told(&refused), 0),
        Ok(words) => {
            let text: Vec<String> = words.iter().map(u32::to_string).collect();
            (format!("`{}`", text.join(" ")), words.len())
        }
    };
    assert_eq!(result[filled..], before[filled..], "{given:?}");
    answer
}

#[test]
fn the_example_gives_the_new_slip_from_both_editions() {
    let example = example();
    assert!(NAMES.iter().all(|name| example.contains_key(*name)));
    let new: Vec<String> = example["new slip"].iter().map(u32::to_string).collect();
    for slip in ["slip", "two-word slip"] {
        let expected = format!("`{}`", new.join(" "));
        assert_eq!(answer(&example, slip, RESULT_WORDS), expected, "{slip}");
    }
    let checked = tamarind::check_slip(&example["new grammar"], &example["new slip"]);
    assert_eq!(checked, Ok(()));
}

#[test]
fn the_example_is_taken_apart_as_it_is() {
    let example = example();
    for (text, name) in [
        ("**The old grammar** has 20 words", "old grammar"),
        ("**The new grammar** has 25 words", "new grammar"),
        ("**The table** has 8 words", "table"),
    ] {
        let rows = table(text);
        assert_eq!(column(&rows, 1), example[name], "{name}");
        assert_eq!(places(&rows), example[name].len(), "{name}");
        let count = format!("has {} words", example[name].len());
        assert!(text.ends_with(&count), "{name}");
    }
    let rows = table("**The slip** has ten nodes");
    for (number, name) in [(1, "slip"), (2, "two-word slip"), (3, "new slip")] {
        assert_eq!(column(&rows, number), example[name], "{name}");
    }
    let nodes = 0..example["slip"].len() as u32 / 3;
    assert_eq!(column(&rows, 0), nodes.collect::<Vec<u32>>());
    assert!(PAGE.contains(&format!(
        "So {} words are filled",
        example["new slip"].len()
    )));
}

/// The end of a table's rows, each of which has its place in its first cell, as
/// `4`, `7, 8` or `1 to 6`, and as many words in its second.
fn places(rows: &[Vec<&str>]) -> usize {
    rows.iter().fold(0, |at, row| {
        let count = words(row[1]).len();
        let last = at + count - 1;
        let due = match count {
            1 => format!("{at}"),
            2 => format!("{at}, {last}"),
            _ => format!("{at} to {last}"),
        };
        assert_eq!(row[0], due);
        at + count
    })
}

#[test]
fn what_may_differ_is_converted_and_what_not_is_refused() {
    let rows = table("## What may differ");
    for row in &rows {
        let names = ["old grammar", "new grammar", "table", "slip"];
        let named = names.iter().zip(&row[1..5]);
        let mut given: Given = named
            .map(|(name, cell)| (name.to_string(), words(cell)))
            .collect();
        let nodes = given["slip"].chunks_exact(3);
        let pairs = nodes.flat_map(|node| [node[0], node[1]]).collect();
        given.insert("two-word slip".into(), pairs);
        for slip in ["slip", "two-word slip"] {
            assert_eq!(answer(&given, slip, RESULT_WORDS), row[5], "{}", row[0]);
        }
    }
    let converted = rows.iter().filter(|row| row[5].starts_with('`')).count();
    assert!(converted >= 6 && rows.len() - converted >= 3);
}

/// What a cell has in the place of the example's words: `name: words`, where the
/// words are written out, or so many words, or some of them so many times.
fn replaced(cell: &str) -> Vec<(&str, Vec<u32>)> {
    let number = |text: &str| text.replace(',', "").parse().expect("a number");
    let item = |item| {
        let (name, value) = str::split_once(item, ": ").expect("a name and words");
        let value = match (value.strip_suffix(" words"), value.split_once(" times ")) {
            (Some(count), _) => vec![1; number(count)],
            (_, Some((times, some))) => words(some).repeat(number(times)),
            _ => words(value),
        };
        (name, value)
    };
    cell.split("; ").map(item).collect()
}

#[test]
fn each_refusal_has_an_example_that_gives_it() {
    let rows = table("Each of these comes from the example above");
    let mut told = Vec::new();
    for row in &rows {
        let (mut given, mut result_words, mut slip) = (example(), RESULT_WORDS, "slip");
        for (name, value) in replaced(row[1]) {
            match name {
                "result" => result_words = value.len(),
                "two-word slip" => slip = "two-word slip",
                _ => assert!(NAMES.contains(&name), "{name}"),
            }
            given.insert(name.to_string(), value);
        }
        assert_eq!(answer(&given, slip, result_words), row[2], "{}", row[0]);
        told.push(words(row[2].split(' ').nth(1).expect("a number"))[0]);
    }
    let explained = table("## Refusals");
    let explained = column(&explained, 0);
    assert_eq!(explained, [1, 4, 10, 11, 12, 60, 61, 30, 31, 32, 33, 34]);
    for number in explained {
        assert!(told.contains(&number), "no example gives {number}");
    }
}

#[test]
fn the_page_has_the_meanings_of_60_and_61_and_the_limits() {
    for number in [Refusal::TABLE_NAMES, Refusal::TABLE_FIT] {
        let row = format!("| {number} | {} |", meaning(number));
        assert!(PAGE.contains(&row), "{row}");
    }
    assert_eq!((RESULT_WORDS, MOST_GRAMMAR_WORDS), (6_144, 4_096));
    assert!(PAGE.contains("fewer than 6,144 words") && PAGE.contains("more than 4,096 words"));
}

#[test]
fn the_program_in_c_prints_what_the_page_says() {
    let here = folder("page");
    let (source, program) = (here.join("convert.c"), here.join("convert"));
    fs::write(&source, block("## From C", "c")).expect("written");
    let mut gcc = compiler("gcc");
    let gcc = gcc.args(STRICT).arg("-std=c99").arg(&source);
    output(gcc.args([ARCHIVE, "-o"]).arg(&program));
    let printed = output(&mut Command::new(program));
    assert_eq!(printed, block("It prints the new slip", "text"));
}
