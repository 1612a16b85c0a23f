//! The proved bench program, `crates/bench/out/bench`, byte for byte: the paper's
//! cases, damaged texts, the longest inputs, and the reference's bench on
//! generated inputs. `tools/build bench` makes the program.

use std::io::{stdout, Write};
use std::process::{Command, Stdio};
use std::thread;

use generate::{any_run_input, to_bench, Input, Random};
use reference::bench::answer;

const BENCH: &str = concat!(env!("CARGO_MANIFEST_DIR"), "/../../crates/bench/out/bench");

/// How many generated inputs are answered, and how many damaged texts.
const INPUTS: u64 = 4_000;
const DAMAGED: u64 = 2_000;
/// How often each kind of answer must come at least.
const LEAST: usize = 200;

const GRAMMAR: &[u32] = &[3, 8, 1, 1, 1, 4, 2, 1, 2];
const RULES: &[u32] = &[1, 9, 2, 2, 1, 2, 200, 1, 2, 4200];
const SLIP: &[u32] = &[0, 0, 6, 1, 0, 5, 2, 200, 1, 1, 0, 3, 2, 500, 1, 1, 1, 1];
/// Rounds the first number.
const ROUND: &[u32] = &[1, 9, 2, 1, 1, 64, 2, 3, 66, 0, 1, 0, 1004, 0];
/// Puts the quotient of the first two numbers in their place.
const QUOTIENT: &[u32] = &[
    1, 9, 1, 1, 5, 1, 0, 64, 2, 1, 0, 64, 2, 64, 1, 6, 1, 0, 66, 0, 1, 0, 1002, 1, 65, 1, 65, 2,
];

/// The page that explains the bench, and the paper's grammar with a list for the
/// repeat.
const PAGE: &str = include_str!("../../../docs/bench.md");
const LIST_GRAMMAR: &[u32] = &[3, 8, 1, 1, 1, 16, 2, 1, 2];

const EXAMPLE: &str = "3 9 3 8 1 1 1 4 2 1 2 10 1 9 2 2 1 2 200 1 2 4200 \
    18 0 0 6 1 0 5 2 200 1 1 0 3 2 500 1 1 1 1";
const DONE: &str = "done 3 1 18\n0 0 6 1 0 5 2 4200 1 1 0 3 2 500 1 1 1 1\n";
const UNREAD: &str = "unread\n";

/// What the bench prints of a text.
fn bench(text: &[u8]) -> String {
    let mut child = Command::new(BENCH)
        .stdin(Stdio::piped())
        .stdout(Stdio::piped())
        .spawn()
        .expect("crates/bench/out/bench is there: tools/build bench");
    let mut input = child.stdin.take().expect("piped");
    let text = text.to_vec();
    // The bench stops reading where a text becomes unread, so the write may fail.
    let writer = thread::spawn(move || input.write_all(&text));
    let output = child.wait_with_output().expect("the bench ends");
    let _ = writer.join().expect("written");
    assert!(output.status.success(), "{}", output.status);
    String::from_utf8(output.stdout).expect("ASCII")
}

fn run(budget: u32, grammar: &[u32], rules: &[u32], slip: &[u32]) -> String {
    bench(
        to_bench(&Input {
            budget,
            grammar: grammar.to_vec(),
            rules: rules.to_vec(),
            slip: slip.to_vec(),
        })
        .as_bytes(),
    )
}

/// A slip of the paper's grammar with these numbers.
fn list(numbers: &[u32]) -> Vec<u32> {
    // Two nodes for each number, and the last.
    let sequence = |numbers: &[u32]| 2 * numbers.len() as u32 + 1;
    let mut words = vec![0, 0, 1 + sequence(numbers)];
    for (place, &number) in numbers.iter().enumerate() {
        words.extend([1, 0, sequence(&numbers[place..]), 2, number, 1]);
    }
    words.extend([1, 1, 1]);
    words
}

/// The words of a slip as the bench prints them.
fn printed_words(slip: &[u32]) -> String {
    let words: Vec<String> = slip.iter().map(u32::to_string).collect();
    words.join(" ")
}

#[test]
fn the_papers_example_and_its_budgets() {
    let slip = "0 0 6 1 0 5 2 4200 1 1 0 3 2 500 1 1 1 1";
    assert_eq!(bench(EXAMPLE.as_bytes()), DONE);
    assert_eq!(run(3, GRAMMAR, RULES, SLIP), DONE);
    assert_eq!(
        run(2, GRAMMAR, RULES, SLIP),
        format!("stopped 40 2 1 18\n{slip}\n")
    );
    assert_eq!(
        run(1, GRAMMAR, RULES, SLIP),
        format!("stopped 40 1 1 18\n{slip}\n")
    );
    let reach_1 = [1, 9, 2, 1, 1, 2, 200, 1, 2, 4200];
    assert_eq!(
        run(3, GRAMMAR, &reach_1, SLIP),
        format!("done 1 1 18\n{slip}\n")
    );
    assert_eq!(
        run(3, GRAMMAR, RULES, &[0, 0, 2, 1, 1, 1]),
        "done 0 0 6\n0 0 2 1 1 1\n"
    );
    let same = [1, 9, 2, 2, 1, 2, 200, 1, 2, 200];
    assert_eq!(
        run(7, GRAMMAR, &same, SLIP),
        "stopped 40 7 7 18\n0 0 6 1 0 5 2 200 1 1 0 3 2 500 1 1 1 1\n"
    );
}

/// The numbers of a cell of a table.
fn numbers(cell: &str) -> Vec<u32> {
    let words = cell.trim().trim_matches('`').split_whitespace();
    words.map(|word| word.parse().expect("a word")).collect()
}

/// A row of the page's table of examples on sequences: the rules, and what the
/// bench prints.
fn example_on_sequences(row: &str) -> (Vec<u32>, String) {
    let cells: Vec<&str> = row.split('|').collect();
    let rules = numbers(cells[1]);
    let (first, amounts) = cells[3].split_once(": ").expect("a line, and amounts");
    let amounts = amounts
        .split(',')
        .map(|amount| amount.trim().replace('.', ""));
    let hundredths: Vec<u32> = amounts
        .map(|amount| amount.parse().expect("an amount"))
        .collect();
    let slip = printed_words(&list(&hundredths));
    let first = first.trim().trim_matches('`');
    (rules, format!("{first}\n{slip}\n"))
}

#[test]
fn the_pages_examples_on_sequences() {
    let rows = PAGE.lines().filter(|line| line.starts_with("| `1 "));
    let examples: Vec<_> = rows.map(example_on_sequences).collect();
    for operation in 1_010..=1_015 {
        let applied = examples.iter().any(|(rules, _)| rules.contains(&operation));
        assert!(applied, "the page has no example of {operation}");
    }
    for (rules, printed) in &examples {
        for grammar in [GRAMMAR, LIST_GRAMMAR] {
            assert_eq!(run(1, grammar, rules, SLIP), *printed, "{rules:?}");
        }
    }
}

/// The grammar of the page's examples on blanks: a transfer of two names or one.
const TRANSFERS: &[u32] = &[2, 8, 2, 2, 1, 1, 1, 1, 1, 1];

#[test]
fn the_pages_examples_on_blanks() {
    assert!(PAGE.contains("the grammar `2  8 2 2 1 1 1 1  1 1`"));
    let rows = PAGE.lines().filter(|line| line.starts_with("| `0 0 "));
    let (mut matched, mut blank) = (0, 0);
    for row in rows {
        let cells: Vec<&str> = row.split('|').collect();
        let (slip, rules) = (numbers(cells[1]), numbers(cells[3]));
        let printed = cells[4].trim().replace("`: `", "\n").replace('`', "");
        let answer = run(1, TRANSFERS, &rules, &slip);
        assert_eq!(answer, format!("{printed}\n"), "{row}");
        matched += u32::from(printed.starts_with("done 1 1"));
        blank += u32::from(printed.starts_with("done 1 0") && slip[3..].contains(&0));
    }
    assert!(matched >= 3 && blank >= 2, "the page has too few examples");
}

/// The grammar of the page's examples on one pass, fields with prefixes, and a slip
/// of two fields of which one has a prefix.
const PREFIXES: &[u32] = &[4, 8, 1, 1, 1, 4, 2, 8, 2, 1, 3, 2, 3, 2, 1, 1];
const FIELDS: &[u32] = &[
    0, 0, 10, 1, 0, 9, 2, 0, 2, 3, 1, 1, 1, 0, 6, 2, 1, 4, 3, 5, 1, 2, 0, 2, 3, 2, 1, 1, 1, 1,
];
/// The sentence of the page that has that slip.
const FIELDS_ON_THE_PAGE: &str =
    "The slip is `0 0 10  1 0 9  2 0 2  3 1 1  1 0 6  2 1 4  3 5 1  2 0 2  3 2 1  1 1 1`";

#[test]
fn the_pages_examples_on_one_pass() {
    assert!(PAGE.contains("the grammar `4  8 1 1 1  4 2  8 2 1 3 2 3 2  1 1`"));
    assert!(PAGE.contains(FIELDS_ON_THE_PAGE));
    let rows = PAGE.lines().map(|line| line.split('|').collect());
    let mut reaches = [0; 5];
    for cells in rows.filter(|cells: &Vec<&str>| cells.len() > 4 && cells[1].contains(", reach ")) {
        let row = cells.join("|");
        let [budget, reach] = numbers(&cells[1].replace(", reach", ""))[..] else {
            panic!("{row}");
        };
        let rules = numbers(cells[2]);
        assert_eq!(rules[3], reach, "{row}");
        let printed = cells[4].trim().replace("`: `", "\n").replace('`', "");
        let answer = run(budget, PREFIXES, &rules, FIELDS);
        assert_eq!(answer, format!("{printed}\n"), "{row}");
        reaches[reach as usize] += 1;
    }
    assert!(reaches[3] >= 5 && reaches[1..].iter().all(|&rows| rows > 0));
}

/// The page's examples on budgets: of each row the budget, the rules and the answer.
fn examples_on_budgets() -> Vec<(u32, Vec<u32>, String)> {
    let rows = PAGE.lines().filter(|line| line.starts_with("| under "));
    rows.map(|row| {
        let cells: Vec<&str> = row.split('|').collect();
        let budget = cells[1].replace("under", "").trim().parse();
        let printed = cells[3].trim().replace("`: `", "\n").replace('`', "");
        let rules = numbers(cells[2]);
        (budget.expect("a budget"), rules, format!("{printed}\n"))
    })
    .collect()
}

#[test]
fn the_pages_examples_on_budgets() {
    let examples = examples_on_budgets();
    for (budget, rules, printed) in &examples {
        assert_eq!(run(*budget, GRAMMAR, rules, SLIP), *printed, "{budget}");
    }
    // What is finished stays; after 40 come other endings, and 40 again.
    let starts = |(_, _, printed): &(u32, Vec<u32>, String), text| printed.starts_with(text);
    let pairs: Vec<_> = examples
        .windows(2)
        .filter(|pair| pair[0].1 == pair[1].1)
        .collect();
    for (first, second) in [
        ("done", "done"),
        ("stopped 45", "stopped 45"),
        ("refused 23", "refused 23"),
        ("stopped 40", "done"),
        ("stopped 40", "stopped 45"),
        ("stopped 40", "stopped 40"),
    ] {
        let mut both = pairs.iter();
        assert!(
            both.any(|pair| starts(&pair[0], first) && starts(&pair[1], second)),
            "the page has no example of {first}, then {second}"
        );
    }
}

#[test]
fn the_papers_refusals_and_operations() {
    let wrong = [1, 9, 2, 2, 1, 2, 200, 1, 1, 1];
    assert_eq!(run(3, GRAMMAR, &wrong, SLIP), "refused 23 8\n");
    assert_eq!(run(3, &[1, 8, 1, 1, 0], RULES, SLIP), "refused 12 1\n");
    assert_eq!(run(3, GRAMMAR, RULES, &[0, 0, 1]), "refused 31 3\n");
    let over = [SLIP, &[1, 1, 1]].concat();
    assert_eq!(run(3, GRAMMAR, RULES, &over), "refused 31 18\n");
    for number in [1_000_000_000, 4_000_000_000] {
        assert_eq!(
            run(3, GRAMMAR, RULES, &list(&[number, 500])),
            format!("done 2 0 18\n0 0 6 1 0 5 2 {number} 1 1 0 3 2 500 1 1 1 1\n")
        );
    }
    // All words are read; a number over the limit is refused where it stands.
    for number in [4_000_000_001, u32::MAX] {
        assert_eq!(
            run(3, GRAMMAR, RULES, &list(&[number, 500])),
            "refused 32 7\n"
        );
    }
    let document_01 = [(125, 100), (150, 200), (49, 0)];
    let half_to_even = [(250, 200), (50, 0), (175, 200)];
    let great = [
        (999_999_950, 1_000_000_000),
        (3_999_999_850, 3_999_999_800_u32),
        (3_999_999_950, 4_000_000_000),
    ];
    let rounds = document_01.into_iter().chain(half_to_even).chain(great);
    for (number, rounded) in rounds {
        assert_eq!(
            run(3, GRAMMAR, ROUND, &list(&[number])),
            format!("done 1 1 12\n0 0 4 1 0 3 2 {rounded} 1 1 1 1\n")
        );
    }
    for (number, divisor, quotient) in [(1_000, 300, 300), (40_000_000, 1, 4_000_000_000_u32)] {
        assert_eq!(
            run(3, GRAMMAR, QUOTIENT, &list(&[number, divisor])),
            format!("done 1 1 12\n0 0 4 1 0 3 2 {quotient} 1 1 1 1\n")
        );
    }
    assert_eq!(
        run(3, GRAMMAR, QUOTIENT, &list(&[40_000_001, 1])),
        "stopped 45 1 0 18\n0 0 6 1 0 5 2 40000001 1 1 0 3 2 1 1 1 1 1\n"
    );
}

#[test]
fn counts_are_read_and_a_wrong_one_is_told() {
    let with = |changes: &[(usize, u32)]| {
        let mut slip = SLIP.to_vec();
        for &(position, word) in changes {
            slip[position] = word;
        }
        run(3, GRAMMAR, RULES, &slip)
    };
    for node in 0..SLIP.len() / 3 {
        let position = 3 * node + 2;
        let right = SLIP[position];
        for wrong in [0, right - 1, right + 1, 3 * right, right + 65_536, u32::MAX] {
            let refused = format!("refused 34 {position}\n");
            assert_eq!(with(&[(position, wrong)]), refused, "{wrong}");
        }
    }
    // The first is told, and any other fault before it.
    assert_eq!(with(&[(11, 2), (5, 4)]), "refused 34 5\n");
    assert_eq!(with(&[(2, 7), (7, 4_000_000_001)]), "refused 32 7\n");
    let over = [SLIP, &[1, 1, 1]].concat();
    let miscounted = [&[0, 0, 7], &over[3..]].concat();
    assert_eq!(run(3, GRAMMAR, RULES, &miscounted), "refused 31 18\n");
    assert_eq!(run(3, GRAMMAR, RULES, &[0, 0, 2]), "refused 31 3\n");
    // Two words a node are no slip any more.
    let tree = [0, 0, 1, 0, 2, 200, 1, 0, 2, 500, 1, 1];
    assert_eq!(run(3, GRAMMAR, RULES, &tree), "refused 32 3\n");
    for length in [0, 1, 2, 4, 5, 16, 17] {
        let cut = run(3, GRAMMAR, RULES, &SLIP[..length]);
        assert_eq!(cut, "refused 30 0\n", "{length}");
    }
}

#[test]
fn texts_that_are_no_input_are_unread() {
    for budget in ["+3", "-3", "3.0", "3,", "0x3", "1_0", "three", "4294967296"] {
        let text = EXAMPLE.replacen('3', budget, 1);
        assert_eq!(bench(text.as_bytes()), UNREAD, "{budget}");
    }
    for other in ["\0", "\u{a0}", ";", "\x1c", "\u{85}"] {
        let text = EXAMPLE.replacen(' ', other, 1);
        assert_eq!(bench(text.as_bytes()), UNREAD, "{other:?}");
    }
    assert_eq!(bench(&[EXAMPLE.as_bytes(), b" \xff"].concat()), UNREAD);
    assert_eq!(bench(format!("{EXAMPLE} 1").as_bytes()), UNREAD);
    let words: Vec<&str> = EXAMPLE.split(' ').collect();
    for kept in 0..words.len() {
        assert_eq!(bench(words[..kept].join(" ").as_bytes()), UNREAD);
    }
    assert_eq!(bench(b" \n"), UNREAD);
}

#[test]
fn other_ways_to_write_the_example() {
    for space in ["  ", "\t", "\n", "\r\n", "\x0b", "\x0c", " \n\t "] {
        let text = format!("{space}{}{space}", EXAMPLE.replace(' ', space));
        assert_eq!(bench(text.as_bytes()), DONE, "{space:?}");
    }
    // Longer than any buffer of the bench.
    let zeros = "0".repeat(1_000_000);
    assert_eq!(bench(format!("{zeros}{EXAMPLE}").as_bytes()), DONE);
    let blanks = " ".repeat(1_000_000);
    assert_eq!(bench(EXAMPLE.replace(' ', &blanks).as_bytes()), DONE);
    let endless = format!("{EXAMPLE}{}", " 1".repeat(1_000_000));
    assert_eq!(bench(endless.as_bytes()), UNREAD);
    let most = EXAMPLE.replacen('3', "4294967295", 1);
    assert_eq!(bench(most.as_bytes()), "refused 3 0\n");
}

#[test]
fn lengths_at_one_past_and_two_past_their_limits() {
    let most = u32::MAX;
    for (length, printed) in [
        (4_096, "refused 11 0\n"),
        (4_097, "refused 4 0\n"),
        (4_098, UNREAD),
    ] {
        assert_eq!(run(3, &vec![most; length], RULES, SLIP), printed);
    }
    for (length, printed) in [
        (6_141, "refused 32 0\n"),
        (6_142, "refused 30 0\n"),
        (6_143, "refused 30 0\n"),
        (6_144, "refused 32 0\n"),
        (6_145, "refused 30 0\n"),
        (6_146, UNREAD),
        (6_147, UNREAD),
    ] {
        assert_eq!(run(3, GRAMMAR, RULES, &vec![most; length]), printed);
    }
    for (length, printed) in [
        (16_384, "refused 21 0\n"),
        (16_385, "refused 5 0\n"),
        (16_386, UNREAD),
    ] {
        assert_eq!(run(3, GRAMMAR, &vec![most; length], SLIP), printed);
    }
    // All three one past their limits.
    let [grammar, rules, slip] = [4_097, 16_385, 6_145].map(|length| vec![most; length]);
    assert_eq!(run(3, &grammar, &rules, &slip), "refused 4 0\n");
    // The greatest slip that can be filled.
    let mut slip = list(&vec![4_000_000_000; 1_023]);
    let printed = format!("done 1023 0 6144\n{}\n", printed_words(&slip));
    assert_eq!(run(1_000_000, GRAMMAR, RULES, &slip), printed);
    slip[6_143] = 2;
    assert_eq!(run(1_000_000, GRAMMAR, RULES, &slip), "refused 34 6143\n");
}

/// Writes an input with white space and leading zeros as they come.
fn text_of(input: &Input, random: &mut Random) -> Vec<u8> {
    let mut text = Vec::new();
    for number in to_bench(input).split_whitespace() {
        while random.chance(10) {
            text.push(random.pick(b" \t\n\x0b\x0c\r"));
        }
        if random.chance(5) {
            text.extend(vec![b'0'; random.below(12)]);
        }
        text.extend(number.bytes());
        text.push(random.pick(b"       \n"));
    }
    if random.chance(50) {
        text.pop();
    }
    text
}

/// Changes, drops or adds a byte.
fn damage(text: &mut Vec<u8>, random: &mut Random) {
    let place = random.below(text.len());
    let byte = random.pick(b" 0123456789+-.,x\0\x7f\xff");
    match random.below(4) {
        0 => text[place] = byte,
        1 => drop(text.remove(place)),
        2 => text.insert(place, byte),
        _ => text.truncate(place),
    }
}

#[test]
fn generated_inputs_are_answered_as_by_the_reference() {
    let mut counts = [0; 4];
    for seed in 0..INPUTS + DAMAGED {
        let mut random = Random::new(seed);
        let mut text = text_of(&any_run_input(seed), &mut random);
        if seed >= INPUTS {
            damage(&mut text, &mut random);
        }
        let printed = bench(&text);
        assert_eq!(printed, answer(&text), "seed {seed}");
        let kinds = ["done ", "stopped ", "refused ", "unread"];
        let kind = kinds.iter().position(|kind| printed.starts_with(kind));
        counts[kind.expect("an answer")] += 1;
    }
    // Written, not printed: a test's prints are shown only where it fails.
    writeln!(
        stdout(),
        "{} texts are answered alike; done, stopped, refused, unread: {counts:?}",
        INPUTS + DAMAGED
    )
    .expect("written");
    assert!(counts.iter().all(|&count| count >= LEAST), "{counts:?}");
}
