//! The tables of docs/DATASHEET.md that are measured: printed, written into the
//! sheet, and read from it. A table follows the line `<!-- table: name -->`.

use std::path::PathBuf;

use crate::abi::{RESULT_WORDS, WORK_WORDS};
use crate::archive::{given, reached, sizes};
use crate::figures::{Figure, Growth, Line, Nested, SLIPS};
use crate::formula::{dearest_attempt, formula, most, TERMS};
use crate::frames::Frames;
use crate::source::{depth, end_finders, Calls, COUNTS};

/// The repository's top.
pub fn top() -> PathBuf {
    [env!("CARGO_MANIFEST_DIR"), "..", ".."].iter().collect()
}

/// The archive that is measured.
pub fn archive() -> String {
    let path = top().join("target/staticlib/libtamarind.a");
    path.to_str().expect("a path in UTF-8").to_string()
}

fn path() -> PathBuf {
    top().join("docs/DATASHEET.md")
}

pub fn read() -> String {
    std::fs::read_to_string(path()).expect("docs/DATASHEET.md can be read")
}

fn marker(name: &str) -> String {
    format!("<!-- table: {name} -->")
}

/// The rows of a table of the sheet, head and rule among them.
pub fn table<'a>(sheet: &'a str, name: &str) -> Vec<&'a str> {
    let lines = sheet.lines().skip_while(|line| *line != marker(name));
    let rows = lines.skip(1).skip_while(|line| line.is_empty());
    let rows: Vec<&str> = rows.take_while(|line| line.starts_with('|')).collect();
    assert!(rows.len() > 2, "docs/DATASHEET.md has a table {name}");
    rows
}

/// The cells of a row.
pub fn cells(row: &str) -> Vec<&str> {
    row.trim_matches('|').split('|').map(str::trim).collect()
}

/// A number with its thousands set apart.
pub fn number(cell: &str) -> usize {
    let digits = cell.replace(',', "");
    digits
        .parse()
        .unwrap_or_else(|_| panic!("{cell} is no number"))
}

/// A number as the sheet has it: thousands are set apart from 1,000 on.
pub fn written(number: usize) -> String {
    let digits = number.to_string();
    let first = (digits.len() + 2) % 3 + 1;
    let (head, rest) = digits.split_at(first);
    let mut text = head.to_string();
    for group in rest.as_bytes().chunks(3) {
        text.push(',');
        text.extend(group.iter().map(|byte| char::from(*byte)));
    }
    text
}

/// Puts tables in the place of those in the sheet.
pub fn write(tables: &[(&str, Vec<String>)]) {
    let mut sheet = read();
    for (name, rows) in tables {
        let old = table(&sheet, name).join("\n");
        sheet = sheet.replacen(&old, &rows.join("\n"), 1);
    }
    std::fs::write(path(), sheet).expect("docs/DATASHEET.md can be written");
}

/// The stack of each exported function.
pub fn stack_table(figures: &[Figure]) -> Vec<String> {
    let mut rows = vec![
        "| function | stack, bytes | painted | arguments on the stack | room for `memcpy` and `memset` |"
            .to_string(),
        "|---|---|---|---|---|".to_string(),
    ];
    rows.extend(figures.iter().map(|figure| {
        let name = figure.name;
        let stack = written(figure.chain.bytes);
        let painted = written(figure.painted);
        let room = figure.room.map_or("calls neither".to_string(), written);
        let pushed = figure.pushed;
        format!("| `{name}` | {stack} | {painted} | {pushed} | {room} |")
    }));
    rows
}

/// The stack of what the archive needs from the caller's program.
pub fn needed_table(needed: &[(&str, usize)]) -> Vec<String> {
    let mut rows = vec![
        "| function of this system | stack, bytes |".to_string(),
        "|---|---|".to_string(),
    ];
    let row = |(name, bytes): &(&str, usize)| format!("| `{name}` | {bytes} |");
    rows.extend(needed.iter().map(row));
    rows
}

/// The deepest chain of calls from each exported function.
pub fn chains_table(figures: &[Figure]) -> Vec<String> {
    let mut rows = vec![
        "| function | deepest chain of calls |".to_string(),
        "|---|---|".to_string(),
    ];
    rows.extend(figures.iter().map(|figure| {
        let chain = match &figure.chain.functions[1..] {
            [] => "calls none".to_string(),
            below => folded(below).join(", "),
        };
        format!("| `{}` | {chain} |", figure.name)
    }));
    rows
}

/// A chain with its repetitions told by their number.
fn folded(chain: &[String]) -> Vec<String> {
    let mut text = Vec::new();
    let mut rest = chain;
    while !rest.is_empty() {
        let (period, times) = (1..=4)
            .map(|period| (period, times(rest, period)))
            .max_by_key(|(period, times)| if *times > 1 { period * times } else { 0 })
            .filter(|(_, times)| *times > 1)
            .unwrap_or((1, 1));
        let names: Vec<String> = rest[..period]
            .iter()
            .map(|name| format!("`{name}`"))
            .collect();
        let names = names.join(", ");
        text.push(match times {
            1 => names,
            _ => format!("{times} times ({names})"),
        });
        rest = &rest[period * times..];
    }
    text
}

/// How often a chain begins with its first so many functions, one after another.
fn times(chain: &[String], period: usize) -> usize {
    let first = chain.get(..period);
    let pieces = chain.chunks(period);
    pieces
        .take_while(|piece| Some(*piece) == first)
        .count()
        .max(1)
}

/// The ways of nesting.
pub fn nested_table(nested: &[Nested]) -> Vec<String> {
    let mut rows = vec![
        "| nested through | 32 nested calls | each | with 4 arguments | each |".to_string(),
        "|---|---|---|---|---|".to_string(),
    ];
    rows.extend(nested.iter().map(|nested| {
        let cells = nested.figures().map(written).join(" | ");
        format!("| {} | {cells} |", nested.way)
    }));
    rows
}

/// How each exported function's stack grows with what nests.
pub fn growth_table(growth: &[Growth]) -> Vec<String> {
    let mut rows = vec![
        "| function | at least | nodes read up to nesting n | c calls open |".to_string(),
        "|---|---|---|---|".to_string(),
    ];
    let line = |line: Option<Line>, by: &str| match line {
        Some(Line { beside, each }) => format!("{} + {} {by}", written(beside), written(each)),
        None => "not more".to_string(),
    };
    rows.extend(growth.iter().map(|growth| {
        let (name, least) = (growth.name, written(growth.least));
        let (nesting, calls) = (line(growth.by_nesting, "n"), line(growth.by_calls, "c"));
        format!("| `{name}` | {least} | {nesting} | {calls} |")
    }));
    rows
}

/// The stack of each exported function on slips of several lengths.
pub fn length_table(by_length: &[(&str, [usize; SLIPS.len()])]) -> Vec<String> {
    let lengths = SLIPS.map(|nodes| format!("{} nodes", written(nodes)));
    let mut rows = vec![
        format!("| function | {} |", lengths.join(" | ")),
        "|---|---|---|---|".to_string(),
    ];
    rows.extend(by_length.iter().map(|(name, stacks)| {
        let cells = stacks.map(written).join(" | ");
        format!("| `{name}` | {cells} |")
    }));
    rows
}

/// The functions that find the end of a tree, and how many calls are open at most
/// below each.
pub fn ends_table(calls: &Calls) -> Vec<String> {
    let mut rows = vec![
        "| function | finds the end by | calls open below it, at most |".to_string(),
        "|---|---|---|".to_string(),
    ];
    rows.extend(end_finders(calls).iter().map(|name| {
        let by = match name.as_str() {
            COUNTS => "the trees owed",
            _ => "the mark",
        };
        let depth = depth(calls, name).map_or("not bounded".to_string(), written);
        format!("| `{name}` | {by} | {depth} |")
    }));
    rows
}

/// The frames.
pub fn frames_table(frames: &Frames) -> Vec<String> {
    let mut rows = vec![
        "| function | frame | red zone | calls, with the bytes of arguments pushed |".to_string(),
        "|---|---|---|---|".to_string(),
    ];
    rows.extend(frames.iter().map(|(name, frame)| {
        let calls = frame.calls.iter();
        let calls: Vec<String> = calls
            .map(|(callee, depth)| called(callee, depth.saturating_sub(frame.bytes)))
            .collect();
        let (bytes, red_zone) = (written(frame.bytes), frame.red_zone);
        format!("| `{name}` | {bytes} | {red_zone} | {} |", calls.join(", "))
    }));
    rows
}

fn called(callee: &str, pushed: usize) -> String {
    match pushed {
        0 => format!("`{callee}`"),
        _ => format!("`{callee}` {pushed}"),
    }
}

/// The terms of the formula.
pub fn terms_table() -> Vec<String> {
    let mut rows = vec!["| for each | ns |".to_string(), "|---|---|".to_string()];
    rows.extend(TERMS.map(|(name, _, cost)| format!("| {name} | {cost:.1} |")));
    rows
}

/// What each piece of an attempt costs at most, in microseconds.
pub fn most_table() -> Vec<String> {
    let mut rows = vec![
        "| piece of an attempt | at most, microseconds |".to_string(),
        "|---|---|".to_string(),
    ];
    let row = |name: &str, ns: f64| format!("| {name} | {:.1} |", ns / 1e3);
    rows.extend(most().map(|(name, done)| row(name, formula(&done))));
    let all = "all, with 8 parts of the dearest kind";
    rows.push(row(all, dearest_attempt()));
    rows
}

/// The code of each exported function with all that it calls, and of all.
pub fn code_table(frames: &Frames) -> Vec<String> {
    let sizes = sizes(&archive());
    let mut rows = vec![
        "| function | its own bytes | with all that it calls |".to_string(),
        "|---|---|---|".to_string(),
    ];
    rows.extend(given(&archive()).iter().map(|name| {
        let reached = reached(frames, name);
        let all = reached.iter().filter_map(|name| sizes.get(*name)).sum();
        let own = written(sizes[name.as_str()]);
        format!("| `{name}` | {own} | {} |", written(all))
    }));
    let all = written(sizes.values().sum());
    rows.push(format!("| all, with the constants they share | | {all} |"));
    rows
}

/// The memory of a run, in bytes, with the stack of the deepest function.
pub fn memory_table(figures: &[Figure]) -> Vec<String> {
    let code: usize = sizes(&archive()).values().sum();
    let stack = figures
        .iter()
        .map(|figure| figure.chain.bytes + figure.pushed);
    let stack = stack.max().expect("figures");
    let pieces = [
        ("grammar, at most 4,096 words", 4 * 4_096),
        ("rule book, at most 16,384 words", 4 * 16_384),
        ("slip, at most 6,144 words", 4 * 6_144),
        ("result", 4 * RESULT_WORDS),
        ("work", 4 * WORK_WORDS),
        ("code and constants", code),
        ("stack of the deepest function, with its arguments", stack),
    ];
    let mut rows = vec!["| memory | bytes |".to_string(), "|---|---|".to_string()];
    rows.extend(pieces.map(|(name, bytes)| format!("| {name} | {} |", written(bytes))));
    let total = pieces.iter().map(|(_, bytes)| bytes).sum();
    rows.push(format!("| **in all** | {} |", written(total)));
    rows
}

/// What the bench program needs for some inputs, in KiB.
pub fn bench_table(needs: &[(&str, usize)]) -> Vec<String> {
    let mut rows = vec![
        "| input | stack, KiB |".to_string(),
        "|---|---|".to_string(),
    ];
    let row = |(name, need): &(&str, usize)| format!("| {name} | {need} |");
    rows.extend(needs.iter().map(row));
    rows
}

#[cfg(test)]
mod tests {
    use super::*;

    #[test]
    fn numbers_have_their_thousands_set_apart() {
        let texts = ["0", "7", "42", "999", "1,000", "12,345", "1,234,567"];
        for text in texts {
            assert_eq!(written(number(text)), text);
        }
    }

    #[test]
    fn a_chain_is_told_with_its_repetitions() {
        let chain: Vec<String> = "a b c b c b c d d".split(' ').map(String::from).collect();
        let told = ["`a`", "3 times (`b`, `c`)", "2 times (`d`)"];
        assert_eq!(folded(&chain), told);
    }

    #[test]
    fn a_table_is_found_by_its_name() {
        let sheet =
            "<!-- table: x -->\n| a |\n|---|\n| 1 |\n\n<!-- table: y -->\n\n| b |\n|---|\n| 2 |";
        assert_eq!(table(sheet, "y"), ["| b |", "|---|", "| 2 |"]);
        assert_eq!(cells("| p | q, r |"), ["p", "q, r"]);
    }
}
