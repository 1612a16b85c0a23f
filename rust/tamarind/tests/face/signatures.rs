//! The header and this crate declare what the proved code exports: the same
//! functions, arguments and structs, by name, order and type.

use std::collections::BTreeSet;
use std::process::Command;

use crate::{output, read, ARCHIVE, CRATE, ROOT};

/// An exported function of the proved code.
struct Export {
    name: String,
    /// Each argument's name and type.
    arguments: Vec<(String, String)>,
    answer: String,
}

/// The structs that are exported, with their names in C.
const STRUCTS: [(&str, &str); 4] = [
    ("Answer", "tamarind_answer"),
    ("RunAnswer", "tamarind_outcome"),
    ("Posting", "tamarind_posting"),
    ("ConversionAnswer", "tamarind_conversion"),
];

/// A text with single blanks, and none inside brackets.
fn one_line(text: &str) -> String {
    let words: Vec<&str> = text.split_whitespace().collect();
    let line = words.join(" ");
    line.replace("( ", "(").replace(", )", ")")
}

/// The text between two others.
fn between<'a>(text: &'a str, start: &str, end: &str) -> Option<&'a str> {
    Some(text.split_once(start)?.1.split_once(end)?.0)
}

fn pairs(list: &str) -> Vec<(String, String)> {
    let pair = |item: &str| {
        let (name, kind) = item.split_once(": ").expect("a name and a type");
        (name.trim().to_string(), kind.trim().to_string())
    };
    let items = list.split(',').filter(|item| !item.trim().is_empty());
    items.map(pair).collect()
}

/// What the archive is made of.
fn exporting_code() -> String {
    read(format!("{ROOT}/crates/tamarind_c/src/lib.rt"))
}

/// What that calls; the structs are declared there.
fn proved_code() -> String {
    read(format!("{ROOT}/crates/tamarind/src/lib.rt"))
}

/// In a contract `result` is what is returned, so the code cannot call a memory so.
fn named((name, kind): (String, String)) -> (String, String) {
    let name = if name == "res" { "result".into() } else { name };
    (name, kind)
}

fn exports() -> Vec<Export> {
    let code = exporting_code();
    let export = |text: &str| Export {
        name: between(text, "extern \"C\" fn ", "(")
            .expect("a name")
            .into(),
        arguments: pairs(between(text, "(", ")").expect("arguments"))
            .into_iter()
            .map(named)
            .collect(),
        answer: between(text, "-> ", "\n").expect("an answer").into(),
    };
    code.split("#[unsafe(no_mangle)]")
        .skip(1)
        .map(export)
        .collect()
}

/// A type of the proved code in C, and in Rust: a slice is a pointer and then a
/// length.
fn in_c(kind: &str) -> &str {
    match kind {
        "&[u32]" => "const uint32_t *",
        "&mut [u32]" => "uint32_t *",
        "u32" => "uint32_t ",
        "usize" => "size_t ",
        "bool" => "bool ",
        name => panic!("{name} is not exported"),
    }
}

fn in_rust(kind: &str) -> &str {
    match kind {
        "&[u32]" => "*const u32",
        "&mut [u32]" => "*mut u32",
        other => other,
    }
}

/// The arguments as they are passed, each written by a function of its name and
/// type.
fn passed(export: &Export, write: impl Fn(&str, &str) -> String) -> String {
    let mut written = vec![];
    for (name, kind) in &export.arguments {
        written.push(write(name, kind));
        if kind.ends_with("[u32]") {
            written.push(write(&format!("{name}_len"), "usize"));
        }
    }
    written.join(", ")
}

fn prototype(export: &Export) -> String {
    let arguments = match &export.arguments[..] {
        [] => "void".into(),
        _ => passed(export, |name, kind| format!("{}{name}", in_c(kind))),
    };
    let of_struct = STRUCTS.iter().find(|(name, _)| *name == export.answer);
    let answer = of_struct.map_or_else(|| in_c(&export.answer).trim(), |&(_, name)| name);
    format!("{answer} {}({arguments});", export.name)
}

fn declaration(export: &Export) -> String {
    let arguments = passed(export, |name, kind| format!("{name}: {}", in_rust(kind)));
    format!("fn {}({arguments}) -> {};", export.name, export.answer)
}

/// The header without its comments.
fn header() -> String {
    let text = read(format!("{ROOT}/include/tamarind.h"));
    let code = |piece: &str| piece.split_once("*/").map(|(_, code)| code.to_string());
    let mut pieces = text.split("/*");
    let first = pieces.next().unwrap_or_default().to_string();
    [first].into_iter().chain(pieces.filter_map(code)).collect()
}

fn crate_code() -> String {
    read(format!("{CRATE}/src/foreign.rs"))
}

#[test]
fn every_export_is_declared_as_it_is() {
    let (header, foreign) = (one_line(&header()), one_line(&crate_code()));
    let exports = exports();
    for export in &exports {
        let (c, rust) = (prototype(export), declaration(export));
        assert!(header.contains(&c), "the header has no `{c}`");
        assert!(foreign.contains(&rust), "the crate has no `{rust}`");
    }
    let declared = foreign.matches("fn tamarind_").count();
    assert_eq!(declared, exports.len());
}

#[test]
fn the_header_and_the_archive_have_these_functions_and_no_others() {
    let names: BTreeSet<String> = exports().into_iter().map(|export| export.name).collect();
    let text = header();
    let at_line_start = |line: &str| {
        let plain = line.starts_with("tamarind_") || line.starts_with("uint32_t ");
        let (start, _) = line.split_once('(').filter(|_| plain)?;
        start.split(' ').next_back().map(String::from)
    };
    let declared: BTreeSet<String> = text.lines().filter_map(at_line_start).collect();
    assert_eq!(declared, names);

    let symbols = output(Command::new("nm").args(["-g", "--defined-only", ARCHIVE]));
    let symbol = |line: &str| line.split_once(" T ").map(|(_, name)| name.to_string());
    let given: BTreeSet<String> = symbols.lines().filter_map(symbol).collect();
    assert_eq!(given, names);
}

#[test]
fn the_structs_have_the_same_fields() {
    let (code, foreign, header) = (proved_code(), crate_code(), one_line(&header()));
    for (name, c_name) in STRUCTS {
        let start = format!("#[repr(C)]\npub struct {name} {{");
        let copied = start.replace('\n', "\n#[derive(Clone, Copy)]\n");
        let proved = between(&code, &copied, "}").expect("a struct of the proved code");
        let fields = pairs(&proved.replace("pub ", ""));
        let ours = between(&foreign, &start, "}").expect("a struct of the crate");
        assert_eq!(pairs(ours), fields, "{name}");
        let in_header = fields
            .iter()
            .map(|(name, kind)| format!("{}{name}; ", in_c(kind)));
        let in_header: String = in_header.collect();
        let due = format!("typedef struct {{ {in_header}}} {c_name};");
        assert!(header.contains(&due), "the header has no `{due}`");
    }
}
