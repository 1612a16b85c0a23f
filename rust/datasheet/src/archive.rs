//! The archive as the tools of binutils show it.

use std::collections::{BTreeMap, BTreeSet};
use std::process::Command;

use crate::frames::Frames;

/// What a tool prints.
pub fn printed(tool: &str, arguments: &[&str]) -> String {
    let output = Command::new(tool).args(arguments).output();
    let output = output.unwrap_or_else(|error| panic!("{tool}: {error}"));
    assert!(output.status.success(), "{tool} {arguments:?}");
    String::from_utf8(output.stdout).expect("text")
}

/// The names of the functions that the archive gives.
pub fn given(archive: &str) -> Vec<String> {
    let listed = printed("nm", &["-g", archive]);
    let lines = listed.lines().filter_map(|line| line.split_once(" T "));
    lines.map(|(_, name)| name.to_string()).collect()
}

/// The bytes of code and of constants of each function, by section; constants of
/// no function have the name `.rodata`.
pub fn sizes(archive: &str) -> BTreeMap<String, usize> {
    let mut sizes = BTreeMap::new();
    for line in printed("size", &["-A", archive]).lines() {
        let cells: Vec<&str> = line.split_whitespace().collect();
        let [section, size, _] = cells[..] else {
            continue;
        };
        let of = |kind| section.strip_prefix(kind);
        let function = match of(".text.").or(of(".rodata.")) {
            Some(name) if name.starts_with("cst") => ".rodata",
            Some(name) => name,
            None => continue,
        };
        let size: usize = size.parse().expect("a size");
        *sizes.entry(function.to_string()).or_default() += size;
    }
    sizes
}

/// The functions that one reaches, itself among them.
pub fn reached<'a>(frames: &'a Frames, name: &'a str) -> BTreeSet<&'a str> {
    let mut reached = BTreeSet::new();
    let mut todo = vec![name];
    while let Some(next) = todo.pop() {
        if !reached.insert(next) {
            continue;
        }
        if let Some(frame) = frames.get(next) {
            todo.extend(frame.calls.iter().map(|(callee, _)| callee.as_str()));
        }
    }
    reached
}
