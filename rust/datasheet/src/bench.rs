//! The stack of the bench program, from outside: the least limit with which it
//! answers.

use std::io::Write;
use std::path::{Path, PathBuf};
use std::process::{Command, Stdio};

use generate::to_bench;

use crate::figures::deepest_run;
use crate::painted::Stack;
use crate::sheet::top;

/// A limit is in KiB, and the system gives whole pages.
const PAGE: usize = 4;
/// More than it needs.
const ENOUGH: usize = 8_192;
/// The system begins a stack at a place of its choice within some pages, so that
/// the least limit is not always the same: the greatest of so many.
const TIMES: usize = 12;

/// The program, if it has been built.
pub fn program() -> Option<PathBuf> {
    let program = top().join("crates/bench/out/bench");
    program.exists().then_some(program)
}

/// The least stack in KiB with which the program answers the example of document
/// 01 and the deepest run that is known.
pub fn needs(program: &Path) -> [(&'static str, usize); 2] {
    let deepest = to_bench(&deepest_run(&mut Stack::new()));
    [
        ("document 01's example", least_stack(program, EXAMPLE)),
        ("the deepest run", least_stack(program, &deepest)),
    ]
}

const EXAMPLE: &str = include_str!("../../../crates/bench/stdin");

fn least_stack(program: &Path, input: &str) -> usize {
    let times = (0..TIMES).map(|_| least_limit(program, input));
    times.max().expect("it is run")
}

fn least_limit(program: &Path, input: &str) -> usize {
    let (mut fails, mut answers) = (0, ENOUGH);
    while answers - fails > PAGE {
        let middle = (fails + answers) / 2 / PAGE * PAGE;
        if answers_with(program, input, middle) {
            answers = middle;
        } else {
            fails = middle;
        }
    }
    answers
}

/// Does the program answer with so much stack, and no environment?
fn answers_with(program: &Path, input: &str, limit: usize) -> bool {
    let child = Command::new("bash")
        .args(["-c", "ulimit -c 0; ulimit -s $0; exec env -i $1"])
        .arg(limit.to_string())
        .arg(program)
        .stdin(Stdio::piped())
        .stdout(Stdio::null())
        .stderr(Stdio::null())
        .spawn();
    let mut child = child.expect("bash runs");
    let mut stdin = child.stdin.take().expect("a pipe");
    // A program that has ended reads nothing.
    _ = stdin.write_all(input.as_bytes());
    drop(stdin);
    child.wait().expect("it ends").success()
}
