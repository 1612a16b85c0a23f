//! `./bench` as a person meets it: what it prints where, and its exit status
//! (docs/bench.md). The bench must be proved before: `tools/build bench`.
//! One test after the other, since each run asks `rt` what is proved.

use std::env;
use std::fs::{self, File};
use std::os::unix::fs::PermissionsExt;
use std::path::{Path, PathBuf};
use std::process::{Command, Stdio};

const BENCH: &str = concat!(env!("CARGO_MANIFEST_DIR"), "/../../bench");
const PROGRAM: &str = concat!(env!("CARGO_MANIFEST_DIR"), "/../../crates/bench/out/bench");

const EXAMPLE: &str = "3 9 3 8 1 1 1 4 2 1 2 10 1 9 2 2 1 2 200 1 2 4200 \
    18 0 0 6 1 0 5 2 200 1 1 0 3 2 500 1 1 1 1";
const DONE: &str = "done 3 1 18\n0 0 6 1 0 5 2 4200 1 1 0 3 2 500 1 1 1 1\n";

/// A new folder to write into.
fn folder(name: &str) -> PathBuf {
    let folder = Path::new(env!("CARGO_TARGET_TMPDIR")).join(name);
    let _ = fs::remove_dir_all(&folder);
    fs::create_dir_all(&folder).expect("a folder");
    folder
}

/// The exit status, standard output and standard error of a command.
fn ended(command: &mut Command) -> (i32, String, String) {
    let output = command.output().expect("it runs");
    let text = |bytes| String::from_utf8(bytes).expect("text");
    (
        output.status.code().expect("no signal"),
        text(output.stdout),
        text(output.stderr),
    )
}

/// The same of `./bench`, run in a folder.
fn bench(folder: &Path, words: &[&str]) -> (i32, String, String) {
    ended(Command::new(BENCH).args(words).current_dir(folder))
}

fn status_and_answer(status: i32, answer: &str) -> (i32, String, String) {
    (status, answer.into(), String::new())
}

fn status_and_message(status: i32, message: &str) -> (i32, String, String) {
    (status, String::new(), format!("bench: {message}\n"))
}

#[test]
fn answers_and_messages_with_their_exit_statuses() {
    let here = folder("bench_script");
    let write = |name: &str, text: String| fs::write(here.join(name), text).expect("written");
    write("my input.txt", EXAMPLE.into());
    write("stopped.txt", EXAMPLE.replacen('3', "2", 1));
    write("refused.txt", EXAMPLE.replacen('3', "0", 1));
    write("unread.txt", "three".into());
    fs::create_dir(here.join("folder")).expect("a folder");

    // Answers, and no other word.
    let slip = "0 0 6 1 0 5 2 4200 1 1 0 3 2 500 1 1 1 1";
    let stopped = status_and_answer(1, &format!("stopped 40 2 1 18\n{slip}\n"));
    assert_eq!(bench(&here, &[]), status_and_answer(0, DONE));
    assert_eq!(bench(&here, &["my input.txt"]), status_and_answer(0, DONE));
    assert_eq!(bench(&here, &["stopped.txt"]), stopped);
    let refused = status_and_answer(2, "refused 3 0\n");
    assert_eq!(bench(&here, &["refused.txt"]), refused);
    let unread = status_and_answer(3, "unread\n");
    assert_eq!(bench(&here, &["unread.txt"]), unread);
    let input = File::open(here.join("stopped.txt")).expect("open");
    assert_eq!(ended(Command::new(BENCH).arg("-").stdin(input)), stopped);

    // No input.
    assert_eq!(
        bench(&here, &["typo.txt"]),
        status_and_message(4, "there is no file typo.txt")
    );
    assert_eq!(
        bench(&here, &["folder"]),
        status_and_message(4, "folder is a directory")
    );
    for words in [&["unread.txt", "unread.txt"][..], &["--help"]] {
        let usage = status_and_message(4, "usage: ./bench [FILE | -]");
        assert_eq!(bench(&here, words), usage);
    }

    // The answer cannot be written.
    let message = "the answer could not be written";
    let full = || Stdio::from(File::create("/dev/full").expect("open"));
    let mut script = Command::new(BENCH);
    let (status, _, said) = ended(script.stdout(full()).current_dir(&here));
    assert_eq!((status, said), (5, format!("bench: {message}\n")));
    let mut program = Command::new(PROGRAM);
    let (_, _, said) = ended(program.stdin(Stdio::null()).stdout(full()));
    assert_eq!(said, format!("bench: {message}\n"));

    what_rt_says_is_passed_on(&here);
}

/// With another `rt` in its place, that says this and ends so.
fn with_rt(here: &Path, says: &str, status: i32) -> (i32, String, String) {
    let rt = here.join("rt");
    fs::write(
        &rt,
        format!("#!/bin/sh\ncat >&2 <<'E'\n{says}E\nexit {status}\n"),
    )
    .expect("written");
    fs::set_permissions(&rt, fs::Permissions::from_mode(0o755)).expect("set");
    let path = format!("{}:{}", here.display(), env::var("PATH").expect("a path"));
    ended(Command::new(BENCH).env("PATH", path))
}

fn what_rt_says_is_passed_on(here: &Path) {
    let unchanged = "rt: nothing has changed since the last proved build\n";
    let (status, answer, said) = with_rt(here, &format!("{unchanged}rt: running out/bench\n"), 0);
    assert_eq!((status, answer.as_str(), said.as_str()), (0, DONE, ""));

    let begun = "rt: chose --jobs 2 for tree\n";
    let proved = "fn tree::a: proved\nlogic=proved functions=1\n";
    let (status, answer, said) =
        with_rt(here, &format!("{begun}{proved}rt: running out/bench\n"), 0);
    assert_eq!((status, answer.as_str()), (0, DONE));
    let lines: Vec<&str> = said.lines().collect();
    assert!(lines[0].starts_with("The bench is proved first"), "{said}");
    assert_eq!(lines[1..], ["bench: tree is proved"]);

    let fault = "an error\nlogic=not-proved\nrt: the library tree did not build\n";
    let (status, answer, said) = with_rt(here, &format!("{begun}{fault}"), 1);
    assert_eq!((status, answer.as_str()), (6, ""));
    let message = "bench: it is not proved, so it is not run\n";
    let (first, rest) = said.split_once('\n').expect("several lines");
    assert!(first.starts_with("The bench is proved first"), "{said}");
    assert_eq!(rest, format!("{fault}{message}"));
}
