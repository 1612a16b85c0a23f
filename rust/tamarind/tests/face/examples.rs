//! The examples print what `examples/post.stdout` has, and end at once where the
//! archive is of another edition.

use std::env;
use std::path::{Path, PathBuf};
use std::process::Command;

use tamarind::EDITION;

use crate::{compiler, ended, folder, output, read, ARCHIVE, CRATE, ROOT, STRICT};

/// The C example with an archive.
fn in_c(folder: &Path, archive: &str) -> Command {
    let program = folder.join("post");
    output(
        compiler("gcc")
            .args(STRICT)
            .args([
                "-std=c99",
                &format!("{ROOT}/examples/post.c"),
                archive,
                "-o",
            ])
            .arg(&program),
    );
    Command::new(program)
}

/// The Rust example with the archive of a folder, built apart from this test.
fn in_rust(target: &Path, archives: &Path) -> Command {
    let mut command = Command::new(env::var_os("CARGO").unwrap_or("cargo".into()));
    command
        .args(["run", "--quiet", "--offline", "--example", "post"])
        .args(["--manifest-path", &format!("{CRATE}/Cargo.toml")])
        .arg("--target-dir")
        .arg(target)
        .env("TAMARIND_LIB_DIR", archives);
    command
}

/// An archive of the next edition, in a folder of its own.
fn other_edition(folder: &Path) -> PathBuf {
    let (object, archive) = (folder.join("other.o"), folder.join("libtamarind.a"));
    let source = format!("{CRATE}/tests/c/other_edition.c");
    let mut gcc = compiler("gcc");
    output(gcc.args(STRICT).args(["-c", &source, "-o"]).arg(&object));
    output(Command::new("ar").arg("rcs").arg(&archive).arg(&object));
    archive
}

#[test]
fn both_print_the_expected_text_and_stop_at_another_edition() {
    let here = folder("examples");
    let expected = read(format!("{ROOT}/examples/post.stdout"));
    let archives = Path::new(ARCHIVE).parent().expect("a folder");
    assert_eq!(output(&mut in_c(&here, ARCHIVE)), expected);
    assert_eq!(output(&mut in_rust(&here, archives)), expected);

    let other = other_edition(&folder("other_edition"));
    let archives = other.parent().expect("a folder");
    let next = EDITION + 1;
    let message = format!("libtamarind.a is of edition {next}, not {EDITION}\n");
    for command in [
        &mut in_c(&here, other.to_str().expect("text")),
        &mut in_rust(&here, archives),
    ] {
        let (success, printed, said) = ended(command);
        assert_eq!(
            (success, printed, said),
            (false, "".into(), message.clone())
        );
    }
}

#[test]
fn what_is_posted_is_what_the_bench_prints() {
    let bench = read(format!("{ROOT}/crates/bench/stdout"));
    let slip = bench.lines().nth(1).expect("a slip");
    let expected = read(format!("{ROOT}/examples/post.stdout"));
    let posted = expected.lines().find_map(|line| line.strip_prefix("post "));
    assert_eq!(posted, Some(slip));
}
