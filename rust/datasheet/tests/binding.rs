//! When memset is found is seen in the stack of the first check: docs/DATASHEET.md
//! says how to link.

use std::path::Path;
use std::process::Command;

use datasheet::sheet;

/// The stack of the first check and of the second, linked with an option.
fn checks(option: &str) -> (usize, usize) {
    let program = Path::new(env!("CARGO_TARGET_TMPDIR")).join(option);
    let compiled = Command::new("gcc")
        .args([
            "-std=gnu99",
            "-Wall",
            "-Wextra",
            "-Werror",
            "-z",
            option,
            "-o",
        ])
        .arg(&program)
        .arg("-I")
        .arg(sheet::top().join("include"))
        .arg(sheet::top().join("rust/datasheet/tests/binding.c"))
        .arg(sheet::archive())
        .status();
    assert!(compiled.expect("gcc runs").success());
    let output = Command::new(&program).output().expect("the program runs");
    let printed = String::from_utf8(output.stdout).expect("text");
    let (first, second) = printed.trim().split_once(' ').expect("two numbers");
    let number = |text: &str| text.parse().expect("a number");
    (number(first), number(second))
}

#[test]
fn bound_at_the_start_the_first_check_takes_no_more_than_the_second() {
    let (first, second) = checks("now");
    assert_eq!(first, second);
    let (late, later) = checks("lazy");
    assert_eq!(later, second);
    assert!(late >= later);
}
