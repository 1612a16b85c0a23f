//! A program of two files compiles against the header in every C and C++ that
//! the header is for, links the archive and runs.

use std::process::Command;

use tamarind::{meaning, EDITION};

use crate::{compiler, folder, output, ARCHIVE, CRATE, STRICT};

const CHECKS: &str = "\
    0 0\n10 8\n12 1\n\
    0 0\n31 3\n30 0\n34 11\n12 1\n\
    0 0\n20 9\n12 1\n";
const RUNS: &str = "\
    0 0 0 3 1 18 memories right, post result 18\n\
    1 40 0 2 1 18 memories right, post slip 18\n\
    2 23 8 0 0 0 memories right, post slip 18\n\
    2 3 0 0 0 0 memories right, post slip 18\n";
const POSTS: &str = "post result 8\npost slip 18\npost slip 18\n";
const CONVERSIONS: &str = "\
    0 0 0 18 result right\n0 0 0 18 result right\n\
    10 8 2 0 result right\n60 3 0 0 result right\n\
    60 4 0 0 result right\n61 1 0 0 result right\n\
    30 0 0 0 result right\n31 2 0 0 result right\n\
    34 11 0 0 result right\n\
    1 0 0\n12 1 1\n12 1 1\n";

fn expected() -> String {
    let edition = format!("edition {EDITION} 1\n");
    let meanings = (0..100).map(|number| format!("{number} {}\n", meaning(number)));
    [CHECKS, RUNS, POSTS, CONVERSIONS, &edition]
        .map(String::from)
        .into_iter()
        .chain(meanings)
        .collect()
}

/// What the program prints, compiled as a language's standard.
fn printed(name: &str, language: &str, standard: &str) -> String {
    let program = folder(&format!("from_{standard}")).join("program");
    let files = ["check.c", "meanings.c"].map(|file| format!("{CRATE}/tests/c/{file}"));
    output(
        compiler(name)
            .args(STRICT)
            .arg(format!("-std={standard}"))
            .args(["-x", language])
            .args(files)
            .args(["-x", "none", ARCHIVE, "-o"])
            .arg(&program),
    );
    output(&mut Command::new(program))
}

#[test]
fn every_c_from_c99_on_links_and_runs() {
    for standard in ["c99", "c11", "c17", "c2x"] {
        assert_eq!(printed("gcc", "c", standard), expected(), "{standard}");
    }
}

#[test]
fn every_cpp_from_cpp11_on_links_and_runs() {
    for standard in ["c++11", "c++14", "c++17", "c++20", "c++23"] {
        assert_eq!(printed("g++", "c++", standard), expected(), "{standard}");
    }
}
