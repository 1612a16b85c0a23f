//! The build script, compiled alone and run as cargo would for one target or
//! another.

use std::fs;
use std::path::{Path, PathBuf};
use std::process::Command;

use crate::{ended, folder, output, ARCHIVE, CRATE, ROOT};

const HOST: &str = "x86_64-unknown-linux-gnu";

/// The script as a program.
fn script(folder: &Path) -> PathBuf {
    let program = folder.join("build");
    let source = format!("{CRATE}/build.rs");
    let mut rustc = Command::new("rustc");
    output(
        rustc
            .args(["--edition", "2021", &source, "-o"])
            .arg(&program),
    );
    program
}

/// The script with what cargo tells it of a target: rustc knows its values.
fn for_target(script: &Path, target: &str) -> Command {
    let mut command = Command::new(script);
    command.env_remove("TAMARIND_LIB_DIR");
    command.env("CARGO_MANIFEST_DIR", CRATE);
    command.env("TARGET", target);
    let values = output(Command::new("rustc").args(["--print", "cfg", "--target", target]));
    for (name, value) in values.lines().filter_map(|line| line.split_once('=')) {
        let name = format!("CARGO_CFG_{}", name.to_uppercase());
        command.env(name, value.trim_matches('"'));
    }
    command
}

/// What a script says that must refuse.
fn refusal(command: &mut Command) -> String {
    let (success, _, said) = ended(command);
    assert!(!success, "{command:?} passes");
    said
}

#[test]
fn the_archive_is_taken_from_the_folder_that_is_named() {
    let here = folder("build_folder");
    let script = script(&here);
    let archives = here.join("archives");
    fs::create_dir(&archives).expect("a folder");
    let mut named = for_target(&script, HOST);
    named.env("TAMARIND_LIB_DIR", &archives);

    let said = refusal(&mut named);
    let missing = format!("there is no {}/libtamarind.a", archives.display());
    let to_do = "`tools/build archive` in the repository, or set TAMARIND_LIB_DIR";
    assert!(said.contains(&missing) && said.contains(to_do), "{said}");

    fs::copy(ARCHIVE, archives.join("libtamarind.a")).expect("copied");
    let printed = output(&mut named);
    let search = format!("cargo:rustc-link-search=native={}\n", archives.display());
    assert!(printed.contains(&search), "{printed}");
    let again = "cargo:rerun-if-env-changed=TAMARIND_LIB_DIR\n";
    assert!(printed.contains(again), "{printed}");
}

#[test]
fn without_a_name_the_folder_is_the_repositorys() {
    let script = script(&folder("build_default"));
    // Whether the archive stands there or not, the folder is told.
    let (_, printed, said) = ended(&mut for_target(&script, HOST));
    let default = format!("{ROOT}/target/staticlib");
    let found = printed.contains(&format!("native={default}\n"));
    let missing = said.contains(&format!("there is no {default}/libtamarind.a"));
    assert!(found != missing, "{printed}{said}");
    // A relative folder starts from the crate's.
    let mut relative = for_target(&script, HOST);
    let said = refusal(relative.env("TAMARIND_LIB_DIR", "src"));
    let missing = format!("there is no {CRATE}/src/libtamarind.a");
    assert!(said.contains(&missing), "{said}");
}

/// The script for a target, with the archive there.
fn with_archive(script: &Path, target: &str) -> Command {
    let mut command = for_target(script, target);
    let folder = Path::new(ARCHIVE).parent().expect("a folder");
    command.env("TAMARIND_LIB_DIR", folder);
    command
}

#[test]
fn targets_that_the_archive_is_for_are_taken() {
    let script = script(&folder("build_taken"));
    for target in [HOST, "x86_64-unknown-linux-musl"] {
        output(&mut with_archive(&script, target));
    }
}

#[test]
fn targets_that_the_archive_is_not_for_are_refused() {
    let script = script(&folder("build_refused"));
    for (target, fault) in [
        ("aarch64-unknown-linux-gnu", "target_arch is aarch64"),
        ("i686-unknown-linux-gnu", "target_arch is x86"),
        ("s390x-unknown-linux-gnu", "target_arch is s390x"),
        ("x86_64-pc-windows-gnu", "target_os is windows"),
        ("x86_64-apple-darwin", "target_os is macos"),
        ("x86_64-unknown-none", "target_os is none"),
        ("x86_64-unknown-linux-gnux32", "target_pointer_width is 32"),
    ] {
        let said = refusal(&mut with_archive(&script, target));
        let due = format!("libtamarind.a cannot be linked for {target}: {fault}, not ");
        assert!(said.contains(&due), "{said}");
    }
    // No x86-64 is big-endian; the check is there for what may come.
    let mut big = with_archive(&script, HOST);
    let said = refusal(big.env("CARGO_CFG_TARGET_ENDIAN", "big"));
    assert!(said.contains("target_endian is big, not little"), "{said}");
}
