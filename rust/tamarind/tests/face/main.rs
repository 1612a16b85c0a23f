//! What someone meets who links the core: the header from C and C++, its
//! agreement with this crate and with the proved code, the examples, the page on
//! renumbering a grammar, the build script and the release.

mod build_script;
mod examples;
mod from_c;
mod header;
mod page;
mod release;
mod signatures;

use std::fs;
use std::path::{Path, PathBuf};
use std::process::Command;

/// The repository, the crate, and the archive that the crate is linked with.
const ROOT: &str = concat!(env!("CARGO_MANIFEST_DIR"), "/../..");
const CRATE: &str = env!("CARGO_MANIFEST_DIR");
const ARCHIVE: &str = env!("TAMARIND_ARCHIVE");

/// A compiler's warnings, each an error.
const STRICT: [&str; 6] = [
    "-Wall",
    "-Wextra",
    "-Wpedantic",
    "-Wconversion",
    "-Wsign-conversion",
    "-Werror",
];

/// A new folder to write into.
fn folder(name: &str) -> PathBuf {
    let folder = Path::new(env!("CARGO_TARGET_TMPDIR")).join(name);
    let _ = fs::remove_dir_all(&folder);
    fs::create_dir_all(&folder).expect("a folder");
    folder
}

fn read(path: impl AsRef<Path>) -> String {
    let path = path.as_ref();
    fs::read_to_string(path).unwrap_or_else(|error| panic!("{}: {error}", path.display()))
}

/// Whether a command succeeds, and its standard output and standard error.
fn ended(command: &mut Command) -> (bool, String, String) {
    let output = command.output().expect("it runs");
    let text = |bytes| String::from_utf8(bytes).expect("text");
    (
        output.status.success(),
        text(output.stdout),
        text(output.stderr),
    )
}

/// The standard output of a command that must succeed.
fn output(command: &mut Command) -> String {
    let (success, output, said) = ended(command);
    assert!(success, "{command:?}: {said}");
    output
}

/// A compiler with the header's folder.
fn compiler(name: &str) -> Command {
    let mut command = Command::new(name);
    command.arg("-I").arg(format!("{ROOT}/include"));
    command
}
