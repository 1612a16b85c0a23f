//! `tools/release` makes a folder from what the gate has passed, and refuses
//! what it has not. The gate is not run here: a small repository of the same
//! files gets a record by `tools/gate-record`, as `.ci/run` writes it.

use std::env;
use std::ffi::OsStr;
use std::fs;
use std::os::unix::fs::PermissionsExt;
use std::path::{Path, PathBuf};
use std::process::Command;

use tamarind::EDITION;

use crate::{ended, folder, output, read, ARCHIVE, ROOT};

const PASSED: &str = "7 passed, 0 failed";
const PROOF: &str = "logic=proved functions=2 sum=0123456789abcdef";

/// A repository with what a release is made of.
struct Repository(PathBuf);

impl Repository {
    /// With one commit, and the archive that this test is linked with.
    fn new(name: &str) -> Repository {
        let repository = Repository(folder(name).join("repository"));
        for file in [
            "include/tamarind.h",
            "docs/bench.md",
            "docs/convert.md",
            "examples/post.c",
            "examples/post.stdout",
            "tools/gate-record",
            "tools/release",
            ".gitignore",
        ] {
            repository.copy(&format!("{ROOT}/{file}"), file);
        }
        repository.copy(ARCHIVE, "target/staticlib/libtamarind.a");
        repository.write("docs/DATASHEET.md", "What a run costs.\n");
        repository.git(&["init", "--quiet"]);
        repository.commit();
        repository
    }

    fn path(&self, file: &str) -> PathBuf {
        self.0.join(file)
    }

    fn copy(&self, from: &str, file: &str) {
        fs::create_dir_all(self.path(file).parent().expect("a folder")).expect("made");
        fs::copy(from, self.path(file)).expect("copied");
    }

    /// A program of the repository, in place of one that takes minutes.
    fn program(&self, file: &str, text: &str) {
        self.copy("/bin/true", file);
        self.write(file, &format!("#!/bin/sh\n{text}\n"));
    }

    fn write(&self, file: &str, text: &str) {
        fs::write(self.path(file), text).expect("written");
    }

    /// A program run here, on this repository even where git has set another, as
    /// it does for its hooks.
    fn command(&self, program: impl AsRef<OsStr>) -> Command {
        let mut command = Command::new(program);
        command.current_dir(&self.0);
        for name in ["GIT_DIR", "GIT_WORK_TREE", "GIT_INDEX_FILE"] {
            command.env_remove(name);
        }
        command
    }

    fn git(&self, words: &[&str]) -> String {
        let mut git = self.command("git");
        for setting in [
            "user.name=Test",
            "user.email=test@localhost",
            "commit.gpgSign=false",
            "core.hooksPath=/dev/null",
        ] {
            git.args(["-c", setting]);
        }
        output(git.args(words))
    }

    fn commit(&self) {
        self.git(&["add", "--all"]);
        self.git(&["commit", "--quiet", "--allow-empty", "-m", "files"]);
    }

    fn source(&self) -> String {
        let mut record = self.command(self.path("tools/gate-record"));
        output(record.arg("source")).trim_end().into()
    }

    /// The record of a gate that began with this source and ended so.
    fn record(&self, source: &str, last: &str, proof: &str) {
        let mut record = self.command(self.path("tools/gate-record"));
        output(record.args(["write", source, last, proof]));
    }

    fn record_passed(&self) {
        self.record(&self.source(), PASSED, PROOF);
    }

    /// Makes a release in a folder beside the repository.
    fn release(&self) -> (bool, String, String) {
        let mut release = self.command(self.path("tools/release"));
        ended(release.arg("../released"))
    }

    fn released(&self) -> PathBuf {
        self.path("../released")
    }

    /// What is said where no release is made.
    fn refusal(&self) -> String {
        let (success, printed, said) = self.release();
        assert!(!success, "{printed}");
        let beside = fs::read_dir(self.path("..")).expect("a folder");
        assert_eq!(beside.count(), 1, "something is left over");
        said
    }
}

fn names(folder: &Path) -> Vec<String> {
    let name = |entry: std::io::Result<fs::DirEntry>| entry.unwrap().file_name();
    let files = fs::read_dir(folder).expect("a folder");
    let mut names: Vec<_> = files
        .map(|file| name(file).into_string().unwrap())
        .collect();
    names.sort();
    names
}

/// A gate of this repository in which other programs stand for those that take
/// minutes: of the edits and of the Rust tests they say this.
fn gate(repository: &Repository, edits: &str, tests: &str) -> (bool, String, String) {
    let programs = repository.path("target/programs");
    fs::create_dir_all(&programs).expect("made");
    let write = |path: PathBuf, text: String| {
        fs::write(&path, format!("#!/bin/sh\n{text}\n")).expect("written");
        fs::set_permissions(&path, fs::Permissions::from_mode(0o755)).expect("set");
    };
    let ok = format!("rt: ok; handles allowed: none; must-fail edits: {edits}; all done");
    let cases = format!("ci) echo '{ok}'; echo 3 passed, 0 failed;; *) echo a kit;;");
    write(programs.join("rt"), format!("case $1 in {cases} esac"));
    write(
        programs.join("cargo"),
        format!("echo 'test result: {tests}'"),
    );
    let path = format!(
        "{}:{}",
        programs.display(),
        env::var("PATH").expect("a path")
    );
    let mut run = repository.command(repository.path(".ci/run"));
    ended(run.env("PATH", path))
}

#[test]
fn a_release_is_made_after_a_gate_that_passed_and_not_after_one_that_failed() {
    let repository = Repository::new("release_after_gate");
    repository.copy(&format!("{ROOT}/.ci/run"), ".ci/run");
    repository.copy("/bin/true", "tools/check-map");
    repository.copy("/bin/true", "tools/unfold-lists");
    repository.program("tools/build", &format!("echo {PROOF}"));
    repository.copy(&format!("{ROOT}/rust/Cargo.toml"), "rust/Cargo.toml");
    repository.commit();

    let (refused, passed) = ("2 refused", "ok. 4 passed; 0 failed");
    let (success, printed, _) = gate(&repository, refused, "FAILED. 3 passed; 1 failed");
    assert!(!success && printed.ends_with("\n8 passed, 1 failed\n"));
    assert!(repository.refusal().contains("8 passed, 1 failed"));

    // An edit that is bad, and an archive or a bench that is not built.
    let (success, printed, _) = gate(&repository, "2 refused, 1 bad", passed);
    assert!(
        !success && printed.ends_with("\n9 passed, 1 failed\n"),
        "{printed}"
    );
    repository.program("tools/build", "exit 1");
    let (success, printed, _) = gate(&repository, refused, passed);
    assert!(
        !success && printed.ends_with("\n9 passed, 2 failed\n"),
        "{printed}"
    );
    repository.program("tools/build", &format!("echo {PROOF}"));

    let (success, printed, _) = gate(&repository, refused, passed);
    assert!(success && printed.ends_with("\n9 passed, 0 failed\n"));
    let (success, _, said) = repository.release();
    assert!(success, "{said}");
    let text = read(repository.released().join("RELEASE.txt"));
    for due in ["9 passed, 0 failed", PROOF, "a kit"] {
        assert!(text.contains(due), "{due} is not in\n{text}");
    }
}

/// Every file but the sums themselves has its sum, and the sums are right.
fn check_sums(released: &Path, files: &[String]) {
    let sums = read(released.join("SHA256SUMS"));
    let summed: Vec<&str> = sums.lines().map(|line| &line[66..]).collect();
    let others: Vec<&String> = files.iter().filter(|name| *name != "SHA256SUMS").collect();
    assert_eq!(summed, others);
    let mut check = Command::new("sha256sum");
    output(check.args(["-c", "SHA256SUMS"]).current_dir(released));
}

#[test]
fn a_passing_record_gives_a_folder_that_is_whole() {
    let repository = Repository::new("release_made");
    repository.record_passed();
    let (success, _, said) = repository.release();
    assert!(success, "{said}");
    let released = repository.released();
    let files = names(&released);
    assert_eq!(
        files,
        [
            "DATASHEET.md",
            "RELEASE.txt",
            "SHA256SUMS",
            "bench.md",
            "convert.md",
            "gate.txt",
            "libtamarind.a",
            "post.c",
            "post.stdout",
            "tamarind.h"
        ]
    );

    check_sums(&released, &files);

    let text = read(released.join("RELEASE.txt"));
    let commit = repository.git(&["rev-parse", "HEAD"]);
    let archive = output(Command::new("sha256sum").arg(ARCHIVE));
    let checker = output(Command::new("rt").arg("version"));
    let edition = format!("edition {EDITION}.");
    for due in [&commit, &archive[..64], PASSED, PROOF, &checker, &edition] {
        assert!(text.contains(due.trim_end()), "{due} is not in\n{text}");
    }

    // A second release does not write over the first.
    let (success, _, said) = repository.release();
    assert!(!success && said.contains("is there already"), "{said}");
}

#[test]
fn what_the_gate_has_not_passed_is_refused() {
    let repository = Repository::new("release_gate");
    assert!(repository.refusal().contains("no record of the gate"));
    for last in ["7 passed, 1 failed", "0 passed, 0 failed", "17 passed", ""] {
        repository.record(&repository.source(), last, PROOF);
        let due = format!("the gate did not pass, its last line is: {last}\n");
        assert!(repository.refusal().contains(&due));
    }
    repository.record(&repository.source(), PASSED, "");
    assert!(repository.refusal().contains("no proof of the archive"));
}

#[test]
fn another_commit_and_changed_files_are_refused() {
    let repository = Repository::new("release_source");
    repository.record_passed();
    repository.commit();
    assert!(repository.refusal().contains("the gate was run on commit"));

    // Changed while the gate ran: it was clean before, and is again.
    let clean = repository.source();
    let page = read(repository.path("docs/bench.md"));
    repository.write("docs/bench.md", "");
    repository.record(&clean, PASSED, PROOF);
    repository.write("docs/bench.md", &page);
    assert!(repository.refusal().contains("when the gate ran"));

    // Changed since, and new.
    repository.record_passed();
    repository.write("docs/bench.md", "");
    let changed = "files are changed or new since the commit";
    assert!(repository.refusal().contains(changed));
    repository.write("docs/bench.md", &page);
    repository.write("examples/new.c", "");
    assert!(repository.refusal().contains(changed));
    fs::remove_file(repository.path("examples/new.c")).expect("removed");
    assert!(repository.release().0);
}

#[test]
fn another_archive_and_missing_files_are_refused() {
    let repository = Repository::new("release_files");
    repository.record_passed();
    let archive = "target/staticlib/libtamarind.a";
    let mut bytes = fs::read(repository.path(archive)).expect("read");
    bytes.push(0);
    fs::write(repository.path(archive), bytes).expect("written");
    let other = "is not the archive that the gate linked";
    assert!(repository.refusal().contains(other));
    fs::remove_file(repository.path(archive)).expect("removed");
    assert!(repository.refusal().contains("there is no target/static"));

    repository.copy(ARCHIVE, archive);
    repository.git(&["rm", "--quiet", "docs/DATASHEET.md"]);
    repository.commit();
    repository.record_passed();
    assert!(repository.refusal().contains("there is no docs/DATASHEET"));

    // A header that does not belong to the archive.
    let header = read(repository.path("include/tamarind.h"));
    let [this, next] = [0, 1].map(|add| format!("TAMARIND_EDITION {}\n", EDITION + add));
    let next = header.replace(&this, &next);
    repository.write("include/tamarind.h", &next);
    repository.write("docs/DATASHEET.md", "What a run costs.\n");
    repository.commit();
    repository.record_passed();
    let said = repository.refusal();
    assert!(said.contains("the example does not print"), "{said}");
}
