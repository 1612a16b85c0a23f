//! Links the proved core, `libtamarind.a`.
//!
//! It is looked for in the folder that the variable `TAMARIND_LIB_DIR` names, a
//! release's folder for one; a relative one starts from this crate's. Without
//! the variable it is the repository's `target/staticlib`, where
//! `tools/build archive` writes it.
//!
//! The build ends with a message where the archive is missing or cannot be
//! linked into what is built.

use std::env;
use std::path::{Path, PathBuf};

/// The variable that names the archive's folder.
const FOLDER: &str = "TAMARIND_LIB_DIR";

/// What the archive is compiled for, each with the reason why another target
/// cannot take it. `linux` stands for ELF and the System V calling convention:
/// Rust has no name for these, and other systems on x86-64 differ in one of them,
/// or in the registers and the stack that code may use.
const TARGET: [(&str, &str, &str); 4] = [
    ("ARCH", "x86_64", "its code is x86-64's"),
    (
        "OS",
        "linux",
        "it is ELF, with System V calls, for x86-64 Linux",
    ),
    (
        "POINTER_WIDTH",
        "64",
        "its lengths and pointers have 64 bits",
    ),
    ("ENDIAN", "little", "its words are little-endian"),
];

fn main() {
    println!("cargo:rerun-if-env-changed={FOLDER}");
    if let Err(message) = check_target().and_then(|()| link()) {
        panic!("{message}");
    }
}

/// Refuses every target that the archive is not compiled for.
fn check_target() -> Result<(), String> {
    for (name, due, reason) in TARGET {
        let found = cargo_variable(&format!("CARGO_CFG_TARGET_{name}"));
        if found != due {
            let target = cargo_variable("TARGET");
            let fault = format!("target_{} is {found}, not {due}", name.to_lowercase());
            return Err(format!(
                "libtamarind.a cannot be linked for {target}: {fault}; {reason}"
            ));
        }
    }
    Ok(())
}

/// Tells cargo what to link, and the tests where it lies.
fn link() -> Result<(), String> {
    let folder = folder();
    let archive = folder.join("libtamarind.a");
    if !archive.is_file() {
        let archive = archive.display();
        return Err(format!(
            "there is no {archive}: make it by `tools/build archive` in the repository, or set {FOLDER} to the folder that has it"
        ));
    }
    println!("cargo:rerun-if-changed={}", archive.display());
    println!("cargo:rustc-link-search=native={}", folder.display());
    println!("cargo:rustc-link-lib=static=tamarind");
    println!("cargo:rustc-env=TAMARIND_ARCHIVE={}", archive.display());
    Ok(())
}

fn folder() -> PathBuf {
    let crate_folder = cargo_variable("CARGO_MANIFEST_DIR");
    match env::var_os(FOLDER) {
        Some(folder) => Path::new(&crate_folder).join(folder),
        None => Path::new(&crate_folder).join("../../target/staticlib"),
    }
}

fn cargo_variable(name: &str) -> String {
    env::var(name).unwrap_or_else(|_| panic!("cargo sets {name}"))
}
