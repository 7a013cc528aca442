//! Links `libolbiothar.a`, or says what to run where it is missing.

use std::env;
use std::path::{Path, PathBuf};
use std::process::Command;

const ARCHIVE: &str = "libolbiothar.a";

fn main() {
    println!("cargo::rerun-if-env-changed=OLBIOTHAR_FOLDER");
    println!("cargo::rerun-if-env-changed=PKG_CONFIG_PATH");
    let said = env::var("OLBIOTHAR_FOLDER").ok();
    // Set and empty: nothing is to be linked, so that `cargo check`, `clippy` and `doc` need no library.
    if said.as_deref() == Some("") {
        return;
    }
    let folders = folders(said);
    for folder in &folders {
        println!("cargo::rerun-if-changed={}", folder.join(ARCHIVE).display());
    }
    match folders.iter().find(|folder| folder.join(ARCHIVE).is_file()) {
        Some(folder) => link(folder),
        None => say_what_to_run(&folders),
    }
}

/// Where the library is looked for: where the variable says, which may be the `PREFIX` or the `PREFIX/lib` of an
/// installed one; else where `rt` writes it, and where this version of it is installed.
fn folders(said: Option<String>) -> Vec<PathBuf> {
    if let Some(said) = said {
        let said = PathBuf::from(said);
        return vec![said.clone(), said.join("lib")];
    }
    let here = env::var("CARGO_MANIFEST_DIR").unwrap_or_default();
    let mut folders = vec![Path::new(&here).with_file_name("target").join("staticlib")];
    folders.extend(installed());
    folders
}

/// What pkg-config knows of it, if anything.
fn installed() -> Option<PathBuf> {
    let version = env::var("CARGO_PKG_VERSION").ok()?;
    let mut asked = Command::new("pkg-config");
    asked.arg("--variable=libdir").arg(format!("olbiothar = {version}"));
    let answer = asked.output().ok().filter(|answer| answer.status.success())?;
    let folder = String::from_utf8(answer.stdout).ok()?;
    Some(PathBuf::from(folder.trim()))
}

fn link(folder: &Path) {
    println!("cargo::rustc-link-search=native={}", folder.display());
    println!("cargo::rustc-link-lib=static=olbiothar");
    println!("cargo::metadata=FOLDER={}", folder.display());
    let processor = env::var("CARGO_CFG_TARGET_ARCH").unwrap_or_default();
    if processor != "x86_64" {
        println!("cargo::warning={ARCHIVE} is for x86-64: this can be checked, not linked");
    }
}

fn say_what_to_run(folders: &[PathBuf]) {
    for folder in folders {
        println!("cargo::error=there is no {ARCHIVE} in {}", folder.display());
    }
    println!(
        "cargo::error=run `.ci/library` at the root of the repository, which proves and writes it"
    );
    println!(
        "cargo::error=or set OLBIOTHAR_FOLDER to the folder that has it: PREFIX/lib where it is installed"
    );
    println!(
        "cargo::error=or, where nothing is to be linked (cargo check, clippy, doc), to nothing: OLBIOTHAR_FOLDER="
    );
}
