//! Gets the static library of crates/lintelow_c and has it linked.
//!
//! `LINTELOW_LIB` may name a folder that already has it; else rust/library finds it or makes it, which proves what is not proved yet.
use std::env;
use std::fs::{self, File};
use std::path::{Path, PathBuf};
use std::process::{exit, Command, Stdio};

const ARCHIVE: &str = "liblintelow.a";
const TERMINAL: &str = "/dev/tty";

fn main() {
    let root = PathBuf::from(given("CARGO_MANIFEST_DIR")).join("../..");
    let out = PathBuf::from(given("OUT_DIR"));
    for path in ["crates.txt", "rust/library", "rust/archive.sh"] {
        println!("cargo:rerun-if-changed={}", root.join(path).display());
    }
    // Not the crates' folders out/, which have gigabytes, and change where no source does.
    for folder in fs::read_dir(root.join("crates")).into_iter().flatten().flatten() {
        for part in ["src", "specs", "proofs"].map(|part| folder.path().join(part)) {
            if part.is_dir() {
                println!("cargo:rerun-if-changed={}", part.display());
            }
        }
    }
    println!("cargo:rerun-if-changed=build.rs");
    println!("cargo:rerun-if-env-changed=LINTELOW_LIB");
    let archive = match env::var_os("LINTELOW_LIB").filter(|folder| !folder.is_empty()) {
        Some(folder) => named(Path::new(&folder)),
        None => made(&root),
    };
    // A copy, since what lies below the repository's target/ may be removed while cargo still needs it.
    if let Err(why) = fs::copy(&archive, out.join(ARCHIVE)) {
        stop(&format!("cannot take the static library from {}: {why}", archive.display()));
    }
    println!("cargo:rustc-link-search=native={}", out.display());
    println!("cargo:rustc-link-lib=static=lintelow");
}

/// The archive in the folder that LINTELOW_LIB names.
fn named(folder: &Path) -> PathBuf {
    let archive = folder.join(ARCHIVE);
    if !archive.is_file() {
        stop(&format!("LINTELOW_LIB names the folder {}, and that has no {ARCHIVE}", folder.display()));
    }
    println!("cargo:rerun-if-changed={}", archive.display());
    archive
}

/// The archive in the folder that rust/library prints, for the processor that cargo builds for.
fn made(root: &Path) -> PathBuf {
    let script = root.join("rust/library");
    if !script.is_file() {
        stop(&format!("no {}: this crate is built inside Lintelow's repository, or with LINTELOW_LIB", script.display()));
    }
    let mut command = Command::new("sh");
    command.arg(script).arg(given("CARGO_CFG_TARGET_ARCH")).stderr(Stdio::inherit());
    // cargo keeps what a build script says to itself, so how far the proofs are goes to the terminal, where there is one
    if File::options().append(true).open(TERMINAL).is_ok() {
        command.env("LINTELOW_PROGRESS", TERMINAL);
    }
    match command.output() {
        Err(why) => stop(&format!("cannot run {:?}: {why}", command.get_program())),
        // it has said why
        Ok(done) if !done.status.success() => exit(1),
        Ok(done) => Path::new(String::from_utf8_lossy(&done.stdout).trim_end()).join(ARCHIVE),
    }
}

fn given(name: &str) -> String {
    env::var(name).unwrap_or_else(|why| stop(&format!("{name}, which cargo gives: {why}")))
}

fn stop(why: &str) -> ! {
    eprintln!("lintelow: {why}");
    exit(1)
}
