//! Runs the compiler on the crate, and on texts that use it, with flags of the tests' own: those that cargo builds with
//! are not for a test to choose.

use std::path::{Path, PathBuf};
use std::process::{Command, Output};
use std::{env, fs};

/// An empty folder for what a test builds.
pub fn folder(name: &str) -> PathBuf {
    let folder = Path::new(env!("CARGO_TARGET_TMPDIR")).join(name);
    if folder.exists() {
        fs::remove_dir_all(&folder).expect("an old folder goes");
    }
    fs::create_dir_all(&folder).expect("a folder");
    folder
}

/// A file of the crate.
pub fn source(name: &str) -> PathBuf {
    Path::new(env!("CARGO_MANIFEST_DIR")).join(name)
}

/// The compiler for one crate, into a folder. What it uses is looked for there.
pub fn rustc(folder: &Path, name: &str, file: &Path) -> Command {
    let mut command = Command::new(env::var_os("RUSTC").unwrap_or_else(|| "rustc".into()));
    command.args(["--edition=2021", "--crate-type=lib", "--crate-name", name]).arg(file);
    command.arg("--out-dir").arg(folder).arg("-L").arg(folder);
    command.env("CARGO_PKG_VERSION", env!("CARGO_PKG_VERSION"));
    command
}

/// Builds the crate itself into a folder.
#[allow(dead_code)] // Not every test that has this module builds it.
pub fn build_crate(folder: &Path, flags: &[&str]) {
    let mut command = rustc(folder, "pinorange", &source("src/lib.rs"));
    built(command.args(["--cfg", "feature=\"list\""]).args(flags));
}

/// The compiler for a crate that uses this one, which is built in the folder.
#[allow(dead_code)]
pub fn rustc_user(folder: &Path, name: &str, file: &Path) -> Command {
    let mut command = rustc(folder, name, file);
    command.args(["--extern", "pinorange"]);
    command
}

/// What a command that must succeed gave.
#[allow(dead_code)]
pub fn built(command: &mut Command) -> Output {
    let output = command.output().expect("the command runs");
    assert!(output.status.success(), "{command:?}: {}", String::from_utf8_lossy(&output.stderr));
    output
}
