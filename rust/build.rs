//! Finds the static library and links it: libpinorange.a, or without the feature `list` libtabulation.a alone.

use std::env;
use std::path::{absolute, Path, PathBuf};
use std::process::exit;

/// The environment variable that names the folder of the static libraries.
const VARIABLE: &str = "PINORANGE_LIBRARIES";

fn main() {
    let name = if env::var_os("CARGO_FEATURE_LIST").is_some() { "pinorange" } else { "tabulation" };
    let file = format!("lib{name}.a");
    println!("cargo:rerun-if-env-changed={VARIABLE}");
    println!("cargo:rerun-if-changed=build.rs");
    let Some(folder) = folders().into_iter().find(|folder| folder.join(&file).is_file()) else {
        eprintln!("{file} is not there: set {VARIABLE} to the folder that has it");
        exit(1);
    };
    // The linker does not run in the folder of this crate, so that it needs the whole path.
    let folder = absolute(&folder).unwrap_or(folder);
    println!("cargo:rerun-if-changed={}", folder.join(&file).display());
    println!("cargo:rustc-link-search=native={}", folder.display());
    println!("cargo:rustc-link-lib=static={name}");
}

/// Where the library may be: in the folder that the variable names, and nowhere else if it names one; otherwise above
/// this crate, where it is delivered, or where the repository builds it.
fn folders() -> Vec<PathBuf> {
    if let Some(folder) = env::var_os(VARIABLE) {
        return vec![PathBuf::from(folder)];
    }
    let above = Path::new(env!("CARGO_MANIFEST_DIR")).join("..");
    vec![above.clone(), above.join("target/staticlib")]
}
