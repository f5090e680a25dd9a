//! Copies the Rust blocks of docs/RUST.md to where a doctest finds them. They are not tried in the page itself, since
//! rustdoc takes its indented commands for Rust, too.

use std::path::Path;
use std::{env, fs};

fn main() {
    let page = concat!(env!("CARGO_MANIFEST_DIR"), "/../../docs/RUST.md");
    println!("cargo:rerun-if-changed=build.rs");
    println!("cargo:rerun-if-changed={page}");
    let text = fs::read_to_string(page).expect("docs/RUST.md can be read");
    let folder = env::var_os("OUT_DIR").expect("cargo names a folder");
    let written = fs::write(Path::new(&folder).join("RUST.md"), rust_blocks(&text));
    written.expect("the copy can be written");
}

/// The lines from each "```rust" to the "```" that ends it.
fn rust_blocks(text: &str) -> String {
    let mut blocks = String::new();
    let mut is_rust = false;
    for line in text.lines() {
        is_rust = is_rust || line.starts_with("```rust");
        if is_rust {
            blocks.push_str(line);
            blocks.push('\n');
        }
        is_rust = is_rust && line != "```";
    }
    blocks
}
