//! The console program: reads book.bin from the current directory and lines from standard input,
//! and prints what [`reference::console::run`] says.

use std::io::{self, Read, Write};

use reference::console;
use reference::fast::Fast;

fn main() -> io::Result<()> {
    // Paper: the program "reads the book from the file book.bin"; a file that cannot be read is
    // missing.
    let book = std::fs::read("book.bin").ok();
    let mut input = Vec::new();
    // Without a book the input does not matter, so nobody is kept waiting for its end.
    if console::tabulation_from(book.as_deref()).is_some() {
        io::stdin().lock().read_to_end(&mut input)?;
    }
    io::stdout().write_all(&console::run(&Fast, book.as_deref(), &input))
}
