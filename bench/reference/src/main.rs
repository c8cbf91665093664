//! Reads standard input and prints the lines. `--indexed` looks up takers in
//! a hash table instead of going through all entries.

use reference::settle::{settle, LONGEST};
use reference::table::Search;
use std::io::{self, Read, Write};

fn main() -> io::Result<()> {
    let search = match std::env::args().nth(1).as_deref() {
        Some("--indexed") => Search::Index,
        _ => Search::Scan,
    };
    let mut text = Vec::new();
    io::stdin().take(LONGEST as u64 + 1).read_to_end(&mut text)?;
    io::stdout().write_all(settle(&text, search).as_bytes())
}
