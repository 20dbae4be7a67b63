//! `oracle [FILE]` prints the dump of what the Rust reads.

use std::io::Read;

fn main() -> std::io::Result<()> {
    let mut text = Vec::new();
    match std::env::args().nth(1) {
        Some(file) => text = std::fs::read(file)?,
        None => std::io::stdin().read_to_end(&mut text).map(drop)?,
    }
    print!("{}", oracle::dump(&text));
    Ok(())
}
