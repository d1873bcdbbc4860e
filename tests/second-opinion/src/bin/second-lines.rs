//! This book's own line program: standard input to standard output.

use second_opinion::lines::lines;
use std::io::{Read, Write};

fn main() -> std::io::Result<()> {
    let mut input = Vec::new();
    std::io::stdin().read_to_end(&mut input)?;
    let mut printed = lines(&input).join("\n");
    if !printed.is_empty() {
        printed.push('\n');
    }
    std::io::stdout().write_all(printed.as_bytes())
}
