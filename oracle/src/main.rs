//! The second program: alone it lists a trace from standard input; with the word `table` it prints the quarter table.

use std::io::{self, Read, Write};

fn main() -> io::Result<()> {
    let words: Vec<String> = std::env::args().skip(1).collect();
    let printed = match words.first() {
        None => oracle::listing(&given()?),
        Some(word) if word == "table" => oracle::table_text(),
        Some(word) => return Err(io::Error::other(format!("no such word: {word}"))),
    };
    io::stdout().write_all(&printed)
}

/// "It reads a trace from standard input."
fn given() -> io::Result<Vec<u8>> {
    let mut trace = Vec::new();
    io::stdin().read_to_end(&mut trace)?;
    Ok(trace)
}
