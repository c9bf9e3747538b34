//! The bench program of the paper: map and image on standard input.

use std::io::{Read, Write};

fn main() -> std::io::Result<()> {
    let mut input = Vec::new();
    std::io::stdin().lock().read_to_end(&mut input)?;
    std::io::stdout().write_all(riptide_reference::bench::line(&input).as_bytes())
}
