//! The program `list`: an image on standard input, its listing page printed.

use std::io::{Read, Write};

fn main() -> std::io::Result<()> {
    let mut input = Vec::new();
    std::io::stdin().lock().read_to_end(&mut input)?;
    std::io::stdout().write_all(&riptide_reference::listing::printed(&input))
}
