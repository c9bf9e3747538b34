//! The listing page (2026-06): a line of 32 bytes for each word of an image.

use crate::machine::Image;
use crate::word::{decode, Word, Word::*};

/// The length of a line in bytes, its line feed among them.
pub const LINE_BYTES: usize = 32;

/// The mnemonic, at most four characters.
fn mnemonic(word: Word) -> &'static str {
    match word {
        Move { .. } => "MOVE",
        Add { .. } => "ADD",
        And { .. } => "AND",
        Xor { .. } => "XOR",
        XecRegister { .. } | XecBank { .. } => "XEC",
        NztRegister { .. } | NztBank { .. } => "NZT",
        Call { .. } => "CALL",
        Ret { .. } => "RET",
        XmitRegister { .. } | XmitBank { .. } => "XMIT",
        Jmp { .. } => "JMP",
        Invalid => "????",
    }
}

/// The fields in octal, in the order of their bits, one space between. L and R
/// are the digit in the word, so that eight bits are 0.
fn operands(word: Word) -> String {
    let three = |a, b, c| format!("{a:02o} {b:o} {c:02o}");
    let two = |a, b| format!("{a:02o} {b:03o}");
    match word {
        Move { s, rl, d } | Add { s, rl, d } => three(s, rl, d),
        And { s, rl, d } | Xor { s, rl, d } => three(s, rl, d),
        XecRegister { s, i } | NztRegister { s, i } => two(s, i),
        XecBank { s, l, i } | NztBank { s, l, i } => three(s, l, i),
        XmitRegister { d, i } => two(d, i),
        XmitBank { d, l, i } => three(d, l, i),
        Call { i } | Ret { i } => format!("{i:03o}"),
        Jmp { a } => format!("{a:05o}"),
        Invalid => String::new(),
    }
}

/// The line of a word at an address below 8,192: address in columns 1-5, word
/// in 7-12, mnemonic in 14-17, operands in 19-31, then the line feed.
pub fn line_of(address: usize, word: u16) -> [u8; LINE_BYTES] {
    let (name, fields) = (mnemonic(decode(word)), operands(decode(word)));
    let line = format!("{address:05o} {word:06o} {name:<4} {fields:<13}\n");
    line.into_bytes().try_into().expect("a line has 32 bytes")
}

/// The lines of an image's words in the order of their addresses.
pub fn page_of(image: &[u8]) -> Vec<u8> {
    let words = image.chunks_exact(2).map(|bytes| u16::from_be_bytes([bytes[0], bytes[1]]));
    words.enumerate().flat_map(|(address, word)| line_of(address, word)).collect()
}

/// Writes the page of an image and gives 0, or gives 11 or 41 and changes
/// nothing.
pub fn list(image: &[u8], page: &mut [u8]) -> u8 {
    let words = match Image::new(image) {
        Ok(image) => image.words(),
        Err(number) => return number,
    };
    if page.len() != LINE_BYTES * words {
        return 41;
    }
    page.copy_from_slice(&page_of(image));
    0
}

/// What the program `list` prints for the bytes of its standard input, which
/// are an image: its page, or the line of the refusal.
pub fn printed(input: &[u8]) -> Vec<u8> {
    match Image::new(input) {
        Ok(_) => page_of(input),
        Err(number) => format!("refused {number}\n").into_bytes(),
    }
}
