//! Expectations for other implementations, one line of text for each case.
//!
//! A line is a word, a name, and fields `key=value` with one space between.
//! Bytes are written in one of these forms:
//!
//! - `-`: none
//! - `hex:0a1b..`: two digits for each byte
//! - `lcg:SEED:COUNT`: COUNT bytes of the generator in `digest`
//! - `fill:WORD:COUNT`: a word of four hexadecimal digits, high byte first,
//!   COUNT times
//! - `valid:SEED:COUNT`: COUNT words, from the same generator, each of two
//!   bytes, high byte first; words that are invalid are left out

pub mod admissions;
pub mod holds;
pub mod library;
pub mod pages;
pub mod runs;
pub mod sums;
pub mod sweeps;
pub mod values;
pub mod words;

use crate::digest::lcg_bytes;
use crate::word::{decode, Word};

/// The byte with which lent buffers are filled before a call.
pub const FILLER: u8 = 0xa5;

/// Bytes, in the form in which a line gives them.
#[derive(Clone, Debug, PartialEq, Eq)]
pub enum Bytes {
    Hex(Vec<u8>),
    Lcg { seed: u32, count: usize },
    Fill { word: u16, count: usize },
    Valid { seed: u32, count: usize },
}

/// The reset state and the map with every bit one.
pub const RESET: Bytes = Bytes::Fill { word: 0, count: 18 };
pub const ALL_ONES: Bytes = Bytes::Fill { word: 0xffff, count: 64 };

/// Two digits for each byte.
pub fn hex(bytes: &[u8]) -> String {
    bytes.iter().map(|byte| format!("{byte:02x}")).collect()
}

impl Bytes {
    pub fn expand(&self) -> Vec<u8> {
        match self {
            Bytes::Hex(bytes) => bytes.clone(),
            Bytes::Lcg { seed, count } => lcg_bytes(*seed, *count),
            Bytes::Fill { word, count } => word.to_be_bytes().repeat(*count),
            Bytes::Valid { seed, count } => valid_words(*seed, *count),
        }
    }

    pub fn text(&self) -> String {
        match self {
            Bytes::Hex(bytes) if bytes.is_empty() => "-".to_string(),
            Bytes::Hex(bytes) => format!("hex:{}", hex(bytes)),
            Bytes::Lcg { seed, count } => format!("lcg:{seed}:{count}"),
            Bytes::Fill { word, count } => format!("fill:{word:04x}:{count}"),
            Bytes::Valid { seed, count } => format!("valid:{seed}:{count}"),
        }
    }

    /// The bytes that a text stands for, if it has one of the forms.
    pub fn parse(text: &str) -> Option<Bytes> {
        if text == "-" {
            return Some(Bytes::Hex(Vec::new()));
        }
        let mut parts = text.split(':');
        let (form, first) = (parts.next()?, parts.next()?);
        if form == "hex" {
            let byte = |at| u8::from_str_radix(first.get(at..at + 2)?, 16).ok();
            return (0..first.len()).step_by(2).map(byte).collect::<Option<_>>().map(Bytes::Hex);
        }
        let count = parts.next()?.parse().ok()?;
        match form {
            "lcg" => Some(Bytes::Lcg { seed: first.parse().ok()?, count }),
            "valid" => Some(Bytes::Valid { seed: first.parse().ok()?, count }),
            "fill" => Some(Bytes::Fill { word: u16::from_str_radix(first, 16).ok()?, count }),
            _ => None,
        }
    }
}

/// The bytes of the first valid words of the generator.
fn valid_words(seed: u32, count: usize) -> Vec<u8> {
    let bytes = lcg_bytes(seed, 8 * count + 64);
    let words = bytes.chunks_exact(2).map(|b| [b[0], b[1]]);
    let valid = words.filter(|&b| decode(u16::from_be_bytes(b)) != Word::Invalid);
    let kept: Vec<u8> = valid.take(count).flatten().collect();
    assert_eq!(kept.len(), 2 * count, "more than a quarter of all words are valid");
    kept
}

/// A case as its line gives it: a word and a name, what is lent, and what
/// comes out of it, with the lines that come below it.
#[derive(Clone)]
pub struct Entry {
    pub name: String,
    pub given: Vec<(&'static str, String)>,
    pub gives: Vec<(&'static str, String)>,
    pub below: Vec<String>,
}

fn with_fields(name: &str, fields: &[(&str, String)]) -> String {
    fields.iter().fold(name.to_string(), |line, (key, value)| format!("{line} {key}={value}"))
}

impl Entry {
    /// The whole line, as an expectation file has it.
    pub fn line(&self) -> String {
        with_fields(&self.input(), &self.gives)
    }

    /// What a program of the gate reads.
    pub fn input(&self) -> String {
        with_fields(&self.name, &self.given)
    }

    /// What it must write.
    pub fn output(&self) -> String {
        let line = with_fields(&self.name, &self.gives);
        self.below.iter().fold(line, |lines, below| lines + "\n" + below)
    }
}

/// The header of every file: the forms above, as comment lines.
pub fn header(what: &str) -> Vec<String> {
    let forms = [
        "bytes: - | hex:DIGITS | lcg:SEED:COUNT | fill:WORD:COUNT | valid:SEED:COUNT",
        "lcg: for each byte x = x * 1103515245 + 12345 mod 2^32, then x / 65536 % 256; x begins as SEED",
        "fill: a 16-bit word in hexadecimal, high byte first, COUNT times",
        "valid: words of two lcg bytes, high byte first, the invalid ones left out, until COUNT",
        "digest: FNV-1a, 64 bits, hexadecimal; lent trace and table bytes are a5 before the call",
    ];
    [what].iter().chain(&forms).map(|line| format!("# {line}")).collect()
}
