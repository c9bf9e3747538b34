//! Digests of reading and writing words.

use crate::digest::Digest;
use crate::word::{decode, encode, Word, Word::*};

/// The number of a kind and its fields, in the order of the word; 0 if absent.
fn listed(word: Word) -> (u8, [u16; 3]) {
    match word {
        Move { s, rl, d } => (0, [s, rl, d]),
        Add { s, rl, d } => (1, [s, rl, d]),
        And { s, rl, d } => (2, [s, rl, d]),
        Xor { s, rl, d } => (3, [s, rl, d]),
        XecRegister { s, i } => (4, [s, 0, i]),
        XecBank { s, l, i } => (5, [s, l, i]),
        NztRegister { s, i } => (6, [s, 0, i]),
        NztBank { s, l, i } => (7, [s, l, i]),
        Call { i } => (8, [0, 0, i]),
        Ret { i } => (9, [0, 0, i]),
        XmitRegister { d, i } => (10, [d, 0, i]),
        XmitBank { d, l, i } => (11, [d, l, i]),
        Jmp { a } => (12, [0, 0, a]),
        Invalid => (13, [0, 0, 0]),
    }
}

/// The kind of that number with these fields.
fn of_kind(kind: u8, [a, b, c]: [u16; 3]) -> Word {
    match kind {
        0 => Move { s: a, rl: b, d: c },
        1 => Add { s: a, rl: b, d: c },
        2 => And { s: a, rl: b, d: c },
        3 => Xor { s: a, rl: b, d: c },
        4 => XecRegister { s: a, i: c },
        5 => XecBank { s: a, l: b, i: c },
        6 => NztRegister { s: a, i: c },
        7 => NztBank { s: a, l: b, i: c },
        8 => Call { i: c },
        9 => Ret { i: c },
        10 => XmitRegister { d: a, i: c },
        11 => XmitBank { d: a, l: b, i: c },
        12 => Jmp { a: c },
        _ => Invalid,
    }
}

/// Three bytes for what writing gives: 1 and the word, or 0, 0, 22.
fn written(word: Word) -> [u8; 3] {
    match encode(word) {
        Ok(bits) => [1, (bits / 256) as u8, (bits % 256) as u8],
        Err(number) => [0, 0, number],
    }
}

/// Kind, first field, second field, third field low byte first, then the
/// three bytes of writing what was read.
fn read_bytes(bits: u16) -> [u8; 8] {
    let word = decode(bits);
    let (kind, [a, b, c]) = listed(word);
    let [good, high, low] = written(word);
    [kind, a as u8, b as u8, (c % 256) as u8, (c / 256) as u8, good, high, low]
}

/// Reading the words from `first` to `last`, and how many come back equal
/// when what was read is written.
fn read_line(name: &str, first: u16, last: u16) -> (String, usize) {
    let mut digest = Digest::default();
    let (mut valid, mut equal) = (0, 0);
    for bits in first..=last {
        digest.add(&read_bytes(bits));
        valid += usize::from(decode(bits) != Invalid);
        equal += usize::from(encode(decode(bits)) == Ok(bits));
    }
    let digest = digest.0;
    (format!("read {name} first={first} last={last} valid={valid} digest={digest:016x}"), equal)
}

/// All words, and those of each opcode.
fn read_lines() -> Vec<(String, usize)> {
    let opcode = |n: u16| read_line(&format!("opcode{n}"), n * 8192, n * 8192 + 8191);
    [read_line("all", 0, 65_535)].into_iter().chain((0..8).map(opcode)).collect()
}

/// What a program of the gate must write that reads all words and writes them.
pub fn read_and_written() -> Vec<String> {
    read_lines().into_iter().map(|(line, equal)| format!("{line} equal={equal}")).collect()
}

/// Writing every combination of fields up to these highest values, first
/// field outermost.
fn write_line(kind: u8, highest: [u16; 3]) -> String {
    let mut digest = Digest::default();
    let mut valid = 0;
    for a in 0..=highest[0] {
        for b in 0..=highest[1] {
            for c in 0..=highest[2] {
                let bytes = written(of_kind(kind, [a, b, c]));
                digest.add(&bytes);
                valid += usize::from(bytes[0]);
            }
        }
    }
    let [a, b, c] = highest;
    format!("write kind{kind} a={a} b={b} c={c} valid={valid} digest={:016x}", digest.0)
}

pub fn lines() -> Vec<String> {
    let mut lines = super::header("words: what reading and writing give");
    lines.extend(
        [
            "kinds: 0 MOVE 1 ADD 2 AND 3 XOR 4 XEC register 5 XEC bank 6 NZT register 7 NZT bank",
            "kinds: 8 CALL 9 RET 10 XMIT register or bus address 11 XMIT bank 12 JMP 13 invalid",
            "read: for each word from first to last 8 bytes: kind; S or D; R or L; D, I or A low",
            "byte first; then what writing these fields gives: 1, high, low, or 0, 0, 22",
            "write: fields 0..=a (S or D), 0..=b (R or L), 0..=c (D, I or A), the first outermost;",
            "for each 3 bytes as above; valid counts the words",
        ]
        .map(|line| format!("# {line}")),
    );
    lines.extend(read_lines().into_iter().map(|(line, _)| line));
    for kind in [0, 1, 2, 3, 5, 7, 11] {
        lines.push(write_line(kind, [40, 9, 40]));
    }
    for kind in [4, 6, 10] {
        lines.push(write_line(kind, [40, 0, 255]));
        lines.push(write_line(kind, [40, 0, 300]));
    }
    lines.push(write_line(8, [0, 0, 255]));
    lines.push(write_line(8, [0, 0, 300]));
    lines.push(write_line(9, [0, 0, 0]));
    lines.push(write_line(9, [0, 0, 300]));
    lines.push(write_line(12, [0, 0, 8300]));
    lines
}
