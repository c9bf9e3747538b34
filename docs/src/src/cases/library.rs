//! Calls of the functions that the library exports, with the numbers that they
//! give as `include/riptide.h` packs them, and digests of the bytes lent to them.

use super::{admissions, holds, pages, runs, Bytes, Entry, ALL_ONES, FILLER};
use crate::digest::Digest;
use crate::machine::reset;
use crate::map::counts;
use crate::programs::{assemble, map_of};
use crate::run::RunAnswer;
use crate::table::{admit, foretell, Admission, Verdict};
use crate::word::{decode, encode, Word, Word::*};

/// Opcode and fields of a word, a field that it does not have being 0.
fn fields(word: Word) -> Option<[u16; 4]> {
    match word {
        Move { s, rl, d } => Some([0, s, rl, d]),
        Add { s, rl, d } => Some([1, s, rl, d]),
        And { s, rl, d } => Some([2, s, rl, d]),
        Xor { s, rl, d } => Some([3, s, rl, d]),
        XecRegister { s, i } => Some([4, s, i, 0]),
        XecBank { s, l, i } => Some([4, s, l, i]),
        NztRegister { s, i } => Some([5, s, i, 0]),
        NztBank { s, l, i } => Some([5, s, l, i]),
        Call { i } => Some([5, 7, i, 0]),
        Ret { i } => Some([5, 15, i, 0]),
        XmitRegister { d, i } => Some([6, d, i, 0]),
        XmitBank { d, l, i } => Some([6, d, l, i]),
        Jmp { a } => Some([7, a, 0, 0]),
        Invalid => None,
    }
}

/// `riptide_read_word`: the opcode at bit 8, the fields at bits 16, 32 and 48;
/// or 22.
fn read_number(word: Word) -> u64 {
    let packed = |[opcode, a, b, c]: [u64; 4]| opcode << 8 | a << 16 | b << 32 | c << 48;
    fields(word).map_or(22, |found| packed(found.map(u64::from)))
}

/// `riptide_write_word`: the word that reads as these fields, times 256; or 22.
fn write_number(given: [u32; 4]) -> u64 {
    let reads = |&bits: &u16| fields(decode(bits)).map(|found| found.map(u32::from)) == Some(given);
    (0..=u16::MAX).find(reads).map_or(22, |bits| u64::from(bits) << 8)
}

/// `riptide_count_sets`: the counts at bits 8, 20, 32 and 44; or 12.
fn count_number(map: &[u8]) -> u64 {
    match counts(map).map(|found| found.map(|count| count as u64)) {
        Ok([a, b, c, d]) => a << 8 | b << 20 | c << 32 | d << 44,
        Err(number) => number.into(),
    }
}

/// `riptide_admit`: the number, the depth at bit 8, the address at bit 16, the
/// count of sweeps at bit 32.
fn admit_number(admission: Admission) -> u64 {
    let low = match admission.verdict {
        Verdict::Refused(number) => number.into(),
        Verdict::Admitted => 0,
        Verdict::Finding { number, depth, address } => {
            u64::from(number) | (depth as u64) << 8 | (address as u64) << 16
        }
    };
    low | (admission.sweeps as u64) << 32
}

/// `riptide_foretell`: the table's length at bit 8, the bound at bit 32; or 11.
fn foretell_number(image: &[u8]) -> u64 {
    match foretell(image) {
        Ok((length, bound)) => (length as u64) << 8 | (bound as u64) << 32,
        Err(number) => number.into(),
    }
}

/// `riptide_run`: the number, the count of records at bit 8.
fn run_number(answer: RunAnswer) -> u64 {
    match answer {
        RunAnswer::Refused(number) => number.into(),
        RunAnswer::Ran { count, stop } => u64::from(stop) | (count as u64) << 8,
    }
}

pub(super) fn entry(
    kind: &str,
    name: &str,
    given: Vec<(&'static str, String)>,
    number: u64,
) -> Entry {
    let gives = vec![("number", format!("{number:016x}"))];
    Entry { name: format!("{kind} {name}"), given, gives, below: vec![] }
}

impl Entry {
    /// The case with the digest of lent bytes among what comes out.
    pub(super) fn with_digest(mut self, key: &'static str, bytes: &[u8]) -> Entry {
        self.gives.push((key, Digest::text(bytes)));
        self
    }
}

/// All words read: how many are valid, how many of these come back when they
/// are written, and the digest of the numbers, low byte first.
fn all_words() -> Entry {
    let words = || (0..=u16::MAX).map(|bits| (bits, decode(bits)));
    let valid = words().filter(|&(_, word)| word != Invalid).count();
    let equal = words().filter(|&(bits, word)| encode(word) == Ok(bits)).count();
    let numbers: Vec<u8> = words().flat_map(|(_, word)| read_number(word).to_le_bytes()).collect();
    let gives = vec![("valid", valid.to_string()), ("equal", equal.to_string())];
    let given = vec![("first", "0".to_string()), ("last", u16::MAX.to_string())];
    let all = Entry { name: "words all".to_string(), given, gives, below: vec![] };
    all.with_digest("digest", &numbers)
}

/// A word of each kind, with fields that differ.
fn kinds() -> Vec<(&'static str, Word)> {
    vec![
        ("move", Move { s: 3, rl: 6, d: 0o17 }),
        ("add", Add { s: 0o37, rl: 2, d: 5 }),
        ("and", And { s: 0o11, rl: 7, d: 0o25 }),
        ("xor", Xor { s: 0o21, rl: 1, d: 0o34 }),
        ("xec-register", XecRegister { s: 2, i: 255 }),
        ("xec-bank", XecBank { s: 0o36, l: 5, i: 31 }),
        ("nzt-register", NztRegister { s: 0o10, i: 129 }),
        ("nzt-bank", NztBank { s: 0o20, l: 7, i: 9 }),
        ("call", Call { i: 254 }),
        ("ret", Ret { i: 0 }),
        ("ret-173", Ret { i: 173 }),
        ("xmit-register", XmitRegister { d: 0o07, i: 200 }),
        ("xmit-bank", XmitBank { d: 0o33, l: 4, i: 6 }),
        ("jmp", Jmp { a: 8191 }),
    ]
}

/// A word of each kind and one that is invalid, read.
fn decoded() -> Vec<Entry> {
    let mut words: Vec<_> =
        kinds().iter().map(|&(name, word)| (name, assemble(&[word])[0])).collect();
    words.push(("invalid", 0x0008));
    let case = |(name, bits): (&str, u16)| {
        entry("decode", name, vec![("word", bits.to_string())], read_number(decode(bits)))
    };
    words.into_iter().map(case).collect()
}

/// Fields of each kind, and such as no word has.
fn encoded() -> Vec<Entry> {
    let of = |(name, word)| (name, fields(word).expect("a valid word").map(u32::from));
    let mut given: Vec<(&str, [u32; 4])> = kinds().into_iter().map(of).collect();
    given.extend([
        ("opcode-8", [8, 0, 0, 0]),
        ("source-7", [0, 7, 0, 0]),
        ("source-wide", [1, 65_536, 0, 0]),
        ("rotation-8", [2, 0, 8, 0]),
        ("target-8", [3, 0, 0, 8]),
        ("xec-third", [4, 1, 2, 3]),
        ("xec-length-6", [4, 16, 6, 0]),
        ("nzt-third", [5, 1, 2, 3]),
        ("call-256", [5, 7, 256, 0]),
        ("ret-1", [5, 15, 1, 0]),
        ("ret-256", [5, 15, 256, 0]),
        ("ret-third", [5, 15, 0, 1]),
        ("xmit-third", [6, 0, 0, 1]),
        ("xmit-bank-32", [6, 16, 0, 32]),
        ("jmp-8192", [7, 8192, 0, 0]),
        ("jmp-second", [7, 0, 1, 0]),
        ("jmp-third", [7, 0, 0, 1]),
        ("widest", [u32::MAX; 4]),
    ]);
    let keys = ["opcode", "first", "second", "third"];
    let case = |(name, asked): (&str, [u32; 4])| {
        let given = keys.into_iter().zip(asked.map(|field| field.to_string())).collect();
        entry("encode", name, given, write_number(asked))
    };
    given.into_iter().map(case).collect()
}

/// A map from its sixteen words of eight bytes, low byte first, by set and place in the set.
fn map_of_words(word: impl Fn(usize, usize) -> u64) -> Bytes {
    Bytes::Hex((0..16).flat_map(|n| word(n / 4, n % 4).to_le_bytes()).collect())
}

/// Maps whose counts change when a word or a byte of it is left out, counted
/// twice or put to another set (2026-05).
fn maps_of_words() -> Vec<(String, Bytes)> {
    // A word whose bytes have 1 to 8 ones, and words that have ones in the lowest places.
    let rising = u64::from_le_bytes([0x01, 0x03, 0x07, 0x0f, 0x1f, 0x3f, 0x7f, 0xff]);
    let lowest = |ones: usize| (1 << ones) - 1;
    let alone = |n| map_of_words(|set, k| if 4 * set + k == n { rising } else { 0 });
    let words = (0..16).map(|n| (format!("word-{n}"), alone(n)));
    let others = [
        // 16 different numbers of ones; no other choice of four in a set has the same sum.
        ("words-differ", map_of_words(|set, k| lowest((2 * set + 1) << k))),
        ("first-bytes", map_of_words(|set, _| lowest(8 - set))),
        ("last-bytes", map_of_words(|set, _| u64::MAX << (56 + set))),
        ("even-bits", Bytes::Fill { word: 0x5555, count: 64 }),
        ("odd-bits", Bytes::Fill { word: 0xaaaa, count: 64 }),
        ("word-less", Bytes::Lcg { seed: 77, count: 120 }),
        ("word-more", Bytes::Lcg { seed: 77, count: 136 }),
    ];
    words.chain(others.map(|(name, map)| (name.to_string(), map))).collect()
}

/// Maps of 128 bytes and of other lengths.
fn counted() -> Vec<Entry> {
    let maps = [
        ("ones", ALL_ONES),
        ("zeros", Bytes::Fill { word: 0, count: 64 }),
        ("any", Bytes::Lcg { seed: 77, count: 128 }),
        ("apart", Bytes::Hex(map_of([&[0, 7, 8], &[255], &[], &[1, 2]]).to_vec())),
        ("short", Bytes::Lcg { seed: 77, count: 127 }),
        ("long", Bytes::Lcg { seed: 77, count: 129 }),
        ("none", Bytes::Hex(vec![])),
    ];
    let case = |(name, map): (String, Bytes)| {
        entry("count", &name, vec![("map", map.text())], count_number(&map.expand()))
    };
    let maps = maps.map(|(name, map)| (name.to_string(), map));
    maps.into_iter().chain(maps_of_words()).map(case).collect()
}

/// States of 36 bytes and of other lengths.
fn states() -> Vec<Entry> {
    let case = |(name, count): (&str, usize)| {
        let before = Bytes::Lcg { seed: 3, count };
        let mut state = before.expand();
        let number = reset(&mut state).map_or_else(u64::from, |()| 0);
        let given = vec![("state", before.text())];
        entry("state", name, given, number).with_digest("state_digest", &state)
    };
    [("whole", 36), ("short", 35), ("long", 37), ("none", 0)].into_iter().map(case).collect()
}

fn begins(name: &str, with: &[&str]) -> bool {
    with.iter().any(|start| name.starts_with(start))
}

/// Some of the admissions: each refusal, findings at depths 0 and 8, admitted.
fn admitted() -> Vec<Entry> {
    let some = [
        "door", "example", "timing", "fault26", "fault27", "executed", "call", "return", "lowest",
        "add-mask", "sweeps",
    ];
    let case = |case: admissions::Case| {
        let mut table = vec![FILLER; case.table_bytes];
        let answer = admit(&case.image.expand(), &case.map.expand(), &mut table);
        entry("admit", &case.name, case.entry().given, admit_number(answer))
            .with_digest("table_digest", &table)
    };
    admissions::cases().into_iter().filter(|case| begins(&case.name, &some)).map(case).collect()
}

/// What is foretold of images of many lengths.
fn foretold() -> Vec<Entry> {
    let lengths = [0, 1, 2, 3, 4, 7, 800, 8190, 16_382, 16_383, 16_384, 16_385, 16_386];
    let case = |count: usize| {
        let image = Bytes::Lcg { seed: 9, count };
        let given = vec![("image", image.text())];
        entry("foretell", &count.to_string(), given, foretell_number(&image.expand()))
    };
    lengths.map(case).to_vec()
}

/// Some of the runs: each refusal, from reset and on, stops, a stopped state.
fn ran() -> Vec<Entry> {
    let some = ["door", "timing", "nop", "call", "return", "pending", "stopped", "empty", "any"];
    let case = |case: runs::Case| {
        let outcome = case.outcome();
        entry("run", &case.name, case.entry().given, run_number(outcome.answer))
            .with_digest("state_digest", &outcome.state)
            .with_digest("trace_digest", &outcome.trace)
    };
    runs::cases().into_iter().filter(|case| begins(&case.name, &some)).map(case).collect()
}

/// All calls.
pub fn entries() -> Vec<Entry> {
    let calls = [decoded(), encoded(), counted(), states(), admitted(), foretold(), ran()];
    [vec![all_words()], calls.concat(), holds::entries(), pages::entries()].concat()
}
