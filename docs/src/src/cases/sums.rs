//! Cases of 2026-04, by which ADD of a register to a bank keeps the low L bits
//! before the sum: single steps, long runs, and programs that an OVF of known
//! value has admitted or refused.

use super::{admissions, runs, Bytes, ALL_ONES, RESET};
use crate::digest::Random;
use crate::machine::{low_bits, State};
use crate::programs::{assemble, bytes_of, sparse_map, sum_words};
use crate::word::{width_of, Word, Word::*};

/// The image of these words.
fn image(words: &[Word]) -> Bytes {
    Bytes::Hex(bytes_of(&assemble(words)))
}

/// A state with AUX, the other registers all alike, and OVF.
fn state(aux: u8, others: u8, ovf: u8) -> State {
    let mut registers = [others; 8];
    registers[0] = aux;
    State { registers, ovf, address: [3, 4], latch: [0x5a, 0xa5], ..State::default() }
}

/// A run of as many steps as there are pairs of bytes.
fn steps(name: &str, words: &[Word], map: Bytes, from: State, bus: &[u8]) -> runs::Case {
    let (name, from) = (format!("add-mask-{name}"), Bytes::Hex(from.to_bytes().to_vec()));
    runs::Case::new(&name, image(words), map, from, Bytes::Hex(bus.to_vec()))
}

/// For each L and both banks a register of all ones. Its low L bits and AUX
/// make 255, and then 256; the whole register carries in both, unless L is 0.
fn lengths() -> Vec<runs::Case> {
    let sources = [0o11, 1, 2, 3, 4, 5, 6, 0o11];
    let mut cases = Vec::new();
    for l in 0..8u16 {
        let s = sources[usize::from(l)];
        let under = 255 - low_bits(255, width_of(l));
        for (bank, d) in [("left", 0o20 + l), ("right", 0o37 - l)] {
            for (sum, aux, ovf) in [("255", under, 1), ("256", under + 1, 0)] {
                let name = format!("l{l}-{bank}-{sum}");
                let word = Add { s, rl: l, d };
                cases.push(steps(&name, &[word], ALL_ONES, state(aux, 255, ovf), &[0, 0]));
            }
        }
    }
    cases
}

/// One step each: AUX is not masked, and AUX and OVF as the source.
fn operands() -> Vec<runs::Case> {
    let cases = [
        ("aux-above-255", Add { s: 1, rl: 3, d: 0o24 }, state(0xf8, 0x0f, 1)),
        ("aux-above-256", Add { s: 1, rl: 3, d: 0o24 }, state(0xf9, 0x0f, 0)),
        ("source-aux-144", Add { s: 0, rl: 4, d: 0o33 }, state(0x90, 0, 1)),
        ("source-aux-256", Add { s: 0, rl: 1, d: 0o33 }, state(0xff, 0, 0)),
        ("source-aux-whole", Add { s: 0, rl: 0, d: 0o33 }, state(0x80, 0, 0)),
        ("source-ovf-l1-255", Add { s: 0o10, rl: 1, d: 0o25 }, state(0xff, 0, 0)),
        ("source-ovf-l1-256", Add { s: 0o10, rl: 1, d: 0o25 }, state(0xff, 0, 1)),
        ("source-ovf-l7-256", Add { s: 0o10, rl: 7, d: 0o35 }, state(0xff, 0, 1)),
        ("source-ovf-l0-255", Add { s: 0o10, rl: 0, d: 0o37 }, state(0xfe, 0, 1)),
    ];
    cases.map(|(name, word, from)| steps(name, &[word], ALL_ONES, from, &[0, 0])).to_vec()
}

/// Neighbours that no mask of a register changes.
fn neighbours() -> Vec<runs::Case> {
    let rotated = state(0x19, 0x3f, 0);
    let ones = state(0xff, 0xff, 1);
    let cases = [
        ("to-register", Add { s: 1, rl: 3, d: 2 }, rotated),
        ("to-left-address", Add { s: 1, rl: 3, d: 0o07 }, rotated),
        ("to-right-address", Add { s: 1, rl: 3, d: 0o17 }, rotated),
        ("bank-to-bank-255", Add { s: 0o27, rl: 4, d: 0o33 }, state(0xf0, 0xff, 1)),
        ("bank-to-bank-256", Add { s: 0o27, rl: 4, d: 0o33 }, state(0xf1, 0xff, 0)),
        ("bank-to-register", Add { s: 0o35, rl: 3, d: 2 }, state(0xf9, 0, 0)),
        ("and", And { s: 1, rl: 3, d: 0o24 }, ones),
        ("xor", Xor { s: 1, rl: 3, d: 0o34 }, State { ovf: 0, ..ones }),
        ("move", Move { s: 1, rl: 3, d: 0o24 }, ones),
    ];
    cases.map(|(name, word, from)| steps(name, &[word], ALL_ONES, from, &[0xff, 0xff])).to_vec()
}

/// A sum that an XEC executes, and one that may not be written.
fn within_steps() -> Vec<runs::Case> {
    let sum = Add { s: 0o11, rl: 4, d: 0o23 };
    let executed = [XecRegister { s: 0o10, i: 1 }, Jmp { a: 0 }, sum];
    let withheld = Bytes::Fill { word: 0, count: 64 };
    vec![
        steps("executed", &executed, ALL_ONES, state(1, 255, 1), &[0; 10]),
        steps("not-writable", &[sum], withheld, state(1, 255, 0), &[0, 0]),
    ]
}

/// Long runs of sums to banks after each of which OVF is read. Those that are
/// not loose are admitted.
fn long() -> Vec<runs::Case> {
    let mut random = Random(55);
    let mut case = |index: u32| {
        let (kind, loose) = if index < 4 { ("admitted", false) } else { ("loose", true) };
        let image = Bytes::Hex(bytes_of(&sum_words(&mut random, 24, loose)));
        let recording = Bytes::Lcg { seed: 90 + index, count: 12_000 };
        let name = format!("add-mask-{kind}-{}", index % 4);
        runs::Case::new(&name, image, ALL_ONES, RESET, recording)
    };
    (0..8).map(&mut case).collect()
}

/// Programs that the new sum admits or refuses, the old one the other way, with
/// `sparse_map`. XMIT 9, IVL is what must not be reached; where paths join, OVF
/// has one value on both by one of the two sums alone.
fn judged() -> Vec<(&'static str, Vec<Word>)> {
    let constant = |d, i| XmitRegister { d, i };
    let (far, near) = (constant(0o07, 9), XmitBank { d: 0o27, l: 1, i: 1 });
    let ones = [constant(0, 1), constant(0o11, 255)];
    let left = Add { s: 0o11, rl: 4, d: 0o23 };
    let twice = [constant(0o17, 1), constant(0, 0x90), Add { s: 0, rl: 4, d: 0o33 }];
    let nzt = |i| NztRegister { s: 0o10, i };
    let xec = |i| XecRegister { s: 0o10, i };
    let either = |i| NztBank { s: 0o27, l: 1, i };
    let after = |first: &[Word], rest: &[Word]| [first, rest].concat();
    vec![
        ("nzt-now-admitted", after(&ones, &[left, nzt(5), Jmp { a: 4 }, far, Jmp { a: 4 }])),
        ("nzt-now-refused", after(&ones, &[left, nzt(6), far, Jmp { a: 6 }, Jmp { a: 6 }])),
        ("xec-now-admitted", after(&twice, &[xec(5), Jmp { a: 4 }, near, far])),
        ("xec-now-refused", after(&twice, &[xec(5), Jmp { a: 4 }, far, near])),
        ("join-now-admitted", after(&ones, &[either(4), left, xec(6), Jmp { a: 5 }, near])),
        (
            "join-now-refused",
            after(
                &ones,
                &[Add { s: 0o11, rl: 0, d: 1 }, either(5), left, xec(6), Jmp { a: 6 }, near],
            ),
        ),
    ]
}

fn sparse() -> Bytes {
    Bytes::Hex(sparse_map().to_vec())
}

/// Runs; the judged programs from reset.
pub fn run_cases() -> Vec<runs::Case> {
    let reset = |(name, words): (&str, Vec<Word>)| {
        steps(name, &words, sparse(), State::default(), &[0; 40])
    };
    let judged = judged().into_iter().map(reset).collect();
    [lengths(), operands(), neighbours(), within_steps(), long(), judged].concat()
}

/// Admissions: the judged programs, and tables in which many OVF are known.
pub fn admission_cases() -> Vec<admissions::Case> {
    let mut random = Random(44);
    let mut cases = Vec::new();
    for (name, words) in judged() {
        cases.push(admissions::Case::of(&format!("add-mask-{name}"), image(&words), sparse()));
    }
    for index in 0..4 {
        let words = Bytes::Hex(bytes_of(&sum_words(&mut random, 10, false)));
        cases.push(admissions::Case::of(&format!("add-mask-table-{index}"), words, ALL_ONES));
    }
    cases
}
