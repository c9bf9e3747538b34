//! The worked examples of the programmer manual: each instruction word reads
//! as its page says, and where the page gives numbers they come out.

mod common;
use common::{fresh, one};
use riptide_reference::machine::State;
use riptide_reference::word::{decode, encode, Word, Word::*};

fn bits(text: &str) -> u16 {
    let digits: String = text.chars().filter(|c| *c != ' ').collect();
    assert_eq!(digits.len(), 16, "{text}");
    u16::from_str_radix(&digits, 2).unwrap()
}

fn check(examples: &[(&str, Word)]) {
    for &(text, word) in examples {
        assert_eq!(decode(bits(text)), word, "{text}");
        assert_eq!(encode(word), Ok(bits(text)), "{text}");
    }
}

#[test]
fn move_pages() {
    check(&[
        ("000 00001 010 00000", Move { s: 1, rl: 2, d: 0 }),
        ("000 00011 000 01111", Move { s: 3, rl: 0, d: 0o17 }),
        ("000 01001 011 10101", Move { s: 0o11, rl: 3, d: 0o25 }),
        ("000 11011 011 00110", Move { s: 0o33, rl: 3, d: 6 }),
        ("000 10010 011 10101", Move { s: 0o22, rl: 3, d: 0o25 }),
        ("000 10100 011 00111", Move { s: 0o24, rl: 3, d: 0o07 }),
        ("000 00000 000 00000", Move { s: 0, rl: 0, d: 0 }),
    ]);
}

#[test]
fn add_pages() {
    check(&[
        ("001 00001 100 00011", Add { s: 1, rl: 4, d: 3 }),
        ("001 00011 000 01111", Add { s: 3, rl: 0, d: 0o17 }),
        ("001 01001 100 10011", Add { s: 0o11, rl: 4, d: 0o23 }),
        ("001 10111 100 10011", Add { s: 0o27, rl: 4, d: 0o23 }),
        ("001 10111 100 01001", Add { s: 0o27, rl: 4, d: 0o11 }),
        ("001 10111 100 01111", Add { s: 0o27, rl: 4, d: 0o17 }),
    ]);
}

#[test]
fn and_pages() {
    check(&[
        ("010 00001 100 00011", And { s: 1, rl: 4, d: 3 }),
        ("010 00011 000 01111", And { s: 3, rl: 0, d: 0o17 }),
        ("010 01001 100 10011", And { s: 0o11, rl: 4, d: 0o23 }),
        ("010 10111 100 01001", And { s: 0o27, rl: 4, d: 0o11 }),
        ("010 10111 100 10011", And { s: 0o27, rl: 4, d: 0o23 }),
        ("010 10111 100 01111", And { s: 0o27, rl: 4, d: 0o17 }),
    ]);
}

#[test]
fn xor_pages() {
    check(&[
        ("011 00001 100 00011", Xor { s: 1, rl: 4, d: 3 }),
        ("011 00011 000 01111", Xor { s: 3, rl: 0, d: 0o17 }),
        ("011 01001 100 10011", Xor { s: 0o11, rl: 4, d: 0o23 }),
        ("011 10111 100 01001", Xor { s: 0o27, rl: 4, d: 0o11 }),
        ("011 10111 100 10011", Xor { s: 0o27, rl: 4, d: 0o23 }),
        ("011 10111 100 01111", Xor { s: 0o27, rl: 4, d: 0o17 }),
    ]);
}

#[test]
fn control_and_xmit_pages() {
    check(&[
        ("100 00011 11001101", XecRegister { s: 3, i: 0o315 }),
        ("100 10100 011 10110", XecBank { s: 0o24, l: 3, i: 0o26 }),
        ("101 00110 00110010", NztRegister { s: 6, i: 0x32 }),
        ("101 10101 001 01101", NztBank { s: 0o25, l: 1, i: 0o15 }),
        ("101 00111 00110100", Call { i: 0x34 }),
        ("101 01111 00000000", Ret { i: 0 }),
        ("110 00000 11111111", XmitRegister { d: 0, i: 0o377 }),
        ("110 00111 00101011", XmitRegister { d: 0o07, i: 0o53 }),
        ("110 10101 100 00110", XmitBank { d: 0o25, l: 4, i: 6 }),
        ("111 0000101001010", Jmp { a: 0o512 }),
    ]);
}

#[test]
fn move_examples_with_numbers() {
    let mut state = fresh();
    state.registers[1] = 0b1001_0110;
    let (after, _) = one(bits("000 00001 010 00000"), state, [0, 0]);
    assert_eq!(after.registers[..2], [0b1010_0101, 0b1001_0110]);

    let mut state = State { latch: [0b1110_1111, 0], ..fresh() };
    state.registers[7] = 0b1101_1000;
    let (after, _) = one(bits("000 01001 011 10101"), state, [0, 0]);
    assert_eq!(after.latch[0], 0b1110_0011);

    // Bits 1, 2 and 3 of the right byte to R6.
    let (after, _) = one(bits("000 11011 011 00110"), fresh(), [0, 0b0101_0000]);
    assert_eq!(after.registers[6], 0b101);
    // Bits 0, 1 and 2 of the left byte to bits 3, 4 and 5 of the left latch.
    let (after, _) = one(bits("000 10010 011 10101"), fresh(), [0b1011_1111, 0]);
    assert_eq!(after.latch[0], 0b0001_0100);
    // Bits 2 to 4 of the left byte to the left address.
    let (after, record) = one(bits("000 10100 011 00111"), fresh(), [0b0011_0000, 0]);
    assert_eq!((after.address, record), ([0b110, 0], [1, 0b110, 0, 0]));
}

#[test]
fn bank_examples_put_the_sum_into_the_upper_half() {
    let mut state = State { latch: [0x0a, 0], ..fresh() };
    state.registers[0] = 0x13;
    for (op, high) in [("001", 0x2), ("010", 0x3), ("011", 0xc)] {
        let word = bits(&format!("{op} 10111 100 10011"));
        let (after, record) = one(word, state, [0xff, 0]);
        let data = high * 16 + 0x0a;
        assert_eq!((after.latch[0], record), (data, [3, 0, data, 0]), "{op}");
    }
    // To R11 goes all of the result, to the right address as well.
    for (op, value) in [("001", 0x22), ("010", 0x03), ("011", 0x1c)] {
        let (after, _) = one(bits(&format!("{op} 10111 100 01001")), state, [0xff, 0]);
        assert_eq!(after.registers[7], value, "{op}");
        let (after, record) = one(bits(&format!("{op} 10111 100 01111")), state, [0xff, 0]);
        assert_eq!((after.address, record), ([0, value], [2, value, 0, 0]), "{op}");
    }
}

#[test]
fn control_examples_with_numbers() {
    // The page says 5432 (hexadecimal) for an address of 54XX; 13 bits keep 1432.
    let mut state = State { pc: 0x1412, ..fresh() };
    state.registers[6] = 9;
    assert_eq!(one(bits("101 00110 00110010"), state, [0, 0]).0.pc, 0x1432);
    let state = State { pc: 0o100, ..fresh() };
    assert_eq!(one(bits("101 10101 001 01101"), state, [0b100, 0]).0.pc, 0o115);
    assert_eq!(one(bits("101 10101 001 01101"), state, [!0b100, 0]).0.pc, 0o101);
    let mut state = fresh();
    state.registers[0] = 0x12;
    assert_eq!(one(bits("101 00111 00110100"), state, [0, 0]).0.pc, 0x1234);
    assert_eq!(one(bits("111 0000101001010"), fresh(), [0, 0]).0.pc, 0o512);
    let mut state = State { pc: 0x1200, ovf: 1, ..fresh() };
    state.registers[3] = 0o100;
    let (after, _) = one(bits("100 00011 11001101"), state, [0, 0]);
    assert_eq!((after.pending_address, after.ovf), (0x1200 + 0o15, 1));
}

#[test]
fn xmit_examples_with_numbers() {
    assert_eq!(one(bits("110 00000 11111111"), fresh(), [0, 0]).0.registers[0], 0o377);
    let (after, record) = one(bits("110 00111 00101011"), fresh(), [0, 0]);
    assert_eq!((after.address, record), ([0o53, 0], [1, 0o53, 0, 0]));
    // 6 to bits 2, 3, 4 and 5.
    let state = State { latch: [0xff, 0], ..fresh() };
    assert_eq!(one(bits("110 10101 100 00110"), state, [0, 0]).0.latch[0], 0b1101_1011);
}
