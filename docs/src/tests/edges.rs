//! Cases where a wrong machine would pass unnoticed.

mod common;
use common::{admit_words, fresh, one, one_with, ALL};
use riptide_reference::machine::{merge, reset, State};
use riptide_reference::map::{counts, Map};
use riptide_reference::programs::{assemble, bytes_of, map_of};
use riptide_reference::run::{run, RunAnswer};
use riptide_reference::table::Verdict;
use riptide_reference::word::{decode, encode, Word, Word::*};

fn word(word: Word) -> u16 {
    assemble(&[word])[0]
}

/// Runs words from a state over pairs of zero bytes.
fn run_words(words: &[u16], state: State, pairs: usize) -> (State, RunAnswer) {
    let mut bytes = state.to_bytes();
    let mut trace = vec![0; 8 * pairs];
    let answer = run(&bytes_of(words), &ALL, &mut bytes, &vec![0; 2 * pairs], &mut trace);
    (State::from_bytes(&bytes).expect("well formed"), answer)
}

#[test]
fn merging_takes_the_latch_and_not_the_byte_read() {
    let move_bank = word(Move { s: 0o27, rl: 4, d: 0o27 });
    let state = State { latch: [0xc0, 0x0c], ..fresh() };
    let (after, record) = one(move_bank, state, [0x35, 0xff]);
    assert_eq!((after.latch, record), ([0xc5, 0x0c], [3, 0, 0xc5, 0]));
    let cross = word(Move { s: 0o27, rl: 4, d: 0o37 });
    let (after, record) = one(cross, State { address: [1, 2], ..state }, [0x35, 0xff]);
    assert_eq!((after.latch, record), ([0xc0, 0x05], [4, 2, 0x05, 0]));
}

#[test]
fn merge_keeps_what_lies_outside_the_field() {
    for (latch, value, position, l) in
        (0..=255u8).flat_map(|v| (0..8).flat_map(move |p| (0..8).map(move |l| (v ^ 0x5a, v, p, l))))
    {
        let width = if l == 0 { 8 } else { l };
        let merged = merge(latch, value, position, l);
        for bit in 0..8u16 {
            let weight = 7 - bit;
            let from = bit as i32 - position as i32 + 7;
            let inside = bit <= position && from >= 8 - i32::from(width);
            let expected = if inside { value >> (7 - from) } else { latch >> weight };
            assert_eq!(merged >> weight & 1, expected & 1);
        }
    }
}

#[test]
fn the_page_is_that_of_pc_and_not_of_the_executed_word() {
    // XEC at 70 executes the word at 200; its bank branch stays in 64-95.
    let mut words = vec![0u16; 256];
    words[70] = word(XecRegister { s: 1, i: 200 });
    words[200] = word(NztBank { s: 0o27, l: 0, i: 3 });
    let mut state = State { pc: 70, ..fresh() };
    let mut bytes = state.to_bytes();
    let answer = run(&bytes_of(&words), &ALL, &mut bytes, &[9, 0, 9, 0], &mut [0; 16]);
    assert_eq!(answer, RunAnswer::Ran { count: 2, stop: 0 });
    assert_eq!(State::from_bytes(&bytes).unwrap().pc, 67);
    // An XEC executed by XEC takes the page of PC as well.
    words[200] = word(XecBank { s: 0o27, l: 1, i: 5 });
    state.latch = [0, 0];
    let (after, _) = run_words(&words, state, 2);
    assert_eq!((after.pc, after.pending, after.pending_address), (70, true, 69));
}

#[test]
fn call_executed_by_xec_pushes_the_address_after_the_xec() {
    let mut words = vec![0u16; 256];
    words[10] = word(XecRegister { s: 0, i: 100 });
    words[100] = word(Call { i: 200 });
    words[200] = word(Ret { i: 0 });
    let (after, _) = run_words(&words, State { pc: 10, ..fresh() }, 2);
    assert_eq!((after.pc, after.depth, after.returns[0]), (200, 1, 11));
    let (after, _) = run_words(&words, State { pc: 10, ..fresh() }, 3);
    assert_eq!((after.pc, after.depth, after.returns[0]), (11, 0, 0));
}

#[test]
fn an_executed_word_continues_after_the_xec() {
    let mut words = vec![0u16; 300];
    words[10] = word(XecRegister { s: 0, i: 100 });
    words[100] = word(XmitRegister { d: 1, i: 7 });
    let (after, _) = run_words(&words, State { pc: 10, ..fresh() }, 2);
    assert_eq!((after.pc, after.pending, after.pending_address), (11, false, 0));
    assert_eq!(after.registers[1], 7);
    // The sum is kept to 8 bits.
    let mut state = State { pc: 10, ..fresh() };
    state.registers[0] = 200;
    assert_eq!(run_words(&words, state, 1).0.pending_address, 44);
}

#[test]
fn a_register_is_not_rotated_on_its_way_to_a_bank() {
    let mut state = fresh();
    state.registers[1] = 0b0000_0110;
    let (after, _) = one(word(Move { s: 1, rl: 3, d: 0o37 }), state, [0, 0]);
    assert_eq!(after.latch, [0, 0b110]);
    let (after, _) = one(word(Move { s: 1, rl: 3, d: 2 }), state, [0, 0]);
    assert_eq!(after.registers[2], 0b1100_0000);
    let (after, _) = one(word(Move { s: 1, rl: 3, d: 0o17 }), state, [0, 0]);
    assert_eq!(after.address, [0, 0b1100_0000]);
}

#[test]
fn add_alone_sets_ovf() {
    let mut state = State { ovf: 1, ..fresh() };
    state.registers[0] = 0xff;
    for other in [
        And { s: 0, rl: 0, d: 1 },
        Xor { s: 0, rl: 0, d: 1 },
        Move { s: 0, rl: 0, d: 1 },
        XmitRegister { d: 1, i: 1 },
        Jmp { a: 0 },
    ] {
        assert_eq!(one(word(other), state, [0, 0]).0.ovf, 1);
        assert_eq!(one(word(other), State { ovf: 0, ..state }, [0, 0]).0.ovf, 0);
    }
    state.registers[0] = 1;
    for target in [0, 0o07, 0o17, 0o20, 0o37] {
        assert_eq!(one(word(Add { s: 0, rl: 0, d: target }), state, [0, 0]).0.ovf, 0);
    }
    assert_eq!(one(word(Add { s: 0o10, rl: 1, d: 2 }), state, [0, 0]).0.registers[2], 0x81);
}

#[test]
fn add_masks_a_register_on_its_way_to_a_bank_alone() {
    let sum = |s, rl, d, aux| {
        let mut state = fresh();
        (state.registers[0], state.registers[1]) = (aux, 0xff);
        one(word(Add { s, rl, d }), state, [0xff, 0xff]).0.ovf
    };
    for l in 1..8 {
        // The low L bits of a register or of a bank, and an AUX that is not masked.
        let aux = (256 - (1 << l)) as u8;
        for (s, d) in [(1, 0o20), (1, 0o37), (0o27, 0o34), (0o37, 0o20), (0o37, 2)] {
            assert_eq!((sum(s, l, d, aux), sum(s, l, d, aux + 1)), (0, 1));
        }
        for d in [2, 0o07, 0o17] {
            assert_eq!((sum(1, l, d, 0), sum(1, l, d, 1)), (0, 1));
        }
    }
    assert_eq!((sum(1, 0, 0o27, 0), sum(1, 0, 0o27, 1)), (0, 1));
    // AUX with itself: the source is masked, the other is not.
    assert_eq!((sum(0, 4, 0o27, 0x90), sum(0, 0, 0o27, 0x90), sum(0, 1, 0o27, 0xff)), (0, 1, 1));
}

#[test]
fn ovf_is_one_from_256_on() {
    for (sum, ovf) in [(254, 0), (255, 0), (256, 1), (257, 1)] {
        let mut state = State { ovf: 1 - ovf, ..fresh() };
        state.registers[0] = 200;
        state.registers[1] = (sum - 200) as u8;
        let (after, _) = one(word(Add { s: 1, rl: 0, d: 2 }), state, [0, 0]);
        assert_eq!((after.registers[2], after.ovf), ((sum % 256) as u8, ovf));
    }
}

#[test]
fn length_zero_is_eight_bits() {
    let (after, _) = one(word(Move { s: 0o27, rl: 0, d: 1 }), fresh(), [0xab, 0]);
    assert_eq!(after.registers[1], 0xab);
    let (after, _) = one(word(Move { s: 0o23, rl: 0, d: 1 }), fresh(), [0xab, 0]);
    assert_eq!(after.registers[1], 0xba);
    let (after, _) = one(word(NztBank { s: 0o27, l: 0, i: 9 }), fresh(), [0x80, 0]);
    assert_eq!(after.pc, 9);
    let (after, _) = one(word(XmitBank { d: 0o23, l: 0, i: 0x1f }), fresh(), [0, 0]);
    assert_eq!(after.latch[0], 0xf0);
}

#[test]
fn bank_xec_wants_a_length_of_1_to_5() {
    for l in 0..8u16 {
        let bits = 0x8000 + 0o24 * 256 + l * 32;
        assert_eq!(decode(bits) != Invalid, (1..=5).contains(&l), "L {l}");
        assert_ne!(decode(bits + 0x2000), Invalid);
    }
}

#[test]
fn ret_has_any_low_byte() {
    for i in 0..256 {
        assert_eq!((decode(0xaf00 + i), encode(Ret { i })), (Ret { i }, Ok(0xaf00 + i)));
    }
    assert_eq!(encode(Ret { i: 256 }), Err(22));
}

#[test]
fn map_bits_count_from_the_least_significant_end() {
    let mut bytes = [0u8; 128];
    bytes[64 + 1] = 0x02;
    let map = Map::new(&bytes).unwrap();
    let readable: Vec<u8> = (0..=255).filter(|&a| map.readable(1, a)).collect();
    assert_eq!(readable, [9]);
    assert!(map.listed(1, 9) && !map.writable(1, 9) && !map.listed(0, 9));
    assert_eq!(counts(&bytes), Ok([0, 0, 1, 0]));
    assert_eq!(counts(&ALL), Ok([256; 4]));
    assert_eq!(counts(&bytes[1..]), Err(12));
}

#[test]
fn jmp_is_measured_in_words() {
    let refused = Verdict::Finding { number: 21, depth: 0, address: 0 };
    assert_eq!(admit_words(&[0xe002, 0xe000], &ALL).0.verdict, refused);
    assert_eq!(admit_words(&[0xe001, 0xe000], &ALL).0.verdict, Verdict::Admitted);
    let (after, answer) = run_words(&[0xe002, 0xe000], fresh(), 5);
    assert_eq!(answer, RunAnswer::Ran { count: 2, stop: 21 });
    assert_eq!(after, State { pc: 2, stop: 21, ..fresh() });
}

#[test]
fn the_last_address_of_the_largest_image() {
    let words = vec![0u16; 8192];
    let (after, answer) = run_words(&words, State { pc: 8191, ..fresh() }, 2);
    assert_eq!(answer, RunAnswer::Ran { count: 2, stop: 21 });
    assert_eq!(after, State { pc: 8192, stop: 21, ..fresh() });
    let refused = Verdict::Finding { number: 21, depth: 0, address: 8191 };
    assert_eq!(admit_words(&words, &ALL).0.verdict, refused);
    // CALL there pushes 8,192, and RET goes back to it.
    let mut words = vec![0u16; 8192];
    words[8191] = word(Call { i: 4 });
    words[4] = word(Ret { i: 0 });
    let (after, answer) = run_words(&words, State { pc: 8191, ..fresh() }, 1);
    assert_eq!((after.returns[0], answer), (8192, RunAnswer::Ran { count: 1, stop: 0 }));
    let (after, answer) = run_words(&words, after, 2);
    assert_eq!((after.pc, after.depth), (8192, 0));
    assert_eq!(answer, RunAnswer::Ran { count: 2, stop: 21 });
}

#[test]
fn call_to_the_highest_address() {
    let mut state = fresh();
    state.registers[0] = 0xff;
    let (after, answer) = run_words(&[word(Call { i: 0xff })], state, 1);
    assert_eq!((after.pc, answer), (65_535, RunAnswer::Ran { count: 1, stop: 0 }));
    let (after, answer) = run_words(&[word(Call { i: 0xff })], after, 1);
    assert_eq!((after.pc, after.stop), (65_535, 21));
    assert_eq!(answer, RunAnswer::Ran { count: 1, stop: 21 });
}

fn formed(change: impl Fn(&mut [u8; 36])) -> bool {
    let mut bytes = [0; 36];
    change(&mut bytes);
    let state = State::from_bytes(&bytes);
    assert!(state.is_none_or(|s| s.to_bytes() == bytes));
    state.is_some()
}

#[test]
fn which_states_are_well_formed() {
    assert!(formed(|_| ()));
    assert!(formed(|b| b[0..2].copy_from_slice(&[0xff, 0xff])));
    assert!(!formed(|b| b[2] = 2));
    assert!(!formed(|b| b[3] = 1) && !formed(|b| b[4] = 1));
    assert!(formed(|b| b[2..5].copy_from_slice(&[1, 0xff, 0x1f])));
    assert!(!formed(|b| b[2..5].copy_from_slice(&[1, 0x00, 0x20])));
    assert!(formed(|b| b[0..5].copy_from_slice(&[0xff, 0x1f, 1, 5, 0])));
    assert!(!formed(|b| b[0..5].copy_from_slice(&[0x00, 0x20, 1, 5, 0])));
    assert!(formed(|b| b[13] = 1) && !formed(|b| b[13] = 2));
    assert!(formed(|b| b[5..13].fill(255)) && formed(|b| b[14..18].fill(255)));
    assert!(formed(|b| b[18] = 8) && !formed(|b| b[18] = 9) && !formed(|b| b[18] = 255));
    assert!(formed(|b| b[18..21].copy_from_slice(&[1, 0x00, 0x20])));
    assert!(!formed(|b| b[18..21].copy_from_slice(&[1, 0x01, 0x20])));
    assert!(!formed(|b| b[19] = 1) && !formed(|b| b[18..22].copy_from_slice(&[1, 0, 0, 1])));
    assert!(!formed(|b| b[34] = 1) && formed(|b| (b[18], b[34]) = (8, 0x20)));
    for stop in 0..=255 {
        assert_eq!(formed(|b| b[35] = stop), stop == 0 || (21..=27).contains(&stop));
    }
    assert!(State::from_bytes(&[0; 35]).is_none() && State::from_bytes(&[0; 37]).is_none());
}

#[test]
fn reset_zeroes_36_bytes() {
    let mut bytes = [7; 36];
    assert_eq!(reset(&mut bytes), Ok(()));
    assert_eq!(bytes, [0; 36]);
    let mut bytes = [7; 35];
    assert_eq!(reset(&mut bytes), Err(14));
    assert_eq!(bytes, [7; 35]);
}

#[test]
fn each_step_question_stops_and_changes_nothing_else() {
    let mut full = State { depth: 8, returns: [1; 8], address: [5, 6], ..fresh() };
    full.registers[1] = 7;
    let map = map_of([&[1], &[2], &[3], &[4]]);
    let empty = State { depth: 0, returns: [0; 8], ..full };
    for (bad, state, stop) in [
        (word(Move { s: 0o27, rl: 0, d: 0o37 }), full, 23),
        (word(NztBank { s: 0o37, l: 1, i: 0 }), full, 23),
        (word(XecBank { s: 0o37, l: 1, i: 0 }), full, 23),
        (word(Move { s: 0o27, rl: 0, d: 0o37 }), State { address: [1, 3], ..full }, 24),
        (word(XmitBank { d: 0o27, l: 0, i: 0 }), State { address: [1, 3], ..full }, 24),
        (word(XmitRegister { d: 0o07, i: 3 }), full, 25),
        (word(XmitRegister { d: 0o17, i: 2 }), full, 25),
        (word(Move { s: 1, rl: 0, d: 0o17 }), full, 25),
        (word(Move { s: 0o27, rl: 0, d: 0o17 }), full, 23),
        (word(Call { i: 0 }), full, 26),
        (word(Ret { i: 0 }), empty, 27),
        (word(Ret { i: 255 }), empty, 27),
        (0x0008, full, 22),
    ] {
        let (after, record) = one_with(&map, bad, state, [0xff, 0xff]);
        assert_eq!(after, State { stop, ..state }, "{bad:04x}");
        assert_eq!(record, [5, 0, 0, stop], "{bad:04x}");
    }
    let beyond = State { pc: 8192, ..full };
    assert_eq!(one_with(&map, 0, beyond, [0, 0]).0, State { stop: 21, ..beyond });
}

#[test]
fn either_set_lists_an_address() {
    let map = map_of([&[1], &[2], &[3], &[4]]);
    for (d, a, kind) in [(0o07, 1, 1), (0o07, 2, 1), (0o17, 3, 2), (0o17, 4, 2)] {
        let (after, record) = one_with(&map, word(XmitRegister { d, i: a }), fresh(), [0, 0]);
        assert_eq!(record, [kind, a as u8, 0, 0]);
        assert_eq!(after.register(d), a as u8);
    }
    assert_eq!(one_with(&map, word(XmitRegister { d: 0o07, i: 0 }), fresh(), [0, 0]).0.stop, 25);
}
