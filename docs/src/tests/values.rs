//! Every line of "Values to hold against" of document 01, that of 0x2993 by 2026-04.

mod common;
use common::{admit_words, fresh, one, ALL};
use riptide_reference::machine::State;
use riptide_reference::table::Verdict;
use riptide_reference::word::{decode, Word};

#[test]
fn move_rotates_r1_into_aux() {
    let mut state = fresh();
    state.registers[1] = 0x96;
    let (after, record) = one(0x0140, state, [0, 0]);
    assert_eq!(after.registers[0], 0xa5);
    assert_eq!((after.registers[1], after.pc, record), (0x96, 1, [0; 4]));
}

#[test]
fn move_merges_r11_into_the_left_latch() {
    let mut state = fresh();
    state.registers[7] = 0xd8;
    state.latch[0] = 0xef;
    let (after, record) = one(0x0975, state, [0, 0]);
    assert_eq!(after.latch, [0xe3, 0]);
    assert_eq!(record, [3, 0, 0xe3, 0]);
}

#[test]
fn add_aux_to_itself_overflows() {
    let mut state = fresh();
    state.registers[0] = 200;
    let (after, _) = one(0x2000, state, [0, 0]);
    assert_eq!((after.registers[0], after.ovf), (144, 1));
}

#[test]
fn add_to_a_bank_masks_the_register_first() {
    let mut state = fresh();
    state.registers[0] = 1;
    state.registers[7] = 255;
    let (after, record) = one(0x2993, state, [0, 0]);
    assert_eq!((record, after.ovf), ([3, 0, 0, 0], 0));
}

#[test]
fn xec_from_the_left_bank() {
    let (after, record) = one(0x9476, State { pc: 64, ..fresh() }, [0x38, 0]);
    let pending = State { pc: 64, pending: true, pending_address: 93, ..fresh() };
    assert_eq!((after, record), (pending, [0; 4]));
}

#[test]
fn call_pushes_the_next_address() {
    let mut state = State { pc: 3, ..fresh() };
    state.registers[0] = 0x12;
    let (after, _) = one(0xa734, state, [0, 0]);
    assert_eq!((after.pc, after.depth), (4660, 1));
    assert_eq!(after.returns, [4, 0, 0, 0, 0, 0, 0, 0]);
}

#[test]
fn xmit_to_banks() {
    for (word, latch, data) in [(0xd586, 0xff, 0xdb), (0xd71f, 0xff, 0x1f), (0xd1bf, 0x3f, 0xff)] {
        let (after, record) = one(word, State { latch: [latch, 0], ..fresh() }, [0, 0]);
        assert_eq!((after.latch, record), ([data, 0], [3, 0, data, 0]));
    }
}

#[test]
fn nzt_stays_in_the_page() {
    let mut state = State { pc: 1108, ..fresh() };
    state.registers[6] = 1;
    assert_eq!(one(0xa632, state, [0, 0]).0.pc, 1074);
    state.registers[6] = 0;
    assert_eq!(one(0xa632, state, [0, 0]).0.pc, 1109);
}

#[test]
fn an_invalid_word_stops() {
    assert_eq!(decode(0x0008), Word::Invalid);
    let (after, record) = one(0x0008, fresh(), [0, 0]);
    assert_eq!((after, record), (State { stop: 22, ..fresh() }, [5, 0, 0, 22]));
}

#[test]
fn the_two_admissions() {
    assert_eq!(admit_words(&[0xe000], &ALL).0.verdict, Verdict::Admitted);
    let refused = Verdict::Finding { number: 21, depth: 0, address: 0 };
    assert_eq!(admit_words(&[0x0000], &ALL).0.verdict, refused);
}
