//! One step for each value of "Values to hold against" and for the manual's
//! worked examples that have numbers. State not named is as after reset, and
//! every map bit is one.

use crate::machine::{step, Image, State, RECORD_BYTES};
use crate::map::Map;
use crate::programs::assemble;
use crate::word::{Word, Word::*};

/// What is told of the state afterwards, or of the step's record.
#[derive(Clone, Copy)]
enum Told {
    Aux,
    R6,
    Ovf,
    Pc,
    Pending,
    Pushed,
    LeftLatch,
    Stop,
    Data,
    Address,
}

use Told::*;

struct Value {
    title: &'static str,
    word: u16,
    before: State,
    bus: [u8; 2],
    told: &'static [Told],
}

fn value(title: &'static str, word: u16, before: State, told: &'static [Told]) -> Value {
    Value { title, word, before, bus: [0, 0], told }
}

/// An example of the manual by the word's fields, with the two bytes lent.
fn example(
    title: &'static str,
    word: Word,
    before: State,
    bus: [u8; 2],
    told: &'static [Told],
) -> Value {
    Value { title, word: assemble(&[word])[0], before, bus, told }
}

/// The reset state with these registers, by their places among the eight.
fn with<const N: usize>(registers: [(usize, u8); N]) -> State {
    let mut state = State::default();
    for (place, value) in registers {
        state.registers[place] = value;
    }
    state
}

fn at(pc: u16) -> State {
    State { pc, ..State::default() }
}

fn left_latch(byte: u8) -> State {
    State { latch: [byte, 0], ..State::default() }
}

const AUX: usize = 0;
const R11: usize = 7;

/// "Values to hold against".
fn paper() -> Vec<Value> {
    vec![
        value("0x0140, R1 0x96", 0x0140, with([(1, 0x96)]), &[Aux]),
        value(
            "0x0975, R11 0xD8, left latch 0xEF",
            0x0975,
            State { latch: [0xef, 0], ..with([(R11, 0xd8)]) },
            &[Data, LeftLatch],
        ),
        value("0x2000, AUX 200", 0x2000, with([(AUX, 200)]), &[Aux, Ovf]),
        value(
            "0x2993, AUX 1, R11 255, latch 0",
            0x2993,
            with([(AUX, 1), (R11, 255)]),
            &[Data, LeftLatch, Ovf],
        ),
        Value {
            bus: [0x38, 0],
            ..value("0x9476 at PC 64, left byte 0x38", 0x9476, at(64), &[Pending])
        },
        value(
            "0xA734 at PC 3, AUX 0x12",
            0xa734,
            State { pc: 3, ..with([(AUX, 0x12)]) },
            &[Pc, Pushed],
        ),
        value("0xD586, latch 0xFF", 0xd586, left_latch(0xff), &[Data, LeftLatch]),
        value("0xD71F, latch 0xFF", 0xd71f, left_latch(0xff), &[Data, LeftLatch]),
        value("0xD1BF, latch 0x3F", 0xd1bf, left_latch(0x3f), &[Data, LeftLatch]),
        value("0xA632 at PC 1108, R6 1", 0xa632, State { pc: 1108, ..with([(6, 1)]) }, &[Pc]),
        value("0x0008", 0x0008, at(0), &[Stop]),
    ]
}

/// The manual's examples of MOVE.
fn moves() -> Vec<Value> {
    vec![
        example(
            "MOVE RIV3, 3, R6, right byte 01010000",
            Move { s: 0o33, rl: 3, d: 6 },
            at(0),
            [0, 0b0101_0000],
            &[R6],
        ),
        example(
            "MOVE LIV2, 3, LIV5, left byte 10111111",
            Move { s: 0o22, rl: 3, d: 0o25 },
            at(0),
            [0b1011_1111, 0],
            &[Data, LeftLatch],
        ),
        example(
            "MOVE LIV4, 3, IVL, left byte 00110000",
            Move { s: 0o24, rl: 3, d: 0o07 },
            at(0),
            [0b0011_0000, 0],
            &[Address],
        ),
        example(
            "MOVE R3(0), IVR, R3 0x2B",
            Move { s: 3, rl: 0, d: 0o17 },
            with([(3, 0x2b)]),
            [0, 0],
            &[Address],
        ),
    ]
}

/// Its examples of XEC, NZT, CALL, XMIT and JMP.
fn controls() -> Vec<Value> {
    let bit_5 = NztBank { s: 0o25, l: 1, i: 0o15 };
    vec![
        example(
            "XEC 315 (R3) at PC 0x1200, R3 64, OVF 1",
            XecRegister { s: 3, i: 0o315 },
            State { pc: 0x1200, ovf: 1, ..with([(3, 64)]) },
            [0, 0],
            &[Pending, Ovf],
        ),
        example(
            "NZT R6, $32 at PC 0x1412, R6 9",
            NztRegister { s: 6, i: 0x32 },
            State { pc: 0x1412, ..with([(6, 9)]) },
            [0, 0],
            &[Pc],
        ),
        example("NZT LIV5, 1 at PC 64, bit 5 one", bit_5, at(64), [0b100, 0], &[Pc]),
        example("NZT LIV5, 1 at PC 64, bit 5 zero", bit_5, at(64), [!0b100, 0], &[Pc]),
        example("CALL $34, AUX 0x12", Call { i: 0x34 }, with([(AUX, 0x12)]), [0, 0], &[Pc]),
        example("XMIT @377, AUX", XmitRegister { d: 0, i: 0o377 }, at(0), [0, 0], &[Aux]),
        example("XMIT @53, IVL", XmitRegister { d: 0o07, i: 0o53 }, at(0), [0, 0], &[Address]),
        example(
            "XMIT $06, LIV5, 4, latch 0xFF",
            XmitBank { d: 0o25, l: 4, i: 6 },
            left_latch(0xff),
            [0, 0],
            &[Data],
        ),
        example("JMP @512", Jmp { a: 0o512 }, at(0), [0, 0], &[Pc]),
    ]
}

fn told(told: Told, state: &State, record: [u8; RECORD_BYTES]) -> String {
    let [kind, address, data, ..] = record;
    match told {
        Aux => format!("AUX 0x{:02x}", state.registers[AUX]),
        R6 => format!("R6 0x{:02x}", state.registers[6]),
        Ovf => format!("OVF {}", state.ovf),
        Pc => format!("PC {}", state.pc),
        Pending => format!("pending {}", state.pending_address),
        Pushed => format!("pushes {}", state.returns[0]),
        LeftLatch => format!("left latch 0x{:02x}", state.latch[0]),
        Stop => format!("stop {}", state.stop),
        Data if kind == 3 => format!("writes 0x{data:02x}"),
        Data if kind == 4 => format!("writes right 0x{data:02x}"),
        Data => "writes nothing".to_string(),
        Address if kind == 1 => format!("left address 0x{address:02x}"),
        Address if kind == 2 => format!("right address 0x{address:02x}"),
        Address => "no address".to_string(),
    }
}

/// The step on an image that has the word everywhere.
fn line(value: &Value) -> String {
    let bytes = value.word.to_be_bytes().repeat(8192);
    let image = Image::new(&bytes).expect("8,192 words");
    let map = Map::new(&[0xff; 128]).expect("128 bytes");
    let mut state = value.before;
    let record = step(&image, &map, &mut state, value.bus).expect("not stopped before");
    let parts: Vec<String> = value.told.iter().map(|&one| told(one, &state, record)).collect();
    format!("{}: {}", value.title, parts.join(" "))
}

pub fn lines() -> Vec<String> {
    [paper(), moves(), controls()].iter().flatten().map(line).collect()
}
