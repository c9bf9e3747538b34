//! The machine: its state in 36 bytes, reset, and one step.

use crate::map::Map;
use crate::word::{bank_of, decode, is_bank, position_of, width_of, Word};

/// The length of a state in bytes.
pub const STATE_BYTES: usize = 36;

/// An image: words of two bytes, high byte first.
#[derive(Clone, Copy)]
pub struct Image<'a> {
    bytes: &'a [u8],
}

impl<'a> Image<'a> {
    /// The image in these bytes, or 11.
    pub fn new(bytes: &'a [u8]) -> Result<Image<'a>, u8> {
        let length = bytes.len();
        if length % 2 == 0 && (2..=16_384).contains(&length) {
            Ok(Image { bytes })
        } else {
            Err(11)
        }
    }

    /// N, the number of words.
    pub fn words(&self) -> usize {
        self.bytes.len() / 2
    }

    /// The decoded word at an address below N, else nothing.
    pub fn at(&self, address: usize) -> Option<Word> {
        if address >= self.words() {
            return None;
        }
        let high = u16::from(self.bytes[2 * address]);
        let low = u16::from(self.bytes[2 * address + 1]);
        Some(decode(high * 256 + low))
    }
}

/// The machine state.
#[derive(Clone, Copy, PartialEq, Eq, Debug, Default)]
pub struct State {
    pub pc: u16,
    pub pending: bool,
    pub pending_address: u16,
    /// AUX, R1-R6, R11.
    pub registers: [u8; 8],
    pub ovf: u8,
    /// The left and right bus address.
    pub address: [u8; 2],
    /// The left and right latch.
    pub latch: [u8; 2],
    pub depth: u8,
    /// Return addresses, oldest first, zero above the depth.
    pub returns: [u16; 8],
    pub stop: u8,
}

/// A number of two bytes, low byte first.
fn pair(bytes: &[u8], at: usize) -> u16 {
    u16::from(bytes[at]) + 256 * u16::from(bytes[at + 1])
}

impl State {
    /// The state in these bytes, if there are 36 and they are well formed.
    pub fn from_bytes(bytes: &[u8]) -> Option<State> {
        if bytes.len() != STATE_BYTES || bytes[2] > 1 {
            return None;
        }
        let mut state = State {
            pc: pair(bytes, 0),
            pending: bytes[2] == 1,
            pending_address: pair(bytes, 3),
            ovf: bytes[13],
            address: [bytes[14], bytes[15]],
            latch: [bytes[16], bytes[17]],
            depth: bytes[18],
            stop: bytes[35],
            ..State::default()
        };
        state.registers.copy_from_slice(&bytes[5..13]);
        for place in 0..8 {
            state.returns[place] = pair(bytes, 19 + 2 * place);
        }
        Some(state).filter(State::well_formed)
    }

    /// The 36 bytes of the state.
    pub fn to_bytes(&self) -> [u8; STATE_BYTES] {
        let mut bytes = [0; STATE_BYTES];
        bytes[0..2].copy_from_slice(&self.pc.to_le_bytes());
        bytes[2] = u8::from(self.pending);
        bytes[3..5].copy_from_slice(&self.pending_address.to_le_bytes());
        bytes[5..13].copy_from_slice(&self.registers);
        bytes[13] = self.ovf;
        bytes[14..16].copy_from_slice(&self.address);
        bytes[16..18].copy_from_slice(&self.latch);
        bytes[18] = self.depth;
        for place in 0..8 {
            let at = 19 + 2 * place;
            bytes[at..at + 2].copy_from_slice(&self.returns[place].to_le_bytes());
        }
        bytes[35] = self.stop;
        bytes
    }

    fn well_formed(&self) -> bool {
        let fetch = if self.pending {
            self.pc < 8192 && self.pending_address < 8192
        } else {
            self.pending_address == 0
        };
        let depth = usize::from(self.depth);
        let stack = depth <= 8
            && self.returns[..depth].iter().all(|&a| a <= 8192)
            && self.returns[depth..].iter().all(|&a| a == 0);
        let stop = self.stop == 0 || (21..=27).contains(&self.stop);
        fetch && self.ovf <= 1 && stack && stop
    }

    /// The value of a register by its octal number, bus addresses included.
    pub fn register(&self, number: u16) -> u8 {
        match number {
            0o07 => self.address[0],
            0o17 => self.address[1],
            0o10 => self.ovf,
            0o11 => self.registers[7],
            _ => self.registers[usize::from(number)],
        }
    }

    fn set_register(&mut self, number: u16, value: u8) {
        match number {
            0o07 => self.address[0] = value,
            0o17 => self.address[1] = value,
            0o11 => self.registers[7] = value,
            _ => self.registers[usize::from(number)] = value,
        }
    }

    /// The address of the next fetch.
    pub fn fetch_address(&self) -> usize {
        usize::from(if self.pending { self.pending_address } else { self.pc })
    }
}

/// All 36 bytes zero, or 14 where there are not 36.
pub fn reset(bytes: &mut [u8]) -> Result<(), u8> {
    if bytes.len() != STATE_BYTES {
        return Err(14);
    }
    bytes.fill(0);
    Ok(())
}

/// A byte rotated right.
pub fn rotate(byte: u8, places: u16) -> u8 {
    byte.rotate_right(u32::from(places))
}

/// The low `width` bits, width 1 to 8.
pub fn low_bits(byte: u8, width: u16) -> u8 {
    (u16::from(byte) % (1 << width)) as u8
}

/// The field of a bank's byte that ends at a bit position.
pub fn field(byte: u8, position: u16, l: u16) -> u8 {
    low_bits(rotate(byte, 7 - position), width_of(l))
}

/// The latch with the low L bits of a value put at a bit position; what is
/// pushed past bit 0 is dropped.
pub fn merge(latch: u8, value: u8, position: u16, l: u16) -> u8 {
    let mask = ((1u16 << width_of(l)) - 1) << (7 - position);
    let moved = u16::from(value) << (7 - position);
    ((moved & mask) | (u16::from(latch) & !mask)) as u8
}

/// What ADD sums of a register on its way to a bank: its low L bits (2026-04).
fn summed(register: u8, l: u16) -> u8 {
    #[cfg(test)]
    if crate::old_sum::in_force() {
        return register;
    }
    low_bits(register, width_of(l))
}

/// The source value of a word; I for XMIT.
pub fn source_value(state: &State, word: Word, bus: [u8; 2]) -> u8 {
    match word {
        Word::Add { s, rl, d } if !is_bank(s) && is_bank(d) => summed(state.register(s), rl),
        Word::Move { s, rl, d }
        | Word::Add { s, rl, d }
        | Word::And { s, rl, d }
        | Word::Xor { s, rl, d } => {
            if is_bank(s) {
                field(bus[bank_of(s)], position_of(s), rl)
            } else if is_bank(d) {
                state.register(s)
            } else {
                rotate(state.register(s), rl)
            }
        }
        Word::XecRegister { s, .. } | Word::NztRegister { s, .. } => state.register(s),
        Word::XecBank { s, l, .. } | Word::NztBank { s, l, .. } => {
            field(bus[bank_of(s)], position_of(s), l)
        }
        Word::XmitRegister { i, .. } | Word::XmitBank { i, .. } => i as u8,
        _ => 0,
    }
}

/// The result of a word that has a destination.
pub fn result_value(state: &State, word: Word, bus: [u8; 2]) -> u8 {
    let source = source_value(state, word, bus);
    let aux = state.registers[0];
    match word {
        Word::Add { .. } => aux.wrapping_add(source),
        Word::And { .. } => aux & source,
        Word::Xor { .. } => aux ^ source,
        _ => source,
    }
}

/// OVF after a word: ADD alone sets it.
pub fn overflow_value(state: &State, word: Word, bus: [u8; 2]) -> u8 {
    match word {
        Word::Add { .. } => {
            let source = source_value(state, word, bus);
            u8::from(u16::from(state.registers[0]) + u16::from(source) > 255)
        }
        _ => state.ovf,
    }
}

/// PC with its low bits replaced; the width of the page is 256 or 32.
pub fn in_page(pc: u16, width: u16, offset: u16) -> u16 {
    pc / width * width + offset % width
}

/// The stop number that the seven step questions give, or 0, and the word.
fn questions(image: &Image, map: &Map, state: &State, bus: [u8; 2]) -> (u8, Word) {
    let Some(word) = image.at(state.fetch_address()) else {
        return (21, Word::Invalid);
    };
    if word == Word::Invalid {
        return (22, word);
    }
    let result = result_value(state, word, bus);
    let address = state.address;
    let stop = if word.bank_read().is_some_and(|b| !map.readable(b, address[b])) {
        23
    } else if word.bank_written().is_some_and(|b| !map.writable(b, address[b])) {
        24
    } else if word.bank_chosen().is_some_and(|b| !map.listed(b, result)) {
        25
    } else if matches!(word, Word::Call { .. }) && state.depth >= 8 {
        26
    } else if matches!(word, Word::Ret { .. }) && state.depth == 0 {
        27
    } else {
        0
    };
    (stop, word)
}

/// PC after a word that is no XEC; CALL and RET also move the stack.
fn next_pc(state: &mut State, word: Word, source: u8) -> u16 {
    let after = state.pc + 1;
    match word {
        Word::NztRegister { i, .. } if source != 0 => in_page(state.pc, 256, i),
        Word::NztBank { i, .. } if source != 0 => in_page(state.pc, 32, i),
        Word::Jmp { a } => a,
        Word::Call { i } => {
            state.returns[usize::from(state.depth)] = after;
            state.depth += 1;
            u16::from(state.registers[0]) * 256 + i
        }
        Word::Ret { .. } => {
            state.depth -= 1;
            std::mem::take(&mut state.returns[usize::from(state.depth)])
        }
        _ => after,
    }
}

/// The destination takes the result; the first three bytes of the record.
fn store(state: &mut State, word: Word, result: u8) -> [u8; 3] {
    let Some(d) = word.target() else {
        return [0, 0, 0];
    };
    if let Some(bank) = word.bank_written() {
        let (Word::Move { rl: l, .. }
        | Word::Add { rl: l, .. }
        | Word::And { rl: l, .. }
        | Word::Xor { rl: l, .. }
        | Word::XmitBank { l, .. }) = word
        else {
            unreachable!("only these write data");
        };
        let data = merge(state.latch[bank], result, position_of(d), l);
        state.latch[bank] = data;
        return [3 + bank as u8, state.address[bank], data];
    }
    state.set_register(d, result);
    match word.bank_chosen() {
        Some(bank) => [1 + bank as u8, result, 0],
        None => [0, 0, 0],
    }
}

/// Executes a word whose questions are all answered with yes.
fn execute(state: &mut State, word: Word, bus: [u8; 2]) -> [u8; 4] {
    let source = source_value(state, word, bus);
    let width = match word {
        Word::XecRegister { .. } => 256,
        Word::XecBank { .. } => 32,
        _ => 0,
    };
    if let Word::XecRegister { i, .. } | Word::XecBank { i, .. } = word {
        state.pending_address = in_page(state.pc, width, i + u16::from(source));
        state.pending = true;
        return [0; 4];
    }
    let result = result_value(state, word, bus);
    let overflow = overflow_value(state, word, bus);
    state.pc = next_pc(state, word, source);
    let [kind, address, data] = store(state, word, result);
    state.ovf = overflow;
    state.pending = false;
    state.pending_address = 0;
    [kind, address, data, 0]
}

/// Bytes of a trace record: kind, address, data, stop number; PC before the step
/// and the fetch address, low byte first.
pub const RECORD_BYTES: usize = 8;

/// One step with a left and a right byte: the trace record, or nothing where
/// the machine is stopped already.
pub fn step(
    image: &Image,
    map: &Map,
    state: &mut State,
    bus: [u8; 2],
) -> Option<[u8; RECORD_BYTES]> {
    if state.stop != 0 {
        return None;
    }
    let [pc_low, pc_high] = state.pc.to_le_bytes();
    let [fetch_low, fetch_high] = (state.fetch_address() as u16).to_le_bytes();
    let (stop, word) = questions(image, map, state, bus);
    let [kind, address, data, number] = if stop != 0 {
        state.stop = stop;
        [5, 0, 0, stop]
    } else {
        execute(state, word, bus)
    };
    Some([kind, address, data, number, pc_low, pc_high, fetch_low, fetch_high])
}
