//! The 16-bit instruction word: decode (reading) and encode (writing).

/// The number given for a word or for fields that are not valid.
pub const INVALID: u8 = 22;

/// A decoded word with its fields, one case for each kind.
///
/// `rl` is R where register goes to register or bus address, else L. `i` of
/// RET is the byte that the next gateware counts returns by (2026-01); no step
/// looks at it.
#[derive(Clone, Copy, PartialEq, Eq, Debug)]
pub enum Word {
    Move { s: u16, rl: u16, d: u16 },
    Add { s: u16, rl: u16, d: u16 },
    And { s: u16, rl: u16, d: u16 },
    Xor { s: u16, rl: u16, d: u16 },
    XecRegister { s: u16, i: u16 },
    XecBank { s: u16, l: u16, i: u16 },
    NztRegister { s: u16, i: u16 },
    NztBank { s: u16, l: u16, i: u16 },
    Call { i: u16 },
    Ret { i: u16 },
    XmitRegister { d: u16, i: u16 },
    XmitBank { d: u16, l: u16, i: u16 },
    Jmp { a: u16 },
    Invalid,
}

use Word::*;

/// 20-27 and 30-37 name a field of the left and the right bank.
pub fn is_bank(number: u16) -> bool {
    (0o20..=0o37).contains(&number)
}

/// Registers that may be a source: AUX, R1-R6, OVF, R11.
pub fn is_source_register(number: u16) -> bool {
    number <= 0o06 || number == 0o10 || number == 0o11
}

/// Registers and bus addresses that may be a destination.
pub fn is_target_register(number: u16) -> bool {
    number <= 0o07 || number == 0o11 || number == 0o17
}

fn is_source(number: u16) -> bool {
    is_source_register(number) || is_bank(number)
}

fn is_target(number: u16) -> bool {
    is_target_register(number) || is_bank(number)
}

/// The bank of a number in 20-37: 0 left, 1 right.
pub fn bank_of(number: u16) -> usize {
    usize::from(number >= 0o30)
}

/// The bit position in a number in 20-37.
pub fn position_of(number: u16) -> u16 {
    number % 8
}

/// The number of bits that a field L stands for.
pub fn width_of(l: u16) -> u16 {
    if l == 0 {
        8
    } else {
        l
    }
}

/// The opcode and fields of a word, or `Invalid`.
pub fn decode(word: u16) -> Word {
    let number = word / 256 % 32;
    match word / 8192 {
        opcode @ 0..=3 => decode_alu(opcode, number, word / 32 % 8, word % 32),
        4 => decode_xec(word, number),
        5 => decode_nzt(word, number),
        6 => decode_xmit(word, number),
        _ => Jmp { a: word % 8192 },
    }
}

fn decode_alu(opcode: u16, s: u16, rl: u16, d: u16) -> Word {
    if !is_source(s) || !is_target(d) {
        return Invalid;
    }
    match opcode {
        0 => Move { s, rl, d },
        1 => Add { s, rl, d },
        2 => And { s, rl, d },
        _ => Xor { s, rl, d },
    }
}

fn decode_xec(word: u16, s: u16) -> Word {
    let l = word / 32 % 8;
    if is_source_register(s) {
        XecRegister { s, i: word % 256 }
    } else if is_bank(s) && (1..=5).contains(&l) {
        XecBank { s, l, i: word % 32 }
    } else {
        Invalid
    }
}

fn decode_nzt(word: u16, s: u16) -> Word {
    let i = word % 256;
    match s {
        0o07 => Call { i },
        0o17 => Ret { i },
        _ if is_source_register(s) => NztRegister { s, i },
        _ if is_bank(s) => NztBank { s, l: word / 32 % 8, i: word % 32 },
        _ => Invalid,
    }
}

fn decode_xmit(word: u16, d: u16) -> Word {
    if is_target_register(d) {
        XmitRegister { d, i: word % 256 }
    } else if is_bank(d) {
        XmitBank { d, l: word / 32 % 8, i: word % 32 }
    } else {
        Invalid
    }
}

/// The word with these fields, or 22 where a field does not fit.
pub fn encode(word: Word) -> Result<u16, u8> {
    match word {
        Move { s, rl, d } => three(0, s, rl, d),
        Add { s, rl, d } => three(1, s, rl, d),
        And { s, rl, d } => three(2, s, rl, d),
        Xor { s, rl, d } => three(3, s, rl, d),
        XecRegister { s, i } => two(4, is_source_register(s), s, i),
        XecBank { s, l, i } => bank(4, (1..=5).contains(&l), s, l, i),
        NztRegister { s, i } => two(5, is_source_register(s), s, i),
        NztBank { s, l, i } => bank(5, true, s, l, i),
        Call { i } => two(5, true, 0o07, i),
        Ret { i } => two(5, true, 0o17, i),
        XmitRegister { d, i } => two(6, is_target_register(d), d, i),
        XmitBank { d, l, i } => bank(6, true, d, l, i),
        Jmp { a } => fit(a < 8192, 7, a),
        Invalid => Err(INVALID),
    }
}

/// Opcode and the 13 bits after it, if they are good.
fn fit(good: bool, opcode: u16, rest: u16) -> Result<u16, u8> {
    if good {
        Ok(opcode * 8192 + rest)
    } else {
        Err(INVALID)
    }
}

fn three(opcode: u16, s: u16, rl: u16, d: u16) -> Result<u16, u8> {
    if !is_source(s) || rl > 7 || !is_target(d) {
        return Err(INVALID);
    }
    fit(true, opcode, s * 256 + rl * 32 + d)
}

fn two(opcode: u16, good: bool, number: u16, i: u16) -> Result<u16, u8> {
    if !good || i > 255 {
        return Err(INVALID);
    }
    fit(true, opcode, number * 256 + i)
}

fn bank(opcode: u16, good: bool, number: u16, l: u16, i: u16) -> Result<u16, u8> {
    if !good || !is_bank(number) || l > 7 || i > 31 {
        return Err(INVALID);
    }
    fit(true, opcode, number * 256 + l * 32 + i)
}

impl Word {
    /// S, where the word has one.
    pub fn source(self) -> Option<u16> {
        match self {
            Move { s, .. } | Add { s, .. } | And { s, .. } | Xor { s, .. } => Some(s),
            XecRegister { s, .. } | XecBank { s, .. } => Some(s),
            NztRegister { s, .. } | NztBank { s, .. } => Some(s),
            _ => None,
        }
    }

    /// D, where the word has one.
    pub fn target(self) -> Option<u16> {
        match self {
            Move { d, .. } | Add { d, .. } | And { d, .. } | Xor { d, .. } => Some(d),
            XmitRegister { d, .. } | XmitBank { d, .. } => Some(d),
            _ => None,
        }
    }

    /// The bank that the word reads.
    pub fn bank_read(self) -> Option<usize> {
        self.source().filter(|&s| is_bank(s)).map(bank_of)
    }

    /// The bank to which the word writes data.
    pub fn bank_written(self) -> Option<usize> {
        self.target().filter(|&d| is_bank(d)).map(bank_of)
    }

    /// The bank whose address the word chooses.
    pub fn bank_chosen(self) -> Option<usize> {
        match self.target() {
            Some(0o07) => Some(0),
            Some(0o17) => Some(1),
            _ => None,
        }
    }

    /// A valid XEC of either form.
    pub fn is_xec(self) -> bool {
        matches!(self, XecRegister { .. } | XecBank { .. })
    }

    /// ADD, AND and XOR read AUX beside their source.
    pub fn reads_aux(self) -> bool {
        matches!(self, Add { .. } | And { .. } | Xor { .. })
    }
}
