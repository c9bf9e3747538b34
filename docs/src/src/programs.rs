//! Sample programs and maps: the image for timing, calls nested to a depth,
//! and random programs of which many are admitted.

use crate::digest::Random;
use crate::machine::State;
use crate::word::{decode, encode, Word};
use Word::*;

/// The bytes of words.
pub fn bytes_of(words: &[u16]) -> Vec<u8> {
    words.iter().flat_map(|word| word.to_be_bytes()).collect()
}

/// Encodes words that are known to be valid.
pub fn assemble(words: &[Word]) -> Vec<u16> {
    words.iter().map(|&word| encode(word).expect("valid fields")).collect()
}

/// A map with these addresses in its four sets.
pub fn map_of(sets: [&[u8]; 4]) -> [u8; 128] {
    let mut map = [0; 128];
    for (set, addresses) in sets.iter().enumerate() {
        for &a in addresses.iter() {
            map[32 * set + usize::from(a) / 8] |= 1 << (a % 8);
        }
    }
    map
}

/// A map that withholds what faulty words ask for: left 0 may be read and
/// written and left 1 written, right 0 read and right 1 both.
pub fn sparse_map() -> [u8; 128] {
    map_of([&[0], &[0, 1], &[0, 1], &[1]])
}

/// The program for timing. It is admitted with `timing_map`, rotates
/// registers and bank fields, and merges into both latches:
///
/// ```text
///  0 XMIT 5, IVL           13 XMIT 15h, LIV4, 5
///  1 XMIT 9, IVR           14 XEC 20 (LIV7, 1)
///  2 XMIT 35h, AUX         15 MOVE R1(5), R5
///  3 MOVE LIV6, 5, R1      16 XMIT 0, AUX
///  4 MOVE R1(3), R2        17 CALL 22
///  5 ADD R2(1), AUX        18 MOVE R2(6), AUX
///  6 XOR RIV4, 4, R3       19 JMP 3
///  7 MOVE R3, 3, LIV5      20 ADD R1(2), R6     executed by 14
///  8 ADD R2, 4, RIV3       21 XOR R2, 8, RIV7   executed by 14
///  9 AND LIV7, 6, RIV6     22 AND R6(4), R11    called by 17
/// 10 XOR RIV2, 3, LIV2     23 MOVE R11, 2, LIV1
/// 11 MOVE OVF(4), R4       24 RET
/// 12 NZT RIV7, 1, 14
/// ```
pub fn timing_words() -> Vec<u16> {
    assemble(&[
        XmitRegister { d: 0o07, i: 5 },
        XmitRegister { d: 0o17, i: 9 },
        XmitRegister { d: 0, i: 0x35 },
        Move { s: 0o26, rl: 5, d: 1 },
        Move { s: 1, rl: 3, d: 2 },
        Add { s: 2, rl: 1, d: 0 },
        Xor { s: 0o34, rl: 4, d: 3 },
        Move { s: 3, rl: 3, d: 0o25 },
        Add { s: 2, rl: 4, d: 0o33 },
        And { s: 0o27, rl: 6, d: 0o36 },
        Xor { s: 0o32, rl: 3, d: 0o22 },
        Move { s: 0o10, rl: 4, d: 4 },
        NztBank { s: 0o37, l: 1, i: 14 },
        XmitBank { d: 0o24, l: 5, i: 0x15 },
        XecBank { s: 0o27, l: 1, i: 20 },
        Move { s: 1, rl: 5, d: 5 },
        XmitRegister { d: 0, i: 0 },
        Call { i: 22 },
        Move { s: 2, rl: 6, d: 0 },
        Jmp { a: 3 },
        Add { s: 1, rl: 2, d: 6 },
        Xor { s: 2, rl: 0, d: 0o37 },
        And { s: 6, rl: 4, d: 0o11 },
        Move { s: 0o11, rl: 2, d: 0o21 },
        Ret { i: 0 },
    ])
}

/// Address 5 of the left and 9 of the right bank, readable and writable.
pub fn timing_map() -> [u8; 128] {
    map_of([&[5], &[5], &[9], &[9]])
}

/// A program whose calls nest to `depth`, where the body runs. Each level is
/// XMIT 0, AUX; CALL; then RET, or JMP 0 at depth 0. The body begins at
/// address 3 * depth and may use `body_at(depth)` for its own jumps.
pub fn nested(depth: usize, body: &[u16]) -> Vec<u16> {
    let mut words = Vec::new();
    for level in 0..depth {
        let next = (3 * (level + 1)) as u16;
        let back = if level == 0 { Jmp { a: 0 } } else { Ret { i: 0 } };
        words.extend(assemble(&[XmitRegister { d: 0, i: 0 }, Call { i: next }, back]));
    }
    words.extend(body);
    words
}

/// Where the body of `nested` begins.
pub fn body_at(depth: usize) -> u16 {
    (3 * depth) as u16
}

/// Any valid word, RET with zeros: `with_return_bytes` gives it others.
pub fn random_valid(random: &mut Random) -> u16 {
    loop {
        let word = random.below(65_536) as u16;
        if !matches!(decode(word), Invalid | Ret { i: 1.. }) {
            return word;
        }
    }
}

/// The same words, each RET with any low byte.
pub fn with_return_bytes(random: &mut Random, words: &[u16]) -> Vec<u16> {
    let one = |&word: &u16| match decode(word) {
        Ret { .. } => 0xaf00 + random.below(256) as u16,
        _ => word,
    };
    words.iter().map(one).collect()
}

/// The same words, each that reads this bank reading the other one instead.
pub fn reading_elsewhere(bank: u16, words: &[u16]) -> Vec<u16> {
    let reads = |word: u16| word < 0xc000 && word / 2048 % 4 == 2 + bank;
    words.iter().map(|&word| if reads(word) { word ^ 0x0800 } else { word }).collect()
}

/// Where a random program places its blocks; block 0 is the main one.
struct Layout {
    starts: Vec<usize>,
    total: usize,
}

impl Layout {
    fn new(random: &mut Random, blocks: usize, longest: usize) -> Layout {
        let mut starts = vec![0];
        for _ in 0..blocks {
            let last = starts[starts.len() - 1];
            starts.push(last + 5 + random.below(longest));
        }
        let total = starts.pop().expect("one block at least");
        Layout { starts, total }
    }

    fn end(&self, block: usize) -> usize {
        self.starts.get(block + 1).copied().unwrap_or(self.total)
    }
}

/// A register that may be a source or a destination.
fn register(random: &mut Random) -> u16 {
    random.pick(&[0, 1, 2, 3, 4, 5, 6, 0o11])
}

fn bank_field(random: &mut Random) -> u16 {
    (0o20 + random.below(16)) as u16
}

/// One of MOVE, ADD, AND, XOR between registers and banks.
fn random_alu(random: &mut Random) -> Word {
    let s = match random.below(3) {
        0 => bank_field(random),
        _ => random.pick(&[0, 1, 2, 3, 4, 5, 6, 0o10, 0o11]),
    };
    let d = if random.chance(45) { bank_field(random) } else { register(random) };
    let rl = random.below(8) as u16;
    match random.below(4) {
        0 => Move { s, rl, d },
        1 => Add { s, rl, d },
        2 => And { s, rl, d },
        _ => Xor { s, rl, d },
    }
}

/// A word that reads OVF, and what it may skip or execute.
fn read_overflow(random: &mut Random, at: u16, executes: bool) -> Vec<Word> {
    let (rl, next) = (random.below(8) as u16, random_alu(random));
    match random.below(if executes { 4 } else { 3 }) {
        0 => vec![Move { s: 0o10, rl, d: bank_field(random) }, next],
        1 => {
            let d = if random.chance(50) { bank_field(random) } else { register(random) };
            vec![Add { s: 0o10, rl, d }, next]
        }
        2 => vec![NztRegister { s: 0o10, i: at + 2 }, next],
        _ => {
            let xec = XecRegister { s: 0o10, i: at + 2 };
            vec![xec, Jmp { a: at + 4 }, next, random_alu(random)]
        }
    }
}

/// A loop of groups: AUX and a register take constants or bytes of a bank, their
/// sum goes to a bank, and OVF is read. All in one page; it is admitted with
/// every map bit, unless `loose` lets an XEC read an OVF that is not known.
pub fn sum_words(random: &mut Random, groups: usize, loose: bool) -> Vec<u16> {
    let mut words = vec![XmitRegister { d: 0o07, i: 5 }, XmitRegister { d: 0o17, i: 9 }];
    for _ in 0..groups {
        let (s, known) = (register(random), random.chance(50));
        for d in [s, 0] {
            words.push(match known {
                true => XmitRegister { d, i: random.below(256) as u16 },
                false => Move { s: bank_field(random), rl: 0, d },
            });
        }
        words.push(Add { s, rl: random.below(8) as u16, d: bank_field(random) });
        let reader = read_overflow(random, words.len() as u16, known || loose);
        words.extend(reader);
    }
    words.push(Jmp { a: 2 });
    assert!(words.len() <= 256);
    assemble(&words)
}

/// NZT, JMP or XEC to an address of the same block.
fn random_branch(random: &mut Random, from: usize, to: usize, at: usize) -> Word {
    let inside = from + random.below(to - from);
    let forward = at + 1 + random.below(to - at - 1);
    match random.below(8) {
        0 | 1 => NztRegister { s: register(random), i: (inside % 256) as u16 },
        2 | 3 => {
            let i = (if inside / 32 == at / 32 { inside } else { at + 1 }) % 32;
            NztBank { s: bank_field(random), l: random.below(8) as u16, i: i as u16 }
        }
        4 => Jmp { a: forward as u16 },
        5 => XecRegister { s: register(random), i: (forward % 256) as u16 },
        _ => {
            let l = 1 + random.below(2) as u16;
            XecBank { s: bank_field(random), l, i: (forward % 32) as u16 }
        }
    }
}

/// The word at a place inside a block that is no CALL.
fn random_plain(random: &mut Random, from: usize, to: usize, at: usize) -> Word {
    match random.below(20) {
        0..=8 => random_alu(random),
        9 | 10 => XmitRegister { d: register(random), i: random.below(256) as u16 },
        11 | 12 => {
            let (l, i) = (random.below(8) as u16, random.below(32) as u16);
            XmitBank { d: bank_field(random), l, i }
        }
        13 => XmitRegister { d: random.pick(&[0o07, 0o17]), i: random.below(8) as u16 },
        14 if random.chance(25) => {
            let (s, rl) = (register(random), random.below(8) as u16);
            Move { s, rl, d: random.pick(&[0o07, 0o17]) }
        }
        _ => random_branch(random, from, to, at),
    }
}

/// Fills one block: words, calls of later blocks (rarely of any), and its end.
fn fill_block(random: &mut Random, layout: &Layout, block: usize, words: &mut Vec<u16>) {
    let (from, to) = (layout.starts[block], layout.end(block));
    if block == 0 {
        words.extend(assemble(&[
            XmitRegister { d: 0o07, i: random.below(8) as u16 },
            XmitRegister { d: 0o17, i: random.below(8) as u16 },
        ]));
    }
    while words.len() < to - 1 {
        let at = words.len();
        let later = layout.starts.len() - block - 1;
        let mut callee = if later > 0 { block + 1 + random.below(later) } else { block };
        if random.chance(4) {
            callee = random.below(layout.starts.len());
        }
        let calls = callee != block && random.chance(25);
        if calls && at + 2 < to {
            let start = layout.starts[callee];
            let aux = XmitRegister { d: 0, i: (start / 256) as u16 };
            words.extend(assemble(&[aux, Call { i: (start % 256) as u16 }]));
        } else {
            words.extend(assemble(&[random_plain(random, from, to, at)]));
        }
    }
    let end = if block == 0 { Jmp { a: 2 } } else { Ret { i: 0 } };
    words.extend(assemble(&[end]));
}

/// A random program of some blocks that call each other.
pub fn random_program(random: &mut Random, blocks: usize, longest: usize) -> Vec<u16> {
    let layout = Layout::new(random, blocks, longest);
    let mut words = Vec::new();
    for block in 0..layout.starts.len() {
        fill_block(random, &layout, block, &mut words);
    }
    words
}

/// Overwrites one word or flips one bit.
pub fn damage(random: &mut Random, words: &mut [u16]) {
    let at = random.below(words.len());
    words[at] = if random.chance(50) {
        random.below(65_536) as u16
    } else {
        words[at] ^ 1 << random.below(16)
    };
}

/// All ones, or with one to three bits of the low addresses cleared.
pub fn random_map(random: &mut Random) -> [u8; 128] {
    let mut map = [0xff; 128];
    if random.chance(30) {
        for _ in 0..1 + random.below(3) {
            map[32 * random.below(4)] &= !(1 << random.below(8));
        }
    }
    map
}

/// Mostly valid words in which jumps stay inside, with some CALLs, some RETs
/// and `broken` words of a hundred that are any bits.
pub fn random_words(random: &mut Random, count: usize, broken: usize) -> Vec<u16> {
    let one = |_| match random.below(100) {
        roll if roll < broken => random.below(65_536) as u16,
        97 => 0xaf00,
        98 | 99 => 0xa700 + random.below(256) as u16,
        _ => match random_valid(random) {
            jump @ 0xe000.. => 0xe000 + (usize::from(jump % 8192) % count) as u16,
            word => word,
        },
    };
    (0..count).map(one).collect()
}

/// A program that executes words out of tables: XEC of CALL, JMP, NZT, RET
/// and data words, all in one page of 32. It is admitted with every map bit.
pub fn dispatch_words() -> Vec<u16> {
    assemble(&[
        XmitRegister { d: 0o07, i: 1 },
        XmitRegister { d: 0o17, i: 2 },
        XmitRegister { d: 0, i: 0 },
        XecBank { s: 0o27, l: 3, i: 8 },
        XecBank { s: 0o35, l: 2, i: 16 },
        Move { s: 0o37, rl: 0, d: 1 },
        Add { s: 1, rl: 3, d: 2 },
        Jmp { a: 2 },
        // 8 to 15: executed by 3
        Call { i: 24 },
        Jmp { a: 5 },
        NztRegister { s: 1, i: 6 },
        Add { s: 2, rl: 4, d: 0o23 },
        Move { s: 0o36, rl: 6, d: 0o26 },
        XmitRegister { d: 3, i: 9 },
        Xor { s: 2, rl: 5, d: 4 },
        Call { i: 28 },
        // 16 to 19: executed by 4
        Move { s: 0o24, rl: 5, d: 0o34 },
        Add { s: 0o27, rl: 0, d: 5 },
        Call { i: 28 },
        And { s: 1, rl: 3, d: 0o32 },
        // 20 and 21: executed by 25; 22 and 23 are not reached
        Ret { i: 0 },
        Move { s: 6, rl: 0, d: 0o37 },
        Jmp { a: 22 },
        Jmp { a: 22 },
        // 24: called
        Xor { s: 0o27, rl: 0, d: 6 },
        XecBank { s: 0o37, l: 1, i: 20 },
        Add { s: 6, rl: 1, d: 6 },
        Ret { i: 0 },
        // 28: called
        Move { s: 6, rl: 2, d: 0o11 },
        Add { s: 0o11, rl: 0, d: 0o27 },
        NztBank { s: 0o27, l: 2, i: 28 },
        Ret { i: 0 },
    ])
}

/// Calls nested to depth 8, where a loop reads and writes both banks. It is
/// admitted with every map bit.
pub fn nested_words() -> Vec<u16> {
    nested(
        8,
        &assemble(&[
            XmitRegister { d: 0o17, i: 3 },
            Move { s: 0o26, rl: 5, d: 0o33 },
            Add { s: 0o37, rl: 0, d: 1 },
            Xor { s: 1, rl: 5, d: 2 },
            Move { s: 2, rl: 6, d: 0o26 },
            NztBank { s: 0o30, l: 1, i: body_at(8) + 1 },
            Ret { i: 0 },
        ]),
    )
}

/// Findings at three depths under `sparse_map`, the lowest address at the
/// greatest of them; the one at depth 0, address 8 is named:
///
/// ```text
///  0 JMP 7              4 CALL 1             7 CALL 4
///  1 XMIT 9, IVL   25   5 MOVE LIV7, R1 23   8 XMIT 1, RIV7, 3  24
///  2 MOVE LIV7, R1 23   6 RET                9 XMIT 7, IVR      25
///  3 RET                                    10 JMP 10
/// ```
pub fn levels_words() -> Vec<u16> {
    assemble(&[
        Jmp { a: 7 },
        XmitRegister { d: 0o07, i: 9 },
        Move { s: 0o27, rl: 0, d: 1 },
        Ret { i: 0 },
        Call { i: 1 },
        Move { s: 0o27, rl: 0, d: 1 },
        Ret { i: 0 },
        Call { i: 4 },
        XmitBank { d: 0o37, l: 3, i: 1 },
        XmitRegister { d: 0o17, i: 7 },
        Jmp { a: 10 },
    ])
}

/// The lowest finding under `sparse_map` is that of the XEC at 3, for the word
/// at 8, which no cell has as its own; a lower address has one at depth 1:
///
/// ```text
///  0 JMP 3                 3 XEC 7 (LIV7, 1)   6 JMP 6
///  1 XMIT 1, RIV7, 3  24   4 CALL 1            7 MOVE R1, R2   executed by 3
///  2 RET                   5 MOVE LIV7, R1 28  8 XMIT 9, IVL   executed: 25
/// ```
pub fn levels_xec_words() -> Vec<u16> {
    assemble(&[
        Jmp { a: 3 },
        XmitBank { d: 0o37, l: 3, i: 1 },
        Ret { i: 0 },
        XecBank { s: 0o27, l: 1, i: 7 },
        Call { i: 1 },
        Move { s: 0o27, rl: 0, d: 1 },
        Jmp { a: 6 },
        Move { s: 1, rl: 0, d: 2 },
        XmitRegister { d: 0o07, i: 9 },
    ])
}

/// A well-formed state with random contents, not stopped.
pub fn random_state(random: &mut Random, words: usize) -> State {
    let mut state = State { pc: random.below(words + 1) as u16, ..State::default() };
    if random.chance(30) {
        (state.pc, state.pending) = (random.below(8192) as u16, true);
        state.pending_address = random.below(words.min(8192)) as u16;
    }
    state.depth = random.below(9) as u8;
    for place in 0..usize::from(state.depth) {
        state.returns[place] = random.below(words + 1) as u16;
    }
    state.registers = [0; 8].map(|_: u8| random.below(256) as u8);
    state.ovf = random.below(2) as u8;
    state.address = [random.below(8) as u8, random.below(256) as u8];
    state.latch = [random.below(256) as u8, random.below(256) as u8];
    state
}
