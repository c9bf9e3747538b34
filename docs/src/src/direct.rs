//! A direct emulator of the run, for speed: one plain loop over the pairs,
//! fields taken from the word's bits at each step, no allocation.

use crate::machine::{Image, State, RECORD_BYTES};
use crate::map::Map;
use crate::run::RunAnswer;

/// Numbers that may be S and D, one bit for each.
const SOURCES: u32 = 0xffff_037f;
const TARGETS: u32 = 0xffff_82ff;
/// Places of AUX, OVF and the bus addresses among the sixteen registers.
const AUX: usize = 0;
const OVF: usize = 0o10;
const ADDRESS: [usize; 2] = [0o07, 0o17];

/// Registers stand at their octal number; `fetch` is PC unless pending.
struct Core {
    pc: usize,
    fetch: usize,
    pending: bool,
    registers: [u8; 16],
    latch: [u8; 2],
    depth: usize,
    returns: [u16; 8],
}

/// A step's record as a number, low byte first.
#[inline(always)]
fn record(kind: usize, address: u8, data: u8) -> u32 {
    kind as u32 | u32::from(address) << 8 | u32::from(data) << 16
}

#[inline(always)]
fn stopped(number: u32) -> u32 {
    5 | number << 24
}

/// Set 0 of a bank is its readable, set 1 its writable set.
#[inline(always)]
fn granted(map: &[u8; 128], bank: usize, set: usize, a: u8) -> bool {
    map[(bank * 64 + set * 32 + usize::from(a >> 3)) & 127] >> (a & 7) & 1 != 0
}

#[inline(always)]
fn ones(l: usize) -> u32 {
    (1 << ((l + 7) % 8 + 1)) - 1
}

/// The field of a bank's byte that ends at position `number` mod 8.
#[inline(always)]
fn field(bus: [u8; 2], number: usize, l: usize) -> u8 {
    let byte = bus[number >> 3 & 1];
    byte.rotate_right(7 - (number as u32 & 7)) & ones(l) as u8
}

impl Core {
    #[inline(always)]
    fn address(&self, bank: usize) -> u8 {
        self.registers[ADDRESS[bank & 1]]
    }

    #[inline(always)]
    fn go(&mut self, pc: usize) {
        self.pc = pc;
        self.fetch = pc;
        self.pending = false;
    }

    #[inline(always)]
    fn unreadable(&self, map: &[u8; 128], number: usize) -> bool {
        let bank = number >> 3 & 1;
        number >= 16 && !granted(map, bank, 0, self.address(bank))
    }

    /// Stores a result at D, with the questions of data writes and choices.
    #[inline(always)]
    fn put(&mut self, map: &[u8; 128], d: usize, l: usize, result: u8) -> u32 {
        if d >= 16 {
            let bank = d >> 3 & 1;
            let address = self.address(bank);
            if !granted(map, bank, 1, address) {
                return stopped(24);
            }
            let shift = 7 - (d & 7);
            let mask = (ones(l) << shift) as u8;
            let data = (u32::from(result) << shift) as u8 & mask | self.latch[bank] & !mask;
            self.latch[bank] = data;
            return record(3 + bank, address, data);
        }
        let mut written = 0;
        if d & 7 == 7 {
            let bank = d >> 3;
            if !granted(map, bank, 0, result) && !granted(map, bank, 1, result) {
                return stopped(25);
            }
            written = record(1 + bank, result, 0);
        }
        self.registers[d] = result;
        written
    }

    #[inline(always)]
    fn alu(&mut self, map: &[u8; 128], word: usize, bus: [u8; 2]) -> u32 {
        let (s, l, d) = (word >> 8 & 31, word >> 5 & 7, word & 31);
        if SOURCES >> s & TARGETS >> d & 1 == 0 {
            return stopped(22);
        }
        if self.unreadable(map, s) {
            return stopped(23);
        }
        let source = if s >= 16 {
            field(bus, s, l)
        } else if d < 16 {
            self.registers[s].rotate_right(l as u32)
        } else if word >> 13 == 1 {
            // ADD masks a register before the sum (2026-04).
            self.registers[s] & ones(l) as u8
        } else {
            self.registers[s]
        };
        let aux = self.registers[AUX];
        let (sum, carry) = aux.overflowing_add(source);
        let result = match word >> 13 {
            0 => source,
            1 => sum,
            2 => aux & source,
            _ => aux ^ source,
        };
        let written = self.put(map, d, l, result);
        if written & 255 != 5 {
            if word >> 13 == 1 {
                self.registers[OVF] = u8::from(carry);
            }
            self.go(self.pc + 1);
        }
        written
    }

    #[inline(always)]
    fn xec(&mut self, map: &[u8; 128], word: usize, bus: [u8; 2]) -> u32 {
        let (s, l) = (word >> 8 & 31, word >> 5 & 7);
        if SOURCES >> s & 1 == 0 || s >= 16 && !(1..=5).contains(&l) {
            return stopped(22);
        }
        if self.unreadable(map, s) {
            return stopped(23);
        }
        let (page, source) =
            if s >= 16 { (31, field(bus, s, l)) } else { (255, self.registers[s]) };
        self.fetch = self.pc & !page | (word + usize::from(source)) & page;
        self.pending = true;
        0
    }

    #[inline(always)]
    fn nzt(&mut self, map: &[u8; 128], word: usize, bus: [u8; 2]) -> u32 {
        let (s, l) = (word >> 8 & 31, word >> 5 & 7);
        if SOURCES >> s & 1 == 0 {
            return self.call_or_return(word);
        }
        if self.unreadable(map, s) {
            return stopped(23);
        }
        let (page, source) =
            if s >= 16 { (31, field(bus, s, l)) } else { (255, self.registers[s]) };
        let taken = self.pc & !page | word & page;
        self.go(if source != 0 { taken } else { self.pc + 1 });
        0
    }

    #[inline(always)]
    fn call_or_return(&mut self, word: usize) -> u32 {
        if word >> 8 & 31 == 0o07 {
            if self.depth >= 8 {
                return stopped(26);
            }
            self.returns[self.depth] = (self.pc + 1) as u16;
            self.depth += 1;
            self.go(usize::from(self.registers[AUX]) * 256 + (word & 255));
            return 0;
        }
        if word >> 8 & 31 != 0o17 {
            return stopped(22);
        }
        if self.depth == 0 {
            return stopped(27);
        }
        self.depth -= 1;
        let pc = usize::from(self.returns[self.depth & 7]);
        self.returns[self.depth & 7] = 0;
        self.go(pc);
        0
    }

    #[inline(always)]
    fn xmit(&mut self, map: &[u8; 128], word: usize) -> u32 {
        let (d, l) = (word >> 8 & 31, word >> 5 & 7);
        if TARGETS >> d & 1 == 0 {
            return stopped(22);
        }
        let constant = if d >= 16 { word & 31 } else { word & 255 };
        let written = self.put(map, d, l, constant as u8);
        if written & 255 != 5 {
            self.go(self.pc + 1);
        }
        written
    }

    #[inline(always)]
    fn step(&mut self, image: &[u8], map: &[u8; 128], bus: [u8; 2]) -> u32 {
        let at = 2 * self.fetch;
        if at + 1 >= image.len() {
            return stopped(21);
        }
        let word = usize::from(image[at]) << 8 | usize::from(image[at + 1]);
        match word >> 13 {
            0..=3 => self.alu(map, word, bus),
            4 => self.xec(map, word, bus),
            5 => self.nzt(map, word, bus),
            6 => self.xmit(map, word),
            _ => {
                self.go(word & 8191);
                0
            }
        }
    }

    fn load(state: &State) -> Core {
        let mut registers = [0; 16];
        for number in (0..=0o11).chain([0o17]) {
            registers[usize::from(number)] = state.register(number);
        }
        Core {
            pc: usize::from(state.pc),
            fetch: state.fetch_address(),
            pending: state.pending,
            registers,
            latch: state.latch,
            depth: usize::from(state.depth),
            returns: state.returns,
        }
    }

    fn save(&self, stop: u8) -> State {
        let r = &self.registers;
        State {
            pc: self.pc as u16,
            pending: self.pending,
            pending_address: if self.pending { self.fetch as u16 } else { 0 },
            registers: [r[0], r[1], r[2], r[3], r[4], r[5], r[6], r[0o11]],
            ovf: r[OVF],
            address: [r[0o07], r[0o17]],
            latch: self.latch,
            depth: self.depth as u8,
            returns: self.returns,
            stop,
        }
    }
}

/// The loop over the pairs: the last core, the count of records and the stop
/// number. The core is taken by value so that it can stay in registers.
fn run_pairs(
    mut core: Core,
    image: &[u8],
    map: &[u8; 128],
    recording: &[u8],
    trace: &mut [u8],
) -> (Core, usize, u8) {
    let mut count = 0;
    for (pair, out) in recording.chunks_exact(2).zip(trace.chunks_exact_mut(RECORD_BYTES)) {
        let addresses = (core.pc | core.fetch << 16) as u32;
        out[4..].copy_from_slice(&addresses.to_le_bytes());
        let written = core.step(image, map, [pair[0], pair[1]]);
        out[..4].copy_from_slice(&written.to_le_bytes());
        count += 1;
        if written & 255 == 5 {
            return (core, count, (written >> 24) as u8);
        }
    }
    (core, count, 0)
}

/// As `run::run`, with the same checks, answers and lent bytes.
pub fn run(
    image: &[u8],
    map: &[u8],
    state: &mut [u8],
    recording: &[u8],
    trace: &mut [u8],
) -> RunAnswer {
    if let Err(number) = Image::new(image).map(|_| ()).and(Map::new(map).map(|_| ())) {
        return RunAnswer::Refused(number);
    }
    let Some(start) = State::from_bytes(state) else {
        return RunAnswer::Refused(14);
    };
    if recording.len() % 2 != 0 {
        return RunAnswer::Refused(15);
    }
    if trace.len() != 4 * recording.len() {
        return RunAnswer::Refused(16);
    }
    if start.stop != 0 {
        return RunAnswer::Ran { count: 0, stop: start.stop };
    }
    let map: &[u8; 128] = map.try_into().expect("a map has 128 bytes");
    let (core, count, stop) = run_pairs(Core::load(&start), image, map, recording, trace);
    state.copy_from_slice(&core.save(stop).to_bytes());
    RunAnswer::Ran { count, stop }
}
