//! The table once more, by another method: starting from nothing, each round
//! makes a new table from what all cells of the old one pass on, until a round
//! gives the table it came from. A finding is the lowest of all complaints.
//! Sweeps are counted by the tables that they leave, and a table that came along
//! is checked by joining in what its cells pass on, which must leave it as it is.
//! Works on the bits of raw words and shares no code with the sweeps, so that
//! agreement says something.

/// Known flags and values of the eleven facts.
type Facts = ([bool; 11], [u8; 11]);
type Cells = Vec<Option<Facts>>;

/// The fact of each register number, 99 where there is none.
const PLACE: [usize; 16] = [0, 1, 2, 3, 4, 5, 6, 9, 8, 7, 99, 99, 99, 99, 99, 10];
/// Numbers that may be S of opcodes 0 to 5, and D of opcodes 0 to 3 and 6.
const SOURCES: u32 = 0xffff_037f;
const TARGETS: u32 = 0xffff_82ff;

struct Program {
    words: Vec<u16>,
    old: Cells,
}

fn valid(word: u16) -> bool {
    let (number, middle) = (word >> 8 & 31, word >> 5 & 7);
    let source = SOURCES >> number & 1 == 1;
    let target = |n: u16| TARGETS >> n & 1 == 1;
    match word >> 13 {
        0..=3 => source && target(word & 31),
        4 => source && (number < 16 || (1..=5).contains(&middle)),
        5 => source || number == 7 || number == 15,
        6 => target(number),
        _ => true,
    }
}

fn is_call(word: u16) -> bool {
    word >> 8 == 0xa7
}

impl Program {
    /// Marks the addresses that an XEC at `pc` may give.
    fn may_execute(&self, word: u16, pc: usize, facts: &Facts) -> Vec<bool> {
        let mut marks = vec![false; self.words.len() + 256];
        let number = usize::from(word >> 8 & 31);
        if number < 16 {
            for value in 0..256usize {
                let (known, values) = facts;
                if !known[PLACE[number]] || usize::from(values[PLACE[number]]) == value {
                    marks[pc & !255 | (usize::from(word) + value) & 255] = true;
                }
            }
        } else {
            for value in 0..1usize << (word >> 5 & 7) {
                marks[pc & !31 | (usize::from(word) + value) & 31] = true;
            }
        }
        marks
    }

    fn is_xec(&self, address: usize) -> bool {
        self.words[address] >> 13 == 4 && valid(self.words[address])
    }

    /// Whether a CALL may be executed by the cell of this index.
    fn calls(&self, index: usize) -> bool {
        let address = index % self.words.len();
        let Some(facts) = &self.old[index] else {
            return false;
        };
        if !self.is_xec(address) {
            return is_call(self.words[address]);
        }
        let marks = self.may_execute(self.words[address], address, facts);
        (0..self.words.len()).any(|a| marks[a] && is_call(self.words[a]))
    }

    /// Depth and address that a word of opcode 5 or 7 may go to, also where
    /// the address is at or above N.
    fn jumps(&self, word: u16, depth: usize, pc: usize, facts: &Facts) -> Vec<(usize, usize)> {
        let count = self.words.len();
        let (number, low) = (usize::from(word >> 8 & 31), usize::from(word & 255));
        if word >> 13 == 7 {
            return vec![(depth, usize::from(word & 8191))];
        }
        if number == 7 {
            let high = usize::from(facts.1[0]);
            let pages = if facts.0[0] { high..high + 1 } else { 0..256 };
            let targets = pages.map(|page| page << 8 | low);
            let kept = targets.filter(|&a| depth < 8 && (facts.0[0] || a < count));
            return kept.map(|a| (depth + 1, a)).collect();
        }
        if number == 15 {
            let callers = (0..count).filter(|a| depth > 0 && self.calls((depth - 1) * count + a));
            return callers.map(|a| (depth - 1, a + 1)).collect();
        }
        let taken = if number < 16 { pc & !255 | low } else { pc & !31 | low & 31 };
        let known = number < 16 && facts.0[PLACE[number]];
        let zero = known && facts.1[PLACE[number]] == 0;
        let mut next = if zero { vec![] } else { vec![(depth, taken)] };
        if !known || zero {
            next.push((depth, pc + 1));
        }
        next
    }

    /// The facts after a word of opcode 0 to 3 or 6.
    fn data(&self, word: u16, facts: &Facts) -> Facts {
        let (mut known, mut values) = *facts;
        let (opcode, number) = (word >> 13, usize::from(word >> 8 & 31));
        let target = if opcode == 6 { number } else { usize::from(word & 31) };
        let mut sure = opcode == 6 || number < 16 && facts.0[PLACE[number]];
        sure &= opcode == 0 || opcode == 6 || facts.0[0];
        let mut source = 0u32;
        if opcode == 6 {
            source = u32::from(word & 255);
        } else if number < 16 {
            let places = if target < 16 { word >> 5 & 7 } else { 0 };
            let twice = u32::from(facts.1[PLACE[number]]) * 257;
            source = twice >> places & 255;
            let length = word >> 5 & 7;
            if opcode == 1 && target >= 16 && length > 0 {
                source %= 1 << length; // before the sum (2026-04); length 0 keeps all eight bits
            }
        }
        let aux = u32::from(facts.1[0]);
        let result = [source, aux + source, aux & source, aux ^ source, 0, 0, source];
        let mut put = |place: usize, value: u32| {
            known[place] = sure;
            values[place] = if sure { (value & 255) as u8 } else { 0 };
        };
        if target < 16 {
            put(PLACE[target], result[usize::from(opcode)]);
        }
        if opcode == 1 {
            put(8, (aux + source) >> 8);
        }
        (known, values)
    }

    /// Adds to the new table what one word executed at a cell passes on.
    fn pass(&self, new: &mut Cells, word: u16, depth: usize, pc: usize, facts: &Facts) {
        let count = self.words.len();
        match word >> 13 {
            _ if !valid(word) => {}
            4 => {}
            5 | 7 => {
                for (to, at) in self.jumps(word, depth, pc, facts) {
                    if at < count {
                        widen(&mut new[to * count + at], facts);
                    }
                }
            }
            _ if pc + 1 < count => {
                widen(&mut new[depth * count + pc + 1], &self.data(word, facts));
            }
            _ => {}
        }
    }

    /// All complaints about a word executed at a cell: question and number.
    fn complaints(
        &self,
        map: &[u8],
        word: u16,
        depth: usize,
        pc: usize,
        facts: &Facts,
    ) -> Vec<(u8, u8)> {
        if !valid(word) {
            return vec![(1, 22)];
        }
        let (opcode, number) = (word >> 13, usize::from(word >> 8 & 31));
        let target = if opcode < 4 { usize::from(word & 31) } else { number };
        let writes = opcode < 4 || opcode == 6;
        let fact = |k: usize| facts.0[k].then_some(usize::from(facts.1[k]));
        let bit = |set: usize, a: usize| map[32 * set + a / 8] >> (a % 8) & 1 == 1;
        let mut found = Vec::new();
        if opcode < 6 && number >= 16 {
            let bank = number / 8 - 2;
            found.extend(judge(2, fact(9 + bank), 23, |a| bit(2 * bank, a)));
        }
        if writes && target >= 16 {
            let bank = target / 8 - 2;
            found.extend(judge(3, fact(9 + bank), 24, |a| bit(2 * bank + 1, a)));
        }
        if writes && (target == 7 || target == 15) {
            let (bank, after) = (target / 8, self.data(word, facts));
            let chosen = after.0[PLACE[target]].then_some(usize::from(after.1[PLACE[target]]));
            found.extend(judge(4, chosen, 25, |a| bit(2 * bank, a) || bit(2 * bank + 1, a)));
        }
        found.extend(self.flow_complaints(word, depth, pc, facts));
        found
    }

    /// Complaints under questions 5 to 7.
    fn flow_complaints(&self, word: u16, depth: usize, pc: usize, facts: &Facts) -> Vec<(u8, u8)> {
        let mut found = Vec::new();
        let count = self.words.len();
        if is_call(word) && depth == 8 {
            found.push((5, 26));
        }
        if is_call(word) && depth < 8 && !facts.0[0] {
            found.push((5, 28));
        }
        if word >> 8 == 0xaf && depth == 0 {
            found.push((6, 27));
        }
        let outside = match word >> 13 {
            4 => false,
            5 | 7 => self.jumps(word, depth, pc, facts).iter().any(|&(_, a)| a >= count),
            _ => pc + 1 >= count,
        };
        if outside || is_call(word) && pc + 1 >= count {
            found.push((7, 21));
        }
        found
    }

    /// The finding of a reached cell: the complaint of the lowest question;
    /// under question 8 that of the lowest executed address.
    fn finding(&self, map: &[u8], depth: usize, pc: usize, facts: &Facts) -> u8 {
        let word = self.words[pc];
        let own = self.complaints(map, word, depth, pc, facts);
        let mut all: Vec<(u8, usize, u8, u8)> =
            own.into_iter().map(|(q, n)| (q, 0, 0, n)).collect();
        if self.is_xec(pc) {
            let marks = self.may_execute(word, pc, facts);
            for at in (0..marks.len()).filter(|&a| marks[a]) {
                if at >= self.words.len() {
                    all.push((8, at, 0, 21));
                } else if self.is_xec(at) {
                    all.push((8, at, 0, 29));
                } else {
                    let found = self.complaints(map, self.words[at], depth, pc, facts);
                    all.extend(found.into_iter().map(|(q, n)| (8, at, q, n)));
                }
            }
        }
        all.into_iter().min().map_or(0, |complaint| complaint.3)
    }

    /// Adds to the new table what the cell of this index passes on.
    fn pass_all(&self, new: &mut Cells, index: usize) {
        let count = self.words.len();
        let Some(facts) = &self.old[index] else {
            return;
        };
        let (depth, pc) = (index / count, index % count);
        if self.is_xec(pc) {
            let marks = self.may_execute(self.words[pc], pc, facts);
            for at in (0..count).filter(|&a| marks[a]) {
                self.pass(new, self.words[at], depth, pc, facts);
            }
        } else {
            self.pass(new, self.words[pc], depth, pc, facts);
        }
    }

    /// The next round's table.
    fn round(&self) -> Cells {
        let mut new = begun(self.words.len());
        for index in (0..new.len()).rev() {
            self.pass_all(&mut new, index);
        }
        new
    }

    /// One sweep: each cell that is reached when its turn comes, in order. What
    /// it passes on is told from the table as its turn begins.
    fn sweep(&mut self) {
        for index in 0..self.old.len() {
            if self.old[index].is_some() {
                let mut new = self.old.clone();
                self.pass_all(&mut new, index);
                self.old = new;
            }
        }
    }
}

/// The table in which the reset cell alone is reached.
fn begun(count: usize) -> Cells {
    let mut cells = vec![None; 9 * count];
    cells[0] = Some(([true; 11], [0; 11]));
    cells
}

/// How many sweeps, from the reset cell on, leave another table than they
/// found (2026-07): whole tables are held against each other.
pub fn sweep_count(words: &[u16]) -> usize {
    let mut program = Program { words: words.to_vec(), old: begun(words.len()) };
    let mut count = 0;
    loop {
        let before = program.old.clone();
        program.sweep();
        if program.old == before {
            return count;
        }
        count += 1;
    }
}

/// The complaint about an address that must be known and granted.
fn judge(
    question: u8,
    a: Option<usize>,
    number: u8,
    granted: impl Fn(usize) -> bool,
) -> Option<(u8, u8)> {
    match a {
        None => Some((question, 28)),
        Some(a) => (!granted(a)).then_some((question, number)),
    }
}

/// The cell after facts are joined in.
fn widen(cell: &mut Option<Facts>, passed: &Facts) {
    let Some((known, values)) = cell else {
        *cell = Some(*passed);
        return;
    };
    for k in 0..11 {
        known[k] &= passed.0[k] && values[k] == passed.1[k];
        values[k] = if known[k] { values[k] } else { 0 };
    }
}

/// The bytes of the least table with its findings.
pub fn table_bytes(words: &[u16], map: &[u8]) -> Vec<u8> {
    let mut program = Program { words: words.to_vec(), old: vec![None; 9 * words.len()] };
    loop {
        let new = program.round();
        if new == program.old {
            break;
        }
        program.old = new;
    }
    let mut bytes = Vec::new();
    for (index, cell) in program.old.iter().enumerate() {
        let mut record = written(cell);
        if let Some(facts) = cell {
            record[1] = program.finding(map, index / words.len(), index % words.len(), facts);
        }
        bytes.extend(record);
    }
    bytes
}

/// The record of a cell, without its finding.
fn written(cell: &Option<Facts>) -> [u8; 16] {
    let mut record = [0; 16];
    if let Some(facts) = cell {
        record[0] = 1;
        record[4..15].copy_from_slice(&facts.1);
        for k in 0..11 {
            record[2 + k / 8] |= u8::from(facts.0[k]) << (k % 8);
        }
    }
    record
}

/// The cell of a record, whatever else the record has.
fn taken(record: &[u8]) -> Option<Facts> {
    let (mut known, mut values) = ([false; 11], [0; 11]);
    for k in 0..11 {
        known[k] = record[2 + k / 8] >> (k % 8) & 1 == 1;
        values[k] = if known[k] { record[4 + k] } else { 0 };
    }
    (record[0] != 0).then_some((known, values))
}

/// Number, depth and address that the check of a table gives, all 0 where it is
/// accepted (2026-09), for bytes of the right lengths. A record has the layout
/// when its cell is written back as the same bytes, with OVF at most 1.
pub fn check(words: &[u16], map: &[u8], table: &[u8]) -> (u8, usize, usize) {
    let count = words.len();
    let named = |number, index| (number, index / count, index % count);
    let old: Cells = table.chunks(16).map(taken).collect();
    let unlike = |index: usize| written(&old[index]) != table[16 * index..][..16];
    if let Some(index) = (0..old.len()).find(|&index| unlike(index) || table[16 * index + 12] > 1) {
        return named(42, index);
    }
    let mut joined = old[0];
    widen(&mut joined, &([true; 11], [0; 11]));
    if old[0].is_none() || joined != old[0] {
        return named(43, 0);
    }
    let program = Program { words: words.to_vec(), old };
    for (index, cell) in program.old.iter().enumerate() {
        let Some(facts) = cell else { continue };
        let number = program.finding(map, index / count, index % count, facts);
        let mut new = program.old.clone();
        program.pass_all(&mut new, index);
        if number != 0 || new != program.old {
            return named(if number != 0 { number } else { 43 }, index);
        }
    }
    (0, 0, 0)
}
