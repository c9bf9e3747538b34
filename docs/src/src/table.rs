//! The table of facts, filled by sweeps, its findings, and admission.

use crate::machine::{in_page, overflow_value, result_value, Image, State};
use crate::map::Map;
use crate::word::Word;

/// Depths 0 to 8.
pub const DEPTHS: usize = 9;
/// The length of one record of the table.
pub const RECORD_BYTES: usize = 16;
/// At most so many sweeps change a table, for each word (2026-07).
pub const WORD_SWEEPS: usize = 108;

/// AUX, R1-R6, R11, OVF, left address, right address: known or unknown.
pub type Facts = [Option<u8>; 11];

/// The place of a register among the facts.
pub fn slot(number: u16) -> usize {
    match number {
        0o11 => 7,
        0o10 => 8,
        0o07 => 9,
        0o17 => 10,
        _ => usize::from(number),
    }
}

/// One cell for each depth and address, depth first; unreached is `None`.
#[derive(Clone, PartialEq, Eq, Debug)]
pub struct Table {
    pub words: usize,
    pub cells: Vec<Option<Facts>>,
}

impl Table {
    /// Cell (0, 0) reached with the facts of reset, nothing else.
    pub fn start(words: usize) -> Table {
        let mut cells = vec![None; DEPTHS * words];
        cells[0] = Some([Some(0); 11]);
        Table { words, cells }
    }

    pub fn cell(&self, depth: usize, address: usize) -> &Option<Facts> {
        &self.cells[depth * self.words + address]
    }

    /// Joins facts into a cell; says whether the cell changed.
    pub fn join(&mut self, depth: usize, address: usize, passed: &Facts) -> bool {
        let cell = &mut self.cells[depth * self.words + address];
        let old = *cell;
        match cell {
            None => *cell = Some(*passed),
            Some(facts) => {
                for (fact, other) in facts.iter_mut().zip(passed) {
                    if *fact != *other {
                        *fact = None;
                    }
                }
            }
        }
        *cell != old
    }

    /// The bytes of the table, every finding 0.
    pub fn bytes(&self) -> Vec<u8> {
        let bytes = |cell: &Option<Facts>| cell.map_or([0; RECORD_BYTES], |f| record(&f, 0));
        self.cells.iter().flat_map(bytes).collect()
    }
}

/// A state that holds the known values, zero where unknown.
fn example_state(facts: &Facts) -> State {
    let value = |k: usize| facts[k].unwrap_or(0);
    let mut state = State { ovf: value(8), address: [value(9), value(10)], ..State::default() };
    for k in 0..8 {
        state.registers[k] = value(k);
    }
    state
}

/// What a word writes is known exactly when it reads no bank and each
/// register that it reads is known.
fn writes_known(word: Word, facts: &Facts) -> bool {
    let source =
        word.bank_read().is_none() && word.source().is_none_or(|s| facts[slot(s)].is_some());
    let aux = !word.reads_aux() || facts[0].is_some();
    source && aux
}

/// The result of a word with a destination, if known.
fn result_fact(word: Word, facts: &Facts) -> Option<u8> {
    writes_known(word, facts).then(|| result_value(&example_state(facts), word, [0, 0]))
}

/// The facts after a word.
fn facts_after(word: Word, facts: &Facts) -> Facts {
    let mut after = *facts;
    if let (Some(d), None) = (word.target(), word.bank_written()) {
        after[slot(d)] = result_fact(word, facts);
    }
    if matches!(word, Word::Add { .. }) {
        after[8] =
            writes_known(word, facts).then(|| overflow_value(&example_state(facts), word, [0, 0]));
    }
    after
}

/// The addresses that an XEC at PC may give, ascending; none for other words.
fn executed_addresses(word: Word, pc: usize, facts: &Facts) -> Vec<usize> {
    let pc = pc as u16;
    let (width, i, values) = match word {
        Word::XecRegister { s, i } => match facts[slot(s)] {
            Some(value) => (256, i, u16::from(value)..u16::from(value) + 1),
            None => (256, i, 0..256),
        },
        Word::XecBank { l, i, .. } => (32, i, 0..1 << l),
        _ => return Vec::new(),
    };
    let mut addresses: Vec<usize> =
        values.map(|value| usize::from(in_page(pc, width, i + value))).collect();
    addresses.sort_unstable();
    addresses
}

/// Image, map and table, as the questions need them.
pub(crate) struct Analysis<'a> {
    pub(crate) image: Image<'a>,
    pub(crate) map: Map<'a>,
    pub(crate) table: Table,
}

impl Analysis<'_> {
    /// Whether the cell is a CALL or an XEC that may execute one.
    fn may_call(&self, depth: usize, address: usize) -> bool {
        let (Some(facts), Some(word)) = (self.table.cell(depth, address), self.image.at(address))
        else {
            return false;
        };
        let is_call = |word| matches!(word, Some(Word::Call { .. }));
        is_call(Some(word))
            || executed_addresses(word, address, facts).iter().any(|&a| is_call(self.image.at(a)))
    }

    /// The addresses after every cell at a depth that may call.
    fn return_points(&self, depth: usize) -> Vec<usize> {
        let callers = (0..self.table.words).filter(|&a| self.may_call(depth, a));
        callers.map(|a| a + 1).collect()
    }

    /// Where a CALL goes: one address if AUX is known, else each below N.
    fn call_targets(&self, facts: &Facts, i: u16) -> Vec<usize> {
        let low = usize::from(i);
        match facts[0] {
            Some(aux) => vec![usize::from(aux) * 256 + low],
            None => {
                let all = (0..256).map(|aux| aux * 256 + low);
                all.filter(|&a| a < self.table.words).collect()
            }
        }
    }

    /// The next PCs of a word executed at PC, with the depth they are at;
    /// they may lie at or above N. An XEC has none of its own.
    fn successors(
        &self,
        word: Word,
        depth: usize,
        pc: usize,
        facts: &Facts,
    ) -> (usize, Vec<usize>) {
        let branch = |width, i| usize::from(in_page(pc as u16, width, i));
        match word {
            Word::Invalid | Word::XecRegister { .. } | Word::XecBank { .. } => (depth, vec![]),
            Word::Jmp { a } => (depth, vec![usize::from(a)]),
            Word::NztBank { i, .. } => (depth, vec![branch(32, i), pc + 1]),
            Word::NztRegister { s, i } => match facts[slot(s)] {
                None => (depth, vec![branch(256, i), pc + 1]),
                Some(0) => (depth, vec![pc + 1]),
                Some(_) => (depth, vec![branch(256, i)]),
            },
            Word::Call { .. } if depth == 8 => (depth, vec![]),
            Word::Call { i } => (depth + 1, self.call_targets(facts, i)),
            Word::Ret { .. } if depth == 0 => (depth, vec![]),
            Word::Ret { .. } => (depth - 1, self.return_points(depth - 1)),
            _ => (depth, vec![pc + 1]),
        }
    }

    /// The words that a cell executes: its own, or those its XEC may execute.
    fn executed_words(&self, address: usize, facts: &Facts) -> Vec<Word> {
        let own = self.image.at(address).unwrap_or(Word::Invalid);
        if !own.is_xec() {
            return vec![own];
        }
        let addresses = executed_addresses(own, address, facts);
        addresses.into_iter().filter_map(|a| self.image.at(a)).filter(|w| !w.is_xec()).collect()
    }

    /// All that a reached cell passes on: depth, address below N, facts.
    pub(crate) fn passes(
        &self,
        depth: usize,
        address: usize,
        facts: &Facts,
    ) -> Vec<(usize, usize, Facts)> {
        let mut passed = Vec::new();
        for word in self.executed_words(address, facts) {
            let after = facts_after(word, facts);
            let (next_depth, next) = self.successors(word, depth, address, facts);
            let inside = next.into_iter().filter(|&a| a < self.table.words);
            passed.extend(inside.map(|a| (next_depth, a, after)));
        }
        passed
    }

    /// One turn of each cell in table order; says whether the table changed.
    fn sweep(&mut self) -> bool {
        let mut changed = false;
        for depth in 0..DEPTHS {
            for address in 0..self.table.words {
                let Some(facts) = *self.table.cell(depth, address) else {
                    continue;
                };
                for (d, a, passed) in self.passes(depth, address, &facts) {
                    changed |= self.table.join(d, a, &passed);
                }
            }
        }
        changed
    }

    /// The first no to question 2, 3 or 4, or 0.
    fn access_finding(&self, word: Word, facts: &Facts) -> u8 {
        let judge = |address: Option<u8>, number: u8, granted: &dyn Fn(u8) -> bool| match address {
            None => 28,
            Some(a) if !granted(a) => number,
            Some(_) => 0,
        };
        let map = &self.map;
        let read = word.bank_read().map(|b| judge(facts[9 + b], 23, &|a| map.readable(b, a)));
        let write = word.bank_written().map(|b| judge(facts[9 + b], 24, &|a| map.writable(b, a)));
        let chosen = result_fact(word, facts);
        let choice = word.bank_chosen().map(|b| judge(chosen, 25, &|a| map.listed(b, a)));
        let answers = [read, write, choice];
        answers.into_iter().flatten().find(|&number| number != 0).unwrap_or(0)
    }

    /// The first no to questions 1 to 7 of a word executed at a cell, or 0.
    fn word_finding(&self, word: Word, depth: usize, pc: usize, facts: &Facts) -> u8 {
        if word == Word::Invalid {
            return 22;
        }
        let access = self.access_finding(word, facts);
        if access != 0 {
            return access;
        }
        let is_call = matches!(word, Word::Call { .. });
        if is_call && depth >= 8 {
            return 26;
        }
        if is_call && facts[0].is_none() {
            return 28;
        }
        if matches!(word, Word::Ret { .. }) && depth == 0 {
            return 27;
        }
        let (_, mut next) = self.successors(word, depth, pc, facts);
        if is_call {
            next.push(pc + 1);
        }
        let inside = next.iter().all(|&a| a < self.table.words);
        if inside {
            0
        } else {
            21
        }
    }

    /// The finding of a reached cell, or 0.
    pub(crate) fn finding(&self, depth: usize, address: usize, facts: &Facts) -> u8 {
        let own = self.image.at(address).unwrap_or(Word::Invalid);
        let number = self.word_finding(own, depth, address, facts);
        if number != 0 {
            return number;
        }
        for executed in executed_addresses(own, address, facts) {
            let number = match self.image.at(executed) {
                None => 21,
                Some(word) if word.is_xec() => 29,
                Some(word) => self.word_finding(word, depth, address, facts),
            };
            if number != 0 {
                return number;
            }
        }
        0
    }
}

/// The 16 bytes of a reached cell.
fn record(facts: &Facts, finding: u8) -> [u8; RECORD_BYTES] {
    let mut bytes = [0; RECORD_BYTES];
    let mut known = 0u16;
    for (k, fact) in facts.iter().enumerate() {
        if let Some(value) = fact {
            known += 1 << k;
            bytes[4 + k] = *value;
        }
    }
    bytes[0] = 1;
    bytes[1] = finding;
    bytes[2..4].copy_from_slice(&known.to_le_bytes());
    bytes
}

/// What admission says of a program.
#[derive(Clone, Copy, PartialEq, Eq, Debug)]
pub enum Verdict {
    /// The number of the first check that failed; nothing was changed.
    Refused(u8),
    Admitted,
    /// The finding of lowest depth, then lowest address.
    Finding {
        number: u8,
        depth: usize,
        address: usize,
    },
}

/// The verdict, and the count of sweeps that changed the table.
#[derive(Clone, Copy, PartialEq, Eq, Debug)]
pub struct Admission {
    pub verdict: Verdict,
    pub sweeps: usize,
}

/// The least table by sweeps and the count of sweeps that changed it.
pub fn least_table(image: &[u8], map: &[u8]) -> Result<(Table, usize), u8> {
    swept(image, map, Table::start(Image::new(image)?.words()))
}

/// A table after sweeps, until none changes it, and the count of those that did.
pub fn swept(image: &[u8], map: &[u8], table: Table) -> Result<(Table, usize), u8> {
    let (analysis, sweeps) = analyse(Image::new(image)?, Map::new(map)?, table);
    Ok((analysis.table, sweeps))
}

fn analyse<'a>(image: Image<'a>, map: Map<'a>, table: Table) -> (Analysis<'a>, usize) {
    let mut analysis = Analysis { image, map, table };
    let mut sweeps = 0;
    while analysis.sweep() {
        sweeps += 1;
    }
    (analysis, sweeps)
}

/// The length of an image's table.
fn table_bytes(image: Image) -> usize {
    DEPTHS * RECORD_BYTES * image.words()
}

/// The length of an image's table and the bound of its sweeps, without doing
/// the work (2026-07). Checks 11 alone.
pub fn foretell(image: &[u8]) -> Result<(usize, usize), u8> {
    let image = Image::new(image)?;
    Ok((table_bytes(image), WORD_SWEEPS * image.words()))
}

/// Checks 11, 12, 13 in this order.
pub(crate) fn door<'a>(
    image: &'a [u8],
    map: &'a [u8],
    table: &[u8],
) -> Result<(Image<'a>, Map<'a>), u8> {
    let image = Image::new(image)?;
    let map = Map::new(map)?;
    if table.len() == table_bytes(image) {
        Ok((image, map))
    } else {
        Err(13)
    }
}

/// Fills the table's bytes and says whether the program is admitted. A refusal
/// at the door changes nothing and counts 0 sweeps.
pub fn admit(image: &[u8], map: &[u8], table: &mut [u8]) -> Admission {
    match door(image, map, table) {
        Err(number) => Admission { verdict: Verdict::Refused(number), sweeps: 0 },
        Ok((image, map)) => {
            let (analysis, sweeps) = analyse(image, map, Table::start(image.words()));
            Admission { verdict: write_table(&analysis, table), sweeps }
        }
    }
}

/// Writes every record with its finding.
fn write_table(analysis: &Analysis, bytes: &mut [u8]) -> Verdict {
    let words = analysis.table.words;
    let mut findings = Vec::new();
    for (index, out) in bytes.chunks_mut(RECORD_BYTES).enumerate() {
        let (depth, address) = (index / words, index % words);
        let Some(facts) = analysis.table.cell(depth, address) else {
            out.fill(0);
            continue;
        };
        let number = analysis.finding(depth, address, facts);
        out.copy_from_slice(&record(facts, number));
        if number != 0 {
            findings.push((depth, address, number));
        }
    }
    named(&findings)
}

/// Admitted without a finding; else the one of lowest depth is named, and
/// among those of that depth the one of lowest address (2026-02).
fn named(findings: &[(usize, usize, u8)]) -> Verdict {
    let Some(lowest) = findings.iter().map(|&(depth, ..)| depth).min() else {
        return Verdict::Admitted;
    };
    let there = findings.iter().filter(|&&(depth, ..)| depth == lowest);
    let &(depth, address, number) = there.min_by_key(|&&(_, address, _)| address).expect("some");
    Verdict::Finding { number, depth, address }
}

/// Depth, address and number of each finding that stands in a table's bytes.
pub fn findings(table: &[u8]) -> Vec<(usize, usize, u8)> {
    let words = table.len() / (DEPTHS * RECORD_BYTES);
    let records = table.chunks(RECORD_BYTES).enumerate();
    let found = records.map(|(index, record)| (index / words, index % words, record[1]));
    found.filter(|&(_, _, number)| number != 0).collect()
}

/// Whether a state lies within the facts of its cell.
pub fn within(table: &Table, state: &State) -> bool {
    let (depth, pc) = (usize::from(state.depth), usize::from(state.pc));
    if depth >= DEPTHS || pc >= table.words {
        return false;
    }
    let numbers = [0, 1, 2, 3, 4, 5, 6, 0o11, 0o10, 0o07, 0o17];
    table.cell(depth, pc).as_ref().is_some_and(|facts| {
        let agrees = |number| match facts[slot(number)] {
            None => true,
            Some(value) => value == state.register(number),
        };
        numbers.into_iter().all(agrees)
    })
}
