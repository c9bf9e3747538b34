//! A trial of the sweeps that skip what cannot change, in plain Rust, with counts of its work. A turn is skipped where the
//! table covers already all that the cell would pass on, so that the table and the count of sweeps are those of the
//! definition.

use riptide_reference::table::{slot, Table, DEPTHS};
use riptide_reference::word::{decode, is_bank, width_of, Word, Word::*};

/// The facts of a cell: for fact k, byte k of `known` is 255 and byte k of `values` its value, or both are 0.
#[derive(Clone, Copy, PartialEq, Eq)]
struct Facts {
    known: u128,
    values: u128,
}

/// No facts passed on yet: covers nothing.
const UNREACHED: Facts = Facts { known: u128::MAX, values: 0 };
const RESET: Facts = Facts { known: (1 << 88) - 1, values: 0 };
const LOW_BITS: u128 = u128::MAX / 255;

impl Facts {
    fn get(self, k: usize) -> Option<u8> {
        (self.known >> (8 * k) & 1 == 1).then_some((self.values >> (8 * k)) as u8)
    }

    fn with(self, k: usize, fact: Option<u8>) -> Facts {
        let (mask, value) = (255 << (8 * k), u128::from(fact.unwrap_or(0)) << (8 * k));
        let known = if fact.is_some() { self.known | mask } else { self.known & !mask };
        Facts { known, values: self.values & !mask | value }
    }

    /// Whether it knows no more than is passed on.
    fn covers(self, passed: Facts) -> bool {
        self.known & !passed.known | (self.values ^ passed.values) & self.known == 0
    }

    fn joined(self, passed: Facts) -> Facts {
        if self == UNREACHED {
            return passed;
        }
        let apart = self.values ^ passed.values;
        let low = LOW_BITS * 127;
        let differs = (((apart & low) + low) | apart) >> 7 & LOW_BITS; // the low bit of each byte that differs
        let known = self.known & passed.known & !(differs * 255);
        Facts { known, values: self.values & known }
    }
}

/// The facts after a word.
fn after(word: Word, facts: Facts) -> Facts {
    let (s, rl, d) = match word {
        Move { s, rl, d } | Add { s, rl, d } | And { s, rl, d } | Xor { s, rl, d } => (s, rl, d),
        XmitRegister { d, i } => return facts.with(slot(d), Some(i as u8)),
        _ => return facts,
    };
    let whole = if is_bank(s) { None } else { facts.get(slot(s)) };
    let source = whole.map(|byte| if is_bank(d) { byte } else { byte.rotate_right(rl.into()) });
    let with_aux = facts.get(0).zip(source);
    let result = match word {
        Add { .. } => with_aux.map(|(aux, source)| aux.wrapping_add(source)),
        And { .. } => with_aux.map(|(aux, source)| aux & source),
        Xor { .. } => with_aux.map(|(aux, source)| aux ^ source),
        _ => source,
    };
    let after = if is_bank(d) { facts } else { facts.with(slot(d), result) };
    if !matches!(word, Add { .. }) {
        return after;
    }
    let summed = |source: u8| if is_bank(d) { u16::from(source) % (1 << width_of(rl)) } else { source.into() };
    after.with(8, with_aux.map(|(aux, source)| u8::from(u16::from(aux) + summed(source) > 255)))
}

/// A set of cells, 64 in a word.
struct Cells(Vec<u64>);

impl Cells {
    fn has(&self, at: usize) -> bool {
        self.0[at / 64] >> (at % 64) & 1 == 1
    }

    fn put(&mut self, at: usize, member: bool) {
        self.0[at / 64] = self.0[at / 64] & !(1 << (at % 64)) | u64::from(member) << (at % 64);
    }
}

/// How often a cell had its turn, how many cells were asked whether they hold what is passed on, and of how many words an
/// XEC asked what they are.
#[derive(Clone, Copy, Debug, Default, PartialEq, Eq)]
pub struct Work {
    pub sweeps: usize,
    pub turns: usize,
    pub joins: usize,
    pub asked: usize,
}

impl std::fmt::Display for Work {
    fn fmt(&self, f: &mut std::fmt::Formatter) -> std::fmt::Result {
        write!(f, "{} turns, {} joins, {} words asked", self.turns, self.joins, self.asked)
    }
}

impl Work {
    pub fn cost(self) -> usize {
        self.turns + self.joins + self.asked
    }
}

/// What is done beyond the hub of each depth: a call site that is born is `fresh` until the cell after it covers all that
/// returned, and what returned before passes on to the fresh ones alone; CALLs whose AUX is unknown have a hub for each depth
/// and low byte.
#[derive(Clone, Copy, Debug, Default)]
pub struct Rungs {
    pub fresh: bool,
    pub calls: bool,
}

/// The cells of each depth begin at a multiple of `span`, which is one of 64.
pub struct Trial {
    words: Vec<Word>,
    span: usize,
    facts: Vec<Facts>,
    /// Cells that must have a turn.
    due: Cells,
    /// Of these, the cells whose facts changed since their last turn.
    changed: Cells,
    /// Cells that executed a RET when they last passed on their words.
    returns: Cells,
    /// CALLs, and XECs that may execute one.
    sites: Cells,
    /// Call sites, the cell after which may not cover `wide`.
    fresh: Cells,
    /// Whether a call site of this depth came up since its hub was made.
    born: [bool; DEPTHS],
    /// What the cell after every call site of this depth covers, where none was born since.
    hub: [Facts; DEPTHS],
    /// What the cell after every call site of this depth covers that is not fresh.
    wide: [Facts; DEPTHS],
    /// What every cell covers that a CALL of this depth and low byte may go to.
    calls: Vec<Facts>,
    rungs: Rungs,
    moved: bool,
    pub work: Work,
}

impl Trial {
    /// Sweeps from the reset cell on, until one changes nothing.
    pub fn of(words: &[u16], rungs: Rungs) -> Trial {
        let span = words.len().next_multiple_of(64);
        let [due, changed, returns, sites, fresh] = [0; 5].map(|_| Cells(vec![0; DEPTHS * span / 64]));
        let mut trial = Trial {
            words: words.iter().map(|&word| decode(word)).collect(),
            span,
            facts: vec![UNREACHED; DEPTHS * span],
            due,
            changed,
            returns,
            sites,
            fresh,
            born: [false; DEPTHS],
            hub: [UNREACHED; DEPTHS],
            wide: [UNREACHED; DEPTHS],
            calls: vec![UNREACHED; DEPTHS * 256],
            rungs,
            moved: false,
            work: Work::default(),
        };
        trial.pass(0, 0, RESET);
        trial.work.joins = 0;
        while trial.sweep() {
            trial.work.sweeps += 1;
        }
        trial
    }

    /// The table as the reference holds it.
    pub fn table(&self) -> Table {
        let cell = |&facts: &Facts| (facts != UNREACHED).then(|| std::array::from_fn(|k| facts.get(k)));
        let words = self.words.len();
        let cells = self.facts.chunks(self.span).flat_map(|depth| depth[..words].iter().map(cell)).collect();
        Table { words, cells }
    }

    /// The due cells in table order; says whether the table changed.
    fn sweep(&mut self) -> bool {
        self.moved = false;
        for place in 0..self.due.0.len() {
            let mut ahead = u64::MAX;
            while self.due.0[place] & ahead != 0 {
                let bit = (self.due.0[place] & ahead).trailing_zeros();
                ahead = u64::MAX << bit << 1;
                self.turn(64 * place + bit as usize);
            }
        }
        self.moved
    }

    fn turn(&mut self, at: usize) {
        let (depth, address, facts) = (at / self.span, at % self.span, self.facts[at]);
        self.work.turns += 1;
        self.due.put(at, false);
        if self.changed.has(at) {
            self.changed.put(at, false);
            let mut returns = false;
            for executed in self.executed(address, facts) {
                let word = self.words.get(executed).copied().unwrap_or(Invalid);
                returns |= matches!(word, Ret { .. });
                self.execute(word, depth, address, facts);
            }
            self.returns.put(at, returns && depth > 0);
        }
        if self.returns.has(at) && (self.born[depth - 1] || !self.hub[depth - 1].covers(facts)) {
            self.go_back(depth - 1, facts);
            if !self.due.has(at) {
                let hub = if self.born[depth - 1] { UNREACHED } else { self.hub[depth - 1] };
                (self.hub[depth - 1], self.born[depth - 1]) = (hub.joined(facts), false);
            }
        }
    }

    /// The addresses of the words that a cell executes: its own, or those its XEC may give.
    fn executed(&mut self, address: usize, facts: Facts) -> impl Iterator<Item = usize> {
        let (width, i, values) = match self.words[address] {
            XecRegister { s, i } => match facts.get(slot(s)).map(usize::from) {
                Some(value) => (256, i.into(), value..value + 1),
                None => (256, i.into(), 0..256),
            },
            XecBank { l, i, .. } => (32, i.into(), 0..1 << l),
            _ => (1, 0, 0..1),
        };
        self.work.asked += if width > 1 { values.len() } else { 0 };
        values.map(move |value| address / width * width + (i + value) % width)
    }

    /// Passes on what a word executed at a cell does, but for RET.
    fn execute(&mut self, word: Word, depth: usize, pc: usize, facts: Facts) {
        let branch = |width: usize, i: u16| pc / width * width + usize::from(i) % width;
        match word {
            Invalid | XecRegister { .. } | XecBank { .. } | Ret { .. } => {}
            Jmp { a } => self.pass(depth, a.into(), facts),
            NztBank { i, .. } => {
                self.pass(depth, branch(32, i), facts);
                self.pass(depth, pc + 1, facts);
            }
            NztRegister { s, i } => {
                let source = facts.get(slot(s));
                if source != Some(0) {
                    self.pass(depth, branch(256, i), facts);
                }
                if source.is_none_or(|value| value == 0) {
                    self.pass(depth, pc + 1, facts);
                }
            }
            Call { .. } if depth == 8 => {}
            Call { i } => match facts.get(0) {
                Some(aux) => self.pass(depth + 1, usize::from(aux) * 256 + usize::from(i), facts),
                None => {
                    let hub = self.calls[depth * 256 + usize::from(i)];
                    self.work.joins += usize::from(self.rungs.calls);
                    if !self.rungs.calls || !hub.covers(facts) {
                        (0..self.words.len()).skip(i.into()).step_by(256).for_each(|a| self.pass(depth + 1, a, facts));
                        self.calls[depth * 256 + usize::from(i)] = hub.joined(facts);
                    }
                }
            },
            _ => self.pass(depth, pc + 1, after(word, facts)),
        }
    }

    /// Passes facts on to the address after every call site of a depth, or every fresh one, from the highest down: a site
    /// that is born meanwhile lies above.
    fn go_back(&mut self, depth: usize, facts: Facts) {
        let fresh_alone = self.rungs.fresh && self.wide[depth].covers(facts);
        self.wide[depth] = self.wide[depth].joined(facts);
        for place in (0..self.span / 64).rev() {
            let word = depth * self.span / 64 + place;
            let mut sites = if fresh_alone { self.fresh.0[word] } else { self.sites.0[word] };
            while sites != 0 {
                let bit = 63 - sites.leading_zeros() as usize;
                sites ^= 1 << bit;
                let after = 64 * place + bit + 1;
                self.pass(depth, after, facts);
                if after >= self.words.len() || self.facts[depth * self.span + after].covers(self.wide[depth]) {
                    self.fresh.put(64 * word + bit, false);
                }
            }
        }
    }

    /// Joins facts into a cell, if there is one.
    fn pass(&mut self, depth: usize, address: usize, facts: Facts) {
        if address >= self.words.len() {
            return;
        }
        let at = depth * self.span + address;
        self.work.joins += 1;
        if self.facts[at].covers(facts) {
            return;
        }
        self.facts[at] = self.facts[at].joined(facts);
        self.due.put(at, true);
        self.changed.put(at, true);
        self.moved = true;
        if !self.sites.has(at) && self.may_call(address, self.facts[at]) {
            self.sites.put(at, true);
            self.born[depth] = true;
            self.fresh.put(at, true);
            let below = (depth + 1) * self.span / 64..((depth + 2).min(DEPTHS) * self.span / 64);
            below.for_each(|place| self.due.0[place] |= self.returns.0[place]);
        }
    }

    fn may_call(&mut self, address: usize, facts: Facts) -> bool {
        self.executed(address, facts).any(|a| matches!(self.words.get(a), Some(Call { .. })))
    }
}
