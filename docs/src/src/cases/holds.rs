//! Cases of 2026-09: tables that come along with images of few words, whole,
//! damaged in one place, or not held by what their cells pass on.

use super::library::entry;
use super::{Bytes, Entry, ALL_ONES};
use crate::check::{check, Checked};
use crate::programs::{assemble, bytes_of};
use crate::table::{Facts, Table, DEPTHS, RECORD_BYTES};
use crate::word::{Word, Word::*};

/// Every fact 0, as after reset, and none known.
const ZEROS: Facts = [Some(0); 11];
const NOTHING: Facts = [None; 11];
/// The highest value of every fact.
const HIGHEST: Facts = put([Some(255); 11], 8, Some(1));

/// The facts with one of them replaced.
const fn put(mut facts: Facts, place: usize, fact: Option<u8>) -> Facts {
    facts[place] = fact;
    facts
}

/// What is lent for one check.
struct Case {
    name: &'static str,
    image: Bytes,
    map: Bytes,
    table: Bytes,
}

/// A reached cell: depth, address, facts.
type Cell = (usize, usize, Facts);

impl Case {
    fn new(name: &'static str, words: &[Word], cells: &[Cell]) -> Case {
        let mut table = Table { words: words.len(), cells: vec![None; DEPTHS * words.len()] };
        for &(depth, address, facts) in cells {
            table.cells[depth * words.len() + address] = Some(facts);
        }
        let image = Bytes::Hex(bytes_of(&assemble(words)));
        Case { name, image, map: ALL_ONES, table: Bytes::Hex(table.bytes()) }
    }

    /// The case with one byte of a cell's record replaced.
    fn with(mut self, depth: usize, address: usize, byte: usize, value: u8) -> Case {
        let (words, mut table) = (self.image.expand().len() / 2, self.table.expand());
        table[RECORD_BYTES * (depth * words + address) + byte] = value;
        self.table = Bytes::Hex(table);
        self
    }

    /// The number, the depth at bit 8, the address at bit 16; the table is as lent.
    fn entry(&self) -> Entry {
        let table = self.table.expand();
        let number = match check(&self.image.expand(), &self.map.expand(), &table) {
            Checked::Refused(number) => number.into(),
            Checked::Accepted => 0,
            Checked::Failed { number, depth, address } => {
                u64::from(number) | (depth as u64) << 8 | (address as u64) << 16
            }
        };
        let given = [("image", &self.image), ("map", &self.map), ("table", &self.table)];
        let given = given.map(|(key, bytes)| (key, bytes.text())).to_vec();
        entry("hold", self.name, given, number).with_digest("table_digest", &table)
    }
}

/// Lengths that the door refuses, in its order.
fn doors() -> Vec<Case> {
    let lent = [
        ("door-11-empty", 0, 127, 0),
        ("door-11-odd", 3, 127, 216),
        ("door-12", 2, 127, 143),
        ("door-13-short", 2, 128, 143),
        ("door-13-long", 2, 128, 288),
    ];
    lent.map(|(name, image, map, table)| Case {
        name,
        image: Bytes::Lcg { seed: 1, count: image },
        map: Bytes::Lcg { seed: 2, count: map },
        table: Bytes::Lcg { seed: 3, count: table },
    })
    .into()
}

/// Tables that are accepted: the least one and wider ones.
fn accepted() -> Vec<Case> {
    let jump = [Jmp { a: 0 }];
    let call = [Call { i: 2 }, Jmp { a: 1 }, Ret { i: 0 }];
    vec![
        Case::new("least", &jump, &[(0, 0, ZEROS)]),
        Case::new("wider", &jump, &[(0, 0, NOTHING)]),
        Case::new("island", &jump, &[(0, 0, ZEROS), (5, 0, HIGHEST)]),
        // A RET that no cell has called passes nothing on.
        Case::new("island-return", &[jump[0], Ret { i: 0 }], &[(0, 0, ZEROS), (1, 1, ZEROS)]),
        Case::new("call", &call, &[(0, 0, ZEROS), (1, 2, ZEROS), (0, 1, NOTHING)]),
    ]
}

/// 42: each clause of the layout.
fn layouts() -> Vec<Case> {
    let jump = || Case::new("", &[Jmp { a: 0 }], &[(0, 0, ZEROS)]);
    let named = |name, case: Case| Case { name, ..case };
    let island = |facts, depth| Case::new("", &[Jmp { a: 0 }], &[(0, 0, ZEROS), (depth, 0, facts)]);
    let two = [Jmp { a: 1 }, Ret { i: 0 }];
    let filled = Case::new("layout-finding", &two, &[(0, 0, ZEROS), (0, 1, ZEROS)]);
    let fewer = [(0, 0, ZEROS), (0, 1, ZEROS), (3, 1, put(ZEROS, 7, None))];
    let last = Case::new("layout-before-finding", &[two[1], two[0]], &[(0, 0, ZEROS)]);
    vec![
        named("layout-flag", jump().with(3, 0, 0, 2)),
        // As admission fills it, the finding in its place.
        filled.with(0, 1, 1, 27),
        named("layout-finding-unreached", jump().with(4, 0, 1, 21)),
        named("layout-mask", island(ZEROS, 2).with(2, 0, 3, 0x0f)),
        Case::new("layout-unknown-value", &[two[0]; 2], &fewer).with(3, 1, 11, 1),
        named("layout-ovf", island(HIGHEST, 6).with(6, 0, 12, 2)),
        named("layout-last-byte", island(NOTHING, 8).with(8, 0, 15, 1)),
        named("layout-unreached", jump().with(7, 0, 2, 1)),
        // The first cell has finding 27; the last record comes before it.
        last.with(8, 1, 15, 255),
        Case { table: Bytes::Fill { word: 0xffff, count: 72 }, ..named("layout-ones", jump()) },
    ]
}

/// 43 and findings, and which of them is named.
fn turns() -> Vec<Case> {
    let jump = |a| Jmp { a };
    let ret = Ret { i: 0 };
    let read = Move { s: 0o27, rl: 0, d: 1 };
    let branch = NztBank { s: 0o27, l: 1, i: 0 };
    let (no_r1, only_r1) = (put(ZEROS, 1, None), put(NOTHING, 1, Some(0)));
    let (aux, right) = (put(ZEROS, 0, Some(1)), put(NOTHING, 10, Some(1)));
    let chosen = put(ZEROS, 9, Some(9));
    let start = |name, table| Case { table, ..Case::new(name, &[jump(0)], &[]) };
    let choose = [jump(1), XmitRegister { d: 0o07, i: 9 }, jump(0)];
    let executed = [XecBank { s: 0o27, l: 1, i: 1 }, jump(0), Call { i: 3 }, ret];
    vec![
        start("start-unreached", Bytes::Fill { word: 0, count: 72 }),
        Case::new("start-aux", &[jump(0)], &[(0, 0, aux)]),
        Case::new("start-right-address", &[jump(0)], &[(0, 0, right)]),
        Case::new("next-unreached", &[jump(0); 2], &[(0, 0, ZEROS), (4, 1, ZEROS)]),
        Case::new("next-knows-more", &[jump(1), jump(0)], &[(0, 0, only_r1), (0, 1, NOTHING)]),
        // At 1: 28 as the address is not known, and word 0 knows more than is passed on.
        Case::new("finding-and-43", &[jump(1), branch], &[(0, 0, ZEROS), (0, 1, NOTHING)]),
        // At 1: word 2 has another value of R1; at 2: 27.
        Case::new(
            "43-before-finding",
            &[jump(1), XmitRegister { d: 1, i: 5 }, ret],
            &[(0, 0, ZEROS), (0, 1, ZEROS), (0, 2, ZEROS)],
        ),
        // At 1: 25; at 2: word 0 has another value of the left address.
        Case {
            map: Bytes::Fill { word: 0, count: 64 },
            ..Case::new(
                "finding-before-43",
                &choose,
                &[(0, 0, ZEROS), (0, 1, ZEROS), (0, 2, chosen)],
            )
        },
        // Depth 0, address 1: word 0 knows R1; depth 1, address 0: 28.
        Case::new(
            "depth-before-address",
            &[read, jump(0)],
            &[(0, 0, ZEROS), (0, 1, no_r1), (1, 0, NOTHING)],
        ),
        Case::new(
            "return-unreached",
            &[Call { i: 2 }, jump(1), ret],
            &[(0, 0, ZEROS), (1, 2, ZEROS)],
        ),
        // The XEC may execute the CALL at 2, so the RET goes to 1.
        Case::new("return-to-xec", &executed, &[(0, 0, ZEROS), (1, 3, ZEROS)]),
        Case::new("island-finding", &[jump(0), ret], &[(0, 0, ZEROS), (0, 1, NOTHING)]),
    ]
}

/// The checks.
pub fn entries() -> Vec<Entry> {
    let cases = [doors(), accepted(), layouts(), turns()];
    cases.iter().flatten().map(Case::entry).collect()
}
