//! Admissions with answer, sweep count and digest of the table's bytes, and
//! lines of the bench program.

use super::{sums, sweeps, Bytes, Entry, ALL_ONES, FILLER};
use crate::bench;
use crate::digest::{Digest, Random};
use crate::programs::*;
use crate::table::{admit, Verdict};
use crate::word::{Word, Word::*};

/// The inputs of one admission.
#[derive(Clone)]
pub struct Case {
    pub name: String,
    pub image: Bytes,
    pub map: Bytes,
    pub table_bytes: usize,
}

/// The verdict as a line gives it.
pub fn verdict_text(verdict: Verdict) -> String {
    match verdict {
        Verdict::Refused(number) => format!("refused:{number}"),
        Verdict::Admitted => "admitted".to_string(),
        Verdict::Finding { number, depth, address } => {
            format!("finding:{number}:{depth}:{address}")
        }
    }
}

impl Case {
    pub(super) fn new(name: &str, words: &[u16], map: Bytes) -> Case {
        Case::of(name, Bytes::Hex(bytes_of(words)), map)
    }

    pub(super) fn of(name: &str, image: Bytes, map: Bytes) -> Case {
        let table_bytes = 72 * image.expand().len();
        Case { name: name.to_string(), image, map, table_bytes }
    }

    fn verdict(&self) -> Verdict {
        let mut table = vec![FILLER; self.table_bytes];
        admit(&self.image.expand(), &self.map.expand(), &mut table).verdict
    }

    pub fn entry(&self) -> Entry {
        let mut table = vec![FILLER; self.table_bytes];
        let answer = admit(&self.image.expand(), &self.map.expand(), &mut table);
        Entry {
            name: format!("admission {}", self.name),
            given: vec![
                ("image", self.image.text()),
                ("map", self.map.text()),
                ("table", self.table_bytes.to_string()),
            ],
            gives: vec![
                ("answer", verdict_text(answer.verdict)),
                ("sweeps", answer.sweeps.to_string()),
                ("table_digest", Digest::text(&table)),
            ],
            below: vec![],
        }
    }

    /// The same map and image given to the bench program.
    fn bench_entry(&self) -> Entry {
        let line = bench::line(&[self.map.expand(), self.image.expand()].concat());
        Entry {
            name: format!("bench {}", self.name),
            given: vec![("map", self.map.text()), ("image", self.image.text())],
            gives: vec![("line", line.trim_end().to_string())],
            below: vec![],
        }
    }
}

fn sparse() -> Bytes {
    Bytes::Hex(sparse_map().to_vec())
}

/// Bodies of one or two words that give each finding, and its number.
fn faulty_bodies(at: u16) -> Vec<(u8, Vec<u16>)> {
    let one = |word: Word| assemble(&[word]);
    let select = XmitRegister { d: 0o07, i: 1 };
    vec![
        (21, one(Jmp { a: 300 })),
        (22, vec![0x0008]),
        (23, assemble(&[select, Move { s: 0o27, rl: 0, d: 1 }])),
        (24, one(XmitBank { d: 0o37, l: 3, i: 1 })),
        (25, one(XmitRegister { d: 0o07, i: 9 })),
        (28, one(Move { s: 0o27, rl: 0, d: 0o07 })),
        (29, one(XecRegister { s: 1, i: at })),
    ]
}

/// Each finding as the word of a cell, at depths 0, 1, 4 and 8.
fn faults() -> Vec<Case> {
    let mut cases = Vec::new();
    for depth in [0, 1, 4, 8] {
        let end = assemble(&[if depth == 0 { Jmp { a: 0 } } else { Ret { i: 0 } }]);
        for (number, body) in faulty_bodies(body_at(depth)) {
            let words = nested(depth, &[body, end.clone()].concat());
            cases.push(Case::new(&format!("fault{number}-depth{depth}"), &words, sparse()));
        }
    }
    let ninth = nested(8, &assemble(&[Call { i: 0 }, Ret { i: 0 }]));
    cases.push(Case::new("fault26-depth8", &ninth, ALL_ONES));
    for (name, i) in [("fault27-depth0", 0), ("fault27-return-byte", 1)] {
        cases.push(Case::new(name, &assemble(&[Jmp { a: 1 }, Ret { i }]), ALL_ONES));
    }
    cases
}

/// Each finding in a word that a bank XEC may execute, at depths 0 and 8.
fn executed_faults() -> Vec<Case> {
    let mut cases = Vec::new();
    for depth in [0, 8] {
        let at = body_at(depth);
        let end = if depth == 0 { Jmp { a: 0 } } else { Ret { i: 0 } };
        let call = if depth == 8 { 26 } else { 27 };
        let extra = assemble(&[if depth == 8 { Call { i: 0 } } else { Ret { i: 0 } }]);
        let mut bodies = faulty_bodies(at);
        bodies.push((call, extra));
        for (number, mut body) in bodies {
            let fault = body.pop().expect("one word at least");
            let table = at + body.len() as u16 + 2;
            let xec = XecBank { s: 0o37, l: 1, i: table % 32 };
            body.extend(assemble(&[xec, end, Move { s: 1, rl: 0, d: 2 }]));
            body.push(fault);
            let name = format!("executed{number}-depth{depth}");
            cases.push(Case::new(&name, &nested(depth, &body), sparse()));
        }
    }
    cases
}

/// Programs of the papers and those that the runs use.
fn named() -> Vec<Case> {
    let example = [0xc705, 0xb723, 0xe001, 0xd721, 0xe001];
    let both = Bytes::Hex(map_of([&[5], &[5], &[], &[]]).to_vec());
    let read = Bytes::Hex(map_of([&[5], &[], &[], &[]]).to_vec());
    let timing = Bytes::Hex(timing_map().to_vec());
    let back = [0xe004, 0xe001, 0xe001, 0xe002, 0xe003];
    let joined = assemble(&[Jmp { a: 2 }, XmitRegister { d: 1, i: 5 }, Jmp { a: 1 }]);
    vec![
        Case::new("jump-to-itself", &[0xe000], ALL_ONES),
        Case::new("counts", &[0xe000], Bytes::Lcg { seed: 77, count: 128 }),
        Case::new("off-the-end", &[0x0000], ALL_ONES),
        Case::new("example", &example, both),
        Case::new("example-not-writable", &example, read),
        Case::new("backwards", &back, ALL_ONES),
        Case::new("joined", &joined, ALL_ONES),
        Case::new("timing", &timing_words(), timing),
        Case::new("dispatch", &dispatch_words(), ALL_ONES),
        Case::new("nested", &nested_words(), ALL_ONES),
    ]
}

/// RETs with low bytes that are not zero: called, and executed by an XEC.
fn return_bytes() -> Vec<Case> {
    let mut random = Random(43);
    let called = assemble(&[Call { i: 2 }, Jmp { a: 0 }, Ret { i: 0o201 }]);
    let mut case = |name: &str, words: &[u16]| {
        let name = format!("return-bytes-{name}");
        Case::new(&name, &with_return_bytes(&mut random, words), ALL_ONES)
    };
    vec![
        Case::new("return-byte", &called, ALL_ONES),
        case("dispatch", &dispatch_words()),
        case("nested", &nested_words()),
    ]
}

/// Findings at several depths and addresses (2026-02).
fn lowest() -> Vec<Case> {
    vec![
        Case::new("lowest-levels", &levels_words(), sparse()),
        Case::new("lowest-xec", &levels_xec_words(), sparse()),
    ]
}

/// Random programs: six that are admitted and two for each finding.
fn random_cases() -> Vec<Case> {
    let mut random = Random(41);
    let mut wanted = [0; 30];
    wanted[0] = 6;
    wanted[21..].fill(2);
    let mut cases = Vec::new();
    while wanted.iter().any(|&count| count > 0) {
        let blocks = 2 + random.below(9);
        let mut words = random_program(&mut random, blocks, 12);
        if random.chance(40) {
            damage(&mut random, &mut words);
        }
        let map = Bytes::Hex(random_map(&mut random).to_vec());
        let mut case = Case::new("", &words, map);
        let number = match case.verdict() {
            Verdict::Finding { number, .. } => usize::from(number),
            _ => 0,
        };
        if wanted[number] > 0 {
            wanted[number] -= 1;
            case.name = format!("random-{}", cases.len());
            cases.push(case);
        }
    }
    cases
}

/// Images of many words: long tables, RET among many callers.
fn large() -> Vec<Case> {
    let mut random = Random(42);
    let loose = random_words(&mut random, 320, 1);
    let fill = |word, count| Bytes::Fill { word, count };
    vec![
        Case::new("loose-320", &loose, ALL_ONES),
        Case::of("nop-8192", fill(0x0000, 8192), ALL_ONES),
        Case::of("jump-8192", fill(0xe000, 8192), ALL_ONES),
        Case::of("call-8192", fill(0xa7ff, 8192), ALL_ONES),
        Case::of("valid-2", Bytes::Valid { seed: 2, count: 8192 }, ALL_ONES),
        Case::of("valid-3", Bytes::Valid { seed: 3, count: 2048 }, ALL_ONES),
        Case::of("any-5", Bytes::Lcg { seed: 5, count: 1000 }, Bytes::Lcg { seed: 6, count: 128 }),
    ]
}

/// Admissions refused for the lengths of what is lent.
fn doors() -> Vec<Case> {
    let lent = [
        ("door-11-empty", 0, 127, 0),
        ("door-11-odd", 3, 127, 0),
        ("door-11-long", 16_386, 128, 1_179_792),
        ("door-12-short", 2, 127, 0),
        ("door-12-long", 2, 129, 144),
        ("door-13-short", 2, 128, 143),
        ("door-13-long", 2, 128, 160),
    ];
    lent.map(|(name, image, map, table_bytes)| Case {
        name: name.to_string(),
        image: Bytes::Lcg { seed: 1, count: image },
        map: Bytes::Lcg { seed: 2, count: map },
        table_bytes,
    })
    .to_vec()
}

/// All admissions.
pub fn cases() -> Vec<Case> {
    let refused = [faults(), executed_faults(), lowest()].concat();
    let others = [return_bytes(), doors(), sums::admission_cases(), sweeps::cases()].concat();
    [named(), refused, random_cases(), large(), others].concat()
}

pub fn entries() -> Vec<Entry> {
    cases().iter().map(Case::entry).collect()
}

pub fn header() -> Vec<String> {
    super::header("admissions: table= is the length of the lent table")
}

/// The bench program with the cases that fit, and with inputs of other lengths.
pub fn bench_entries() -> Vec<Entry> {
    let fits = |case: &&Case| case.image.expand().len() <= 802 && !case.name.starts_with("door");
    let mut entries: Vec<Entry> = cases().iter().filter(fits).map(Case::bench_entry).collect();
    for (name, map, image) in [
        ("nothing", 0, 0),
        ("short-map", 127, 0),
        ("map-alone", 128, 0),
        ("odd-image", 128, 1),
        ("odd-long-image", 128, 799),
        ("too-long", 128, 801),
        ("far-too-long", 128, 5000),
    ] {
        let zeros = |count| Bytes::Hex(vec![0; count]);
        entries.push(Case::of(name, zeros(image), zeros(map)).bench_entry());
    }
    let longest = Bytes::Fill { word: 0xe000, count: 400 };
    entries.push(Case::of("longest", longest, ALL_ONES).bench_entry());
    entries
}

pub fn bench_header() -> Vec<String> {
    super::header("bench: standard input is map, then image; line= is to the end")
}
