//! Runs with answer, last state and digests of state and trace.

use super::{hex, sums, Bytes, Entry, ALL_ONES, FILLER, RESET};
use crate::digest::{Digest, Random};
use crate::machine::{State, RECORD_BYTES};
use crate::programs::*;
use crate::run::{run, RunAnswer};
use crate::table::{admit, Verdict};
use crate::word::Word::*;

/// The inputs of one run.
#[derive(Clone)]
pub struct Case {
    pub name: String,
    pub image: Bytes,
    pub map: Bytes,
    pub state: Bytes,
    pub recording: Bytes,
    pub trace_bytes: usize,
}

/// What a run gave.
pub struct Outcome {
    pub answer: RunAnswer,
    pub state: Vec<u8>,
    pub trace: Vec<u8>,
}

/// The answer as a line gives it.
pub fn answer_text(answer: RunAnswer) -> String {
    match answer {
        RunAnswer::Refused(number) => format!("refused:{number}"),
        RunAnswer::Ran { count, stop } => format!("ran:{count}:{stop}"),
    }
}

impl Case {
    pub(super) fn new(
        name: &str,
        image: Bytes,
        map: Bytes,
        state: Bytes,
        recording: Bytes,
    ) -> Case {
        let trace_bytes = 4 * recording.expand().len();
        Case { name: name.to_string(), image, map, state, recording, trace_bytes }
    }

    pub fn outcome(&self) -> Outcome {
        let (image, map) = (self.image.expand(), self.map.expand());
        let mut state = self.state.expand();
        let mut trace = vec![FILLER; self.trace_bytes];
        let answer = run(&image, &map, &mut state, &self.recording.expand(), &mut trace);
        Outcome { answer, state, trace }
    }

    pub fn entry(&self) -> Entry {
        let outcome = self.outcome();
        Entry {
            name: format!("run {}", self.name),
            given: vec![
                ("image", self.image.text()),
                ("map", self.map.text()),
                ("state", self.state.text()),
                ("recording", self.recording.text()),
                ("trace", self.trace_bytes.to_string()),
            ],
            gives: vec![
                ("answer", answer_text(outcome.answer)),
                ("state_after", hex(&outcome.state)),
                ("state_digest", Digest::text(&outcome.state)),
                ("trace_digest", Digest::text(&outcome.trace)),
            ],
            below: vec![],
        }
    }
}

fn pairs(seed: u32, count: usize) -> Bytes {
    Bytes::Lcg { seed, count: 2 * count }
}

/// Pairs, and the length of their trace.
fn whole(seed: u32, count: usize) -> (Bytes, usize) {
    (pairs(seed, count), RECORD_BYTES * count)
}

/// Runs of one image, each from the state that the last one left.
fn chain(name: &str, image: Bytes, map: Bytes, lent: &[(Bytes, usize)]) -> Vec<Case> {
    let mut state = RESET;
    let mut cases = Vec::new();
    for (index, (recording, trace_bytes)) in lent.iter().enumerate() {
        let name = format!("{name}-{index}");
        let mut case = Case::new(&name, image.clone(), map.clone(), state, recording.clone());
        case.trace_bytes = *trace_bytes;
        state = Bytes::Hex(case.outcome().state);
        cases.push(case);
    }
    cases
}

/// Long runs of admitted programs; among the first some that are refused.
fn chains() -> Vec<Case> {
    let odd = Bytes::Lcg { seed: 9, count: 7 };
    let timing = [
        whole(1, 32_768),
        whole(2, 32_768),
        (odd, 28),
        (pairs(3, 8), 63),
        (pairs(3, 8), 72),
        whole(3, 0),
        whole(4, 1),
        whole(5, 32_768),
    ];
    let image = Bytes::Hex(bytes_of(&timing_words()));
    let map = Bytes::Hex(timing_map().to_vec());
    let mut cases = chain("timing", image, map, &timing);
    for (name, words) in [("dispatch", dispatch_words()), ("nested", nested_words())] {
        let lent = [whole(11, 12_000), whole(12, 3), whole(13, 4_000)];
        cases.extend(chain(name, Bytes::Hex(bytes_of(&words)), ALL_ONES, &lent));
    }
    let mut random = Random(54);
    for (name, words) in [("dispatch", dispatch_words()), ("nested", nested_words())] {
        let image = Bytes::Hex(bytes_of(&with_return_bytes(&mut random, &words)));
        let name = format!("return-bytes-{name}");
        cases.extend(chain(&name, image, ALL_ONES, &[whole(11, 12_000), whole(12, 3)]));
    }
    cases
}

/// How many of the steps choose an address or write data.
fn visible(trace: &[u8]) -> usize {
    trace.chunks(RECORD_BYTES).filter(|record| (1..=4).contains(&record[0])).count()
}

/// Random programs that are admitted, call, and write often.
fn admitted() -> Vec<Case> {
    let mut random = Random(51);
    let mut cases = Vec::new();
    while cases.len() < 8 {
        let blocks = 4 + random.below(7);
        let words = random_program(&mut random, blocks, 12);
        let (image, map) = (bytes_of(&words), random_map(&mut random));
        let verdict = admit(&image, &map, &mut vec![0; 72 * image.len()]).verdict;
        if verdict != Verdict::Admitted {
            continue;
        }
        let name = format!("admitted-{}", cases.len());
        let recording = pairs(cases.len() as u32, 6_000);
        let case = Case::new(&name, Bytes::Hex(image), Bytes::Hex(map.to_vec()), RESET, recording);
        let depths = |count| {
            let mut part = case.clone();
            (part.recording, part.trace_bytes) = whole(cases.len() as u32, count);
            part.outcome().state[18]
        };
        if visible(&case.outcome().trace) > 2_000 && (10..60).any(|count| depths(count) >= 1) {
            cases.push(case);
        }
    }
    cases
}

/// Loose words that run long without being admitted.
fn loose() -> Vec<Case> {
    let mut random = Random(52);
    let mut cases = Vec::new();
    while cases.len() < 3 {
        let words = random_words(&mut random, 256, 0);
        let state = Bytes::Hex(random_state(&mut random, 256).to_bytes().to_vec());
        let name = format!("loose-{}", cases.len());
        let recording = pairs(60 + cases.len() as u32, 10_000);
        let image = Bytes::Hex(bytes_of(&words));
        let case = Case::new(&name, image, ALL_ONES, state, recording);
        let outcome = case.outcome();
        let whole = outcome.answer == RunAnswer::Ran { count: 10_000, stop: 0 };
        if whole && visible(&outcome.trace) > 2_000 {
            cases.push(case);
        }
    }
    cases
}

/// Runs from random states that stop, four for each stop number.
fn stopping() -> Vec<Case> {
    let mut random = Random(53);
    let mut wanted = [0; 28];
    wanted[21..].fill(4);
    let mut cases = Vec::new();
    while wanted.iter().any(|&count| count > 0) {
        let count = 32 + random.below(160);
        let words = random_words(&mut random, count, 1);
        let seed = random.below(1_000_000) as u32;
        let map = if random.chance(60) { ALL_ONES } else { Bytes::Lcg { seed, count: 128 } };
        let state = random_state(&mut random, count).to_bytes().to_vec();
        let image = Bytes::Hex(bytes_of(&words));
        let mut case = Case::new("", image, map, Bytes::Hex(state), pairs(seed, 1_000));
        let RunAnswer::Ran { count, stop } = case.outcome().answer else {
            continue;
        };
        let few = if stop == 25 { 1 } else { 4 };
        if count > few && wanted[usize::from(stop)] > 0 {
            wanted[usize::from(stop)] -= 1;
            case.name = format!("stop{stop}-{}", cases.len());
            cases.push(case);
        }
    }
    cases
}

/// The ends of the largest image, a stopped state, an empty recording.
fn ends() -> Vec<Case> {
    let fill = |word| Bytes::Fill { word, count: 8192 };
    let from = |state: State| Bytes::Hex(state.to_bytes().to_vec());
    let at = |pc| State { pc, ..State::default() };
    let mut high = at(8191);
    high.registers[0] = 0xff;
    let mut page = at(8000);
    page.registers[0] = 0x1f;
    let deep = State { depth: 8, returns: [8192; 8], ..at(7) };
    let pending = State { pending: true, pending_address: 8191, ..at(8191) };
    let executed = State { pending: true, pending_address: 0, ..at(8191) };
    let case =
        |name: &str, word, state| Case::new(name, fill(word), ALL_ONES, state, pairs(70, 12));
    let stopped = case("stopped", 0xe000, from(State { stop: 24, ..at(3) }));
    let valid = Bytes::Valid { seed: 8, count: 8192 };
    let any = Bytes::Lcg { seed: 9, count: 16_384 };
    let empty = Case::new("empty", fill(0xe000), ALL_ONES, from(at(5)), pairs(1, 0));
    vec![
        case("nop-end", 0x0000, from(at(8186))),
        case("call-65535", 0xa7ff, from(high)),
        case("call-nine", 0xa740, from(page)),
        case("return-8192", 0xaf00, from(deep)),
        case("pending-end", 0x0000, from(pending)),
        case("pending-elsewhere", 0xa740, from(executed)),
        case("xec-for-ever", 0x8103, from(at(8191))),
        stopped,
        empty,
        Case::new("valid-8", valid, ALL_ONES, from(at(100)), pairs(71, 2_000)),
        Case::new("any-9", any, ALL_ONES, from(at(0)), pairs(72, 2_000)),
    ]
}

/// Runs refused for what is lent; several faults show the order.
fn doors() -> Vec<Case> {
    let malformed = [(2, 2), (3, 1), (13, 2), (18, 9), (19, 1), (34, 1), (35, 20), (35, 28)];
    let lent = [
        ("door-11-empty", 0, 127, 35, 1, 1),
        ("door-11-odd", 5, 127, 35, 1, 1),
        ("door-11-long", 16_386, 127, 35, 1, 1),
        ("door-12", 2, 127, 35, 1, 1),
        ("door-12-long", 2, 256, 36, 2, 8),
        ("door-14-short", 2, 128, 35, 1, 1),
        ("door-14-long", 2, 128, 37, 2, 8),
        ("door-15", 2, 128, 36, 1, 1),
        ("door-16-short", 2, 128, 36, 4, 15),
        ("door-16-long", 2, 128, 36, 4, 24),
        ("door-16-twice", 2, 128, 36, 4, 8),
    ];
    let zeros = |count| Bytes::Hex(vec![0; count]);
    let mut cases = Vec::new();
    for (name, image, map, state, recording, trace_bytes) in lent {
        let image = Bytes::Lcg { seed: 1, count: image };
        let (map, recording) = (zeros(map), zeros(recording));
        let mut case = Case::new(name, image, map, zeros(state), recording);
        case.trace_bytes = trace_bytes;
        cases.push(case);
    }
    for (at, value) in malformed {
        let mut state = vec![0; 36];
        state[at] = value;
        let (name, jump) = (format!("door-14-byte{at}-{value}"), Bytes::Hex(vec![0xe0, 0]));
        cases.push(Case::new(&name, jump, ALL_ONES, Bytes::Hex(state), pairs(1, 2)));
    }
    cases
}

/// Small programs that are written out, one step or two each.
fn written() -> Vec<Case> {
    let mut page = vec![0xe000; 256];
    page[0] = 0xe046;
    page[70] = assemble(&[XecRegister { s: 1, i: 200 }])[0];
    page[200] = assemble(&[NztBank { s: 0o27, l: 0, i: 3 }])[0];
    let mut call = page.clone();
    call[200] = assemble(&[Call { i: 100 }])[0];
    call[100] = 0xaf00;
    let xec = assemble(&[XecBank { s: 0o37, l: 5, i: 1 }]);
    let mut again = vec![xec[0]; 32];
    again[5] = 0xc701;
    let case = |name: &str, words: &[u16]| {
        Case::new(name, Bytes::Hex(bytes_of(words)), ALL_ONES, RESET, pairs(80, 40))
    };
    vec![case("page-of-pc", &page), case("call-in-xec", &call), case("xec-of-xec", &again)]
}

/// All runs.
pub fn cases() -> Vec<Case> {
    let others = [written(), doors(), sums::run_cases()].concat();
    [chains(), admitted(), loose(), stopping(), ends(), others].concat()
}

pub fn entries() -> Vec<Entry> {
    cases().iter().map(Case::entry).collect()
}

pub fn header() -> Vec<String> {
    super::header("runs: trace= is the length of the lent trace")
}
