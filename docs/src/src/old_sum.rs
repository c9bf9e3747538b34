//! Tests against the sum before 2026-04, in which ADD to a bank took the whole
//! register.

use crate::cases::sums;
use crate::machine::{step, Image, State};
use crate::map::Map;
use crate::programs::assemble;
use crate::run::RunAnswer;
use crate::word::Word::Add;
use std::cell::Cell;

thread_local! {
    static IN_FORCE: Cell<bool> = const { Cell::new(false) };
}

/// Whether steps and tables of this thread use the old sum.
pub fn in_force() -> bool {
    IN_FORCE.get()
}

/// What a call gives with the old sum.
fn old<T>(call: impl Fn() -> T) -> T {
    IN_FORCE.set(true);
    let given = call();
    IN_FORCE.set(false);
    given
}

/// What a call gives with the old sum and with the new one.
fn both<T>(call: impl Fn() -> T) -> [T; 2] {
    [old(&call), call()]
}

/// For every bank, position, L, AUX and register, also AUX as the source: one
/// step differs in OVF alone, and OVF is that of the masked sum.
#[test]
fn one_step_differs_in_ovf_alone() {
    let map = Map::new(&[0xff; 128]).unwrap();
    let mut differing = [0; 8];
    for (d, l, s) in (0o20..=0o37).flat_map(|d| (0..8).flat_map(move |l| [(d, l, 0), (d, l, 1)])) {
        let bytes = assemble(&[Add { s, rl: l, d }])[0].to_be_bytes();
        let image = Image::new(&bytes).unwrap();
        for (aux, value) in (0..=255u8).flat_map(|aux| (0..=255u8).map(move |v| (aux, v))) {
            if s == 0 && value != aux {
                continue;
            }
            let latch = [aux ^ value, aux.wrapping_mul(value)];
            let mut before = State { latch, ovf: value & 1, ..State::default() };
            (before.registers[0], before.registers[usize::from(s)]) = (aux, value);
            let [mut was, now] = both(|| {
                let mut state = before;
                (step(&image, &map, &mut state, [0x96, 0x69]), state)
            });
            let kept = if l == 0 { value } else { value & ((1 << l) - 1) };
            assert_eq!(now.1.ovf, u8::from(usize::from(aux) + usize::from(kept) > 255));
            assert_eq!(was.1.ovf, u8::from(usize::from(aux) + usize::from(value) > 255));
            differing[usize::from(l)] += u32::from(was.1.ovf != now.1.ovf);
            was.1.ovf = now.1.ovf;
            assert_eq!(was, now);
        }
    }
    assert!(differing[0] == 0 && differing[1..].iter().all(|&count| count > 0), "{differing:?}");
}

/// The answers of the admissions with the old sum and with the new one.
#[test]
fn admissions_that_change() {
    let mut answers = Vec::new();
    for case in sums::admission_cases() {
        let [was, now] = both(|| case.entry().gives);
        assert_ne!(was, now, "{}", case.name);
        answers.push([case.name, was[0].1.clone(), now[0].1.clone()]);
    }
    let judged = [
        ["add-mask-nzt-now-admitted", "finding:25:0:5", "admitted"],
        ["add-mask-nzt-now-refused", "admitted", "finding:25:0:4"],
        ["add-mask-xec-now-admitted", "finding:25:0:3", "admitted"],
        ["add-mask-xec-now-refused", "admitted", "finding:25:0:3"],
        ["add-mask-join-now-admitted", "finding:29:0:4", "admitted"],
        ["add-mask-join-now-refused", "admitted", "finding:29:0:5"],
    ];
    let tables =
        (0..4).map(|i| [format!("add-mask-table-{i}"), "admitted".into(), "admitted".into()]);
    let expected: Vec<_> = judged.iter().map(|row| row.map(str::to_string)).chain(tables).collect();
    assert_eq!(answers, expected);
}

/// Of the runs for the mask those differ whose sum carries by the bits above L
/// alone, all long ones, and the judged programs.
#[test]
fn runs_that_change() {
    let single = ["aux-above-255", "source-aux-144", "executed"];
    for case in sums::run_cases() {
        let name = case.name.strip_prefix("add-mask-").unwrap();
        let carries = name.starts_with('l') && name.ends_with("255") && !name.starts_with("l0");
        let long = name.starts_with("admitted") || name.starts_with("loose");
        let expected = carries || single.contains(&name) || long || name.contains("now");
        let [was, now] = both(|| case.entry().gives);
        assert_eq!(was != now, expected, "{name}");
        let [was, now] = both(|| case.outcome());
        assert!(!long || was.trace != now.trace, "{name}");
        assert_eq!(now.answer == RunAnswer::Ran { count: 6_000, stop: 0 }, long, "{name}");
    }
}
