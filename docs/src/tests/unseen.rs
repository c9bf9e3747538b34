//! A bank that is not granted is not seen (2026-08): with an empty readable
//! set, what the bank has in the recordings makes no difference.

mod common;
use common::ALL;
use riptide_reference::digest::Random;
use riptide_reference::direct;
use riptide_reference::programs::*;
use riptide_reference::run::{run, RunAnswer};
use riptide_reference::table::{admit, Verdict};

fn random_bytes(random: &mut Random, count: usize) -> Vec<u8> {
    (0..count).map(|_| random.below(256) as u8).collect()
}

/// The map without a readable address in this bank.
fn ungranted(map: &[u8], bank: usize) -> Vec<u8> {
    let mut map = map.to_vec();
    map[64 * bank..64 * bank + 32].fill(0);
    map
}

/// A recording with other bytes of this bank.
fn other_bytes(random: &mut Random, recording: &[u8], bank: usize) -> Vec<u8> {
    let mut other = recording.to_vec();
    other.iter_mut().skip(bank).step_by(2).for_each(|byte| *byte = random.below(256) as u8);
    other
}

fn random_image(random: &mut Random, bank: u16) -> Vec<u8> {
    let words = match random.below(3) {
        0 => random_words(random, 40, 1),
        1 => random_program(random, 6, 8),
        _ => reading_elsewhere(bank, &random_program(random, 6, 8)),
    };
    bytes_of(&words)
}

#[test]
fn no_program_sees_the_bank() {
    let mut random = Random(0x2608);
    let mut stops = [0; 28];
    for case in 0..6000 {
        let bank = case % 2;
        let image = random_image(&mut random, bank as u16);
        let granted = if random.chance(50) { ALL } else { random_map(&mut random) };
        let map = ungranted(&granted, bank);
        let state = random_state(&mut random, image.len() / 2).to_bytes();
        let length = random.below(200);
        let recording = random_bytes(&mut random, length);
        let other = other_bytes(&mut random, &recording, bank);
        for runner in [run, direct::run] {
            let [one, two] = [&recording, &other].map(|recording| {
                let (mut after, mut trace) = (state, vec![0xa5; 4 * recording.len()]);
                let answer = runner(&image, &map, &mut after, recording, &mut trace);
                (answer, after, trace)
            });
            assert_eq!(one, two, "case {case}");
            if let RunAnswer::Ran { stop, .. } = one.0 {
                stops[usize::from(stop)] += 1;
            }
        }
    }
    assert!(stops[0] > 500 && stops[23] > 500, "{stops:?}");
}

#[test]
fn lists_of_an_admitted_program_are_the_same_run_by_run() {
    let mut random = Random(0x2609);
    let (mut admitted, mut refused) = ([0; 2], 0);
    for case in 0..3000 {
        let bank = case % 2;
        let image = bytes_of(&reading_elsewhere(bank as u16, &random_program(&mut random, 6, 8)));
        let map = ungranted(&ALL, bank);
        if admit(&image, &map, &mut vec![0; 72 * image.len()]).verdict != Verdict::Admitted {
            continue;
        }
        admitted[bank] += 1;
        let (mut state, mut its) = ([0; 36], [0; 36]);
        for _ in 0..4 {
            let length = random.below(60);
            let recording = random_bytes(&mut random, length);
            let other = other_bytes(&mut random, &recording, bank);
            let room = if random.chance(20) { random.below(100) } else { 4 * length };
            let (lent, also) = (random_bytes(&mut random, room), random_bytes(&mut random, room));
            let (mut trace, mut its_trace) = (lent.clone(), also.clone());
            let answer = run(&image, &map, &mut state, &recording, &mut trace);
            assert_eq!(run(&image, &map, &mut its, &other, &mut its_trace), answer);
            assert_eq!(state, its);
            match answer {
                RunAnswer::Refused(_) => {
                    refused += 1;
                    assert_eq!((trace, its_trace), (lent, also));
                }
                RunAnswer::Ran { count, stop } => {
                    assert_eq!((count, stop), (length / 2, 0));
                    assert_eq!(trace, its_trace);
                }
            }
        }
    }
    assert!(admitted[0] > 100 && admitted[1] > 100 && refused > 100, "{admitted:?} {refused}");
}

/// Each bank's byte copied to the other: admitted with address 0 in all four
/// sets, and the two runs leave other traces and other states.
#[test]
fn a_bank_with_a_readable_address_is_seen() {
    let image = bytes_of(&[0x1f17, 0x171f, 0xe000]);
    let map = map_of([&[0], &[0], &[0], &[0]]);
    assert_eq!(admit(&image, &map, &mut vec![0; 432]).verdict, Verdict::Admitted);
    let ran = |recording: &[u8; 4]| {
        let (mut state, mut trace) = ([0; 36], [0xa5; 16]);
        let answer = run(&image, &map, &mut state, recording, &mut trace);
        assert_eq!(answer, RunAnswer::Ran { count: 2, stop: 0 });
        (state[16], state[17], trace[2], trace[10])
    };
    assert_eq!(ran(&[0, 0, 0, 0]), (0, 0, 0, 0));
    assert_eq!(ran(&[0, 1, 0, 0]), (1, 0, 1, 0));
    assert_eq!(ran(&[0, 0, 1, 0]), (0, 1, 0, 1));
    for bank in 0..2 {
        let answer = admit(&image, &ungranted(&map, bank), &mut vec![0; 432]).verdict;
        assert_eq!(answer, Verdict::Finding { number: 23, depth: 0, address: 1 - bank });
    }
}
