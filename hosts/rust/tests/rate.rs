//! Steps per second of the library beside the direct Rust emulator, over the same 32,768 pairs, repeated; seconds of
//! admission for the images that `docs/RATES.md` names, where it is said how these are run, and of the check of their tables;
//! maps whose sets are counted; and words listed.

mod common;

use common::images::images;
use common::trial::{Rungs, Trial};
use riptide::{admit, check, count_sets, list, page_length, run, table_length};
use riptide::{AdmitAnswer, Answered, CheckAnswer, RunAnswer};
use riptide::{MAP_BYTES, TRACE_RECORD_BYTES};
use riptide_reference::digest::{lcg_bytes, Digest};
use riptide_reference::direct;
use riptide_reference::listing::page_of;
use riptide_reference::map::counts_by_words;
use riptide_reference::programs::{bytes_of, timing_map, timing_words};
use std::collections::HashSet;
use std::time::Instant;

const PAIRS: usize = 32_768;
const RUNS: usize = 400;

/// The fastest and the mean time of a step, and a digest of the last state and trace.
fn timed(mut once: impl FnMut(&mut [u8], &mut [u8])) -> (f64, f64, u64) {
    let (mut state, mut trace) = ([0; 36], vec![0; TRACE_RECORD_BYTES * PAIRS]);
    let (mut fastest, mut total) = (f64::INFINITY, 0.0);
    for _ in 0..RUNS {
        let started = Instant::now();
        once(&mut state, &mut trace);
        let seconds = started.elapsed().as_secs_f64();
        fastest = fastest.min(seconds);
        total += seconds;
    }
    let mut digest = Digest::default();
    digest.add(&state);
    digest.add(&trace);
    (fastest * 1e9 / PAIRS as f64, total * 1e9 / (PAIRS * RUNS) as f64, digest.0)
}

#[test]
#[ignore]
fn steps_per_second() {
    let (image, map) = (bytes_of(&timing_words()), timing_map());
    let recording = lcg_bytes(1, 2 * PAIRS);
    for _ in 0..3 {
        let (ours, our_mean, our_digest) = timed(|state, trace| {
            let answer = run(&image, &map, state, &recording, trace);
            assert_eq!(answer, RunAnswer::Ended { count: PAIRS as u64, stop: 0 });
        });
        let (theirs, their_mean, their_digest) = timed(|state, trace| {
            direct::run(&image, &map, state, &recording, trace);
        });
        assert_eq!(our_digest, their_digest);
        println!("library {ours:.2} (mean {our_mean:.2}) direct {theirs:.2} (mean {their_mean:.2}) ns a step");
    }
}

const WORDS: usize = 8_192;
#[test]
fn images_are_named_as_in_the_table() {
    let text = std::fs::read_to_string(concat!(env!("CARGO_MANIFEST_DIR"), "/../../docs/RATES.md")).expect("rates");
    let (_, table) = text.split_once("| image |").expect("the table of images");
    let rows = table.lines().skip(2).map_while(|line| line.strip_prefix("| ")?.split(" | ").next());
    assert_eq!(rows.collect::<Vec<_>>(), images(1_024).iter().map(|(name, _)| *name).collect::<Vec<_>>());
}

/// The library's answer with its sweeps, its table and its seconds.
fn admitted(image: &[u8]) -> (Answered, Vec<u8>, f64) {
    let mut table = vec![0; table_length(image)];
    let started = Instant::now();
    let answer = admit(image, &[255; 128], &mut table);
    (answer, table, started.elapsed().as_secs_f64())
}

/// Each image with 1,024 words and up, beside the trial, whose table and count are equal. `RIPTIDE_LIMIT` in seconds: an image
/// that took longer is not admitted with twice as many words. `RIPTIDE_IMAGES`: what the names have in them that are admitted.
#[test]
#[ignore]
fn admission_seconds() {
    let told = |name: &str| std::env::var(name).ok();
    let limit = told("RIPTIDE_LIMIT").map_or(f64::INFINITY, |limit| limit.parse().expect("seconds"));
    let wanted = told("RIPTIDE_IMAGES").unwrap_or_default();
    for (place, (name, _)) in images(1_024).iter().enumerate().filter(|(_, (name, _))| name.contains(&wanted)) {
        println!("{name}");
        for words in [1_024, 2_048, 4_096, WORDS] {
            let (_, words) = images(words).swap_remove(place);
            let (Answered { answer, sweeps }, mut table, seconds) = admitted(&bytes_of(&words));
            let started = Instant::now();
            let trial = Trial::of(&words, Rungs::default());
            let (tried, work) = (started.elapsed().as_secs_f64(), trial.work);
            table.iter_mut().skip(1).step_by(16).for_each(|finding| *finding = 0);
            assert_eq!((sweeps as usize, table), (work.sweeps, trial.table().bytes()));
            println!("{:6} words: {sweeps} sweeps, {seconds:.3} s; trial {tried:.3} s, {work}; {answer}", words.len());
            if seconds > limit {
                break;
            }
        }
    }
}

/// The fastest seconds of three checks of a table that is accepted; the reference accepts it too.
fn checked(image: &[u8], table: &[u8]) -> f64 {
    let mut fastest = f64::INFINITY;
    for _ in 0..3 {
        let started = Instant::now();
        let answer = check(image, &[255; 128], table);
        fastest = fastest.min(started.elapsed().as_secs_f64());
        assert_eq!(answer, CheckAnswer::Accepted);
    }
    assert_eq!(riptide_reference::check::check(image, &[255; 128], table), riptide_reference::check::Checked::Accepted);
    fastest
}

/// The check of each table that admission filled, beside the admission and one of its sweeps.
#[test]
#[ignore]
fn checking_seconds() {
    for (name, words) in &images(WORDS)[..7] {
        let image = bytes_of(words);
        let (Answered { answer, sweeps }, table, seconds) = admitted(&image);
        if answer != AdmitAnswer::Admitted {
            println!("{name}: {answer}; {}", check(&image, &[255; 128], &table));
            continue;
        }
        let (share, milliseconds) = (seconds * 1e3 / f64::from(sweeps + 1), checked(&image, &table) * 1e3);
        println!("{name}: admitted in {seconds:.3} s, {share:.2} ms a sweep; checked in {milliseconds:.2} ms");
    }
}

/// Half of the words are XECs that may execute sixteen RETs each, half are RETs, and the table reaches all of them at every
/// depth but 0: each RET asks each XEC one level up whether it may execute a CALL.
fn returns_everywhere(words: usize) -> (Vec<u8>, Vec<u8>) {
    let mut image: Vec<u16> = (0..words).map(|a| if a % 32 < 16 { 0x9790 } else { 0xaf00 }).collect();
    image[0] = 0xe000; // JMP 0
    let mut table = vec![0; 144 * words];
    for (cell, record) in table.chunks_mut(16).enumerate() {
        if cell == 0 || cell >= words {
            (record[0], record[3]) = (1, 2); // the left address, 0, is known
        }
    }
    (bytes_of(&image), table)
}

#[test]
#[ignore]
fn dearest_check() {
    for words in [1_024, 2_048, 4_096, WORDS] {
        let (image, table) = returns_everywhere(words);
        let started = Instant::now();
        let answer = check(&image, &[255; 128], &table);
        println!("{words} words: {answer} in {:.1} s", started.elapsed().as_secs_f64());
    }
}

const MAPS: usize = 100_000;

/// The fastest time of a map in a hundred passes over all of them, and the sum of the counts of each set.
fn counted(maps: &[u8], mut counts: impl FnMut(&[u8]) -> [usize; 4]) -> (f64, [usize; 4]) {
    let (mut fastest, mut sums) = (f64::INFINITY, [0; 4]);
    for _ in 0..100 {
        sums = [0; 4];
        let started = Instant::now();
        for map in maps.chunks_exact(MAP_BYTES) {
            let found = counts(map);
            for set in 0..4 {
                sums[set] += found[set];
            }
        }
        fastest = fastest.min(started.elapsed().as_secs_f64());
    }
    (fastest * 1e9 / MAPS as f64, sums)
}

#[test]
#[ignore]
fn sets_counted() {
    let maps = lcg_bytes(1, MAP_BYTES * MAPS);
    let different: HashSet<&[u8]> = maps.chunks_exact(MAP_BYTES).collect();
    assert_eq!(different.len(), MAPS);
    for _ in 0..3 {
        let (ours, our_sums) = counted(&maps, |map| count_sets(map).expect("a map").map(usize::from));
        let (theirs, their_sums) = counted(&maps, |map| counts_by_words(map).expect("a map"));
        assert_eq!(our_sums, their_sums);
        println!("library {ours:.1}, Rust with count_ones {theirs:.1} ns a map; sums {our_sums:?}");
    }
}

/// The fastest time of a word in two hundred passes over a page.
fn listed(mut once: impl FnMut()) -> f64 {
    let mut fastest = f64::INFINITY;
    for _ in 0..200 {
        let started = Instant::now();
        once();
        fastest = fastest.min(started.elapsed().as_secs_f64());
    }
    fastest * 1e9 / WORDS as f64
}

#[test]
#[ignore]
fn words_listed() {
    let image = lcg_bytes(1, 2 * WORDS);
    for _ in 0..3 {
        let (mut ours, mut theirs) = (vec![0; page_length(&image)], Vec::new());
        let library = listed(|| list(&image, &mut ours).expect("a page"));
        let reference = listed(|| theirs = page_of(&image));
        assert!(ours == theirs);
        println!("library {library:.1}, reference {reference:.1} ns a word");
    }
}
