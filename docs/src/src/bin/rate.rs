//! Times the direct emulator: 32,768 pairs, repeated, on the timing image.
//!
//! The mean is over all steps of a pass. On a machine with other load the
//! fastest single run of 32,768 steps says more about the emulator itself.

use riptide_reference::digest::{lcg_bytes, Digest};
use riptide_reference::direct;
use riptide_reference::machine::RECORD_BYTES;
use riptide_reference::programs::{bytes_of, timing_map, timing_words};
use riptide_reference::run::RunAnswer;
use std::hint::black_box;
use std::time::Instant;

const PAIRS: usize = 32_768;
/// One pass has 800 runs, more than 26 million steps.
const RUNS: usize = 800;
const PASSES: usize = 5;

/// Nanoseconds per step of a pass, and of its fastest run. Each run starts
/// from the state that the last one left.
fn pass(image: &[u8], map: &[u8], recording: &[u8], trace: &mut [u8]) -> (f64, f64, u64) {
    let mut state = [0; 36];
    let mut fastest = f64::INFINITY;
    let started = Instant::now();
    for _ in 0..RUNS {
        let run_started = Instant::now();
        let answer = direct::run(black_box(image), map, &mut state, recording, trace);
        fastest = fastest.min(run_started.elapsed().as_secs_f64());
        assert_eq!(answer, RunAnswer::Ran { count: PAIRS, stop: 0 });
    }
    let mean = started.elapsed().as_secs_f64() / RUNS as f64;
    let mut digest = Digest::default();
    digest.add(&state);
    digest.add(trace);
    let each = 1e9 / PAIRS as f64;
    (mean * each, fastest * each, digest.0)
}

fn main() {
    let (image, map) = (bytes_of(&timing_words()), timing_map());
    let recording = lcg_bytes(1, 2 * PAIRS);
    let mut trace = vec![0; RECORD_BYTES * PAIRS];
    let mut best = f64::INFINITY;
    for _ in 0..PASSES {
        let (mean, fastest, digest) = pass(&image, &map, &recording, &mut trace);
        println!("mean {mean:.2} fastest {fastest:.2} ns per step, state and trace {digest:016x}");
        best = best.min(fastest);
    }
    println!("{best:.2} ns per step, {:.1} million steps per second", 1e3 / best);
}
