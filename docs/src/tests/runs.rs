//! Runs: checks at the door, lent bytes, the direct emulator, and admitted
//! programs that never stop.

mod common;
use common::ALL;
use riptide_reference::digest::{lcg_bytes, Random};
use riptide_reference::direct;
use riptide_reference::machine::{step, Image, State};
use riptide_reference::map::Map;
use riptide_reference::programs::*;
use riptide_reference::run::{run, RunAnswer};
use riptide_reference::table::{admit, least_table, within, Verdict};

type Runner = fn(&[u8], &[u8], &mut [u8], &[u8], &mut [u8]) -> RunAnswer;
const BOTH: [Runner; 2] = [run, direct::run];

/// Both emulators with these lengths; the refusal, after which nothing moved.
fn refusal(image: usize, map: usize, state: &[u8], recording: usize, trace: usize) -> u8 {
    let mut numbers = BOTH.map(|runner| {
        let (mut state_after, mut trace_after) = (state.to_vec(), vec![0xa5; trace]);
        let (image, map, recording) = (vec![0; image], vec![0; map], vec![0; recording]);
        let answer = runner(&image, &map, &mut state_after, &recording, &mut trace_after);
        assert_eq!(state_after, state);
        assert_eq!(trace_after, vec![0xa5; trace]);
        match answer {
            RunAnswer::Refused(number) => number,
            RunAnswer::Ran { .. } => 0,
        }
    });
    assert_eq!(numbers[0], numbers[1]);
    numbers.sort_unstable();
    numbers[0]
}

#[test]
fn door_questions_in_order() {
    let (good, bad) = ([0; 36], [9; 36]);
    for image in [0, 1, 3, 16_383, 16_385, 16_386] {
        assert_eq!(refusal(image, 127, &bad, 1, 1), 11);
    }
    for map in [0, 127, 129, 256] {
        assert_eq!(refusal(2, map, &bad, 1, 1), 12);
    }
    assert_eq!(refusal(16_384, 128, &bad, 1, 1), 14);
    assert_eq!(refusal(2, 128, &good[1..], 1, 1), 14);
    assert_eq!(refusal(2, 128, &good, 1, 1), 15);
    assert_eq!(refusal(2, 128, &good, 3, 12), 15);
    for trace in [0, 8, 15, 17, 24] {
        assert_eq!(refusal(2, 128, &good, 4, trace), 16);
    }
    assert_eq!(refusal(2, 128, &good, 0, 8), 16);
    assert_eq!(refusal(2, 128, &good, 0, 0), 0);
}

#[test]
fn a_stopped_state_runs_nothing() {
    for stop in 21..=27 {
        for runner in BOTH {
            let start = State { pc: 3, stop, ..State::default() }.to_bytes();
            let (mut state, mut trace) = (start, [0xa5; 16]);
            let answer = runner(&[0xe0, 0], &ALL, &mut state, &[0; 4], &mut trace);
            assert_eq!(answer, RunAnswer::Ran { count: 0, stop });
            assert_eq!((state, trace), (start, [0xa5; 16]));
            assert_eq!(
                runner(&[0xe0, 0], &ALL, &mut state, &[0; 3], &mut trace),
                RunAnswer::Refused(15)
            );
        }
    }
}

#[test]
fn the_stopping_step_is_recorded_and_later_bytes_stay() {
    for runner in BOTH {
        let (mut state, mut trace) = ([0; 36], [0xa5; 32]);
        let image = [0xc7, 5, 0xd7, 0x21, 0, 8, 0, 0];
        let answer = runner(&image, &ALL, &mut state, &[0; 8], &mut trace);
        assert_eq!(answer, RunAnswer::Ran { count: 3, stop: 22 });
        let records =
            [[1, 5, 0, 0, 0, 0, 0, 0], [3, 5, 1, 0, 1, 0, 1, 0], [5, 0, 0, 22, 2, 0, 2, 0]];
        assert_eq!(trace, [&records.concat()[..], &[0xa5; 8]].concat()[..]);
        assert_eq!((state[0], state[35]), (2, 22));
    }
}

/// PC and fetch address of each step, every left byte 1.
fn addresses(words: &[u16], state: State, pairs: usize) -> Vec<[u16; 2]> {
    let recording = [1, 0].repeat(pairs);
    let (answer, _, trace) = compare(&bytes_of(words), &ALL, &state.to_bytes(), &recording);
    let RunAnswer::Ran { count, .. } = answer else { panic!("refused") };
    let number = |low: u8, high: u8| u16::from(low) + 256 * u16::from(high);
    trace.chunks(8).take(count).map(|r| [number(r[4], r[5]), number(r[6], r[7])]).collect()
}

#[test]
fn the_trace_tells_pc_and_the_fetch_address() {
    let start = State::default();
    // XEC at 2 executes the word at 5, then the jump at 3.
    let chooser = [0xc705, 0xcf09, 0x9724, 0xe002, 0xdf20, 0xdf21];
    let told = [[0, 0], [1, 1], [2, 2], [2, 5], [3, 3], [2, 2], [2, 5]];
    assert_eq!(addresses(&chooser, start, 7), told);
    // An XEC that an XEC executes leaves PC as well; a jump executed goes on there.
    let nested = [0x8001, 0x8002, 0xe003, 0xe000];
    assert_eq!(addresses(&nested, start, 5), [[0, 0], [0, 1], [0, 2], [3, 3], [0, 0]]);
    // A word that is pending as the run begins.
    let pending = State { pc: 300, pending: true, pending_address: 3, ..start };
    assert_eq!(addresses(&nested, pending, 2), [[300, 3], [0, 0]]);
    // The stopping step has them: outside the code, up to the highest address; at an executed word.
    let mut high = start;
    high.registers[0] = 255;
    assert_eq!(addresses(&[0xa7ff], high, 9), [[0, 0], [65_535, 65_535]]);
    assert_eq!(addresses(&[0x8007, 0xe000], start, 9), [[0, 0], [0, 7]]);
    assert_eq!(addresses(&[0x8001, 0x0008], start, 9), [[0, 0], [0, 1]]);
}

#[test]
fn an_empty_recording_counts_nothing() {
    for runner in BOTH {
        let mut state = [0; 36];
        let answer = runner(&[0xe0, 0], &ALL, &mut state, &[], &mut []);
        assert_eq!((answer, state), (RunAnswer::Ran { count: 0, stop: 0 }, [0; 36]));
    }
}

type Outcome = (RunAnswer, [u8; 36], Vec<u8>);

/// Runs both emulators, which give the same answer, state and trace.
fn compare(image: &[u8], map: &[u8], state: &[u8; 36], recording: &[u8]) -> Outcome {
    let [result, other] = BOTH.map(|runner| {
        let (mut after, mut trace) = (*state, vec![0xa5; 4 * recording.len()]);
        let answer = runner(image, map, &mut after, recording, &mut trace);
        (answer, after, trace)
    });
    assert_eq!(result, other);
    result
}

#[test]
fn direct_emulator_agrees_on_random_images() {
    let mut random = Random(11);
    let mut steps = 0;
    let mut stops = [0; 28];
    for case in 0..6000u32 {
        let words = 1 + random.below(if case % 50 == 0 { 8192 } else { 300 });
        let bits = random_words(&mut random, words, 1);
        let bits = with_return_bytes(&mut random, &bits);
        let map = if random.chance(50) { ALL.to_vec() } else { lcg_bytes(case, 128) };
        let state = random_state(&mut random, words).to_bytes();
        let recording = lcg_bytes(case, 600);
        let (answer, after, _) = compare(&bytes_of(&bits), &map, &state, &recording);
        assert!(State::from_bytes(&after).is_some(), "a run keeps the state well formed");
        let RunAnswer::Ran { count, stop } = answer else { panic!("refused") };
        steps += count;
        stops[usize::from(stop)] += 1;
    }
    assert!(steps > 20_000, "{steps}");
    assert!((21..=27).all(|stop| stops[stop] > 20), "{stops:?}");
}

#[test]
fn direct_emulator_agrees_on_sums_to_banks() {
    let mut random = Random(14);
    for seed in 0..200 {
        let image = bytes_of(&sum_words(&mut random, 24, seed % 2 == 0));
        let (answer, ..) = compare(&image, &ALL, &[0; 36], &lcg_bytes(seed, 2000));
        assert_eq!(answer, RunAnswer::Ran { count: 1000, stop: 0 });
        if seed % 2 == 1 {
            stays_inside(&image, &ALL, seed);
        }
    }
}

#[test]
fn return_bytes_change_no_run() {
    let mut random = Random(13);
    for words in [timing_words(), dispatch_words(), nested_words()] {
        let other = with_return_bytes(&mut random, &words);
        assert_ne!(words, other);
        let ran = |words: &[u16]| compare(&bytes_of(words), &ALL, &[0; 36], &lcg_bytes(7, 20_000));
        assert!(ran(&words) == ran(&other));
    }
}

#[test]
fn direct_emulator_agrees_on_the_timing_image() {
    let (image, map) = (bytes_of(&timing_words()), timing_map());
    let verdict = admit(&image, &map, &mut vec![0; 72 * image.len()]).verdict;
    assert_eq!(verdict, Verdict::Admitted);
    let mut state = [0; 36];
    for seed in 0..3 {
        let (answer, after, _) = compare(&image, &map, &state, &lcg_bytes(seed, 65_536));
        assert_eq!(answer, RunAnswer::Ran { count: 32_768, stop: 0 });
        state = after;
    }
}

/// Runs an admitted image from reset; at each step the state lies within the
/// facts of its cell and the machine does not stop.
fn stays_inside(image: &[u8], map: &[u8], seed: u32) -> usize {
    let (table, _) = least_table(image, map).unwrap();
    let (parsed, access) = (Image::new(image).unwrap(), Map::new(map).unwrap());
    let mut state = State::default();
    let mut deepest = 0;
    for pair in lcg_bytes(seed, 3000).chunks(2) {
        assert!(within(&table, &state), "{state:?}");
        step(&parsed, &access, &mut state, [pair[0], pair[1]]);
        assert_eq!(state.stop, 0);
        deepest = deepest.max(usize::from(state.depth));
    }
    deepest
}

#[test]
fn admitted_programs_do_not_stop() {
    let mut random = Random(12);
    let mut by_depth = [0; 9];
    for seed in 0..1500 {
        let blocks = 1 + random.below(10);
        let mut words = random_program(&mut random, blocks, 12);
        if random.chance(30) {
            damage(&mut random, &mut words);
        }
        let (image, map) = (bytes_of(&words), random_map(&mut random));
        let verdict = admit(&image, &map, &mut vec![0; 72 * image.len()]).verdict;
        if verdict == Verdict::Admitted {
            by_depth[stays_inside(&image, &map, seed)] += 1;
        }
    }
    assert!(by_depth.iter().sum::<usize>() > 150, "{by_depth:?}");
    assert!(by_depth[..4].iter().all(|&count| count > 3), "{by_depth:?}");
}
