//! The lines of the bench program.

mod common;
use common::ALL;
use riptide_reference::bench::line;
use riptide_reference::programs::{bytes_of, map_of, timing_map, timing_words};

const EXAMPLE: [u16; 5] = [0xc705, 0xb723, 0xe001, 0xd721, 0xe001];

fn with(map: &[u8], words: &[u16]) -> String {
    line(&[map, &bytes_of(words)].concat())
}

#[test]
fn the_examples_of_the_paper() {
    let map = map_of([&[5], &[5], &[], &[]]);
    assert_eq!(with(&map, &EXAMPLE), "admitted words 5 left 1 1 right 0 0\n");
    let map = map_of([&[5], &[], &[], &[]]);
    assert_eq!(with(&map, &EXAMPLE), "refused 24 depth 0 address 3\n");
    assert_eq!(with(&map, &[]), "refused 11\n");
}

#[test]
fn lengths_in_their_own_order() {
    assert_eq!(line(&[]), "refused 12\n");
    assert_eq!(line(&[0; 127]), "refused 12\n");
    assert_eq!(line(&[0; 128]), "refused 11\n");
    assert_eq!(line(&[0; 129]), "refused 11\n");
    assert_eq!(line(&[0; 929]), "refused 18\n");
    assert_eq!(line(&[0; 20_000]), "refused 18\n");
    assert_eq!(line(&[0; 927]), "refused 11\n");
    assert_eq!(line(&[0; 928]), "refused 21 depth 0 address 399\n");
    assert_eq!(with(&ALL, &[0xe000; 400]), "admitted words 400 left 256 256 right 256 256\n");
}

#[test]
fn other_programs() {
    assert_eq!(with(&timing_map(), &timing_words()), "admitted words 25 left 1 1 right 1 1\n");
    assert_eq!(with(&ALL, &[0xa702, 0xe000, 0x0008]), "refused 22 depth 1 address 2\n");
    // RET with a low byte that is not zero (2026-01).
    let all = "admitted words 3 left 256 256 right 256 256\n";
    assert_eq!(with(&ALL, &[0xa702, 0xe000, 0xaf81]), all);
    assert_eq!(with(&ALL, &[0xaf81]), "refused 27 depth 0 address 0\n");
    let map = map_of([&[0, 7, 8], &[255], &[], &[1, 2]]);
    assert_eq!(with(&map, &[0xe000]), "admitted words 1 left 3 1 right 0 2\n");
}

/// What the gate gives the bench program and what must come out, and the samples.
#[test]
fn stored_inputs() {
    let file = |name: &str| {
        std::fs::read(format!("{}/../../{name}", env!("CARGO_MANIFEST_DIR"))).expect(name)
    };
    assert_eq!(line(&file("crates/bench/stdin")).as_bytes(), file("crates/bench/stdout"));
    for (sample, text) in [
        ("samples/indicator.bin", "admitted words 4 left 1 0 right 0 1"),
        ("samples/routine.bin", "admitted words 6 left 1 0 right 0 1"),
        ("samples/chooser.bin", "admitted words 6 left 1 0 right 0 1"),
        ("samples/carry.bin", "admitted words 8 left 1 0 right 0 1"),
        ("samples/odometer.bin", "refused 28 depth 0 address 3"),
        ("samples/levels.bin", "refused 25 depth 0 address 6"),
    ] {
        assert_eq!(line(&file(sample)), format!("{text}\n"));
        let said = String::from_utf8(file("samples/README.md")).expect("text");
        assert!(said.contains(&format!("The bench prints `{text}`")), "{sample}");
    }
    // The word at 6 mended.
    let mut levels = file("samples/levels.bin");
    levels[128 + 13] = 9;
    assert_eq!(line(&levels), "refused 24 depth 1 address 1\n");
}
