//! The sets counted by address, by bytes and by words of eight bytes (2026-05).

use riptide_reference::digest::lcg_bytes;
use riptide_reference::map::{counts, counts_by_words};

fn by_bytes(map: &[u8]) -> [usize; 4] {
    [0, 1, 2, 3].map(|set| map[32 * set..32 * set + 32].iter().map(|byte| ones(*byte)).sum())
}

fn ones(byte: u8) -> usize {
    byte.count_ones() as usize
}

/// The three counts, which are equal.
fn counted(map: &[u8]) -> [usize; 4] {
    let found = by_bytes(map);
    assert_eq!((counts(map), counts_by_words(map)), (Ok(found), Ok(found)), "{map:02x?}");
    found
}

/// Set `set` of size `one`, the others of size `rest`.
fn only(set: usize, one: usize, rest: usize) -> [usize; 4] {
    let mut sizes = [rest; 4];
    sizes[set] = one;
    sizes
}

#[test]
fn one_bit_counts_once_and_in_its_own_set() {
    for bit in 0..1024 {
        let mut map = [0; 128];
        map[bit / 8] = 1 << (bit % 8);
        assert_eq!(counted(&map), only(bit / 256, 1, 0), "bit {bit}");
        assert_eq!(counted(&map.map(|byte| !byte)), only(bit / 256, 255, 256), "bit {bit}");
    }
}

#[test]
fn each_byte_at_each_place() {
    for (place, value) in (0..128).flat_map(|place| (0..=255).map(move |value| (place, value))) {
        let mut map = [0; 128];
        map[place] = value;
        assert_eq!(counted(&map), only(place / 32, ones(value), 0), "{value} at {place}");
    }
}

#[test]
fn maps_of_the_generator() {
    for seed in 0..100_000 {
        counted(&lcg_bytes(seed, 128));
    }
}

#[test]
fn other_lengths_give_12() {
    for length in 0..=300 {
        let map = lcg_bytes(9, length);
        if length == 128 {
            counted(&map);
        } else {
            assert_eq!((counts(&map), counts_by_words(&map)), (Err(12), Err(12)), "{length}");
        }
    }
}

/// The law of the request by itself, for either order of the bytes.
#[test]
fn the_ones_of_a_word_are_those_of_its_bytes() {
    for eight in lcg_bytes(2026, 800_000).chunks_exact(8) {
        let eight: [u8; 8] = eight.try_into().unwrap();
        let sum = eight.map(u8::count_ones).iter().sum::<u32>();
        assert_eq!(u64::from_le_bytes(eight).count_ones(), sum, "{eight:02x?}");
        assert_eq!(u64::from_be_bytes(eight).count_ones(), sum, "{eight:02x?}");
    }
}
