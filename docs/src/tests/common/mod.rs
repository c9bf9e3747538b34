//! Helpers that several tests share.
#![allow(dead_code)]

use riptide_reference::machine::{step, Image, State};
use riptide_reference::map::Map;
use riptide_reference::table::{admit, Admission};

pub const ALL: [u8; 128] = [0xff; 128];

/// One step of a word that stands at every address of an image of 8,192: the state
/// and what the word did. The addresses in the record are those of the state before.
pub fn one(word: u16, state: State, bus: [u8; 2]) -> (State, [u8; 4]) {
    one_with(&ALL, word, state, bus)
}

pub fn one_with(map: &[u8], word: u16, mut state: State, bus: [u8; 2]) -> (State, [u8; 4]) {
    let bytes = word.to_be_bytes().repeat(8192);
    let (image, map) = (Image::new(&bytes).unwrap(), Map::new(map).unwrap());
    let (pc, fetch) = (state.pc, state.fetch_address() as u16);
    let record = step(&image, &map, &mut state, bus).expect("not stopped");
    assert_eq!(record[4..6], pc.to_le_bytes());
    assert_eq!(record[6..8], fetch.to_le_bytes());
    (state, record[..4].try_into().unwrap())
}

/// The state after reset.
pub fn fresh() -> State {
    State::default()
}

/// Admission of words with a table of the right length.
pub fn admit_words(words: &[u16], map: &[u8]) -> (Admission, Vec<u8>) {
    let image = riptide_reference::programs::bytes_of(words);
    let mut table = vec![0xa5; 144 * words.len()];
    let answer = admit(&image, map, &mut table);
    (answer, table)
}
