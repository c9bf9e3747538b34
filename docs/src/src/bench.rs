//! The line of the bench program for the bytes of its standard input.

use crate::map;
use crate::table::{admit, Verdict, DEPTHS, RECORD_BYTES};

/// The most bytes that the bench program takes: a map and 400 words.
pub const MOST_BYTES: usize = 928;

/// The line, ended by a line feed. Input is the map, then the image.
pub fn line(input: &[u8]) -> String {
    if input.len() < map::MAP_BYTES {
        return "refused 12\n".to_string();
    }
    if input.len() > MOST_BYTES {
        return "refused 18\n".to_string();
    }
    let (map_bytes, image) = input.split_at(map::MAP_BYTES);
    let words = image.len() / 2;
    let mut table = vec![0; DEPTHS * RECORD_BYTES * words];
    match admit(image, map_bytes, &mut table).verdict {
        Verdict::Refused(number) => format!("refused {number}\n"),
        Verdict::Finding { number, depth, address } => {
            format!("refused {number} depth {depth} address {address}\n")
        }
        Verdict::Admitted => admitted_line(words, map_bytes),
    }
}

fn admitted_line(words: usize, map_bytes: &[u8]) -> String {
    let [a, b, c, d] = map::counts(map_bytes).expect("the map has 128 bytes");
    format!("admitted words {words} left {a} {b} right {c} {d}\n")
}
