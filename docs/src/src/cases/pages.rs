//! Listing pages (2026-06): calls of `riptide_list` with the digests of their
//! pages, the last lines of some pages, and the image for the program `list`.

use super::library::entry;
use super::{Bytes, Entry, FILLER};
use crate::listing::{list, LINE_BYTES};
use crate::programs::{assemble, bytes_of};
use crate::word::{Word, Word::*};

/// The number that a call gives, and the lent page afterwards.
fn listed(image: &[u8], page_bytes: usize) -> (u64, Vec<u8>) {
    let mut page = vec![FILLER; page_bytes];
    let number = list(image, &mut page);
    (number.into(), page)
}

/// The length of the page that an image wants.
fn fitting(image: &Bytes) -> usize {
    LINE_BYTES / 2 * image.expand().len()
}

/// A call with a page of this many bytes.
fn call(name: &str, image: &Bytes, page_bytes: usize) -> Entry {
    let (number, page) = listed(&image.expand(), page_bytes);
    let given = vec![("image", image.text()), ("page", page_bytes.to_string())];
    entry("list", name, given, number).with_digest("page_digest", &page)
}

/// Images of one word to 8,192, any words and valid ones.
fn whole() -> Vec<Entry> {
    let any = |seed, count: usize| Bytes::Lcg { seed, count: 2 * count };
    let valid = |seed, count| Bytes::Valid { seed, count };
    let images = [
        ("one-word", Bytes::Hex(vec![0xe0, 0x00])),
        ("one-invalid", Bytes::Hex(vec![0x00, 0x08])),
        ("two-words", any(21, 2)),
        ("any-9", any(22, 9)),
        ("any-600", any(23, 600)),
        ("any-8192", any(24, 8192)),
        ("valid-33", valid(25, 33)),
        ("valid-1025", valid(26, 1025)),
        ("valid-8191", valid(27, 8191)),
        ("valid-8192", valid(28, 8192)),
        ("zeros-65", Bytes::Fill { word: 0x0000, count: 65 }),
        ("returns-513", Bytes::Fill { word: 0xafff, count: 513 }),
    ];
    images.iter().map(|(name, image)| call(name, image, fitting(image))).collect()
}

/// Calls refused for the lengths of what is lent: bytes of the image, bytes of
/// the page. An image refused has pages of 16 for each byte, and others.
fn doors() -> Vec<Entry> {
    let lent = [
        ("door-11-empty", 0, 0),
        ("door-11-empty-line", 0, 32),
        ("door-11-byte", 1, 16),
        ("door-11-byte-none", 1, 0),
        ("door-11-byte-line", 1, 32),
        ("door-11-odd", 3, 48),
        ("door-11-odd-line", 3, 32),
        ("door-11-long-odd", 16_385, 262_160),
        ("door-11-long", 16_386, 262_176),
        ("door-11-long-none", 16_386, 0),
        ("door-41-none", 2, 0),
        ("door-41-byte-less", 2, 31),
        ("door-41-byte-more", 2, 33),
        ("door-41-line-more", 2, 64),
        ("door-41-line-less", 6, 64),
        ("door-41-as-image", 64, 64),
        ("door-41-long-byte-less", 16_384, 262_143),
        ("door-41-long-byte-more", 16_384, 262_145),
        ("door-41-long-line-less", 16_384, 262_112),
        ("door-41-long-line-more", 16_384, 262_176),
    ];
    let image = |count| match count {
        0 => Bytes::Hex(vec![]),
        _ => Bytes::Lcg { seed: 29, count },
    };
    lent.into_iter().map(|(name, count, page)| call(name, &image(count), page)).collect()
}

/// The 8,192 words from `first` on; eight of these are all words.
fn block(first: u16) -> Entry {
    let words: Vec<u16> = (0..8192).map(|n| first.wrapping_add(n)).collect();
    let (number, page) = listed(&bytes_of(&words), LINE_BYTES * words.len());
    let given = vec![("first", first.to_string())];
    entry("block", &format!("opcode{}", first / 8192), given, number)
        .with_digest("page_digest", &page)
}

/// A whole page, of which the last lines come out as they are.
fn tail(name: &str, image: &Bytes, lines: usize) -> Entry {
    let (number, page) = listed(&image.expand(), fitting(image));
    let given = vec![("image", image.text()), ("lines", lines.to_string())];
    let page = String::from_utf8(page).expect("a page is text");
    let first = page.lines().count() - lines;
    let below = page.lines().skip(first).map(str::to_string).collect();
    Entry { below, ..entry("tail", name, given, number) }
}

/// Pages for the eye: the last address, one word, the request's own examples,
/// and lines of generated images.
fn tails() -> Vec<Entry> {
    let image = |words: &[u16]| Bytes::Hex(bytes_of(words));
    vec![
        tail("ones", &Bytes::Fill { word: 0xffff, count: 8192 }, 2),
        tail("one-word", &image(&[0x0140]), 1),
        tail("papers", &image(&[0x0140, 0x83cd, 0x9476, 0xaf81, 0x0008]), 4),
        tail("valid", &Bytes::Valid { seed: 30, count: 8192 }, 16),
        tail("any", &Bytes::Lcg { seed: 31, count: 16_384 }, 16),
    ]
}

/// All calls.
pub fn entries() -> Vec<Entry> {
    let blocks = (0..8).map(|opcode| block(8192 * opcode)).collect();
    [whole(), doors(), blocks, tails()].concat()
}

const SOURCE_REGISTERS: [u16; 9] = [0, 1, 2, 3, 4, 5, 6, 0o10, 0o11];
const TARGET_REGISTERS: [u16; 10] = [0, 1, 2, 3, 4, 5, 6, 0o07, 0o11, 0o17];

/// Opcodes 0-3, each with R or L from 0 to 7 and with the highest fields. Every
/// S and every D is there, and the request's own example.
fn moves() -> Vec<u16> {
    let banks = || 0o20..=0o37;
    let sources: Vec<u16> = SOURCE_REGISTERS.into_iter().chain(banks()).collect();
    let targets: Vec<u16> = TARGET_REGISTERS.into_iter().chain(banks()).collect();
    let word = |n: usize| {
        let (rl, s, d) = ((n % 8) as u16, sources[n % 25], targets[5 * n % 26]);
        [Move { s, rl, d }, Add { s, rl, d }, And { s, rl, d }, Xor { s, rl, d }][n / 8]
    };
    let (s, rl, d) = (0o37, 7, 0o37);
    let mut words: Vec<Word> = (0..32).map(word).collect();
    words.extend([Move { s, rl, d }, Add { s, rl, d }, And { s, rl, d }, Xor { s, rl, d }]);
    words.push(Move { s: 0o01, rl: 2, d: 0 });
    assemble(&words)
}

/// XEC and NZT, CALL and RET.
fn control() -> Vec<u16> {
    let lengths = |l: u16| NztBank { s: 0o20 + 15 * l / 7, l, i: 31 * l / 7 };
    let mut words = vec![
        XecRegister { s: 0, i: 0 },
        XecRegister { s: 0o03, i: 0o315 },
        XecRegister { s: 0o10, i: 0o200 },
        XecRegister { s: 0o11, i: 0o377 },
        XecBank { s: 0o20, l: 1, i: 0 },
        XecBank { s: 0o27, l: 2, i: 0o37 },
        XecBank { s: 0o24, l: 3, i: 0o26 },
        XecBank { s: 0o30, l: 4, i: 0o01 },
        XecBank { s: 0o37, l: 5, i: 0o37 },
        NztRegister { s: 0, i: 0 },
        NztRegister { s: 0o06, i: 0o062 },
        NztRegister { s: 0o10, i: 0o100 },
        NztRegister { s: 0o11, i: 0o377 },
    ];
    words.extend((0..8).map(lengths));
    words.extend([0, 0o064, 0o377].map(|i| Call { i }));
    words.extend([0, 1, 0o201, 0o377].map(|i| Ret { i }));
    assemble(&words)
}

/// XMIT and JMP.
fn constants() -> Vec<u16> {
    let lengths = |l: u16| XmitBank { d: 0o37 - 15 * l / 7, l, i: 0o37 - 31 * l / 7 };
    let mut words = vec![
        XmitRegister { d: 0, i: 0o377 },
        XmitRegister { d: 0o06, i: 0 },
        XmitRegister { d: 0o07, i: 0o053 },
        XmitRegister { d: 0o11, i: 0o100 },
        XmitRegister { d: 0o17, i: 0o377 },
    ];
    words.extend((0..8).map(lengths));
    words.push(XmitBank { d: 0o37, l: 7, i: 0o37 });
    words.extend([0, 0o512, 0o10000, 0o17776, 0o17777].map(|a| Jmp { a }));
    assemble(&words)
}

/// Words that are invalid for an S, a D, or an XEC's L of 0, 6 or 7.
fn invalid() -> Vec<u16> {
    let three = |opcode: u16, a: u16, b: u16, c: u16| opcode * 8192 + a * 256 + b * 32 + c;
    let moves = (0..4).flat_map(|n| [three(n, 0o07, n, 0), three(n, 0, 7 - n, 0o10)]);
    let both = (0..4).map(|n| three(n, 0o12 + n, 7, 0o16 - n));
    let xec = [(0o20, 0), (0o27, 6), (0o24, 7), (0o30, 7), (0o35, 0), (0o37, 6)];
    let xec = xec.map(|(s, l)| three(4, s, l, 0o26));
    let others = [(4, 0o07), (4, 0o17), (4, 0o12), (5, 0o12), (5, 0o16), (6, 0o10), (6, 0o16)];
    let others = others.map(|(opcode, number)| three(opcode, number, 7, 0o37));
    moves.chain(both).chain(xec).chain(others).collect()
}

/// The image for the program `list`: every kind of word and every layout of
/// operands, with the lowest and highest fields. It begins with the word 0.
pub fn printed_image() -> Vec<u8> {
    bytes_of(&[moves(), control(), invalid(), constants()].concat())
}
