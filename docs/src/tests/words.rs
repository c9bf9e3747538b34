//! Decode and encode over all words and over fields inside and outside the lists.

use riptide_reference::word::{decode, encode, Word, Word::*};

#[test]
fn valid_words_come_back_equal() {
    let mut valid = [0usize; 8];
    for word in 0..=65_535u16 {
        let decoded = decode(word);
        if decoded != Invalid {
            valid[usize::from(word / 8192)] += 1;
            assert_eq!(encode(decoded), Ok(word));
        }
    }
    assert_eq!(valid, [5200, 5200, 5200, 5200, 4864, 6912, 6656, 8192]);
    assert_eq!(valid.iter().sum::<usize>(), 47_424);
    assert_eq!(encode(Invalid), Err(22));
}

/// What can be encoded comes back as the same fields; the rest gets 22.
fn accepted(words: impl Iterator<Item = Word>) -> usize {
    let mut good = 0;
    for word in words {
        match encode(word) {
            Ok(bits) => {
                assert_eq!(decode(bits), word);
                good += 1;
            }
            Err(number) => assert_eq!(number, 22),
        }
    }
    good
}

fn triples() -> impl Iterator<Item = (u16, u16, u16)> {
    let numbers = || (0..70).chain([255, 256, 4096, 65_535]);
    let lengths = || (0..20).chain([255, 256, 65_535]);
    numbers().flat_map(move |a| lengths().flat_map(move |b| numbers().map(move |c| (a, b, c))))
}

fn pairs() -> impl Iterator<Item = (u16, u16)> {
    (0..70).chain([256, 65_535]).flat_map(|a| (0..600).chain([65_535]).map(move |b| (a, b)))
}

#[test]
fn fields_outside_their_lists_get_22() {
    assert_eq!(accepted(triples().map(|(s, rl, d)| Move { s, rl, d })), 5200);
    assert_eq!(accepted(triples().map(|(s, rl, d)| Add { s, rl, d })), 5200);
    assert_eq!(accepted(triples().map(|(s, rl, d)| And { s, rl, d })), 5200);
    assert_eq!(accepted(triples().map(|(s, rl, d)| Xor { s, rl, d })), 5200);
    assert_eq!(accepted(pairs().map(|(s, i)| XecRegister { s, i })), 9 * 256);
    assert_eq!(accepted(triples().map(|(s, l, i)| XecBank { s, l, i })), 16 * 5 * 32);
    assert_eq!(accepted(pairs().map(|(s, i)| NztRegister { s, i })), 9 * 256);
    assert_eq!(accepted(triples().map(|(s, l, i)| NztBank { s, l, i })), 16 * 256);
    assert_eq!(accepted((0..=65_535).map(|i| Call { i })), 256);
    assert_eq!(accepted((0..=65_535).map(|i| Ret { i })), 256);
    assert_eq!(accepted(pairs().map(|(d, i)| XmitRegister { d, i })), 10 * 256);
    assert_eq!(accepted(triples().map(|(d, l, i)| XmitBank { d, l, i })), 16 * 256);
    assert_eq!(accepted((0..=65_535).map(|a| Jmp { a })), 8192);
}

#[test]
fn the_lists_of_numbers() {
    for number in 0..32u16 {
        let source = matches!(number, 0..=6 | 8 | 9 | 16..=31);
        let target = matches!(number, 0..=7 | 9 | 15 | 16..=31);
        assert_eq!(decode(number * 256) != Invalid, source, "S {number:o}");
        assert_eq!(decode(number) != Invalid, target, "D {number:o}");
        assert_eq!(decode(0xc000 + number * 256) != Invalid, target, "XMIT {number:o}");
        let nzt = source || number == 7 || number == 15;
        assert_eq!(decode(0xa000 + number * 256) != Invalid, nzt, "NZT {number:o}");
    }
}
