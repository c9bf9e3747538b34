//! The listing page (2026-06): lines written by hand from the papers, the
//! questions at the door, and all words by a second way to form their lines.

use riptide_reference::cases::{pages, Bytes};
use riptide_reference::digest::{lcg_bytes, Digest};
use riptide_reference::listing::{line_of, list, page_of, printed};
use riptide_reference::programs::bytes_of;
use std::collections::{BTreeMap, BTreeSet, HashMap};

fn text(bytes: &[u8]) -> &str {
    std::str::from_utf8(bytes).expect("text")
}

/// The word of these bits, in groups as the manual writes them.
fn bits(text: &str) -> u16 {
    let digits: String = text.chars().filter(|c| *c != ' ').collect();
    assert_eq!(digits.len(), 16, "{text}");
    u16::from_str_radix(&digits, 2).unwrap()
}

/// Addresses, words and their lines, all written by hand.
fn check(lines: &[(usize, &str, &str)]) {
    for &(address, word, line) in lines {
        assert_eq!(line.len(), 32, "{line}");
        assert_eq!(text(&line_of(address, bits(word))), line, "{word}");
    }
}

#[test]
fn lines_of_opcodes_0_to_3() {
    check(&[
        (0, "000 00001 010 00000", "00000 000500 MOVE 01 2 00      \n"),
        (1, "000 00011 000 01111", "00001 001417 MOVE 03 0 17      \n"),
        (2, "000 01001 011 10101", "00002 004565 MOVE 11 3 25      \n"),
        (7, "000 11011 011 00110", "00007 015546 MOVE 33 3 06      \n"),
        (8, "000 10010 011 10101", "00010 011165 MOVE 22 3 25      \n"),
        (63, "000 10100 011 00111", "00077 012147 MOVE 24 3 07      \n"),
        (64, "001 00001 100 00011", "00100 020603 ADD  01 4 03      \n"),
        (511, "001 10111 100 01001", "00777 033611 ADD  27 4 11      \n"),
        (512, "001 01000 111 11111", "01000 024377 ADD  10 7 37      \n"),
        (100, "010 00110 001 10000", "00144 043060 AND  06 1 20      \n"),
        (4095, "010 10111 100 01111", "07777 053617 AND  27 4 17      \n"),
        (4096, "011 00000 101 00000", "10000 060240 XOR  00 5 00      \n"),
        (8190, "011 11111 110 11000", "17776 077730 XOR  37 6 30      \n"),
    ]);
}

#[test]
fn lines_of_xec_and_nzt() {
    check(&[
        (3, "100 00011 11001101", "00003 101715 XEC  03 315       \n"),
        (4, "100 10100 011 10110", "00004 112166 XEC  24 3 26      \n"),
        (5, "100 00000 00000000", "00005 100000 XEC  00 000       \n"),
        (6, "100 01001 11111111", "00006 104777 XEC  11 377       \n"),
        (7, "100 10000 001 00000", "00007 110040 XEC  20 1 00      \n"),
        (8, "100 11111 101 11111", "00010 117677 XEC  37 5 37      \n"),
        (9, "101 00110 00110010", "00011 123062 NZT  06 062       \n"),
        (10, "101 01000 10000000", "00012 124200 NZT  10 200       \n"),
        (11, "101 10101 001 01101", "00013 132455 NZT  25 1 15      \n"),
        // Eight bits: L is the digit in the word.
        (12, "101 11000 000 00001", "00014 134001 NZT  30 0 01      \n"),
        (13, "101 11111 111 11111", "00015 137777 NZT  37 7 37      \n"),
    ]);
}

#[test]
fn lines_of_call_and_ret() {
    check(&[
        (14, "101 00111 00110100", "00016 123464 CALL 064          \n"),
        (15, "101 00111 00000000", "00017 123400 CALL 000          \n"),
        (16, "101 00111 11111111", "00020 123777 CALL 377          \n"),
        (17, "101 01111 00000000", "00021 127400 RET  000          \n"),
        // Valid with every low byte (2026-01).
        (18, "101 01111 10000001", "00022 127601 RET  201          \n"),
        (19, "101 01111 11111111", "00023 127777 RET  377          \n"),
    ]);
}

#[test]
fn lines_of_xmit_and_jmp() {
    check(&[
        (20, "110 00000 11111111", "00024 140377 XMIT 00 377       \n"),
        (21, "110 00111 00101011", "00025 143453 XMIT 07 053       \n"),
        (22, "110 01001 00000111", "00026 144407 XMIT 11 007       \n"),
        (23, "110 01111 00001001", "00027 147411 XMIT 17 011       \n"),
        (24, "110 10101 100 00110", "00030 152606 XMIT 25 4 06      \n"),
        (25, "110 11111 000 11111", "00031 157437 XMIT 37 0 37      \n"),
        (26, "111 0000101001010", "00032 160512 JMP  00512        \n"),
        (27, "111 0000000000000", "00033 160000 JMP  00000        \n"),
        (28, "111 1000000000000", "00034 170000 JMP  10000        \n"),
    ]);
}

#[test]
fn invalid_words_have_no_operands() {
    check(&[
        (0, "000 00000 000 01000", "00000 000010 ????              \n"),
        (1, "000 00111 000 00000", "00001 003400 ????              \n"),
        (2, "001 01010 000 00001", "00002 025001 ????              \n"),
        (3, "001 00000 000 01010", "00003 020012 ????              \n"),
        (4, "010 01111 111 11111", "00004 047777 ????              \n"),
        (5, "010 10000 000 01110", "00005 050016 ????              \n"),
        (6, "011 01110 010 00000", "00006 067100 ????              \n"),
        (7, "011 00000 000 01000", "00007 060010 ????              \n"),
        // XEC of a bank with L of 0, 6 and 7, and of 07 and 17.
        (8, "100 10100 000 10110", "00010 112026 ????              \n"),
        (9, "100 10100 110 10110", "00011 112326 ????              \n"),
        (10, "100 11111 111 11111", "00012 117777 ????              \n"),
        (11, "100 00111 00000000", "00013 103400 ????              \n"),
        (12, "100 01111 00000001", "00014 107401 ????              \n"),
        (13, "101 01010 00000000", "00015 125000 ????              \n"),
        (14, "101 01110 11111111", "00016 127377 ????              \n"),
        (15, "110 01000 00000001", "00017 144001 ????              \n"),
        (8191, "110 01110 00000000", "17777 147000 ????              \n"),
    ]);
}

#[test]
fn first_and_last_address_and_word() {
    check(&[
        (0, "000 00000 000 00000", "00000 000000 MOVE 00 0 00      \n"),
        (8191, "000 00000 000 00000", "17777 000000 MOVE 00 0 00      \n"),
        (0, "111 1111111111111", "00000 177777 JMP  17777        \n"),
        (8191, "111 1111111111111", "17777 177777 JMP  17777        \n"),
    ]);
}

/// Listings of two samples, written by hand.
#[test]
fn samples_by_hand() {
    let file = |name: &str| {
        std::fs::read(format!("{}/../../samples/{name}", env!("CARGO_MANIFEST_DIR"))).expect(name)
    };
    let indicator = "\
        00000 143405 XMIT 07 005       \n\
        00001 147411 XMIT 17 011       \n\
        00002 013477 MOVE 27 1 37      \n\
        00003 160002 JMP  00002        \n";
    let routine = "\
        00000 143405 XMIT 07 005       \n\
        00001 147411 XMIT 17 011       \n\
        00002 123404 CALL 004          \n\
        00003 160002 JMP  00002        \n\
        00004 013477 MOVE 27 1 37      \n\
        00005 127601 RET  201          \n";
    for (name, page) in [("indicator", indicator), ("routine", routine)] {
        assert_eq!(text(&file(&format!("{name}.lst"))), page);
        let sample = file(&format!("{name}.bin"));
        assert_eq!(text(&printed(&sample[128..])), page);
    }
}

/// A call with these lengths. Where it is refused nothing moved, else the page
/// is that of the image, whatever was there before.
fn called(image: usize, page: usize) -> u8 {
    let image = lcg_bytes(7, image);
    let numbers = [0x00, 0xa5].map(|before| {
        let mut bytes = vec![before; page];
        let number = list(&image, &mut bytes);
        let after = if number == 0 { page_of(&image) } else { vec![before; page] };
        assert!(bytes == after, "{} {page}", image.len());
        number
    });
    assert_eq!(numbers[0], numbers[1]);
    numbers[0]
}

#[test]
fn question_11_comes_first() {
    for image in [0, 1, 3, 16_383, 16_385, 16_386, 32_768] {
        for page in [0, 1, 31, 32, 33, 262_144, image / 2 * 32, 16 * image, 16 * image + 1] {
            assert_eq!(called(image, page), 11, "{image} {page}");
        }
    }
}

#[test]
fn then_the_page_has_32_bytes_for_each_word() {
    for (image, page) in (1..=5).flat_map(|n| (0..200).map(move |page| (2 * n, page))) {
        let number = if page == 16 * image { 0 } else { 41 };
        assert_eq!(called(image, page), number, "{image} {page}");
    }
    for page in [0, 32, 16_384, 262_112, 262_143, 262_145, 262_176, 524_288] {
        assert_eq!(called(16_384, page), 41, "{page}");
    }
    assert_eq!(called(16_384, 262_144), 0);
    assert_eq!(called(16_382, 262_112), 0);
}

#[test]
fn what_the_program_prints() {
    for length in [0, 1, 3, 16_383, 16_385, 16_386, 65_536] {
        assert_eq!(text(&printed(&lcg_bytes(8, length))), "refused 11\n", "{length}");
    }
    assert_eq!(text(&printed(&[0xe0, 0x02])), "00000 160002 JMP  00002        \n");
    for length in [2, 4, 926, 16_382, 16_384] {
        let image = lcg_bytes(8, length);
        let mut page = vec![0; 16 * length];
        assert_eq!(list(&image, &mut page), 0);
        assert!(printed(&image) == page, "{length}");
    }
}

/// The kinds of words as document 01 lays out their bits: digits are fixed bits,
/// letters are fields. RET is that of 2026-01.
const KINDS: [(&str, &str); 13] = [
    ("MOVE", "000 sssss lll ddddd"),
    ("ADD", "001 sssss lll ddddd"),
    ("AND", "010 sssss lll ddddd"),
    ("XOR", "011 sssss lll ddddd"),
    ("XEC", "100 rrrrr iiiiiiii"),
    ("XEC", "100 bbbbb nnn iiiii"),
    ("NZT", "101 rrrrr iiiiiiii"),
    ("NZT", "101 bbbbb lll iiiii"),
    ("CALL", "101 00111 iiiiiiii"),
    ("RET", "101 01111 iiiiiiii"),
    ("XMIT", "110 wwwww iiiiiiii"),
    ("XMIT", "110 bbbbb lll iiiii"),
    ("JMP", "111 aaaaaaaaaaaaa"),
];

const READ: &str = "00 01 02 03 04 05 06 10 11";
const WRITTEN: &str = "00 01 02 03 04 05 06 07 11 17";
const BANKS: &str = "20 21 22 23 24 25 26 27 30 31 32 33 34 35 36 37";

/// Whether a field of that letter may have this octal number.
fn may_be(letter: char, number: &str) -> bool {
    let among = |list: &str| list.split(' ').any(|one| one == number);
    match letter {
        'r' => among(READ),
        'w' => among(WRITTEN),
        'b' => among(BANKS),
        's' => among(READ) || among(BANKS),
        'd' => among(WRITTEN) || among(BANKS),
        'n' => among("1 2 3 4 5"),
        _ => true,
    }
}

/// Binary digits in octal, three for one from the right.
fn octal(binary: &str) -> String {
    let count = binary.len().div_ceil(3);
    let whole = "0".repeat(3 * count - binary.len()) + binary;
    let digit = |n: usize| match &whole[3 * n..3 * n + 3] {
        "000" => '0',
        "001" => '1',
        "010" => '2',
        "011" => '3',
        "100" => '4',
        "101" => '5',
        "110" => '6',
        _ => '7',
    };
    (0..count).map(digit).collect()
}

/// The fields of a layout with one space between, if the bits fit it.
fn fields(bits: &str, layout: &str) -> Option<String> {
    let (mut rest, mut numbers) = (bits, Vec::new());
    for group in layout.split(' ') {
        let (here, behind) = rest.split_at(group.len());
        rest = behind;
        let letter = group.chars().next()?;
        if letter.is_ascii_digit() {
            if here != group {
                return None;
            }
        } else if may_be(letter, &octal(here)) {
            numbers.push(octal(here));
        } else {
            return None;
        }
    }
    Some(numbers.join(" "))
}

/// Mnemonic and operands straight from the bits.
fn named(word: u16) -> (&'static str, String) {
    let bits = format!("{word:016b}");
    let fit = |(name, layout): &(&'static str, &str)| Some((*name, fields(&bits, layout)?));
    let found: Vec<_> = KINDS.iter().filter_map(fit).collect();
    assert!(found.len() <= 1, "{word:06o}");
    found.first().cloned().unwrap_or(("????", String::new()))
}

/// The second way: a line of spaces into which the columns are put.
fn second_line(address: usize, word: u16) -> [u8; 32] {
    let (name, operands) = named(word);
    let (address, word) = (octal(&format!("{address:013b}")), octal(&format!("{word:016b}")));
    let mut line = [b' '; 32];
    for (column, text) in [(1, address), (7, word), (14, name.to_string()), (19, operands)] {
        line[column - 1..][..text.len()].copy_from_slice(text.as_bytes());
    }
    line[31] = 10;
    line
}

fn second_page(image: &[u8]) -> Vec<u8> {
    let words = image.chunks(2).map(|b| 256 * u16::from(b[0]) + u16::from(b[1]));
    words.enumerate().flat_map(|(address, word)| second_line(address, word)).collect()
}

/// The word that a mnemonic and operands stand for.
fn word_of(name: &str, operands: &str) -> u16 {
    let number = |text| u16::from_str_radix(text, 8).expect("octal");
    let numbers: Vec<u16> = operands.split_whitespace().map(number).collect();
    let opcodes = ["MOVE", "ADD", "AND", "XOR", "XEC", "NZT", "XMIT"];
    let opcode = || opcodes.iter().position(|&one| one == name).expect("a mnemonic") as u16;
    match (name, &numbers[..]) {
        ("CALL", &[i]) => 0o123400 + i,
        ("RET", &[i]) => 0o127400 + i,
        ("JMP", &[a]) => 0o160000 + a,
        (_, &[a, i]) => opcode() * 0o20000 + a * 0o400 + i,
        (_, &[a, b, c]) => opcode() * 0o20000 + a * 0o400 + b * 0o40 + c,
        _ => panic!("{name} {operands}"),
    }
}

/// The columns of a line, read by themselves; the mnemonic and the operands.
fn read_back(line: &[u8], address: usize, word: u16) -> (&str, &str) {
    assert_eq!(line.len(), 32);
    assert_eq!(line[31], b'\n');
    assert_eq!([line[5], line[12], line[17]], [b' '; 3]);
    let line = text(line);
    assert_eq!(usize::from_str_radix(&line[..5], 8), Ok(address), "{line}");
    assert_eq!(u16::from_str_radix(&line[6..12], 8), Ok(word), "{line}");
    let (name, operands) = (line[13..17].trim_end(), line[18..31].trim_end());
    if name == "????" {
        assert_eq!(operands, "");
    } else {
        assert_eq!(word_of(name, operands), word, "{line}");
    }
    (name, operands)
}

/// All words, in eight images of 8,192; how many have each mnemonic.
#[test]
fn all_words_by_the_second_way() {
    let mut counts = BTreeMap::new();
    for first in (0..=65_535u16).step_by(8192) {
        let words: Vec<u16> = (0..8192).map(|n| first + n).collect();
        let mut page = vec![0xa5; 262_144];
        assert_eq!(list(&bytes_of(&words), &mut page), 0);
        for (address, &word) in words.iter().enumerate() {
            let line = &page[32 * address..32 * address + 32];
            assert_eq!(text(line), text(&second_line(address, word)));
            let (name, operands) = read_back(line, address, word);
            assert_eq!((name, operands), (named(word).0, &named(word).1[..]));
            *counts.entry(name.to_string()).or_insert(0) += 1;
        }
    }
    let expected = [
        ("????", 18_112),
        ("ADD", 25 * 8 * 26),
        ("AND", 25 * 8 * 26),
        ("CALL", 256),
        ("JMP", 8192),
        ("MOVE", 25 * 8 * 26),
        ("NZT", 9 * 256 + 16 * 256),
        ("RET", 256),
        ("XEC", 9 * 256 + 16 * 5 * 32),
        ("XMIT", 10 * 256 + 16 * 256),
        ("XOR", 25 * 8 * 26),
    ];
    assert_eq!(counts, expected.map(|(name, count)| (name.to_string(), count)).into());
}

/// A line depends on its own word and address alone.
#[test]
fn lines_stand_by_themselves() {
    for seed in 0..20 {
        let image = lcg_bytes(seed, 2 * (1 + 409 * seed as usize));
        assert!(page_of(&image) == second_page(&image), "{seed}");
    }
    for (address, word) in (0..8192).flat_map(|a| [0x0000, 0x0008, 0xffff].map(|word| (a, word))) {
        assert_eq!(text(&line_of(address, word)), text(&second_line(address, word)));
    }
}

/// What the image for the program `list` has.
#[test]
fn the_stored_image_has_every_kind() {
    let image = pages::printed_image();
    let words: Vec<u16> = image.chunks(2).map(|b| u16::from_be_bytes([b[0], b[1]])).collect();
    assert!(words.len() <= 120, "{}", words.len());
    assert!(printed(&image) == second_page(&image));
    // 0, 177777, JMP 0, RET with zeros and ones.
    let ends = [0x0000, 0xffff, 0xe000, 0xaf00, 0xafff];
    // The examples of the request: 01 2 00, 03 315, 24 3 26.
    let examples = ["000 00001 010 00000", "100 00011 11001101", "100 10100 011 10110"].map(bits);
    assert!(ends.iter().chain(&examples).all(|word| words.contains(word)));
    let mut found = BTreeSet::new();
    for &word in &words {
        let (name, operands) = named(word);
        let numbers: Vec<&str> = operands.split(' ').collect();
        match (name, &numbers[..]) {
            ("????", _) if word / 8192 == 4 && word & 0x1000 != 0 => {
                found.insert(format!("???? XEC bank L {}", word / 32 % 8))
            }
            ("????", _) => found.insert(format!("???? {}", word / 8192)),
            (_, [_, l, _]) => found.insert(format!("{name} L {l}")),
            _ => found.insert(format!("{name} {}", operands.len())),
        };
    }
    let lengths = ["MOVE", "ADD", "AND", "XOR", "NZT", "XMIT"];
    let mut expected: BTreeSet<String> =
        lengths.iter().flat_map(|name| (0..8).map(move |l| format!("{name} L {l}"))).collect();
    expected.extend((1..=5).map(|l| format!("XEC L {l}")));
    expected.extend((0..=6).map(|opcode| format!("???? {opcode}")));
    expected.extend([0, 6, 7].map(|l| format!("???? XEC bank L {l}")));
    expected.extend(["XEC 6", "NZT 6", "XMIT 6", "CALL 3", "RET 3", "JMP 5"].map(String::from));
    assert_eq!(found, expected);
}

/// The lines of the gate's program, read back: numbers by the words of the
/// request, pages by the second way.
#[test]
fn stored_calls_are_met() {
    let file = |name: &str| {
        let path = format!("{}/../../crates/check_library/{name}", env!("CARGO_MANIFEST_DIR"));
        std::fs::read_to_string(&path).expect(name)
    };
    let (given, gives) = (file("stdin"), file("stdout"));
    assert!(given.len() < 65_000, "{}", given.len());
    let mut outputs = gives.lines().skip_while(|line| !line.starts_with("list "));
    let mut counts = HashMap::new();
    for line in given.lines().skip_while(|line| !line.starts_with("list ")) {
        let parts: Vec<&str> = line.split(' ').collect();
        let value = |key: &str| {
            let found = parts.iter().find_map(|part| part.strip_prefix(key)?.strip_prefix('='));
            found.unwrap_or_else(|| panic!("{key} in {line}"))
        };
        let count = |key: &str| value(key).parse::<usize>().unwrap();
        let image = match parts[0] {
            "block" => {
                (0..8192).flat_map(|n| ((count("first") + n) as u16).to_be_bytes()).collect()
            }
            _ => Bytes::parse(value("image")).unwrap().expand(),
        };
        let page_bytes = if parts[0] == "list" { count("page") } else { 16 * image.len() };
        let number = if image.is_empty() || image.len() % 2 != 0 || image.len() > 16_384 {
            11
        } else if page_bytes != 16 * image.len() {
            41
        } else {
            0
        };
        let page = if number == 0 { second_page(&image) } else { vec![0xa5; page_bytes] };
        let first = format!("{} {} number={number:016x}", parts[0], parts[1]);
        if parts[0] == "tail" {
            assert_eq!(outputs.next(), Some(&first[..]));
            for shown in page[page.len() - 32 * count("lines")..].chunks(32) {
                assert_eq!(outputs.next(), text(shown).strip_suffix('\n'));
            }
        } else {
            let digest = format!("{first} page_digest={}", Digest::text(&page));
            assert_eq!(outputs.next(), Some(&digest[..]));
        }
        *counts.entry((parts[0], number)).or_insert(0) += 1;
    }
    assert_eq!(outputs.next(), None);
    let expected =
        [("list", 0, 12), ("list", 11, 10), ("list", 41, 10), ("block", 0, 8), ("tail", 0, 5)];
    assert_eq!(counts, expected.map(|(kind, number, count)| ((kind, number), count)).into());
}
