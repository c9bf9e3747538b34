//! The check of a table that came along (2026-09), against a second way of
//! deciding, admission, and runs.

mod common;
use common::admit_words;
use riptide_reference::cases::{holds, Bytes};
use riptide_reference::check::{check, read_table, Checked};
use riptide_reference::digest::{lcg_bytes, Random};
use riptide_reference::machine::{step, Image, State};
use riptide_reference::map::Map;
use riptide_reference::naive;
use riptide_reference::programs::*;
use riptide_reference::table::{least_table, swept, within, Table, Verdict};
use riptide_reference::word::Word::*;

type Named = (u8, usize, usize);
const ACCEPTED: Named = (0, 0, 0);

/// Number, depth and address, on which both ways agree.
fn checked(words: &[u16], map: &[u8], table: &[u8]) -> Named {
    let named = match check(&bytes_of(words), map, table) {
        Checked::Refused(number) => panic!("refused {number}"),
        Checked::Accepted => ACCEPTED,
        Checked::Failed { number, depth, address } => (number, depth, address),
    };
    assert_eq!(named, naive::check(words, map, table), "{words:04x?}");
    named
}

/// Whether each cell that one table reaches is reached in another and knows no
/// more there.
fn wider(table: &Table, least: &Table) -> bool {
    table.cells.iter().zip(&least.cells).all(|cells| match cells {
        (_, None) => true,
        (None, Some(_)) => false,
        (Some(facts), Some(low)) => facts.iter().zip(low).all(|(f, l)| f.is_none() || f == l),
    })
}

/// The cases for the library, worked out by hand.
#[test]
fn cases_by_hand() {
    let expected = [
        ("door-11-empty", 11, 0, 0),
        ("door-11-odd", 11, 0, 0),
        ("door-12", 12, 0, 0),
        ("door-13-short", 13, 0, 0),
        ("door-13-long", 13, 0, 0),
        ("least", 0, 0, 0),
        ("wider", 0, 0, 0),
        ("island", 0, 0, 0),
        ("island-return", 0, 0, 0),
        ("call", 0, 0, 0),
        ("layout-flag", 42, 3, 0),
        ("layout-finding", 42, 0, 1),
        ("layout-finding-unreached", 42, 4, 0),
        ("layout-mask", 42, 2, 0),
        ("layout-unknown-value", 42, 3, 1),
        ("layout-ovf", 42, 6, 0),
        ("layout-last-byte", 42, 8, 0),
        ("layout-unreached", 42, 7, 0),
        ("layout-before-finding", 42, 8, 1),
        ("layout-ones", 42, 0, 0),
        ("start-unreached", 43, 0, 0),
        ("start-aux", 43, 0, 0),
        ("start-right-address", 43, 0, 0),
        ("next-unreached", 43, 4, 1),
        ("next-knows-more", 43, 0, 1),
        ("finding-and-43", 28, 0, 1),
        ("43-before-finding", 43, 0, 1),
        ("finding-before-43", 25, 0, 1),
        ("depth-before-address", 43, 0, 1),
        ("return-unreached", 43, 1, 2),
        ("return-to-xec", 43, 1, 3),
        ("island-finding", 27, 0, 1),
    ];
    let found = holds::entries().into_iter().map(|entry| (entry.name, entry.gives[0].1.clone()));
    let line = |(name, number, depth, address): (&str, u64, u64, u64)| {
        (format!("hold {name}"), format!("{:016x}", number + 256 * depth + 65_536 * address))
    };
    assert_eq!(found.collect::<Vec<_>>(), expected.map(line));
}

/// The same cases, read back from their lines.
#[test]
fn both_ways_meet_the_cases() {
    for entry in holds::entries().iter().filter(|entry| !entry.name.contains("door")) {
        let lent = |k: usize| Bytes::parse(&entry.given[k].1).unwrap().expand();
        let words: Vec<u16> = lent(0).chunks(2).map(|b| u16::from_be_bytes([b[0], b[1]])).collect();
        let (number, depth, address) = checked(&words, &lent(1), &lent(2));
        let packed = usize::from(number) + 256 * depth + 65_536 * address;
        assert_eq!(entry.gives[0].1, format!("{packed:016x}"), "{}", entry.name);
    }
}

#[test]
fn the_door_comes_first() {
    let lent = |image: usize, map: usize, table: usize| {
        check(&vec![0xff; image], &vec![0xff; map], &vec![0xff; table])
    };
    for image in [0, 1, 3, 16_383, 16_385, 16_386] {
        assert_eq!(lent(image, 127, 1), Checked::Refused(11));
    }
    for map in [0, 127, 129] {
        assert_eq!(lent(2, map, 1), Checked::Refused(12));
    }
    for (image, table) in [(2, 0), (2, 143), (2, 145), (4, 144), (16_384, 1_179_632)] {
        assert_eq!(lent(image, 128, table), Checked::Refused(13));
    }
    assert_eq!(lent(2, 128, 144), Checked::Failed { number: 42, depth: 0, address: 0 });
}

/// Calls from two places, to two addresses, back to a loop in which R1 and R3
/// are no longer known.
fn calls() -> (Vec<u16>, [u8; 128]) {
    let words = [
        XmitRegister { d: 1, i: 7 },
        Call { i: 4 },
        Call { i: 5 },
        Jmp { a: 0 },
        XmitRegister { d: 3, i: 1 },
        Ret { i: 0 },
    ];
    (assemble(&words), map_of([&[], &[], &[], &[]]))
}

/// A sum, a bank that is read and one that is written, NZT and XEC.
fn sums() -> (Vec<u16>, [u8; 128]) {
    let words = [
        XmitRegister { d: 0o07, i: 5 },
        Move { s: 0o27, rl: 0, d: 1 },
        Add { s: 2, rl: 0, d: 2 },
        NztRegister { s: 1, i: 1 },
        XecBank { s: 0o26, l: 1, i: 6 },
        Jmp { a: 1 },
        Add { s: 1, rl: 3, d: 0 },
        Move { s: 2, rl: 4, d: 0o35 },
    ];
    (assemble(&words), map_of([&[5], &[], &[], &[0]]))
}

/// Whether one byte of a record that had the layout, put to another value,
/// takes the layout from it.
fn takes_layout(record: &[u8], byte: usize, value: u8) -> bool {
    let known = |k: usize| record[2 + k / 8] >> (k % 8) & 1 == 1;
    match byte {
        0 => value > 1 || value == 0 && record[2..].iter().any(|&b| b != 0),
        2 | 3 => {
            let first = 8 * (byte - 2);
            let lost = |k: usize| value >> (k - first) & 1 == 0 && record[4 + k] != 0;
            record[0] == 0 || byte == 3 && value > 7 || (first..11.min(first + 8)).any(lost)
        }
        4..=14 => !known(byte - 4) || byte == 12 && value > 1,
        _ => true,
    }
}

/// Every byte of an accepted table put to every other value. How many are
/// accepted, given 42, given 43, and given a finding.
fn damages(words: &[u16], map: &[u8]) -> [usize; 4] {
    let (least, _) = least_table(&bytes_of(words), map).unwrap();
    let table = least.bytes();
    assert_eq!(checked(words, map, &table), ACCEPTED);
    let mut tally = [0; 4];
    for (at, value) in (0..table.len()).flat_map(|at| (0..=255).map(move |value| (at, value))) {
        if table[at] == value {
            continue;
        }
        let (index, byte, mut damaged) = (at / 16, at % 16, table.clone());
        damaged[at] = value;
        let named = checked(words, map, &damaged);
        let there = (42, index / words.len(), index % words.len());
        let unlaid = takes_layout(&table[16 * index..][..16], byte, value);
        assert_eq!(named.0 == 42, unlaid, "{at} {value}");
        assert!(!unlaid || named == there, "{at} {value}");
        if named == ACCEPTED {
            // A fact was forgotten, or a cell is reached that was not.
            assert!(matches!(byte, 2 | 3) && table[at] & value == value || byte == 0 && value == 1);
            assert!(wider(&read_table(&damaged, words.len()).unwrap(), &least));
        }
        let class = [0, 42, 43].into_iter().position(|number| number == named.0);
        tally[class.unwrap_or(3)] += 1;
    }
    assert_eq!(tally.iter().sum::<usize>(), 255 * table.len());
    tally
}

#[test]
fn every_damage_of_a_byte() {
    let tallies = [calls(), sums()].map(|(words, map)| damages(&words, &map));
    assert_eq!(tallies, [[7, 205_246, 14_731, 336], [10, 280_666, 13_058, 26]]);
}

/// Words with many CALLs, RETs and XECs, or a program of blocks that call each
/// other; 1 to 40 words.
fn random_image(random: &mut Random) -> Vec<u16> {
    if random.chance(60) {
        let blocks = 1 + random.below(3);
        let mut words = random_program(random, blocks, 8);
        if random.chance(30) {
            damage(random, &mut words);
        }
        return words;
    }
    let count = 1 + random.below(40);
    let mut words = random_words(random, count, 1);
    for word in &mut words {
        let to = random.below(count) as u16;
        *word = match random.below(12) {
            0 | 1 => 0xa700 + to,
            2 => 0xaf00,
            3 => assemble(&[XecRegister { s: random.below(7) as u16, i: to }])[0],
            4 => assemble(&[XecBank { s: 0o27, l: 1 + to % 2, i: to % 32 }])[0],
            5 | 6 => 0xe000 + to,
            _ => *word,
        };
    }
    words
}

/// Runs from reset stay within the facts of an accepted table and do not stop.
fn stays_inside(words: &[u16], map: &[u8], table: &Table, seed: u32) {
    let image = bytes_of(words);
    let (image, map) = (Image::new(&image).unwrap(), Map::new(map).unwrap());
    let mut state = State::default();
    for pair in lcg_bytes(seed, 400).chunks(2) {
        assert!(within(table, &state), "{state:?}");
        step(&image, &map, &mut state, [pair[0], pair[1]]);
        assert_eq!(state.stop, 0);
    }
}

/// What holds of every table that is accepted.
fn is_sound(words: &[u16], map: &[u8], table: &[u8], seed: u32) {
    let image = bytes_of(words);
    let table = read_table(table, words.len()).unwrap();
    let (least, _) = least_table(&image, map).unwrap();
    assert!(wider(&table, &least));
    assert_eq!(swept(&image, map, table.clone()), Ok((table.clone(), 0)));
    assert_eq!(admit_words(words, map).0.verdict, Verdict::Admitted);
    stays_inside(words, map, &table, seed);
}

#[test]
fn tables_of_admission() {
    let mut random = Random(0x2610);
    let mut numbers = [0; 30];
    for seed in 0..3000 {
        let (words, map) = (random_image(&mut random), random_map(&mut random));
        let (answer, filled) = admit_words(&words, &map);
        let mut cleared = filled.clone();
        cleared.iter_mut().skip(1).step_by(16).for_each(|finding| *finding = 0);
        let named = checked(&words, &map, &cleared);
        match answer.verdict {
            Verdict::Finding { number, depth, address } => {
                assert_eq!(named, (number, depth, address));
                assert_eq!(checked(&words, &map, &filled), (42, depth, address));
            }
            verdict => {
                assert_eq!((verdict, named), (Verdict::Admitted, ACCEPTED));
                assert_eq!(filled, cleared);
                is_sound(&words, &map, &filled, seed);
            }
        }
        numbers[usize::from(named.0)] += 1;
    }
    assert!(numbers[0] > 500, "{numbers:?}");
    assert!((21..=29).all(|number| numbers[number] > 0), "{numbers:?}");
}

/// Forgets facts of some cells, seldom the bus addresses, a cell that is not
/// reached taking any facts first, and sweeps until none changes the table.
fn widened(random: &mut Random, words: &[u16], map: &[u8], mut table: Table) -> Table {
    let mut cells: Vec<usize> = (0..table.cells.len()).collect();
    if random.chance(80) {
        cells.retain(|&at| table.cells[at].is_some());
    }
    for _ in 0..1 + random.below(3) {
        let any = [(); 11].map(|()| Some(random.below(6) as u8));
        let facts = table.cells[random.pick(&cells)].get_or_insert(any);
        facts[8] = facts[8].map(|ovf| ovf % 2);
        let (percent, places) = (random.pick(&[10, 50, 100]), random.pick(&[9, 9, 9, 11]));
        let forgotten = facts[..places].iter_mut().filter(|_| random.chance(percent));
        forgotten.for_each(|fact| *fact = None);
    }
    swept(&bytes_of(words), map, table).unwrap().0
}

#[test]
fn wider_tables() {
    let mut random = Random(0x2611);
    let (mut accepted, mut found, mut damaged) = (0, 0, [0; 50]);
    for seed in 0..5000 {
        let (words, map) = (random_image(&mut random), random_map(&mut random));
        let (answer, _) = admit_words(&words, &map);
        if answer.verdict != Verdict::Admitted && random.chance(80) {
            continue;
        }
        let (least, _) = least_table(&bytes_of(&words), &map).unwrap();
        let table = widened(&mut random, &words, &map, least.clone());
        assert!(wider(&table, &least));
        let mut bytes = table.bytes();
        match checked(&words, &map, &bytes) {
            ACCEPTED => {
                accepted += usize::from(table != least);
                is_sound(&words, &map, &bytes, seed);
            }
            (number, ..) => {
                assert!((21..=29).contains(&number), "{number}");
                found += 1;
            }
        }
        // A reached cell or two no longer reached, or with one fact more or less.
        let reached: Vec<usize> =
            (0..bytes.len()).step_by(16).filter(|&at| bytes[at] == 1).collect();
        for _ in 0..1 + random.below(2) {
            let (at, k) = (random.pick(&reached), random.below(11));
            if random.chance(20) {
                bytes[at..at + 16].fill(0);
            } else if bytes[at] == 1 {
                bytes[at + 2 + k / 8] ^= 1 << (k % 8);
                bytes[at + 4 + k] = 0;
            }
        }
        let (number, ..) = checked(&words, &map, &bytes);
        damaged[usize::from(number)] += 1;
        if number == 0 {
            is_sound(&words, &map, &bytes, seed);
        }
    }
    assert!(accepted > 500 && found > 500, "{accepted} {found}");
    assert!(damaged[0] > 50 && damaged[43] > 500, "{damaged:?}");
}
