//! The library against the independent reference: random images, maps, states, recordings and tables, valid and damaged.
//! `RIPTIDE_CASES` sets how many cases are run (default 20,000).

mod common;

use common::images::{lively, mixed, mixture, FEW_RETURNS};
use riptide::{admit, check, count_sets, foretell, list, page_length, read_word, records, reset, run, write_word};
use riptide::{table_length, trace_length};
use riptide::{AdmitAnswer, Answered, CheckAnswer, Fields, Refusal, RunAnswer, TraceRecord};
use riptide_reference::cases::sweeps;
use riptide_reference::check::{check as reference_check, read_table, Checked};
use riptide_reference::digest::Random;
use riptide_reference::listing;
use riptide_reference::machine::State;
use riptide_reference::programs::{bytes_of, damage, random_map, random_program, random_state, random_words};
use riptide_reference::programs::{reading_elsewhere, sum_words, with_return_bytes};
use riptide_reference::run as reference;
use riptide_reference::table::{admit as reference_admit, findings, foretell as reference_foretell, Verdict};
use riptide_reference::table::{swept, within};
use riptide_reference::word::{decode, encode, is_bank, Word};
use riptide_reference::{map as reference_map, programs};

fn cases() -> usize {
    std::env::var("RIPTIDE_CASES").ok().and_then(|n| n.parse().ok()).unwrap_or(20_000)
}

/// The library's answer as the reference gives it.
fn told(answer: RunAnswer) -> reference::RunAnswer {
    match answer {
        RunAnswer::Refused(refusal) => reference::RunAnswer::Refused(refusal.number()),
        RunAnswer::Ended { count, stop } => reference::RunAnswer::Ran { count: count as usize, stop },
    }
}

fn random_bytes(random: &mut Random, count: usize) -> Vec<u8> {
    (0..count).map(|_| random.below(256) as u8).collect()
}

/// An image of valid words, of a program, of sums to banks, or of any words; a RET has any low byte.
fn image(random: &mut Random) -> Vec<u8> {
    let words = match random.below(4) {
        0 => random_program(random, 6, 8),
        1 => random_words(random, 40, 5),
        2 => {
            let loose = random.chance(50);
            sum_words(random, 8, loose)
        }
        _ => {
            let mut words = random_program(random, 4, 6);
            damage(random, &mut words);
            words
        }
    };
    bytes_of(&with_return_bytes(random, &words))
}

#[test]
fn equal_to_the_reference() {
    let mut random = Random(0x5eed);
    let (mut stopped, mut refused, mut apart) = (0, 0, 0);
    for case in 0..cases() {
        let mut image = image(&mut random);
        let mut map = if random.chance(50) { random_map(&mut random).to_vec() } else { vec![255; 128] };
        let mut state = random_state(&mut random, image.len() / 2).to_bytes().to_vec();
        let pairs = random.below(200);
        let mut recording = random_bytes(&mut random, 2 * pairs);
        let mut trace = random_bytes(&mut random, trace_length(&recording));
        if random.chance(10) {
            match random.below(6) {
                0 => image.truncate(random.below(image.len() + 1)),
                1 => map.truncate(random.below(129)),
                2 => state.truncate(random.below(37)),
                3 => recording.truncate(random.below(recording.len() + 1)),
                4 => trace.truncate(trace.len() / 2),
                _ => trace.truncate(random.below(trace.len() + 1)),
            }
        }
        if random.chance(10) && !state.is_empty() {
            let at = random.below(state.len());
            state[at] = random.below(256) as u8;
        }
        let (mut state2, mut trace2, before) = (state.clone(), trace.clone(), state.clone());
        let ours = run(&image, &map, &mut state, &recording, &mut trace);
        let theirs = reference::run(&image, &map, &mut state2, &recording, &mut trace2);
        assert_eq!(told(ours), theirs, "case {case}");
        assert_eq!(state, state2, "state of case {case}");
        assert_eq!(trace, trace2, "trace of case {case}");
        match ours {
            RunAnswer::Refused(_) => refused += 1,
            RunAnswer::Ended { count, stop } => {
                stopped += usize::from(stop != 0);
                apart += addresses_apart(&image, &before, records(&trace).take(count as usize));
            }
        }
    }
    println!("{} cases, {stopped} stopped, {refused} refused, {apart} steps through an XEC", cases());
}

/// How many records have a fetch address that is not PC. Each is that of a word that an XEC chose: the step before was
/// an XEC, or the state came with one pending.
fn addresses_apart(image: &[u8], before: &[u8], records: impl Iterator<Item = TraceRecord>) -> usize {
    let mut pending = before[2] == 1;
    let mut apart = 0;
    for record in records {
        assert!(pending || record.fetch == record.pc, "{record}");
        apart += usize::from(record.fetch != record.pc);
        let word = image.chunks_exact(2).nth(record.fetch.into()).map(|word| u16::from_be_bytes([word[0], word[1]]));
        pending = word.is_some_and(|word| read_word(word).is_ok_and(|fields| fields.opcode == 4));
    }
    apart
}

fn told_verdict(answer: AdmitAnswer) -> Verdict {
    match answer {
        AdmitAnswer::Refused(refusal) => Verdict::Refused(refusal.number()),
        AdmitAnswer::Admitted => Verdict::Admitted,
        AdmitAnswer::Found { number, depth, address } => {
            Verdict::Finding { number, depth: depth.into(), address: address.into() }
        }
    }
}

#[test]
fn admission_equal_to_the_reference() {
    let mut random = Random(0xad417);
    let (mut admitted, mut found, mut refused) = (0, [0; 30], 0);
    let (mut lower_address, mut other_number) = (0, 0);
    let cases = cases() / 4;
    for case in 0..cases {
        let mut image = match random.below(8) {
            0 => bytes_of(&random_words(&mut random, 300, 0)),
            1 => bytes_of(&programs::nested(random.below(9), &random_words(&mut random, 6, 0))),
            _ => image(&mut random),
        };
        let mut map = if random.chance(50) { random_map(&mut random).to_vec() } else { vec![255; 128] };
        let mut table = random_bytes(&mut random, table_length(&image));
        if random.chance(10) {
            match random.below(3) {
                0 => image.truncate(random.below(image.len() + 1)),
                1 => map.truncate(random.below(129)),
                _ => table.truncate(random.below(table.len() + 1)),
            }
        }
        let mut table2 = table.clone();
        let Answered { answer, sweeps } = admit(&image, &map, &mut table);
        let theirs = reference_admit(&image, &map, &mut table2);
        assert_eq!(told_verdict(answer), theirs.verdict, "case {case}");
        assert_eq!(sweeps as usize, theirs.sweeps, "case {case}");
        assert_eq!(table, table2, "table of case {case}");
        let told = foretell(&image).map(|told| (told.table_length, told.sweep_bound as usize));
        assert!(told.is_err() || told.is_ok_and(|(_, bound)| sweeps as usize <= bound), "case {case}");
        assert_eq!(told.map_err(Refusal::number), reference_foretell(&image), "case {case}");
        match answer {
            AdmitAnswer::Refused(_) => refused += 1,
            AdmitAnswer::Admitted => {
                admitted += 1;
                assert_eq!(findings(&table), [], "case {case}");
            }
            AdmitAnswer::Found { number, depth, address } => {
                found[number as usize] += 1;
                // The lowest depth, and among those the lowest address (2026-02).
                let all = findings(&table);
                let (depth, address) = (usize::from(depth), usize::from(address));
                assert_eq!(all.iter().min(), Some(&(depth, address, number)), "case {case}");
                lower_address += usize::from(all.iter().any(|other| other.1 < address));
                other_number += usize::from(all.iter().any(|other| other.2 != number));
            }
        }
    }
    println!("{cases} cases, {admitted} admitted, {refused} refused, findings 21-29: {:?}", &found[21..]);
    println!("a lower address had a finding in {lower_address}, a cell another number in {other_number}");
    assert!(cases < 1000 || lower_address > 0 && other_number > 0);
}

/// The whole table and the count, over images of many CALLs, RETs and XECs: most are small, some have thousands of words.
#[test]
fn sweeps_of_calls_returns_and_xecs() {
    let mut random = Random(0xca11);
    let (mut admitted, mut long, mut most) = (0, 0, 0);
    let images = cases() / 4;
    for case in 0..images {
        let limit = random.pick(&[8, 20, 20, 40, 40]);
        let n = 1 + random.below(limit);
        let words = match case % 200 {
            0..20 => random_program(&mut random, 1 + n / 3, 8),
            20 => mixture(&mut random, 5 * n),
            21 => lively(mixed(&mut random, 100 * n, FEW_RETURNS)),
            _ => mixture(&mut random, n),
        };
        let image = bytes_of(&words);
        let mut table = random_bytes(&mut random, table_length(&image));
        let mut table2 = table.clone();
        let Answered { answer, sweeps } = admit(&image, &[255; 128], &mut table);
        let theirs = reference_admit(&image, &[255; 128], &mut table2);
        assert_eq!((told_verdict(answer), sweeps as usize), (theirs.verdict, theirs.sweeps), "case {case}");
        assert!(table == table2, "table of case {case}");
        admitted += usize::from(answer == AdmitAnswer::Admitted);
        long += usize::from(sweeps > 10);
        most = most.max(sweeps);
    }
    println!("{images} images, {long} of more than 10 sweeps, at most {most}; {admitted} admitted");
    assert!(images < 1000 || admitted > 0 && long > 0);
}

/// Counts that follow from how the images are made, up to the longest ones; the map and what the table held do not matter.
#[test]
fn sweeps_of_long_images() {
    let images = [
        (sweeps::line(8192), 1),
        (sweeps::backwards(8192), 8190),
        (sweeps::calls(8), 8),
        (sweeps::tables(4, 255), 254),
        (sweeps::shifts(false), 7),
    ];
    for (words, count) in images {
        let image = bytes_of(&words);
        let told = foretell(&image).expect("an image");
        for byte in [0, 0xff] {
            let answered = admit(&image, &[byte; 128], &mut vec![byte; told.table_length]);
            assert_eq!(answered.sweeps, count);
            assert!(count <= told.sweep_bound && told.sweep_bound as usize == 108 * words.len());
        }
    }
}

/// The library's check, held against the reference's. It writes no byte of the table.
fn compare_checks(image: &[u8], map: &[u8], table: &[u8]) -> CheckAnswer {
    let lent = table.to_vec();
    let answer = check(image, map, &lent);
    let told = match answer {
        CheckAnswer::Refused(refusal) => Checked::Refused(refusal.number()),
        CheckAnswer::Accepted => Checked::Accepted,
        CheckAnswer::Failed { number, depth, address } => {
            Checked::Failed { number, depth: depth.into(), address: address.into() }
        }
    };
    assert_eq!(told, reference_check(image, map, table), "{image:02x?} {table:02x?}");
    assert!(std::hint::black_box(lent) == table, "{image:02x?} {table:02x?}");
    answer
}

/// The number of a check's answer.
fn number_of(answer: CheckAnswer) -> usize {
    match answer {
        CheckAnswer::Accepted => 0,
        CheckAnswer::Refused(refusal) => refusal.number().into(),
        CheckAnswer::Failed { number, .. } => number.into(),
    }
}

/// Each byte of the table of an admitted program put to each of its 255 other values: calls and returns, then an XEC.
#[test]
fn every_damage_of_a_table() {
    let map = programs::map_of([&[5], &[], &[], &[9]]);
    let images = [[0xc705, 0xcf09, 0xa704, 0xe002, 0x173f, 0xaf81], [0xc705, 0xcf09, 0x9724, 0xe002, 0xdf20, 0xdf21]];
    for words in images {
        let image = bytes_of(&words);
        let mut table = vec![0; table_length(&image)];
        assert_eq!(admit(&image, &map, &mut table).answer, AdmitAnswer::Admitted);
        assert_eq!(compare_checks(&image, &map, &table), CheckAnswer::Accepted);
        let mut numbers = [0; 44];
        for at in 0..table.len() {
            let was = table[at];
            for other in (0..=255).filter(|&other| other != was) {
                table[at] = other;
                numbers[number_of(compare_checks(&image, &map, &table))] += 1;
            }
            table[at] = was;
        }
        let [accepted, unlaid, unheld] = [0, 42, 43].map(|number| numbers[number]);
        let found: usize = numbers[21..30].iter().sum();
        println!("{words:04x?}: {accepted} accepted, {unlaid} of 42, {unheld} of 43, {found} findings");
        assert_eq!(accepted + unlaid + unheld + found, 255 * table.len());
        assert!([accepted, unlaid, unheld, found].iter().all(|&count| count > 0));
    }
}

/// A table that knows less or reaches more: facts of some cells are forgotten, seldom the bus addresses, and what is passed
/// on then is joined in until no sweep changes the table.
fn widened(random: &mut Random, image: &[u8], map: &[u8], table: &[u8]) -> Vec<u8> {
    let mut table = read_table(table, image.len() / 2).expect("a table");
    let mut cells: Vec<usize> = (0..table.cells.len()).collect();
    if random.chance(80) {
        cells.retain(|&at| table.cells[at].is_some());
    }
    for _ in 0..1 + random.below(3) {
        let facts = table.cells[random.pick(&cells)].get_or_insert([Some(1); 11]);
        let (percent, places) = (random.pick(&[10, 50, 100]), random.pick(&[9, 9, 9, 11]));
        facts[..places].iter_mut().filter(|_| random.chance(percent)).for_each(|fact| *fact = None);
    }
    swept(image, map, table).expect("an image and a map").0.bytes()
}

/// The table with a byte changed, a fact more or less, or a cell that is not reached any more.
fn harmed(random: &mut Random, table: &[u8]) -> Vec<u8> {
    let mut table = table.to_vec();
    let reached: Vec<usize> = (0..table.len()).step_by(16).filter(|&at| table[at] == 1).collect();
    let (at, k) = (random.pick(&reached), random.below(11));
    match random.below(4) {
        0 => table[at..at + 16].fill(0),
        1 => {
            let byte = random.below(table.len());
            table[byte] = random.below(256) as u8;
        }
        _ => {
            table[at + 2 + k / 8] ^= 1 << (k % 8);
            table[at + 4 + k] = 0;
        }
    }
    table
}

/// An accepted program takes every pair from reset on, and stays within the facts of the table that came along.
fn runs_within(random: &mut Random, image: &[u8], map: &[u8], table: &[u8]) {
    let table = read_table(table, image.len() / 2).expect("a table");
    let mut state = [0; 36];
    for _ in 0..20 {
        let (recording, mut trace) = (random_bytes(random, 2), [0; 8]);
        assert!(State::from_bytes(&state).is_some_and(|state| within(&table, &state)), "{image:02x?} {state:02x?}");
        let answer = run(image, map, &mut state, &recording, &mut trace);
        assert_eq!(answer, RunAnswer::Ended { count: 1, stop: 0 }, "{image:02x?}");
    }
}

#[test]
fn checks_equal_to_the_reference() {
    let mut random = Random(0x2609);
    let (mut admitted, mut wider, mut numbers) = (0, 0, [0; 44]);
    let cases = cases() / 4;
    for case in 0..cases {
        let image = if random.chance(50) { image(&mut random) } else { bytes_of(&random_program(&mut random, 2, 8)) };
        let map = random_map(&mut random);
        let mut filled = vec![0; table_length(&image)];
        let answer = admit(&image, &map, &mut filled).answer;
        let mut least = filled.clone();
        least.iter_mut().skip(1).step_by(16).for_each(|finding| *finding = 0);
        let as_filled = compare_checks(&image, &map, &filled);
        let without = compare_checks(&image, &map, &least);
        match answer {
            AdmitAnswer::Refused(refusal) => panic!("case {case}: {refusal}"),
            AdmitAnswer::Admitted => {
                admitted += 1;
                assert_eq!(as_filled, CheckAnswer::Accepted, "case {case}");
            }
            AdmitAnswer::Found { number, depth, address } => {
                assert_eq!(as_filled, CheckAnswer::Failed { number: 42, depth, address }, "case {case}");
                assert_eq!(without, CheckAnswer::Failed { number, depth, address }, "case {case}");
            }
        }
        let larger = widened(&mut random, &image, &map, &least);
        let mut tables = vec![harmed(&mut random, &least), harmed(&mut random, &larger), larger];
        tables.push(random_bytes(&mut random, table_length(&image)));
        for table in &tables {
            let answer = compare_checks(&image, &map, table);
            numbers[number_of(answer)] += 1;
            if answer == CheckAnswer::Accepted {
                wider += usize::from(*table != least);
                runs_within(&mut random, &image, &map, table);
            }
        }
        let (image_count, map_count) = (random.below(image.len() + 2), random.below(130));
        let (mut image, mut map, mut table) = (image, map.to_vec(), filled);
        match random.below(3) {
            0 => image.resize(image_count, 0),
            1 => map.resize(map_count, 0),
            _ => table.truncate(random.below(least.len())),
        }
        numbers[number_of(compare_checks(&image, &map, &table))] += 1;
    }
    println!("{cases} images, {admitted} admitted, {wider} accepted with another table than admission's");
    println!("11-13: {:?}, 21-29: {:?}, 42 and 43: {:?}", &numbers[11..14], &numbers[21..30], &numbers[42..]);
    assert!(cases < 1000 || wider > 0 && [11, 12, 13, 42, 43].iter().all(|&number| numbers[number] > 0));
}

/// A word's case as the library's opcode and fields, or 22.
fn fields_of(word: Word) -> Result<Fields, u8> {
    let (opcode, fields) = match word {
        Word::Move { s, rl, d } => (0, [s, rl, d]),
        Word::Add { s, rl, d } => (1, [s, rl, d]),
        Word::And { s, rl, d } => (2, [s, rl, d]),
        Word::Xor { s, rl, d } => (3, [s, rl, d]),
        Word::XecRegister { s, i } => (4, [s, i, 0]),
        Word::XecBank { s, l, i } => (4, [s, l, i]),
        Word::NztRegister { s, i } => (5, [s, i, 0]),
        Word::NztBank { s, l, i } => (5, [s, l, i]),
        Word::Call { i } => (5, [7, i, 0]),
        Word::Ret { i } => (5, [15, i, 0]),
        Word::XmitRegister { d, i } => (6, [d, i, 0]),
        Word::XmitBank { d, l, i } => (6, [d, l, i]),
        Word::Jmp { a } => (7, [a, 0, 0]),
        Word::Invalid => return Err(22),
    };
    Ok(Fields { opcode, fields })
}

#[test]
fn every_word_read_and_written() {
    let mut valid = 0;
    for word in 0..=65535 {
        let read = read_word(word);
        assert_eq!(read.map_err(Refusal::number), fields_of(decode(word)), "word {word:04x}");
        if let Ok(fields) = read {
            valid += 1;
            assert_eq!(write_word(fields), Ok(word), "word {word:04x}");
        }
    }
    assert_eq!(valid, 47_424);
}

/// The word of an opcode and fields by the reference, a field that it does not have being 0.
fn written([op, a, b, c]: [u16; 4]) -> Result<u16, u8> {
    let bank = is_bank(a);
    let word = match (op, c) {
        (0, _) => Word::Move { s: a, rl: b, d: c },
        (1, _) => Word::Add { s: a, rl: b, d: c },
        (2, _) => Word::And { s: a, rl: b, d: c },
        (3, _) => Word::Xor { s: a, rl: b, d: c },
        (4, _) if bank => Word::XecBank { s: a, l: b, i: c },
        (5, _) if bank => Word::NztBank { s: a, l: b, i: c },
        (6, _) if bank => Word::XmitBank { d: a, l: b, i: c },
        (4, 0) => Word::XecRegister { s: a, i: b },
        (5, 0) if a == 7 => Word::Call { i: b },
        (5, 0) if a == 15 => Word::Ret { i: b },
        (5, 0) => Word::NztRegister { s: a, i: b },
        (6, 0) => Word::XmitRegister { d: a, i: b },
        (7, 0) if b == 0 => Word::Jmp { a },
        _ => return Err(22),
    };
    encode(word)
}

#[test]
fn fields_written_or_refused() {
    let mut random = Random(0xf1e1d5);
    for _ in 0..cases() {
        let mut field = |limit: usize| random.pick(&[limit, limit, 2 * limit, 65_536]);
        let limits = [field(8), field(32), field(8), field(32)];
        let fields = limits.map(|limit| random.below(limit) as u16);
        let ours = write_word(Fields { opcode: fields[0] as u8, fields: [fields[1], fields[2], fields[3]] });
        let theirs = written([fields[0] % 256, fields[1], fields[2], fields[3]]);
        assert_eq!(ours.map_err(Refusal::number), theirs, "{fields:?}");
    }
}

fn compare_counts(map: &[u8]) {
    let ours = count_sets(map).map_err(Refusal::number);
    assert_eq!(ours, reference_map::counts(map).map(|counts| counts.map(|count| count as u16)));
}

/// ADD of a register to a bank, every L, AUX and register, at every position of both banks: the byte is the low L bits of
/// the whole sum, and OVF is that of AUX and the register's low L bits (2026-04).
#[test]
fn sums_to_banks() {
    let mut changed = [0; 8];
    for (l, aux, register) in (0..8).flat_map(|l| (0..=255u8).flat_map(move |a| (0..=255u8).map(move |r| (l, a, r)))) {
        let d = 0o20 + u16::from(aux.wrapping_add(register).wrapping_add(l)) % 16;
        let word = write_word(Fields { opcode: 1, fields: [1, l.into(), d] }).expect("a valid word");
        let (mut state, mut trace) = ([0; 36], [9; 8]);
        (state[5], state[6], state[16], state[17]) = (aux, register, !register, !aux);
        let mut after = state;
        let answer = run(&word.to_be_bytes(), &[255; 128], &mut after, &[0x5a, 0xa5], &mut trace);
        assert_eq!(answer, RunAnswer::Ended { count: 1, stop: 0 });

        let ones = if l == 0 { 255 } else { (1 << l) - 1 };
        let (bank, places) = (usize::from(d / 8 % 2), 7 - d % 8);
        let mask = ones << places; // what is pushed past bit 0 falls away
        state[16 + bank] = state[16 + bank] & !mask | aux.wrapping_add(register) << places & mask;
        state[13] = u8::from(u16::from(aux) + u16::from(register & ones) > 255);
        changed[usize::from(l)] += usize::from(state[13] == 0 && u16::from(aux) + u16::from(register) > 255);
        state[0] = 1;
        assert_eq!(after, state, "L {l}, AUX {aux}, register {register}");
        assert_eq!(trace, [3 + bank as u8, 0, state[16 + bank], 0, 0, 0, 0, 0]);
    }
    println!("OVF is not that of the whole sum in {changed:?} of 65,536 sums, for each L");
    assert!(changed[0] == 0 && changed[1..].iter().all(|&count| count > 0));
}

#[test]
fn sets_counted() {
    let mut random = Random(0x5e75);
    for length in 0..300 {
        compare_counts(&random_bytes(&mut random, length));
    }
    assert_eq!(count_sets(&[255; 128]), Ok([256; 4]));
    for (place, byte) in (0..128).flat_map(|place| (0..=255).map(move |byte| (place, byte))) {
        let mut map = [0; 128];
        map[place] = byte;
        compare_counts(&map);
        compare_counts(&map.map(|byte| !byte));
    }
    for _ in 0..cases() {
        compare_counts(&random_map(&mut random));
        compare_counts(&random_bytes(&mut random, 128));
    }
}

/// The library's number and page, held against the reference's.
fn compare_pages(image: &[u8], before: &[u8]) -> u8 {
    let (mut ours, mut theirs) = (before.to_vec(), before.to_vec());
    let number = list(image, &mut ours).map_or_else(Refusal::number, |()| 0);
    assert_eq!(number, listing::list(image, &mut theirs), "{} and {} bytes", image.len(), before.len());
    assert!(ours == theirs, "{} words", image.len() / 2);
    number
}

#[test]
fn every_word_listed() {
    for first in (0..=u16::MAX).step_by(8192) {
        let words: Vec<u16> = (first..=first + 8191).collect();
        assert_eq!(compare_pages(&bytes_of(&words), &[0xa5; 262_144]), 0);
    }
}

#[test]
fn images_listed_or_refused() {
    let mut random = Random(0x11_57);
    let mut numbers = [0; 42];
    for _ in 0..cases() {
        let count = random.below(600);
        let mut image = random_bytes(&mut random, count);
        if random.chance(90) {
            image.truncate(image.len() / 2 * 2);
        }
        let length = match random.below(10) {
            0 => random.below(20_000),
            1 => page_length(&image) + 1,
            2 => page_length(&image).saturating_sub(1),
            _ => page_length(&image),
        };
        let page = random_bytes(&mut random, length);
        numbers[compare_pages(&image, &page) as usize] += 1;
    }
    assert!(numbers[0] > 0 && numbers[11] > 0 && numbers[41] > 0, "{numbers:?}");
}

/// A bank with an empty readable set may hold any bytes: answers, states and traces are the same, whatever the traces held
/// before, run by run from reset.
#[test]
fn a_bank_that_is_not_granted_is_not_seen() {
    let mut random = Random(0x2608);
    let (mut admitted, mut steps) = (0, 0);
    for case in 0..cases() / 4 {
        let bank = case % 2;
        let image = bytes_of(&reading_elsewhere(bank as u16, &random_program(&mut random, 6, 8)));
        let mut map = random_map(&mut random);
        map[64 * bank..64 * bank + 32].fill(0);
        assert_eq!(count_sets(&map).map(|sets| sets[2 * bank]), Ok(0));
        if admit(&image, &map, &mut vec![0; table_length(&image)]).answer != AdmitAnswer::Admitted {
            continue;
        }
        admitted += 1;
        let (mut state, mut its) = ([0; 36], [0; 36]);
        for _ in 0..3 {
            let length = random.below(100);
            let recording = random_bytes(&mut random, length);
            let mut other = recording.clone();
            other.iter_mut().skip(bank).step_by(2).for_each(|byte| *byte = random.below(256) as u8);
            let mut trace = random_bytes(&mut random, trace_length(&recording));
            let mut its_trace = random_bytes(&mut random, trace_length(&recording));
            let answer = run(&image, &map, &mut state, &recording, &mut trace);
            assert_eq!(run(&image, &map, &mut its, &other, &mut its_trace), answer, "case {case}");
            assert_eq!(state, its, "state of case {case}");
            if let RunAnswer::Ended { count, .. } = answer {
                steps += count;
                assert_eq!(trace, its_trace, "trace of case {case}");
            }
        }
    }
    assert!(admitted > cases() / 40, "{admitted}");
    println!("{admitted} programs, {steps} steps, twice");
}

#[test]
fn reset_takes_36_bytes() {
    for length in 0..80 {
        let mut state = vec![7; length];
        let answer = reset(&mut state).map_err(Refusal::number);
        if length == 36 {
            assert_eq!((answer, state), (Ok(()), vec![0; 36]));
        } else {
            assert_eq!((answer, state), (Err(14), vec![7; length]));
        }
    }
}
