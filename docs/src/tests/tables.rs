//! The table of facts: sweeps against rounds, findings, and sweep counts.

mod common;
use common::{admit_words, ALL};
use riptide_reference::cases::sweeps;
use riptide_reference::digest::Random;
use riptide_reference::naive::{sweep_count, table_bytes};
use riptide_reference::programs::*;
use riptide_reference::table::{admit, findings, foretell, Admission, Verdict};
use riptide_reference::word::Word::*;

fn finding(words: &[u16], map: &[u8]) -> (u8, usize, usize) {
    match admit_words(words, map).0.verdict {
        Verdict::Finding { number, depth, address } => (number, depth, address),
        other => panic!("{other:?}"),
    }
}

/// The record of a cell.
fn cell(table: &[u8], depth: usize, address: usize) -> &[u8] {
    let words = table.len() / 144;
    &table[16 * (depth * words + address)..][..16]
}

/// Sweeps and rounds give one table, findings included, and the verdict names
/// the finding of lowest depth, and among those the one of lowest address. The
/// count is that of sweeps that leave another table, and what was foretold.
fn agree(words: &[u16], map: &[u8]) -> Verdict {
    let (answer, table) = admit_words(words, map);
    let (length, bound) = foretell(&bytes_of(words)).unwrap();
    assert_eq!((length, bound), (table.len(), 108 * words.len()));
    assert!(answer.sweeps <= bound);
    assert_eq!(answer.sweeps, sweep_count(words), "{words:04x?}");
    let expected = match findings(&table).into_iter().min() {
        None => Verdict::Admitted,
        Some((depth, address, number)) => Verdict::Finding { number, depth, address },
    };
    assert_eq!(answer.verdict, expected);
    assert!(table == table_bytes(words, map), "{words:04x?}");
    answer.verdict
}

#[test]
fn sweeps_and_rounds_agree_on_programs() {
    let mut random = Random(21);
    let mut numbers = [0; 30];
    for _ in 0..500 {
        let blocks = 1 + random.below(10);
        let mut words = random_program(&mut random, blocks, 12);
        if random.chance(40) {
            damage(&mut random, &mut words);
        }
        let map = random_map(&mut random);
        match agree(&words, &map) {
            Verdict::Finding { number, .. } => numbers[usize::from(number)] += 1,
            _ => numbers[0] += 1,
        }
    }
    assert!(numbers[0] > 80, "{numbers:?}");
    assert!((21..=29).filter(|&n| numbers[n] > 0).count() >= 7, "{numbers:?}");
}

#[test]
fn sweeps_and_rounds_agree_on_loose_words() {
    let mut random = Random(22);
    for case in 0..400 {
        let count = 1 + random.below(if case % 20 == 0 { 300 } else { 40 });
        let words = random_words(&mut random, count, 5);
        let (words, map) = (with_return_bytes(&mut random, &words), random_map(&mut random));
        agree(&words, &map);
    }
}

#[test]
fn sweeps_and_rounds_agree_on_sums_to_banks() {
    let mut random = Random(25);
    for _ in 0..200 {
        let loose = random.chance(50);
        let words = sum_words(&mut random, 16, loose);
        assert!(agree(&words, &ALL) == Verdict::Admitted || loose, "{words:04x?}");
    }
}

#[test]
fn an_ovf_of_a_masked_sum_is_known() {
    // The low 4 bits of 255, and all of AUX: 241 + 15, 240 + 15.
    for (aux, ovf) in [(241, 1), (240, 0)] {
        let words = assemble(&[
            XmitRegister { d: 0, i: aux },
            XmitRegister { d: 0o11, i: 255 },
            Add { s: 0o11, rl: 4, d: 0o23 },
            Jmp { a: 3 },
        ]);
        let (_, table) = admit_words(&words, &ALL);
        assert_eq!((cell(&table, 0, 3)[3], cell(&table, 0, 3)[12]), (7, ovf));
    }
}

#[test]
fn return_bytes_change_no_table() {
    let mut random = Random(24);
    for _ in 0..200 {
        let words = random_program(&mut random, 6, 8);
        let (other, map) = (with_return_bytes(&mut random, &words), random_map(&mut random));
        assert!(admit_words(&words, &map) == admit_words(&other, &map), "{other:04x?}");
    }
}

#[test]
fn sweeps_and_rounds_agree_with_calls_of_unknown_aux() {
    let mut random = Random(23);
    for _ in 0..5 {
        let count = 520 + random.below(60);
        let mut words = random_words(&mut random, count, 0);
        // AUX from the left bank, then calls to every page.
        words[0] = 0x1700;
        let low = random.below(256);
        words[1] = 0xa700 + low as u16;
        words[256 + low] = 0xaf00;
        agree(&words, &ALL);
    }
}

#[test]
fn each_finding_at_each_depth() {
    for depth in 0..=8 {
        let at = body_at(depth);
        let end = if depth == 0 { Jmp { a: 0 } } else { Ret { i: 0 } };
        let put = |words: &[riptide_reference::word::Word]| {
            let body: Vec<_> = words.iter().copied().chain([end]).collect();
            nested(depth, &assemble(&body))
        };
        let low = usize::from(at);
        let write = XmitBank { d: 0o37, l: 3, i: 1 };
        let read = Move { s: 0o27, rl: 0, d: 1 };
        let far = XmitRegister { d: 0o07, i: 9 };
        let map = sparse_map();
        assert_eq!(finding(&put(&[Jmp { a: 99 }]), &map), (21, depth, low));
        let mut invalid = put(&[read]);
        invalid[low] = 0x0008;
        assert_eq!(finding(&invalid, &map), (22, depth, low));
        let select = XmitRegister { d: 0o07, i: 1 };
        assert_eq!(finding(&put(&[select, read]), &map), (23, depth, low + 1));
        assert_eq!(finding(&put(&[write]), &map), (24, depth, low));
        assert_eq!(finding(&put(&[far]), &map), (25, depth, low));
        let unknown = Move { s: 0o27, rl: 0, d: 0o07 };
        assert_eq!(finding(&put(&[unknown]), &map), (28, depth, low));
        let xec = XecRegister { s: 1, i: at };
        assert_eq!(finding(&put(&[xec]), &map), (29, depth, low));
    }
    let call = nested(8, &assemble(&[Call { i: 0 }, Ret { i: 0 }]));
    assert_eq!(finding(&call, &ALL), (26, 8, 24));
    for i in [0, 1, 255] {
        assert_eq!(finding(&assemble(&[Ret { i }]), &ALL), (27, 0, 0));
    }
    // Without a way back nothing returns: the RET is never reached.
    assert_eq!(finding(&assemble(&[Call { i: 0 }, Ret { i: 0 }]), &ALL), (26, 8, 0));
}

#[test]
fn depth_before_address() {
    let map = sparse_map();
    let (answer, table) = admit_words(&levels_words(), &map);
    let all = [(0, 8, 24), (0, 9, 25), (1, 5, 23), (2, 1, 25), (2, 2, 23)];
    assert_eq!(findings(&table), all);
    assert_eq!(answer.verdict, Verdict::Finding { number: 24, depth: 0, address: 8 });
    let (answer, table) = admit_words(&levels_xec_words(), &map);
    assert_eq!(findings(&table), [(0, 3, 25), (0, 5, 28), (1, 1, 24)]);
    assert_eq!(answer.verdict, Verdict::Finding { number: 25, depth: 0, address: 3 });
    // What is mended goes, and the next one is named.
    let mut words = levels_xec_words();
    words[8] = words[7];
    assert_eq!(finding(&words, &map), (24, 1, 1));
}

#[test]
fn questions_come_in_order() {
    let map = map_of([&[], &[], &[], &[]]);
    // Reading before writing before choosing, whatever else is wrong.
    assert_eq!(finding(&assemble(&[Move { s: 0o27, rl: 0, d: 0o37 }]), &map).0, 23);
    assert_eq!(finding(&assemble(&[Move { s: 1, rl: 0, d: 0o37 }]), &map).0, 24);
    assert_eq!(finding(&assemble(&[Move { s: 0o27, rl: 0, d: 0o07 }]), &map).0, 23);
    assert_eq!(finding(&assemble(&[Move { s: 0o27, rl: 0, d: 0o07 }]), &ALL).0, 28);
    assert_eq!(finding(&assemble(&[XmitRegister { d: 0o17, i: 0 }]), &map).0, 25);
    // A bank XEC reads its bank before its addresses are looked at.
    assert_eq!(finding(&assemble(&[XecBank { s: 0o37, l: 5, i: 0 }]), &map).0, 23);
    assert_eq!(finding(&assemble(&[XecBank { s: 0o37, l: 5, i: 0 }]), &ALL).0, 29);
    // CALL with AUX unknown, after the depth.
    let words = assemble(&[Move { s: 0o27, rl: 0, d: 0 }, Call { i: 0 }, Jmp { a: 0 }]);
    assert_eq!(finding(&words, &ALL), (28, 0, 1));
    // CALL whose return address is N.
    assert_eq!(finding(&assemble(&[Jmp { a: 2 }, Ret { i: 0 }, Call { i: 1 }]), &ALL), (21, 0, 2));
}

#[test]
fn xec_asks_its_addresses_in_ascending_order() {
    // At 40, source values 0 and 1 give 63 and 32: 32 is asked first.
    let xec = assemble(&[XecBank { s: 0o27, l: 1, i: 31 }])[0];
    let mut words = vec![0xe000; 64];
    (words[0], words[40]) = (0xe028, xec);
    assert_eq!(admit_words(&words, &ALL).0.verdict, Verdict::Admitted);
    (words[32], words[63]) = (xec, 0x0008);
    assert_eq!(finding(&words, &ALL), (29, 0, 40));
    (words[32], words[63]) = (0x0008, xec);
    assert_eq!(finding(&words, &ALL), (22, 0, 40));
    words[32] = 0xe000;
    assert_eq!(finding(&words, &ALL), (29, 0, 40));
    // An invalid word of opcode 4 gives 22 and not 29.
    words[63] = 0x9700;
    assert_eq!(finding(&words, &ALL), (22, 0, 40));
    words.truncate(63);
    assert_eq!(finding(&words, &ALL), (21, 0, 40));
}

#[test]
fn xec_executes_with_its_own_pc_and_facts() {
    // 2: XEC of 8 or 9, which are CALL 12 and a branch; 12 returns to 3.
    let mut words = vec![0xe000; 13];
    words[0] = assemble(&[XmitRegister { d: 1, i: 3 }])[0];
    words[1] = 0xe002;
    words[2] = assemble(&[XecBank { s: 0o27, l: 1, i: 8 }])[0];
    words[8] = assemble(&[Call { i: 12 }])[0];
    words[9] = assemble(&[NztRegister { s: 1, i: 5 }])[0];
    words[12] = 0xaf00;
    let (answer, table) = admit_words(&words, &ALL);
    assert_eq!(answer.verdict, Verdict::Admitted);
    let reached: Vec<usize> = (0..117).filter(|index| table[16 * index] == 1).collect();
    assert_eq!(reached, [0, 1, 2, 3, 5, 13 + 12]);
    assert_eq!(cell(&table, 1, 12), [1, 0, 0xff, 7, 0, 3, 0, 0, 0, 0, 0, 0, 0, 0, 0, 0]);
}

#[test]
fn facts_that_differ_are_unknown() {
    // 0: JMP 2; 1: XMIT 5, R1; 2: JMP 1. R1 is 0 or 5 at 2.
    let words = assemble(&[Jmp { a: 2 }, XmitRegister { d: 1, i: 5 }, Jmp { a: 1 }]);
    let (answer, table) = admit_words(&words, &ALL);
    assert_eq!(answer, Admission { verdict: Verdict::Admitted, sweeps: 2 });
    assert_eq!(cell(&table, 0, 0), [1, 0, 0xff, 7, 0, 0, 0, 0, 0, 0, 0, 0, 0, 0, 0, 0]);
    assert_eq!(cell(&table, 0, 1), [1, 0, 0xfd, 7, 0, 0, 0, 0, 0, 0, 0, 0, 0, 0, 0, 0]);
    assert_eq!(cell(&table, 0, 2), cell(&table, 0, 1));
    assert!(table[48..].iter().all(|&byte| byte == 0));
}

#[test]
fn what_a_word_writes_is_known_by_what_it_reads() {
    let words = assemble(&[
        XmitRegister { d: 0, i: 200 },
        Add { s: 0, rl: 1, d: 2 },
        Add { s: 0, rl: 0, d: 0o27 },
        Add { s: 0o27, rl: 0, d: 0o27 },
        Move { s: 0o27, rl: 1, d: 0 },
        Xor { s: 0, rl: 0, d: 3 },
        XmitRegister { d: 0, i: 0 },
        And { s: 3, rl: 0, d: 4 },
        Jmp { a: 8 },
    ]);
    let (_, table) = admit_words(&words, &ALL);
    let known = |at: usize| u16::from_le_bytes([cell(&table, 0, at)[2], cell(&table, 0, at)[3]]);
    assert_eq!((known(2), cell(&table, 0, 2)[6], cell(&table, 0, 2)[12]), (0x7ff, 44, 1));
    assert_eq!((known(3), cell(&table, 0, 3)[12]), (0x7ff, 1));
    assert_eq!((known(4), cell(&table, 0, 4)[12]), (0x6ff, 0));
    assert_eq!(known(5), 0x6fe);
    assert_eq!(known(6), 0x6f6);
    assert_eq!(known(8), 0x6e7);
}

#[test]
fn sweep_counts_by_hand() {
    let sweeps = |words: &[u16]| admit_words(words, &ALL).0.sweeps;
    assert_eq!(sweeps(&[0xe000]), 0);
    assert_eq!(sweeps(&[0x0000, 0x0000, 0xe000]), 1);
    // Backwards: 0 to 3 to 2 to 1, one cell for each sweep.
    assert_eq!(sweeps(&[0xe003, 0xe001, 0xe001, 0xe002]), 2);
    assert_eq!(sweeps(&[0xe004, 0xe001, 0xe001, 0xe002, 0xe003]), 3);
    // CALL down in one sweep, RET back up in the same, seen by the next.
    assert_eq!(sweeps(&assemble(&[Call { i: 2 }, Jmp { a: 1 }, Ret { i: 0 }])), 1);
    assert_eq!(sweeps(&assemble(&[Call { i: 3 }, Jmp { a: 2 }, Jmp { a: 0 }, Ret { i: 0 }])), 2);
}

/// The programs of `cases::sweeps`, by the rules that their names tell.
#[test]
fn sweep_counts_of_families() {
    let sweeps = |words: &[u16]| {
        agree(words, &ALL);
        admit_words(words, &ALL).0.sweeps
    };
    for words in [2, 3, 40, 300] {
        assert_eq!(sweeps(&sweeps::line(words)), 1);
    }
    for words in [3, 4, 17, 60] {
        assert_eq!(sweeps(&sweeps::backwards(words)), usize::from(words) - 2);
    }
    for depth in 1..=8 {
        assert_eq!(sweeps(&sweeps::calls(depth)), depth);
    }
    for pages in 2..=7 {
        assert_eq!(sweeps(&sweeps::tables(2, pages)), usize::from(pages) - 1);
    }
    // Known at 0 and unknown behind it; then unknown at 0, and so behind it. From the last
    // on: AUX after the first sweep, R1 after the next, and so on to R6.
    assert_eq!(sweeps(&sweeps::shifts(true)), 2);
    assert_eq!(sweeps(&sweeps::shifts(false)), 7);
}

#[test]
fn foretelling_checks_11_alone() {
    for (bytes, told) in [(2, (144, 108)), (800, (57_600, 43_200)), (16_384, (1_179_648, 884_736))]
    {
        assert_eq!(foretell(&vec![0xff; bytes]), Ok(told));
    }
    for bytes in [0, 1, 3, 16_383, 16_385, 16_386] {
        assert_eq!(foretell(&vec![0xff; bytes]), Err(11));
    }
}

#[test]
fn admission_checks_in_order_and_touches_nothing() {
    let refused = |image: usize, map: usize, table: usize| {
        let mut bytes = vec![0xa5; table];
        let answer = admit(&vec![0; image], &vec![0; map], &mut bytes);
        assert!(bytes.iter().all(|&byte| byte == 0xa5));
        answer
    };
    let answer = |number| Admission { verdict: Verdict::Refused(number), sweeps: 0 };
    assert_eq!(refused(0, 0, 0), answer(11));
    assert_eq!(refused(3, 0, 0), answer(11));
    assert_eq!(refused(16_386, 128, 0), answer(11));
    assert_eq!(refused(2, 127, 0), answer(12));
    assert_eq!(refused(2, 128, 143), answer(13));
    assert_eq!(refused(4, 128, 144), answer(13));
    assert_eq!(refused(2, 128, 145), answer(13));
}
