//! Images of any number of words, by how dear their admission is: plain ones, hostile ones and random ones.

use riptide_reference::digest::Random;
use riptide_reference::programs::{random_valid, random_words};

const NOP: u16 = 0x0000;
const CALL: u16 = 0xa700;
const RET: u16 = 0xaf00;
const JMP: u16 = 0xe000;
const READ: u16 = 0x1700; // MOVE left bit 7, 8 bits -> AUX, or with R1 to R6, R11 and the addresses in the low bits
const NZT: u16 = 0xa100; // NZT R1
const NZT_AUX: u16 = 0xa000;
const NZT_R2: u16 = 0xa200;
const XEC: u16 = 0x8100; // XEC R1
const XEC_AUX: u16 = 0x8000;

/// Each makes another fact unknown: R2 to R6, R11, OVF by a sum with R2, the two addresses, R1, AUX.
const LOSSES: [u16; 11] =
    [READ | 2, READ | 3, READ | 4, READ | 5, READ | 6, READ | 0o11, 0x2217, READ | 0o07, READ | 0o17, READ | 1, READ];
/// Make all facts but AUX known again.
const RESTORES: [u16; 10] = [0xc100, 0xc200, 0xc300, 0xc400, 0xc500, 0xc600, 0xc900, 0xc700, 0xcf00, 0x2217];

/// One word after another, and back to the first.
pub fn straight_line(n: usize) -> Vec<u16> {
    (0..n).map(|a| if a + 1 < n { NOP } else { JMP }).collect()
}

/// A dispatcher on every page of 32: an XEC of a field of 3 bits chooses one of eight jumps behind it.
pub fn dispatchers(n: usize) -> Vec<u16> {
    let mut words = vec![NOP; n];
    for page in (0..n).step_by(32) {
        words[page + 8] = 0x9770; // XEC left bit 7, 3 bits, from place 16 on
        words[page + 9] = jump((page + 32) % n);
        for place in 0..8 {
            words[page + 16 + place] = jump(page + 24 + place);
        }
        words[page + 31] = jump((page + 32) % n);
    }
    words
}

fn jump(to: usize) -> u16 {
    JMP | to as u16
}

/// An XEC of an unknown register at every other word: each may execute all of its page.
pub fn xec_tables(n: usize) -> Vec<u16> {
    let mut words: Vec<u16> = (0..n).map(|a| if a % 2 == 1 { XEC } else { NOP }).collect();
    words[0] = READ | 1;
    words[n - 1] = JMP;
    words
}

/// Each word jumps to the one before it: a sweep reaches one more.
pub fn backward_jumps(n: usize) -> Vec<u16> {
    (0..n).map(|a| jump((a + n - 1) % n)).collect()
}

/// Calls of the routine at `to`, in the page of AUX 0, from `from` on, up to a jump or return.
fn calls(words: &mut [u16], from: usize, to: usize, last: u16) {
    words[from..].fill(CALL | to as u16);
    let end = words.len() - 1;
    words[end] = last;
}

/// Calls of a routine that returns, one after the other.
pub fn calls_in_a_row(n: usize, count: usize) -> Vec<u16> {
    let mut words = vec![RET; n];
    words[0] = JMP | 256;
    calls(&mut words[..257 + count], 256, 1, JMP | 256);
    words
}

/// Eight levels of routines with 20 calls each, and calls of the first from the top level, to the end of the image.
pub fn calls_and_returns(n: usize) -> Vec<u16> {
    let mut words = vec![RET; n];
    words[0] = JMP | 256;
    for level in 1..8 {
        let from = 1 + (level - 1) * 30;
        calls(&mut words[..from + 21], from, from + 30, RET);
    }
    calls(&mut words, 256, 1, JMP | 256);
    words
}

/// A routine of returns, swept as often as there are backward jumps.
pub fn returns_and_jumps(n: usize, returns: usize, jumps: usize) -> Vec<u16> {
    let mut words = vec![RET; n];
    words[0] = READ | 1;
    words[1] = CALL | 4;
    words[2] = jump(n - 1);
    for a in (4..2 * returns).step_by(2) {
        words[a] = if a % 256 == 254 { jump(a + 2) } else { NZT | ((a + 2) % 256) as u16 };
    }
    for (a, word) in words.iter_mut().enumerate().skip(n - jumps) {
        *word = jump(a - 1);
    }
    words[n - jumps] = JMP;
    words
}

/// A routine of pairs of a branch to the pair before and a RET: a sweep reaches one more of each.
pub fn returns_one_a_sweep(n: usize) -> Vec<u16> {
    let mut words = vec![RET; n];
    (words[0], words[1], words[2], words[3]) = (READ | 1, CALL | 4, JMP | 2, RET);
    (words[4], words[5], words[6], words[7]) = (jump(n - 2), RET, RET, RET);
    for a in (8..n).step_by(2) {
        words[a] = if a % 256 == 0 { jump(a - 2) } else { NZT | ((a - 2) % 256) as u16 };
    }
    words
}

/// At every depth a quarter of the words are calls of which a sweep reaches one more, and a quarter are returns.
pub fn sites_one_a_sweep(n: usize) -> Vec<u16> {
    let mut words = vec![RET; n];
    (words[0], words[1], words[2]) = (READ | 1, jump(n / 2), jump(n / 2));
    for a in (4..n / 2 - 2).step_by(2) {
        words[a] = if a % 256 == 254 { jump(a + 2) } else { NZT | ((a + 2) % 256) as u16 };
    }
    words[n / 2 - 2] = jump(n / 2);
    for a in (n / 2..n).step_by(2) {
        (words[a], words[a + 1]) = (CALL | 4, NOP);
    }
    words[n - 1] = jump(n - 1);
    words
}

/// A routine in a page of its own: all facts but AUX are known at first, and each of ten returns knows one less than the
/// one before; then AUX alone is known, and the word `on` goes on.
fn ever_wider_returns(words: &mut [u16], at: usize, on: u16) {
    words[at..at + 10].copy_from_slice(&RESTORES);
    for (k, &loss) in LOSSES[..10].iter().enumerate() {
        let at = at + 10 + 3 * k;
        words[at..at + 3].copy_from_slice(&[loss, NZT_R2 | ((at + 3) % 256) as u16, RET]);
    }
    words[at + 40] = on;
}

/// At every depth a third of the words may call and may return, and a third are calls of which a sweep reaches one more.
/// After each of these the ten returns, each wider than the one before, pass on to all call sites again.
pub fn wider_returns_after_each_call(n: usize) -> Vec<u16> {
    let (mut words, row) = (vec![NOP; n], n / 3 / 32 * 32);
    words[0] = JMP | 64;
    ever_wider_returns(&mut words, 1, JMP | 64);
    for page in (64..row).step_by(32) {
        words[page..page + 28].fill(0x975d); // XEC left bit 7, 2 bits, from place 29 on
        words[page + 28..page + 32].copy_from_slice(&[jump(page + 32), CALL | 1, RET, NOP]);
    }
    for a in (row..n).step_by(2) {
        (words[a], words[a + 1]) = (CALL | 1, NOP);
    }
    words[n - 1] = jump(n - 1);
    words
}

/// Pages of 256 words: a first half of XECs of AUX, which is unknown, and a second half that they may execute. The first page
/// loses one fact after the other, each in a sweep of its own, AUX first, and goes to the XECs with what is left.
fn xec_pages(n: usize, mut second: impl FnMut(&mut Random, usize) -> u16) -> Vec<u16> {
    let mut random = Random(0x9a9e5);
    let half = |a: usize| a % 256 < 128;
    let mut words: Vec<u16> = (0..n).map(|a| if half(a) { XEC_AUX } else { second(&mut random, a) }).collect();
    words[..256].fill(JMP | 257);
    words[0] = JMP | 168;
    for (k, &loss) in LOSSES[10..].iter().chain(&LOSSES[..10]).enumerate() {
        let at = 168 - 4 * k;
        words[at..at + 4].copy_from_slice(&[loss, NZT_AUX | (at + 3) as u16, JMP | 257, jump(at - 4)]);
    }
    words
}

/// The XECs execute CALLs, of XECs in every page.
pub fn xec_pages_of_calls(n: usize) -> Vec<u16> {
    xec_pages(n, |_, a| CALL | (1 + a % 127) as u16)
}

/// The XECs execute RETs, one CALL and words that go on to the next XEC and the next page.
pub fn xec_pages_of_returns(n: usize) -> Vec<u16> {
    xec_pages(n, move |_, a| match a % 256 {
        128 => CALL | 1,
        129 => NOP,
        130 => jump((a / 256 + 1) * 256 % n + 1),
        _ => RET,
    })
}

/// The XECs execute jumps to XECs anywhere, and one CALL.
pub fn xec_pages_of_jumps(n: usize) -> Vec<u16> {
    xec_pages(n, move |random, a| match a % 256 {
        128 => CALL | 1,
        _ => jump((1 + random.below(n / 256 - 1)) * 256 + random.below(128)),
    })
}

/// At every depth nearly all words from `row` on are XECs of R1 that execute XMIT 0, R1 as long as R1 is 0. Nine of ten
/// returns, each wider than the one before, leave it so, as do the words between, which all may return. The last return, with
/// R1 unknown, makes one more XEC a call site in each sweep, and all pass on to the call sites again.
pub fn late_sites(n: usize, row: usize) -> Vec<u16> {
    let mut words = vec![XEC | 2; n];
    for page in (row..n).step_by(256) {
        words[page + 1..page + 4].copy_from_slice(&[NZT_AUX | 4, 0xc100, CALL]);
        // 0xc100: XMIT 0, R1
    }
    words[..row].fill(RET);
    (words[0], words[1]) = (0xc001, jump(row - 1)); // XMIT 1, AUX, the page of the routine
    words[row - 1] = CALL;
    ever_wider_returns(&mut words, 256, RET);
    words[293] = JMP | 320; // the last loss comes behind the words that may return
    let last = row - 64;
    for page in (320..last).step_by(32) {
        words[page..page + 28].fill(0x973d); // XEC left bit 7, 1 bit, from place 29 on
        words[page + 28..page + 32].copy_from_slice(&[jump(page + 32), NOP, RET, NOP]);
    }
    let branch = NZT | ((last + 3) % 256) as u16;
    words[last..last + 5].copy_from_slice(&[READ | 1, branch, RET, 0xc100, jump(row - 1)]);
    words
}

/// Jumps down the image, through which at every depth one loss after the other goes, and no two at a time: each is copied
/// from the loss before at the end of the jumps, and the next depth is called after the last.
pub fn one_change_a_sweep(n: usize) -> Vec<u16> {
    let copy = |from: u16, to: u16| from << 8 | to;
    let mut words = vec![JMP | 1];
    words.extend([1, 2, 3, 4, 5, 6, 0o11, 0, 0o07, 0o17].map(|d| 0xc000 | d << 8)); // XMIT 0
    words.extend([0x2101, jump(n - 1)]); // a sum that is known: OVF is 0 again
    let end = words.len();
    words.extend([copy(0o10, 0), 0x2909, copy(6, 0o11), copy(5, 6), copy(4, 5), copy(3, 4), copy(2, 3), copy(1, 2)]);
    words.extend([READ | 1, NZT_AUX | (end + 11) as u16, jump(n - 1)]);
    words.extend([0xc000, CALL | 1, jump(end + 13)]);
    let down = words.len();
    words.extend((down..n).map(|a| jump(if a == down { end } else { a - 1 })));
    words
}

/// Words of these weights: CALL, RET, XEC of a register, XEC of a bank, JMP, NZT, what loses a fact, XMIT to a register,
/// any valid word.
pub fn mixed(random: &mut Random, n: usize, weights: [usize; 9]) -> Vec<u16> {
    let all: usize = weights.iter().sum();
    let register = |random: &mut Random| random.pick(&[0, 0, 1, 1, 2, 3, 0o11]) << 8;
    let one = |a: usize| {
        let (low, roll) = (random.below(256.min(n)) as u16, random.below(all));
        let kind = (0..9).find(|&kind| roll < weights[..=kind].iter().sum());
        match kind.expect("a roll below the sum") {
            0 => CALL | low,
            1 => RET | low,
            2 => 0x8000 | register(random) | low,
            3 => 0x9000 | (random.below(16) as u16) << 8 | (1 + random.below(5) as u16) << 5 | (low % 32),
            4 if random.chance(50) => jump(a.saturating_sub(1 + random.below(4))),
            4 => jump(random.below(n)),
            5 if random.chance(50) => 0xb000 | (random.below(16) as u16) << 8 | low,
            5 => 0xa000 | register(random) | low,
            6 => random.pick(&LOSSES),
            7 => {
                let d = random.pick(&[0, 0, 1, 2, 3, 4, 5, 6, 7, 0o11, 0o17]);
                0xc000 | d << 8 | random.below(n.div_ceil(256)) as u16
            }
            _ => random_valid(random),
        }
    };
    (0..n).map(one).collect()
}

/// The same words, of which the first page is executed at once.
pub fn lively(mut words: Vec<u16>) -> Vec<u16> {
    words[..2].copy_from_slice(&[READ, XEC_AUX]);
    words
}

/// CALL, RET and XEC of a register for the most part.
pub const CALLS_RETURNS_XECS: [usize; 9] = [20, 20, 20, 5, 5, 5, 10, 5, 10];
pub const CALLS_AND_RETURNS: [usize; 9] = [30, 25, 2, 2, 10, 10, 8, 5, 8];
pub const XECS: [usize; 9] = [5, 5, 35, 15, 10, 5, 10, 5, 10];
pub const ALL_ALIKE: [usize; 9] = [1; 9];
pub const BACKWARDS: [usize; 9] = [20, 5, 2, 4, 40, 15, 10, 5, 5];
/// Few RETs and XECs of a register, which are dear in a long image that is swept cell by cell.
pub const FEW_RETURNS: [usize; 9] = [30, 2, 1, 20, 20, 60, 20, 40, 20];

/// Pages of 256 or 32 with XECs of an unknown source in front and one kind of word, seldom another, behind them.
pub fn mixed_pages(random: &mut Random, n: usize) -> Vec<u16> {
    let (width, front) = (random.pick(&[256, 32]), 1 + random.below(90));
    let xec = if width == 256 { XEC_AUX } else { 0x97a0 };
    let mut weights = [0; 9];
    weights[random.pick(&[0, 1, 4, 5])] = 60;
    (0..9).for_each(|kind| weights[kind] += random.below(4));
    weights[8] += 1;
    let mut words = mixed(random, n, weights);
    for (a, word) in words.iter_mut().enumerate().filter(|(a, _)| a % width * 100 < front * width) {
        *word = xec | (a % 32) as u16;
    }
    let losses = n.min(1 + random.below(20));
    words[..losses].fill_with(|| random.pick(&[READ, READ, READ | 1, NZT_AUX | 9, CALL | 3, XEC_AUX]));
    words
}

/// An image of many CALLs, RETs and XECs in one of six mixtures.
pub fn mixture(random: &mut Random, n: usize) -> Vec<u16> {
    let words = match random.below(6) {
        0 => mixed_pages(random, n),
        kind => mixed(random, n, [ALL_ALIKE, BACKWARDS, CALLS_AND_RETURNS, CALLS_RETURNS_XECS, XECS][kind - 1]),
    };
    if n > 1 && random.chance(50) {
        lively(words)
    } else {
        words
    }
}

/// The images of the table of `docs/RATES.md` by their names there.
pub fn images(n: usize) -> Vec<(&'static str, Vec<u16>)> {
    vec![
        ("straight line, back to its start", straight_line(n)),
        ("a dispatcher (XEC of 3 bits into eight jumps) on each page of 32", dispatchers(n)),
        ("XEC of an unknown register at every other word (refused, 29)", xec_tables(n)),
        ("each word jumps to the one before it", backward_jumps(n)),
        ("calls in a row to the end, routines eight levels deep", calls_and_returns(n)),
        ("a routine of N/2 returns, and 100 backward jumps", returns_and_jumps(n, n / 2 - 196, 100)),
        ("500 calls in a row", calls_in_a_row(n, 500)),
        ("a routine of N/4 returns, and N/2 backward jumps", returns_and_jumps(n, n / 4 - 148, n / 2 - 96)),
        ("random valid words", random_words(&mut Random(1), n, 0)),
        ("CALL, RET and XEC mixed at random", lively(mixed(&mut Random(2), n, CALLS_RETURNS_XECS))),
        ("XEC heavy, at random", lively(mixed(&mut Random(3), n, XECS))),
        ("CALL and RET heavy, at random", lively(mixed(&mut Random(4), n, CALLS_AND_RETURNS))),
        ("N/2 returns, one more reached in a sweep", returns_one_a_sweep(n)),
        ("N/4 call sites, one born in a sweep, and N/4 returns", sites_one_a_sweep(n)),
        ("N/3 call sites, one born in a sweep, and ten ever wider returns", wider_returns_after_each_call(n)),
        ("XECs that become call sites late", late_sites(n, 512)),
        ("XECs that become call sites late, and N/2 returns", late_sites(n, n / 2)),
        ("XEC pages of CALLs, AUX unknown", xec_pages_of_calls(n)),
        ("XEC pages of RETs", xec_pages_of_returns(n)),
        ("XEC pages of JMPs", xec_pages_of_jumps(n)),
        ("one change in a sweep", one_change_a_sweep(n)),
    ]
}
