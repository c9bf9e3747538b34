//! The trial of the sweeps against the reference, and a search for images whose admission is dear.

mod common;

use common::images::{images, mixture};
use common::trial::{Rungs, Trial, Work};
use riptide::{admit, table_length};
use riptide_reference::digest::Random;
use riptide_reference::programs::{bytes_of, random_valid};
use riptide_reference::table::least_table;
use std::time::Instant;

/// All four forms of the trial, each over images of its own.
#[test]
fn trial_equal_to_the_reference() {
    let mut random = Random(0x7e1a1);
    let (mut long, mut most) = (0, 0);
    for case in 0..3_000 {
        let limit = random.pick(&[8, 20, 20, 40, 40, 60, 60, 120]);
        let n = 1 + random.below(limit);
        let words = mixture(&mut random, n);
        let trial = Trial::of(&words, Rungs { fresh: case % 2 == 1, calls: case / 2 % 2 == 1 });
        let (table, sweeps) = least_table(&bytes_of(&words), &[255; 128]).expect("an image");
        assert_eq!(trial.work.sweeps, sweeps, "case {case}: {words:04x?}");
        assert!(trial.table() == table, "case {case}: {words:04x?}");
        (long, most) = (long + usize::from(sweeps > 10), most.max(sweeps));
    }
    println!("{long} images of more than 10 sweeps, at most {most}");
}

fn told<T: std::str::FromStr>(name: &str) -> Option<T> {
    std::env::var(name).ok().and_then(|value| value.parse().ok())
}

/// `RIPTIDE_RUNGS` may have `fresh` and `calls` in it.
fn rungs() -> Rungs {
    let named: String = told("RIPTIDE_RUNGS").unwrap_or_default();
    Rungs { fresh: named.contains("fresh"), calls: named.contains("calls") }
}

/// Some words changed: any word, a word from elsewhere, another constant, or a block copied, also page for page.
fn changed(random: &mut Random, words: &[u16]) -> Vec<u16> {
    let (mut words, n) = (words.to_vec(), words.len());
    for _ in 0..1 + random.below(4) {
        let (from, to) = (random.below(n), random.below(n));
        match random.below(8) {
            0 => words[to] = random_valid(random),
            1 => words[to] = words[from],
            2 => words[to] ^= 1 << random.below(16),
            3 => words[to] = words[to] & 0xff00 | random.below(256) as u16,
            4 => words[to] = 0xe000 | from as u16,
            5 => words[to] = mixture(random, 1)[0],
            6 => {
                let length = (1 << random.below(8)).min(n - from.max(to));
                words.copy_within(from..from + length, to);
            }
            _ => {
                let (from, to) = (from / 256 * 256, to / 256 * 256);
                words.copy_within(from..from + 256, to);
            }
        }
    }
    words
}

/// Twice the image, where the jumps of the second half may stay there.
fn grown(random: &mut Random, words: &[u16]) -> Vec<u16> {
    let shift = if random.chance(50) { words.len() as u16 } else { 0 };
    let moved = |&word: &u16| if word >= 0xe000 { word.checked_add(shift).unwrap_or(word) } else { word };
    words.iter().copied().chain(words.iter().map(moved)).collect()
}

/// A round of the climb: from a mixture or a hostile image of 1,024 words and up to 8,192, keeping each change that does not
/// make it cheaper. It depends on its number alone.
fn climbed(round: u64) -> (String, Vec<u16>, Work) {
    let (mut random, rungs) = (Random(round), rungs());
    let small = random.pick(&[1_024, 1_024, 2_048, 8_192]);
    let mut starts = images(small);
    let (name, mut words) = match random.below(3) {
        0 => ("a mixture", mixture(&mut random, small)),
        1 => starts.swap_remove(random.below(starts.len())),
        _ => starts.swap_remove(starts.len() - 1 - random.below(9)), // the most hostile ones
    };
    loop {
        let mut best = Trial::of(&words, rungs).work;
        let (mut spent, mut steps) = (best.cost(), 0);
        while spent < (1 << 41) / words.len() || steps < 10 {
            let other = changed(&mut random, &words);
            let work = Trial::of(&other, rungs).work;
            spent += work.cost() + work.sweeps * words.len() / 8 + 20 * words.len();
            steps += 1;
            if work.cost() >= best.cost() {
                (words, best) = (other, work);
            }
        }
        if words.len() == 8_192 {
            return (format!("round {round}, from {name} of {small} words, {steps} steps at last"), words, best);
        }
        words = grown(&mut random, &words);
    }
}

/// `RIPTIDE_SECONDS` (60) and `RIPTIDE_ROUND` (1), the first round; with `RIPTIDE_LIBRARY` the worst are admitted too.
#[test]
#[ignore]
fn climb() {
    let (started, seconds) = (Instant::now(), told("RIPTIDE_SECONDS").unwrap_or(60.0));
    let first = told("RIPTIDE_ROUND").unwrap_or(1);
    let rounds = (first..).take_while(|&round| round == first || started.elapsed().as_secs_f64() < seconds);
    let mut found: Vec<_> = rounds.map(climbed).collect();
    found.sort_by_key(|(_, _, work)| std::cmp::Reverse(work.cost()));
    println!("{} rounds, {:?}", found.len(), rungs());
    for (name, words, work) in found.iter().take(8) {
        let started = Instant::now();
        assert_eq!(Trial::of(words, rungs()).work, *work);
        println!("{name}: {} sweeps, {work}, trial {:.2} s", work.sweeps, started.elapsed().as_secs_f64());
        if std::env::var_os("RIPTIDE_LIBRARY").is_some() {
            let image = bytes_of(words);
            let (mut table, started) = (vec![0; table_length(&image)], Instant::now());
            let sweeps = admit(&image, &[255; 128], &mut table).sweeps;
            assert_eq!(sweeps as usize, work.sweeps);
            println!("    library {:.2} s", started.elapsed().as_secs_f64());
        }
    }
}
