//! Cases of 2026-07: programs by how many sweeps change their table.

use super::admissions::Case;
use super::ALL_ONES;
use crate::programs::{assemble, nested};
use crate::word::{Word, Word::*};

/// NOPs down to a jump to itself: one sweep reaches every word.
pub fn line(words: u16) -> Vec<u16> {
    let mut line = vec![0; usize::from(words) - 1];
    line.push(assemble(&[Jmp { a: words - 1 }])[0]);
    line
}

/// From the first word to the last, and back word by word to the second: the
/// first sweep reaches two words, each other one more.
pub fn backwards(words: u16) -> Vec<u16> {
    let next = |at: u16| if at == 0 { words - 1 } else { (at - 1).max(1) };
    assemble(&(0..words).map(|at| Jmp { a: next(at) }).collect::<Vec<_>>())
}

/// Calls that nest to a depth: the first sweep goes down and one depth back,
/// each other one depth back.
pub fn calls(depth: usize) -> Vec<u16> {
    nested(depth, &assemble(&[Ret { i: 0 }]))
}

/// A loop that moves a byte of the left bank to AUX and each register to the
/// next, from the first on, or from the last on: all are unknown at its end in
/// the first sweep, or one more in each sweep.
pub fn shifts(first_on: bool) -> Vec<u16> {
    let mut moves: Vec<Word> = (0..6).map(|s| Move { s, rl: 0, d: s + 1 }).collect();
    if !first_on {
        moves.reverse();
    }
    let byte = Move { s: 0o27, rl: 0, d: 0 };
    let at = if first_on { 0 } else { moves.len() };
    moves.insert(at, byte);
    moves.push(Jmp { a: 0 });
    assemble(&moves)
}

/// Pages of 32 words, in each an XEC over a table of 2^L jumps to the page
/// before; the first word jumps to the last page. Sweeps as in `backwards`.
pub fn tables(l: u16, pages: u16) -> Vec<u16> {
    let mut words = vec![0; 32 * (usize::from(pages) + 1)];
    words[0] = assemble(&[Jmp { a: 32 * pages }])[0];
    for page in 1..=pages {
        let at = 32 * usize::from(page);
        words[at] = assemble(&[XecBank { s: 0o37, l, i: 4 }])[0];
        let to = 32 * (page - 1).max(1);
        words[at + 4..][..1 << l].fill(assemble(&[Jmp { a: to }])[0]);
    }
    words
}

/// The programs with their names.
pub fn programs() -> Vec<(String, Vec<u16>)> {
    let lines = [2, 3, 40, 1000].map(|n| (format!("line-{n}"), line(n)));
    let back = [3, 4, 17, 100, 1000].map(|n| (format!("back-{n}"), backwards(n)));
    let nests = (1..=8).map(|depth| (format!("calls-{depth}"), calls(depth)));
    let shifted = [("first", true), ("last", false)];
    let shifted = shifted.map(|(name, first)| (format!("shifts-{name}-on"), shifts(first)));
    let xecs = [(1, 1), (4, 1), (2, 2), (3, 7)];
    let xecs = xecs.map(|(l, pages)| (format!("tables-{l}-{pages}"), tables(l, pages)));
    lines.into_iter().chain(back).chain(nests).chain(shifted).chain(xecs).collect()
}

/// Their admissions.
pub fn cases() -> Vec<Case> {
    let case =
        |(name, words): &(String, Vec<u16>)| Case::new(&format!("sweeps-{name}"), words, ALL_ONES);
    programs().iter().map(case).collect()
}
