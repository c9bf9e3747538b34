//! The check of a table that came along (2026-09): it looks at each record and
//! takes each reached cell once, where admission sweeps. It changes no byte.

use crate::table::{door, Analysis, Facts, Table, RECORD_BYTES};

/// What the check says of a table.
#[derive(Clone, Copy, PartialEq, Eq, Debug)]
pub enum Checked {
    /// The number of the first check of lengths that failed.
    Refused(u8),
    Accepted,
    /// 42, 43 or a finding, with the cell that it was given for.
    Failed {
        number: u8,
        depth: usize,
        address: usize,
    },
}

/// The cell that a record gives, or nothing where the record lacks the layout:
/// reached flag, a finding of 0, the mask of known facts, their values, a zero.
fn read_record(record: &[u8]) -> Option<Option<Facts>> {
    let known = u16::from(record[2]) + 256 * u16::from(record[3]);
    let mut facts = [None; 11];
    for (k, &value) in record[4..15].iter().enumerate() {
        if known / (1 << k) % 2 == 1 {
            facts[k] = Some(value);
        } else if value != 0 {
            return None;
        }
    }
    let zeros = record[1] == 0 && record[15] == 0;
    let overflow = facts[8].is_none_or(|ovf| ovf <= 1);
    match record[0] {
        0 if record.iter().all(|&byte| byte == 0) => Some(None),
        1 if zeros && known < 1 << 11 && overflow => Some(Some(facts)),
        _ => None,
    }
}

/// The table in these bytes, or the place of the first record that lacks the
/// layout.
pub fn read_table(bytes: &[u8], words: usize) -> Result<Table, usize> {
    let records = bytes.chunks(RECORD_BYTES).enumerate();
    let cells = records.map(|(index, record)| read_record(record).ok_or(index));
    Ok(Table { words, cells: cells.collect::<Result<_, _>>()? })
}

/// Whether a cell is reached and knows no more than is passed on.
fn holds(cell: &Option<Facts>, passed: &Facts) -> bool {
    let no_more = |facts: Facts| facts.iter().zip(passed).all(|(k, p)| k.is_none() || k == p);
    cell.is_some_and(no_more)
}

/// The number that a reached cell gets as its turn comes, or 0: its finding,
/// then 43 where something that it passes on is not held.
fn turn(analysis: &Analysis, depth: usize, address: usize, facts: &Facts) -> u8 {
    let finding = analysis.finding(depth, address, facts);
    if finding != 0 {
        return finding;
    }
    let held = |(d, a, passed)| holds(analysis.table.cell(d, a), &passed);
    if analysis.passes(depth, address, facts).into_iter().all(held) {
        0
    } else {
        43
    }
}

/// Whether a table is accepted for an image and a map. Asks 11, 12, 13; then
/// every record for its layout; then the first cell; then each reached cell.
pub fn check(image: &[u8], map: &[u8], table: &[u8]) -> Checked {
    let (image, map) = match door(image, map, table) {
        Ok(parsed) => parsed,
        Err(number) => return Checked::Refused(number),
    };
    let words = image.words();
    let failed = |number, index| {
        let (depth, address) = (index / words, index % words);
        Checked::Failed { number, depth, address }
    };
    let table = match read_table(table, words) {
        Ok(table) => table,
        Err(index) => return failed(42, index),
    };
    if !holds(&table.cells[0], &[Some(0); 11]) {
        return failed(43, 0);
    }
    let analysis = Analysis { image, map, table };
    for (index, cell) in analysis.table.cells.iter().enumerate() {
        let number = match cell {
            Some(facts) => turn(&analysis, index / words, index % words, facts),
            None => 0,
        };
        if number != 0 {
            return failed(number, index);
        }
    }
    Checked::Accepted
}
