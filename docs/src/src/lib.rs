//! Reference for RIPTIDE-II panel programs, read from the papers alone.
//!
//! Numbers of registers are octal as in the manual; bit 0 is the most
//! significant bit. Bank 0 is the left bank, bank 1 the right bank.

pub mod bench;
pub mod cases;
pub mod check;
pub mod digest;
pub mod direct;
pub mod listing;
pub mod machine;
pub mod map;
pub mod naive;
#[cfg(test)]
mod old_sum;
pub mod programs;
pub mod run;
pub mod stored;
pub mod table;
pub mod word;
