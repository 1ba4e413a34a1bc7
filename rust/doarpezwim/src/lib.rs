//! The proved quarter account of what stacks and outfalls emit.
//!
//! [`account`] states what each stack and outfall of a record file emitted of each pollutant, in grams, with the method
//! behind the figure, or says in a [`Refusal`] what is wrong with the file, where, and what to do:
//!
//! ```
//! let file = std::fs::read("../../samples/example.rec")?;
//! let account = doarpezwim::account(&file)?;
//! assert_eq!(account.rows[0].grams, 126_500);
//! assert_eq!(account.totals.nitrogen_oxides, 126_500);
//! # Ok::<(), Box<dyn std::error::Error>>(())
//! ```
//!
//! [`account_into`] is the same call over slices that the caller lends, [`Panel`] keeps a running total of a stack hour
//! by hour, and [`governing_survey`] finds the survey that counts at an hour. [`import_days`] writes the day records of
//! a historian's text export, and [`check`] says whether what a plant has filed is what its file gives.
//!
//! The calls are proved in Rattle and linked from a static archive. They answer what document 01 with requests A1 to
//! A3, A5 and A6 says for every input, read and write nothing but what they are lent, allocate nothing and keep no
//! state. This crate adds types, and the borrow rules that the C interface cannot state; it is not proved itself. An
//! account takes about 36 KB of stack, a check 54 KB.
#![warn(missing_docs)]

mod account;
mod check;
pub mod ffi;
mod import;
mod panel;
mod refusal;
mod row;
mod survey;

pub use account::{Account, Stated, Totals, account, account_into};
pub use check::{CheckError, Field, check};
pub use import::import_days;
pub use panel::{Hour, Panel};
pub use refusal::Refusal;
pub use row::{Method, Pollutant, Row, Source};
pub use survey::governing_survey;

/// Cells that each work slice has to have: the hours of 92 days, also for a file of outfalls.
pub const WORK_CELLS: usize = 2_208;
/// Cells of an answer: number, place, row count, and the grams of each of the five pollutants.
pub const ANSWER_CELLS: usize = 8;
/// Cells of one row: stack or outfall, pollutant, method, grams, running, missing, first missing hour or day plus 1.
pub const ROW_CELLS: usize = 7;
/// Lines that a file may hold; a line gives a row.
pub const MOST_LINES: usize = 48;
/// Bytes of a day record, its length with them.
pub const DAY_BYTES: usize = 205;
/// Days that a text export may hold.
pub const MOST_DAYS: usize = 92;
/// Cells of an import's answer: number, line, and the bytes that were written.
pub const IMPORT_CELLS: usize = 3;
/// Totals that are stated or filed, one for each pollutant.
pub const TOTALS: usize = 5;
/// Cells of a check's answer: the outcome, then row and field or number and place.
pub const CHECK_CELLS: usize = 3;
