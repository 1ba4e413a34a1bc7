//! The quarter account of document 01 with requests A1 to A3, A5 and A6 of document 02, written from the documents and
//! not from the proved code.
//!
//! It shares no code with the proved library. The comparison tests hold the two against each other, and the benchmark
//! takes this one as its baseline.
#![forbid(unsafe_code)]

mod account;
mod digits;
mod filed_text;
mod filing;
mod fill;
mod grams;
mod historian;
mod hours;
mod line;
mod panel;
mod printed;
mod reading;
mod record;
mod refusal;
mod survey;
mod surveys;
mod tables;
mod water;

pub use account::{Answer, account};
pub use filing::{Checked, check};
pub use historian::{Imported, import_days};
pub use hours::HOURS;
pub use panel::{Hour, Panel};
pub use printed::{printed, printed_check, text};
pub use reading::{concentration, flow};
pub use refusal::Refusal;
pub use survey::governing_survey;
