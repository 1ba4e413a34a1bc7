//! Inputs for the comparison tests, the valgrind run and the benchmark, all from fixed seeds.
//!
//! It knows the shape of a record file, of a text export and of a filed text and the ranges of their fields, and
//! nothing of how an account is computed: what is filed is made by the account call that it is handed.
#![forbid(unsafe_code)]

mod case;
mod census;
mod damage;
mod damage_bytes;
mod damage_export;
mod damage_fields;
mod damage_lines;
mod damage_records;
mod damage_water;
mod damage_water_fields;
mod export;
mod export_census;
mod export_lines;
pub mod export_vectors;
mod field;
pub mod figures;
mod filed_lines;
mod filed_text;
mod filed_text_census;
mod filing;
mod filing_census;
mod filing_done;
pub mod filing_vectors;
mod frames;
mod hours;
mod misprint;
mod outage;
mod outcome;
mod panel;
mod reading;
mod rng;
mod running;
mod setting;
mod sound;
mod sound_surveys;
mod sound_water;
mod survey;
pub mod sweep;
pub mod vectors;
mod water;
pub mod wire;

pub use case::Case;
pub use census::{Census, Fill};
pub use damage_export::Damage;
pub use export::{Damaged, Export};
pub use export_census::{ExportCensus, Order, Room};
pub use filed_text::{FiledText, Misprinted};
pub use filed_text_census::{FiledTextCensus, Met, Printed};
pub use filing::{Account, Filing};
pub use filing_census::FilingCensus;
pub use filing_done::{Change, Done, RowAt};
pub use misprint::Misprint;
pub use outcome::Outcome;
pub use panel::Step;
pub use rng::Rng;
pub use sound::{Size, lines as sound_lines};
pub use sound_water::lines as sound_lines_with_outfalls;
pub use survey::Lookup;
