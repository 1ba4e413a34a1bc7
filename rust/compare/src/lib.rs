//! Holds the proved calls against the reference.
//!
//! The proved program `calls` makes the calls that the frames on its standard input ask for, and answers with all that
//! they answered and wrote. So the comparison needs no linker of its own: it starts the program that `rt run` leaves in
//! `crates/calls/out`.
#![forbid(unsafe_code)]

mod account;
mod feed;
mod filing;
mod header;
mod import;
mod panel;
mod program;
mod survey;

pub use account::{AccountCall, compare_accounts};
pub use feed::{Call, feed};
pub use filing::{
    compare_filed_texts, compare_filings, filing_of_cells, generate_filed_text, generate_filing, right_filing,
};
pub use header::HEADER;
pub use import::{Import, ImportCall, compare_imports};
pub use panel::{Stepped, compare_steps, stepped};
pub use program::Program;
pub use survey::{Found, Part, compare_lookups, part};

/// Fails a test with the sentence that says why.
pub fn agreed<T>(outcome: Result<T, String>) -> T {
    outcome.unwrap_or_else(|why| panic!("{why}"))
}

/// The proved program, or a test that fails since it is not there.
pub fn calls() -> Program {
    agreed(Program::calls())
}
