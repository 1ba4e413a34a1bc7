//! The C interface of the proved archive as it is, for a caller who wants no wrapper.
//!
//! `include/doarpezwim.h` says what each call takes and answers. No pointer is null, each is aligned for its type, a
//! length counts elements, and what is written to overlaps no other argument.

use crate::{ANSWER_CELLS, CHECK_CELLS, IMPORT_CELLS, TOTALS};

unsafe extern "C" {
    /// The call behind [`account_into`](crate::account_into); returns the refusal number, or 0.
    ///
    /// # Safety
    /// Each pointer but the last is followed by the number of elements that it leads to, and the module's rules hold.
    pub fn doarpezwim_account(
        file: *const u8,
        file_len: usize,
        rows: *mut u64,
        rows_len: usize,
        concentration: *mut u32,
        concentration_len: usize,
        flow: *mut u32,
        flow_len: usize,
        answer: *mut [u64; ANSWER_CELLS],
    ) -> u32;

    /// The call behind [`Panel::hour`](crate::Panel::hour); returns the refusal number, or 0.
    ///
    /// A kind that is none of 0 stopped, 1 missing, 2 measured is refused with 15 before the state is looked at.
    ///
    /// # Safety
    /// The module's rules hold.
    pub fn doarpezwim_panel_hour(
        total: *mut f64,
        hours: *mut u32,
        missing: *mut u32,
        kind: u32,
        concentration: f32,
        flow: f32,
    ) -> u32;

    /// The call behind [`governing_survey`](crate::governing_survey); returns 14 with the block copied to `part`, or 0.
    ///
    /// # Safety
    /// Each slice's pointer is followed by its length, and the module's rules hold.
    pub fn doarpezwim_governing_survey(
        enforcement: *const u8,
        enforcement_len: usize,
        plant: *const u8,
        plant_len: usize,
        hour: u16,
        part: *mut [u8; 14],
    ) -> u32;

    /// The call behind [`import_days`](crate::import_days); returns the refusal number, or 0.
    ///
    /// # Safety
    /// Each slice's pointer is followed by its length, and the module's rules hold.
    pub fn doarpezwim_import(
        text: *const u8,
        text_len: usize,
        records: *mut u8,
        records_len: usize,
        answer: *mut [u64; IMPORT_CELLS],
    ) -> u32;

    /// The call behind [`check`](crate::check); returns the outcome: 0 it agrees, 1 a cell is wrong, 2 it is refused.
    ///
    /// # Safety
    /// Each slice's pointer is followed by its length, and the module's rules hold.
    pub fn doarpezwim_check(
        file: *const u8,
        file_len: usize,
        rows: *const u64,
        rows_len: usize,
        totals: *const [u64; TOTALS],
        answer: *mut [u64; CHECK_CELLS],
    ) -> u32;
}
