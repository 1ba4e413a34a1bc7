//! Request A6: whether the rows and totals that a plant has filed are those of its record file.

use crate::account::account;
use crate::hours::HOURS;
use crate::refusal::{Fault, Refusal};

const ROW_CELLS: usize = 7;
const MOST_CELLS: usize = 48 * ROW_CELLS;

/// What the check answers. Rows and fields count from 0, and the totals are the row after the last.
#[derive(Clone, Copy, Debug, PartialEq, Eq)]
pub enum Checked {
    Agrees,
    Wrong { row: u64, field: u64 },
    Refused { number: u32, place: u64 },
}

impl Checked {
    /// The answer in three cells: the outcome, then row and field or number and place.
    pub fn cells(&self) -> [u64; 3] {
        match *self {
            Checked::Agrees => [0, 0, 0],
            Checked::Wrong { row, field } => [1, row, field],
            Checked::Refused { number, place } => [2, u64::from(number), place],
        }
    }

    pub(crate) fn refused(fault: Fault) -> Self {
        Checked::Refused { number: fault.refusal.number(), place: fault.place as u64 }
    }
}

/// Checks what a plant has filed for `file`: the cells of its rows, and its totals.
pub fn check(file: &[u8], rows: &[u64], totals: &[u64; 5]) -> Checked {
    Right::of_file(file).map_or_else(|refused| refused, |right| right.check(rows, totals))
}

/// The rows and totals that are right for a file.
pub(crate) struct Right {
    rows: Vec<u64>,
    totals: [u64; 5],
}

impl Right {
    /// What document 01 states of the file, or its refusal of it; enough is lent, so that this is never 8 or 9.
    pub fn of_file(file: &[u8]) -> Result<Self, Checked> {
        let mut rows = vec![0; MOST_CELLS];
        let answer = account(file, &mut rows, &mut [0; HOURS], &mut [0; HOURS]);
        if answer.number != 0 {
            return Err(Checked::Refused { number: answer.number, place: answer.place });
        }
        rows.truncate(ROW_CELLS * answer.rows as usize);
        Ok(Right { rows, totals: answer.totals })
    }

    /// The first cell that is wrong, by row and then by field, if there are as many as there have to be.
    pub fn check(&self, rows: &[u64], totals: &[u64; 5]) -> Checked {
        if rows.len() != self.rows.len() {
            return Checked::refused(Refusal::RowCount.at(0));
        }
        let filed = rows.iter().chain(totals);
        let right = self.rows.iter().chain(&self.totals);
        match filed.zip(right).position(|(filed, right)| filed != right) {
            Some(cell) => Checked::Wrong { row: (cell / ROW_CELLS) as u64, field: (cell % ROW_CELLS) as u64 },
            None => Checked::Agrees,
        }
    }
}
