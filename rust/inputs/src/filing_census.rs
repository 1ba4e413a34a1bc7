//! What a run over filings has reached.

use std::collections::BTreeMap;

use crate::filing::Filing;
use crate::filing_done::{Change, Done};

/// The numbers that the check gives: those of a file, and the row count's.
const NUMBERS: [usize; 12] = [1, 2, 4, 5, 6, 7, 14, 15, 16, 17, 18, 22];

/// Counts by outcome, number, what was done, and how the wrong cell that was named was made.
#[derive(Debug, Default)]
pub struct FilingCensus {
    pub inputs: u64,
    pub bytes: u64,
    pub cells: u64,
    /// Agrees, wrong, refused.
    pub outcomes: [u64; 3],
    pub numbers: [u64; 23],
    pub done: BTreeMap<Done, u64>,
    pub changes: BTreeMap<Change, u64>,
}

impl FilingCensus {
    /// Counts what a filing has reached; fails where the answer does not fit what was done to it.
    pub fn count(&mut self, filing: &Filing, answer: [u64; 3]) -> Result<(), String> {
        if answer != filing.answer {
            return Err(format!("the filing was made for {:?}, and the answer is {answer:?}", filing.answer));
        }
        self.inputs += 1;
        self.bytes += filing.file.len() as u64;
        self.cells += filing.rows.len() as u64;
        let [outcome, number, _] = answer;
        self.outcomes[outcome as usize] += 1;
        if outcome == 2 {
            self.numbers[number as usize] += 1;
        }
        *self.done.entry(filing.done).or_default() += 1;
        if let Some(change) = filing.change {
            *self.changes.entry(change).or_default() += 1;
        }
        Ok(())
    }

    /// All that a run has to reach, in words and with how often it did.
    pub fn reached(&self) -> Vec<(String, u64)> {
        let outcomes = ["agrees", "wrong", "refused"].iter().zip(self.outcomes);
        let outcomes = outcomes.map(|(name, count)| (format!("outcome {name}"), count));
        let numbers = NUMBERS.map(|number| (format!("number {number}"), self.numbers[number]));
        let done = Done::all().map(|done| (format!("done {done:?}"), self.done.get(&done).copied().unwrap_or(0)));
        let changes = Change::ALL.map(|change| {
            let count = self.changes.get(&change).copied().unwrap_or(0);
            (format!("a wrong cell by {change:?}"), count)
        });
        outcomes.chain(numbers).chain(done).chain(changes).collect()
    }
}
