//! The account call: its frame, its answer, and what the reference answers.

use std::io::{self, Read};

use inputs::{Case, Census, Outcome, Rng};

use crate::feed::{Call, feed, read_array, write_header};
use crate::program::Program;

/// The longest file that the program takes.
const MOST_BYTES: usize = 1_000_000;

/// A case, and the number from which its lent cells count up.
#[derive(Debug)]
pub struct AccountCall {
    pub case: Case,
    pub seed: u32,
}

impl AccountCall {
    /// The next generated case that the program has room for.
    pub fn generate(rng: &mut Rng) -> Self {
        let mut case = Case::generate(rng);
        while case.file.len() > MOST_BYTES {
            case = Case::generate(rng);
        }
        AccountCall { case, seed: rng.word() as u32 }
    }

    /// A call that is lent two quarters for work.
    pub fn of_file(file: Vec<u8>, rows: usize, seed: u32) -> Self {
        let case = Case { file, rows, concentration: reference::HOURS, flow: reference::HOURS, lines: None };
        AccountCall { case, seed }
    }

    /// What the reference answers, over cells like those that the program lends.
    pub fn expected(&self) -> Outcome {
        let Case { file, rows, concentration, flow, .. } = &self.case;
        let cells = |count: usize| (0..count as u32).map(|cell| self.seed.wrapping_add(cell));
        let mut rows: Vec<u64> = cells(*rows).map(u64::from).collect();
        let (mut concentration, mut flow): (Vec<u32>, Vec<u32>) =
            (cells(*concentration).collect(), cells(*flow).collect());
        let answer = reference::account(file, &mut rows, &mut concentration, &mut flow).cells();
        Outcome { answer, rows, concentration, flow }
    }

    /// The start of the file, for a failure's message.
    fn hex(&self) -> String {
        self.case.file.iter().take(4_000).map(|byte| format!("{byte:02x}")).collect()
    }
}

impl Call for AccountCall {
    type Answer = Outcome;

    fn write(&self, frame: &mut Vec<u8>) {
        let Case { file, rows, concentration, flow, .. } = &self.case;
        let [length, rows, concentration, flow] = [file.len(), *rows, *concentration, *flow].map(|count| count as u32);
        write_header(frame, [1, length, rows, concentration, flow, self.seed]);
        frame.extend(file);
    }

    fn read(&self, output: &mut impl Read) -> io::Result<Outcome> {
        let mut answer = [0; 8];
        for cell in &mut answer {
            *cell = u64::from_le_bytes(read_array(output)?);
        }
        let rows = read_cells(self.case.rows, output)?.into_iter().map(u64::from_le_bytes).collect();
        let concentration = read_cells(self.case.concentration, output)?.into_iter().map(u32::from_le_bytes).collect();
        let flow = read_cells(self.case.flow, output)?.into_iter().map(u32::from_le_bytes).collect();
        Ok(Outcome { answer, rows, concentration, flow })
    }
}

fn read_cells<const N: usize>(count: usize, output: &mut impl Read) -> io::Result<Vec<[u8; N]>> {
    let mut cells = vec![[0; N]; count];
    output.read_exact(cells.as_flattened_mut())?;
    Ok(cells)
}

/// Holds every answer, row cell and work cell against the reference, and counts what was reached.
pub fn compare_accounts(program: &Program, calls: impl Iterator<Item = AccountCall> + Send) -> Result<Census, String> {
    let mut census = Census::default();
    feed(program, calls, |call, outcome| {
        if let Some(difference) = outcome.difference(&call.expected()) {
            return Err(format!("{difference}; the file is {}", call.hex()));
        }
        census.count(&call.case, &outcome)
    })?;
    Ok(census)
}
