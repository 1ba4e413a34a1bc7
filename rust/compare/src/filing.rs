//! The check of what was filed, as cells and as a text: its frames, its answers, and what the reference answers.

use std::io::{self, Read};

use inputs::{Done, FiledText, FiledTextCensus, Filing, FilingCensus, Rng};

use crate::feed::{Call, feed, read_array, write_header};
use crate::program::Program;

/// The longest file that the program takes.
const MOST_BYTES: usize = 1_000_000;

/// The reference's account, by which filings are made.
fn account(file: &[u8], rows: &mut [u64]) -> [u64; 8] {
    reference::account(file, rows, &mut [0; reference::HOURS], &mut [0; reference::HOURS]).cells()
}

/// The next generated filing of cells that the program has room for.
pub fn generate_filing(rng: &mut Rng) -> Filing {
    let mut filing = Filing::generate(account, u64::MAX, rng);
    while filing.file.len() > MOST_BYTES {
        filing = Filing::generate(account, u64::MAX, rng);
    }
    filing
}

/// The next generated filing as a text.
pub fn generate_filed_text(rng: &mut Rng) -> FiledText {
    FiledText::generate(account, rng)
}

/// The right filing of a file that is accepted.
pub fn right_filing(file: Vec<u8>) -> Filing {
    Filing::of_file(file, account)
}

/// Any cells, which are to be answered as the reference does.
pub fn filing_of_cells(file: Vec<u8>, rows: Vec<u64>, totals: [u64; 5]) -> Filing {
    let answer = reference::check(&file, &rows, &totals).cells();
    Filing { file, rows, totals, answer, done: Done::Nothing, change: None }
}

impl Call for Filing {
    /// Outcome, then row and field or number and place.
    type Answer = [u64; 3];

    fn write(&self, frame: &mut Vec<u8>) {
        let [length, cells] = [self.file.len(), self.rows.len()].map(|count| count as u32);
        write_header(frame, [5, length, cells, 0, 0, 0]);
        frame.extend(&self.file);
        frame.extend(self.rows.iter().chain(&self.totals).flat_map(|cell| cell.to_le_bytes()));
    }

    fn read(&self, output: &mut impl Read) -> io::Result<[u64; 3]> {
        let mut answer = [0; 3];
        for cell in &mut answer {
            *cell = u64::from_le_bytes(read_array(output)?);
        }
        Ok(answer)
    }
}

impl Call for FiledText {
    /// The line that is printed.
    type Answer = Vec<u8>;

    fn write(&self, frame: &mut Vec<u8>) {
        let [of_file, of_text] = [&self.filing.file, &self.text].map(|bytes| bytes.len() as u32);
        write_header(frame, [6, of_file, of_text, 0, 0, 0]);
        frame.extend(&self.filing.file);
        frame.extend(&self.text);
    }

    fn read(&self, output: &mut impl Read) -> io::Result<Vec<u8>> {
        let count = u32::from_le_bytes(read_array(output)?);
        let mut printed = Vec::new();
        output.take(u64::from(count)).read_to_end(&mut printed)?;
        if printed.len() == count as usize { Ok(printed) } else { Err(io::ErrorKind::UnexpectedEof.into()) }
    }
}

/// Holds every answer against the reference, and counts what was reached.
pub fn compare_filings(
    program: &Program,
    filings: impl Iterator<Item = Filing> + Send,
) -> Result<FilingCensus, String> {
    let mut census = FilingCensus::default();
    feed(program, filings, |filing, answer| {
        let expected = reference::check(&filing.file, &filing.rows, &filing.totals).cells();
        if answer != expected {
            return Err(format!("the answer is {answer:?}, and was to be {expected:?}, for {filing:?}"));
        }
        census.count(&filing, answer).map_err(|why| format!("{why}, for {filing:?}"))
    })?;
    Ok(census)
}

/// Holds every line that is printed against the reference, and counts what was reached.
pub fn compare_filed_texts(
    program: &Program,
    texts: impl Iterator<Item = FiledText> + Send,
) -> Result<FiledTextCensus, String> {
    let mut census = FiledTextCensus::default();
    feed(program, texts, |filed, printed| {
        let expected = reference::printed_check(&filed.filing.file, &filed.text);
        let judged = match printed == expected.as_bytes() {
            true => census.count(&filed, &printed),
            false => Err(format!("{:?} is printed, and was to be {expected:?}", String::from_utf8_lossy(&printed))),
        };
        judged.map_err(|why| {
            let text = &filed.text[..filed.text.len().min(4_000)];
            format!("{why}; the text is {:?}", String::from_utf8_lossy(text))
        })
    })?;
    Ok(census)
}
