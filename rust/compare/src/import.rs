//! The import call: its frame, its answer, and what the reference answers.

use std::io::{self, Read};

use inputs::export_vectors::{ExportVector, lent};
use inputs::{Export, ExportCensus, Rng};

use crate::feed::{Call, feed, read_array, write_header};
use crate::program::Program;

/// A text with the bytes lent for its records, which count up from a seed.
#[derive(Debug)]
pub struct ImportCall {
    pub export: Export,
    pub seed: u32,
}

/// Number, line and count, and all lent bytes as they stand after the call.
#[derive(Clone, Debug, PartialEq, Eq)]
pub struct Import {
    pub answer: [u64; 3],
    pub records: Vec<u8>,
}

impl Import {
    /// Where this is first another than `expected`, in words.
    pub fn difference(&self, expected: &Import) -> Option<String> {
        if self.answer != expected.answer {
            return Some(format!("the answer is {:?}, and was to be {:?}", self.answer, expected.answer));
        }
        let (records, others) = (&self.records, &expected.records);
        let place = (0..records.len().max(others.len())).find(|&place| records.get(place) != others.get(place))?;
        Some(format!("byte {place} is {:?}, and was to be {:?}", records.get(place), others.get(place)))
    }
}

impl ImportCall {
    pub fn generate(rng: &mut Rng) -> Self {
        ImportCall { export: Export::generate(rng), seed: rng.word() as u32 }
    }

    /// A call on a text that nothing is known of.
    pub fn of_text(text: Vec<u8>, room: usize, seed: u32) -> Self {
        ImportCall { export: Export { text, room, days: 0, damages: None }, seed }
    }

    /// A vector as the program is asked for it, and what it is to answer.
    pub fn of_vector(vector: &ExportVector) -> (Self, Import) {
        let expected = Import { answer: vector.answer, records: vector.records.clone() };
        (ImportCall::of_text(vector.text.clone(), vector.records.len(), vector.seed), expected)
    }

    /// What the reference answers, over bytes like those that the program lends.
    pub fn expected(&self) -> Import {
        let mut records = lent(self.export.room, self.seed);
        let answer = reference::import_days(&self.export.text, &mut records).cells();
        Import { answer, records }
    }
}

impl Call for ImportCall {
    type Answer = Import;

    fn write(&self, frame: &mut Vec<u8>) {
        let [length, room] = [self.export.text.len(), self.export.room].map(|count| count as u32);
        write_header(frame, [4, length, room, self.seed, 0, 0]);
        frame.extend(&self.export.text);
    }

    fn read(&self, output: &mut impl Read) -> io::Result<Import> {
        let mut answer = [0; 3];
        for cell in &mut answer {
            *cell = u64::from_le_bytes(read_array(output)?);
        }
        let mut records = vec![0; self.export.room];
        output.read_exact(&mut records)?;
        Ok(Import { answer, records })
    }
}

/// Holds every answer and every lent byte against the reference, and counts what was reached.
pub fn compare_imports(
    program: &Program,
    calls: impl Iterator<Item = ImportCall> + Send,
) -> Result<ExportCensus, String> {
    let mut census = ExportCensus::default();
    feed(program, calls, |call, import| {
        let judged = match import.difference(&call.expected()) {
            Some(difference) => Err(difference),
            None => census.count(&call.export, import.answer),
        };
        judged.map_err(|why| {
            let text = &call.export.text[..call.export.text.len().min(4_000)];
            format!("{why}; {} bytes are lent, and the text is {:?}", call.export.room, String::from_utf8_lossy(text))
        })
    })?;
    Ok(census)
}
