//! The governing survey: its frame, its answer, and what the reference answers.

use std::io::{self, Read};

use inputs::Lookup;

use crate::feed::{Call, feed, read_array, write_header};
use crate::program::Program;

/// The length that was answered, and the 14 bytes that were lent, each of them 0xAA before the call.
#[derive(Clone, Copy, Debug, PartialEq, Eq)]
pub struct Part {
    pub length: u32,
    pub bytes: [u8; 14],
}

impl Call for Lookup {
    type Answer = Part;

    fn write(&self, frame: &mut Vec<u8>) {
        let [enforcement, plant] = [&self.enforcement, &self.plant].map(|slice| slice.len() as u32);
        write_header(frame, [3, enforcement, plant, u32::from(self.hour), 0, 0]);
        frame.extend(&self.enforcement);
        frame.extend(&self.plant);
    }

    fn read(&self, output: &mut impl Read) -> io::Result<Part> {
        let length = u32::from_le_bytes(read_array(output)?);
        Ok(Part { length, bytes: read_array(output)? })
    }
}

/// What the reference answers.
pub fn part(lookup: &Lookup) -> Part {
    let found = reference::governing_survey(&lookup.enforcement, &lookup.plant, lookup.hour);
    Part { length: found.len() as u32, bytes: found.try_into().unwrap_or([0xaa; 14]) }
}

/// How many lookups found a block of each office, and how many none.
#[derive(Clone, Copy, Debug, Default)]
pub struct Found {
    pub enforcement: u64,
    pub plant: u64,
    pub none: u64,
}

/// Holds every lookup against the reference, and counts what was found.
pub fn compare_lookups(program: &Program, lookups: impl Iterator<Item = Lookup> + Send) -> Result<Found, String> {
    let mut found = Found::default();
    feed(program, lookups, |lookup, answer| {
        let expected = part(&lookup);
        if answer != expected {
            return Err(format!("the part is {answer:?}, and was to be {expected:?}, for {lookup:?}"));
        }
        match (answer.length, answer.bytes[2]) {
            (0, _) => found.none += 1,
            (_, 3) => found.enforcement += 1,
            _ => found.plant += 1,
        }
        Ok(())
    })?;
    Ok(found)
}
