//! Damaged files: one fault, two faults, or anything at all.

use std::ops::Range;

use crate::damage_bytes as on_bytes;
use crate::damage_fields as on_fields;
use crate::damage_lines as on_lines;
use crate::damage_records as on_records;
use crate::damage_water as on_water;
use crate::rng::Rng;
use crate::wire::{self, AnyLine, Line, Record};

/// Of 20 faults, this many are done to lines, to fields, to records, by wrong records put in, and the rest to bytes.
struct Levels {
    lines: Range<usize>,
    fields: Range<usize>,
    records: Range<usize>,
    put_in: Range<usize>,
    on_records: &'static [on_records::Fault],
    wrong_put_in: on_records::Fault,
}

const OF_STACKS: Levels = Levels {
    lines: 0..3,
    fields: 3..13,
    records: 13..17,
    put_in: 17..19,
    on_records: &on_records::FAULTS,
    wrong_put_in: on_records::wrong_and_misplaced,
};

/// Outfalls have fewer fields, and more that can stand in the wrong place.
const OF_OUTFALLS: Levels = Levels {
    lines: 0..3,
    fields: 3..8,
    records: 8..16,
    put_in: 16..19,
    on_records: &on_water::RECORD_FAULTS,
    wrong_put_in: on_water::wrong_and_misplaced,
};

/// The faults that a file gets, each by its number of 20.
struct Faults(Vec<usize>);

impl Faults {
    fn choose(count: usize, rng: &mut Rng) -> Self {
        Faults((0..count).map(|_| rng.below(20)).collect())
    }

    fn of(&self, level: &Range<usize>) -> impl Iterator<Item = &usize> {
        self.0.iter().filter(move |fault| level.contains(fault))
    }

    /// Does those to records and bytes that were chosen, and gives the file's bytes.
    fn finish(&self, mut records: Vec<Record>, levels: &Levels, rng: &mut Rng) -> Vec<u8> {
        for _ in self.of(&levels.records) {
            rng.pick(levels.on_records)(&mut records, rng);
        }
        for _ in self.of(&levels.put_in) {
            (levels.wrong_put_in)(&mut records, rng);
        }
        let mut bytes = wire::bytes(&records);
        for _ in self.of(&(levels.put_in.end..20)) {
            rng.pick(&on_bytes::FAULTS)(&mut bytes, rng);
        }
        bytes
    }
}

/// Does `faults` faults to the lines and gives the file's bytes; a fault that finds nothing to spoil leaves it sound.
pub fn damaged(mut lines: Vec<Line>, faults: usize, rng: &mut Rng) -> Vec<u8> {
    let faults = Faults::choose(faults, rng);
    for _ in faults.of(&OF_STACKS.lines) {
        rng.pick(&on_lines::FAULTS)(&mut lines, rng);
    }
    for _ in faults.of(&OF_STACKS.fields) {
        let line = rng.below(lines.len());
        rng.pick(&on_fields::FAULTS)(&mut lines[line], rng);
    }
    faults.finish(wire::records(&lines), &OF_STACKS, rng)
}

/// The same for a file with outfalls.
pub fn damaged_with_outfalls(mut lines: Vec<AnyLine>, faults: usize, rng: &mut Rng) -> Vec<u8> {
    let faults = Faults::choose(faults, rng);
    for _ in faults.of(&OF_OUTFALLS.lines) {
        rng.pick(&on_water::LINE_FAULTS)(&mut lines, rng);
    }
    for _ in faults.of(&OF_OUTFALLS.fields) {
        on_water::field(&mut lines, rng);
    }
    faults.finish(wire::records(&lines), &OF_OUTFALLS, rng)
}
