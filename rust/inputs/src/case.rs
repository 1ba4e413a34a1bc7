//! One input of the account call: a file and the lengths of the lent slices.

use crate::damage::{damaged, damaged_with_outfalls};
use crate::rng::Rng;
use crate::sound::{self, Size};
use crate::sound_water;
use crate::wire::{self, AnyLine};

#[derive(Debug)]
pub struct Case {
    pub file: Vec<u8>,
    pub rows: usize,
    pub concentration: usize,
    pub flow: usize,
    /// The lines of a file that was made sound; `None` if it was not.
    pub lines: Option<Vec<AnyLine>>,
}

impl Case {
    /// Mostly short files, one of three with outfalls; about two of five are damaged, and some are lent too little.
    pub fn generate(rng: &mut Rng) -> Self {
        if rng.chance(1, 3) {
            return Case::with_outfalls(rng);
        }
        let size = size(rng);
        Case::of_size(size, rng)
    }

    /// A file of stacks.
    pub fn of_size(size: Size, rng: &mut Rng) -> Self {
        let (file, lines) = match rng.below(100) {
            0 => (Vec::new(), Some(Vec::new())),
            1 => {
                let length = rng.below(300);
                (rng.garbage_u8(length), None)
            }
            2..=56 => sound_file(sound::lines(size, rng).into_iter().map(AnyLine::Stack).collect()),
            57..=85 => (damaged(sound::lines(size, rng), 1, rng), None),
            86..=95 => (damaged(sound::lines(size, rng), 2, rng), None),
            _ => (damaged(sound::lines(size, rng), 5, rng), None),
        };
        Case::of_file(file, lines, rng)
    }

    /// A file of outfalls, or of outfalls and stacks.
    pub fn with_outfalls(rng: &mut Rng) -> Self {
        let size = if rng.chance(1, 40) { Size::ManyLines } else { Size::Short };
        let lines = sound_water::lines(size, rng);
        let (file, lines) = match rng.below(20) {
            0..=6 => sound_file(lines),
            7..=15 => (damaged_with_outfalls(lines, 1, rng), None),
            16..=18 => (damaged_with_outfalls(lines, 2, rng), None),
            _ => (damaged_with_outfalls(lines, 5, rng), None),
        };
        Case::of_file(file, lines, rng)
    }

    fn of_file(file: Vec<u8>, lines: Option<Vec<AnyLine>>, rng: &mut Rng) -> Self {
        Case { file, rows: rows(rng), concentration: work(rng), flow: work(rng), lines }
    }
}

fn sound_file(lines: Vec<AnyLine>) -> (Vec<u8>, Option<Vec<AnyLine>>) {
    (wire::file(&lines), Some(lines))
}

fn size(rng: &mut Rng) -> Size {
    match rng.below(2_000) {
        0 => Size::Full,
        1..=20 => Size::ManyLines,
        21..=80 => Size::Long,
        81..=180 => Size::Medium,
        _ => Size::Short,
    }
}

/// Cells lent for rows: enough for 48 lines, about what a few lines need, or any number.
fn rows(rng: &mut Rng) -> usize {
    match rng.below(16) {
        0 => rng.below(351),
        1 => 7 * rng.between(1, 49) - rng.below(2),
        2 => rng.between(0, 22),
        _ => 336 + rng.below(2),
    }
}

/// Cells of a work slice: mostly 2,208 or more.
fn work(rng: &mut Rng) -> usize {
    match rng.below(64) {
        0 => rng.pick(&[0, 1, 24, 2_207]),
        1 => rng.below(2_208),
        2..=4 => rng.between(2_208, 2_400),
        5..=12 => 2_209,
        _ => 2_208,
    }
}
