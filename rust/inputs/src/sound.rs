//! Sound lines: every furnace, coal, pollutant, size and mark, every method, up to every limit.

use crate::hours;
use crate::rng::Rng;
use crate::running::running_hours;
use crate::sound_surveys::surveys;
use crate::wire::{Batch, Head, Line};

/// Kg that a line may burn.
pub const MOST_FUEL: u64 = 10_000_000_000;
/// The edges of the size classes.
const MEGAWATTS: [u16; 18] = [9, 10, 19, 20, 34, 35, 74, 75, 149, 150, 249, 250, 449, 450, 749, 750, 751, 65_535];

/// How many days and lines a file gets.
#[derive(Clone, Copy, Debug, PartialEq, Eq)]
pub enum Size {
    /// 1 to 6 days, up to 3 lines.
    Short,
    /// 7 to 39 days, up to 2 lines.
    Medium,
    /// 40 to 92 days, up to 2 lines.
    Long,
    /// 48 lines of a day or two.
    ManyLines,
    /// 48 lines of 92 days.
    Full,
}

impl Size {
    pub(crate) fn days(self, rng: &mut Rng) -> usize {
        match self {
            Size::Short => rng.between(1, 6),
            Size::Medium => rng.between(7, 39),
            Size::Long if rng.chance(1, 2) => 92,
            Size::Long => rng.between(40, 92),
            Size::ManyLines => rng.between(1, 2),
            Size::Full => 92,
        }
    }

    pub(crate) fn lines(self, rng: &mut Rng) -> usize {
        match self {
            Size::Short => rng.pick(&[1, 1, 1, 2, 2, 3]),
            Size::Medium | Size::Long => rng.between(1, 2),
            Size::ManyLines => rng.pick(&[47, 48]),
            Size::Full => 48,
        }
    }
}

/// The lines of a file that is accepted, given room enough.
pub fn lines(size: Size, rng: &mut Rng) -> Vec<Line> {
    let count = size.lines(rng);
    let mut stack = rng.below(65_000) as u16;
    let mut pollutant = rng.between(1, 3) as u8;
    let mut lines = Vec::with_capacity(count);
    for _ in 0..count {
        lines.push(line(stack, pollutant, size.days(rng), rng));
        if pollutant == 3 || rng.chance(1, 4) {
            stack += rng.between(1, 5) as u16;
            pollutant = rng.between(1, 3) as u8;
        } else {
            pollutant = rng.between(usize::from(pollutant) + 1, 3) as u8;
        }
    }
    lines
}

/// A line that is accepted.
pub fn line(stack: u16, pollutant: u8, count: usize, rng: &mut Rng) -> Line {
    let days = hours::days(count, rng);
    let (enforcement, plant) = surveys(&days, rng);
    let required = rng.below(2) as u8;
    let head = boiler(stack, pollutant, required, count as u8, rng);
    let mut line = Line { head, days, enforcement, plant, batches: Vec::new() };
    let surveyed = !line.enforcement.is_empty() || !line.plant.is_empty();
    let needs_fuel = over_a_quarter(&line) && (required == 1 || !surveyed);
    while needs_fuel && !covered(&line.head) {
        line.head = boiler(stack, pollutant, required, count as u8, rng);
    }
    if needs_fuel || rng.chance(1, 4) {
        line.batches = batches(rng);
    }
    line
}

/// Whether more than a quarter of the running hours are missing and not surveyed.
pub fn over_a_quarter(line: &Line) -> bool {
    let running = running_hours(line);
    4 * running.iter().filter(|hour| !hour.is_valid()).count() > running.len()
}

/// A head with any boiler.
pub fn boiler(stack: u16, pollutant: u8, required: u8, days: u8, rng: &mut Rng) -> Head {
    let megawatts = if rng.chance(1, 2) { rng.pick(&MEGAWATTS) } else { rng.between(9, 900) as u16 };
    let [furnace, coal, mark] = [4, 7, 4].map(|most| rng.between(1, most) as u8);
    Head { stack, pollutant, required, furnace, coal, megawatts, mark, days }
}

/// Whether the tables have an entry for the boiler.
pub fn covered(head: &Head) -> bool {
    match (head.pollutant, head.furnace) {
        (1, 1) | (3, 1 | 2) => true,
        (1, 2) => [1, 3, 4, 5].contains(&head.coal),
        (1, 3) => [1, 3, 4].contains(&head.coal),
        (2, 1 | 2) => head.megawatts < 750 || head.mark >= 3,
        (2, 4) => head.megawatts < 20,
        (3, 3) => head.megawatts < 450,
        (3, 4) => head.megawatts < 20 && [1, 3, 4, 5].contains(&head.coal),
        _ => false,
    }
}

fn batches(rng: &mut Rng) -> Vec<Batch> {
    let many = rng.between(4, 92);
    let count = rng.pick(&[1, 1, 2, 3, many, 92]);
    let mut batches: Vec<Batch> = (0..count).map(|_| batch(MOST_FUEL / 92, rng)).collect();
    if rng.chance(1, 8) {
        // Fuel to the brim: the last batch takes what the limit leaves.
        let others: u64 = batches[1..].iter().map(|batch| batch.kg).sum();
        batches[0].kg = MOST_FUEL - others;
    }
    batches
}

/// A batch of at most `most` kg.
pub fn batch(most: u64, rng: &mut Rng) -> Batch {
    let kg = match rng.below(4) {
        0 => rng.between(1, 200) as u64,
        1 => most,
        _ => rng.between(1, most as usize) as u64,
    };
    let sulphur = if rng.chance(1, 8) { rng.pick(&[0, 1, 2_000]) } else { rng.below(2_001) as u16 };
    let ash = if rng.chance(1, 8) { rng.pick(&[0, 1, 10_000]) } else { rng.below(10_001) as u16 };
    Batch { kg, sulphur, ash }
}
