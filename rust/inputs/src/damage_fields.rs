//! Faults done to the fields of a record, one or several at once: what the refusals 4 and 14 to 17 name.

use crate::reading;
use crate::rng::Rng;
use crate::sound::{self, MOST_FUEL};
use crate::sound_surveys::survey;
use crate::wire::{Batch, Day, Head, Line, Survey};

type Fault = fn(&mut Line, &mut Rng);

/// Those come up more often that have more fields to name.
pub const FAULTS: [Fault; 17] = [
    head_fields,
    head_fields,
    head_fields,
    head_fields,
    masks,
    masks,
    masks,
    readings,
    readings,
    readings,
    readings,
    readings,
    batch_fields,
    batch_fields,
    fuel_sum,
    survey_hour,
    survey_readings,
];

/// How many faults a record gets.
fn several(rng: &mut Rng) -> usize {
    rng.pick(&[1, 1, 2, 2, 3, 4])
}

fn any<'a, T>(records: &'a mut [T], rng: &mut Rng) -> &'a mut T {
    let place = rng.below(records.len());
    &mut records[place]
}

fn head_fields(line: &mut Line, rng: &mut Rng) {
    spoil_head(&mut line.head, rng);
}

pub fn spoil_head(head: &mut Head, rng: &mut Rng) {
    for _ in 0..rng.pick(&[1, 2, 2, 3]) {
        match rng.below(7) {
            0 => head.pollutant = wrong_pollutant(rng),
            1 => head.required = rng.between(2, 255) as u8,
            2 => head.furnace = wrong_code(4, rng),
            3 => head.coal = wrong_code(7, rng),
            4 => head.megawatts = rng.below(9) as u16,
            5 => head.mark = wrong_code(4, rng),
            _ => head.days = wrong_code(92, rng),
        }
    }
}

/// One of water, or of nothing.
fn wrong_pollutant(rng: &mut Rng) -> u8 {
    let wrong = wrong_code(5, rng);
    rng.pick(&[4, 5, wrong, wrong])
}

/// 0, or over `most`, and as often as not by one.
fn wrong_code(most: u8, rng: &mut Rng) -> u8 {
    let over = rng.between(usize::from(most) + 1, 255) as u8;
    rng.pick(&[0, most + 1, over])
}

/// At times with readings at fault as well, which are judged later.
fn masks(line: &mut Line, rng: &mut Rng) {
    let day = any(&mut line.days, rng);
    if rng.chance(1, 2) {
        spoil_hours(day, rng);
    }
    spoil_masks(day, rng);
}

pub fn spoil_masks(day: &mut Day, rng: &mut Rng) {
    for _ in 0..several(rng) {
        match rng.below(4) {
            0 => day.run |= 1 << rng.between(24, 31),
            1 => day.measured |= 1 << rng.between(24, 31),
            _ => {
                let bit = 1 << rng.below(24);
                day.run &= !bit;
                day.measured |= bit;
            }
        }
    }
}

fn readings(line: &mut Line, rng: &mut Rng) {
    spoil_hours(any(&mut line.days, rng), rng);
}

pub fn spoil_hours(day: &mut Day, rng: &mut Rng) {
    for _ in 0..several(rng) {
        // The ends are where a place goes wrong; the last hour is named only if none before it is at fault.
        let middle = rng.between(1, 22);
        let hour = rng.pick(&[0, middle, 23, 23]);
        spoil_hour(day, hour, rng);
    }
}

/// Either or both of an hour's readings: refused if it is measured, else not zero.
fn spoil_hour(day: &mut Day, hour: usize, rng: &mut Rng) {
    let sound = (reading::concentration(rng), reading::flow(rng));
    let (wrong, right) = match rng.below(3) {
        0 => {
            day.measure(hour, sound.0, sound.1);
            ((reading::refused_concentration(rng), reading::refused_flow(rng)), sound)
        }
        1 => {
            day.miss(hour);
            ((reading::nonzero(rng), reading::nonzero(rng)), (0.0, 0.0))
        }
        _ => {
            day.stop(hour);
            ((reading::nonzero(rng), reading::nonzero(rng)), (0.0, 0.0))
        }
    };
    day.pairs[hour] = rng.pick(&[wrong, (wrong.0, right.1), (right.0, wrong.1)]);
}

fn batch_fields(line: &mut Line, rng: &mut Rng) {
    if line.batches.is_empty() {
        line.batches.push(sound::batch(1_000, rng));
    }
    spoil_batch(any(&mut line.batches, rng), rng);
}

pub fn spoil_batch(batch: &mut Batch, rng: &mut Rng) {
    for _ in 0..several(rng) {
        match rng.below(4) {
            0 => batch.kg = 0,
            1 => batch.kg = rng.pick(&[MOST_FUEL + 1, 1 << 34, 1 << 63, u64::MAX]),
            _ => spoil_share(batch, rng),
        }
    }
}

fn spoil_share(batch: &mut Batch, rng: &mut Rng) {
    if rng.chance(1, 2) {
        batch.sulphur = rng.pick(&[2_001, 10_000, u16::MAX]);
    } else {
        batch.ash = rng.pick(&[10_001, 20_000, u16::MAX]);
    }
}

/// A batch that is over the limit with those before it alone, at times with a wrong share.
fn fuel_sum(line: &mut Line, rng: &mut Rng) {
    while line.batches.len() < 2 {
        line.batches.push(sound::batch(1_000, rng));
    }
    let place = rng.between(1, line.batches.len() - 1);
    let before: u64 = line.batches[..place].iter().fold(0, |sum, batch| sum.wrapping_add(batch.kg));
    let batch = &mut line.batches[place];
    batch.kg = rng.pick(&[MOST_FUEL.saturating_sub(before) + 1, MOST_FUEL]);
    if rng.chance(1, 2) {
        spoil_share(batch, rng);
    }
}

fn surveys<'a>(line: &'a mut Line, rng: &mut Rng) -> &'a mut Vec<Survey> {
    if rng.chance(1, 2) { &mut line.enforcement } else { &mut line.plant }
}

/// The last survey of an office, whose hours rise all the same, or its only one.
fn survey_hour(line: &mut Line, rng: &mut Rng) {
    let past = 24 * line.days.len() as u16;
    let hour = rng.between(usize::from(past), usize::from(u16::MAX)) as u16;
    let hour = rng.pick(&[past, past + 1, hour, u16::MAX]);
    let surveys = surveys(line, rng);
    surveys.pop();
    surveys.push(survey(hour, rng));
    if rng.chance(1, 2) {
        spoil_survey(surveys.last_mut().expect("it was put there"), rng);
    }
}

fn survey_readings(line: &mut Line, rng: &mut Rng) {
    let hours = 24 * line.days.len();
    let surveys = surveys(line, rng);
    if surveys.is_empty() {
        surveys.push(survey(rng.below(hours) as u16, rng));
    }
    spoil_survey(any(surveys, rng), rng);
}

/// Either or both readings.
pub fn spoil_survey(survey: &mut Survey, rng: &mut Rng) {
    let wrong = (reading::refused_concentration(rng), reading::refused_flow(rng));
    let sound = (survey.concentration, survey.flow);
    (survey.concentration, survey.flow) = rng.pick(&[wrong, (wrong.0, sound.1), (sound.0, wrong.1)]);
}
