//! Faults done to single records: form, place, ranges, masks and readings.

#![allow(clippy::ptr_arg)]

use crate::damage_fields::{spoil_batch, spoil_head, spoil_hours, spoil_masks, spoil_survey};
use crate::reading;
use crate::rng::Rng;
use crate::sound;
use crate::sound_surveys::survey;
use crate::wire::{Batch, Day, Head, Record, Survey};

/// One type for all faults, although not each of them needs a whole `Vec`.
pub type Fault = fn(&mut Vec<Record>, &mut Rng);

pub const FAULTS: [Fault; 16] = [
    wrong_length,
    wrong_kind,
    resized,
    swapped,
    doubled,
    dropped,
    early_end,
    other_office,
    head_field,
    day_number,
    mask,
    day_reading,
    unmeasured_bytes,
    survey_hour,
    survey_reading,
    batch_field,
];

/// Those that any record can have, whatever its kind.
pub const FORM_FAULTS: [Fault; 10] = [
    wrong_length,
    wrong_kind,
    resized,
    swapped,
    doubled,
    dropped,
    early_end,
    other_office,
    survey_hour,
    survey_reading,
];

/// Those that leave a record that is none.
pub const NO_FORM: [Fault; 3] = [wrong_length, wrong_kind, wrong_kind];

/// Puts a record in anywhere.
pub fn insert(records: &mut Vec<Record>, record: Record, rng: &mut Rng) {
    records.insert(rng.below(records.len() + 1), record);
}

/// The place of a record that `wanted` accepts.
pub fn any(records: &[Record], rng: &mut Rng, wanted: fn(&Record) -> bool) -> Option<usize> {
    let places: Vec<usize> = (0..records.len()).filter(|&place| wanted(&records[place])).collect();
    (!places.is_empty()).then(|| rng.pick(&places))
}

fn any_head<'a>(records: &'a mut [Record], rng: &mut Rng) -> Option<&'a mut Head> {
    let place = any(records, rng, |record| matches!(record, Record::Head(_)))?;
    if let Record::Head(head) = &mut records[place] { Some(head) } else { None }
}

fn any_day<'a>(records: &'a mut [Record], rng: &mut Rng) -> Option<&'a mut Day> {
    let place = any(records, rng, |record| matches!(record, Record::Day(_)))?;
    if let Record::Day(day) = &mut records[place] { Some(day) } else { None }
}

fn any_survey<'a>(records: &'a mut [Record], rng: &mut Rng) -> Option<&'a mut Survey> {
    let place = any(records, rng, is_survey)?;
    match &mut records[place] {
        Record::Enforcement(survey) | Record::Plant(survey) => Some(survey),
        Record::WaterEnforcement(survey) | Record::WaterPlant(survey) => Some(survey),
        _ => None,
    }
}

fn is_survey(record: &Record) -> bool {
    use Record::*;
    matches!(record, Enforcement(_) | Plant(_) | WaterEnforcement(_) | WaterPlant(_))
}

fn any_batch<'a>(records: &'a mut [Record], rng: &mut Rng) -> Option<&'a mut Batch> {
    let place = any(records, rng, |record| matches!(record, Record::Batch(_)))?;
    if let Record::Batch(batch) = &mut records[place] { Some(batch) } else { None }
}

/// Rewrites the bytes of any record.
fn rewrite(records: &mut [Record], rng: &mut Rng, change: impl FnOnce(&mut Vec<u8>, &mut Rng)) {
    if records.is_empty() {
        return;
    }
    let place = rng.below(records.len());
    let mut bytes = records[place].bytes();
    if bytes.len() >= 4 {
        change(&mut bytes, rng);
        records[place] = Record::Raw(bytes);
    }
}

fn wrong_length(records: &mut Vec<Record>, rng: &mut Rng) {
    rewrite(records, rng, |bytes, rng| {
        let length = bytes.len() as u16 - 2;
        let any = rng.word() as u16;
        let length = rng.pick(&[0, 1, 2, 6, 12, 14, 203, length - 1, length + 1, u16::MAX, any]);
        bytes[..2].copy_from_slice(&length.to_le_bytes());
    });
}

fn wrong_kind(records: &mut Vec<Record>, rng: &mut Rng) {
    rewrite(records, rng, |bytes, rng| {
        let kind = u16::from(bytes[2]);
        let any = rng.word() as u16;
        let kind = rng.pick(&[0, 1, 2, 3, 4, 5, 6, 7, 8, 9, 10, 11, 12, 13, kind | 0x100, any]);
        bytes[2..4].copy_from_slice(&kind.to_le_bytes());
    });
}

/// A body that is longer or shorter, with a length field that says so.
fn resized(records: &mut Vec<Record>, rng: &mut Rng) {
    rewrite(records, rng, |bytes, rng| {
        let size = if rng.chance(1, 2) { bytes.len() + rng.between(1, 4) } else { bytes.len() - rng.between(1, 2) };
        bytes.resize(size, 0);
        let length = size as u16 - 2;
        bytes[..2].copy_from_slice(&length.to_le_bytes());
    });
}

fn swapped(records: &mut Vec<Record>, rng: &mut Rng) {
    if records.len() >= 2 {
        let first = rng.below(records.len() - 1);
        let second = if rng.chance(1, 2) { first + 1 } else { rng.below(records.len()) };
        records.swap(first, second);
    }
}

fn doubled(records: &mut Vec<Record>, rng: &mut Rng) {
    if !records.is_empty() {
        let place = rng.below(records.len());
        records.insert(place, records[place].clone());
    }
}

fn dropped(records: &mut Vec<Record>, rng: &mut Rng) {
    if !records.is_empty() {
        records.remove(rng.below(records.len()));
    }
}

fn early_end(records: &mut Vec<Record>, rng: &mut Rng) {
    insert(records, Record::End, rng);
}

/// A survey that changes its office where it stands: the two kinds have one length.
fn other_office(records: &mut Vec<Record>, rng: &mut Rng) {
    let Some(place) = any(records, rng, is_survey) else { return };
    match records[place] {
        Record::Enforcement(survey) => records[place] = Record::Plant(survey),
        Record::Plant(survey) => records[place] = Record::Enforcement(survey),
        Record::WaterEnforcement(survey) => records[place] = Record::WaterPlant(survey),
        Record::WaterPlant(survey) => records[place] = Record::WaterEnforcement(survey),
        _ => {}
    }
}

fn head_field(records: &mut Vec<Record>, rng: &mut Rng) {
    let Some(head) = any_head(records, rng) else { return };
    let byte = rng.word() as u8;
    match rng.below(8) {
        0 => head.stack = rng.word() as u16,
        1 => head.pollutant = rng.pick(&[0, 4, 5, byte]),
        2 => head.required = rng.pick(&[2, 255, byte]),
        3 => head.furnace = rng.pick(&[0, 5, byte]),
        4 => head.coal = rng.pick(&[0, 8, byte]),
        5 => head.megawatts = rng.below(9) as u16,
        6 => head.mark = rng.pick(&[0, 5, byte]),
        _ => head.days = rng.pick(&[0, 93, byte]),
    }
}

fn day_number(records: &mut Vec<Record>, rng: &mut Rng) {
    let Some(day) = any_day(records, rng) else { return };
    day.day = rng.pick(&[day.day.wrapping_add(1), day.day.wrapping_sub(1), 0, 92, 255]);
}

/// A mask bit above hour 23, a measured bit without its run bit, or any masks.
fn mask(records: &mut Vec<Record>, rng: &mut Rng) {
    let Some(day) = any_day(records, rng) else { return };
    match rng.below(5) {
        0 => day.run |= 1 << rng.between(24, 31),
        1 => day.measured |= 1 << rng.between(24, 31),
        2 => {
            day.measured |= 1 << rng.below(24);
            day.run &= !(1 << rng.below(24));
        }
        3 => day.run = rng.word() as u32 & 0xff_ffff,
        _ => day.measured = rng.word() as u32 & 0xff_ffff & day.run,
    }
}

/// A reading of a measured hour; an hour is measured for it if there is none.
fn day_reading(records: &mut Vec<Record>, rng: &mut Rng) {
    let Some(day) = any_day(records, rng) else { return };
    let hour = rng.below(24);
    let (sound, wild) = ((reading::concentration(rng), reading::flow(rng)), reading::wild(rng));
    let (concentration, flow) = if rng.chance(1, 2) { (wild, sound.1) } else { (sound.0, wild) };
    day.measure(hour, concentration, flow);
}

fn unmeasured_bytes(records: &mut Vec<Record>, rng: &mut Rng) {
    let Some(day) = any_day(records, rng) else { return };
    let hour = rng.below(24);
    day.measured &= !(1 << hour);
    let nonzero = reading::nonzero(rng);
    day.pairs[hour] = if rng.chance(1, 2) { (nonzero, 0.0) } else { (0.0, nonzero) };
}

/// Any hour for a survey: stopped, past the period, or not rising.
fn survey_hour(records: &mut Vec<Record>, rng: &mut Rng) {
    let Some(survey) = any_survey(records, rng) else { return };
    let small = rng.below(150) as u16;
    let hour = survey.hour;
    survey.hour = rng.pick(&[0, small, hour.saturating_sub(1), hour.wrapping_add(1), 24, 48, 2_207, 2_208, u16::MAX]);
}

fn survey_reading(records: &mut Vec<Record>, rng: &mut Rng) {
    let Some(survey) = any_survey(records, rng) else { return };
    let reading = if rng.chance(1, 2) { &mut survey.concentration } else { &mut survey.flow };
    *reading = reading::wild(rng);
}

fn batch_field(records: &mut Vec<Record>, rng: &mut Rng) {
    let Some(batch) = any_batch(records, rng) else { return };
    match rng.below(3) {
        0 => batch.kg = rng.pick(&[0, 10_000_000_000, 10_000_000_001, u64::MAX]),
        1 => batch.sulphur = rng.pick(&[2_000, 2_001, u16::MAX]),
        _ => batch.ash = rng.pick(&[10_000, 10_001, u16::MAX]),
    }
}

/// A record that is wrong in itself, put in anywhere: mostly it is out of place too, which is judged before its fields.
pub fn wrong_and_misplaced(records: &mut Vec<Record>, rng: &mut Rng) {
    let wrong = match rng.below(4) {
        0 => wrong_head(records, rng),
        1 => wrong_day(records, rng),
        2 => Some(wrong_survey(rng)),
        _ => Some(wrong_batch(rng)),
    };
    if let Some(record) = wrong {
        insert(records, record, rng);
    }
}

fn wrong_head(records: &mut [Record], rng: &mut Rng) -> Option<Record> {
    let mut head = *any_head(records, rng)?;
    spoil_head(&mut head, rng);
    Some(Record::Head(head))
}

fn wrong_day(records: &mut [Record], rng: &mut Rng) -> Option<Record> {
    let mut day = *any_day(records, rng)?;
    spoil_hours(&mut day, rng);
    if rng.chance(1, 2) {
        spoil_masks(&mut day, rng);
    }
    Some(Record::Day(Box::new(day)))
}

/// Half of them past every period.
fn wrong_survey(rng: &mut Rng) -> Record {
    let mut survey = survey(rng.pick(&[0, 23, 2_208, u16::MAX]), rng);
    spoil_survey(&mut survey, rng);
    if rng.chance(1, 2) { Record::Enforcement(survey) } else { Record::Plant(survey) }
}

fn wrong_batch(rng: &mut Rng) -> Record {
    let mut batch = sound::batch(1_000, rng);
    spoil_batch(&mut batch, rng);
    Record::Batch(batch)
}
