//! Faults done to the fields of an outfall's record, one or several at once: what 4, 14, 15 and 17 name of water.

use crate::reading;
use crate::rng::Rng;
use crate::sound_surveys::survey;
use crate::sound_water::{MEASURED, MISSING, STOPPED};
use crate::wire::{Survey, WaterDay, WaterHead, WaterLine};

use crate::damage_fields::spoil_survey;

type Fault = fn(&mut WaterLine, &mut Rng);

/// Those come up more often that have more fields to name.
pub const FAULTS: [Fault; 10] =
    [head_fields, head_fields, state, state, readings, readings, readings, survey_day, survey_day, survey_readings];

fn any<'a, T>(records: &'a mut [T], rng: &mut Rng) -> &'a mut T {
    let place = rng.below(records.len());
    &mut records[place]
}

fn head_fields(line: &mut WaterLine, rng: &mut Rng) {
    spoil_water_head(&mut line.head, rng);
}

/// A pollutant of air, or of nothing; days of no period; or both.
pub fn spoil_water_head(head: &mut WaterHead, rng: &mut Rng) {
    let (fault, over) = (rng.below(3), rng.between(6, 255) as u8);
    if fault != 0 {
        head.pollutant = rng.pick(&[0, 1, 2, 3, 3, 6, over]);
    }
    if fault != 1 {
        let over = rng.between(93, 255) as u8;
        head.days = rng.pick(&[0, 93, over]);
    }
}

/// At times with readings at fault as well, which are judged later.
fn state(line: &mut WaterLine, rng: &mut Rng) {
    spoil_state(any(&mut line.days, rng), rng);
}

pub fn spoil_state(day: &mut WaterDay, rng: &mut Rng) {
    if rng.chance(2, 3) {
        spoil_reading(day, MEASURED, rng);
    }
    let over = rng.between(3, 255) as u8;
    day.state = rng.pick(&[3, 3, over, 255]);
}

fn readings(line: &mut WaterLine, rng: &mut Rng) {
    let state = rng.pick(&[STOPPED, MISSING, MEASURED]);
    spoil_reading(any(&mut line.days, rng), state, rng);
}

/// Gives the day a state, and a fault in either or both readings: refused if it is measured, else not zero.
pub fn spoil_reading(day: &mut WaterDay, state: u8, rng: &mut Rng) {
    day.state = state;
    let (wrong, right) = if state == MEASURED {
        let sound = (reading::concentration(rng), reading::flow(rng));
        ((reading::refused_concentration(rng), reading::refused_flow(rng)), sound)
    } else {
        ((reading::nonzero(rng), reading::nonzero(rng)), (0.0, 0.0))
    };
    day.pair = rng.pick(&[wrong, (wrong.0, right.1), (right.0, wrong.1)]);
}

fn surveys<'a>(line: &'a mut WaterLine, rng: &mut Rng) -> &'a mut Vec<Survey> {
    if rng.chance(1, 2) { &mut line.enforcement } else { &mut line.plant }
}

/// The last survey of an office, whose days rise all the same, or its only one. An hour of the period may be no day.
fn survey_day(line: &mut WaterLine, rng: &mut Rng) {
    let past = line.days.len() as u16;
    let any = rng.between(usize::from(past), usize::from(u16::MAX)) as u16;
    let day = rng.pick(&[past, past + 1, 92.max(past), 24 * past, 2_207, any, u16::MAX]);
    let surveys = surveys(line, rng);
    surveys.pop();
    surveys.push(survey(day, rng));
    if rng.chance(1, 2) {
        spoil_survey(surveys.last_mut().expect("it was put there"), rng);
    }
}

fn survey_readings(line: &mut WaterLine, rng: &mut Rng) {
    let days = line.days.len();
    let surveys = surveys(line, rng);
    if surveys.is_empty() {
        surveys.push(survey(rng.below(days) as u16, rng));
    }
    spoil_survey(any(surveys, rng), rng);
}
