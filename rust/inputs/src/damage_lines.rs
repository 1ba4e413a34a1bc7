//! Faults done to a line as a whole: limits passed, at times by a record that is wrong as well, surveys in stopped hours,
//! fuel or tables wanting.
#![allow(clippy::ptr_arg)]

use crate::damage_fields::{spoil_batch, spoil_head, spoil_survey};
use crate::reading;
use crate::rng::Rng;
use crate::sound;
use crate::sound_surveys::survey;
use crate::wire::{Line, Survey};

/// One type for all faults, although not each of them needs a whole `Vec`.
type Fault = fn(&mut Vec<Line>, &mut Rng);

pub const FAULTS: [Fault; 12] = [
    stopped_survey,
    stopped_survey,
    no_batch,
    no_batch,
    no_entry,
    no_entry,
    too_many_surveys,
    too_many_batches,
    too_many_lines,
    too_much_fuel,
    lines_not_rising,
    days_not_as_said,
];

fn any<'a>(lines: &'a mut [Line], rng: &mut Rng) -> &'a mut Line {
    let place = rng.below(lines.len());
    &mut lines[place]
}

/// Makes two hours of three miss their data, and the line one that goes by fuel: half of those keep their surveys.
fn darken(line: &mut Line) {
    line.head.required = 1;
    line.enforcement.retain(|survey| survey.hour % 3 != 1);
    line.plant.retain(|survey| survey.hour % 3 != 1);
    for day in &mut line.days {
        (0..24).filter(|hour| hour % 3 != 0).for_each(|hour| day.miss(hour));
    }
}

fn stopped_survey(lines: &mut Vec<Line>, rng: &mut Rng) {
    let line = any(lines, rng);
    let hour = rng.below(24 * line.days.len());
    line.days[hour / 24].stop(hour % 24);
    let reading = if rng.chance(1, 4) { reading::wild(rng) } else { reading::concentration(rng) };
    let survey = Survey { hour: hour as u16, concentration: reading, flow: reading::flow(rng) };
    let surveys = if rng.chance(1, 2) { &mut line.enforcement } else { &mut line.plant };
    surveys.retain(|survey| usize::from(survey.hour) != hour);
    surveys.push(survey);
    surveys.sort_by_key(|survey| survey.hour);
}

fn no_batch(lines: &mut Vec<Line>, rng: &mut Rng) {
    let line = any(lines, rng);
    darken(line);
    line.batches.clear();
}

fn no_entry(lines: &mut Vec<Line>, rng: &mut Rng) {
    let line = any(lines, rng);
    darken(line);
    let head = line.head;
    while sound::covered(&line.head) {
        line.head = sound::boiler(head.stack, head.pollutant, 1, head.days, rng);
    }
    if rng.chance(3, 4) {
        line.batches.push(sound::batch(1_000, rng));
        line.batches.truncate(92);
    }
}

fn too_many_surveys(lines: &mut Vec<Line>, rng: &mut Rng) {
    let line = any(lines, rng);
    let hours = 24 * line.days.len();
    let first = rng.below(hours);
    let surveys = |from: usize, to: usize, rng: &mut Rng| -> Vec<Survey> {
        (from..to).map(|hour| survey(hour as u16, rng)).collect()
    };
    line.days.iter_mut().for_each(|day| day.run = 0xff_ffff);
    line.enforcement = surveys(first, hours.min(first + 120), rng);
    line.plant = surveys(0, (121 - line.enforcement.len()).min(hours + 1), rng);
    if let Some(last) = line.plant.last_mut().filter(|_| rng.chance(1, 2)) {
        spoil_survey(last, rng);
    }
}

fn too_many_batches(lines: &mut Vec<Line>, rng: &mut Rng) {
    let line = any(lines, rng);
    let most = if rng.chance(1, 4) { 10_000_000_000 } else { 1_000 };
    line.batches = (0..rng.between(93, 95)).map(|_| sound::batch(1_000, rng)).collect();
    line.batches[92] = sound::batch(most, rng);
    if rng.chance(1, 2) {
        spoil_batch(&mut line.batches[92], rng);
    }
}

/// Short lines up to the 49th, whose stacks and pollutants rise.
fn too_many_lines(lines: &mut Vec<Line>, rng: &mut Rng) {
    let mut line = sound::lines(sound::Size::Short, rng).swap_remove(0);
    line.days.truncate(1);
    line.head.days = 1;
    line.enforcement.retain(|survey| survey.hour < 24);
    line.plant.retain(|survey| survey.hour < 24);
    if sound::over_a_quarter(&line) {
        line.head = crate::wire::Head { furnace: 1, coal: 1, megawatts: 100, ..line.head };
        line.batches = vec![sound::batch(1_000, rng)];
    }
    lines.truncate(1);
    for number in 0..rng.between(48, 49) {
        line.head.stack = lines[0].head.stack.saturating_add(1 + number as u16);
        lines.push(line.clone());
    }
    if rng.chance(1, 2) {
        spoil_head(&mut lines[48].head, rng);
    }
}

/// The fuel sum one over the limit, at a batch of any place, or far over it.
fn too_much_fuel(lines: &mut Vec<Line>, rng: &mut Rng) {
    let line = any(lines, rng);
    if line.batches.is_empty() {
        line.batches.push(sound::batch(1_000, rng));
    }
    let place = rng.below(line.batches.len());
    let before = line.batches[..place].iter().fold(0, |sum: u64, batch| sum.wrapping_add(batch.kg));
    line.batches[place].kg = match rng.below(4) {
        0 => u64::MAX - rng.below(3) as u64,
        1 => 0_u64.wrapping_sub(before),
        2 => rng.word(),
        _ => 10_000_000_001_u64.saturating_sub(before),
    };
}

fn lines_not_rising(lines: &mut Vec<Line>, rng: &mut Rng) {
    let last = lines.len() - 1;
    match rng.below(3) {
        0 => lines.reverse(),
        1 => lines.push(lines[last].clone()),
        _ => {
            let mut line = lines[last].clone();
            line.head.stack = line.head.stack.wrapping_sub(rng.below(2) as u16);
            line.head.pollutant = rng.below(5) as u8;
            lines.push(line);
        }
    }
}

fn days_not_as_said(lines: &mut Vec<Line>, rng: &mut Rng) {
    let line = any(lines, rng);
    line.head.days = rng.pick(&[line.head.days.wrapping_add(1), line.head.days.wrapping_sub(1), 92, 93, 0, 255]);
}
