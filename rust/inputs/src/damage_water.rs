//! Faults done to a file with outfalls: limits passed, surveys on stopped days, no method left, lines that do not rise,
//! and records of the other world.
#![allow(clippy::ptr_arg)]

use crate::damage_fields::{self as of_stacks, spoil_head, spoil_survey};
use crate::damage_records as on_records;
use crate::damage_water_fields::{self as of_outfalls, spoil_reading, spoil_state, spoil_water_head};
use crate::reading;
use crate::rng::Rng;
use crate::setting::World;
use crate::sound;
use crate::sound_surveys::survey;
use crate::sound_water::{self, MEASURED, MISSING, STOPPED};
use crate::wire::{AnyLine, Day, Line, Record, Survey, WaterDay, WaterHead, WaterLine};

/// One type for all faults, although not each of them needs a whole `Vec`.
type Fault = fn(&mut Vec<AnyLine>, &mut Rng);
type RecordFault = fn(&mut Vec<Record>, &mut Rng);

pub const LINE_FAULTS: [Fault; 11] = [
    stopped_survey,
    stopped_survey,
    stopped_survey,
    no_method,
    no_method,
    no_method,
    too_many_surveys,
    too_many_lines,
    lines_not_rising,
    lines_not_rising,
    days_not_as_said,
];

/// Those come up more often that have more to be wrong.
pub const RECORD_FAULTS: [RecordFault; 21] = [
    by_form,
    by_form,
    by_form,
    of_no_form,
    of_no_form,
    of_no_form,
    other_world,
    put_in,
    put_in,
    put_in,
    put_in,
    put_in,
    put_in,
    put_in,
    put_in,
    ended,
    ended,
    ended,
    day_number,
    unmeasured_bytes,
    survey_order,
];

/// The faults that a field of any line can have.
pub fn field(lines: &mut [AnyLine], rng: &mut Rng) {
    let place = rng.below(lines.len());
    match &mut lines[place] {
        AnyLine::Stack(line) => rng.pick(&of_stacks::FAULTS)(line, rng),
        AnyLine::Outfall(line) => rng.pick(&of_outfalls::FAULTS)(line, rng),
    }
}

/// Any outfall's line; one is added if there is none.
fn any<'a>(lines: &'a mut Vec<AnyLine>, rng: &mut Rng) -> &'a mut WaterLine {
    let is_outfall = |place: &usize| matches!(lines[*place], AnyLine::Outfall(_));
    let places: Vec<usize> = (0..lines.len()).filter(is_outfall).collect();
    let place = if places.is_empty() { lines.len() } else { rng.pick(&places) };
    if place == lines.len() {
        lines.push(AnyLine::Outfall(sound_water::line(u16::MAX, 5, 2, rng)));
    }
    match &mut lines[place] {
        AnyLine::Outfall(line) => line,
        AnyLine::Stack(_) => unreachable!("the place of an outfall"),
    }
}

/// At times with a bad reading, which is judged before.
fn stopped_survey(lines: &mut Vec<AnyLine>, rng: &mut Rng) {
    let line = any(lines, rng);
    let day = rng.below(line.days.len());
    line.days[day] = WaterDay::stopped(day as u8);
    let mut survey = survey(day as u16, rng);
    if rng.chance(1, 3) {
        spoil_survey(&mut survey, rng);
    }
    let surveys = if rng.chance(1, 2) { &mut line.enforcement } else { &mut line.plant };
    surveys.retain(|survey| usize::from(survey.hour) != day);
    surveys.push(survey);
    surveys.sort_by_key(|survey| survey.hour);
}

/// A day missing and no survey: any one, or all that run.
fn no_method(lines: &mut Vec<AnyLine>, rng: &mut Rng) {
    let line = any(lines, rng);
    line.enforcement.clear();
    line.plant.clear();
    if rng.chance(1, 3) {
        line.days.iter_mut().filter(|day| day.state != STOPPED).for_each(|day| *day = WaterDay::missing(day.day));
    }
    let day = rng.below(line.days.len());
    line.days[day] = WaterDay::missing(day as u8);
}

/// 121 surveys of days, of which at most 92 are by one office, so that the plant's is the one too many.
fn too_many_surveys(lines: &mut Vec<AnyLine>, rng: &mut Rng) {
    let line = any(lines, rng);
    let count = rng.between(61, 92);
    line.head.days = count as u8;
    line.days = (0..count).map(|day| WaterDay::missing(day as u8)).collect();
    let mut surveys = |count: usize| -> Vec<Survey> { (0..count).map(|day| survey(day as u16, rng)).collect() };
    line.enforcement = surveys(count);
    line.plant = surveys(121 - count);
    if let Some(last) = line.plant.last_mut().filter(|_| rng.chance(1, 2)) {
        spoil_survey(last, rng);
    }
}

/// Short lines up to the 49th, whose numbers rise, of outfalls and at times of stacks.
fn too_many_lines(lines: &mut Vec<AnyLine>, rng: &mut Rng) {
    let (first, _) = name(&lines[0]);
    let first = first.min(65_000);
    lines.clear();
    for number in 0..=48 {
        let name = (first + number, rng.between(4, 5) as u8);
        lines.push(AnyLine::Outfall(sound_water::line(name.0, name.1, 1, rng)));
    }
    let is_stack = rng.chance(1, 3);
    if is_stack {
        lines[48] = AnyLine::Stack(sound::line(first + 48, rng.between(1, 3) as u8, 1, rng));
    }
    if rng.chance(1, 2) {
        match &mut lines[48] {
            AnyLine::Stack(line) => spoil_head(&mut line.head, rng),
            AnyLine::Outfall(line) => spoil_water_head(&mut line.head, rng),
        }
    }
}

/// Number and pollutant, by which lines rise.
pub fn name(line: &AnyLine) -> (u16, u8) {
    match line {
        AnyLine::Stack(Line { head, .. }) => (head.stack, head.pollutant),
        AnyLine::Outfall(WaterLine { head, .. }) => (head.outfall, head.pollutant),
    }
}

fn rename(line: &mut AnyLine, (number, pollutant): (u16, u8)) {
    match line {
        AnyLine::Stack(Line { head, .. }) => (head.stack, head.pollutant) = (number, pollutant),
        AnyLine::Outfall(WaterLine { head, .. }) => (head.outfall, head.pollutant) = (number, pollutant),
    }
}

/// The lines turned around, or one more of either world: of the last number or one before, and of any pollutant.
fn lines_not_rising(lines: &mut Vec<AnyLine>, rng: &mut Rng) {
    if lines.len() > 1 && rng.chance(1, 3) {
        lines.reverse();
        return;
    }
    let (number, pollutant) = name(&lines[lines.len() - 1]);
    let mut line = match rng.chance(1, 2) {
        true => AnyLine::Outfall(sound_water::line(number, 4, 1, rng)),
        false => AnyLine::Stack(sound::line(number, 1, 1, rng)),
    };
    let of_line = name(&line).1;
    let any = rng.below(7) as u8;
    let number = rng.pick(&[number, number.wrapping_sub(1), 0]);
    let new = (number, rng.pick(&[pollutant, of_line, of_line, any]));
    rename(&mut line, new);
    lines.push(line);
}

fn days_not_as_said(lines: &mut Vec<AnyLine>, rng: &mut Rng) {
    let head = &mut any(lines, rng).head;
    head.days = rng.pick(&[head.days.wrapping_add(1), head.days.wrapping_sub(1), 92, 93, 0, 255]);
}

/// What befalls the records of stacks too.
fn by_form(records: &mut Vec<Record>, rng: &mut Rng) {
    rng.pick(&on_records::FORM_FAULTS)(records, rng);
}

/// A kind that is not known, or not of that length.
fn of_no_form(records: &mut Vec<Record>, rng: &mut Rng) {
    rng.pick(&on_records::NO_FORM)(records, rng);
}

/// Between two records, and of whose line: behind a head, before its end, before the line, or anywhere; mostly a stack's.
fn spot(records: &[Record], rng: &mut Rng) -> (usize, World) {
    let stack = on_records::any(records, rng, |record| matches!(record, Record::Head(_)));
    let outfall = on_records::any(records, rng, |record| matches!(record, Record::WaterHead(_)));
    let anywhere = rng.below(records.len() + 1);
    let (head, world) = match (stack, outfall) {
        (Some(stack), None) => (stack, World::Stack),
        (Some(stack), _) if rng.chance(2, 3) => (stack, World::Stack),
        (_, Some(outfall)) => (outfall, World::Outfall),
        _ => return (anywhere, World::Outfall),
    };
    let to_end = records[head..].iter().position(|record| matches!(record, Record::End));
    let end = to_end.map_or(anywhere, |count| head + count);
    (rng.pick(&[head + 1, head + 1, end, end, head, anywhere]), world)
}

/// The file ends between two records.
fn ended(records: &mut Vec<Record>, rng: &mut Rng) {
    records.truncate(spot(records, rng).0);
}

/// A record of an outfall becomes that of a stack where it stands, or the other way round.
fn other_world(records: &mut Vec<Record>, rng: &mut Rng) {
    let has_twin = |record: &Record| !matches!(record, Record::End | Record::Raw(_) | Record::Batch(_));
    let Some(place) = on_records::any(records, rng, has_twin) else { return };
    let other = match &records[place] {
        Record::Enforcement(survey) => Record::WaterEnforcement(*survey),
        Record::Plant(survey) => Record::WaterPlant(*survey),
        Record::WaterEnforcement(survey) => Record::Enforcement(*survey),
        Record::WaterPlant(survey) => Record::Plant(*survey),
        Record::Day(day) => Record::WaterDay(WaterDay::missing(day.day)),
        Record::WaterDay(day) => Record::Day(Box::new(Day::stopped(day.day))),
        Record::Head(head) => {
            Record::WaterHead(WaterHead { outfall: head.stack, pollutant: head.pollutant, days: head.days })
        }
        Record::WaterHead(WaterHead { outfall, pollutant, days }) => {
            Record::Head(sound::boiler(*outfall, *pollutant, 0, *days, rng))
        }
        same => same.clone(),
    };
    records[place] = other;
}

/// A record that is sound in itself, put in where it mostly cannot stand: two of three are of the other world.
fn put_in(records: &mut Vec<Record>, rng: &mut Rng) {
    let (place, world) = spot(records, rng);
    let of_water = (world == World::Stack) == rng.chance(2, 3);
    records.insert(place, if of_water { of_outfall(rng) } else { of_stack(rng) });
}

/// A number for a head: any, or one that hardly rises.
fn number(rng: &mut Rng) -> u16 {
    let any = rng.below(65_536) as u16;
    rng.pick(&[any, 0])
}

fn of_stack(rng: &mut Rng) -> Record {
    let (number, survey) = (number(rng), survey(rng.below(100) as u16, rng));
    match rng.below(6) {
        0 => Record::Head(sound::boiler(number, rng.between(1, 3) as u8, 0, 1, rng)),
        1 => Record::Day(Box::new(Day::stopped(rng.below(4) as u8))),
        2 => Record::Enforcement(survey),
        3 => Record::Plant(survey),
        4 => Record::Batch(sound::batch(1_000, rng)),
        _ => Record::End,
    }
}

fn of_outfall(rng: &mut Rng) -> Record {
    let (number, survey) = (number(rng), survey(rng.below(100) as u16, rng));
    let readings = (reading::concentration(rng), reading::flow(rng));
    match rng.below(9) {
        0 | 1 => Record::WaterHead(WaterHead { outfall: number, pollutant: rng.between(4, 5) as u8, days: 1 }),
        2 => Record::WaterDay(WaterDay::measured(rng.below(4) as u8, readings.0, readings.1)),
        3..=5 => Record::WaterEnforcement(survey),
        _ => Record::WaterPlant(survey),
    }
}

fn any_day<'a>(records: &'a mut [Record], rng: &mut Rng) -> Option<&'a mut WaterDay> {
    let place = on_records::any(records, rng, |record| matches!(record, Record::WaterDay(_)))?;
    if let Record::WaterDay(day) = &mut records[place] { Some(day) } else { None }
}

fn day_number(records: &mut Vec<Record>, rng: &mut Rng) {
    let Some(day) = any_day(records, rng) else { return };
    day.day = rng.pick(&[day.day.wrapping_add(1), day.day.wrapping_sub(1), 0, 92, 255]);
}

/// A day that keeps its readings and not its state.
fn unmeasured_bytes(records: &mut Vec<Record>, rng: &mut Rng) {
    let Some(day) = any_day(records, rng) else { return };
    day.state = rng.pick(&[STOPPED, MISSING, MEASURED, 3]);
}

/// A survey of any office on any day, put in beside another.
fn survey_order(records: &mut Vec<Record>, rng: &mut Rng) {
    let is_survey = |record: &Record| matches!(record, Record::WaterEnforcement(_) | Record::WaterPlant(_));
    let Some(place) = on_records::any(records, rng, is_survey) else { return };
    let (Record::WaterEnforcement(survey) | Record::WaterPlant(survey)) = records[place] else { return };
    let hour = rng.pick(&[survey.hour, survey.hour.saturating_sub(1), survey.hour.wrapping_add(1), 0]);
    let survey = Survey { hour, ..survey };
    let record = if rng.chance(1, 2) { Record::WaterEnforcement(survey) } else { Record::WaterPlant(survey) };
    records.insert(place + rng.below(2), record);
}

/// A record that is wrong in itself, put in anywhere: mostly it is out of place too, which is judged before its fields.
pub fn wrong_and_misplaced(records: &mut Vec<Record>, rng: &mut Rng) {
    let record = match rng.below(8) {
        0 => return on_records::wrong_and_misplaced(records, rng),
        1 | 2 => wrong_head(records, rng),
        3..=5 => wrong_day(rng),
        _ => wrong_survey(rng),
    };
    on_records::insert(records, record, rng);
}

/// Half of them of the number of another line, so that they do not rise.
fn wrong_head(records: &[Record], rng: &mut Rng) -> Record {
    let place = on_records::any(records, rng, |record| matches!(record, Record::WaterHead(_)));
    let number = match place.map(|place| &records[place]) {
        Some(Record::WaterHead(head)) if rng.chance(1, 2) => head.outfall,
        _ => rng.below(65_536) as u16,
    };
    let mut head = WaterHead { outfall: number, pollutant: 4, days: 1 };
    spoil_water_head(&mut head, rng);
    Record::WaterHead(head)
}

fn wrong_day(rng: &mut Rng) -> Record {
    let mut day = WaterDay::missing(rng.below(4) as u8);
    if rng.chance(1, 4) {
        spoil_state(&mut day, rng);
    } else {
        let state = rng.pick(&[STOPPED, MISSING, MEASURED]);
        spoil_reading(&mut day, state, rng);
    }
    Record::WaterDay(day)
}

/// Half of them past every period.
fn wrong_survey(rng: &mut Rng) -> Record {
    let mut survey = survey(rng.pick(&[0, 1, 92, u16::MAX]), rng);
    spoil_survey(&mut survey, rng);
    if rng.chance(1, 2) { Record::WaterEnforcement(survey) } else { Record::WaterPlant(survey) }
}
