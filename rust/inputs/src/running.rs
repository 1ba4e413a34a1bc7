//! The running hours of a line, as its masks and its surveys leave them; of an outfall its running days.

use crate::wire::{Day, Line, Survey, WaterLine};

/// Who surveyed an hour.
#[derive(Clone, Copy, Debug, PartialEq, Eq, PartialOrd, Ord)]
pub enum Office {
    Enforcement,
    Plant,
    /// Both, with readings that differ.
    Both,
}

#[derive(Clone, Copy, Debug, PartialEq, Eq)]
pub enum Kind {
    /// By its bit or state.
    Measured,
    /// Missing by its bit or state, with a survey.
    Surveyed(Office),
    Missing,
}

#[derive(Clone, Copy, Debug)]
pub struct Running {
    /// The hour of the period, of an outfall the day.
    pub hour: usize,
    pub kind: Kind,
    /// Who surveyed it, measured or not.
    pub office: Option<Office>,
    /// Concentration and flow, the survey's where there is one.
    pub readings: (f32, f32),
}

impl Running {
    pub fn is_valid(&self) -> bool {
        self.kind != Kind::Missing
    }

    pub fn is_surveyed(&self) -> bool {
        matches!(self.kind, Kind::Surveyed(_))
    }
}

/// The running hours of a line whose survey hours rise.
pub fn running_hours(line: &Line) -> Vec<Running> {
    let hours = line.days.iter().enumerate().flat_map(|(number, day)| (0..24).map(move |hour| (number, day, hour)));
    let running = hours.filter(|(_, day, hour)| day.run >> hour & 1 == 1);
    let surveys = (&line.enforcement[..], &line.plant[..]);
    let at = |(number, day, hour): (usize, &Day, usize)| {
        running_at(24 * number + hour, day.measured >> hour & 1 == 1, day.pairs[hour], surveys)
    };
    running.map(at).collect()
}

/// The running days of an outfall whose survey days rise.
pub fn running_days(line: &WaterLine) -> Vec<Running> {
    let surveys = (&line.enforcement[..], &line.plant[..]);
    let running = line.days.iter().enumerate().filter(|(_, day)| day.state != 0);
    running.map(|(number, day)| running_at(number, day.state == 2, day.pair, surveys)).collect()
}

fn running_at(hour: usize, measured: bool, pair: (f32, f32), (first, second): (&[Survey], &[Survey])) -> Running {
    let (enforcement, plant) = (survey_at(first, hour), survey_at(second, hour));
    let office = match (enforcement.map(readings), plant.map(readings)) {
        (Some(governing), Some(beaten)) if governing != beaten => Some(Office::Both),
        (Some(_), _) => Some(Office::Enforcement),
        (None, Some(_)) => Some(Office::Plant),
        (None, None) => None,
    };
    let governing = enforcement.or(plant).map(readings);
    let kind = match office {
        _ if measured => Kind::Measured,
        Some(office) => Kind::Surveyed(office),
        None => Kind::Missing,
    };
    Running { hour, kind, office, readings: governing.unwrap_or(pair) }
}

fn survey_at(surveys: &[Survey], hour: usize) -> Option<&Survey> {
    surveys.binary_search_by_key(&hour, |survey| survey.hour.into()).ok().map(|place| &surveys[place])
}

fn readings(survey: &Survey) -> (f32, f32) {
    (survey.concentration, survey.flow)
}
