//! Sound lines of discharge water: every pollutant, state and method, up to every limit, alone or among those of stacks.

use crate::reading;
use crate::rng::Rng;
use crate::sound::{self, Size};
use crate::sound_surveys::{Hour, MOST, Offices, anywhere, by_offices, survey};
use crate::wire::{AnyLine, Survey, WaterDay, WaterHead, WaterLine};

/// The days of the longest period.
const MOST_DAYS: usize = 92;

/// The states of a day as they are written.
pub const STOPPED: u8 = 0;
pub const MISSING: u8 = 1;
pub const MEASURED: u8 = 2;

/// The lines of a file that is accepted, given room enough: outfalls alone, or one at least among stacks.
pub fn lines(size: Size, rng: &mut Rng) -> Vec<AnyLine> {
    let mixed = rng.chance(2, 3);
    let count = size.lines(rng).max(1 + usize::from(mixed));
    let sure = rng.below(count);
    let mut name = (rng.below(65_000) as u16, 0);
    let mut lines = Vec::with_capacity(count);
    for place in 0..count {
        let is_stack = mixed && place != sure && rng.chance(1, 2);
        name = next_name(name, is_stack, rng);
        lines.push(match is_stack {
            true => AnyLine::Stack(sound::line(name.0, name.1, size.days(rng), rng)),
            false => AnyLine::Outfall(line(name.0, name.1, days(size, rng), rng)),
        });
    }
    lines
}

/// The next number and pollutant in the order that stacks and outfalls share: the same number if it can be, mostly.
pub fn next_name((number, pollutant): (u16, u8), is_stack: bool, rng: &mut Rng) -> (u16, u8) {
    let (least, most) = if is_stack { (1, 3) } else { (4, 5) };
    let next = least.max(usize::from(pollutant) + 1);
    if next <= most && rng.chance(3, 4) {
        (number, rng.between(next, most) as u8)
    } else {
        (number + rng.between(1, 5) as u16, rng.between(least, most) as u8)
    }
}

/// How many days a line of water gets; they are short, so that long periods cost little.
fn days(size: Size, rng: &mut Rng) -> usize {
    match (size, rng.below(8)) {
        (Size::ManyLines, _) => rng.between(1, 3),
        (Size::Full, _) | (_, 0) => MOST_DAYS,
        (_, 1) => 1,
        (_, 2) => rng.between(1, MOST_DAYS),
        _ => rng.between(2, 9),
    }
}

/// A line of water that is accepted.
pub fn line(outfall: u16, pollutant: u8, count: usize, rng: &mut Rng) -> WaterLine {
    let states = states(count, rng);
    let running: Vec<Hour> = running(&states);
    let mut offices = offices(&running, rng);
    let missing = running.iter().any(|&(day, measured)| !measured && !surveys_day(&offices, day));
    if missing && offices.0.is_empty() && offices.1.is_empty() {
        // A method is left all the same.
        let day = running[rng.below(running.len())].0;
        offices = by_offices(&[day], rng);
    }
    let readings = Readings::pick(rng);
    let mut survey = |day: &u16| readings.survey(*day, rng);
    let (enforcement, plant) = (offices.0.iter().map(&mut survey).collect(), offices.1.iter().map(survey).collect());
    let days = states.iter().enumerate().map(|(day, &state)| readings.day(day as u8, state, rng)).collect();
    WaterLine { head: WaterHead { outfall, pollutant, days: count as u8 }, days, enforcement, plant }
}

/// The running days, each with whether it was measured.
fn running(states: &[u8]) -> Vec<Hour> {
    let running = states.iter().enumerate().filter(|(_, state)| **state != STOPPED);
    running.map(|(day, &state)| (day as u16, state == MEASURED)).collect()
}

fn surveys_day((enforcement, plant): &Offices, day: u16) -> bool {
    enforcement.contains(&day) || plant.contains(&day)
}

/// All days alike, a few of another state, or any at any day.
fn states(count: usize, rng: &mut Rng) -> Vec<u8> {
    let (missing, stopped) = match rng.below(16) {
        0 => (0, 20),
        1 | 2 => (20, 0),
        3 | 4 => (0, 0),
        5..=7 => (0, rng.pick(&[1, 3, 10, 18])),
        8 | 9 => (rng.pick(&[1, 3, 10]), 0),
        10 | 11 => return one_missing(count, rng),
        _ => (rng.pick(&[1, 3, 10, 15]), rng.pick(&[1, 3, 5])),
    };
    let mut state = || match rng.below(20) {
        part if part < missing => MISSING,
        part if part < missing + stopped => STOPPED,
        _ => MEASURED,
    };
    (0..count).map(|_| state()).collect()
}

/// One day missing: the first, the last, or any.
fn one_missing(count: usize, rng: &mut Rng) -> Vec<u8> {
    let mut states = vec![MEASURED; count];
    let any = rng.below(count);
    states[rng.pick(&[0, count - 1, any])] = MISSING;
    states
}

/// The days that each office surveys: none, any that ran, those without data, or as many as there may be.
fn offices(running: &[Hour], rng: &mut Rng) -> Offices {
    match rng.below(16) {
        0..=4 => Offices::default(),
        5..=7 => anywhere(running, rng),
        8 => both(running),
        9 | 10 => {
            let days: Vec<u16> = running.iter().map(|&(day, _)| day).collect();
            let count = rng.pick(&[1, 1, 2, 3]);
            by_offices(&rng.choose(&days, count), rng)
        }
        _ => by_offices(&in_outages(running, rng), rng),
    }
}

/// Every running day by enforcement, and by the plant as long as the number of surveys allows it.
fn both(running: &[Hour]) -> Offices {
    let days: Vec<u16> = running.iter().map(|&(day, _)| day).collect();
    let plant = days.iter().copied().take(MOST - days.len()).collect();
    (days, plant)
}

/// Missing days alone: all, the first, all but one, or some.
fn in_outages(running: &[Hour], rng: &mut Rng) -> Vec<u16> {
    let mut missing: Vec<u16> = running.iter().filter(|(_, measured)| !measured).map(|&(day, _)| day).collect();
    match rng.below(6) {
        0..=2 => missing,
        3 => missing.into_iter().take(1).collect(),
        4 if !missing.is_empty() => {
            missing.remove(rng.below(missing.len()));
            missing
        }
        _ => rng.sample(&missing, 1, 2, MOST),
    }
}

/// What the readings of a line are like.
#[derive(Clone, Copy)]
enum Readings {
    Any,
    /// Products that end in 00 or 50, so that grams end in a half.
    Halves,
}

impl Readings {
    fn pick(rng: &mut Rng) -> Self {
        if rng.chance(1, 4) { Readings::Halves } else { Readings::Any }
    }

    fn pair(self, rng: &mut Rng) -> (f32, f32) {
        match self {
            Readings::Any => (reading::concentration(rng), reading::flow(rng)),
            Readings::Halves => (rng.below(400) as f32 / 2.0, (2 * rng.below(5_000) + 1) as f32),
        }
    }

    fn survey(self, day: u16, rng: &mut Rng) -> Survey {
        match self {
            Readings::Any => survey(day, rng),
            Readings::Halves => {
                let (concentration, flow) = self.pair(rng);
                Survey { hour: day, concentration, flow }
            }
        }
    }

    fn day(self, day: u8, state: u8, rng: &mut Rng) -> WaterDay {
        let pair = if state == MEASURED { self.pair(rng) } else { (0.0, 0.0) };
        WaterDay { day, state, pair }
    }
}
