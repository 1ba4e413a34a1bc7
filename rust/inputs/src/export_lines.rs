//! Lines of the historian's text export; every field takes any bytes, so that faulty lines can be written too.

use crate::rng::Rng;

pub const HOURS_OF_A_DAY: usize = 24;
pub const MOST_DAYS: usize = 92;

const DAY: usize = 0;
const HOUR: usize = 1;
const STATE: usize = 2;
const CONCENTRATION: usize = 3;
const FLOW: usize = 4;

/// Numbers that a line can have, by their fields.
pub const NUMBERS: [usize; 4] = [DAY, HOUR, CONCENTRATION, FLOW];
pub const TURN: [usize; 2] = [DAY, HOUR];
pub const READINGS: [usize; 2] = [CONCENTRATION, FLOW];

/// The fields between the commas: day, hour, state, concentration and flow, unless it was damaged.
#[derive(Clone, Debug)]
pub struct Line(pub Vec<Vec<u8>>);

impl Line {
    /// The line of an hour of the period, which stopped, was missing or was measured.
    fn sound(hour: usize, state: &str, rng: &mut Rng) -> Self {
        let [day, hour] = [hour / HOURS_OF_A_DAY, hour % HOURS_OF_A_DAY].map(|number| number.to_string());
        let [day, hour] = [day, hour].map(|number| (zeros(rng) + &number).into_bytes());
        let mut line = Line(vec![day, hour, state.into(), Vec::new(), Vec::new()]);
        if state == "R" {
            line.fill(rng);
        }
        line
    }

    /// Both readings, of which one may be at its limit.
    fn fill(&mut self, rng: &mut Rng) {
        self.set_concentration(&concentration(rng));
        self.set_flow(&flow(rng));
    }

    /// Makes a measured line of one that is not.
    pub fn measure(&mut self, rng: &mut Rng) {
        if self.0[STATE] != b"R" {
            self.set_state("R");
            self.fill(rng);
        }
    }

    /// Makes a line that is not measured.
    pub fn empty(&mut self, rng: &mut Rng) {
        self.set_state(rng.pick(&["M", "S"]));
        READINGS.into_iter().for_each(|field| self.0[field].clear());
    }

    pub fn set_day(&mut self, text: &str) {
        self.0[DAY] = text.into();
    }

    pub fn set_hour(&mut self, text: &str) {
        self.0[HOUR] = text.into();
    }

    pub fn set_state(&mut self, text: &str) {
        self.0[STATE] = text.into();
    }

    pub fn set_concentration(&mut self, text: &str) {
        self.0[CONCENTRATION] = text.into();
    }

    pub fn set_flow(&mut self, text: &str) {
        self.0[FLOW] = text.into();
    }

    pub fn state(&self) -> &[u8] {
        &self.0[STATE]
    }
}

/// The text of all lines, each of them ended.
pub fn text(lines: &[Line]) -> Vec<u8> {
    lines.iter().flat_map(|line| [line.0.join(&b','), vec![b'\n']].concat()).collect()
}

/// The lines of whole days in turn, in which a state often lasts.
pub fn sound_lines(days: usize, rng: &mut Rng) -> Vec<Line> {
    let mut state = "R";
    let mut next = |hour| {
        if rng.chance(1, 4) {
            state = rng.pick(&["R", "R", "M", "S"]);
        }
        Line::sound(hour, state, rng)
    };
    (0..HOURS_OF_A_DAY * days).map(&mut next).collect()
}

/// Day 92, or a part of it.
pub fn day_too_many(hours: usize, rng: &mut Rng) -> Vec<Line> {
    let first = HOURS_OF_A_DAY * MOST_DAYS;
    let mut line = |hour| {
        let state = rng.pick(&["R", "M", "S"]);
        Line::sound(hour, state, rng)
    };
    (first..first + hours).map(&mut line).collect()
}

/// Leading zeros: mostly none, at times more than any number has digits.
pub fn zeros(rng: &mut Rng) -> String {
    "0".repeat(match rng.below(1_000) {
        0 => rng.between(5, 400),
        1..=60 => rng.between(1, 4),
        _ => 0,
    })
}

/// A concentration in one of the ways in which it can be written.
fn concentration(rng: &mut Rng) -> String {
    let hundredths = match rng.below(8) {
        0 => rng.pick(&[0, 1, 5, 10, 99, 100, 101, 999_990, 999_999, 1_000_000]),
        1 => rng.below(1_000),
        2 => 100 * rng.below(10_001),
        _ => rng.below(1_000_001),
    };
    let decimals = rng.between(least_decimals(hundredths), 2);
    zeros(rng) + &written(hundredths, decimals)
}

/// As few decimals as show all of it.
pub fn least_decimals(hundredths: usize) -> usize {
    match (hundredths % 100, hundredths % 10) {
        (0, _) => 0,
        (_, 0) => 1,
        _ => 2,
    }
}

pub fn written(hundredths: usize, decimals: usize) -> String {
    let (whole, part) = (hundredths / 100, hundredths % 100);
    match decimals {
        0 => whole.to_string(),
        1 => format!("{whole}.{}", part / 10),
        _ => format!("{whole}.{part:02}"),
    }
}

fn flow(rng: &mut Rng) -> String {
    let flow = match rng.below(8) {
        0 => rng.pick(&[0, 1, 9, 10, 4_194_304, 4_999_999, 5_000_000]),
        1 => rng.below(1_000),
        _ => rng.below(5_000_001),
    };
    zeros(rng) + &flow.to_string()
}
