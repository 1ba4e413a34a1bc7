//! The worked figures and the example of document 01 with request A2's case and an outfall for request A3, one table for
//! every implementation of the account call.

use crate::outcome::Outcome;
use crate::wire::{self, Batch, Day, Head, Line, Survey, WaterDay, WaterHead, WaterLine};

#[derive(Clone, Copy, Debug)]
enum States {
    /// The cells of hour 0.
    Cells(u32, u32),
    Refused(u64),
    /// Method and grams of the only row.
    Row(u64, u64),
    /// The example of the document: its row, and the fill of hour 2.
    Example,
    /// The row of an outfall of two days, and their cells; all behind them are zero.
    TwoDays([u64; 7], [(u32, u32); 2]),
    /// No rows, no grams, no hours.
    Nothing,
}

/// A file and what the document states of it; a call is lent one row and two quarters.
#[derive(Debug)]
pub struct Figure {
    name: &'static str,
    pub file: Vec<u8>,
    states: States,
}

impl Figure {
    fn of_line(name: &'static str, line: Line, states: States) -> Self {
        Figure { name, file: wire::file(&[line]), states }
    }

    /// Holds what a call answered and wrote against the document.
    pub fn check(&self, outcome: &Outcome) {
        let Figure { name, states, .. } = self;
        let Outcome { answer, rows, concentration, flow } = outcome;
        match *states {
            States::Refused(expected) => assert_eq!(answer[0], expected, "{name}"),
            States::Cells(c, l) => assert_eq!((answer[0], concentration[0], flow[0]), (0, c, l), "{name}"),
            States::Row(method, grams) => assert_eq!((answer[0], rows[2], rows[3]), (0, method, grams), "{name}"),
            States::Example => {
                assert_eq!((answer, &rows[..]), (&[0, 0, 1, 0, 126_500, 0, 0, 0], &[1, 2, 1, 126_500, 4, 1, 3][..]));
                assert_eq!((concentration[2], flow[2]), (3_550, 1_000_001));
            }
            States::TwoDays(row, cells) => {
                let mut expected = [0, 0, 1, 0, 0, 0, 0, 0];
                expected[2 + row[1] as usize] = row[3];
                assert_eq!((answer, &rows[..]), (&expected, &row[..]), "{name}");
                let shown = [0, 1].map(|day| (concentration[day], flow[day]));
                let behind = concentration[2..].iter().chain(&flow[2..]).all(|&cell| cell == 0);
                assert_eq!((shown, behind), (cells, true), "{name}");
            }
            States::Nothing => {
                assert_eq!(*answer, [0; 8]);
                assert!(concentration.iter().chain(flow).all(|&cell| cell == 0));
            }
        }
    }
}

const HEAD: Head = Head { stack: 1, pollutant: 2, required: 1, furnace: 1, coal: 4, megawatts: 300, mark: 1, days: 1 };
/// 1,000,000 kg with sulphur 80 and ash 2,000.
const BATCH: Batch = Batch { kg: 1_000_000, sulphur: 80, ash: 2_000 };

/// A line of one day.
fn line(head: Head, day: Day, batches: &[Batch]) -> Line {
    Line { head, days: vec![day], enforcement: Vec::new(), plant: Vec::new(), batches: batches.to_vec() }
}

/// A line with one measured hour.
fn reading(name: &'static str, concentration: f32, flow: f32, states: States) -> Figure {
    let mut day = Day::stopped(0);
    day.measure(0, concentration, flow);
    Figure::of_line(name, line(HEAD, day, &[]), states)
}

/// A line of `running` hours, of which the last is missing.
fn one_missing(running: usize) -> Line {
    let mut day = Day::stopped(0);
    (0..running).for_each(|hour| day.measure(hour, 10.0, 100.0));
    day.miss(running - 1);
    line(HEAD, day, &[BATCH])
}

fn quarter(name: &'static str, running: usize, states: States) -> Figure {
    Figure::of_line(name, one_missing(running), states)
}

/// Three running hours, of which the last is missing and surveyed: request A2.
fn surveyed(name: &'static str, enforcement: &[Survey], plant: &[Survey], states: States) -> Figure {
    let line = Line { enforcement: enforcement.to_vec(), plant: plant.to_vec(), ..one_missing(3) };
    Figure::of_line(name, line, states)
}

/// A line whose only running hour is missing, so that fuel speaks.
fn fuel(name: &'static str, head: Head, batches: &[Batch], states: States) -> Figure {
    let mut day = Day::stopped(0);
    day.miss(0);
    Figure::of_line(name, line(head, day, batches), states)
}

/// 40.5 mg/L at 1,000 m3 on a day: 40,500 g, and c x l is 4,050 x 1,000 = 4,050,000.
const FIRST: (f32, f32) = (40.5, 1_000.0);
/// 30.5 mg/L at 2,001 m3 on a day: 61,030.5 g, and c x l is 3,050 x 2,001 = 6,103,050.
const SECOND: (f32, f32) = (30.5, 2_001.0);

/// A day of those readings.
fn of_day(day: u8, (concentration, flow): (f32, f32)) -> WaterDay {
    WaterDay::measured(day, concentration, flow)
}

fn on_day(day: u16, (concentration, flow): (f32, f32)) -> Survey {
    Survey { hour: day, concentration, flow }
}

/// Outfall 7's line of chemical oxygen demand.
fn outfall(name: &'static str, days: &[WaterDay], enforcement: &[Survey], plant: &[Survey], states: States) -> Figure {
    let head = WaterHead { outfall: 7, pollutant: 4, days: days.len() as u8 };
    let (enforcement, plant) = (enforcement.to_vec(), plant.to_vec());
    let line = WaterLine { head, days: days.to_vec(), enforcement, plant };
    Figure { name, file: wire::file(&[line]), states }
}

/// An outfall of two days, of which the second is missing or has stopped in most.
fn outfalls() -> Vec<Figure> {
    let measured = [of_day(0, FIRST), of_day(1, SECOND)];
    let dark = [of_day(0, FIRST), WaterDay::missing(1)];
    let stopped = [WaterDay::stopped(0), WaterDay::stopped(1)];
    let half_stopped = [WaterDay::stopped(0), of_day(1, SECOND)];
    let (first, second) = ((4_050, 1_000), (3_050, 2_001));
    // 4,050,000 + 6,103,050 = 10,153,050; over 100 it is 101,530.5, halves up.
    let automatic = States::TwoDays([7, 4, 1, 101_531, 2, 0, 0], [first, second]);
    // The one survey is 6,103,050, times 2 running days over 1 x 100; it stands for the reading of day 0 too.
    let manual = States::TwoDays([7, 4, 2, 122_061, 2, 1, 2], [second, (0, 0)]);
    // 6,103,050 over 100 is 61,030.5, halves up.
    let second_alone = States::TwoDays([7, 4, 1, 61_031, 1, 0, 0], [(0, 0), second]);
    let nothing = States::TwoDays([7, 4, 1, 0, 0, 0, 0], [(0, 0), (0, 0)]);
    let (of_second, of_first) = ([on_day(1, SECOND)], [on_day(1, FIRST)]);
    vec![
        outfall("two days", &measured, &[], &[], automatic),
        outfall("two days, one missing and surveyed by enforcement", &dark, &of_second, &[], automatic),
        outfall("two days, one missing and surveyed by the plant", &dark, &[], &of_second, automatic),
        outfall("two days, one missing and surveyed by both", &dark, &of_second, &of_first, automatic),
        outfall("two days, one missing, and the other surveyed", &dark, &[on_day(0, SECOND)], &[], manual),
        outfall("two days, one missing", &dark, &[], &[], States::Refused(18)),
        outfall("two days, one stopped", &half_stopped, &[], &[], second_alone),
        outfall("two days stopped", &stopped, &[], &[], nothing),
        outfall("two days, one stopped and surveyed", &half_stopped, &[on_day(0, FIRST)], &[], States::Refused(5)),
    ]
}

/// All figures, the example and the empty file.
pub fn figures() -> Vec<Figure> {
    let dioxide = Head { pollutant: 1, ..HEAD };
    let stronger = Batch { sulphur: 100, ..BATCH };
    let survey = Survey { hour: 2, concentration: 30.0, flow: 100.0 };
    let mut figures = vec![
        reading("0.125 gives 13", 0.125, 1.0, States::Cells(13, 1)),
        reading("10000 + 5/1024", 10_000.0 + 5.0 / 1024.0, 1.0, States::Cells(1_000_000, 1)),
        reading("10000 + 6/1024", 10_000.0 + 6.0 / 1024.0, 1.0, States::Refused(4)),
        reading("flow 0.5 gives 1", 1.0, 0.5, States::Cells(100, 1)),
        reading("flow 5,000,000", 1.0, 5_000_000.0, States::Cells(100, 5_000_000)),
        reading("flow 5,000,000.5", 1.0, 5_000_000.5, States::Refused(4)),
        reading("minus zero", -0.0, -0.0, States::Cells(0, 0)),
        quarter("four with one missing", 4, States::Row(1, 4)),
        quarter("three with one missing", 3, States::Row(4, 8_010_000)),
        surveyed("three with one missing and an enforcement survey", &[survey], &[], States::Row(1, 5)),
        surveyed("three with one missing and a plant survey", &[], &[survey], States::Row(1, 5)),
        fuel("balance", dioxide, &[BATCH], States::Row(3, 14_184_000)),
        fuel("balance, two batches", dioxide, &[BATCH, stronger], States::Row(3, 35_460_000)),
        fuel("oxides", Head { megawatts: 450, ..HEAD }, &[BATCH], States::Row(4, 7_950_000)),
        fuel("dust", Head { pollutant: 3, ..HEAD }, &[BATCH], States::Row(4, 195_330_000)),
        Figure { name: "example", file: example(), states: States::Example },
        Figure { name: "empty", file: Vec::new(), states: States::Nothing },
    ];
    figures.extend(outfalls());
    figures
}

/// The example file of document 01.
pub fn example() -> Vec<u8> {
    let mut day = Day::stopped(0);
    day.measure(0, 20.0, 1_000_000.0);
    day.measure(1, 30.0, 1_000_000.0);
    day.miss(2);
    day.measure(3, 41.0, 1_000_001.0);
    wire::file(&[line(HEAD, day, &[])])
}
