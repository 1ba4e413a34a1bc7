//! Request A2: a survey in a missing hour is data.

use inputs::wire::{self, Batch, Day, Head, Line, Survey};

const HEAD: Head = Head { stack: 1, pollutant: 2, required: 1, furnace: 1, coal: 4, megawatts: 300, mark: 1, days: 1 };
const BATCH: Batch = Batch { kg: 1_000_000, sulphur: 80, ash: 2_000 };

/// What an accepted line leaves: its row, and its hours by concentration and flow.
struct Accepted {
    row: [u64; 7],
    concentration: [u32; reference::HOURS],
    flow: [u32; reference::HOURS],
}

impl Accepted {
    fn cells(&self, hour: usize) -> (u32, u32) {
        (self.concentration[hour], self.flow[hour])
    }
}

fn accepted(line: &Line) -> Accepted {
    let (mut row, mut concentration, mut flow) = ([7; 7], [7; reference::HOURS], [7; reference::HOURS]);
    let answer = reference::account(&wire::file(std::slice::from_ref(line)), &mut row, &mut concentration, &mut flow);
    let total = answer.totals[usize::from(line.head.pollutant) - 1];
    assert_eq!((answer.number, answer.rows, total), (0, 1, row[3]));
    Accepted { row, concentration, flow }
}

/// A line whose first `running` hours ran at 10 mg/m3 and 100 m3/h, those of `missing` apart.
fn line(running: usize, missing: impl IntoIterator<Item = usize>) -> Line {
    let count = running.div_ceil(24);
    let mut days: Vec<Day> = (0..count).map(|day| Day::stopped(day as u8)).collect();
    (0..running).for_each(|hour| days[hour / 24].measure(hour % 24, 10.0, 100.0));
    missing.into_iter().for_each(|hour| days[hour / 24].miss(hour % 24));
    let head = Head { days: count as u8, ..HEAD };
    Line { head, days, enforcement: Vec::new(), plant: Vec::new(), batches: vec![BATCH] }
}

fn survey(hour: u16, concentration: f32, flow: f32) -> Survey {
    Survey { hour, concentration, flow }
}

#[test]
fn counts_for_the_share_by_either_office() {
    let dark = line(3, [2]);
    assert_eq!(accepted(&dark).row, [1, 2, 4, 8_010_000, 3, 1, 3]);
    let (thirty, fifty) = (survey(2, 30.0, 100.0), survey(2, 50.0, 700.0));
    let by_enforcement = Line { enforcement: vec![thirty], ..dark.clone() };
    let by_plant = Line { plant: vec![thirty], ..dark.clone() };
    let by_both = Line { enforcement: vec![thirty], plant: vec![fifty], ..dark };
    for line in [by_enforcement, by_plant, by_both] {
        let accepted = accepted(&line);
        assert_eq!(accepted.row, [1, 2, 1, 5, 3, 0, 0]);
        assert_eq!((accepted.cells(1), accepted.cells(2), accepted.cells(3)), ((1_000, 100), (3_000, 100), (0, 0)));
    }
}

#[test]
fn makes_a_line_of_surveys_alone_automatic() {
    let dark = line(24, 0..24);
    assert_eq!(accepted(&dark).row, [1, 2, 4, 8_010_000, 24, 24, 1]);
    let surveys: Vec<Survey> = (0..24).map(|hour| survey(hour, f32::from(hour), 1_000.0)).collect();
    for required in [0, 1] {
        // Hour 23 is left, and then not; 276 is the sum of the hours.
        let head = Head { required, ..dark.head };
        let but_one = Line { head, plant: surveys[..23].to_vec(), batches: Vec::new(), ..dark.clone() };
        assert_eq!(accepted(&but_one).row, [1, 2, 1, 253 + 22, 24, 1, 24]);
        let all = Line { plant: surveys.clone(), ..but_one };
        assert_eq!(accepted(&all).row, [1, 2, 1, 276, 24, 0, 0]);
    }
}

#[test]
fn moves_the_first_missing_hour() {
    let mut line = line(48, [3, 5, 30]);
    line.plant = vec![survey(3, 10.0, 100.0)];
    assert_eq!(accepted(&line).row, [1, 2, 1, 48, 48, 2, 6]);
    line.enforcement = vec![survey(5, 10.0, 100.0)];
    assert_eq!(accepted(&line).row, [1, 2, 1, 48, 48, 1, 31]);
    line.plant.push(survey(30, 10.0, 100.0));
    assert_eq!(accepted(&line).row, [1, 2, 1, 48, 48, 0, 0]);
}

#[test]
fn parts_a_long_gap() {
    let dark = line(120, 40..67);
    let filled = |hour, filled: usize| {
        let accepted = accepted(&Line { enforcement: vec![survey(hour, 30.0, 301.0)], ..dark.clone() });
        assert_eq!((accepted.row[2], accepted.row[5], accepted.cells(hour.into())), (1, 26, (3_000, 301)));
        accepted.cells(filled)
    };
    assert_eq!(accepted(&dark).cells(40), (1_000, 100));
    // 13 hours on each side: the mean, halves up.
    for hour in [40, 52, 54, 66] {
        assert_eq!(filled(53, hour), (2_000, 201));
    }
    // One hour before, and 25 after, whose largest valid hour is the survey.
    assert_eq!((filled(41, 40), filled(41, 42), filled(41, 66)), ((2_000, 201), (3_000, 301), (3_000, 301)));
    // An edge of the gap: 26 hours are left, and only those after the survey see it.
    assert_eq!((filled(40, 41), filled(66, 65)), ((3_000, 301), (1_000, 100)));
}

/// A long gap from hour 740 on: with a missing hour its window starts at hour 19, and with a survey there at hour 20.
#[test]
fn counts_in_the_window() {
    let mut line = line(816, (740..765).chain([100]));
    line.days[0].measure(19, 50.0, 500.0);
    assert_eq!(accepted(&line).cells(740), (5_000, 500));
    line.plant = vec![survey(100, 10.0, 200.0)];
    assert_eq!(accepted(&line).cells(740), (1_000, 200));
}

/// Three of eight hours stay missing. The surveys of method 2 are two, with or without the outage.
#[test]
fn fills_its_cell_under_every_method() {
    let (on_measured, on_missing) = (survey(0, 20.0, 1_000.0), survey(4, 40.0, 2_000.0));
    let dark = Line { enforcement: vec![on_measured], plant: vec![on_missing], ..line(8, 4..8) };
    let manual = Line { head: Head { required: 0, ..HEAD }, ..dark.clone() };
    let balance = Line { head: Head { pollutant: 1, ..HEAD }, ..dark.clone() };
    for (line, method, grams) in [(manual, 2, 400), (balance, 3, 14_184_000), (dark, 4, 8_010_000)] {
        let accepted = accepted(&line);
        assert_eq!(accepted.row, [1, line.head.pollutant.into(), method, grams, 8, 3, 6]);
        assert_eq!((accepted.cells(0), accepted.cells(4), accepted.cells(5)), ((2_000, 1_000), (4_000, 2_000), (0, 0)));
    }
}

#[test]
fn leaves_the_stopped_hour_refused() {
    let dark = line(3, [2]);
    for hour in [3, 23] {
        let line = Line { enforcement: vec![survey(2, 30.0, 100.0), survey(hour, 30.0, 100.0)], ..dark.clone() };
        assert_eq!(reference::printed(&wire::file(&[line])), "refused 5 233\n");
    }
}
