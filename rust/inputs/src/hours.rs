//! What the hours of a line are: runs of stopped, missing and measured hours that the fills care about.

use crate::reading;
use crate::rng::Rng;
use crate::wire::Day;

#[derive(Clone, Copy, Debug, PartialEq, Eq)]
enum Hour {
    Stopped,
    Missing,
    Measured,
}

/// Gap lengths about the border of 24, and some far from it.
const GAPS: [usize; 12] = [1, 1, 2, 3, 23, 24, 24, 25, 25, 26, 27, 40];

/// Days with room for a long gap and more than 720 other hours.
pub const LONG: usize = 33;

/// The days of a line.
pub fn days(count: usize, rng: &mut Rng) -> Vec<Day> {
    if count >= LONG && rng.chance(2, 3) {
        return if rng.chance(1, 4) { windows(count, rng) } else { window(count, rng) };
    }
    let hours = match rng.below(16) {
        0 => vec![Hour::Stopped; 24 * count],
        1 => vec![Hour::Missing; 24 * count],
        2 | 3 => vec![Hour::Measured; 24 * count],
        4..=6 => scattered(count, rng),
        7..=9 => quarter(count, rng),
        _ => gaps(count, rng),
    };
    with_readings(&hours, rng)
}

/// Measured hours with some stopped ones strewn in.
fn mostly_measured(count: usize, rng: &mut Rng) -> Vec<Hour> {
    let stopped = rng.pick(&[0, 0, 1, 3, 10]);
    (0..24 * count).map(|_| if rng.chance(stopped, 20) { Hour::Stopped } else { Hour::Measured }).collect()
}

fn scattered(count: usize, rng: &mut Rng) -> Vec<Hour> {
    let missing = rng.pick(&[1, 3, 10, 12, 20]);
    let mut hours = mostly_measured(count, rng);
    for hour in &mut hours {
        if *hour == Hour::Measured && rng.chance(missing, 50) {
            *hour = Hour::Missing;
        }
    }
    hours
}

/// Exactly a quarter of the running hours missing, or one more or one fewer; in one block or strewn.
fn quarter(count: usize, rng: &mut Rng) -> Vec<Hour> {
    let mut hours = mostly_measured(count, rng);
    let running = running(&hours);
    let missing = (running.len() / 4 + rng.below(3)).saturating_sub(1).min(running.len());
    if rng.chance(1, 2) {
        carve(&mut hours, rng.below(running.len() - missing + 1), missing);
    } else {
        for _ in 0..missing {
            let place = rng.below(running.len());
            let free = running[place..].iter().chain(&running[..place]).find(|&&hour| hours[hour] == Hour::Measured);
            hours[*free.expect("fewer hours are missing than run")] = Hour::Missing;
        }
    }
    hours
}

/// A few gaps of chosen lengths, at the start, at the end, or anywhere.
fn gaps(count: usize, rng: &mut Rng) -> Vec<Hour> {
    let mut hours = mostly_measured(count, rng);
    let running = running(&hours).len();
    let length = rng.pick(&GAPS).min(running);
    match rng.below(4) {
        0 => carve(&mut hours, 0, length),
        1 => carve(&mut hours, running - length, length),
        _ => carve(&mut hours, rng.below(running - length + 1), length),
    }
    for _ in 0..rng.below(3) {
        let length = rng.pick(&GAPS).min(running / 8);
        carve(&mut hours, rng.below(running - length + 1), length);
    }
    hours
}

fn running(hours: &[Hour]) -> Vec<usize> {
    (0..hours.len()).filter(|&hour| hours[hour] != Hour::Stopped).collect()
}

/// Makes `length` running hours from the `start`th on missing; stopped hours among them stay as they are.
fn carve(hours: &mut [Hour], start: usize, length: usize) {
    for hour in hours.iter_mut().filter(|hour| **hour != Hour::Stopped).skip(start).take(length) {
        *hour = Hour::Missing;
    }
}

fn with_readings(hours: &[Hour], rng: &mut Rng) -> Vec<Day> {
    days_of(hours, |_| (reading::concentration(rng), reading::flow(rng)))
}

fn days_of(hours: &[Hour], mut readings: impl FnMut(usize) -> (f32, f32)) -> Vec<Day> {
    let mut days = Vec::with_capacity(hours.len() / 24);
    for (number, of_day) in hours.chunks_exact(24).enumerate() {
        let mut day = Day::stopped(number as u8);
        for (hour, kind) in of_day.iter().enumerate() {
            match kind {
                Hour::Stopped => {}
                Hour::Missing => day.miss(hour),
                Hour::Measured => {
                    let (concentration, flow) = readings(24 * number + hour);
                    day.measure(hour, concentration, flow);
                }
            }
        }
        days.push(day);
    }
    days
}

/// A long gap with peaks about 720 valid hours from it, so that the window's edge shows in the fill.
fn window(count: usize, rng: &mut Rng) -> Vec<Day> {
    let mut hours = mostly_measured(count, rng);
    let all = running(&hours).len();
    let length = rng.pick(&[24, 25, 26, 60, 150]).min(all / 5);
    let start = rng.pick(&[0, 0, 0, 700, 719, 720, 721, 722, 750, 900]).min(all - length);
    carve(&mut hours, start, length);
    if rng.chance(3, 4) {
        // Three more, which surveys may bring back: about 720 hours from the gap, or nearer.
        let (near, far) = (rng.between(3, 718), rng.between(719, 724));
        let away = rng.pick(&[near, far, far]);
        let place = if start == 0 { length + away - 3 } else { start.saturating_sub(away) };
        carve(&mut hours, place, 3);
    }
    let peaks = peak_hours(&hours, start, rng);
    let high = 1_000 + rng.below(1_000);
    days_of(&hours, |hour| {
        let height = |peak: usize| if peak == hour { high } else { 0 };
        let low = (rng.below(50_000) as f32 / 100.0, rng.below(500_000) as f32 / 3.0);
        (low.0 + height(peaks.0) as f32, low.1 + 1_000.0 * height(peaks.1) as f32)
    })
}

/// Long gaps in turn, on readings that fall, vary or rise: windows overlap, and their largest values are left behind.
fn windows(count: usize, rng: &mut Rng) -> Vec<Day> {
    let mut hours = mostly_measured(count, rng);
    let all = running(&hours).len();
    let length = rng.pick(&[25, 25, 26, 40]);
    let turn = rng.between(4 * length, 4 * length + 100);
    for start in (rng.below(turn)..all.saturating_sub(length)).step_by(turn) {
        carve(&mut hours, start, length);
    }
    let falls = [rng.below(3), rng.below(3)];
    let mut height = |fall: usize, hour: usize| [24 * count - hour, rng.below(24 * count), hour][fall];
    days_of(&hours, |hour| (height(falls[0], hour) as f32 / 8.0, 100.0 * height(falls[1], hour) as f32))
}

/// Where concentration and flow peak: the measured hours number 715 to 723, counted from the gap; surveyed ones may
/// come between.
fn peak_hours(hours: &[Hour], start: usize, rng: &mut Rng) -> (usize, usize) {
    let first = running(hours).get(start).copied().unwrap_or(0);
    let valid = |from: usize, to: usize| (from..to).filter(|&hour| hours[hour] == Hour::Measured);
    let counted: Vec<usize> = match valid(0, first).count() {
        0 => valid(first, hours.len()).collect(),
        _ => valid(0, first).rev().collect(),
    };
    let mut peak = || counted.get(rng.between(714, 722)).copied().unwrap_or(usize::MAX);
    (peak(), peak())
}
