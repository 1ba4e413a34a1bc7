//! The surveys of a sound line: anywhere it ran, or where the analyser was down; of an outfall by day.

use crate::hours::LONG;
use crate::reading;
use crate::rng::Rng;
use crate::wire::{Day, Survey};

/// Surveys that a line may have.
pub const MOST: usize = 120;

/// A running hour and whether it was measured; of an outfall a running day.
pub type Hour = (u16, bool);
/// The hours that each office surveys: enforcement, then plant.
pub type Offices = (Vec<u16>, Vec<u16>);

/// The surveys of each office; not every line has any. In long lines they often feed a window.
pub fn surveys(days: &[Day], rng: &mut Rng) -> (Vec<Survey>, Vec<Survey>) {
    let running = running(days);
    let (enforcement, plant) = match rng.below(12) {
        _ if days.len() >= LONG && rng.chance(1, 2) => by_offices(&but_the_longest(&gaps(&running)), rng),
        0..=3 => Offices::default(),
        4..=6 => anywhere(&running, rng),
        _ => by_offices(&in_outages(&running, rng), rng),
    };
    let mut survey = |hour| survey(hour, rng);
    (enforcement.into_iter().map(&mut survey).collect(), plant.into_iter().map(&mut survey).collect())
}

pub fn survey(hour: u16, rng: &mut Rng) -> Survey {
    Survey { hour, concentration: reading::concentration(rng), flow: reading::flow(rng) }
}

fn running(days: &[Day]) -> Vec<Hour> {
    let bit = |mask: u32, hour: usize| mask >> (hour % 24) & 1 == 1;
    let running = (0..24 * days.len()).filter(|&hour| bit(days[hour / 24].run, hour));
    running.map(|hour| (hour as u16, bit(days[hour / 24].measured, hour))).collect()
}

/// At running hours, measured and missing ones, some of them by both offices at one hour.
pub fn anywhere(running: &[Hour], rng: &mut Rng) -> Offices {
    let running: Vec<u16> = running.iter().map(|&(hour, _)| hour).collect();
    let of = rng.pick(&[2, 8, 30, 120]);
    let shared = rng.sample(&running, 1, 2 * of, 40);
    let mut hours = |most: usize| {
        let mut hours = rng.sample(&running, 1, of, most);
        hours.extend(&shared);
        hours.sort_unstable();
        hours.dedup();
        hours.truncate(most);
        hours
    };
    let enforcement = hours(90);
    let plant = hours(MOST - enforcement.len());
    (enforcement, plant)
}

/// The missing hours, parted by the measured ones.
fn gaps(running: &[Hour]) -> Vec<Vec<u16>> {
    let gaps = running.chunk_by(|one, next| one.1 == next.1).filter(|run| !run[0].1);
    gaps.map(|gap| gap.iter().map(|&(hour, _)| hour).collect()).collect()
}

/// Missing hours alone: all, the first ones, as many as the quarter asks for, one of each gap, all gaps but one, some.
fn in_outages(running: &[Hour], rng: &mut Rng) -> Vec<u16> {
    let gaps = gaps(running);
    let missing = gaps.concat();
    match rng.below(8) {
        0 | 1 => missing.into_iter().take(MOST).collect(),
        2 => missing.into_iter().take(rng.pick(&[1, 1, 2, 24])).collect(),
        3 | 4 => {
            let over = missing.len().saturating_sub(running.len() / 4);
            let count = (over + rng.below(3)).saturating_sub(1).min(MOST);
            rng.choose(&missing, count)
        }
        5 => gaps.iter().map(|gap| gap[rng.below(gap.len())]).take(MOST).collect(),
        6 => but_the_longest(&gaps),
        _ => rng.sample(&missing, 1, 4, MOST),
    }
}

/// All gaps but the longest, which they feed.
fn but_the_longest(gaps: &[Vec<u16>]) -> Vec<u16> {
    let longest = gaps.iter().max_by_key(|gap| gap.len());
    let others = gaps.iter().filter(|gap| Some(*gap) != longest);
    others.flatten().copied().take(MOST).collect()
}

/// One office for all hours, both at each hour, or any at any; both as long as the number of surveys allows it.
pub fn by_offices(hours: &[u16], rng: &mut Rng) -> Offices {
    let offices = [(true, false), (false, true), (true, true)];
    let for_all = offices.get(rng.below(5));
    let mut spare = MOST - hours.len();
    let (mut enforcement, mut plant) = Offices::default();
    for &hour in hours {
        let (by_enforcement, by_plant) = for_all.copied().unwrap_or_else(|| rng.pick(&offices));
        let both = by_enforcement && by_plant && spare > 0;
        spare -= usize::from(both);
        if by_enforcement {
            enforcement.push(hour);
        }
        if both || !by_enforcement {
            plant.push(hour);
        }
    }
    (enforcement, plant)
}
