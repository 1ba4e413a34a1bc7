//! Request A2: what surveys in missing hours do to a line.

use std::collections::BTreeSet;

use crate::running::{Kind, Office, Running};
use crate::wire::Line;

/// The longest gap that is filled by a mean.
const SHORT: usize = 24;
/// How many valid hours a longer gap looks at.
const WINDOW: usize = 720;

/// How the missing hours that are left stand to a quarter of the running ones.
#[derive(Clone, Copy, Debug, PartialEq, Eq, PartialOrd, Ord)]
pub enum Share {
    /// One more would be over it.
    JustUnder,
    Exactly,
    /// One fewer would not be over it.
    JustOver,
}

/// Which valid neighbours of a short gap are surveyed missing hours.
#[derive(Clone, Copy, Debug, PartialEq, Eq, PartialOrd, Ord)]
pub enum Side {
    Before,
    After,
    Both,
    /// The one neighbour that there is.
    Only,
}

#[derive(Clone, Copy, Debug, PartialEq, Eq, PartialOrd, Ord)]
pub enum Outage {
    /// A surveyed missing hour, by office and method of the line, whose cells are seen: it is the last.
    Cells(Office, u64),
    /// More than a quarter was missing without the surveys; with them the share is this.
    Share { share: Share, required: bool },
    /// More than half was missing, and all of it is surveyed.
    All { required: bool },
    /// No hour was measured, and all are surveyed.
    SurveysAlone,
    /// The first missing hour is surveyed, and the first one left is of the same day.
    FirstOfDay,
    /// The first missing hour is surveyed, and the first one left is of a later day.
    FirstOfLaterDay,
    /// A long gap is parted into short ones.
    PartedShort,
    /// A long gap is parted, and a part of it is long.
    PartedLong,
    /// A surveyed hour feeds a mean.
    Mean(Side),
    /// A surveyed hour is the largest of those before a long gap.
    LargestBefore,
    /// A surveyed hour is the largest of those after a long gap with none before.
    LargestAfter,
    /// A surveyed hour is one of the 720 before a long gap, and puts another out.
    In720Before,
    /// The same after a long gap with none before.
    In720After,
    /// A surveyed hour is the last one of 720.
    LastOf720,
    /// A surveyed hour is the first one past 720.
    Past720,
}

impl Outage {
    /// All that a run has to reach.
    pub fn all() -> Vec<Outage> {
        let offices = [Office::Enforcement, Office::Plant, Office::Both];
        let mut all: Vec<Outage> =
            (1..=4).flat_map(|method| offices.map(|office| Outage::Cells(office, method))).collect();
        for required in [false, true] {
            let shares = [Share::JustUnder, Share::Exactly, Share::JustOver];
            all.extend(shares.map(|share| Outage::Share { share, required }));
            all.push(Outage::All { required });
        }
        all.extend([Side::Before, Side::After, Side::Both, Side::Only].map(Outage::Mean));
        all.extend([Outage::SurveysAlone, Outage::FirstOfDay, Outage::FirstOfLaterDay]);
        all.extend([Outage::PartedShort, Outage::PartedLong, Outage::LargestBefore, Outage::LargestAfter]);
        all.extend([Outage::In720Before, Outage::In720After, Outage::LastOf720, Outage::Past720]);
        all
    }
}

/// What the surveys do to a line of this method, each once; cells are seen of the last line alone.
pub fn outages(line: &Line, hours: &[Running], method: u64, last: bool) -> BTreeSet<Outage> {
    let mut found = BTreeSet::new();
    if !hours.iter().any(Running::is_surveyed) {
        return found;
    }
    if last {
        found.extend(hours.iter().filter_map(|hour| match hour.kind {
            Kind::Surveyed(office) => Some(Outage::Cells(office, method)),
            _ => None,
        }));
    }
    found.extend(of_share(hours, line.head.required == 1));
    found.extend(of_first_missing(hours));
    if method == 1 {
        found.extend(hours.chunk_by(|one, next| is_dark(one) == is_dark(next)).filter_map(parted));
        found.extend(of_fills(hours));
    }
    found
}

/// Whether the analyser was down.
fn is_dark(hour: &Running) -> bool {
    hour.kind != Kind::Measured
}

fn of_share(hours: &[Running], required: bool) -> Vec<Outage> {
    let running = hours.len();
    let dark = hours.iter().filter(|hour| is_dark(hour)).count();
    let missing = hours.iter().filter(|hour| !hour.is_valid()).count();
    let mut found = Vec::new();
    if missing == 0 && 2 * dark > running {
        found.push(Outage::All { required });
    }
    if missing == 0 && dark == running {
        found.push(Outage::SurveysAlone);
    }
    if 4 * dark > running {
        let share = match 4 * missing {
            four if four == running => Some(Share::Exactly),
            four if four < running && four + 4 > running => Some(Share::JustUnder),
            four if four > running && four - 4 <= running => Some(Share::JustOver),
            _ => None,
        };
        found.extend(share.map(|share| Outage::Share { share, required }));
    }
    found
}

fn of_first_missing(hours: &[Running]) -> Option<Outage> {
    let first = hours.iter().find(|hour| is_dark(hour)).filter(|hour| hour.is_surveyed())?;
    let left = hours.iter().find(|hour| !hour.is_valid())?;
    Some(if first.hour / 24 == left.hour / 24 { Outage::FirstOfDay } else { Outage::FirstOfLaterDay })
}

/// Whether a run of dark hours is a long gap that surveys part.
fn parted(run: &[Running]) -> Option<Outage> {
    let parts = run.split(Running::is_surveyed).filter(|part| !part.is_empty());
    let longest = parts.clone().map(<[Running]>::len).max()?;
    let long = is_dark(&run[0]) && run.len() > SHORT && parts.count() > 1;
    long.then_some(if longest > SHORT { Outage::PartedLong } else { Outage::PartedShort })
}

fn of_fills(hours: &[Running]) -> Vec<Outage> {
    let mut found = Vec::new();
    let mut start = 0;
    for run in hours.chunk_by(|one, next| one.is_valid() == next.is_valid()) {
        let end = start + run.len();
        if !run[0].is_valid() {
            let (before, after) = (&hours[..start], &hours[end..]);
            if run.len() <= SHORT {
                found.extend(of_mean(before.last(), after.first()));
            } else {
                found.extend(of_window(before, after));
            }
        }
        start = end;
    }
    found
}

fn of_mean(before: Option<&Running>, after: Option<&Running>) -> Option<Outage> {
    let side = match (before.map(Running::is_surveyed), after.map(Running::is_surveyed)) {
        (Some(true), None) | (None, Some(true)) => Side::Only,
        (Some(true), Some(true)) => Side::Both,
        (Some(true), _) => Side::Before,
        (_, Some(true)) => Side::After,
        _ => return None,
    };
    Some(Outage::Mean(side))
}

/// The valid hours that a long gap looks at, counted from the gap.
fn of_window(before: &[Running], after: &[Running]) -> Vec<Outage> {
    let mut valid: Vec<&Running> = before.iter().rev().filter(|hour| hour.is_valid()).collect();
    let is_before = !valid.is_empty();
    if !is_before {
        valid = after.iter().filter(|hour| hour.is_valid()).collect();
    }
    let window = &valid[..valid.len().min(WINDOW)];
    let mut found = Vec::new();
    if is_largest(window, |hour| hour.readings.0) || is_largest(window, |hour| hour.readings.1) {
        found.push(if is_before { Outage::LargestBefore } else { Outage::LargestAfter });
    }
    let Some(past) = valid.get(WINDOW) else { return found };
    if window.iter().any(|hour| hour.is_surveyed()) {
        found.push(if is_before { Outage::In720Before } else { Outage::In720After });
    }
    if window[WINDOW - 1].is_surveyed() {
        found.push(Outage::LastOf720);
    }
    if past.is_surveyed() {
        found.push(Outage::Past720);
    }
    found
}

/// Whether the largest reading is a surveyed hour's alone.
fn is_largest(window: &[&Running], reading: fn(&Running) -> f32) -> bool {
    let largest = |surveyed: bool| {
        let hours = window.iter().filter(|hour| hour.is_surveyed() == surveyed);
        hours.map(|hour| reading(hour)).fold(-1.0, f32::max)
    };
    largest(true) > largest(false)
}

#[cfg(test)]
mod tests {
    use super::{Outage, Share, Side, outages};
    use crate::running::{Office, running_hours};
    use crate::wire::{Day, Head, Line, Survey};

    /// What surveys do to an automatic line whose first `running` hours ran, those of `missing` without data.
    fn found(running: usize, missing: impl Iterator<Item = usize>, surveyed: &[u16]) -> Vec<Outage> {
        let count = running.div_ceil(24) as u8;
        let mut days: Vec<Day> = (0..count).map(Day::stopped).collect();
        (0..running).for_each(|hour| days[hour / 24].measure(hour % 24, 1.0, 1.0));
        missing.for_each(|hour| days[hour / 24].miss(hour % 24));
        let enforcement = surveyed.iter().map(|&hour| Survey { hour, concentration: 1.0, flow: 2.0 }).collect();
        let head =
            Head { stack: 1, pollutant: 2, required: 1, furnace: 1, coal: 4, megawatts: 300, mark: 1, days: count };
        let line = Line { head, days, enforcement, plant: Vec::new(), batches: Vec::new() };
        outages(&line, &running_hours(&line), 1, false).into_iter().collect()
    }

    #[test]
    fn finds_the_share_and_the_first_missing_hour() {
        let share = |share| Outage::Share { share, required: true };
        assert_eq!(found(8, 0..3, &[0]), [share(Share::Exactly), Outage::FirstOfDay, Outage::Mean(Side::Before)]);
        assert_eq!(
            found(9, 0..3, &[1]),
            [share(Share::JustUnder), Outage::Mean(Side::Before), Outage::Mean(Side::Only)]
        );
        assert_eq!(found(7, 0..3, &[2]), [share(Share::JustOver), Outage::Mean(Side::Only)]);
        assert_eq!(found(4, 0..4, &[0, 1, 2, 3]), [Outage::All { required: true }, Outage::SurveysAlone]);
        assert_eq!(found(96, [3, 30].into_iter(), &[3]), [Outage::FirstOfLaterDay]);
        assert_eq!(found(96, [3, 30].into_iter(), &[4]), []);
    }

    #[test]
    fn finds_gaps_and_windows() {
        assert_eq!(
            found(120, 40..65, &[50]),
            [Outage::PartedShort, Outage::Mean(Side::Before), Outage::Mean(Side::After)]
        );
        assert_eq!(found(120, 40..67, &[41]), [Outage::PartedLong, Outage::Mean(Side::After), Outage::LargestBefore]);
        let before = |hour: u16| found(816, (740..765).chain([hour.into()]), &[hour]);
        let first = Outage::FirstOfLaterDay;
        assert_eq!(before(20), [first, Outage::LargestBefore, Outage::In720Before, Outage::LastOf720]);
        assert_eq!(before(19), [first, Outage::Past720]);
        let after = |hour: u16| found(816, (0..25).chain([hour.into()]), &[hour]);
        assert_eq!(after(744), [Outage::LargestAfter, Outage::In720After, Outage::LastOf720]);
        assert_eq!(after(745), [Outage::Past720]);
    }

    #[test]
    fn names_each_once() {
        let all = Outage::all();
        assert_eq!(all.iter().collect::<std::collections::BTreeSet<_>>().len(), all.len());
        assert!(all.contains(&Outage::Cells(Office::Both, 4)));
    }
}
