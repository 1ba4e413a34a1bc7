//! Request A3: what files with outfalls reach.

use std::collections::BTreeSet;

use crate::damage_water::name;
use crate::outcome::Outcome;
use crate::running::{Kind, Office, Running};
use crate::setting::{Setting, World};
use crate::wire::{AnyLine, WaterLine};

/// Refusals that a line of water can get, and what a file with one is answered otherwise.
const NUMBERS: [u64; 11] = [0, 1, 2, 4, 5, 8, 9, 14, 15, 17, 18];
/// Kinds of water, and those that are not known.
const FORMS: [u8; 7] = [7, 8, 9, 10, 11, 12, 13];
const OFFICES: [Office; 3] = [Office::Enforcement, Office::Plant, Office::Both];

/// How long a period is.
#[derive(Clone, Copy, Debug, PartialEq, Eq, PartialOrd, Ord)]
pub enum Length {
    OneDay,
    Between,
    MostDays,
}

#[derive(Clone, Copy, Debug, PartialEq, Eq, PartialOrd, Ord)]
pub enum Water {
    /// The answer for a file with an outfall, or a refusal in an outfall's line.
    Number(u64),
    /// 1 for a record of this kind: cut, of another length, or unknown.
    Form(u8),
    /// 5 by office.
    Stopped(Office),
    /// 4 for a survey on a stopped day, which comes before 5.
    BadOnStopped(Office),
    /// 18, with no day measured or with some.
    NoMethod { all_missing: bool },
    /// A line of this pollutant and method.
    Pollutant(u8, u64),
    /// A line of this length and method.
    Days(Length, u64),
    /// No day runs: automatic.
    NoRunning,
    /// A line of this method, with surveys or without, with stopped days or without.
    Line { method: u64, surveyed: bool, stopped: bool },
    /// A survey on a measured day, by office and method of the line, whose cells are seen: it is the last.
    Replaced(Office, u64),
    /// The same on a missing day.
    Outage(Office, u64),
    /// No day was measured, and all that run are surveyed: automatic.
    SurveysAlone,
    /// Surveys on measured days alone, so that all missing days stay so.
    OnMeasuredAlone,
    /// The first missing day that is left: day 0, or a later one, behind a surveyed one or not.
    FirstMissing { later: bool, moved: bool },
    /// Grams that end in a half, by method.
    Half(u64),
    /// 120 surveys.
    MostSurveys,
    /// One surveyed day, or several, under method 2.
    Several(bool),
    /// The last line, behind a longer one of this world, whose cells are to go.
    Behind(World),
    /// Behind a line of this world with the same number.
    SameNumber(World),
    /// A stack behind an outfall.
    StackBehind,
    /// 48 lines.
    MostLines,
}

impl Water {
    /// All that a run has to reach.
    pub fn all() -> Vec<Water> {
        let mut all: Vec<Water> = NUMBERS.map(Water::Number).into();
        all.extend(FORMS.map(Water::Form));
        for office in [Office::Enforcement, Office::Plant] {
            all.extend([Water::Stopped(office), Water::BadOnStopped(office)]);
        }
        for method in [1, 2] {
            all.extend([Length::OneDay, Length::Between, Length::MostDays].map(|length| Water::Days(length, method)));
            all.extend(OFFICES.map(|office| Water::Replaced(office, method)));
            all.extend(OFFICES.map(|office| Water::Outage(office, method)));
            all.extend([Water::Half(method), Water::Pollutant(4, method), Water::Pollutant(5, method)]);
        }
        // With one day under method 2 it is missing and surveyed, and so it is not missing.
        all.retain(|case| *case != Water::Days(Length::OneDay, 2));
        for one in [false, true] {
            all.extend([false, true].map(|surveyed| Water::Line { method: 1, surveyed, stopped: one }));
            all.push(Water::Line { method: 2, surveyed: true, stopped: one });
            all.extend([Water::NoMethod { all_missing: one }, Water::Several(one)]);
        }
        for (later, moved) in [(false, false), (true, false), (true, true)] {
            all.push(Water::FirstMissing { later, moved });
        }
        for world in [World::Stack, World::Outfall] {
            all.extend([Water::Behind(world), Water::SameNumber(world)]);
        }
        all.extend([Water::NoRunning, Water::SurveysAlone, Water::OnMeasuredAlone, Water::MostSurveys]);
        all.extend([Water::StackBehind, Water::MostLines]);
        all
    }
}

/// What a refusal reaches, if it stands in an outfall's line.
pub fn refused(number: u64, setting: &Setting) -> BTreeSet<Water> {
    let kind = setting.kind();
    let mut found = BTreeSet::new();
    if number == 1 && FORMS.contains(&kind) {
        found.insert(Water::Form(kind));
    }
    if setting.world() == World::Stack {
        return found;
    }
    found.insert(Water::Number(number));
    match (number, kind) {
        (4 | 5, 11 | 12) => found.extend(on_stopped(number, setting)),
        (18, _) => {
            found.insert(Water::NoMethod { all_missing: !setting.states.contains(&2) });
        }
        _ => {}
    }
    found
}

/// A survey on a stopped day.
fn on_stopped(number: u64, setting: &Setting) -> Option<Water> {
    let office = if setting.kind() == 11 { Office::Enforcement } else { Office::Plant };
    let day = u16::from_le_bytes([*setting.record.get(4)?, *setting.record.get(5)?]);
    let stopped = setting.states.get(usize::from(day)) == Some(&0);
    let found = if number == 4 { Water::BadOnStopped(office) } else { Water::Stopped(office) };
    stopped.then_some(found)
}

/// What an answer reaches that names no record, for a file with an outfall.
pub fn answered(number: u64, lines: &[AnyLine]) -> BTreeSet<Water> {
    let mut found = BTreeSet::new();
    if !lines.iter().any(|line| matches!(line, AnyLine::Outfall(_))) {
        return found;
    }
    found.insert(Water::Number(number));
    if number == 0 && lines.len() == 48 {
        found.insert(Water::MostLines);
    }
    if number == 0 {
        found.extend(lines.windows(2).filter_map(|pair| in_order(&pair[0], &pair[1])));
        found.extend(behind(lines));
    }
    found
}

/// How two lines follow each other.
fn in_order(one: &AnyLine, next: &AnyLine) -> Option<Water> {
    match (one, next) {
        (AnyLine::Outfall(_), AnyLine::Stack(_)) => Some(Water::StackBehind),
        (_, AnyLine::Outfall(_)) if name(one).0 == name(next).0 => Some(Water::SameNumber(world(one))),
        _ => None,
    }
}

fn world(line: &AnyLine) -> World {
    match line {
        AnyLine::Stack(_) => World::Stack,
        AnyLine::Outfall(_) => World::Outfall,
    }
}

/// The work cells of a line.
fn cells(line: &AnyLine) -> usize {
    match line {
        AnyLine::Stack(line) => 24 * line.days.len(),
        AnyLine::Outfall(line) => line.days.len(),
    }
}

/// Whether the last line is shorter than the one before it.
fn behind(lines: &[AnyLine]) -> Option<Water> {
    let [.., before, last @ AnyLine::Outfall(_)] = lines else { return None };
    (cells(before) > cells(last)).then(|| Water::Behind(world(before)))
}

/// What an accepted line of water is, by its row; the cells are seen of the last line alone.
pub fn line_cases(line: &WaterLine, days: &[Running], method: u64, cells: Option<&Outcome>) -> BTreeSet<Water> {
    let surveyed = days.iter().filter(|day| day.office.is_some()).count();
    let length = match line.days.len() {
        1 => Length::OneDay,
        92 => Length::MostDays,
        _ => Length::Between,
    };
    let stopped = days.len() < line.days.len();
    let mut found = BTreeSet::from([
        Water::Pollutant(line.head.pollutant, method),
        Water::Days(length, method),
        Water::Line { method, surveyed: surveyed > 0, stopped },
    ]);
    found.extend(days.is_empty().then_some(Water::NoRunning));
    found.extend((line.enforcement.len() + line.plant.len() == 120).then_some(Water::MostSurveys));
    found.extend((method == 2).then_some(Water::Several(surveyed > 1)));
    found.extend(of_missing(days));
    if let Some(outcome) = cells {
        found.extend(days.iter().filter_map(|day| seen(day, method)));
        found.extend(half(days, method, outcome));
    }
    found
}

/// A surveyed day whose cells are seen.
fn seen(day: &Running, method: u64) -> Option<Water> {
    let replaced = day.kind == Kind::Measured;
    day.office.map(|office| if replaced { Water::Replaced(office, method) } else { Water::Outage(office, method) })
}

fn of_missing(days: &[Running]) -> Vec<Water> {
    let dark = |day: &&Running| day.kind != Kind::Measured;
    let mut found = Vec::new();
    let left = days.iter().find(|day| !day.is_valid());
    if !days.is_empty() && left.is_none() && days.iter().all(|day| dark(&day)) {
        found.push(Water::SurveysAlone);
    }
    if let (Some(first), Some(left)) = (days.iter().find(dark), left) {
        found.push(Water::FirstMissing { later: left.hour > 0, moved: first.hour < left.hour });
        let surveyed = days.iter().any(|day| day.office.is_some());
        found.extend((surveyed && !days.iter().any(Running::is_surveyed)).then_some(Water::OnMeasuredAlone));
    }
    found
}

/// Whether the line's sum, which its cells show, is halfway between two numbers of grams.
fn half(days: &[Running], method: u64, outcome: &Outcome) -> Option<Water> {
    let product = |day: &Running| u64::from(outcome.concentration[day.hour]) * u64::from(outcome.flow[day.hour]);
    let surveyed: Vec<&Running> = days.iter().filter(|day| day.office.is_some()).collect();
    let (sum, gram): (u64, u64) = match method {
        1 => (days.iter().map(product).sum(), 100),
        _ => {
            let sum: u64 = surveyed.iter().map(|day| product(day)).sum();
            (sum * days.len() as u64, 100 * surveyed.len() as u64)
        }
    };
    (sum % gram == gram / 2).then_some(Water::Half(method))
}

#[cfg(test)]
mod tests {
    use super::{Length, Water, answered, line_cases, refused};
    use crate::outcome::Outcome;
    use crate::running::{Office, running_days};
    use crate::setting::{Setting, World};
    use crate::wire::{self, AnyLine, Survey, WaterDay, WaterHead, WaterLine};

    /// A line of these states, with surveys by the plant.
    fn line(states: &[u8], surveyed: &[u16]) -> WaterLine {
        let head = WaterHead { outfall: 1, pollutant: 4, days: states.len() as u8 };
        let days = (0..).zip(states).map(|(day, &state)| WaterDay { day, state, pair: (0.0, 0.0) }).collect();
        let survey = |&hour: &u16| Survey { hour, concentration: 1.0, flow: 1.0 };
        WaterLine { head, days, enforcement: Vec::new(), plant: surveyed.iter().map(survey).collect() }
    }

    /// The cases of a last line, for which each day's c x l is `product`.
    fn found(line: &WaterLine, method: u64, product: u32) -> Vec<Water> {
        let (concentration, flow) = (vec![product; 92], vec![1; 92]);
        let outcome = Outcome { answer: [0; 8], rows: Vec::new(), concentration, flow };
        line_cases(line, &running_days(line), method, Some(&outcome)).into_iter().collect()
    }

    #[test]
    fn finds_what_a_line_is() {
        let of = |surveyed, stopped| Water::Line { method: 1, surveyed, stopped };
        let (demand, short) = (Water::Pollutant(4, 1), Water::Days(Length::Between, 1));
        assert_eq!(found(&line(&[0, 2, 2], &[]), 1, 25), [demand, short, of(false, true), Water::Half(1)]);
        let nothing = [demand, Water::Days(Length::OneDay, 1), Water::NoRunning, of(false, true)];
        assert_eq!(found(&line(&[0], &[]), 1, 50), nothing);
        let outage = Water::Outage(Office::Plant, 1);
        assert_eq!(
            found(&line(&[1, 1], &[0, 1]), 1, 50),
            [demand, short, of(true, false), outage, Water::SurveysAlone]
        );
        let of_method = Water::Line { method: 2, surveyed: true, stopped: false };
        let manual = [Water::Pollutant(4, 2), Water::Days(Length::Between, 2), of_method];
        let first = |later, moved| Water::FirstMissing { later, moved };
        // 50 times three over 100 ends in a half, and 100 times three over 200 too.
        let (replaced, outage) = (Water::Replaced(Office::Plant, 2), Water::Outage(Office::Plant, 2));
        let rest = [replaced, Water::OnMeasuredAlone, first(false, false), Water::Half(2), Water::Several(false)];
        assert_eq!(found(&line(&[1, 2, 2], &[1]), 2, 50), [&manual[..], &rest].concat());
        let rest = [outage, first(true, true), Water::Half(2), Water::Several(true)];
        assert_eq!(found(&line(&[1, 1, 1], &[0, 1]), 2, 50), [&manual[..], &rest].concat());
    }

    #[test]
    fn finds_how_lines_follow() {
        let outfall = |number, days: usize| {
            let line = line(&vec![2; days], &[]);
            AnyLine::Outfall(WaterLine { head: WaterHead { outfall: number, ..line.head }, ..line })
        };
        let of = |number, lines: &[AnyLine]| -> Vec<Water> { answered(number, lines).into_iter().collect() };
        let same = [Water::Number(0), Water::Behind(World::Outfall), Water::SameNumber(World::Outfall)];
        assert_eq!(of(0, &[outfall(1, 2), outfall(1, 1)]), same);
        assert_eq!(of(0, &[outfall(1, 1), outfall(2, 1)]), [Water::Number(0)]);
        assert_eq!(of(8, &[outfall(1, 2), outfall(1, 1)]), [Water::Number(8)]);
        assert_eq!(of(0, &[]), []);
    }

    #[test]
    fn finds_where_a_refusal_stands() {
        let file = wire::file(&[line(&[1, 0], &[1])]);
        let of = |number, place| -> Vec<Water> { refused(number, &Setting::at(place, &file)).into_iter().collect() };
        let survey = 8 + 28;
        assert_eq!(of(5, survey), [Water::Number(5), Water::Stopped(Office::Plant)]);
        assert_eq!(of(4, survey + 6), [Water::Number(4), Water::BadOnStopped(Office::Plant)]);
        assert_eq!(of(18, survey + 14), [Water::Number(18), Water::NoMethod { all_missing: true }]);
        assert_eq!(of(1, 8), [Water::Number(1), Water::Form(10)]);
        assert_eq!(of(2, file.len()), []);
    }

    #[test]
    fn names_each_once() {
        let all = Water::all();
        assert_eq!(all.iter().collect::<std::collections::BTreeSet<_>>().len(), all.len());
    }
}
