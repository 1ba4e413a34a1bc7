//! What a run of the tests has reached, so that a test can fail for having looked away.

use std::collections::BTreeMap;

use crate::case::Case;
use crate::field::{Field, Named, Spot, wrong_in_record};
use crate::outage::{Outage, outages};
use crate::outcome::Outcome;
use crate::running::{Running, running_days, running_hours};
use crate::setting::{Misplaced, Setting};
use crate::water::{self, Water};
use crate::wire::{AnyLine, Line, WaterLine};

/// How a gap is filled.
#[derive(Clone, Copy, Debug, PartialEq, Eq)]
pub enum Fill {
    MeanOfBoth,
    OnlyBefore,
    OnlyAfter,
    LargestOfAllBefore,
    LargestOf720Before,
    LargestOfAllAfter,
    LargestOf720After,
    /// Of the 720 before a long gap that has another one before it: what one looked through, the other may know.
    LargestOf720Again,
}

impl Fill {
    pub const ALL: [Fill; 8] = [
        Fill::MeanOfBoth,
        Fill::OnlyBefore,
        Fill::OnlyAfter,
        Fill::LargestOfAllBefore,
        Fill::LargestOf720Before,
        Fill::LargestOfAllAfter,
        Fill::LargestOf720After,
        Fill::LargestOf720Again,
    ];

    /// Of a gap of `length` hours; `again` where a long one stands before it.
    fn of_gap(length: usize, before: usize, after: usize, again: bool) -> Self {
        match (length <= 24, before, after) {
            (true, 0, _) => Fill::OnlyAfter,
            (true, _, 0) => Fill::OnlyBefore,
            (true, _, _) => Fill::MeanOfBoth,
            (false, 0, 721..) => Fill::LargestOf720After,
            (false, 0, _) => Fill::LargestOfAllAfter,
            (false, 721.., _) if again => Fill::LargestOf720Again,
            (false, 721.., _) => Fill::LargestOf720Before,
            (false, _, _) => Fill::LargestOfAllBefore,
        }
    }
}

/// The fills of an automatic line.
fn fills(hours: &[Running]) -> Vec<Fill> {
    let valid = hours.iter().filter(|hour| hour.is_valid()).count();
    let mut before = 0;
    let mut again = false;
    let mut fills = Vec::new();
    for run in hours.chunk_by(|one, next| one.is_valid() == next.is_valid()) {
        if run[0].is_valid() {
            before += run.len();
        } else {
            fills.push(Fill::of_gap(run.len(), before, valid - before, again));
            again |= run.len() > 24;
        }
    }
    fills
}

/// The numbers that an account can be answered with; 3 is not given.
const NUMBERS: [usize; 14] = [0, 1, 2, 4, 5, 6, 7, 8, 9, 14, 15, 16, 17, 18];

/// Counts by number, method, kind of fill, what surveys in missing hours do, what outfalls bring, and named field.
#[derive(Debug, Default)]
pub struct Census {
    pub inputs: u64,
    pub bytes: u64,
    pub numbers: [u64; 19],
    pub methods: [u64; 5],
    pub fills: [u64; 8],
    pub outages: BTreeMap<Outage, u64>,
    pub water: BTreeMap<Water, u64>,
    /// What 2 is given for.
    pub places: BTreeMap<Misplaced, u64>,
    pub fields: BTreeMap<(Field, Spot), u64>,
    /// Two wrong fields of one record, of which the first is named.
    pub pairs: BTreeMap<(Field, Field), u64>,
    /// Wrong fields of a record that is refused with 2, which comes before them.
    pub misplaced: BTreeMap<Field, u64>,
}

impl Census {
    /// Adds what another part of a run has reached.
    pub fn add(&mut self, other: &Census) {
        self.inputs += other.inputs;
        self.bytes += other.bytes;
        add_each(&mut self.numbers, &other.numbers);
        add_each(&mut self.methods, &other.methods);
        add_each(&mut self.fills, &other.fills);
        add_entries(&mut self.outages, &other.outages);
        add_entries(&mut self.water, &other.water);
        add_entries(&mut self.places, &other.places);
        add_entries(&mut self.fields, &other.fields);
        add_entries(&mut self.pairs, &other.pairs);
        add_entries(&mut self.misplaced, &other.misplaced);
    }

    /// Counts what a case has reached; fails where its outcome does not fit it.
    pub fn count(&mut self, case: &Case, outcome: &Outcome) -> Result<(), String> {
        let number = outcome.number();
        self.inputs += 1;
        self.bytes += case.file.len() as u64;
        self.numbers[number as usize] += 1;
        for row in outcome.stated() {
            self.methods[row[2] as usize] += 1;
        }
        if ![0, 8, 9].contains(&number) {
            let setting = Setting::at(outcome.place() as usize, &case.file);
            count_all(&mut self.water, water::refused(number, &setting));
            count_all(&mut self.places, (number == 2).then(|| setting.misplaced()));
        }
        match &case.lines {
            Some(_) if ![0, 8, 9].contains(&number) => Err(format!("a file was made sound and is refused: {number}")),
            Some(lines) => {
                count_all(&mut self.water, water::answered(number, lines));
                if number == 0 { self.count_lines(lines, outcome) } else { Ok(()) }
            }
            None if [4, 14, 15, 16, 17].contains(&number) => self.count_field(case, outcome),
            None if number == 2 => {
                count_all(&mut self.misplaced, wrong_in_record(outcome.place() as usize, &case.file));
                Ok(())
            }
            None => Ok(()),
        }
    }

    fn count_lines(&mut self, lines: &[AnyLine], outcome: &Outcome) -> Result<(), String> {
        for (number, (line, row)) in lines.iter().zip(outcome.stated()).enumerate() {
            let last = number + 1 == lines.len();
            let counted = match line {
                AnyLine::Stack(line) => self.count_stack(line, row, last),
                AnyLine::Outfall(line) => self.count_outfall(line, row, last.then_some(outcome)),
            };
            counted.map_err(|why| format!("line {number} {why}"))?;
        }
        Ok(())
    }

    fn count_stack(&mut self, line: &Line, row: &[u64], last: bool) -> Result<(), String> {
        let hours = running_hours(line);
        fits(row, &hours)?;
        if row[2] == 1 {
            fills(&hours).into_iter().for_each(|fill| self.fills[fill as usize] += 1);
        }
        count_all(&mut self.outages, outages(line, &hours, row[2], last));
        Ok(())
    }

    fn count_outfall(&mut self, line: &WaterLine, row: &[u64], cells: Option<&Outcome>) -> Result<(), String> {
        let days = running_days(line);
        fits(row, &days)?;
        count_all(&mut self.water, water::line_cases(line, &days, row[2], cells));
        Ok(())
    }

    fn count_field(&mut self, case: &Case, outcome: &Outcome) -> Result<(), String> {
        let (number, place) = (outcome.number(), outcome.place());
        let named = Named::by(number, place as usize, &case.file);
        let named = named.ok_or_else(|| format!("refused {number} {place} names no first wrong field"))?;
        *self.fields.entry((named.field, named.spot)).or_default() += 1;
        count_all(&mut self.pairs, named.behind.into_iter().map(|field| (named.field, field)));
        Ok(())
    }

    /// All that a run has to reach, pairs of fields apart, in words and with how often it did.
    pub fn reached(&self) -> Vec<(String, u64)> {
        let numbers = NUMBERS.map(|number| (format!("number {number}"), self.numbers[number]));
        let methods = (1..=4).map(|method| (format!("method {method}"), self.methods[method]));
        let fills = Fill::ALL.map(|fill| (format!("fill {fill:?}"), self.fills[fill as usize]));
        let outages = Outage::all().into_iter().map(|outage| {
            let count = self.outages.get(&outage).copied().unwrap_or(0);
            (format!("outage {outage:?}"), count)
        });
        let water = Water::all().into_iter().map(|case| {
            let count = self.water.get(&case).copied().unwrap_or(0);
            (format!("water {case:?}"), count)
        });
        let places = Misplaced::all().into_iter().map(|place| {
            let count = self.places.get(&place).copied().unwrap_or(0);
            (format!("number 2 for {place:?}"), count)
        });
        let spots = Field::ALL.into_iter().flat_map(|field| field.spots().iter().map(move |&spot| (field, spot)));
        let fields = spots.map(|(field, spot)| {
            let count = self.fields.get(&(field, spot)).copied().unwrap_or(0);
            (format!("number {} for {field:?}, {spot:?}", field.number()), count)
        });
        let misplaced = Field::ALL.into_iter().filter(|field| field.shows_alone()).map(|field| {
            let count = self.misplaced.get(&field).copied().unwrap_or(0);
            (format!("number 2 before {field:?}"), count)
        });
        let of_lines = numbers.into_iter().chain(methods).chain(fills).chain(outages).chain(water);
        of_lines.chain(places).chain(fields).chain(misplaced).collect()
    }

    /// All pairs of wrong fields in one record that a run has to reach, and how often it did.
    pub fn reached_pairs(&self) -> Vec<(String, u64)> {
        let count = |pair| self.pairs.get(&pair).copied().unwrap_or(0);
        Field::pairs().map(|pair| (format!("{:?} before {:?}", pair.0, pair.1), count(pair))).collect()
    }
}

/// Whether a row's running and missing counts are those of the line.
fn fits(row: &[u64], running: &[Running]) -> Result<(), String> {
    let missing = running.iter().filter(|hour| !hour.is_valid()).count();
    let counts = [running.len() as u64, missing as u64];
    if row[4..6] == counts {
        Ok(())
    } else {
        Err(format!("runs and misses {counts:?}, and its row says {:?}", &row[4..6]))
    }
}

fn count_all<K: Ord>(counts: &mut BTreeMap<K, u64>, keys: impl IntoIterator<Item = K>) {
    keys.into_iter().for_each(|key| *counts.entry(key).or_default() += 1);
}

fn add_entries<K: Copy + Ord>(counts: &mut BTreeMap<K, u64>, others: &BTreeMap<K, u64>) {
    for (&key, other) in others {
        *counts.entry(key).or_default() += other;
    }
}

fn add_each(counts: &mut [u64], others: &[u64]) {
    for (count, other) in counts.iter_mut().zip(others) {
        *count += other;
    }
}
