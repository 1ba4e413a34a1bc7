//! A row of an account: what one stack or outfall emitted of one pollutant.

use std::fmt;

use crate::ROW_CELLS;

/// What is emitted: 1 to 3 by a stack, 4 and 5 by an outfall.
#[derive(Clone, Copy, Debug, PartialEq, Eq, PartialOrd, Ord, Hash)]
pub enum Pollutant {
    /// 1
    SulphurDioxide = 1,
    /// 2
    NitrogenOxides = 2,
    /// 3
    Dust = 3,
    /// 4
    ChemicalOxygenDemand = 4,
    /// 5
    AmmoniaNitrogen = 5,
}

impl Pollutant {
    /// All of them, in the order of their numbers.
    pub const ALL: [Pollutant; 5] = [
        Pollutant::SulphurDioxide,
        Pollutant::NitrogenOxides,
        Pollutant::Dust,
        Pollutant::ChemicalOxygenDemand,
        Pollutant::AmmoniaNitrogen,
    ];

    /// The number that a record file and a row's cell have for it.
    #[must_use]
    pub fn number(self) -> u8 {
        self as u8
    }

    fn of_number(number: u64) -> Option<Self> {
        Pollutant::ALL.into_iter().find(|known| u64::from(known.number()) == number)
    }

    /// Whether it is one of an outfall's.
    fn is_of_water(self) -> bool {
        matches!(self, Pollutant::ChemicalOxygenDemand | Pollutant::AmmoniaNitrogen)
    }
}

impl fmt::Display for Pollutant {
    fn fmt(&self, text: &mut fmt::Formatter) -> fmt::Result {
        text.write_str(match self {
            Pollutant::SulphurDioxide => "sulphur dioxide",
            Pollutant::NitrogenOxides => "nitrogen oxides",
            Pollutant::Dust => "dust",
            Pollutant::ChemicalOxygenDemand => "chemical oxygen demand",
            Pollutant::AmmoniaNitrogen => "ammonia nitrogen",
        })
    }
}

/// What the grams were stated from.
#[derive(Clone, Copy, Debug, PartialEq, Eq, PartialOrd, Ord, Hash)]
pub enum Method {
    /// 1: the monitor's hours and the surveyed ones, gaps filled: at most a quarter of the running hours lack data. Of
    /// an outfall its days: none lacks data, and none is filled.
    Automatic = 1,
    /// 2: the surveys. An outfall has no method past this.
    Manual = 2,
    /// 3: the sulphur in the fuel.
    Balance = 3,
    /// 4: the fuel and a coefficient of the tables.
    Coefficient = 4,
}

impl Method {
    /// The number that a row's cell has for it.
    #[must_use]
    pub fn number(self) -> u8 {
        self as u8
    }

    fn of_number(number: u64) -> Option<Self> {
        [Method::Automatic, Method::Manual, Method::Balance, Method::Coefficient]
            .into_iter()
            .find(|known| u64::from(known.number()) == number)
    }
}

impl fmt::Display for Method {
    fn fmt(&self, text: &mut fmt::Formatter) -> fmt::Result {
        text.write_str(match self {
            Method::Automatic => "automatic",
            Method::Manual => "manual",
            Method::Balance => "mass balance",
            Method::Coefficient => "coefficient",
        })
    }
}

/// Where it is emitted, by number; a stack and an outfall may have the same.
#[derive(Clone, Copy, Debug, PartialEq, Eq, Hash)]
pub enum Source {
    /// Into the air, accounted by hours.
    Stack(u16),
    /// With discharge water, accounted by days.
    Outfall(u16),
}

impl Source {
    /// What its counts are of, in words.
    fn unit(self) -> &'static str {
        match self {
            Source::Stack(_) => "hour",
            Source::Outfall(_) => "day",
        }
    }
}

impl fmt::Display for Source {
    fn fmt(&self, text: &mut fmt::Formatter) -> fmt::Result {
        match self {
            Source::Stack(number) => write!(text, "stack {number}"),
            Source::Outfall(number) => write!(text, "outfall {number}"),
        }
    }
}

/// What one stack or outfall emitted of one pollutant; its counts are hours of a stack and days of an outfall.
#[derive(Clone, Copy, Debug, PartialEq, Eq, Hash)]
pub struct Row {
    /// The stack or the outfall.
    pub source: Source,
    /// What it emitted.
    pub pollutant: Pollutant,
    /// What the grams were stated from.
    pub method: Method,
    /// How much, over the whole period.
    pub grams: u64,
    /// Hours or days in which it ran.
    pub running: u32,
    /// Those of them without data: neither the monitor nor a survey has any.
    pub missing: u32,
    /// The first of these, counted from 0 through the period.
    pub first_missing: Option<u32>,
}

impl Row {
    /// A row by its cells; `None` if they are not those of a row.
    pub(crate) fn of_cells(cells: &[u64; ROW_CELLS]) -> Option<Self> {
        let &[number, pollutant, method, grams, running, missing, first_plus_1] = cells;
        let (number, pollutant) = (number.try_into().ok()?, Pollutant::of_number(pollutant)?);
        Some(Row {
            source: if pollutant.is_of_water() { Source::Outfall(number) } else { Source::Stack(number) },
            pollutant,
            method: Method::of_number(method)?,
            grams,
            running: running.try_into().ok()?,
            missing: missing.try_into().ok()?,
            first_missing: first_plus_1.checked_sub(1).map(u32::try_from).transpose().ok()?,
        })
    }

    /// The row as cells, in the order of its fields; the last is the first missing hour or day plus 1, or 0.
    #[must_use]
    pub fn cells(&self) -> [u64; ROW_CELLS] {
        let (Source::Stack(number) | Source::Outfall(number)) = self.source;
        let first_plus_1 = self.first_missing.map_or(0, |first| u64::from(first) + 1);
        let (pollutant, method) = (self.pollutant.number().into(), self.method.number().into());
        [number.into(), pollutant, method, self.grams, self.running.into(), self.missing.into(), first_plus_1]
    }
}

impl fmt::Display for Row {
    fn fmt(&self, text: &mut fmt::Formatter) -> fmt::Result {
        let unit = self.source.unit();
        write!(text, "{}, {}: {} g, {}; ", self.source, self.pollutant, self.grams, self.method)?;
        write!(text, "{} running {unit}s, {} missing", self.running, self.missing)?;
        match self.first_missing {
            Some(first) => write!(text, ", the first is {unit} {first}"),
            None => Ok(()),
        }
    }
}

#[cfg(test)]
mod tests {
    use super::{Method, Pollutant, Row, Source};

    #[test]
    fn reads_cells() {
        let row = Row::of_cells(&[1, 2, 1, 126_500, 4, 1, 3]).expect("cells of a row");
        assert_eq!((row.source, row.pollutant), (Source::Stack(1), Pollutant::NitrogenOxides));
        assert_eq!((row.method, row.grams), (Method::Automatic, 126_500));
        assert_eq!((row.running, row.missing, row.first_missing), (4, 1, Some(2)));
        let text = "stack 1, nitrogen oxides: 126500 g, automatic; 4 running hours, 1 missing, the first is hour 2";
        assert_eq!(row.to_string(), text);
        assert_eq!(row.cells(), [1, 2, 1, 126_500, 4, 1, 3]);
        let whole = Row::of_cells(&[65_535, 3, 4, 0, 0, 0, 0]).expect("cells of a row");
        assert_eq!(whole.cells(), [65_535, 3, 4, 0, 0, 0, 0]);
        assert_eq!((whole.source, whole.first_missing), (Source::Stack(65_535), None));
        for pollutant in Pollutant::ALL {
            let row = Row::of_cells(&[1, pollutant.number().into(), 1, 0, 0, 0, 0]).expect("cells of a row");
            assert_eq!(row.pollutant, pollutant);
            assert_eq!(row.source == Source::Outfall(1), pollutant.number() > 3);
        }
    }

    #[test]
    fn counts_days_of_an_outfall() {
        let row = Row::of_cells(&[7, 4, 2, 122_061, 2, 1, 2]).expect("cells of a row");
        assert_eq!((row.source, row.pollutant), (Source::Outfall(7), Pollutant::ChemicalOxygenDemand));
        let text = "outfall 7, chemical oxygen demand: 122061 g, manual; 2 running days, 1 missing, the first is day 1";
        assert_eq!(row.to_string(), text);
    }

    #[test]
    fn passes_over_what_is_no_row() {
        let no_rows = [[65_536, 1, 1, 0, 0, 0, 0], [1, 0, 1, 0, 0, 0, 0], [1, 6, 1, 0, 0, 0, 0], [1, 1, 5, 0, 0, 0, 0]];
        for cells in no_rows {
            assert_eq!(Row::of_cells(&cells), None, "{cells:?}");
        }
    }
}
