//! The surveys of a line: of a stack by hour, of an outfall by day.

use crate::hours::Values;
use crate::record::{Office, Survey, offset};
use crate::refusal::{Fault, Refusal};

const MOST_SURVEYS: usize = 120;

/// The surveys so far; kept from line to line for its room.
#[derive(Default)]
pub(crate) struct Surveys {
    /// Surveyed hours or days, enforcement first, each office's rising.
    times: Vec<(Office, u16)>,
    /// The survey that counts at each surveyed hour or day.
    governing: Vec<Values>,
}

impl Surveys {
    pub fn clear(&mut self) {
        self.times.clear();
        self.governing.clear();
    }

    /// Whether the next survey rises and is not one too many.
    pub fn in_place(&self, next: &Survey) -> bool {
        let rises = self.times.last().is_none_or(|&last| last < (next.office, next.time));
        rises && self.times.len() < MOST_SURVEYS
    }

    /// Takes a survey that is in place, and says whether it counts at its time.
    pub fn add(&mut self, survey: &Survey, values: Values) -> bool {
        // Enforcement surveys come first, so that one of the same time is known by now.
        let governs = self.times.binary_search(&(Office::Enforcement, survey.time)).is_err();
        if governs {
            self.governing.push(values);
        }
        self.times.push((survey.office, survey.time));
        governs
    }

    /// The surveys that count, one for each surveyed hour or day.
    pub fn governing(&self) -> &[Values] {
        &self.governing
    }
}

impl Survey {
    /// Its readings rounded, or the first one at fault.
    pub fn values(&self) -> Result<Values, Fault> {
        let values = Values::rounded(self.concentration, self.flow);
        values.map_err(|reading| Refusal::Reading.at(offset::SURVEY_PAIR + reading))
    }
}
