//! Fills: what the missing hours of an automatic line are given.

use std::ops::Range;

use crate::hours::{HOURS, Masks};

/// The longest gap that is filled by the mean of its neighbours.
const SHORT: usize = 24;
/// How many valid hours a longer gap looks at.
const WINDOW: usize = 720;

/// A longest run of missing hours once the stopped ones are struck out.
struct Gap {
    /// Its hours, as a range of [`Gaps::missing`].
    missing: Range<usize>,
    /// How many valid hours lie before it.
    before: usize,
}

/// The running hours of a line, sorted into valid ones and gaps.
pub(crate) struct Gaps {
    valid: Vec<usize>,
    missing: Vec<usize>,
    gaps: Vec<Gap>,
}

impl Gaps {
    pub fn find(days: &[Masks]) -> Self {
        let mut found = Gaps { valid: Vec::with_capacity(24 * days.len()), missing: Vec::new(), gaps: Vec::new() };
        for (day, masks) in days.iter().enumerate() {
            for (hour, measured) in masks.running() {
                if measured {
                    found.valid.push(24 * day + hour);
                } else {
                    found.add_missing(24 * day + hour);
                }
            }
        }
        found
    }

    /// A missing hour belongs to the last gap unless a valid hour came in between.
    fn add_missing(&mut self, hour: usize) {
        let before = self.valid.len();
        let place = self.missing.len();
        self.missing.push(hour);
        match self.gaps.last_mut() {
            Some(gap) if gap.before == before => gap.missing.end = place + 1,
            _ => self.gaps.push(Gap { missing: place..place + 1, before }),
        }
    }

    /// Fills one of the two tables; the values come from valid hours only, so that a fill never feeds another.
    pub fn fill(&self, table: &mut [u32; HOURS]) {
        for gap in &self.gaps {
            let value = self.value(gap, table);
            for &hour in &self.missing[gap.missing.clone()] {
                table[hour] = value;
            }
        }
    }

    fn value(&self, gap: &Gap, table: &[u32; HOURS]) -> u32 {
        let (before, after) = self.valid.split_at(gap.before);
        if gap.missing.len() <= SHORT {
            match (before.last(), after.first()) {
                (Some(&last), Some(&first)) => (table[last] + table[first]).div_ceil(2),
                (Some(&only), None) | (None, Some(&only)) => table[only],
                (None, None) => 0,
            }
        } else {
            let window = match before.len() {
                0 => &after[..after.len().min(WINDOW)],
                length => &before[length.saturating_sub(WINDOW)..],
            };
            window.iter().map(|&hour| table[hour]).max().unwrap_or(0)
        }
    }
}
