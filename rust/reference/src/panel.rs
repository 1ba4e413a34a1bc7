//! The panel: a running total of c x l with its hours and missing hours.

use crate::hours::{HOURS, Values};
use crate::refusal::Refusal;

const TWO_TO_53: f64 = 9_007_199_254_740_992.0;

/// What an hour of a stack is.
#[derive(Clone, Copy, Debug, PartialEq)]
pub enum Hour {
    Measured(f32, f32),
    Missing,
    Stopped,
}

#[derive(Clone, Copy, Debug, Default)]
pub struct Panel {
    pub total: f64,
    pub hours: u32,
    pub missing: u32,
}

impl Panel {
    fn lawful(&self) -> bool {
        let whole = self.total.is_sign_positive() && self.total <= TWO_TO_53 && self.total.fract() == 0.0;
        whole && self.hours as usize <= HOURS && self.missing <= self.hours
    }

    /// Takes one hour in; answers 0, or the refusal number with the state unchanged.
    pub fn hour(&mut self, hour: Hour) -> u32 {
        match self.after(hour) {
            Ok(next) => {
                *self = next;
                0
            }
            Err(refusal) => refusal.number(),
        }
    }

    fn after(&self, hour: Hour) -> Result<Panel, Refusal> {
        if !self.lawful() {
            return Err(Refusal::Unlawful);
        }
        if self.hours as usize == HOURS {
            return Err(Refusal::PanelFull);
        }
        let next = Panel { hours: self.hours + 1, ..*self };
        match hour {
            Hour::Stopped => Ok(next),
            Hour::Missing => Ok(Panel { missing: self.missing + 1, ..next }),
            Hour::Measured(concentration, flow) => {
                let values = Values::rounded(concentration, flow).map_err(|_| Refusal::Reading)?;
                // A lawful total is a whole number that u64 holds, so that the limit is judged without rounding.
                let total = self.total as u64 + values.product();
                let within = total <= TWO_TO_53 as u64;
                within.then_some(Panel { total: total as f64, ..next }).ok_or(Refusal::TotalTooLarge)
            }
        }
    }
}
