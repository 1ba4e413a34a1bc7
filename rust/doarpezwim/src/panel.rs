//! The panel: a running total that is exact up to 2^53.

use crate::{Refusal, ffi};

/// What an hour of a stack is.
#[derive(Clone, Copy, Debug, PartialEq)]
pub enum Hour {
    /// The monitor has both readings.
    Measured {
        /// In mg/m3.
        concentration: f32,
        /// Dry, in m3/h.
        flow: f32,
    },
    /// The stack ran, and there is no data.
    Missing,
    /// The stack did not run.
    Stopped,
}

/// The state of a panel; a new one is all zero.
///
/// ```
/// use doarpezwim::{Hour, Panel};
///
/// let mut panel = Panel::default();
/// panel.hour(Hour::Measured { concentration: 20.0, flow: 1_000_000.0 })?;
/// panel.hour(Hour::Missing)?;
/// assert_eq!((panel.total, panel.hours, panel.missing), (2e9, 2, 1));
/// # Ok::<(), doarpezwim::Refusal>(())
/// ```
#[derive(Clone, Copy, Debug, Default, PartialEq)]
pub struct Panel {
    /// Sum of concentration x flow over the measured hours, rounded to hundredths of mg/m3 and m3/h: units of 0.01 mg.
    pub total: f64,
    /// Hours taken in, at most 2,208.
    pub hours: u32,
    /// Those of them that were missing.
    pub missing: u32,
}

impl Panel {
    /// Takes one hour in.
    ///
    /// # Errors
    ///
    /// In this order: 12 the state is not lawful, 11 it holds 2,208 hours, 4 a reading is not allowed or over its
    /// limit, 10 the total would pass 2^53. The panel then stays as it was.
    pub fn hour(&mut self, hour: Hour) -> Result<(), Refusal> {
        let (kind, concentration, flow) = match hour {
            Hour::Stopped => (0, 0.0, 0.0),
            Hour::Missing => (1, 0.0, 0.0),
            Hour::Measured { concentration, flow } => (2, concentration, flow),
        };
        let Panel { total, hours, missing } = self;
        // SAFETY: the three pointers are borrows of three different fields.
        let number = unsafe { ffi::doarpezwim_panel_hour(total, hours, missing, kind, concentration, flow) };
        if number == 0 { Ok(()) } else { Err(Refusal::of_panel(number)) }
    }
}
