//! The panel's hour: its frame, its answer, and what the reference answers.

use std::io::{self, Read};

use inputs::Step;

use crate::feed::{Call, feed, read_array, write_header};
use crate::header::unknown_kind;
use crate::program::Program;

/// The number that was answered and the state that was handed back.
#[derive(Clone, Copy, Debug, PartialEq, Eq)]
pub struct Stepped {
    pub number: u32,
    /// The bits of the total; all NaNs are one.
    pub total: u64,
    pub hours: u32,
    pub missing: u32,
}

/// A total by its bits: the language of the proved code has one NaN.
fn bits(total: f64) -> u64 {
    if total.is_nan() { f64::NAN.to_bits() } else { total.to_bits() }
}

impl Call for Step {
    type Answer = Stepped;

    fn write(&self, frame: &mut Vec<u8>) {
        let [concentration, flow] = [self.concentration, self.flow].map(f32::to_bits);
        write_header(frame, [2, self.hours, self.missing, self.kind, concentration, flow]);
        frame.extend(self.total.to_le_bytes());
    }

    fn read(&self, output: &mut impl Read) -> io::Result<Stepped> {
        let number = u32::from_le_bytes(read_array(output)?);
        let total = bits(f64::from_le_bytes(read_array(output)?));
        let hours = u32::from_le_bytes(read_array(output)?);
        let missing = u32::from_le_bytes(read_array(output)?);
        Ok(Stepped { number, total, hours, missing })
    }
}

/// What the reference answers; a kind that does not exist is refused before the state is looked at.
pub fn stepped(step: &Step) -> Stepped {
    let mut panel = reference::Panel { total: step.total, hours: step.hours, missing: step.missing };
    let number = match step.kind {
        0 => panel.hour(reference::Hour::Stopped),
        1 => panel.hour(reference::Hour::Missing),
        2 => panel.hour(reference::Hour::Measured(step.concentration, step.flow)),
        _ => unknown_kind(),
    };
    Stepped { number, total: bits(panel.total), hours: panel.hours, missing: panel.missing }
}

/// Holds every step against the reference; gives how often each number was answered.
pub fn compare_steps(program: &Program, steps: impl Iterator<Item = Step> + Send) -> Result<[u64; 18], String> {
    let mut numbers = [0; 18];
    feed(program, steps, |step, answer| {
        let expected = stepped(&step);
        if answer != expected {
            return Err(format!("the answer is {answer:?}, and was to be {expected:?}, for {step:?}"));
        }
        numbers[answer.number as usize] += 1;
        Ok(())
    })?;
    Ok(numbers)
}
