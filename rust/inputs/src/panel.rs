//! Panel states and hours: lawful and unlawful, about 2^53 and about 2,208 hours.

use crate::reading;
use crate::rng::Rng;

const TWO_TO_53: f64 = 9_007_199_254_740_992.0;

/// A state of the panel and the hour that it is handed.
#[derive(Clone, Copy, Debug)]
pub struct Step {
    pub total: f64,
    pub hours: u32,
    pub missing: u32,
    pub kind: u32,
    pub concentration: f32,
    pub flow: f32,
}

impl Step {
    pub fn generate(rng: &mut Rng) -> Self {
        let hours = hours(rng);
        let missing = match rng.below(8) {
            0 => hours.wrapping_add(1),
            1 => hours,
            2 => rng.word() as u32,
            _ => rng.below(hours as usize + 1) as u32,
        };
        let (concentration, flow) = readings(rng);
        Step { total: total(rng), hours, missing, kind: kind(rng), concentration, flow }
    }
}

/// An hour's kind: mostly measured, at times one that does not exist.
pub fn kind(rng: &mut Rng) -> u32 {
    match rng.below(16) {
        0 => rng.word() as u32,
        1 => 3,
        2 | 3 => 0,
        4 | 5 => 1,
        _ => 2,
    }
}

fn hours(rng: &mut Rng) -> u32 {
    match rng.below(8) {
        0 => rng.pick(&[2_206, 2_207, 2_208, 2_209, 2_210]),
        1 => rng.pick(&[0, 1, u32::MAX]),
        _ => rng.below(2_208) as u32,
    }
}

fn readings(rng: &mut Rng) -> (f32, f32) {
    match rng.below(4) {
        0 => (reading::wild(rng), reading::flow(rng)),
        1 => (reading::concentration(rng), reading::wild(rng)),
        2 => (rng.below(9) as f32 / 100.0, rng.below(9) as f32),
        _ => (reading::concentration(rng), reading::flow(rng)),
    }
}

fn total(rng: &mut Rng) -> f64 {
    match rng.below(12) {
        0 => rng.pick(&[-0.0, 0.5, -1.0, f64::NAN, -f64::NAN, f64::INFINITY, f64::NEG_INFINITY, 5e-324, 1e300]),
        1 => f64::from_bits(rng.word()),
        2 => TWO_TO_53 + rng.pick(&[2.0, 4.0, 1e10]),
        3 => (rng.word() >> 12) as f64 + rng.pick(&[0.5, 0.25]),
        4..=6 => TWO_TO_53 - rng.below(64) as f64,
        7 | 8 => TWO_TO_53 - rng.below(5_000_000_000_001) as f64,
        _ => (rng.word() >> 11) as f64,
    }
}
