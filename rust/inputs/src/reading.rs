//! Readings: everyday ones, ones at the edges of rounding and of the limits, and ones that are not allowed.

use crate::rng::Rng;

/// The largest concentration that rounds to 1,000,000 hundredths.
const MOST_CONCENTRATION: f32 = 10_000.0 + 5.0 / 1024.0;
const MOST_FLOW: f32 = 5_000_000.0;

/// Readings that no limit and no rounding takes for granted.
const ODD: [u32; 20] = [
    0x7f80_0000, // infinity
    0xff80_0000, // minus infinity
    0x7fc0_0000, // quiet NaN
    0xffc0_0000, // quiet NaN with a sign
    0x7f80_0001, // signalling NaN
    0x8000_0001, // the smallest negative number
    0x8080_0000, // the smallest normal negative number
    0xbf80_0000, // -1
    0x8000_0000, // minus zero
    0x0000_0001, // the smallest number
    0x007f_ffff, // the largest subnormal
    0x0080_0000, // the smallest normal number
    0x461c_4005, // 10000 + 5/1024
    0x461c_4006, // 10000 + 6/1024
    0x4a98_9680, // 5,000,000
    0x4a98_9681, // 5,000,000.5
    0x4b00_0000, // 2^23
    0x4b80_0000, // 2^24
    0x5f80_0000, // 2^64
    0x7f7f_ffff, // the largest number
];

/// A concentration that is accepted.
pub fn concentration(rng: &mut Rng) -> f32 {
    match rng.below(16) {
        0 => tiny(rng),
        1 => near(rng.below(1_000_001) as f32 / 100.0 + 0.005, rng).min(MOST_CONCENTRATION),
        2 => (rng.below(80_001) as f32 / 8.0).min(MOST_CONCENTRATION),
        3 => MOST_CONCENTRATION - rng.below(12) as f32 / 1024.0,
        4 => anywhere(MOST_CONCENTRATION, rng),
        _ => rng.below(400_000) as f32 / 997.0,
    }
}

/// A flow that is accepted.
pub fn flow(rng: &mut Rng) -> f32 {
    match rng.below(16) {
        0 => tiny(rng),
        1 => near(rng.below(5_000_000) as f32 + 0.5, rng).min(MOST_FLOW),
        2 => rng.below(1 << 22) as f32 + 0.5,
        3 => MOST_FLOW - rng.below(12) as f32 / 2.0,
        4 => anywhere(MOST_FLOW, rng),
        _ => rng.below(30_000_000) as f32 / 11.0,
    }
}

/// A reading that may be refused: an odd one, one about a limit, or any 32 bits.
pub fn wild(rng: &mut Rng) -> f32 {
    match rng.below(4) {
        0 | 1 => f32::from_bits(rng.pick(&ODD)),
        2 => near(rng.pick(&[MOST_CONCENTRATION, MOST_FLOW]), rng),
        _ => f32::from_bits(rng.word() as u32),
    }
}

/// Whether a concentration is accepted; minus zero is.
pub fn allows_concentration(reading: f32) -> bool {
    (0.0..=MOST_CONCENTRATION).contains(&reading)
}

/// Whether a flow is accepted; minus zero is.
pub fn allows_flow(reading: f32) -> bool {
    (0.0..=MOST_FLOW).contains(&reading)
}

pub fn refused_concentration(rng: &mut Rng) -> f32 {
    refused(allows_concentration, rng)
}

pub fn refused_flow(rng: &mut Rng) -> f32 {
    refused(allows_flow, rng)
}

/// The first wild reading that is not accepted.
fn refused(allows: fn(f32) -> bool, rng: &mut Rng) -> f32 {
    loop {
        let reading = wild(rng);
        if !allows(reading) {
            return reading;
        }
    }
}

/// A reading whose bytes are not all zero.
pub fn nonzero(rng: &mut Rng) -> f32 {
    f32::from_bits(match rng.below(3) {
        0 => 1 << rng.below(32),
        1 => rng.pick(&ODD),
        _ => rng.word() as u32 | 1,
    })
}

/// Zeros of both signs, subnormals, and what rounds to 0 or just to 1.
fn tiny(rng: &mut Rng) -> f32 {
    match rng.below(5) {
        0 => 0.0,
        1 => -0.0,
        2 => f32::from_bits(rng.below(1 << 23) as u32),
        3 => near(0.005, rng),
        _ => near(0.5, rng),
    }
}

/// A reading up to three steps from `value`.
fn near(value: f32, rng: &mut Rng) -> f32 {
    f32::from_bits(value.to_bits() + rng.below(7) as u32 - 3)
}

/// Any bits from 0 up to `most`: every exponent is as likely as another.
fn anywhere(most: f32, rng: &mut Rng) -> f32 {
    f32::from_bits(rng.below(most.to_bits() as usize + 1) as u32)
}
