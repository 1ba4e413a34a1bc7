//! Two survey slices and an hour, for the governing-survey call.

use crate::rng::Rng;

#[derive(Clone, Debug)]
pub struct Lookup {
    pub enforcement: Vec<u8>,
    pub plant: Vec<u8>,
    pub hour: u16,
}

impl Lookup {
    pub fn generate(rng: &mut Rng) -> Self {
        let hours = rng.pick(&[2, 6, 40, 600]);
        let enforcement = blocks(3, hours, rng);
        let plant = blocks(4, hours, rng);
        Lookup { enforcement, plant, hour: hour(hours, rng) }
    }
}

/// Few hours, so that they meet; both bytes of an hour are used.
fn hour(hours: usize, rng: &mut Rng) -> u16 {
    if rng.chance(1, 32) { rng.word() as u16 } else { 7 * rng.below(hours) as u16 }
}

/// Blocks of the wanted kind, with some of another length or kind, and at times a tail.
fn blocks(kind: u16, hours: usize, rng: &mut Rng) -> Vec<u8> {
    let mut bytes = Vec::new();
    for _ in 0..rng.below(9) {
        let length = rng.pick(&[12, 12, 12, 12, 12, 12, 12, 14, 13, 0x0c00, 0x010c]);
        let kind = rng.pick(&[kind, kind, kind, kind, kind, 3, 4, 5, kind << 8, kind | 0x100]);
        bytes.extend(u16::to_le_bytes(length));
        bytes.extend(kind.to_le_bytes());
        bytes.extend(hour(hours, rng).to_le_bytes());
        bytes.extend(rng.garbage_u8(8));
    }
    if rng.chance(1, 3) {
        // A tail that starts like a block must be passed over all the same.
        let tail = [12, 0, kind as u8, 0, 7 * rng.below(hours).min(30) as u8, 0, 1, 2, 3, 4, 5, 6, 7];
        bytes.extend(&tail[..rng.between(1, 13)]);
    }
    bytes
}
