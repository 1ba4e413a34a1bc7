//! Faults done to the bytes: cuts, flips, and pieces lost, doubled or put in.
#![allow(clippy::ptr_arg)]

use std::ops::Range;

use crate::rng::Rng;

/// One type for all faults, although not each of them needs a whole `Vec`.
type Fault = fn(&mut Vec<u8>, &mut Rng);

pub const FAULTS: [Fault; 7] = [cut, cut_near_the_end, flip, lose, double, put_in, replace];

fn cut(bytes: &mut Vec<u8>, rng: &mut Rng) {
    bytes.truncate(rng.below(bytes.len() + 1));
}

fn cut_near_the_end(bytes: &mut Vec<u8>, rng: &mut Rng) {
    bytes.truncate(bytes.len().saturating_sub(rng.between(1, 20)));
}

fn flip(bytes: &mut Vec<u8>, rng: &mut Rng) {
    for _ in 0..rng.between(1, 8) {
        if let Some(byte) = bytes.len().checked_sub(1).map(|last| rng.between(0, last)) {
            bytes[byte] ^= 1 << rng.below(8);
        }
    }
}

/// A piece of up to 40 bytes.
fn piece(bytes: &[u8], rng: &mut Rng) -> Range<usize> {
    let start = rng.below(bytes.len() + 1);
    start..bytes.len().min(start + rng.between(1, 40))
}

fn lose(bytes: &mut Vec<u8>, rng: &mut Rng) {
    let piece = piece(bytes, rng);
    bytes.drain(piece);
}

fn double(bytes: &mut Vec<u8>, rng: &mut Rng) {
    let piece = piece(bytes, rng);
    let copy = bytes[piece.clone()].to_vec();
    bytes.splice(piece.end..piece.end, copy);
}

fn put_in(bytes: &mut Vec<u8>, rng: &mut Rng) {
    let place = if rng.chance(1, 2) { bytes.len() } else { rng.below(bytes.len() + 1) };
    let count = rng.between(1, 5);
    let garbage = rng.garbage_u8(count);
    bytes.splice(place..place, garbage);
}

fn replace(bytes: &mut Vec<u8>, rng: &mut Rng) {
    let piece = piece(bytes, rng);
    let garbage = rng.garbage_u8(piece.len());
    bytes[piece].copy_from_slice(&garbage);
}
