//! The governing-survey call against the reference.

use std::io::Write;

use compare::{agreed, calls, compare_lookups, feed};
use inputs::{Lookup, Rng};

const SEED: u64 = 0x0d0a_29e2_0003;
const LOOKUPS: usize = 200_000;
const LEAST: u64 = 100;

#[test]
fn agrees_on_generated_slices() {
    let mut rng = Rng::new(SEED);
    let lookups = std::iter::repeat_with(move || Lookup::generate(&mut rng)).take(LOOKUPS);
    let found = agreed(compare_lookups(&calls(), lookups));
    let text = format!("survey: {LOOKUPS} lookups agree; {found:?}\n");
    std::io::stderr().write_all(text.as_bytes()).expect("a standard error");
    assert!(found.enforcement.min(found.plant).min(found.none) >= LEAST);
}

/// The part that comes back is the block itself, readings as they stand, and enforcement wins.
#[test]
fn hands_back_the_first_block_of_the_hour() {
    let block = |kind: u8, hour: u8, last: u8| [12, 0, kind, 0, hour, 0, 255, 255, 255, 255, 0, 0, 0, last];
    let enforcement = [block(4, 5, 1), block(3, 6, 2), block(3, 5, 3), block(3, 5, 4)].concat();
    let plant = [block(3, 7, 5), block(4, 5, 6), block(4, 7, 7)].concat();
    let lookup =
        |enforcement: &[u8], plant: &[u8], hour| Lookup { enforcement: enforcement.into(), plant: plant.into(), hour };
    let mut expected = [
        (lookup(&enforcement, &plant, 5), (14, block(3, 5, 3))),
        (lookup(&enforcement, &plant, 7), (14, block(4, 7, 7))),
        (lookup(&enforcement, &plant, 8), (0, [0xaa; 14])),
        (lookup(&[], &plant[..41], 7), (0, [0xaa; 14])),
        (lookup(&[], &[], 0), (0, [0xaa; 14])),
    ]
    .into_iter();
    let lookups = expected.clone().map(|(lookup, _)| lookup);
    let count = agreed(feed(&calls(), lookups, |_, part| {
        assert_eq!(Some((part.length, part.bytes)), expected.next().map(|(_, part)| part));
        Ok(())
    }));
    assert_eq!(count, 5);
}
