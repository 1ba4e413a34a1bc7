//! The panel against the reference: every state bit, lawful or not, and every refusal.

use std::io::Write;

use compare::{agreed, calls, compare_steps, stepped};
use inputs::{Rng, Step};

const SEED: u64 = 0x0d0a_29e2_0002;
const STEPS: usize = 200_000;
const QUARTERS: usize = 40;
const HOURS_OF_A_QUARTER: usize = 4_000;
const LEAST: u64 = 100;

#[test]
fn agrees_on_generated_steps() {
    let mut rng = Rng::new(SEED);
    let steps = std::iter::repeat_with(move || Step::generate(&mut rng)).take(STEPS);
    let numbers = agreed(compare_steps(&calls(), steps));
    let text = format!("panel: {STEPS} steps agree; by number {numbers:?}\n");
    std::io::stderr().write_all(text.as_bytes()).expect("a standard error");
    for number in [0, 4, 10, 11, 12, 15] {
        assert!(numbers[number] >= LEAST, "number {number} was hardly reached");
    }
}

/// Quarters from an empty panel until it is full or over. Each hour goes on from the state that the reference handed
/// back, which is the program's own, since the two are held against each other at each hour.
#[test]
fn agrees_hour_by_hour_through_quarters() {
    let mut rng = Rng::new(SEED + 1);
    let quarters = (0..QUARTERS).flat_map(move |quarter| hours(quarter % 4 == 0, &mut rng));
    let seen = agreed(compare_steps(&calls(), quarters));
    assert_eq!(seen.iter().sum::<u64>(), (QUARTERS * HOURS_OF_A_QUARTER) as u64);
    assert!(seen[0] > 0 && seen[4] > 0 && seen[10] > 0 && seen[11] > 0, "{seen:?}");
}

/// The steps of one panel; `full` hours are at the limits, so that the total passes 2^53.
fn hours(full: bool, rng: &mut Rng) -> Vec<Step> {
    let (mut total, mut hours, mut missing) = (0.0, 0, 0);
    let mut next = || {
        let Step { kind, concentration, flow, .. } = Step::generate(rng);
        let (kind, concentration, flow) =
            if full { (2, 10_000.0, 5_000_000.0) } else { (kind.min(2), concentration, flow) };
        let step = Step { total, hours, missing, kind, concentration, flow };
        let after = stepped(&step);
        (total, hours, missing) = (f64::from_bits(after.total), after.hours, after.missing);
        step
    };
    (0..HOURS_OF_A_QUARTER).map(|_| next()).collect()
}
