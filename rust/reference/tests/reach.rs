//! What generated files reach, by the reference alone: the comparison would look away where these do not go.

use inputs::{Case, Census, Outcome, Rng};

const SEED: u64 = 0x0d0a_29e2_0008;
const INPUTS: usize = 180_000;
const LEAST: u64 = 100;

#[test]
fn reaches_every_number_field_and_pair() {
    let mut rng = Rng::new(SEED);
    let mut census = Census::default();
    for _ in 0..INPUTS {
        let case = Case::generate(&mut rng);
        let (mut rows, mut concentration, mut flow) =
            (vec![0; case.rows], vec![0; case.concentration], vec![0; case.flow]);
        let answer = reference::account(&case.file, &mut rows, &mut concentration, &mut flow).cells();
        let counted = census.count(&case, &Outcome { answer, rows, concentration, flow });
        counted.unwrap_or_else(|why| panic!("{why}"));
    }
    assert_eq!(census.numbers[3], 0, "3 is no longer given");
    for (name, count) in census.reached().into_iter().chain(census.reached_pairs()) {
        assert!(count >= LEAST, "{name} was reached {count} times");
    }
}
