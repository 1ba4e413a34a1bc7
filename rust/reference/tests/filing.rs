//! Request A6: the reference's check of a filing, as cells.

use inputs::{Filing, FilingCensus, Rng, filing_vectors};
use reference::{Checked, HOURS, check};

const SEED: u64 = 0x0d0a_29e2_000c;
const INPUTS: usize = 20_000;
const LEAST: u64 = 100;

#[test]
fn answers_what_the_vectors_say() {
    let vectors = filing_vectors::load();
    assert!(vectors.len() >= 159);
    for (place, vector) in vectors.iter().enumerate() {
        let checked = check(&vector.file, &vector.rows, &vector.totals);
        assert_eq!(checked.cells(), vector.answer, "vector {place}");
    }
}

/// What generated filings reach, by the reference alone; each answer is also what the filing was made for.
#[test]
fn reaches_every_outcome_number_and_cell() {
    let mut rng = Rng::new(SEED);
    let mut census = FilingCensus::default();
    for _ in 0..INPUTS {
        let filing = Filing::generate(account, u64::MAX, &mut rng);
        let checked = check(&filing.file, &filing.rows, &filing.totals);
        let counted = census.count(&filing, checked.cells());
        counted.unwrap_or_else(|why| panic!("{why}: {filing:?}"));
    }
    for (name, count) in census.reached() {
        assert!(count >= LEAST, "{name} was reached {count} times");
    }
}

fn account(file: &[u8], rows: &mut [u64]) -> [u64; 8] {
    reference::account(file, rows, &mut [0; HOURS], &mut [0; HOURS]).cells()
}

/// The row of the example of document 01, and its totals.
const ROW: [u64; 7] = [1, 2, 1, 126_500, 4, 1, 3];
const TOTALS: [u64; 5] = [0, 126_500, 0, 0, 0];

fn example(rows: &[u64], totals: &[u64; 5]) -> Checked {
    check(&inputs::figures::example(), rows, totals)
}

#[test]
fn names_every_cell_of_the_example() {
    assert_eq!(example(&ROW, &TOTALS), Checked::Agrees);
    for field in 0..7 {
        let mut row = ROW;
        row[field] ^= 1 << 63;
        assert_eq!(example(&row, &[9; 5]), Checked::Wrong { row: 0, field: field as u64 });
    }
    for field in 0..5 {
        let mut totals = TOTALS;
        totals[field..].iter_mut().for_each(|total| *total += 1);
        assert_eq!(example(&ROW, &totals), Checked::Wrong { row: 1, field: field as u64 });
    }
}

#[test]
fn counts_cells_before_it_looks_at_them() {
    let refused = Checked::Refused { number: 22, place: 0 };
    for count in (0..50).filter(|&count| count != 7) {
        assert_eq!(example(&vec![8; count], &TOTALS), refused, "{count} cells");
    }
    assert_eq!((check(&[], &[], &[0; 5]), check(&[], &[0], &[0; 5])), (Checked::Agrees, refused));
    assert_eq!(check(&[], &[], &[0, 0, 0, 0, 1]), Checked::Wrong { row: 0, field: 4 });
}

/// The file's own refusal comes before the row count's, and 8 is not one of them.
#[test]
fn refuses_the_file_first() {
    let mut file = inputs::figures::example();
    file.truncate(219);
    for rows in [&ROW[..], &ROW[1..], &[]] {
        assert_eq!(check(&file, rows, &TOTALS), Checked::Refused { number: 2, place: 219 });
    }
}
