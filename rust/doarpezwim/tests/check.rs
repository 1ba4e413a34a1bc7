//! The check's wrapper over the archive. What the proved call answers is compared at length by the package `compare`;
//! here it is seen that the wrapper hands everything in and out as it is.

use doarpezwim::{CheckError, Field, Pollutant, Refusal, Row, account, check};
use inputs::{Filing, Rng, filing_vectors};
use reference::HOURS;

const SEED: u64 = 0x0d0a_29e2_000f;
const CALLS: usize = 2_000;

/// Checks by the wrapper, and puts its typed answer back into cells.
fn answer(file: &[u8], rows: &[u64], totals: [u64; 5]) -> [u64; 3] {
    match check(file, rows, &totals.into()) {
        Ok(()) => [0; 3],
        Err(CheckError::Wrong { row, field }) => {
            assert_eq!(matches!(field, Field::Total(_)), 7 * row == rows.len());
            [1, row as u64, field.number() as u64]
        }
        Err(CheckError::Refused(refusal)) => {
            assert_eq!(refusal.place().is_none(), refusal == Refusal::RowCount);
            [2, u64::from(refusal.number()), refusal.place().unwrap_or(0) as u64]
        }
    }
}

#[test]
fn answers_what_the_vectors_say() {
    let vectors = filing_vectors::load();
    assert!(vectors.len() >= 159);
    for (place, vector) in vectors.iter().enumerate() {
        assert_eq!(answer(&vector.file, &vector.rows, vector.totals), vector.answer, "vector {place}");
    }
}

#[test]
fn hands_slices_in_and_out() {
    let mut rng = Rng::new(SEED);
    for _ in 0..CALLS {
        let filing = Filing::generate(plain_account, u64::MAX, &mut rng);
        assert_eq!(answer(&filing.file, &filing.rows, filing.totals), filing.answer, "{filing:?}");
    }
}

fn plain_account(file: &[u8], rows: &mut [u64]) -> [u64; 8] {
    reference::account(file, rows, &mut [0; HOURS], &mut [0; HOURS]).cells()
}

/// What the account states is right, and no longer once a row or a total is another.
#[test]
fn agrees_with_the_account() {
    for name in ["example", "quarter", "plant"] {
        let path = format!("{}/../../samples/{name}.rec", env!("CARGO_MANIFEST_DIR"));
        let file = std::fs::read(path).expect("the sample");
        let mut stated = account(&file).expect("a sound file");
        let rows: Vec<u64> = stated.rows.iter().flat_map(Row::cells).collect();
        assert_eq!(check(&file, &rows, &stated.totals), Ok(()), "{name}");
        stated.totals.ammonia_nitrogen += 1;
        let field = Field::Total(Pollutant::AmmoniaNitrogen);
        let wrong = CheckError::Wrong { row: stated.rows.len(), field };
        assert_eq!(check(&file, &rows, &stated.totals), Err(wrong), "{name}");
        assert_eq!(check(&file, &rows[7..], &stated.totals), Err(Refusal::RowCount.into()), "{name}");
    }
    assert_eq!(check(&[], &[], &[0; 5].into()), Ok(()));
}
