//! The import's wrapper over the archive. What the proved call answers is compared at length by the package `compare`;
//! here it is seen that the wrapper hands everything in and out as it is.

use doarpezwim::{Refusal, account, import_days};
use inputs::wire::{self, Day, Head, Line};
use inputs::{Export, Rng, export_vectors};

const SEED: u64 = 0x0d0a_29e2_000b;
const CALLS: usize = 2_000;

/// Imports by the wrapper, and puts its typed answer back into cells.
fn answer(text: &[u8], records: &mut [u8]) -> [u64; 3] {
    match import_days(text, records) {
        Ok(count) => [0, 0, count as u64],
        Err(refusal) => {
            assert_eq!(refusal.place(), None);
            [u64::from(refusal.number()), refusal.line().expect("a text's refusal has a line") as u64, 0]
        }
    }
}

#[test]
fn answers_what_the_vectors_say() {
    for (place, vector) in export_vectors::load().iter().enumerate() {
        let mut records = export_vectors::lent(vector.records.len(), vector.seed);
        assert_eq!(answer(&vector.text, &mut records), vector.answer, "vector {place}");
        assert_eq!(records, vector.records, "vector {place}");
    }
}

#[test]
fn hands_slices_in_and_out() {
    let mut rng = Rng::new(SEED);
    for _ in 0..CALLS {
        let export = Export::generate(&mut rng);
        let mut records = rng.garbage_u8(export.room);
        let mut others = records.clone();
        let expected = reference::import_days(&export.text, &mut others).cells();
        assert_eq!(answer(&export.text, &mut records), expected, "{export:?}");
        assert_eq!(records, others, "{export:?}");
    }
}

/// Head, imported days and end are the file that the same readings make when they are written as records.
#[test]
fn makes_a_file_of_a_text() {
    let readings = |hour: usize| (41.25 + hour as f32 / 4.0, 1_000_000.0 + hour as f32);
    let days: Vec<Day> = (0..3)
        .map(|number| {
            let mut day = Day::stopped(number);
            (0..20).for_each(|hour| day.measure(hour, readings(hour).0, readings(hour).1));
            day.miss(20);
            day
        })
        .collect();
    let text: String = (0..72)
        .map(|hour| match (hour / 24, hour % 24) {
            (day, 20) => format!("{day},20,M,,\n"),
            (day, hour @ 21..) => format!("{day},{hour},S,,\n"),
            (day, hour) => format!("{day},{hour},R,{},{}\n", readings(hour).0, readings(hour).1),
        })
        .collect();
    let head = Head { stack: 1, pollutant: 2, required: 1, furnace: 1, coal: 4, megawatts: 300, mark: 1, days: 3 };
    let line = Line { head, days, enforcement: Vec::new(), plant: Vec::new(), batches: Vec::new() };
    let file = wire::file(std::slice::from_ref(&line));
    let mut records = [9; 3 * doarpezwim::DAY_BYTES];
    assert_eq!(import_days(text.as_bytes(), &mut records), Ok(records.len()));
    let made = [&file[..14], &records, &file[file.len() - 4..]].concat();
    assert_eq!(made, file);
    assert_eq!(account(&made).map(|account| account.rows[0].missing), Ok(3));
}

#[test]
fn lends_too_little() {
    let text: String = (0..48).map(|hour| format!("{},{},S,,\n", hour / 24, hour % 24)).collect();
    let mut records = [5; 409];
    assert_eq!(import_days(text.as_bytes(), &mut records), Err(Refusal::FewRecordBytes { line: 25 }));
    assert_eq!(records, [0; 409]);
    assert_eq!(import_days(text.as_bytes(), &mut []), Err(Refusal::FewRecordBytes { line: 1 }));
    assert_eq!(import_days(&[], &mut []), Ok(0));
}
