//! Request A5: the reference's converter against the vectors, on generated texts and over all readings.

use inputs::{Export, ExportCensus, Rng, export_vectors, sweep};
use reference::{Imported, import_days};

const SEED: u64 = 0x0d0a_29e2_0009;
const INPUTS: usize = 20_000;
const LEAST: u64 = 100;

#[test]
fn answers_what_the_vectors_say() {
    let vectors = export_vectors::load();
    assert!(vectors.len() >= 170);
    for (place, vector) in vectors.iter().enumerate() {
        let mut records = export_vectors::lent(vector.records.len(), vector.seed);
        let imported = import_days(&vector.text, &mut records);
        assert_eq!(imported.cells(), vector.answer, "vector {place}");
        assert_eq!(records, vector.records, "vector {place}");
    }
}

/// What generated texts reach, by the reference alone; each answer is also what the text was made for.
#[test]
fn reaches_every_number_damage_and_order() {
    let mut rng = Rng::new(SEED);
    let mut census = ExportCensus::default();
    for _ in 0..INPUTS {
        let export = Export::generate(&mut rng);
        let mut records = export_vectors::lent(export.room, 0);
        let imported = import_days(&export.text, &mut records);
        let counted = census.count(&export, imported.cells());
        counted.unwrap_or_else(|why| panic!("{why}: {}", String::from_utf8_lossy(&export.text)));
    }
    for (name, count) in census.reached() {
        assert!(count >= LEAST, "{name} was reached {count} times");
    }
}

/// The nearest binary32 of each concentration and flow gives back, rounded as document 01 does, the number in the text.
#[test]
fn gives_back_every_reading() {
    let mut records = [0; 205 * 92];
    for number in 0..sweep::TEXTS {
        let readings: Vec<_> = sweep::readings(number).collect();
        let imported = import_days(&sweep::text(&readings), &mut records);
        assert_eq!(imported, Imported { count: records.len() as u64, ..Imported::default() });
        let pairs = records.as_chunks::<205>().0.iter().flat_map(|day| day[13..].as_chunks::<8>().0);
        for (reading, &[c0, c1, c2, c3, f0, f1, f2, f3]) in readings.iter().zip(pairs) {
            let concentration = f32::from_le_bytes([c0, c1, c2, c3]);
            let flow = f32::from_le_bytes([f0, f1, f2, f3]);
            assert_eq!(reference::concentration(concentration), Some(reading.hundredths as u32), "{reading:?}");
            assert_eq!(reference::flow(flow), Some(reading.cubic_metres as u32), "{reading:?}");
        }
    }
}

/// The text of one day that is stopped but for hour 1.
fn day(hour_1: &str) -> String {
    let line = |hour| if hour == 1 { format!("0,1,{hour_1}\n") } else { format!("0,{hour},S,,\n") };
    (0..24).map(line).collect()
}

fn answer(text: &str, room: usize) -> [u64; 3] {
    import_days(text.as_bytes(), &mut vec![7; room]).cells()
}

#[test]
fn writes_a_day() {
    let mut records = [7; 206];
    assert_eq!(import_days(day("R,41.25,1003417").as_bytes(), &mut records).cells(), [0, 0, 205]);
    assert_eq!(records[..13], [203, 0, 2, 0, 0, 2, 0, 0, 0, 2, 0, 0, 0]);
    assert_eq!(records[21..25], 41.25_f32.to_le_bytes());
    assert_eq!(records[25..29], 1_003_417.0_f32.to_le_bytes());
    assert!(records[13..21].iter().chain(&records[29..205]).all(|byte| *byte == 0));
    assert_eq!(records[205], 7);
    assert_eq!(import_days(day("M,,").as_bytes(), &mut records).cells(), [0, 0, 205]);
    assert_eq!(records[..13], [203, 0, 2, 0, 0, 2, 0, 0, 0, 0, 0, 0, 0]);
    assert!(records[13..205].iter().all(|byte| *byte == 0));
}

#[test]
fn leaves_zeros_or_what_was_there() {
    let mut records = [7; 300];
    assert_eq!(import_days(b"", &mut records).cells(), [0; 3]);
    assert_eq!(records, [7; 300]);
    assert_eq!(import_days(day("R,1.000,1").as_bytes(), &mut records).cells(), [19, 2, 0]);
    assert_eq!(records, [0; 300]);
}

#[test]
fn takes_what_a_number_may_be() {
    for hour in
        ["R,0,0", "R,10000,5000000", "R,10000.0,1", "R,10000.00,0005000000", "R,000000000000.5,1", "R,9999.99,1"]
    {
        assert_eq!(answer(&day(hour), 205), [0, 0, 205], "{hour}");
    }
    for hour in ["R,10000.01,1", "R,10000.1,1", "R,1,5000001", "R,4294967296,1", "R,1,18446744073709551616"] {
        assert_eq!(answer(&day(hour), 205), [20, 2, 0], "{hour}");
    }
    for hour in ["R,.5,1", "R,5.,1", "R,1.234,1", "R,1.000,1", "R,1,1.0", "R,+1,1", "R,1e1,1", "R,inf,1", "R,NaN,1"] {
        assert_eq!(answer(&day(hour), 205), [19, 2, 0], "{hour}");
    }
    for hour in ["r,1,1", "R,1,1\r", "R,1, 1", "R,,1", "R,1,", "M,1,", "S,,0", "M,", "M,,,", "X,,", ""] {
        assert_eq!(answer(&day(hour), 205), [19, 2, 0], "{hour}");
    }
}

/// 19 before 20 before 21 in a line, and an earlier line before a later one.
#[test]
fn keeps_the_order() {
    let over = day("M,,").replace("0,0,S,,", "0,0,R,10001,1");
    assert_eq!((answer(&over, 205), answer(&over, 204)), ([20, 1, 0], [20, 1, 0]));
    assert_eq!(answer(&over.replace("10001", "10001."), 204), [19, 1, 0]);
    assert_eq!((answer(&day("x"), 204), answer(&day("M,,"), 204)), ([21, 1, 0], [21, 1, 0]));
    for (text, room) in [("0,0,R,10001,1\n", 0), ("0,0,S,,\n", 0), ("0,0,S,,\n", 205)] {
        assert_eq!(answer(text, room), [19, 1, 0], "{text}");
    }
    assert_eq!((answer("0,0,R,10001,1\n0", 0), answer("0,0,S,,\n0", 205)), ([20, 1, 0], [19, 2, 0]));
}

#[test]
fn takes_92_days() {
    let days =
        |lines: usize| -> String { (0..lines).map(|hour| format!("{},{},M,,\n", hour / 24, hour % 24)).collect() };
    assert_eq!(answer(&days(2_208), 18_860), [0, 0, 18_860]);
    assert_eq!(answer(&days(2_208), 18_859), [21, 2_185, 0]);
    assert_eq!(answer(&days(2_209), 19_065), [19, 2_209, 0]);
    assert_eq!((answer(&days(2_210), 19_065), answer(&days(2_232), 0)), ([20, 2_209, 0], [21, 1, 0]));
    assert_eq!(answer(&days(2_232), 18_860), [20, 2_209, 0]);
}
