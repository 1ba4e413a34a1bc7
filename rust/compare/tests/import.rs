//! The import call against the reference: answer and every lent byte; and every reading against `parse`.

use std::io::Write;
use std::thread;

use compare::{Call, Import, ImportCall, agreed, calls, compare_imports, feed};
use inputs::sweep::{self, Reading};
use inputs::{ExportCensus, Rng, export_vectors};

const SEED: u64 = 0x0d0a_29e2_000a;
const INPUTS: usize = 20_000;
const LEAST: u64 = 100;
/// Runs of the program side by side, each with a part of the texts that have all readings.
const PARTS: usize = 2;
const QUARTER: usize = 205 * 92;

#[test]
fn agrees_on_generated_texts() {
    let mut rng = Rng::new(SEED);
    let generated = std::iter::repeat_with(move || ImportCall::generate(&mut rng)).take(INPUTS);
    let census = agreed(compare_imports(&calls(), generated));
    report(&census);
    assert_eq!(census.inputs, INPUTS as u64);
    for (name, count) in census.reached() {
        assert!(count >= LEAST, "{name} was hardly reached");
    }
}

/// Every cut of a text of two days, and every room that is lent for it.
#[test]
fn agrees_on_every_cut_and_room() {
    let mut rng = Rng::new(SEED + 1);
    let text = sweep::text(&sweep::readings(200).take(48).collect::<Vec<_>>());
    let cuts = (0..=text.len()).map(|length| ImportCall::of_text(text[..length].to_vec(), 411, length as u32));
    let rooms = (0..=620).map(|room| ImportCall::of_text(text.clone(), room, rng.word() as u32));
    let census = agreed(compare_imports(&calls(), cuts.chain(rooms)));
    assert_eq!(census.numbers[0], 1 + 1 + 1 + 211);
    assert_eq!((census.numbers[20], census.numbers[21]), (0, 410));
}

#[test]
fn answers_what_the_vectors_say() {
    let vectors = export_vectors::load();
    let (asked, expected): (Vec<ImportCall>, Vec<Import>) = vectors.iter().map(ImportCall::of_vector).unzip();
    let mut expected = expected.into_iter();
    let count = agreed(feed(&calls(), asked.into_iter(), |_, import| {
        let difference = import.difference(&expected.next().expect("an answer for each vector"));
        difference.map_or(Ok(()), Err)
    }));
    assert!(count >= 170 && count == vectors.len() as u64);
}

/// A quarter of measured hours.
struct Quarter {
    readings: Vec<Reading>,
    call: ImportCall,
}

impl Quarter {
    fn new(number: usize) -> Self {
        let readings: Vec<Reading> = sweep::readings(number).collect();
        let call = ImportCall::of_text(sweep::text(&readings), QUARTER, number as u32);
        Quarter { readings, call }
    }

    /// The patterns that `parse` gives, and what they give back rounded.
    fn judge(&self, import: &Import) -> Result<(), String> {
        if import.answer != [0, 0, QUARTER as u64] {
            return Err(format!("a sound quarter is answered {:?}", import.answer));
        }
        let days = import.records.as_chunks::<205>().0;
        let pairs = days.iter().flat_map(|day| day[13..].as_chunks::<4>().0.as_chunks::<2>().0);
        for (reading, pair) in self.readings.iter().zip(pairs) {
            let patterns = pair.map(u32::from_le_bytes);
            let parsed = [&reading.concentration, &reading.flow].map(|text| text.parse().map(f32::to_bits));
            let [concentration, flow] = patterns.map(f32::from_bits);
            let given_back = (reference::concentration(concentration), reference::flow(flow));
            let written = (Some(reading.hundredths as u32), Some(reading.cubic_metres as u32));
            if parsed != patterns.map(Ok) || given_back != written {
                return Err(format!("{patterns:x?} were to be {parsed:x?} and give back {written:?}: {given_back:?}"));
            }
        }
        Ok(())
    }
}

impl Call for Quarter {
    type Answer = Import;

    fn write(&self, frame: &mut Vec<u8>) {
        self.call.write(frame);
    }

    fn read(&self, output: &mut impl std::io::Read) -> std::io::Result<Import> {
        self.call.read(output)
    }
}

/// All 1,000,001 concentrations in five ways of writing them, and all 5,000,001 flows.
#[test]
fn has_the_pattern_of_every_reading() {
    let program = calls();
    let part = |part: usize| {
        let quarters = (part..sweep::TEXTS).step_by(PARTS).map(Quarter::new);
        feed(&program, quarters, |quarter, import| quarter.judge(&import))
    };
    let mut count = 0;
    thread::scope(|scope| {
        let runs: Vec<_> = (0..PARTS).map(|number| scope.spawn(move || part(number))).collect();
        for run in runs {
            count += agreed(run.join().expect("a run that does not panic"));
        }
    });
    assert_eq!(count, sweep::TEXTS as u64);
    let text = format!("import: {} pairs of readings have the patterns of `parse`\n", count * 24 * 92);
    std::io::stderr().write_all(text.as_bytes()).expect("a standard error");
}

/// Straight to standard error, since the test harness keeps what the macros print.
fn report(census: &ExportCensus) {
    let mut text =
        format!("import: {} texts of {} bytes in all agree, {} days\n", census.inputs, census.bytes, census.days);
    for (name, count) in census.reached() {
        text += &format!("  {name}: {count}\n");
    }
    std::io::stderr().write_all(text.as_bytes()).expect("a standard error");
}
