//! The wrapper over the archive. What the proved calls answer is compared at length by the package `compare`; here it
//! is seen that the wrapper hands everything in and out as it is.

use doarpezwim::{Hour, Method, Panel, Pollutant, Refusal, Row, Source, account, account_into, governing_survey};
use inputs::wire::{self, Survey, WaterDay, WaterHead, WaterLine};
use inputs::{Case, Lookup, Outcome, Rng, Step};

const SEED: u64 = 0x0d0a_29e2_0007;
const CALLS: usize = 2_000;

/// Accounts by the wrapper, and puts its typed answer back into cells.
fn outcome(file: &[u8], mut rows: Vec<u64>, mut concentration: Vec<u32>, mut flow: Vec<u32>) -> Outcome {
    let answer = match account_into(file, &mut rows, &mut concentration, &mut flow) {
        Err(refusal) => [u64::from(refusal.number()), refusal.place().unwrap_or(0) as u64, 0, 0, 0, 0, 0, 0],
        Ok(stated) => {
            let [first, second, third, fourth, fifth] = Pollutant::ALL.map(|pollutant| stated.totals().of(pollutant));
            [0, 0, stated.rows().len() as u64, first, second, third, fourth, fifth]
        }
    };
    Outcome { answer, rows, concentration, flow }
}

#[test]
fn states_the_worked_figures() {
    for figure in inputs::figures::figures() {
        figure.check(&outcome(&figure.file, vec![7; 7], vec![7; 2_208], vec![7; 2_208]));
    }
}

#[test]
fn hands_slices_in_and_out() {
    let mut rng = Rng::new(SEED);
    for _ in 0..CALLS {
        let case = Case::generate(&mut rng);
        let lent = (rng.garbage_u64(case.rows), rng.garbage_u32(case.concentration), rng.garbage_u32(case.flow));
        let (mut rows, mut concentration, mut flow) = lent.clone();
        let answer = reference::account(&case.file, &mut rows, &mut concentration, &mut flow);
        let expected = Outcome { answer: answer.cells(), rows, concentration, flow };
        assert_eq!(outcome(&case.file, lent.0, lent.1, lent.2).difference(&expected), None, "{case:?}");
        if ![8, 9].contains(&answer.number) {
            let number = account(&case.file).map_or_else(|refusal| refusal.number(), |_| 0);
            assert_eq!(number, answer.number, "{case:?}");
        }
    }
}

/// The rows and totals of a sample, which are held against what the program prints.
fn states_the_sample(name: &str) -> Vec<Row> {
    let folder = concat!(env!("CARGO_MANIFEST_DIR"), "/../../samples");
    let file = std::fs::read(format!("{folder}/{name}.rec")).expect("the sample");
    let printed = std::fs::read_to_string(format!("{folder}/{name}.out")).expect("what is printed of it");
    let account = account(&file).expect("a sound file");
    let mut text = String::new();
    for row in &account.rows {
        let (Source::Stack(number) | Source::Outfall(number)) = row.source;
        let numbers = [number.into(), row.pollutant.number().into(), row.method.number().into(), row.grams];
        let counts = [row.running, row.missing, row.first_missing.map_or(0, |first| first + 1)];
        let fields: Vec<String> =
            numbers.into_iter().chain(counts.map(u64::from)).map(|field| field.to_string()).collect();
        text += &(fields.join(" ") + "\n");
    }
    let totals = Pollutant::ALL.map(|pollutant| account.totals.of(pollutant).to_string());
    text += &format!("total {}\n", totals.join(" "));
    assert_eq!(text, printed);
    account.rows
}

#[test]
fn states_the_sample_quarter() {
    let rows = states_the_sample("quarter");
    assert_eq!(rows.iter().map(|row| row.method).max(), Some(Method::Coefficient));
}

#[test]
fn states_the_sample_plant() {
    let rows = states_the_sample("plant");
    assert!(rows.iter().any(|row| matches!(row.source, Source::Stack(_))));
    assert!(rows.iter().any(|row| matches!(row.source, Source::Outfall(_))));
}

/// Outfall 7 behind the example's stack 1: ammonia nitrogen over two days, of which the second is missing.
fn with_outfall(enforcement: &[Survey]) -> Vec<u8> {
    let head = WaterHead { outfall: 7, pollutant: 5, days: 2 };
    let days = vec![WaterDay::measured(0, 40.5, 1_000.0), WaterDay::missing(1)];
    let line = WaterLine { head, days, enforcement: enforcement.to_vec(), plant: Vec::new() };
    [inputs::figures::example(), wire::file(&[line])].concat()
}

#[test]
fn states_an_outfall() {
    let on_day = |day| Survey { hour: day, concentration: 30.5, flow: 2_001.0 };
    let row = |method, grams, missing, first_missing| {
        let (source, pollutant) = (Source::Outfall(7), Pollutant::AmmoniaNitrogen);
        Row { source, pollutant, method, grams, running: 2, missing, first_missing }
    };
    // By surveys 6,103,050 x 2 over 100; with day 1 surveyed 4,050,000 + 6,103,050 over 100, halves up.
    let manual = (on_day(0), row(Method::Manual, 122_061, 1, Some(1)), [3_050, 0], [2_001, 0]);
    let automatic = (on_day(1), row(Method::Automatic, 101_531, 0, None), [4_050, 3_050], [1_000, 2_001]);
    for (survey, expected, of_concentration, of_flow) in [manual, automatic] {
        let (mut rows, mut concentration, mut flow) = ([5; 15], [5; 2_209], [5; 2_209]);
        let stated = account_into(&with_outfall(&[survey]), &mut rows, &mut concentration, &mut flow);
        let stated = stated.expect("a sound file");
        let both: Vec<Row> = stated.rows().collect();
        assert_eq!((both.len(), both[0].source, both[1]), (2, Source::Stack(1), expected));
        let totals = Pollutant::ALL.map(|pollutant| stated.totals().of(pollutant));
        assert_eq!(totals, [0, 126_500, 0, 0, expected.grams]);
        for (cells, of_days) in [(concentration, of_concentration), (flow, of_flow)] {
            assert_eq!(cells[..2], of_days);
            assert!(cells[2..2_208].iter().all(|cell| *cell == 0));
            assert_eq!(cells[2_208], 5);
        }
        assert_eq!(rows[14], 5);
    }
}

/// The line's head is at 223, its days are at 231 and 245, its end or its survey is at 259.
#[test]
fn has_no_method_left() {
    let refusal = account(&with_outfall(&[])).expect_err("a missing day and no survey");
    assert_eq!((refusal, refusal.number()), (Refusal::NoMethod { place: 259 }, 18));
}

/// Bytes of the example changed: each number that names a field, and the place of that field.
#[test]
fn names_the_field() {
    let example = inputs::figures::example();
    let refusal = |records: &[u8], at: usize, bytes: &[u8]| {
        let mut file = [&example[..219], records, &example[219..]].concat();
        file[at..at + bytes.len()].copy_from_slice(bytes);
        account(&file).expect_err("a field out of range")
    };
    let head: [(usize, &[u8]); 7] =
        [(6, &[4]), (7, &[2]), (8, &[5]), (9, &[8]), (10, &[8, 0]), (12, &[5]), (13, &[93])];
    for (place, bytes) in head {
        assert_eq!(refusal(&[], place, bytes), Refusal::HeadField { place });
    }
    assert_eq!(refusal(&[], 22, &[1]), Refusal::Mask { place: 19 });
    assert_eq!(refusal(&[], 23, &[0x1b]), Refusal::Mask { place: 23 });
    assert_eq!(refusal(&[], 34, &[0xff]), Refusal::BadReading { place: Some(31) });
    let batch = [14, 0, 5, 0, 1, 0, 0, 0, 0, 0, 0, 0, 0, 0, 0, 0];
    assert_eq!(refusal(&batch, 223, &[0]), Refusal::FuelField { place: 223 });
    assert_eq!(refusal(&batch, 228, &[1]), Refusal::FuelField { place: 223 });
    assert_eq!(refusal(&batch, 231, &[0xd1, 7]), Refusal::FuelField { place: 231 });
    assert_eq!(refusal(&batch, 233, &[0x11, 0x27]), Refusal::FuelField { place: 233 });
    let survey = [12, 0, 3, 0, 0, 0, 0, 0, 0, 0, 0, 0, 0, 0];
    assert_eq!(refusal(&survey, 223, &[24]), Refusal::SurveyHour { place: 223 });
    assert_eq!(refusal(&survey, 228, &[0xff]), Refusal::BadReading { place: Some(225) });
    assert_eq!(refusal(&survey, 232, &[0xff]), Refusal::BadReading { place: Some(229) });
}

/// The same in the outfall's line.
#[test]
fn names_the_field_of_an_outfall() {
    let refusal = |at: usize, bytes: &[u8]| {
        let mut file = with_outfall(&[Survey { hour: 0, concentration: 1.0, flow: 1.0 }]);
        file[at..at + bytes.len()].copy_from_slice(bytes);
        account(&file).expect_err("a field out of range")
    };
    assert_eq!(refusal(229, &[3]), Refusal::HeadField { place: 229 });
    assert_eq!(refusal(230, &[93]), Refusal::HeadField { place: 230 });
    assert_eq!(refusal(236, &[3]), Refusal::Mask { place: 236 });
    assert_eq!(refusal(236, &[1]), Refusal::BadReading { place: Some(237) });
    assert_eq!(refusal(244, &[0xff]), Refusal::BadReading { place: Some(241) });
    assert_eq!(refusal(255, &[1]), Refusal::BadReading { place: Some(255) });
    assert_eq!(refusal(263, &[2]), Refusal::SurveyHour { place: 263 });
    assert_eq!(refusal(272, &[0xff]), Refusal::BadReading { place: Some(269) });
    assert_eq!(refusal(236, &[0; 9]), Refusal::StoppedSurvey { place: 259 });
}

/// The one number that the wrapper cannot reach: a kind of hour that does not exist.
#[test]
fn refuses_an_unknown_kind() {
    let (mut total, mut hours, mut missing) = (f64::NAN, 3_000, 4_000);
    for kind in [3, 4, u32::MAX] {
        // SAFETY: the three pointers are borrows of three locals.
        let number =
            unsafe { doarpezwim::ffi::doarpezwim_panel_hour(&mut total, &mut hours, &mut missing, kind, 1.0, 1.0) };
        assert_eq!((number, hours, missing), (15, 3_000, 4_000));
    }
}

#[test]
fn lends_too_little() {
    let file = inputs::figures::example();
    let (mut rows, mut concentration, mut flow) = ([5; 6], [5; 2_208], [5; 2_208]);
    assert_eq!(account_into(&file, &mut rows, &mut concentration, &mut flow), Err(Refusal::FewRowCells));
    assert_eq!((rows, concentration[0], flow[2_207]), ([5; 6], 0, 0));
    assert_eq!(account_into(&file, &mut rows, &mut [5; 2_207], &mut flow), Err(Refusal::FewWorkCells));
    assert_eq!(account(&[]), Ok(doarpezwim::Account::default()));
}

#[test]
fn keeps_a_panel() {
    let mut rng = Rng::new(SEED + 1);
    for _ in 0..CALLS {
        let Step { total, hours, missing, kind, concentration, flow } = Step::generate(&mut rng);
        let (hour, same) = match kind {
            0 => (Hour::Stopped, reference::Hour::Stopped),
            1 => (Hour::Missing, reference::Hour::Missing),
            _ => (Hour::Measured { concentration, flow }, reference::Hour::Measured(concentration, flow)),
        };
        let (mut panel, mut plain) = (Panel { total, hours, missing }, reference::Panel { total, hours, missing });
        let number = panel.hour(hour).map_or_else(|refusal| refusal.number(), |()| 0);
        assert_eq!(number, plain.hour(same), "{hour:?} after {panel:?}");
        assert_eq!((panel.hours, panel.missing), (plain.hours, plain.missing));
        assert!(panel.total.to_bits() == plain.total.to_bits() || panel.total.is_nan() && plain.total.is_nan());
    }
}

/// The part is the block itself and not another with the same bytes; the reference hands back the slice's own part too.
#[test]
fn hands_back_a_part_of_the_slice() {
    let mut rng = Rng::new(SEED + 2);
    for _ in 0..CALLS {
        let Lookup { enforcement, plant, hour } = Lookup::generate(&mut rng);
        // Doubled, so that each block has an equal one behind it.
        let [enforcement, plant] = [enforcement, plant].map(|slice| {
            let whole = slice.len() - slice.len() % 14;
            [&slice[..whole], &slice].concat()
        });
        let expected = reference::governing_survey(&enforcement, &plant, hour);
        match governing_survey(&enforcement, &plant, hour) {
            Some(part) => assert!(std::ptr::eq(part, expected), "{enforcement:?} {plant:?} {hour}"),
            None => assert!(expected.is_empty()),
        }
    }
}
