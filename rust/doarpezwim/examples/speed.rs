//! The proved account and import calls against the reference, and the proved check beside the proved account: same
//! machine, same input, all as release builds.
//!
//! `speed` prints tables of times. `speed callgrind CASE WHO CALLS` makes that many calls and nothing else, for
//! counting instructions. What is lent is lent again from call to call and not cleared in between. What is checked is
//! what the account states, so that all of it is looked at.

use std::hint::black_box;
use std::time::{Duration, Instant};

use doarpezwim::{Row, Totals};
use inputs::wire::{self, Day, Head, Line, WaterDay, WaterHead, WaterLine};
use inputs::{Export, Rng};

const SEED: u64 = 0x0d0a_29e2_0005;
const SAMPLES: usize = 301;
const CASES: usize = 8;
/// Of these the first are checked as well.
const CHECKED: usize = 4;

/// What is lent to the calls.
struct Lent {
    rows: Vec<u64>,
    concentration: Vec<u32>,
    flow: Vec<u32>,
    records: Vec<u8>,
}

impl Lent {
    fn new() -> Self {
        let rows = vec![0; doarpezwim::ROW_CELLS * doarpezwim::MOST_LINES];
        let records = vec![0; doarpezwim::DAY_BYTES * doarpezwim::MOST_DAYS];
        Lent { rows, concentration: vec![0; doarpezwim::WORK_CELLS], flow: vec![0; doarpezwim::WORK_CELLS], records }
    }

    fn calls(&mut self, call: Call, case: &Case, count: u32) {
        for _ in 0..count {
            black_box(call(black_box(case), self));
        }
    }
}

type Call = fn(&Case, &mut Lent) -> u64;

/// A benchmark of refusals would tell nothing, so that each side has to accept.
fn proved_account(case: &Case, lent: &mut Lent) -> u64 {
    let stated = doarpezwim::account_into(&case.file, &mut lent.rows, &mut lent.concentration, &mut lent.flow);
    stated.expect("a sound file").cells()[0][3]
}

fn plain_account(case: &Case, lent: &mut Lent) -> u64 {
    assert_eq!(reference::account(&case.file, &mut lent.rows, &mut lent.concentration, &mut lent.flow).number, 0);
    lent.rows[3]
}

fn proved_import(case: &Case, lent: &mut Lent) -> u64 {
    doarpezwim::import_days(&case.file, &mut lent.records).expect("a sound text") as u64
}

fn plain_import(case: &Case, lent: &mut Lent) -> u64 {
    let imported = reference::import_days(&case.file, &mut lent.records);
    assert_eq!(imported.number, 0);
    imported.count
}

fn proved_check(case: &Case, _: &mut Lent) -> u64 {
    doarpezwim::check(&case.file, &case.rows, &case.totals).expect("a right filing");
    case.rows[3]
}

/// Who answers, and by which call.
const WHO: [&str; 3] = ["proved", "reference", "check"];
const ACCOUNT: &[Call] = &[proved_account, plain_account, proved_check];
const IMPORT: &[Call] = &[proved_import, plain_import];

/// An input by name.
struct Case {
    name: &'static str,
    text: &'static str,
    file: Vec<u8>,
    /// By each of those who answer it.
    calls: &'static [Call],
    /// What is filed for it, which is right.
    rows: Vec<u64>,
    totals: Totals,
}

impl Case {
    fn account(name: &'static str, text: &'static str, file: Vec<u8>) -> Self {
        let stated = doarpezwim::account(&file).expect("a sound file");
        let rows = stated.rows.iter().flat_map(Row::cells).collect();
        Case { name, text, file, calls: ACCOUNT, rows, totals: stated.totals }
    }

    fn import(name: &'static str, text: &'static str, file: Vec<u8>) -> Self {
        Case { name, text, file, calls: IMPORT, rows: Vec::new(), totals: Totals::default() }
    }
}

/// Line `number` of a file: `days` days, measured but for the hours that are `dark`.
fn line(number: u16, days: u8, dark: fn(usize) -> bool, rng: &mut Rng) -> Line {
    let (stack, pollutant) = (number / 3, (number % 3) as u8 + 1);
    let head = Head { stack, pollutant, required: 1, furnace: 1, coal: 4, megawatts: 300, mark: 1, days };
    let mut of_line: Vec<Day> = (0..days).map(Day::stopped).collect();
    for hour in 0..24 * usize::from(days) {
        let day = &mut of_line[hour / 24];
        if dark(hour) {
            day.miss(hour % 24);
        } else {
            let concentration = 20.0 + rng.below(400_000) as f32 / 1_024.0;
            day.measure(hour % 24, concentration, 500_000.0 + rng.below(4_000_000) as f32 / 3.0);
        }
    }
    Line { head, days: of_line, enforcement: Vec::new(), plant: Vec::new(), batches: Vec::new() }
}

/// The line of an outfall, 92 days, all measured.
fn outfall(rng: &mut Rng) -> WaterLine {
    let head = WaterHead { outfall: 1, pollutant: 4, days: 92 };
    let measured = |day| {
        let concentration = 20.0 + rng.below(400_000) as f32 / 1_024.0;
        WaterDay::measured(day, concentration, 5_000.0 + rng.below(400_000) as f32 / 3.0)
    };
    WaterLine { head, days: (0..head.days).map(measured).collect(), enforcement: Vec::new(), plant: Vec::new() }
}

/// A file of `lines` lines.
fn stacks(lines: u16, days: u8, dark: fn(usize) -> bool, rng: &mut Rng) -> Vec<u8> {
    let lines: Vec<Line> = (0..lines).map(|number| line(number, days, dark, rng)).collect();
    wire::file(&lines)
}

fn cases() -> [Case; CASES] {
    let mut rng = Rng::new(SEED);
    let rng = &mut rng;
    [
        Case::account("line", "a line of 92 days, all measured", stacks(1, 92, |_| false, rng)),
        Case::account("lines", "48 such lines", stacks(48, 92, |_| false, rng)),
        Case::account(
            "dark",
            "92 days, 500 hours dark in one gap",
            stacks(1, 92, |hour| (900..1_400).contains(&hour), rng),
        ),
        Case::account("days", "48 lines of one day", stacks(48, 1, |_| false, rng)),
        Case::account("water", "an outfall, 92 days, all measured", wire::file(&[outfall(rng)])),
        Case::account(
            "gap",
            "92 days, 550 hours dark in one gap",
            stacks(1, 92, |hour| (900..1_450).contains(&hour), rng),
        ),
        Case::account("gaps", "92 days, 25 dark after each 75", stacks(1, 92, |hour| hour % 100 >= 75, rng)),
        Case::import("text", "a text of 92 days, to records", Export::quarter(rng)),
    ]
}

/// Median and least time of one call, in microseconds.
struct Times {
    median: f64,
    least: f64,
}

impl Times {
    fn of(mut samples: Vec<Duration>) -> Self {
        samples.sort_unstable();
        let [median, least] = [samples.len() / 2, 0].map(|place| samples[place].as_secs_f64() * 1e6);
        Times { median, least }
    }
}

/// Times of each who answers on each case; samples alternate, so that a busy machine slows all of them alike.
fn measure(cases: &[Case; CASES]) -> Vec<Vec<Times>> {
    let mut lent = Lent::new();
    let mut samples: Vec<Vec<Vec<Duration>>> = cases.iter().map(|case| vec![Vec::new(); case.calls.len()]).collect();
    for _ in 0..SAMPLES {
        for (case, samples) in cases.iter().zip(&mut samples) {
            let calls = (200_000 / case.file.len() as u32).clamp(1, 100);
            for (call, samples) in case.calls.iter().zip(samples) {
                let start = Instant::now();
                lent.calls(*call, case, calls);
                samples.push(start.elapsed() / calls);
            }
        }
    }
    samples.into_iter().map(|case| case.into_iter().map(Times::of).collect()).collect()
}

/// A line for each case, of two who answer, each by name and place.
fn print_table(cases: &[Case], times: &[Vec<Times>], [(one, at_one), (other, at_other)]: [(&str, usize); 2]) {
    println!("{:36} {:>8} {:>30} {:>30}", "", "", "median", "least");
    let ratio = "ratio";
    print!("{:36} {:>8}", "input", "bytes");
    println!(" {one:>10} {other:>10} {ratio:>8} {one:>10} {other:>10} {ratio:>8}");
    for (case, times) in cases.iter().zip(times) {
        print!("{:36} {:>8}", case.text, case.file.len());
        let (one, other) = (&times[at_one], &times[at_other]);
        for (one, other) in [(one.median, other.median), (one.least, other.least)] {
            print!(" {one:>10.2} {other:>10.2} {:>8.2}", one / other);
        }
        println!();
    }
}

fn tables() {
    let cases = cases();
    let times = measure(&cases);
    println!("Time of a call in microseconds, {SAMPLES} samples; lent slices are not cleared between calls.\n");
    print_table(&cases, &times, [(WHO[0], 0), (WHO[1], 1)]);
    let (one, all) = (&times[0], &times[1]);
    for (who, name) in WHO.iter().enumerate() {
        let (median, least) = (all[who].median / one[who].median, all[who].least / one[who].least);
        println!("48 lines over 48 x one line, {name}: median {:.2}, least {:.2}", median / 48.0, least / 48.0);
    }
    println!("\nThe check beside the account, both proved:\n");
    print_table(&cases[..CHECKED], &times, [(WHO[2], 2), ("account", 0)]);
}

/// Calls of one side on one case and nothing else.
fn calls_only(case: &str, who: &str, count: &str) -> Option<()> {
    let case = cases().into_iter().find(|known| known.name == case)?;
    let call = *case.calls.get(WHO.iter().position(|known| *known == who)?)?;
    Lent::new().calls(call, &case, count.parse().ok()?);
    Some(())
}

fn main() {
    let arguments: Vec<String> = std::env::args().skip(1).collect();
    let arguments: Vec<&str> = arguments.iter().map(String::as_str).collect();
    let done = match arguments.as_slice() {
        [] => {
            tables();
            Some(())
        }
        ["callgrind", case, who, count] => calls_only(case, who, count),
        _ => None,
    };
    if done.is_none() {
        eprintln!("usage: speed | speed callgrind CASE proved|reference|check CALLS");
        eprintln!("cases: line lines dark days water gap gaps text; the text is not checked");
        std::process::exit(2);
    }
}
