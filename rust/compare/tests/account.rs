//! The account call against the reference: answer, every row cell and every work cell.

use std::io::Write;
use std::thread;

use compare::{AccountCall, agreed, calls, compare_accounts};
use inputs::{Census, Rng, Size};

const SEED: u64 = 0x0d0a_29e2_0001;
/// Two runs of the program side by side, each with files from a seed of its own.
const PARTS: [u64; 2] = [0, 0x1000];
const INPUTS_OF_A_PART: usize = 90_000;
const LEAST: u64 = 100;

#[test]
fn agrees_on_generated_files() {
    let program = calls();
    let part = |number: u64| {
        let mut rng = Rng::new(SEED + number);
        let generated = std::iter::repeat_with(move || AccountCall::generate(&mut rng)).take(INPUTS_OF_A_PART);
        compare_accounts(&program, generated)
    };
    let mut census = Census::default();
    thread::scope(|scope| {
        for run in PARTS.map(|number| scope.spawn(move || part(number))) {
            census.add(&agreed(run.join().expect("a run that does not panic")));
        }
    });
    report(&census);
    assert_eq!(census.inputs, (PARTS.len() * INPUTS_OF_A_PART) as u64);
    assert_eq!(census.numbers[3], 0, "3 is no longer given");
    for (name, count) in census.reached().into_iter().chain(census.reached_pairs()) {
        assert!(count >= LEAST, "{name} was hardly reached");
    }
}

/// Every number of row cells up to 350, for files of few and of many lines, of stacks and with outfalls.
#[test]
fn agrees_on_every_length_of_rows() {
    let mut rng = Rng::new(SEED + 1);
    let sizes = [Size::Short, Size::ManyLines];
    let stacks = sizes.map(|size| inputs::wire::file(&inputs::sound_lines(size, &mut rng)));
    let outfalls = sizes.map(|size| inputs::wire::file(&inputs::sound_lines_with_outfalls(size, &mut rng)));
    let of_file = |file: Vec<u8>| (0..=350).map(move |rows| AccountCall::of_file(file.clone(), rows, !rows as u32));
    let census = agreed(compare_accounts(&calls(), stacks.into_iter().chain(outfalls).flat_map(of_file)));
    assert!(census.numbers[0] > 0 && census.numbers[8] > 0);
}

/// Every cut of some small files.
#[test]
fn agrees_on_every_cut() {
    let mut rng = Rng::new(SEED + 2);
    let stacks = [(); 4].map(|()| inputs::wire::file(&inputs::sound_lines(Size::Short, &mut rng)));
    let outfalls = [(); 4].map(|()| inputs::wire::file(&inputs::sound_lines_with_outfalls(Size::Short, &mut rng)));
    let cuts = |file: Vec<u8>| {
        (0..=file.len()).map(move |length| AccountCall::of_file(file[..length].to_vec(), 21, length as u32))
    };
    let census = agreed(compare_accounts(&calls(), stacks.into_iter().chain(outfalls).flat_map(cuts)));
    assert!(census.numbers[1] > 0 && census.numbers[2] > 0);
}

/// Straight to standard error, since the test harness keeps what the macros print. Of pairs the rarest will do.
fn report(census: &Census) {
    let mut text = format!("account: {} inputs of {} bytes in all agree\n", census.inputs, census.bytes);
    for (name, count) in census.reached() {
        text += &format!("  {name}: {count}\n");
    }
    let pairs = census.reached_pairs();
    if let Some((name, count)) = pairs.iter().min_by_key(|(_, count)| count) {
        text += &format!("  {} pairs of wrong fields; the rarest is {name}: {count}\n", pairs.len());
    }
    std::io::stderr().write_all(text.as_bytes()).expect("a standard error");
}
