//! The comparison itself: it passes a stand-in that answers by the reference, and fails on one that does not.

use std::path::Path;
use std::time::Duration;

use compare::{
    AccountCall, HEADER, ImportCall, Program, compare_accounts, compare_filed_texts, compare_filings, compare_imports,
    compare_lookups, compare_steps, right_filing,
};
use inputs::{FiledText, Lookup, Rng, Step, sweep};

const SEED: u64 = 0x0d0a_29e2_0006;
const CALLS: usize = 20;

fn stand_in(words: &[&str]) -> Program {
    Program::by_words([&[env!("CARGO_BIN_EXE_stand_in")], words].concat())
}

fn flip(call: usize, byte: usize) -> Program {
    stand_in(&["flip", &call.to_string(), &byte.to_string()])
}

/// Calls on the example, lent more than it needs: three rows and three hours past the quarter.
fn accounts(program: &Program) -> Result<u64, String> {
    let calls = (0..CALLS as u32).map(|seed| {
        let mut call = AccountCall::of_file(inputs::figures::example(), 21, seed);
        (call.case.concentration, call.case.flow) = (2_211, 2_211);
        call
    });
    compare_accounts(program, calls).map(|census| census.inputs)
}

fn steps(program: &Program) -> Result<u64, String> {
    let mut rng = Rng::new(SEED);
    let steps = std::iter::repeat_with(move || Step::generate(&mut rng)).take(CALLS);
    compare_steps(program, steps).map(|numbers| numbers.iter().sum())
}

fn lookups(program: &Program) -> Result<u64, String> {
    let mut rng = Rng::new(SEED);
    let lookups = std::iter::repeat_with(move || Lookup::generate(&mut rng)).take(CALLS);
    compare_lookups(program, lookups).map(|found| found.enforcement + found.plant + found.none)
}

/// Calls on a day of readings, lent five bytes more than it needs.
fn imports(program: &Program) -> Result<u64, String> {
    let text = sweep::text(&sweep::readings(7).take(24).collect::<Vec<_>>());
    let calls = (0..CALLS as u32).map(|seed| ImportCall::of_text(text.clone(), 210, seed));
    compare_imports(program, calls).map(|census| census.inputs)
}

/// Checks of what is right for the example.
fn filings(program: &Program) -> Result<u64, String> {
    let filings = (0..CALLS).map(|_| right_filing(inputs::figures::example()));
    compare_filings(program, filings).map(|census| census.inputs)
}

/// Checks of a text that is wrong at the example's totals, for which a line of ten bytes is printed.
fn filed_texts(program: &Program) -> Result<u64, String> {
    let text = b"1 2 1 126500 4 1 3\ntotal 0 126500 0 1 0\n";
    let texts = (0..CALLS).map(|_| FiledText::of_text(right_filing(inputs::figures::example()), text.to_vec()));
    compare_filed_texts(program, texts).map(|census| census.inputs)
}

#[test]
fn passes_answers_of_the_reference() {
    let program = stand_in(&[]);
    let of_each = [accounts(&program), steps(&program), lookups(&program), imports(&program)];
    assert_eq!(of_each, [const { Ok(CALLS as u64) }; 4]);
    assert_eq!([filings(&program), filed_texts(&program)], [const { Ok(CALLS as u64) }; 2]);
}

/// The first cell and the last one of each part of an answer, and the cells about the quarter's end.
#[test]
fn fails_on_a_changed_account() {
    let (rows, work) = (64, 64 + 8 * 21);
    let cells = [0, 2_207, 2_208, 2_210].map(|hour| work + 4 * hour);
    let flows = cells.map(|byte| byte + 4 * 2_211);
    let answer = (0..rows).step_by(8);
    let bytes = answer.chain([rows, rows + 48, rows + 56, work - 1]).chain(cells).chain(flows);
    for byte in bytes {
        let call = byte % CALLS;
        let why = accounts(&flip(call, byte)).expect_err("a changed byte is found");
        assert!(why.starts_with(&format!("call {call}: ")) && why.contains("was to be"), "byte {byte}: {why}");
    }
}

#[test]
fn fails_on_a_changed_panel_or_part() {
    for byte in 0..20 {
        let why = steps(&flip(byte % CALLS, byte)).expect_err("a changed byte is found");
        assert!(why.contains("was to be"), "byte {byte}: {why}");
    }
    for byte in 0..18 {
        let why = lookups(&flip(CALLS - 1 - byte, byte)).expect_err("a changed byte is found");
        assert!(why.contains("was to be"), "byte {byte}: {why}");
    }
}

/// Each byte of the answer, and the first and the last of the records and of what is lent over.
#[test]
fn fails_on_a_changed_import() {
    for byte in (0..24).chain([24, 24 + 13, 24 + 204, 24 + 205, 24 + 209]) {
        let why = imports(&flip(byte % CALLS, byte)).expect_err("a changed byte is found");
        assert!(why.contains("was to be"), "byte {byte}: {why}");
    }
}

/// Each byte of the three cells and of the line; where the line's count is another, it is found as well.
#[test]
fn fails_on_a_changed_check() {
    for byte in 0..24 {
        let why = filings(&flip(byte % CALLS, byte)).expect_err("a changed byte is found");
        assert!(why.contains("was to be"), "byte {byte}: {why}");
    }
    for byte in 4..14 {
        let why = filed_texts(&flip(byte % CALLS, byte)).expect_err("a changed byte is found");
        assert!(why.contains("was to be"), "byte {byte}: {why}");
    }
    for byte in 0..4 {
        let why = filed_texts(&flip(byte, byte)).expect_err("a changed count is found");
        assert!(why.contains("was to be") || why.contains("can be read"), "byte {byte}: {why}");
    }
}

#[test]
fn fails_where_the_program_does() {
    let why = accounts(&stand_in(&["cut", "3"])).expect_err("answer 3 is cut");
    assert!(why.starts_with("no answer 3 can be read"), "{why}");
    let why = steps(&stand_in(&["more"])).expect_err("a byte too many");
    assert!(why.starts_with("the program writes more than its 20 answers"), "{why}");
    let why = lookups(&stand_in(&["status"])).expect_err("a failure at the end");
    assert_eq!(why, "after 20 answers the program ended by exit status: 1");
    let silent = stand_in(&["silent"]).with_patience(Duration::from_secs(1));
    assert_eq!(steps(&silent), Err("the program was silent for 1 seconds".into()));
    let why = steps(&Program::by_words(["no/such/program"])).expect_err("no program");
    assert!(why.starts_with("no/such/program cannot be started"), "{why}");
}

#[test]
fn says_how_to_get_the_program() {
    let nowhere = Path::new(env!("CARGO_MANIFEST_DIR")).join("src");
    let why = Program::in_repository(&nowhere).expect_err("no program there");
    assert_eq!(why, "There is no crates/calls/out/calls to compare: run `rt run` in crates/calls.");
}

/// The header has the version of the packages, and the numbers of document 01 and its requests in their order.
#[test]
fn has_a_header_of_this_version() {
    assert!(HEADER.contains(&format!("#define DOARPEZWIM_VERSION \"{}\"", env!("CARGO_PKG_VERSION"))));
    let (_, refusals) = HEADER.split_once("enum doarpezwim_refusal {").expect("the header has the numbers");
    let given = (0..=22).filter(|&number| number != 3);
    let mut places = given.map(|number| refusals.find(&format!(" = {number},")).expect("each number is named"));
    assert!(places.by_ref().is_sorted());
}
