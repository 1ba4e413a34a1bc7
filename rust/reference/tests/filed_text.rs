//! Request A6: the reference's check of a filed text, as the program prints it.

use inputs::{FiledText, FiledTextCensus, Rng, filing_vectors};
use reference::{HOURS, printed_check};

const SEED: u64 = 0x0d0a_29e2_000d;
const INPUTS: usize = 20_000;
const LEAST: u64 = 100;

#[test]
fn prints_what_the_vectors_say() {
    let vectors = filing_vectors::load_texts();
    assert!(vectors.len() >= 159);
    for (place, vector) in vectors.iter().enumerate() {
        let printed = String::from_utf8_lossy(&vector.printed);
        assert_eq!(printed_check(&vector.file, &vector.text), printed, "vector {place}");
    }
}

/// What generated texts reach, by the reference alone; each line is also what the text was made for.
#[test]
fn reaches_every_line_misprint_and_order() {
    let mut rng = Rng::new(SEED);
    let mut census = FiledTextCensus::default();
    for _ in 0..INPUTS {
        let filed = FiledText::generate(account, &mut rng);
        let counted = census.count(&filed, printed_check(&filed.filing.file, &filed.text).as_bytes());
        counted.unwrap_or_else(|why| panic!("{why}: {:?} {}", filed.misprints, String::from_utf8_lossy(&filed.text)));
    }
    for (name, count) in census.reached() {
        assert!(count >= LEAST, "{name} was reached {count} times");
    }
}

fn account(file: &[u8], rows: &mut [u64]) -> [u64; 8] {
    reference::account(file, rows, &mut [0; HOURS], &mut [0; HOURS]).cells()
}

/// The line for the example of document 01, whose row and totals these are.
const ROW: &str = "1 2 1 126500 4 1 3\n";
const TOTAL: &str = "total 0 126500 0 0 0\n";

fn example(text: &str) -> String {
    printed_check(&inputs::figures::example(), text.as_bytes())
}

#[test]
fn takes_what_account_prints() {
    assert_eq!(example(&reference::printed(&inputs::figures::example())), "yes\n");
    assert_eq!(printed_check(&[], reference::printed(&[]).as_bytes()), "yes\n");
    let zeros = "0".repeat(30);
    assert_eq!(example(&format!("{zeros}1 {zeros}2 01 126500 4 1 3\ntotal 00 126500 0 0 {zeros}\n")), "yes\n");
}

#[test]
fn names_the_first_wrong_number() {
    assert_eq!(example(&format!("1 2 1 126501 4 1 4\n{TOTAL}")), "wrong 0 3\n");
    assert_eq!(example(&format!("{ROW}total 0 126500 0 0 18446744073709551615\n")), "wrong 1 4\n");
    assert_eq!(printed_check(&[], b"total 0 0 7 0 0\n"), "wrong 0 2\n");
}

/// A last row may be short, which makes the count wrong.
#[test]
fn counts_the_numbers_of_the_rows() {
    for text in ["", "1\n", "1 2 1 126500 4 1\n", "1 2 1 126500 4 1 3\n9\n", "1 2 1 126500 4 1 3\n1 2 1 126500 4 1 3\n"]
    {
        assert_eq!(example(&format!("{text}{TOTAL}")), "refused 22 0\n", "{text:?}");
    }
}

#[test]
fn refuses_a_malformed_line() {
    let lines = [
        "\n",
        " \n",
        "1 2 1 126500 4 1 3 0\n",
        " 1 2 1 126500 4 1 3\n",
        "1  2 1 126500 4 1 3\n",
        "1 2 1 126500 4 1 3 \n",
        "1 2 1 126500 4 1 3\r\n",
        "1\t2 1 126500 4 1 3\n",
        "1 2 1 +126500 4 1 3\n",
        "1 2 1 126500.0 4 1 3\n",
        "1 2 1 126500 4 1 x\n",
        "totals 0 0 0 0 0\n",
        "Total 0 126500 0 0 0\n",
        "total\n",
    ];
    for line in lines {
        assert_eq!(example(&format!("{line}{TOTAL}")), "refused 19 1\n", "{line:?}");
        assert_eq!(example(&format!("{ROW}{line}{TOTAL}")), "refused 19 2\n", "{line:?}");
    }
}

#[test]
fn refuses_malformed_totals() {
    for line in [
        "total \n",
        "total 0 126500 0 0\n",
        "total 0 126500 0 0 0 0\n",
        "total  0 126500 0 0 0\n",
        "total 0 126500 0 0 0 \n",
        "total 0 126500 0 0 0\r\n",
        "total 0 126500 0 0 0",
        "total 0 126500 0 0 -0\n",
        "total 0 126500 0\n0 0\n",
    ] {
        assert_eq!(example(&format!("{ROW}{line}")), "refused 19 2\n", "{line:?}");
    }
    for behind in ["\n", "0", " ", ROW, TOTAL] {
        assert_eq!(example(&format!("{ROW}{TOTAL}{behind}")), "refused 19 3\n", "{behind:?}");
    }
}

/// Where the text ends before the totals, or a row is short that is not the last.
#[test]
fn waits_for_the_totals() {
    for (text, line) in [("", 1), (ROW, 2), ("1 2 1\n", 1), ("1 2 1\n2\n", 1), ("1", 1), ("1 2 1\ntotal", 1)] {
        assert_eq!(example(text), format!("refused 19 {line}\n"), "{text:?}");
    }
    assert_eq!(example(&format!("{ROW}total")), "refused 19 2\n");
    assert_eq!(example(&format!("{ROW}1 2\n{ROW}{TOTAL}")), "refused 19 2\n");
    assert_eq!(example("1 2\ntotal \n"), "refused 19 2\n");
}

/// 19 before 20 in a line, an earlier line before a later one, and bytes behind the totals after all.
#[test]
fn keeps_the_order() {
    let over = "18446744073709551616";
    let digits = "9".repeat(300);
    for number in [over, "00018446744073709551616", "18446744073709551617", &digits] {
        assert_eq!(example(&format!("1 2 1 {number} 4 1 3\n{TOTAL}")), "refused 20 1\n", "{number}");
        assert_eq!(example(&format!("{ROW}total 0 {number} 0 0 0\n")), "refused 20 2\n", "{number}");
    }
    assert_eq!(example(&format!("1 2 1 {over} 4 1 x\n{TOTAL}")), "refused 19 1\n");
    assert_eq!(example(&format!("1 2 1 {over}\n{ROW}{TOTAL}")), "refused 19 1\n");
    assert_eq!(example(&format!("1 2 1 {over}\n{TOTAL}")), "refused 20 1\n");
    assert_eq!(example(&format!("1 2 1 {over} 4 1 3\nx")), "refused 20 1\n");
    assert_eq!(example(&format!("{ROW}total 0 0 0 0 {over}\nx")), "refused 20 2\n");
    assert_eq!(example(&format!("{ROW}{ROW}total 0 0 0 0 {over}\n")), "refused 20 3\n");
}

#[test]
fn refuses_length_then_file_then_text() {
    let (sound, mut cut) = (inputs::figures::example(), inputs::figures::example());
    cut.truncate(219);
    assert_eq!(printed_check(&cut, b""), "refused 2 219\n");
    let zeros = |length: usize| "0".repeat(length - ROW.len() - TOTAL.len()) + ROW + TOTAL;
    assert_eq!(printed_check(&sound, zeros(65_536).as_bytes()), "yes\n");
    assert_eq!(printed_check(&sound, zeros(65_537).as_bytes()), "refused 13 0\n");
    assert_eq!(printed_check(&cut, &[b'x'; 65_537]), "refused 13 0\n");
    assert_eq!(printed_check(&[0; 65_536], b"x"), "refused 1 0\n");
    assert_eq!(printed_check(&[0; 65_537], b"x"), "refused 13 0\n");
}
