//! The check against the reference: every answer, of cells and of texts.

use std::io::Write;

use compare::{
    agreed, calls, compare_filed_texts, compare_filings, feed, filing_of_cells, generate_filed_text, generate_filing,
    right_filing,
};
use inputs::{FiledText, Filing, Rng, Size, filing_vectors, sound_lines, sound_lines_with_outfalls, wire};

const SEED: u64 = 0x0d0a_29e2_000e;
const INPUTS: usize = 20_000;
const LEAST: u64 = 100;

#[test]
fn agrees_on_generated_filings() {
    let mut rng = Rng::new(SEED);
    let filings = std::iter::repeat_with(move || generate_filing(&mut rng)).take(INPUTS);
    let census = agreed(compare_filings(&calls(), filings));
    let of_all = format!("check: {} filings of {} cells in all agree", census.inputs, census.cells);
    report(&of_all, &census.reached());
    assert_eq!(census.inputs, INPUTS as u64);
}

#[test]
fn agrees_on_generated_texts() {
    let mut rng = Rng::new(SEED + 1);
    let texts = std::iter::repeat_with(move || generate_filed_text(&mut rng)).take(INPUTS);
    let census = agreed(compare_filed_texts(&calls(), texts));
    report(&format!("checker: {} texts of {} bytes in all agree", census.inputs, census.bytes), &census.reached());
    assert_eq!(census.inputs, INPUTS as u64);
}

/// Each cell of 48 lines in turn, wrong by one and by its highest bit, and each of the totals.
#[test]
fn agrees_on_every_wrong_cell() {
    let mut rng = Rng::new(SEED + 2);
    let lines = std::iter::repeat_with(|| sound_lines_with_outfalls(Size::ManyLines, &mut rng));
    let lines = lines.into_iter().find(|lines| lines.len() == 48).expect("48 lines at some time");
    let right = right_filing(wire::file(&lines));
    let wrong = |cell: usize, change: u64| {
        let Filing { file, mut rows, mut totals, .. } = right.clone();
        let cells = rows.iter_mut().chain(&mut totals);
        cells.skip(cell).take(1).for_each(|cell| *cell ^= change);
        filing_of_cells(file, rows, totals)
    };
    let filings = (0..7 * 48 + 5).flat_map(|cell| [1, 1 << 63].map(|change| wrong(cell, change)));
    let census = agreed(compare_filings(&calls(), filings));
    assert_eq!(census.outcomes, [0, 2 * (7 * 48 + 5), 0]);
}

/// Every number of cells up to 512, for no line, few lines and many.
#[test]
fn agrees_on_every_number_of_cells() {
    let mut rng = Rng::new(SEED + 3);
    let files = [Size::Short, Size::ManyLines].map(|size| wire::file(&sound_lines(size, &mut rng)));
    let filings = [Vec::new()].into_iter().chain(files).flat_map(|file| {
        let right = right_filing(file);
        (0..=512).map(move |count| {
            let Filing { file, mut rows, totals, .. } = right.clone();
            rows.resize(count, 0);
            filing_of_cells(file, rows, totals)
        })
    });
    let census = agreed(compare_filings(&calls(), filings));
    assert_eq!((census.outcomes, census.numbers[22]), ([3, 0, 3 * 512], 3 * 512));
}

/// Every cut of a text, every byte of it lost, and every byte another.
#[test]
fn agrees_on_every_cut_and_byte() {
    let right = right_filing(inputs::figures::example());
    let text = b"1 2 1 126500 4 1 3\ntotal 0 126500 0 0 0\n";
    let others = b" \n\r\t019t+-.\0\xff";
    let cuts = (0..=text.len()).map(|length| text[..length].to_vec());
    let lost = (0..text.len()).map(|place| [&text[..place], &text[place + 1..]].concat());
    let changed = (0..text.len()).flat_map(|place| {
        others.iter().flat_map(move |&byte| {
            let (before, behind) = (&text[..place], &text[place..]);
            [[before, &[byte], behind].concat(), [before, &[byte], &behind[1..]].concat()]
        })
    });
    let texts = cuts.chain(lost).chain(changed).map(|text| FiledText::of_text(right.clone(), text));
    let census = agreed(compare_filed_texts(&calls(), texts));
    assert_eq!(census.inputs, 41 + 40 + 40 * 2 * 13);
}

#[test]
fn answers_what_the_vectors_say() {
    let vectors = filing_vectors::load();
    let asked = vectors.iter().map(|vector| filing_of_cells(vector.file.clone(), vector.rows.clone(), vector.totals));
    let mut expected = vectors.iter();
    let count = agreed(feed(&calls(), asked, |_, answer| {
        assert_eq!(Some(answer), expected.next().map(|vector| vector.answer));
        Ok(())
    }));
    assert!(count >= 159 && count == vectors.len() as u64);
}

#[test]
fn prints_what_the_vectors_say() {
    let vectors = filing_vectors::load_texts();
    let asked = vectors.iter().map(|vector| {
        let filing = filing_of_cells(vector.file.clone(), Vec::new(), [0; 5]);
        FiledText::of_text(filing, vector.text.clone())
    });
    let mut expected = vectors.iter();
    let count = agreed(feed(&calls(), asked, |_, printed| {
        assert_eq!(Some(&printed), expected.next().map(|vector| &vector.printed));
        Ok(())
    }));
    assert!(count >= 159 && count == vectors.len() as u64);
}

/// Straight to standard error, since the test harness keeps what the macros print; and each was reached.
fn report(of_all: &str, reached: &[(String, u64)]) {
    let lines: String = reached.iter().map(|(name, count)| format!("  {name}: {count}\n")).collect();
    std::io::stderr().write_all(format!("{of_all}\n{lines}").as_bytes()).expect("a standard error");
    for (name, count) in reached {
        assert!(*count >= LEAST, "{name} was hardly reached");
    }
}
