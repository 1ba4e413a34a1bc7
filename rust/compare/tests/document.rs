//! The proved calls against the worked figures of document 01 and its requests, and against the vectors.

use compare::{AccountCall, agreed, calls, feed};
use inputs::figures::figures;
use inputs::vectors::{self, PROGRAM_MOST};

#[test]
fn states_the_worked_figures() {
    let asked = figures();
    let files = asked.iter().map(|figure| AccountCall::of_file(figure.file.clone(), 7, 7));
    let mut figures = asked.iter();
    let count = agreed(feed(&calls(), files, |_, outcome| {
        figures.next().expect("an answer for each figure").check(&outcome);
        Ok(())
    }));
    assert_eq!(count, asked.len() as u64);
}

/// What is printed of a file; the program's limit of 65,536 bytes is added here.
#[test]
fn answers_what_the_vectors_say() {
    let vectors = vectors::load();
    let files = vectors.files.iter().map(|file| AccountCall::of_file(file.clone(), 7 * 48, 0));
    let mut texts = Vec::new();
    agreed(feed(&calls(), files, |call, outcome| {
        let [number, place, rows, totals @ ..] = outcome.answer;
        let answer = reference::Answer { number: number as u32, place, rows, totals };
        let limit = if call.case.file.len() > PROGRAM_MOST { "refused 13 0\n" } else { "" };
        texts.push(format!("{limit}{}", reference::text(&answer, &outcome.rows)));
        Ok(())
    }));
    assert!(vectors::check(&vectors, texts) >= 1_099);
}
