//! What the programs `account` and `checker` print.

use std::fmt::Write;

use crate::account::{Answer, account};
use crate::filed_text::read_filed;
use crate::filing::{Checked, Right};
use crate::hours::HOURS;
use crate::refusal::Refusal;

/// The programs' limit; the library has none.
const MOST_BYTES: usize = 65_536;
const ROW_CELLS: usize = 7 * 48;

/// The text for a file on standard input.
pub fn printed(file: &[u8]) -> String {
    if file.len() > MOST_BYTES {
        return text(&Answer { number: Refusal::TooLong.number(), ..Answer::default() }, &[]);
    }
    let mut rows = [0; ROW_CELLS];
    let answer = account(file, &mut rows, &mut [0; HOURS], &mut [0; HOURS]);
    text(&answer, &rows)
}

/// The text of an answer and its rows.
pub fn text(answer: &Answer, rows: &[u64]) -> String {
    if answer.number != 0 {
        return format!("refused {} {}\n", answer.number, answer.place);
    }
    let mut text = String::new();
    for row in rows.chunks_exact(7).take(answer.rows as usize) {
        let fields: Vec<String> = row.iter().map(u64::to_string).collect();
        text.push_str(&fields.join(" "));
        text.push('\n');
    }
    let totals = answer.totals.map(|total| total.to_string());
    writeln!(text, "total {}", totals.join(" ")).expect("a String takes every write");
    text
}

/// The line that is printed for a record file and the text of what was filed for it.
pub fn printed_check(file: &[u8], text: &[u8]) -> String {
    let too_long = [file, text].iter().any(|input| input.len() > MOST_BYTES);
    let checked = if too_long { Checked::refused(Refusal::TooLong.at(0)) } else { check_text(file, text) };
    checked_line(&checked)
}

/// The file's own refusal comes before the text's.
fn check_text(file: &[u8], text: &[u8]) -> Checked {
    let right = match Right::of_file(file) {
        Ok(right) => right,
        Err(refused) => return refused,
    };
    read_filed(text).map_or_else(Checked::refused, |filed| right.check(&filed.rows, &filed.totals))
}

/// The line of an answer of the check.
fn checked_line(checked: &Checked) -> String {
    match checked {
        Checked::Agrees => "yes\n".to_string(),
        Checked::Wrong { row, field } => format!("wrong {row} {field}\n"),
        Checked::Refused { number, place } => format!("refused {number} {place}\n"),
    }
}
