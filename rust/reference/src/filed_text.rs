//! Request A6: a filing as text, in the form that the program `account` prints.

use crate::digits::{is_digits, number};
use crate::refusal::{Fault, Refusal};

const ROW_NUMBERS: usize = 7;
const TOTAL: &[u8] = b"total ";

/// Rows and totals as they are filed.
#[derive(Clone, Debug, PartialEq, Eq)]
pub(crate) struct Filed {
    pub rows: Vec<u64>,
    pub totals: [u64; 5],
}

/// Reads rows up to the totals, behind which the text ends; a fault names the first line that has one, from 1.
pub(crate) fn read_filed(text: &[u8]) -> Result<Filed, Fault> {
    let mut lines = text.split_inclusive(|&byte| byte == b'\n').peekable();
    let mut rows = Vec::new();
    let mut due = 1;
    while let Some(line) = lines.next_if(|line| !is_total(line)) {
        let may_be_short = lines.peek().is_some_and(|next| is_total(next));
        rows.extend(read_row(line, may_be_short).map_err(|refusal| refusal.at(due))?);
        due += 1;
    }
    let totals = lines.next().ok_or(Refusal::TextLine).and_then(read_totals).map_err(|refusal| refusal.at(due))?;
    match lines.next() {
        Some(_) => Err(Refusal::TextLine.at(due + 1)),
        None => Ok(Filed { rows, totals }),
    }
}

fn is_total(line: &[u8]) -> bool {
    line.starts_with(TOTAL)
}

/// The numbers of a row: seven, or from one on where it may be short.
fn read_row(line: &[u8], may_be_short: bool) -> Result<Vec<u64>, Refusal> {
    let numbers = split_numbers(line).ok_or(Refusal::TextLine)?;
    let fits = numbers.len() == ROW_NUMBERS || may_be_short && numbers.len() < ROW_NUMBERS;
    if fits { numbers.into_iter().map(value).collect() } else { Err(Refusal::TextLine) }
}

fn read_totals(line: &[u8]) -> Result<[u64; 5], Refusal> {
    let numbers = line.strip_prefix(TOTAL).and_then(split_numbers).ok_or(Refusal::TextLine)?;
    let totals: [&[u8]; 5] = numbers.try_into().map_err(|_| Refusal::TextLine)?;
    let mut values = [0; 5];
    for (cell, total) in values.iter_mut().zip(totals) {
        *cell = value(total)?;
    }
    Ok(values)
}

/// What stands between single spaces, up to a line feed, if all of it is digits.
fn split_numbers(line: &[u8]) -> Option<Vec<&[u8]>> {
    let numbers: Vec<&[u8]> = line.strip_suffix(b"\n")?.split(|&byte| byte == b' ').collect();
    numbers.iter().all(|number| is_digits(number)).then_some(numbers)
}

/// A number in range is one that a cell has room for.
fn value(digits: &[u8]) -> Result<u64, Refusal> {
    number(digits).ok_or(Refusal::TextRange)
}
