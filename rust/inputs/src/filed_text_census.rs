//! What a run over filed texts has reached.

use std::collections::BTreeMap;

use crate::filed_text::{FiledText, MOST_BYTES};
use crate::filing_done::{Change, ROW_CELLS};
use crate::misprint::Misprint;

/// What is printed.
#[derive(Clone, Copy, Debug, PartialEq, Eq, PartialOrd, Ord)]
pub enum Printed {
    Yes,
    WrongRow,
    WrongTotal,
    OfTheFile,
    TooLong,
    TextLine,
    TextRange,
    RowCount,
}

impl Printed {
    const ALL: [Printed; 8] = [
        Printed::Yes,
        Printed::WrongRow,
        Printed::WrongTotal,
        Printed::OfTheFile,
        Printed::TooLong,
        Printed::TextLine,
        Printed::TextRange,
        Printed::RowCount,
    ];

    fn of(answer: [u64; 3], filed: &FiledText) -> Self {
        match answer {
            [0, ..] => Printed::Yes,
            [1, row, _] if row as usize * ROW_CELLS == filed.filing.rows.len() => Printed::WrongTotal,
            [1, ..] => Printed::WrongRow,
            [_, 13, _] => Printed::TooLong,
            [_, 19, _] => Printed::TextLine,
            [_, 20, _] => Printed::TextRange,
            [_, 22, _] => Printed::RowCount,
            _ => Printed::OfTheFile,
        }
    }
}

/// Faults that meet, of which the order decides, and texts that are peculiar.
#[derive(Clone, Copy, Debug, PartialEq, Eq, PartialOrd, Ord)]
pub enum Met {
    LineBeforeRange,
    ShortRowBeforeRange,
    /// 20, with bytes behind the totals.
    RangeBeforeBytesBehind,
    /// Two lines at fault.
    FirstLine,
    RangeBeforeLaterLine,
    TextBeforeCount,
    TextBeforeWrong,
    FileBeforeText,
    FileBeforeCount,
    LengthBeforeFile,
    LengthBeforeText,
    /// It would agree.
    LengthBeforeYes,
    /// Over 20 digits with leading zeros, in a text that agrees.
    ManyZeros,
    /// A last row of under seven numbers, in a text that is read.
    ShortRow,
    /// No row at all, in a text that is read.
    NoRows,
    /// More cells than a file of 48 lines has.
    ManyRows,
    /// The largest number that can be filed is what is wrong.
    LargestNumber,
    /// As many bytes as the program takes.
    LongestText,
    LongestFile,
}

impl Met {
    const ALL: [Met; 19] = [
        Met::LineBeforeRange,
        Met::ShortRowBeforeRange,
        Met::RangeBeforeBytesBehind,
        Met::FirstLine,
        Met::RangeBeforeLaterLine,
        Met::TextBeforeCount,
        Met::TextBeforeWrong,
        Met::FileBeforeText,
        Met::FileBeforeCount,
        Met::LengthBeforeFile,
        Met::LengthBeforeText,
        Met::LengthBeforeYes,
        Met::ManyZeros,
        Met::ShortRow,
        Met::NoRows,
        Met::ManyRows,
        Met::LargestNumber,
        Met::LongestText,
        Met::LongestFile,
    ];
}

/// Counts by what is printed, misprint that was named, and what met.
#[derive(Debug, Default)]
pub struct FiledTextCensus {
    pub inputs: u64,
    pub bytes: u64,
    pub printed: BTreeMap<Printed, u64>,
    pub misprints: BTreeMap<Misprint, u64>,
    pub met: BTreeMap<Met, u64>,
}

/// The line that is printed of an answer.
fn line([outcome, a, b]: [u64; 3]) -> String {
    match outcome {
        0 => "yes\n".to_string(),
        1 => format!("wrong {a} {b}\n"),
        _ => format!("refused {a} {b}\n"),
    }
}

impl FiledTextCensus {
    /// Counts what a filed text has reached; fails where the line does not fit what was done to it.
    pub fn count(&mut self, filed: &FiledText, printed: &[u8]) -> Result<(), String> {
        self.inputs += 1;
        self.bytes += filed.text.len() as u64;
        let Some(answer) = filed.answer() else { return Ok(()) };
        if printed != line(answer).as_bytes() {
            let printed = String::from_utf8_lossy(printed);
            return Err(format!("the text was made for {:?}, and {printed:?} is printed", line(answer)));
        }
        *self.printed.entry(Printed::of(answer, filed)).or_default() += 1;
        for misprint in named(filed, answer) {
            *self.misprints.entry(misprint).or_default() += 1;
        }
        for (met, _) in met(filed, answer).into_iter().filter(|(_, is_met)| *is_met) {
            *self.met.entry(met).or_default() += 1;
        }
        Ok(())
    }

    /// All that a run has to reach, in words and with how often it did.
    pub fn reached(&self) -> Vec<(String, u64)> {
        fn counts<K: Copy + Ord + std::fmt::Debug>(
            name: &str,
            all: impl IntoIterator<Item = K>,
            counted: &BTreeMap<K, u64>,
        ) -> Vec<(String, u64)> {
            let count = |key: K| (format!("{name} {key:?}"), counted.get(&key).copied().unwrap_or(0));
            all.into_iter().map(count).collect()
        }
        let misprints = counts("misprint", Misprint::all(), &self.misprints);
        [counts("printed", Printed::ALL, &self.printed), misprints, counts("met", Met::ALL, &self.met)].concat()
    }
}

/// The misprints that the refusal is of.
fn named(filed: &FiledText, [_, number, line]: [u64; 3]) -> impl Iterator<Item = Misprint> {
    let misprints = if [19, 20].contains(&number) { filed.misprints.as_deref().unwrap_or_default() } else { &[] };
    let named = misprints.iter().filter(move |done| done.line == line && done.misprint.number() == number);
    named.map(|done| done.misprint)
}

fn met(filed: &FiledText, answer: [u64; 3]) -> [(Met, bool); 19] {
    let (filing, misprints) = (&filed.filing, filed.misprints.as_deref().unwrap_or_default());
    let [outcome, number, line] = answer;
    let is_read =
        misprints.is_empty() && filed.misprints.is_some() && !filed.is_too_long() && !filing.file_is_refused();
    let of_text = outcome == 2 && [19, 20].contains(&number);
    let over_here = misprints.iter().any(|done| done.line == line && done.misprint.number() == 20);
    let short_here = misprints.iter().any(|done| done.line == line && done.misprint == Misprint::NumberLost);
    let later = misprints.iter().any(|done| done.line > line);
    let behind = misprints.iter().any(|done| done.misprint == Misprint::BytesBehind);
    let too_long = outcome == 2 && number == 13;
    let of_file = filing.file_is_refused() && !too_long;
    let has_zeros = || filed.text.split(|byte| !byte.is_ascii_digit()).any(|number| number.len() > 20);
    [
        (Met::LineBeforeRange, of_text && number == 19 && over_here && !short_here),
        (Met::ShortRowBeforeRange, of_text && number == 19 && over_here && short_here),
        (Met::RangeBeforeBytesBehind, of_text && number == 20 && behind),
        (Met::FirstLine, of_text && later && !behind),
        (Met::RangeBeforeLaterLine, of_text && number == 20 && later && !behind),
        (Met::TextBeforeCount, of_text && filing.answer == [2, 22, 0]),
        (Met::TextBeforeWrong, of_text && filing.answer[0] == 1),
        (Met::FileBeforeText, of_file && !misprints.is_empty()),
        (Met::FileBeforeCount, of_file && misprints.is_empty() && !filing.rows.len().is_multiple_of(ROW_CELLS)),
        (Met::LengthBeforeFile, too_long && filing.file_is_refused()),
        (Met::LengthBeforeText, too_long && !misprints.is_empty()),
        (Met::LengthBeforeYes, too_long && misprints.is_empty() && filing.answer[0] == 0),
        (Met::ManyZeros, outcome == 0 && has_zeros()),
        (Met::ShortRow, is_read && !filing.rows.len().is_multiple_of(ROW_CELLS)),
        (Met::NoRows, is_read && filing.rows.is_empty()),
        (Met::ManyRows, is_read && filed.text.iter().filter(|byte| **byte == b'\n').count() > 49),
        (Met::LargestNumber, outcome == 1 && filing.change == Some(Change::Most)),
        (Met::LongestText, is_read && filed.text.len() == MOST_BYTES),
        (Met::LongestFile, of_file && filing.file.len() == MOST_BYTES),
    ]
}
