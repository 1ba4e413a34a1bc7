//! The numbers that say no.

use std::error::Error;
use std::fmt;

/// Why a call states nothing: a variant for each number that the library answers.
///
/// A place counts the file's bytes from 0. For a field or a reading (4 and 14 to 17) it is where the first wrong one
/// starts; for 1, 2, 5, 6, 7 and 18 where the record at fault starts, or the file's length if the file ends between two
/// records with a line still open. 19 to 21 are of a text export and have a line, counted from 1, and no place. As text
/// a refusal says what is wrong and what to do:
///
/// ```
/// let refusal = doarpezwim::account(b"no record").unwrap_err();
/// assert_eq!((refusal.number(), refusal.place()), (1, Some(0)));
/// assert!(refusal.to_string().starts_with("refused 1 at byte 0: the record is cut short"));
///
/// let mut file = std::fs::read("../../samples/example.rec")?;
/// file[9] = 8; // The head's coal, which is 1 to 7.
/// assert_eq!(doarpezwim::account(&file), Err(doarpezwim::Refusal::HeadField { place: 9 }));
/// # Ok::<(), std::io::Error>(())
/// ```
#[derive(Clone, Copy, Debug, PartialEq, Eq, Hash)]
#[non_exhaustive]
pub enum Refusal {
    /// 1: the record is cut short, of an unknown kind, or not of its kind's length.
    CutOrUnknown {
        /// Where the record starts.
        place: usize,
    },
    /// 2: the record is out of place, one too many, or its day, hour or line does not rise; or the file ends in a line.
    OutOfPlace {
        /// Where the record starts, or the file's length.
        place: usize,
    },
    /// 4: a reading is not allowed or over its limit, or an hour or day that is not measured has bytes other than zero.
    BadReading {
        /// Where the first concentration or flow at fault starts; `None` from a panel.
        place: Option<usize>,
    },
    /// 5: a survey names an hour in which the stack was stopped, or a day on which the outfall was.
    StoppedSurvey {
        /// Where the survey starts.
        place: usize,
    },
    /// 6: the line goes by fuel and has no batch.
    NoBatch {
        /// Where the line's end record starts.
        place: usize,
    },
    /// 7: the line goes by fuel and the tables have no entry for its boiler.
    NoEntry {
        /// Where the line's end record starts.
        place: usize,
    },
    /// 8: fewer than [`ROW_CELLS`](crate::ROW_CELLS) cells a line were lent for rows.
    FewRowCells,
    /// 9: a work slice has under [`WORK_CELLS`](crate::WORK_CELLS) cells.
    FewWorkCells,
    /// 10: the panel's total would pass 2^53.
    PanelOver,
    /// 11: the panel holds 2,208 hours already.
    PanelFull,
    /// 12: the panel's state is not lawful.
    PanelUnlawful,
    /// 14: a field of a head is out of range.
    HeadField {
        /// Where the first wrong field starts.
        place: usize,
    },
    /// 15: a mask has bits past hour 23, or the measured mask has hours that the run mask has not; or the state of an
    /// outfall's day is none of 0, 1, 2.
    Mask {
        /// Where the run mask starts, or the measured mask if the run mask is right; or where the state stands.
        place: usize,
    },
    /// 16: a field of a fuel batch is out of range, or its kg take the line's fuel over the limit.
    FuelField {
        /// Where the first wrong field starts; the line's fuel counts for the kg.
        place: usize,
    },
    /// 17: a survey's hour, or its day at an outfall, is past the period.
    SurveyHour {
        /// Where the hour or the day starts.
        place: usize,
    },
    /// 18: no method is left for the outfall's line: a day is missing, and there is no survey.
    NoMethod {
        /// Where the line's end record starts.
        place: usize,
    },
    /// 19: a line of the text is malformed, is not of the hour that is due, or does not end; or it is the last one of a
    /// day that is not finished.
    TextLine {
        /// The line, from 1.
        line: usize,
    },
    /// 20: a reading in the text is over its limit, or a day is past 91.
    TextRange {
        /// The line, from 1.
        line: usize,
    },
    /// 21: fewer than [`DAY_BYTES`](crate::DAY_BYTES) bytes a day were lent for records.
    FewRecordBytes {
        /// The first line of the day without room, from 1.
        line: usize,
    },
    /// 22: the filed row cells are not [`ROW_CELLS`](crate::ROW_CELLS) for each line of the file.
    RowCount,
}

impl Refusal {
    /// The number that docs/REFUSALS.md and the C interface have for it.
    #[must_use]
    pub fn number(&self) -> u32 {
        match self {
            Refusal::CutOrUnknown { .. } => 1,
            Refusal::OutOfPlace { .. } => 2,
            Refusal::BadReading { .. } => 4,
            Refusal::StoppedSurvey { .. } => 5,
            Refusal::NoBatch { .. } => 6,
            Refusal::NoEntry { .. } => 7,
            Refusal::FewRowCells => 8,
            Refusal::FewWorkCells => 9,
            Refusal::PanelOver => 10,
            Refusal::PanelFull => 11,
            Refusal::PanelUnlawful => 12,
            Refusal::HeadField { .. } => 14,
            Refusal::Mask { .. } => 15,
            Refusal::FuelField { .. } => 16,
            Refusal::SurveyHour { .. } => 17,
            Refusal::NoMethod { .. } => 18,
            Refusal::TextLine { .. } => 19,
            Refusal::TextRange { .. } => 20,
            Refusal::FewRecordBytes { .. } => 21,
            Refusal::RowCount => 22,
        }
    }

    /// Where in the file it lies, if it lies in a file.
    #[must_use]
    pub fn place(&self) -> Option<usize> {
        match *self {
            Refusal::CutOrUnknown { place }
            | Refusal::OutOfPlace { place }
            | Refusal::StoppedSurvey { place }
            | Refusal::NoBatch { place }
            | Refusal::NoEntry { place }
            | Refusal::HeadField { place }
            | Refusal::Mask { place }
            | Refusal::FuelField { place }
            | Refusal::SurveyHour { place }
            | Refusal::NoMethod { place } => Some(place),
            Refusal::BadReading { place } => place,
            Refusal::FewRowCells
            | Refusal::FewWorkCells
            | Refusal::PanelOver
            | Refusal::PanelFull
            | Refusal::PanelUnlawful
            | Refusal::TextLine { .. }
            | Refusal::TextRange { .. }
            | Refusal::FewRecordBytes { .. }
            | Refusal::RowCount => None,
        }
    }

    /// In which line of the text it lies, counted from 1, if it lies in a text.
    #[must_use]
    pub fn line(&self) -> Option<usize> {
        match *self {
            Refusal::TextLine { line } | Refusal::TextRange { line } | Refusal::FewRecordBytes { line } => Some(line),
            _ => None,
        }
    }

    /// What the account call answered.
    pub(crate) fn of_account(number: u32, place: usize) -> Self {
        match number {
            1 => Refusal::CutOrUnknown { place },
            2 => Refusal::OutOfPlace { place },
            4 => Refusal::BadReading { place: Some(place) },
            5 => Refusal::StoppedSurvey { place },
            6 => Refusal::NoBatch { place },
            7 => Refusal::NoEntry { place },
            8 => Refusal::FewRowCells,
            9 => Refusal::FewWorkCells,
            14 => Refusal::HeadField { place },
            15 => Refusal::Mask { place },
            16 => Refusal::FuelField { place },
            17 => Refusal::SurveyHour { place },
            18 => Refusal::NoMethod { place },
            _ => panic!("the archive refuses a file with {number}: it is newer than this crate"),
        }
    }

    /// What the panel answered.
    pub(crate) fn of_panel(number: u32) -> Self {
        match number {
            4 => Refusal::BadReading { place: None },
            10 => Refusal::PanelOver,
            11 => Refusal::PanelFull,
            12 => Refusal::PanelUnlawful,
            _ => panic!("the archive refuses a panel's hour with {number}: it is newer than this crate"),
        }
    }

    /// What the import call answered.
    pub(crate) fn of_import(number: u32, line: usize) -> Self {
        match number {
            19 => Refusal::TextLine { line },
            20 => Refusal::TextRange { line },
            21 => Refusal::FewRecordBytes { line },
            _ => panic!("the archive refuses a text with {number}: it is newer than this crate"),
        }
    }

    /// What the check answered: the file's own refusal, or the row count's.
    pub(crate) fn of_check(number: u32, place: usize) -> Self {
        match number {
            22 => Refusal::RowCount,
            _ => Refusal::of_account(number, place),
        }
    }

    fn fault(&self) -> &'static str {
        match self {
            Refusal::CutOrUnknown { .. } => "the record is cut short, of an unknown kind, or not of its kind's length",
            Refusal::OutOfPlace { .. } => {
                "the record is out of place or one too many, its day, hour or line does not rise, or the file ends \
                 inside a line"
            }
            Refusal::BadReading { .. } => {
                "a reading is not a number, infinite, negative or over its limit, or an hour or day that is not \
                 measured has bytes other than zero"
            }
            Refusal::StoppedSurvey { .. } => "a survey names an hour or day in which the stack or outfall was stopped",
            Refusal::NoBatch { .. } => "the line goes by fuel, since too many hours lack data, and it has no batch",
            Refusal::NoEntry { .. } => "the line goes by fuel, and the tables have no entry for its boiler",
            Refusal::FewRowCells => "fewer than 7 cells a line were lent for rows",
            Refusal::FewWorkCells => "a work slice has under 2,208 cells",
            Refusal::PanelOver => "the panel's total would pass 2^53",
            Refusal::PanelFull => "the panel holds 2,208 hours already",
            Refusal::PanelUnlawful => "the panel's state is not lawful",
            Refusal::HeadField { .. } => "a field of a head is out of range",
            Refusal::Mask { .. } => {
                "a mask has bits past hour 23, the measured mask has hours that the run mask has not, or the state of \
                 an outfall's day does not exist"
            }
            Refusal::FuelField { .. } => {
                "a field of a fuel batch is out of range, or takes the line's fuel over 10,000,000,000 kg"
            }
            Refusal::SurveyHour { .. } => "a survey's hour or day is past the period",
            Refusal::NoMethod { .. } => "no method is left: a day of the outfall is missing, and there is no survey",
            Refusal::TextLine { .. } => {
                "the line is malformed, is not the hour that is due, or does not end, or it is the last one of a day \
                 that is not finished"
            }
            Refusal::TextRange { .. } => {
                "a concentration is over 10,000, a flow is over 5,000,000, or a day is past 91"
            }
            Refusal::FewRecordBytes { .. } => "fewer than 205 bytes a day were lent for records",
            Refusal::RowCount => "the filed row cells are not 7 for each line of the file",
        }
    }

    fn remedy(&self) -> &'static str {
        match self {
            Refusal::CutOrUnknown { .. } => "send the file again whole, or write the record's length and kind anew",
            Refusal::OutOfPlace { .. } => "write the records in the order of docs/FORMAT.md and close each line",
            Refusal::BadReading { .. } => {
                "correct it, or leave a survey out, or mark the hour or day missing with eight zero bytes"
            }
            Refusal::StoppedSurvey { .. } => "correct the survey's hour or day, or the day's run mask or state",
            Refusal::NoBatch { .. } => "add the line's fuel batches",
            Refusal::NoEntry { .. } => "check the head's furnace, coal, MW and mark",
            Refusal::FewRowCells => "lend 7 cells for each line; 336 are always enough",
            Refusal::FewWorkCells => "lend two slices of 2,208 cells or more",
            Refusal::PanelOver | Refusal::PanelFull => "start a new panel",
            Refusal::PanelUnlawful => "go on from a state that the panel handed back",
            Refusal::HeadField { .. } => "correct the field at its source; docs/FORMAT.md has the ranges",
            Refusal::Mask { .. } => {
                "set bit h for hour h, 0 to 23, and a measured bit only with its run bit; a state is 0 stopped, \
                 1 missing or 2 measured"
            }
            Refusal::FuelField { .. } => "correct the field at its source: whole kg, and hundredths of a per cent",
            Refusal::SurveyHour { .. } => {
                "correct the hour, 24 x day + hour from 0, or the outfall's day, from 0, or the days in the line's head"
            }
            Refusal::NoMethod { .. } => {
                "add what was left out: the missing days' readings, or a survey, for which any running day will do"
            }
            Refusal::TextLine { .. } => {
                "write each hour from day 0 on as day,hour,R,concentration,flow or day,hour,M,, or day,hour,S,, with a \
                 single line feed behind it and no blank in it, and all 24 hours of each day"
            }
            Refusal::TextRange { .. } => {
                "correct the reading at its source, or write the hour as missing; export at most 92 days at a time"
            }
            Refusal::FewRecordBytes { .. } => "lend 205 bytes for each day; 18,860 are always enough",
            Refusal::RowCount => "file one row for each line, seven cells each, in the file's order",
        }
    }
}

impl fmt::Display for Refusal {
    fn fmt(&self, text: &mut fmt::Formatter) -> fmt::Result {
        write!(text, "refused {}", self.number())?;
        if let Some(place) = self.place() {
            write!(text, " at byte {place}")?;
        }
        if let Some(line) = self.line() {
            write!(text, " at line {line}")?;
        }
        write!(text, ": {}; {}", self.fault(), self.remedy())
    }
}

impl Error for Refusal {}

#[cfg(test)]
mod tests {
    use super::Refusal;

    #[test]
    fn keeps_number_and_place() {
        for number in [1, 2, 4, 5, 6, 7, 8, 9, 14, 15, 16, 17, 18] {
            let refusal = Refusal::of_account(number, 205);
            assert_eq!(refusal.number(), number);
            assert_eq!(refusal.place(), (![8, 9].contains(&number)).then_some(205));
        }
        for number in [4, 10, 11, 12] {
            let refusal = Refusal::of_panel(number);
            assert_eq!((refusal.number(), refusal.place()), (number, None));
        }
        for number in [19, 20, 21] {
            let refusal = Refusal::of_import(number, 25);
            assert_eq!((refusal.number(), refusal.place(), refusal.line()), (number, None, Some(25)));
        }
        assert_eq!(Refusal::of_check(2, 219), Refusal::OutOfPlace { place: 219 });
        let refusal = Refusal::of_check(22, 0);
        assert_eq!((refusal.number(), refusal.place(), refusal.line()), (22, None, None));
    }

    #[test]
    #[should_panic(expected = "refuses a file with 3")]
    fn knows_no_3() {
        let _ = Refusal::of_account(3, 0);
    }

    #[test]
    fn says_what_is_wrong_and_what_to_do() {
        let text = Refusal::StoppedSurvey { place: 219 }.to_string();
        let expected = "refused 5 at byte 219: a survey names an hour or day in which the stack or outfall was \
                        stopped; correct the survey's hour or day, or the day's run mask or state";
        assert_eq!(text, expected);
        assert_eq!(
            Refusal::HeadField { place: 9 }.to_string(),
            "refused 14 at byte 9: a field of a head is out of range; correct the field at its source; docs/FORMAT.md \
             has the ranges"
        );
        assert_eq!(
            Refusal::NoMethod { place: 36 }.to_string(),
            "refused 18 at byte 36: no method is left: a day of the outfall is missing, and there is no survey; add \
             what was left out: the missing days' readings, or a survey, for which any running day will do"
        );
        assert_eq!(
            Refusal::PanelFull.to_string(),
            "refused 11: the panel holds 2,208 hours already; start a new panel"
        );
        assert_eq!(
            Refusal::FewRecordBytes { line: 25 }.to_string(),
            "refused 21 at line 25: fewer than 205 bytes a day were lent for records; lend 205 bytes for each day; \
             18,860 are always enough"
        );
        assert_eq!(
            Refusal::RowCount.to_string(),
            "refused 22: the filed row cells are not 7 for each line of the file; file one row for each line, seven \
             cells each, in the file's order"
        );
    }
}
