//! The numbers that say no.

/// A reason to refuse; its discriminant is the number of document 01, from 14 on of A1, A3, A5 and A6. 3 is not
/// given.
#[derive(Clone, Copy, Debug, PartialEq, Eq)]
#[repr(u32)]
pub enum Refusal {
    Form = 1,
    Place = 2,
    Reading = 4,
    Stopped = 5,
    NoBatch = 6,
    NoEntry = 7,
    FewRows = 8,
    FewCells = 9,
    TotalTooLarge = 10,
    PanelFull = 11,
    Unlawful = 12,
    TooLong = 13,
    HeadField = 14,
    /// Of water the state of a day.
    Mask = 15,
    Fuel = 16,
    PastPeriod = 17,
    NoMethod = 18,
    /// Malformed or misplaced, or the last one of a day that is not finished. Of a filing too.
    TextLine = 19,
    /// A number out of range, or a day past 91. Of a filing too.
    TextRange = 20,
    /// For a day's record.
    FewBytes = 21,
    /// Of filed cells, which are seven for each line.
    RowCount = 22,
}

impl Refusal {
    pub fn number(self) -> u32 {
        self as u32
    }

    pub(crate) fn at(self, place: usize) -> Fault {
        Fault { refusal: self, place }
    }

    /// The record as a whole is at fault, not one of its fields.
    pub(crate) fn at_record(self) -> Fault {
        self.at(0)
    }
}

/// A refusal together with the byte offset that it names: in the record while that is judged, then in the file. Of a
/// text it is the line.
#[derive(Clone, Copy, Debug, PartialEq, Eq)]
pub(crate) struct Fault {
    pub refusal: Refusal,
    pub place: usize,
}

impl Fault {
    /// The same fault for the file, in which its record starts at `record`.
    pub fn of_record_at(self, record: usize) -> Self {
        Fault { place: record + self.place, ..self }
    }
}

/// What has to hold of a record, or else this fault.
pub(crate) fn demand(holds: bool, fault: Fault) -> Result<(), Fault> {
    if holds { Ok(()) } else { Err(fault) }
}
