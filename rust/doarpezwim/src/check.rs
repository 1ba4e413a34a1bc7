//! Whether what a plant has filed is what its record file gives.

use std::error::Error;
use std::fmt;

use crate::{CHECK_CELLS, Pollutant, ROW_CELLS, Refusal, Totals, ffi};

/// A field of what is filed.
#[derive(Clone, Copy, Debug, PartialEq, Eq, Hash)]
pub enum Field {
    /// 0 of a row: the number of the stack or outfall.
    Source,
    /// 1 of a row.
    Pollutant,
    /// 2 of a row.
    Method,
    /// 3 of a row.
    Grams,
    /// 4 of a row: the running hours or days.
    Running,
    /// 5 of a row: those of them without data.
    Missing,
    /// 6 of a row: the first of these plus 1, or 0.
    FirstMissing,
    /// 0 to 4 of the totals: the grams of a pollutant over all rows.
    Total(Pollutant),
}

impl Field {
    /// Those of a row, in their order.
    pub const OF_A_ROW: [Field; ROW_CELLS] = [
        Field::Source,
        Field::Pollutant,
        Field::Method,
        Field::Grams,
        Field::Running,
        Field::Missing,
        Field::FirstMissing,
    ];

    /// The field's place in its row or in the totals, from 0.
    #[must_use]
    pub fn number(self) -> usize {
        match self {
            Field::Source => 0,
            Field::Pollutant => 1,
            Field::Method => 2,
            Field::Grams => 3,
            Field::Running => 4,
            Field::Missing => 5,
            Field::FirstMissing => 6,
            Field::Total(pollutant) => usize::from(pollutant.number()) - 1,
        }
    }
}

impl fmt::Display for Field {
    fn fmt(&self, text: &mut fmt::Formatter) -> fmt::Result {
        text.write_str(match self {
            Field::Source => "number of the stack or outfall",
            Field::Pollutant => "pollutant",
            Field::Method => "method",
            Field::Grams => "grams",
            Field::Running => "running hours or days",
            Field::Missing => "missing hours or days",
            Field::FirstMissing => "first missing hour or day",
            Field::Total(pollutant) => return write!(text, "total of {pollutant}"),
        })
    }
}

/// Why a filing does not agree.
#[derive(Clone, Copy, Debug, PartialEq, Eq, Hash)]
pub enum CheckError {
    /// The first cell that is not the account's, by row and then by field.
    Wrong {
        /// From 0; the totals are the row after the last.
        row: usize,
        /// Which of its fields.
        field: Field,
    },
    /// Nothing can be said of the filing: the file is refused, or the number of rows is not the file's.
    Refused(Refusal),
}

impl CheckError {
    /// What the call answered for a filing of so many rows.
    fn of_answer(outcome: u32, a: u64, b: u64, rows: usize) -> Self {
        let (row, field) = (a as usize, b as usize);
        match outcome {
            1 if row == rows => CheckError::Wrong { row, field: Field::Total(Pollutant::ALL[field]) },
            1 => CheckError::Wrong { row, field: Field::OF_A_ROW[field] },
            2 => CheckError::Refused(Refusal::of_check(a as u32, b as usize)),
            _ => panic!("the archive answers a check with {outcome}: it is newer than this crate"),
        }
    }
}

impl fmt::Display for CheckError {
    fn fmt(&self, text: &mut fmt::Formatter) -> fmt::Result {
        match self {
            CheckError::Wrong { row, field } => {
                write!(text, "wrong at row {row}, field {}, both from 0: ", field.number())?;
                write!(text, "not the {field} that the record file gives")
            }
            CheckError::Refused(refusal) => refusal.fmt(text),
        }
    }
}

impl Error for CheckError {
    fn source(&self) -> Option<&(dyn Error + 'static)> {
        match self {
            CheckError::Wrong { .. } => None,
            CheckError::Refused(refusal) => Some(refusal),
        }
    }
}

impl From<Refusal> for CheckError {
    fn from(refusal: Refusal) -> Self {
        CheckError::Refused(refusal)
    }
}

/// Checks the rows and totals that a plant has filed for a record file of any length; nothing is allocated.
///
/// `rows` are cells, seven for each line of the file, in the file's order and in that of [`Row`](crate::Row)'s fields;
/// any number may stand in them. The filing agrees exactly when rows and totals are those that
/// [`account`](crate::account) states:
///
/// ```
/// use doarpezwim::{CheckError, Field, Pollutant, Refusal};
///
/// let file = std::fs::read("../../samples/example.rec")?;
/// let mut totals = doarpezwim::account(&file)?.totals;
/// doarpezwim::check(&file, &[1, 2, 1, 126_500, 4, 1, 3], &totals)?;
///
/// let wrong = doarpezwim::check(&file, &[1, 2, 1, 126_501, 4, 1, 3], &totals);
/// assert_eq!(wrong, Err(CheckError::Wrong { row: 0, field: Field::Grams }));
///
/// totals.dust += 1;
/// let wrong = doarpezwim::check(&file, &[1, 2, 1, 126_500, 4, 1, 3], &totals);
/// assert_eq!(wrong, Err(CheckError::Wrong { row: 1, field: Field::Total(Pollutant::Dust) }));
///
/// let refused = doarpezwim::check(&file, &[], &totals);
/// assert_eq!(refused, Err(CheckError::Refused(Refusal::RowCount)));
/// # Ok::<(), Box<dyn std::error::Error>>(())
/// ```
///
/// # Errors
///
/// The file's own refusal, which is one of [`account`](crate::account)'s; then 22 if `rows` are not seven cells for
/// each line; then the first cell that is wrong.
pub fn check(file: &[u8], rows: &[u64], totals: &Totals) -> Result<(), CheckError> {
    let totals = totals.cells();
    let mut answer = [0; CHECK_CELLS];
    // SAFETY: each pointer comes with the length of its slice, and the answer is a local of its own.
    let outcome =
        unsafe { ffi::doarpezwim_check(file.as_ptr(), file.len(), rows.as_ptr(), rows.len(), &totals, &mut answer) };
    let [_, a, b] = answer;
    if outcome == 0 { Ok(()) } else { Err(CheckError::of_answer(outcome, a, b, rows.len() / ROW_CELLS)) }
}

#[cfg(test)]
mod tests {
    use std::error::Error;

    use super::{CheckError, Field};
    use crate::{Pollutant, Refusal};

    #[test]
    fn names_every_field() {
        for (place, field) in Field::OF_A_ROW.into_iter().enumerate() {
            assert_eq!(field.number(), place);
            assert_eq!(CheckError::of_answer(1, 2, place as u64, 3), CheckError::Wrong { row: 2, field });
        }
        for (place, pollutant) in Pollutant::ALL.into_iter().enumerate() {
            let field = Field::Total(pollutant);
            assert_eq!(field.number(), place);
            assert_eq!(CheckError::of_answer(1, 3, place as u64, 3), CheckError::Wrong { row: 3, field });
        }
    }

    #[test]
    fn says_what_is_wrong() {
        let grams = CheckError::of_answer(1, 2, 3, 3);
        let text = "wrong at row 2, field 3, both from 0: not the grams that the record file gives";
        assert_eq!(grams.to_string(), text);
        let dust = CheckError::of_answer(1, 3, 2, 3);
        let text = "wrong at row 3, field 2, both from 0: not the total of dust that the record file gives";
        assert_eq!(dust.to_string(), text);
        let cut = CheckError::of_answer(2, 2, 219, 3);
        assert_eq!(cut, Refusal::OutOfPlace { place: 219 }.into());
        assert!(cut.to_string().starts_with("refused 2 at byte 219: ") && cut.source().is_some());
        assert_eq!(CheckError::of_answer(2, 22, 0, 3), CheckError::Refused(Refusal::RowCount));
    }

    #[test]
    #[should_panic(expected = "answers a check with 3")]
    fn knows_no_outcome_3() {
        let _ = CheckError::of_answer(3, 0, 0, 0);
    }
}
