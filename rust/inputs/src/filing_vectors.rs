//! Vectors of filings: the frames of the check among those of the program `calls`, as cells and as texts.

use crate::frames::{self, Frame};

/// A record file with filed cells, and what is answered.
#[derive(Clone, Debug, PartialEq, Eq)]
pub struct FilingVector {
    pub file: Vec<u8>,
    pub rows: Vec<u64>,
    pub totals: [u64; 5],
    /// Outcome, then row and field or number and place.
    pub answer: [u64; 3],
}

impl FilingVector {
    /// From a frame of call 5; none from another.
    fn of_frame(frame: Frame) -> Option<Self> {
        let [5, length, ..] = frame.header else { return None };
        let (file, cells) = frame.body.split_at(length as usize);
        let (rows, totals) = cells.as_chunks().0.split_last_chunk::<5>()?;
        let rows = rows.iter().copied().map(u64::from_le_bytes).collect();
        let totals = totals.map(u64::from_le_bytes);
        Some(FilingVector { file: file.to_vec(), rows, totals, answer: frame.cells()? })
    }
}

/// A record file with the text of what was filed, and the line that is printed.
#[derive(Clone, Debug, PartialEq, Eq)]
pub struct FiledTextVector {
    pub file: Vec<u8>,
    pub text: Vec<u8>,
    pub printed: Vec<u8>,
}

impl FiledTextVector {
    /// From a frame of call 6; none from another.
    fn of_frame(frame: Frame) -> Option<Self> {
        let [6, length, ..] = frame.header else { return None };
        let (file, text) = frame.body.split_at(length as usize);
        let printed = frame.answer[4..].to_vec();
        Some(FiledTextVector { file: file.to_vec(), text: text.to_vec(), printed })
    }
}

/// The vectors of the repository, as cells.
pub fn load() -> Vec<FilingVector> {
    frames::load(FilingVector::of_frame)
}

/// The vectors of the repository, as texts.
pub fn load_texts() -> Vec<FiledTextVector> {
    frames::load(FiledTextVector::of_frame)
}

#[cfg(test)]
mod tests {
    use super::{FiledTextVector, FilingVector};
    use crate::frames::{taken_apart, written};

    #[test]
    fn takes_the_check_out_of_the_frames() {
        let numbers = |numbers: &[u64]| written(numbers, u64::to_le_bytes);
        let [survey, cells, text] = [[3, 1, 2, 0, 0, 0], [5, 3, 2, 0, 0, 0], [6, 2, 4, 0, 0, 0]]
            .map(|header| written(&header, u32::to_le_bytes));
        let frames =
            [&survey[..], b"abc", &cells, b"rec", &numbers(&[1, u64::MAX, 2, 3, 4, 5, 6]), &text, b"rctext"].concat();
        let answers = [&[9; 18][..], &numbers(&[2, 22, 0]), &[4, 0, 0, 0], b"yes\n"].concat();
        let filing = FilingVector {
            file: b"rec".to_vec(),
            rows: vec![1, u64::MAX],
            totals: [2, 3, 4, 5, 6],
            answer: [2, 22, 0],
        };
        assert_eq!(taken_apart(&frames, &answers, FilingVector::of_frame), [filing]);
        let text = FiledTextVector { file: b"rc".to_vec(), text: b"text".to_vec(), printed: b"yes\n".to_vec() };
        assert_eq!(taken_apart(&frames, &answers, FiledTextVector::of_frame), [text]);
    }
}
