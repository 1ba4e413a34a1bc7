//! Vectors of text exports: the frames of the import among those of the program `calls`, with its answers.

use crate::frames::{self, Frame};

/// A text with the bytes lent for its records, and what is answered and left in them.
#[derive(Clone, Debug, PartialEq, Eq)]
pub struct ExportVector {
    pub text: Vec<u8>,
    /// The byte from which the lent ones count up.
    pub seed: u32,
    /// Number, line and count.
    pub answer: [u64; 3],
    /// All lent bytes after the call.
    pub records: Vec<u8>,
}

impl ExportVector {
    /// From a frame of call 4; none from another.
    fn of_frame(frame: Frame) -> Option<Self> {
        let [4, _, _, seed, _, _] = frame.header else { return None };
        let records = frame.answer[24..].to_vec();
        Some(ExportVector { text: frame.body.to_vec(), seed, answer: frame.cells()?, records })
    }
}

/// Lent bytes, which count up from a seed.
pub fn lent(room: usize, seed: u32) -> Vec<u8> {
    (0..room as u32).map(|place| seed.wrapping_add(place) as u8).collect()
}

/// The vectors of the repository.
pub fn load() -> Vec<ExportVector> {
    frames::load(ExportVector::of_frame)
}

#[cfg(test)]
mod tests {
    use super::ExportVector;
    use crate::frames::{taken_apart, written};

    #[test]
    fn takes_the_import_out_of_the_frames() {
        let survey = written(&[3, 1, 2, 0, 0, 0], u32::to_le_bytes);
        let import = written(&[4, 4, 2, 250, 0, 0], u32::to_le_bytes);
        let frames = [&survey[..], b"abc", &import, b"text"].concat();
        let answers = [&[9; 18][..], &written(&[0, 0, 1], u64::to_le_bytes), &[7, 251]].concat();
        let expected = ExportVector { text: b"text".to_vec(), seed: 250, answer: [0, 0, 1], records: vec![7, 251] };
        assert_eq!(taken_apart(&frames, &answers, ExportVector::of_frame), [expected]);
    }
}
