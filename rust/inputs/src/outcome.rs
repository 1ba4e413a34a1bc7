//! What an account call answered and wrote.

use std::fmt::Debug;

/// Number, place, row count and five totals, and the lent cells as they stand after the call.
#[derive(Clone, Debug, PartialEq, Eq)]
pub struct Outcome {
    pub answer: [u64; 8],
    pub rows: Vec<u64>,
    pub concentration: Vec<u32>,
    pub flow: Vec<u32>,
}

impl Outcome {
    pub fn number(&self) -> u64 {
        self.answer[0]
    }

    pub fn place(&self) -> u64 {
        self.answer[1]
    }

    /// The rows that the answer counts.
    pub fn stated(&self) -> impl Iterator<Item = &[u64]> {
        self.rows.chunks_exact(7).take(self.answer[2] as usize)
    }

    /// Where this outcome first is another than `expected`, in words.
    pub fn difference(&self, expected: &Outcome) -> Option<String> {
        if self.answer != expected.answer {
            return Some(format!("the answer is {:?}, and was to be {:?}", self.answer, expected.answer));
        }
        first_difference("row", &self.rows, &expected.rows)
            .or_else(|| first_difference("concentration", &self.concentration, &expected.concentration))
            .or_else(|| first_difference("flow", &self.flow, &expected.flow))
    }
}

fn first_difference<T: Copy + Debug + PartialEq>(name: &str, cells: &[T], expected: &[T]) -> Option<String> {
    if cells.len() != expected.len() {
        return Some(format!("there are {} {name} cells, and were to be {}", cells.len(), expected.len()));
    }
    let place = (0..cells.len()).find(|&place| cells[place] != expected[place])?;
    Some(format!("{name} cell {place} is {:?}, and was to be {:?}", cells[place], expected[place]))
}

#[cfg(test)]
mod tests {
    use super::Outcome;

    #[test]
    fn names_the_first_difference() {
        let one = Outcome { answer: [0; 8], rows: vec![1; 7], concentration: vec![2; 3], flow: vec![3; 3] };
        assert_eq!(one.difference(&one), None);
        let other = Outcome { flow: vec![3, 3, 4], ..one.clone() };
        assert_eq!(one.difference(&other).as_deref(), Some("flow cell 2 is 3, and was to be 4"));
        let short = Outcome { rows: vec![1; 6], ..one.clone() };
        assert_eq!(one.difference(&short).as_deref(), Some("there are 7 row cells, and were to be 6"));
        assert!(one.difference(&Outcome { answer: [1; 8], ..one.clone() }).is_some());
    }
}
