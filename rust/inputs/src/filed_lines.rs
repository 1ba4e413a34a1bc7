//! Lines of a filed text; every word takes any bytes, so that faulty lines can be written too.

use crate::export_lines::zeros;
use crate::filing::Filing;
use crate::filing_done::ROW_CELLS;
use crate::rng::Rng;

/// The largest number that a filed text may have.
pub const MOST_NUMBER: u64 = u64::MAX;

/// The words between the blanks: the numbers of a row; or `total` and five numbers, unless it was damaged.
#[derive(Clone, Debug)]
pub struct Line(pub Vec<Vec<u8>>);

impl Line {
    fn of_numbers(numbers: &[u64], rng: &mut Rng) -> Self {
        Line(numbers.iter().map(|number| (zeros(rng) + &number.to_string()).into_bytes()).collect())
    }

    /// A line of one empty word.
    pub fn empty() -> Self {
        Line(vec![Vec::new()])
    }

    /// The place of the first number: the word comes before it.
    pub fn first_number(&self) -> usize {
        usize::from(self.0.first().is_some_and(|word| word == b"total"))
    }

    pub fn is_total(&self) -> bool {
        self.first_number() == 1
    }

    /// Any of its numbers.
    pub fn number(&mut self, rng: &mut Rng) -> &mut Vec<u8> {
        let place = rng.between(self.first_number(), self.0.len() - 1);
        &mut self.0[place]
    }
}

/// The rows, and the totals behind them.
pub fn lines(filing: &Filing, rng: &mut Rng) -> Vec<Line> {
    let mut lines: Vec<Line> = filing.rows.chunks(ROW_CELLS).map(|row| Line::of_numbers(row, rng)).collect();
    let mut totals = Line::of_numbers(&filing.totals, rng);
    totals.0.insert(0, b"total".to_vec());
    lines.push(totals);
    lines
}

/// The text of all lines, each of them ended.
pub fn text(lines: &[Line]) -> Vec<u8> {
    lines.iter().flat_map(|line| [line.0.join(&b' '), vec![b'\n']].concat()).collect()
}
