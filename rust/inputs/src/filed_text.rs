//! One input of the program `checker`: a record file, and the text of what was filed for it.

use crate::damage_bytes;
use crate::filed_lines::{Line, MOST_NUMBER, lines, text};
use crate::filing::{Account, Filing};
use crate::misprint::Misprint;
use crate::rng::Rng;
use crate::sound;
use crate::wire;

/// The bytes that the program takes of each.
pub const MOST_BYTES: usize = 65_536;

#[derive(Clone, Debug)]
pub struct FiledText {
    pub filing: Filing,
    pub text: Vec<u8>,
    /// What was done to the text; `None` if its bytes were changed anyhow.
    pub misprints: Option<Vec<Misprinted>>,
}

/// A misprint, and the line at which it is found, counted from 1.
#[derive(Clone, Copy, Debug, PartialEq, Eq)]
pub struct Misprinted {
    pub line: u64,
    pub misprint: Misprint,
}

impl Misprinted {
    fn at(place: usize, misprint: Misprint) -> Self {
        Misprinted { line: place as u64 + 1, misprint }
    }
}

impl FiledText {
    /// Mostly of few lines; two of three have a misprint.
    pub fn generate(account: Account, rng: &mut Rng) -> Self {
        let filing = Filing::generate(account, MOST_NUMBER, rng);
        match rng.below(40) {
            0..=6 => FiledText::of_filing(filing, rng),
            7 | 8 => FiledText::with_many_zeros(filing, rng),
            9..=22 => FiledText::with_a_line_spoiled(filing, rng),
            23..=27 => FiledText::with_the_text_spoiled(filing, rng),
            28..=30 => FiledText::with_a_line_spoiled_twice(filing, rng),
            31..=33 => FiledText::with_two_lines_spoiled(filing, rng),
            34 => FiledText::with_totals_over_and_bytes_behind(filing, rng),
            35 => FiledText::of_a_long_text(filing, rng),
            36 | 37 => FiledText::with_a_long_file(filing, account, rng),
            38 => FiledText::of_many_rows(filing, rng),
            _ => FiledText::with_bytes_damaged(filing, rng),
        }
    }

    /// The same filing with any text.
    pub fn of_text(filing: Filing, text: Vec<u8>) -> Self {
        FiledText { filing, text, misprints: None }
    }

    /// Outcome, then row and field or number and place, if what was done to the text is known or does not matter.
    pub fn answer(&self) -> Option<[u64; 3]> {
        if self.is_too_long() {
            return Some([2, 13, 0]);
        }
        if self.filing.file_is_refused() {
            return Some(self.filing.answer);
        }
        let faults = self.misprints.as_ref()?.iter().map(|done| (done.line, done.misprint.number()));
        Some(faults.min().map_or(self.filing.answer, |(line, number)| [2, number, line]))
    }

    /// Whether the file, or the text, has more bytes than the program takes.
    pub fn is_too_long(&self) -> bool {
        self.filing.file.len().max(self.text.len()) > MOST_BYTES
    }

    fn of_lines(filing: Filing, lines: &[Line], misprints: Vec<Misprinted>) -> Self {
        FiledText { filing, text: text(lines), misprints: Some(misprints) }
    }

    fn of_filing(filing: Filing, rng: &mut Rng) -> Self {
        let lines = lines(&filing, rng);
        FiledText::of_lines(filing, &lines, Vec::new())
    }

    /// Numbers that have more digits than the largest one, and are small all the same.
    fn with_many_zeros(filing: Filing, rng: &mut Rng) -> Self {
        let mut lines = lines(&filing, rng);
        for _ in 0..rng.between(1, 3) {
            let line = rng.below(lines.len());
            lines[line].number(rng).splice(..0, vec![b'0'; rng.between(20, 300)]);
        }
        FiledText::of_lines(filing, &lines, Vec::new())
    }

    fn with_a_line_spoiled(filing: Filing, rng: &mut Rng) -> Self {
        let mut lines = lines(&filing, rng);
        let place = place(&lines, rng);
        let misprint = spoiled(&mut lines, place, rng);
        FiledText::of_lines(filing, &lines, vec![misprint])
    }

    /// A number over the limit, in a line that is malformed as well.
    fn with_a_line_spoiled_twice(filing: Filing, rng: &mut Rng) -> Self {
        let mut lines = lines(&filing, rng);
        let place = place(&lines, rng);
        let over = if lines[place].is_total() { Misprint::TotalOver } else { Misprint::RowOver };
        over.spoil(&mut lines, place, rng);
        let (misprint, found) = loop {
            let any = rng.pick(&Misprint::BESIDE_NUMBERS);
            let misprint = if rng.chance(1, 2) { Misprint::NumberLost } else { any };
            if let Some(found) = misprint.spoil(&mut lines, place, rng) {
                break (misprint, found);
            }
        };
        if matches!(misprint, Misprint::NumberLost | Misprint::TotalLost) {
            // It may be the number over the limit that was lost.
            over.spoil(&mut lines, place, rng);
        }
        let misprints = vec![Misprinted::at(place, over), Misprinted::at(found, misprint)];
        FiledText::of_lines(filing, &lines, misprints)
    }

    /// The later one first, so that the place of the other stays what it is.
    fn with_two_lines_spoiled(filing: Filing, rng: &mut Rng) -> Self {
        let mut lines = lines(&filing, rng);
        let later = lines.len() - 1 - rng.below(lines.len().div_ceil(2));
        let places = if later == 0 { vec![later] } else { vec![later, rng.below(later)] };
        let misprints = places.into_iter().map(|place| spoiled(&mut lines, place, rng)).collect();
        FiledText::of_lines(filing, &lines, misprints)
    }

    fn with_the_text_spoiled(filing: Filing, rng: &mut Rng) -> Self {
        let lines = lines(&filing, rng);
        let misprint = rng.pick(&Misprint::OF_THE_TEXT);
        FiledText::of_lines(filing, &lines, Vec::new()).and_spoiled(misprint, &lines, rng)
    }

    fn with_totals_over_and_bytes_behind(filing: Filing, rng: &mut Rng) -> Self {
        let mut lines = lines(&filing, rng);
        let totals = lines.len() - 1;
        Misprint::TotalOver.spoil(&mut lines, totals, rng);
        let filed = FiledText::of_lines(filing, &lines, vec![Misprinted::at(totals, Misprint::TotalOver)]);
        filed.and_spoiled(Misprint::BytesBehind, &lines, rng)
    }

    /// Does to the text of these lines what cannot be done to them.
    fn and_spoiled(mut self, misprint: Misprint, lines: &[Line], rng: &mut Rng) -> Self {
        let found = misprint.spoil_text(&mut self.text, lines, rng);
        if let Some(misprints) = &mut self.misprints {
            misprints.extend(found.map(|found| Misprinted::at(found, misprint)));
        }
        self
    }

    /// By leading zeros: as many bytes as the program takes, or more, at times with bytes behind the totals.
    fn of_a_long_text(filing: Filing, rng: &mut Rng) -> Self {
        let mut lines = lines(&filing, rng);
        let length = MOST_BYTES + rng.pick(&[0, 0, 1, 2, 5_000]);
        let zeros = length - text(&lines).len();
        let first = lines[0].first_number();
        lines[0].0[first].splice(..0, vec![b'0'; zeros]);
        let filed = FiledText::of_lines(filing, &lines, Vec::new());
        let is_spoiled = length > MOST_BYTES && rng.chance(1, 2);
        if is_spoiled { filed.and_spoiled(Misprint::BytesBehind, &lines, rng) } else { filed }
    }

    /// A file of as many bytes as the program takes, which is refused by itself, or of more.
    fn with_a_long_file(filing: Filing, account: Account, rng: &mut Rng) -> Self {
        let filing = if rng.chance(1, 3) {
            let lines: Vec<_> = (0..4).map(|stack| sound::line(stack, 1, 92, rng)).collect();
            Filing::of_file(wire::file(&lines), account)
        } else {
            let mut file = filing.file.clone();
            file.resize(MOST_BYTES + rng.pick(&[0, 0, 1, 1, 2, 5_000]), 0);
            filing.with_file(file, account)
        };
        if rng.chance(1, 2) { FiledText::of_filing(filing, rng) } else { FiledText::with_a_line_spoiled(filing, rng) }
    }

    /// More rows than a file has lines, up to those that a text has room for.
    fn of_many_rows(mut filing: Filing, rng: &mut Rng) -> Self {
        if !filing.file_is_refused() {
            filing.answer = [2, 22, 0];
        }
        let mut lines = lines(&filing, rng);
        let totals = lines.pop().into_iter();
        lines.clear();
        let row = Line(vec![b"0".to_vec(); 7]);
        lines.resize(rng.pick(&[49, 74, 4_500]) + rng.below(100), row);
        lines.extend(totals);
        FiledText::of_lines(filing, &lines, Vec::new())
    }

    fn with_bytes_damaged(filing: Filing, rng: &mut Rng) -> Self {
        let mut filed = FiledText::of_filing(filing, rng);
        rng.pick(&damage_bytes::FAULTS)(&mut filed.text, rng);
        FiledText::of_text(filed.filing, filed.text)
    }
}

/// A line to spoil: of three, one is that of the totals.
fn place(lines: &[Line], rng: &mut Rng) -> usize {
    let totals = lines.len() - 1;
    if totals == 0 || rng.chance(1, 3) { totals } else { rng.below(totals) }
}

/// Does to a line what can be done to it.
fn spoiled(lines: &mut Vec<Line>, place: usize, rng: &mut Rng) -> Misprinted {
    loop {
        let misprint = match rng.below(5) {
            0 | 1 => rng.pick(&Misprint::OF_A_ROW),
            2 => rng.pick(&Misprint::OF_TOTALS),
            _ => rng.pick(&Misprint::OF_A_LINE),
        };
        if let Some(found) = misprint.spoil(lines, place, rng) {
            return Misprinted::at(found, misprint);
        }
    }
}
