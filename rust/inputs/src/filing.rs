//! One input of the check call: a record file, and the rows and totals that are filed for it.

use crate::damage::{damaged, damaged_with_outfalls};
use crate::filing_done::{Change, Done, ROW_CELLS, RowAt, TOTALS};
use crate::rng::Rng;
use crate::sound::{self, Size};
use crate::sound_water;
use crate::wire::{self, AnyLine, Written};
use crate::{damage_lines, damage_water};

const MOST_LINES: usize = 48;
/// The most cells that are filed as rows.
pub const MOST_CELLS: usize = 512;

/// An account call: writes the rows of a file, and answers in eight cells.
pub type Account = fn(&[u8], &mut [u64]) -> [u64; 8];

#[derive(Clone, Debug)]
pub struct Filing {
    pub file: Vec<u8>,
    pub rows: Vec<u64>,
    pub totals: [u64; TOTALS],
    /// The answer for which it was made: outcome, then row and field or number and place.
    pub answer: [u64; 3],
    pub done: Done,
    /// How the wrong cell that the answer names was made.
    pub change: Option<Change>,
}

impl Filing {
    /// Mostly of few lines. `most` is the largest number that is filed.
    pub fn generate(account: Account, most: u64, rng: &mut Rng) -> Self {
        let mut maker = Maker { account, most, rng };
        match maker.rng.below(40) {
            0..=5 => maker.right(0),
            6 => maker.empty(),
            7..=17 => maker.cell(),
            18 | 19 => maker.total(),
            20..=22 => maker.two_cells(),
            23 => maker.swapped(),
            24..=29 => maker.count(),
            _ => maker.refused(),
        }
    }

    /// The same cells for another file.
    pub fn with_file(self, file: Vec<u8>, account: Account) -> Self {
        let [number, place, ..] = account(&file, &mut [0; ROW_CELLS * MOST_LINES]);
        assert_ne!(number, 0, "a file that is refused");
        Filing { file, answer: [2, number, place], done: Done::File, change: None, ..self }
    }

    pub fn file_is_refused(&self) -> bool {
        matches!(self.done, Done::File | Done::FileAndCount)
    }

    /// The right filing of a file that is accepted.
    pub fn of_file(file: Vec<u8>, account: Account) -> Self {
        let mut rows = vec![0; ROW_CELLS * MOST_LINES];
        let [number, _, count, totals @ ..] = account(&file, &mut rows);
        assert_eq!(number, 0, "a file that is accepted");
        rows.truncate(ROW_CELLS * count as usize);
        Filing { file, rows, totals, answer: [0; 3], done: Done::Nothing, change: None }
    }

    fn lines(&self) -> usize {
        self.rows.len() / ROW_CELLS
    }

    /// Makes a cell wrong; the totals are the row behind the last.
    fn spoil(&mut self, (row, field): (usize, usize), most: u64, rng: &mut Rng) {
        let cell = match row == self.lines() {
            true => &mut self.totals[field],
            false => &mut self.rows[ROW_CELLS * row + field],
        };
        let (change, wrong) = loop {
            let change = rng.pick(&Change::ALL);
            if let Some(wrong) = change.of(*cell, most, rng) {
                break (change, wrong);
            }
        };
        *cell = wrong;
        let named = [1, row as u64, field as u64];
        if self.answer[0] == 0 || named < self.answer {
            (self.answer, self.change) = (named, Some(change));
        }
    }
}

/// Makes filings of files that an account call has stated.
struct Maker<'a> {
    account: Account,
    most: u64,
    rng: &'a mut Rng,
}

impl Maker<'_> {
    /// Sound lines of stacks, or with outfalls.
    fn lines(&mut self, least: usize) -> Vec<AnyLine> {
        loop {
            let size = match self.rng.below(200) {
                0 => Size::ManyLines,
                1 => Size::Long,
                2..=4 => Size::Medium,
                _ => Size::Short,
            };
            let lines = match self.rng.chance(1, 3) {
                true => sound_water::lines(size, self.rng),
                false => sound::lines(size, self.rng).into_iter().map(AnyLine::Stack).collect(),
            };
            if lines.len() >= least {
                return lines;
            }
        }
    }

    fn right(&mut self, least: usize) -> Filing {
        Filing::of_file(wire::file(&self.lines(least)), self.account)
    }

    fn spoiled(&mut self, mut filing: Filing, cells: &[(usize, usize)], done: Done) -> Filing {
        cells.iter().for_each(|&cell| filing.spoil(cell, self.most, self.rng));
        Filing { done, ..filing }
    }

    fn empty(&mut self) -> Filing {
        let mut filing = Filing::of_file(Vec::new(), self.account);
        match self.rng.below(3) {
            0 => Filing { done: Done::NothingForAnEmptyFile, ..filing },
            1 => {
                let total = self.rng.below(TOTALS);
                self.spoiled(filing, &[(0, total)], Done::TotalForAnEmptyFile)
            }
            _ => {
                let count = self.rng.pick(&[1, 6, 7, 8, 14]);
                filing.rows = self.numbers(count);
                Filing { answer: [2, 22, 0], done: Done::RowsForAnEmptyFile, ..filing }
            }
        }
    }

    fn cell(&mut self) -> Filing {
        let (at, field) = (self.rng.pick(&RowAt::ALL), self.rng.below(ROW_CELLS));
        let filing = self.right(at.least_lines());
        let row = at.of(filing.lines(), self.rng);
        self.spoiled(filing, &[(row, field)], Done::Cell { row: at, field })
    }

    fn total(&mut self) -> Filing {
        let filing = self.right(0);
        let total = self.rng.below(TOTALS);
        let totals = filing.lines();
        self.spoiled(filing, &[(totals, total)], Done::Total(total))
    }

    /// The first of them may be changed first or last, and may be the lower field or the higher.
    fn two_cells(&mut self) -> Filing {
        let done = self.rng.pick(&Done::TWO);
        let filing = self.right(2);
        let totals = filing.lines();
        let rows = (self.rng.below(totals), self.rng.below(totals - 1));
        let other = (rows.0 + 1 + rows.1) % totals;
        let [one, two] = match done {
            Done::TwoCellsOfARow => self.two_of(ROW_CELLS).map(|field| (rows.0, field)),
            Done::CellsOfTwoRows => [rows.0, other].map(|row| (row, self.rng.below(ROW_CELLS))),
            Done::CellAndTotal => [(totals, self.rng.below(TOTALS)), (rows.0, self.rng.below(ROW_CELLS))],
            _ => self.two_of(TOTALS).map(|total| (totals, total)),
        };
        self.spoiled(filing, &[one, two], done)
    }

    /// Two different ones, in any order.
    fn two_of(&mut self, count: usize) -> [usize; 2] {
        let first = self.rng.below(count);
        [first, (first + self.rng.between(1, count - 1)) % count]
    }

    fn swapped(&mut self) -> Filing {
        let mut filing = self.right(2);
        let [one, two] = self.two_of(filing.lines());
        let rows = filing.rows.as_chunks_mut::<ROW_CELLS>().0;
        rows.swap(one, two);
        let field = (0..ROW_CELLS).find(|&field| rows[one][field] != rows[two][field]);
        let field = field.expect("two lines have other names") as u64;
        Filing { answer: [1, one.min(two) as u64, field], done: Done::RowsSwapped, ..filing }
    }

    fn count(&mut self) -> Filing {
        let done = self.rng.pick(&Done::COUNT);
        let filing = self.right(2);
        self.miscounted(filing, done)
    }

    /// Another number of cells than the rows of the file have.
    fn miscounted(&mut self, mut filing: Filing, done: Done) -> Filing {
        if done == Done::CountAndCell {
            let cell = (self.rng.below(filing.lines() + 1), self.rng.below(TOTALS));
            filing.spoil(cell, self.most, self.rng);
        }
        self.recount(&mut filing.rows, done);
        Filing { answer: [2, 22, 0], done, change: None, ..filing }
    }

    fn recount(&mut self, rows: &mut Vec<u64>, done: Done) {
        let (cells, lines) = (rows.len(), rows.len() / ROW_CELLS);
        match done {
            Done::RowsCut | Done::CountAndCell => rows.truncate(ROW_CELLS * self.rng.between(1, lines - 1)),
            Done::RowLost => {
                let first = ROW_CELLS * self.rng.below(lines);
                rows.drain(first..first + ROW_CELLS);
            }
            Done::RowsTooMany => {
                let last = rows[cells - ROW_CELLS..].to_vec();
                let more = self.numbers(ROW_CELLS);
                let more = if self.rng.chance(1, 3) { more } else { last };
                (0..self.rng.between(1, 3)).for_each(|_| rows.extend(&more));
            }
            Done::OneCellLost => {
                rows.remove(self.rng.pick(&[0, cells / 2, cells - 1]));
            }
            Done::OneCellTooMany => rows.insert(self.rng.pick(&[0, cells / 2, cells]), 0),
            Done::CellsLost => rows.truncate(cells - self.rng.between(2, ROW_CELLS - 1)),
            Done::CellsTooMany => {
                let more = self.rng.between(cells + 2, MOST_CELLS) - cells;
                rows.extend(self.numbers(more));
            }
            _ => rows.clear(),
        }
    }

    fn numbers(&mut self, count: usize) -> Vec<u64> {
        (0..count).map(|_| self.rng.below(self.most as usize) as u64 >> self.rng.below(64)).collect()
    }

    /// What is right for a sound file, for one that is not.
    fn refused(&mut self) -> Filing {
        let lines = self.lines(2);
        let right = Filing::of_file(wire::file(&lines), self.account);
        let filing = right.with_file(self.unsound(&lines), self.account);
        if self.rng.chance(2, 3) {
            return filing;
        }
        let (answer, done) = (filing.answer, self.rng.pick(&Done::COUNT));
        Filing { answer, done: Done::FileAndCount, ..self.miscounted(filing, done) }
    }

    /// The file of these lines with a fault or two, for which it is refused.
    fn unsound(&mut self, lines: &[AnyLine]) -> Vec<u8> {
        loop {
            let file = match stacks(lines) {
                Some(stacks) => self.faulty(stacks, &damage_lines::FAULTS, damaged),
                None => self.faulty(lines.to_vec(), &damage_water::LINE_FAULTS, damaged_with_outfalls),
            };
            if (self.account)(&file, &mut [0; ROW_CELLS * MOST_LINES])[0] != 0 {
                return file;
            }
        }
    }

    /// One of three has a fault of a line as a whole, which is where 5 to 7 and 18 come from.
    fn faulty<L: Written>(
        &mut self,
        mut lines: Vec<L>,
        line_faults: &[fn(&mut Vec<L>, &mut Rng)],
        damaged: fn(Vec<L>, usize, &mut Rng) -> Vec<u8>,
    ) -> Vec<u8> {
        if self.rng.chance(2, 3) {
            return damaged(lines, self.rng.between(1, 2), self.rng);
        }
        self.rng.pick(line_faults)(&mut lines, self.rng);
        wire::file(&lines)
    }
}

/// The lines, if all are of stacks.
fn stacks(lines: &[AnyLine]) -> Option<Vec<wire::Line>> {
    let stack = |line: &AnyLine| match line {
        AnyLine::Stack(line) => Some(line.clone()),
        AnyLine::Outfall(_) => None,
    };
    lines.iter().map(stack).collect()
}
