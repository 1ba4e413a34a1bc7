//! What is done to a filing that is right.

use crate::rng::Rng;

pub const ROW_CELLS: usize = 7;
pub const TOTALS: usize = 5;

/// Which row of several.
#[derive(Clone, Copy, Debug, PartialEq, Eq, PartialOrd, Ord)]
pub enum RowAt {
    First,
    Middle,
    Last,
}

impl RowAt {
    pub const ALL: [RowAt; 3] = [RowAt::First, RowAt::Middle, RowAt::Last];

    /// The lines that a file needs so that the row is not another one's.
    pub fn least_lines(self) -> usize {
        self as usize + 1
    }

    pub fn of(self, rows: usize, rng: &mut Rng) -> usize {
        match self {
            RowAt::First => 0,
            RowAt::Middle => rng.between(1, rows - 2),
            RowAt::Last => rows - 1,
        }
    }
}

/// What was done to a filing that was right.
#[derive(Clone, Copy, Debug, PartialEq, Eq, PartialOrd, Ord)]
pub enum Done {
    Nothing,
    NothingForAnEmptyFile,
    Cell {
        row: RowAt,
        field: usize,
    },
    Total(usize),
    TotalForAnEmptyFile,
    TwoCellsOfARow,
    CellsOfTwoRows,
    CellAndTotal,
    TwoTotals,
    RowsSwapped,
    RowsCut,
    RowLost,
    RowsTooMany,
    OneCellLost,
    OneCellTooMany,
    CellsLost,
    CellsTooMany,
    NoRows,
    RowsForAnEmptyFile,
    /// Another number of rows, and a wrong cell besides.
    CountAndCell,
    /// The file is refused; what is filed would be right for the file as it was.
    File,
    /// The file is refused, and the number of cells is not right for it as it was.
    FileAndCount,
}

impl Done {
    pub const TWO: [Done; 4] = [Done::TwoCellsOfARow, Done::CellsOfTwoRows, Done::CellAndTotal, Done::TwoTotals];

    pub const COUNT: [Done; 9] = [
        Done::RowsCut,
        Done::RowLost,
        Done::RowsTooMany,
        Done::OneCellLost,
        Done::OneCellTooMany,
        Done::CellsLost,
        Done::CellsTooMany,
        Done::NoRows,
        Done::CountAndCell,
    ];

    pub fn all() -> impl Iterator<Item = Done> {
        let cells = RowAt::ALL.into_iter().flat_map(|row| (0..ROW_CELLS).map(move |field| Done::Cell { row, field }));
        let empty = [Done::NothingForAnEmptyFile, Done::TotalForAnEmptyFile, Done::RowsForAnEmptyFile];
        let others = [Done::Nothing, Done::RowsSwapped, Done::File, Done::FileAndCount].into_iter().chain(empty);
        cells.chain((0..TOTALS).map(Done::Total)).chain(Done::TWO).chain(Done::COUNT).chain(others)
    }
}

/// What stands in the place of the right number.
#[derive(Clone, Copy, Debug, PartialEq, Eq, PartialOrd, Ord)]
pub enum Change {
    OneMore,
    OneLess,
    /// One of the 32 low bits is another.
    LowBit,
    HighBit,
    Zero,
    /// The largest number that can be filed.
    Most,
    Any,
}

impl Change {
    pub const ALL: [Change; 7] =
        [Change::OneMore, Change::OneLess, Change::LowBit, Change::HighBit, Change::Zero, Change::Most, Change::Any];

    /// Another number than the right one, and at most the largest; `None` if this is not one.
    pub fn of(self, right: u64, most: u64, rng: &mut Rng) -> Option<u64> {
        let number = match self {
            Change::OneMore => right.checked_add(1)?,
            Change::OneLess => right.checked_sub(1)?,
            Change::LowBit => right ^ 1 << rng.below(32),
            Change::HighBit => right ^ 1 << rng.between(32, 63),
            Change::Zero => 0,
            Change::Most => most,
            Change::Any => rng.word() >> rng.below(64),
        };
        (number != right && number <= most).then_some(number)
    }
}
