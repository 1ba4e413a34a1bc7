//! The account call: one walk over the file, rows handed over at the very end.

use crate::hours::{HOURS, Tables};
use crate::line::{Line, Row, Title};
use crate::record::{Head, Record, split_record};
use crate::refusal::{Fault, Refusal, demand};
use crate::water;

const MOST_LINES: usize = 48;

/// What the call answers: number and place are 0 on acceptance, the rest is 0 on refusal.
#[derive(Clone, Copy, Debug, Default, PartialEq, Eq)]
pub struct Answer {
    pub number: u32,
    pub place: u64,
    pub rows: u64,
    /// The grams of each pollutant: three of air, two of water.
    pub totals: [u64; 5],
}

impl Answer {
    /// The answer in eight cells: number, place, row count and the five totals.
    pub fn cells(&self) -> [u64; 8] {
        let [dioxide, oxides, dust, oxygen_demand, ammonia] = self.totals;
        [u64::from(self.number), self.place, self.rows, dioxide, oxides, dust, oxygen_demand, ammonia]
    }

    fn refused(fault: Fault) -> Self {
        Answer { number: fault.refusal.number(), place: fault.place as u64, ..Answer::default() }
    }
}

/// The quarter account of `file`, over lent slices.
pub fn account(file: &[u8], rows: &mut [u64], concentration: &mut [u32], flow: &mut [u32]) -> Answer {
    let (Some(concentration), Some(flow)) = (concentration.first_chunk_mut::<HOURS>(), flow.first_chunk_mut::<HOURS>())
    else {
        return Answer::refused(Refusal::FewCells.at(0));
    };
    let mut tables = Tables { concentration, flow };
    let outcome = Walk { file, place: 0 }.lines(&mut tables).and_then(|stated| hand_over(&stated, rows));
    outcome.unwrap_or_else(|fault| {
        tables.clear_from(0);
        Answer::refused(fault)
    })
}

/// Writes the rows, if there is room for all of them.
fn hand_over(stated: &[Row], rows: &mut [u64]) -> Result<Answer, Fault> {
    let cells = stated.as_flattened();
    rows.get_mut(..cells.len()).ok_or(Refusal::FewRows.at(0))?.copy_from_slice(cells);
    let mut totals = [0; 5];
    for [_, pollutant, _, grams, ..] in stated {
        totals[*pollutant as usize - 1] += grams;
    }
    Ok(Answer { number: 0, place: 0, rows: stated.len() as u64, totals })
}

/// The place in the file up to which it has been read.
struct Walk<'a> {
    file: &'a [u8],
    place: usize,
}

impl<'a> Walk<'a> {
    /// The next record with its offset, or `None` at the end of the file.
    fn next(&mut self) -> Result<Option<(usize, Record<'a>)>, Fault> {
        let place = self.place;
        if place == self.file.len() {
            return Ok(None);
        }
        let (record, rest) = split_record(&self.file[place..]).map_err(|refusal| refusal.at(place))?;
        self.place = self.file.len() - rest.len();
        Ok(Some((place, record)))
    }

    /// The next record of a line that is still open.
    fn next_inside(&mut self) -> Result<(usize, Record<'a>), Fault> {
        self.next()?.ok_or(Refusal::Place.at(self.place))
    }

    /// All lines of the file; leaves the last one's hours or days in the tables.
    fn lines(mut self, tables: &mut Tables) -> Result<Vec<Row>, Fault> {
        let mut rows = Vec::new();
        let mut room = Room::default();
        let mut last = None;
        let mut cells = 0;
        while let Some((place, record)) = self.next()? {
            let title = next_title(record, last, rows.len()).map_err(|fault| fault.of_record_at(place))?;
            let (row, used) = match title.of {
                Of::Stack(title) => (self.stack(&title, &mut room.stack, tables)?, 24 * usize::from(title.days)),
                Of::Outfall(title) => (self.outfall(&title, &mut room.outfall, tables)?, usize::from(title.days)),
            };
            rows.push(row);
            last = Some(title.name);
            cells = used;
        }
        tables.clear_from(cells);
        Ok(rows)
    }

    /// The records of a stack's line after its head.
    fn stack(&mut self, title: &Title, line: &mut Line, tables: &mut Tables) -> Result<Row, Fault> {
        line.restart();
        for _ in 0..title.days {
            let (place, record) = self.next_inside()?;
            let Record::Day(day) = record else {
                return Err(Refusal::Place.at(place));
            };
            line.add_day(day, tables).map_err(|fault| fault.of_record_at(place))?;
        }
        loop {
            let (place, record) = self.next_inside()?;
            let judged = match record {
                Record::Survey(survey) => line.add_survey(survey, tables),
                Record::Batch(batch) => line.add_batch(batch),
                Record::End => return line.row(title, tables).map_err(|refusal| refusal.at(place)),
                _ => Err(Refusal::Place.at_record()),
            };
            judged.map_err(|fault| fault.of_record_at(place))?;
        }
    }

    /// The records of an outfall's line after its head.
    fn outfall(&mut self, title: &water::Title, line: &mut water::Line, tables: &mut Tables) -> Result<Row, Fault> {
        line.restart();
        for _ in 0..title.days {
            let (place, record) = self.next_inside()?;
            let Record::WaterDay(day) = record else {
                return Err(Refusal::Place.at(place));
            };
            line.add_day(day, tables).map_err(|fault| fault.of_record_at(place))?;
        }
        loop {
            let (place, record) = self.next_inside()?;
            let judged = match record {
                Record::WaterSurvey(survey) => line.add_survey(survey, tables),
                Record::End => return line.row(title, tables).map_err(|refusal| refusal.at(place)),
                _ => Err(Refusal::Place.at_record()),
            };
            judged.map_err(|fault| fault.of_record_at(place))?;
        }
    }
}

/// Lines that are kept for their room.
#[derive(Default)]
struct Room {
    stack: Line,
    outfall: water::Line,
}

/// What a line is of.
enum Of {
    Stack(Title),
    Outfall(water::Title),
}

/// A head judged, with its number and pollutant.
struct Judged {
    name: (u16, u8),
    of: Of,
}

/// A head judged: lines of stacks and outfalls rise together and are at most 48, and the fields are in range.
fn next_title(record: Record, last: Option<(u16, u8)>, lines: usize) -> Result<Judged, Fault> {
    let Record::Head(head) = record else {
        return Err(Refusal::Place.at_record());
    };
    let name = head.name();
    let rises = last.is_none_or(|last| last < name);
    demand(rises && lines < MOST_LINES, Refusal::Place.at_record())?;
    let of = match head {
        Head::Stack(head) => Of::Stack(Title::judged(head)?),
        Head::Outfall(head) => Of::Outfall(water::Title::judged(head)?),
    };
    Ok(Judged { name, of })
}
