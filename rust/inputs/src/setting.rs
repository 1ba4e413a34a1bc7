//! What stands open in a file where a record stands, and why one is out of place there.

#[derive(Clone, Copy, Debug, PartialEq, Eq, PartialOrd, Ord)]
pub enum World {
    Stack,
    Outfall,
}

/// The line that a record stands in.
#[derive(Clone, Copy, Debug, PartialEq, Eq, PartialOrd, Ord)]
pub enum Open {
    Nothing,
    /// Days are due.
    Days(World),
    /// All days have come.
    Rest(World),
}

#[derive(Clone, Copy, Debug, PartialEq, Eq, PartialOrd, Ord)]
pub enum Reason {
    /// Its kind cannot stand there, or a day is out of turn.
    Unfit,
    /// A head behind a line of this world, or a survey behind one of it.
    NotRising(World),
    /// An enforcement survey.
    AfterPlant,
    TooMany,
}

/// What 2 is given for: where, for a record of which kind (0 is the file's end), and why.
#[derive(Clone, Copy, Debug, PartialEq, Eq, PartialOrd, Ord)]
pub struct Misplaced {
    pub open: Open,
    pub kind: u8,
    pub reason: Reason,
}

/// The kinds that there are.
const KINDS: [u8; 10] = [1, 2, 3, 4, 5, 6, 9, 10, 11, 12];
/// Lines of a file, and surveys of a line.
const MOST_LINES: usize = 48;
const MOST_SURVEYS: usize = 120;

impl Misplaced {
    /// All that a run has to reach. Of days, no office can have as many as 120 surveys.
    pub fn all() -> Vec<Misplaced> {
        let unfit = |open: Open, kinds: &[u8]| -> Vec<Misplaced> {
            kinds.iter().map(|&kind| Misplaced { open, kind, reason: Reason::Unfit }).collect()
        };
        let (stack, outfall) = (Open::Rest(World::Stack), Open::Rest(World::Outfall));
        let mut all = unfit(Open::Nothing, &[2, 3, 4, 5, 6, 10, 11, 12]);
        for world in [World::Stack, World::Outfall] {
            all.extend(unfit(Open::Days(world), &KINDS));
            all.extend(unfit(Open::Days(world), &[0]));
            for kind in [1, 9] {
                all.push(Misplaced { open: Open::Nothing, kind, reason: Reason::NotRising(world) });
            }
        }
        all.extend(unfit(stack, &[0, 1, 2, 3, 4, 9, 10, 11, 12]));
        all.extend(unfit(outfall, &[0, 1, 2, 3, 4, 5, 9, 10]));
        let not_rising = Reason::NotRising;
        let others = [
            (Open::Nothing, 1, Reason::TooMany),
            (Open::Nothing, 9, Reason::TooMany),
            (stack, 3, Reason::AfterPlant),
            (stack, 3, not_rising(World::Stack)),
            (stack, 4, not_rising(World::Stack)),
            (stack, 4, Reason::TooMany),
            (stack, 5, Reason::TooMany),
            (outfall, 11, Reason::AfterPlant),
            (outfall, 11, not_rising(World::Outfall)),
            (outfall, 12, not_rising(World::Outfall)),
            (outfall, 12, Reason::TooMany),
        ];
        all.extend(others.map(|(open, kind, reason)| Misplaced { open, kind, reason }));
        all
    }
}

/// The whole records of a file, each with its offset; a cut one and what follows are left out.
pub fn whole_records(file: &[u8]) -> impl Iterator<Item = (usize, &[u8])> {
    let mut start = 0;
    std::iter::from_fn(move || {
        let length = file.get(start..)?.first_chunk().copied().map(u16::from_le_bytes)?;
        let record = file.get(start..start + 2 + usize::from(length)).filter(|record| record.len() >= 4)?;
        let at = start;
        start += record.len();
        Some((at, record))
    })
}

/// The lines and records before a place; all of them are sound if the place is that of a refusal.
#[derive(Debug, Default)]
pub struct Setting<'a> {
    /// The record at the place, as far as it goes.
    pub record: &'a [u8],
    open: Option<World>,
    due: u8,
    last: Option<World>,
    lines: usize,
    surveys: usize,
    last_survey: u8,
    batches: usize,
    /// The states of an outfall's days.
    pub states: Vec<u8>,
}

impl<'a> Setting<'a> {
    /// The setting of the record that holds the byte at `place`, or of the file's end.
    pub fn at(place: usize, file: &'a [u8]) -> Self {
        let mut setting = Setting { record: file, ..Setting::default() };
        for (start, record) in whole_records(file) {
            if place < start + record.len() {
                setting.record = record;
                return setting;
            }
            setting.pass(record);
            setting.record = &file[start + record.len()..];
        }
        setting
    }

    /// The low byte of the record's kind; 0 if there is none.
    pub fn kind(&self) -> u8 {
        self.record.get(2).copied().unwrap_or(0)
    }

    pub fn open(&self) -> Open {
        match self.open {
            None => Open::Nothing,
            Some(world) if self.due > 0 => Open::Days(world),
            Some(world) => Open::Rest(world),
        }
    }

    /// Whose line the record stands in, or opens.
    pub fn world(&self) -> World {
        let own = if self.kind() >= 9 { World::Outfall } else { World::Stack };
        self.open.unwrap_or(own)
    }

    /// Why the record is out of place.
    pub fn misplaced(&self) -> Misplaced {
        let (open, kind) = (self.open(), self.kind());
        let reason = match (open, kind) {
            (Open::Nothing, 1 | 9) if self.lines < MOST_LINES => self.last.map_or(Reason::Unfit, Reason::NotRising),
            (Open::Nothing, 1 | 9) | (Open::Rest(World::Stack), 5) => Reason::TooMany,
            (Open::Rest(World::Stack), 3 | 4) if self.batches == 0 => self.of_survey(World::Stack),
            (Open::Rest(World::Outfall), 11 | 12) => self.of_survey(World::Outfall),
            _ => Reason::Unfit,
        };
        Misplaced { open, kind, reason }
    }

    fn of_survey(&self, world: World) -> Reason {
        match self.surveys {
            MOST_SURVEYS => Reason::TooMany,
            _ if self.kind() < self.last_survey => Reason::AfterPlant,
            _ => Reason::NotRising(world),
        }
    }

    fn pass(&mut self, record: &[u8]) {
        match record[2] {
            1 => self.open_line(World::Stack, record.get(13)),
            9 => self.open_line(World::Outfall, record.get(7)),
            2 => self.due = self.due.saturating_sub(1),
            10 => {
                self.due = self.due.saturating_sub(1);
                self.states.extend(record.get(5));
            }
            5 => self.batches += 1,
            6 => self.open = None,
            kind => {
                self.surveys += 1;
                self.last_survey = kind;
            }
        }
    }

    fn open_line(&mut self, world: World, days: Option<&u8>) {
        let lines = self.lines + 1;
        let due = days.copied().unwrap_or(0);
        *self = Setting { record: self.record, open: Some(world), due, last: Some(world), lines, ..Setting::default() };
    }
}

#[cfg(test)]
mod tests {
    use super::{Misplaced, Open, Reason, Setting, World};
    use crate::wire::{Record, Survey, WaterDay, WaterHead, bytes};

    /// An outfall's line of a day, its plant survey, and what comes behind.
    fn misplaced(last: Record) -> Misplaced {
        let survey = Survey { hour: 0, concentration: 1.0, flow: 1.0 };
        let head = WaterHead { outfall: 1, pollutant: 4, days: 1 };
        let mut records = vec![Record::WaterHead(head), Record::WaterDay(WaterDay::missing(0))];
        records.push(Record::WaterPlant(survey));
        let place = bytes(&records).len();
        records.push(last);
        let file = bytes(&records);
        let setting = Setting::at(place, &file);
        assert_eq!((setting.world(), &setting.states[..]), (World::Outfall, &[1][..]));
        setting.misplaced()
    }

    #[test]
    fn says_why_a_record_is_out_of_place() {
        let survey = Survey { hour: 0, concentration: 1.0, flow: 1.0 };
        let rest = |kind, reason| Misplaced { open: Open::Rest(World::Outfall), kind, reason };
        assert_eq!(misplaced(Record::WaterEnforcement(survey)), rest(11, Reason::AfterPlant));
        assert_eq!(misplaced(Record::WaterPlant(survey)), rest(12, Reason::NotRising(World::Outfall)));
        assert_eq!(misplaced(Record::Plant(survey)), rest(4, Reason::Unfit));
        assert_eq!(misplaced(Record::Raw(Vec::new())), rest(0, Reason::Unfit));
    }

    #[test]
    fn names_each_once() {
        let all = Misplaced::all();
        assert_eq!(all.iter().collect::<std::collections::BTreeSet<_>>().len(), all.len());
        assert_eq!(all.len(), 8 + 2 * (11 + 2) + 9 + 8 + 11);
    }
}
