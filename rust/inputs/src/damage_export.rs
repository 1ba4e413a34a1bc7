//! Faults done to a line of a text export, or to its lines as a whole.

use crate::export_lines::{HOURS_OF_A_DAY, Line, NUMBERS, READINGS, TURN, day_too_many};
use crate::rng::Rng;

/// What is wrong with a line.
#[derive(Clone, Copy, Debug, PartialEq, Eq, PartialOrd, Ord)]
pub enum Damage {
    CarriageReturn,
    Blank,
    OtherByte,
    Sign,
    Exponent,
    LowerCase,
    OtherState,
    EmptyLine,
    CommaLost,
    CommaTooMany,
    NothingBehindPoint,
    NothingBeforePoint,
    LonePoint,
    ThreeDecimals,
    ThreeZeros,
    TwoPoints,
    PointInFlow,
    PointInTurn,
    EmptyTurn,
    EmptyReading,
    FilledUnmeasured,
    DayOutOfTurn,
    HourOutOfTurn,
    LineLost,
    LineTwice,
    LinesSwapped,
    UnfinishedDay,
    NoLastEnd,
    BytesBehindLastEnd,
    DayPast91AtTheEnd,
    ConcentrationOver,
    FlowOver,
    DayPast91,
}

impl Damage {
    /// Those done to one line, wherever it stands.
    pub const OF_A_LINE: [Damage; 25] = [
        Damage::CarriageReturn,
        Damage::Blank,
        Damage::OtherByte,
        Damage::Sign,
        Damage::Exponent,
        Damage::LowerCase,
        Damage::OtherState,
        Damage::EmptyLine,
        Damage::CommaLost,
        Damage::CommaTooMany,
        Damage::NothingBehindPoint,
        Damage::NothingBeforePoint,
        Damage::LonePoint,
        Damage::ThreeDecimals,
        Damage::ThreeZeros,
        Damage::TwoPoints,
        Damage::PointInFlow,
        Damage::PointInTurn,
        Damage::EmptyTurn,
        Damage::EmptyReading,
        Damage::FilledUnmeasured,
        Damage::DayOutOfTurn,
        Damage::HourOutOfTurn,
        Damage::ConcentrationOver,
        Damage::FlowOver,
    ];

    /// Those done to the lines as a whole.
    pub const OF_LINES: [Damage; 8] = [
        Damage::LineLost,
        Damage::LineTwice,
        Damage::LinesSwapped,
        Damage::UnfinishedDay,
        Damage::NoLastEnd,
        Damage::BytesBehindLastEnd,
        Damage::DayPast91AtTheEnd,
        Damage::DayPast91,
    ];

    /// Those that leave an hour's readings as they stand, so that they can be over a limit as well.
    pub const BESIDE_READINGS: [Damage; 8] = [
        Damage::CarriageReturn,
        Damage::Blank,
        Damage::LowerCase,
        Damage::CommaLost,
        Damage::CommaTooMany,
        Damage::EmptyTurn,
        Damage::DayOutOfTurn,
        Damage::HourOutOfTurn,
    ];

    pub fn all() -> impl Iterator<Item = Damage> {
        Damage::OF_A_LINE.into_iter().chain(Damage::OF_LINES)
    }

    /// The number that document 02 has for it.
    pub fn number(self) -> u64 {
        match self {
            Damage::ConcentrationOver | Damage::FlowOver | Damage::DayPast91 => 20,
            _ => 19,
        }
    }

    /// Does it to the line of an hour of the period.
    pub fn spoil(self, line: &mut Line, hour: usize, rng: &mut Rng) {
        match self {
            Damage::Exponent
            | Damage::NothingBehindPoint
            | Damage::NothingBeforePoint
            | Damage::LonePoint
            | Damage::ThreeDecimals
            | Damage::ThreeZeros
            | Damage::TwoPoints
            | Damage::PointInFlow
            | Damage::EmptyReading
            | Damage::ConcentrationOver
            | Damage::FlowOver => {
                line.measure(rng);
                self.spoil_reading(line, rng);
            }
            Damage::PointInTurn | Damage::EmptyTurn | Damage::DayOutOfTurn | Damage::HourOutOfTurn => {
                self.spoil_turn(line, hour, rng);
            }
            Damage::LowerCase | Damage::OtherState | Damage::FilledUnmeasured => self.spoil_state(line, rng),
            _ => self.spoil_form(line, rng),
        }
    }

    fn spoil_reading(self, line: &mut Line, rng: &mut Rng) {
        let whole = rng.below(10_000);
        match self {
            Damage::Exponent => {
                let text = format!("{}{}{}", rng.below(10), rng.pick(&["e", "E", "e+", "e-"]), rng.below(3));
                line.0[rng.pick(&READINGS)] = text.into();
            }
            Damage::NothingBehindPoint => line.set_concentration(&format!("{whole}.")),
            Damage::NothingBeforePoint => line.set_concentration(&format!(".{}", rng.below(100))),
            Damage::LonePoint => line.set_concentration("."),
            Damage::ThreeDecimals => {
                let whole = if rng.chance(1, 4) { 10_000 } else { whole };
                line.set_concentration(&format!("{whole}.{:03}", rng.between(1, 999)));
            }
            Damage::ThreeZeros => line.set_concentration(&format!("{whole}.{}", "0".repeat(rng.between(3, 12)))),
            Damage::TwoPoints => line.set_concentration(rng.pick(&["1.2.3", "1..2", "1.2.", "..", "1.23.4"])),
            Damage::PointInFlow => line.set_flow(rng.pick(&["5.0", "5.", ".5", "5000000.0", "0.00", "."])),
            Damage::EmptyReading => match rng.below(3) {
                0 => line.set_concentration(""),
                1 => line.set_flow(""),
                _ => READINGS.into_iter().for_each(|field| line.0[field].clear()),
            },
            Damage::ConcentrationOver => line.set_concentration(&concentration_over(rng)),
            Damage::FlowOver => line.set_flow(&flow_over(rng)),
            _ => unreachable!("{self:?} is not done to a reading"),
        }
    }

    fn spoil_turn(self, line: &mut Line, hour: usize, rng: &mut Rng) {
        let (day, hour) = (hour / HOURS_OF_A_DAY, hour % HOURS_OF_A_DAY);
        match self {
            Damage::PointInTurn => line.0[rng.pick(&TURN)].extend_from_slice(rng.pick(&[&b".0"[..], b".", b".00"])),
            Damage::EmptyTurn => line.0[rng.pick(&TURN)].clear(),
            Damage::DayOutOfTurn => line.set_day(&another(day, rng.pick(&[91, 92, 93]), rng)),
            Damage::HourOutOfTurn => line.set_hour(&another(hour, rng.pick(&[23, 24, 25]), rng)),
            _ => unreachable!("{self:?} is not done to a day or hour"),
        }
    }

    fn spoil_state(self, line: &mut Line, rng: &mut Rng) {
        match self {
            Damage::LowerCase => {
                let lower = line.state().to_ascii_lowercase();
                line.set_state(&String::from_utf8_lossy(&lower));
            }
            Damage::OtherState => line.set_state(rng.pick(&["", "X", "RR", "MS", "2", "Q", "T", "R.", "\u{211d}"])),
            Damage::FilledUnmeasured => {
                line.empty(rng);
                let filled = rng.pick(&[&READINGS[..1], &READINGS[1..], &READINGS[..]]);
                filled.iter().for_each(|&field| line.0[field] = rng.pick(&["0", "00", "5", "99999999"]).into());
            }
            _ => unreachable!("{self:?} is not done to a state"),
        }
    }

    fn spoil_form(self, line: &mut Line, rng: &mut Rng) {
        let fields = &mut line.0;
        match self {
            Damage::CarriageReturn => fields[4].push(b'\r'),
            Damage::Blank => put_in(fields, rng.pick(b"   \t"), rng),
            Damage::OtherByte => put_in(fields, rng.pick(b"\0/:;'\"_-xRMS\x0b\x0c\r\x7f\x80\xa0\xb2\xff"), rng),
            Damage::Sign => {
                let field = rng.pick(&NUMBERS);
                fields[field].insert(0, rng.pick(b"+-"));
            }
            Damage::EmptyLine => *fields = vec![Vec::new()],
            Damage::CommaLost => {
                let place = rng.between(1, 4);
                let behind = fields.remove(place);
                fields[place - 1].extend(behind);
            }
            Damage::CommaTooMany => fields.insert(rng.below(6), Vec::new()),
            _ => unreachable!("{self:?} is not done to the form of a line"),
        }
    }

    /// Does it to the lines, and gives the one that it is to be found at, from 0; `None` if there is nothing to spoil.
    pub fn spoil_lines(self, lines: &mut Vec<Line>, rng: &mut Rng) -> Option<usize> {
        let last = lines.len().checked_sub(1)?;
        match self {
            // Of the last line it would leave a day unfinished.
            Damage::LineLost => {
                let place = rng.below(last);
                lines.remove(place);
                Some(place)
            }
            Damage::LineTwice => {
                let place = rng.below(last + 1);
                lines.insert(place, lines[place].clone());
                Some(place + 1)
            }
            Damage::LinesSwapped => {
                let place = rng.below(last);
                lines.swap(place, place + 1);
                Some(place)
            }
            Damage::UnfinishedDay => {
                let day = rng.below(lines.len() / HOURS_OF_A_DAY);
                let hours = if rng.chance(1, 3) { 1 } else { rng.between(1, HOURS_OF_A_DAY - 1) };
                lines.truncate(HOURS_OF_A_DAY * day + hours);
                Some(lines.len() - 1)
            }
            Damage::DayPast91AtTheEnd => {
                lines.extend(day_too_many(1, rng));
                Some(last + 1)
            }
            Damage::DayPast91 => {
                let hours = rng.pick(&[2, 23, 24, 24]);
                lines.extend(day_too_many(hours, rng));
                Some(last + 1)
            }
            Damage::NoLastEnd => Some(last),
            Damage::BytesBehindLastEnd => Some(last + 1),
            _ => unreachable!("{self:?} is done to a line"),
        }
    }

    /// Does to the text what cannot be done to its lines.
    pub fn spoil_text(self, text: &mut Vec<u8>, rng: &mut Rng) {
        match self {
            Damage::NoLastEnd => text.truncate(text.len() - 1),
            Damage::BytesBehindLastEnd => {
                text.extend_from_slice(rng.pick(&[&b"0"[..], b",", b"\0", b" ", b"\r", b"1,0,S,,", b"0,0,R,1,2"]));
            }
            _ => {}
        }
    }
}

/// Puts a byte into a field or at its edge.
fn put_in(fields: &mut [Vec<u8>], byte: u8, rng: &mut Rng) {
    let field = &mut fields[rng.below(5)];
    field.insert(rng.below(field.len() + 1), byte);
}

/// A number other than the one that is due: one off, at a limit, or one whose last bits are those of it.
fn another(due: usize, limit: usize, rng: &mut Rng) -> String {
    let due = due as u128;
    let number = match rng.below(8) {
        0 if due > 0 => due - 1,
        0 | 1 => due + 1,
        2 if limit as u128 != due => limit as u128,
        3 => due + 256,
        4 => due + (1 << 32),
        5 => due + (1 << 64),
        6 => due * 10 + 1,
        _ => due + rng.between(1, 1_000_000) as u128,
    };
    let zeros = rng.pick(&[0, 0, 0, 1, 30]);
    format!("{}{number}", "0".repeat(zeros))
}

/// A concentration over 10,000, by a hundredth or by far, at times with low bits of a small one.
fn concentration_over(rng: &mut Rng) -> String {
    match rng.below(6) {
        0 => "10000.01".into(),
        1 => format!("10000.{}", rng.between(1, 9)),
        2 => format!("{}10000.{:02}", "0".repeat(rng.below(30)), rng.between(1, 99)),
        3 => (rng.pick(&[1_u128 << 32, 1 << 64, 1 << 16]) + rng.below(100) as u128).to_string(),
        4 => "9".repeat(rng.between(5, 400)),
        _ => format!("{}.{}", rng.between(10_001, 100_000), rng.below(10)),
    }
}

/// A flow over 5,000,000.
fn flow_over(rng: &mut Rng) -> String {
    match rng.below(5) {
        0 => "5000001".into(),
        1 => format!("{}5000001", "0".repeat(rng.below(30))),
        2 => (rng.pick(&[1_u128 << 32, 1 << 64, 1 << 24]) + rng.below(100) as u128).to_string(),
        3 => "9".repeat(rng.between(7, 400)),
        _ => rng.between(5_000_001, 100_000_000).to_string(),
    }
}
