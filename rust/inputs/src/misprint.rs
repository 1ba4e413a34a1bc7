//! Faults done to a line of a filed text, or to its lines as a whole.

use crate::filed_lines::{Line, MOST_NUMBER};
use crate::filing_done::{ROW_CELLS, TOTALS};
use crate::rng::Rng;

/// What is wrong with a line.
#[derive(Clone, Copy, Debug, PartialEq, Eq, PartialOrd, Ord)]
pub enum Misprint {
    CarriageReturn,
    BlankTooMany,
    Tab,
    OtherSeparator,
    Sign,
    Point,
    Exponent,
    OtherByte,
    NumberTooMany,
    LineBroken,
    EmptyLine,
    LinesJoined,
    /// In a row that others follow.
    NumberLost,
    /// One total or more is left, or none.
    TotalLost,
    NoTotal,
    /// In the place of `total`.
    OtherWord,
    TotalLineLost,
    /// The text ends inside the word `total`.
    TotalLineCut,
    /// The text ends inside the totals, or just before their line feed.
    NoLastEnd,
    RowCut,
    /// Behind the totals.
    BytesBehind,
    EmptyText,
    /// A number out of range.
    RowOver,
    TotalOver,
}

impl Misprint {
    /// Those done to one line, wherever it stands.
    pub const OF_A_LINE: [Misprint; 11] = [
        Misprint::CarriageReturn,
        Misprint::BlankTooMany,
        Misprint::Tab,
        Misprint::OtherSeparator,
        Misprint::Sign,
        Misprint::Point,
        Misprint::Exponent,
        Misprint::OtherByte,
        Misprint::NumberTooMany,
        Misprint::LineBroken,
        Misprint::EmptyLine,
    ];

    /// Those done to a row.
    pub const OF_A_ROW: [Misprint; 3] = [Misprint::RowOver, Misprint::NumberLost, Misprint::LinesJoined];

    /// Those done to the totals.
    pub const OF_TOTALS: [Misprint; 4] =
        [Misprint::TotalOver, Misprint::TotalLost, Misprint::NoTotal, Misprint::OtherWord];

    /// Those done to the text as a whole.
    pub const OF_THE_TEXT: [Misprint; 6] = [
        Misprint::TotalLineLost,
        Misprint::TotalLineCut,
        Misprint::NoLastEnd,
        Misprint::RowCut,
        Misprint::BytesBehind,
        Misprint::EmptyText,
    ];

    /// Those that leave a number as it stands, so that it can be over the limit as well.
    pub const BESIDE_NUMBERS: [Misprint; 6] = [
        Misprint::CarriageReturn,
        Misprint::BlankTooMany,
        Misprint::NumberTooMany,
        Misprint::NumberLost,
        Misprint::TotalLost,
        Misprint::LinesJoined,
    ];

    pub fn all() -> impl Iterator<Item = Misprint> {
        let of_lines = Misprint::OF_A_LINE.into_iter().chain(Misprint::OF_A_ROW).chain(Misprint::OF_TOTALS);
        of_lines.chain(Misprint::OF_THE_TEXT)
    }

    /// The number that it is refused with.
    pub fn number(self) -> u64 {
        match self {
            Misprint::RowOver | Misprint::TotalOver => 20,
            _ => 19,
        }
    }

    /// Does it to a line, and gives the one that it is to be found at, from 0; `None` if it cannot be done to it.
    pub fn spoil(self, lines: &mut Vec<Line>, place: usize, rng: &mut Rng) -> Option<usize> {
        let is_total = lines[place].is_total();
        match self {
            Misprint::TotalOver | Misprint::TotalLost | Misprint::NoTotal | Misprint::OtherWord => {
                is_total.then(|| self.spoil_totals(lines, rng))
            }
            Misprint::RowOver | Misprint::LinesJoined => (!is_total).then(|| self.spoil_row(lines, place, rng)),
            Misprint::NumberLost => {
                let others_follow = lines.get(place + 1).is_some_and(|next| !next.is_total());
                others_follow.then(|| self.spoil_row(lines, place, rng))
            }
            Misprint::LineBroken => Some(break_line(lines, place, rng)),
            Misprint::EmptyLine => {
                let found = if is_total { without_totals(lines) } else { place };
                lines.insert(place, Line::empty());
                Some(found)
            }
            _ => {
                self.spoil_form(&mut lines[place], rng);
                Some(place)
            }
        }
    }

    fn spoil_totals(self, lines: &mut [Line], rng: &mut Rng) -> usize {
        let place = lines.len() - 1;
        let found = if self == Misprint::OtherWord { without_totals(lines) } else { place };
        let words = &mut lines[place].0;
        match self {
            Misprint::TotalOver => *lines[place].number(rng) = over(rng),
            Misprint::TotalLost => words.truncate(1 + rng.between(1, TOTALS - 1)),
            Misprint::NoTotal => *words = vec![b"total".to_vec(), Vec::new()],
            _ => other_word(words, rng),
        }
        found
    }

    fn spoil_row(self, lines: &mut Vec<Line>, place: usize, rng: &mut Rng) -> usize {
        match self {
            Misprint::RowOver => *lines[place].number(rng) = over(rng),
            Misprint::NumberLost => {
                (0..rng.between(1, ROW_CELLS - 1)).for_each(|_| {
                    let words = &mut lines[place].0;
                    words.remove(rng.below(words.len()));
                });
            }
            _ => {
                let next = lines.remove(place + 1);
                lines[place].0.extend(next.0);
            }
        }
        place
    }

    fn spoil_form(self, line: &mut Line, rng: &mut Rng) {
        let (first, count) = (line.first_number(), line.0.len());
        match self {
            Misprint::CarriageReturn => line.0[count - 1].push(b'\r'),
            Misprint::BlankTooMany => line.0.insert(rng.between(first, count), Vec::new()),
            Misprint::Tab => separate(&mut line.0, first, b'\t', rng),
            Misprint::OtherSeparator => separate(&mut line.0, first, rng.pick(b",;:_/\x0b\x0c\xa0\0"), rng),
            Misprint::Sign => line.number(rng).insert(0, rng.pick(b"+-")),
            Misprint::Point => line.number(rng).extend_from_slice(rng.pick(&[&b"."[..], b".0", b".5"])),
            Misprint::Exponent => line.number(rng).extend_from_slice(rng.pick(&[&b"e0"[..], b"E0", b"e+1"])),
            Misprint::OtherByte => {
                let number = line.number(rng);
                number.insert(rng.below(number.len() + 1), rng.pick(b"\0/:;'\"_,xtol\x0b\x0c\r\x7f\x80\xa0\xb2\xff"));
            }
            _ => {
                let most = if first == 1 { 1 + TOTALS } else { ROW_CELLS };
                line.0.resize(most + rng.between(1, 8), b"0".to_vec());
            }
        }
    }

    /// Does it to the text of the lines, and gives the line that it is to be found at, from 0.
    pub fn spoil_text(self, text: &mut Vec<u8>, lines: &[Line], rng: &mut Rng) -> Option<usize> {
        let totals = lines.len() - 1;
        let start =
            |line: usize| text.split_inclusive(|&byte| byte == b'\n').take(line).map(<[u8]>::len).sum::<usize>();
        match self {
            Misprint::TotalLineLost | Misprint::TotalLineCut => {
                let left = if self == Misprint::TotalLineLost { 0 } else { rng.between(1, 5) };
                text.truncate(start(totals) + left);
                Some(without_totals(lines))
            }
            Misprint::NoLastEnd => {
                text.truncate(text.len() - rng.pick(&[1, 1, 1, 2, 5, 8]));
                Some(totals)
            }
            Misprint::RowCut if totals == 0 => None,
            Misprint::RowCut => {
                let row = rng.below(totals);
                text.truncate(rng.between(start(row) + 1, start(row + 1) - 1));
                Some(row)
            }
            Misprint::BytesBehind => {
                text.extend_from_slice(rng.pick(&[
                    &b"\n"[..],
                    b"0",
                    b" ",
                    b"\r\n",
                    b"\0",
                    b"t",
                    b"total ",
                    b"total 0 0 0 0 0\n",
                    b"1 1 1 1 1 1 1\n",
                ]));
                Some(totals + 1)
            }
            _ => {
                text.clear();
                Some(0)
            }
        }
    }
}

/// Where it is to be found that no line of totals follows: at a last row that is short, else at the line that is due.
fn without_totals(lines: &[Line]) -> usize {
    let rows = lines.len() - 1;
    let is_short = lines[..rows].last().is_some_and(|row| row.0.len() < ROW_CELLS);
    rows - usize::from(is_short)
}

/// A word that is not `total`, none, or no blank behind it.
fn other_word(words: &mut Vec<Vec<u8>>, rng: &mut Rng) {
    const OTHERS: [&str; 10] = ["Total", "TOTAL", "totals", "tota", "otal", "total:", "total\t", "\ttotal", "", "t"];
    match rng.below(4) {
        0 => drop(words.remove(0)),
        1 => {
            let word = words.remove(0);
            words[0].splice(..0, word);
        }
        _ => words[0] = rng.pick(&OTHERS).into(),
    }
}

/// A line feed for a blank, or before a row of one number.
fn break_line(lines: &mut Vec<Line>, place: usize, rng: &mut Rng) -> usize {
    let (first, count) = (lines[place].first_number(), lines[place].0.len());
    if count == first + 1 {
        lines.insert(place, Line::empty());
    } else {
        let rest = lines[place].0.split_off(rng.between(first + 1, count - 1));
        lines.insert(place + 1, Line(rest));
    }
    place
}

/// Another byte for a blank between two numbers, or behind a single one.
fn separate(words: &mut Vec<Vec<u8>>, first: usize, byte: u8, rng: &mut Rng) {
    let place = rng.between(first, words.len() - 1);
    words[place].push(byte);
    if place + 1 < words.len() {
        let next = words.remove(place + 1);
        words[place].extend(next);
    }
}

/// A number over the limit: by one, by far, or with the low bits of a small one.
fn over(rng: &mut Rng) -> Vec<u8> {
    let least = u128::from(MOST_NUMBER) + 1;
    let number = match rng.below(5) {
        0 => least,
        1 => least + rng.below(1_000) as u128,
        2 => least + u128::from(rng.word()),
        3 => return "9".repeat(rng.between(20, 400)).into(),
        _ => return format!("{}{least}", "0".repeat(rng.between(1, 60))).into(),
    };
    number.to_string().into()
}
