//! One input of the import call: a text export and the bytes lent for its day records.

use crate::damage_bytes;
use crate::damage_export::Damage;
use crate::export_lines::{HOURS_OF_A_DAY, Line, MOST_DAYS, sound_lines, text};
use crate::rng::Rng;

/// Bytes of a day record.
const DAY_BYTES: usize = 205;
/// The most bytes that are lent: those of 92 days, and more than a day's over.
const MOST_ROOM: usize = 20_000;

#[derive(Debug)]
pub struct Export {
    pub text: Vec<u8>,
    pub room: usize,
    /// The whole days that it was made of.
    pub days: usize,
    /// What was done to it; `None` if its bytes were changed anyhow.
    pub damages: Option<Vec<Damaged>>,
}

/// A damage, and the line that has it, counted from 1.
#[derive(Clone, Copy, Debug, PartialEq, Eq)]
pub struct Damaged {
    pub line: u64,
    pub damage: Damage,
}

impl Damaged {
    fn at(place: usize, damage: Damage) -> Self {
        Damaged { line: place as u64 + 1, damage }
    }
}

impl Export {
    /// Mostly of few days; two of three are damaged, and some are lent too little.
    pub fn generate(rng: &mut Rng) -> Self {
        let days = days(rng);
        match rng.below(20) {
            0..=5 => Export::sound(days, rng),
            6..=11 => Export::with_a_line_damaged(days.max(1), rng),
            12..=14 => Export::with_lines_damaged(days.max(1), rng),
            15 | 16 => Export::with_a_line_damaged_twice(days.max(1), rng),
            17 => Export::with_the_last_line_damaged_twice(days.max(1), rng),
            18 => Export::with_two_lines_damaged(days.max(1), rng),
            _ => Export::with_bytes_damaged(days, rng),
        }
    }

    /// A quarter of whole days, nearly all hours measured; for the benchmark.
    pub fn quarter(rng: &mut Rng) -> Vec<u8> {
        let mut line = |hour: usize| {
            let (day, of_day) = (hour / HOURS_OF_A_DAY, hour % HOURS_OF_A_DAY);
            match rng.below(50) {
                0 => format!("{day},{of_day},M,,\n"),
                1 => format!("{day},{of_day},S,,\n"),
                _ => {
                    let (concentration, flow) = (rng.between(2_000, 40_000), rng.between(500_000, 1_800_000));
                    format!("{day},{of_day},R,{}.{:02},{flow}\n", concentration / 100, concentration % 100)
                }
            }
        };
        (0..HOURS_OF_A_DAY * MOST_DAYS).flat_map(|hour| line(hour).into_bytes()).collect()
    }

    /// Number and line of the refusal, or zeros, if what was done to the text is known: the first line, and for it the
    /// least number.
    pub fn answer(&self) -> Option<(u64, u64)> {
        let damages = self.damages.as_ref()?;
        let faults = damages.iter().map(|damaged| (damaged.line, damaged.damage.number()));
        let first = faults.chain(self.line_without_room().map(|line| (line, 21))).min();
        Some(first.map_or((0, 0), |(line, number)| (number, line)))
    }

    /// The first line of the day whose record has no room.
    pub fn line_without_room(&self) -> Option<u64> {
        let days = self.room / DAY_BYTES;
        (days < self.days).then_some((HOURS_OF_A_DAY * days) as u64 + 1)
    }

    fn of_lines(lines: &[Line], days: usize, damages: Vec<Damaged>, rng: &mut Rng) -> Self {
        let room = match damages.first().filter(|_| rng.chance(1, 5)) {
            // None for the day that is damaged.
            Some(damaged) => DAY_BYTES * ((damaged.line as usize - 1) / HOURS_OF_A_DAY) + rng.below(DAY_BYTES),
            None => room(days, rng),
        };
        Export { text: text(lines), room: room.min(MOST_ROOM), days, damages: Some(damages) }
    }

    fn sound(days: usize, rng: &mut Rng) -> Self {
        let days = if rng.chance(1, 25) { MOST_DAYS } else { days };
        Export::of_lines(&sound_lines(days, rng), days, Vec::new(), rng)
    }

    fn with_a_line_damaged(days: usize, rng: &mut Rng) -> Self {
        let mut lines = sound_lines(days, rng);
        let place = place(&lines, rng);
        let damage = if rng.chance(1, 6) { over(rng) } else { rng.pick(&Damage::OF_A_LINE) };
        damage.spoil(&mut lines[place], place, rng);
        Export::of_lines(&lines, days, vec![Damaged::at(place, damage)], rng)
    }

    fn with_lines_damaged(days: usize, rng: &mut Rng) -> Self {
        let damage = rng.pick(&Damage::OF_LINES);
        let past_91 = matches!(damage, Damage::DayPast91 | Damage::DayPast91AtTheEnd);
        let days = if past_91 { MOST_DAYS } else { days };
        let mut lines = sound_lines(days, rng);
        let place = damage.spoil_lines(&mut lines, rng).expect("a day or more");
        let mut export = Export::of_lines(&lines, days, vec![Damaged::at(place, damage)], rng);
        damage.spoil_text(&mut export.text, rng);
        export
    }

    /// Over a limit and malformed or misplaced as well.
    fn with_a_line_damaged_twice(days: usize, rng: &mut Rng) -> Self {
        let mut lines = sound_lines(days, rng);
        let place = place(&lines, rng);
        let both = [over(rng), rng.pick(&Damage::BESIDE_READINGS)];
        both.iter().for_each(|damage| damage.spoil(&mut lines[place], place, rng));
        Export::of_lines(&lines, days, both.map(|damage| Damaged::at(place, damage)).to_vec(), rng)
    }

    /// The last line of a day that is not finished, over a limit.
    fn with_the_last_line_damaged_twice(days: usize, rng: &mut Rng) -> Self {
        let mut lines = sound_lines(days, rng);
        let place = Damage::UnfinishedDay.spoil_lines(&mut lines, rng).expect("a day or more");
        let over = over(rng);
        over.spoil(&mut lines[place], place, rng);
        let both = [Damage::UnfinishedDay, over];
        Export::of_lines(&lines, days, both.map(|damage| Damaged::at(place, damage)).to_vec(), rng)
    }

    fn with_two_lines_damaged(days: usize, rng: &mut Rng) -> Self {
        let mut lines = sound_lines(days, rng);
        let first = rng.below(lines.len() - 1);
        let places = [first, rng.between(first + 1, lines.len() - 1)];
        let damages = places.map(|place| {
            let damage = rng.pick(&Damage::OF_A_LINE);
            damage.spoil(&mut lines[place], place, rng);
            Damaged::at(place, damage)
        });
        Export::of_lines(&lines, days, damages.to_vec(), rng)
    }

    fn with_bytes_damaged(days: usize, rng: &mut Rng) -> Self {
        let mut export = Export::of_lines(&sound_lines(days, rng), days, Vec::new(), rng);
        rng.pick(&damage_bytes::FAULTS)(&mut export.text, rng);
        Export { damages: None, ..export }
    }
}

fn days(rng: &mut Rng) -> usize {
    match rng.below(200) {
        0 | 1 => 92,
        2 => rng.between(10, 91),
        3..=8 => 0,
        9..=30 => rng.between(4, 9),
        31..=110 => rng.between(2, 3),
        _ => 1,
    }
}

/// A line to damage: of three, one is a day's first and one the last.
fn place(lines: &[Line], rng: &mut Rng) -> usize {
    let any = rng.below(lines.len());
    match rng.below(3) {
        0 => any - any % HOURS_OF_A_DAY,
        1 => lines.len() - 1,
        _ => any,
    }
}

fn over(rng: &mut Rng) -> Damage {
    rng.pick(&[Damage::ConcentrationOver, Damage::FlowOver])
}

/// Mostly what the days need, or a byte more or less than some days need; at times anything.
fn room(days: usize, rng: &mut Rng) -> usize {
    let needed = DAY_BYTES * days;
    match rng.below(16) {
        0 => rng.below(needed + 1),
        1 => rng.pick(&[0, 1, 204, 205, 206]),
        2 | 3 => (DAY_BYTES * rng.below(days + 1) + rng.below(3)).saturating_sub(1),
        4 => needed + rng.between(1, 400),
        5 => (needed + rng.below(3)).saturating_sub(1),
        6 => MOST_ROOM,
        _ => needed,
    }
}
