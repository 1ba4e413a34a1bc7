//! Texts of 92 days that have every concentration of two decimals in each way of writing it, and every flow.

use crate::export_lines::{HOURS_OF_A_DAY, MOST_DAYS, least_decimals, written};

const HOURS: usize = HOURS_OF_A_DAY * MOST_DAYS;
const CONCENTRATIONS: usize = 1_000_001;
const FLOWS: usize = 5_000_001;

/// The texts that carry all flows; the concentrations go through them five times.
pub const TEXTS: usize = FLOWS.div_ceil(HOURS);

/// A measured hour: what its readings are, and how they are written.
#[derive(Clone, Debug)]
pub struct Reading {
    pub hundredths: usize,
    pub concentration: String,
    pub cubic_metres: usize,
    pub flow: String,
}

/// The hours of a text, by its number under [`TEXTS`].
pub fn readings(text: usize) -> impl Iterator<Item = Reading> {
    (HOURS * text..HOURS * (text + 1)).map(|place| {
        let hundredths = place % CONCENTRATIONS;
        let cubic_metres = place % FLOWS;
        let concentration = in_turn(hundredths, place / CONCENTRATIONS);
        Reading { hundredths, concentration, cubic_metres, flow: cubic_metres.to_string() }
    })
}

/// The text of such hours.
pub fn text(readings: &[Reading]) -> Vec<u8> {
    let line = |(hour, reading): (usize, &Reading)| {
        let (day, hour) = (hour / HOURS_OF_A_DAY, hour % HOURS_OF_A_DAY);
        format!("{day},{hour},R,{},{}\n", reading.concentration, reading.flow)
    };
    readings.iter().enumerate().map(line).collect::<String>().into_bytes()
}

/// A concentration as it is written in this round: with as few decimals as will do, with one more, with two, and again
/// with leading zeros.
fn in_turn(hundredths: usize, round: usize) -> String {
    let least = least_decimals(hundredths);
    match round {
        0 => written(hundredths, least),
        1 => written(hundredths, (least + 1).min(2)),
        2 => written(hundredths, 2),
        3 => format!("0{}", written(hundredths, least)),
        _ => format!("0000000{}", written(hundredths, 2)),
    }
}

#[cfg(test)]
mod tests {
    use super::{CONCENTRATIONS, FLOWS, HOURS, TEXTS, readings, text};

    #[test]
    fn goes_through_all() {
        const { assert!(HOURS * TEXTS >= 5 * CONCENTRATIONS && HOURS * TEXTS >= FLOWS) };
        let first: Vec<_> = readings(0).collect();
        assert_eq!((first.len(), first[10].concentration.as_str(), first[2_207].flow.as_str()), (2_208, "0.1", "2207"));
        assert!(text(&first).starts_with(b"0,0,R,0,0\n0,1,R,0.01,1\n"));
        assert!(readings(2_264).any(|reading| reading.cubic_metres == 5_000_000));
        assert!(readings(452).any(|reading| reading.concentration == "10000"));
        assert!(readings(2_264).any(|reading| reading.concentration == "000000010000.00"));
    }
}
