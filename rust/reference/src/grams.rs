//! Grams, by each of the four methods; of water by the first two.

use crate::hours::Values;
use crate::line::{Boiler, Pollutant};
use crate::record::Batch;
use crate::refusal::Refusal;
use crate::tables;

/// `numerator / denominator`, halves up; every denominator here is even, so that its half is exact.
fn rounded_quotient(numerator: u64, denominator: u64) -> u64 {
    (numerator + denominator / 2) / denominator
}

/// What c x l counts in: air 0.01 mg, by hundredths of mg/m3; water 10 mg, by hundredths of mg/L.
#[derive(Clone, Copy, Debug)]
pub(crate) enum Scale {
    Air,
    Water,
}

impl Scale {
    /// How many of c x l are a gram.
    fn gram(self) -> u64 {
        match self {
            Scale::Air => 100_000,
            Scale::Water => 100,
        }
    }
}

/// From the sum of c x l over the running hours or days, missing hours filled.
pub(crate) fn automatic(sum_of_products: u64, scale: Scale) -> u64 {
    rounded_quotient(sum_of_products, scale.gram())
}

/// From the governing surveys of distinct hours or days.
pub(crate) fn manual(surveyed: &[Values], running: u64, scale: Scale) -> u64 {
    let count = surveyed.len() as u64;
    let sum: u64 = surveyed.iter().map(Values::product).sum();
    rounded_quotient(sum * running, count * scale.gram())
}

/// From the fuel: sulphur dioxide by balance, the others by coefficient.
pub(crate) fn by_fuel(pollutant: Pollutant, boiler: &Boiler, batches: &[Batch]) -> Result<u64, Refusal> {
    if batches.is_empty() {
        return Err(Refusal::NoBatch);
    }
    let grams = match pollutant {
        Pollutant::SulphurDioxide => balance(boiler, batches),
        Pollutant::NitrogenOxides => oxides(boiler, batches),
        Pollutant::Dust => dust(boiler, batches),
    };
    grams.ok_or(Refusal::NoEntry)
}

fn total_kg(batches: &[Batch]) -> u64 {
    batches.iter().map(|batch| batch.kg).sum()
}

fn balance(boiler: &Boiler, batches: &[Batch]) -> Option<u64> {
    let burnt = 1_000 - tables::unburnt(boiler.furnace, boiler.coal)?;
    let released = tables::released(boiler.furnace)?;
    let sulphur = batches.iter().map(|batch| u64::from(batch.sulphur)).max()?;
    Some(rounded_quotient(2 * total_kg(batches) * burnt * sulphur * released, 1_000_000))
}

fn oxides(boiler: &Boiler, batches: &[Batch]) -> Option<u64> {
    let coefficient = tables::oxides(boiler.furnace, boiler.megawatts, boiler.mark)?;
    Some(rounded_quotient(total_kg(batches) * coefficient, 100))
}

fn dust(boiler: &Boiler, batches: &[Batch]) -> Option<u64> {
    let factors = tables::dust(boiler.furnace, boiler.coal, boiler.megawatts)?;
    let of_batch = |batch: &Batch| batch.kg * (factors.slope * u64::from(batch.ash) + 100 * factors.base);
    Some(rounded_quotient(batches.iter().map(of_batch).sum(), 10_000))
}
