//! The quarter account of a record file.

use std::fmt;

use crate::{ANSWER_CELLS, MOST_LINES, Pollutant, ROW_CELLS, Refusal, Row, TOTALS, WORK_CELLS, ffi};

/// Grams of each pollutant, over all rows; 0 of one that no row has.
#[derive(Clone, Copy, Debug, Default, PartialEq, Eq, Hash)]
pub struct Totals {
    /// Grams of sulphur dioxide.
    pub sulphur_dioxide: u64,
    /// Grams of nitrogen oxides.
    pub nitrogen_oxides: u64,
    /// Grams of dust.
    pub dust: u64,
    /// Grams of chemical oxygen demand.
    pub chemical_oxygen_demand: u64,
    /// Grams of ammonia nitrogen.
    pub ammonia_nitrogen: u64,
}

impl Totals {
    /// The grams of one pollutant.
    #[must_use]
    pub fn of(&self, pollutant: Pollutant) -> u64 {
        match pollutant {
            Pollutant::SulphurDioxide => self.sulphur_dioxide,
            Pollutant::NitrogenOxides => self.nitrogen_oxides,
            Pollutant::Dust => self.dust,
            Pollutant::ChemicalOxygenDemand => self.chemical_oxygen_demand,
            Pollutant::AmmoniaNitrogen => self.ammonia_nitrogen,
        }
    }

    /// The grams of all pollutants, in the order of [`Pollutant::ALL`].
    #[must_use]
    pub fn cells(&self) -> [u64; TOTALS] {
        Pollutant::ALL.map(|pollutant| self.of(pollutant))
    }
}

/// Grams in the order of [`Pollutant::ALL`].
impl From<[u64; TOTALS]> for Totals {
    fn from(cells: [u64; TOTALS]) -> Self {
        let [sulphur_dioxide, nitrogen_oxides, dust, chemical_oxygen_demand, ammonia_nitrogen] = cells;
        Totals { sulphur_dioxide, nitrogen_oxides, dust, chemical_oxygen_demand, ammonia_nitrogen }
    }
}

impl fmt::Display for Totals {
    fn fmt(&self, text: &mut fmt::Formatter) -> fmt::Result {
        let grams = Pollutant::ALL.map(|pollutant| format!("{} g {pollutant}", self.of(pollutant)));
        write!(text, "total: {}", grams.join(", "))
    }
}

/// What [`account`] states of a file.
#[derive(Clone, Debug, Default, PartialEq, Eq, Hash)]
#[must_use]
pub struct Account {
    /// A row for each line, in the file's order: by the number of the stack or outfall, then by pollutant.
    pub rows: Vec<Row>,
    /// The rows' grams, summed.
    pub totals: Totals,
}

/// What [`account_into`] states of a file; the rows stand in the cells that were lent for them.
#[derive(Clone, Copy, Debug, PartialEq, Eq)]
#[must_use]
pub struct Stated<'a> {
    cells: &'a [[u64; ROW_CELLS]],
    totals: Totals,
}

impl<'a> Stated<'a> {
    /// A row for each line, in the file's order.
    pub fn rows(&self) -> impl ExactSizeIterator<Item = Row> + use<'a> {
        self.cells.iter().map(|cells| Row::of_cells(cells).expect("the proved call writes rows"))
    }

    /// The rows as cells, in the order of [`Row`]'s fields; the last is the first missing hour or day plus 1, or 0.
    #[must_use]
    pub fn cells(&self) -> &'a [[u64; ROW_CELLS]] {
        self.cells
    }

    /// The rows' grams, summed.
    #[must_use]
    pub fn totals(&self) -> Totals {
        self.totals
    }
}

/// States the account of a record file of any length.
///
/// An empty file is a sound one without rows. What is not sound is refused with the first fault and its place, that of
/// the wrong field where it is a field:
///
/// ```
/// use doarpezwim::{Method, Pollutant, Refusal, Source};
///
/// let mut file = std::fs::read("../../samples/example.rec")?;
/// let row = doarpezwim::account(&file)?.rows[0];
/// assert_eq!((row.source, row.pollutant), (Source::Stack(1), Pollutant::NitrogenOxides));
/// assert_eq!((row.method, row.running, row.missing, row.first_missing), (Method::Automatic, 4, 1, Some(2)));
///
/// file.truncate(219); // The end record is lost.
/// assert_eq!(doarpezwim::account(&file), Err(Refusal::OutOfPlace { place: 219 }));
///
/// file[34] = 0xff; // The flow of hour 0, at byte 31, becomes negative.
/// assert_eq!(doarpezwim::account(&file), Err(Refusal::BadReading { place: Some(31) }));
/// # Ok::<(), Box<dyn std::error::Error>>(())
/// ```
///
/// # Errors
///
/// A file that is not sound gives one of the refusals 1, 2, 4 to 7 and 14 to 18. 8 and 9 do not come up: enough cells
/// are lent.
pub fn account(file: &[u8]) -> Result<Account, Refusal> {
    let mut rows = [0; ROW_CELLS * MOST_LINES];
    let mut work = vec![0; 2 * WORK_CELLS];
    let (concentration, flow) = work.split_at_mut(WORK_CELLS);
    let stated = account_into(file, &mut rows, concentration, flow)?;
    Ok(Account { rows: stated.rows().collect(), totals: stated.totals })
}

/// States the account of a record file of any length, over slices that the caller lends; nothing is allocated.
///
/// Rows are written from the start of `rows`, and nothing past them; a refused file leaves all of them alone.
///
/// Afterwards the first [`WORK_CELLS`] cells of the two work slices hold the last line's hours, in hundredths of mg/m3
/// and in m3/h: measured; surveyed, also in an hour that the monitor missed; filled under
/// [`Method::Automatic`](crate::Method::Automatic); and zero elsewhere. If the last line is an outfall's, they hold its
/// days, cell d day d, in hundredths of mg/L and in m3 per day, none filled, and zero behind. After a refusal they are
/// zero, but 9 leaves both slices alone. Cells past them are never written.
///
/// ```
/// use doarpezwim::{ROW_CELLS, WORK_CELLS};
///
/// let file = std::fs::read("../../samples/example.rec")?;
/// let mut rows = [0; ROW_CELLS];
/// let (mut concentration, mut flow) = ([0; WORK_CELLS], [0; WORK_CELLS]);
/// let stated = doarpezwim::account_into(&file, &mut rows, &mut concentration, &mut flow)?;
/// assert_eq!(stated.rows().len(), 1);
/// assert_eq!((concentration[2], flow[2]), (3_550, 1_000_001)); // The fill of hour 2.
/// # Ok::<(), Box<dyn std::error::Error>>(())
/// ```
///
/// # Errors
///
/// The refusals of [`account`], 8 if `rows` is too short, 9 if a work slice is.
pub fn account_into<'a>(
    file: &[u8],
    rows: &'a mut [u64],
    concentration: &mut [u32],
    flow: &mut [u32],
) -> Result<Stated<'a>, Refusal> {
    let mut answer = [0; ANSWER_CELLS];
    // SAFETY: each pointer comes with the length of its slice, and the borrows keep the four mutable ones apart.
    let number = unsafe {
        ffi::doarpezwim_account(
            file.as_ptr(),
            file.len(),
            rows.as_mut_ptr(),
            rows.len(),
            concentration.as_mut_ptr(),
            concentration.len(),
            flow.as_mut_ptr(),
            flow.len(),
            &mut answer,
        )
    };
    let [_, place, count, totals @ ..] = answer;
    if number != 0 {
        return Err(Refusal::of_account(number, place as usize));
    }
    // As many rows were written as there are lines, and there was room for them.
    let cells = &rows.as_chunks().0[..count as usize];
    Ok(Stated { cells, totals: totals.into() })
}
