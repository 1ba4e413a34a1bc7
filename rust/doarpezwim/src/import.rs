//! Day records out of the historian's text export.

use crate::{IMPORT_CELLS, Refusal, ffi};

/// Writes the day records of a text export to the start of `records`, and gives how many bytes they are.
///
/// A line is day, hour, state, concentration and flow, and ends with LF. States are R measured, M missing and
/// S stopped, and both readings are empty unless R. All 24 hours of each day stand in order, from day 0.
/// Concentrations, in mg/m3, have at most two decimals, flows, in m3/h, none, and each becomes the nearest binary32. An
/// empty text writes nothing.
///
/// Bytes past the records stay as they were; after a refusal all of `records` is zero. [`DAY_BYTES`](crate::DAY_BYTES)
/// times [`MOST_DAYS`](crate::MOST_DAYS) are always enough. The records stand in a file between a head and its end:
///
/// ```
/// let mut text: String = (0..24).map(|hour| format!("0,{hour},R,41.25,1003417\n")).collect();
/// let mut records = [0; doarpezwim::DAY_BYTES * doarpezwim::MOST_DAYS];
/// let count = doarpezwim::import_days(text.as_bytes(), &mut records)?;
/// assert_eq!((count, &records[..5]), (205, &[203, 0, 2, 0, 0][..]));
/// assert_eq!(records[13..17], 41.25_f32.to_le_bytes());
///
/// let head = [12, 0, 1, 0, 1, 0, 2, 1, 1, 4, 44, 1, 1, 1]; // Stack 1, nitrogen oxides, one day.
/// let account = doarpezwim::account(&[&head[..], &records[..count], &[2, 0, 6, 0]].concat())?;
/// assert_eq!((account.rows[0].running, account.rows[0].grams), (24, 993_383)); // 24 x 4,125 x 1,003,417 / 100,000
///
/// text = text.replace("0,7,R", "0,7,r");
/// let refusal = doarpezwim::import_days(text.as_bytes(), &mut records).unwrap_err();
/// assert_eq!(refusal, doarpezwim::Refusal::TextLine { line: 8 });
/// assert_eq!(records[..205], [0; 205]);
/// # Ok::<(), doarpezwim::Refusal>(())
/// ```
///
/// # Errors
///
/// The first line at fault, in this order: 19 it is malformed, not of the hour that is due, does not end, or is the
/// last one of a day that is not finished; 20 a reading is over 10,000 mg/m3 or 5,000,000 m3/h, or the day is 92; 21
/// the record of the day that it begins has no room.
pub fn import_days(text: &[u8], records: &mut [u8]) -> Result<usize, Refusal> {
    let mut answer = [0; IMPORT_CELLS];
    // SAFETY: each pointer comes with the length of its slice, and the borrows keep the two mutable ones apart.
    let number =
        unsafe { ffi::doarpezwim_import(text.as_ptr(), text.len(), records.as_mut_ptr(), records.len(), &mut answer) };
    let [_, line, count] = answer;
    if number == 0 { Ok(count as usize) } else { Err(Refusal::of_import(number, line as usize)) }
}
