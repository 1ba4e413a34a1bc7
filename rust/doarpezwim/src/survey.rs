//! The governing survey of an hour.

use crate::ffi;

/// Bytes of a survey record.
const BLOCK: usize = 14;

/// The survey that governs `hour`: a part of `enforcement` or of `plant`, or `None`.
///
/// It is the first block of that hour in `enforcement` that starts with length 12 and kind 3, else the first in `plant`
/// that starts with length 12 and kind 4. Both slices go by blocks of 14 bytes, a tail is ignored, and readings are not
/// judged. Surveys of an outfall, kinds 11 and 12, are passed over.
///
/// ```
/// let survey = |kind, hour| [12, 0, kind, 0, hour, 0, 0, 0, 160, 65, 0, 36, 116, 73];
/// let plant = [survey(4, 3), survey(4, 5)].concat();
/// let part = doarpezwim::governing_survey(&[], &plant, 5);
/// assert_eq!(part, Some(&plant[14..]));
/// assert_eq!(doarpezwim::governing_survey(&survey(3, 5), &plant, 5), Some(&survey(3, 5)[..]));
/// assert_eq!(doarpezwim::governing_survey(&[], &plant, 4), None);
/// ```
#[must_use]
pub fn governing_survey<'a>(enforcement: &'a [u8], plant: &'a [u8], hour: u16) -> Option<&'a [u8]> {
    let mut part = [0; BLOCK];
    // SAFETY: each pointer comes with the length of its slice, and `part` is a local.
    let length = unsafe {
        ffi::doarpezwim_governing_survey(
            enforcement.as_ptr(),
            enforcement.len(),
            plant.as_ptr(),
            plant.len(),
            hour,
            &mut part,
        )
    };
    // The call hands a copy back. Its kind says which slice it lies in; and since it is the first block there of its
    // length, kind and hour, no block before it has the same bytes, so that the first equal block is the part itself.
    let surveys = if part[2] == 3 { enforcement } else { plant };
    (length != 0).then(|| surveys.chunks_exact(BLOCK).find(|block| *block == part)).flatten()
}
