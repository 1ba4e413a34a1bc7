//! The governing survey of an hour.

const BLOCK: usize = 14;

/// The first enforcement block of that hour, else the first plant block, else the empty part at the start of `plant`.
pub fn governing_survey<'a>(enforcement: &'a [u8], plant: &'a [u8], hour: u16) -> &'a [u8] {
    let found = first_of(enforcement, 3, hour).or_else(|| first_of(plant, 4, hour));
    found.unwrap_or(&plant[..0])
}

/// The first 14-byte block that starts with length 12, this kind and this hour; a tail is ignored.
fn first_of(surveys: &[u8], kind: u16, hour: u16) -> Option<&[u8]> {
    let ([l0, l1], [k0, k1], [h0, h1]) = (12u16.to_le_bytes(), kind.to_le_bytes(), hour.to_le_bytes());
    surveys.chunks_exact(BLOCK).find(|block| block.starts_with(&[l0, l1, k0, k1, h0, h1]))
}
