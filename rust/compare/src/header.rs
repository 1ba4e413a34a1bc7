//! The C header, which has the one number that document 01 has not.

/// The text of the header.
pub const HEADER: &str = include_str!("../../include/doarpezwim.h");

/// What the panel answers to a kind of hour that does not exist.
pub(crate) fn unknown_kind() -> u32 {
    let (_, after) = HEADER.split_once("DOARPEZWIM_UNKNOWN_KIND = ").expect("the header has the number");
    let digits = after.split(|letter: char| !letter.is_ascii_digit()).next();
    digits.and_then(|digits| digits.parse().ok()).expect("the header has a number")
}
