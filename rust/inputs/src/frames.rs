//! The frames of the program `calls` in the repository, each with its answer.

use std::fs;
use std::path::Path;

/// A frame's header: the call, and five numbers that it gives a meaning.
pub type Header = [u32; 6];

/// What the program is asked, and what it answers.
#[derive(Clone, Copy, Debug)]
pub struct Frame<'a> {
    pub header: Header,
    /// The bytes behind the header.
    pub body: &'a [u8],
    pub answer: &'a [u8],
}

impl Frame<'_> {
    /// The answer's cells, at whose end bytes may follow.
    pub fn cells<const N: usize>(&self) -> Option<[u64; N]> {
        let cells: &[[u8; 8]; N] = self.answer.as_chunks().0.first_chunk()?;
        Some(cells.map(u64::from_le_bytes))
    }
}

/// The bytes behind a header, and those of the answer that begins here.
fn lengths(header: Header, answers: &[u8]) -> Option<(usize, usize)> {
    let [call, a, b, c, d, _] = header.map(|number| number as usize);
    Some(match call {
        1 => (a, 64 + 8 * b + 4 * c + 4 * d),
        2 => (8, 20),
        3 => (a + b, 18),
        4 => (a, 24 + b),
        5 => (a + 8 * b + 40, 24),
        6 => (a + b, 4 + u32::from_le_bytes(*answers.first_chunk()?) as usize),
        _ => return None,
    })
}

/// The next frame and its answer.
fn next<'a>(frames: &mut &'a [u8], answers: &mut &'a [u8]) -> Option<Frame<'a>> {
    let header: [[u8; 4]; 6] = frames.split_off(..24)?.as_chunks().0.try_into().ok()?;
    let header = header.map(u32::from_le_bytes);
    let (body, answer) = lengths(header, answers)?;
    Some(Frame { header, body: frames.split_off(..body)?, answer: answers.split_off(..answer)? })
}

/// All that `take` takes out of frames and answers.
pub fn taken_apart<'a, T>(mut frames: &'a [u8], mut answers: &'a [u8], take: impl Fn(Frame) -> Option<T>) -> Vec<T> {
    let mut taken = Vec::new();
    while !frames.is_empty() {
        let frame = next(&mut frames, &mut answers).expect("whole frames of known calls, and answers");
        taken.extend(take(frame));
    }
    assert!(answers.is_empty(), "answers are left over");
    taken
}

/// The corpus of the repository: `stdin` holds the frames, `stdout` the answers.
pub fn load<T>(take: impl Fn(Frame) -> Option<T>) -> Vec<T> {
    let folder = Path::new(env!("CARGO_MANIFEST_DIR")).join("../../crates/calls");
    let [frames, answers] =
        ["stdin", "stdout"].map(|name| fs::read(folder.join(name)).expect("the corpus of the repository"));
    taken_apart(&frames, &answers, take)
}

/// Numbers one after another, as frames and answers have them.
#[cfg(test)]
pub fn written<const N: usize, T: Copy>(numbers: &[T], bytes: impl Fn(T) -> [u8; N]) -> Vec<u8> {
    numbers.iter().flat_map(|&number| bytes(number)).collect()
}
