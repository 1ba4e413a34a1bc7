//! Vectors: record files with the texts that the program `vectors` prints for each.

use std::fs;
use std::path::Path;

/// What the program takes; of a longer file the corpus holds the library's own answer behind the program's.
pub const PROGRAM_MOST: usize = 65_536;

/// Files in order, and their texts one after another.
pub struct Vectors {
    pub files: Vec<Vec<u8>>,
    pub texts: String,
}

/// The corpus of the repository: `stdin` holds the framed files, `stdout` the texts.
pub fn load() -> Vectors {
    let folder = Path::new(env!("CARGO_MANIFEST_DIR")).join("../../crates/vectors");
    let framed = fs::read(folder.join("stdin")).expect("the corpus of the repository");
    let texts = fs::read_to_string(folder.join("stdout")).expect("the texts of the corpus");
    Vectors { files: unframed(&framed), texts }
}

/// Holds the texts of all files, in their order, against the corpus; gives their number.
pub fn check(vectors: &Vectors, texts: impl IntoIterator<Item = String>) -> usize {
    let mut rest = vectors.texts.as_str();
    let mut count = 0;
    for text in texts {
        let Some(after) = rest.strip_prefix(text.as_str()) else {
            let expected: Vec<&str> = rest.lines().take(50).collect();
            panic!("vector {count}: printed\n{text}but expected was\n{}", expected.join("\n"));
        };
        rest = after;
        count += 1;
    }
    assert!(rest.is_empty(), "text is left over: {rest}");
    assert_eq!(count, vectors.files.len());
    count
}

/// Files one after another, each after its length as a u32.
fn unframed(mut framed: &[u8]) -> Vec<Vec<u8>> {
    let mut files = Vec::new();
    while let Some((&length, after)) = framed.split_first_chunk() {
        let (file, rest) =
            after.split_at_checked(u32::from_le_bytes(length) as usize).expect("a frame as long as it says");
        files.push(file.to_vec());
        framed = rest;
    }
    assert!(framed.is_empty(), "the corpus ends inside a frame");
    files
}

#[cfg(test)]
mod tests {
    #[test]
    fn takes_frames_apart() {
        let framed = [2, 0, 0, 0, 7, 8, 0, 0, 0, 0, 1, 0, 0, 0, 9];
        assert_eq!(super::unframed(&framed), [vec![7, 8], vec![], vec![9]]);
        assert!(super::unframed(&[]).is_empty());
    }
}
