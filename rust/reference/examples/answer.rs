//! Prints the answer to a record file on standard input: as the program would, or with the word `library`, for a file of any length.
use std::io::{Read, Write};

fn main() -> std::io::Result<()> {
    let mut file = Vec::new();
    std::io::stdin().read_to_end(&mut file)?;
    let text = if std::env::args().any(|word| word == "library") {
        let mut rows = [0; 7 * 48];
        let answer = reference::account(&file, &mut rows, &mut [0; reference::HOURS], &mut [0; reference::HOURS]);
        reference::text(&answer, &rows)
    } else {
        reference::printed(&file)
    };
    std::io::stdout().write_all(text.as_bytes())
}
