//! Prints the answer to a record file and the text of what was filed for it, as the program would: `check FILE FILED`.
use std::io::{Error, Write};

fn main() -> std::io::Result<()> {
    let paths: Vec<_> = std::env::args_os().skip(1).collect();
    let [file, filed] = paths.as_slice() else { return Err(Error::other("name a record file and a filed text")) };
    let line = reference::printed_check(&std::fs::read(file)?, &std::fs::read(filed)?);
    std::io::stdout().write_all(line.as_bytes())
}
