//! Accounts a record file: `cargo run -p doarpezwim --example account_file -- FILE`.

use std::error::Error;
use std::process::ExitCode;

fn account_file() -> Result<(), Box<dyn Error>> {
    let path = std::env::args_os().nth(1).ok_or("name a record file")?;
    let account = doarpezwim::account(&std::fs::read(path)?)?;
    account.rows.iter().for_each(|row| println!("{row}"));
    println!("{}", account.totals);
    Ok(())
}

fn main() -> ExitCode {
    match account_file() {
        Ok(()) => ExitCode::SUCCESS,
        Err(error) => {
            eprintln!("account_file: {error}");
            ExitCode::FAILURE
        }
    }
}
