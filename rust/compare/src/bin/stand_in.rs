//! Answers frames by the reference, with a fault at will: the comparison's own tests show on it that they would fail.
//!
//! `stand_in` answers all well. `flip CALL BYTE` changes a byte of an answer, `cut CALL` ends inside an answer, `more`
//! writes a byte too many at the end, `status` ends with a failure, `silent` does not answer.

use std::io::{self, BufReader, BufWriter, Read, Write};
use std::process::ExitCode;

use compare::{AccountCall, ImportCall, part, stepped};
use inputs::{Case, Lookup, Step};

#[derive(Clone, Copy, PartialEq)]
enum Fault {
    None,
    Flip { call: usize, byte: usize },
    Cut { call: usize },
    More,
    Status,
    Silent,
}

fn fault() -> Option<Fault> {
    let words: Vec<String> = std::env::args().skip(1).collect();
    let words: Vec<&str> = words.iter().map(String::as_str).collect();
    Some(match words.as_slice() {
        [] => Fault::None,
        ["flip", call, byte] => Fault::Flip { call: call.parse().ok()?, byte: byte.parse().ok()? },
        ["cut", call] => Fault::Cut { call: call.parse().ok()? },
        ["more"] => Fault::More,
        ["status"] => Fault::Status,
        ["silent"] => Fault::Silent,
        _ => return None,
    })
}

/// The bytes behind a header.
fn bytes(count: u32, input: &mut impl Read) -> io::Result<Vec<u8>> {
    let mut bytes = vec![0; count as usize];
    input.read_exact(&mut bytes).map(|()| bytes)
}

fn account([length, rows, concentration, flow, seed]: [u32; 5], input: &mut impl Read) -> io::Result<Vec<u8>> {
    let file = bytes(length, input)?;
    let [rows, concentration, flow] = [rows, concentration, flow].map(|count| count as usize);
    let case = Case { file, rows, concentration, flow, lines: None };
    let outcome = AccountCall { case, seed }.expected();
    let mut answer: Vec<u8> = outcome.answer.iter().chain(&outcome.rows).flat_map(|cell| cell.to_le_bytes()).collect();
    answer.extend(outcome.concentration.iter().chain(&outcome.flow).flat_map(|cell| cell.to_le_bytes()));
    Ok(answer)
}

fn panel([hours, missing, kind, concentration, flow]: [u32; 5], input: &mut impl Read) -> io::Result<Vec<u8>> {
    let mut total = [0; 8];
    input.read_exact(&mut total)?;
    let [concentration, flow] = [concentration, flow].map(f32::from_bits);
    let answer = stepped(&Step { total: f64::from_le_bytes(total), hours, missing, kind, concentration, flow });
    let total = answer.total.to_le_bytes();
    Ok([&answer.number.to_le_bytes()[..], &total, &answer.hours.to_le_bytes(), &answer.missing.to_le_bytes()].concat())
}

fn survey([enforcement, plant, hour, ..]: [u32; 5], input: &mut impl Read) -> io::Result<Vec<u8>> {
    let lookup = Lookup { enforcement: bytes(enforcement, input)?, plant: bytes(plant, input)?, hour: hour as u16 };
    let answer = part(&lookup);
    Ok([&answer.length.to_le_bytes()[..], &answer.bytes].concat())
}

fn import([length, room, seed, ..]: [u32; 5], input: &mut impl Read) -> io::Result<Vec<u8>> {
    let import = ImportCall::of_text(bytes(length, input)?, room as usize, seed).expected();
    let cells = import.answer.iter().flat_map(|cell| cell.to_le_bytes());
    Ok(cells.chain(import.records).collect())
}

fn check([length, cells, ..]: [u32; 5], input: &mut impl Read) -> io::Result<Vec<u8>> {
    let file = bytes(length, input)?;
    let cells = bytes(8 * (cells + 5), input)?;
    let cells: Vec<u64> = cells.as_chunks().0.iter().copied().map(u64::from_le_bytes).collect();
    let (rows, totals) = cells.split_last_chunk().expect("five totals were read");
    let answer = reference::check(&file, rows, totals).cells();
    Ok(answer.iter().flat_map(|cell| cell.to_le_bytes()).collect())
}

fn check_text([of_file, of_text, ..]: [u32; 5], input: &mut impl Read) -> io::Result<Vec<u8>> {
    let (file, text) = (bytes(of_file, input)?, bytes(of_text, input)?);
    let printed = reference::printed_check(&file, &text);
    Ok([&(printed.len() as u32).to_le_bytes(), printed.as_bytes()].concat())
}

/// The six numbers of the next header; `None` at the end of the input.
fn header(input: &mut impl Read) -> io::Result<Option<[u32; 6]>> {
    let mut bytes = [[0; 4]; 6];
    match input.read_exact(bytes.as_flattened_mut()) {
        Ok(()) => Ok(Some(bytes.map(u32::from_le_bytes))),
        Err(error) if error.kind() == io::ErrorKind::UnexpectedEof => Ok(None),
        Err(error) => Err(error),
    }
}

fn answer_all(fault: Fault) -> io::Result<()> {
    let mut input = BufReader::new(io::stdin().lock());
    let mut output = BufWriter::new(io::stdout().lock());
    let mut number = 0;
    while let Some([kind, of_call @ ..]) = header(&mut input)? {
        let mut answer = match kind {
            1 => account(of_call, &mut input)?,
            2 => panel(of_call, &mut input)?,
            3 => survey(of_call, &mut input)?,
            4 => import(of_call, &mut input)?,
            5 => check(of_call, &mut input)?,
            6 => check_text(of_call, &mut input)?,
            _ => return Err(io::Error::other("a frame of no call")),
        };
        match fault {
            Fault::Flip { call, byte } if call == number => answer[byte] ^= 1,
            Fault::Cut { call } if call == number => return output.write_all(&answer[1..]),
            Fault::Silent => std::thread::sleep(std::time::Duration::from_secs(600)),
            _ => {}
        }
        output.write_all(&answer)?;
        number += 1;
    }
    if fault == Fault::More { output.write_all(&[0]) } else { Ok(()) }
}

fn main() -> ExitCode {
    match fault().map(|fault| (fault, answer_all(fault))) {
        Some((Fault::Status, _) | (_, Err(_))) | None => ExitCode::FAILURE,
        Some(_) => ExitCode::SUCCESS,
    }
}
