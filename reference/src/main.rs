//! `reference sizelist` prints sizelist's text for the plate file on standard
//! input, `reference cases` the cases of the program `test_vectors`, `reference
//! vectors` what that program prints for the cases on standard input, and
//! `reference deep` what the program `test_pgm_deep` prints.

use std::io::{self, Read, Write};
use std::process::ExitCode;

fn main() -> ExitCode {
    let arguments: Vec<String> = std::env::args().skip(1).collect();
    let answered = match arguments.iter().map(String::as_str).collect::<Vec<_>>()[..] {
        ["sizelist"] => input().map(|bytes| reference::sizelist_text(&bytes)),
        ["cases"] => Ok(reference::cases_text()),
        ["deep"] => Ok(reference::deep_text()),
        ["vectors"] => {
            input().map(|bytes| reference::vectors_text(&String::from_utf8_lossy(&bytes)))
        }
        _ => {
            eprintln!("usage: reference sizelist < plate.pgm | vectors < cases | cases | deep");
            return ExitCode::from(2);
        }
    };
    match answered.and_then(|text| io::stdout().write_all(text.as_bytes())) {
        Ok(()) => ExitCode::SUCCESS,
        Err(error) => {
            eprintln!("reference: {error}");
            ExitCode::FAILURE
        }
    }
}

/// All of standard input.
fn input() -> io::Result<Vec<u8>> {
    let mut input = Vec::new();
    io::stdin().read_to_end(&mut input)?;
    Ok(input)
}
