//! The bench, from standard input to standard output.

use std::io::{stdin, stdout, Write};
use std::process::ExitCode;

use independent::reference::bench::bench;

fn main() -> ExitCode {
    let done = bench(stdin().lock()).and_then(|text| stdout().lock().write_all(text.as_bytes()));
    match done {
        Ok(()) => ExitCode::SUCCESS,
        Err(fault) => {
            eprintln!("error: {fault}");
            ExitCode::FAILURE
        }
    }
}
