//! Holds the functions of the board archive against an independent
//! implementation and against the vectors. From the project's top folder:
//!
//! ```text
//! BOARD_LIB_DIR="$PWD/target/staticlib" cargo run --release --offline \
//!     --manifest-path independent/Cargo.toml
//! ```
//!
//! Takes a seed, in decimal, or none. VECTORS_DIR names the vectors' folder.
//! Status 0: no difference. 1: some, or a hole. 2: vectors unreadable.

mod afi;
mod area;
mod board;
mod calls;
mod groups;
mod notation;
mod published;
mod tally;
mod vectors;

use std::env;
use std::path::PathBuf;
use std::process::ExitCode;

use calls::Calls;
use groups::GROUPS;
use independent::crowds;
use independent::{random, reference};
use random::Random;

const SEED: u64 = 15693;

fn main() -> ExitCode {
    match run() {
        Ok(true) => ExitCode::SUCCESS,
        Ok(false) => ExitCode::FAILURE,
        Err(fault) => {
            eprintln!("error: {fault}");
            ExitCode::from(2)
        }
    }
}

fn run() -> Result<bool, String> {
    let seed = match env::args().nth(1) {
        Some(number) => number.parse().map_err(|_| format!("no seed: {number}"))?,
        None => SEED,
    };
    let folder = match env::var_os("VECTORS_DIR") {
        Some(given) => PathBuf::from(given),
        None => PathBuf::from(concat!(env!("CARGO_MANIFEST_DIR"), "/../vectors")),
    };
    let (checks, tracks) = (vectors::checks(&folder)?, vectors::tracks(&folder)?);
    let (cards, walks) = (vectors::cards(&folder)?, vectors::walk::walks(&folder)?);
    let (readers, coils) = (vectors::reader::readers(&folder)?, vectors::coil::coils(&folder)?);
    let shared = vectors::shared::shared(&folder)?;

    println!("seed: {seed}");
    let mut calls = Calls::new(seed);
    let mut random = Random::new(seed);
    published::run_checks(&mut calls, &checks);
    calls.tally.end_group("vectors of checks");
    published::run_tracks(&mut calls, &tracks);
    calls.tally.end_group("vectors of tracks");
    published::run_cards(&mut calls, &cards);
    calls.tally.end_group("vectors of cards");
    published::run_walks(&mut calls, &walks);
    calls.tally.end_group("vectors of walks");
    published::run_readers(&mut calls, &readers);
    calls.tally.end_group("vectors of the reader");
    published::run_coils(&mut calls, &coils);
    calls.tally.end_group("vectors of the coil");
    published::run_shared(&mut calls, &shared);
    calls.tally.end_group("vectors of the shared list");
    for (name, group) in GROUPS {
        group(&mut calls, &mut random);
        calls.tally.end_group(name);
    }
    Ok(calls.tally.end())
}
