//! Answers on the coil: a track is a row of units of 18.88 µs, each with pulses
//! or without, packed into bytes at the end.

use super::check::{bits_of, byte_of};
use super::coder::packed;
use super::walk::Heard;
use super::Refusal;

#[cfg(test)]
mod tests;

/// The shortest and the longest answer, in bytes.
pub const SHORTEST: usize = 3;
pub const LONGEST: usize = 8451;

const PULSES: bool = true;
const STILL: bool = false;

#[derive(Clone, Debug, PartialEq, Eq)]
pub enum Decoded {
    Answer(Vec<u8>),
    /// The first bit that is none, from 0: pulses in both of its units.
    Clash(usize),
    /// The same: pulses in neither.
    Lost(usize),
}

/// ISO/IEC 15693-2:2019, 8.5.2: a 0 has its pulses first, a 1 last.
fn pair(bit: bool) -> [bool; 2] {
    match bit {
        false => [PULSES, STILL],
        true => [STILL, PULSES],
    }
}

/// The start, 1D; 8.6.2: 24 pulses are three units.
fn start() -> Vec<bool> {
    [&[STILL; 3][..], &[PULSES; 3], &pair(true)].concat()
}

/// The end, B8; 8.6.4.
fn end() -> Vec<bool> {
    [&pair(false)[..], &[PULSES; 3], &[STILL; 3]].concat()
}

/// The track of bytes of any number, even one that no answer has.
pub fn track_of(bytes: &[u8]) -> Vec<u8> {
    let mut row = start();
    for bit in bytes.iter().flat_map(|&byte| bits_of(byte)) {
        row.extend(pair(bit));
    }
    row.extend(end());
    packed(&row)
}

/// The coder with its refusals in order: 7, then 8.
pub fn code(answer: &[u8], room: usize) -> Result<Vec<u8>, Refusal> {
    if !(SHORTEST..=LONGEST).contains(&answer.len()) {
        return Err(Refusal::LENGTH);
    }
    let track = track_of(answer);
    if track.len() > room {
        return Err(Refusal::Room);
    }
    Ok(track)
}

/// The decoder with its refusals in order: 8, then 12.
pub fn decode(track: &[u8], room: usize) -> Result<Decoded, Refusal> {
    if room < LONGEST {
        return Err(Refusal::Room);
    }
    let row = units(track);
    let between = row.strip_prefix(&start()[..]).and_then(|rest| rest.strip_suffix(&end()[..]));
    let pairs: Vec<&[bool]> = between.ok_or(Refusal::Coil)?.chunks(2).collect();
    let bytes = pairs.chunks_exact(8);
    if !bytes.remainder().is_empty() || !(SHORTEST..=LONGEST).contains(&bytes.len()) {
        return Err(Refusal::Coil);
    }
    let both_alike = |pair: &&[bool]| pair[0] == pair[1];
    Ok(match pairs.iter().position(both_alike) {
        Some(place) if pairs[place][0] == PULSES => Decoded::Clash(place),
        Some(place) => Decoded::Lost(place),
        None => Decoded::Answer(bytes.map(byte).collect()),
    })
}

/// The units of a track, the earliest first.
fn units(track: &[u8]) -> Vec<bool> {
    track.iter().flat_map(|&byte| bits_of(byte.reverse_bits())).collect()
}

fn byte(pairs: &[&[bool]]) -> u8 {
    let bits: Vec<bool> = pairs.iter().map(|two| *two == pair(true)).collect();
    byte_of(&bits)
}

/// Tracks that begin together: a unit has pulses if it has them in any. Where
/// one has ended, the others go on.
pub fn overlaid(tracks: &[Vec<u8>]) -> Vec<u8> {
    let rows: Vec<Vec<bool>> = tracks.iter().map(|track| units(track)).collect();
    let longest = rows.iter().map(Vec::len).max().unwrap_or(0);
    let pulses = |unit: usize| rows.iter().any(|row| row.get(unit) == Some(&PULSES));
    packed(&(0..longest).map(pulses).collect::<Vec<bool>>())
}

/// What a walk is told of the answers in a slot.
pub fn together(answers: &[Vec<u8>]) -> Heard {
    if answers.is_empty() {
        return Heard::Silence;
    }
    let tracks: Vec<Vec<u8>> = answers.iter().map(|answer| track_of(answer)).collect();
    match decode(&overlaid(&tracks), LONGEST) {
        Ok(Decoded::Answer(bytes)) => Heard::Bytes(bytes),
        _ => Heard::Clash,
    }
}
