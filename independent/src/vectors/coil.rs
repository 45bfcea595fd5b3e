//! Reads the coil's file.

use std::path::Path;

use super::walk::{card, end, words, End};
use super::{cases, decimal, refusal, whole};
use crate::notation::parse;
use crate::reference::coil::{Decoded, LONGEST};

pub enum CoilStep {
    /// An answer and the room for its track, and the track or the number of
    /// its refusal.
    Code(Vec<u8>, usize, Result<Vec<u8>, u8>),
    /// A track and the room for its answer, and what is read.
    Decode(Vec<u8>, usize, Result<Decoded, u8>),
    /// Answers that begin together, their track, and what is read.
    Overlay(Vec<Vec<u8>>, Vec<u8>, Result<Decoded, u8>),
    /// A whole walk among these cards, each a UID and a DSFID.
    Field(Vec<(u64, u8)>, End),
}

pub fn coils(folder: &Path) -> Result<Vec<(String, CoilStep)>, String> {
    cases(folder, "coil.txt", |place, fields| {
        let step = match fields {
            ["code", answer, track, more @ ..] => {
                let answer = whole(answer)?;
                let room = room(more, 2 + 2 * answer.len())?;
                let track = match refusal(track)? {
                    Some(number) => Err(number),
                    None => Ok(parse(track)?),
                };
                CoilStep::Code(answer, room, track)
            }
            ["decode", track, said, more @ ..] => {
                CoilStep::Decode(parse(track)?, room(more, LONGEST)?, reading(said)?)
            }
            ["overlay", answers, track, said] => {
                let answers = answers.split(',').map(|answer| whole(answer.trim()));
                let answers = answers.collect::<Result<Vec<Vec<u8>>, String>>()?;
                CoilStep::Overlay(answers, parse(track)?, reading(said)?)
            }
            ["field", cards, ending, rounds, list] => {
                CoilStep::Field(words(cards, card)?, end(ending, rounds, list)?)
            }
            _ => return Err("neither coded, nor decoded, nor an overlay, nor a field".to_string()),
        };
        Ok((place, step))
    })
}

/// The room, if it is not the one that is asked.
fn room(more: &[&str], asked: usize) -> Result<usize, String> {
    match more {
        [] => Ok(asked),
        [room] => decimal(room.strip_prefix("room ").ok_or(format!("no room: {room}"))?),
        _ => Err("more than a room".to_string()),
    }
}

fn reading(text: &str) -> Result<Result<Decoded, u8>, String> {
    if let Some(number) = refusal(text)? {
        return Ok(Err(number));
    }
    Ok(Ok(match text.split_once(' ') {
        Some(("clash", bit)) => Decoded::Clash(decimal(bit)?),
        Some(("lost", bit)) => Decoded::Lost(decimal(bit)?),
        _ => Decoded::Answer(whole(text)?),
    }))
}
