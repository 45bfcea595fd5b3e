//! What a walk is told of the replies in a slot, and what counts: on the bench
//! cards, on the coil different answers.

use std::collections::BTreeSet;

use super::built::BuiltCard;
use super::coil;
use crate::board::coil::{code, decode, told};
use crate::board::Lent;
use crate::reference::coil::{Decoded, LONGEST};
use crate::reference::field::together;
use crate::reference::walk::Heard;
use crate::reference::Refusal;

/// Room for the track of any answer to an inventory.
const TRACK: usize = 64;

#[derive(Clone, Copy, Debug)]
pub enum Air {
    Bench,
    Coil,
}

impl Air {
    pub fn heard(self, replies: &mut [Vec<u8>]) -> Result<Heard, String> {
        match self {
            Air::Bench => Ok(together(replies)),
            Air::Coil if replies.is_empty() => Ok(Heard::Silence),
            Air::Coil => from_coil(&mut union(replies)?),
        }
    }

    /// The kinds of fields that are to be met on this air alone.
    pub fn kinds(self) -> &'static [&'static str] {
        match self {
            Air::Bench => &[],
            Air::Coil => &coil::KINDS,
        }
    }

    /// The UIDs of what counts, a UID for each.
    pub fn counted<'a>(self, cards: impl Iterator<Item = &'a BuiltCard>) -> Vec<u64> {
        match self {
            Air::Bench => cards.map(|card| card.uid).collect(),
            Air::Coil => {
                let answers: BTreeSet<(u64, u8)> =
                    cards.map(|card| (card.uid, card.dsfid())).collect();
                answers.into_iter().map(|(uid, _)| uid).collect()
            }
        }
    }
}

/// The replies' tracks, by the archive's coder, one over the other.
fn union(replies: &mut [Vec<u8>]) -> Result<Vec<u8>, String> {
    let mut union = Vec::new();
    for reply in replies {
        let mut track = [0; TRACK];
        let said = code(Lent::of(reply), Lent::of(&mut track));
        let length = usize::try_from(said).map_err(|_| format!("the coder said {said}"))?;
        let track = track.get(..length).ok_or(format!("the coder said {said}"))?;
        union.resize(union.len().max(length), 0x00);
        for (byte, more) in union.iter_mut().zip(track) {
            *byte |= more;
        }
    }
    Ok(union)
}

/// By the archive's decoder. What it can't read is a clash too.
fn from_coil(track: &mut [u8]) -> Result<Heard, String> {
    let mut room = [0; LONGEST];
    let said = decode(Lent::of(track), Lent::of(&mut room));
    match told(said, &room) {
        Ok(Decoded::Answer(bytes)) => Ok(Heard::Bytes(bytes)),
        Ok(Decoded::Clash(_) | Decoded::Lost(_)) => Ok(Heard::Clash),
        Err(number) if number == -(Refusal::Coil as i64) => Ok(Heard::Clash),
        Err(number) => Err(format!("the decoder said {number}")),
    }
}
