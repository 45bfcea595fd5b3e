//! Reads the walk's file.

use std::path::Path;

use super::{byte, cases, uid, whole};
use crate::notation::parse;
use crate::reference::check::sealed;
use crate::reference::walk::{Ending, Heard, Sent};

/// What a walk ends with.
pub struct End {
    pub ending: Ending,
    pub rounds: u16,
    pub list: Vec<u64>,
}

pub enum WalkStep {
    Start(u16),
    Slot(Sent, Heard),
    End(End),
    /// A family and a whole walk among these cards, each a UID and an AFI.
    Field(u16, Vec<(u64, u8)>, End),
}

pub fn walks(folder: &Path) -> Result<Vec<(String, WalkStep)>, String> {
    cases(folder, "walk.txt", |place, fields| {
        let step = match fields {
            ["walk", asked] => WalkStep::Start(family(asked)?),
            ["end", ending, rounds, list] => WalkStep::End(end(ending, rounds, list)?),
            ["field", asked, cards, ending, rounds, list] => {
                let end = end(ending, rounds, list)?;
                WalkStep::Field(family(asked)?, words(cards, card)?, end)
            }
            [sent, heard] => WalkStep::Slot(sending(sent)?, hearing(heard)?),
            _ => return Err("neither a walk, nor a slot, nor an end, nor a field".to_string()),
        };
        Ok((place, step))
    })
}

pub fn family(text: &str) -> Result<u16, String> {
    match text {
        "none" => Ok(u16::MAX),
        afi => byte(afi).map(u16::from),
    }
}

fn sending(text: &str) -> Result<Sent, String> {
    match text {
        "slot mark" => Ok(Sent::SlotMark),
        request => Ok(Sent::Request(sealed(&parse(request)?))),
    }
}

pub fn hearing(text: &str) -> Result<Heard, String> {
    match text {
        "silence" => Ok(Heard::Silence),
        "clash" => Ok(Heard::Clash),
        reply => whole(reply).map(Heard::Bytes),
    }
}

pub fn end(ending: &str, rounds: &str, list: &str) -> Result<End, String> {
    let ending = match ending {
        "complete" => Ending::Complete,
        "twins" => Ending::Twins,
        "full" => Ending::Full,
        "overrun" => Ending::Overrun,
        _ => return Err(format!("no ending: {ending}")),
    };
    let rounds = rounds.parse().map_err(|_| format!("no rounds: {rounds}"))?;
    Ok(End { ending, rounds, list: words(list, uid)? })
}

pub fn words<Word>(
    text: &str,
    read: impl Fn(&str) -> Result<Word, String>,
) -> Result<Vec<Word>, String> {
    match text {
        "-" => Ok(Vec::new()),
        _ => text.split_whitespace().map(read).collect(),
    }
}

/// A UID, and a byte behind it if there is one.
pub fn card(word: &str) -> Result<(u64, u8), String> {
    match word.split_once('/') {
        Some((card, own)) => Ok((uid(card)?, byte(own)?)),
        None => Ok((uid(word)?, 0x00)),
    }
}
