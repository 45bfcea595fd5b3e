//! Reads the vector files. Their heads say what a line holds.

pub mod coil;
pub mod reader;
pub mod shared;
pub mod walk;

use std::fs;
use std::path::Path;
use std::str::FromStr;

use crate::notation::parse;
use crate::reference::check::sealed;
use crate::reference::record::{Event, Tag};

/// A message and its check, or one that is not its check.
pub struct CheckCase {
    pub place: String,
    pub right: bool,
    pub message: Vec<u8>,
    pub check: u16,
}

/// A side of a track case: bytes, the slot mark, or the refusal met instead.
pub enum Side {
    Bytes(Vec<u8>),
    SlotMark,
    Refused(u8),
}

pub struct TrackCase {
    pub place: String,
    /// None where there is no frame.
    pub coding: Option<u32>,
    pub frame: Side,
    pub track: Side,
}

/// A line of the card's file.
pub enum CardStep {
    /// The card to go on with.
    Card(Tag),
    /// An event and its answer with the check, none for silence.
    Event(Event, Option<Vec<u8>>),
}

pub fn cards(folder: &Path) -> Result<Vec<(String, CardStep)>, String> {
    cases(folder, "card.txt", |place, fields| match fields {
        ["card", record, memory, locks] => {
            let (record, memory, locks) = (parse(record)?, parse(memory)?, parse(locks)?);
            Ok((place, CardStep::Card(Tag { record, memory, locks })))
        }
        [event, answer] => {
            let event = match *event {
                "slot mark" => Event::Mark,
                "power off" => Event::PowerOff,
                frame => Event::Frame(whole(frame)?),
            };
            let answer = match *answer {
                "silence" => None,
                bytes => Some(sealed(&parse(bytes)?)),
            };
            Ok((place, CardStep::Event(event, answer)))
        }
        _ => Err("neither a card nor an event with its answer".to_string()),
    })
}

pub fn checks(folder: &Path) -> Result<Vec<CheckCase>, String> {
    cases(folder, "check.txt", |place, fields| {
        let [message, check] = fields else { return Err("not two fields".to_string()) };
        let (right, message) = match message.strip_prefix("not ") {
            Some(message) => (false, message),
            None => (true, *message),
        };
        let check = u16::from_str_radix(check, 16).map_err(|fault| fault.to_string())?;
        Ok(CheckCase { place, right, message: parse(message)?, check })
    })
}

pub fn tracks(folder: &Path) -> Result<Vec<TrackCase>, String> {
    cases(folder, "tracks.txt", |place, fields| {
        let [coding, frame, track] = fields else { return Err("not three fields".to_string()) };
        let coding = match *coding {
            "-" => None,
            number => Some(number.parse().map_err(|_| format!("no coding: {number}"))?),
        };
        let (frame, track) = (side(frame)?, side(track)?);
        // Any other line would be run in part or not at all.
        match (&coding, &frame, &track) {
            (Some(_), Side::Bytes(_), Side::Bytes(_) | Side::Refused(_)) => {}
            (None, Side::SlotMark | Side::Refused(_), Side::Bytes(_)) => {}
            _ => return Err("coding, frame and track don't go together".to_string()),
        }
        Ok(TrackCase { place, coding, frame, track })
    })
}

fn side(text: &str) -> Result<Side, String> {
    if text == "slot mark" {
        return Ok(Side::SlotMark);
    }
    match refusal(text)? {
        Some(number) => Ok(Side::Refused(number)),
        None => parse(text).map(Side::Bytes),
    }
}

/// Bytes to which the check is added, or "as it stands" and all bytes.
fn whole(text: &str) -> Result<Vec<u8>, String> {
    match text.strip_prefix("as it stands ") {
        Some(whole) => parse(whole),
        None => Ok(sealed(&parse(text)?)),
    }
}

fn refusal(text: &str) -> Result<Option<u8>, String> {
    text.strip_prefix("refused ").map(decimal).transpose()
}

fn byte(digits: &str) -> Result<u8, String> {
    match parse(digits)?[..] {
        [byte] => Ok(byte),
        _ => Err(format!("no byte: {digits}")),
    }
}

fn uid(digits: &str) -> Result<u64, String> {
    match (digits.len(), u64::from_str_radix(digits, 16)) {
        (16, Ok(uid)) => Ok(uid),
        _ => Err(format!("no UID: {digits}")),
    }
}

fn decimal<Number: FromStr>(number: &str) -> Result<Number, String> {
    number.parse().map_err(|_| format!("no number: {number}"))
}

/// The cases of a file: its lines without comments, cut at the bars.
fn cases<Case>(
    folder: &Path,
    name: &str,
    read: impl Fn(String, &[&str]) -> Result<Case, String>,
) -> Result<Vec<Case>, String> {
    let text = fs::read_to_string(folder.join(name)).map_err(|fault| format!("{name}: {fault}"))?;
    let mut found = Vec::new();
    for (index, line) in text.lines().enumerate() {
        if line.trim().is_empty() || line.starts_with('#') {
            continue;
        }
        let place = format!("{name} line {}", index + 1);
        let fields: Vec<&str> = line.split('|').map(str::trim).collect();
        found.push(read(place.clone(), &fields).map_err(|fault| format!("{place}: {fault}"))?);
    }
    Ok(found)
}
