//! Reads the reader's file.

use std::path::Path;

use super::{byte, cases, decimal, refusal, uid, whole};
use crate::notation::parse;
use crate::reference::check::sealed;
use crate::reference::reader::{Information, Read, Request, MADE_MAX};

pub enum ReaderStep {
    /// A request with its data and the frame's room, and the frame or the
    /// number of its refusal.
    Make(Request, Vec<u8>, usize, Result<Vec<u8>, u8>),
    /// An answer to the last request, what is read, and the rooms if not those
    /// asked.
    Read(Vec<u8>, Result<Read, u8>, Option<(usize, usize)>),
}

pub fn readers(folder: &Path) -> Result<Vec<(String, ReaderStep)>, String> {
    cases(folder, "reader.txt", |place, fields| {
        let step = match fields {
            [request, frame] if request.starts_with("request ") => {
                let (request, data, room) = asking(&request["request ".len()..])?;
                let frame = match refusal(frame)? {
                    Some(number) => Err(number),
                    None => Ok(sealed(&parse(frame)?)),
                };
                ReaderStep::Make(request, data, room, frame)
            }
            [answer, said] => ReaderStep::Read(whole(answer)?, reading(said)?, None),
            [answer, said, rooms] => {
                let rooms = rooms.strip_prefix("rooms ").and_then(|rooms| rooms.split_once(' '));
                let Some((blocks, locks)) = rooms else { return Err("no rooms".to_string()) };
                let rooms = (decimal(blocks)?, decimal(locks)?);
                ReaderStep::Read(whole(answer)?, reading(said)?, Some(rooms))
            }
            _ => return Err("neither a request nor an answer".to_string()),
        };
        Ok((place, step))
    })
}

fn asking(text: &str) -> Result<(Request, Vec<u8>, usize), String> {
    let mut parts = text.split(',').map(str::trim);
    let command = byte(parts.next().unwrap_or(""))?;
    let mut request =
        Request { uid: 0, size: 0, command, mode: 0, option: 0, first: 0, n: 0, value: 0 };
    let (mut data, mut room) = (Vec::new(), MADE_MAX);
    for part in parts {
        match part.split_once(' ').unwrap_or((part, "")) {
            ("to", "all") => request.mode = 0,
            ("to", "selected") => request.mode = 2,
            ("to", digits) => (request.mode, request.uid) = (1, uid(digits)?),
            ("Option", "") => request.option = 1,
            ("size", number) => request.size = decimal(number)?,
            ("first", digits) => request.first = byte(digits)?,
            ("n", digits) => request.n = byte(digits)?,
            ("value", digits) => request.value = byte(digits)?,
            ("data", bytes) => data = parse(bytes)?,
            ("room", number) => room = decimal(number)?,
            _ => return Err(format!("no part of a request: {part}")),
        }
    }
    Ok((request, data, room))
}

fn reading(text: &str) -> Result<Result<Read, u8>, String> {
    if let Some(number) = refusal(text)? {
        return Ok(Err(number));
    }
    let parts: Vec<(&str, &str)> =
        text.split(',').map(|part| part.trim().split_once(' ').unwrap_or((part, ""))).collect();
    Ok(Ok(match parts[..] {
        [("done", "")] => Read::Done,
        [("blocks", bytes)] => Read::Blocks { blocks: parse(bytes)?, locks: Vec::new() },
        [("blocks", bytes), ("locks", locks)] => {
            Read::Blocks { blocks: parse(bytes)?, locks: parse(locks)? }
        }
        [("locks", bytes)] => Read::Locks(parse(bytes)?),
        [("error", code)] => Read::Error(byte(code)?),
        [("information", digits), ("DSFID", dsfid), ("AFI", afi), ("blocks", blocks), ("size", size), ("IC", ic)] => {
            Read::Information(Information {
                uid: uid(digits)?,
                blocks: decimal(blocks)?,
                size: decimal(size)?,
                dsfid: byte(dsfid)?,
                afi: byte(afi)?,
                ic: byte(ic)?,
                flags: 0x0F,
            })
        }
        _ => return Err(format!("no reading: {text}")),
    }))
}
