//! The reader's half of the block commands, from the change request W1 and in
//! its order: making a request, and reading its answer.

#[cfg(test)]
mod tests;

use super::check::{byte_of, sealed};
use super::Refusal;

/// The room that every request asks for.
pub const MADE_MAX: usize = 45;

/// The fields of the C header. Every value of each has a meaning.
#[derive(Clone, Copy, Debug)]
#[repr(C)]
pub struct Request {
    pub uid: u64,
    pub size: u16,
    pub command: u8,
    pub mode: u8,
    pub option: u8,
    pub first: u8,
    pub n: u8,
    pub value: u8,
}

/// Whom a request goes to.
#[derive(Clone, Copy, Debug, PartialEq, Eq, PartialOrd, Ord)]
pub enum To {
    All,
    Uid,
    Selected,
}

/// What a card says of itself, as in the C header; zeros where it said nothing.
#[derive(Clone, Copy, Debug, Default, PartialEq, Eq)]
#[repr(C)]
pub struct Information {
    pub uid: u64,
    pub blocks: u16,
    pub size: u16,
    pub dsfid: u8,
    pub afi: u8,
    pub ic: u8,
    pub flags: u8,
}

/// What an answer says.
#[derive(Clone, Debug, PartialEq, Eq)]
pub enum Read {
    Done,
    /// Lock bytes with Option only.
    Blocks {
        blocks: Vec<u8>,
        locks: Vec<u8>,
    },
    Locks(Vec<u8>),
    Information(Information),
    Error(u8),
}

impl Request {
    pub fn to(&self) -> To {
        match self.mode {
            0 => To::All,
            1 => To::Uid,
            _ => To::Selected,
        }
    }

    pub fn has_option(&self) -> bool {
        self.option != 0
    }

    /// How many block bytes and how many lock bytes are asked.
    pub fn asked(&self) -> (usize, usize) {
        let size = usize::from(self.size);
        let blocks = if matches!(self.command, 0x23 | 0x2C) { usize::from(self.n) + 1 } else { 1 };
        match (self.command, self.has_option()) {
            (0x20 | 0x23, true) => (blocks * size, blocks),
            (0x20 | 0x23, false) => (blocks * size, 0),
            (0x2C, _) => (0, blocks),
            _ => (0, 0),
        }
    }

    /// Number 7, but for the data.
    fn ask(&self) -> Result<(), Refusal> {
        let served = match self.command {
            0x25 => self.to() == To::Uid,
            command => matches!(command, 0x20..=0x23 | 0x26..=0x2C),
        };
        if served && (1..=32).contains(&self.size) {
            Ok(())
        } else {
            Err(Refusal::REQUEST)
        }
    }
}

pub fn make(request: &Request, data: &[u8], room: usize) -> Result<Vec<u8>, Refusal> {
    request.ask()?;
    let &Request { command, first, n, value, .. } = request;
    if command == 0x21 && data.len() != usize::from(request.size) {
        return Err(Refusal::REQUEST);
    }
    if room < MADE_MAX {
        return Err(Refusal::Room);
    }
    let (select, address) = (request.to() == To::Selected, request.to() == To::Uid);
    let flags = [false, true, false, false, select, address, request.has_option(), false];
    let mut message = vec![byte_of(&flags), command];
    if address {
        message.extend(request.uid.to_le_bytes());
    }
    match command {
        0x20 | 0x22 => message.push(first),
        0x21 => {
            message.push(first);
            message.extend(data);
        }
        0x23 | 0x2C => message.extend([first, n]),
        0x27 | 0x29 => message.push(value),
        _ => {}
    }
    Ok(sealed(&message))
}

/// The rooms are those for block bytes and for lock bytes.
pub fn read(request: &Request, answer: &[u8], rooms: (usize, usize)) -> Result<Read, Refusal> {
    request.ask()?;
    let asked = request.asked();
    if rooms.0 < asked.0 || rooms.1 < asked.1 {
        return Err(Refusal::Room);
    }
    // Two bytes may be the check of none, but no answer.
    if answer.len() < 3 {
        return Err(Refusal::Answer);
    }
    let message = &answer[..answer.len() - 2];
    if answer != sealed(message) {
        return Err(Refusal::Answer);
    }
    match message {
        [0x00, rest @ ..] => success(request, rest).ok_or(Refusal::Answer),
        [0x01, code] => Ok(Read::Error(*code)),
        _ => Err(Refusal::Answer),
    }
}

/// What the bytes after 00 say to the command; none if it can't be them.
fn success(request: &Request, rest: &[u8]) -> Option<Read> {
    match request.command {
        0x20 | 0x23 => blocks(request, rest),
        0x2B => information(rest).map(Read::Information),
        0x2C => (rest.len() == request.asked().1).then(|| Read::Locks(rest.to_vec())),
        _ => rest.is_empty().then_some(Read::Done),
    }
}

fn blocks(request: &Request, rest: &[u8]) -> Option<Read> {
    let before = usize::from(request.has_option());
    let (mut blocks, mut locks) = (Vec::new(), Vec::new());
    for said in rest.chunks(before + usize::from(request.size)) {
        let (lock, block) = said.split_at(before);
        locks.extend(lock);
        blocks.extend(block);
    }
    ((blocks.len(), locks.len()) == request.asked()).then_some(Read::Blocks { blocks, locks })
}

fn information(rest: &[u8]) -> Option<Information> {
    let [flags @ 0x0F, uid @ .., dsfid, afi, blocks, size, ic] = rest else { return None };
    Some(Information {
        uid: u64::from_le_bytes(uid.try_into().ok()?),
        blocks: u16::from(*blocks) + 1,
        size: u16::from(*size) + 1,
        dsfid: *dsfid,
        afi: *afi,
        ic: *ic,
        flags: *flags,
    })
}
