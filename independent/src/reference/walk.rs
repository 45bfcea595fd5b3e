//! The reader's walk. Masks and UIDs are rows of hexadecimal digits, lowest
//! first; the clashes that wait at a level are a set of slots.

pub mod record;

use std::collections::BTreeSet;

use super::check::sealed;
use super::Refusal;

pub const LEVELS: usize = 14;
pub const LAST_SLOT: u8 = 15;
pub const PLACES: usize = 64;
pub const ROUNDS: u16 = 417;
/// What every UID begins with, by ISO/IEC 15693-3, clause 4.1.
pub const FIRST_BYTE: u8 = 0xE0;
/// The room that is asked for every request.
pub const REQUEST_ROOM: usize = 14;
/// The longest request that is made in it.
pub const LONGEST_REQUEST: usize = 13;

/// How deep a walk goes, how long, and which UIDs it lists.
#[derive(Clone, Copy, Debug, PartialEq, Eq)]
pub struct Limits {
    pub levels: usize,
    pub rounds: u16,
    /// What the UID of a clean reply begins with; none: with anything.
    pub first_byte: Option<u8>,
}

/// The walk of the change request W6.
pub const FOURTEEN: Limits =
    Limits { levels: LEVELS, rounds: ROUNDS, first_byte: Some(FIRST_BYTE) };
/// The walk before it. No board has it; what W6 says of it is held against it.
pub const SIXTEEN: Limits = Limits { levels: 16, rounds: 481, first_byte: None };

#[derive(Clone, Copy, Debug, PartialEq, Eq)]
pub enum Ending {
    Complete,
    Twins,
    Full,
    Overrun,
}

/// What comes in a slot.
#[derive(Clone, Debug)]
pub enum Heard {
    Silence,
    Clash,
    Bytes(Vec<u8>),
}

/// What the walk takes it for. A clash tells why.
#[derive(Clone, Copy, Debug, PartialEq, Eq)]
pub enum Meaning {
    Silence,
    Clash(&'static str),
    Clean(u64),
}

#[derive(Clone, Debug, PartialEq, Eq)]
pub enum Sent {
    Request(Vec<u8>),
    SlotMark,
    Nothing,
}

#[derive(Clone, Debug)]
pub struct Walk {
    pub limits: Limits,
    /// Up to 255 an AFI, above that none.
    pub family: u16,
    /// As many digits as the level.
    pub mask: Vec<u8>,
    pub slot: u8,
    /// For each level, the slots that clashed and wait.
    pub waiting: Vec<BTreeSet<u8>>,
    pub rounds: u16,
    pub listed: usize,
    pub ending: Option<Ending>,
}

impl Walk {
    pub fn start(family: u16) -> Walk {
        Walk::start_within(FOURTEEN, family)
    }

    pub fn start_within(limits: Limits, family: u16) -> Walk {
        Walk {
            limits,
            family,
            mask: Vec::new(),
            slot: 0,
            waiting: vec![BTreeSet::new(); limits.levels],
            rounds: 1,
            listed: 0,
            ending: None,
        }
    }

    /// Numbers 6 and 5, in this order; 10 is met by reading the record.
    pub fn hear(&mut self, heard: &Heard, list: &mut [u64]) -> Result<(), Refusal> {
        if self.ending.is_some() {
            return Err(Refusal::Ended);
        }
        if list.len() < PLACES {
            return Err(Refusal::List);
        }
        let place = self.listed;
        self.hear_slot(heard, |uid| match list[..PLACES].get_mut(place) {
            Some(free) => {
                *free = uid;
                true
            }
            None => false,
        });
        Ok(())
    }

    /// A slot of a running walk. The list takes a clean UID, or says that it has
    /// no place for it.
    pub fn hear_slot(&mut self, heard: &Heard, takes: impl FnOnce(u64) -> bool) {
        match self.meaning(heard) {
            Meaning::Clash(_) if self.mask.len() == self.limits.levels - 1 => {
                self.ending = Some(Ending::Twins);
                return;
            }
            Meaning::Clash(_) => {
                self.waiting[self.mask.len()].insert(self.slot);
            }
            Meaning::Clean(uid) => {
                if !takes(uid) {
                    self.ending = Some(Ending::Full);
                    return;
                }
                self.listed += 1;
            }
            Meaning::Silence => {}
        }
        self.go_on();
    }

    /// Number 8, after 10.
    pub fn ask(&self, room: usize) -> Result<Sent, Refusal> {
        match (self.ending, self.slot) {
            (Some(_), _) => Ok(Sent::Nothing),
            (None, 1..) => Ok(Sent::SlotMark),
            (None, 0) if room < REQUEST_ROOM => Err(Refusal::Room),
            (None, 0) => Ok(Sent::Request(self.request())),
        }
    }

    pub fn meaning(&self, heard: &Heard) -> Meaning {
        let bytes = match heard {
            Heard::Silence => return Meaning::Silence,
            Heard::Clash => return Meaning::Clash("told"),
            Heard::Bytes(bytes) => bytes,
        };
        if bytes.len() != 12 {
            return Meaning::Clash("not 12 bytes");
        }
        if *bytes != sealed(&bytes[..10]) {
            return Meaning::Clash("wrong check");
        }
        if bytes[0] != 0x00 {
            return Meaning::Clash("wrong flags");
        }
        let digits = digits_of(&bytes[2..10]);
        if !digits.starts_with(&self.mask) {
            return Meaning::Clash("other mask");
        }
        if digits[self.mask.len()] != self.slot {
            return Meaning::Clash("other slot");
        }
        if self.limits.first_byte.is_some_and(|first| bytes[9] != first) {
            return Meaning::Clash("other first byte");
        }
        Meaning::Clean(bytes[2..10].iter().rev().fold(0, |uid, &byte| 256 * uid + u64::from(byte)))
    }

    /// To the next slot, or after slot 15 to the next round or the end.
    fn go_on(&mut self) {
        if self.slot < LAST_SLOT {
            self.slot += 1;
            return;
        }
        match self.waiting.iter().rposition(|slots| !slots.is_empty()) {
            None => self.ending = Some(Ending::Complete),
            Some(_) if self.rounds == self.limits.rounds => self.ending = Some(Ending::Overrun),
            Some(level) => {
                self.mask.truncate(level);
                self.mask.extend(self.waiting[level].pop_first());
                self.slot = 0;
                self.rounds += 1;
            }
        }
    }

    fn request(&self) -> Vec<u8> {
        let mut message = match u8::try_from(self.family) {
            Ok(afi) => vec![0x16, 0x01, afi],
            Err(_) => vec![0x06, 0x01],
        };
        message.push(4 * self.mask.len() as u8);
        message.extend(bytes_of(&self.mask));
        sealed(&message)
    }
}

/// The digits of bytes that go lowest first.
pub fn digits_of(bytes: &[u8]) -> Vec<u8> {
    bytes.iter().flat_map(|byte| [byte % 16, byte / 16]).collect()
}

/// Two digits to a byte; the last is padded with 0.
pub fn bytes_of(digits: &[u8]) -> Vec<u8> {
    digits.chunks(2).map(|pair| pair[0] + 16 * pair.get(1).unwrap_or(&0)).collect()
}
