//! The card, from the rules page and in its order. UIDs and masks are rows of
//! single bits, lowest first.

mod inventory;
mod request;

use super::check::{bits_of, is_sound, sealed};
use super::{Refusal, FRAME_MAX};
use inventory::{in_slot, take_inventory};
use request::request;
use Said::{Answer, Silence};

#[derive(Clone, Copy, Debug, PartialEq, Eq)]
pub enum Mode {
    Ready,
    Quiet,
    Selected,
}

#[derive(Clone, Debug)]
pub struct Sequence {
    pub slot: u8,
    pub mask: Vec<bool>,
}

#[derive(Clone, Copy, Debug)]
pub enum Held {
    Success,
    Error(u8),
}

#[derive(Clone, Debug)]
pub struct Card {
    /// As sent: the lowest byte first.
    pub uid: [u8; 8],
    pub blocks: u32,
    pub size: u32,
    pub afi: u8,
    pub dsfid: u8,
    pub afi_locked: bool,
    pub dsfid_locked: bool,
    pub ic: u8,
    pub mode: Mode,
    pub sequence: Option<Sequence>,
    pub held: Option<Held>,
}

/// An event's outcome, with the rule that led to it. Answers have their check.
#[derive(Clone, Debug)]
pub enum Said {
    Silence(&'static str),
    Answer(&'static str, Vec<u8>),
}

pub fn power_off(
    card: &mut Card,
    memory: &[u8],
    locks: &[u8],
    room: usize,
) -> Result<Said, Refusal> {
    ask(card, memory, locks, room)?;
    card.mode = Mode::Ready;
    card.sequence = None;
    card.held = None;
    Ok(Silence("power off"))
}

pub fn mark(card: &mut Card, memory: &[u8], locks: &[u8], room: usize) -> Result<Said, Refusal> {
    ask(card, memory, locks, room)?;
    if let Some(held) = card.held.take() {
        return Ok(match held {
            Held::Success => Answer("released success", success(&[])),
            Held::Error(code) => Answer("released error", error(code)),
        });
    }
    let Some(sequence) = &mut card.sequence else {
        return Ok(Silence("mark, nothing held, no sequence"));
    };
    if sequence.slot == 15 {
        card.sequence = None;
        return Ok(Silence("mark after slot 15"));
    }
    sequence.slot += 1;
    Ok(in_slot(card))
}

pub fn frame(
    card: &mut Card,
    frame: &[u8],
    memory: &mut [u8],
    locks: &mut [u8],
    room: usize,
) -> Result<Said, Refusal> {
    ask(card, memory, locks, room)?;
    card.sequence = None;
    card.held = None;
    if !is_sound(frame) {
        return Ok(Silence(match frame.len() {
            0..=3 => "frame under 4 bytes",
            4..=FRAME_MAX => "wrong check",
            _ => "frame over 64 bytes",
        }));
    }
    let flags: Vec<bool> = bits_of(frame[0]).collect();
    let [inventory, b4, b5, b6, b7, b8] = flags[2..] else { unreachable!() };
    let (command, body) = (frame[1], &frame[2..frame.len() - 2]);
    Ok(if b4 || b8 {
        Silence("b4 or b8 set")
    } else if inventory && b7 {
        Silence("inventory with b7 set")
    } else if inventory {
        take_inventory(card, b5, b6, command, body)
    } else {
        request(card, [b5, b6, b7], command, body, memory, locks)
    })
}

/// Numbers 1 to 4, in this order.
fn ask(card: &Card, memory: &[u8], locks: &[u8], room: usize) -> Result<(), Refusal> {
    let shape = (1..=256).contains(&card.blocks) && (1..=32).contains(&card.size);
    let sequence = match &card.sequence {
        Some(sequence) => sequence.slot <= 15 && sequence.mask.len() <= 60,
        None => true,
    };
    let held = match card.held {
        Some(Held::Error(code)) => [0x02, 0x10, 0x11, 0x12].contains(&code),
        _ => true,
    };
    if !(shape && sequence && held) {
        return Err(Refusal::Record);
    }
    let (blocks, size) = (card.blocks as usize, card.size as usize);
    if memory.len() != blocks * size || locks.len() != blocks {
        return Err(Refusal::LentLength);
    }
    if locks.iter().any(|&lock| lock > 1) {
        return Err(Refusal::LockByte);
    }
    if room < 32 || room < 3 + blocks * (size + 1) {
        return Err(Refusal::AnswerRoom);
    }
    Ok(())
}

fn success(said: &[u8]) -> Vec<u8> {
    sealed(&[&[0x00], said].concat())
}

fn error(code: u8) -> Vec<u8> {
    sealed(&[0x01, code])
}
