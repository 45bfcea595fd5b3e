//! The bench as a program from input to output. It has neither walk record nor
//! cards: it takes the field apart by tails, a round within a round.

use std::io::{self, BufRead};

use super::tails::begins_with_e0;
use super::walk::{Ending, Limits, FOURTEEN, PLACES};

pub const CARDS: usize = 100;
/// The digits of a line, and what they begin with.
const LINE: usize = 16;
const BEGINNING: &[u8] = b"E0";
const DIGITS: &[u8; 16] = b"0123456789ABCDEF";

/// What the bench prints.
pub fn bench(input: impl BufRead) -> io::Result<String> {
    Ok(match uids(input)? {
        Ok(uids) => Verdict::of(&uids).text(),
        Err(line) => format!("bad line {line}\n"),
    })
}

/// The input's UIDs, or the number of the first wrong line. Reads no byte more
/// than it takes to tell.
fn uids(input: impl BufRead) -> io::Result<Result<Vec<u64>, usize>> {
    let mut uids = Vec::new();
    let mut line = Vec::new();
    for byte in input.bytes() {
        let byte = byte?;
        let number = uids.len() + 1;
        if number > CARDS {
            return Ok(Err(number));
        }
        match byte {
            b'\n' => match uid(&line) {
                Some(uid) => {
                    uids.push(uid);
                    line.clear();
                }
                None => return Ok(Err(number)),
            },
            _ if goes_on(&line, byte) => line.push(byte),
            _ => return Ok(Err(number)),
        }
    }
    if !line.is_empty() {
        match uid(&line) {
            Some(uid) => uids.push(uid),
            None => return Ok(Err(uids.len() + 1)),
        }
    }
    Ok(Ok(uids))
}

/// Whether the byte may be the next of a right line.
fn goes_on(line: &[u8], byte: u8) -> bool {
    match BEGINNING.get(line.len()) {
        Some(digit) => byte == *digit,
        None => line.len() < LINE && DIGITS.contains(&byte),
    }
}

fn uid(line: &[u8]) -> Option<u64> {
    if line.len() != LINE {
        return None;
    }
    line.iter().try_fold(0, |uid, digit| {
        let value = DIGITS.iter().position(|known| known == digit)?;
        Some(16 * uid + value as u64)
    })
}

/// How a field's walk ends.
#[derive(Clone, Debug, PartialEq, Eq)]
pub struct Verdict {
    pub ending: Ending,
    pub rounds: u16,
    pub list: Vec<u64>,
}

impl Verdict {
    /// All of the UIDs answer, and nothing else does.
    pub fn of(uids: &[u64]) -> Verdict {
        Verdict::within(PLACES, uids)
    }

    /// So too, over a list with places for so many.
    pub fn within(places: usize, uids: &[u64]) -> Verdict {
        Verdict::by(FOURTEEN, places, uids)
    }

    /// So too, by a walk with these limits.
    pub fn by(limits: Limits, places: usize, uids: &[u64]) -> Verdict {
        let mut verdict = Verdict { ending: Ending::Complete, rounds: 0, list: Vec::new() };
        if let Err(ending) = verdict.round(limits, places, uids, 0) {
            verdict.ending = ending;
        }
        verdict
    }

    /// A round among the UIDs that have its mask, then those that its clashes
    /// ask for. The mask itself is of no matter any more.
    fn round(
        &mut self,
        limits: Limits,
        places: usize,
        uids: &[u64],
        level: usize,
    ) -> Result<(), Ending> {
        if self.rounds == limits.rounds {
            return Err(Ending::Overrun);
        }
        self.rounds += 1;
        let mut clashes = Vec::new();
        for slot in 0..16 {
            let in_slot: Vec<u64> =
                uids.iter().copied().filter(|uid| uid >> (4 * level) & 15 == slot).collect();
            match in_slot[..] {
                [] => {}
                [one] if limits.first_byte.is_none() || begins_with_e0(one) => {
                    if self.list.len() == places {
                        return Err(Ending::Full);
                    }
                    self.list.push(one);
                }
                _ if level == limits.levels - 1 => return Err(Ending::Twins),
                _ => clashes.push(in_slot),
            }
        }
        clashes.iter().try_for_each(|answering| self.round(limits, places, answering, level + 1))
    }

    fn text(&self) -> String {
        let word = match self.ending {
            Ending::Complete => "complete",
            Ending::Twins => "twins",
            Ending::Full => "full",
            Ending::Overrun => "overrun",
        };
        let (rounds, cards) = (self.rounds, self.list.len());
        let mut text = format!("verdict {word}\nrounds {rounds}\ncards {cards}\n");
        for uid in &self.list {
            text += &format!("{uid:016X}\n");
        }
        text
    }
}
