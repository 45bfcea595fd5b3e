//! The other rack's calls while a walk goes on.

use super::{BuiltArm, Seen};
use crate::board::{shared, Lent};
use crate::crowds::{other_first_byte, with_first_byte};
use crate::groups::walks::replies::reply;
use crate::random::Random;
use crate::reference::walk::record::at;
use crate::reference::walk::{Heard, FIRST_BYTE, PLACES};

/// What the other rack does.
#[derive(Clone, Copy, Debug)]
pub enum Meanwhile {
    Rests,
    IsRefused,
    Hears,
    StartsAndHears,
}

impl Meanwhile {
    pub fn any(random: &mut Random) -> Meanwhile {
        use Meanwhile::*;
        random.pick(&[Rests, IsRefused, Hears, StartsAndHears])
    }
}

impl BuiltArm {
    /// A call that changes nothing.
    fn be_refused(&mut self, random: &mut Random, rack: usize) -> Result<(), String> {
        let before = self.clone();
        let mut number = rack as u32;
        let (mut rows, mut marks) = (PLACES, PLACES);
        let record = &mut self.records[rack].0;
        let kept = [record[at::COUNT], record[at::ENDING]];
        record[at::ENDING] = 0;
        let refusal = random.pick(&[13, 10, 6, 5]);
        let starts = match refusal {
            13 => {
                number = random.pick(&[2, 255, 256, 257, u32::MAX]);
                random.once_in(2)
            }
            10 => {
                record[at::COUNT] ^= 1;
                false
            }
            6 => {
                record[at::ENDING] = 1;
                false
            }
            _ if random.once_in(2) => {
                rows -= 1;
                false
            }
            _ => {
                marks -= 1;
                random.once_in(2)
            }
        };
        let (rows, marks) = (&mut self.rows.0[..8 * rows], &mut self.marks[..marks]);
        let said = if starts {
            shared::start(Lent::of(record), number, 256, Lent::of(marks))
        } else {
            shared::hear_clash(Lent::of(record), number, Lent::of(rows), Lent::of(marks))
        };
        [record[at::COUNT], record[at::ENDING]] = kept;
        let same = *record == before.records[rack].0
            && (0..PLACES).all(|row| self.row(row) == before.row(row));
        (said == -refusal && same)
            .then_some(())
            .ok_or(format!("rack {rack}, refused with {refusal}, said {said}"))
    }

    /// A call of the other rack, or none.
    pub fn meanwhile(
        &mut self,
        random: &mut Random,
        rack: usize,
        meanwhile: Meanwhile,
        seen: &mut Seen,
    ) -> Result<(), String> {
        let running = self.end(rack).1 == 0;
        let before = self.owned(rack).len();
        match meanwhile {
            Meanwhile::Rests => {}
            _ if random.once_in(2) => {}
            Meanwhile::StartsAndHears if random.once_in(if running { 60 } else { 8 }) => {
                self.start(rack, 256)?;
                seen.starts += 1;
                seen.freed += before;
            }
            Meanwhile::Hears | Meanwhile::StartsAndHears if running && !random.once_in(8) => {
                let uid = self.fitting(random, rack);
                let first = other_first_byte(random);
                let first = random.pick(&[FIRST_BYTE, FIRST_BYTE, FIRST_BYTE, FIRST_BYTE, first]);
                let uid = with_first_byte(uid, first);
                let heard = match random.below(6) {
                    0 => Heard::Silence,
                    1 => Heard::Clash,
                    2 => Heard::Bytes(random.bytes(12)),
                    _ => Heard::Bytes(reply(random, uid)),
                };
                self.hear(rack, heard)?;
                seen.taken += self.owned(rack).len() - before;
                seen.ended += usize::from(self.end(rack).1 != 0);
            }
            _ => {
                self.be_refused(random, rack)?;
                seen.refused += 1;
            }
        }
        seen.left = self.owned(rack);
        Ok(())
    }

    /// A UID that fits mask and slot.
    fn fitting(&self, random: &mut Random, rack: usize) -> u64 {
        let record = &self.records[rack].0;
        let (level, slot) = (u32::from(record[at::LEVEL]), u64::from(record[at::SLOT]));
        let mask = u64::from_le_bytes(record[at::MASK].try_into().unwrap());
        let above = random.number() << (4 * (level + 1));
        above | slot << (4 * level) | mask
    }
}
