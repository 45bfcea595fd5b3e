//! A field of the archive's own: its walk and its cards.

use super::air::Air;
use crate::board::{card, walk, Lent};
use crate::crowds;
use crate::notation::show;
use crate::random::Random;
use crate::reference::walk::record::RECORD;
use crate::reference::walk::{Heard, LONGEST_REQUEST, PLACES, REQUEST_ROOM, ROUNDS};

pub const READY: u8 = 0;
pub const QUIET: u8 = 1;
pub const SELECTED: u8 = 2;
pub const NO_FAMILY: u16 = 256;
const ANSWER: usize = 64;

#[derive(Clone, PartialEq, Eq)]
pub struct BuiltCard {
    pub uid: u64,
    pub mode: u8,
    pub afi: u8,
    pub record: Vec<u8>,
    pub memory: Vec<u8>,
    pub locks: Vec<u8>,
}

impl BuiltCard {
    /// All that is left open is anything, a sequence or a held answer too.
    pub fn new(random: &mut Random, uid: u64, mode: u8, afi: u8) -> BuiltCard {
        let (blocks, size) = (1 + random.below(4), 1 + random.below(4));
        let mut record = random.bytes(40);
        record[8..12].copy_from_slice(&(blocks as u32).to_le_bytes());
        record[12..16].copy_from_slice(&(size as u32).to_le_bytes());
        record[16] = afi;
        record[18] = random.pick(&[0, 1]);
        record[19] = random.pick(&[0, 1]);
        record[21] = mode;
        let running = random.pick(&[0, 1]);
        record[22..25].copy_from_slice(&[running, 15 * running, 60 * running]);
        record[25] = random.pick(&[0, 0, 1, 0x02, 0x10, 0x11, 0x12]);
        record[32..].fill(0);
        let locks = (0..blocks).map(|_| random.byte() % 2).collect();
        let memory = random.bytes(blocks * size);
        let mut card = BuiltCard { uid, mode, afi, record, memory, locks };
        card.set_uid(uid);
        card
    }

    pub fn set_uid(&mut self, uid: u64) {
        self.uid = uid;
        self.record[..8].copy_from_slice(&uid.to_le_bytes());
    }

    pub fn dsfid(&self) -> u8 {
        self.record[17]
    }

    pub fn set_dsfid(&mut self, dsfid: u8) {
        self.record[17] = dsfid;
    }

    /// The answer to a frame, or to a slot mark if there is none.
    pub fn reply(&mut self, frame: Option<&mut [u8]>) -> Result<Option<Vec<u8>>, String> {
        let mut answer = [0; ANSWER];
        let (record, room) = (Lent::of(&mut self.record), Lent::of(&mut answer));
        let (memory, locks) = (Lent::of(&mut self.memory), Lent::of(&mut self.locks));
        let said = match frame {
            Some(frame) => card::frame(record, Lent::of(frame), memory, locks, room),
            None => card::mark(record, memory, locks, room),
        };
        match usize::try_from(said) {
            Ok(0) => Ok(None),
            Ok(length) if length <= ANSWER => Ok(Some(answer[..length].to_vec())),
            _ => Err(format!("a card said {said}")),
        }
    }
}

/// As a C compiler places a list; a record needs no more.
#[derive(Clone)]
#[repr(align(8))]
pub struct Aligned<const LENGTH: usize>(pub [u8; LENGTH]);

#[derive(Clone)]
pub struct Built {
    pub family: u16,
    pub cards: Vec<BuiltCard>,
    pub record: Aligned<RECORD>,
    pub list: Aligned<{ 8 * PLACES }>,
}

impl Built {
    pub fn new(random: &mut Random, cards: Vec<BuiltCard>, family: u16) -> Built {
        let mut record = Aligned([0xA5; RECORD]);
        walk::start(Lent::of(&mut record.0), family);
        let mut list = Aligned([0; 8 * PLACES]);
        for (place, noise) in list.0.chunks_mut(8).zip(crowds::noise(random, PLACES)) {
            place.copy_from_slice(&noise.to_le_bytes());
        }
        Built { family, cards, record, list }
    }

    /// Plays the walk to its end.
    pub fn play(&mut self, air: Air) -> Result<(), String> {
        for _ in 0..=16 * ROUNDS {
            let mut room = [0; REQUEST_ROOM];
            let told = walk::ask(Lent::of(&mut self.record.0), Lent::of(&mut room));
            let request = match told {
                0 => return Ok(()),
                1 => None,
                5.. if told <= LONGEST_REQUEST as i64 => Some(told as usize),
                _ => return Err(format!("the walk, asked, said {told}")),
            };
            let mut replies = Vec::new();
            for card in &mut self.cards {
                replies.extend(card.reply(request.map(|length| &mut room[..length]))?);
            }
            let (record, list) = (Lent::of(&mut self.record.0), Lent::of(&mut self.list.0));
            let said = match air.heard(&mut replies)? {
                Heard::Silence => walk::hear_silence(record, list),
                Heard::Clash => walk::hear_clash(record, list),
                Heard::Bytes(mut bytes) => walk::hear_bytes(record, Lent::of(&mut bytes), list),
            };
            if said != 0 {
                return Err(format!("the walk, hearing, said {said}"));
            }
        }
        Err("the walk has no end".to_string())
    }

    pub fn show(&self) -> String {
        let cards = self.cards.iter().map(|card| format!("  card {}", show(&card.record)));
        cards.collect::<Vec<_>>().join("\n")
    }
}
