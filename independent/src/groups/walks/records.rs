//! Records that number 10 accepts, most of them on no walk's way.

use std::collections::BTreeSet;

use crate::random::Random;
use crate::reference::walk::record::{at, read, write, RECORD};
use crate::reference::walk::{Walk, LEVELS, ROUNDS};

pub fn family(random: &mut Random) -> u16 {
    let any = random.number() as u16;
    random.pick(&[256, 0xFFFF, any | 0x100, any | 0x8000, 0, 0xFF, any & 0xFF])
}

pub fn accepted(random: &mut Random) -> Vec<u8> {
    let (any_level, any_slot) = (random.below(LEVELS), random.below(16) as u8);
    let (any_count, any_round) = (random.below(65), 1 + random.below(ROUNDS.into()) as u16);
    let level = random.pick(&[0, 1, 11, 12, 13, any_level, any_level]);
    let mut walk = Walk {
        mask: (0..level).map(|_| random.byte() % 16).collect(),
        slot: random.pick(&[0, 14, 15, 15, any_slot, any_slot]),
        waiting: vec![BTreeSet::new(); LEVELS],
        rounds: random.pick(&[1, 255, 256, 416, 417, 417, any_round, any_round]),
        listed: random.pick(&[0, 1, 62, 63, 64, any_count, any_count]),
        ..Walk::start(family(random))
    };
    let times = random.pick(&[1, 2, 8, 1000]);
    for slots in &mut walk.waiting[..=level.min(LEVELS - 2)] {
        slots.extend((0..16).filter(|_| random.once_in(times)));
    }
    let mut record = random.bytes(RECORD);
    write(&walk, &mut record);
    if random.once_in(10) {
        record[at::ENDING] = random.pick(&[1, 2, 3, 4, 5, 128, 255]);
    }
    read(&record).expect("a right record");
    record
}
