//! A field: a walk and cards, with nothing but bytes between them.

use super::card::{frame, mark, Card, Mode, Said};
use super::walk::{Heard, Sent, Walk};

/// Room enough for a card of the least shape, and for a request.
const ROOM: usize = 32;

/// A Ready card with one block of one byte.
pub fn card(uid: u64) -> Card {
    Card {
        uid: uid.to_le_bytes(),
        blocks: 1,
        size: 1,
        afi: 0,
        dsfid: 0,
        afi_locked: false,
        dsfid_locked: false,
        ic: 0,
        mode: Mode::Ready,
        sequence: None,
        held: None,
    }
}

/// What a walk is told of the replies in a slot.
pub type Air = fn(&[Vec<u8>]) -> Heard;

/// Plays the walk to its end. Gives the deepest level that it was at after a slot.
pub fn play(walk: &mut Walk, cards: &mut [Card], list: &mut [u64], air: Air) -> usize {
    let mut deepest = 0;
    loop {
        match walk.ask(ROOM).expect("room enough") {
            Sent::Nothing => return deepest,
            sent => {
                let replies = cards.iter_mut().filter_map(|card| reply(card, &sent));
                let heard = air(&replies.collect::<Vec<Vec<u8>>>());
                walk.hear(&heard, list).expect("a running walk and a long list");
                deepest = deepest.max(walk.mask.len());
            }
        }
    }
}

/// The bench's air. One reply is heard whole; more are a clash, also when they
/// are alike.
pub fn together(replies: &[Vec<u8>]) -> Heard {
    match replies {
        [] => Heard::Silence,
        [one] => Heard::Bytes(one.clone()),
        _ => Heard::Clash,
    }
}

/// What the card says to it.
pub fn reply(card: &mut Card, sent: &Sent) -> Option<Vec<u8>> {
    let (mut memory, mut locks) = ([0], [0]);
    let said = match sent {
        Sent::Request(request) => frame(card, request, &mut memory, &mut locks, ROOM),
        Sent::SlotMark => mark(card, &memory, &locks, ROOM),
        Sent::Nothing => return None,
    };
    match said.expect("a right card") {
        Said::Silence(_) => None,
        Said::Answer(_, bytes) => Some(bytes),
    }
}
