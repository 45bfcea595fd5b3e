//! The check over messages of 64 bytes. Worked out by a table, a look-up a byte,
//! it uses every entry at every place.

use crate::calls::Calls;
use crate::crowds::shuffle;
use crate::groups::counts::Counts;
use crate::random::Random;
use crate::reference::check::check_sent;

const ENTRIES: usize = 256;
const PLACES: usize = 64;
const RANDOM: usize = 4000;

const EACH_ENTRY: &str = "each entry at each place";

pub fn run(calls: &mut Calls, random: &mut Random) {
    let mut counts = expected();
    // At each place each message uses another entry.
    let orders: Vec<Vec<u8>> = (0..PLACES).map(|_| any_order(random)).collect();
    for turn in 0..ENTRIES {
        let message = message_using(orders.iter().map(|order| order[turn]));
        for (place, entry) in entries_used(&message).enumerate() {
            counts.cell(EACH_ENTRY, &cell(place, entry));
        }
        calls.check(&message);
    }
    for _ in 0..RANDOM {
        calls.check(&random.bytes(PLACES));
    }
    counts.end(&mut calls.tally, "entries used by messages of 64 bytes");
    calls.tally.must_have_compared((ENTRIES + RANDOM) as u64);
}

fn expected() -> Counts {
    let mut counts = Counts::default();
    for place in 0..PLACES {
        for entry in 0..=255 {
            counts.expect_cell(EACH_ENTRY, cell(place, entry));
        }
    }
    counts
}

fn cell(place: usize, entry: u8) -> String {
    format!("{entry:02X} at {place}")
}

fn any_order(random: &mut Random) -> Vec<u8> {
    let mut entries: Vec<u8> = (0..=255).collect();
    shuffle(random, &mut entries);
    entries
}

/// The message whose bytes use these entries, one after the other.
fn message_using(entries: impl Iterator<Item = u8>) -> Vec<u8> {
    let mut message = Vec::new();
    for entry in entries {
        message.push(low_register(&message) ^ entry);
    }
    message
}

/// The entry that each byte of a message uses: the byte put over the low byte
/// of the register that the bytes before it leave.
fn entries_used(message: &[u8]) -> impl Iterator<Item = u8> + '_ {
    message.iter().enumerate().map(|(place, byte)| low_register(&message[..place]) ^ byte)
}

/// The low byte of the register behind a message: the check is its complement.
fn low_register(message: &[u8]) -> u8 {
    !check_sent(message)[0]
}
