//! The groups of the comparison, each over one kind of arguments.

mod cards;
mod checks;
mod codings;
mod coil;
mod counts;
mod damage;
mod damaged_tracks;
mod families;
mod fields;
mod garbage_tracks;
mod null_buffers;
mod random_frames;
mod reader;
mod sealing;
mod shared;
mod short_tracks;
mod small_frames;
mod soundness;
mod walks;

use crate::calls::Calls;
use crate::random::Random;

pub type Group = fn(&mut Calls, &mut Random);

pub const GROUPS: &[(&str, Group)] = &[
    ("small frames", small_frames::run),
    ("random frames", random_frames::run),
    ("codings", codings::run),
    ("short tracks", short_tracks::run),
    ("damaged tracks", damaged_tracks::run),
    ("garbage tracks", garbage_tracks::run),
    ("soundness", soundness::run),
    ("sealing", sealing::run),
    ("checks", checks::run),
    ("null buffers", null_buffers::run),
    ("cards", cards::run),
    ("families", families::run),
    ("walks", walks::run),
    ("walks, first bytes", walks::first_bytes::run),
    ("walks, records at the limits", walks::limits::run),
    ("fields", fields::run),
    ("reader", reader::exchanges::run),
    ("reader, other answers", reader::answers::run),
    ("reader, requests not made", reader::making::run),
    ("coil, coder", coil::coding::run),
    ("coil, decoder", coil::decoding::run),
    ("coil, overlays", coil::overlays::run),
    ("fields on the coil", fields::coil::run),
    ("checks, every entry", checks::entries::run),
    ("shared list", shared::run),
    ("shared list, two racks' fields", shared::fields::run),
];

/// Bytes that tracks are made of, and some that almost are.
const PLAUSIBLE: [u8; 20] = [
    0x00, 0x01, 0x04, 0x10, 0x40, 0x20, 0x81, 0x84, 0x80, 0x02, 0x08, 0x05, 0x11, 0x44, 0x50, 0x41,
    0x21, 0x85, 0x60, 0xFF,
];
