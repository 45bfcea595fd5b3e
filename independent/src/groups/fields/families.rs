//! What fields ask for: a family by each row of Table 1, among cards that it
//! calls and cards that it all but calls.

use std::collections::BTreeSet;

use super::built::{Built, NO_FAMILY, QUIET};
use crate::afi::row;
use crate::random::Random;

const ASKED_00: &str = "asked 00, another AFI there";
const ASKED_X0: &str = "asked X0, with X0, XY and YX there";
const ASKED_0Y: &str = "asked 0Y, with 0Y and Y0 or XY there";
const ASKED_XY: &str = "asked XY, with XY and X0 or XZ there";
const NONE: &str = "no family, several AFIs there";

/// These must come up often.
pub const KINDS: [&str; 5] = [ASKED_00, ASKED_X0, ASKED_0Y, ASKED_XY, NONE];
pub const OFTEN: u64 = 500;

/// A family, and AFIs for the cards; the first is called.
pub fn any(random: &mut Random) -> (u16, [u8; 4]) {
    let [x, y, z] = [(); 3].map(|()| 1 + random.below(15) as u8);
    let (x0, xy) = (16 * x, 16 * x + y);
    let any = random.byte();
    let other = random.pick(&[0x00, any]);
    let none = NO_FAMILY | random.number() as u16;
    match random.below(12) {
        0 => (NO_FAMILY, [x0, xy, y, other]),
        1 | 2 => (none, [x0, xy, y, other]),
        3 => (0x00, [x0, xy, y, other]),
        4..=7 => (x0.into(), [x0, xy, 16 * y + x, other]),
        8 | 9 => (y.into(), [y, 16 * y, xy, other]),
        _ => (xy.into(), [xy, x0, 16 * x + z, other]),
    }
}

/// The kind that the field is of, if any. Quiet cards say nothing either way.
pub fn kind(field: &Built) -> Option<&'static str> {
    let awake = field.cards.iter().filter(|card| card.mode != QUIET);
    let afis: BTreeSet<u8> = awake.map(|card| card.afi).collect();
    let Ok(asked) = u8::try_from(field.family) else {
        return (afis.len() > 1).then_some(NONE);
    };
    let (x, y) = (asked / 16, asked % 16);
    let digits: Vec<(u8, u8)> = afis.iter().map(|afi| (afi / 16, afi % 16)).collect();
    let itself = afis.contains(&asked);
    let same_high = digits.iter().any(|&(high, low)| high == x && low != y);
    let (holds, kind) = match row(asked) {
        "00" => (afis.iter().any(|&afi| afi != 0x00), ASKED_00),
        "X0" => {
            let yx = digits.iter().any(|&(high, low)| high > 0 && high != x && low == x);
            (itself && same_high && yx, ASKED_X0)
        }
        "0Y" => {
            let with_y = |&(high, low): &(u8, u8)| (high, low) == (y, 0) || high > 0 && low == y;
            (itself && digits.iter().any(with_y), ASKED_0Y)
        }
        _ => (itself && same_high, ASKED_XY),
    };
    holds.then_some(kind)
}
