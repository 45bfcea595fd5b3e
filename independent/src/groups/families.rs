//! Every asked AFI to a card of every AFI, with one slot and with sixteen.

use super::cards::tags;
use super::counts::Counts;
use crate::afi;
use crate::calls::Calls;
use crate::random::Random;
use crate::reference::card::Said;
use crate::reference::check::sealed;
use crate::reference::record::{Event, Tag};

const CALLS: u64 = 2 * 256 * 256;
/// How many pairs take part, for each row of Table 1: X and Y are 15 digits.
const TAKING_PART: [(&str, u64); 4] = [("00", 256), ("X0", 15 * 16), ("0Y", 15), ("XY", 15 * 15)];
const BY_TABLE: &str = "as Table 1 has it";

pub fn run(calls: &mut Calls, random: &mut Random) {
    let mut counts = expected();
    for own in 0..=255 {
        let tag = card(random, own);
        for asked in 0..=255 {
            for one in [true, false] {
                let part = takes_part(calls, random, tag.clone(), asked, one);
                if part {
                    counts.row(&kind(afi::row(asked), one));
                }
                if part == afi::calls(asked.into(), own) {
                    counts.row(BY_TABLE);
                }
            }
        }
    }
    counts.end(&mut calls.tally, "pairs of asked and own AFI");
    calls.tally.must_have_compared(CALLS);
}

fn expected() -> Counts {
    let mut counts = Counts::default();
    counts.expect_times(BY_TABLE, CALLS..=CALLS);
    for one in [true, false] {
        for (row, pairs) in TAKING_PART {
            counts.expect_times(kind(row, one), pairs..=pairs);
        }
    }
    counts
}

fn kind(row: &str, one: bool) -> String {
    format!("asked {row} takes part, {}", if one { "one slot" } else { "sixteen slots" })
}

/// Any card that is not Quiet, in an older sequence, which every frame ends.
fn card(random: &mut Random, own: u8) -> Tag {
    let mut tag = tags::any(random);
    let record = &mut tag.record;
    record[16] = own;
    record[21] = random.pick(&[0, 2]);
    record[22..25].copy_from_slice(&[1, 15, 60]);
    record[32..].fill(0);
    tag
}

/// Whether the card answers with one slot, or begins a sequence with sixteen.
/// The mask fits it.
fn takes_part(calls: &mut Calls, random: &mut Random, mut tag: Tag, asked: u8, one: bool) -> bool {
    let (flags, limit) = if one { (0x36, 65) } else { (0x16, 61) };
    let length = random.below(limit);
    let mask = tags::mask(&tag.record[..8], length);
    let frame = sealed(&[&[flags, 0x01, asked, length as u8], &mask[..]].concat());
    let room = tags::needed(&tag);
    let said = calls.card(&Event::Frame(frame), &mut tag, room);
    if one {
        return matches!(said, Ok(Said::Answer(..)));
    }
    tag.record[22..25] == [1, 0, length as u8]
}
