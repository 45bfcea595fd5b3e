//! The reader against the reference's own card, and what it refuses.

use super::{make, read, Read, Request, MADE_MAX};
use crate::reference::card::Said;
use crate::reference::check::sealed;
use crate::reference::record::{serve, Event, Tag, RECORD};
use crate::reference::Refusal;

const COMMANDS: [u8; 12] = [0x20, 0x21, 0x22, 0x23, 0x25, 0x26, 0x27, 0x28, 0x29, 0x2A, 0x2B, 0x2C];
const UID: u64 = 0xE002_4000_1234_5ABC;
const BLOCKS: usize = 3;
const SIZE: usize = 2;
const ENOUGH: (usize, usize) = (8192, 256);

fn request(command: u8) -> Request {
    Request { uid: UID, size: SIZE as u16, command, mode: 1, option: 0, first: 0, n: 0, value: 0 }
}

/// A Selected card of which block 1 is locked.
fn tag() -> Tag {
    let mut record = vec![0; RECORD];
    record[..8].copy_from_slice(&UID.to_le_bytes());
    (record[8], record[12]) = (BLOCKS as u8, SIZE as u8);
    (record[16], record[17], record[20], record[21]) = (0xA1, 0xD5, 0x40, 2);
    Tag { record, memory: vec![0x11, 0x12, 0x21, 0x22, 0x31, 0x32], locks: vec![0, 1, 0] }
}

/// What the card says, its answer released if it is held.
fn answer(request: &Request, tag: &mut Tag) -> Vec<u8> {
    let frame = make(request, &[0xAA; SIZE], MADE_MAX).unwrap();
    let mut said = serve(&Event::Frame(frame), tag, 100).unwrap();
    if tag.record[25] != 0 {
        said = serve(&Event::Mark, tag, 100).unwrap();
    }
    match said {
        Said::Answer(_, bytes) => bytes,
        Said::Silence(why) => panic!("{why}: {request:X?}"),
    }
}

/// What a Selected card of this size holds, or why not.
fn held(request: &Request) -> Read {
    let Tag { memory, locks, .. } = tag();
    let (first, many) = (usize::from(request.first), usize::from(request.n) + 1);
    let option = request.has_option();
    let end = if matches!(request.command, 0x23 | 0x2C) { first + many } else { first + 1 };
    match request.command {
        0x25 | 0x26 | 0x2B | 0x2C if option => Read::Error(0x03),
        0x20..=0x23 | 0x2C if end > BLOCKS => Read::Error(0x10),
        0x20 | 0x23 => Read::Blocks {
            blocks: memory[first * SIZE..end * SIZE].to_vec(),
            locks: if option { locks[first..end].to_vec() } else { Vec::new() },
        },
        0x21 if locks[first] == 1 => Read::Error(0x12),
        0x22 if locks[first] == 1 => Read::Error(0x11),
        0x2B => Read::Information(super::Information {
            uid: UID,
            blocks: BLOCKS as u16,
            size: SIZE as u16,
            dsfid: 0xD5,
            afi: 0xA1,
            ic: 0x40,
            flags: 0x0F,
        }),
        0x2C => Read::Locks(locks[first..end].to_vec()),
        _ => Read::Done,
    }
}

#[test]
fn what_the_card_holds_is_read_back() {
    for command in COMMANDS {
        for mode in if command == 0x25 { 1..2 } else { 0..4 } {
            for option in [0, 1, 0x40] {
                for (first, n) in (0..5).flat_map(|first| (0..5).map(move |n| (first, n))) {
                    let request = Request { mode, option, first, n, ..request(command) };
                    let answer = answer(&request, &mut tag());
                    let said = read(&request, &answer, request.asked());
                    assert_eq!(said, Ok(held(&request)), "{request:X?}");
                }
            }
        }
    }
}

#[test]
fn another_block_size_is_found_out() {
    for (command, said) in [
        (0x20, Err(Refusal::Answer)),
        (0x21, Ok(Read::Error(0x02))),
        (0x22, Ok(Read::Done)),
        (0x23, Err(Refusal::Answer)),
        (0x2C, Ok(Read::Locks(vec![0, 1]))),
    ] {
        let request = Request { size: 3, n: 1, ..request(command) };
        let frame = make(&request, &[0xAA; 3], MADE_MAX).unwrap();
        let served = serve(&Event::Frame(frame), &mut tag(), 100);
        let Ok(Said::Answer(_, answer)) = served else { panic!("{served:X?}") };
        assert_eq!(read(&request, &answer, ENOUGH), said);
    }
}

#[test]
fn no_wrong_bit_is_read() {
    for command in COMMANDS {
        for option in [0, 1] {
            let request = Request { option, n: 1, ..request(command) };
            let right = answer(&request, &mut tag());
            for bit in 0..8 * right.len() {
                let mut answer = right.clone();
                answer[bit / 8] ^= 1 << (bit % 8);
                assert_eq!(read(&request, &answer, ENOUGH), Err(Refusal::Answer));
            }
        }
    }
}

#[test]
fn refusals_come_in_their_order() {
    let right = request(0x20);
    let answer = sealed(&[0x00, 0x11, 0x12]);
    for wrong in [
        Request { command: 0x24, ..right },
        Request { command: 0x25, mode: 0, ..right },
        Request { command: 0x25, mode: 2, ..right },
        Request { size: 0, ..right },
        Request { size: 33, ..right },
    ] {
        assert_eq!(make(&wrong, &[], 0), Err(Refusal::REQUEST));
        assert_eq!(read(&wrong, &[], (0, 0)), Err(Refusal::REQUEST));
    }
    assert_eq!(make(&request(0x21), &[0xAA; SIZE + 1], 0), Err(Refusal::REQUEST));
    assert_eq!(make(&right, &[], MADE_MAX - 1), Err(Refusal::Room));
    assert_eq!(read(&right, &[], (SIZE - 1, 0)), Err(Refusal::Room));
    assert_eq!(read(&right, &[0x00, 0x00], ENOUGH), Err(Refusal::Answer));
    let blocks = vec![0x11, 0x12];
    assert_eq!(read(&right, &answer, (SIZE, 0)), Ok(Read::Blocks { blocks, locks: Vec::new() }));
}

#[test]
fn longest_request_and_answer() {
    let largest = Request { size: 32, option: 1, n: 255, ..request(0x21) };
    assert_eq!(make(&largest, &[0xAA; 32], MADE_MAX).unwrap().len(), MADE_MAX);
    let largest = Request { command: 0x23, ..largest };
    assert_eq!(largest.asked(), ENOUGH);
    let answer = sealed(&[&[0x00][..], &[0x01; 8192 + 256]].concat());
    assert_eq!(answer.len(), 8451);
    let (blocks, locks) = (vec![0x01; 8192], vec![0x01; 256]);
    assert_eq!(read(&largest, &answer, ENOUGH), Ok(Read::Blocks { blocks, locks }));
}
