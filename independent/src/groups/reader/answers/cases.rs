//! An answer for each cause, made of a right one.

use crate::groups::reader::draws::{any, room, COMMANDS};
use crate::random::Random;
use crate::reference::check::sealed;
use crate::reference::reader::Request;

pub const EACH_FLAGS: &str = "each of the flags 02 to FF";
pub const EACH_CODE: &str = "each error code";
pub const EACH_OTHER: &str = "each other command";
pub const EACH_START: &str = "each byte in the place of 0F";

pub struct Case {
    pub request: Request,
    pub answer: Vec<u8>,
    pub rooms: (usize, usize),
    /// Of the request that the answer was made for.
    pub command: u8,
    /// A byte that takes each value in turn, and the table of it.
    pub special: Option<(&'static str, u8)>,
}

/// The commands that can meet this cause.
pub fn commands(cause: &str) -> &'static [u8] {
    match cause {
        "blocks one short" => &[0x20, 0x23],
        "locks one short" | "before 11" => &[0x20, 0x23, 0x2C],
        "2B without 0F" => &[0x2B],
        "25 without a UID" => &[0x25],
        "another command" => &[],
        _ => &COMMANDS,
    }
}

/// The bytes of a success for this request, without its check.
fn success(random: &mut Random, request: &Request) -> Vec<u8> {
    let asked = request.asked();
    let mut message = vec![0x00];
    if request.command == 0x2B {
        message.push(0x0F);
        message.extend(random.bytes(10));
        let (blocks, size) = (random.byte(), random.byte());
        message.extend([random.pick(&[0x00, 0xFF, blocks]), random.pick(&[0x00, 0xFF, size])]);
        message.push(random.byte());
    }
    message.extend(random.bytes(asked.0 + asked.1));
    message
}

/// A success, and now and then an error.
pub fn right(random: &mut Random, request: &Request) -> Vec<u8> {
    if random.once_in(4) {
        return vec![0x01, random.byte()];
    }
    success(random, request)
}

pub fn case(random: &mut Random, turn: usize, cause: &str) -> Case {
    let from = if commands(cause).is_empty() { &COMMANDS } else { commands(cause) };
    let mut request = any(random, from);
    if matches!(cause, "locks one short" | "before 11") && request.command != 0x2C {
        // These ask for lock bytes with Option only.
        request.option = request.option.max(1);
    }
    let command = request.command;
    let asked = request.asked();
    let mut rooms = (room(random, asked.0), room(random, asked.1));
    let mut message = success(random, &request);
    let mut special = None;
    match cause {
        "wrong check" | "one byte changed" => message = right(random, &request),
        "error" => {
            message = vec![0x01, turn as u8];
            special = Some((EACH_CODE, turn as u8));
        }
        "flags 02 to FF" => {
            message[0] = (2 + turn % 254) as u8;
            special = Some((EACH_FLAGS, message[0]));
        }
        "error of 3 bytes" => message = vec![0x01],
        "error of 5 bytes" => message = vec![0x01, random.byte(), random.byte()],
        "error with what a success has" => {
            message[0] = 0x01;
            if message.len() == 2 {
                message.push(random.byte());
            }
        }
        "success cut by one" => {
            message.pop();
        }
        "success longer by one" => message.push(random.byte()),
        "success of another length" => {
            let other = random.below(2 * message.len() + 20);
            message.resize(if other == message.len() { other + 1 } else { other }, 0x00);
        }
        "2B without 0F" => {
            message[1] = if turn as u8 == 0x0F { 0x0E } else { turn as u8 };
            special = Some((EACH_START, message[1]));
        }
        "two bytes 00 00" => message.clear(),
        "another command" => {
            let others: Vec<u8> = (0..=255).filter(|byte| !COMMANDS.contains(byte)).collect();
            request.command = others[turn % others.len()];
            special = Some((EACH_OTHER, request.command));
        }
        "25 without a UID" => request.mode = random.pick(&[0, 2, 3, 17, 129, 255]),
        "block size 0" => request.size = 0,
        "block size over 32" => request.size = random.pick(&[33, 34, 64, 256, 260, 288, 65535]),
        "blocks one short" => rooms.0 = asked.0 - 1,
        "locks one short" => rooms.1 = asked.1 - 1,
        "before 11" => {
            message[0] = 0x02;
            rooms = random.pick(&[(0, 0), (asked.0, 0), (asked.0, asked.1 - 1)]);
        }
        "before 8 and 11" => {
            message[0] = 0x02;
            request.size = random.pick(&[0, 33]);
            rooms = (0, 0);
        }
        _ => {}
    }
    let mut answer = sealed(&message);
    match cause {
        "wrong check" => {
            let wrong = (1 + random.below(65535) as u16).to_le_bytes();
            let check = answer.len() - 2;
            answer[check] ^= wrong[0];
            answer[check + 1] ^= wrong[1];
        }
        "one byte changed" => change(random, &mut answer),
        "one byte" => answer = random.bytes(1),
        "no bytes" => answer.clear(),
        "garbage" => answer = garbage(random, answer.len()),
        _ => {}
    }
    Case { request, answer, rooms, command, special }
}

/// Changes one byte, often by one bit.
pub fn change(random: &mut Random, bytes: &mut [u8]) {
    let any = random.below(bytes.len());
    let place = random.pick(&[0, any, any, bytes.len() - 1]);
    let bit = 1 << random.below(8);
    let any = 1 + random.below(255) as u8;
    bytes[place] ^= random.pick(&[bit, any]);
}

/// Bytes of a right length, or of another.
pub fn garbage(random: &mut Random, right: usize) -> Vec<u8> {
    let other = random.below(40);
    let length = random.pick(&[right, right, 3, 4, 17, other]);
    random.bytes(length)
}
