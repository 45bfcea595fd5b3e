//! The check as the remainder of a long division, bit by bit on paper.

use super::{Refusal, FRAME_MAX};

/// The powers of x in the divisor x^16 + x^12 + x^5 + 1.
const DIVISOR: [usize; 4] = [16, 12, 5, 0];
const DEGREE: usize = 16;

/// What each bit of a byte is worth, least significant first.
const WORTH: [u8; 8] = [1, 2, 4, 8, 16, 32, 64, 128];

pub fn bits_of(byte: u8) -> impl Iterator<Item = bool> {
    WORTH.into_iter().map(move |worth| byte / worth % 2 == 1)
}

pub fn byte_of(bits: &[bool]) -> u8 {
    WORTH.iter().zip(bits).filter(|(_, &bit)| bit).map(|(worth, _)| worth).sum()
}

/// The check's sixteen bits in the order in which they are sent.
fn check_bits(message: &[u8]) -> Vec<bool> {
    // The message times x^16, highest power first: the first bit sent leads.
    let mut rest: Vec<bool> = message.iter().flat_map(|&byte| bits_of(byte)).collect();
    rest.extend([false; DEGREE]);
    // A register preset to FFFF is the same as turning the first sixteen bits.
    for bit in &mut rest[..DEGREE] {
        *bit = !*bit;
    }
    let steps = rest.len() - DEGREE;
    for step in 0..steps {
        if rest[step] {
            for power in DIVISOR {
                rest[step + DEGREE - power] ^= true;
            }
        }
    }
    rest[steps..].iter().map(|bit| !bit).collect()
}

/// The check as the two bytes that are sent, low byte first.
pub fn check_sent(message: &[u8]) -> [u8; 2] {
    let bits = check_bits(message);
    [byte_of(&bits[..8]), byte_of(&bits[8..])]
}

/// The check as a number.
pub fn check(message: &[u8]) -> u16 {
    let [low, high] = check_sent(message);
    u16::from(low) + 256 * u16::from(high)
}

/// A message with its check behind it.
pub fn sealed(message: &[u8]) -> Vec<u8> {
    [message, &check_sent(message)].concat()
}

/// What sealing the first `length` bytes of a buffer puts behind them.
pub fn seal(buffer: &[u8], length: usize) -> Result<[u8; 2], Refusal> {
    // Wider numbers, since `length` may be any the machine has.
    if (buffer.len() as u128) < length as u128 + 2 {
        return Err(Refusal::Room);
    }
    Ok(check_sent(&buffer[..length]))
}

/// 4 to 64 bytes that are some message, sealed.
pub fn is_sound(frame: &[u8]) -> bool {
    (4..=FRAME_MAX).contains(&frame.len()) && frame == sealed(&frame[..frame.len() - 2])
}
