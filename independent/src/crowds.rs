//! Fields of UIDs: random ones, and crowded ones that give a walk work. All begin
//! with E0 until some are made to begin otherwise.

use crate::random::Random;

pub const MOST: usize = 100;
/// The digits of a UID behind its first byte.
const DIGITS: usize = 14;
/// The bits of these.
const BITS: usize = 4 * DIGITS;
/// First bytes that might be taken for E0; all that differ in one bit are among them.
const OTHERS: [u8; 16] = [
    0x00, 0xD0, 0xE1, 0xE2, 0xE4, 0xE8, 0xF0, 0xC0, 0xA0, 0x60, 0x0E, 0xFF, 0xEF, 0xDF, 0x07, 0xEE,
];

pub type Crowd = fn(&mut Random, usize) -> Vec<u64>;

pub const CROWDS: [(&str, Crowd); 8] = [
    ("random", random_ones),
    ("long tails", long_tails),
    ("few digits", few_digits),
    ("top pairs", top_pairs),
    ("twins", twins),
    ("near twins", near_twins),
    ("all alike", all_alike),
    ("worst", worst),
];

/// A field of a random kind with at most so many UIDs, and the kind's name.
pub fn any(random: &mut Random, most: usize) -> (&'static str, Vec<u64>) {
    let (name, crowd) = random.pick(&CROWDS);
    let other = random.below(most + 1);
    let count = random.pick(&[0, 1, 2, most, other, other, other, other, other, other]);
    (name, crowd(random, count.min(most)))
}

pub fn shuffle<T>(random: &mut Random, row: &mut [T]) {
    for place in 1..row.len() {
        row.swap(place, random.below(place + 1));
    }
}

/// The UID with another digit at a place counted from the lowest.
pub fn with_digit(uid: u64, place: usize, digit: u64) -> u64 {
    uid & !(15 << (4 * place)) | digit << (4 * place)
}

pub fn digit(uid: u64, place: usize) -> u64 {
    uid >> (4 * place) & 15
}

pub fn with_first_byte(uid: u64, first: u8) -> u64 {
    uid & !(0xFF << BITS) | u64::from(first) << BITS
}

/// Any UID, which begins with E0.
pub fn any_uid(random: &mut Random) -> u64 {
    with_first_byte(random.number(), 0xE0)
}

/// Any byte but E0.
pub fn other_first_byte(random: &mut Random) -> u8 {
    let any = 0xE0u8.wrapping_add(1 + random.below(255) as u8);
    let near = random.pick(&OTHERS);
    random.pick(&[any, near])
}

/// Gives one in so many of the UIDs another first byte.
pub fn make_some_foreign(random: &mut Random, uids: &mut [u64], times: usize) {
    for uid in uids {
        if random.once_in(times) {
            *uid = with_first_byte(*uid, other_first_byte(random));
        }
    }
}

/// What stands in places before they are used, so with any first byte.
pub fn noise(random: &mut Random, count: usize) -> Vec<u64> {
    (0..count).map(|_| random.number()).collect()
}

pub fn random_ones(random: &mut Random, count: usize) -> Vec<u64> {
    (0..count).map(|_| any_uid(random)).collect()
}

/// UIDs that branch off one another above a tail of any length.
fn long_tails(random: &mut Random, count: usize) -> Vec<u64> {
    let mut uids = random_ones(random, count.min(1));
    while uids.len() < count {
        let shared = random.below(DIGITS);
        let other = random.pick(&uids);
        let above = any_uid(random) >> (4 * shared) << (4 * shared);
        let mut uid = other & !(u64::MAX << (4 * shared)) | above;
        if random.once_in(2) {
            uid = with_digit(other, shared, random.number() & 15);
        }
        if !uids.contains(&uid) {
            uids.push(uid);
        }
    }
    shuffle(random, &mut uids);
    uids
}

/// UIDs over two digits; a few may be alike.
fn few_digits(random: &mut Random, count: usize) -> Vec<u64> {
    let two = [random.number() & 15, random.number() & 15];
    let free = random.below(DIGITS + 1);
    let base = any_uid(random);
    let mut one = || {
        let place = |uid, place| match (place + free) % 3 {
            0 => uid,
            _ => with_digit(uid, place, random.pick(&two)),
        };
        (0..DIGITS).fold(base, place)
    };
    (0..count).map(|_| one()).collect()
}

/// Pairs that differ in the fourteenth digit alone.
fn top_pairs(random: &mut Random, count: usize) -> Vec<u64> {
    let mut uids = random_ones(random, count / 2);
    let partners: Vec<u64> = uids.iter().map(|uid| partner(random, *uid)).collect();
    uids.extend(partners);
    uids.extend(random_ones(random, count % 2));
    shuffle(random, &mut uids);
    uids
}

/// Differs in the fourteenth digit alone.
fn partner(random: &mut Random, uid: u64) -> u64 {
    uid ^ (1 + random.below(15) as u64) << (4 * (DIGITS - 1))
}

/// Two alike, and for some depths another that leaves them just there.
fn twins(random: &mut Random, count: usize) -> Vec<u64> {
    let twin = any_uid(random);
    let mut uids = vec![twin; count.min(2)];
    while uids.len() < count {
        let depth = random.below(DIGITS);
        let above = any_uid(random) >> (4 * depth) << (4 * depth);
        let leaving = above | twin & !(u64::MAX << (4 * depth));
        let turned = (digit(twin, depth) + 1 + random.below(15) as u64) % 16;
        uids.push(with_digit(leaving, depth, turned));
    }
    shuffle(random, &mut uids);
    uids
}

/// One UID, and others that differ from it in one digit.
fn near_twins(random: &mut Random, count: usize) -> Vec<u64> {
    let one = any_uid(random);
    let mut uids = vec![one; count.min(1)];
    while uids.len() < count {
        let other = random.below(DIGITS);
        let place = random.pick(&[0, 1, 11, 12, 13, other]);
        let uid = with_digit(one, place, random.number() & 15);
        if !uids.contains(&uid) || random.once_in(40) {
            uids.push(uid);
        }
    }
    shuffle(random, &mut uids);
    uids
}

fn all_alike(random: &mut Random, count: usize) -> Vec<u64> {
    vec![any_uid(random); count]
}

/// Pairs that differ in the fourteenth digit alone, spread over the low digits: no
/// fields take more rounds.
pub fn worst(random: &mut Random, count: usize) -> Vec<u64> {
    let spread = |(place, uid): (usize, u64)| {
        let lowest = with_digit(uid, 0, place as u64 % 16);
        with_digit(lowest, 1, place as u64 / 16)
    };
    let pairs: Vec<u64> =
        random_ones(random, count / 2).into_iter().enumerate().map(spread).collect();
    let mut uids: Vec<u64> = pairs.iter().flat_map(|&uid| [uid, partner(random, uid)]).collect();
    shuffle(random, &mut uids);
    uids
}
