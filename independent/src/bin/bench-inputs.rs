//! Writes inputs for a bench: `bench-inputs DIR N` makes DIR/00000.txt and so
//! on, the same ones each time, and tells how many of each kind.

use std::collections::BTreeMap;
use std::path::Path;
use std::process::ExitCode;
use std::{env, fs};

use independent::crowds::{self, Crowd, CROWDS};
use independent::random::Random;

const SEED: u64 = 15693;

/// A kind of input: its name and one of it.
type Kind = (&'static str, fn(&mut Random) -> Vec<u8>);

/// What some lines begin with in place of E0.
const FIRST_BYTES: [[u8; 2]; 4] = [*b"e0", *b"D0", *b"E1", *b"00"];
/// Where: lines 1, 50 and 100.
const PLACES: [usize; 3] = [0, 49, 99];

const KINDS: [Kind; 28] = [
    ("field of up to 100", |random| lines(&field(random, 101))),
    ("field of up to 8", |random| lines(&field(random, 9))),
    ("crowded field of 64", |random| lines(&crowd(random, 64))),
    ("crowded field of 65", |random| lines(&crowd(random, 65))),
    ("crowded field of 100", |random| lines(&crowd(random, 100))),
    ("random field of 64, 65, 100", random_many),
    ("worst field", worst),
    ("empty field, or a single card", |random| lines(&field(random, 2))),
    ("last 0A missing", |random| without_last(lines(&field(random, 101)))),
    ("a hundred lines, last 0A missing", |random| without_last(lines(&crowd(random, 100)))),
    ("empty line", |random| with_line(random, |_, line| line.clear())),
    ("lower case", |random| with_line(random, |random, line| lower_case(random, line))),
    ("15 digits", |random| with_line(random, cut_one)),
    ("17 digits", |random| with_line(random, |random, line| put_one(random, line, b'0'))),
    ("a space more", |random| with_line(random, |random, line| put_one(random, line, b' '))),
    ("a space for a digit", |random| with_line(random, |random, line| turn(random, line, b' '))),
    ("0D before 0A", |random| with_line(random, |_, line| line.push(b'\r'))),
    ("0D for every 0A", |random| with_0d(lines(&field(random, 101)))),
    ("another byte for a digit", |random| {
        with_line(random, |random, line| other_byte(random, line))
    }),
    ("another first byte", |random| with_line(random, |random, line| any_first_byte(random, line))),
    ("another first byte in line 1, 50 or 100", |random| {
        let place = random.pick(&PLACES);
        with_first_bytes(random, &[place])
    }),
    ("another first byte in lines 1, 50 and 100", |random| {
        let from = random.below(PLACES.len());
        with_first_bytes(random, &PLACES[from..])
    }),
    ("another first byte and another fault", two_faults),
    ("a digit for 0A", joined),
    ("line 101", line_101),
    ("two bad lines", two_bad),
    ("cut or damaged", damaged),
    ("binary", binary),
];

fn main() -> ExitCode {
    let given: Vec<String> = env::args().skip(1).collect();
    let done = match &given[..] {
        [folder, count] => match count.parse() {
            Ok(count) => write(Path::new(folder), count),
            Err(_) => Err(format!("no number: {count}")),
        },
        _ => Err("usage: bench-inputs DIR N".to_string()),
    };
    match done {
        Ok(()) => ExitCode::SUCCESS,
        Err(fault) => {
            eprintln!("error: {fault}");
            ExitCode::FAILURE
        }
    }
}

fn write(folder: &Path, count: usize) -> Result<(), String> {
    let mut random = Random::new(SEED);
    let mut counts: BTreeMap<&str, usize> = BTreeMap::new();
    fs::create_dir_all(folder).map_err(|fault| format!("{}: {fault}", folder.display()))?;
    for (number, (name, input)) in KINDS.iter().cycle().take(count).enumerate() {
        let file = folder.join(format!("{number:05}.txt"));
        fs::write(&file, input(&mut random))
            .map_err(|fault| format!("{}: {fault}", file.display()))?;
        *counts.entry(name).or_default() += 1;
    }
    for (name, count) in counts {
        println!("{count:>6}  {name}");
    }
    Ok(())
}

/// A field of any kind, with fewer cards than the limit.
fn field(random: &mut Random, limit: usize) -> Vec<u64> {
    let count = random.below(limit);
    crowd(random, count)
}

fn crowd(random: &mut Random, count: usize) -> Vec<u64> {
    let (_, crowd): (&str, Crowd) = random.pick(&CROWDS);
    crowd(random, count)
}

fn random_many(random: &mut Random) -> Vec<u8> {
    let count = random.pick(&[64, 65, 100]);
    lines(&crowds::random_ones(random, count))
}

fn worst(random: &mut Random) -> Vec<u8> {
    let count = 58 + random.below(43);
    lines(&crowds::worst(random, count))
}

fn lines(uids: &[u64]) -> Vec<u8> {
    uids.iter().flat_map(|uid| format!("{uid:016X}\n").into_bytes()).collect()
}

fn without_last(mut input: Vec<u8>) -> Vec<u8> {
    input.pop();
    input
}

/// Good lines with one that is made bad, the first and the last more often.
fn with_line(random: &mut Random, spoil: fn(&mut Random, &mut Vec<u8>)) -> Vec<u8> {
    let count = 1 + random.below(100);
    let uids = crowd(random, count);
    // Some crowds come in pairs and have one fewer.
    let mut rows: Vec<Vec<u8>> =
        uids.iter().chain(&[0xE004_0100_0000_0011]).map(|uid| line(*uid)).take(100).collect();
    let last = rows.len() - 1;
    let place = random.below(rows.len());
    let place = random.pick(&[0, last, place, place]);
    spoil(random, &mut rows[place]);
    ended(random, rows)
}

fn line(uid: u64) -> Vec<u8> {
    format!("{uid:016X}").into_bytes()
}

/// The rows as lines; the last may lack its 0A.
fn ended(random: &mut Random, rows: Vec<Vec<u8>>) -> Vec<u8> {
    let mut input = rows.join(&b'\n');
    if random.once_in(2) {
        input.push(b'\n');
    }
    input
}

fn lower_case(random: &mut Random, line: &mut [u8]) {
    let place = random.below(line.len());
    line[place] = random.pick(b"ABCDEF");
    match random.once_in(2) {
        true => line.make_ascii_lowercase(),
        false => line[place] = line[place].to_ascii_lowercase(),
    }
}

fn cut_one(random: &mut Random, line: &mut Vec<u8>) {
    line.remove(random.below(line.len()));
}

fn put_one(random: &mut Random, line: &mut Vec<u8>, byte: u8) {
    let place = random.below(line.len() + 1);
    let end = line.len();
    line.insert(random.pick(&[0, end, place]), byte);
}

fn turn(random: &mut Random, line: &mut [u8], byte: u8) {
    let place = random.below(line.len());
    line[place] = byte;
}

/// Neighbours of the digits among them.
fn other_byte(random: &mut Random, line: &mut [u8]) {
    let any = random.byte() | 0x80;
    let byte = random.pick(&[b'/', b':', b'@', b'G', b'`', b'g', b'\t', 0x00, 0x7F, 0x0B, any]);
    turn(random, line, byte);
}

fn any_first_byte(random: &mut Random, line: &mut [u8]) {
    let first = format!("{:02X}", crowds::other_first_byte(random));
    line[..2].copy_from_slice(first.as_bytes());
}

/// A hundred lines, of which these begin with something else.
fn with_first_bytes(random: &mut Random, places: &[usize]) -> Vec<u8> {
    let mut rows: Vec<Vec<u8>> = crowd(random, 100).into_iter().map(line).collect();
    for &place in places {
        rows[place][..2].copy_from_slice(&random.pick(&FIRST_BYTES));
    }
    ended(random, rows)
}

/// The first of two faults counts, or both are in one line.
fn two_faults(random: &mut Random) -> Vec<u8> {
    let mut rows: Vec<Vec<u8>> = crowd(random, 100).into_iter().map(line).collect();
    let [one, other] = [(); 2].map(|()| random.below(rows.len()));
    let next = (one + 1).min(rows.len() - 1);
    let other = random.pick(&[other, other, one, next]);
    rows[one][..2].copy_from_slice(&random.pick(&FIRST_BYTES));
    let row = &mut rows[other];
    match random.below(6) {
        0 => row.clear(),
        1 => lower_case(random, row),
        2 => cut_one(random, row),
        3 => put_one(random, row, b'0'),
        4 => row.push(b'\r'),
        _ => other_byte(random, row),
    }
    ended(random, rows)
}

fn with_0d(input: Vec<u8>) -> Vec<u8> {
    input.into_iter().map(|byte| if byte == b'\n' { b'\r' } else { byte }).collect()
}

fn joined(random: &mut Random) -> Vec<u8> {
    let mut input = lines(&field(random, 101));
    input.extend(lines(&crowds::random_ones(random, 2)));
    let place = 16 + 17 * random.below(input.len() / 17);
    input[place] = b'0';
    input
}

/// A hundred good lines and something behind them.
fn line_101(random: &mut Random) -> Vec<u8> {
    let mut input = lines(&crowds::random_ones(random, 100));
    match random.below(7) {
        0 => input.push(b'\n'),
        1 => input.push(b'0'),
        2 => input.push(random.byte()),
        3 => input.extend(line(random.number())),
        4 => input.extend(lines(&crowds::random_ones(random, 1))),
        5 => input.extend(lines(&crowds::random_ones(random, 2000))),
        _ => input.extend(random.bytes(50)),
    }
    input
}

fn two_bad(random: &mut Random) -> Vec<u8> {
    let mut input = with_line(random, |random, line| other_byte(random, line));
    if input.last() != Some(&b'\n') {
        input.push(b'\n');
    }
    input.extend(with_line(random, |_, line| line.clear()));
    input
}

fn damaged(random: &mut Random) -> Vec<u8> {
    let mut input = lines(&field(random, 101));
    input.extend(line(crowds::any_uid(random)));
    let place = random.below(input.len());
    match random.below(5) {
        0 => input.truncate(place),
        1 => drop(input.drain(..place)),
        2 => input[place] ^= 1 << random.below(8),
        3 => input.insert(place, b'\n'),
        _ => drop(input.remove(place)),
    }
    input
}

fn binary(random: &mut Random) -> Vec<u8> {
    let length = random.pick(&[1, 2, 16, 17, 18, 170, 1699, 1700, 1701, 70_000]);
    match random.below(5) {
        0 => vec![b'\n'; length],
        1 => vec![b'0'; length],
        2 => vec![0; length],
        3 => [b"\xEF\xBB\xBF", &lines(&field(random, 101))[..]].concat(),
        _ => random.bytes(length),
    }
}
