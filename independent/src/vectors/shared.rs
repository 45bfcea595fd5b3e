//! Reads the file of two racks and one list.

use std::path::Path;

use super::walk::{card, end, family, hearing, words, End};
use super::{cases, decimal, refusal, uid};
use crate::notation::parse;
use crate::reference::walk::record::RECORD;
use crate::reference::walk::Heard;

/// An owner's mark for each row, and the UIDs.
#[derive(Clone, PartialEq, Eq)]
pub struct Lent {
    pub marks: Vec<u8>,
    pub rows: Vec<u64>,
}

/// None for a call that is served, or the number of its refusal.
pub type Answer = Option<u8>;

pub enum SharedStep {
    List(Lent),
    Walk(u32, Vec<u8>),
    Start(u32, u16, Answer),
    Hear(u32, Heard, Answer),
    /// A rack, a family and a whole walk among these cards, each a UID and an
    /// AFI.
    Field(u32, u16, Vec<(u64, u8)>, End),
    NowList(Lent),
    NowWalk(u32, Vec<u8>),
}

pub fn shared(folder: &Path) -> Result<Vec<(String, SharedStep)>, String> {
    cases(folder, "shared.txt", |place, fields| {
        let step = match fields {
            ["list", marks, rows] => SharedStep::List(list(marks, rows)?),
            ["walk", rack, bytes] => SharedStep::Walk(decimal(rack)?, record(bytes)?),
            ["start", rack, asked, said] => {
                SharedStep::Start(decimal(rack)?, family(asked)?, answer(said)?)
            }
            ["hear", rack, heard, said] => {
                SharedStep::Hear(decimal(rack)?, hearing(heard)?, answer(said)?)
            }
            ["field", rack, asked, cards, ending, rounds, uids] => {
                let end = end(ending, rounds, uids)?;
                SharedStep::Field(decimal(rack)?, family(asked)?, words(cards, card)?, end)
            }
            ["now list", marks, rows] => SharedStep::NowList(list(marks, rows)?),
            ["now walk", rack, bytes] => SharedStep::NowWalk(decimal(rack)?, record(bytes)?),
            _ => return Err("neither laid down, nor a call, nor a field, nor now".to_string()),
        };
        Ok((place, step))
    })
}

fn list(marks: &str, rows: &str) -> Result<Lent, String> {
    let rows = words(rows, |word| {
        let (digits, count) = word.split_once('*').unwrap_or((word, "1"));
        Ok(vec![uid(digits)?; decimal(count)?])
    })?;
    Ok(Lent { marks: parse(marks)?, rows: rows.concat() })
}

fn record(bytes: &str) -> Result<Vec<u8>, String> {
    let bytes = parse(bytes)?;
    match bytes.len() {
        RECORD => Ok(bytes),
        length => Err(format!("{length} bytes of a record")),
    }
}

fn answer(text: &str) -> Result<Answer, String> {
    match (text, refusal(text)?) {
        ("served", None) => Ok(None),
        (_, Some(number)) => Ok(Some(number)),
        _ => Err(format!("no answer: {text}")),
    }
}
