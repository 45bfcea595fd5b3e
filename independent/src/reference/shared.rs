//! Two racks and one list, change request W5. The list is a map: a row that a
//! rack owns has the rack's number there, and the UID; a free row is not in it.

use std::collections::BTreeMap;

use super::walk::record::{read, write};
use super::walk::{Heard, Walk, PLACES};
use super::Refusal;

#[cfg(test)]
mod tests;

/// The rows that a rack may hold.
pub const MOST: usize = 40;
/// The mark of a row that no rack owns.
pub const FREE: u8 = 255;

/// Numbers 13 and 5. Starts the rack's walk anew; a refused call changes
/// nothing.
pub fn start(rack: u32, family: u16, record: &mut [u8], marks: &mut [u8]) -> Result<(), Refusal> {
    let rack = rack_of(rack)?;
    // No row is lent, so any do.
    let mut rows = [0; PLACES];
    let mut list = List::read(&rows, marks)?;
    list.0.retain(|_, (owner, _)| *owner != rack);
    list.write(&mut rows, marks);
    write(&Walk::start(family), record);
    Ok(())
}

/// Numbers 13, 10 for the record, 6, 5, and 10 for the record beside the list.
/// Hears a slot on the rack; a refused call changes nothing.
pub fn hear(
    heard: &Heard,
    rack: u32,
    record: &mut [u8],
    rows: &mut [u64],
    marks: &mut [u8],
) -> Result<(), Refusal> {
    let rack = rack_of(rack)?;
    let mut walk = read(record)?;
    if walk.ending.is_some() {
        return Err(Refusal::Ended);
    }
    let mut list = List::read(rows, marks)?;
    if [0, 1].iter().any(|&each| list.of(each).len() > MOST) || list.of(rack).len() != walk.listed {
        return Err(Refusal::Walk);
    }
    walk.hear_slot(heard, |uid| list.takes(rack, uid));
    list.write(rows, marks);
    write(&walk, record);
    Ok(())
}

fn rack_of(number: u32) -> Result<u8, Refusal> {
    match number {
        0 => Ok(0),
        1 => Ok(1),
        _ => Err(Refusal::Rack),
    }
}

pub struct List(BTreeMap<usize, (u8, u64)>);

impl List {
    /// Number 5. What is lent past 64 rows and 64 marks is not looked at.
    pub fn read(rows: &[u64], marks: &[u8]) -> Result<List, Refusal> {
        if rows.len() < PLACES || marks.len() < PLACES {
            return Err(Refusal::List);
        }
        let mut list = BTreeMap::new();
        for (row, (&uid, &mark)) in rows.iter().zip(marks).take(PLACES).enumerate() {
            match mark {
                FREE => {}
                0 | 1 => {
                    list.insert(row, (mark, uid));
                }
                _ => return Err(Refusal::List),
            }
        }
        Ok(List(list))
    }

    /// In a free row the UID stays that stands there.
    fn write(&self, rows: &mut [u64], marks: &mut [u8]) {
        for row in 0..PLACES {
            marks[row] = FREE;
            if let Some((owner, uid)) = self.0.get(&row) {
                marks[row] = *owner;
                rows[row] = *uid;
            }
        }
    }

    /// The rack's list.
    pub fn of(&self, rack: u8) -> Vec<u64> {
        self.0.values().filter(|(owner, _)| *owner == rack).map(|(_, uid)| *uid).collect()
    }

    pub fn free(&self) -> usize {
        PLACES - self.0.len()
    }

    pub fn lowest_free(&self) -> Option<usize> {
        (0..PLACES).find(|row| !self.0.contains_key(row))
    }

    /// Puts the UID into the lowest free row, unless the rack has 40 or none is
    /// free.
    fn takes(&mut self, rack: u8, uid: u64) -> bool {
        match self.lowest_free() {
            Some(row) if self.of(rack).len() < MOST => {
                self.0.insert(row, (rack, uid));
                true
            }
            _ => false,
        }
    }
}
