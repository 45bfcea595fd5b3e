//! Counts how often each kind came up. One that never did is a hole, and so is
//! one that came up less or more often than it must.

use std::collections::BTreeMap;
use std::ops::RangeInclusive;

use crate::tally::Tally;

type Times = RangeInclusive<u64>;
const EVER: Times = 1..=u64::MAX;

#[derive(Default)]
pub struct Counts {
    /// How often each came up, and how often it must.
    rows: BTreeMap<String, (u64, Times)>,
    /// Kinds too many to print; a row tells the rarest of each table.
    cells: BTreeMap<&'static str, BTreeMap<String, u64>>,
}

impl Counts {
    /// A row that must come up.
    pub fn expect(&mut self, row: impl Into<String>) {
        self.expect_times(row, EVER);
    }

    /// A row that must come up so many times.
    pub fn expect_times(&mut self, row: impl Into<String>, times: Times) {
        self.rows.insert(row.into(), (0, times));
    }

    /// A cell of a table that must come up.
    pub fn expect_cell(&mut self, table: &'static str, cell: impl Into<String>) {
        self.cells.entry(table).or_default().insert(cell.into(), 0);
    }

    /// One more of a row that is expected.
    pub fn row(&mut self, row: &str) {
        match self.rows.get_mut(row) {
            Some((count, _)) => *count += 1,
            None => panic!("a kind with no row: {row}"),
        }
    }

    /// One more of each row of these that holds.
    pub fn rows<const MANY: usize>(&mut self, rows: [&str; MANY], hold: [bool; MANY]) {
        for (row, _) in rows.iter().zip(hold).filter(|(_, holds)| *holds) {
            self.row(row);
        }
    }

    pub fn cell(&mut self, table: &'static str, cell: &str) {
        match self.cells.get_mut(table).and_then(|cells| cells.get_mut(cell)) {
            Some(count) => *count += 1,
            None => panic!("a kind with no cell: {table}, {cell}"),
        }
    }

    /// Prints the table.
    pub fn end(&self, tally: &mut Tally, title: &str) {
        let mut rows: Vec<(u64, String, Times)> = self
            .rows
            .iter()
            .map(|(row, (count, times))| (*count, row.clone(), times.clone()))
            .collect();
        for (table, cells) in &self.cells {
            let (rarest, count) = cells.iter().min_by_key(|(_, count)| **count).unwrap();
            rows.push((*count, format!("{table}: rarest of {}, {rarest}", cells.len()), EVER));
        }
        println!("{title}:");
        for (count, row, _) in &rows {
            println!("{count:>9}  {row}");
        }
        for (count, row, _) in rows.iter().filter(|(count, _, times)| !times.contains(count)) {
            tally.hole(&match count {
                0 => format!("never came up: {row}"),
                _ => format!("came up {count} times, too seldom or too often: {row}"),
            });
        }
    }
}
