//! The big arm: a walk's record for each of its two racks, and one list.

use crate::crowds::{self, shuffle};
use crate::groups::walks::records;
use crate::random::Random;
use crate::reference::shared::{List, FREE, MOST};
use crate::reference::walk::record::{at, read, RECORD};
use crate::reference::walk::{Walk, PLACES};

/// As both sides are lent it.
#[derive(Clone)]
pub struct Arm {
    pub records: [Vec<u8>; 2],
    pub rows: Vec<u64>,
    pub marks: Vec<u8>,
    /// The rack whose start freed a row that none has taken since.
    pub freed: [Option<usize>; PLACES],
}

impl Arm {
    /// Any marks that a start accepts, and no walks yet.
    pub fn before_starts(random: &mut Random) -> Arm {
        let one = random.below(PLACES + 1);
        let one = random.pick(&[0, MOST, PLACES, one]);
        let other = random.below(PLACES + 1 - one);
        let other = random.pick(&[0, PLACES - one, other]);
        let owned = if random.once_in(2) { [one, other] } else { [other, one] };
        let records = [random.bytes(RECORD), random.bytes(RECORD)];
        Arm::of(random, records, owned)
    }

    /// Running walks that fit the list, most of them on no walk's way.
    pub fn accepted(random: &mut Random) -> Arm {
        let [one, other] = [(); 2].map(|()| {
            let any = random.below(MOST + 1);
            random.pick(&[0, 1, 23, 24, 25, 38, 39, MOST, any, any])
        });
        let other = other.min(PLACES - one);
        let owned = if random.once_in(2) { [one, other] } else { [other, one] };
        let records = owned.map(|count| {
            let mut record = records::accepted(random);
            (record[at::COUNT], record[at::ENDING]) = (count as u8, 0);
            record
        });
        Arm::of(random, records, owned)
    }

    fn of(random: &mut Random, records: [Vec<u8>; 2], owned: [usize; 2]) -> Arm {
        let rows = PLACES + random.pick(&[0, 0, 6, 6, 1, 192]);
        let rows = crowds::noise(random, rows);
        let mut marks = marks(random, owned);
        // Past the 64 that count, any.
        let more = random.pick(&[0, 0, 6, 6, 1, 192]);
        let any = random.byte();
        marks.extend((0..more).map(|_| random.pick(&[FREE, 0, 1, 2, 254, any])));
        Arm { records, rows, marks, freed: [None; PLACES] }
    }

    pub fn walk(&self, rack: usize) -> Walk {
        read(&self.records[rack]).expect("a right record")
    }

    pub fn list(&self) -> List {
        List::read(&self.rows, &self.marks).expect("a right list")
    }
}

/// 64 marks of which each rack has so many, anywhere or side by side.
pub fn marks(random: &mut Random, [zeros, ones]: [usize; 2]) -> Vec<u8> {
    let free = PLACES - zeros - ones;
    let mut blocks = [vec![0; zeros], vec![1; ones], vec![FREE; free]];
    shuffle(random, &mut blocks);
    let mut marks = blocks.concat();
    if !random.once_in(4) {
        shuffle(random, &mut marks);
    }
    marks
}
