//! Counts comparisons and prints the first differences.

const PRINTED: u64 = 10;

#[derive(Default)]
pub struct Tally {
    in_group: u64,
    compared: u64,
    different: u64,
    holes: u64,
}

impl Tally {
    pub fn count(&mut self, same: bool, difference: impl FnOnce() -> String) {
        self.in_group += 1;
        if same {
            return;
        }
        self.different += 1;
        if self.different <= PRINTED {
            println!("different: {}", difference());
        }
    }

    /// For a group that compares so many and no other number.
    pub fn must_have_compared(&mut self, number: u64) {
        if self.in_group != number {
            self.hole(&format!("{} compared, not {number}", self.in_group));
        }
    }

    /// Ends a group. One that compared nothing would be a silent hole.
    pub fn end_group(&mut self, name: &str) {
        println!("{name}: {} compared", self.in_group);
        if self.in_group == 0 {
            self.hole(&format!("{name} compared nothing"));
        }
        self.compared += self.in_group;
        self.in_group = 0;
    }

    /// Something that should have been compared was not.
    pub fn hole(&mut self, text: &str) {
        println!("error: {text}");
        self.holes += 1;
    }

    /// Prints the last line; true if all is well.
    pub fn end(&self) -> bool {
        println!("comparison: {} compared, {} different", self.compared, self.different);
        self.different == 0 && self.holes == 0
    }
}
