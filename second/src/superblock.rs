//! The superblock, and which of two is the current one.

use crate::layout::{Geometry, Interval, Location};

#[derive(Clone, Copy, Debug, PartialEq, Eq)]
pub struct Superblock {
    pub counter: u64,
    pub start: u64,
    pub len: u64,
    pub table: Location,
}

impl Superblock {
    pub fn well_formed(&self, g: Geometry) -> bool {
        g.valid(self.journal()) && g.valid_table(self.table)
    }

    pub fn journal(&self) -> Interval {
        Interval::new(self.start, self.len)
    }

    pub fn next_counter(&self) -> u64 {
        self.counter.wrapping_add(1)
    }

    /// Slot 1 (index 0), unless the second's counter follows the first's.
    pub fn select(slots: &[Superblock; 2]) -> usize {
        usize::from(slots[1].counter == slots[0].next_counter())
    }

    /// The five numbers, as the disk line has them.
    pub fn numbers(&self) -> [u64; 5] {
        [self.counter, self.start, self.len, self.table.addr, self.table.len]
    }

    pub fn from_numbers([counter, start, len, addr, size]: [u64; 5]) -> Self {
        Superblock { counter, start, len, table: Location { addr, len: size } }
    }
}
