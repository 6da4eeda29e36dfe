//! The disk (001): what lies on it, and the requests that wait there.

use std::collections::{BTreeMap, BTreeSet};

use crate::layout::{Geometry, Interval, BLOCK};
use crate::superblock::Superblock;
use crate::{ask, Refusal};

pub type Id = u64;

pub const SUPERBLOCK_READS: usize = 8;
pub const JOURNAL_READS: usize = 8;
pub const JOURNAL_WRITES: usize = 16;

/// What a machine's step asks of the disk, or the answer it is given.
#[derive(Clone, Debug, PartialEq, Eq)]
pub enum Op {
    None,
    ReadSuperblock { which: usize, id: Id },
    ReadJournal { id: Id, interval: Interval },
    WriteSuperblock { which: usize, id: Id, superblock: Superblock },
    WriteJournal { id: Id, second: Option<Id>, start: u64, range: Vec<u8> },
    SuperblockRead { which: usize, id: Id, whole: bool },
    JournalRead { id: Id, whole: bool },
    SuperblockWritten { id: Id },
    JournalWritten { id: Id },
}

/// What a read brings back; a damaged one brings nothing.
#[derive(Clone, Debug, PartialEq, Eq)]
pub enum Answer {
    Nothing,
    Superblock(Superblock),
    Blocks(Vec<u8>),
}

/// The journal's blocks, and for each whether it is readable.
#[derive(Clone, Debug, PartialEq, Eq)]
pub struct Journal {
    pub blocks: Vec<[u8; BLOCK]>,
    pub marks: Vec<bool>,
}

impl Journal {
    pub fn empty(g: Geometry) -> Self {
        let n = g.n() as usize;
        Journal { blocks: vec![[0; BLOCK]; n], marks: vec![false; n] }
    }

    /// A block as it was written before: these bytes, zeros behind them, and readable.
    pub fn put(&mut self, block: usize, bytes: &[u8]) {
        self.blocks[block] = [0; BLOCK];
        self.blocks[block][..bytes.len()].copy_from_slice(bytes);
        self.marks[block] = true;
    }

    pub fn readable(&self, g: Geometry, i: Interval) -> bool {
        g.ring(i).all(|b| self.marks[b])
    }

    pub fn slice(&self, g: Geometry, i: Interval) -> Vec<u8> {
        g.ring(i).flat_map(|b| self.blocks[b]).collect()
    }

    pub fn splice(&mut self, g: Geometry, i: Interval, bytes: &[u8]) {
        for (b, block) in g.ring(i).zip(bytes.chunks_exact(BLOCK)) {
            self.blocks[b].copy_from_slice(block);
            self.marks[b] = true;
        }
    }
}

#[derive(Clone, Debug, PartialEq, Eq)]
pub struct Disk {
    geometry: Geometry,
    pub slots: [Option<Superblock>; 2],
    pub journal: Journal,
    pub superblock_reads: [BTreeSet<Id>; 2],
    pub journal_reads: BTreeMap<Id, Interval>,
    pub superblock_writes: [Option<(Id, Superblock)>; 2],
    pub journal_writes: BTreeMap<Id, Interval>,
}

impl Disk {
    pub fn new(geometry: Geometry, slots: [Option<Superblock>; 2], journal: Journal) -> Self {
        Disk {
            geometry,
            slots,
            journal,
            superblock_reads: Default::default(),
            journal_reads: BTreeMap::new(),
            superblock_writes: [None; 2],
            journal_writes: BTreeMap::new(),
        }
    }

    /// The ids of all requests that wait here.
    pub fn ids(&self) -> impl Iterator<Item = Id> + '_ {
        let reads = self.superblock_reads.iter().flatten().chain(self.journal_reads.keys());
        let writes = self.superblock_writes.iter().flatten().map(|(id, _)| id);
        reads.chain(self.journal_writes.keys()).chain(writes).copied()
    }

    /// The slot at which a superblock write with this id waits.
    fn writing(&self, id: Id) -> Option<usize> {
        self.superblock_writes.iter().position(|w| w.is_some_and(|(i, _)| i == id))
    }

    /// Questions 4 to 9 on an operation, in order.
    pub fn ask(&self, op: &Op) -> Result<(), Refusal> {
        let g = self.geometry;
        match op {
            Op::None => Ok(()),
            Op::ReadSuperblock { which, id } => {
                ask(*which < 2, Refusal::Argument)?;
                ask(self.superblock_reads.iter().all(|s| !s.contains(id)), Refusal::Id)?;
                ask(self.superblock_reads[*which].len() < SUPERBLOCK_READS, Refusal::Room)
            }
            Op::ReadJournal { id, interval } => {
                ask(g.contiguous(*interval), Refusal::Argument)?;
                ask(!self.journal_reads.contains_key(id), Refusal::Id)?;
                ask(self.journal_reads.len() < JOURNAL_READS, Refusal::Room)
            }
            Op::WriteSuperblock { which, id, .. } => {
                ask(*which < 2, Refusal::Argument)?;
                ask(self.writing(*id).is_none(), Refusal::Id)
            }
            Op::WriteJournal { id, second, start, range } => {
                let interval = Interval::new(*start, (range.len() / BLOCK) as u64);
                ask(range.len() % BLOCK == 0 && g.valid(interval), Refusal::Argument)?;
                let waits = |id: &Id| self.journal_writes.contains_key(id);
                ask(!waits(id) && !second.as_ref().is_some_and(waits), Refusal::Id)?;
                let pieces = 1 + usize::from(g.wraps(interval));
                ask(self.journal_writes.len() + pieces <= JOURNAL_WRITES, Refusal::Room)?;
                ask(second.is_some() == g.wraps(interval) && *second != Some(*id), Refusal::SecondId)
            }
            Op::SuperblockRead { which, id, whole } => {
                ask(*which < 2, Refusal::Argument)?;
                ask(self.superblock_reads[*which].contains(id), Refusal::Id)?;
                ask(!whole || self.slots[*which].is_some(), Refusal::Condition)
            }
            Op::JournalRead { id, whole } => {
                let interval = *self.journal_reads.get(id).ok_or(Refusal::Id)?;
                ask(!whole || self.journal.readable(g, interval), Refusal::Condition)
            }
            Op::SuperblockWritten { id } => {
                let which = self.writing(*id).ok_or(Refusal::Id)?;
                let written = self.superblock_writes[which].map(|(_, new)| new);
                ask(written == self.slots[which], Refusal::Condition)
            }
            Op::JournalWritten { id } => ask(self.journal_writes.contains_key(id), Refusal::Id),
        }
    }

    /// Does an operation that `ask` allows.
    pub fn take(&mut self, op: Op) -> Answer {
        let g = self.geometry;
        match op {
            Op::None => {}
            Op::ReadSuperblock { which, id } => {
                self.superblock_reads[which].insert(id);
            }
            Op::ReadJournal { id, interval } => {
                self.journal_reads.insert(id, interval);
            }
            Op::WriteSuperblock { which, id, superblock } => {
                self.superblock_writes[which] = Some((id, superblock));
            }
            Op::WriteJournal { id, second, start, range } => {
                let interval = Interval::new(start, (range.len() / BLOCK) as u64);
                self.journal.splice(g, interval, &range);
                let ids = [Some(id), second].into_iter().flatten();
                let pieces = [g.front(interval), g.back(interval)].into_iter().flatten();
                self.journal_writes.extend(ids.zip(pieces));
            }
            Op::SuperblockRead { which, id, whole } => {
                self.superblock_reads[which].remove(&id);
                if let (true, Some(superblock)) = (whole, self.slots[which]) {
                    return Answer::Superblock(superblock);
                }
            }
            Op::JournalRead { id, whole } => {
                if let (Some(interval), true) = (self.journal_reads.remove(&id), whole) {
                    return Answer::Blocks(self.journal.slice(g, interval));
                }
            }
            Op::SuperblockWritten { id } => {
                if let Some(which) = self.writing(id) {
                    self.superblock_writes[which] = None;
                }
            }
            Op::JournalWritten { id } => {
                self.journal_writes.remove(&id);
            }
        }
        Answer::Nothing
    }

    /// A superblock write reaches its slot; it may do so again while in flight.
    pub fn land(&mut self, which: u64) -> Result<(), Refusal> {
        let which = crate::machine::slot(which)?;
        let (_, new) = self.superblock_writes[which].ok_or(Refusal::Condition)?;
        self.slots[which] = Some(new);
        Ok(())
    }

    /// Forgets all requests; blocks under a write in flight come from the picture,
    /// the disk's own content where there is none.
    pub fn crash(&mut self, picture: Option<&Journal>) {
        if let Some(picture) = picture {
            for b in self.journal_writes.values().flat_map(|&i| self.geometry.ring(i)) {
                self.journal.blocks[b] = picture.blocks[b];
                self.journal.marks[b] = picture.marks[b];
            }
        }
        let journal = std::mem::replace(&mut self.journal, Journal { blocks: vec![], marks: vec![] });
        *self = Disk::new(self.geometry, self.slots, journal);
    }
}
