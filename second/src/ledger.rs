//! The ledger: what a loaded store must show, from the first disk, the steps and which of
//! them were refused. Once it has begun with what the disk's selected journal holds, it knows no slot and no
//! block index.

use crate::layout::{Geometry, Interval, Location};
use crate::machine::{Advance, Phase};
use crate::range::{self, Entry};
use crate::sound;
use crate::store::{Step, Store};
use crate::superblock::Superblock;

#[derive(Clone, Debug, Default)]
struct Draft {
    ranges: Vec<Vec<Entry>>,
    /// How many of the ranges a location commit drops.
    mark: usize,
    frozen: Vec<Entry>,
    memory: Vec<Entry>,
    location: Option<Location>,
}

#[derive(Clone, Debug)]
pub struct Ledger {
    geometry: Geometry,
    pub counter: u64,
    pub start: u64,
    pub table: Location,
    ranges: Vec<Vec<Entry>>,
    draft: Draft,
    /// A commit that hasn't landed, with the draft at its request.
    commit: Option<(Advance, Draft)>,
}

fn blocks(ranges: &[Vec<Entry>]) -> u64 {
    ranges.iter().map(|r| range::blocks(r) as u64).sum()
}

impl Ledger {
    /// Of a first store. None where nothing can be loaded: a superblock is ill-formed, or the selected journal
    /// can't be read or doesn't parse.
    pub fn new(first: &Store) -> Option<Self> {
        let (geometry, journal) = (first.geometry, &first.disk.journal);
        let slots = sound::slots(first).filter(|slots| slots.iter().all(|s| s.well_formed(geometry)))?;
        let Superblock { counter, start, len, table } = slots[Superblock::select(&slots)];
        let stored = Interval::new(start, len);
        let bytes = journal.readable(geometry, stored).then(|| journal.slice(geometry, stored))?;
        let ranges = range::read_ranges(&bytes)?;
        let draft = Draft { ranges: ranges.clone(), ..Draft::default() };
        Some(Ledger { geometry, counter, start, table, ranges, draft, commit: None })
    }

    pub fn len(&self) -> u64 {
        blocks(&self.ranges)
    }

    pub fn is_empty(&self) -> bool {
        self.ranges.is_empty()
    }

    pub fn entries(&self) -> impl Iterator<Item = &Entry> {
        self.ranges.iter().flatten()
    }

    /// Takes a step; of a commit's first landing, the entries that it drops.
    pub fn feed(&mut self, step: &Step, refused: bool) -> Option<Vec<Entry>> {
        if refused {
            return None;
        }
        let draft = &mut self.draft;
        match step {
            Step::Add(entries) => draft.memory.extend_from_slice(entries),
            Step::Freeze => {
                draft.frozen.append(&mut draft.memory);
                draft.mark = draft.ranges.len();
            }
            Step::WriteJournal { .. } => {
                if draft.frozen.is_empty() {
                    draft.ranges.push(std::mem::take(&mut draft.memory));
                } else {
                    draft.ranges.push(std::mem::take(&mut draft.frozen));
                    draft.mark = draft.ranges.len();
                }
            }
            Step::ReceiveLocation(loc) => draft.location = Some(*loc),
            Step::CommitLog { .. } => self.commit = Some((Advance::Log, draft.clone())),
            Step::CommitLocation { .. } => self.commit = Some((Advance::Location, draft.clone())),
            Step::Land { .. } => return self.land(),
            Step::Crash => {
                self.draft = Draft { ranges: self.ranges.clone(), ..Draft::default() };
                self.commit = None;
            }
            _ => {}
        }
        None
    }

    /// A commit's first landing, and the entries that it drops; later ones find none.
    fn land(&mut self) -> Option<Vec<Entry>> {
        let (advance, mut then) = self.commit.take()?;
        self.counter = self.counter.wrapping_add(1);
        let mut dropped = vec![];
        if advance == Advance::Location {
            dropped.extend(then.ranges.drain(..then.mark));
            self.draft.ranges.drain(..then.mark);
            self.draft.mark = 0;
            self.start = (self.start + blocks(&dropped)) % self.geometry.n();
            self.table = then.location.unwrap_or(self.table);
        }
        self.ranges = then.ranges;
        Some(dropped.concat())
    }

    /// Does a store just loaded show exactly this ledger?
    pub fn shown_by(&self, store: &Store) -> bool {
        let Phase::Ready(r) = &store.machine.phase else { return false };
        let shown =
            Superblock { counter: self.counter, start: self.start, len: self.len(), table: self.table };
        r.superblock == shown && r.written == shown.len && r.replay_left().iter().eq(self.entries())
    }
}
