//! The commit machine (000), with document 01's departures and document 02's S-2 and S-6.

use std::collections::{BTreeMap, BTreeSet};

use crate::disk::{Answer, Id, Op};
use crate::layout::{Geometry, Interval, Location};
use crate::range::{self, Entry};
use crate::store::Step;
use crate::superblock::Superblock;
use crate::{ask, Refusal};

pub const SYNC_REQUESTS: usize = 32;
pub const OUTSTANDING_WRITES: usize = 16;
pub const PENDING_ENTRIES: usize = 1024;
pub const PENDING_BYTES: usize = 65_536;
pub const STEP_ENTRIES: usize = 16;

#[derive(Clone, Copy, Debug, PartialEq, Eq)]
pub enum Sync {
    State1,
    State2,
    State3,
}

/// One superblock slot while loading.
#[derive(Clone, Copy, Debug, PartialEq, Eq)]
pub enum Slot {
    Unread,
    Asked(Id),
    Read(Superblock),
    Corrupt,
}

/// One piece of the journal while loading.
#[derive(Clone, Debug, PartialEq, Eq)]
pub enum Piece {
    Unread,
    Asked(Id),
    In(Vec<u8>),
}

#[derive(Clone, Debug, PartialEq, Eq)]
pub struct Loading {
    pub superblock: Superblock,
    pub which: usize,
    /// Front and back.
    pub pieces: [Piece; 2],
}

#[derive(Clone, Copy, Debug, PartialEq, Eq)]
pub enum Advance {
    Log,
    Location,
}

#[derive(Clone, Copy, Debug, PartialEq, Eq)]
pub struct Commit {
    pub id: Id,
    pub advance: Advance,
    pub superblock: Superblock,
}

#[derive(Clone, Debug, PartialEq, Eq)]
pub struct Ready {
    pub superblock: Superblock,
    pub which: usize,
    /// Blocks written from the superblock's start on.
    pub written: u64,
    pub is_frozen: bool,
    pub frozen_position: u64,
    pub frozen_loc: Option<Location>,
    pub frozen: Vec<Entry>,
    pub memory: Vec<Entry>,
    pub outstanding: BTreeSet<Id>,
    pub commit: Option<Commit>,
    pub replay: Vec<Entry>,
    /// How many of `replay` are taken.
    pub replayed: usize,
}

#[derive(Clone, Debug, PartialEq, Eq)]
pub enum Phase {
    Superblocks([Slot; 2]),
    Journal(Loading),
    Ready(Ready),
}

#[derive(Clone, Debug, PartialEq, Eq)]
pub struct Machine {
    geometry: Geometry,
    pub phase: Phase,
    pub sync: BTreeMap<Id, Sync>,
}

/// `which` as a slot's index: 0 or 1.
pub fn slot(which: u64) -> Result<usize, Refusal> {
    ask(which < 2, Refusal::Argument)?;
    Ok(which as usize)
}

fn step_entries(entries: &[Entry]) -> Result<(), Refusal> {
    let sound = entries.len() <= STEP_ENTRIES && entries.iter().all(range::valid_entry);
    ask(sound, Refusal::Argument)
}

impl Loading {
    /// Where the front and the back piece lie.
    pub fn intervals(&self, g: Geometry) -> [Option<Interval>; 2] {
        let journal = self.superblock.journal();
        [g.front(journal), g.back(journal)]
    }

    fn complete(&self, g: Geometry) -> bool {
        let wanted = self.intervals(g).into_iter();
        wanted.zip(&self.pieces).all(|(i, p)| i.is_none() || matches!(p, Piece::In(_)))
    }

    fn entries(&self) -> Option<Vec<Entry>> {
        let bytes = self.pieces.iter().flat_map(|p| match p {
            Piece::In(bytes) => bytes.as_slice(),
            _ => &[],
        });
        range::read(&bytes.copied().collect::<Vec<_>>())
    }
}

impl Ready {
    /// As a load leaves it: nothing pending, nothing in flight.
    pub fn loaded(loading: &Loading, replay: Vec<Entry>) -> Self {
        Ready {
            superblock: loading.superblock,
            which: loading.which,
            written: loading.superblock.len,
            is_frozen: false,
            frozen_position: 0,
            frozen_loc: None,
            frozen: vec![],
            memory: vec![],
            outstanding: BTreeSet::new(),
            commit: None,
            replay,
            replayed: 0,
        }
    }

    /// What the next journal write sends: the frozen if there are any, else those in memory.
    pub fn outgoing(&self) -> &[Entry] {
        if self.frozen.is_empty() {
            &self.memory
        } else {
            &self.frozen
        }
    }

    pub fn pending(&self) -> impl Iterator<Item = &Entry> {
        self.frozen.iter().chain(&self.memory)
    }

    pub fn replay_left(&self) -> &[Entry] {
        &self.replay[self.replayed..]
    }

    fn may_commit(&self) -> bool {
        self.commit.is_none() && self.outstanding.is_empty() && self.frozen.is_empty()
    }

    /// The commit a request makes: always to the other slot.
    fn committing(&self, g: Geometry, id: Id, advance: Advance) -> Option<Commit> {
        let old = self.superblock;
        let counter = old.next_counter();
        let superblock = match advance {
            Advance::Log => Superblock { counter, len: self.written, ..old },
            Advance::Location => Superblock {
                counter,
                start: g.advance(old.start, self.frozen_position),
                len: self.written - self.frozen_position,
                table: self.frozen_loc?,
            },
        };
        self.may_commit().then_some(Commit { id, advance, superblock })
    }
}

impl Machine {
    pub fn new(geometry: Geometry) -> Self {
        Machine { geometry, phase: Phase::Superblocks([Slot::Unread; 2]), sync: BTreeMap::new() }
    }

    fn superblocks(&self) -> Result<&[Slot; 2], Refusal> {
        match &self.phase {
            Phase::Superblocks(slots) => Ok(slots),
            _ => Err(Refusal::Kind),
        }
    }

    fn loading(&self) -> Result<&Loading, Refusal> {
        match &self.phase {
            Phase::Journal(loading) => Ok(loading),
            _ => Err(Refusal::Kind),
        }
    }

    fn ready(&self) -> Result<&Ready, Refusal> {
        match &self.phase {
            Phase::Ready(ready) => Ok(ready),
            _ => Err(Refusal::Kind),
        }
    }

    fn move_sync(&mut self, from: Sync, to: Sync) {
        self.sync.values_mut().filter(|s| **s == from).for_each(|s| *s = to);
    }

    /// How many sync requests are at State1, State2 and State3.
    pub fn sync_counts(&self) -> [usize; 3] {
        let at = |state| self.sync.values().filter(|s| **s == state).count();
        [Sync::State1, Sync::State2, Sync::State3].map(at)
    }

    /// Questions 3 to 8 in order, an add's 13 behind 4; on a yes to all, what is asked of the disk.
    pub fn ask(&self, step: &Step) -> Result<Op, Refusal> {
        use Refusal::*;
        let g = self.geometry;
        match step {
            Step::WriteJournal { id, second } => {
                let r = self.ready()?;
                let entries = r.outgoing();
                ask(!entries.is_empty() && r.commit.is_none(), Condition)?;
                let ids: BTreeSet<&u64> = [id].into_iter().chain(second).collect();
                let new = ids.iter().filter(|i| !r.outstanding.contains(i)).count();
                ask(range::blocks(entries) as u64 + r.written <= g.n(), Room)?;
                ask(r.outstanding.len() + new <= OUTSTANDING_WRITES, Room)?;
                let start = g.advance(r.superblock.start, r.written);
                Ok(Op::WriteJournal { id: *id, second: *second, start, range: range::write(entries) })
            }
            Step::JournalWritten { id } => Ok(Op::JournalWritten { id: *id }),
            Step::CommitLog { id } | Step::CommitLocation { id } => {
                let r = self.ready()?;
                let commit = r.committing(g, *id, advance(step)).ok_or(Condition)?;
                Ok(Op::WriteSuperblock { which: 1 - r.which, id: *id, superblock: commit.superblock })
            }
            Step::SuperblockWritten { id } => Ok(Op::SuperblockWritten { id: *id }),
            Step::ReadSuperblock { which, id } => {
                let slots = self.superblocks()?;
                let which = slot(*which)?;
                ask(slots[1 - which] != Slot::Asked(*id), Id)?;
                ask(slots[which] == Slot::Unread, Condition)?;
                Ok(Op::ReadSuperblock { which, id: *id })
            }
            Step::SuperblockRead { which, id, whole } => {
                Ok(Op::SuperblockRead { which: slot(*which)?, id: *id, whole: *whole })
            }
            Step::ReadJournal { which, id } => {
                let loading = self.loading()?;
                let which = slot(*which)?;
                let interval = loading.intervals(g)[which].ok_or(Condition)?;
                ask(loading.pieces[which] == Piece::Unread, Condition)?;
                Ok(Op::ReadJournal { id: *id, interval })
            }
            Step::JournalRead { id, whole } => Ok(Op::JournalRead { id: *id, whole: *whole }),
            Step::FinishSuperblocks => {
                let slots = self.superblocks()?;
                ask(slots.iter().all(|s| matches!(s, Slot::Read(_))), Condition)?;
                Ok(Op::None)
            }
            Step::FinishJournal => {
                let loading = self.loading()?;
                ask(loading.complete(g), Condition)?;
                ask(loading.entries().is_some(), Parse)?;
                Ok(Op::None)
            }
            Step::Freeze => {
                let r = self.ready()?;
                let loaded = r.frozen_loc == Some(r.superblock.table);
                ask(r.commit.is_none() && !loaded && r.replay_left().is_empty(), Condition)?;
                Ok(Op::None)
            }
            Step::ReceiveLocation(loc) => {
                let r = self.ready()?;
                ask(g.valid_table(*loc), Argument)?;
                ask(r.is_frozen && r.frozen_loc.is_none(), Condition)?;
                Ok(Op::None)
            }
            Step::Add(entries) => {
                let r = self.ready()?;
                step_entries(entries)?;
                // Only an add asks it: what was stored or pending earlier is written, loaded and replayed (S-6).
                ask(!entries.iter().any(range::blank), Blank)?;
                ask(r.replay_left().is_empty(), Condition)?;
                let count = r.pending().count() + entries.len();
                let bytes: usize = r.pending().chain(entries).map(Vec::len).sum();
                ask(count <= PENDING_ENTRIES && bytes <= PENDING_BYTES, Room)?;
                Ok(Op::None)
            }
            Step::Replay(entries) => {
                let r = self.ready()?;
                step_entries(entries)?;
                ask(r.replay_left().starts_with(entries), Condition)?;
                Ok(Op::None)
            }
            Step::Push { id } => {
                ask(!self.sync.contains_key(id), Id)?;
                ask(self.sync.len() < SYNC_REQUESTS, Room)?;
                Ok(Op::None)
            }
            Step::Pop { id } => {
                let state = self.sync.get(id).ok_or(Id)?;
                ask(*state == Sync::State1, Condition)?;
                Ok(Op::None)
            }
            Step::AskAgain { which } => {
                let slots = self.superblocks()?;
                ask(slots[slot(*which)?] == Slot::Corrupt, Condition)?;
                Ok(Op::None)
            }
            Step::NoOp | Step::Land { .. } | Step::Crash => Ok(Op::None),
        }
    }

    /// Does a step that `ask` allows, with what the disk gave back.
    pub fn take(&mut self, step: &Step, answer: Answer) {
        let g = self.geometry;
        match (step, &mut self.phase) {
            (Step::WriteJournal { id, second }, Phase::Ready(r)) => {
                r.outstanding.extend([id].into_iter().chain(second));
                r.written += range::blocks(r.outgoing()) as u64;
                if r.frozen.is_empty() {
                    r.memory.clear();
                    self.move_sync(Sync::State3, Sync::State2);
                } else {
                    r.frozen.clear();
                    r.frozen_position = r.written;
                }
            }
            (Step::JournalWritten { id }, Phase::Ready(r)) => {
                r.outstanding.remove(id);
            }
            (Step::CommitLog { id } | Step::CommitLocation { id }, Phase::Ready(r)) => {
                r.commit = r.committing(g, *id, advance(step));
                // With nothing in memory this commit has all that was added before the requests (S-2).
                if r.memory.is_empty() {
                    self.move_sync(Sync::State3, Sync::State2);
                }
            }
            (Step::SuperblockWritten { id }, Phase::Ready(r)) => {
                if let Some(commit) = r.commit.take_if(|c| c.id == *id) {
                    r.superblock = commit.superblock;
                    r.which = 1 - r.which;
                    if commit.advance == Advance::Location {
                        r.written -= r.frozen_position;
                        r.frozen_position = 0;
                        r.frozen_loc = None;
                        r.is_frozen = false;
                    }
                    self.move_sync(Sync::State2, Sync::State1);
                }
            }
            (Step::ReadSuperblock { which, id }, Phase::Superblocks(slots)) => {
                slots[*which as usize] = Slot::Asked(*id);
            }
            (Step::SuperblockRead { which, id, .. }, Phase::Superblocks(slots)) => {
                let slot = &mut slots[*which as usize];
                if *slot == Slot::Asked(*id) {
                    *slot = match answer {
                        Answer::Superblock(s) if s.well_formed(g) => Slot::Read(s),
                        _ => Slot::Corrupt,
                    };
                }
            }
            (Step::ReadJournal { which, id }, Phase::Journal(loading)) => {
                let which = *which as usize;
                loading.pieces[which] = Piece::Asked(*id);
                if loading.pieces[1 - which] == Piece::Asked(*id) {
                    loading.pieces[1 - which] = Piece::Unread;
                }
            }
            (Step::JournalRead { id, .. }, Phase::Journal(loading)) => {
                if let Some(piece) = loading.pieces.iter_mut().find(|p| **p == Piece::Asked(*id)) {
                    *piece = match answer {
                        Answer::Blocks(bytes) => Piece::In(bytes),
                        _ => Piece::Unread,
                    };
                }
            }
            (Step::FinishSuperblocks, Phase::Superblocks([Slot::Read(a), Slot::Read(b)])) => {
                let slots = [*a, *b];
                let which = Superblock::select(&slots);
                let pieces = [Piece::Unread, Piece::Unread];
                self.phase = Phase::Journal(Loading { superblock: slots[which], which, pieces });
            }
            (Step::FinishJournal, Phase::Journal(loading)) => {
                if let Some(entries) = loading.entries() {
                    self.phase = Phase::Ready(Ready::loaded(loading, entries));
                }
            }
            (Step::Freeze, Phase::Ready(r)) => {
                r.frozen.append(&mut r.memory);
                r.frozen_loc = None;
                r.frozen_position = r.written;
                r.is_frozen = true;
                self.move_sync(Sync::State3, Sync::State2);
            }
            (Step::ReceiveLocation(loc), Phase::Ready(r)) => r.frozen_loc = Some(*loc),
            (Step::Add(entries), Phase::Ready(r)) => r.memory.extend_from_slice(entries),
            (Step::Replay(entries), Phase::Ready(r)) => r.replayed += entries.len(),
            (Step::Push { id }, _) => {
                self.sync.insert(*id, Sync::State3);
            }
            (Step::Pop { id }, _) => {
                self.sync.remove(id);
            }
            (Step::AskAgain { which }, Phase::Superblocks(slots)) => {
                slots[*which as usize] = Slot::Unread;
            }
            // An answer nobody awaits, and steps of other kinds, alter nothing.
            _ => {}
        }
    }
}

fn advance(step: &Step) -> Advance {
    match step {
        Step::CommitLocation { .. } => Advance::Location,
        _ => Advance::Log,
    }
}
