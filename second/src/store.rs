//! The system (004): a machine on its disk, one step at a time.

use crate::disk::{Disk, Id, Journal};
use crate::layout::{Geometry, Location};
use crate::machine::Machine;
use crate::range::Entry;
use crate::superblock::Superblock;
use crate::{ask, sound, Refusal};

#[derive(Clone, Debug, PartialEq, Eq)]
pub enum Step {
    WriteJournal { id: Id, second: Option<Id> },
    JournalWritten { id: Id },
    CommitLog { id: Id },
    CommitLocation { id: Id },
    SuperblockWritten { id: Id },
    ReadSuperblock { which: u64, id: Id },
    SuperblockRead { which: u64, id: Id, whole: bool },
    ReadJournal { which: u64, id: Id },
    JournalRead { id: Id, whole: bool },
    FinishSuperblocks,
    FinishJournal,
    Freeze,
    ReceiveLocation(Location),
    Add(Vec<Entry>),
    Replay(Vec<Entry>),
    Push { id: Id },
    Pop { id: Id },
    NoOp,
    AskAgain { which: u64 },
    Land { which: u64 },
    Crash,
}

#[derive(Clone, Debug, PartialEq, Eq)]
pub struct Store {
    pub geometry: Geometry,
    pub machine: Machine,
    pub disk: Disk,
}

impl Store {
    /// A machine at its start on a disk without requests, its blocks and marks 0.
    pub fn new(geometry: Geometry, slots: [Superblock; 2]) -> Self {
        let disk = Disk::new(geometry, slots.map(Some), Journal::empty(geometry));
        Store { geometry, machine: Machine::new(geometry), disk }
    }

    /// One step: the machine is asked all questions, then the disk; only then is anything
    /// altered. Question 1 holds by construction; from a store that question 2 passes a step leads to another.
    pub fn step(&mut self, step: &Step) -> Result<(), Refusal> {
        ask(sound::system(self), Refusal::State)?;
        match step {
            Step::Land { which } => self.disk.land(*which)?,
            Step::Crash => self.crash(None),
            _ => {
                let op = self.machine.ask(step)?;
                self.disk.ask(&op)?;
                let answer = self.disk.take(op);
                self.machine.take(step, answer);
            }
        }
        Ok(())
    }

    /// A crash that leaves the picture where journal writes were in flight.
    pub fn crash(&mut self, picture: Option<&Journal>) {
        self.machine = Machine::new(self.geometry);
        self.disk.crash(picture);
    }
}
