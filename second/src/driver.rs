//! The loading driver of document 02's S-4: it looks at machine and disk, and names the next step of a load.

use crate::disk::{Disk, Id};
use crate::layout::Geometry;
use crate::machine::{Loading, Phase, Piece, Slot};
use crate::store::{Step, Store};
use crate::{ask, sound, Refusal};

/// The next step: slot 1, slot 2 and the first end, then front, back and the second end. Question 2 comes first,
/// as with any step; a store that is up is a 3.
pub fn next(store: &Store) -> Result<Step, Refusal> {
    ask(sound::system(store), Refusal::State)?;
    let new = least(&store.disk);
    match &store.machine.phase {
        Phase::Superblocks(slots) => Ok(superblocks(slots, new)),
        Phase::Journal(loading) => Ok(journal(loading, store.geometry, new)),
        Phase::Ready(_) => Err(Refusal::Kind),
    }
}

/// A new id: the least number that the disk holds in none of its tables.
pub fn least(disk: &Disk) -> Id {
    (0..=Id::MAX).find(|id| disk.ids().all(|held| held != *id)).expect("the tables hold a few ids")
}

fn superblocks(slots: &[Slot; 2], new: Id) -> Step {
    let step = |(slot, which): (&Slot, u64)| match slot {
        Slot::Corrupt => Some(Step::AskAgain { which }),
        Slot::Unread => Some(Step::ReadSuperblock { which, id: new }),
        Slot::Asked(id) => Some(Step::SuperblockRead { which, id: *id, whole: true }),
        Slot::Read(_) => None,
    };
    slots.iter().zip(0..).find_map(step).unwrap_or(Step::FinishSuperblocks)
}

/// A piece that the journal doesn't have is passed over.
fn journal(loading: &Loading, g: Geometry, new: Id) -> Step {
    let there = loading.intervals(g).map(|interval| interval.is_some());
    let step = |((piece, there), which): ((&Piece, bool), u64)| match piece {
        Piece::Unread if there => Some(Step::ReadJournal { which, id: new }),
        Piece::Asked(id) => Some(Step::JournalRead { id: *id, whole: true }),
        _ => None,
    };
    loading.pieces.iter().zip(there).zip(0..).find_map(step).unwrap_or(Step::FinishJournal)
}

/// A step as a day asks for it: given with its arguments, or left to the driver.
#[derive(Clone, Debug, PartialEq, Eq)]
pub enum Call {
    Step(Step),
    Drive,
}

impl Call {
    /// Takes it: which step it came to, and the answer. Where the driver names none it is a refused `noop`.
    pub fn take(&self, store: &mut Store) -> (Step, Result<(), Refusal>) {
        let named = match self {
            Call::Step(step) => Ok(step.clone()),
            Call::Drive => next(store),
        };
        match named {
            Ok(step) => {
                let result = store.step(&step);
                (step, result)
            }
            Err(refusal) => (Step::NoOp, Err(refusal)),
        }
    }
}
