//! Question 2: may a disk, a machine, a system be in this state? Document 01's list, and 000's `Inv`.

use std::collections::{BTreeMap, BTreeSet};

use crate::disk::{Disk, Id, JOURNAL_READS, JOURNAL_WRITES, SUPERBLOCK_READS};
use crate::layout::{Geometry, Interval, BLOCK};
use crate::machine::{Advance, Commit, Loading, Machine, Phase, Piece, Ready, Slot};
use crate::machine::{OUTSTANDING_WRITES, PENDING_BYTES, PENDING_ENTRIES, SYNC_REQUESTS};
use crate::range::{self, Entry};
use crate::store::Store;
use crate::superblock::Superblock;

/// Every count held, every journal request contiguous. Ids within one table differ by construction.
pub fn disk(g: Geometry, disk: &Disk) -> bool {
    let mut requests = disk.journal_reads.values().chain(disk.journal_writes.values());
    disk.superblock_reads.iter().all(|ids| ids.len() <= SUPERBLOCK_READS)
        && disk.journal_reads.len() <= JOURNAL_READS
        && disk.journal_writes.len() <= JOURNAL_WRITES
        && requests.all(|i| g.contiguous(*i))
}

/// 000's `Inv` and the limits.
pub fn machine(g: Geometry, machine: &Machine) -> bool {
    machine.sync.len() <= SYNC_REQUESTS
        && match &machine.phase {
            Phase::Superblocks(slots) => slots_sound(g, slots),
            Phase::Journal(loading) => loading_sound(g, loading),
            Phase::Ready(ready) => ready_sound(g, ready),
        }
}

fn slots_sound(g: Geometry, slots: &[Slot; 2]) -> bool {
    let well_formed = |slot: &Slot| !matches!(slot, Slot::Read(s) if !s.well_formed(g));
    slots.iter().all(well_formed) && !matches!(slots, [Slot::Asked(one), Slot::Asked(two)] if one == two)
}

/// A piece is asked for or read only where the journal has it.
fn loading_sound(g: Geometry, loading: &Loading) -> bool {
    let fits = |(piece, interval): (&Piece, Option<Interval>)| match (piece, interval) {
        (Piece::Unread, _) => true,
        (Piece::Asked(_), interval) => interval.is_some(),
        (Piece::In(bytes), interval) => interval.is_some_and(|i| bytes.len() == i.len as usize * BLOCK),
    };
    loading.superblock.well_formed(g)
        && loading.which < 2
        && loading.pieces.iter().zip(loading.intervals(g)).all(fits)
        && !matches!(&loading.pieces, [Piece::Asked(front), Piece::Asked(back)] if front == back)
}

fn entries_sound<'a>(entries: impl Iterator<Item = &'a Entry>, count: usize, bytes: usize) -> bool {
    let lengths: Option<Vec<usize>> = entries.map(|e| range::valid_entry(e).then_some(e.len())).collect();
    lengths.is_some_and(|l| l.len() <= count && l.iter().sum::<usize>() <= bytes)
}

fn ready_sound(g: Geometry, r: &Ready) -> bool {
    let replay = g.n() as usize * BLOCK;
    r.superblock.well_formed(g)
        && r.which < 2
        && (r.superblock.len..=g.n()).contains(&r.written)
        && (!r.is_frozen || r.frozen_position <= r.written)
        && r.frozen_loc.is_none_or(|loc| r.is_frozen && g.valid_table(loc))
        && (r.frozen.is_empty() || (r.is_frozen && r.frozen_position == r.written))
        && r.commit.is_none_or(|commit| commit_sound(g, r, &commit))
        && r.outstanding.len() <= OUTSTANDING_WRITES
        && entries_sound(r.pending(), PENDING_ENTRIES, PENDING_BYTES)
        && entries_sound(r.replay.iter(), replay, replay)
        && r.replayed <= r.replay.len()
}

/// The superblock that is to be written is the one that the request made.
fn commit_sound(g: Geometry, r: &Ready, commit: &Commit) -> bool {
    let (old, new) = (r.superblock, commit.superblock);
    let right = match commit.advance {
        Advance::Log => new.journal() == Interval::new(old.start, r.written) && new.table == old.table,
        Advance::Location => {
            r.is_frozen
                && new.start == g.advance(old.start, r.frozen_position)
                && new.len == r.written - r.frozen_position
                && r.frozen_loc == Some(new.table)
        }
    };
    right
        && new.well_formed(g)
        && new.counter == old.next_counter()
        && r.outstanding.is_empty()
        && r.frozen.is_empty()
}

/// Machine and disk sound, both slots well formed, what one awaits held by the other, writes in flight apart
/// from each other and clear of the selected interval.
pub fn system(store: &Store) -> bool {
    let (g, held) = (store.geometry, &store.disk);
    machine(g, &store.machine)
        && disk(g, held)
        && slots(store).is_some_and(|slots| slots.iter().all(|s| s.well_formed(g)) && clear(g, held, &slots))
        && apart(held)
        && Awaited::by(&store.machine, g) == Awaited::at(held)
}

/// 004's `Init`: a machine at its start, no request, both slots well formed, the selected journal of no blocks at
/// block 0. What the blocks hold isn't asked.
pub fn init(store: &Store) -> bool {
    let selected = slots(store).map(|slots| slots[Superblock::select(&slots)].journal());
    system(store) && store.machine == Machine::new(store.geometry) && selected == Some(Interval::new(0, 0))
}

/// Both superblocks.
pub fn slots(store: &Store) -> Option<[Superblock; 2]> {
    let [one, two] = store.disk.slots;
    Some([one?, two?])
}

/// No write in flight overlaps the selected interval, on the ring.
fn clear(g: Geometry, disk: &Disk, slots: &[Superblock; 2]) -> bool {
    let selected = slots[Superblock::select(slots)].journal();
    disk.journal_writes.values().all(|i| !g.overlap(*i, selected))
}

/// No two writes in flight overlap; they are contiguous, so on a line.
fn apart(disk: &Disk) -> bool {
    let writes: Vec<Interval> = disk.journal_writes.values().copied().collect();
    (1..writes.len()).all(|k| writes[..k].iter().all(|earlier| !earlier.meets(writes[k])))
}

/// Requests that a machine awaits, or that wait at a disk.
#[derive(Default, PartialEq, Eq)]
struct Awaited {
    superblock_reads: [BTreeSet<Id>; 2],
    journal_reads: BTreeMap<Id, Interval>,
    superblock_writes: [Option<(Id, Superblock)>; 2],
    journal_writes: BTreeSet<Id>,
}

impl Awaited {
    fn at(disk: &Disk) -> Self {
        Awaited {
            superblock_reads: disk.superblock_reads.clone(),
            journal_reads: disk.journal_reads.clone(),
            superblock_writes: disk.superblock_writes,
            journal_writes: disk.journal_writes.keys().copied().collect(),
        }
    }

    /// Of a sound machine; a commit goes to the slot that isn't the current one.
    fn by(machine: &Machine, g: Geometry) -> Self {
        let mut awaited = Awaited::default();
        match &machine.phase {
            Phase::Superblocks(slots) => {
                for (ids, slot) in awaited.superblock_reads.iter_mut().zip(slots) {
                    ids.extend(if let Slot::Asked(id) = slot { Some(*id) } else { None });
                }
            }
            Phase::Journal(loading) => {
                let pieces = loading.pieces.iter().zip(loading.intervals(g));
                awaited.journal_reads = pieces
                    .filter_map(
                        |(piece, i)| if let Piece::Asked(id) = piece { Some((*id, i?)) } else { None },
                    )
                    .collect();
            }
            Phase::Ready(ready) => {
                awaited.journal_writes.clone_from(&ready.outstanding);
                awaited.superblock_writes[1 - ready.which] = ready.commit.map(|c| (c.id, c.superblock));
            }
        }
        awaited
    }
}
