//! What a trace can meet: each step's refusals, and situations that random days must bring about.

use crate::layout::Interval;
use crate::machine::{Advance, Phase, Piece, Ready, Slot, PENDING_BYTES, PENDING_ENTRIES, SYNC_REQUESTS};
use crate::range::{self, blank, Entry};
use crate::sound;
use crate::store::{Step, Store};
use crate::superblock::Superblock;
use crate::Refusal;

/// The refusals that have a column; 0 is taken.
pub const REFUSALS: [u8; 11] = [0, 1, 2, 3, 4, 5, 6, 7, 8, 9, 13];

/// Each step's word, and the refusals that a trace can show of it; what `drive` names has its arguments in range,
/// its id new or waiting, and room.
#[rustfmt::skip]
pub const STEPS: [(&str, &[u8]); 24] = [
    ("wj", &[0, 2, 3, 5, 6, 8, 9]), ("aj", &[0, 2, 5]), ("cl", &[0, 2, 3, 6]), ("co", &[0, 2, 3, 6]),
    ("ac", &[0, 2, 5, 6]), ("rs", &[0, 2, 3, 4, 5, 6]), ("as", &[0, 2, 4, 5]), ("xs", &[0, 2, 4, 5]),
    ("rj", &[0, 2, 3, 4, 5, 6]), ("ar", &[0, 2, 5, 6]), ("xr", &[0, 2, 5]), ("f1", &[0, 2, 3, 6]),
    ("f2", &[0, 2, 3, 6, 7]), ("freeze", &[0, 2, 3, 6]), ("loc", &[0, 2, 3, 4, 6]), ("add", &[0, 2, 3, 4, 6, 8, 13]),
    ("replay", &[0, 2, 3, 4, 6]), ("push", &[0, 2, 5, 8]), ("pop", &[0, 2, 5, 6]), ("noop", &[0, 2]),
    ("again", &[0, 2, 3, 4, 6]), ("land", &[0, 2, 4, 6]), ("crash", &[0, 2]), ("drive", &[0, 2, 3, 6, 7]),
];

/// Can a trace show this step with this refusal?
pub fn possible(word: &str, refusal: u8) -> bool {
    STEPS.iter().any(|(step, numbers)| *step == word && numbers.contains(&refusal))
}

/// What is counted of block lines: those that say what a block holds, and those behind the first step.
pub const BLOCK_LINES: [&str; 2] =
    ["a block line says what the first disk holds", "a block line behind the first step isn't one"];

/// A situation's name, and how a step is told to be in it.
type Situation = (&'static str, fn(&Seen) -> bool);

/// Situations that random days must meet.
#[rustfmt::skip]
pub const SITUATIONS: &[Situation] = &[
    ("a journal write goes round the ring's end", |s| s.taken() && matches!(s.step, Step::WriteJournal { second: Some(_), .. })),
    ("a journal write fills the ring", |s| s.wrote() && s.after_ready(|r| r.written == s.after.geometry.n())),
    ("a journal write makes 16 in flight", |s| s.wrote() && s.after_ready(|r| r.outstanding.len() == 16)),
    ("a journal write takes the frozen, others stay", |s| s.wrote() && s.ready(|r| !r.frozen.is_empty() && !r.memory.is_empty())),
    ("8: the journal is full", |s| s.full_journal() == Some(true)),
    ("8: 16 writes are in flight", |s| s.full_journal() == Some(false)),
    ("8: one row left for a write round the end under one id", |s| s.full_journal() == Some(false) && s.ready(|r| r.outstanding.len() == 15) && s.one_id()),
    ("9: a second id too many", |s| s.refused(Refusal::SecondId) && !s.one_id()),
    ("9: a second id missing", |s| s.refused(Refusal::SecondId) && matches!(s.step, Step::WriteJournal { second: None, .. })),
    ("9: a second id like the first", |s| s.refused(Refusal::SecondId) && s.one_id() && !matches!(s.step, Step::WriteJournal { second: None, .. })),
    ("pending has 1,024 entries", |s| s.added() && s.after_ready(|r| r.pending().count() == PENDING_ENTRIES)),
    ("pending has 65,536 bytes", |s| s.added() && s.after_ready(|r| pending_bytes(r) == PENDING_BYTES)),
    ("8: too many entries pending", |s| s.full_pending() == Some(true)),
    ("8: too many bytes pending", |s| s.full_pending() == Some(false)),
    ("32 sync requests", |s| s.taken() && matches!(s.step, Step::Push { .. }) && s.after.machine.sync.len() == SYNC_REQUESTS),
    ("8: too many sync requests", |s| s.refused(Refusal::Room) && matches!(s.step, Step::Push { .. })),
    ("a log commit with nothing in memory moves a sync request", |s| s.moves_requests(Advance::Log)),
    ("a location commit with nothing in memory moves a sync request", |s| s.moves_requests(Advance::Location)),
    ("a commit with entries in memory leaves a sync request at State3", |s| s.requested().is_some() && s.ready(|r| !r.memory.is_empty()) && s.waiting().1 > 0),
    ("a commit takes the counter from 2^64 - 1 to 0", |s| s.answered(|c, _| c.superblock.counter == 0)),
    ("a load selects slot 2 by counters 2^64 - 1, 0", |s| s.finished_superblocks(|a, b| (a, b) == (u64::MAX, 0))),
    ("a load selects slot 1 by counters apart", |s| s.finished_superblocks(|a, b| b != a && b != a.wrapping_add(1) && a != b.wrapping_add(1))),
    ("a location commit drops blocks and keeps blocks", |s| s.answered(|c, r| c.advance == Advance::Location && r.frozen_position > 0 && c.superblock.len > 0)),
    ("a location commit moves start round the ring", |s| s.answered(|c, r| c.superblock.start < r.superblock.start)),
    ("a load in two pieces", |s| s.loaded(|after| matches!(&s.before.machine.phase, Phase::Journal(l) if matches!(l.pieces, [Piece::In(_), Piece::In(_)])) && !after.replay.is_empty())),
    ("a damaged superblock read", |s| s.taken() && matches!(s.step, Step::SuperblockRead { whole: false, .. })),
    ("a damaged journal read", |s| s.taken() && matches!(s.step, Step::JournalRead { whole: false, .. })),
    ("5: a superblock read under the other slot's id", |s| s.refused(Refusal::Id) && matches!(s.step, Step::ReadSuperblock { .. })),
    ("5: a journal read under the other piece's id", |s| s.refused(Refusal::Id) && matches!(s.step, Step::ReadJournal { .. })),
    ("a replay of 16 entries", |s| s.taken() && s.replays(|given, _| given == 16)),
    ("a replay of none while some are left", |s| s.taken() && s.replays(|given, left| given == 0 && left > 0)),
    ("6: a replay of wrong entries", |s| s.refused(Refusal::Condition) && s.replays(|given, left| given <= left)),
    ("6: a replay of more than is left", |s| s.refused(Refusal::Condition) && s.replays(|given, left| given > left && left > 0)),
    ("4: a replay of more than 16", |s| s.refused(Refusal::Argument) && s.replays(|given, _| given > 16)),
    ("6: an add before the replay's end", |s| s.refused(Refusal::Condition) && matches!(s.step, Step::Add(_))),
    ("a commit is sent before the replay's end", |s| s.taken() && matches!(s.step, Step::CommitLog { .. }) && s.ready(|r| !r.replay_left().is_empty())),
    ("a landing comes again", |s| s.taken() && matches!(s.step, Step::Land { .. }) && s.before.disk.slots == s.after.disk.slots),
    ("6: an answer before its landing", |s| s.refused(Refusal::Condition) && matches!(s.step, Step::SuperblockWritten { .. })),
    ("a crash with 1 journal write in flight", |s| s.crashed() && s.before.disk.journal_writes.len() == 1),
    ("a crash with 2 to 8 in flight", |s| s.crashed() && (2..9).contains(&s.before.disk.journal_writes.len())),
    ("a crash with 9 to 16 in flight", |s| s.crashed() && s.before.disk.journal_writes.len() > 8),
    ("a crash with writes at both ends of the ring in flight", |s| s.crashed() && s.both_ends_in_flight()),
    ("a crash before a log commit's landing", |s| s.crash_at_commit(Advance::Log, false)),
    ("a crash before a log commit's answer", |s| s.crash_at_commit(Advance::Log, true)),
    ("a crash before a location commit's landing", |s| s.crash_at_commit(Advance::Location, false)),
    ("a crash before a location commit's answer", |s| s.crash_at_commit(Advance::Location, true)),
    ("a crash while superblocks are read", |s| s.crashed() && s.before.disk.superblock_reads.iter().any(|r| !r.is_empty())),
    ("a crash while the journal is read", |s| s.crashed() && !s.before.disk.journal_reads.is_empty()),
    ("a crash before the replay's end", |s| s.crashed() && s.ready(|r| !r.replay_left().is_empty())),
    ("a crash with frozen entries unwritten", |s| s.crashed() && s.ready(|r| !r.frozen.is_empty())),
    ("2: an ill-formed superblock", |s| s.refused(Refusal::State)),
    ("13: a blank entry alone", |s| s.refused(Refusal::Blank) && s.adds(|e| e.len() == 1)),
    ("13: a blank entry among others", |s| s.refused(Refusal::Blank) && s.adds(|e| !e.iter().all(blank))),
    ("13: a blank entry of 255 bytes", |s| s.refused(Refusal::Blank) && s.adds(|e| e.contains(&vec![0; range::MAX_ENTRY]))),
    ("13: where replay entries are left, too", |s| s.refused(Refusal::Blank) && s.ready(|r| !r.replay_left().is_empty())),
    ("13: where pending has no room, too", |s| s.refused(Refusal::Blank) && s.ready(|r| s.adds(|e| no_room(r, e)))),
    ("4: where an entry is blank, too", |s| s.refused(Refusal::Argument) && s.adds(|e| e.iter().any(blank))),
    ("3: where an entry is blank, too", |s| s.refused(Refusal::Kind) && s.adds(|e| e.iter().any(blank))),
    ("an entry one byte from blank is added", |s| s.added() && s.adds(|e| e.iter().any(nearly_blank))),
    ("7: a stored journal that doesn't parse", |s| s.refused(Refusal::Parse)),
    ("a load shows stored blank entries", |s| s.loaded(|r| r.replay.iter().any(blank))),
    ("a load in two pieces shows stored blank entries", |s| s.loaded(|r| s.before.geometry.wraps(r.superblock.journal()) && r.replay.iter().any(blank))),
    ("a load shows stored blank entries after a commit and a crash", |s| s.loaded(|r| s.committed(r) && r.replay.iter().any(blank))),
    ("a replay takes stored blank entries", |s| s.taken() && matches!(s.step, Step::Replay(e) if e.iter().any(blank))),
    ("6: a replay of another entry where a blank one is next", |s| s.refused(Refusal::Condition) && s.misses_blank()),
    ("a location commit drops stored blank entries", |s| s.answered(|c, r| c.advance == Advance::Location && s.drops_blank(r))),
    ("`drive` turns a corrupt slot back, the other one isn't", |s| s.drives() && matches!(s.step, Step::AskAgain { .. }) && !s.slots(|slots| slots == [Slot::Corrupt; 2])),
    ("`drive` turns a corrupt slot back, the other one is too", |s| s.drives() && s.slots(|slots| slots == [Slot::Corrupt; 2])),
    ("`drive` asks for slot 1, slot 2 is read", |s| s.drives() && s.slots(|slots| matches!(slots, [Slot::Unread, Slot::Read(_)]))),
    ("`drive` asks for slot 1 under id 1, slot 2 waits under 0", |s| s.drives() && matches!(s.step, Step::ReadSuperblock { which: 0, id: 1 })),
    ("`drive` answers a slot that waits under an id above 1", |s| s.drives() && matches!(s.step, Step::SuperblockRead { id: 2.., .. })),
    ("`drive` asks for the front piece, the back one is in", |s| s.drives() && s.pieces(|pieces| matches!(pieces, [Piece::Unread, Piece::In(_)]))),
    ("`drive` asks for the front piece under id 1, the back one waits under 0", |s| s.drives() && matches!(s.step, Step::ReadJournal { which: 0, id: 1 })),
    ("`drive` answers a piece that waits under an id above 1", |s| s.drives() && matches!(s.step, Step::JournalRead { id: 2.., .. })),
    ("3: `drive` before the replay's end", |s| s.driven && s.ready(|r| !r.replay_left().is_empty())),
    ("3: `drive` with a commit in flight", |s| s.driven && s.ready(|r| r.commit.is_some())),
];

fn pending_bytes(r: &Ready) -> usize {
    r.pending().map(Vec::len).sum()
}

fn no_room(r: &Ready, entries: &[Entry]) -> bool {
    let bytes: usize = entries.iter().map(Vec::len).sum();
    r.pending().count() + entries.len() > PENDING_ENTRIES || pending_bytes(r) + bytes > PENDING_BYTES
}

fn nearly_blank(entry: &Entry) -> bool {
    entry.len() > 1 && entry.iter().filter(|b| **b != 0).count() == 1
}

/// One step, with the store before it and after it, and the day's first.
pub struct Seen<'a> {
    pub first: &'a Store,
    pub before: &'a Store,
    pub step: &'a Step,
    /// Was it `drive` that named the step?
    pub driven: bool,
    pub result: Result<(), Refusal>,
    pub after: &'a Store,
}

impl Seen<'_> {
    fn taken(&self) -> bool {
        self.result.is_ok()
    }

    fn refused(&self, refusal: Refusal) -> bool {
        self.result == Err(refusal)
    }

    /// `drive`, and the step that it named is taken.
    fn drives(&self) -> bool {
        self.driven && self.taken()
    }

    fn slots(&self, holds: impl Fn([Slot; 2]) -> bool) -> bool {
        matches!(self.before.machine.phase, Phase::Superblocks(slots) if holds(slots))
    }

    fn pieces(&self, holds: impl Fn(&[Piece; 2]) -> bool) -> bool {
        matches!(&self.before.machine.phase, Phase::Journal(loading) if holds(&loading.pieces))
    }

    fn wrote(&self) -> bool {
        self.taken() && matches!(self.step, Step::WriteJournal { .. })
    }

    fn one_id(&self) -> bool {
        matches!(self.step, Step::WriteJournal { id, second } if second.is_none_or(|s| s == *id))
    }

    fn added(&self) -> bool {
        self.taken() && matches!(self.step, Step::Add(_))
    }

    fn adds(&self, holds: impl Fn(&[Entry]) -> bool) -> bool {
        matches!(self.step, Step::Add(entries) if holds(entries))
    }

    /// The superblock isn't the first disk's selected one.
    fn committed(&self, r: &Ready) -> bool {
        let first = sound::slots(self.first).map(|slots| slots[Superblock::select(&slots)]);
        first.is_some_and(|first| first.counter != r.superblock.counter)
    }

    /// A location commit drops the blocks before the frozen position; of blank entries only stored ones lie there.
    fn drops_blank(&self, r: &Ready) -> bool {
        let interval = Interval::new(r.superblock.start, r.frozen_position);
        let bytes = self.before.disk.journal.slice(self.before.geometry, interval);
        range::read(&bytes).is_some_and(|entries| entries.iter().any(blank))
    }

    /// A replay that has another entry in a blank one's place.
    fn misses_blank(&self) -> bool {
        let Step::Replay(entries) = self.step else { return false };
        self.ready(|r| entries.iter().zip(r.replay_left()).any(|(given, left)| blank(left) && given != left))
    }

    fn crashed(&self) -> bool {
        self.taken() && *self.step == Step::Crash
    }

    fn ready(&self, holds: impl Fn(&Ready) -> bool) -> bool {
        matches!(&self.before.machine.phase, Phase::Ready(r) if holds(r))
    }

    fn after_ready(&self, holds: impl Fn(&Ready) -> bool) -> bool {
        matches!(&self.after.machine.phase, Phase::Ready(r) if holds(r))
    }

    fn loaded(&self, holds: impl Fn(&Ready) -> bool) -> bool {
        self.taken() && *self.step == Step::FinishJournal && self.after_ready(holds)
    }

    fn replays(&self, holds: impl Fn(usize, usize) -> bool) -> bool {
        matches!(self.step, Step::Replay(e) if self.ready(|r| holds(e.len(), r.replay_left().len())))
    }

    fn answered(&self, holds: impl Fn(&crate::machine::Commit, &Ready) -> bool) -> bool {
        let awaited = self.ready(|r| r.commit.is_some_and(|c| holds(&c, r)));
        self.taken() && matches!(self.step, Step::SuperblockWritten { .. }) && awaited
    }

    /// The commit that is requested.
    fn requested(&self) -> Option<Advance> {
        match self.step {
            Step::CommitLog { .. } if self.taken() => Some(Advance::Log),
            Step::CommitLocation { .. } if self.taken() => Some(Advance::Location),
            _ => None,
        }
    }

    /// The sync requests at State3, before and after.
    fn waiting(&self) -> (usize, usize) {
        (self.before.machine.sync_counts()[2], self.after.machine.sync_counts()[2])
    }

    fn moves_requests(&self, advance: Advance) -> bool {
        let (before, after) = self.waiting();
        self.requested() == Some(advance) && before > after
    }

    /// A journal write refused by 8: has the ring no room?
    fn full_journal(&self) -> Option<bool> {
        let writes = self.refused(Refusal::Room) && matches!(self.step, Step::WriteJournal { .. });
        let n = self.before.geometry.n();
        writes.then(|| self.ready(|r| range::blocks(r.outgoing()) as u64 + r.written > n))
    }

    /// An add refused by 8: are there too many entries?
    fn full_pending(&self) -> Option<bool> {
        let Step::Add(entries) = self.step else { return None };
        let many = self.ready(|r| r.pending().count() + entries.len() > PENDING_ENTRIES);
        self.refused(Refusal::Room).then_some(many)
    }

    fn finished_superblocks(&self, holds: impl Fn(u64, u64) -> bool) -> bool {
        let [a, b] = self.before.disk.slots.map(|s| s.map_or(0, |s: Superblock| s.counter));
        self.taken() && *self.step == Step::FinishSuperblocks && holds(a, b)
    }

    fn both_ends_in_flight(&self) -> bool {
        let (n, writes) = (self.before.geometry.n(), &self.before.disk.journal_writes);
        writes.values().any(|i| i.start == 0) && writes.values().any(|i| i.start + i.len == n)
    }

    fn crash_at_commit(&self, advance: Advance, landed: bool) -> bool {
        let slots = &self.before.disk.slots;
        let at = |r: &Ready| {
            r.commit
                .is_some_and(|c| c.advance == advance && (slots[1 - r.which] == Some(c.superblock)) == landed)
        };
        self.crashed() && self.ready(at)
    }
}
