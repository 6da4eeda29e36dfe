//! Random days, repeatable from a seed. The generator plays along on a store of its own,
//! so that most steps are of use, and the others wrong on purpose.

use std::collections::VecDeque;

use crate::driver::Call;
use crate::layout::{Geometry, Interval, Location};
use crate::ledger::Ledger;
use crate::machine::{Machine, Phase, Piece, Ready, Slot, Sync, PENDING_BYTES, STEP_ENTRIES};
use crate::range::{self, Entry};
use crate::store::{Step, Store};
use crate::stored::{self, nearly_blank, NOT_BLOCKS};
use crate::superblock::Superblock;
use crate::text::{disk_line, LONGEST_LINE, MAX_BLOCKS};
use crate::trace::first_store;

/// SplitMix64.
#[derive(Clone, Debug)]
pub struct Rng(u64);

impl Rng {
    pub fn new(seed: u64) -> Self {
        Rng(seed.wrapping_mul(0xd129_0d3b_6f5c_2e4b) ^ 0x5851_f42d_4c95_7f2d)
    }

    pub fn number(&mut self) -> u64 {
        self.0 = self.0.wrapping_add(0x9e37_79b9_7f4a_7c15);
        let z = (self.0 ^ self.0 >> 30).wrapping_mul(0xbf58_476d_1ce4_e5b9);
        let z = (z ^ z >> 27).wrapping_mul(0x94d0_49bb_1331_11eb);
        z ^ z >> 31
    }

    pub fn below(&mut self, n: u64) -> u64 {
        self.number() % n
    }

    pub fn one_in(&mut self, n: u64) -> bool {
        self.below(n) == 0
    }

    pub fn of<T: Copy>(&mut self, choices: &[T]) -> T {
        choices[self.below(choices.len() as u64) as usize]
    }

    pub fn bytes(&mut self, len: usize) -> Vec<u8> {
        (0..len).map(|_| self.number() as u8).collect()
    }
}

/// What a stretch of a day is after.
#[derive(Clone, Copy, Debug, PartialEq, Eq)]
enum Mood {
    /// A bit of everything.
    Steady,
    /// Many writes, none answered: the tables of writes fill.
    Hoard,
    /// As many entries as pending holds.
    Crowd,
    /// As many bytes as pending holds, and writes of many blocks.
    Flood,
    /// Freezes and location commits: the ring turns.
    Turn,
    /// Sync requests.
    Queue,
}

/// How a load goes; chosen anew at each crash, and where it gets stuck.
#[derive(Clone, Copy, Debug, PartialEq, Eq)]
enum Load {
    /// By hand, seldom a `drive` among its steps.
    ByHand,
    /// By hand and by `drive` in turn.
    Mixed,
    /// By `drive`, sync requests between.
    Driven,
    /// By hand until both slots were read damaged, then by `drive`.
    Damaged,
}

#[derive(Clone, Copy, Debug, PartialEq, Eq)]
pub struct Options {
    pub steps: usize,
    /// After each crash, load and show the ledger: replays of all its entries, its location.
    pub ledger: bool,
    /// The first disk has an ill-formed superblock; without this, one day in 60 has.
    pub ill: bool,
}

/// A day's lines, the disk's and its blocks' first.
pub struct Day {
    rng: Rng,
    options: Options,
    first: VecDeque<String>,
    /// Has there been a step?
    begun: bool,
    store: Store,
    ledger: Option<Ledger>,
    mood: (Mood, u64),
    load: Load,
    script: VecDeque<Call>,
    left: usize,
}

fn geometry(rng: &mut Rng) -> Geometry {
    let n = match rng.below(4) {
        0 => rng.below(4) + 1,
        1 => rng.below(MAX_BLOCKS) + 1,
        2 => rng.below(13) + 20,
        _ => rng.below(8) + 4,
    };
    let t = match rng.below(4) {
        0 => 1,
        1 => 16_777_216,
        2 => rng.below(16_777_216) + 1,
        _ => 4096,
    };
    Geometry::new(n, t).expect("sizes in range")
}

/// Both well formed, the selected journal mostly empty.
fn superblocks(rng: &mut Rng, g: Geometry) -> [Superblock; 2] {
    let n = g.n();
    let counter = match rng.below(4) {
        0 => 0,
        1 => rng.number(),
        _ => u64::MAX - rng.below(4),
    };
    let other = counter.wrapping_add(rng.of(&[0, 1, 1, 1, 2, u64::MAX, 77]));
    let mut slots = [counter, other].map(|counter| {
        let table = location(rng, g);
        Superblock { counter, start: rng.below(n), len: rng.below(n + 1), table }
    });
    let selected = Superblock::select(&slots);
    if !rng.one_in(40) {
        slots[selected].len = 0;
    }
    match rng.below(4) {
        0 | 1 => slots[selected].start = 0,
        // Sixteen writes of a block each lead round the ring's end.
        2 if n > 16 => slots[selected].start = 1 + rng.below(n - 16),
        _ => {}
    }
    slots
}

/// Makes one of the superblocks ill-formed.
fn spoil(rng: &mut Rng, g: Geometry, slots: &mut [Superblock; 2]) {
    let slot = &mut slots[rng.below(2) as usize];
    match rng.below(4) {
        0 => slot.start = g.n() + rng.below(2),
        1 => slot.len = g.n() + 1,
        2 => slot.table.addr += 1,
        _ => slot.table.len = rng.of(&[0, g.t() + 1, u64::MAX]),
    }
}

/// The disk's line; one day in eight begins with a disk that was written before, and has lines for its blocks.
fn first_lines(rng: &mut Rng, ill: bool) -> VecDeque<String> {
    let g = geometry(rng);
    let mut slots = superblocks(rng, g);
    let blocks = if rng.one_in(8) { stored::blocks(rng, g, &mut slots) } else { vec![] };
    if ill || rng.one_in(60) {
        spoil(rng, g, &mut slots);
    }
    [disk_line(g, &slots)].into_iter().chain(blocks).collect()
}

pub(crate) fn location(rng: &mut Rng, g: Geometry) -> Location {
    let len = rng.below(g.t().min(3)) + if rng.one_in(2) { 1 } else { g.t() - g.t().min(3) + 1 };
    Location { addr: rng.of(&g.tables()), len }
}

fn load(rng: &mut Rng) -> Load {
    use Load::*;
    rng.of(&[ByHand, ByHand, Mixed, Mixed, Driven, Driven, Damaged])
}

/// A weight for what is wanted now, else another.
fn many(wanted: bool, often: u64, seldom: u64) -> u64 {
    if wanted {
        often
    } else {
        seldom
    }
}

impl Day {
    pub fn new(seed: u64, options: Options) -> Self {
        let mut rng = Rng::new(seed);
        let first = first_lines(&mut rng, options.ill);
        let store = first_store(&first).expect("a disk");
        Day {
            load: load(&mut rng),
            rng,
            options,
            first,
            begun: false,
            ledger: Ledger::new(&store),
            mood: if store.geometry.n() > 16 { (Mood::Hoard, 120) } else { (Mood::Steady, 10) },
            store,
            script: VecDeque::new(),
            left: options.steps,
        }
    }

    fn entry(&mut self) -> Entry {
        let len = match (self.mood.0, self.rng.below(4)) {
            (Mood::Crowd, _) => 1,
            (Mood::Flood, 0) => self.rng.below(255) + 1,
            (Mood::Flood, _) => 255,
            (_, 0) => 1,
            (_, 1) => self.rng.below(255) + 1,
            _ => self.rng.below(8) + 1,
        };
        if self.rng.one_in(30) {
            return nearly_blank(&mut self.rng, len as usize);
        }
        self.rng.bytes(len as usize)
    }

    /// One in how many adds fills a block or has one byte more: often where a write of two blocks goes
    /// round, always where one row is left in the table of writes.
    fn seldom(&self) -> u64 {
        let g = self.store.geometry;
        match &self.store.machine.phase {
            Phase::Ready(r) if r.outstanding.len() == 15 => 1,
            Phase::Ready(r) if g.advance(r.superblock.start, r.written) + 1 == g.n() => 6,
            _ => 40,
        }
    }

    /// The bytes left in pending memory, where an add could fill it.
    fn nearly_full(&self) -> Option<usize> {
        let Phase::Ready(r) = &self.store.machine.phase else { return None };
        let left = PENDING_BYTES - r.pending().map(Vec::len).sum::<usize>();
        (1..=STEP_ENTRIES * range::MAX_ENTRY).contains(&left).then_some(left)
    }

    fn entries(&mut self) -> Vec<Entry> {
        let seldom = self.seldom();
        if self.rng.one_in(seldom) {
            let last = 251 + self.rng.below(2) as usize;
            return [255; 15].into_iter().chain([last]).map(|len| self.rng.bytes(len)).collect();
        }
        if let (Some(left), true) = (self.nearly_full(), self.rng.one_in(3)) {
            return self.rng.bytes(left).chunks(range::MAX_ENTRY).map(Vec::from).collect();
        }
        let count = match self.mood.0 {
            Mood::Crowd | Mood::Flood => 16 - self.rng.below(2) * self.rng.below(16),
            Mood::Hoard => 1 + self.rng.below(2) * self.rng.below(16),
            _ => self.rng.below(5),
        };
        (0..count).map(|_| self.entry()).collect()
    }

    /// Entries for an add; of `often` one with a blank entry: alone, put between others, in another's place.
    fn added(&mut self, often: u64) -> Vec<Entry> {
        let mut entries = self.entries();
        if !self.rng.one_in(often) {
            return entries;
        }
        let blank = vec![0; self.rng.of(&[1, 1, 2, 7, range::MAX_ENTRY])];
        let at = self.rng.below(entries.len() as u64 + 1) as usize;
        match self.rng.below(3) {
            0 => return vec![blank],
            1 if entries.len() < STEP_ENTRIES => entries.insert(at, blank),
            _ => entries.iter_mut().skip(at).take(1).for_each(|entry| entry.fill(0)),
        }
        entries
    }

    fn id(&mut self) -> u64 {
        match self.rng.below(12) {
            0 => self.rng.number(),
            1 => self.rng.of(&[0, 1, u64::MAX, u64::MAX - 1]),
            _ => self.rng.below(48),
        }
    }

    /// An id that waits somewhere, if there is any.
    fn used_id(&mut self) -> u64 {
        let ids: Vec<u64> = self.store.disk.ids().chain(self.store.machine.sync.keys().copied()).collect();
        if ids.is_empty() || self.rng.one_in(4) {
            return self.id();
        }
        self.rng.of(&ids)
    }

    fn which(&mut self) -> u64 {
        match self.rng.below(8) {
            0 => self.rng.of(&[2, 3, u64::MAX]),
            k => k % 2,
        }
    }

    /// Any step, its arguments as they come.
    fn wild(&mut self) -> Step {
        let g = self.store.geometry;
        let id = self.used_id();
        match self.rng.below(23) {
            0 => Step::WriteJournal { id, second: None },
            1 => {
                Step::WriteJournal { id, second: Some(if self.rng.one_in(3) { id } else { self.used_id() }) }
            }
            2 => Step::JournalWritten { id },
            3 => Step::CommitLog { id },
            4 => Step::CommitLocation { id },
            5 => Step::SuperblockWritten { id },
            6 => Step::ReadSuperblock { which: self.which(), id },
            7 => Step::SuperblockRead { which: self.which(), id, whole: true },
            8 => Step::SuperblockRead { which: self.which(), id, whole: false },
            9 => Step::ReadJournal { which: self.which(), id },
            10 => Step::JournalRead { id, whole: true },
            11 => Step::JournalRead { id, whole: false },
            12 => Step::FinishSuperblocks,
            13 => Step::FinishJournal,
            14 => Step::Freeze,
            15 => {
                let mut loc = location(&mut self.rng, g);
                match self.rng.below(6) {
                    0 => loc.len = 0,
                    1 => loc.len = g.t() + 1,
                    2 => loc.addr = self.rng.of(&[0, 4096, 8192, loc.addr - 1, u64::MAX]),
                    _ => {}
                }
                Step::ReceiveLocation(loc)
            }
            16 | 17 => {
                let mut entries = self.added(4);
                let byte = self.rng.of(&[0, 7]);
                match self.rng.below(6) {
                    0 => entries.resize(STEP_ENTRIES + 1, vec![byte]),
                    1 => entries.push(vec![byte; 256]),
                    _ => {}
                }
                if self.rng.one_in(2) {
                    Step::Add(entries)
                } else {
                    Step::Replay(entries)
                }
            }
            18 => Step::Push { id },
            19 => Step::Pop { id },
            20 => Step::AskAgain { which: self.which() },
            21 => Step::Land { which: self.which() },
            _ => Step::NoOp,
        }
    }

    /// Steps that are of use now, with weights.
    fn useful(&mut self) -> Vec<(u64, Step)> {
        let g = self.store.geometry;
        let Machine { phase, sync, .. } = self.store.machine.clone();
        let id = self.id();
        let queue = self.mood.0 == Mood::Queue;
        let mut steps =
            vec![(1, Step::NoOp), (if queue { 40 } else { 2 }, Step::Push { id }), (1, Step::Crash)];
        if let Some((id, _)) = sync.iter().find(|(_, s)| **s == Sync::State1) {
            steps.push((3, Step::Pop { id: *id }));
        }
        match phase {
            Phase::Superblocks(slots) => {
                for (slot, which) in slots.into_iter().zip(0..) {
                    match slot {
                        Slot::Unread => {
                            steps.push((20, Step::ReadSuperblock { which, id }));
                            // The least id is taken before slot 1 is asked for.
                            steps.push((4 * which, Step::ReadSuperblock { which, id: 0 }));
                        }
                        Slot::Asked(id) => {
                            steps.push((20, Step::SuperblockRead { which, id, whole: true }));
                            steps.push((2, Step::SuperblockRead { which, id, whole: false }));
                        }
                        Slot::Corrupt => steps.push((20, Step::AskAgain { which })),
                        Slot::Read(_) => {}
                    }
                }
                if slots.iter().all(|s| matches!(s, Slot::Read(_))) {
                    steps.push((60, Step::FinishSuperblocks));
                }
            }
            Phase::Journal(loading) => {
                let intervals = loading.intervals(g).into_iter();
                for ((piece, interval), which) in loading.pieces.iter().zip(intervals).zip(0..) {
                    match piece {
                        Piece::Unread if interval.is_some() => {
                            steps.push((20, Step::ReadJournal { which, id }));
                            steps.push((20 * which, Step::ReadJournal { which, id: 0 }));
                            if let Piece::Asked(id) = loading.pieces[1 - which as usize] {
                                steps.push((6, Step::ReadJournal { which, id }));
                            }
                        }
                        Piece::Asked(id) => {
                            steps.push((20, Step::JournalRead { id: *id, whole: true }));
                            steps.push((2, Step::JournalRead { id: *id, whole: false }));
                        }
                        _ => {}
                    }
                }
                steps.push((15, Step::FinishJournal));
            }
            Phase::Ready(r) if !r.replay_left().is_empty() => {
                let mut entries = r.replay_left().to_vec();
                entries.truncate(self.rng.of(&[16, 16, 16, 16, 8, 3, 1, 0]));
                if self.rng.one_in(20) && entries.len() < STEP_ENTRIES {
                    entries.push(self.entry());
                } else if self.rng.one_in(12) {
                    let last = entries.last_mut().and_then(|e| e.last_mut());
                    last.into_iter().for_each(|b| *b ^= 1);
                }
                steps.push((80, Step::Replay(entries)));
                steps.push((3, Step::CommitLog { id }));
                steps.push((3, Step::Add(self.added(3))));
                if let Some(commit) = r.commit {
                    steps.push((5, Step::Land { which: 1 - r.which as u64 }));
                    steps.push((5, Step::SuperblockWritten { id: commit.id }));
                }
            }
            Phase::Ready(r) => {
                // A journal in two pieces is loaded more often.
                steps.push((many(g.wraps(r.superblock.journal()), 6, 0), Step::Crash));
                self.working(&r, &mut steps);
            }
        }
        steps
    }

    fn working(&mut self, r: &Ready, steps: &mut Vec<(u64, Step)>) {
        let (g, mood, id) = (self.store.geometry, self.mood.0, self.id());
        let burst = matches!(mood, Mood::Crowd | Mood::Flood);
        steps.push((many(burst, 150, 12), Step::Add(self.added(many(burst, 30, 12)))));
        if !r.outgoing().is_empty() {
            let len = range::blocks(r.outgoing()) as u64;
            let interval = Interval::new(g.advance(r.superblock.start, r.written), len);
            let last = r.outstanding.len() == 15;
            // With one row left it waits until it goes round, where it can.
            let waits = last && !g.wraps(interval) && len + r.written < g.n() && r.superblock.start > 0;
            let wrong = if last { 3 } else { 15 };
            let wraps = g.wraps(interval) != self.rng.one_in(wrong);
            let second = wraps.then(|| if self.rng.one_in(wrong) { id } else { self.id() });
            let fits = len + r.written <= g.n() && r.commit.is_none();
            let weight = if burst || waits { 3 } else { many(mood == Mood::Hoard, 40, 20) };
            steps.push((many(fits, weight, 2), Step::WriteJournal { id, second }));
        }
        if let Some(id) = r.outstanding.first() {
            steps.push((many(mood == Mood::Hoard, 0, 25), Step::JournalWritten { id: *id }));
        }
        let turn = mood == Mood::Turn || g.n() - r.written < 2;
        match r.commit {
            Some(commit) => {
                let landed = self.store.disk.slots[1 - r.which] == Some(commit.superblock);
                steps.push((many(landed, 3, 25), Step::Land { which: 1 - r.which as u64 }));
                steps.push((many(landed, 25, 3), Step::SuperblockWritten { id: commit.id }));
            }
            None => {
                let stuck = r.frozen_loc == Some(r.superblock.table);
                steps.push((many(turn && !stuck, 15, 2), Step::Freeze));
                if r.outstanding.is_empty() && r.frozen.is_empty() {
                    steps.push((many(mood == Mood::Hoard, 1, 12), Step::CommitLog { id }));
                    if r.frozen_loc.is_some() {
                        steps.push((40, Step::CommitLocation { id }));
                    }
                }
            }
        }
        if r.is_frozen && r.frozen_loc.is_none() {
            let same = self.rng.one_in(4);
            let loc = if same { r.superblock.table } else { location(&mut self.rng, g) };
            steps.push((20, Step::ReceiveLocation(loc)));
        }
    }

    /// The next step by which both slots are read damaged.
    fn damaging(&mut self) -> Option<Step> {
        let Phase::Superblocks(slots) = self.store.machine.phase else { return None };
        slots.into_iter().zip(0..).find_map(|(slot, which)| match slot {
            Slot::Unread => Some(Step::ReadSuperblock { which, id: self.id() }),
            Slot::Asked(id) => Some(Step::SuperblockRead { which, id, whole: false }),
            _ => None,
        })
    }

    /// A line of a load that goes by `drive`; none where another line is due.
    fn driving(&mut self) -> Option<Call> {
        match self.load {
            Load::ByHand => self.rng.one_in(20).then_some(Call::Drive),
            Load::Mixed => self.rng.one_in(3).then_some(Call::Drive),
            Load::Damaged => match self.damaging() {
                Some(step) => Some(Call::Step(step)),
                None => {
                    self.load = Load::Driven;
                    Some(Call::Drive)
                }
            },
            Load::Driven => match self.rng.below(40) {
                0 => None,
                1..=3 => Some(Call::Step(Step::Push { id: self.id() })),
                4 => Some(Call::Step(Step::Pop { id: self.used_id() })),
                _ => Some(Call::Drive),
            },
        }
    }

    fn choose(&mut self) -> Call {
        if self.mood.1 == 0 {
            use Mood::*;
            let moods = [Steady, Hoard, Hoard, Crowd, Flood, Turn, Turn, Queue];
            let mood = self.rng.of(&moods);
            self.mood = (mood, self.rng.below(60) + if mood == Crowd { 70 } else { 30 });
        }
        self.mood.1 -= 1;
        let ready = matches!(self.store.machine.phase, Phase::Ready(_));
        if let Some(call) = if ready { None } else { self.driving() } {
            return call;
        }
        if self.rng.one_in(if ready { 10 } else { 4 }) {
            return if self.rng.one_in(20) { Call::Drive } else { Call::Step(self.wild()) };
        }
        let steps = self.useful();
        let mut at = self.rng.below(steps.iter().map(|(weight, _)| weight).sum());
        for (weight, step) in steps {
            if at < weight {
                return Call::Step(step);
            }
            at -= weight;
        }
        Call::Step(Step::NoOp)
    }

    /// A line that isn't a step.
    fn nonsense(&mut self) -> String {
        let late = self.begun && self.rng.one_in(3);
        let lines = if late { LATE.to_vec() } else { [NONSENSE, NOT_BLOCKS].concat() };
        self.rng.of(&lines).to_string()
    }

    /// What is done by hand before a load goes by `drive`, and how many lines are left then: the back piece of two is
    /// asked for under the least id, or in; or slots are read damaged, both and two pieces being the longest load.
    fn begun(&mut self, pieces: usize) -> (Vec<Step>, usize) {
        if pieces == 2 && self.rng.one_in(4) {
            let back = [Step::ReadJournal { which: 1, id: 0 }, Step::JournalRead { id: 0, whole: true }];
            let done = 1 + self.rng.below(2) as usize;
            return ([&whole_slots()[..], &back[..done]].concat(), 5 - done);
        }
        let some: [&[u64]; 6] = [&[], &[], &[0], &[1], &[0, 1], &[1, 0]];
        let damaged = if pieces == 2 && self.rng.one_in(2) { some[4] } else { self.rng.of(&some) };
        let slot = |which: &u64| {
            let (which, id) = (*which, self.id());
            [Step::ReadSuperblock { which, id }, Step::SuperblockRead { which, id, whole: false }]
        };
        (damaged.iter().flat_map(slot).collect(), 6 + damaged.len() + 2 * pieces)
    }

    /// A load of so many pieces by `drive`, up to R, sync requests between.
    fn drives(&mut self, pieces: usize) -> Vec<Call> {
        let (steps, lines) = self.begun(pieces);
        let mut calls: Vec<Call> = steps.into_iter().map(Call::Step).collect();
        for _ in 0..lines {
            if self.rng.one_in(12) {
                calls.push(Call::Step(Step::Push { id: self.id() }));
            }
            calls.push(Call::Drive);
        }
        calls
    }

    /// Loads by whole reads or by `drive`, replays the ledger, shows its location, and crashes again.
    fn showing(&mut self, ledger: &Ledger) -> VecDeque<Call> {
        let g = self.store.geometry;
        let journal = Interval::new(ledger.start, ledger.len());
        let pieces = (0..).zip([g.front(journal), g.back(journal)]);
        let pieces: Vec<u64> = pieces.filter_map(|(which, piece)| piece.map(|_| which)).collect();
        let mut calls = if self.rng.one_in(3) { whole_reads(&pieces) } else { self.drives(pieces.len()) };
        let entries: Vec<Entry> = ledger.entries().cloned().collect();
        let replays = entries.chunks(STEP_ENTRIES).map(|c| Step::Replay(c.to_vec()));
        let last = [Step::Freeze, Step::ReceiveLocation(ledger.table), Step::Freeze, Step::Crash];
        calls.extend(replays.chain(last).map(Call::Step));
        calls.into()
    }
}

/// Both slots by whole reads, and the first end.
fn whole_slots() -> [Step; 5] {
    let asked = |which| Step::ReadSuperblock { which, id: which };
    let whole = |which| Step::SuperblockRead { which, id: which, whole: true };
    [asked(0), asked(1), whole(0), whole(1), Step::FinishSuperblocks]
}

/// A load of these pieces by whole reads.
fn whole_reads(pieces: &[u64]) -> Vec<Call> {
    let piece =
        |&which: &u64| [Step::ReadJournal { which, id: which }, Step::JournalRead { id: which, whole: true }];
    let pieces = pieces.iter().flat_map(piece);
    whole_slots().into_iter().chain(pieces).chain([Step::FinishJournal]).map(Call::Step).collect()
}

/// The line, now and then with other blanks and capital digits.
pub fn spelled(rng: &mut Rng, line: String) -> String {
    if !rng.one_in(50) {
        return line;
    }
    let blank = rng.of(&["  ", "\t", "\x0c ", " \r"]);
    let (word, rest) = line.split_once(' ').unwrap_or((&line, ""));
    format!("{blank}{word}{blank}{}{blank}", rest.replace(' ', blank).to_uppercase())
}

/// Lines that aren't steps.
const NONSENSE: &[&str] = &[
    "",
    "brew",
    "wj",
    "wj 1 2 3",
    "aj",
    "rs 0",
    "rs 0 1 2",
    "as 1",
    "f1 1",
    "crash 0",
    "add 4",
    "add 4g",
    "replay 123",
    "push -1",
    "push 18446744073709551616",
    "pop x",
    "land",
    "again",
    "loc 40960",
    "cl +1",
    "noop noop",
    "freeze 1",
    "Add 41",
    "disk 8 4096",
    "drive 0",
    "drive drive",
    "Drive",
];

/// Lines that say what a block holds, on any disk, but not behind its first step.
const LATE: &[&str] = &["block 0 41", "block 0 00", "block 0"];

impl Iterator for Day {
    type Item = String;

    fn next(&mut self) -> Option<String> {
        if let Some(first) = self.first.pop_front() {
            return Some(first);
        }
        let scripted = self.script.pop_front();
        let showing = scripted.is_some();
        let call = match scripted {
            Some(call) => call,
            None => {
                self.left = self.left.checked_sub(1)?;
                // More often as the second line: there a block line is late by one step.
                let seldom = if self.left + 2 == self.options.steps { 10 } else { 300 };
                if self.rng.one_in(seldom) {
                    return Some(self.nonsense());
                }
                if self.rng.one_in(1000) {
                    // The longest line that is a step, or one byte more.
                    let len = LONGEST_LINE + self.rng.below(2) as usize;
                    return Some(format!("{:len$}", "noop"));
                }
                self.choose()
            }
        };
        self.begun = true;
        let (step, result) = call.take(&mut self.store);
        let refused = result.is_err();
        if let Some(ledger) = &mut self.ledger {
            ledger.feed(&step, refused);
        }
        let crashed = !refused && step == Step::Crash;
        let stuck = refused && (call == Call::Drive || self.load == Load::Damaged);
        if crashed || stuck {
            self.load = load(&mut self.rng);
        }
        if self.options.ledger && !showing && crashed {
            self.script = self.ledger.clone().map(|l| self.showing(&l)).unwrap_or_default();
        }
        Some(spelled(&mut self.rng, call.to_string()))
    }
}
