//! What images meet, told from the rows that were printed of them, and of a day from its store at the end.

use crate::days::Rng;
use crate::image::{size, Image};
use crate::image_damage::{Damage, Subject, DAMAGES};
use crate::image_days::Played;
use crate::image_inputs::made;
use crate::layout::{Geometry, Interval};
use crate::machine::Phase;
use crate::range::{MAX_ENTRIES, MAX_ENTRY};
use crate::record::MOST_BLOCKS;

/// A disk for `record`: the file's bytes, and N and T as they are given.
pub struct Input {
    pub bytes: Vec<u8>,
    pub given: (u64, u64),
    pub day: Option<Played>,
    pub damage: Option<&'static Damage>,
}

impl Input {
    /// A random day's disk, or one that was put together.
    pub fn sound(seed: u64) -> Self {
        let rng = &mut Rng::new(seed ^ 0x12ec);
        let day = rng.one_in(2).then(|| Played::new(rng));
        let Image { geometry, bytes } = day.as_ref().map_or_else(|| made(rng), Played::image);
        Input { bytes, given: (geometry.n(), geometry.t()), day, damage: None }
    }

    /// A damaged disk: a damage, and the first disk that has a place for it, one in five a day's.
    pub fn damaged(seed: u64) -> Self {
        let rng = &mut Rng::new(seed ^ 0xda3a);
        let damage = &DAMAGES[rng.below(DAMAGES.len() as u64) as usize];
        loop {
            let day = rng.one_in(5).then(|| Played::new(rng).image()).and_then(Subject::new);
            let mut subject = day.unwrap_or_else(|| Subject::new(made(rng)).expect("it holds a record"));
            if damage.2(rng, &mut subject) {
                let Subject { image, given, .. } = subject;
                return Input { bytes: image.bytes, given, day: None, damage: Some(damage) };
            }
        }
    }

    /// What it is made of, in a few words.
    pub fn words(&self) -> String {
        match (&self.day, self.damage) {
            (Some(day), _) => format!("the disk of {}", day.words),
            (_, Some((name, ..))) => format!("damaged: {name}"),
            _ => "put together".into(),
        }
    }

    /// What is met with these rows.
    pub fn situations(&self, rows: &str) -> Vec<String> {
        let seen = Seen::new(self, rows);
        let rows = SITUATIONS.iter().filter(|(_, holds)| holds(&seen)).map(|(name, _)| name.to_string());
        let day = self.day.iter().flat_map(|day| DAYS.iter().filter(|(_, holds)| holds(day)));
        let damage = self.damage.map(|(name, ..)| format!("damage: {name}"));
        rows.chain(day.map(|(name, _)| format!("a day's disk: {name}"))).chain(damage).collect()
    }
}

/// Each situation that random images must meet.
pub fn situations() -> Vec<String> {
    let rows = SITUATIONS.iter().map(|(name, _)| name.to_string());
    let days = DAYS.iter().map(|(name, _)| format!("a day's disk: {name}"));
    let damages = DAMAGES.iter().map(|(name, ..)| format!("damage: {name}"));
    rows.chain(days).chain(damages).collect()
}

/// A range's row: its first block, its blocks, its entries.
type Range = [u64; 3];

/// What the rows say.
pub struct Seen<'a> {
    n: u64,
    t: u64,
    behind: bool,
    /// Each slot's refusal or 0, and its numbers where they are there.
    slots: Vec<(u64, Option<[u64; 5]>)>,
    /// The slot, and why.
    selected: Option<(usize, &'a str)>,
    pieces: usize,
    ranges: Vec<Range>,
    entries: Vec<&'a str>,
    /// The row of the refusal, or of the record.
    refused: Option<u64>,
    record: Option<u64>,
}

impl<'a> Seen<'a> {
    fn new(input: &Input, rows: &'a str) -> Self {
        let (n, t) = input.given;
        let behind = Geometry::new(n, t).is_some_and(|g| input.bytes.len() > size(g));
        let mut seen = Seen {
            n,
            t,
            behind,
            slots: vec![],
            selected: None,
            pieces: 0,
            ranges: vec![],
            entries: vec![],
            refused: None,
            record: None,
        };
        rows.lines().for_each(|row| seen.row(row));
        seen
    }

    fn row(&mut self, row: &'a str) {
        let (word, rest) = row.split_once(' ').unwrap_or((row, ""));
        // Bytes of entries may look like numbers, or be none.
        let numbers = || rest.split(' ').map_while(|word| word.parse().ok()).collect::<Vec<u64>>();
        match word {
            "slot" => self.slots.push((numbers()[1], numbers()[2..].try_into().ok())),
            "selected" => {
                self.selected = rest.split_once(": ").map(|(slot, why)| (slot.parse().unwrap_or(0), why))
            }
            "front" | "back" => self.pieces += 1,
            "range" => self.ranges.extend(<Range>::try_from(numbers())),
            "entry" => self.entries.push(rest.rsplit_once(' ').unwrap_or_default().1),
            "refused" => self.refused = numbers().first().copied(),
            _ => self.record = numbers().first().copied(),
        }
    }

    /// A slot's refusal, 0 being none.
    fn slot(&self, slot: usize) -> Option<u64> {
        self.slots.get(slot - 1).map(|(refusal, _)| *refusal)
    }

    fn numbers(&self, slot: usize) -> Option<[u64; 5]> {
        self.slots.get(slot - 1).and_then(|(_, numbers)| *numbers)
    }

    fn chosen(&self) -> Option<[u64; 5]> {
        self.selected.and_then(|(slot, _)| self.numbers(slot))
    }

    fn is_selected(&self, slot: usize, why: &str) -> bool {
        self.selected.is_some_and(|(s, w)| s == slot && w.starts_with(why))
    }

    /// The selected journal of a disk that holds a record.
    fn journal(&self) -> Option<Interval> {
        self.chosen().filter(|_| self.record.is_some()).map(|[_, start, len, ..]| Interval::new(start, len))
    }

    fn refused_7(&self, slot: usize) -> bool {
        self.refused == Some(7) && self.selected.is_some_and(|(s, _)| s == slot)
    }

    fn table(&self, k: usize) -> bool {
        let tables = Geometry::new(self.n, self.t).map(Geometry::tables);
        self.record.is_some()
            && self.chosen().zip(tables).is_some_and(|([.., addr, _], tables)| addr == tables[k])
    }

    fn counters(&self) -> Option<[u64; 2]> {
        Some([self.numbers(1)?[0], self.numbers(2)?[0]]).filter(|_| self.selected.is_some())
    }

    /// Some range of the record.
    fn range(&self, holds: impl Fn(&Range) -> bool) -> bool {
        self.record.is_some() && self.ranges.iter().any(holds)
    }

    fn entry(&self, holds: impl Fn(&str) -> bool) -> bool {
        self.entries.iter().any(|digits| holds(digits))
    }
}

fn unread(refusal: Option<u64>) -> bool {
    refusal.is_some_and(|r| r >= 10)
}

type Situation = (&'static str, fn(&Seen) -> bool);

#[rustfmt::skip]
const SITUATIONS: &[Situation] = &[
    ("slot 1: 10", |s| s.slot(1) == Some(10)),
    ("slot 1: 11", |s| s.slot(1) == Some(11)),
    ("slot 1: 12", |s| s.slot(1) == Some(12)),
    ("slot 1: 2", |s| s.slot(1) == Some(2)),
    ("slot 2: 10", |s| s.slot(2) == Some(10)),
    ("slot 2: 11", |s| s.slot(2) == Some(11)),
    ("slot 2: 12", |s| s.slot(2) == Some(12)),
    ("slot 2: 2", |s| s.slot(2) == Some(2)),
    ("slot 2's 10, 11 or 12 beside slot 1's other one", |s| unread(s.slot(1)) && unread(s.slot(2)) && s.slot(1) != s.slot(2)),
    ("slot 2's 10, 11 or 12 beside slot 1's 2", |s| s.slot(1) == Some(2) && unread(s.slot(2))),
    ("slot 1's 10, 11 or 12 beside slot 2's 2", |s| unread(s.slot(1)) && s.slot(2) == Some(2)),
    ("both slots: 2", |s| s.slot(1) == Some(2) && s.slot(2) == Some(2)),
    ("refused 2", |s| s.refused == Some(2)),
    ("slot 1 selected, and a 7", |s| s.refused_7(1)),
    ("slot 2 selected, and a 7", |s| s.refused_7(2)),
    ("a 7 of a journal round the ring's end", |s| s.refused == Some(7) && s.pieces == 2),
    ("a 7 of a journal that is straight", |s| s.refused == Some(7) && s.pieces == 1),
    ("slot 2 selected: it follows", |s| s.is_selected(2, "its counter follows")),
    ("slot 1 selected: equal counters", |s| s.is_selected(1, "the counters")),
    ("slot 1 selected: it follows", |s| s.is_selected(1, "its counter follows")),
    ("slot 1 selected: neither follows", |s| s.is_selected(1, "neither")),
    ("counters 2^64 - 1 and 0", |s| s.counters() == Some([u64::MAX, 0])),
    ("counters 0 and 2^64 - 1", |s| s.counters() == Some([0, u64::MAX])),
    ("the larger counter isn't selected", |s| s.counters().is_some_and(|[a, b]| (a < b) != s.is_selected(2, "") && a != b)),
    ("a record by slot 1", |s| s.record.is_some() && s.is_selected(1, "")),
    ("a record by slot 2", |s| s.record.is_some() && s.is_selected(2, "")),
    ("a journal of no blocks", |s| s.journal().is_some_and(|i| i.len == 0)),
    ("a journal of no blocks, not at block 0", |s| s.journal().is_some_and(|i| i.len == 0 && i.start > 0)),
    ("a straight journal", |s| s.journal().is_some_and(|i| i.len > 0) && s.pieces == 1),
    ("a straight journal up to the ring's end", |s| s.journal().is_some_and(|i| i.len > 0 && i.start + i.len == s.n)),
    ("a journal round the ring's end", |s| s.journal().is_some() && s.pieces == 2),
    ("a journal of all blocks, straight", |s| s.journal().is_some_and(|i| i.len == s.n) && s.pieces == 1),
    ("a journal of all blocks, round", |s| s.journal().is_some_and(|i| i.len == s.n) && s.pieces == 2),
    ("a journal of all blocks but one", |s| s.journal().is_some_and(|i| i.len + 1 == s.n)),
    ("table 1", |s| s.table(0)),
    ("table 2", |s| s.table(1)),
    ("a range over the ring's end", |s| s.range(|[first, blocks, _]| first + blocks > s.n)),
    ("a range from block 0 on, behind others", |s| s.ranges.iter().skip(1).any(|[first, ..]| *first == 0)),
    ("a range of several blocks", |s| s.range(|[_, blocks, _]| *blocks > 1)),
    ("a range of 17 blocks or more", |s| s.range(|[_, blocks, _]| *blocks > 16)),
    ("several ranges", |s| s.record.is_some() && s.ranges.len() > 1),
    ("a range of one entry", |s| s.range(|[_, _, entries]| *entries == 1)),
    ("a range of 1,024 entries", |s| s.range(|[_, _, entries]| *entries == MAX_ENTRIES as u64)),
    ("more than 1,024 entries", |s| s.record.is_some_and(|count| count > MAX_ENTRIES as u64)),
    ("an entry of 1 byte", |s| s.entry(|digits| digits.len() == 2)),
    ("an entry of 255 bytes", |s| s.entry(|digits| digits.len() == 2 * MAX_ENTRY)),
    ("a blank entry", |s| s.entry(|digits| digits.bytes().all(|d| d == b'0'))),
    ("N = 1", |s| s.n == 1 && s.record.is_some()),
    ("N = 1 and a block", |s| s.n == 1 && s.record.is_some_and(|count| count > 0)),
    ("N of 17 to 40", |s| (17..=40).contains(&s.n) && s.record.is_some()),
    ("N above 40", |s| s.n > 40 && s.record.is_some()),
    ("N = 256", |s| s.n == MOST_BLOCKS && s.record.is_some()),
    ("T = 1", |s| s.t == 1 && s.record.is_some()),
    ("T = 16,777,216", |s| s.t == 16_777_216 && s.record.is_some()),
    ("bytes behind the journal", |s| s.behind && s.record.is_some()),
    ("a file that is too short", |s| s.slots.is_empty()),
];

fn ready(day: &Played, holds: impl Fn(&crate::machine::Ready) -> bool) -> bool {
    matches!(&day.store.machine.phase, Phase::Ready(ready) if holds(ready))
}

/// Is a superblock in flight that has landed, or one that hasn't?
fn in_flight(day: &Played, landed: bool) -> bool {
    let disk = &day.store.disk;
    let mut writes = disk.superblock_writes.iter().zip(disk.slots);
    writes.any(|(write, slot)| write.is_some_and(|(_, new)| (Some(new) == slot) == landed))
}

fn kept(day: &Played) -> bool {
    day.ledger.as_ref().is_some_and(|ledger| !ledger.is_empty())
}

type AtTheEnd = (&'static str, fn(&Played) -> bool);

#[rustfmt::skip]
const DAYS: &[AtTheEnd] = &[
    ("entries kept", kept),
    ("entries kept, a journal write in flight", |d| kept(d) && !d.store.disk.journal_writes.is_empty()),
    ("entries kept, a superblock in flight", |d| kept(d) && in_flight(d, false)),
    ("entries kept, a superblock that has landed in flight", |d| kept(d) && in_flight(d, true)),
    ("entries kept, others in memory or frozen", |d| kept(d) && ready(d, |r| r.pending().next().is_some())),
    ("entries kept, others written behind them", |d| kept(d) && ready(d, |r| r.written > r.superblock.len)),
    ("entries kept, to be replayed", |d| kept(d) && ready(d, |r| !r.replay_left().is_empty())),
    ("entries kept, while it loads or behind a crash", |d| kept(d) && !ready(d, |_| true)),
    ("nothing kept", |d| d.ledger.as_ref().is_some_and(|ledger| ledger.is_empty())),
    ("it can't be loaded", |d| d.ledger.is_none()),
];
