//! What can befall a disk that holds a record: each damage by its name, with the answers that are right for it.

use std::ops::Range;

use crate::days::Rng;
use crate::image::{block, size, slot, Image};
use crate::image_inputs::put;
use crate::layout::{Geometry, BLOCK};
use crate::range::{self, Entry};
use crate::record::MOST_BLOCKS;
use crate::sector::{self, BODIES, CONTENTS, END, SECTOR};
use crate::superblock::Superblock;

/// The answer to a file that is too short: no refusal, a line.
pub const SHORT: u8 = 255;

/// A disk that holds a record, and what is known of it.
#[derive(Clone)]
pub struct Subject {
    pub image: Image,
    /// N and T as they will be given.
    pub given: (u64, u64),
    slots: [Superblock; 2],
    selected: usize,
    /// Each range's first block and entries.
    ranges: Vec<(u64, Vec<Entry>)>,
}

/// Its name, the answers that are right for it (0: a record, perhaps another), and how it is done; false where this disk
/// has no place for it.
pub type Damage = (&'static str, &'static [u8], fn(&mut Rng, &mut Subject) -> bool);

#[rustfmt::skip]
pub const DAMAGES: &[Damage] = &[
    ("a byte altered anywhere", &[0, 7, 10, 11, 12], |r, s| { let all = 0..s.image.bytes.len(); s.alter(r, all) }),
    // A slot.
    ("a slot's contents altered", &[10], |r, s| s.alter_slot(r, 0..CONTENTS)),
    ("a slot's gap altered", &[11], |r, s| s.alter_slot(r, CONTENTS..BODIES)),
    ("one of a slot's five numbers altered", &[12], |r, s| s.alter_slot(r, BODIES..END - 8)),
    ("a slot's check number altered", &[12], |r, s| s.alter_slot(r, END - 8..END)),
    ("a byte behind a slot's bodies altered", &[11], |r, s| s.alter_slot(r, END..SECTOR)),
    ("a slot zeroed", &[10], |r, s| { let k = either(r); s.fill(slot(k)) }),
    ("a block's bytes in a slot", &[10], block_in_slot),
    ("the slots exchanged", &[0, 7], |_, s| { let [one, two] = s.slots; s.put(0, two) && s.put(1, one) }),
    ("one superblock in both slots", &[0, 7], |r, s| { let k = either(r); let same = s.slots[k]; s.put(1 - k, same) }),
    // Both slots: the order of the refusals counts.
    ("both slots damaged", &[10, 11, 12], |r, s| s.damage_slot(r, 0) && s.damage_slot(r, 1)),
    ("slot 1 ill-formed, slot 2 damaged", &[10, 11, 12], |r, s| s.spoil(r, 0) && s.damage_slot(r, 1)),
    ("slot 1 damaged, slot 2 ill-formed", &[10, 11, 12], |r, s| s.damage_slot(r, 0) && s.spoil(r, 1)),
    ("both slots ill-formed", &[2], |r, s| s.spoil(r, 0) && s.spoil(r, 1)),
    // An ill-formed superblock, its check number right.
    ("a start of N", &[2], |r, s| { let n = s.n(); s.renumber(r, |b| b.start = n) }),
    ("a start far above N", &[2], |r, s| { let start = r.of(&[1 << 32, u64::MAX, s.n() + 1]); s.renumber(r, |b| b.start = start) }),
    ("a length of N + 1", &[2], |r, s| { let n = s.n(); s.renumber(r, |b| b.len = n + 1) }),
    ("a length far above N", &[2], |r, s| { let len = r.of(&[1 << 32, u64::MAX]); s.renumber(r, |b| b.len = len) }),
    ("a table elsewhere", &[2], table_elsewhere),
    ("a table of no bytes", &[2], |r, s| s.renumber(r, |b| b.table.len = 0)),
    ("a table of T + 1 bytes", &[2], |r, s| { let t = s.image.geometry.t(); s.renumber(r, |b| b.table.len = t + 1) }),
    // Another journal, well formed.
    ("the journal a block further", &[0, 7], |_, s| { let n = s.n(); n > 1 && s.renumber_selected(|b| b.start = (b.start + 1) % n) }),
    ("the journal a block back", &[0, 7], |_, s| { let n = s.n(); n > 1 && s.renumber_selected(|b| b.start = (b.start + n - 1) % n) }),
    ("the journal a block longer", &[0, 7], |_, s| s.len() < s.n() && s.renumber_selected(|b| b.len += 1)),
    ("the journal a block shorter", &[0, 7], |_, s| s.len() > 0 && s.renumber_selected(|b| b.len -= 1)),
    ("the other slot selected", &[0, 7], other_selected),
    // A range.
    ("a block count one more", &[7], |r, s| s.header(r, |b, e| (b + 1, e))),
    ("a block count one less", &[7], |r, s| s.header(r, |b, e| (b - 1, e))),
    ("a block count altered", &[7], |r, s| { let by = 1 + r.below(65_535) as u16; s.header(r, |b, e| (b ^ by, e)) }),
    ("an entry count one off", &[0, 7], |r, s| { let by = r.of(&[1, u16::MAX]); s.header(r, |b, e| (b, e.wrapping_add(by))) }),
    ("an entry count of 0", &[7], |r, s| s.header(r, |b, _| (b, 0))),
    ("an entry count above 1,024", &[7], |r, s| { let e = r.of(&[1025, 2048, 32_769, u16::MAX]); s.header(r, |b, _| (b, e)) }),
    ("a length altered", &[0, 7], |r, s| s.in_range(r, |r, entries| Some(4 + any(r, entries.len())))),
    ("a length of 0", &[7], length_of_0),
    ("two lengths exchanged", &[0], lengths_exchanged),
    ("a body altered", &[0], |r, s| s.in_range(r, |r, e| Some(4 + e.len() + any(r, bodies(e))))),
    ("padding altered", &[7], |r, s| s.in_range(r, padding)),
    ("a needless block", &[7], needless_block),
    ("a range's first block zeroed", &[7], |r, s| { let first = s.range(r).map(|(first, _)| first as usize); first.is_some_and(|k| s.fill(block(k))) }),
    // Blocks.
    ("a block of the journal zeroed", &[0, 7], |r, s| s.inside(r).is_some_and(|k| s.fill(block(k)))),
    ("two blocks of the journal exchanged", &[0, 7], |r, s| { let pair = (s.inside(r), s.inside(r)); s.exchange(pair) }),
    ("a block exchanged with one outside", &[0, 7], |r, s| { let pair = (s.inside(r), s.outside(r)); s.exchange(pair) }),
    ("a block outside of the journal altered", &[0], |r, s| s.outside(r).is_some_and(|k| s.alter(r, block(k)))),
    ("the ring a block further", &[0, 7], |_, s| { let ring = block(0).start..size(s.image.geometry); s.n() > 1 && { s.image.bytes[ring].rotate_right(BLOCK); true } }),
    ("a byte behind the journal altered", &[0], |r, s| { let (from, to) = (size(s.image.geometry), s.image.bytes.len()); from < to && s.alter(r, from..to) }),
    // The file's length.
    ("all behind the journal cut", &[0], |_, s| { let len = size(s.image.geometry); s.cut(len) }),
    ("the journal's last byte cut", &[SHORT], |_, s| { let len = size(s.image.geometry) - 1; s.cut(len) }),
    ("blocks cut", &[SHORT], |r, s| { let k = any(r, s.n() as usize); s.cut(block(k).start) }),
    ("cut within the journal", &[SHORT], |r, s| { let len = block(0).start + any(r, s.n() as usize * BLOCK); s.cut(len) }),
    ("cut within the slots", &[SHORT], |r, s| { let len = any(r, 2 * SECTOR); s.cut(len) }),
    ("no byte left", &[SHORT], |_, s| s.cut(0)),
    // Other sizes than the disk was made with.
    ("N one more than the disk's", &[0, 2, 7, SHORT], |_, s| { s.given.0 += 1; s.given.0 <= MOST_BLOCKS }),
    ("N one less than the disk's", &[0, 2, 7], |_, s| { s.given.0 -= 1; s.given.0 > 0 }),
    ("another N than the disk's", &[0, 2, 7, SHORT], |r, s| { s.given.0 = 1 + r.below(40); s.given.0 != s.n() }),
    ("another T than the disk's", &[0, 2], another_t),
];

fn any(rng: &mut Rng, below: usize) -> usize {
    rng.below(below as u64) as usize
}

fn either(rng: &mut Rng) -> usize {
    any(rng, 2)
}

/// How many bytes the bodies have.
fn bodies(entries: &[Entry]) -> usize {
    entries.iter().map(Vec::len).sum()
}

impl Subject {
    /// None where the disk holds no record.
    pub fn new(image: Image) -> Option<Self> {
        let g = image.geometry;
        let [Ok(one), Ok(two)] = [0, 1].map(|k| sector::read(&image.bytes[slot(k)])) else { return None };
        let slots = [one, two];
        if slots.iter().any(|superblock| !superblock.well_formed(g)) {
            return None;
        }
        let selected = Superblock::select(&slots);
        let mut first = slots[selected].start;
        let ranges =
            range::read_ranges(&image.journal(slots[selected].journal()))?.into_iter().map(|entries| {
                let here = first;
                first = g.advance(first, range::blocks(&entries) as u64);
                (here, entries)
            });
        let ranges = ranges.collect();
        Some(Subject { given: (g.n(), g.t()), image, slots, selected, ranges })
    }

    fn n(&self) -> u64 {
        self.image.geometry.n()
    }

    fn len(&self) -> u64 {
        self.slots[self.selected].len
    }

    /// A byte becomes another.
    fn alter(&mut self, rng: &mut Rng, range: Range<usize>) -> bool {
        let at = range.start + any(rng, range.len());
        self.image.bytes[at] ^= 1 + rng.below(255) as u8;
        true
    }

    fn fill(&mut self, range: Range<usize>) -> bool {
        self.image.bytes[range].fill(0);
        true
    }

    fn cut(&mut self, len: usize) -> bool {
        let shorter = len < self.image.bytes.len();
        self.image.bytes.truncate(len);
        shorter
    }

    fn put(&mut self, k: usize, superblock: Superblock) -> bool {
        put(&mut self.image, k, &superblock);
        true
    }

    /// A byte of a slot, from its sector's beginning on.
    fn alter_slot(&mut self, rng: &mut Rng, range: Range<usize>) -> bool {
        let from = slot(either(rng)).start;
        self.alter(rng, from + range.start..from + range.end)
    }

    /// A byte of this slot, contents, zeros and bodies in turn.
    fn damage_slot(&mut self, rng: &mut Rng, k: usize) -> bool {
        let part = rng.of(&[(0, CONTENTS), (CONTENTS, BODIES), (BODIES, END), (END, SECTOR)]);
        let from = slot(k).start;
        self.alter(rng, from + part.0..from + part.1)
    }

    /// Other numbers in a slot, the check number right.
    fn renumber(&mut self, rng: &mut Rng, change: impl FnOnce(&mut Superblock)) -> bool {
        let k = either(rng);
        let mut superblock = self.slots[k];
        change(&mut superblock);
        self.put(k, superblock)
    }

    fn renumber_selected(&mut self, change: impl FnOnce(&mut Superblock)) -> bool {
        let mut superblock = self.slots[self.selected];
        change(&mut superblock);
        self.put(self.selected, superblock)
    }

    /// Makes a slot's superblock ill-formed.
    fn spoil(&mut self, rng: &mut Rng, k: usize) -> bool {
        let (n, t, mut superblock) = (self.n(), self.image.geometry.t(), self.slots[k]);
        match rng.below(5) {
            0 => superblock.start = n,
            1 => superblock.len = n + 1,
            2 => superblock.table.addr ^= 1 << 40,
            3 => superblock.table.len = 0,
            _ => superblock.table.len = t + 1,
        }
        self.put(k, superblock)
    }

    /// One of the ranges.
    fn range(&self, rng: &mut Rng) -> Option<(u64, &[Entry])> {
        let k = (!self.ranges.is_empty()).then(|| any(rng, self.ranges.len()))?;
        Some((self.ranges[k].0, &self.ranges[k].1))
    }

    /// Where a byte of a range lies that begins with this block.
    fn place(&self, first: u64, at: usize) -> usize {
        let k = self.image.geometry.advance(first, (at / BLOCK) as u64);
        block(k as usize).start + at % BLOCK
    }

    /// Alters a byte of a range, counted from its beginning.
    fn in_range(&mut self, rng: &mut Rng, byte: fn(&mut Rng, &[Entry]) -> Option<usize>) -> bool {
        let at = self.range(rng).and_then(|(first, entries)| Some(self.place(first, byte(rng, entries)?)));
        at.is_some_and(|at| self.alter(rng, at..at + 1))
    }

    /// Another block count and entry count.
    fn header(&mut self, rng: &mut Rng, change: impl FnOnce(u16, u16) -> (u16, u16)) -> bool {
        let Some((first, entries)) = self.range(rng) else { return false };
        let (blocks, count) = change(range::blocks(entries) as u16, entries.len() as u16);
        self.set_header(first, blocks, count)
    }

    fn set_header(&mut self, first: u64, blocks: u16, count: u16) -> bool {
        let at = self.place(first, 0);
        self.image.bytes[at..at + 4].copy_from_slice(&[blocks.to_le_bytes(), count.to_le_bytes()].concat());
        true
    }

    /// A block of the journal, or one that isn't.
    fn inside(&self, rng: &mut Rng) -> Option<usize> {
        self.one_of(rng, true)
    }

    fn outside(&self, rng: &mut Rng) -> Option<usize> {
        self.one_of(rng, false)
    }

    fn one_of(&self, rng: &mut Rng, inside: bool) -> Option<usize> {
        let (g, journal) = (self.image.geometry, self.slots[self.selected].journal());
        let blocks: Vec<u64> = (0..g.n()).filter(|k| g.contains(journal, *k) == inside).collect();
        (!blocks.is_empty()).then(|| rng.of(&blocks) as usize)
    }

    fn exchange(&mut self, blocks: (Option<usize>, Option<usize>)) -> bool {
        let (Some(one), Some(two)) = blocks else { return false };
        let held = [one, two].map(|k| self.image.bytes[block(k)].to_vec());
        self.image.bytes[block(one)].copy_from_slice(&held[1]);
        self.image.bytes[block(two)].copy_from_slice(&held[0]);
        held[0] != held[1]
    }
}

fn block_in_slot(rng: &mut Rng, s: &mut Subject) -> bool {
    let (k, from) = (either(rng), block(any(rng, s.n() as usize)));
    s.image.bytes.copy_within(from, slot(k).start);
    true
}

/// Neither table: a slot's or a block's address, one beside a table, the end of table 2.
fn table_elsewhere(rng: &mut Rng, s: &mut Subject) -> bool {
    let tables @ [one, two] = s.image.geometry.tables();
    let addr =
        rng.of(&[0, 4096, 8192, one - 1, one + 1, two - 1, two + 1, two + s.image.geometry.t(), u64::MAX]);
    !tables.contains(&addr) && s.renumber(rng, |b| b.table.addr = addr)
}

/// Slot 2's counter comes to follow slot 1's, or no longer does.
fn other_selected(rng: &mut Rng, s: &mut Subject) -> bool {
    let [one, mut two] = s.slots;
    two.counter = match s.selected {
        0 => one.next_counter(),
        _ => one.counter.wrapping_sub(rng.below(3)),
    };
    s.put(1, two)
}

fn length_of_0(rng: &mut Rng, s: &mut Subject) -> bool {
    let at = s.range(rng).map(|(first, entries)| s.place(first, 4 + any(rng, entries.len())));
    at.is_some_and(|at| s.fill(at..at + 1))
}

/// The sum stays: other entries.
fn lengths_exchanged(rng: &mut Rng, s: &mut Subject) -> bool {
    let Some((first, entries)) = s.range(rng) else { return false };
    let pair = [(); 2].map(|()| s.place(first, 4 + any(rng, entries.len())));
    let differ = s.image.bytes[pair[0]] != s.image.bytes[pair[1]];
    s.image.bytes.swap(pair[0], pair[1]);
    differ
}

/// The first zero behind the bodies, the last, or any.
fn padding(rng: &mut Rng, entries: &[Entry]) -> Option<usize> {
    let (used, end) = (4 + entries.len() + bodies(entries), range::blocks(entries) * BLOCK);
    let any = |rng: &mut Rng| used + any(rng, end - used);
    (used < end).then(|| match rng.below(3) {
        0 => used,
        1 => end - 1,
        _ => any(rng),
    })
}

/// The last range counts a block of zeros behind it, and so does the journal.
fn needless_block(_: &mut Rng, s: &mut Subject) -> bool {
    let Some((first, entries)) = s.ranges.last().filter(|_| s.len() < s.n()) else { return false };
    let (first, blocks, count) = (*first, range::blocks(entries) as u16, entries.len() as u16);
    let next = s.image.geometry.next_start(s.slots[s.selected].journal());
    s.set_header(first, blocks + 1, count)
        && s.fill(block(next as usize))
        && s.renumber_selected(|b| b.len += 1)
}

fn another_t(rng: &mut Rng, s: &mut Subject) -> bool {
    let t = s.given.1;
    let any = 1 + rng.below(16_777_216);
    s.given.1 = rng.of(&[1, t - 1, t + 1, 4096, 16_777_216, any]);
    s.given.1 != t && Geometry::new(s.n(), s.given.1).is_some()
}
