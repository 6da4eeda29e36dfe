//! Random first disks that were written before: ranges with blank entries among others, as stores took them
//! before document 02's S-6, damaged ones, and whatever other blocks may hold.

use crate::days::{spelled, Rng};
use crate::disk::Journal;
use crate::layout::{Geometry, Interval, BLOCK};
use crate::range::{self, Entry};
use crate::superblock::Superblock;
use crate::text::block_line;

/// Lines that are neither steps nor blocks, whatever the disk and wherever they stand.
pub const NOT_BLOCKS: &[&str] =
    &["block", "block 32", "block 0 4", "block 0 41 42", "block 0 4x", "block -1 41", "Block 0 41"];

/// Zeros but for one byte.
pub fn nearly_blank(rng: &mut Rng, len: usize) -> Entry {
    let mut entry = vec![0; len];
    entry[rng.below(len as u64) as usize] = 1 + rng.below(255) as u8;
    entry
}

/// One in three blank, one in six nearly.
pub(crate) fn entry(rng: &mut Rng, len: usize) -> Entry {
    match rng.below(6) {
        0 | 1 => vec![0; len],
        2 => nearly_blank(rng, len),
        _ => rng.bytes(len),
    }
}

/// A few entries, now and then as many as take two or three blocks.
fn entries(rng: &mut Rng) -> Vec<Entry> {
    if rng.one_in(3) {
        return (0..16 + rng.below(24)).map(|_| entry(rng, range::MAX_ENTRY)).collect();
    }
    let mut short = || {
        let len = rng.of(&[1, 1, 2, 3, 8, 100, range::MAX_ENTRY]);
        entry(rng, len)
    };
    let first = short();
    [first].into_iter().chain((0..5).map(|_| short())).collect()
}

/// Ranges back to back, of one block to `room` blocks.
fn ranges(rng: &mut Rng, room: u64) -> Vec<u8> {
    let len = rng.of(&[1, 9, range::MAX_ENTRY]);
    let mut bytes = range::write(&[entry(rng, len)]);
    for _ in 0..rng.below(5) {
        let next = range::write(&entries(rng));
        if bytes.len() + next.len() <= room as usize * BLOCK {
            bytes.extend(next);
        }
    }
    bytes
}

/// One journal in three has a byte turned, mostly where a range begins, or a block that can't be read.
fn damage(rng: &mut Rng, g: Geometry, stored: Interval, journal: &mut Journal) {
    if !rng.one_in(3) {
        return;
    }
    let block = g.advance(stored.start, rng.below(stored.len)) as usize;
    let at = match rng.below(5) {
        0 => return journal.marks[block] = false,
        1 => BLOCK as u64 - 1,
        2 => rng.below(BLOCK as u64),
        _ => rng.below(8),
    };
    journal.blocks[block][at as usize] ^= 1 << rng.below(8);
}

/// What lies outside of the selected journal: another range, other bytes, or zeros.
fn elsewhere(rng: &mut Rng) -> Vec<u8> {
    match rng.below(3) {
        0 => range::write(&[entry(rng, 3)]),
        1 => rng.bytes(9),
        _ => vec![],
    }
}

/// A line for each readable block, now and then two, or one that isn't a block's.
fn lines(rng: &mut Rng, journal: &Journal) -> Vec<String> {
    let mut lines = vec![];
    let (n, first) = (journal.marks.len(), rng.below(journal.marks.len() as u64) as usize);
    for block in (first..n).chain(0..first).filter(|k| journal.marks[*k]) {
        let bytes = &journal.blocks[block][..];
        let used = bytes.iter().rposition(|b| *b != 0).map_or(0, |last| last + 1);
        if rng.one_in(8) {
            lines.push(block_line(block, &elsewhere(rng)));
        }
        if rng.one_in(20) {
            lines.push(rng.of(NOT_BLOCKS).to_string());
        }
        let line = block_line(block, if rng.one_in(8) { bytes } else { &bytes[..used] });
        lines.push(spelled(rng, line));
    }
    lines
}

/// Gives the selected superblock a journal that isn't empty; the lines that say what the blocks hold.
pub fn blocks(rng: &mut Rng, g: Geometry, slots: &mut [Superblock; 2]) -> Vec<String> {
    let room = 1 + rng.below(g.n());
    let bytes = ranges(rng, room);
    let selected = &mut slots[Superblock::select(slots)];
    selected.len = (bytes.len() / BLOCK) as u64;
    if rng.one_in(2) {
        // It often goes round the ring's end then.
        selected.start = g.n() - 1 - rng.below(g.n().min(3));
    }
    let (stored, mut journal) = (selected.journal(), Journal::empty(g));
    journal.splice(g, stored, &bytes);
    damage(rng, g, stored, &mut journal);
    for block in (0..g.n()).filter(|block| !g.contains(stored, *block)) {
        if rng.one_in(4) {
            journal.put(block as usize, &elsewhere(rng));
        }
    }
    lines(rng, &journal)
}
